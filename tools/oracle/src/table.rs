//! A node table and its pool as a message of the crate, by reflection, node after node.
//!
//! What is replaced is left to the crate: a singular field is set again, a map key inserted again.
//! This is no check of the table: what can't be followed gives `None`.

use protobuf::reflect::{
    FieldDescriptor, MessageDescriptor, ReflectValueBox, RuntimeFieldType, RuntimeType,
};
use protobuf::MessageDyn;

use crate::descriptors::Descriptors;

const NODE_WORDS: usize = 5;
const KIND_UNKNOWN_U32: u32 = 11;
const KIND_UNKNOWN_U64: u32 = 12;
const KIND_UNKNOWN_BYTES: u32 = 13;

struct Node {
    kind: u32,
    field: u32,
    high: u32,
    low: u32,
    end: usize,
}

pub struct Table<'a> {
    pub descriptors: &'a Descriptors,
    pub words: &'a [u32],
    pub pool: &'a [u8],
}

impl Table<'_> {
    pub fn message(&self, root: usize) -> Option<Box<dyn MessageDyn>> {
        self.body(0, root)
    }

    fn node(&self, index: usize) -> Option<Node> {
        let words = self.words.get(index * NODE_WORDS..(index + 1) * NODE_WORDS)?;
        let end = usize::try_from(words[4]).ok()?;
        (end > index).then_some(Node {
            kind: words[0],
            field: words[1],
            high: words[2],
            low: words[3],
            end,
        })
    }

    /// The message that stands under node `index`.
    fn body(&self, index: usize, message_index: usize) -> Option<Box<dyn MessageDyn>> {
        let descriptor = self.descriptors.message(message_index)?;
        let mut message = descriptor.new_instance();
        let end = self.node(index)?.end;
        let mut child = index + 1;
        while child < end {
            let node = self.node(child)?;
            if node.kind >= KIND_UNKNOWN_U32 {
                self.add_unknown(&mut *message, &node)?;
            } else {
                self.add_known(&mut *message, descriptor, message_index, child)?;
            }
            child = node.end;
        }
        Some(message)
    }

    fn add_unknown(&self, message: &mut dyn MessageDyn, node: &Node) -> Option<()> {
        let unknown = message.mut_unknown_fields_dyn();
        match node.kind {
            KIND_UNKNOWN_U32 => unknown.add_fixed32(node.field, node.low),
            KIND_UNKNOWN_U64 => unknown.add_fixed64(node.field, number(node)),
            KIND_UNKNOWN_BYTES => unknown.add_length_delimited(node.field, self.bytes(node)?),
            _ => return None,
        }
        Some(())
    }

    fn add_known(
        &self,
        message: &mut dyn MessageDyn,
        descriptor: &MessageDescriptor,
        message_index: usize,
        index: usize,
    ) -> Option<()> {
        let schema = &self.descriptors.schema;
        let first = schema.messages[message_index].first;
        let record = usize::try_from(self.node(index)?.field).ok()?;
        let place = record.checked_sub(first)?;
        let field: FieldDescriptor = descriptor.fields().nth(place)?;
        let reference = schema.fields.get(record)?.reference;
        match field.runtime_field_type() {
            RuntimeFieldType::Singular(t) => {
                field.set_singular_field(message, self.value(&t, index, reference)?);
            }
            RuntimeFieldType::Repeated(t) => {
                field.mut_repeated(message).push(self.value(&t, index, reference)?);
            }
            RuntimeFieldType::Map(k, v) => {
                let (key, value) = self.entry(index, &k, &v, reference)?;
                field.mut_map(message).insert(key, value);
            }
        }
        Some(())
    }

    /// An entry has two children: field 0 is the key, field 1 the value.
    fn entry(
        &self,
        index: usize,
        key_type: &RuntimeType,
        value_type: &RuntimeType,
        reference: usize,
    ) -> Option<(ReflectValueBox, ReflectValueBox)> {
        let first = index + 1;
        let second = self.node(first)?.end;
        let (key, value) =
            if self.node(first)?.field == 0 { (first, second) } else { (second, first) };
        Some((self.value(key_type, key, 0)?, self.value(value_type, value, reference)?))
    }

    fn value(&self, t: &RuntimeType, index: usize, reference: usize) -> Option<ReflectValueBox> {
        let node = self.node(index)?;
        Some(match t {
            RuntimeType::I32 => ReflectValueBox::I32(node.low as i32),
            RuntimeType::I64 => ReflectValueBox::I64(number(&node) as i64),
            RuntimeType::U32 => ReflectValueBox::U32(node.low),
            RuntimeType::U64 => ReflectValueBox::U64(number(&node)),
            RuntimeType::Bool => ReflectValueBox::Bool(node.low != 0),
            RuntimeType::String => {
                ReflectValueBox::String(String::from_utf8(self.bytes(&node)?).ok()?)
            }
            RuntimeType::VecU8 => ReflectValueBox::Bytes(self.bytes(&node)?),
            RuntimeType::Enum(d) => ReflectValueBox::Enum(d.clone(), node.low as i32),
            RuntimeType::Message(_) => ReflectValueBox::Message(self.body(index, reference)?),
            RuntimeType::F32 | RuntimeType::F64 => return None,
        })
    }

    fn bytes(&self, node: &Node) -> Option<Vec<u8>> {
        let start = usize::try_from(node.high).ok()?;
        let length = usize::try_from(node.low).ok()?;
        self.pool.get(start..start.checked_add(length)?).map(<[u8]>::to_vec)
    }
}

fn number(node: &Node) -> u64 {
    u64::from(node.high) << 32 | u64::from(node.low)
}
