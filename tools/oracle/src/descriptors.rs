//! A schema as descriptors of the crate: one proto2 file, message N named `MN`, enum N inside a
//! message `EN`.
//!
//! Names that the image doesn't give (messages, enums, map entries) can't clash with each other,
//! and the ones it gives stand inside them: a field in its message, an enum's values in a message
//! of their own.

use protobuf::descriptor::field_descriptor_proto::{Label, Type};
use protobuf::descriptor::{
    DescriptorProto, EnumDescriptorProto, EnumValueDescriptorProto, FieldDescriptorProto,
    FileDescriptorProto, MessageOptions,
};
use protobuf::reflect::{FileDescriptor, MessageDescriptor};
use protobuf::MessageField;

use crate::image::{
    Field, Schema, Span, LABEL_MAP, LABEL_REPEATED, LABEL_REQUIRED, TYPE_ENUM, TYPE_MESSAGE,
};

const ENUM_NAME: &str = "Values";

pub struct Descriptors {
    pub schema: Schema,
    messages: Vec<MessageDescriptor>,
}

impl Descriptors {
    pub fn new(schema: Schema) -> Option<Descriptors> {
        let file = FileDescriptor::new_dynamic(file_of_schema(&schema)?, &[]).ok()?;
        let messages = (0..schema.messages.len())
            .map(|m| file.message_by_package_relative_name(&message_name(m)))
            .collect::<Option<Vec<_>>>()?;
        Some(Descriptors { schema, messages })
    }

    pub fn message(&self, index: usize) -> Option<&MessageDescriptor> {
        self.messages.get(index)
    }
}

fn message_name(index: usize) -> String {
    format!("M{index}")
}

fn file_of_schema(schema: &Schema) -> Option<FileDescriptorProto> {
    let mut file = FileDescriptorProto::new();
    file.set_name("schema.proto".to_owned());
    file.set_syntax("proto2".to_owned());
    for (index, span) in schema.messages.iter().enumerate() {
        file.message_type.push(message_proto(schema, index, *span)?);
    }
    for (index, span) in schema.enums.iter().enumerate() {
        file.message_type.push(enum_holder(schema, index, *span)?);
    }
    Some(file)
}

fn message_proto(schema: &Schema, index: usize, span: Span) -> Option<DescriptorProto> {
    let mut message = DescriptorProto::new();
    message.set_name(message_name(index));
    for (place, field) in schema.fields.get(span.first..span.first + span.count)?.iter().enumerate()
    {
        let mut proto = plain_field(&field.name, field.number);
        if field.label == LABEL_MAP {
            let entry = format!("F{place}Entry");
            proto.set_type(Type::TYPE_MESSAGE);
            proto.set_type_name(format!(".{}.{entry}", message_name(index)));
            message.nested_type.push(entry_proto(entry, field)?);
        } else {
            set_type(&mut proto, field.value_type, field.reference)?;
        }
        proto.set_label(match field.label {
            LABEL_REQUIRED => Label::LABEL_REQUIRED,
            LABEL_REPEATED | LABEL_MAP => Label::LABEL_REPEATED,
            _ => Label::LABEL_OPTIONAL,
        });
        message.field.push(proto);
    }
    Some(message)
}

/// A field without label and type. The JSON name is the name itself: default JSON names can
/// collide.
fn plain_field(name: &str, number: i32) -> FieldDescriptorProto {
    let mut proto = FieldDescriptorProto::new();
    proto.set_name(name.to_owned());
    proto.set_json_name(name.to_owned());
    proto.set_number(number);
    proto.set_label(Label::LABEL_OPTIONAL);
    proto
}

fn entry_proto(name: String, field: &Field) -> Option<DescriptorProto> {
    let mut key = plain_field("key", 1);
    set_type(&mut key, field.key_type, 0)?;
    let mut value = plain_field("value", 2);
    set_type(&mut value, field.value_type, field.reference)?;
    let mut options = MessageOptions::new();
    options.set_map_entry(true);
    let mut entry = DescriptorProto::new();
    entry.set_name(name);
    entry.field = vec![key, value];
    entry.options = MessageField::some(options);
    Some(entry)
}

fn set_type(proto: &mut FieldDescriptorProto, value_type: u64, reference: usize) -> Option<()> {
    let plain = match value_type {
        1 => Type::TYPE_INT32,
        2 => Type::TYPE_INT64,
        3 => Type::TYPE_UINT32,
        4 => Type::TYPE_UINT64,
        5 => Type::TYPE_BOOL,
        6 => Type::TYPE_STRING,
        7 => Type::TYPE_BYTES,
        TYPE_ENUM => {
            proto.set_type_name(format!(".E{reference}.{ENUM_NAME}"));
            Type::TYPE_ENUM
        }
        TYPE_MESSAGE => {
            proto.set_type_name(format!(".{}", message_name(reference)));
            Type::TYPE_MESSAGE
        }
        _ => return None,
    };
    proto.set_type(plain);
    Some(())
}

fn enum_holder(schema: &Schema, index: usize, span: Span) -> Option<DescriptorProto> {
    let mut values = EnumDescriptorProto::new();
    values.set_name(ENUM_NAME.to_owned());
    for value in schema.values.get(span.first..span.first + span.count)? {
        let mut proto = EnumValueDescriptorProto::new();
        proto.set_name(value.name.clone());
        proto.set_number(value.number);
        values.value.push(proto);
    }
    let mut holder = DescriptorProto::new();
    holder.set_name(format!("E{index}"));
    holder.enum_type.push(values);
    Some(holder)
}
