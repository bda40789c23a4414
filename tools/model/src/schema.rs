//! The schema image: its bit fields, and the check that gives refusal 1.

use crate::refusal::{refuse, Refusal, BAD_SCHEMA, NO_ROOT};
use std::collections::HashSet;

// Types, which are also the node kinds 1 to 9.
pub const I32: u32 = 1;
pub const I64: u32 = 2;
pub const U32: u32 = 3;
pub const U64: u32 = 4;
pub const BOOL: u32 = 5;
pub const STRING: u32 = 6;
pub const BYTES: u32 = 7;
pub const ENUM: u32 = 8;
pub const MESSAGE: u32 = 9;

// Labels; optional is 0.
pub const REQUIRED: u32 = 1;
pub const REPEATED: u32 = 2;
pub const MAP: u32 = 3;

const FORM: u32 = 1;
const HEADER_BYTES: usize = 8;
const MESSAGE_BYTES: usize = 3;
const FIELD_BYTES: usize = 9;
const ENUM_BYTES: usize = 3;
const ENUM_VALUE_BYTES: usize = 7;

/// A message's part of the field table, or an enum's part of the value table.
#[derive(Debug, Clone, Copy)]
pub struct Span {
    pub first: usize,
    pub count: usize,
}

#[derive(Debug)]
pub struct Field {
    pub name: Vec<u8>,
    pub number: u32,
    pub label: u32,
    pub key_type: u32,
    /// The value's type; for a map, that of the entry's value.
    pub value_type: u32,
    pub reference: usize,
}

#[derive(Debug)]
pub struct EnumValue {
    pub name: Vec<u8>,
    pub number: i32,
}

/// An image that passed the check.
#[derive(Debug)]
pub struct Schema {
    pub messages: Vec<Span>,
    pub fields: Vec<Field>,
    pub enums: Vec<Span>,
    pub values: Vec<EnumValue>,
}

impl Schema {
    /// The field of this message with this name, as its index in the whole field table.
    pub fn field_named(&self, message: usize, name: &[u8]) -> Option<usize> {
        let span = self.messages[message];
        (span.first..span.first + span.count).find(|&i| self.fields[i].name == name)
    }

    pub fn values_of(&self, index: usize) -> &[EnumValue] {
        let span = self.enums[index];
        &self.values[span.first..span.first + span.count]
    }
}

/// Refusals 1 and 2, the first two of every call: `checked` is what `accept` said of the image.
pub fn with_root(checked: &Option<Schema>, root: u64) -> Result<(&Schema, usize), Refusal> {
    let Some(schema) = checked else {
        return refuse(BAD_SCHEMA, 0);
    };
    if root >= schema.messages.len() as u64 {
        return refuse(NO_ROOT, 0);
    }
    Ok((schema, root as usize))
}

/// Bit fields, most significant first.
struct Bits<'a> {
    bytes: &'a [u8],
    at: usize,
}

impl Bits<'_> {
    fn take(&mut self, width: usize) -> u32 {
        let mut value = 0;
        for _ in 0..width {
            let bit = self.bytes[self.at / 8] >> (7 - self.at % 8) & 1;
            value = value << 1 | u32::from(bit);
            self.at += 1;
        }
        value
    }

    fn size(&mut self, width: usize) -> usize {
        self.take(width) as usize
    }
}

/// The header's counts.
struct Counts {
    messages: usize,
    fields: usize,
    enums: usize,
    values: usize,
    name_bytes: usize,
}

impl Counts {
    /// All bytes of the image: nothing may be missing, nothing may follow.
    fn image_length(&self) -> usize {
        HEADER_BYTES
            + MESSAGE_BYTES * self.messages
            + FIELD_BYTES * self.fields
            + ENUM_BYTES * self.enums
            + ENUM_VALUE_BYTES * self.values
            + self.name_bytes
    }
}

/// The schema of an image, or nothing where the image is refused 1.
pub fn accept(image: &[u8]) -> Option<Schema> {
    if image.len() < HEADER_BYTES {
        return None;
    }
    let mut bits = Bits {
        bytes: image,
        at: 0,
    };
    let counts = header(&mut bits)?;
    if image.len() != counts.image_length() {
        return None;
    }
    let names = &image[image.len() - counts.name_bytes..];
    let messages = spans(&mut bits, counts.messages, counts.fields)?;
    let fields = (0..counts.fields)
        .map(|_| field(&mut bits, names, &counts))
        .collect::<Option<Vec<_>>>()?;
    let enums = spans(&mut bits, counts.enums, counts.values)?;
    let values = (0..counts.values)
        .map(|_| enum_value(&mut bits, names))
        .collect::<Option<Vec<_>>>()?;
    let schema = Schema {
        messages,
        fields,
        enums,
        values,
    };
    (fields_distinct(&schema) && enums_good(&schema)).then_some(schema)
}

/// Header, 64 bits: form 4 (is 1), messages 8 (at least one), fields 12, enums 8, enum values 12,
/// name bytes 16, zero 4.
fn header(bits: &mut Bits) -> Option<Counts> {
    let form = bits.take(4);
    let counts = Counts {
        messages: bits.size(8),
        fields: bits.size(12),
        enums: bits.size(8),
        values: bits.size(12),
        name_bytes: bits.size(16),
    };
    let zero = bits.take(4);
    (form == FORM && zero == 0 && counts.messages >= 1).then_some(counts)
}

/// Message and enum records: first 12, count 12. Each first is the running total of the counts
/// before it, empty messages too, and the counts use up the whole table.
fn spans(bits: &mut Bits, records: usize, table: usize) -> Option<Vec<Span>> {
    let mut total = 0;
    let mut spans = Vec::new();
    for _ in 0..records {
        let first = bits.size(12);
        let count = bits.size(12);
        if first != total {
            return None;
        }
        total += count;
        spans.push(Span { first, count });
    }
    (total == table).then_some(spans)
}

/// Field, 72 bits: name start 16, name length 6, number 29, label 2, key type 4, type 4,
/// reference 8, zero 3.
fn field(bits: &mut Bits, names: &[u8], counts: &Counts) -> Option<Field> {
    let (start, length) = (bits.size(16), bits.size(6));
    let number = bits.take(29);
    let label = bits.take(2);
    let key_type = bits.take(4);
    let value_type = bits.take(4);
    let reference = bits.size(8);
    let zero = bits.take(3);
    let name = name_at(names, start, length)?;
    let key_good = if label == MAP {
        (I32..=STRING).contains(&key_type)
    } else {
        key_type == 0
    };
    let reference_good = match value_type {
        ENUM => reference < counts.enums,
        MESSAGE => reference < counts.messages,
        _ => reference == 0,
    };
    let type_good = (I32..=MESSAGE).contains(&value_type);
    let good = number >= 1 && key_good && type_good && reference_good && zero == 0;
    good.then_some(Field {
        name,
        number,
        label,
        key_type,
        value_type,
        reference,
    })
}

/// Enum value, 56 bits: name start 16, name length 6, number 32 (two's complement), zero 2.
fn enum_value(bits: &mut Bits, names: &[u8]) -> Option<EnumValue> {
    let (start, length) = (bits.size(16), bits.size(6));
    let number = bits.take(32) as i32;
    let zero = bits.take(2);
    let name = name_at(names, start, length)?;
    (zero == 0).then_some(EnumValue { name, number })
}

/// A name lies inside the name bytes and is a letter or `_`, then letters, digits, `_` (ASCII).
/// Names may overlap, and bytes that no name uses may be anything (reading I1).
fn name_at(names: &[u8], start: usize, length: usize) -> Option<Vec<u8>> {
    let name = names.get(start..start + length)?;
    let (&first, rest) = name.split_first()?;
    let letter = |b: u8| b.is_ascii_alphabetic() || b == b'_';
    let good = letter(first) && rest.iter().all(|&b| letter(b) || b.is_ascii_digit());
    good.then(|| name.to_vec())
}

/// Names and numbers are distinct within a message.
fn fields_distinct(schema: &Schema) -> bool {
    schema.messages.iter().all(|span| {
        let own = &schema.fields[span.first..span.first + span.count];
        let names: HashSet<&[u8]> = own.iter().map(|f| f.name.as_slice()).collect();
        let numbers: HashSet<u32> = own.iter().map(|f| f.number).collect();
        names.len() == own.len() && numbers.len() == own.len()
    })
}

/// An enum has at least one value; names and numbers are distinct within it (reading I4).
fn enums_good(schema: &Schema) -> bool {
    (0..schema.enums.len()).all(|index| {
        let own = schema.values_of(index);
        let names: HashSet<&[u8]> = own.iter().map(|v| v.name.as_slice()).collect();
        let numbers: HashSet<i32> = own.iter().map(|v| v.number).collect();
        !own.is_empty() && names.len() == own.len() && numbers.len() == own.len()
    })
}
