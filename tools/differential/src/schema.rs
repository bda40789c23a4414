//! A schema, and its image (document 01, "Schema image").

pub const I32: u8 = 1;
pub const I64: u8 = 2;
pub const U32: u8 = 3;
pub const U64: u8 = 4;
pub const BOOL: u8 = 5;
pub const STRING: u8 = 6;
pub const BYTES: u8 = 7;
pub const ENUM: u8 = 8;
pub const MESSAGE: u8 = 9;

pub const MOST_MESSAGES: usize = 255;
pub const MOST_FIELDS: usize = 4_095;
pub const MOST_ENUMS: usize = 255;
pub const MOST_VALUES: usize = 4_095;
pub const LONGEST_NAME: usize = 63;
pub const MOST_FIELD_NUMBER: u32 = 536_870_911;

#[derive(Clone, Copy, PartialEq, Eq, Debug)]
pub enum Label {
    Optional,
    Required,
    Repeated,
    Map,
}

#[derive(Clone)]
pub struct Field {
    pub name: String,
    pub number: u32,
    pub label: Label,
    /// 0 unless the label is `Map`.
    pub key: u8,
    /// The type; of a map, the value's.
    pub kind: u8,
    pub reference: usize,
}

#[derive(Clone)]
pub struct EnumValue {
    pub name: String,
    pub number: i32,
}

#[derive(Clone, Default)]
pub struct Schema {
    pub messages: Vec<Vec<Field>>,
    pub enums: Vec<Vec<EnumValue>>,
    /// Bytes before the names that no name uses.
    pub spare: Vec<u8>,
    /// Whether a name may lie where an earlier name's bytes are.
    pub share: bool,
}

impl Schema {
    pub fn field(&self, message: usize, name: &str) -> Option<&Field> {
        self.messages.get(message)?.iter().find(|f| f.name == name)
    }

    /// The index in the whole field table of a message's first field.
    pub fn first_field(&self, message: usize) -> usize {
        self.messages[..message].iter().map(Vec::len).sum()
    }

    /// The same schema, each name changed by `rename`.
    pub fn renamed(&self, rename: impl Fn(&str) -> String) -> Schema {
        let mut schema = self.clone();
        for field in schema.messages.iter_mut().flatten() {
            field.name = rename(&field.name);
        }
        for value in schema.enums.iter_mut().flatten() {
            value.name = rename(&value.name);
        }
        schema
    }

    pub fn image(&self) -> Vec<u8> {
        let mut names = Names { bytes: self.spare.clone(), share: self.share };
        let mut records = Bits::default();
        put_spans(&mut records, self.messages.iter().map(Vec::len));
        for field in self.messages.iter().flatten() {
            put_field(&mut records, field, &mut names);
        }
        put_spans(&mut records, self.enums.iter().map(Vec::len));
        for value in self.enums.iter().flatten() {
            put_value(&mut records, value, &mut names);
        }
        let mut image = self.header(names.bytes.len());
        image.append(&mut records.bytes);
        image.append(&mut names.bytes);
        image
    }

    fn header(&self, name_bytes: usize) -> Vec<u8> {
        let mut bits = Bits::default();
        bits.put(4, 1);
        bits.put(8, self.messages.len() as u64);
        bits.put(12, self.messages.iter().map(Vec::len).sum::<usize>() as u64);
        bits.put(8, self.enums.len() as u64);
        bits.put(12, self.enums.iter().map(Vec::len).sum::<usize>() as u64);
        bits.put(16, name_bytes as u64);
        bits.put(4, 0);
        bits.bytes
    }
}

/// Messages and enums alike: first record 12 bits, a running total; count 12 bits.
fn put_spans(bits: &mut Bits, counts: impl Iterator<Item = usize>) {
    let mut first = 0;
    for count in counts {
        bits.put(12, first as u64);
        bits.put(12, count as u64);
        first += count;
    }
}

fn put_field(bits: &mut Bits, field: &Field, names: &mut Names) {
    bits.put(16, names.place(&field.name));
    bits.put(6, field.name.len() as u64);
    bits.put(29, u64::from(field.number));
    bits.put(2, field.label as u64);
    bits.put(4, u64::from(field.key));
    bits.put(4, u64::from(field.kind));
    bits.put(8, field.reference as u64);
    bits.put(3, 0);
}

fn put_value(bits: &mut Bits, value: &EnumValue, names: &mut Names) {
    bits.put(16, names.place(&value.name));
    bits.put(6, value.name.len() as u64);
    bits.put(32, u64::from(value.number as u32));
    bits.put(2, 0);
}

/// The name bytes as they are laid.
struct Names {
    bytes: Vec<u8>,
    share: bool,
}

impl Names {
    fn place(&mut self, name: &str) -> u64 {
        let wanted = name.as_bytes();
        if self.share {
            if let Some(at) = self.bytes.windows(wanted.len()).position(|w| w == wanted) {
                return at as u64;
            }
        }
        self.bytes.extend_from_slice(wanted);
        (self.bytes.len() - wanted.len()) as u64
    }
}

/// Bit fields, most significant first.
#[derive(Default)]
struct Bits {
    bytes: Vec<u8>,
    used: usize,
}

impl Bits {
    fn put(&mut self, count: usize, value: u64) {
        for bit in (0..count).rev() {
            if self.used % 8 == 0 {
                self.bytes.push(0);
            }
            let last = self.bytes.len() - 1;
            self.bytes[last] |= ((value >> bit & 1) as u8) << (7 - self.used % 8);
            self.used += 1;
        }
    }
}

/// Document 01's schema E.
pub fn schema_e() -> Schema {
    let fields = vec![
        field("id", 1, Label::Optional, 0, I32, 0),
        field("name", 2, Label::Optional, 0, STRING, 0),
        field("limits", 3, Label::Map, STRING, U32, 0),
        field("child", 4, Label::Optional, 0, MESSAGE, 0),
    ];
    Schema { messages: vec![fields], ..Schema::default() }
}

/// A schema with a short name for each type and label: the entries and the short texts are about
/// it.
pub fn schema_x() -> Schema {
    use Label::{Map, Optional, Repeated, Required};
    let first = vec![
        field("i", 1, Optional, 0, I32, 0),
        field("l", 2, Optional, 0, I64, 0),
        field("u", 3, Optional, 0, U32, 0),
        field("v", 4, Optional, 0, U64, 0),
        field("b", 5, Optional, 0, BOOL, 0),
        field("s", 6, Optional, 0, STRING, 0),
        field("y", 7, Optional, 0, BYTES, 0),
        field("e", 8, Optional, 0, ENUM, 1),
        field("m", 9, Optional, 0, MESSAGE, 0),
        field("r", 10, Repeated, 0, I32, 0),
        field("n", 11, Repeated, 0, MESSAGE, 1),
        field("si", 12, Map, STRING, I32, 0),
        field("bm", 13, Map, BOOL, MESSAGE, 0),
        field("ie", 14, Map, I32, ENUM, 1),
        field("ly", 15, Map, I64, BYTES, 0),
        field("ub", 16, Map, U32, BOOL, 0),
        field("vs", 17, Map, U64, STRING, 0),
        field("inf", 18, Optional, 0, I32, 0),
    ];
    let second = vec![field("q", 1, Required, 0, I32, 0), field("w", 2, Optional, 0, MESSAGE, 2)];
    let small = vec![value("NO", 3)];
    let modes = vec![value("ON", 7), value("OFF", 0), value("NEG", -1), value("nan", 9)];
    Schema {
        messages: vec![first, second, Vec::new()],
        enums: vec![small, modes],
        ..Schema::default()
    }
}

fn field(name: &str, number: u32, label: Label, key: u8, kind: u8, reference: usize) -> Field {
    Field { name: name.to_owned(), number, label, key, kind, reference }
}

fn value(name: &str, number: i32) -> EnumValue {
    EnumValue { name: name.to_owned(), number }
}
