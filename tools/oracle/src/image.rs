//! The schema image, taken apart (document 01, "Schema image").
//!
//! This is no schema check: images are presumed accepted. What can't be taken apart gives `None`.

pub const LABEL_REQUIRED: u64 = 1;
pub const LABEL_REPEATED: u64 = 2;
pub const LABEL_MAP: u64 = 3;
pub const TYPE_ENUM: u64 = 8;
pub const TYPE_MESSAGE: u64 = 9;

pub struct Field {
    pub name: String,
    pub number: i32,
    pub label: u64,
    pub key_type: u64,
    pub value_type: u64,
    pub reference: usize,
}

pub struct EnumValue {
    pub name: String,
    pub number: i32,
}

/// A run of records in the field table or in the enum value table.
#[derive(Clone, Copy)]
pub struct Span {
    pub first: usize,
    pub count: usize,
}

pub struct Schema {
    pub messages: Vec<Span>,
    pub fields: Vec<Field>,
    pub enums: Vec<Span>,
    pub values: Vec<EnumValue>,
}

/// Reads bit fields, most significant bit first.
struct Bits<'a> {
    bytes: &'a [u8],
    at: usize,
}

impl Bits<'_> {
    fn take(&mut self, count: usize) -> Option<u64> {
        let mut value = 0;
        for _ in 0..count {
            let byte = *self.bytes.get(self.at / 8)?;
            value = value << 1 | u64::from(byte >> (7 - self.at % 8) & 1);
            self.at += 1;
        }
        Some(value)
    }

    fn size(&mut self, count: usize) -> Option<usize> {
        usize::try_from(self.take(count)?).ok()
    }

    fn span(&mut self) -> Option<Span> {
        Some(Span { first: self.size(12)?, count: self.size(12)? })
    }

    fn name(&mut self, names: &[u8]) -> Option<String> {
        let start = self.size(16)?;
        let length = self.size(6)?;
        let bytes = names.get(start..start + length)?;
        String::from_utf8(bytes.to_vec()).ok()
    }

    fn field(&mut self, names: &[u8]) -> Option<Field> {
        let field = Field {
            name: self.name(names)?,
            number: i32::try_from(self.take(29)?).ok()?,
            label: self.take(2)?,
            key_type: self.take(4)?,
            value_type: self.take(4)?,
            reference: self.size(8)?,
        };
        self.take(3)?;
        Some(field)
    }

    fn value(&mut self, names: &[u8]) -> Option<EnumValue> {
        let name = self.name(names)?;
        let number = self.take(32)? as u32 as i32;
        self.take(2)?;
        Some(EnumValue { name, number })
    }
}

pub fn schema_of_image(image: &[u8]) -> Option<Schema> {
    let mut bits = Bits { bytes: image, at: 0 };
    let _form = bits.take(4)?;
    let messages = bits.size(8)?;
    let fields = bits.size(12)?;
    let enums = bits.size(8)?;
    let values = bits.size(12)?;
    let name_bytes = bits.size(16)?;
    let _zero = bits.take(4)?;
    let names = image.get(image.len().checked_sub(name_bytes)?..)?;
    let schema = Schema {
        messages: (0..messages).map(|_| bits.span()).collect::<Option<_>>()?,
        fields: (0..fields).map(|_| bits.field(names)).collect::<Option<_>>()?,
        enums: (0..enums).map(|_| bits.span()).collect::<Option<_>>()?,
        values: (0..values).map(|_| bits.value(names)).collect::<Option<_>>()?,
    };
    Some(schema)
}
