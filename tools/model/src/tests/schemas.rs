//! Images built from records: schema E of document 01, and X and N of the readings.

/// Name, number, label, key type, type, reference.
pub type FieldOf = (&'static str, u32, u32, u32, u32, u32);
pub type ValueOf = (&'static str, i32);

pub const OPTIONAL: u32 = 0;
pub const REQUIRED: u32 = 1;
pub const REPEATED: u32 = 2;
pub const MAP: u32 = 3;

/// The records of an image as plain numbers, so that a test can spoil any one of them.
#[derive(Clone)]
pub struct Image {
    /// Form, messages, fields, enums, enum values, name bytes, zero.
    pub header: [u32; 7],
    pub messages: Vec<[u32; 2]>,
    /// Name start, name length, number, label, key type, type, reference, zero.
    pub fields: Vec<[u32; 8]>,
    pub enums: Vec<[u32; 2]>,
    /// Name start, name length, number, zero.
    pub values: Vec<[u32; 4]>,
    pub names: Vec<u8>,
}

impl Image {
    pub fn new(messages: &[&[FieldOf]], enums: &[&[ValueOf]]) -> Image {
        let mut image = Image {
            header: [1, 0, 0, 0, 0, 0, 0],
            messages: Vec::new(),
            fields: Vec::new(),
            enums: Vec::new(),
            values: Vec::new(),
            names: Vec::new(),
        };
        for own in messages {
            let first = image.fields.len() as u32;
            image.messages.push([first, own.len() as u32]);
            for &(name, number, label, key, kind, reference) in *own {
                let [start, length] = image.name(name);
                let record = [start, length, number, label, key, kind, reference, 0];
                image.fields.push(record);
            }
        }
        for own in enums {
            let first = image.values.len() as u32;
            image.enums.push([first, own.len() as u32]);
            for &(name, number) in *own {
                let [start, length] = image.name(name);
                image.values.push([start, length, number as u32, 0]);
            }
        }
        image.count();
        image
    }

    /// The header's counts as they are.
    pub fn count(&mut self) {
        let sizes = [
            self.messages.len(),
            self.fields.len(),
            self.enums.len(),
            self.values.len(),
            self.names.len(),
        ];
        for (slot, size) in self.header[1..6].iter_mut().zip(sizes) {
            *slot = size as u32;
        }
    }

    fn name(&mut self, name: &str) -> [u32; 2] {
        let start = self.names.len() as u32;
        self.names.extend_from_slice(name.as_bytes());
        [start, name.len() as u32]
    }

    pub fn bytes(&self) -> Vec<u8> {
        let mut bits = Vec::new();
        push(&mut bits, &self.header, &[4, 8, 12, 8, 12, 16, 4]);
        for record in &self.messages {
            push(&mut bits, record, &[12, 12]);
        }
        for record in &self.fields {
            push(&mut bits, record, &[16, 6, 29, 2, 4, 4, 8, 3]);
        }
        for record in &self.enums {
            push(&mut bits, record, &[12, 12]);
        }
        for record in &self.values {
            push(&mut bits, record, &[16, 6, 32, 2]);
        }
        let byte = |eight: &[bool]| eight.iter().fold(0, |b, &bit| b << 1 | u8::from(bit));
        let mut bytes: Vec<u8> = bits.chunks(8).map(byte).collect();
        bytes.extend_from_slice(&self.names);
        bytes
    }
}

fn push(bits: &mut Vec<bool>, record: &[u32], widths: &[u32]) {
    for (value, width) in record.iter().zip(widths) {
        bits.extend((0..*width).rev().map(|shift| value >> shift & 1 == 1));
    }
}

/// Schema E with `id` of this type.
pub fn retyped(kind: u32) -> Image {
    Image::new(
        &[&[
            ("id", 1, OPTIONAL, 0, kind, 0),
            ("name", 2, OPTIONAL, 0, 6, 0),
            ("limits", 3, MAP, 6, 3, 0),
            ("child", 4, OPTIONAL, 0, 9, 0),
        ]],
        &[],
    )
}

pub fn e() -> Image {
    retyped(1)
}

pub fn n() -> Image {
    let fields = [("m", 1, OPTIONAL, 0, 9, 0), ("mm", 2, MAP, 6, 9, 0)];
    Image::new(&[&fields], &[])
}

const X0: [FieldOf; 19] = [
    ("i", 1, OPTIONAL, 0, 1, 0),
    ("l", 2, OPTIONAL, 0, 2, 0),
    ("u", 3, OPTIONAL, 0, 3, 0),
    ("v", 4, OPTIONAL, 0, 4, 0),
    ("b", 5, OPTIONAL, 0, 5, 0),
    ("s", 6, OPTIONAL, 0, 6, 0),
    ("y", 7, OPTIONAL, 0, 7, 0),
    ("e", 8, OPTIONAL, 0, 8, 1),
    ("m", 9, OPTIONAL, 0, 9, 0),
    ("r", 10, REPEATED, 0, 1, 0),
    ("n", 11, REPEATED, 0, 9, 1),
    ("si", 12, MAP, 6, 1, 0),
    ("bm", 13, MAP, 5, 9, 0),
    ("ie", 14, MAP, 1, 8, 1),
    ("ly", 15, MAP, 2, 7, 0),
    ("ub", 16, MAP, 3, 5, 0),
    ("vs", 17, MAP, 4, 6, 0),
    ("mm", 536_870_911, MAP, 6, 9, 0),
    ("o", 18, REPEATED, 0, 8, 0),
];
const X1: [FieldOf; 2] = [("q", 1, REQUIRED, 0, 1, 0), ("w", 2, OPTIONAL, 0, 9, 2)];
const OTHER: [ValueOf; 2] = [("LOW", 0), ("HIGH", 1)];
const MODE: [ValueOf; 5] = [
    ("ON", 7),
    ("OFF", 0),
    ("NEG", -1),
    ("LEAST", i32::MIN),
    ("MOST", i32::MAX),
];

/// Indices of X's fields in the whole field table.
pub mod x {
    pub const I: u32 = 0;
    pub const S: u32 = 5;
    pub const Y: u32 = 6;
    pub const E: u32 = 7;
    pub const M: u32 = 8;
    pub const N: u32 = 10;
    pub const SI: u32 = 11;
    pub const BM: u32 = 12;
    pub const Q: u32 = 19;
}

/// Messages 0, 1 and 2 (empty); enums 0 and 1.
pub fn x() -> Image {
    Image::new(&[&X0, &X1, &[]], &[&OTHER, &MODE])
}
