//! Carrying: a table printed under a newer schema, and that text read under an older one.

use crate::parse::{read, Reading};
use crate::print::{print, Style};
use crate::refusal::Refusal;
use crate::schema::Schema;

/// What carrying gives, with the text that stands in the buffer afterwards; a refused print
/// leaves none there, a refused read leaves the text that it refused.
pub enum Carried {
    NotPrinted(Refusal),
    NotRead(Refusal, Vec<u8>),
    Made(Reading, Vec<u8>),
}

/// The table that is carried: words and pool.
pub struct Load<'a> {
    pub words: &'a [u32],
    pub pool: &'a [u8],
}

/// What is lent: bytes for the text, node words and pool bytes for what is read of it.
#[derive(Clone, Copy)]
pub struct Rooms {
    pub text: u64,
    pub words: u64,
    pub bytes: u64,
}

/// The print's refusals under the newer schema (1, 2, 15, 16), then the read's under the older
/// (1, 2, 3, the first fault, 13, 14), both for the one root.
pub fn carry(
    newer: &Option<Schema>,
    older: &Option<Schema>,
    root: u64,
    load: Load,
    style: Style,
    rooms: Rooms,
) -> Carried {
    let text = match print(newer, root, load.words, load.pool, style, rooms.text) {
        Err(refusal) => return Carried::NotPrinted(refusal),
        Ok(text) => text,
    };
    match read(older, root, &text, rooms.words, rooms.bytes) {
        Err(refusal) => Carried::NotRead(refusal, text),
        Ok(reading) => Carried::Made(reading, text),
    }
}
