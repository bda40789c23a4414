//! Valid node tables with pools, as no text may bring them: shared and gapped runs, numbers without
//! names, unknown fields.

use std::collections::HashMap;

use crate::generate::values::{letters, number};
use crate::random::Random;
use crate::requests::Table;
use crate::schema::{Field, Label, Schema, BYTES, MESSAGE, MOST_FIELD_NUMBER, STRING};

const NODE_WORDS: usize = 5;
const MOST_DEPTH: usize = 32;
const KIND_ENTRY: u32 = 10;
const KIND_UNKNOWN_U32: u32 = 11;
const KIND_UNKNOWN_U64: u32 = 12;
const KIND_UNKNOWN_BYTES: u32 = 13;

struct Builder<'a> {
    schema: &'a Schema,
    random: &'a mut Random,
    words: Vec<u32>,
    pool: Vec<u8>,
    /// Places in the pool's first part between which every run is UTF-8.
    cuts: Vec<usize>,
    budget: usize,
}

pub fn table(schema: &Schema, root: usize, random: &mut Random) -> Table {
    let (pool, cuts) = pool(random);
    let budget = match random.below(50) {
        0 => random.between(1_000, 6_000),
        1..=8 => random.between(30, 200),
        _ => random.between(0, 20),
    };
    let mut builder = Builder { schema, random, words: Vec::new(), pool, cuts, budget };
    let levels = if builder.random.chance(10) { MOST_DEPTH } else { builder.random.between(0, 6) };
    builder.message(0, root, levels);
    // Words after the table are ignored.
    if builder.random.chance(20) {
        let extra = builder.random.below(12);
        let tail: Vec<u32> = (0..extra).map(|_| builder.random.next() as u32).collect();
        builder.words.extend(tail);
    }
    Table { words: builder.words, pool: builder.pool }
}

/// A part in UTF-8, then a part of any bytes.
fn pool(random: &mut Random) -> (Vec<u8>, Vec<usize>) {
    let text: String = (0..random.below(4)).map(|_| letters(random)).collect();
    let mut cuts: Vec<usize> = text.char_indices().map(|(at, _)| at).collect();
    cuts.push(text.len());
    let mut pool = text.into_bytes();
    pool.extend((0..random.below(12)).map(|_| random.next() as u8));
    (pool, cuts)
}

impl Builder<'_> {
    fn begin(&mut self, kind: u32, field: u32, value: u64) -> usize {
        let index = self.words.len() / NODE_WORDS;
        self.words.extend([kind, field, (value >> 32) as u32, value as u32, index as u32 + 1]);
        index
    }

    fn finish(&mut self, index: usize) {
        let end = self.words.len() / NODE_WORDS;
        self.words[index * NODE_WORDS + 4] = end as u32;
    }

    /// A message node and all below it; `levels` may still be opened below it.
    fn message(&mut self, field: u32, message: usize, levels: usize) {
        let index = self.begin(u32::from(MESSAGE), field, 0);
        let schema = self.schema;
        let fields = &schema.messages[message];
        let first = schema.first_field(message) as u32;
        let mut kinds = HashMap::new();
        let wanted = if levels > 6 { 2 } else { self.random.below(7) };
        let count = if index == 0 { wanted.max(self.budget / 2) } else { wanted };
        for _ in 0..count {
            if self.budget == 0 {
                break;
            }
            self.budget -= 1;
            if fields.is_empty() || self.random.chance(12) {
                self.unknown(&mut kinds);
            } else {
                let place = self.nesting_place(fields, levels);
                self.field(first + place as u32, &fields[place], levels);
            }
        }
        self.finish(index);
    }

    /// A field of the message; where many levels are left, one that goes deeper if there is one.
    fn nesting_place(&mut self, fields: &[Field], levels: usize) -> usize {
        let deeper: Vec<usize> = (0..fields.len()).filter(|i| fields[*i].kind == MESSAGE).collect();
        if levels > 6 && !deeper.is_empty() {
            return *self.random.pick(&deeper);
        }
        self.random.below(fields.len())
    }

    fn field(&mut self, index: u32, field: &Field, levels: usize) {
        if field.label == Label::Map {
            self.entry(index, field, levels);
        } else {
            self.value(index, field.kind, field.reference, levels);
        }
    }

    fn entry(&mut self, index: u32, field: &Field, levels: usize) {
        let needed = if field.kind == MESSAGE { 2 } else { 1 };
        if levels < needed {
            return;
        }
        let entry = self.begin(KIND_ENTRY, index, 0);
        let key_first = self.random.chance(60);
        for is_key in [key_first, !key_first] {
            if is_key {
                self.value(0, field.key, 0, 0);
            } else {
                self.value(1, field.kind, field.reference, levels - 1);
            }
        }
        self.finish(entry);
    }

    fn value(&mut self, field: u32, kind: u8, reference: usize, levels: usize) {
        let value = match kind {
            MESSAGE if levels == 0 => return,
            MESSAGE => return self.message(field, reference, levels - 1),
            STRING => self.text_run(),
            BYTES => self.any_run(),
            _ => self.small_or_any(kind),
        };
        self.begin(u32::from(kind), field, value);
    }

    /// Small numbers half of the time, so that keys are equal now and then.
    fn small_or_any(&mut self, kind: u8) -> u64 {
        if self.random.chance(50) {
            return self.random.below(2) as u64;
        }
        number(self.random, kind) as i64 as u64
    }

    fn run(start: usize, end: usize) -> u64 {
        (start as u64) << 32 | (end - start) as u64
    }

    fn text_run(&mut self) -> u64 {
        let (a, b) = (self.random.below(self.cuts.len()), self.random.below(self.cuts.len()));
        Self::run(self.cuts[a.min(b)], self.cuts[a.max(b)])
    }

    fn any_run(&mut self) -> u64 {
        let (a, b) =
            (self.random.below(self.pool.len() + 1), self.random.below(self.pool.len() + 1));
        Self::run(a.min(b), a.max(b))
    }

    /// One kind for each number in a message: several aren't compared.
    fn unknown(&mut self, kinds: &mut HashMap<u32, u32>) {
        let number = match self.random.below(8) {
            0 => MOST_FIELD_NUMBER - self.random.below(2) as u32,
            1 => self.random.between(1, MOST_FIELD_NUMBER as usize) as u32,
            _ => self.random.between(1, 12) as u32,
        };
        let fresh =
            self.random.between(KIND_UNKNOWN_U32 as usize, KIND_UNKNOWN_BYTES as usize) as u32;
        let kind = *kinds.entry(number).or_insert(fresh);
        let value = match kind {
            KIND_UNKNOWN_U32 => u64::from(self.random.next() as u32 >> self.random.below(32)),
            KIND_UNKNOWN_U64 => self.random.next() >> self.random.below(64),
            _ => self.any_run(),
        };
        self.begin(kind, number, value);
    }
}
