//! Accepted schemas of every shape.

use std::collections::HashSet;

use crate::random::Random;
use crate::schema::{
    schema_e, schema_x, EnumValue, Field, Label, Schema, BOOL, ENUM, I32, LONGEST_NAME, MESSAGE,
    MOST_ENUMS, MOST_FIELDS, MOST_FIELD_NUMBER, MOST_MESSAGES, MOST_VALUES, STRING,
};

/// Names that stand for something elsewhere: in an entry, as a bool, as a float for the crate, as
/// hex digits.
const SPECIAL_NAMES: &[&str] = &[
    "key", "value", "true", "false", "inf", "nan", "_", "__", "a1", "a_1", "A1", "x", "e5", "Key",
    "infinity", "nanx", "x0",
];

const NAME_LETTERS: &[u8] = b"abcdefghijklmnopqrstuvwxyzABCDEFGHIJKLMNOPQRSTUVWXYZ_0123456789";
const FIRST_LETTERS: usize = 53;

pub fn schema(random: &mut Random) -> Schema {
    match random.below(20) {
        0..=3 => schema_x(),
        4 => schema_e(),
        5 => wide(random),
        _ => sized(random, 6, 8, 4, 6),
    }
}

/// Many messages, fields, enums or values, up to what the header can say.
fn wide(random: &mut Random) -> Schema {
    match random.below(4) {
        0 => sized(random, MOST_MESSAGES, 4, 3, 3),
        1 => sized(random, 20, 600, 2, 3),
        2 => sized(random, 2, 4, MOST_ENUMS, 4),
        _ => sized(random, 2, 6, 20, 500),
    }
}

fn sized(
    random: &mut Random,
    messages: usize,
    fields: usize,
    enums: usize,
    values: usize,
) -> Schema {
    let count = random.between(1, messages);
    let enum_count = random.between(0, enums);
    let mut schema = Schema { share: random.chance(50), ..Schema::default() };
    if random.chance(20) {
        schema.spare = (0..random.below(8)).map(|_| random.next() as u8).collect();
    }
    let mut left = MOST_FIELDS;
    for _ in 0..count {
        let wanted = random.between(0, fields).min(left);
        left -= wanted;
        schema.messages.push(message(random, wanted, count, enum_count));
    }
    let mut left = MOST_VALUES - enum_count;
    for _ in 0..enum_count {
        let wanted = random.between(1, values).min(left + 1);
        left -= wanted - 1;
        schema.enums.push(enum_values(random, wanted));
    }
    schema
}

/// A name that isn't among the used ones, most often short.
fn name(random: &mut Random, used: &mut HashSet<String>) -> String {
    loop {
        let name = if random.chance(12) {
            (*random.pick(SPECIAL_NAMES)).to_owned()
        } else {
            let length = if random.chance(3) {
                random.between(1, LONGEST_NAME)
            } else {
                random.between(1, 4)
            };
            letters(random, length)
        };
        if used.insert(name.clone()) {
            return name;
        }
    }
}

fn letters(random: &mut Random, length: usize) -> String {
    let letter = |i: usize, random: &mut Random| {
        let pool = if i == 0 { &NAME_LETTERS[..FIRST_LETTERS] } else { NAME_LETTERS };
        char::from(*random.pick(pool))
    };
    (0..length).map(|i| letter(i, random)).collect()
}

fn message(random: &mut Random, count: usize, messages: usize, enums: usize) -> Vec<Field> {
    let mut names = HashSet::new();
    let mut numbers = HashSet::new();
    (0..count)
        .map(|_| {
            let name = name(random, &mut names);
            field(random, name, &mut numbers, messages, enums)
        })
        .collect()
}

fn field(
    random: &mut Random,
    name: String,
    numbers: &mut HashSet<u32>,
    messages: usize,
    enums: usize,
) -> Field {
    let label = match random.below(10) {
        0..=3 => Label::Optional,
        4 => Label::Required,
        5..=6 => Label::Repeated,
        _ => Label::Map,
    };
    let kind = kind(random, enums);
    let reference = match kind {
        ENUM => random.below(enums),
        MESSAGE => random.below(messages),
        _ => 0,
    };
    let key = if label == Label::Map {
        random.between(usize::from(I32), usize::from(STRING)) as u8
    } else {
        0
    };
    Field { name, number: field_number(random, numbers), label, key, kind, reference }
}

fn kind(random: &mut Random, enums: usize) -> u8 {
    if random.chance(30) {
        return MESSAGE;
    }
    match random.between(usize::from(I32), usize::from(MESSAGE)) as u8 {
        ENUM if enums == 0 => BOOL,
        kind => kind,
    }
}

fn field_number(random: &mut Random, used: &mut HashSet<u32>) -> u32 {
    loop {
        let number = match random.below(10) {
            0 => MOST_FIELD_NUMBER - random.below(3) as u32,
            1 => random.between(1, MOST_FIELD_NUMBER as usize) as u32,
            _ => random.between(1, 6_000) as u32,
        };
        if used.insert(number) {
            return number;
        }
    }
}

fn enum_values(random: &mut Random, count: usize) -> Vec<EnumValue> {
    let mut names = HashSet::new();
    let mut numbers = HashSet::new();
    (0..count)
        .map(|_| {
            let name = name(random, &mut names);
            EnumValue { name, number: enum_number(random, &mut numbers) }
        })
        .collect()
}

fn enum_number(random: &mut Random, used: &mut HashSet<i32>) -> i32 {
    loop {
        let number = match random.below(10) {
            0 => i32::MIN + random.below(3) as i32,
            1 => i32::MAX - random.below(3) as i32,
            2 => random.next() as i32,
            _ => random.below(1_000) as i32 - 20,
        };
        if used.insert(number) {
            return number;
        }
    }
}
