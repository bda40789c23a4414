//! Numbers and bytes, with the boundaries among them.

use crate::random::Random;
use crate::schema::{BOOL, ENUM, I32, I64, U32};

/// Letters of one to four UTF-8 bytes, controls, and those that print as escapes.
const LETTERS: &[char] = &[
    'a',
    'b',
    'z',
    'Z',
    '0',
    '7',
    '8',
    '9',
    ' ',
    '\'',
    '"',
    '\\',
    '?',
    '#',
    '\t',
    '\r',
    '\n',
    '\0',
    '\u{1}',
    '\u{7}',
    '\u{8}',
    '\u{b}',
    '\u{c}',
    '\u{1f}',
    '~',
    '\u{7f}',
    '\u{80}',
    '\u{a0}',
    'é',
    '\u{7ff}',
    '\u{800}',
    '€',
    '\u{d7ff}',
    '\u{e000}',
    '\u{ffff}',
    '😀',
    '\u{10ffff}',
    'n',
    'x',
    '{',
    '}',
];

pub fn letters(random: &mut Random) -> String {
    let length = match random.below(10) {
        0..=1 => 0,
        2..=8 => random.between(1, 5),
        _ => random.between(6, 30),
    };
    (0..length).map(|_| *random.pick(LETTERS)).collect()
}

pub fn bytes(random: &mut Random) -> Vec<u8> {
    if random.chance(50) {
        return letters(random).into_bytes();
    }
    (0..random.below(6)).map(|_| random.next() as u8).collect()
}

/// A number in the range of an integer type, bool or enum.
pub fn number(random: &mut Random, kind: u8) -> i128 {
    let (low, high) = range(kind);
    let near = random.below(3) as i128;
    match random.below(8) {
        0 => low + near.min(high - low),
        1 => high - near.min(high - low),
        2 => (near - 1).clamp(low, high),
        3 => (1i128 << random.below(64)).clamp(low, high),
        4 => i128::from(random.next()).rem_euclid(high - low + 1) + low,
        _ => (random.below(300) as i128 - 100).clamp(low, high),
    }
}

pub fn range(kind: u8) -> (i128, i128) {
    match kind {
        I32 | ENUM => (i128::from(i32::MIN), i128::from(i32::MAX)),
        I64 => (i128::from(i64::MIN), i128::from(i64::MAX)),
        U32 => (0, i128::from(u32::MAX)),
        BOOL => (0, 1),
        _ => (0, i128::from(u64::MAX)),
    }
}
