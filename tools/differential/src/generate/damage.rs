//! Damaged texts: good ones with bytes taken out, put in, doubled or exchanged; and tokens in no
//! order.

use crate::random::Random;
use crate::schema::Schema;

/// What is put in: every kind of token, and the spellings near the edges of the rules.
const FRAGMENTS: &[&str] = &[
    "{",
    "}",
    "<",
    ">",
    ":",
    "-",
    "[",
    "]",
    ",",
    ";",
    "(",
    "+",
    ".",
    "/",
    "=",
    "\\",
    "'",
    "\"",
    "#",
    " ",
    "\n",
    "\0",
    "\u{1}",
    "_",
    "0",
    "8",
    "0x",
    "0xg",
    "0x1g",
    "08",
    "018",
    "012",
    "007",
    "1.5",
    ".5",
    "1e5",
    "1l",
    "1e",
    "9",
    "99999999999999999999",
    "0x10000000000000000",
    "18446744073709551615",
    "18446744073709551616",
    "2147483648",
    "4294967296",
    "9223372036854775808",
    "01777777777777777777777",
    "true",
    "false",
    "key",
    "value",
    "inf",
    "nan",
    "nope",
    "key: 1",
    "value: 1",
    ": 7",
    ": ''",
    "{}",
    "<>",
    "'a'",
    "\"b\"",
    "'a' 'b'",
    "'\\1' '2'",
    "\\n",
    "\\q",
    "\\x4",
    "\\x",
    "\\x41",
    "\\400",
    "\\377",
    "\\08",
    "\\18",
    "\\8",
    "\\u00e9",
    "\\X41",
    "\\?",
    "\\\n",
    "\\\0",
    "\u{a0}",
    "\u{2028}",
    "é",
    "ª",
    "€",
    "\u{feff}",
    "😀",
    "'\\x'",
    "'\n",
    "0x<>",
    "'\n<>",
    "# x",
];

pub fn damaged(text: &[u8], random: &mut Random) -> Vec<u8> {
    let mut bytes = text.to_vec();
    for _ in 0..random.between(1, 3) {
        once(&mut bytes, random);
    }
    // The domain is UTF-8: a letter that was cut becomes the replacement letter.
    String::from_utf8_lossy(&bytes).into_owned().into_bytes()
}

fn once(bytes: &mut Vec<u8>, random: &mut Random) {
    let at = random.below(bytes.len() + 1);
    let end = (at + random.between(1, 4)).min(bytes.len());
    match random.below(8) {
        0 => bytes.truncate(at),
        1 | 2 => drop(bytes.drain(at..end)),
        3 if at < bytes.len() => bytes[at] = *random.pick(b"{}<>:-'\"\\#0189xa_. \n"),
        4 => {
            let copy = bytes[at..end].to_vec();
            let to = random.below(bytes.len() + 1);
            bytes.splice(to..to, copy);
        }
        _ => {
            let fragment = random.pick(FRAGMENTS).bytes();
            bytes.splice(at..at, fragment);
        }
    }
}

/// Fragments and names of the schema, one after the other.
pub fn soup(schema: &Schema, random: &mut Random) -> Vec<u8> {
    let fields: Vec<&str> = schema.messages.iter().flatten().map(|f| f.name.as_str()).collect();
    let mut out = String::new();
    for _ in 0..random.between(1, 12) {
        let piece = match random.below(10) {
            0..=2 if !fields.is_empty() => *random.pick(&fields),
            3..=4 => *random.pick(&[":", "{", "}", "<", ">", " "]),
            _ => *random.pick(FRAGMENTS),
        };
        out.push_str(piece);
        if random.chance(30) {
            out.push(' ');
        }
    }
    out.into_bytes()
}
