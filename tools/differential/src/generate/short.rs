//! All short texts over small alphabets, at the places where tokens are expected.

/// What stands before, what is tried, what stands after; for schema X.
pub struct Place {
    before: &'static str,
    alphabet: &'static [&'static str],
    after: &'static str,
}

const TOKENS: &[&str] = &[
    "i", "b", "m", "e", "ON", ":", "-", "1", "08", "{", "}", "<", ">", "'", " ", "#", "key",
    "value", "true", "é",
];
const IN_STRING: &[&str] =
    &["\\", "x", "0", "1", "4", "7", "8", "a", "n", "'", "\"", "\n", "\0", "é", " ", "f"];
const DIGITS: &[&str] =
    &["0", "1", "7", "8", "9", "x", "X", "f", "g", ".", "e", "-", " ", "_", "l:", "\u{a0}"];
const AFTER_NAME: &[&str] = &[
    "0x",
    "'",
    "\\x",
    "\n",
    "\0",
    "<",
    "{",
    ">",
    "}",
    ":",
    "é",
    "(",
    "i",
    "1",
    "99999999999999999999",
    " ",
];

pub const PLACES: &[Place] = &[
    Place { before: "", alphabet: TOKENS, after: "" },
    Place { before: "bm{", alphabet: TOKENS, after: "}" },
    Place { before: "si{key:'a' ", alphabet: TOKENS, after: "}" },
    Place { before: "y:'", alphabet: IN_STRING, after: "'" },
    Place { before: "s:\"", alphabet: IN_STRING, after: "\"" },
    Place { before: "b:'", alphabet: IN_STRING, after: "'" },
    Place { before: "i:", alphabet: DIGITS, after: "" },
    Place { before: "v:", alphabet: DIGITS, after: "" },
    Place { before: "b:", alphabet: DIGITS, after: "" },
    Place { before: "m", alphabet: AFTER_NAME, after: "<>" },
    Place { before: "b:", alphabet: AFTER_NAME, after: "" },
    Place { before: "ie{value", alphabet: AFTER_NAME, after: "}" },
];

/// All texts of a place with up to `most` letters of its alphabet.
pub fn texts(place: &Place, most: usize) -> Vec<Vec<u8>> {
    let mut all = Vec::new();
    let mut last: Vec<String> = vec![String::new()];
    for length in 0..=most {
        all.extend(
            last.iter()
                .map(|middle| format!("{}{middle}{}", place.before, place.after).into_bytes()),
        );
        if length < most {
            last = last
                .iter()
                .flat_map(|m| place.alphabet.iter().map(move |a| format!("{m}{a}")))
                .collect();
        }
    }
    all
}
