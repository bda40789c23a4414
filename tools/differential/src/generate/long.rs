//! Texts and a table at the limits of size, for schema X.

use crate::requests::Table;
use crate::schema::{I32, MESSAGE};

const LONGEST_TEXT: usize = 1_048_576;
const MOST_NODES: usize = 65_535;
/// Of the field `r`, in the whole field table of schema X.
const FIELD_R: u32 = 9;

/// Texts of exactly the longest length, each a long run of one thing, and the most nodes.
pub fn texts() -> Vec<Vec<u8>> {
    let filled = |before: &str, middle: &str, after: &str| {
        let count = (LONGEST_TEXT - before.len() - after.len()) / middle.len();
        format!("{before}{}{after}", middle.repeat(count)).into_bytes()
    };
    vec![
        filled("", " ", ""),
        filled("#", "x", ""),
        filled("i: 1 #", "é", "\nl: 2"),
        filled("s: '", "a", "'"),
        filled("y: '", "\\x41", "'"),
        filled("s: '", "\\303\\251", "'"),
        filled("s: '", "a", ""),
        filled("y: '", "'  y: '", "'"),
        filled("i: 0x", "0", "1"),
        filled("i: 0", "0", "1"),
        filled("v: ", "9", ""),
        filled("", "n", ": 1"),
        filled("b: t", "r", "ue"),
        filled("i: -", "\t", "5"),
        "r:1 ".repeat(MOST_NODES - 1).into_bytes(),
        "n{}".repeat(MOST_NODES - 1).into_bytes(),
        "vs{}".repeat((MOST_NODES - 1) / 3).into_bytes(),
    ]
}

/// The most nodes: the root and repeated numbers.
pub fn table() -> Table {
    let mut words = vec![u32::from(MESSAGE), 0, 0, 0, MOST_NODES as u32];
    for index in 1..MOST_NODES as u32 {
        words.extend([u32::from(I32), FIELD_R, 0, index, index + 1]);
    }
    Table { words, pool: Vec::new() }
}
