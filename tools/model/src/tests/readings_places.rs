//! Readings 1.1 to 1.6 of document 02: line and column.

use super::helpers::{placed, Model, AMPLE};
use super::schemas::{n, x};
use crate::parse::read;
use crate::print::{print, Style};
use crate::required::required;
use crate::table::access;

/// Each text, read with these rooms, with its refusal.
fn all(model: &Model, rooms: (u64, u64), cases: &[(&[u8], &str)]) {
    for (text, told) in cases {
        let shown = String::from_utf8_lossy(text);
        let done = read(&model.schema, model.root, text, rooms.0, rooms.1);
        let refusal = done.expect_err(&shown);
        assert_eq!(placed(refusal), *told, "{shown}");
    }
}

fn all_of_x(cases: &[(&[u8], &str)]) {
    all(&Model::of(&x()), (AMPLE, AMPLE), cases);
}

#[test]
fn lines_end_with_a_newline_only() {
    all_of_x(&[
        (b"nope", "6 0 1:1"),
        (b"i: 1\rnope", "6 5 1:6"),
        (b"i: 1\r\nnope", "6 6 2:1"),
        (b"i: 1\n\rnope", "6 6 2:2"),
        (b"i: 1\x0bnope", "6 5 1:6"),
        (b"i: 1\x0cnope", "6 5 1:6"),
        (b"\n\n\ni: 1 nope", "6 8 4:6"),
    ]);
}

#[test]
fn columns_are_bytes() {
    all_of_x(&[
        ("s: 'é' nope".as_bytes(), "6 8 1:9"),
        ("s: '€' nope".as_bytes(), "6 9 1:10"),
        (b"\t\ti: 1 nope", "6 7 1:8"),
        (b"y: '\xff\r\t' nope", "6 9 1:10"),
        ("# é\n  # é\r\n \t(".as_bytes(), "4 15 3:3"),
    ]);
}

#[test]
fn the_end_of_the_text() {
    all_of_x(&[
        (b"i:\n", "5 3 2:1"),
        (b"i:", "5 2 1:3"),
        (b"m { # c", "5 7 1:8"),
        (b"m { # c\n", "5 8 2:1"),
        (b"b:\n\t", "10 4 2:2"),
    ]);
}

#[test]
fn a_string_with_a_newline() {
    all_of_x(&[
        (b"s: 'a\nb' nope", "4 3 1:4"),
        (b"i: 1\ns: 'a\nb' nope", "4 8 2:4"),
    ]);
}

#[test]
fn the_byte_whose_offset_is_returned() {
    all_of_x(&[
        (b"i: -\n 2147483649", "9 6 2:2"),
        (b"si {\nkey: 'a'\n key", "8 15 3:2"),
        (b"e:\n\nnope", "7 4 3:1"),
        (b"s:\n'\\q'", "11 3 2:1"),
    ]);
    let model = Model::of(&n());
    let nested = |depth: usize, text: &str| "m {".repeat(depth) + text;
    let closer = nested(31, "\nmm {\n}");
    let opener = nested(32, "\nm\n {");
    let cases: [(&[u8], &str); 2] = [
        (closer.as_bytes(), "12 99 3:1"),
        (opener.as_bytes(), "12 100 3:2"),
    ];
    all(&model, (AMPLE, AMPLE), &cases);
}

#[test]
fn refusals_without_a_place() {
    let mut model = Model::of(&x());
    let text = b"s: 'a'\ns: 'b'\n";
    all(&model, (14, 2), &[(text, "13 3 0:0")]);
    all(&model, (15, 1), &[(text, "14 2 0:0")]);
    all(&model, (AMPLE, AMPLE), &[(&[b'\n'; 1_048_577], "3 0 0:0")]);
    let (words, pool) = model.table("n {} s: 'a'");
    let put = print(&model.schema, 0, &words, &pool, Style::Pretty, 0);
    assert_eq!(put.map_err(placed), Err("16 13 0:0".to_string()));
    let missing = required(&model.schema, 0, &words, &pool);
    assert_eq!(missing.map_err(placed), Err("17 0 0:0".to_string()));
    let lent = access(&model.schema, 0, &words, &pool, 0);
    assert_eq!(lent.map_err(placed), Err("18 0 0:0".to_string()));
    let bad = print(&model.schema, 0, &words[1..], &pool, Style::Pretty, 0);
    assert_eq!(bad.map_err(placed), Err("15 0 0:0".to_string()));
    model.root = 3;
    all(&model, (AMPLE, AMPLE), &[(b"\n(", "2 0 0:0")]);
    model.schema = None;
    all(&model, (AMPLE, AMPLE), &[(b"\n(", "1 0 0:0")]);
}
