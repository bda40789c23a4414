//! Examples (a) to (j) of document 01, and those that it says are run only.

use super::helpers::{words_of, Model};
use super::schemas::{e, retyped};
use crate::parse::read;
use crate::print::{print, Style};

#[test]
fn schema_e_is_64_bytes() {
    assert_eq!(e().bytes().len(), 64);
    assert_eq!(e().names, b"idnamelimitschild");
}

#[test]
fn a_empty_text() {
    let model = Model::of(&e());
    let table = model.table("");
    assert_eq!(table, (vec![9, 0, 0, 0, 1], vec![]));
    assert_eq!(model.compact(&table), "");
}

#[test]
fn b_entry_with_value_first() {
    let model = Model::of(&e());
    let table = model.table("id: -5 limits {value: 3 key: \"a\"}");
    let nodes = [
        [9, 0, 0, 0, 5],
        [1, 0, 4294967295, 4294967291, 2],
        [10, 2, 0, 0, 5],
        [3, 1, 0, 3, 4],
        [6, 0, 0, 1, 5],
    ];
    assert_eq!(table, (words_of(&nodes), b"a".to_vec()));
    let compact = "id: -5 limits {key: \"a\" value: 3}";
    assert_eq!(compact.len(), 33);
    assert_eq!(model.compact(&table), compact);
    let pretty = "id: -5\nlimits {\n  key: \"a\"\n  value: 3\n}\n";
    assert_eq!(pretty.len(), 40);
    assert_eq!(model.printed(&table, Style::Pretty), pretty);
}

#[test]
fn c_ends_of_i64() {
    Model::of(&retyped(2)).all(&[
        (b"id: 9223372036854775807", "read"),
        (b"id: 9223372036854775808", "9 4"),
        (b"id: -9223372036854775808", "read"),
        (b"id: -9223372036854775809", "9 5"),
    ]);
}

#[test]
fn d_over_32_bits() {
    Model::of(&e()).all(&[(b"id: 2147483648", "9 4")]);
    Model::of(&retyped(3)).all(&[(b"id: 4294967296", "9 4")]);
}

#[test]
fn e_f_i_j_refusals() {
    Model::of(&e()).all(&[
        (b"child {>", "5 7"),
        (b"child <>", "read"),
        (b"limits <>", "5 7"),
        (b"child: {}", "5 5"),
        (b"id: 08", "4 4"),
        (b"limits {key: \"a\" key: \"b\"}", "8 17"),
        (b"limits {other: 1}", "6 8"),
    ]);
}

#[test]
fn g_h_i_prints() {
    let model = Model::of(&e());
    let table = model.table("id: 1 id: 2");
    assert_eq!(table.0.len(), 3 * 5);
    assert_eq!(model.compact(&table), "id: 2");
    assert_eq!(model.reprint("limits {}"), "limits {key: \"\" value: 0}");
    assert_eq!(model.reprint("id: 012"), "id: 10");
}

#[test]
fn child_pretty() {
    let model = Model::of(&e());
    let table = model.table("child {}");
    assert_eq!(model.printed(&table, Style::Pretty), "child {\n}\n");
    let deeper = model.table("child {child {id: 1}}");
    let lines = "child {\n  child {\n    id: 1\n  }\n}\n";
    assert_eq!(model.printed(&deeper, Style::Pretty), lines);
}

#[test]
fn depth_32_and_33() {
    let model = Model::of(&e());
    let nested = |depth: usize| "child{".repeat(depth) + &"}".repeat(depth);
    assert_eq!(model.outcome(nested(32).as_bytes()), "read");
    assert_eq!(model.outcome(nested(33).as_bytes()), "12 197");
}

#[test]
fn room_short_by_one() {
    let model = Model::of(&e());
    let text = b"name: 'abc' limits {}";
    let ask = |words, bytes| match read(&model.schema, 0, text, words, bytes) {
        Ok(_) => (0, 0),
        Err(refusal) => (refusal.number, refusal.place.offset),
    };
    assert_eq!(ask(25, 3), (0, 0));
    assert_eq!(ask(24, 3), (13, 5));
    assert_eq!(ask(25, 2), (14, 3));
    assert_eq!(ask(24, 2), (13, 5));
    let (words, pool) = model.table("name: 'abc'");
    let put = |room| print(&model.schema, 0, &words, &pool, Style::Compact, room);
    assert_eq!(put(11), Ok(b"name: \"abc\"".to_vec()));
    assert_eq!(
        put(10).map_err(|r| (r.number, r.place.offset)),
        Err((16, 11))
    );
}

#[test]
fn every_escape() {
    let model = Model::of(&retyped(7));
    let text = r#"id: '\a\b\f\n\r\t\v\?\\\'\"\0\12\377\x7\xFf'"#;
    let bytes = b"\x07\x08\x0c\n\r\t\x0b?\\'\"\0\n\xff\x07\xff";
    assert_eq!(model.table(text).1, bytes);
    let print = r#"id: "\007\010\014\n\r\t\013?\\\'\"\000\n\377\007\377""#;
    assert_eq!(model.reprint(text), print);
}
