//! Readings G1 to G14, D1 to D3 and R1 to R5: grammar, depth, rooms.

use super::helpers::{Model, AMPLE};
use super::schemas::{x, Image, MAP};
use crate::parse::read;

fn all(cases: &[(&[u8], &str)]) {
    Model::of(&x()).all(cases);
}

#[test]
fn g1_g2_g3_minus() {
    let model = Model::of(&x());
    assert_eq!(model.reprint("i: - #c\n\t5"), "i: -5");
    assert_eq!(model.table("i: -0").0[5..], [1, 0, 0, 0, 2]);
    all(&[
        (b"u: -0", "5 3"),
        (b"v: -1", "5 3"),
        (b"b: -1", "10 3"),
        (b"e: -1", "5 3"),
        (b"s: -1", "5 3"),
        (b"y: -1", "5 3"),
        (b"i: - x", "5 5"),
        (b"i: -", "5 4"),
        (b"i: --5", "5 4"),
        (b"i: - 08", "4 5"),
    ]);
}

#[test]
fn g4_bool() {
    all(&[
        (b"b: true", "read"),
        (b"b: True", "10 3"),
        (b"b: 'true'", "10 3"),
        (b"b: 1", "10 3"),
        (b"b: }", "10 3"),
        (b"b: ", "10 3"),
        (b"b: # c", "10 6"),
        (b"b:", "10 2"),
        (b"b", "5 1"),
        (b"b true", "5 2"),
        (b"b: 08", "4 3"),
    ]);
}

#[test]
fn g5_g6_g7_expected() {
    all(&[
        (b"e: 7", "5 3"),
        (b"e: -1", "5 3"),
        (b"e: 'ON'", "5 3"),
        (b"e: : 7", "5 3"),
        (b"e: LOW", "7 3"),
        (b"o: LOW", "read"),
        (b"e: on", "7 3"),
        (b"m {  # c", "5 8"),
        (b"}", "5 0"),
        (b"m {>", "5 3"),
        (b"m <}", "5 3"),
        (b"7: 5", "5 0"),
        (b"'a'", "5 0"),
        (b"[", "5 0"),
    ]);
}

#[test]
fn g8_to_g11() {
    all(&[
        (b"m{}m<>s:'a'b:true", "read"),
        (b"b:truei:1", "10 2"),
        (b"i: 1, l: 2", "5 4"),
        (b"si {key: 'a' key 08", "8 13"),
        (b"si {value: 1 value", "8 13"),
        (b"si {Key: 'a'}", "6 4"),
        (b"si {1: 'a'}", "5 4"),
        (b"bm {value: {}}", "5 9"),
        (b"bm {value <>}", "read"),
        (b"bm {key: 1}", "10 9"),
        (b"bm <", "5 3"),
        (b"bm {value <}", "5 11"),
    ]);
}

#[test]
fn g12_g13_g14() {
    let model = Model::of(&x());
    let (words, _) = model.table("si {value: 3}");
    let nodes: Vec<[u32; 2]> = words.chunks(5).map(|n| [n[0], n[1]]).collect();
    assert_eq!(nodes, [[9, 0], [10, 11], [1, 1], [6, 0]]);
    assert_eq!(model.reprint("ie {}"), "ie {key: 0 value: ON}");
    assert_eq!(model.reprint("bm {}"), "bm {key: false value {}}");
    all(&[(b"n {}", "read"), (b"nope", "6 0")]);
}

/// `m` nested to this depth around the text, whose first byte then stands at twice the depth.
fn within(depth: usize, text: &str, closed: bool) -> String {
    let closers = if closed {
        "}".repeat(depth)
    } else {
        String::new()
    };
    "m{".repeat(depth) + text + &closers
}

#[test]
fn d1_order_at_depth_33() {
    let model = Model::of(&x());
    for (text, outcome) in [
        ("m 08", "4 66"),
        ("m :", "5 66"),
        ("mm <", "5 67"),
        ("nope {", "6 64"),
        ("m {", "12 66"),
        ("mm {", "12 67"),
        ("m <08", "12 66"),
    ] {
        assert_eq!(
            model.outcome(within(32, text, false).as_bytes()),
            outcome,
            "{text}"
        );
    }
}

#[test]
fn d2_default_message_at_depth_33() {
    let model = Model::of(&x());
    for (text, outcome) in [
        ("mm {}", "12 66"),
        ("mm {key: 'a'}", "12 74"),
        ("mm {", "5 66"),
        ("mm {value {", "12 72"),
        ("mm {key: 'a' key", "8 75"),
    ] {
        assert_eq!(
            model.outcome(within(31, text, false).as_bytes()),
            outcome,
            "{text}"
        );
    }
}

#[test]
fn d3_counting() {
    let model = Model::of(&x());
    for (depth, text, outcome) in [
        (32, "i: 1 s: 'a'", "read"),
        (31, "si {}", "read"),
        (31, "m {}", "read"),
        (30, "mm {}", "read"),
        (30, "mm {value {}}", "read"),
        (31, "m {i: 1}", "read"),
    ] {
        assert_eq!(
            model.outcome(within(depth, text, true).as_bytes()),
            outcome,
            "{text}"
        );
    }
}

fn told(model: &Model, text: &[u8], words: u64, bytes: u64) -> (u32, u64) {
    match read(&model.schema, model.root, text, words, bytes) {
        Ok(_) => (0, 0),
        Err(refusal) => (refusal.number, refusal.place.offset),
    }
}

#[test]
fn r1_r2_r4_rooms() {
    let model = Model::of(&x());
    assert_eq!(told(&model, b"s: 'a' s: '\\x41b'", 0, 0), (13, 3));
    assert_eq!(told(&model, b"s: 'a' s: '\\x41b'", 15, 2), (14, 3));
    assert_eq!(told(&model, b"s: 'a' s: '\\x41b'", 15, 3), (0, 0));
    assert_eq!(told(&model, b"s: 'a' ?", 0, 0), (4, 7));
    assert_eq!(told(&model, b"", 9, 0), (0, 0));
    assert_eq!(told(&model, b"", 4, 0), (13, 1));
}

#[test]
fn r3_count_of_13() {
    let image = Image::new(&[&[("a", 1, MAP, 1, 1, 0)]], &[]);
    let model = Model::of(&image);
    let text = "a{}".repeat(21_845);
    assert_eq!(told(&model, text.as_bytes(), AMPLE, AMPLE), (13, 65_536));
    let text = "a{}".repeat(21_844);
    assert_eq!(told(&model, text.as_bytes(), AMPLE, AMPLE), (0, 0));
    let text = "a{}".repeat(349_525);
    assert_eq!(told(&model, text.as_bytes(), AMPLE, AMPLE), (13, 1_048_576));
}

#[test]
fn r5_limit_of_text() {
    let mut model = Model::of(&x());
    let text = vec![b' '; 1_048_576];
    assert_eq!(model.outcome(&text), "read");
    let longer = vec![0; 1_048_577];
    assert_eq!(model.outcome(&longer), "3 0");
    model.root = 3;
    assert_eq!(model.outcome(&longer), "2 0");
    model.schema = None;
    assert_eq!(model.outcome(&longer), "1 0");
}
