//! Readings T1 to T11 and S1 to S7: tokens and strings.

use super::helpers::Model;
use super::schemas::x;

fn all(cases: &[(&[u8], &str)]) {
    Model::of(&x()).all(cases);
}

#[test]
fn t1_end_of_a_name() {
    all(&[
        (b"i.x: 1", "4 1"),
        (b"nope\x80", "6 0"),
        (b"i\x80", "4 1"),
        (b"i\"a\"", "5 1"),
    ]);
}

#[test]
fn t2_after_an_integer() {
    all(&[
        (b"i: 1\"a\"", "5 4"),
        (b"i: 1\x80", "4 4"),
        (b"i: 1-1", "5 4"),
        (b"i: 1/", "4 4"),
        (b"m{i:1}", "read"),
        (b"i: 1#c", "read"),
        (b"i:1l:2", "4 2"),
        (b"i: 1.", "4 3"),
        (b"i: 1_", "4 3"),
    ]);
}

#[test]
fn t3_shapes_of_integers() {
    let model = Model::of(&x());
    for (text, print) in [
        ("0", 0),
        ("00", 0),
        ("007", 7),
        ("0xfF", 255),
        ("0XAb", 171),
    ] {
        assert_eq!(model.reprint(&format!("i: {text}")), format!("i: {print}"));
    }
    let zeros = "0".repeat(40);
    assert_eq!(model.reprint(&format!("i: {zeros}1")), "i: 1");
    assert_eq!(model.reprint(&format!("i: 0x{zeros}1")), "i: 1");
    for bad in [
        "018", "08", "0x", "0X", "0xg", "0b1", "1e5", "0x1g", "0x1.", "0.", "1a",
    ] {
        assert_eq!(
            model.outcome(format!("i: {bad}").as_bytes()),
            "4 3",
            "{bad}"
        );
    }
}

#[test]
fn t4_t5_over_64_bits_and_first_digit() {
    all(&[
        (b"i: 99999999999999999999999", "9 3"),
        (b"v: 18446744073709551616", "9 3"),
        (b"v: 18446744073709551615", "read"),
        (b"s: 99999999999999999999999", "5 3"),
        (b"b: 99999999999999999999999", "10 3"),
        (b"99999999999999999999999", "5 0"),
        (b"i: 0x80000000", "9 3"),
        (b"i: - 0x80000001", "9 5"),
        (b"i: - 0x80000000", "read"),
        (b"i: 020000000000", "9 3"),
    ]);
}

#[test]
fn t6_unended_strings() {
    all(&[
        (b"s: 'a\nb'", "4 3"),
        (b"s: 'a\\\nb'", "4 3"),
        (b"s: 'a\0b'", "4 3"),
        (b"s: 'a\\\0b'", "4 3"),
        (b"s: 'a", "4 3"),
        (b"s: 'a\\", "4 3"),
        (b"s: 'a\\'", "4 3"),
        (b"s: 'a\"", "4 3"),
        (b"s: 'a\"'", "read"),
    ]);
}

#[test]
fn t7_t8_t9_other_bytes() {
    all(&[
        (b"y: '\xff\r'", "read"),
        (b"y: '\\xff\\r'", "read"),
        (b"y: '\x01\t\x7f'", "read"),
        (b"# \0\r\xff\ni: 1", "read"),
        (b"# \0\ri: 08", "read"),
        (b"s: '#'", "read"),
        (b"i: 1 (", "4 5"),
        (b"i: 1 ,", "5 5"),
        (b"\xef\xbb\xbfi: 1", "4 0"),
    ]);
    for bad in *b"\0./(=+\x80\xff\x7f" {
        all(&[(&[bad], "4 0")]);
    }
    for unexpected in *b"[],;{}<>:-" {
        all(&[(&[unexpected], "5 0")]);
    }
}

#[test]
fn t10_t11_when_a_token_is_needed() {
    all(&[
        (b"i: 'a", "4 3"),
        (b"s: 08", "4 3"),
        (b"b: 08", "4 3"),
        (b"m 08", "4 2"),
        (b"nope 08", "6 0"),
        (b"e: nope 08", "7 3"),
        (b"i: 2147483648 08", "9 3"),
    ]);
}

#[test]
fn s1_s2_escapes() {
    let model = Model::of(&x());
    for (raw, bytes) in [
        (r"\1234", b"S4" as &[u8]),
        (r"\08", b"\x008"),
        (r"\x414", b"A4"),
        (r"\x4g", b"\x04g"),
    ] {
        assert_eq!(model.table(&format!("y: '{raw}'")).1, bytes, "{raw}");
    }
    for raw in [
        r"\X41",
        r"\u0041",
        r"\U00000041",
        r"\400",
        r"\777",
        r"\8",
        r"\xg",
        r"\q",
    ] {
        assert_eq!(
            model.outcome(format!("y: '{raw}'").as_bytes()),
            "11 3",
            "{raw}"
        );
    }
    assert_eq!(model.outcome(b"y: \"\\x\""), "11 3");
}

#[test]
fn s3_when_escapes_are_judged() {
    all(&[
        (b"i: '\\q'", "5 3"),
        (b"b: '\\q'", "10 3"),
        (b"s: '\\q", "4 3"),
        (b"s: '\\q' 08", "11 3"),
    ]);
}

#[test]
fn s4_utf8() {
    all(&[
        (b"s: '\\303\\251'", "read"),
        (b"s: '\xc3\\251'", "read"),
        (b"s: '\\377'", "11 3"),
        (b"y: '\\377'", "read"),
        (b"s: '\xed\xa0\x80'", "11 3"),
        (b"s: '\xc0\x80'", "11 3"),
        (b"s: '\xf4\x90\x80\x80'", "11 3"),
        (b"s: '\xf4\x8f\xbf\xbf'", "read"),
    ]);
}

#[test]
fn s5_s6_s7() {
    all(&[
        (b"s: '\\0'", "read"),
        (b"y: '\\n'", "read"),
        (b"s: 'a' 'b'", "5 7"),
        (b"s: 'a''b'", "5 6"),
    ]);
    let model = Model::of(&x());
    let (words, _) = model.table("s: 'ab' y: ''");
    assert_eq!(words[10..], [7, 6, 2, 0, 3]);
    let (words, _) = model.table("s: 'ab' vs {}");
    assert_eq!(words[20..], [6, 1, 2, 0, 5]);
}
