//! Readings I1 to I12: the schema image.

use super::helpers::{Model, AMPLE};
use super::schemas::{e, x, Image, MAP, OPTIONAL, REQUIRED};
use crate::parse::read;
use crate::schema::accept;

fn accepted(image: &Image) -> bool {
    accept(&image.bytes()).is_some()
}

/// An image with one of its records changed.
fn spoilt(mut image: Image, spoil: impl FnOnce(&mut Image)) -> Image {
    spoil(&mut image);
    image
}

#[test]
fn e_and_x_are_accepted() {
    assert!(accepted(&e()) && accepted(&x()));
    assert_eq!(x().messages[2], [21, 0]);
}

#[test]
fn i1_unused_name_byte() {
    let image = spoilt(e(), |i| {
        i.names.push(255);
        i.count();
    });
    assert!(accepted(&image));
    let overlapping = spoilt(e(), |i| i.fields[1][..2].copy_from_slice(&[0, 3]));
    assert!(accepted(&overlapping));
}

#[test]
fn i2_i3_running_totals() {
    assert!(!accepted(&spoilt(x(), |i| i.messages[2] = [0, 0])));
    assert!(!accepted(&spoilt(x(), |i| i.messages[1] = [19, 1])));
    assert!(!accepted(&spoilt(x(), |i| i.enums[1] = [0, 5])));
    let empty = spoilt(x(), |i| {
        i.enums.push([7, 0]);
        i.count();
    });
    assert!(!accepted(&empty));
}

#[test]
fn i4_aliases_and_names() {
    assert!(!accepted(&spoilt(x(), |i| i.values[3][2] = 7)));
    assert!(!accepted(&spoilt(x(), |i| i.fields[1][2] = 1)));
    let same_name = spoilt(x(), |i| i.fields[1][0] = i.fields[0][0]);
    assert!(!accepted(&same_name));
    let across_enums = spoilt(x(), |i| i.values[0][2] = 7);
    assert!(accepted(&across_enums));
}

#[test]
fn i5_number_0_and_name_length_0() {
    assert!(!accepted(&spoilt(e(), |i| i.fields[0][2] = 0)));
    assert!(!accepted(&spoilt(e(), |i| i.fields[0][1] = 0)));
    assert!(accepted(&spoilt(e(), |i| i.fields[0][2] = 536_870_911)));
}

#[test]
fn i6_i7_i11_reference_and_key_type() {
    assert!(!accepted(&spoilt(e(), |i| i.fields[3][6] = 1)));
    assert!(!accepted(&spoilt(e(), |i| i.fields[0][6] = 1)));
    assert!(!accepted(&spoilt(x(), |i| i.fields[13][6] = 2)));
    assert!(accepted(&spoilt(x(), |i| i.fields[13][6] = 0)));
    for key in 0..16 {
        let image = spoilt(e(), |i| i.fields[2][4] = key);
        assert_eq!(accepted(&image), (1..=6).contains(&key));
        let image = spoilt(e(), |i| i.fields[0][4] = key);
        assert_eq!(accepted(&image), key == 0);
        let image = spoilt(e(), |i| i.fields[0][5] = key);
        assert_eq!(accepted(&image), (1..=7).contains(&key) || key == 9);
    }
}

#[test]
fn i8_length() {
    let bytes = e().bytes();
    for length in 0..bytes.len() {
        assert!(accept(&bytes[..length]).is_none());
    }
    assert!(accept(&[&bytes[..], &[0]].concat()).is_none());
    assert!(!accepted(&spoilt(e(), |i| i.header[0] = 2)));
    assert!(!accepted(&spoilt(e(), |i| i.header[6] = 1)));
    assert!(!accepted(&spoilt(e(), |i| i.fields[0][7] = 1)));
    assert!(!accepted(&Image::new(&[], &[])));
    assert!(accepted(&Image::new(&[&[]], &[])));
}

#[test]
fn i9_required_message_that_holds_itself() {
    let image = Image::new(&[&[("a", 1, REQUIRED, 0, 9, 0)]], &[]);
    let model = Model::of(&image);
    for depth in [0, 1, 32] {
        let text = "a{".repeat(depth) + &"}".repeat(depth);
        assert_eq!(model.required(&model.table(&text)), "17 0");
    }
}

#[test]
fn i12_root() {
    let schema = accept(&e().bytes());
    for root in [1, 255, 256, 4_294_967_295] {
        let refusal = read(&schema, root, b"", AMPLE, AMPLE).unwrap_err();
        assert_eq!((refusal.number, refusal.place.offset), (2, 0));
    }
}

#[test]
fn names() {
    for (name, good) in [
        ("_", true),
        ("a9_Z", true),
        ("9a", false),
        ("a-", false),
        ("a.b", false),
    ] {
        let image = Image::new(&[&[(name, 1, OPTIONAL, 0, 1, 0)]], &[]);
        assert_eq!(accepted(&image), good, "{name}");
        let image = Image::new(&[&[("m", 1, MAP, 1, 8, 0)]], &[&[(name, -1)]]);
        assert_eq!(accepted(&image), good, "{name}");
    }
}
