//! Readings N1 to N12, L1 to L5, P1 to P6 and Q1 to Q5: tables, live values, print, required
//! check, access. L3's and L4's "mean the same" is no call of the protocol; X1 to X3 neither.

use super::helpers::{words_of, Model, Words};
use super::schemas::x;
use crate::print::{print, Style};

fn model() -> Model {
    Model::of(&x())
}

/// A root with leaves below it.
fn leaves(nodes: &[[u32; 4]], pool: &[u8]) -> Words {
    let mut all = vec![[9, 0, 0, 0, nodes.len() as u32 + 1]];
    for (i, &[kind, field, high, low]) in nodes.iter().enumerate() {
        all.push([kind, field, high, low, i as u32 + 2]);
    }
    (words_of(&all), pool.to_vec())
}

fn valid(table: &Words) -> bool {
    let told = model().compact(table);
    assert_eq!(told == "15 0", model().required(table) == "15 0");
    told != "15 0"
}

#[test]
fn n1_length() {
    let mut table = leaves(&[[1, x::I, 0, 5]], b"");
    table.0.extend([1, 2, 3, 4, 5, 6, 7]);
    assert_eq!(model().compact(&table), "i: 5");
    for words in [
        vec![],
        vec![9, 0, 0, 0],
        vec![9, 0, 0, 0, 0],
        vec![9, 0, 0, 0, 2],
    ] {
        assert!(!valid(&(words, vec![])));
    }
    let many = |nodes: usize| leaves(&vec![[1, x::I, 0, 0]; nodes - 1], b"");
    assert!(valid(&many(65_535)));
    assert!(!valid(&many(65_536)));
}

#[test]
fn n2_n8_ends_and_root() {
    for (word, value) in [
        (0, 1),
        (1, 1),
        (2, 1),
        (3, 1),
        (4, 3),
        (9, 1),
        (9, 3),
        (9, 0),
    ] {
        let mut table = leaves(&[[1, x::I, 0, 5]], b"");
        table.0[word] = value;
        assert!(!valid(&table), "word {word} is {value}");
    }
    let mut inner = model().table("m {}");
    inner.0[8] = 1;
    assert!(!valid(&inner));
}

#[test]
fn n3_n4_runs_of_the_pool() {
    let shared = leaves(&[[6, x::S, 0, 1], [7, x::Y, 0, 1]], b"a");
    assert_eq!(model().compact(&shared), "s: \"a\" y: \"a\"");
    assert!(!valid(&leaves(&[[6, x::S, 1, 0]], b"")));
    assert!(valid(&leaves(&[[6, x::S, 1, 0]], b"a")));
    assert!(!valid(&leaves(&[[6, x::S, u32::MAX, 1]], b"a")));
    assert!(!valid(&leaves(&[[13, 5, 0, 2]], b"a")));
}

#[test]
fn n5_p1_unknown_values() {
    assert_eq!(model().compact(&leaves(&[[11, 1, 0, 5]], b"")), "1: 5");
    let several = leaves(
        &[
            [12, 9, 1, 0],
            [13, 8, 0, 1],
            [1, x::I, 0, 1],
            [11, 9, 0, 7],
            [11, 8, 0, 2],
        ],
        b"\x00",
    );
    let print = "i: 1 8: \"\\000\" 8: 2 9: 4294967296 9: 7";
    assert_eq!(model().compact(&several), print);
    assert!(!valid(&leaves(&[[11, 0, 0, 0]], b"")));
    assert!(valid(&leaves(&[[11, 536_870_911, 0, 0]], b"")));
    assert!(!valid(&leaves(&[[11, 536_870_912, 0, 0]], b"")));
    assert!(!valid(&leaves(&[[14, 1, 0, 0]], b"")));
}

#[test]
fn n6_ranges() {
    let all = u32::MAX;
    let half = 1 << 31;
    for (node, good) in [
        ([1, 0, all, half], true),
        ([1, 0, 0, half], false),
        ([1, 0, all, half - 1], false),
        ([2, 1, half, 0], true),
        ([3, 2, 0, all], true),
        ([3, 2, 1, 0], false),
        ([4, 3, all, all], true),
        ([5, 4, 0, 1], true),
        ([5, 4, 0, 2], false),
        ([5, 4, 1, 0], false),
        ([8, 7, all, all], true),
        ([8, 7, 0, all], false),
        ([11, 9, 1, 0], false),
        ([12, 9, all, all], true),
    ] {
        assert_eq!(valid(&leaves(&[node], b"")), good, "{node:?}");
    }
}

#[test]
fn n9_n10_entries() {
    let entry = |children: &[[u32; 5]]| {
        let end = children.len() as u32 + 2;
        let mut nodes = vec![[9, 0, 0, 0, end], [10, x::SI, 0, 0, end]];
        nodes.extend_from_slice(children);
        (words_of(&nodes), vec![])
    };
    let (key, value) = ([6, 0, 0, 0, 3], [1, 1, 0, 0, 4]);
    assert!(valid(&entry(&[key, value])));
    assert!(valid(&entry(&[[1, 1, 0, 0, 3], [6, 0, 0, 0, 4]])));
    assert!(!valid(&entry(&[])));
    assert!(!valid(&entry(&[key])));
    assert!(!valid(&entry(&[key, [6, 0, 0, 0, 4]])));
    assert!(!valid(&entry(&[key, value, [11, 1, 0, 0, 5]])));
    assert!(!valid(&entry(&[key, [11, 1, 0, 0, 4]])));
    assert!(!valid(&leaves(&[[1, x::SI, 0, 0]], b"")));
    let mut other_field = entry(&[key, value]);
    other_field.0[6] = x::M;
    assert!(!valid(&other_field));
}

#[test]
fn n11_what_is_not_live() {
    assert!(!valid(&leaves(
        &[[6, x::S, 0, 1], [6, x::S, 0, 0]],
        b"\xff"
    )));
    assert!(!valid(&leaves(&[[1, x::I, 1, 0], [1, x::I, 0, 0]], b"")));
}

#[test]
fn l1_l2_l5_live() {
    let text = "si {key: 'a' value: 1} si {key: 'b' value: 2} si {value: 3 key: 'a'}";
    let print = r#"si {key: "b" value: 2} si {key: "a" value: 3}"#;
    assert_eq!(model().reprint(text), print);
    assert_eq!(model().reprint("m {i: 1} m {l: 2}"), "m {l: 2}");
    assert_eq!(model().reprint("r: 1 r: 1"), "r: 1 r: 1");
    assert_eq!(
        model().reprint("ub {} ub {key: 0 value: true}"),
        "ub {key: 0 value: true}"
    );
}

#[test]
fn l3_unknown_order_does_not_show() {
    let one = leaves(&[[11, 8, 0, 1], [11, 9, 0, 2]], b"");
    let two = leaves(&[[11, 9, 0, 2], [11, 8, 0, 1]], b"");
    assert_eq!(model().compact(&one), "8: 1 9: 2");
    assert_eq!(model().compact(&two), "8: 1 9: 2");
}

#[test]
fn p2_to_p6_print() {
    assert_eq!(
        model().reprint("mm {} o: LOW i: 1"),
        "i: 1 mm {key: \"\" value {}} o: LOW"
    );
    assert_eq!(model().reprint("m {}"), "m {}");
    let pretty = model().printed(&model().table("m {m {}}"), Style::Pretty);
    assert_eq!(pretty, "m {\n  m {\n  }\n}\n");
    let all = u32::MAX;
    assert_eq!(model().compact(&leaves(&[[8, x::E, 0, 9]], b"")), "e: : 9");
    assert_eq!(
        model().compact(&leaves(&[[8, x::E, all, all - 6]], b"")),
        "e: : -7"
    );
    let bytes = leaves(&[[7, x::Y, 0, 5]], b"\x7f\x80\x00?\x07");
    assert_eq!(model().compact(&bytes), "y: \"\\177\\200\\000?\\007\"");
    let letter = leaves(&[[6, x::S, 0, 2]], "é".as_bytes());
    assert_eq!(model().compact(&letter), "s: \"\\303\\251\"");
    let empty = model().table("");
    let none = print(&model().schema, 0, &empty.0, &empty.1, Style::Pretty, 0);
    assert_eq!(none, Ok(vec![]));
}

#[test]
fn q1_q2_required() {
    for (text, outcome) in [
        ("n {q: 1}", "passes"),
        ("n {q: 1 q: 2}", "passes"),
        ("n {}", "17 0"),
        ("n {q: 1} n {}", "17 0"),
        ("m {n {}} m {}", "passes"),
        ("bm {value {n {}}} bm {}", "passes"),
        ("bm {key: true value {n {}}} bm {}", "17 0"),
    ] {
        assert_eq!(model().required(&model().table(text)), outcome, "{text}");
    }
    for unknown in [1, x::Q] {
        let nodes = [[9, 0, 0, 0, 3], [9, x::N, 0, 0, 3], [11, unknown, 0, 0, 3]];
        assert_eq!(model().required(&(words_of(&nodes), vec![])), "17 0");
    }
    let root = Model { root: 1, ..model() };
    assert_eq!(root.required(&root.table("")), "17 0");
}

#[test]
fn q3_q4_q5_access() {
    let mut table = model().table("s: 'ab' y: '' s: 'c' si {key: 'k'} i: 1");
    table.0.extend([6, x::S, 0, 1, 8]);
    let refused = Err("18 0".to_string());
    let answers = [
        (0, refused.clone()),
        (1, Ok(b"ab".to_vec())),
        (2, Ok(vec![])),
        (3, Ok(b"c".to_vec())),
        (4, refused.clone()),
        (5, Ok(b"k".to_vec())),
        (6, refused.clone()),
        (7, refused.clone()),
        (8, refused.clone()),
        (u64::MAX, refused),
    ];
    for (node, answer) in answers {
        assert_eq!(model().access(&table, node), answer, "node {node}");
    }
}

#[test]
fn depth_of_tables() {
    let nested = |depth: u32| {
        let end = depth + 1;
        let mut nodes = vec![[9, 0, 0, 0, end]];
        nodes.extend((0..depth).map(|_| [9, x::M, 0, 0, end]));
        (words_of(&nodes), vec![])
    };
    assert!(valid(&nested(32)));
    assert!(!valid(&nested(33)));
    let around_entry = |depth: u32| {
        let end = depth + 4;
        let mut nodes = vec![[9, 0, 0, 0, end]];
        nodes.extend((0..depth).map(|_| [9, x::M, 0, 0, end]));
        nodes.push([10, x::BM, 0, 0, end]);
        nodes.push([5, 0, 0, 0, depth + 3]);
        nodes.push([9, 1, 0, 0, end]);
        (words_of(&nodes), vec![])
    };
    assert!(valid(&around_entry(30)));
    assert!(!valid(&around_entry(31)));
}
