//! The line protocol, and the lines that are no request.

use super::schemas::e;
use crate::protocol::State;

/// The answers to these lines, numbered from 1.
fn answers(lines: &[&str]) -> Vec<String> {
    let mut state = State::default();
    let numbered = lines.iter().zip(1..);
    numbered
        .filter_map(|(line, number)| state.line(number, line.as_bytes()))
        .collect()
}

fn image_line() -> String {
    let digits: String = e().bytes().iter().map(|b| format!("{b:02x}")).collect();
    format!("S {digits}")
}

#[test]
fn all_starts_empty() {
    let all = answers(&["T 5 0 -", "C 0", "Y 0", "Q", "A 0"]);
    assert_eq!(
        all,
        [
            "T 1 0 0 0 kept",
            "C 1 0 0 0 kept",
            "Y 1 0 0 0 kept",
            "Q 1 0 0 0",
            "A 1 0 0 0"
        ]
    );
}

#[test]
fn a_read_is_the_state_after_it() {
    let all = answers(&[
        &image_line(),
        "C 9",
        "T 20 9 6e616d653a276127",
        "C 99",
        "A 1",
        "Q",
        "T 20 9 6e",
        "C 99",
        "P -",
        "C 99",
    ]);
    let table = format!(
        "{}{}",
        "0000000900000000000000000000000000000002", "00000006000000010000000000000001"
    );
    assert_eq!(
        all,
        [
            "C 15 0 0 0 kept".to_string(),
            format!("T 0 0 2 1 {table}00000002 61 kept"),
            "C 0 0 9 6e616d653a20226122 kept".to_string(),
            "A 0 0 61".to_string(),
            "Q 0 0".to_string(),
            "T 6 0 1 1 kept".to_string(),
            "C 0 0 9 6e616d653a20226122 kept".to_string(),
            "C 15 0 0 0 kept".to_string(),
        ]
    );
}

#[test]
fn a_carry_answers_the_whole_buffer_and_leaves_the_state() {
    let image = image_line();
    let older = image.replace('S', "O");
    let all = answers(&[
        "X 0 2 9 9",
        &image,
        "T 20 9 6e616d653a276127",
        "X 0 9 9 9",
        &older,
        "X 0 8 10 1",
        "X 1 11 9 1",
        "X 1 11 10 0",
        "X 1 11 10 1",
        "C 9",
    ]);
    let text = "6e616d653a20226122";
    let table = format!(
        "{}{}",
        "0000000900000000000000000000000000000002", "0000000600000001000000000000000100000002"
    );
    assert_eq!(
        all,
        [
            "X print 1 0 0 0 a5a5 kept".to_string(),
            format!("T 0 0 2 1 {table} 61 kept"),
            format!("X read 1 0 0 0 {text} kept"),
            "X print 16 9 0 0 a5a5a5a5a5a5a5a5 kept".to_string(),
            format!("X read 13 2 0 0 {text}0aa5 kept"),
            format!("X read 14 1 0 0 {text}0aa5 kept"),
            format!("X 0 0 2 1 {table} 61 {text}0aa5 kept"),
            format!("C 0 0 9 {text} kept"),
        ]
    );
}

#[test]
fn lines_that_are_no_request() {
    for line in [
        "s -",
        "S",
        "S  -",
        "S - ",
        "S 0",
        "S 0G",
        "S 0A",
        " Q",
        "Q 1",
        "R",
        "R -1",
        "R +1",
        "R a",
        "N 0000",
        "T 5 0",
        "T 5 -",
        "C",
        "C 1 2",
        "A",
        "A 18446744073709551616",
        "X",
        "X 0 1 1",
        "X 2 1 1 1",
        "X 0 1 1 1 1",
        "X - 1 1 1",
        "X 0 2621505 0 0",
        "O",
        "O 0",
        "é",
        "Q\r",
    ] {
        assert_eq!(answers(&["", "# Q", line]), ["? 3"], "{line}");
    }
}
