//! Places: line and column of an offset, and the place that the crate gives of the same refusal.

use std::ops::RangeInclusive;

use crate::answers::Ours;
use crate::rules::{Rule, Rules};
use crate::tokens::{skip_space, token_at, Token};

/// Refusals that stand at a byte of the text, or at its end.
pub const PLACED: RangeInclusive<u64> = 4..=12;

#[derive(Clone, Copy, PartialEq, Eq, Debug)]
pub struct Place {
    pub line: u64,
    pub column: u64,
}

/// What a refusal that stands at no byte has.
pub const NOWHERE: Place = Place { line: 0, column: 0 };

impl Place {
    /// Lines from 1, a newline ends one; columns from 1, one for each byte that counts.
    fn counted(text: &[u8], at: usize, counts: impl Fn(u8) -> bool) -> Place {
        let before = &text[..at];
        let newlines = before.iter().filter(|b| **b == b'\n').count();
        let on_line = before.iter().rev().take_while(|b| **b != b'\n');
        let columns = on_line.filter(|b| counts(**b)).count();
        Place { line: newlines as u64 + 1, column: columns as u64 + 1 }
    }

    /// Document 02's: each byte takes a column.
    pub fn in_bytes(text: &[u8], at: usize) -> Place {
        Place::counted(text, at, |_| true)
    }

    /// The crate's: each letter takes a column, told by the first of its UTF-8 bytes.
    fn in_letters(text: &[u8], at: usize) -> Place {
        Place::counted(text, at, |b| b & 0xc0 != 0x80)
    }

    /// `LINE:COLUMN: ..`, as the crate words its refusals.
    pub fn of_message(message: &str) -> Option<Place> {
        let mut parts = message.splitn(3, ':');
        let line = parts.next()?.parse().ok()?;
        let column = parts.next()?.parse().ok()?;
        Some(Place { line, column })
    }
}

/// Whether line and column are those of the offset, and 0 in a refusal that stands at no byte.
pub fn is_of_offset(text: &[u8], ours: &Ours) -> bool {
    match ours {
        Ours::Refused { number, at, place } if PLACED.contains(number) => {
            offset_in(text, *at).is_some_and(|at| *place == Place::in_bytes(text, at))
        }
        Ours::Refused { place, .. } => *place == NOWHERE,
        _ => true,
    }
}

pub fn offset_in(text: &[u8], at: u64) -> Option<usize> {
    usize::try_from(at).ok().filter(|at| *at <= text.len())
}

/// The place that the crate gives where we refuse at this offset, and the rule that parts it from
/// ours, if it is another.
pub fn of_crate(text: &[u8], at: usize, rules: &Rules) -> (Place, Rule) {
    let place = |at: usize| match rules.has(Rule::Columns) {
        true => Place::in_letters(text, at),
        false => Place::in_bytes(text, at),
    };
    match token_before(text, at) {
        Some(before) if ends_lexer(text, at) && rules.has(Rule::BadTokenPlace) => {
            (place(before), Rule::BadTokenPlace)
        }
        _ => (place(at), Rule::Columns),
    }
}

/// Whether the crate's lexer makes no token here: a bad one, or an integer over 64 bits.
fn ends_lexer(text: &[u8], at: usize) -> bool {
    at < text.len()
        && matches!(
            token_at(text, at).0,
            Token::Bad(_) | Token::Decimal(None) | Token::Octal(None) | Token::Hex(None)
        )
}

/// Where the last token before this offset begins.
fn token_before(text: &[u8], at: usize) -> Option<usize> {
    let mut last = None;
    let mut start = skip_space(text, 0);
    while start < at {
        last = Some(start);
        start = skip_space(text, token_at(text, start).1);
    }
    last
}

#[cfg(test)]
mod tests {
    use super::*;

    fn both(text: &str, at: usize) -> [(u64, u64); 2] {
        let rules = Rules::all_but(Vec::new());
        let ours = Place::in_bytes(text.as_bytes(), at);
        let (theirs, _) = of_crate(text.as_bytes(), at, &rules);
        [ours, theirs].map(|place| (place.line, place.column))
    }

    #[test]
    fn lines_end_with_a_newline_only() {
        assert_eq!(both("i: 1\rnope", 5), [(1, 6), (1, 6)]);
        assert_eq!(both("i: 1\r\nnope", 6), [(2, 1), (2, 1)]);
        assert_eq!(both("i:\n", 3), [(2, 1), (2, 1)]);
    }

    #[test]
    fn the_crate_counts_letters() {
        assert_eq!(both("s: 'é' nope", 8), [(1, 9), (1, 8)]);
        assert_eq!(both("s: 'é'\n😀 nope", 13), [(2, 6), (2, 3)]);
    }

    #[test]
    fn the_crate_gives_the_token_before_a_bad_one() {
        assert_eq!(both("i: 1\n \u{1}", 6), [(2, 2), (1, 4)]);
        assert_eq!(both(" \u{1}", 1), [(1, 2), (1, 2)]);
        assert_eq!(both("i: -99999999999999999999", 4), [(1, 5), (1, 4)]);
    }

    #[test]
    fn a_place_in_words() {
        let place = Some(Place { line: 2, column: 13 });
        assert_eq!(Place::of_message("2:13: Incorrect input"), place);
        assert_eq!(Place::of_message("Incorrect input"), None);
    }
}
