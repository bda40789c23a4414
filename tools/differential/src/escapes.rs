//! The inside of a good string token, respelled where the crate decodes it otherwise.

use crate::rules::{Rule, Rules};

/// A string's inside for the crate.
pub enum Respelled {
    /// The same bytes by document 01, in a spelling that the crate decodes alike, and the rules
    /// used.
    Inside(Vec<u8>, Vec<Rule>),
    /// A bad escape by document 01 that the crate takes or judges elsewhere.
    Refused(Rule),
}

/// One escape by document 01.
struct Escape {
    /// `None` for a bad one.
    value: Option<u8>,
    /// Bytes of the text, the backslash among them.
    length: usize,
    /// The entry under which the crate takes this escape otherwise.
    rule: Option<Rule>,
}

const LETTERS: &[u8] = b"abfnrtv?\\'\"";

pub fn respell(inside: &[u8], rules: &Rules) -> Respelled {
    let mut out = Vec::new();
    let mut used = Vec::new();
    let mut at = 0;
    while at < inside.len() {
        if inside[at] != b'\\' {
            out.push(inside[at]);
            at += 1;
            continue;
        }
        let escape = escape_at(&inside[at..]);
        match (escape.rule.filter(|rule| rules.has(*rule)), escape.value) {
            (Some(rule), None) => return Respelled::Refused(rule),
            (Some(rule), Some(byte)) => {
                out.extend_from_slice(format!("\\{byte:03o}").as_bytes());
                used.push(rule);
            }
            (None, _) => out.extend_from_slice(&inside[at..at + escape.length]),
        }
        at += escape.length;
    }
    Respelled::Inside(out, used)
}

/// The escape at the start of `rest`, which begins with a backslash and goes on.
fn escape_at(rest: &[u8]) -> Escape {
    match rest[1] {
        b'0'..=b'7' => octal(rest),
        b'x' => hex(rest),
        letter if LETTERS.contains(&letter) => Escape { value: Some(0), length: 2, rule: None },
        _ => Escape { value: None, length: 2, rule: Some(Rule::UnknownEscape) },
    }
}

/// One to three octal digits. The crate takes 8 and 9 as second and third digit, and cuts what is
/// over 255.
fn octal(rest: &[u8]) -> Escape {
    let digits = rest[1..].iter().take(3).take_while(|b| (b'0'..=b'7').contains(b)).count();
    let value = rest[1..1 + digits].iter().fold(0u16, |value, b| value * 8 + u16::from(b - b'0'));
    let value = u8::try_from(value).ok();
    let runs_on = digits < 3 && matches!(rest.get(1 + digits), Some(b'8' | b'9'));
    let rule = match value {
        None => Some(Rule::OctalEscapeSize),
        Some(_) if runs_on => Some(Rule::OctalEscapeDigits),
        Some(_) => None,
    };
    Escape { value, length: 1 + digits, rule }
}

/// `\x` with one or two hex digits. The crate needs two, and else finds the whole token bad.
fn hex(rest: &[u8]) -> Escape {
    let digits = rest[2..].iter().take(2).take_while(|b| b.is_ascii_hexdigit()).count();
    let digit = |b: &u8| char::from(*b).to_digit(16).unwrap_or(0) as u8;
    let value = rest[2..2 + digits].iter().fold(0u8, |value, b| value << 4 | digit(b));
    Escape {
        value: (digits > 0).then_some(value),
        length: 2 + digits,
        rule: (digits < 2).then_some(Rule::HexEscape),
    }
}
