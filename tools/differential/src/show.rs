//! Inputs and outcomes in words.

use crate::answers::{Crate, Ours, Reason};
use crate::places::Place;
use crate::rules::Rule;

const MOST_SHOWN: usize = 100;

/// A text on one line: what isn't printable ASCII as `[U+000A]`.
pub fn text(bytes: &[u8]) -> String {
    let letter = |c: char| match c {
        ' '..='~' => c.to_string(),
        _ => format!("[U+{:04X}]", u32::from(c)),
    };
    String::from_utf8_lossy(bytes).chars().map(letter).collect()
}

fn print(bytes: &[u8]) -> String {
    let shown = text(bytes);
    match shown.len() {
        0 => "read as nothing set".to_owned(),
        n if n > MOST_SHOWN => format!("read as `{}..`", &shown[..24]),
        _ => format!("read as `{shown}`"),
    }
}

pub fn ours(outcome: &Ours) -> String {
    match outcome {
        Ours::Accepted(values) => print(&values.compact),
        Ours::AcceptedAlone => "read".to_owned(),
        Ours::Refused { number, at, .. } => format!("refused {number} at {at}"),
        Ours::Broken(answer) => format!("broken: {answer}"),
    }
}

pub fn theirs(outcome: &Crate) -> String {
    match outcome {
        Crate::Accepted(values) => print(&values.compact),
        Crate::Refused(Reason::Number(number), _) => format!("refused {number}"),
        Crate::Refused(_, message) => {
            let words = message.splitn(3, ':').nth(2).unwrap_or(message).trim();
            format!("refused ({})", text(words.as_bytes()))
        }
    }
}

/// An outcome, with `LINE:COLUMN` of a refusal.
pub fn our_place(outcome: &Ours) -> String {
    match outcome {
        Ours::Refused { place: Place { line, column }, .. } => {
            format!("{}, {line}:{column}", ours(outcome))
        }
        _ => ours(outcome),
    }
}

pub fn their_place(outcome: &Crate) -> String {
    let place = match outcome {
        Crate::Refused(_, message) => Place::of_message(message),
        Crate::Accepted(_) => None,
    };
    match place {
        Some(Place { line, column }) => format!("{}, {line}:{column}", theirs(outcome)),
        None => theirs(outcome),
    }
}

/// What an entry says of an outcome: its place only where the entry is about places.
pub fn our_part(rule: Rule, outcome: &Ours) -> String {
    match rule.is_of_places() {
        true => our_place(outcome),
        false => ours(outcome),
    }
}

pub fn their_part(rule: Rule, outcome: &Crate) -> String {
    match rule.is_of_places() {
        true => their_place(outcome),
        false => theirs(outcome),
    }
}

/// An outcome in one word, for counting.
pub fn our_class(outcome: &Ours) -> String {
    match outcome {
        Ours::Accepted(_) | Ours::AcceptedAlone => "read".to_owned(),
        Ours::Refused { number, .. } => number.to_string(),
        Ours::Broken(_) => "broken".to_owned(),
    }
}

pub fn their_class(outcome: &Crate) -> String {
    match outcome {
        Crate::Accepted(_) => "read".to_owned(),
        Crate::Refused(Reason::Number(number), _) => number.to_string(),
        Crate::Refused(..) => "refused".to_owned(),
    }
}
