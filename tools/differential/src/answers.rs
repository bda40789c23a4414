//! Answers of both programs, as far as they are compared.

use crate::hex::from_hex;
use crate::places::Place;

/// What was read or what stood in the table: both prints, and whether no required field is missing.
#[derive(Clone, PartialEq, Eq, Debug)]
pub struct Values {
    pub compact: Vec<u8>,
    pub pretty: Vec<u8>,
    pub complete: bool,
}

/// Why the crate refused.
#[derive(Clone, Copy, PartialEq, Eq, Debug)]
pub enum Reason {
    /// One of document 01's 6 to 10.
    Number(u64),
    /// An integer over 64 bits.
    Integer,
    Other,
}

#[derive(Clone, PartialEq, Eq, Debug)]
pub enum Crate {
    Accepted(Values),
    /// The reason, and the crate's words, which begin with its place.
    Refused(Reason, String),
}

#[derive(Clone, PartialEq, Eq, Debug)]
pub enum Ours {
    Accepted(Values),
    /// Accepted where the crate refuses, so that no prints were asked for.
    AcceptedAlone,
    Refused {
        number: u64,
        at: u64,
        place: Place,
    },
    /// No answer in the protocol's form, or one that says `touched`.
    Broken(String),
}

/// `T ok COMPACT PRETTY` or `T no REASON MESSAGE`, then `Q ok` or `Q no`.
pub fn crate_reading(t: &str, q: &str) -> Option<Crate> {
    let words: Vec<&str> = t.splitn(4, ' ').collect();
    match words.as_slice() {
        ["T", "ok", compact, pretty] => Some(Crate::Accepted(Values {
            compact: from_hex(compact)?,
            pretty: from_hex(pretty)?,
            complete: crate_complete(q)?,
        })),
        ["T", "no", reason, message] => {
            Some(Crate::Refused(reason_of(reason), (*message).to_owned()))
        }
        _ => None,
    }
}

fn reason_of(word: &str) -> Reason {
    match word {
        "int" => Reason::Integer,
        _ => word.parse().map_or(Reason::Other, Reason::Number),
    }
}

fn crate_complete(q: &str) -> Option<bool> {
    match q {
        "Q ok" => Some(true),
        "Q no" => Some(false),
        _ => None,
    }
}

/// `C ok HEX`, `Y ok HEX` and `Q ok` or `Q no`.
pub fn crate_table(c: &str, y: &str, q: &str) -> Option<Values> {
    Some(Values {
        compact: from_hex(c.strip_prefix("C ok ")?)?,
        pretty: from_hex(y.strip_prefix("Y ok ")?)?,
        complete: crate_complete(q)?,
    })
}

/// `T 0 0 ..` or `T NO AT LINE COL kept`; the values follow in other answers.
pub fn our_refusal(t: &str) -> Result<(), Ours> {
    let words: Vec<&str> = t.split(' ').collect();
    match words.as_slice() {
        ["T", "0", "0", _, _, _, _, "kept"] => Ok(()),
        ["T", refusal @ .., "kept"] => {
            Err(refused(refusal).unwrap_or_else(|| Ours::Broken(t.to_owned())))
        }
        _ => Err(Ours::Broken(t.to_owned())),
    }
}

/// `NO AT LINE COL`.
fn refused(words: &[&str]) -> Option<Ours> {
    let numbers: Vec<u64> = words.iter().map(|word| word.parse().ok()).collect::<Option<_>>()?;
    match *numbers.as_slice() {
        [number, at, line, column] if number > 0 => {
            Some(Ours::Refused { number, at, place: Place { line, column } })
        }
        _ => None,
    }
}

/// The answers to `C`, `Y` and `Q`.
pub fn our_values(c: &str, y: &str, q: &str) -> Ours {
    let complete = match q {
        "Q 0 0" => true,
        "Q 17 0 0 0" => false,
        _ => return Ours::Broken(q.to_owned()),
    };
    match (our_print("C", c), our_print("Y", y)) {
        (Some(compact), Some(pretty)) => Ours::Accepted(Values { compact, pretty, complete }),
        (None, _) => Ours::Broken(c.to_owned()),
        (_, None) => Ours::Broken(y.to_owned()),
    }
}

fn our_print(request: &str, line: &str) -> Option<Vec<u8>> {
    let words: Vec<&str> = line.split(' ').collect();
    match words.as_slice() {
        [name, "0", "0", length, hex, "kept"] if *name == request => {
            from_hex(hex).filter(|bytes| bytes.len().to_string() == *length)
        }
        _ => None,
    }
}
