//! The crate's refusals as words of the answer.

use protobuf::text_format::ParseError;

/// How the crate words its refusals that document 01 numbers 6 to 10, and the one for an integer
/// that it can't take: over 64 bits, or `0x` without digits. Each follows the place, `LINE:COLUMN:
/// `.
const REASONS: [(&str, &str); 6] = [
    ("Unknown field: ", "6"),
    ("Unknown enum value: ", "7"),
    ("Map field specified more than once: ", "8"),
    ("Integer overflow", "9"),
    ("Expecting bool", "10"),
    ("Parse int error", "int"),
];

/// `REASON MESSAGE`, the reason `-` where it is none of these.
pub fn refusal(error: &ParseError) -> String {
    let message = error.to_string();
    let words = message.splitn(3, ':').nth(2).unwrap_or("").trim_start();
    let reason = REASONS
        .iter()
        .find(|(start, _)| words.starts_with(start))
        .map_or("-", |(_, reason)| reason);
    format!("{reason} {message}")
}
