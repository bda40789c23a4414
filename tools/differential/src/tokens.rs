//! Document 01's tokens, seen with an eye to where the crate's lexer cuts or judges otherwise.

#[derive(Clone, PartialEq, Eq, Debug)]
pub enum Token {
    Name,
    /// `None` for a value over 64 bits.
    Decimal(Option<u64>),
    Octal(Option<u64>),
    Hex(Option<u64>),
    Text,
    Symbol(u8),
    Bad(Bad),
}

/// Why a token is bad (refusal 4).
#[derive(Clone, Copy, PartialEq, Eq, Debug)]
pub enum Bad {
    /// `08`: an octal integer directly followed by a digit.
    NotOctal,
    /// An integer directly followed by a letter, `_` or `.`.
    RunOn,
    /// `0x` without digits.
    NoHexDigit,
    /// A string that never ends, or has a newline or zero byte inside.
    Unended,
    /// A string with a newline or zero byte directly after a backslash.
    BackslashNewline,
    /// White space outside ASCII.
    Space,
    /// A letter outside ASCII.
    Letter,
    /// ASCII punctuation that is no symbol.
    Punctuation,
    /// Any other byte of no class.
    Other,
}

const SYMBOLS: &[u8] = b"{}<>:-[],;";

pub fn is_name_byte(b: u8) -> bool {
    b.is_ascii_alphanumeric() || b == b'_'
}

/// The place after separators and comments.
pub fn skip_space(text: &[u8], mut at: usize) -> usize {
    while at < text.len() {
        match text[at] {
            b' ' | b'\t' | b'\n' | b'\r' | 0x0b | 0x0c => at += 1,
            b'#' => at += text[at..].iter().position(|b| *b == b'\n').unwrap_or(text.len() - at),
            _ => return at,
        }
    }
    at
}

/// The token that begins at `at`, and the place after it. The text is UTF-8 and doesn't end there.
pub fn token_at(text: &[u8], at: usize) -> (Token, usize) {
    match text[at] {
        b'0'..=b'9' => integer(text, at),
        b'\'' | b'"' => string(text, at),
        b if is_name_byte(b) => (Token::Name, run(text, at, is_name_byte)),
        b if SYMBOLS.contains(&b) => (Token::Symbol(b), at + 1),
        b if b.is_ascii_punctuation() => (Token::Bad(Bad::Punctuation), at + 1),
        _ => other(text, at),
    }
}

fn run(text: &[u8], at: usize, inside: impl Fn(u8) -> bool) -> usize {
    at + text[at..].iter().position(|b| !inside(*b)).unwrap_or(text.len() - at)
}

fn other(text: &[u8], at: usize) -> (Token, usize) {
    let letter =
        std::str::from_utf8(&text[at..]).ok().and_then(|t| t.chars().next()).unwrap_or('\0');
    let bad = match letter {
        c if c.is_whitespace() => Bad::Space,
        c if c.is_alphabetic() => Bad::Letter,
        _ => Bad::Other,
    };
    (Token::Bad(bad), at + letter.len_utf8())
}

/// Decimal, octal (`0` then octal digits) or hex (`0x` or `0X` then digits).
fn integer(text: &[u8], at: usize) -> (Token, usize) {
    let digits = |from: usize, end: usize, radix: u32| value_of(&text[from..end], radix);
    let (token, end) = if text[at] == b'0' && matches!(text.get(at + 1), Some(b'x' | b'X')) {
        let end = run(text, at + 2, |b| b.is_ascii_hexdigit());
        if end == at + 2 {
            return (Token::Bad(Bad::NoHexDigit), end);
        }
        (Token::Hex(digits(at + 2, end, 16)), end)
    } else if text[at] == b'0' {
        let end = run(text, at, |b| (b'0'..=b'7').contains(&b));
        (Token::Octal(digits(at, end, 8)), end)
    } else {
        let end = run(text, at, |b| b.is_ascii_digit());
        (Token::Decimal(digits(at, end, 10)), end)
    };
    match text.get(end) {
        Some(b) if b.is_ascii_digit() => (Token::Bad(Bad::NotOctal), end),
        Some(b) if is_name_byte(*b) || *b == b'.' => (Token::Bad(Bad::RunOn), end),
        _ => (token, end),
    }
}

/// The value of digits, `None` over 64 bits.
pub fn value_of(digits: &[u8], radix: u32) -> Option<u64> {
    let digit = |b: u8| char::from(b).to_digit(radix).map(u64::from);
    digits
        .iter()
        .try_fold(0u64, |value, b| value.checked_mul(u64::from(radix))?.checked_add(digit(*b)?))
}

/// Ended by the same quote, a backslash taking the next byte along, no newline or zero byte inside.
fn string(text: &[u8], start: usize) -> (Token, usize) {
    let mut at = start + 1;
    while at < text.len() {
        match text[at] {
            b if b == text[start] => return (Token::Text, at + 1),
            b'\n' | 0 => return (Token::Bad(Bad::Unended), at + 1),
            b'\\' if matches!(text.get(at + 1), Some(b'\n' | 0)) => {
                return (Token::Bad(Bad::BackslashNewline), at + 2);
            }
            b'\\' => at += 2,
            _ => at += 1,
        }
    }
    (Token::Bad(Bad::Unended), text.len())
}
