//! Escapes of string tokens, and the quoted form that print gives strings and bytes.

/// The escape letters and their bytes.
const ESCAPES: [(u8, u8); 11] = [
    (b'a', 7),
    (b'b', 8),
    (b'f', 12),
    (b'n', 10),
    (b'r', 13),
    (b't', 9),
    (b'v', 11),
    (b'?', b'?'),
    (b'\\', b'\\'),
    (b'\'', b'\''),
    (b'"', b'"'),
];

/// The bytes that a string token stands for, or nothing where an escape is refused.
pub fn decode(raw: &[u8]) -> Option<Vec<u8>> {
    let mut bytes = Vec::with_capacity(raw.len());
    let mut rest = raw;
    while let Some((&b, after)) = rest.split_first() {
        if b == b'\\' {
            let (byte, taken) = escape(after)?;
            bytes.push(byte);
            rest = &after[taken..];
        } else {
            bytes.push(b);
            rest = after;
        }
    }
    Some(bytes)
}

/// The byte of the escape whose backslash stands just before, and how many bytes it takes:
/// an escape letter; one to three octal digits; `x` with one or two hex digits. Digits are
/// taken as many as follow, so one over 255 is refused and not cut short (S2).
fn escape(after: &[u8]) -> Option<(u8, usize)> {
    let first = *after.first()?;
    if first == b'x' {
        let (value, taken) = digits(&after[1..], 16, 2);
        return (taken > 0).then_some((u8::try_from(value).ok()?, taken + 1));
    }
    let (value, taken) = digits(after, 8, 3);
    if taken > 0 {
        return Some((u8::try_from(value).ok()?, taken));
    }
    let known = ESCAPES.iter().find(|(letter, _)| *letter == first)?;
    Some((known.1, 1))
}

/// The value and count of the digits at the front, at most `most` of them.
fn digits(bytes: &[u8], base: u32, most: usize) -> (u32, usize) {
    let mut value = 0;
    let mut taken = 0;
    for &b in bytes.iter().take(most) {
        let Some(digit) = char::from(b).to_digit(base) else {
            break;
        };
        value = value * base + digit;
        taken += 1;
    }
    (value, taken)
}

/// UTF-8 in the strict sense: no surrogates, no overlong forms, at most U+10FFFF (S4).
pub fn is_utf8(bytes: &[u8]) -> bool {
    std::str::from_utf8(bytes).is_ok()
}

/// One byte of a printed string: `\n \r \t \' \" \\` as escapes, other bytes 32 to 126 as
/// they are, the rest as a backslash and three octal digits. The count says how many are used.
pub fn printed(byte: u8) -> ([u8; 4], usize) {
    match byte {
        b'\n' => ([b'\\', b'n', 0, 0], 2),
        b'\r' => ([b'\\', b'r', 0, 0], 2),
        b'\t' => ([b'\\', b't', 0, 0], 2),
        b'\'' | b'"' | b'\\' => ([b'\\', byte, 0, 0], 2),
        32..=126 => ([byte, 0, 0, 0], 1),
        _ => {
            let digit = |shift: u8| b'0' + (byte >> shift & 7);
            ([b'\\', digit(6), digit(3), digit(0)], 4)
        }
    }
}
