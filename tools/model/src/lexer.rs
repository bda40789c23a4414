//! Tokens of the text, one at a time, each with the offset of its first byte.

/// A token, or what stands in a token's place.
#[derive(Debug, Clone, Copy, PartialEq, Eq)]
pub enum Token<'t> {
    End,
    Name(&'t [u8]),
    /// One of `{ } < > : - [ ] , ;`
    Symbol(u8),
    /// The value, or nothing where it is over 64 bits: a good token all the same (reading T4).
    Integer(Option<u64>),
    /// The bytes between the quotes, escapes not yet judged (reading S3).
    Text(&'t [u8]),
    Bad,
}

#[derive(Debug, Clone, Copy)]
pub struct Placed<'t> {
    pub at: usize,
    pub token: Token<'t>,
}

pub struct Lexer<'t> {
    text: &'t [u8],
    next: usize,
}

impl<'t> Lexer<'t> {
    pub fn new(text: &'t [u8]) -> Self {
        Lexer { text, next: 0 }
    }

    /// The token that follows, after separators and comments. The end stands at the text's length.
    pub fn token(&mut self) -> Placed<'t> {
        self.skip();
        let at = self.next;
        let token = match self.peek() {
            None => Token::End,
            Some(b) if is_name_start(b) => self.name(),
            Some(b) if b.is_ascii_digit() => self.integer(),
            Some(b @ (b'"' | b'\'')) => self.string(b),
            Some(b) if b"{}<>:-[],;".contains(&b) => {
                self.next += 1;
                Token::Symbol(b)
            }
            Some(_) => Token::Bad,
        };
        Placed { at, token }
    }

    fn peek(&self) -> Option<u8> {
        self.text.get(self.next).copied()
    }

    /// Space, tab, newline, return, vertical tab and form feed separate;
    /// `#` runs to the newline or end, over any bytes.
    fn skip(&mut self) {
        while let Some(b) = self.peek() {
            match b {
                b' ' | b'\t' | b'\n' | b'\r' | 0x0b | 0x0c => self.next += 1,
                b'#' => {
                    self.run(|b| b != b'\n');
                }
                _ => return,
            }
        }
    }

    /// The longest run of bytes of one sort, moved over.
    fn run(&mut self, sort: impl Fn(u8) -> bool) -> &'t [u8] {
        let start = self.next;
        while self.peek().is_some_and(&sort) {
            self.next += 1;
        }
        &self.text[start..self.next]
    }

    /// A letter or `_`, then letters, digits, `_`. What follows is judged as its own token (T1).
    fn name(&mut self) -> Token<'t> {
        Token::Name(self.run(is_name_byte))
    }

    /// Decimal; octal: `0` then octal digits; hex: `0x` or `0X` then digits. Bad if a letter,
    /// digit, `_` or `.` follows directly, which takes in `08`, `0x`, `0xg` and `1e5`.
    fn integer(&mut self) -> Token<'t> {
        let value = if self.peek() != Some(b'0') {
            number(self.run(|b| b.is_ascii_digit()), 10)
        } else if matches!(self.text.get(self.next + 1), Some(b'x' | b'X')) {
            self.next += 2;
            let digits = self.run(|b| b.is_ascii_hexdigit());
            if digits.is_empty() {
                return Token::Bad;
            }
            number(digits, 16)
        } else {
            number(self.run(|b| (b'0'..=b'7').contains(&b)), 8)
        };
        match self.peek() {
            Some(b) if is_name_byte(b) || b == b'.' => Token::Bad,
            _ => Token::Integer(value),
        }
    }

    /// A string ended by the quote that began it; a backslash takes the next byte along; no
    /// newline or zero byte inside, even after a backslash. The string is the bad token (T6).
    fn string(&mut self, quote: u8) -> Token<'t> {
        let start = self.next + 1;
        let mut i = start;
        let mut taken_along = false;
        loop {
            match self.text.get(i) {
                None | Some(b'\n' | 0) => return Token::Bad,
                Some(_) if taken_along => taken_along = false,
                Some(b'\\') => taken_along = true,
                Some(&b) if b == quote => {
                    self.next = i + 1;
                    return Token::Text(&self.text[start..i]);
                }
                Some(_) => {}
            }
            i += 1;
        }
    }
}

fn is_name_start(b: u8) -> bool {
    b.is_ascii_alphabetic() || b == b'_'
}

fn is_name_byte(b: u8) -> bool {
    is_name_start(b) || b.is_ascii_digit()
}

/// The value of these digits, or nothing over 64 bits. Leading zeros don't count as size (T3).
fn number(digits: &[u8], base: u64) -> Option<u64> {
    digits.iter().try_fold(0u64, |value, &digit| {
        let digit = char::from(digit).to_digit(16)?;
        value.checked_mul(base)?.checked_add(u64::from(digit))
    })
}
