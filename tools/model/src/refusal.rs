//! The refusal numbers of document 01, and the place or number that goes with each.

pub const BAD_SCHEMA: u32 = 1;
pub const NO_ROOT: u32 = 2;
pub const TEXT_TOO_LONG: u32 = 3;
pub const BAD_TOKEN: u32 = 4;
pub const OTHER_EXPECTED: u32 = 5;
pub const UNKNOWN_FIELD: u32 = 6;
pub const UNKNOWN_ENUM_VALUE: u32 = 7;
pub const TWICE: u32 = 8;
pub const OVERFLOW: u32 = 9;
pub const NOT_BOOL: u32 = 10;
pub const BAD_STRING: u32 = 11;
pub const TOO_DEEP: u32 = 12;
pub const NODES_SHORT: u32 = 13;
pub const POOL_SHORT: u32 = 14;
pub const BAD_TABLE: u32 = 15;
pub const PRINT_SHORT: u32 = 16;
pub const REQUIRED_MISSING: u32 = 17;
pub const NO_VALUE: u32 = 18;

/// What is returned beside a refusal's number: the place of a byte of the text or of its end, or
/// a number where the offset stands, on line 0, column 0.
/// 64 bits, since the length that 16 returns may pass 32 (reading R7).
#[derive(Debug, Clone, Copy, PartialEq, Eq)]
pub struct Place {
    pub offset: u64,
    pub line: u64,
    pub column: u64,
}

impl Place {
    /// Lines from 1, and only a newline ends one; columns from 1, counted in bytes. Told from the
    /// bytes before the offset, looked at once more (02 1.1 to 1.5).
    pub fn in_text(text: &[u8], offset: usize) -> Place {
        let before = &text[..offset];
        let newlines = before.iter().filter(|&&b| b == b'\n').count();
        let on_line = before.iter().rev().take_while(|&&b| b != b'\n').count();
        Place {
            offset: offset as u64,
            line: newlines as u64 + 1,
            column: on_line as u64 + 1,
        }
    }

    /// No place in a text (02 1.6).
    pub fn number(number: u64) -> Place {
        Place {
            offset: number,
            line: 0,
            column: 0,
        }
    }
}

#[derive(Debug, Clone, Copy, PartialEq, Eq)]
pub struct Refusal {
    pub number: u32,
    pub place: Place,
}

/// A refusal that stands at no byte of a text: 1 to 3 and 13 to 18, with the number that it returns.
pub fn refuse<T>(number: u32, returned: u64) -> Result<T, Refusal> {
    Err(Refusal {
        number,
        place: Place::number(returned),
    })
}
