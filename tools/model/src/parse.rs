//! Reading text into nodes and pool: refusals 1 to 14, the first in reading order.

use crate::lexer::{Lexer, Placed, Token};
use crate::refusal::*;
use crate::schema::*;
use crate::strings::{decode, is_utf8};
use crate::table::{Node, DEEPEST, ENTRY, KEY, MOST_NODES, VALUE, WORDS_PER_NODE};

const LONGEST_TEXT: usize = 1_048_576;

/// What reading gives: all nodes the text makes, and the strings' bytes end to end.
#[derive(Debug)]
pub struct Reading {
    pub nodes: Vec<Node>,
    pub pool: Vec<u8>,
}

/// Read. Order: 1, 2, 3, the first fault in reading order, 13, 14.
pub fn read(
    checked: &Option<Schema>,
    root: u64,
    text: &[u8],
    words: u64,
    bytes: u64,
) -> Result<Reading, Refusal> {
    let (schema, root) = with_root(checked, root)?;
    if text.len() > LONGEST_TEXT {
        return refuse(TEXT_TOO_LONG, 0);
    }
    let reading = parse(schema, root, text).map_err(|fault| fault.in_text(text))?;
    let (nodes, pool) = (reading.nodes.len() as u64, reading.pool.len() as u64);
    if nodes > (words / WORDS_PER_NODE as u64).min(MOST_NODES as u64) {
        return refuse(NODES_SHORT, nodes);
    }
    if pool > bytes {
        return refuse(POOL_SHORT, pool);
    }
    Ok(reading)
}

/// A fault in the text: a refusal 4 to 12, and the offset of the byte that it stands at.
struct Fault {
    number: u32,
    at: usize,
}

impl Fault {
    fn in_text(self, text: &[u8]) -> Refusal {
        Refusal {
            number: self.number,
            place: Place::in_text(text, self.at),
        }
    }
}

fn fault<T>(number: u32, at: usize) -> Result<T, Fault> {
    Err(Fault { number, at })
}

/// The text as the root message's body.
fn parse(schema: &Schema, root: usize, text: &[u8]) -> Result<Reading, Fault> {
    let mut parser = Parser {
        schema,
        lexer: Lexer::new(text),
        nodes: Vec::new(),
        pool: Vec::new(),
    };
    let node = parser.open(MESSAGE, 0);
    parser.read_body(root, Token::End, 0)?;
    parser.close(node);
    Ok(Reading {
        nodes: parser.nodes,
        pool: parser.pool,
    })
}

/// What a value is read as: a field's type, or that of an entry's key or value.
#[derive(Clone, Copy)]
struct Slot {
    /// The node's field word: the field's index, or 0 for a key and 1 for a value.
    field: u32,
    value_type: u32,
    reference: usize,
}

struct Parser<'t> {
    schema: &'t Schema,
    lexer: Lexer<'t>,
    nodes: Vec<Node>,
    pool: Vec<u8>,
}

impl<'t> Parser<'t> {
    // ---- nodes -------------------------------------------------------------------------

    /// A message or entry, its end open until its last descendant is known.
    fn open(&mut self, kind: u32, field: u32) -> usize {
        self.nodes.push(Node {
            kind,
            field,
            ..Node::default()
        });
        self.nodes.len() - 1
    }

    fn close(&mut self, node: usize) {
        self.nodes[node].end = self.nodes.len() as u32;
    }

    /// A node with no descendants; numbers are 64 bits, high word first.
    fn leaf(&mut self, slot: Slot, value: u64) {
        let end = self.nodes.len() as u32 + 1;
        self.nodes.push(Node {
            kind: slot.value_type,
            field: slot.field,
            high: (value >> 32) as u32,
            low: value as u32,
            end,
        });
    }

    /// Start and length in the pool: the start is the bytes laid so far, for an empty one too (S7).
    fn run_of_pool(&mut self, slot: Slot, bytes: &[u8]) {
        let start = self.pool.len() as u64;
        self.pool.extend_from_slice(bytes);
        self.leaf(slot, start << 32 | bytes.len() as u64);
    }

    // ---- tokens ------------------------------------------------------------------------

    /// The token that is needed now; a bad one is refused 4 whatever is expected (T10).
    fn next(&mut self) -> Result<Placed<'t>, Fault> {
        let placed = self.lexer.token();
        match placed.token {
            Token::Bad => fault(BAD_TOKEN, placed.at),
            _ => Ok(placed),
        }
    }

    /// One of these symbols, with its place.
    fn symbol(&mut self, allowed: &[u8]) -> Result<(u8, usize), Fault> {
        let placed = self.next()?;
        match placed.token {
            Token::Symbol(b) if allowed.contains(&b) => Ok((b, placed.at)),
            _ => fault(OTHER_EXPECTED, placed.at),
        }
    }

    // ---- messages and entries ----------------------------------------------------------

    /// Fields until the closer, or the end for the root. `depth` is this message's own.
    fn read_body(&mut self, message: usize, closer: Token, depth: usize) -> Result<(), Fault> {
        loop {
            let placed = self.next()?;
            match placed.token {
                token if token == closer => return Ok(()),
                Token::Name(name) => self.merge_field(message, name, placed.at, depth)?,
                _ => return fault(OTHER_EXPECTED, placed.at),
            }
        }
    }

    /// One field after its name. The name is looked up before the next token is needed (G14).
    fn merge_field(
        &mut self,
        message: usize,
        name: &[u8],
        at: usize,
        depth: usize,
    ) -> Result<(), Fault> {
        let schema = self.schema;
        let Some(index) = schema.field_named(message, name) else {
            return fault(UNKNOWN_FIELD, at);
        };
        let field = &schema.fields[index];
        if field.label == MAP {
            return self.read_entry(index, depth + 1);
        }
        let slot = Slot {
            field: index as u32,
            value_type: field.value_type,
            reference: field.reference,
        };
        self.read_value_of_field(slot, depth)
    }

    /// What follows a name: for a scalar `:` and the value, for a message opener, body and closer.
    /// `depth` is that of the message or entry the name stands in.
    fn read_value_of_field(&mut self, slot: Slot, depth: usize) -> Result<(), Fault> {
        if slot.value_type == MESSAGE {
            return self.read_message(slot, depth + 1);
        }
        self.symbol(b":")?;
        self.read_scalar(slot)
    }

    /// `{` body `}` or `<` body `>`; depth is judged once the opener is there (D1).
    fn read_message(&mut self, slot: Slot, depth: usize) -> Result<(), Fault> {
        let (opener, at) = self.symbol(b"{<")?;
        if depth > DEEPEST {
            return fault(TOO_DEEP, at);
        }
        let closer = if opener == b'{' { b'}' } else { b'>' };
        let node = self.open(MESSAGE, slot.field);
        self.read_body(slot.reference, Token::Symbol(closer), depth)?;
        self.close(node);
        Ok(())
    }

    /// A map's entry: `{` only, then `key` and `value`, each at most once, in either order.
    fn read_entry(&mut self, index: usize, depth: usize) -> Result<(), Fault> {
        let (_, at) = self.symbol(b"{")?;
        if depth > DEEPEST {
            return fault(TOO_DEEP, at);
        }
        let field = &self.schema.fields[index];
        let slots = [
            Slot {
                field: KEY,
                value_type: field.key_type,
                reference: 0,
            },
            Slot {
                field: VALUE,
                value_type: field.value_type,
                reference: field.reference,
            },
        ];
        let node = self.open(ENTRY, index as u32);
        self.read_key_and_value(slots, depth)?;
        self.close(node);
        Ok(())
    }

    /// The inside of an entry and its closer; then what is missing is appended, key first.
    fn read_key_and_value(&mut self, slots: [Slot; 2], depth: usize) -> Result<(), Fault> {
        let mut seen = [false; 2];
        let closer = loop {
            let placed = self.next()?;
            let which = match placed.token {
                Token::Symbol(b'}') => break placed.at,
                Token::Name(b"key") => 0,
                Token::Name(b"value") => 1,
                Token::Name(_) => return fault(UNKNOWN_FIELD, placed.at),
                _ => return fault(OTHER_EXPECTED, placed.at),
            };
            if seen[which] {
                return fault(TWICE, placed.at);
            }
            seen[which] = true;
            self.read_value_of_field(slots[which], depth)?;
        };
        for (slot, seen) in slots.into_iter().zip(seen) {
            if !seen {
                self.append_default(slot, depth, closer)?;
            }
        }
        Ok(())
    }

    /// 0, false, empty, the enum's first value, an empty message. A default message lies one
    /// below the entry, and one too deep is refused at the entry's closer.
    fn append_default(&mut self, slot: Slot, depth: usize, closer: usize) -> Result<(), Fault> {
        match slot.value_type {
            STRING | BYTES => self.run_of_pool(slot, b""),
            ENUM => {
                let first = self.schema.values_of(slot.reference)[0].number;
                self.leaf(slot, i64::from(first) as u64);
            }
            MESSAGE if depth + 1 > DEEPEST => return fault(TOO_DEEP, closer),
            MESSAGE => {
                let node = self.open(MESSAGE, slot.field);
                self.close(node);
            }
            _ => self.leaf(slot, 0),
        }
        Ok(())
    }

    // ---- scalars -----------------------------------------------------------------------

    fn read_scalar(&mut self, slot: Slot) -> Result<(), Fault> {
        match slot.value_type {
            I32 => self.read_signed(slot, 1 << 31),
            I64 => self.read_signed(slot, 1 << 63),
            U32 => self.read_unsigned(slot, u64::from(u32::MAX)),
            U64 => self.read_unsigned(slot, u64::MAX),
            BOOL => self.read_bool(slot),
            ENUM => self.read_enum(slot),
            _ => self.read_string(slot),
        }
    }

    /// An integer, perhaps after `-` and separators. `least` is the least value without its
    /// minus, one more than the greatest value.
    fn read_signed(&mut self, slot: Slot, least: u64) -> Result<(), Fault> {
        let mut placed = self.next()?;
        let minus = placed.token == Token::Symbol(b'-');
        if minus {
            placed = self.next()?;
        }
        let most = if minus { least } else { least - 1 };
        let value = integer(placed, most)?;
        self.leaf(slot, if minus { value.wrapping_neg() } else { value });
        Ok(())
    }

    fn read_unsigned(&mut self, slot: Slot, most: u64) -> Result<(), Fault> {
        let placed = self.next()?;
        let value = integer(placed, most)?;
        self.leaf(slot, value);
        Ok(())
    }

    /// `true` or `false`; any other good token, or the end, is refused 10.
    fn read_bool(&mut self, slot: Slot) -> Result<(), Fault> {
        let placed = self.next()?;
        let value = match placed.token {
            Token::Name(b"true") => 1,
            Token::Name(b"false") => 0,
            _ => return fault(NOT_BOOL, placed.at),
        };
        self.leaf(slot, value);
        Ok(())
    }

    /// An enum is a name; its number is sign-extended.
    fn read_enum(&mut self, slot: Slot) -> Result<(), Fault> {
        let placed = self.next()?;
        let Token::Name(name) = placed.token else {
            return fault(OTHER_EXPECTED, placed.at);
        };
        let values = self.schema.values_of(slot.reference);
        let Some(value) = values.iter().find(|v| v.name == name) else {
            return fault(UNKNOWN_ENUM_VALUE, placed.at);
        };
        self.leaf(slot, i64::from(value.number) as u64);
        Ok(())
    }

    /// A string token; a string field's decoded bytes are UTF-8, a bytes field's may be any.
    fn read_string(&mut self, slot: Slot) -> Result<(), Fault> {
        let placed = self.next()?;
        let Token::Text(raw) = placed.token else {
            return fault(OTHER_EXPECTED, placed.at);
        };
        match decode(raw) {
            Some(bytes) if slot.value_type == BYTES || is_utf8(&bytes) => {
                self.run_of_pool(slot, &bytes);
                Ok(())
            }
            _ => fault(BAD_STRING, placed.at),
        }
    }
}

/// An integer token of at most this value; 9 is given at the digits, not at a minus.
fn integer(placed: Placed, most: u64) -> Result<u64, Fault> {
    match placed.token {
        Token::Integer(Some(value)) if value <= most => Ok(value),
        Token::Integer(_) => fault(OVERFLOW, placed.at),
        _ => fault(OTHER_EXPECTED, placed.at),
    }
}
