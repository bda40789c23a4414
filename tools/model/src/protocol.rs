//! The line protocol: a request to a line, an answer to a line for each request that answers.

use crate::carry::{carry, Carried, Load, Rooms};
use crate::parse::{read, Reading};
use crate::print::{print, Style};
use crate::refusal::{Place, Refusal};
use crate::required::required;
use crate::schema::{accept, Schema};
use crate::table::access;
use std::fmt::Write;

/// The model lends no memory: its functions give back exactly what is to be written, so what a
/// call must leave alone it leaves alone, and this is the one right word.
const KEPT: &str = "kept";

/// What every lent byte holds beforehand.
const LENT: u8 = 0xa5;

/// The longest buffer that is printed into: the answer to `X` holds all of it.
const LONGEST_BUFFER: u64 = 2_621_504;

/// What requests leave for later ones. All starts empty, root 0; the empty image is a bad schema.
#[derive(Default)]
pub struct State {
    schema: Option<Schema>,
    older: Option<Schema>,
    root: u64,
    words: Vec<u32>,
    pool: Vec<u8>,
}

/// A line taken apart.
enum Request {
    Schema(Vec<u8>),
    Older(Vec<u8>),
    Root(u64),
    Nodes(Vec<u32>),
    Pool(Vec<u8>),
    Text(u64, u64, Vec<u8>),
    Print(Style, u64),
    Required,
    Access(u64),
    Carry(Style, Rooms),
}

impl State {
    /// The answer to the line of this number, if it has one. A line that is no request is told
    /// by its number and passed over; blank lines and `#` lines are passed over.
    pub fn line(&mut self, number: u64, line: &[u8]) -> Option<String> {
        if line.is_empty() || line[0] == b'#' {
            return None;
        }
        match request(line) {
            Some(request) => self.run(request),
            None => Some(format!("? {number}")),
        }
    }

    fn run(&mut self, request: Request) -> Option<String> {
        match request {
            Request::Schema(image) => self.schema = accept(&image),
            Request::Older(image) => self.older = accept(&image),
            Request::Root(root) => self.root = root,
            Request::Nodes(words) => self.words = words,
            Request::Pool(pool) => self.pool = pool,
            Request::Text(words, bytes, text) => return Some(self.text(words, bytes, &text)),
            Request::Print(style, room) => return Some(self.print(style, room)),
            Request::Carry(style, rooms) => return Some(self.carry(style, rooms)),
            Request::Required => {
                let done = required(&self.schema, self.root, &self.words, &self.pool);
                return Some(match done {
                    Ok(()) => "Q 0 0".to_string(),
                    Err(refusal) => refused("Q", refusal),
                });
            }
            Request::Access(node) => {
                let lent = access(&self.schema, self.root, &self.words, &self.pool, node);
                return Some(match lent {
                    Ok(bytes) => format!("A 0 0 {}", hex(bytes)),
                    Err(refusal) => refused("A", refusal),
                });
            }
        }
        None
    }

    /// After a read that succeeds, table and pool are what was read; else what they were.
    fn text(&mut self, words: u64, bytes: u64, text: &[u8]) -> String {
        match read(&self.schema, self.root, text, words, bytes) {
            Err(refusal) => format!("{} {KEPT}", refused("T", refusal)),
            Ok(reading) => {
                let answer = format!("T {} {KEPT}", made(&reading));
                self.words = words_of(&reading);
                self.pool = reading.pool;
                answer
            }
        }
    }

    fn print(&self, style: Style, room: u64) -> String {
        let letter = match style {
            Style::Compact => "C",
            Style::Pretty => "Y",
        };
        match print(
            &self.schema,
            self.root,
            &self.words,
            &self.pool,
            style,
            room,
        ) {
            Err(refusal) => format!("{} {KEPT}", refused(letter, refusal)),
            Ok(text) => format!("{letter} 0 0 {} {} {KEPT}", text.len(), hex(&text)),
        }
    }

    /// From the newer schema, that of `S`, to the older one; the state stays as it is.
    fn carry(&self, style: Style, rooms: Rooms) -> String {
        let load = Load {
            words: &self.words,
            pool: &self.pool,
        };
        let done = carry(&self.schema, &self.older, self.root, load, style, rooms);
        let (told, text) = match done {
            Carried::NotPrinted(refusal) => (refused("X print", refusal), Vec::new()),
            Carried::NotRead(refusal, text) => (refused("X read", refusal), text),
            Carried::Made(reading, text) => (format!("X {}", made(&reading)), text),
        };
        format!("{told} {} {KEPT}", hex(&buffer(text, rooms.text)))
    }
}

/// The whole buffer: the text, and then what was there.
fn buffer(mut text: Vec<u8>, room: u64) -> Vec<u8> {
    text.resize(room as usize, LENT);
    text
}

/// What a read that succeeds answers, without its letter and KEPT.
fn made(reading: &Reading) -> String {
    let (nodes, bytes) = (reading.nodes.len(), reading.pool.len());
    let (words, pool) = (hex_words(&words_of(reading)), hex(&reading.pool));
    format!("0 0 {nodes} {bytes} {words} {pool}")
}

fn words_of(reading: &Reading) -> Vec<u32> {
    reading.nodes.iter().flat_map(|n| n.words()).collect()
}

/// Number, offset, line and column.
fn refused(letter: &str, refusal: Refusal) -> String {
    let Place {
        offset,
        line,
        column,
    } = refusal.place;
    format!("{letter} {} {offset} {line} {column}", refusal.number)
}

/// Words on a line are separated by one space; a request has exactly its words.
fn request(line: &[u8]) -> Option<Request> {
    let parts: Vec<&[u8]> = line.split(|&b| b == b' ').collect();
    Some(match parts[..] {
        [b"S", image] => Request::Schema(from_hex(image)?),
        [b"O", image] => Request::Older(from_hex(image)?),
        [b"R", root] => Request::Root(decimal(root)?),
        [b"N", words] => Request::Nodes(from_hex_words(words)?),
        [b"P", pool] => Request::Pool(from_hex(pool)?),
        [b"T", words, bytes, text] => {
            Request::Text(decimal(words)?, decimal(bytes)?, from_hex(text)?)
        }
        [b"C", room] => Request::Print(Style::Compact, decimal(room)?),
        [b"Y", room] => Request::Print(Style::Pretty, decimal(room)?),
        [b"Q"] => Request::Required,
        [b"A", node] => Request::Access(decimal(node)?),
        [b"X", style, room, words, bytes] => Request::Carry(
            style_of(decimal(style)?)?,
            Rooms {
                text: decimal(room).filter(|&room| room <= LONGEST_BUFFER)?,
                words: decimal(words)?,
                bytes: decimal(bytes)?,
            },
        ),
        _ => return None,
    })
}

/// 0 is compact, 1 is pretty; there is no other style.
fn style_of(number: u64) -> Option<Style> {
    match number {
        0 => Some(Style::Compact),
        1 => Some(Style::Pretty),
        _ => None,
    }
}

/// One or more decimal digits of a value within 64 bits.
fn decimal(word: &[u8]) -> Option<u64> {
    let digits = !word.is_empty() && word.iter().all(u8::is_ascii_digit);
    if !digits {
        return None;
    }
    std::str::from_utf8(word).ok()?.parse().ok()
}

/// Lower-case hex, two digits a byte; an empty run of bytes is `-`.
fn from_hex(word: &[u8]) -> Option<Vec<u8>> {
    if word == b"-" {
        return Some(Vec::new());
    }
    if word.is_empty() || !word.len().is_multiple_of(2) {
        return None;
    }
    word.chunks_exact(2)
        .map(|pair| Some(hex_digit(pair[0])? << 4 | hex_digit(pair[1])?))
        .collect()
}

fn hex_digit(digit: u8) -> Option<u8> {
    match digit {
        b'0'..=b'9' => Some(digit - b'0'),
        b'a'..=b'f' => Some(digit - b'a' + 10),
        _ => None,
    }
}

/// Eight hex digits a word, most significant digit first.
fn from_hex_words(word: &[u8]) -> Option<Vec<u32>> {
    let bytes = from_hex(word)?;
    if !bytes.len().is_multiple_of(4) {
        return None;
    }
    let word = |b: &[u8]| u32::from_be_bytes([b[0], b[1], b[2], b[3]]);
    Some(bytes.chunks_exact(4).map(word).collect())
}

fn hex(bytes: &[u8]) -> String {
    const DIGITS: &[u8; 16] = b"0123456789abcdef";
    if bytes.is_empty() {
        return "-".to_string();
    }
    let mut text = String::with_capacity(bytes.len() * 2);
    for &byte in bytes {
        text.push(char::from(DIGITS[usize::from(byte >> 4)]));
        text.push(char::from(DIGITS[usize::from(byte & 15)]));
    }
    text
}

fn hex_words(words: &[u32]) -> String {
    let mut text = String::with_capacity(words.len() * 8);
    for word in words {
        write!(text, "{word:08x}").expect("a string takes all that is written");
    }
    text
}
