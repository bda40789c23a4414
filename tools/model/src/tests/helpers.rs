//! Short ways to ask the model and to tell its answer.

use super::schemas::Image;
use crate::parse::{read, Reading};
use crate::print::{print, Style};
use crate::refusal::{Place, Refusal};
use crate::required::required;
use crate::schema::{accept, Schema};
use crate::table::{access, Node};

/// Words and bytes enough for any text.
pub const AMPLE: u64 = 1 << 40;

pub struct Model {
    pub schema: Option<Schema>,
    pub root: u64,
}

/// A table as words, and its pool.
pub type Words = (Vec<u32>, Vec<u8>);

pub fn words_of(nodes: &[[u32; 5]]) -> Vec<u32> {
    nodes.iter().flatten().copied().collect()
}

/// Number and offset, or the number that stands in its place.
pub fn told(refusal: Refusal) -> String {
    format!("{} {}", refusal.number, refusal.place.offset)
}

/// The same with `line:column`.
pub fn placed(refusal: Refusal) -> String {
    let Place { line, column, .. } = refusal.place;
    format!("{} {line}:{column}", told(refusal))
}

impl Model {
    pub fn of(image: &Image) -> Model {
        Model {
            schema: accept(&image.bytes()),
            root: 0,
        }
    }

    pub fn read(&self, text: &[u8]) -> Result<Reading, Refusal> {
        read(&self.schema, self.root, text, AMPLE, AMPLE)
    }

    /// `read`, or the refusal's number and offset.
    pub fn outcome(&self, text: &[u8]) -> String {
        match self.read(text) {
            Ok(_) => "read".to_string(),
            Err(refusal) => told(refusal),
        }
    }

    /// Each text with its outcome.
    pub fn all(&self, cases: &[(&[u8], &str)]) {
        for (text, outcome) in cases {
            let shown = String::from_utf8_lossy(text);
            assert_eq!(self.outcome(text), *outcome, "{shown}");
        }
    }

    /// The text's table.
    pub fn table(&self, text: &str) -> Words {
        let reading = self.read(text.as_bytes()).expect(text);
        let nodes: Vec<[u32; 5]> = reading.nodes.iter().map(Node::words).collect();
        (words_of(&nodes), reading.pool)
    }

    pub fn printed(&self, table: &Words, style: Style) -> String {
        match print(&self.schema, self.root, &table.0, &table.1, style, AMPLE) {
            Ok(text) => String::from_utf8(text).expect("print is ASCII"),
            Err(refusal) => told(refusal),
        }
    }

    pub fn compact(&self, table: &Words) -> String {
        self.printed(table, Style::Compact)
    }

    /// The text read, then its compact print.
    pub fn reprint(&self, text: &str) -> String {
        self.compact(&self.table(text))
    }

    pub fn required(&self, table: &Words) -> String {
        match required(&self.schema, self.root, &table.0, &table.1) {
            Ok(()) => "passes".to_string(),
            Err(refusal) => told(refusal),
        }
    }

    pub fn access(&self, table: &Words, node: u64) -> Result<Vec<u8>, String> {
        match access(&self.schema, self.root, &table.0, &table.1, node) {
            Ok(bytes) => Ok(bytes.to_vec()),
            Err(refusal) => Err(told(refusal)),
        }
    }
}
