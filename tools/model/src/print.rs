//! Compact and pretty print of a table's live values (refusal 16).

use crate::live::live_children;
use crate::refusal::{refuse, Refusal, PRINT_SHORT};
use crate::schema::*;
use crate::strings::printed;
use crate::table::{valid, Table, ENTRY, KEY, UNKNOWN_BYTES, UNKNOWN_U32, UNKNOWN_U64, VALUE};

#[derive(Debug, Clone, Copy, PartialEq, Eq)]
pub enum Style {
    Compact,
    Pretty,
}

/// Print: 1, 2, 15, 16, the last with the whole length needed.
pub fn print(
    checked: &Option<Schema>,
    root: u64,
    words: &[u32],
    pool: &[u8],
    style: Style,
    room: u64,
) -> Result<Vec<u8>, Refusal> {
    let (schema, root) = with_root(checked, root)?;
    let table = valid(schema, root, words, pool)?;
    let mut printer = Printer {
        table: &table,
        style,
        room,
        length: 0,
        text: Vec::new(),
    };
    printer.fields_of(0, 0);
    if printer.length > room {
        return refuse(PRINT_SHORT, printer.length);
    }
    Ok(printer.text)
}

struct Printer<'a> {
    table: &'a Table<'a>,
    style: Style,
    room: u64,
    length: u64,
    text: Vec<u8>,
}

impl Printer<'_> {
    /// The length counts on past the room, where the text is given up.
    fn put(&mut self, bytes: &[u8]) {
        self.length += bytes.len() as u64;
        if self.length <= self.room {
            self.text.extend_from_slice(bytes);
        }
    }

    /// Known fields in table order, then unknown ones by number; a stable sort keeps node order
    /// among the values of one field or number.
    fn fields_of(&mut self, message: usize, level: usize) {
        let mut live = live_children(self.table, message);
        live.sort_by_key(|&child| {
            let node = self.table.nodes[child];
            (node.is_unknown(), node.field)
        });
        for (turn, child) in live.into_iter().enumerate() {
            self.start_field(turn == 0, level);
            let node = self.table.nodes[child];
            if node.is_unknown() {
                self.put(node.field.to_string().as_bytes());
                self.value(0, child, level);
            } else {
                let field = &self.table.schema.fields[node.field as usize];
                self.put(&field.name);
                self.value(field.reference, child, level);
            }
            self.end_field();
        }
    }

    /// An entry prints `key` then `value`, whatever their order in the table.
    fn parts_of(&mut self, entry: usize, reference: usize, level: usize) {
        for (part, name) in [(KEY, "key"), (VALUE, "value")] {
            self.start_field(part == KEY, level);
            self.put(name.as_bytes());
            let child = self.table.part_of_entry(entry, part);
            self.value(reference, child, level);
            self.end_field();
        }
    }

    /// Compact: one space before each field but the first of its message.
    /// Pretty: two spaces a level.
    fn start_field(&mut self, first: bool, level: usize) {
        match self.style {
            Style::Compact if first => {}
            Style::Compact => self.put(b" "),
            Style::Pretty => self.indent(level),
        }
    }

    fn end_field(&mut self) {
        if self.style == Style::Pretty {
            self.put(b"\n");
        }
    }

    fn indent(&mut self, level: usize) {
        for _ in 0..level {
            self.put(b"  ");
        }
    }

    /// What follows the name: ` {` body `}` for messages and entries, else `: ` and the scalar.
    fn value(&mut self, reference: usize, node: usize, level: usize) {
        let kind = self.table.nodes[node].kind;
        if kind != MESSAGE && kind != ENTRY {
            self.put(b": ");
            return self.scalar(reference, node);
        }
        self.put(b" {");
        self.end_field();
        if kind == ENTRY {
            self.parts_of(node, reference, level + 1);
        } else {
            self.fields_of(node, level + 1);
        }
        if self.style == Style::Pretty {
            self.indent(level);
        }
        self.put(b"}");
    }

    fn scalar(&mut self, reference: usize, node: usize) {
        let own = self.table.nodes[node];
        let number = own.number();
        match own.kind {
            I32 | I64 => self.put((number as i64).to_string().as_bytes()),
            U32 | U64 | UNKNOWN_U32 | UNKNOWN_U64 => self.put(number.to_string().as_bytes()),
            BOOL => self.put(if number == 1 { b"true" } else { b"false" }),
            ENUM => self.enum_value(reference, number as i32),
            STRING | BYTES | UNKNOWN_BYTES => self.quoted(node),
            kind => unreachable!("kind {kind} in a valid table"),
        }
    }

    /// The number's name, or `: 7` where it has none.
    fn enum_value(&mut self, reference: usize, number: i32) {
        let values = self.table.schema.values_of(reference);
        match values.iter().find(|value| value.number == number) {
            Some(value) => self.put(&value.name),
            None => self.put(format!(": {number}").as_bytes()),
        }
    }

    fn quoted(&mut self, node: usize) {
        self.put(b"\"");
        for &byte in self.table.bytes_of(node) {
            let (bytes, count) = printed(byte);
            self.put(&bytes[..count]);
        }
        self.put(b"\"");
    }
}
