//! A printed text with the entries of each map sorted, so that maps can be compared as sets.
//!
//! The print's form is followed to the byte (one space between fields, two spaces a level,
//! newlines): a text in any other form gives `None`.

use crate::schema::{Label, Schema, MESSAGE};

#[derive(Clone, Copy)]
enum Scope {
    Message(usize),
    /// An entry, and the message that its value is, if any.
    Entry(Option<usize>),
}

struct Walk<'a> {
    schema: &'a Schema,
    text: &'a [u8],
    at: usize,
    pretty: bool,
}

/// A printed field: its bytes, and the map field that it is an entry of.
struct Item {
    bytes: Vec<u8>,
    map: Option<String>,
}

pub fn sorted(schema: &Schema, root: usize, text: &[u8], pretty: bool) -> Option<Vec<u8>> {
    let mut walk = Walk { schema, text, at: 0, pretty };
    let body = walk.body(Scope::Message(root), 0)?;
    (walk.at == text.len()).then_some(body)
}

impl Walk<'_> {
    fn looking_at(&self, bytes: &[u8]) -> bool {
        self.text[self.at..].starts_with(bytes)
    }

    fn expect(&mut self, bytes: &[u8]) -> Option<()> {
        if !self.looking_at(bytes) {
            return None;
        }
        self.at += bytes.len();
        Some(())
    }

    /// Whether the body ends here: at the text's end, or before its closer.
    fn at_end(&self, level: usize) -> bool {
        if level == 0 {
            return self.at == self.text.len();
        }
        let closer =
            if self.pretty { format!("{}}}", "  ".repeat(level - 1)) } else { "}".to_owned() };
        self.looking_at(closer.as_bytes())
    }

    fn body(&mut self, scope: Scope, level: usize) -> Option<Vec<u8>> {
        let mut items = Vec::new();
        while !self.at_end(level) {
            if self.pretty {
                self.expect("  ".repeat(level).as_bytes())?;
            } else if !items.is_empty() {
                self.expect(b" ")?;
            }
            items.push(self.item(scope, level)?);
            if self.pretty {
                self.expect(b"\n")?;
            }
        }
        Some(join(items))
    }

    fn item(&mut self, scope: Scope, level: usize) -> Option<Item> {
        let start = self.at;
        let is_name = |b: &u8| b.is_ascii_alphanumeric() || *b == b'_';
        self.at += self.text[start..].iter().take_while(|b| is_name(b)).count();
        let name = String::from_utf8(self.text[start..self.at].to_vec()).ok()?;
        if name.is_empty() {
            return None;
        }
        if self.looking_at(b": ") {
            self.scalar()?;
            return Some(Item { bytes: self.text[start..self.at].to_vec(), map: None });
        }
        let (inner, is_map) = self.inner_scope(scope, &name)?;
        let body = self.braced(inner, level)?;
        Some(Item {
            bytes: [name.as_bytes(), b" {", &body, b"}"].concat(),
            map: is_map.then_some(name),
        })
    }

    fn inner_scope(&self, scope: Scope, name: &str) -> Option<(Scope, bool)> {
        match scope {
            Scope::Message(message) => {
                let field = self.schema.field(message, name)?;
                let value = (field.kind == MESSAGE).then_some(field.reference);
                match field.label {
                    Label::Map => Some((Scope::Entry(value), true)),
                    _ => Some((Scope::Message(value?), false)),
                }
            }
            Scope::Entry(value) => Some((Scope::Message(value?), false)),
        }
    }

    fn braced(&mut self, inner: Scope, level: usize) -> Option<Vec<u8>> {
        self.expect(if self.pretty { b" {\n" } else { b" {" })?;
        let body = self.body(inner, level + 1)?;
        if self.pretty {
            self.expect("  ".repeat(level).as_bytes())?;
        }
        self.expect(b"}")?;
        Some(body)
    }

    /// `: ` and a number, word or quoted run; an unnamed enum number has `: ` twice.
    fn scalar(&mut self) -> Option<()> {
        self.expect(b": ")?;
        if self.looking_at(b": ") {
            self.at += 2;
        }
        let quoted = self.looking_at(b"\"");
        let start = self.at;
        self.at += usize::from(quoted);
        while let Some(b) = self.text.get(self.at) {
            match b {
                b'\\' if quoted => self.at += 2,
                b'"' if quoted => {
                    self.at += 1;
                    return Some(());
                }
                b' ' | b'}' | b'\n' if !quoted => break,
                _ => self.at += 1,
            }
        }
        (!quoted && self.at > start).then_some(())
    }
}

/// The items one after the other, neighbours of one map sorted.
fn join(mut items: Vec<Item>) -> Vec<u8> {
    let mut start = 0;
    while start < items.len() {
        let mut end = start + 1;
        while end < items.len() && items[start].map.is_some() && items[end].map == items[start].map
        {
            end += 1;
        }
        items[start..end].sort_by(|a, b| a.bytes.cmp(&b.bytes));
        start = end;
    }
    let lines: Vec<Vec<u8>> = items.into_iter().map(|item| item.bytes).collect();
    lines.join(&b'\n')
}

#[cfg(test)]
mod tests {
    use super::*;
    use crate::schema::schema_x;

    fn same(a: &str, b: &str, pretty: bool) -> bool {
        let schema = schema_x();
        let [a, b] = [a, b].map(|text| sorted(&schema, 0, text.as_bytes(), pretty));
        a.is_some() && a == b
    }

    #[test]
    fn entries_may_change_places() {
        let (a, b) = ("ie {key: 1 value: : 5}", "ie {key: 2 value: ON}");
        assert!(same(&format!("i: 1 {a} {b}"), &format!("i: 1 {b} {a}"), false));
        let (a, b) = (
            "  bm {\n    key: true\n    value {\n    }\n  }\n",
            "  bm {\n    key: false\n    value {\n    }\n  }\n",
        );
        assert!(same(&format!("m {{\n{a}{b}}}\n"), &format!("m {{\n{b}{a}}}\n"), true));
    }

    #[test]
    fn nothing_else_may() {
        assert!(!same("r: 1 r: 2", "r: 2 r: 1", false));
        assert!(!same("i: 1 l: 2", "l: 2 i: 1", false));
        assert!(!same("n {q: 1} n {q: 2}", "n {q: 2} n {q: 1}", false));
        assert!(!same("i:  1", "i:  1", false));
        assert!(!same("s: \"} ie {\"", "s: \"} ie { \"", false));
    }
}
