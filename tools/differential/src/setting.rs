//! A schema and a root under which a batch of texts or tables is asked.

use crate::hex::to_hex;
use crate::rules::{Rule, Rules};
use crate::schema::Schema;
use crate::translate::NAME_TAIL;

pub struct Setting {
    pub schema: Schema,
    pub root: usize,
    image: String,
    /// The image with `inf` and `nan` renamed, as the translated texts name them.
    translated_image: String,
}

impl Setting {
    pub fn new(schema: Schema, root: usize) -> Setting {
        let rename = |name: &str| match name {
            "inf" | "nan" => format!("{name}{NAME_TAIL}"),
            _ => name.to_owned(),
        };
        let image = to_hex(&schema.image());
        let translated_image = to_hex(&schema.renamed(rename).image());
        Setting { schema, root, image, translated_image }
    }

    pub fn lines(&self) -> String {
        format!("S {}\nR {}\n", self.image, self.root)
    }

    pub fn translated_lines(&self, rules: &Rules) -> String {
        let image = if rules.has(Rule::InfNan) { &self.translated_image } else { &self.image };
        format!("S {image}\nR {}\n", self.root)
    }
}

/// A print of translated names with the names put back.
pub fn untranslated(print: &[u8]) -> Vec<u8> {
    let tail = NAME_TAIL.as_bytes();
    let mut out = Vec::with_capacity(print.len());
    let mut at = 0;
    while at < print.len() {
        if print[at..].starts_with(tail) && (out.ends_with(b"inf") || out.ends_with(b"nan")) {
            at += tail.len();
        } else {
            out.push(print[at]);
            at += 1;
        }
    }
    out
}
