//! Texts that document 01 accepts, in many spellings, and some that lie just outside.

use crate::generate::values::{bytes, letters, number, range};
use crate::random::Random;
use crate::schema::{Field, Label, Schema, BOOL, BYTES, ENUM, I32, I64, MESSAGE, STRING};

const SPACES: &[&str] = &[
    " ",
    " ",
    " ",
    "\n",
    "\t",
    "\r",
    "\u{b}",
    "\u{c}",
    "  ",
    "\r\n",
    "#\n",
    "# c 'x' {\n",
    "#é\u{0}\r\n",
];

/// Where the two readers are known to part; kept rare, so that most texts go on to their end.
const STRANGE_SPACES: &[&str] = &["\u{a0}", "\u{85}", "\u{3000}", "é"];

pub struct Speller<'a> {
    schema: &'a Schema,
    random: &'a mut Random,
    out: Vec<u8>,
    /// Whether the last byte belongs to a name or an integer.
    after_word: bool,
    /// Fields still to be written, so that texts stay short.
    budget: usize,
    odds: Odds,
}

/// How often the text leaves the common ground, in a thousand choices.
#[derive(Clone, Copy)]
pub struct Odds {
    /// Spellings of listed differences.
    pub strange: usize,
    /// Faults of meaning: a name, value or symbol that doesn't fit the field.
    pub slips: usize,
}

/// What stands where a value of any type is due, most often wrongly.
const WRONG_VALUES: &[&str] = &[
    "nope",
    "NOPE",
    "true",
    "True",
    "0",
    "1",
    "-1",
    "- 0",
    "2147483648",
    "-2147483649",
    "4294967296",
    "9223372036854775808",
    "-9223372036854775809",
    "18446744073709551615",
    "18446744073709551616",
    "'x'",
    "''",
    "{}",
    "<>",
    "}",
    ":",
    ": 7",
    "[1]",
    "#",
    "key",
    "value",
];

pub fn text(schema: &Schema, root: usize, random: &mut Random, odds: Odds) -> Vec<u8> {
    let budget = if random.chance(5) { random.between(20, 120) } else { random.between(0, 10) };
    let mut speller = Speller { schema, random, out: Vec::new(), after_word: false, budget, odds };
    if speller.random.chance(6) {
        let depth = speller.random.between(28, 35);
        speller.deep(root, depth);
    } else {
        speller.body(root, 6);
    }
    if speller.random.chance(20) {
        speller.space();
    }
    speller.out
}

impl Speller<'_> {
    fn is_strange(&mut self) -> bool {
        self.random.below(1_000) < self.odds.strange
    }

    fn slips(&mut self) -> bool {
        self.random.below(1_000) < self.odds.slips
    }

    fn space(&mut self) {
        let chosen = if self.is_strange() {
            *self.random.pick(STRANGE_SPACES)
        } else {
            *self.random.pick(SPACES)
        };
        self.out.extend_from_slice(chosen.as_bytes());
        self.after_word = false;
    }

    /// A name or an integer: kept apart from one before it.
    fn word(&mut self, word: &str) {
        if (self.after_word && !self.is_strange()) || self.random.chance(60) {
            self.space();
        }
        self.out.extend_from_slice(word.as_bytes());
        self.after_word = true;
    }

    fn symbol(&mut self, symbol: &str) {
        if self.random.chance(20) {
            self.space();
        }
        self.out.extend_from_slice(symbol.as_bytes());
        self.after_word = false;
    }

    fn body(&mut self, message: usize, levels: usize) {
        let schema = self.schema;
        let fields = &schema.messages[message];
        let mut count = self.random.below(6);
        while count > 0 && self.budget > 0 && !fields.is_empty() {
            count -= 1;
            self.budget -= 1;
            let field = self.random.pick(fields);
            self.field(field, levels);
        }
    }

    fn field(&mut self, field: &Field, levels: usize) {
        if levels == 0 && (field.kind == MESSAGE || field.label == Label::Map) {
            return;
        }
        if self.slips() {
            let other = *self.random.pick(&["nope", "key", "value", "_", "inf", "7"]);
            self.word(other);
        } else {
            self.word(&field.name);
        }
        match field.label {
            Label::Map => self.entry(field, levels - 1),
            _ => self.value(field.kind, field.reference, levels),
        }
    }

    fn entry(&mut self, field: &Field, levels: usize) {
        let opener = if self.slips() { "<" } else { "{" };
        self.symbol(opener);
        for is_key in self.parts(field.kind != MESSAGE || levels > 0) {
            self.word(if is_key { "key" } else { "value" });
            let (kind, reference) =
                if is_key { (field.key, 0) } else { (field.kind, field.reference) };
            self.value(kind, reference, levels);
        }
        self.symbol("}");
    }

    /// Which of key (true) and value (false) an entry gives, in order.
    fn parts(&mut self, lets_value: bool) -> Vec<bool> {
        let mut parts = Vec::new();
        if self.random.chance(80) {
            parts.push(true);
        }
        if lets_value && self.random.chance(80) {
            parts.push(false);
        }
        if self.random.chance(40) {
            parts.reverse();
        }
        if self.slips() {
            parts.extend(parts.first().copied());
        }
        parts
    }

    fn value(&mut self, kind: u8, reference: usize, levels: usize) {
        if self.slips() {
            let colon = if self.random.chance(70) { ":" } else { "" };
            self.symbol(colon);
            let wrong = self.wrong_value();
            return self.word(&wrong);
        }
        if kind == MESSAGE {
            let (opener, closer) = if self.random.chance(70) { ("{", "}") } else { ("<", ">") };
            self.symbol(opener);
            self.body(reference, levels.saturating_sub(1));
            self.symbol(closer);
            return;
        }
        self.symbol(":");
        match kind {
            BOOL => self.bool(),
            STRING => {
                let value = letters(self.random).into_bytes();
                self.string(&value, true);
            }
            BYTES => {
                let value = bytes(self.random);
                self.string(&value, false);
            }
            ENUM => {
                let schema = self.schema;
                let name = &self.random.pick(&schema.enums[reference]).name;
                self.word(name);
            }
            _ => self.integer(kind),
        }
    }

    /// A value of another type, or the name of any enum's value.
    fn wrong_value(&mut self) -> String {
        let schema = self.schema;
        if !schema.enums.is_empty() && self.random.chance(30) {
            let values = self.random.pick(&schema.enums);
            return self.random.pick(values).name.clone();
        }
        (*self.random.pick(WRONG_VALUES)).to_owned()
    }

    fn bool(&mut self) {
        let word = if self.random.chance(50) { "true" } else { "false" };
        self.word(word);
    }

    /// In the type's range, or (rarely) just outside it.
    fn integer(&mut self, kind: u8) {
        let mut value = number(self.random, kind);
        if self.random.chance(1) {
            let (low, high) = range(kind);
            value = if self.random.chance(50) { high + 1 } else { low - 1 };
        }
        if value < 0 || (matches!(kind, I32 | I64) && self.random.chance(3)) {
            self.symbol("-");
        }
        let magnitude = value.unsigned_abs();
        let digits = match self.random.below(10) {
            0 if self.odds.strange > 0 => format!("0{magnitude:o}"),
            1 => format!("0x{magnitude:x}"),
            2 => format!("0X{magnitude:0width$X}", width = self.random.below(24)),
            _ => magnitude.to_string(),
        };
        self.word(&digits);
    }

    /// Each byte by itself or as an escape; bytes over 127 by themselves only as part of whole
    /// letters.
    fn string(&mut self, value: &[u8], is_text: bool) {
        let quote = if self.random.chance(50) { b'"' } else { b'\'' };
        if self.random.chance(40) {
            self.space();
        }
        self.out.push(quote);
        let raw_letters = is_text && self.random.chance(60);
        for (i, byte) in value.iter().enumerate() {
            let next = value.get(i + 1).copied();
            self.string_byte(*byte, next, quote, raw_letters);
        }
        self.out.push(quote);
        self.after_word = false;
        if self.is_strange() {
            self.out.extend_from_slice(b" 'a'");
        }
    }

    fn string_byte(&mut self, byte: u8, next: Option<u8>, quote: u8, raw_letters: bool) {
        let raw = match byte {
            b'\n' | 0 | b'\\' => false,
            b if b == quote => false,
            128.. => raw_letters,
            _ => self.random.chance(70),
        };
        if raw {
            self.out.push(byte);
            return;
        }
        let spelled = self.escape(byte, next);
        self.out.extend_from_slice(spelled.as_bytes());
    }

    /// One of the byte's escapes. Short octal ones only where no digit follows, unless that is
    /// wanted.
    fn escape(&mut self, byte: u8, next: Option<u8>) -> String {
        let strange = self.is_strange();
        let letter = b"\x07\x08\x0c\n\r\t\x0b?\\'\"".iter().position(|b| *b == byte);
        let follows = |octal: bool| {
            next.is_some_and(|n| if octal { n.is_ascii_digit() } else { n.is_ascii_hexdigit() })
        };
        match self.random.below(4) {
            0 if letter.is_some() => {
                format!("\\{}", char::from(b"abfnrtv?\\'\""[letter.unwrap_or(0)]))
            }
            1 => format!("\\x{byte:02x}"),
            2 if strange && !follows(false) => format!("\\x{byte:X}"),
            3 if strange || !follows(true) => format!("\\{byte:o}"),
            _ => format!("\\{byte:03o}"),
        }
    }

    /// Messages and entries nested `depth` deep, if the schema lets them.
    fn deep(&mut self, message: usize, depth: usize) {
        let schema = self.schema;
        let nests = |f: &&Field| f.kind == MESSAGE || (depth == 1 && f.label == Label::Map);
        let inner: Vec<&Field> = schema.messages[message].iter().filter(nests).collect();
        if depth == 0 || inner.is_empty() {
            return self.body(message, 0);
        }
        let field = *self.random.pick(&inner);
        self.word(&field.name);
        if field.label != Label::Map {
            return self.nested(field.reference, depth - 1);
        }
        if depth == 1 {
            return self.entry(field, 0);
        }
        self.symbol("{");
        self.word("value");
        self.nested(field.reference, depth - 2);
        self.symbol("}");
    }

    fn nested(&mut self, message: usize, depth: usize) {
        let (opener, closer) = if self.random.chance(50) { ("{", "}") } else { ("<", ">") };
        self.symbol(opener);
        self.deep(message, depth);
        self.symbol(closer);
    }
}
