//! A text as the crate has to be asked, so that it should answer as document 01 wants.
//!
//! Each listed difference is a spelling that the crate's lexer takes otherwise. Here such a
//! spelling is replaced by one that the crate takes as document 01 takes the first: `012` by `10`,
//! an unknown escape by a token that nothing expects, and so on. So the comparison goes on inside
//! the listed differences too: the program under test must answer the text as the crate answers its
//! translation. Reading ends at or before a bad or unexpected token, so the translation ends there
//! as well.

use crate::escapes::{respell, Respelled};
use crate::rules::{Rule, Rules};
use crate::schema::{Label, Schema, MESSAGE};
use crate::tokens::{skip_space, token_at, value_of, Bad, Token};

pub const MOST_DEPTH: usize = 32;

/// A byte of no class for the crate too; its lexer stops before it wherever it stands.
const BAD: &[u8] = b"\x01";
/// A good token that neither reader expects anywhere.
const UNEXPECTED: &[u8] = b",";
/// Over 64 bits; the crate's lexer stops before it, while it runs past a hex one.
const OVER_64_BITS: &[u8] = b"99999999999999999999";
/// Put behind `inf` and `nan`, which the crate takes for floats.
pub const NAME_TAIL: &str = "_is_a_name";

pub struct Translation {
    pub text: Vec<u8>,
    /// The rules that changed something, in text order.
    pub rules: Vec<Rule>,
    /// Where the first token begins that was changed.
    pub first: Option<usize>,
}

/// What an open brace holds.
enum Scope {
    Message(usize),
    /// An entry: the message that its value is, if any, and whether `value` was seen.
    Entry {
        value: Option<usize>,
        seen: bool,
    },
    /// Not what the schema has there; reading ends here.
    Lost,
}

struct Translator<'a> {
    schema: &'a Schema,
    rules: &'a Rules,
    text: &'a [u8],
    out: Vec<u8>,
    used: Vec<Rule>,
    first: Option<usize>,
    scopes: Vec<Scope>,
    last_name: Option<String>,
    after_string: bool,
}

/// What happens after a token.
enum Next {
    GoOn,
    Stop,
    /// A rule that isn't applied would have ended the text here: the rest goes as it is.
    CopyRest,
}

pub fn translate(schema: &Schema, root: usize, text: &[u8], rules: &Rules) -> Translation {
    let mut translator = Translator {
        schema,
        rules,
        text,
        out: Vec::new(),
        used: Vec::new(),
        first: None,
        scopes: vec![Scope::Message(root)],
        last_name: None,
        after_string: false,
    };
    translator.all();
    Translation { text: translator.out, rules: translator.used, first: translator.first }
}

impl Translator<'_> {
    fn all(&mut self) {
        let mut at = 0;
        loop {
            let start = skip_space(self.text, at);
            self.out.extend_from_slice(&self.text[at..start]);
            if start == self.text.len() {
                return;
            }
            let (token, end) = token_at(self.text, start);
            let next = self.token(&token, start, end);
            if !self.used.is_empty() {
                self.first.get_or_insert(start);
            }
            match next {
                Next::GoOn => at = end,
                Next::Stop => return,
                Next::CopyRest => {
                    self.out.extend_from_slice(&self.text[start..]);
                    return;
                }
            }
        }
    }

    fn token(&mut self, token: &Token, start: usize, end: usize) -> Next {
        let bytes = &self.text[start..end];
        let next = match token {
            Token::Name => self.name(bytes),
            Token::Decimal(_) => self.copy(bytes),
            Token::Octal(value) => self.octal(*value, bytes),
            Token::Hex(None) => self.instead(Rule::SwallowedToken, OVER_64_BITS, bytes),
            Token::Hex(Some(_)) => self.copy(bytes),
            Token::Text => self.string(bytes),
            Token::Symbol(symbol) => self.symbol(*symbol, bytes),
            Token::Bad(bad) => self.bad(*bad, bytes[0]),
        };
        self.after_string = *token == Token::Text;
        if *token != Token::Name {
            self.last_name = None;
        }
        next
    }

    fn copy(&mut self, bytes: &[u8]) -> Next {
        self.out.extend_from_slice(bytes);
        Next::GoOn
    }

    /// `other` in place of the token, if the rule is applied; reading goes on.
    fn instead(&mut self, rule: Rule, other: &[u8], bytes: &[u8]) -> Next {
        if !self.rules.has(rule) {
            return self.copy(bytes);
        }
        self.used.push(rule);
        self.copy(other)
    }

    /// `other` in place of the token and all that follows, if the rule is applied.
    fn end(&mut self, rule: Rule, other: &[u8]) -> Next {
        if !self.rules.has(rule) {
            return Next::CopyRest;
        }
        self.used.push(rule);
        self.out.extend_from_slice(other);
        Next::Stop
    }

    fn bad(&mut self, bad: Bad, first: u8) -> Next {
        let rule = match bad {
            // The crate reads it as part of the string before it.
            _ if self.after_string && matches!(first, b'\'' | b'"') => Rule::AdjacentStrings,
            Bad::NotOctal => Rule::NotOctal,
            Bad::RunOn => Rule::RunOn,
            Bad::NoHexDigit | Bad::Unended => Rule::SwallowedToken,
            Bad::BackslashNewline => Rule::BackslashNewline,
            Bad::Space => Rule::UnicodeSpace,
            Bad::Letter => Rule::UnicodeLetter,
            Bad::Punctuation => Rule::Punctuation,
            Bad::Other => return Next::CopyRest,
        };
        self.end(rule, BAD)
    }

    /// The crate takes `0` then digits as decimal.
    fn octal(&mut self, value: Option<u64>, bytes: &[u8]) -> Next {
        match value {
            Some(v) if value_of(bytes, 10) != value => {
                self.instead(Rule::Octal, v.to_string().as_bytes(), bytes)
            }
            _ => self.copy(bytes),
        }
    }

    fn string(&mut self, bytes: &[u8]) -> Next {
        if self.after_string && self.rules.has(Rule::AdjacentStrings) {
            return self.end(Rule::AdjacentStrings, UNEXPECTED);
        }
        let quote = &bytes[..1];
        match respell(&bytes[1..bytes.len() - 1], self.rules) {
            Respelled::Refused(rule) => self.end(rule, UNEXPECTED),
            Respelled::Inside(inside, used) => {
                self.used.extend(used);
                self.copy(&[quote, &inside, quote].concat())
            }
        }
    }

    fn name(&mut self, bytes: &[u8]) -> Next {
        let name = String::from_utf8_lossy(bytes).into_owned();
        if let Some(Scope::Entry { seen, .. }) = self.scopes.last_mut() {
            *seen |= name == "value";
        }
        let is_float = name == "inf" || name == "nan";
        self.last_name = Some(name);
        if is_float {
            return self.instead(Rule::InfNan, &[bytes, NAME_TAIL.as_bytes()].concat(), bytes);
        }
        self.copy(bytes)
    }

    fn symbol(&mut self, symbol: u8, bytes: &[u8]) -> Next {
        match symbol {
            b'{' | b'<' if self.scopes.len() > MOST_DEPTH => self.end(Rule::Depth, UNEXPECTED),
            b'{' | b'<' => {
                let scope = self.opened();
                self.scopes.push(scope);
                self.copy(bytes)
            }
            b'}' | b'>' if self.default_is_too_deep() => self.end(Rule::Depth, UNEXPECTED),
            b'}' | b'>' => {
                self.scopes.pop();
                self.copy(bytes)
            }
            _ => self.copy(bytes),
        }
    }

    /// The scope that an opener after the last name opens.
    fn opened(&self) -> Scope {
        let Some(name) = &self.last_name else {
            return Scope::Lost;
        };
        match self.scopes.last() {
            Some(Scope::Message(message)) => match self.schema.field(*message, name) {
                Some(field) if field.label == Label::Map => Scope::Entry {
                    value: (field.kind == MESSAGE).then_some(field.reference),
                    seen: false,
                },
                Some(field) if field.kind == MESSAGE => Scope::Message(field.reference),
                _ => Scope::Lost,
            },
            Some(Scope::Entry { value: Some(message), .. }) if name == "value" => {
                Scope::Message(*message)
            }
            _ => Scope::Lost,
        }
    }

    /// Whether an entry closes here whose default message would stand at depth 33.
    fn default_is_too_deep(&self) -> bool {
        let depth = self.scopes.len().saturating_sub(1);
        let lacks_message =
            matches!(self.scopes.last(), Some(Scope::Entry { value: Some(_), seen: false }));
        depth == MOST_DEPTH && lacks_message
    }
}

#[cfg(test)]
mod tests {
    use super::*;
    use crate::schema::schema_x;

    fn translated(text: &str, without: &[Rule]) -> String {
        let rules = Rules::all_but(without.to_vec());
        let made = translate(&schema_x(), 0, text.as_bytes(), &rules);
        String::from_utf8(made.text).unwrap()
    }

    #[test]
    fn common_spellings_stay() {
        let text = "i: -0x1F # 012 'a\n m <si {key: 'é\\101\\x41\\n' value: 07}> b:true";
        assert_eq!(translated(text, &[]), text);
    }

    #[test]
    fn listed_spellings_are_replaced() {
        assert_eq!(translated("i: 012 l: 1", &[]), "i: 10 l: 1");
        assert_eq!(translated("i:1l:2", &[]), "i:\x01");
        assert_eq!(translated("inf: 1", &[]), "inf_is_a_name: 1");
        assert_eq!(translated("s: 'a' 'b'", &[]), "s: 'a' ,");
        assert_eq!(translated("s: '\\x4\\18' i: 1", &[]), "s: '\\004\\0018' i: 1");
        assert_eq!(translated("s: '\\q' i: 1", &[]), "s: ,");
    }

    #[test]
    fn a_rule_taken_out_leaves_its_spelling() {
        assert_eq!(translated("i: 012 l: 08", &[Rule::Octal]), "i: 012 l: \x01");
        assert_eq!(translated("i: 012 l: 08 é", &[Rule::NotOctal]), "i: 10 l: 08 é");
        assert_eq!(translated("y: '\\x4\\18'", &[Rule::HexEscape]), "y: '\\x4\\0018'");
    }

    #[test]
    fn the_first_change_is_told() {
        let rules = Rules::all_but(Vec::new());
        let first = |text: &str| translate(&schema_x(), 0, text.as_bytes(), &rules).first;
        assert_eq!(first("i: 1 l: 2"), None);
        assert_eq!(first("i: 1 inf: 012 l: 08"), Some(5));
        assert_eq!(first("s: 'a' y: '\\x4'"), Some(10));
    }

    #[test]
    fn depth_33_is_cut() {
        let open = |levels: usize| "m{".repeat(levels);
        assert_eq!(translated(&open(32), &[]), open(32));
        assert_eq!(translated(&open(33), &[]), open(32) + "m,");
        assert_eq!(translated(&(open(31) + "bm{}"), &[]), open(31) + "bm{,");
        assert_eq!(translated(&(open(31) + "si{}"), &[]), open(31) + "si{}");
    }
}
