//! The listed differences as rules of the comparison, one for each entry of docs/DIFFERENCES.md.

#[derive(Clone, Copy, PartialEq, Eq, Debug)]
pub enum Rule {
    Octal,
    NotOctal,
    RunOn,
    InfNan,
    UnicodeSpace,
    UnicodeLetter,
    Punctuation,
    AdjacentStrings,
    BackslashNewline,
    UnknownEscape,
    HexEscape,
    OctalEscapeDigits,
    OctalEscapeSize,
    SwallowedToken,
    Depth,
    Nodes,
    Columns,
    BadTokenPlace,
}

pub const ALL: [Rule; 18] = [
    Rule::Octal,
    Rule::NotOctal,
    Rule::RunOn,
    Rule::InfNan,
    Rule::UnicodeSpace,
    Rule::UnicodeLetter,
    Rule::Punctuation,
    Rule::AdjacentStrings,
    Rule::BackslashNewline,
    Rule::UnknownEscape,
    Rule::HexEscape,
    Rule::OctalEscapeDigits,
    Rule::OctalEscapeSize,
    Rule::SwallowedToken,
    Rule::Depth,
    Rule::Nodes,
    Rule::Columns,
    Rule::BadTokenPlace,
];

impl Rule {
    /// The entry's heading in docs/DIFFERENCES.md, and the word after `--without`.
    pub fn name(self) -> &'static str {
        match self {
            Rule::Octal => "octal",
            Rule::NotOctal => "not-octal",
            Rule::RunOn => "run-on",
            Rule::InfNan => "inf-nan",
            Rule::UnicodeSpace => "unicode-space",
            Rule::UnicodeLetter => "unicode-letter",
            Rule::Punctuation => "punctuation",
            Rule::AdjacentStrings => "adjacent-strings",
            Rule::BackslashNewline => "backslash-newline",
            Rule::UnknownEscape => "unknown-escape",
            Rule::HexEscape => "hex-escape",
            Rule::OctalEscapeDigits => "octal-escape-digits",
            Rule::OctalEscapeSize => "octal-escape-size",
            Rule::SwallowedToken => "swallowed-token",
            Rule::Depth => "depth",
            Rule::Nodes => "nodes",
            Rule::Columns => "columns",
            Rule::BadTokenPlace => "bad-token-place",
        }
    }

    /// Whether the rule is about line and column of a refusal, and not about outcomes.
    pub fn is_of_places(self) -> bool {
        matches!(self, Rule::Columns | Rule::BadTokenPlace)
    }

    pub fn of_name(name: &str) -> Option<Rule> {
        ALL.into_iter().find(|rule| rule.name() == name)
    }
}

/// The rules that a comparison applies.
#[derive(Clone)]
pub struct Rules {
    without: Vec<Rule>,
}

impl Rules {
    pub fn all_but(without: Vec<Rule>) -> Rules {
        Rules { without }
    }

    pub fn has(&self, rule: Rule) -> bool {
        !self.without.contains(&rule)
    }
}
