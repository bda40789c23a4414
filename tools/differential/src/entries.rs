//! The listed entries with their inputs, and the mode that shows that each is needed.

use std::io;

use crate::judge::{Judge, Reading};
use crate::rules::{Rule, Rules, ALL};
use crate::schema::schema_x;
use crate::setting::Setting;
use crate::show;

/// Inputs of an entry, for schema X.
const INPUTS: &[(Rule, &[&str])] = &[
    (
        Rule::Octal,
        &[
            "i: 012",
            "i: 017777777777",
            "i: 020000000",
            "v: 01777777777777777777777",
            "y: 'a' r: 00010",
        ],
    ),
    (Rule::NotOctal, &["i: 08", "i: 018", "b: 09", "i: 09 x"]),
    (
        Rule::RunOn,
        &["i:1l:2", "i: 1x", "i: 2147483648l", "b: 1.5", "b: 1e5", "b: 1.", "i: 0x1l: 2", "b: 0b1"],
    ),
    (Rule::InfNan, &["inf: 5", "e: nan", "nan: 1", "e: inf", "si {inf: 1}"]),
    (Rule::UnicodeSpace, &["i:\u{a0}1", "\u{2028}", "i: 1\u{3000}l: 2", "b: \u{85}x"]),
    (Rule::UnicodeLetter, &["é", "i: 1é", "e: é", "b: é", "si {é", "i: 1 ª"]),
    (Rule::Punctuation, &["b: +", "b: .5", "b: (true)", "b: ="]),
    (
        Rule::AdjacentStrings,
        &[
            "s: 'a' 'b'",
            "s: 'a'\"b\"",
            "y: '\\1' '2'",
            "s: '' # c\n ''",
            "b: 'a' 'b",
            "m 'a' '\n<>",
        ],
    ),
    (Rule::BackslashNewline, &["s: 'a\\\nb'", "y: '\\\0'", "b: '\\\n'"]),
    (
        Rule::UnknownEscape,
        &["s: '\\q'", "s: '\\8'", "s: '\\X41'", "s: '\\u00e9'", "s: '\\é'", "s: '\\ '"],
    ),
    (Rule::HexEscape, &["y: '\\x4'", "y: '\\x4g'", "b: '\\x'", "s: '\\x9' i: 1"]),
    (
        Rule::OctalEscapeDigits,
        &["y: '\\18'", "y: '\\08'", "y: '\\128'", "s: '\\79'", "s: '\\298'", "y: '\\379'"],
    ),
    (Rule::OctalEscapeSize, &["y: '\\400'", "y: '\\777'", "s: '\\501'"]),
    (
        Rule::SwallowedToken,
        &["m 0x<>", "m '\n<>", "m '\\x<>", "m 0x10000000000000000<>", "n 0X<q: 1>"],
    ),
    (Rule::Depth, &[]),
    (Rule::Nodes, &[]),
    (Rule::Columns, &["s: 'é' nope", "s: '😀' i", "b: # é", "i: 1\ns: 'é' e: LOW"]),
    (
        Rule::BadTokenPlace,
        &[
            "i: \u{1}",
            "i: 1\n\n\u{1}",
            "s: 'a",
            "i: -\n99999999999999999999",
            "m 99999999999999999999",
        ],
    ),
];

/// An input, and how it is shown where it is long.
struct Input {
    text: Vec<u8>,
    shown: String,
}

fn inputs(rule: Rule) -> Vec<Input> {
    let long =
        |text: String, shown: &str| Input { text: text.into_bytes(), shown: shown.to_owned() };
    match rule {
        Rule::Depth => vec![
            long("m{".repeat(33) + &"}".repeat(33), "`m{` 33 times, then `}` 33 times"),
            long(
                "m{".repeat(31) + "bm{}" + &"}".repeat(31),
                "`m{` 31 times, `bm{}`, then `}` 31 times",
            ),
            long("m<".repeat(300) + &">".repeat(300), "`m<` 300 times, then `>` 300 times"),
        ],
        Rule::Nodes => vec![long("r:1 ".repeat(65_535), "`r:1 ` 65,535 times")],
        _ => {
            let texts =
                INPUTS.iter().filter(|(r, _)| *r == rule).flat_map(|(_, texts)| texts.iter());
            texts
                .map(|t| Input {
                    text: t.as_bytes().to_vec(),
                    shown: format!("`{}`", show::text(t.as_bytes())),
                })
                .collect()
        }
    }
}

pub fn texts(rule: Rule) -> Vec<Vec<u8>> {
    inputs(rule).into_iter().map(|input| input.text).collect()
}

/// True if each entry covers its inputs, no other entry does, and the page has them as they are.
pub fn entries(judge: &mut Judge, page: Option<&str>) -> io::Result<bool> {
    let page = page.map(std::fs::read_to_string).transpose()?;
    let mut good = true;
    for rule in ALL {
        println!("### {}", rule.name());
        let document = if rule.is_of_places() { "02" } else { "01" };
        println!("\n| input | document {document} | the crate |\n|---|---|---|");
        for input in inputs(rule) {
            good &= entry(judge, rule, &input, page.as_deref())?;
        }
        println!();
    }
    if let Some(page) = &page {
        good &= headings_match(page);
    }
    println!("{}", if good { "every entry is needed" } else { "AN ENTRY IS NOT AS LISTED" });
    Ok(good)
}

fn entry(judge: &mut Judge, rule: Rule, input: &Input, page: Option<&str>) -> io::Result<bool> {
    let with = judged(judge, Vec::new(), &input.text)?;
    let without = judged(judge, vec![rule], &input.text)?;
    let row = format!(
        "| {} | {} | {} |",
        input.shown,
        show::our_part(rule, &with.ours),
        show::their_part(rule, &with.theirs)
    );
    println!("{row}");
    let mut good = true;
    if !with.is_covered() || !with.shows(rule) {
        println!("  NOT COVERED BY {}: {:?}, {:?}", rule.name(), with.verdict, with.place);
        good = false;
    }
    if without.is_covered() {
        println!("  NO DIFFERENCE WITHOUT {}: {:?}", rule.name(), without.verdict);
        good = false;
    }
    if page.is_some_and(|page| !page.lines().any(|line| line == row)) {
        println!("  THE PAGE LACKS THIS ROW");
        good = false;
    }
    Ok(good)
}

fn judged(judge: &mut Judge, without: Vec<Rule>, text: &[u8]) -> io::Result<Reading> {
    judge.rules = Rules::all_but(without);
    let setting = Setting::new(schema_x(), 0);
    let mut readings = judge.texts(&setting, &[text.to_vec()])?;
    readings.pop().ok_or_else(|| io::Error::other("no reading"))
}

/// The page's entries are those of the comparison, no more and no fewer.
fn headings_match(page: &str) -> bool {
    let headings: Vec<&str> = page.lines().filter_map(|line| line.strip_prefix("### ")).collect();
    let names: Vec<&str> = ALL.iter().map(|rule| rule.name()).collect();
    if headings != names {
        println!("THE PAGE'S ENTRIES ARE {headings:?}");
    }
    headings == names
}
