//! The command line.

use crate::rules::{Rule, Rules};

pub struct Options {
    pub mode: String,
    pub peer: String,
    pub oracle: String,
    pub texts: usize,
    pub tables: usize,
    pub seed: u64,
    /// How many letters the short texts have at most.
    pub short: usize,
    pub lines: usize,
    /// The page that `entries` is held against.
    pub page: Option<String>,
    pub rules: Rules,
}

pub const USAGE: &str = "usage: differential MODE --peer PATH --oracle PATH
run      [--texts N] [--tables M] [--seed S] [--short L] [--without NAME]..
entries  [--page docs/DIFFERENCES.md]
sample   [--lines N] [--seed S]";

pub fn options(arguments: &[String]) -> Result<Options, String> {
    let (mode, rest) = arguments.split_first().ok_or(USAGE)?;
    let mut options = Options {
        mode: mode.clone(),
        peer: String::new(),
        oracle: String::new(),
        texts: 20_000,
        tables: 2_000,
        seed: 1,
        short: 3,
        lines: 1_000,
        page: None,
        rules: Rules::all_but(Vec::new()),
    };
    let mut without = Vec::new();
    for pair in rest.chunks(2) {
        let [flag, value] = pair else {
            return Err(format!("{} needs a value", pair[0]));
        };
        options.set(flag, value, &mut without)?;
    }
    if options.peer.is_empty() || options.oracle.is_empty() {
        return Err(USAGE.to_owned());
    }
    options.rules = Rules::all_but(without);
    Ok(options)
}

impl Options {
    fn set(&mut self, flag: &str, value: &str, without: &mut Vec<Rule>) -> Result<(), String> {
        match flag {
            "--peer" => self.peer = value.to_owned(),
            "--oracle" => self.oracle = value.to_owned(),
            "--page" => self.page = Some(value.to_owned()),
            "--texts" => self.texts = number(value)?,
            "--tables" => self.tables = number(value)?,
            "--seed" => self.seed = number(value)?,
            "--short" => self.short = number(value)?,
            "--lines" => self.lines = number(value)?,
            "--without" => {
                without.push(Rule::of_name(value).ok_or(format!("no rule named {value}"))?)
            }
            _ => return Err(format!("{flag} is not known\n{USAGE}")),
        }
        Ok(())
    }
}

fn number<T: std::str::FromStr>(value: &str) -> Result<T, String> {
    value.parse().map_err(|_| format!("{value} is no number"))
}
