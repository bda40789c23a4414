//! A sample of the crate's answers as stored vectors: every entry's inputs, and random texts and
//! tables until every kind of agreement is there.
//!
//! A `#` line before a request says what the crate answers to it. Each answer of the program under
//! test, which the crate agrees with, stands after its request on a line that begins with `#= `, so
//! that the whole is itself a valid input.

use std::collections::BTreeSet;
use std::io;

use crate::answers::{Crate, Ours};
use crate::entries;
use crate::generate;
use crate::judge::{Judge, Printing, Reading, Verdict};
use crate::options::Options;
use crate::random::Random;
use crate::requests::{Exchange, Table};
use crate::rules::ALL;
use crate::run::{print_exchange, random_setting, random_text};
use crate::schema::schema_x;
use crate::setting::Setting;
use crate::show;

const TEXTS_OF_A_SCHEMA: usize = 8;
const TABLES_OF_A_SCHEMA: usize = 3;
/// Vectors are to be read by people too.
const LONGEST_LINE: usize = 4_000;
const EMPTY_TEXT: &str = " 0 -";

/// What a sample must hold beside the entries' inputs, as `Kinds` names it: ours/the crate's.
const KINDS: &[&str] = &[
    "read/read",
    "4/refused",
    "5/refused",
    "6/6",
    "7/7",
    "8/8",
    "9/9",
    "9/refused",
    "10/10",
    "11/refused",
    "map in another order",
    "required field missing after reading",
    "table complete",
    "table with a required field missing",
    "table with an unknown field",
];

/// The kinds of agreement that a sample holds so far.
#[derive(Default)]
struct Kinds(BTreeSet<String>);

impl Kinds {
    fn note_text(&mut self, reading: &Reading) {
        if reading.verdict != Verdict::Same {
            return;
        }
        let pair =
            format!("{}/{}", show::our_class(&reading.ours), show::their_class(&reading.theirs));
        self.0.insert(pair);
        if let Ours::Accepted(values) = &reading.ours {
            if !values.complete {
                self.0.insert("required field missing after reading".to_owned());
            }
            if matches!(&reading.theirs, Crate::Accepted(theirs) if theirs.compact != values.compact)
            {
                self.0.insert("map in another order".to_owned());
            }
        }
    }

    fn note_table(&mut self, table: &Table, printing: &Printing) {
        let Ours::Accepted(values) = &printing.ours else {
            return;
        };
        let kind = match values.complete {
            true => "table complete",
            false => "table with a required field missing",
        };
        self.0.insert(kind.to_owned());
        if table.has_unknown() {
            self.0.insert("table with an unknown field".to_owned());
        }
    }

    fn lacking(&self) -> Vec<&'static str> {
        KINDS.iter().copied().filter(|kind| !self.0.contains(*kind)).collect()
    }
}

/// True if nothing differed on the way.
pub fn sample(judge: &mut Judge, options: &Options) -> io::Result<bool> {
    println!(
        "# Answers of the crate protobuf 3.7.2, and the same in our numbers. Seed {}.",
        options.seed
    );
    if !entries_inputs(judge)? {
        return Ok(false);
    }
    let mut random = Random::new(options.seed);
    let mut kinds = Kinds::default();
    let mut left = options.lines;
    while left > 0 || !kinds.lacking().is_empty() {
        let setting = random_setting(&mut random);
        if setting.lines().len() > LONGEST_LINE {
            continue;
        }
        let Some(count) = agreed(judge, &setting, &mut random, &mut kinds)? else {
            return Ok(false);
        };
        left = left.saturating_sub(count);
    }
    Ok(true)
}

/// Every input of every entry, under the entry's name.
fn entries_inputs(judge: &mut Judge) -> io::Result<bool> {
    let setting = Setting::new(schema_x(), 0);
    print!("{}", setting.lines());
    for rule in ALL {
        println!("# Entry {} of docs/DIFFERENCES.md.", rule.name());
        for text in entries::texts(rule) {
            for reading in judge.texts(&setting, &[text])? {
                if !reading.is_covered() || !reading.shows(rule) {
                    return Ok(false);
                }
                println!("# The crate: {}", show::their_part(rule, &reading.theirs));
                print_exchange(&reading.exchange);
            }
        }
    }
    Ok(true)
}

/// Prints texts and tables under one schema with their answers, and counts the requests; `None` if
/// there is a difference that no entry covers.
fn agreed(
    judge: &mut Judge,
    setting: &Setting,
    random: &mut Random,
    kinds: &mut Kinds,
) -> io::Result<Option<usize>> {
    let texts: Vec<Vec<u8>> =
        (0..TEXTS_OF_A_SCHEMA).map(|_| random_text(setting, random)).collect();
    let tables: Vec<Table> = (0..TABLES_OF_A_SCHEMA)
        .map(|_| generate::table::table(&setting.schema, setting.root, random))
        .collect();
    let readings = judge.texts(setting, &texts)?;
    let printings = judge.tables(setting, &tables)?;
    if readings.iter().any(|r| !r.is_covered()) || printings.iter().any(|p| !p.same) {
        return Ok(None);
    }
    print!("{}", setting.lines());
    let mut count = 0;
    for reading in readings.iter().filter(|r| is_short(&r.exchange)) {
        kinds.note_text(reading);
        print_answer(&reading.theirs);
        print_exchange(&reading.exchange);
        count += reading.exchange.len();
    }
    for (table, printing) in tables.iter().zip(&printings).filter(|(_, p)| is_short(&p.exchange)) {
        kinds.note_table(table, printing);
        if let Some(values) = &printing.theirs {
            print_answer(&Crate::Accepted(values.clone()));
        }
        print_exchange(&printing.exchange);
        count += printing.exchange.len();
    }
    Ok(Some(count))
}

fn is_short(exchange: &Exchange) -> bool {
    exchange
        .iter()
        .all(|(request, _)| request.len() <= LONGEST_LINE && !request.ends_with(EMPTY_TEXT))
}

fn print_answer(theirs: &Crate) {
    println!("# The crate: {}", show::theirs(theirs));
}
