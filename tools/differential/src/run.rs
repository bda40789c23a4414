//! A run: short texts, random texts and damaged ones, and tables, until a difference that no entry
//! covers.

use std::io;

use crate::answers::{Crate, Ours};
use crate::figures::Figures;
use crate::generate;
use crate::generate::short::PLACES;
use crate::generate::text::Odds;
use crate::judge::{Judge, Reading};
use crate::options::Options;
use crate::random::Random;
use crate::requests::{Exchange, Table};
use crate::schema::schema_x;
use crate::setting::Setting;
use crate::{show, shrink};

const BATCH: usize = 500;
const TEXTS_OF_A_SCHEMA: usize = 200;
const TABLES_OF_A_SCHEMA: usize = 40;

/// Out of a hundred texts, how many are tokens in no order, and how many of the others are damaged.
const SOUP: usize = 10;
const DAMAGED: usize = 40;
const PLAIN: Odds = Odds { strange: 0, slips: 0 };
const STRANGE: Odds = Odds { strange: 8, slips: 0 };
const SLIPPING: Odds = Odds { strange: 3, slips: 30 };

/// True if every difference was listed.
pub fn run(judge: &mut Judge, options: &Options) -> io::Result<bool> {
    let mut figures = Figures::default();
    let mut random = Random::new(options.seed);
    let good = short_texts(judge, options, &mut figures)?
        && long_texts(judge, &mut figures)?
        && random_texts(judge, options, &mut random, &mut figures)?
        && random_tables(judge, options, &mut random, &mut figures)?;
    figures.print(options.seed);
    println!(
        "{}",
        if good {
            "no difference outside the listed entries"
        } else {
            "A DIFFERENCE THAT NO ENTRY COVERS"
        }
    );
    Ok(good)
}

fn short_texts(judge: &mut Judge, options: &Options, figures: &mut Figures) -> io::Result<bool> {
    let setting = Setting::new(schema_x(), 0);
    for place in PLACES {
        let texts = generate::short::texts(place, options.short);
        for batch in texts.chunks(BATCH) {
            if !batch_of_texts(judge, &setting, batch, figures)? {
                return Ok(false);
            }
        }
    }
    Ok(true)
}

fn long_texts(judge: &mut Judge, figures: &mut Figures) -> io::Result<bool> {
    let setting = Setting::new(schema_x(), 0);
    for text in generate::long::texts() {
        if !batch_of_texts(judge, &setting, &[text], figures)? {
            return Ok(false);
        }
    }
    let table = generate::long::table();
    batch_of_tables(judge, &setting, &[table], figures)
}

fn random_texts(
    judge: &mut Judge,
    options: &Options,
    random: &mut Random,
    figures: &mut Figures,
) -> io::Result<bool> {
    let mut left = options.texts;
    while left > 0 {
        let setting = random_setting(random);
        let count = left.min(TEXTS_OF_A_SCHEMA);
        left -= count;
        let texts: Vec<Vec<u8>> = (0..count).map(|_| random_text(&setting, random)).collect();
        if !batch_of_texts(judge, &setting, &texts, figures)? {
            return Ok(false);
        }
    }
    Ok(true)
}

pub fn random_setting(random: &mut Random) -> Setting {
    let schema = generate::schema::schema(random);
    // A message without fields can hold nothing, so it is the root only now and then.
    let full: Vec<usize> =
        (0..schema.messages.len()).filter(|m| !schema.messages[*m].is_empty()).collect();
    let root = if full.is_empty() || random.chance(2) {
        random.below(schema.messages.len())
    } else {
        *random.pick(&full)
    };
    Setting::new(schema, root)
}

pub fn random_text(setting: &Setting, random: &mut Random) -> Vec<u8> {
    if random.chance(SOUP) {
        return generate::damage::soup(&setting.schema, random);
    }
    let odds = *random.pick(&[PLAIN, STRANGE, SLIPPING]);
    let text = generate::text::text(&setting.schema, setting.root, random, odds);
    if random.chance(DAMAGED) {
        return generate::damage::damaged(&text, random);
    }
    String::from_utf8_lossy(&text).into_owned().into_bytes()
}

fn batch_of_texts(
    judge: &mut Judge,
    setting: &Setting,
    texts: &[Vec<u8>],
    figures: &mut Figures,
) -> io::Result<bool> {
    let readings = judge.texts(setting, texts)?;
    for (text, reading) in texts.iter().zip(&readings) {
        figures.count_text(reading);
        if !reading.is_covered() {
            let small = shrink::text(judge, setting, text)?;
            report_text(judge, setting, &small)?;
            return Ok(false);
        }
    }
    Ok(true)
}

fn report_text(judge: &mut Judge, setting: &Setting, text: &[u8]) -> io::Result<()> {
    for reading in judge.texts(setting, &[text.to_vec()])? {
        let Reading { ours, theirs, translated, wanted, exchange, .. } = reading;
        println!("text            {}", show::text(text));
        println!("ours            {}", show::our_place(&ours));
        println!("crate           {}", show::their_place(&theirs));
        println!("translated      {}", show::text(&translated));
        println!("crate, of this  {}", show::their_place(&wanted));
        print!("{}", setting.lines());
        print_exchange(&exchange);
    }
    Ok(())
}

/// Each request with its answer in a comment.
pub fn print_exchange(exchange: &Exchange) {
    for (request, answer) in exchange {
        println!("{request}");
        if let Some(answer) = answer {
            println!("#= {answer}");
        }
    }
}

fn random_tables(
    judge: &mut Judge,
    options: &Options,
    random: &mut Random,
    figures: &mut Figures,
) -> io::Result<bool> {
    let mut left = options.tables;
    while left > 0 {
        let setting = random_setting(random);
        let count = left.min(TABLES_OF_A_SCHEMA);
        left -= count;
        let tables: Vec<Table> = (0..count)
            .map(|_| generate::table::table(&setting.schema, setting.root, random))
            .collect();
        if !batch_of_tables(judge, &setting, &tables, figures)? {
            return Ok(false);
        }
    }
    Ok(true)
}

fn batch_of_tables(
    judge: &mut Judge,
    setting: &Setting,
    tables: &[Table],
    figures: &mut Figures,
) -> io::Result<bool> {
    let printings = judge.tables(setting, tables)?;
    for (table, printing) in tables.iter().zip(&printings) {
        figures.count_table(printing);
        if !printing.same {
            let small = shrink::table(judge, setting, table)?;
            report_table(judge, setting, &small)?;
            return Ok(false);
        }
    }
    Ok(true)
}

fn report_table(judge: &mut Judge, setting: &Setting, table: &Table) -> io::Result<()> {
    for printing in judge.tables(setting, &[table.clone()])? {
        let complete = |values: bool| {
            if values {
                "complete"
            } else {
                "a required field missing"
            }
        };
        if let Ours::Accepted(values) = &printing.ours {
            println!("ours   {}, {}", show::ours(&printing.ours), complete(values.complete));
        } else {
            println!("ours   {}", show::ours(&printing.ours));
        }
        match printing.theirs {
            Some(v) => println!(
                "crate  {}, {}",
                show::theirs(&Crate::Accepted(v.clone())),
                complete(v.complete)
            ),
            None => println!("crate  can't be given this table"),
        }
        print!("{}", setting.lines());
        print_exchange(&printing.exchange);
    }
    Ok(())
}
