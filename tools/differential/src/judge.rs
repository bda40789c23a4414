//! The same texts and tables put to the crate and to the program under test, in batches, and
//! judged.

use std::io;

use crate::answers::{crate_reading, crate_table, our_refusal, our_values, Crate, Ours, Values};
use crate::compare::{agree, is_nodes_difference, same_values};
use crate::hex::{to_hex, words_to_hex};
use crate::places::{is_of_offset, of_crate, offset_in, Place, PLACED};
use crate::program::Program;
use crate::requests::{
    answering, paired, read_table, table_exchange, table_requests, text_requests, Exchange, Table,
};
use crate::rules::{Rule, Rules};
use crate::setting::{untranslated, Setting};
use crate::translate::{translate, Translation};

#[derive(Clone, Copy, PartialEq, Eq, Debug)]
pub enum Verdict {
    /// The same outcome for the same text.
    Same,
    /// Another outcome, as the listed entry says; the first rule that changed the text.
    Listed(Rule),
    /// Another outcome that no entry covers.
    Different,
}

/// A text with both outcomes.
pub struct Reading {
    pub ours: Ours,
    /// The crate's outcome for the text as it is.
    pub theirs: Crate,
    /// The text with the listed spellings replaced, and the crate's outcome for that.
    pub translated: Vec<u8>,
    pub wanted: Crate,
    pub verdict: Verdict,
    /// Of line and column, where they are compared.
    pub place: Option<Verdict>,
    /// The requests and answers in the form of the program under test.
    pub exchange: Exchange,
}

impl Reading {
    /// Whether all that differs is listed.
    pub fn is_covered(&self) -> bool {
        self.verdict != Verdict::Different && self.place != Some(Verdict::Different)
    }

    /// Whether outcome or place differs as this entry says.
    pub fn shows(&self, rule: Rule) -> bool {
        self.verdict == Verdict::Listed(rule) || self.place == Some(Verdict::Listed(rule))
    }
}

/// A table with both outcomes.
pub struct Printing {
    pub ours: Ours,
    pub theirs: Option<Values>,
    pub same: bool,
    pub exchange: Exchange,
}

pub struct Judge {
    pub oracle: Program,
    pub peer: Program,
    pub rules: Rules,
}

impl Judge {
    pub fn texts(&mut self, setting: &Setting, texts: &[Vec<u8>]) -> io::Result<Vec<Reading>> {
        let made: Vec<Translation> = texts
            .iter()
            .map(|t| translate(&setting.schema, setting.root, t, &self.rules))
            .collect();
        let (wanted, theirs) = self.crate_outcomes(setting, texts, &made)?;
        let asked = self.our_readings(setting, texts, &wanted)?;
        let followed = self.follow_tables(setting, &asked)?;
        let outcomes = asked.into_iter().zip(theirs.into_iter().zip(wanted));
        let rows = outcomes.zip(made.into_iter().zip(followed)).zip(texts);
        let judged = rows.map(|((((ours, exchange), (theirs, wanted)), (made, follows)), text)| {
            let verdict = match follows && is_of_offset(text, &ours) {
                true => self.verdict(setting, &ours, &theirs, &wanted, &made),
                false => Verdict::Different,
            };
            let place = self.place(text, &ours, &wanted, &made);
            let translated = made.text;
            Reading { ours, theirs, translated, wanted, verdict, place, exchange }
        });
        Ok(judged.collect())
    }

    /// The crate's outcomes for the translated texts, and for the texts as they are.
    fn crate_outcomes(
        &mut self,
        setting: &Setting,
        texts: &[Vec<u8>],
        made: &[Translation],
    ) -> io::Result<(Vec<Crate>, Vec<Crate>)> {
        let lines = setting.translated_lines(&self.rules);
        let wanted = self.crate_readings(&lines, made.iter().map(|t| &t.text[..]))?;
        let rules = &self.rules;
        let wanted: Vec<Crate> = wanted.into_iter().map(|c| name_back(c, rules)).collect();
        let changed: Vec<usize> = (0..texts.len()).filter(|i| made[*i].text != texts[*i]).collect();
        let plain =
            self.crate_readings(&setting.lines(), changed.iter().map(|i| &texts[*i][..]))?;
        let mut theirs = wanted.clone();
        for (i, outcome) in changed.into_iter().zip(plain) {
            theirs[i] = outcome;
        }
        Ok((wanted, theirs))
    }

    /// Whether the crate, given the nodes and the pool that were read, prints what the program
    /// under test prints of them. A printer that goes with a wrong reader would hide it.
    fn follow_tables(
        &mut self,
        setting: &Setting,
        asked: &[(Ours, Exchange)],
    ) -> io::Result<Vec<bool>> {
        let given: Vec<Option<(&str, &str)>> =
            asked.iter().map(|(_, exchange)| read_table(exchange)).collect();
        let mut lines = setting.lines();
        for (words, pool) in given.iter().flatten() {
            lines.push_str(&format!("N {words}\nP {pool}\nC 0\nY 0\nQ\n"));
        }
        let answers = self.oracle.ask(&lines, 3 * given.iter().flatten().count())?;
        let mut answers = answers.chunks(3).map(|a| crate_table(&a[0], &a[1], &a[2]));
        let views: Vec<Option<Values>> =
            given.iter().map(|table| table.and_then(|_| answers.next().flatten())).collect();
        let follows = |i: usize| match (&asked[i].0, given[i], &views[i]) {
            (Ours::Accepted(ours), Some(_), Some(view)) => {
                same_values(&setting.schema, setting.root, ours, view)
            }
            (Ours::Accepted(_), Some(_), None) => false,
            _ => true,
        };
        Ok((0..asked.len()).map(follows).collect())
    }

    /// The program under test must answer the text as the crate answers its translation.
    fn verdict(
        &self,
        setting: &Setting,
        ours: &Ours,
        theirs: &Crate,
        wanted: &Crate,
        made: &Translation,
    ) -> Verdict {
        let agrees = |other: &Crate| agree(&setting.schema, setting.root, ours, other);
        if is_nodes_difference(ours, wanted, &self.rules) {
            return Verdict::Listed(Rule::Nodes);
        }
        match (agrees(wanted), agrees(theirs), made.rules.first()) {
            (true, true, _) => Verdict::Same,
            (true, false, Some(rule)) => Verdict::Listed(*rule),
            _ => Verdict::Different,
        }
    }

    /// Line and column beside those that the crate gives for the translation, where nothing before
    /// the refusal was translated.
    fn place(
        &self,
        text: &[u8],
        ours: &Ours,
        wanted: &Crate,
        made: &Translation,
    ) -> Option<Verdict> {
        let (Ours::Refused { number, at, place }, Crate::Refused(_, message)) = (ours, wanted)
        else {
            return None;
        };
        let at = offset_in(text, *at)?;
        if !PLACED.contains(number) || made.first.is_some_and(|first| first < at) {
            return None;
        }
        let given = Place::of_message(message);
        let (due, rule) = of_crate(text, at, &self.rules);
        Some(match given == Some(due) {
            true if due == *place => Verdict::Same,
            true => Verdict::Listed(rule),
            false => Verdict::Different,
        })
    }

    fn crate_readings<'a>(
        &mut self,
        setting: &str,
        texts: impl Iterator<Item = &'a [u8]>,
    ) -> io::Result<Vec<Crate>> {
        let mut lines = setting.to_owned();
        let mut count = 0;
        for text in texts {
            lines.push_str(&format!("T 0 0 {}\nQ\n", to_hex(text)));
            count += 1;
        }
        let answers = self.oracle.ask(&lines, 2 * count)?;
        let outcome = |pair: &[String]| {
            crate_reading(&pair[0], &pair[1])
                .ok_or_else(|| io::Error::other(format!("oracle: {}", pair[0])))
        };
        answers.chunks(2).map(outcome).collect()
    }

    /// Prints are asked for where the crate accepts, into rooms of exactly the crate's lengths.
    fn our_readings(
        &mut self,
        setting: &Setting,
        texts: &[Vec<u8>],
        wanted: &[Crate],
    ) -> io::Result<Vec<(Ours, Exchange)>> {
        let requests: Vec<Vec<String>> =
            texts.iter().zip(wanted).map(|(t, w)| text_requests(t, w)).collect();
        let answers = self.peer_answers(&setting.lines(), &requests)?;
        let read = |(requests, answers): (Vec<String>, Vec<String>)| {
            let ours = our_reading(&answers);
            (ours, paired(requests, answers))
        };
        Ok(requests.into_iter().zip(answers).map(read).collect())
    }

    pub fn tables(&mut self, setting: &Setting, tables: &[Table]) -> io::Result<Vec<Printing>> {
        let theirs = self.crate_tables(setting, tables)?;
        let requests: Vec<Vec<String>> =
            tables.iter().zip(&theirs).map(|(t, v)| table_requests(t, v.as_ref())).collect();
        let answers = self.peer_answers(&setting.lines(), &requests)?;
        let judged =
            requests.into_iter().zip(answers).zip(theirs).map(|((requests, answers), theirs)| {
                let ours = match answers.as_slice() {
                    [c, y, q] => our_values(c, y, q),
                    _ => Ours::Broken(answers.join(" | ")),
                };
                let same = match (&ours, &theirs) {
                    (Ours::Accepted(a), Some(b)) => {
                        same_values(&setting.schema, setting.root, a, b)
                    }
                    _ => false,
                };
                Printing { ours, theirs, same, exchange: table_exchange(requests, answers) }
            });
        Ok(judged.collect())
    }

    fn crate_tables(
        &mut self,
        setting: &Setting,
        tables: &[Table],
    ) -> io::Result<Vec<Option<Values>>> {
        let mut lines = setting.lines();
        for table in tables {
            lines.push_str(&format!(
                "N {}\nP {}\nC 0\nY 0\nQ\n",
                words_to_hex(&table.words),
                to_hex(&table.pool)
            ));
        }
        let answers = self.oracle.ask(&lines, 3 * tables.len())?;
        Ok(answers.chunks(3).map(|a| crate_table(&a[0], &a[1], &a[2])).collect())
    }

    /// The answers to each list of requests. A program that ends in the middle is started again and
    /// asked one list at a time, so that the list that ends it has no answers and the others have
    /// theirs.
    fn peer_answers(
        &mut self,
        setting: &str,
        requests: &[Vec<String>],
    ) -> io::Result<Vec<Vec<String>>> {
        let counts: Vec<usize> = requests.iter().map(|r| answering(r)).collect();
        let lines: String = requests.iter().flatten().map(|r| format!("{r}\n")).collect();
        if let Ok(answers) = self.peer.ask(&format!("{setting}{lines}"), counts.iter().sum()) {
            let mut answers = answers.into_iter();
            return Ok(counts.iter().map(|n| answers.by_ref().take(*n).collect()).collect());
        }
        let mut all = Vec::new();
        self.peer.restart()?;
        for (list, count) in requests.iter().zip(counts) {
            let answers = self.peer.ask(&format!("{setting}{}\n", list.join("\n")), count);
            if answers.is_err() {
                self.peer.restart()?;
            }
            all.push(answers.unwrap_or_default());
        }
        Ok(all)
    }
}

fn our_reading(answers: &[String]) -> Ours {
    let Some(t) = answers.first() else {
        return Ours::Broken("no answer".to_owned());
    };
    match (our_refusal(t), &answers[1..]) {
        (Err(refused), _) => refused,
        (Ok(()), [c, y, q]) => our_values(c, y, q),
        (Ok(()), _) => Ours::AcceptedAlone,
    }
}

/// The outcome for a translated text with the names put back.
fn name_back(outcome: Crate, rules: &Rules) -> Crate {
    match outcome {
        Crate::Accepted(values) if rules.has(Rule::InfNan) => Crate::Accepted(Values {
            compact: untranslated(&values.compact),
            pretty: untranslated(&values.pretty),
            complete: values.complete,
        }),
        other => other,
    }
}
