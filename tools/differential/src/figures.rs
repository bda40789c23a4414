//! What a run has seen.

use std::collections::BTreeMap;

use crate::answers::Ours;
use crate::judge::{Printing, Reading, Verdict};
use crate::show;

#[derive(Default)]
pub struct Figures {
    texts: usize,
    accepted: usize,
    refused: BTreeMap<u64, usize>,
    /// By rule, then by the two outcomes.
    listed: BTreeMap<&'static str, BTreeMap<String, usize>>,
    places: usize,
    places_listed: BTreeMap<&'static str, usize>,
    tables: usize,
    incomplete: usize,
}

impl Figures {
    pub fn count_text(&mut self, reading: &Reading) {
        self.texts += 1;
        match &reading.ours {
            Ours::Accepted(_) | Ours::AcceptedAlone => self.accepted += 1,
            Ours::Refused { number, .. } => *self.refused.entry(*number).or_default() += 1,
            Ours::Broken(_) => {}
        }
        if let Verdict::Listed(rule) = reading.verdict {
            let pair = format!(
                "{}/{}",
                show::our_class(&reading.ours),
                show::their_class(&reading.theirs)
            );
            *self.listed.entry(rule.name()).or_default().entry(pair).or_default() += 1;
        }
        self.places += usize::from(reading.place.is_some());
        if let Some(Verdict::Listed(rule)) = reading.place {
            *self.places_listed.entry(rule.name()).or_default() += 1;
        }
    }

    pub fn count_table(&mut self, printing: &Printing) {
        self.tables += 1;
        if let Ours::Accepted(values) = &printing.ours {
            self.incomplete += usize::from(!values.complete);
        }
    }

    pub fn print(&self, seed: u64) {
        let listed: usize = self.listed.values().flat_map(BTreeMap::values).sum();
        println!("seed {seed}");
        println!(
            "texts {}: {} accepted, {} refused",
            self.texts,
            self.accepted,
            self.refused.values().sum::<usize>()
        );
        for (number, count) in &self.refused {
            println!("  refused {number}: {count}");
        }
        println!("texts with a listed difference, as ours/crate: {listed}");
        for (rule, pairs) in &self.listed {
            let pairs: Vec<String> =
                pairs.iter().map(|(pair, count)| format!("{pair} {count}")).collect();
            println!("  {rule}: {}", pairs.join(", "));
        }
        println!("places of refusals compared: {}", self.places);
        for (rule, count) in &self.places_listed {
            println!("  {rule}: {count}");
        }
        println!("tables {}: {} with a required field missing", self.tables, self.incomplete);
    }
}
