//! The smallest input that still shows a difference.

use std::io;

use crate::judge::Judge;
use crate::requests::Table;
use crate::setting::Setting;

const NODE_WORDS: usize = 5;
const KIND_ENTRY: u32 = 10;

/// Letters put to the two programs at once, and in all, while a long text is made smaller.
const BATCH_LETTERS: usize = 1 << 22;
const MOST_LETTERS: usize = 1 << 26;
/// Up to here every stretch of the text is tried.
const SHORT: usize = 80;

/// Deletes letters while the difference stays: long stretches, then ever shorter ones, then any.
pub fn text(judge: &mut Judge, setting: &Setting, start: &[u8]) -> io::Result<Vec<u8>> {
    let mut best: Vec<char> = String::from_utf8_lossy(start).chars().collect();
    let mut tried = 0;
    // Powers of two: long texts are often repeats of two or four letters.
    let mut stretch = best.len().next_power_of_two() / 2;
    while stretch > 0 {
        let batch = (BATCH_LETTERS / best.len().max(1)).max(1) * stretch;
        let mut at = 0;
        while at < best.len() && tried < MOST_LETTERS {
            let places = (at..best.len().min(at + batch)).step_by(stretch);
            let smaller: Vec<_> = places.map(|place| without(&best, place, stretch)).collect();
            tried += smaller.iter().map(Vec::len).sum::<usize>();
            match first_different(judge, setting, &smaller)? {
                Some(found) => best = found,
                None => at += batch,
            }
        }
        stretch /= 2;
    }
    while best.len() <= SHORT {
        let stretches = (1..=best.len()).rev();
        let all = stretches.flat_map(|n| (0..=best.len() - n).map(move |at| (at, n)));
        let smaller: Vec<_> = all.map(|(at, n)| without(&best, at, n)).collect();
        match first_different(judge, setting, &smaller)? {
            Some(found) => best = found,
            None => break,
        }
    }
    Ok(String::from_iter(best).into_bytes())
}

fn first_different(
    judge: &mut Judge,
    setting: &Setting,
    texts: &[Vec<char>],
) -> io::Result<Option<Vec<char>>> {
    let bytes: Vec<Vec<u8>> = texts.iter().map(|t| String::from_iter(t).into_bytes()).collect();
    let readings = judge.texts(setting, &bytes)?;
    let found = readings.iter().position(|r| !r.is_covered());
    Ok(found.map(|i| texts[i].clone()))
}

fn without(letters: &[char], at: usize, count: usize) -> Vec<char> {
    let end = (at + count).min(letters.len());
    [&letters[..at], &letters[end..]].concat()
}

/// Deletes nodes with all below them while the difference stays.
pub fn table(judge: &mut Judge, setting: &Setting, start: &Table) -> io::Result<Table> {
    let mut best = start.clone();
    loop {
        let count = best.words.len() / NODE_WORDS;
        let candidates: Vec<Table> = (1..count).filter_map(|i| without_node(&best, i)).collect();
        let printings = judge.tables(setting, &candidates)?;
        match printings.iter().position(|p| !p.same) {
            Some(found) => best = candidates[found].clone(),
            None => return Ok(best),
        }
    }
}

/// The table without node `index` and its descendants; `None` for a child of an entry, which needs
/// both.
fn without_node(table: &Table, index: usize) -> Option<Table> {
    let end_of = |i: usize| table.words[i * NODE_WORDS + 4] as usize;
    let length = end_of(0);
    if index >= length {
        return None;
    }
    let parent = (0..index).rev().find(|i| end_of(*i) > index)?;
    if table.words[parent * NODE_WORDS] == KIND_ENTRY {
        return None;
    }
    let end = end_of(index);
    let kept = (0..length).filter(|i| *i < index || *i >= end);
    let mut words = Vec::new();
    for i in kept {
        words.extend_from_slice(&table.words[i * NODE_WORDS..i * NODE_WORDS + 4]);
        let gone = if end_of(i) > index { end - index } else { 0 };
        words.push((end_of(i) - gone) as u32);
    }
    Some(Table { words, pool: table.pool.clone() })
}
