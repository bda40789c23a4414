//! What is sent to the program under test, and how its answers are laid beside.

use crate::answers::{Crate, Values};
use crate::hex::{to_hex, words_to_hex};

const NODE_WORDS: usize = 5;
const MOST_NODES: usize = 65_535;
const UNKNOWN_KINDS: std::ops::RangeInclusive<u32> = 11..=13;

/// Requests, each with its answer if it has one.
pub type Exchange = Vec<(String, Option<String>)>;

/// A node table with its pool.
#[derive(Clone, Debug)]
pub struct Table {
    pub words: Vec<u32>,
    pub pool: Vec<u8>,
}

impl Table {
    pub fn has_unknown(&self) -> bool {
        self.words.chunks(NODE_WORDS).any(|node| UNKNOWN_KINDS.contains(&node[0]))
    }
}

pub fn answering(requests: &[String]) -> usize {
    requests.iter().filter(|r| !r.starts_with("N ") && !r.starts_with("P ")).count()
}

/// A text brings at most a node for each byte and the root, and at most a pool byte for each byte.
pub fn text_requests(text: &[u8], wanted: &Crate) -> Vec<String> {
    let nodes = (text.len() + 1).min(MOST_NODES);
    let mut requests = vec![format!("T {} {} {}", nodes * NODE_WORDS, text.len(), to_hex(text))];
    if let Crate::Accepted(values) = wanted {
        requests.extend(value_requests(values));
    }
    requests
}

fn value_requests(values: &Values) -> [String; 3] {
    [format!("C {}", values.compact.len()), format!("Y {}", values.pretty.len()), "Q".to_owned()]
}

pub fn table_requests(table: &Table, values: Option<&Values>) -> Vec<String> {
    let mut requests =
        vec![format!("N {}", words_to_hex(&table.words)), format!("P {}", to_hex(&table.pool))];
    match values {
        Some(values) => requests.extend(value_requests(values)),
        None => requests.extend(["C 0", "Y 0", "Q"].map(str::to_owned)),
    }
    requests
}

/// The words and the pool of an accepted text whose prints were asked for: `T 0 0 NODES POOLBYTES
/// WORDSHEX POOLHEX KEPT`.
pub fn read_table(exchange: &Exchange) -> Option<(&str, &str)> {
    let answer = exchange.first().filter(|_| exchange.len() > 1)?.1.as_ref()?;
    let words: Vec<&str> = answer.split(' ').collect();
    match words.as_slice() {
        ["T", "0", "0", _, _, nodes, pool, _] => Some((*nodes, *pool)),
        _ => None,
    }
}

pub fn paired(requests: Vec<String>, answers: Vec<String>) -> Exchange {
    let mut answers = answers.into_iter();
    requests.into_iter().map(|r| (r, answers.next())).collect()
}

pub fn table_exchange(mut requests: Vec<String>, answers: Vec<String>) -> Exchange {
    let asked = requests.split_off(2);
    let given = requests.into_iter().map(|r| (r, None));
    given.chain(paired(asked, answers)).collect()
}
