//! Whether two answers agree, over document 01's differential domain.

use crate::answers::{Crate, Ours, Reason, Values};
use crate::printed::sorted;
use crate::rules::{Rule, Rules};
use crate::schema::Schema;

pub const MOST_NODES: u64 = 65_535;
const REFUSED_NODES: u64 = 13;

/// Accepted or refused, the values, and reasons 6 to 10.
pub fn agree(schema: &Schema, root: usize, ours: &Ours, theirs: &Crate) -> bool {
    match (ours, theirs) {
        (Ours::Accepted(a), Crate::Accepted(b)) => same_values(schema, root, a, b),
        (Ours::Refused { number, .. }, Crate::Refused(reason, _)) => same_reason(*number, *reason),
        _ => false,
    }
}

/// A text of too many nodes: the crate has no such limit. This rule is the comparison's, as it
/// changes no spelling.
pub fn is_nodes_difference(ours: &Ours, theirs: &Crate, rules: &Rules) -> bool {
    let many = matches!(ours, Ours::Refused { number: REFUSED_NODES, at, .. } if *at > MOST_NODES);
    many && matches!(theirs, Crate::Accepted(_)) && rules.has(Rule::Nodes)
}

fn same_reason(number: u64, reason: Reason) -> bool {
    let numbered = (6..=10).contains(&number);
    match reason {
        // An integer over 64 bits is compared as refused only.
        Reason::Integer => true,
        Reason::Number(n) => n == number,
        Reason::Other => !numbered,
    }
}

/// Prints are compared byte by byte, but for the order of the entries of a map: the crate has none.
pub fn same_values(schema: &Schema, root: usize, ours: &Values, theirs: &Values) -> bool {
    let same = |a: &[u8], b: &[u8], pretty: bool| {
        let as_sets = || {
            let (a, b) = (sorted(schema, root, a, pretty), sorted(schema, root, b, pretty));
            a.is_some() && a == b
        };
        a == b || (a.len() == b.len() && as_sets())
    };
    ours.complete == theirs.complete
        && same(&ours.compact, &theirs.compact, false)
        && same(&ours.pretty, &theirs.pretty, true)
}
