//! The required check (refusal 17).

use crate::live::live_children;
use crate::refusal::{refuse, Refusal, REQUIRED_MISSING};
use crate::schema::*;
use crate::table::{valid, Table, ENTRY, VALUE};
use std::collections::HashSet;

/// Required check: 1, 2, 15, 17.
pub fn required(
    checked: &Option<Schema>,
    root: u64,
    words: &[u32],
    pool: &[u8],
) -> Result<(), Refusal> {
    let (schema, root) = with_root(checked, root)?;
    let table = valid(schema, root, words, pool)?;
    if complete(&table, root, 0) {
        return Ok(());
    }
    refuse(REQUIRED_MISSING, 0)
}

/// No required field is missing in this live message, nor in any live one below it.
fn complete(table: &Table, message: usize, node: usize) -> bool {
    let live = live_children(table, node);
    own_fields_present(table, message, &live)
        && live.into_iter().all(|child| match table.nodes[child].kind {
            MESSAGE => complete(table, reference_of(table, child), child),
            ENTRY => {
                let value = table.part_of_entry(child, VALUE);
                table.nodes[value].kind != MESSAGE
                    || complete(table, reference_of(table, child), value)
            }
            _ => true,
        })
}

/// A field has a value if any has, for then the last is live. Unknown values never count (Q1).
fn own_fields_present(table: &Table, message: usize, live: &[usize]) -> bool {
    let known = live
        .iter()
        .filter(|&&child| !table.nodes[child].is_unknown());
    let present: HashSet<u32> = known.map(|&child| table.nodes[child].field).collect();
    let span = table.schema.messages[message];
    (span.first..span.first + span.count).all(|index| {
        table.schema.fields[index].label != REQUIRED || present.contains(&(index as u32))
    })
}

fn reference_of(table: &Table, child: usize) -> usize {
    table.schema.fields[table.nodes[child].field as usize].reference
}
