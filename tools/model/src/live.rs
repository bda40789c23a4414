//! Which values of a message are live.

use crate::schema::*;
use crate::table::{Table, KEY};
use std::collections::HashMap;

/// What a later value of the same message replaces an earlier one by.
#[derive(PartialEq, Eq, Hash)]
enum Place<'a> {
    Singular(u32),
    NumberKey(u32, u64),
    StringKey(u32, &'a [u8]),
}

/// The live ones among a message's children, in node order: of several values of one singular
/// field the last, of entries of one map with equal keys the last, all repeated and unknown ones.
pub fn live_children(table: &Table, message: usize) -> Vec<usize> {
    let children = table.children(message);
    let mut last = HashMap::new();
    for &child in &children {
        if let Some(place) = place_of(table, child) {
            last.insert(place, child);
        }
    }
    let live = |&child: &usize| place_of(table, child).is_none_or(|place| last[&place] == child);
    children.into_iter().filter(live).collect()
}

/// Nothing for values that replace no other: repeated and unknown ones.
fn place_of<'a>(table: &Table<'a>, child: usize) -> Option<Place<'a>> {
    let node = table.nodes[child];
    if node.is_unknown() {
        return None;
    }
    match table.schema.fields[node.field as usize].label {
        REPEATED => None,
        MAP => Some(key_of(table, child)),
        _ => Some(Place::Singular(node.field)),
    }
}

/// Keys are equal by number, or by the string's bytes wherever they lie in the pool (L2).
fn key_of<'a>(table: &Table<'a>, entry: usize) -> Place<'a> {
    let field = table.nodes[entry].field;
    let key = table.part_of_entry(entry, KEY);
    if table.nodes[key].kind == STRING {
        Place::StringKey(field, table.bytes_of(key))
    } else {
        Place::NumberKey(field, table.nodes[key].number())
    }
}
