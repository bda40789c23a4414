//! Nodes, the validity of a node table (refusal 15), and access to a value (refusal 18).

use crate::refusal::{refuse, Refusal, BAD_TABLE, NO_VALUE};
use crate::schema::*;
use crate::strings::is_utf8;

pub const WORDS_PER_NODE: usize = 5;
pub const MOST_NODES: usize = 65_535;
/// Depth counts messages and entries below the root.
pub const DEEPEST: usize = 32;

// Kinds above the types.
pub const ENTRY: u32 = 10;
pub const UNKNOWN_U32: u32 = 11;
pub const UNKNOWN_U64: u32 = 12;
pub const UNKNOWN_BYTES: u32 = 13;

// Field words of an entry's children.
pub const KEY: u32 = 0;
pub const VALUE: u32 = 1;

const MOST_FIELD_NUMBER: u32 = 536_870_911;

#[derive(Debug, Clone, Copy, PartialEq, Eq, Default)]
pub struct Node {
    pub kind: u32,
    pub field: u32,
    pub high: u32,
    pub low: u32,
    pub end: u32,
}

impl Node {
    pub fn words(&self) -> [u32; WORDS_PER_NODE] {
        [self.kind, self.field, self.high, self.low, self.end]
    }

    pub fn is_unknown(&self) -> bool {
        (UNKNOWN_U32..=UNKNOWN_BYTES).contains(&self.kind)
    }

    /// The number of 64 bits.
    pub fn number(&self) -> u64 {
        u64::from(self.high) << 32 | u64::from(self.low)
    }
}

/// A valid table with its schema and pool.
pub struct Table<'a> {
    pub schema: &'a Schema,
    pub nodes: Vec<Node>,
    pub pool: &'a [u8],
}

impl<'a> Table<'a> {
    /// The children of a message or entry, which tile its span.
    pub fn children(&self, node: usize) -> Vec<usize> {
        let end = self.nodes[node].end as usize;
        let mut children = Vec::new();
        let mut child = node + 1;
        while child < end {
            children.push(child);
            child = self.nodes[child].end as usize;
        }
        children
    }

    /// An entry's key or value, which may stand in either order.
    pub fn part_of_entry(&self, entry: usize, part: u32) -> usize {
        let first = entry + 1;
        if self.nodes[first].field == part {
            first
        } else {
            self.nodes[first].end as usize
        }
    }

    /// The pool bytes of a string, bytes or kind 13 node.
    pub fn bytes_of(&self, node: usize) -> &'a [u8] {
        let (start, length) = (
            self.nodes[node].high as usize,
            self.nodes[node].low as usize,
        );
        &self.pool[start..start + length]
    }
}

/// The valid table that these words hold, or 15.
pub fn valid<'a>(
    schema: &'a Schema,
    root: usize,
    words: &[u32],
    pool: &'a [u8],
) -> Result<Table<'a>, Refusal> {
    let table = match nodes_of(words) {
        Some(nodes) => Table {
            schema,
            nodes,
            pool,
        },
        None => return refuse(BAD_TABLE, 0),
    };
    let node = table.nodes[0];
    let root_good = node.kind == MESSAGE && node.field == 0;
    if root_good && message_valid(&table, root, 0, 0) {
        return Ok(table);
    }
    refuse(BAD_TABLE, 0)
}

/// The root's end is the table's length; words after it are ignored (N1).
fn nodes_of(words: &[u32]) -> Option<Vec<Node>> {
    let length = *words.get(WORDS_PER_NODE - 1)? as usize;
    if length == 0 || length > MOST_NODES {
        return None;
    }
    let used = words.get(..length * WORDS_PER_NODE)?;
    let node = |w: &[u32]| Node {
        kind: w[0],
        field: w[1],
        high: w[2],
        low: w[3],
        end: w[4],
    };
    Some(used.chunks_exact(WORDS_PER_NODE).map(node).collect())
}

/// High and low are 0, the depth is at most 32, and children tile the span, each valid.
fn message_valid(table: &Table, message: usize, node: usize, depth: usize) -> bool {
    let own = table.nodes[node];
    let head_good = own.number() == 0 && depth <= DEEPEST;
    head_good
        && children_tile(table, node)
        && table
            .children(node)
            .into_iter()
            .all(|child| child_valid(table, message, child, depth))
}

/// From just after the node to its end, each child ends after its own index and where the next
/// begins, the last where the parent does.
fn children_tile(table: &Table, node: usize) -> bool {
    let end = table.nodes[node].end as usize;
    let mut child = node + 1;
    while child < end {
        let child_end = table.nodes[child].end as usize;
        if child_end <= child || child_end > end {
            return false;
        }
        child = child_end;
    }
    child == end
}

/// A child of a message: an unknown value, or a value of one of the message's fields. A map's
/// values are entries, and entries are nothing else.
fn child_valid(table: &Table, message: usize, node: usize, depth: usize) -> bool {
    let own = table.nodes[node];
    if own.is_unknown() {
        return unknown_valid(table, node);
    }
    let span = table.schema.messages[message];
    let index = own.field as usize;
    if index < span.first || index >= span.first + span.count {
        return false;
    }
    let field = &table.schema.fields[index];
    if field.label == MAP {
        return own.kind == ENTRY && entry_valid(table, field, node, depth + 1);
    }
    own.kind == field.value_type && value_valid(table, field.reference, node, depth)
}

/// An entry has two children in either order: field 0 of the key type, field 1 of the value type.
fn entry_valid(table: &Table, field: &Field, node: usize, depth: usize) -> bool {
    let own = table.nodes[node];
    if own.number() != 0 || depth > DEEPEST || !children_tile(table, node) {
        return false;
    }
    let children = table.children(node);
    let mut fields: Vec<u32> = children.iter().map(|&c| table.nodes[c].field).collect();
    fields.sort_unstable();
    fields == [KEY, VALUE]
        && children.into_iter().all(|child| {
            let (kind, reference) = match table.nodes[child].field {
                KEY => (field.key_type, 0),
                _ => (field.value_type, field.reference),
            };
            table.nodes[child].kind == kind && value_valid(table, reference, child, depth)
        })
}

/// A value of kind 1 to 9 whose kind is already known to match; `depth` is its parent's.
fn value_valid(table: &Table, reference: usize, node: usize, depth: usize) -> bool {
    let own = table.nodes[node];
    if own.kind == MESSAGE {
        return message_valid(table, reference, node, depth + 1);
    }
    let sign_extended = own.number() == i64::from(own.low as i32) as u64;
    let value_good = match own.kind {
        I32 | ENUM => sign_extended,
        U32 => own.high == 0,
        BOOL => own.number() <= 1,
        STRING => run_inside(table, node) && is_utf8(table.bytes_of(node)),
        BYTES => run_inside(table, node),
        _ => true,
    };
    value_good && leaf_end(own, node)
}

/// Kinds 11 to 13 carry a field number in place of an index.
fn unknown_valid(table: &Table, node: usize) -> bool {
    let own = table.nodes[node];
    let value_good = match own.kind {
        UNKNOWN_U32 => own.high == 0,
        UNKNOWN_BYTES => run_inside(table, node),
        _ => true,
    };
    value_good && (1..=MOST_FIELD_NUMBER).contains(&own.field) && leaf_end(own, node)
}

/// A node without descendants ends just after itself (N2).
fn leaf_end(own: Node, node: usize) -> bool {
    own.end as usize == node + 1
}

/// Start and length lie inside the pool, an empty run too (N4); the sum doesn't wrap.
fn run_inside(table: &Table, node: usize) -> bool {
    let own = table.nodes[node];
    u64::from(own.high) + u64::from(own.low) <= table.pool.len() as u64
}

/// Access: 1, 2, 15, 18. The value's bytes as a part of the pool.
pub fn access<'a>(
    checked: &'a Option<Schema>,
    root: u64,
    words: &[u32],
    pool: &'a [u8],
    node: u64,
) -> Result<&'a [u8], Refusal> {
    let (schema, root) = with_root(checked, root)?;
    let table = valid(schema, root, words, pool)?;
    if node >= table.nodes.len() as u64 {
        return refuse(NO_VALUE, 0);
    }
    match table.nodes[node as usize].kind {
        STRING | BYTES | UNKNOWN_BYTES => Ok(table.bytes_of(node as usize)),
        _ => refuse(NO_VALUE, 0),
    }
}
