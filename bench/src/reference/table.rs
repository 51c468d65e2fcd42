//! The answer table: its two lengths and its words.

use super::sheet::Sheet;
use super::TOP;

/// The most heights, and the numbers of counts and of the words before those of the nodes: the status and two words for each count.
pub const HEIGHTS: usize = 15;
pub const COUNTS: usize = 3 + HEIGHTS;
pub const HEADER: usize = 1 + 2 * COUNTS;

/// `inner` has a figure for each height from 1 on.
#[derive(Default)]
pub struct Counts {
    pub rounds: u64,
    pub leaves: u64,
    pub inner: [u64; HEIGHTS],
    pub updates: u64,
}

impl Counts {
    pub fn of(table: &[u32]) -> Counts {
        let inner = std::array::from_fn(|at| count(table, 2 + at));
        Counts { rounds: count(table, 0), leaves: count(table, 1), inner, updates: count(table, COUNTS - 1) }
    }

    pub fn in_order(&self) -> impl Iterator<Item = u64> + '_ {
        [self.rounds, self.leaves].into_iter().chain(self.inner).chain([self.updates])
    }
}

pub fn length(nodes: usize) -> usize {
    HEADER + 2 * nodes
}

/// The length of the longer form of request 2026-06: "after the usual words, one per arc". With no arcs both forms have one length.
pub fn longer(sheet: &Sheet) -> usize {
    length(sheet.nodes()) + sheet.arc_count()
}

/// A table of one of the two forms has so many words.
pub fn fits(sheet: &Sheet, words: usize) -> bool {
    words == length(sheet.nodes()) || words == longer(sheet)
}

/// Where a node's label stands.
pub fn label_at(node: usize) -> usize {
    HEADER + 2 * node
}

/// Where a node's feeding arc stands.
pub fn feed_at(node: usize) -> usize {
    HEADER + 2 * node + 1
}

/// A count that a table gives, by its place among the counts.
pub fn count(table: &[u32], at: usize) -> u64 {
    ((table[1 + 2 * at] & TOP) as u64) << 28 | (table[2 + 2 * at] & TOP) as u64
}

/// Writes the status and the counts, high 28 bits before low 28.
pub fn write_header(table: &mut [u32], ended: bool, counts: &Counts) {
    table[0] = 8 << 28 | ended as u32;
    for (at, count) in counts.in_order().enumerate() {
        table[1 + 2 * at] = 11 << 28 | (count >> 28) as u32 & TOP;
        table[2 + 2 * at] = 11 << 28 | count as u32 & TOP;
    }
}

/// Where the longer form says whether an arc has a key.
pub fn key_at(nodes: usize, arc: usize) -> usize {
    length(nodes) + arc
}

pub fn write_key(table: &mut [u32], nodes: usize, arc: usize, keyed: bool) {
    table[key_at(nodes, arc)] = 12 << 28 | keyed as u32;
}

pub fn write_node(table: &mut [u32], node: usize, label: u32, feed: u32) {
    table[label_at(node)] = 9 << 28 | label;
    table[feed_at(node)] = 10 << 28 | feed;
}
