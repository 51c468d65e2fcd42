//! The listing of an ended table, as `marks` prints it.

use super::table::{count, feed_at, label_at, COUNTS, HEADER};
use super::TOP;

/// The lines, with so many figures for inner regions, from height 1 up.
pub fn lines(table: &[u32], heights: usize) -> Vec<String> {
    let inner: Vec<u64> = (0..heights).map(|at| count(table, 2 + at)).collect();
    lines_with(table, &inner)
}

/// The lines with these figures for inner regions.
pub fn lines_with(table: &[u32], inner: &[u64]) -> Vec<String> {
    let [rounds, leaves, updates] = [0, 1, COUNTS - 1].map(|at| count(table, at));
    let inner = inner.iter().map(u64::to_string).collect::<Vec<_>>().join(" ");
    let first = format!("ended rounds {rounds} leaves {leaves} inner {inner} updates {updates}");
    let nodes = (0..(table.len() - HEADER) / 2).map(|node| format!("{node} {} {}", shown(table[label_at(node)]), shown(table[feed_at(node)])));
    std::iter::once(first).chain(nodes).collect()
}

fn shown(word: u32) -> String {
    match word & TOP {
        TOP => "-".to_string(),
        payload => payload.to_string(),
    }
}
