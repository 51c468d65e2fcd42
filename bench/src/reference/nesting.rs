//! Request 2026-04: what two sheets share where they have the same canonical form. Nothing is numbered or put in order here.
//!
//! Every inner region holds a set of arcs. Of two sets one lies in the other or they have no arc in common, and where two regions hold the same set one
//! is above the other in a chain of single children. So the sets, each with the number of regions that hold it, are the whole nesting.

use super::sheet::{is_leaf, leaf_arc, parent, Sheet};
use std::collections::HashMap;

/// A set of arcs, one bit for each.
type Arcs = Vec<u64>;

/// The two sheets "share nodes, source, spans, arcs and nesting, chains of single children counted".
pub fn alike(one: &Sheet, other: &Sheet) -> bool {
    one.before_regions() == other.before_regions() && held(one) == held(other)
}

/// How many inner regions hold each set of arcs.
fn held(sheet: &Sheet) -> HashMap<Arcs, usize> {
    let mut counts = HashMap::new();
    for set in sets(sheet) {
        *counts.entry(set).or_default() += 1;
    }
    counts
}

/// The arcs of each inner region, region 0 first.
fn sets(sheet: &Sheet) -> Vec<Arcs> {
    let regions = sheet.regions();
    let mut sets = vec![vec![0; sheet.arc_count().div_ceil(64)]; regions.len() + 1];
    for (at, word) in regions.iter().enumerate().rev() {
        let (above, below) = sets.split_at_mut(at + 1);
        let set = &mut above[parent(*word)];
        if is_leaf(*word) {
            set[leaf_arc(*word) / 64] |= 1 << (leaf_arc(*word) % 64);
        } else {
            set.iter_mut().zip(&below[0]).for_each(|(bits, more)| *bits |= more);
        }
    }
    let mut numbers = 0..;
    sets.retain(|_| numbers.next().is_some_and(|number: usize| number == 0 || !is_leaf(regions[number - 1])));
    sets
}
