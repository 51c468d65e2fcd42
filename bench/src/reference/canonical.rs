//! Request 2026-04: the canonical form of an accepted sheet, as the request says it. `linear.rs` has the same written for speed.

use super::sheet::{is_leaf, leaf_arc, parent, Sheet};

/// The words of the sheet written anew: "nodes, source, spans and arcs as given, regions numbered parent first and depth first from region 0, children in
/// order of the lowest arc number they hold".
pub fn words(sheet: &Sheet) -> Vec<u32> {
    let mut regions = Numbering { sheet, children: children(sheet), words: Vec::with_capacity(sheet.regions().len()) };
    regions.number(0, 0);
    [sheet.before_regions(), &regions.words].concat()
}

/// The children of each region, in order of the lowest arc that they hold.
fn children(sheet: &Sheet) -> Vec<Vec<usize>> {
    let lowest = lowest_arcs(sheet);
    let mut children = vec![Vec::new(); lowest.len()];
    for (at, word) in sheet.regions().iter().enumerate() {
        children[parent(*word)].push(at + 1);
    }
    for siblings in &mut children {
        siblings.sort_by_key(|child| lowest[*child]);
    }
    children
}

/// The lowest arc that each region holds, at any depth. Children come after their parents, so one pass from the last region back finds all.
fn lowest_arcs(sheet: &Sheet) -> Vec<usize> {
    let regions = sheet.regions();
    let mut lowest = vec![usize::MAX; regions.len() + 1];
    for (at, word) in regions.iter().enumerate().rev() {
        if is_leaf(*word) {
            lowest[at + 1] = leaf_arc(*word);
        }
        lowest[parent(*word)] = lowest[parent(*word)].min(lowest[at + 1]);
    }
    lowest
}

struct Numbering<'a> {
    sheet: &'a Sheet,
    children: Vec<Vec<usize>>,
    /// The words of the regions that have their new numbers, from 1 on.
    words: Vec<u32>,
}

impl Numbering<'_> {
    /// Numbers all that lies in a region, whose own new number is known.
    fn number(&mut self, region: usize, new: u32) {
        for child in std::mem::take(&mut self.children[region]) {
            let word = self.sheet.regions()[child - 1];
            self.words.push(match is_leaf(word) {
                true => 7 << 28 | new << 11 | leaf_arc(word) as u32,
                false => 6 << 28 | new,
            });
            self.number(child, self.words.len() as u32);
        }
    }
}
