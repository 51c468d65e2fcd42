//! The canonical form written for speed: passes over flat arrays, each linear in the sheet, without a sort.

use super::sheet::{is_leaf, leaf_arc, parent, Sheet};

/// What is known of a region: its parent, its first and last child so far in the new order, the sibling after it, and its new number. 0 stands for none.
#[derive(Clone, Copy, Default)]
struct Region {
    parent: u16,
    first: u16,
    last: u16,
    next: u16,
    new: u16,
}

/// Writes the bytes of the canonical form of an accepted sheet into a buffer of the sheet's length.
pub fn write(sheet: &Sheet, out: &mut [u8]) {
    let (front, back) = out.split_at_mut(4 * sheet.before_regions().len());
    for (place, word) in front.chunks_exact_mut(4).zip(sheet.before_regions()) {
        place.copy_from_slice(&word.to_be_bytes());
    }
    let mut regions = linked(sheet);
    let mut at = 0;
    for (place, new) in back.chunks_exact_mut(4).zip(1..) {
        at = following(&regions, at);
        regions[at].new = new;
        let parent = regions[regions[at].parent as usize].new as u32;
        let word = sheet.regions()[at - 1];
        let word = if is_leaf(word) { word & !(4095 << 11) | parent << 11 } else { 6 << 28 | parent };
        place.copy_from_slice(&word.to_be_bytes());
    }
}

/// The regions with their children linked in order of the lowest arcs. Arcs are taken in order; a region gets its place among its siblings with the first
/// arc that it holds, when it gets its own first child.
fn linked(sheet: &Sheet) -> Vec<Region> {
    let mut regions = vec![Region::default(); sheet.regions().len() + 1];
    let mut leaves = vec![0; sheet.arc_count()];
    for (word, number) in sheet.regions().iter().zip(1..) {
        regions[number as usize].parent = parent(*word) as u16;
        if is_leaf(*word) {
            leaves[leaf_arc(*word)] = number;
        }
    }
    for leaf in leaves {
        let mut child = leaf;
        while child != 0 && append(&mut regions, child) {
            child = regions[child as usize].parent;
        }
    }
    regions
}

/// Puts a region behind its siblings. True if it is the first.
fn append(regions: &mut [Region], child: u16) -> bool {
    let above = regions[child as usize].parent as usize;
    let last = std::mem::replace(&mut regions[above].last, child);
    if last == 0 {
        regions[above].first = child;
    } else {
        regions[last as usize].next = child;
    }
    last == 0
}

/// The region after another one, parent first and depth first; one that is not the last.
fn following(regions: &[Region], mut at: usize) -> usize {
    if regions[at].first != 0 {
        return regions[at].first as usize;
    }
    while regions[at].next == 0 {
        at = regions[at].parent as usize;
    }
    regions[at].next as usize
}
