//! Request 2026-09: a sheet without its self-arcs, as the request says it. `one_pass.rs` has the same written for speed.

use super::sheet::{is_leaf, leaf_arc, parent, Arc, Sheet};

/// The words of the converted sheet: those of kinds 1, 2 and 13 as they are, and what is left of spans, arcs and regions.
pub fn words(sheet: &Sheet) -> Vec<u32> {
    let left = Left::of(sheet);
    let arcs: Vec<u32> = left.arcs.iter().flat_map(|arc| [sheet.arc_words()[2 * arc], sheet.arc_words()[2 * arc + 1]]).collect();
    let regions: Vec<u32> = left.regions[1..].iter().map(|region| left.renumbered(sheet.regions()[region - 1])).collect();
    let spans = &sheet.spans()[..height(&regions)];
    [&sheet.before_regions()[..2], spans, sheet.holds(), &arcs, &regions].concat()
}

/// The old numbers of the arcs and regions that are left, in order. Region 0 is the first.
struct Left {
    arcs: Vec<usize>,
    regions: Vec<usize>,
}

impl Left {
    /// "drops those arcs and their leaves, drops inner regions other than 0 left childless until none is"
    fn of(sheet: &Sheet) -> Left {
        let self_arcs: Vec<bool> = sheet.arcs().map(Arc::is_self_arc).collect();
        let arcs = (0..self_arcs.len()).filter(|arc| !self_arcs[*arc]).collect();
        let drops = |word: u32| is_leaf(word) && self_arcs[leaf_arc(word)];
        let mut regions: Vec<usize> = (0..=sheet.regions().len()).collect();
        regions.retain(|region| *region == 0 || !drops(sheet.regions()[region - 1]));
        while let Some(fewer) = without_childless(sheet, &regions) {
            regions = fewer;
        }
        Left { arcs, regions }
    }

    /// "renumbers what is left in its old order": a new number is how many are left before.
    fn renumbered(&self, word: u32) -> u32 {
        let new = |left: &[usize], old: usize| left.binary_search(&old).expect("it is left") as u32;
        let parent = new(&self.regions, parent(word));
        match is_leaf(word) {
            true => 7 << 28 | parent << 11 | new(&self.arcs, leaf_arc(word)),
            false => 6 << 28 | parent,
        }
    }
}

/// The regions but the inner ones, other than 0, in which no other of them lies; nothing where there is no such.
fn without_childless(sheet: &Sheet, regions: &[usize]) -> Option<Vec<usize>> {
    let mut has_child = vec![false; sheet.regions().len() + 1];
    regions.iter().skip(1).for_each(|region| has_child[parent(sheet.regions()[region - 1])] = true);
    let stays = |region: usize| region == 0 || has_child[region] || is_leaf(sheet.regions()[region - 1]);
    let fewer: Vec<usize> = regions.iter().copied().filter(|region| stays(*region)).collect();
    (fewer.len() < regions.len()).then_some(fewer)
}

/// The height of region 0: the most regions that one lies in, 1 where there is none. Every inner region has a leaf in it.
fn height(regions: &[u32]) -> usize {
    let mut depths = vec![0];
    for word in regions {
        depths.push(depths[parent(*word)] + 1);
    }
    depths.into_iter().max().unwrap_or(0).max(1)
}
