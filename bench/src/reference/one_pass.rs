//! The converter written for speed: one pass from the last region back finds which regions stay and the new height, one from the first on their new numbers.

use super::sheet::{is_leaf, leaf_arc, parent, Sheet};

/// Stands for the new number of what is dropped.
const DROPPED: u16 = u16::MAX;

/// The new numbers of arcs and regions, and what is left.
pub struct Conversion<'a> {
    sheet: &'a Sheet,
    arcs: Vec<u16>,
    regions: Vec<u16>,
    height: usize,
    words: usize,
}

impl Conversion<'_> {
    /// The sheet is a convertible one.
    pub fn of(sheet: &Sheet) -> Conversion<'_> {
        let (arcs, arcs_left) = numbers(sheet.arcs().map(|arc| !arc.is_self_arc()));
        let heights = heights(sheet, &arcs);
        let height = heights[0].max(1) as usize;
        let (regions, regions_left) = numbers(std::iter::once(true).chain(heights[1..].iter().map(|height| *height != DROPPED)));
        let words = 2 + height + sheet.holds().len() + 2 * arcs_left + regions_left - 1;
        Conversion { sheet, arcs, regions, height, words }
    }

    pub fn bytes(&self) -> usize {
        4 * self.words
    }

    /// Writes the converted sheet into a buffer of its length.
    pub fn write(&self, out: &mut [u8]) {
        let mut places = out.chunks_exact_mut(4);
        let sheet = self.sheet;
        let front = sheet.before_regions()[..2 + self.height].iter().chain(sheet.holds());
        front.zip(&mut places).for_each(|(word, place)| place.copy_from_slice(&word.to_be_bytes()));
        let arcs = sheet.arc_words().chunks_exact(2).zip(&self.arcs).filter(|(_, new)| **new != DROPPED).flat_map(|(words, _)| words);
        arcs.zip(&mut places).for_each(|(word, place)| place.copy_from_slice(&word.to_be_bytes()));
        let regions = sheet.regions().iter().zip(&self.regions[1..]).filter(|(_, new)| **new != DROPPED);
        regions.zip(&mut places).for_each(|((word, _), place)| place.copy_from_slice(&self.renumbered(*word).to_be_bytes()));
    }

    fn renumbered(&self, word: u32) -> u32 {
        let parent = self.regions[parent(word)] as u32;
        match is_leaf(word) {
            true => 7 << 28 | parent << 11 | self.arcs[leaf_arc(word)] as u32,
            false => 6 << 28 | parent,
        }
    }
}

/// The new numbers of items in their old order, and how many stay.
fn numbers(stay: impl Iterator<Item = bool>) -> (Vec<u16>, usize) {
    let mut left = 0;
    let mut number = |stays: bool| {
        let new = if stays { left } else { DROPPED };
        left += stays as u16;
        new
    };
    let new = stay.map(&mut number).collect();
    (new, left as usize)
}

/// The new height of every region that stays, 0 for a childless region 0. A region stays if it is a leaf whose arc stays, or if a child of it does; children
/// come after their parents.
fn heights(sheet: &Sheet, arcs: &[u16]) -> Vec<u16> {
    let mut heights = vec![0; sheet.regions().len() + 1];
    for (at, word) in sheet.regions().iter().enumerate().rev() {
        let own: u16 = heights[at + 1];
        let stays = if is_leaf(*word) { arcs[leaf_arc(*word)] != DROPPED } else { own > 0 };
        if stays {
            let above = &mut heights[parent(*word)];
            *above = (*above).max(own + 1);
        } else {
            heights[at + 1] = DROPPED;
        }
    }
    heights
}
