//! The refusals 1 to 14, 34 and 35, one after the other.

use super::sheet::{is_leaf, kind, leaf_arc, parent, payload, words, Arc, Sheet};

/// The most arcs out of a node, and the most into it.
pub const MOST_EACH_WAY: usize = 4;

pub const MOST_BYTES: usize = 36_924;
pub const MOST_LENGTH: u32 = 262_143;

/// What requests have changed in the judge: the most arcs out of a node and into it, `MOST_EACH_WAY` at most and 2 before request 2026-01; whether a sheet may
/// have holds, and more bytes for them, which it may not before request 2026-08; and whether it may have self-arcs, which it may before request 2026-09.
#[derive(Clone, Copy)]
pub struct Rules {
    pub each_way: usize,
    pub holds: bool,
    pub self_arcs: bool,
}

pub const TODAY: Rules = Rules { each_way: MOST_EACH_WAY, holds: true, self_arcs: false };

/// What the converter takes: "a sheet at fault in nothing else".
pub const CONVERTIBLE: Rules = Rules { self_arcs: true, ..TODAY };

impl Rules {
    fn most_bytes(self) -> usize {
        if self.holds {
            MOST_BYTES
        } else {
            32_828
        }
    }

    /// "A number of hold words other than 0 or the payload of kind 1".
    fn wrong_holds(self, sheet: &Sheet) -> bool {
        let right = self.holds && sheet.holds().len() == sheet.nodes();
        !(right || sheet.holds().is_empty())
    }
}

/// An accepted sheet, with the height of each region.
pub struct Accepted {
    pub sheet: Sheet,
    pub heights: Vec<u16>,
}

/// What the judge finds: the sheet, or the lowest number that applies to it.
pub type Judged = Result<Accepted, u32>;

type Test = (u32, fn(&Sheet) -> bool);

const BEFORE_CROWDED: [Test; 8] = [
    (3, bit_set),
    (4, |sheet| sheet.nodes() < 1 || sheet.nodes() > 1024),
    (5, |sheet| sheet.source() >= sheet.nodes()),
    (6, |sheet| sheet.spans().iter().any(|word| payload(*word) < 1 || payload(*word) > 1_000_000)),
    (7, |sheet| sheet.spans().len() > 15 || sheet.arc_count() > 2048 || sheet.regions().len() > 4094),
    (8, |sheet| sheet.arcs().any(|arc| arc.tail >= sheet.nodes() || arc.head >= sheet.nodes())),
    (9, |sheet| sheet.arcs().any(|arc| arc.length > MOST_LENGTH)),
    (34, |sheet| !sheet.holds().is_empty() && sheet.taken_arcs().any(|arc| arc.length > MOST_LENGTH)),
];

const AFTER_CROWDED: [Test; 3] = [(11, wrong_parent), (12, wrong_leaves), (13, childless)];

pub fn accepted(bytes: &[u8]) -> Judged {
    accepted_by(TODAY, bytes)
}

/// The same by these rules.
pub fn accepted_by(rules: Rules, bytes: &[u8]) -> Judged {
    if bytes.len() % 4 != 0 || bytes.len() > rules.most_bytes() {
        return Err(1);
    }
    let sheet = Sheet::in_order(words(bytes)).filter(|sheet| !rules.wrong_holds(sheet)).ok_or(2u32)?;
    passes(&sheet, &BEFORE_CROWDED)?;
    if crowded(rules.each_way, &sheet) {
        return Err(10);
    }
    if !rules.self_arcs && sheet.arcs().any(Arc::is_self_arc) {
        return Err(35);
    }
    passes(&sheet, &AFTER_CROWDED)?;
    let heights = heights(&sheet);
    match sheet.spans().len() == heights[0] as usize {
        true => Ok(Accepted { sheet, heights }),
        false => Err(14),
    }
}

fn passes(sheet: &Sheet, tests: &[Test]) -> Result<(), u32> {
    match tests.iter().find(|(_, applies)| applies(sheet)) {
        Some((number, _)) => Err(*number),
        None => Ok(()),
    }
}

fn bit_set(sheet: &Sheet) -> bool {
    sheet.arc_words().chunks_exact(2).any(|pair| payload(pair[0]) >> 20 != 0)
        || sheet.regions().iter().any(|word| kind(*word) == 7 && payload(*word) >> 23 != 0)
}

fn crowded(most: usize, sheet: &Sheet) -> bool {
    let mut outgoing = [0u16; 1024];
    let mut incoming = [0u16; 1024];
    for arc in sheet.arcs() {
        outgoing[arc.tail] += 1;
        incoming[arc.head] += 1;
    }
    outgoing.iter().chain(&incoming).any(|count| *count as usize > most)
}

fn wrong_parent(sheet: &Sheet) -> bool {
    let regions = sheet.regions();
    regions.iter().enumerate().any(|(at, word)| {
        let parent = parent(*word);
        parent > at || parent > 0 && is_leaf(regions[parent - 1])
    })
}

fn wrong_leaves(sheet: &Sheet) -> bool {
    let mut leaves = [0u16; 2048];
    for word in sheet.regions().iter().filter(|word| is_leaf(**word)) {
        leaves[leaf_arc(*word)] += 1;
    }
    let (there, beyond) = leaves.split_at(sheet.arc_count());
    there.iter().any(|count| *count != 1) || beyond.iter().any(|count| *count != 0)
}

fn childless(sheet: &Sheet) -> bool {
    let regions = sheet.regions();
    let mut has_child = [false; 4096];
    for word in regions {
        has_child[parent(*word)] = true;
    }
    regions.iter().enumerate().any(|(at, word)| !is_leaf(*word) && !has_child[at + 1])
}

/// The height of every region. Children come after their parents, so one pass from the last region back finds all.
fn heights(sheet: &Sheet) -> Vec<u16> {
    let regions = sheet.regions();
    let mut heights = vec![0; regions.len() + 1];
    heights[0] = 1;
    for (at, word) in regions.iter().enumerate().rev() {
        let own = heights[at + 1];
        let above = &mut heights[parent(*word)];
        *above = (*above).max(own + 1);
    }
    heights
}
