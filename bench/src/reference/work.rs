//! Request 2026-03: the leaves worked and the rounds of an ended run, where all spans are 1 and where every leaf hangs directly on region 0.

use super::sheet::{is_leaf, parent, payload, Sheet};
use super::table::{count, label_at};
use super::TOP;

/// What the request speaks of, read off the words of a sheet and of an ended table.
pub struct Work {
    pub heights: usize,
    pub spans_are_1: bool,
    /// The span, where every leaf hangs directly on region 0.
    pub flat: Option<u64>,
    pub arcs: u64,
    /// The arcs whose tail is reached.
    pub reached: u64,
    pub rounds: u64,
    pub leaves: u64,
}

impl Work {
    /// Nothing for a table whose status is not 1.
    pub fn of(sheet: &Sheet, table: &[u32]) -> Option<Work> {
        let ended = payload(table[0]) == 1;
        ended.then(|| Work {
            heights: sheet.spans().len(),
            spans_are_1: sheet.spans().iter().all(|span| payload(*span) == 1),
            flat: flat_span(sheet),
            arcs: sheet.arc_count() as u64,
            reached: sheet.arcs().filter(|arc| payload(table[label_at(arc.tail)]) != TOP).count() as u64,
            rounds: count(table, 0),
            leaves: count(table, 1),
        })
    }

    /// The request says nothing of other tables.
    pub fn spoken_of(&self) -> bool {
        self.spans_are_1 || self.flat.is_some()
    }

    /// No run works fewer leaves than there are arcs whose tail is reached: not said by the request, and proved.
    pub fn no_fewer(&self) -> bool {
        self.leaves >= self.reached
    }

    /// The table is as the request says.
    pub fn holds(&self) -> bool {
        let is = |rounds| self.leaves == self.reached && self.rounds == rounds;
        (!self.spans_are_1 || is(self.reached)) && self.flat.is_none_or(|span| is(self.reached.div_ceil(span)))
    }
}

/// Said of leaves alone. The span is that of region 0, the last one.
fn flat_span(sheet: &Sheet) -> Option<u64> {
    let flat = sheet.regions().iter().filter(|region| is_leaf(**region)).all(|leaf| parent(*leaf) == 0);
    sheet.spans().last().filter(|_| flat).map(|span| payload(*span) as u64)
}
