//! Request 2026-10: two sheets that differ only in one arc's length or in one hold, and their ended tables.

use super::sheet::{payload, Sheet};
use super::table::{feed_at, label_at};
use super::TOP;

/// A length by the number of its arc, or a hold by that of its node.
#[derive(Clone, Copy, Debug, PartialEq, Eq)]
pub enum Figure {
    Length(usize),
    Hold(usize),
}

/// The one figure that differs, and what it is in the one sheet and in the other.
#[derive(Clone, Copy, Debug, PartialEq, Eq)]
pub struct Change {
    pub figure: Figure,
    pub before: u32,
    pub after: u32,
}

impl Change {
    /// Nothing where the sheets do not "differ only in one arc's length" or in "a single changed hold". A sheet without holds has holds of 0, and regions and
    /// spans may be any.
    pub fn between(sheet: &Sheet, other: &Sheet) -> Option<Change> {
        let ends = |sheet: &Sheet| sheet.arc_words().iter().step_by(2).copied().collect::<Vec<_>>();
        if sheet.nodes() != other.nodes() || sheet.source() != other.source() || ends(sheet) != ends(other) {
            return None;
        }
        let lengths = sheet.arcs().zip(other.arcs()).map(|(one, two)| (one.length, two.length));
        let lengths = lengths.enumerate().map(|(arc, (before, after))| Change { figure: Figure::Length(arc), before, after });
        let holds = (0..sheet.nodes()).map(|node| Change { figure: Figure::Hold(node), before: sheet.hold(node), after: other.hold(node) });
        let mut changes = lengths.chain(holds).filter(|change| change.before != change.after);
        changes.next().filter(|_| changes.next().is_none())
    }

    pub fn size(self) -> u32 {
        self.before.abs_diff(self.after)
    }

    /// The arc is lengthened, or the hold raised.
    pub fn is_longer(self) -> bool {
        self.before < self.after
    }

    pub fn is_length(self) -> bool {
        matches!(self.figure, Figure::Length(_))
    }
}

/// What the request speaks of, read off the words of two such sheets and of their ended tables.
pub struct Slowed {
    pub change: Change,
    /// The hold is the source's own.
    pub of_source: bool,
    /// The sheets have other regions or spans.
    pub other_division: bool,
    /// One sheet has holds and the other has none.
    pub first_holds: bool,
    /// Distances in the one table and in the other, by node.
    pub labels: Vec<(u32, u32)>,
    /// The feeding arcs, followed back in the table of the lower figure, take the changed arc, or pass the changed node between their ends, by node.
    pub passed: Vec<bool>,
}

impl Slowed {
    /// Nothing where there is not one change, or where a table is not ended.
    pub fn of(sheet: &Sheet, table: &[u32], other: &Sheet, other_table: &[u32]) -> Option<Slowed> {
        let change = Change::between(sheet, other).filter(|_| payload(table[0]) == 1 && payload(other_table[0]) == 1)?;
        let label = |table: &[u32], node| payload(table[label_at(node)]);
        let lower = if change.is_longer() { table } else { other_table };
        Some(Slowed {
            change,
            of_source: change.figure == Figure::Hold(sheet.source()),
            other_division: sheet.spans() != other.spans() || sheet.regions() != other.regions(),
            first_holds: sheet.holds().is_empty() != other.holds().is_empty(),
            labels: (0..sheet.nodes()).map(|node| (label(table, node), label(other_table, node))).collect(),
            passed: passed(sheet, lower, change.figure),
        })
    }

    /// By how much the distances of nodes that are reached move.
    pub fn sizes(&self) -> impl Iterator<Item = u32> + '_ {
        self.labels.iter().filter(|(label, _)| *label != TOP).map(|(label, other)| label.abs_diff(*other))
    }

    pub fn moves_whole(&self) -> bool {
        self.sizes().any(|size| size == self.change.size())
    }

    pub fn moves_less(&self) -> bool {
        self.sizes().any(|size| size > 0 && size < self.change.size())
    }

    pub fn none_moves(&self) -> bool {
        self.sizes().all(|size| size == 0)
    }

    /// "the same nodes are reached"
    pub fn same_reached(&self) -> bool {
        self.labels.iter().all(|(label, other)| (*label == TOP) == (*other == TOP))
    }

    /// "no distance moves by more than the change": a changed hold of the source moves nothing, which is proved beside it.
    pub fn within(&self) -> bool {
        let most = if self.of_source { 0 } else { self.change.size() };
        self.sizes().all(|size| size <= most)
    }

    /// "lengthening the arc brings no distance down"; shortening it brings none up, which is proved beside it.
    pub fn one_way(&self) -> bool {
        let longer = self.change.is_longer();
        self.labels.iter().all(|(label, other)| if longer { label <= other } else { label >= other })
    }

    /// A node whose feeding arcs do not pass the change, in the table of the lower figure, keeps its distance: proved beside it.
    pub fn others_keep(&self) -> bool {
        self.labels.iter().zip(&self.passed).all(|((label, other), passed)| *passed || label == other)
    }

    /// The tables are as the request says, and as is proved beside it.
    pub fn holds(&self) -> bool {
        self.same_reached() && self.within() && self.one_way() && self.others_keep()
    }
}

fn passed(sheet: &Sheet, table: &[u32], figure: Figure) -> Vec<bool> {
    let tails: Vec<usize> = sheet.arcs().map(|arc| arc.tail).collect();
    let feed = |node: usize| Some(payload(table[feed_at(node)])).filter(|arc| *arc != TOP).map(|arc| arc as usize);
    let is_passed = |end: usize| {
        let mut node = end;
        for _ in 0..sheet.nodes() {
            let Some(arc) = feed(node) else { return false };
            if figure == Figure::Length(arc) || figure == Figure::Hold(node) && node != end {
                return true;
            }
            node = tails[arc];
        }
        false
    };
    (0..sheet.nodes()).map(is_passed).collect()
}
