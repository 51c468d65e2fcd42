//! Request 2026-06: "A table is held to be a possible state if", clause by clause. Since request 2026-08 the length of an arc is here that which the procedure
//! takes, with its tail's hold.

use super::sheet::{payload, Arc, Sheet};
use super::table::{feed_at, key_at, label_at, Counts};
use super::TOP;

#[derive(Clone, Copy, Debug, PartialEq, Eq, PartialOrd, Ord)]
pub enum Clause {
    /// "the source is at 0, unfed"
    Source,
    /// "other reached nodes are fed along chains from the source"
    Chains,
    /// "none below its feeder's label plus length"
    NotBelow,
    /// "unreached nodes are unfed"
    Unfed,
    /// "and the arcs leaving them keyless"
    Keyless,
    /// "a keyless arc from a reached node has its head's label at most its tail's plus its length"
    Relaxed,
    /// "no reached node's label exceeds 262,143 × (reached nodes less one)"
    Bound,
    /// "each count is below 2 to the power 55"
    Counts,
    /// "and 0 at unused heights"
    UnusedHeights,
    /// "status is ended exactly when nothing has a key"
    Status,
}

pub const CLAUSES: [Clause; 10] = [
    Clause::Source,
    Clause::Chains,
    Clause::NotBelow,
    Clause::Unfed,
    Clause::Keyless,
    Clause::Relaxed,
    Clause::Bound,
    Clause::Counts,
    Clause::UnusedHeights,
    Clause::Status,
];

/// The clauses that a longer table with no wrong word breaks.
pub fn broken(sheet: &Sheet, table: &[u32]) -> impl Iterator<Item = Clause> {
    let state = State::of(sheet, table);
    CLAUSES.into_iter().filter(move |clause| !state.keeps(*clause))
}

/// What a longer table says.
struct State {
    source: usize,
    spans: usize,
    arcs: Vec<Arc>,
    labels: Vec<u32>,
    feeds: Vec<u32>,
    keyed: Vec<bool>,
    counts: Counts,
    ended: bool,
}

impl State {
    fn of(sheet: &Sheet, table: &[u32]) -> State {
        let nodes = 0..sheet.nodes();
        State {
            source: sheet.source(),
            spans: sheet.spans().len(),
            arcs: sheet.taken_arcs().collect(),
            labels: nodes.clone().map(|node| payload(table[label_at(node)])).collect(),
            feeds: nodes.map(|node| payload(table[feed_at(node)])).collect(),
            keyed: (0..sheet.arc_count()).map(|arc| payload(table[key_at(sheet.nodes(), arc)]) == 1).collect(),
            counts: Counts::of(table),
            ended: payload(table[0]) == 1,
        }
    }

    fn keeps(&self, clause: Clause) -> bool {
        match clause {
            Clause::Source => self.labels[self.source] == 0 && self.feeds[self.source] == TOP,
            Clause::Chains => self.all_led(),
            Clause::NotBelow => self.others().all(|node| self.not_below(node)),
            Clause::Unfed => self.feeds.iter().zip(&self.labels).all(|(feed, label)| *label != TOP || *feed == TOP),
            Clause::Keyless => self.arcs.iter().zip(&self.keyed).all(|(arc, keyed)| self.reached(arc.tail) || !keyed),
            Clause::Relaxed => self.arcs.iter().zip(&self.keyed).all(|(arc, keyed)| *keyed || self.settled(*arc)),
            Clause::Bound => self.highest() <= self.bound(),
            Clause::Counts => self.counts.in_order().all(|count| count < 1 << 55),
            Clause::UnusedHeights => self.counts.inner[self.spans..].iter().all(|count| *count == 0),
            Clause::Status => self.ended != self.keyed.contains(&true),
        }
    }

    fn reached(&self, node: usize) -> bool {
        self.labels[node] != TOP
    }

    /// The reached nodes but the source.
    fn others(&self) -> impl Iterator<Item = usize> + '_ {
        (0..self.labels.len()).filter(|node| self.reached(*node) && *node != self.source)
    }

    fn feeder(&self, node: usize) -> Option<Arc> {
        self.arcs.get(self.feeds[node] as usize).copied()
    }

    /// The label that an arc leads to: nothing where its tail is unreached.
    fn sum(&self, arc: Arc) -> Option<u32> {
        self.reached(arc.tail).then(|| self.labels[arc.tail] + arc.length)
    }

    /// A node that is unfed is asked nothing here; unreached is above every number.
    fn not_below(&self, node: usize) -> bool {
        self.feeder(node).is_none_or(|arc| self.sum(arc).is_some_and(|sum| sum <= self.labels[node]))
    }

    /// The arc has nothing to lower.
    fn settled(&self, arc: Arc) -> bool {
        self.sum(arc).is_none_or(|sum| self.reached(arc.head) && self.labels[arc.head] <= sum)
    }

    /// The highest label of a reached node, 0 where none is reached.
    fn highest(&self) -> u32 {
        self.labels.iter().copied().filter(|label| *label != TOP).max().unwrap_or(0)
    }

    fn bound(&self) -> u32 {
        let reached = self.labels.iter().filter(|label| **label != TOP).count() as u32;
        262_143 * reached.saturating_sub(1)
    }

    /// Feeding arcs, each to its node and from a reached one, lead back to the source from every reached node. A node that is known to be led is not gone
    /// back from again.
    fn all_led(&self) -> bool {
        let mut led = vec![false; self.labels.len()];
        led[self.source] = true;
        self.others().all(|node| self.is_led(node, &mut led))
    }

    /// A chain without a ring has fewer arcs than there are nodes.
    fn is_led(&self, node: usize, led: &mut [bool]) -> bool {
        let mut chain = Vec::new();
        let mut at = node;
        while !led[at] {
            let feeder = self.feeder(at).filter(|arc| arc.head == at && self.reached(arc.tail));
            let Some(arc) = feeder.filter(|_| chain.len() < led.len()) else { return false };
            chain.push(at);
            at = arc.tail;
        }
        chain.into_iter().for_each(|node| led[node] = true);
        true
    }
}
