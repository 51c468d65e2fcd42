//! Accepted sheets changed a little: other region numbers, another nesting, another word.

use super::divisions::{Division, NESTINGS};
use super::random::Random;
use super::sheets::Spans;
use crate::reference::judge::{MOST_EACH_WAY, MOST_LENGTH};
use crate::reference::sheet::{is_leaf, leaf_arc, parent, payload, Arc, Sheet};
use crate::reference::table::feed_at;
use crate::reference::TOP;

/// The spans that are drawn for a sheet in place of its own.
const SPANS: [Spans; 5] = [Spans::One, Spans::UpTo(2), Spans::UpTo(4), Spans::Random, Spans::Million];

/// A change to a sheet. Some leave it as it was at times, but for the region numbers: equal arcs or leaves of one region exchanged, a region moved to where
/// it is, a link of a chain moved within its chain.
#[derive(Clone, Copy, Debug, PartialEq, Eq, PartialOrd, Ord)]
pub enum Change {
    Hall,
    Span,
    Hold,
    Holds,
    Arc,
    ArcsExchanged,
    LeavesExchanged,
    LeafMoved,
    InnerMoved,
    ChainLonger,
    ChainShorter,
    LinkMoved,
}

pub const CHANGES: [Change; 12] = [
    Change::Hall,
    Change::Span,
    Change::Hold,
    Change::Holds,
    Change::Arc,
    Change::ArcsExchanged,
    Change::LeavesExchanged,
    Change::LeafMoved,
    Change::InnerMoved,
    Change::ChainLonger,
    Change::ChainShorter,
    Change::LinkMoved,
];

impl Change {
    /// It leaves a sheet as it was at times.
    pub fn may_leave(self) -> bool {
        let never = [Change::Hall, Change::Span, Change::Hold, Change::Holds, Change::Arc, Change::ChainLonger, Change::ChainShorter];
        !never.contains(&self)
    }
}

/// The words of a sheet, to be changed.
struct Parts {
    hall: Vec<u32>,
    spans: Vec<u32>,
    holds: Vec<u32>,
    arcs: Vec<u32>,
    division: Division,
}

impl Parts {
    fn of(sheet: &Sheet) -> Parts {
        let division = Division::of_words(sheet.regions());
        let hall = sheet.before_regions()[..2].to_vec();
        Parts { hall, spans: sheet.spans().to_vec(), holds: sheet.holds().to_vec(), arcs: sheet.arc_words().to_vec(), division }
    }

    /// The sheet with its regions numbered at random, and with as many spans as it is high now.
    fn words(mut self, random: &mut Random) -> Vec<u32> {
        self.division.renumber(random);
        self.division.without_childless();
        self.spans.resize(self.division.height(), 3 << 28 | 1);
        let regions: Vec<u32> = self.division.words().collect();
        [self.hall, self.spans, self.holds, self.arcs, regions].concat()
    }

    /// Another node count or source. Each node keeps its hold; that of a new one is 0.
    fn change_hall(&mut self, random: &mut Random) {
        let nodes = self.hall[0] & 0xfff_ffff;
        let source = random.below(nodes as usize) as u32;
        if self.hall[1] != 2 << 28 | source {
            self.hall[1] = 2 << 28 | source;
        } else {
            let nodes = if nodes < 1024 { nodes + 1 } else { nodes - 1 };
            self.hall[0] = 1 << 28 | nodes;
            let holds = if self.holds.is_empty() { 0 } else { nodes as usize };
            self.holds.resize(holds, 13 << 28);
        }
    }

    /// Another hold at one node, where there are holds.
    fn change_hold(&mut self, random: &mut Random) -> Option<()> {
        let at = (!self.holds.is_empty()).then(|| random.below(self.holds.len()))?;
        let hold = self.holds[at] & 0xfff_ffff;
        self.holds[at] = 13 << 28 | if hold > 0 && !random.once_in(3) { random.below(hold as usize) as u32 } else { (hold + 1) & 0xfff_ffff };
        Some(())
    }

    /// No holds where there are some, and holds of 0 where there are none.
    fn change_holds(&mut self) {
        let nodes = (self.hall[0] & 0xfff_ffff) as usize;
        self.holds = if self.holds.is_empty() { vec![13 << 28; nodes] } else { vec![] };
    }

    fn change_span(&mut self, random: &mut Random) {
        let at = random.below(self.spans.len());
        let span = self.spans[at] & 0xfff_ffff;
        self.spans[at] = 3 << 28 | if span > 1 && random.once_in(2) { span - 1 } else { span % 1_000_000 + 1 };
    }

    /// Other ends or another length of an arc.
    fn change_arc(&mut self, random: &mut Random) {
        let nodes = (self.hall[0] & 0xfff_ffff) as usize;
        let at = 2 * random.below(self.arcs.len() / 2);
        if nodes == 1 || random.once_in(2) {
            self.arcs[at + 1] = 5 << 28 | (self.arcs[at + 1] + 1) & 0x3_ffff;
            return;
        }
        let (tail, head) = ((self.arcs[at] >> 10 & 1023) as usize, (self.arcs[at] & 1023) as usize);
        let other = (tail * nodes + head + 1 + random.below(nodes * nodes - 1)) % (nodes * nodes);
        self.arcs[at] = 4 << 28 | (other / nodes << 10 | other % nodes) as u32;
    }

    fn exchange_arcs(&mut self, random: &mut Random) {
        let (one, other) = (random.below(self.arcs.len() / 2), random.below(self.arcs.len() / 2));
        self.arcs.swap(2 * one, 2 * other);
        self.arcs.swap(2 * one + 1, 2 * other + 1);
    }
}

/// The words of a sheet with other spans and nothing else changed.
pub fn with_other_spans(sheet: &Sheet, random: &mut Random) -> Vec<u32> {
    let spans: Vec<u32> = sheet.spans().iter().map(|_| 3 << 28 | random.pick(&SPANS).span(random)).collect();
    [&sheet.before_regions()[..2], &spans, sheet.holds(), sheet.arc_words(), sheet.regions()].concat()
}

/// Leads these arcs back to their tails. Where a node has as many arcs into it as it may have, one of them gets the head that the arc had, so that an accepted
/// sheet becomes a convertible one.
pub fn lead_back(words: &mut [u32], wanted: impl Fn(usize) -> bool) {
    let places: Vec<usize> = (0..words.len()).filter(|at| words[*at] >> 28 == 4).collect();
    let (tail, head) = (|word: u32| word >> 10 & 1023, |word: u32| word & 1023);
    for at in places.iter().enumerate().filter(|(arc, _)| wanted(*arc)).map(|(_, at)| *at) {
        let node = tail(words[at]);
        let into: Vec<usize> = places.iter().copied().filter(|other| head(words[*other]) == node).collect();
        let other = into.iter().find(|other| tail(words[**other]) != node).filter(|_| into.len() >= MOST_EACH_WAY && head(words[at]) != node);
        if let Some(other) = other {
            words[*other] = words[*other] & !1023 | head(words[at]);
        }
        words[at] = words[at] & !1023 | node;
    }
}

/// Leads back some arcs of an accepted sheet, those that one region holds, or all.
pub fn with_self_arcs(mut words: Vec<u32>, random: &mut Random) -> Vec<u32> {
    let sheet = Sheet::in_order(words.clone()).expect("a sheet in order");
    let held = held_by_one(&sheet, random);
    let some: Vec<bool> = (0..sheet.arc_count()).map(|_| random.once_in(3)).collect();
    match random.below(8) {
        0 => lead_back(&mut words, |_| true),
        1..=2 => lead_back(&mut words, |arc| some[arc]),
        3 => lead_back(&mut words, |arc| some[arc] || held[arc]),
        _ => lead_back(&mut words, |arc| held[arc]),
    }
    words
}

/// Which arcs a region holds that is drawn at random, at any depth.
fn held_by_one(sheet: &Sheet, random: &mut Random) -> Vec<bool> {
    let regions = sheet.regions();
    let drawn = random.below(regions.len() + 1);
    let mut within = vec![false; regions.len() + 1];
    within[drawn] = true;
    let mut held = vec![false; sheet.arc_count()];
    for (at, word) in regions.iter().enumerate() {
        within[at + 1] |= within[parent(*word)];
        if is_leaf(*word) {
            held[leaf_arc(*word)] = within[at + 1];
        }
    }
    held
}

/// The words of a sheet with a hold of 0 at each node and nothing else changed.
pub fn with_zero_holds(sheet: &Sheet) -> Vec<u32> {
    let holds = vec![13 << 28; sheet.nodes()];
    [&sheet.before_regions()[..2], sheet.spans(), &holds, sheet.arc_words(), sheet.regions()].concat()
}

/// Of so many sheets with one figure changed one has other regions and spans too.
const DIVIDED_ANEW: usize = 4;

/// The words of a sheet with another length of one arc, or another hold at one node, as the limits let it have, and at times with other regions and spans.
/// Nothing where the figure drawn can be no other. The table is the sheet's own: what is changed is often an arc that feeds a node, or the tail of such an arc.
pub fn slowed(sheet: &Sheet, table: &[u32], random: &mut Random) -> Option<Vec<u32>> {
    let (mut holds, mut arcs) = (sheet.holds().to_vec(), sheet.arc_words().to_vec());
    let drawn = drawn_arc(sheet, table, random);
    let seldom = if holds.is_empty() { 6 } else { 2 };
    match drawn.filter(|_| !random.once_in(seldom)) {
        None => {
            let any = random.below(sheet.nodes());
            let tail = drawn.and_then(|number| sheet.arcs().nth(number)).map_or(any, |arc| arc.tail);
            let node = random.pick(&[any, tail, tail]);
            holds.resize(sheet.nodes(), 13 << 28);
            holds[node] = 13 << 28 | another(sheet.hold(node), most_hold(sheet, node), random)?;
        }
        Some(number) => {
            let (written, taken) = (sheet.arcs().nth(number)?.length, sheet.taken_arcs().nth(number)?.length);
            arcs[2 * number + 1] = 5 << 28 | another(written, MOST_LENGTH - (taken - written), random)?;
        }
    }
    let divided = random.once_in(DIVIDED_ANEW).then(|| divided_anew(sheet, random));
    let (spans, regions) = divided.unwrap_or((sheet.spans().to_vec(), sheet.regions().to_vec()));
    Some([&sheet.before_regions()[..2], &spans, &holds, &arcs, &regions].concat())
}

/// The number of an arc, where there is one: two of three times that of one which feeds a node, where the node drawn is fed.
fn drawn_arc(sheet: &Sheet, table: &[u32], random: &mut Random) -> Option<usize> {
    let arcs = sheet.arc_count();
    let any = (arcs > 0).then(|| random.below(arcs))?;
    let feed = payload(table[feed_at(random.below(sheet.nodes()))]) as usize;
    Some(if feed < arcs && !random.once_in(3) { feed } else { any })
}

/// Another figure: one more or less, some more or less, any, or at the limits.
fn another(figure: u32, most: u32, random: &mut Random) -> Option<u32> {
    let some = 1 + random.below(20) as u32;
    let any = random.below(most as usize + 1) as u32;
    let figures = [figure + 1, figure.wrapping_sub(1), figure + some, figure.wrapping_sub(some), any, 0, most];
    let others: Vec<u32> = figures.into_iter().filter(|other| *other <= most && *other != figure).collect();
    (!others.is_empty()).then(|| random.pick(&others))
}

/// The highest hold that 34 lets a node have.
fn most_hold(sheet: &Sheet, node: usize) -> u32 {
    let left = sheet.arcs().filter(|arc| arc.tail == node && node != sheet.source()).map(|arc| MOST_LENGTH - arc.length);
    left.min().unwrap_or(TOP)
}

/// The words of other spans and of other regions for a sheet.
fn divided_anew(sheet: &Sheet, random: &mut Random) -> (Vec<u32>, Vec<u32>) {
    let division = random.pick(&NESTINGS).of(sheet.arc_count(), random);
    let spans = random.pick(&SPANS);
    ((0..division.height()).map(|_| 3 << 28 | spans.span(random)).collect(), division.words().collect())
}

/// What an arc is charged with.
type Charge = fn(&Sheet, Arc) -> u32;

/// The words of a sheet without its holds, whose arcs have lengths with a wrong charge, as far as the limit lets them: no hold at all, the tail's even where it
/// is the source, or the head's.
pub fn charged_wrongly(sheet: &Sheet, random: &mut Random) -> Vec<u32> {
    let charges: [Charge; 3] = [|_, _| 0, |sheet, arc| sheet.hold(arc.tail), |sheet, arc| sheet.hold(arc.head)];
    let charge = random.pick(&charges);
    let lengths = sheet.arcs().map(|arc| MOST_LENGTH.min(arc.length + charge(sheet, arc)));
    let arcs: Vec<u32> = sheet.arc_words().iter().step_by(2).zip(lengths).flat_map(|(ends, length)| [*ends, 5 << 28 | length]).collect();
    [&sheet.before_regions()[..2], sheet.spans(), &arcs, sheet.regions()].concat()
}

/// The words of a sheet whose regions are numbered anew, each after its parent.
pub fn renumbered(sheet: &Sheet, random: &mut Random) -> Vec<u32> {
    Parts::of(sheet).words(random)
}

/// The words of a changed sheet, its regions numbered anew; nothing where the sheet has nothing to be changed so. A few are refused.
pub fn changed(change: Change, sheet: &Sheet, random: &mut Random) -> Option<Vec<u32>> {
    let mut parts = Parts::of(sheet);
    let arcless = sheet.arc_count() == 0;
    match change {
        Change::Hall => parts.change_hall(random),
        Change::Span => parts.change_span(random),
        Change::Hold => parts.change_hold(random)?,
        Change::Holds => parts.change_holds(),
        _ if arcless => return None,
        Change::Arc => parts.change_arc(random),
        Change::ArcsExchanged => parts.exchange_arcs(random),
        Change::LeavesExchanged => parts.division.exchange_leaves(random),
        Change::LeafMoved => parts.division.move_leaf(random),
        Change::InnerMoved => parts.division.move_inner(random)?,
        Change::ChainLonger => parts.division.add_link(random),
        Change::ChainShorter => parts.division.drop_link(random)?,
        Change::LinkMoved => {
            parts.division.add_link(random);
            parts.division.drop_link(random)?;
        }
    }
    Some(parts.words(random))
}
