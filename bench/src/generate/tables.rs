//! Damage to tables, and the form that they had before request 2026-02.

use super::random::Random;
use crate::reference::sheet::Sheet;
use crate::reference::table::{count, feed_at, key_at, label_at, longer, COUNTS, HEADER, HEIGHTS};

const TOP: u32 = (1 << 28) - 1;

/// Before request 2026-02 a table had one inner count, and so many words less.
pub const MORE: usize = 2 * (HEIGHTS - 1);

/// Where the words of the inner counts begin.
const INNER_AT: usize = 5;

/// The table as it was then: its fifteen figures are added up into one.
pub fn before(table: &[u32]) -> Vec<u32> {
    let inner: u64 = (0..HEIGHTS).map(|at| count(table, 2 + at)).sum();
    let words = [(inner >> 28) as u32 & TOP, inner as u32 & TOP].map(|half| 11 << 28 | half);
    [&table[..INNER_AT], &words, &table[INNER_AT + 2 + MORE..]].concat()
}

/// The table of today for one of then, or for one whose length was wrong by as much: the inner count is that of height 1, and the others are 0.
pub fn since(table: &[u32]) -> Vec<u32> {
    let (first, rest) = table.split_at(table.len().min(INNER_AT + 2));
    [first, &[11 << 28; MORE], rest].concat()
}

/// A length that is not that of the table: near it, near its other form, near that of before request 2026-02, or any shorter one. At times it is that of the
/// other form.
pub fn wrong_length(length: usize, sheet: &Sheet, random: &mut Random) -> usize {
    let any = random.below(length);
    let near = random.pick(&[length, length - MORE, length + MORE, longer(sheet), length + sheet.arc_count()]) + random.below(5) - 2;
    match random.pick(&[0, any, near, near, length - MORE]) {
        found if found == length => length + 1,
        found => found,
    }
}

/// A table damaged in one way; several of them leave it a good one at times.
pub fn damaged(table: &mut [u32], sheet: &Sheet, random: &mut Random) {
    let node = random.below(sheet.nodes());
    let (label, feed) = (label_at(node), feed_at(node));
    let arc = random.below(sheet.arc_count() + 1) as u32;
    match random.below(14) {
        0 => table[random.below(HEADER)] ^= 1 << random.below(28),
        1 => table[0] = 8 << 28 | random.below(4) as u32,
        2 => table[random.below(table.len())] ^= 1 << (28 + random.below(4)),
        3 => table[label] = 9 << 28 | (table[label] & TOP).wrapping_add(random.pick(&[1, TOP])) & TOP,
        4 => table[label] = 9 << 28 | random.pick(&[TOP, 0, 7]),
        5 => table[feed] = 10 << 28 | arc,
        6 => table[feed] = 10 << 28 | random.pick(&[TOP, TOP - 1, sheet.arc_count() as u32, 2047]),
        7 => other_feeds(table, sheet, random),
        8 => ring(table, sheet, random),
        9 => table[1..HEADER].iter_mut().for_each(|word| *word = 11 << 28 | random.word() & TOP),
        10 => table.swap(label, label_at(random.below(sheet.nodes()))),
        11 => table[random.below(table.len())] = random.word(),
        12 => table[1 + random.below(HEADER - 1)] ^= 1 << (28 + random.below(4)),
        _ => table[label..=feed].copy_from_slice(&[9 << 28 | TOP, 10 << 28 | TOP]),
    }
}

/// A key word of a longer table damaged: another kind, a payload above 1, or the other one of 0 and 1.
pub fn key_damaged(table: &mut [u32], sheet: &Sheet, random: &mut Random) {
    if sheet.arc_count() > 0 {
        let at = key_at(sheet.nodes(), random.below(sheet.arc_count()));
        match random.below(4) {
            0 => table[at] ^= 1 << (28 + random.below(4)),
            1 => table[at] = 12 << 28 | random.pick(&[2, 3, 1 << 16, 1 << 27, TOP]),
            2 => table[at] = random.word(),
            _ => table[at] ^= 1,
        }
    }
}

/// A longer table damaged in one of the clauses of a possible state, on either side of its boundary; several ways leave it possible at times, and some break
/// two clauses. The status is mostly brought to what the keys say.
pub fn state_damaged(table: &mut [u32], sheet: &Sheet, random: &mut Random) {
    match random.below(5) {
        0 => source_damaged(table, sheet, random),
        1 => label_damaged(table, sheet, random),
        2 => feed_damaged(table, sheet, random),
        3 => keys_damaged(table, sheet, random),
        _ => count_damaged(table, sheet, random),
    }
    let keyed = table[key_at(sheet.nodes(), 0)..].iter().any(|word| word & TOP == 1);
    table[0] = 8 << 28 | (keyed == random.once_in(12)) as u32;
}

/// The source at another label, or fed. Every second time all other labels rise with it.
fn source_damaged(table: &mut [u32], sheet: &Sheet, random: &mut Random) {
    let source = sheet.source();
    match random.below(4) {
        0 if sheet.arc_count() > 0 => table[feed_at(source)] = 10 << 28 | random.below(sheet.arc_count()) as u32,
        1 => table[label_at(source)] = 9 << 28 | random.pick(&[1, 7, TOP]),
        2 => (0..sheet.nodes()).for_each(|node| table[label_at(node)..=feed_at(node)].copy_from_slice(&[9 << 28 | TOP, 10 << 28 | TOP])),
        _ => reached(table, sheet).into_iter().for_each(|node| table[label_at(node)] += 1),
    }
}

/// The nodes with a label that is not near the highest.
fn reached(table: &[u32], sheet: &Sheet) -> Vec<usize> {
    (0..sheet.nodes()).filter(|node| table[label_at(*node)] & TOP < TOP - 9).collect()
}

/// A label a little other, at its feeder's label and arc, at the bound or one above it. Every second time the arcs to the node and from it have a key.
fn label_damaged(table: &mut [u32], sheet: &Sheet, random: &mut Random) {
    let nodes = reached(table, sheet);
    if nodes.is_empty() {
        return;
    }
    let node = random.pick(&nodes);
    let bound = 262_143 * (nodes.len() as u32 - 1);
    let old = table[label_at(node)] & TOP;
    let label = random.pick(&[old.saturating_sub(1), old + 1, old + 1, bound, bound + 1, bound.saturating_sub(1), TOP - 1]);
    table[label_at(node)] = 9 << 28 | label;
    if random.once_in(2) {
        key_around(table, sheet, node);
    }
}

/// Keys for the arcs to a node, from reached ones, and for those from it.
fn key_around(table: &mut [u32], sheet: &Sheet, node: usize) {
    for (number, arc) in sheet.arcs().enumerate() {
        if (arc.head == node || arc.tail == node) && table[label_at(arc.tail)] & TOP != TOP {
            table[key_at(sheet.nodes(), number)] = 12 << 28 | 1;
        }
    }
}

/// A node unfed, fed by another arc, by one that leads to it, or by one of a ring; an unreached node fed.
fn feed_damaged(table: &mut [u32], sheet: &Sheet, random: &mut Random) {
    let node = random.below(sheet.nodes());
    let leading: Vec<usize> = sheet.arcs().enumerate().filter(|(_, arc)| arc.head == node).map(|(number, _)| number).collect();
    match random.below(5) {
        0 => table[feed_at(node)] = 10 << 28 | TOP,
        1 if sheet.arc_count() > 0 => table[feed_at(node)] = 10 << 28 | random.below(sheet.arc_count()) as u32,
        2 if !leading.is_empty() => table[feed_at(node)] = 10 << 28 | random.pick(&leading) as u32,
        3 => other_feeds(table, sheet, random),
        _ => ring(table, sheet, random),
    }
}

/// A key taken or given, all taken, all given, or all given that may be; or a reached node made unreached.
fn keys_damaged(table: &mut [u32], sheet: &Sheet, random: &mut Random) {
    let keys = key_at(sheet.nodes(), 0)..longer(sheet);
    match random.below(6) {
        0 | 1 if !keys.is_empty() => table[keys.start + random.below(keys.len())] ^= 1,
        2 => table[keys].fill(12 << 28),
        3 => table[keys].fill(12 << 28 | 1),
        4 => (0..sheet.nodes()).for_each(|node| key_around(table, sheet, node)),
        _ => {
            let node = random.below(sheet.nodes());
            table[label_at(node)..=feed_at(node)].copy_from_slice(&[9 << 28 | TOP, 10 << 28 | TOP]);
        }
    }
}

/// A count near 2^54 or 2^55, or at a height without a span.
fn count_damaged(table: &mut [u32], sheet: &Sheet, random: &mut Random) {
    let (any, spans) = (random.below(COUNTS), sheet.spans().len());
    let at = random.pick(&[0, 1, 2, 1 + spans, (2 + spans).min(COUNTS - 1), COUNTS - 1, any]);
    let count: u64 = random.pick(&[1, 1 << 28, (1 << 54) - 1, 1 << 54, (1 << 55) - 2, (1 << 55) - 1, 1 << 55, (1 << 56) - 1]);
    table[1 + 2 * at] = 11 << 28 | (count >> 28) as u32;
    table[2 + 2 * at] = 11 << 28 | count as u32 & TOP;
}

/// Nodes fed by other arcs that fit their labels: another good table, or arcs that run round a ring without length.
fn other_feeds(table: &mut [u32], sheet: &Sheet, random: &mut Random) {
    for (number, arc) in sheet.taken_arcs().enumerate() {
        let tail = table[label_at(arc.tail)] & TOP;
        let fits = tail != TOP && tail + arc.length == table[label_at(arc.head)] & TOP;
        if fits && arc.head != sheet.source() && random.once_in(2) {
            table[feed_at(arc.head)] = 10 << 28 | number as u32;
        }
    }
}

/// Unreached nodes at one label, each fed by an arc from another of them.
fn ring(table: &mut [u32], sheet: &Sheet, random: &mut Random) {
    let at = random.below(9) as u32;
    let unreached: Vec<bool> = (0..sheet.nodes()).map(|node| table[label_at(node)] & TOP == TOP).collect();
    for (number, arc) in sheet.arcs().enumerate() {
        if unreached[arc.tail] && unreached[arc.head] {
            table[label_at(arc.head)] = 9 << 28 | at;
            table[feed_at(arc.head)] = 10 << 28 | number as u32;
        }
    }
}
