//! Request 2026-06: each clause of a possible state is told alone, on both sides of its boundary; and request 2026-08: with holds in the lengths.

use bench::generate::sheets::bytes;
use bench::reference::judge::accepted;
use bench::reference::possible::{broken, Clause, CLAUSES};
use bench::reference::table::{self, feed_at, key_at, label_at};
use bench::reference::{self, Answer, TOP};

/// Nodes 0, 1 and 2 in a row, a ring without length between nodes 2 and 3; from node 4, which no arc leads to, an arc to node 1. All leaves on region 0.
const ROW: [u32; 18] = [
    0x1000_0005,
    0x2000_0000,
    0x3000_0002,
    0x4000_0001,
    0x5000_0004,
    0x4000_0402,
    0x5000_0003,
    0x4000_0803,
    0x5000_0000,
    0x4000_0c02,
    0x5000_0000,
    0x4000_1001,
    0x5000_0001,
    0x7000_0000,
    0x7000_0001,
    0x7000_0002,
    0x7000_0003,
    0x7000_0004,
];
const NODES: usize = 5;

/// Places in its longer table, and what is written there.
type Changes<'a> = &'a [(usize, u32)];

const KEYED: u32 = 12 << 28 | 1;
const PAUSED: (usize, u32) = (0, 8 << 28);

fn label(node: usize, label: u32) -> (usize, u32) {
    (label_at(node), 9 << 28 | label)
}

fn feed(node: usize, arc: u32) -> (usize, u32) {
    (feed_at(node), 10 << 28 | arc)
}

fn key(arc: usize) -> (usize, u32) {
    (key_at(NODES, arc), KEYED)
}

/// The high half of a count.
fn high(at: usize, half: u32) -> (usize, u32) {
    (1 + 2 * at, 11 << 28 | half)
}

/// The clauses that the ended table of the row breaks once it is changed. A resume of it is refused with 33 exactly if it breaks any.
fn broken_by(changes: Changes) -> Vec<Clause> {
    broken_of(&ROW, changes)
}

fn broken_of(words: &[u32], changes: Changes) -> Vec<Clause> {
    let bytes = bytes(words);
    let sheet = accepted(&bytes).ok().expect("an accepted sheet").sheet;
    let mut table = vec![0; table::longer(&sheet)];
    assert_eq!(reference::run(&bytes, &mut table), Answer::Ended);
    changes.iter().for_each(|(at, word)| table[*at] = *word);
    let found: Vec<Clause> = broken(&sheet, &table).collect();
    assert_eq!(reference::resume(&bytes, 1, &mut table) == Answer::Refused(33), !found.is_empty());
    found
}

#[test]
fn each_clause_alone() {
    let cases: [(Clause, Changes); 17] = [
        (Clause::Source, &[feed(0, 0)]),
        (Clause::Source, &[label(0, 1), label(1, 5), label(2, 8), label(3, 8)]),
        (Clause::Chains, &[feed(1, TOP)]),
        (Clause::Chains, &[feed(2, 3)]),
        (Clause::Chains, &[feed(3, 1)]),
        (Clause::NotBelow, &[label(1, 3), key(1), PAUSED]),
        (Clause::Unfed, &[feed(4, 0)]),
        (Clause::Keyless, &[key(4), PAUSED]),
        (Clause::Relaxed, &[label(2, 8), label(3, 8)]),
        (Clause::Relaxed, &[label(2, TOP), feed(2, TOP), label(3, TOP), feed(3, TOP)]),
        (Clause::Bound, &[label(3, 3 * 262_143 + 1), key(2), PAUSED]),
        (Clause::Counts, &[high(0, 1 << 27)]),
        (Clause::Counts, &[high(17, 1 << 27)]),
        (Clause::UnusedHeights, &[high(3, 1)]),
        (Clause::UnusedHeights, &[high(16, 1)]),
        (Clause::Status, &[PAUSED]),
        (Clause::Status, &[key(0)]),
    ];
    cases.iter().for_each(|(clause, changes)| assert_eq!(broken_by(changes), [*clause], "{changes:08x?}"));
    assert!(CLAUSES.iter().all(|clause| cases.iter().any(|(of, _)| of == clause)));
}

#[test]
fn possible_at_the_boundary() {
    let cases: [Changes; 8] = [
        &[],
        &[key(0), PAUSED],
        &[label(1, 5), label(2, 8), label(3, 8), key(0), PAUSED],
        &[label(2, 8), label(3, 8), key(1), PAUSED],
        &[label(2, TOP), feed(2, TOP), label(3, TOP), feed(3, TOP), key(1), PAUSED],
        &[label(3, 3 * 262_143), key(2), PAUSED],
        &[high(0, (1 << 27) - 1)],
        &[high(2, (1 << 27) - 1)],
    ];
    cases.iter().for_each(|changes| assert_eq!(broken_by(changes), [], "{changes:08x?}"));
}

/// A chain through a node that is not reached, and all clauses that it breaks besides.
#[test]
fn several_clauses() {
    let unreached = [label(1, TOP), feed(1, TOP), key(0), PAUSED];
    assert_eq!(broken_by(&unreached), [Clause::Chains, Clause::NotBelow]);
    assert_eq!(broken_by(&[label(0, 7), PAUSED]), [Clause::Source, Clause::NotBelow, Clause::Status]);
}

/// The row with holds of 50 at node 0, 10 at node 1 and 20 at nodes 2, 3 and 4: labels 0, 4, 17 and 37. What was right without holds is below or not settled.
#[test]
fn holds_are_in_the_lengths() {
    let held = [&ROW[..3], &[50, 10, 20, 20, 20].map(|hold| 13 << 28 | hold), &ROW[3..]].concat();
    let cases: [(&[Clause], Changes); 7] = [
        (&[], &[]),
        (&[], &[label(1, 4), label(2, 17), label(3, 37)]),
        (&[Clause::NotBelow], &[label(1, 3), key(1), PAUSED]),
        (&[Clause::NotBelow], &[label(2, 16), key(2), PAUSED]),
        (&[Clause::NotBelow], &[label(2, 7), label(3, 27)]),
        (&[Clause::Relaxed], &[label(3, 38)]),
        (&[Clause::Relaxed], &[label(1, 54), label(2, 67), label(3, 87)]),
    ];
    cases.iter().for_each(|(clauses, changes)| assert_eq!(broken_of(&held, changes), *clauses, "{changes:08x?}"));
}
