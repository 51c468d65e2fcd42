//! Request 2026-03 tells right counts from wrong ones, and says nothing of other sheets.

use bench::generate::sheets::bytes;
use bench::reference::judge::accepted;
use bench::reference::table::{self, label_at};
use bench::reference::work::Work;
use bench::reference::{self, Answer, TOP};

/// Hall A without spans and regions: arcs from 0 to 1, 0 to 2, 2 to 1 and 1 to 3.
const HALL: [u32; 2] = [0x1000_0004, 0x2000_0000];
const ARCS: [u32; 8] = [0x4000_0001, 0x5000_0004, 0x4000_0002, 0x5000_0001, 0x4000_0801, 0x5000_0002, 0x4000_0403, 0x5000_0005];
const NESTED: [u32; 6] = [0x6000_0000, 0x6000_0000, 0x7000_0800, 0x7000_0803, 0x7000_1001, 0x7000_1002];
const FLAT: [u32; 4] = [0x7000_0000, 0x7000_0001, 0x7000_0002, 0x7000_0003];

/// Where the low halves of the two counts stand in a table.
const ROUNDS: usize = 2;
const LEAVES: usize = 4;

fn hall(spans: &[u32], regions: &[u32]) -> Vec<u32> {
    let spans: Vec<u32> = spans.iter().map(|span| 3 << 28 | span).collect();
    [&HALL[..], &spans, &ARCS, regions].concat()
}

/// The work that a sheet's table shows once it is changed.
fn work(words: &[u32], change: impl FnOnce(&mut [u32])) -> Option<Work> {
    let bytes = bytes(words);
    let mut table = vec![0; table::length((words[0] & TOP) as usize)];
    assert_eq!(reference::run(&bytes, &mut table), Answer::Ended);
    change(&mut table);
    Work::of(&accepted(&bytes).ok()?.sheet, &table)
}

fn holds(words: &[u32], change: impl FnOnce(&mut [u32])) -> bool {
    work(words, change).unwrap().holds()
}

#[test]
fn spans_of_1_have_as_many_leaves_and_rounds_as_reached_arcs() {
    let sheet = hall(&[1, 1], &NESTED);
    let right = work(&sheet, |_| ()).unwrap();
    assert!(right.spans_are_1 && right.flat.is_none());
    assert_eq!((right.heights, right.arcs, right.reached, right.rounds, right.leaves), (2, 4, 4, 4, 4));
    assert!(right.holds());
    assert!(!holds(&sheet, |table| table[LEAVES] += 1));
    assert!(!holds(&sheet, |table| table[LEAVES - 1] += 1));
    assert!(!holds(&sheet, |table| table[ROUNDS] -= 1));
    assert!(!holds(&sheet, |table| table[ROUNDS - 1] += 1));
    assert!(!holds(&sheet, |table| table[label_at(1)] |= TOP));
}

#[test]
fn rounds_of_a_flat_sheet_are_rounded_up() {
    for (span, rounds) in [(1, 4), (2, 2), (3, 2), (4, 1), (5, 1), (1_000_000, 1)] {
        let sheet = hall(&[span], &FLAT);
        let right = work(&sheet, |_| ()).unwrap();
        assert_eq!((right.flat, right.spans_are_1), (Some(span as u64), span == 1));
        assert_eq!((right.reached, right.rounds, right.leaves), (4, rounds, 4));
        assert!(right.holds());
        assert!(!holds(&sheet, |table| table[ROUNDS] -= 1));
        assert!(!holds(&sheet, |table| table[ROUNDS] += 1));
        assert!(!holds(&sheet, |table| table[LEAVES] += 1));
    }
}

#[test]
fn an_arc_with_an_unreached_tail_is_not_worked() {
    let mut sheet = hall(&[2], &FLAT);
    sheet[1] = 2 << 28 | 2;
    let right = work(&sheet, |_| ()).unwrap();
    assert_eq!((right.arcs, right.reached, right.rounds, right.leaves), (4, 2, 1, 2));
    assert!(right.holds());
    assert!(!holds(&sheet, |table| table[LEAVES] += 2));
}

/// Hall A itself works 5 leaves for 4 arcs; fewer than 4 no run works.
#[test]
fn nothing_is_said_of_other_tables() {
    let sheet = hall(&[2, 1], &NESTED);
    let other = work(&sheet, |_| ()).unwrap();
    assert_eq!((other.reached, other.rounds, other.leaves), (4, 3, 5));
    assert!(!other.spoken_of() && other.holds() && other.no_fewer());
    assert!(work(&sheet, |table| table[LEAVES] = 11 << 28 | 4).unwrap().no_fewer());
    assert!(!work(&sheet, |table| table[LEAVES] = 11 << 28 | 3).unwrap().no_fewer());
    assert!(!hall_is_spoken_of(&[1, 2]) && hall_is_spoken_of(&[1, 1]));
    assert!(work(&hall(&[1, 1], &NESTED), |table| table[0] = 8 << 28).is_none());
}

fn hall_is_spoken_of(spans: &[u32]) -> bool {
    work(&hall(spans, &NESTED), |_| ()).unwrap().spoken_of()
}
