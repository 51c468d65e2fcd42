//! Request 2026-08: lengths with holds against routes measured by the request's sentence, refusal 34, and what holds change.

use bench::generate::changes::charged_wrongly;
use bench::generate::divisions::Nesting;
use bench::generate::halls::{self, Holds};
use bench::generate::random::Random;
use bench::generate::sheets::{self, bytes, Spans};
use bench::reference::judge::{accepted, accepted_by, Rules, MOST_BYTES, TODAY};
use bench::reference::sheet::{Arc, Sheet};
use bench::reference::table::{self, feed_at, label_at};
use bench::reference::{self, travel, Answer, TOP};

const HALL: [u32; 4] = [0x1000_0004, 0x2000_0000, 0x3000_0002, 0x3000_0001];
const ARCS: [u32; 8] = [0x4000_0001, 0x5000_0004, 0x4000_0002, 0x5000_0001, 0x4000_0801, 0x5000_0002, 0x4000_0403, 0x5000_0005];
const REGIONS: [u32; 6] = [0x6000_0000, 0x6000_0000, 0x7000_0800, 0x7000_0803, 0x7000_1001, 0x7000_1002];

/// Hall A with holds.
fn hall_a(holds: &[u32]) -> Vec<u32> {
    let holds: Vec<u32> = holds.iter().map(|hold| 13 << 28 | hold).collect();
    [&HALL[..], &holds, &ARCS, &REGIONS].concat()
}

fn judged(words: &[u32]) -> u32 {
    accepted(&bytes(words)).err().unwrap_or(0)
}

fn sheet_of(words: &[u32]) -> Sheet {
    accepted(&bytes(words)).map(|accepted| accepted.sheet).unwrap_or_else(|number| panic!("refused {number}"))
}

/// Labels and feeding arcs of a run to its end.
fn ended(words: &[u32]) -> (Vec<u32>, Vec<u32>) {
    let nodes = (words[0] & TOP) as usize;
    let mut table = vec![0; table::length(nodes)];
    assert_eq!(reference::run(&bytes(words), &mut table), Answer::Ended);
    let of = |at: fn(usize) -> usize| (0..nodes).map(|node| table[at(node)] & TOP).collect();
    (of(label_at), of(feed_at))
}

/// The detour by node 2 becomes the longer way to node 1: 1 + 3 + 2 and not 4. The hold of node 0 is not charged, nor that of node 3.
#[test]
fn hall_a_with_holds() {
    assert_eq!(ended(&hall_a(&[])), (vec![0, 3, 1, 8], vec![TOP, 2, 1, 3]));
    assert_eq!(ended(&hall_a(&[0; 4])), ended(&hall_a(&[])));
    assert_eq!(ended(&hall_a(&[100, 10, 3, 7])), (vec![0, 4, 1, 19], vec![TOP, 0, 1, 3]));
    assert_eq!(ended(&hall_a(&[TOP, 0, 0, TOP])), ended(&hall_a(&[])));
}

#[test]
fn routes_by_the_sentence() {
    let sheet = sheet_of(&hall_a(&[100, 10, 3, 7]));
    let arcs: Vec<Arc> = sheet.arcs().collect();
    for (route, length) in [(&[][..], 0), (&[0], 4), (&[1], 1), (&[1, 2], 6), (&[0, 3], 19), (&[1, 2, 3], 21)] {
        assert_eq!(travel::length(&sheet, &arcs, route), length, "{route:?}");
    }
}

/// From node 0 to node 1 and back, and to node 1 again: the hold of node 0 is not charged where the route passes it.
#[test]
fn a_route_past_the_source() {
    let words = [0x1000_0002, 0x2000_0000, 0x3000_0001, 0xd000_0040, 0xd000_0010, 0x4000_0001, 0x5000_0001, 0x4000_0400, 0x5000_0002];
    let sheet = sheet_of(&[&words[..], &[0x7000_0000, 0x7000_0001]].concat());
    assert_eq!(travel::length(&sheet, &sheet.arcs().collect::<Vec<_>>(), &[0, 1, 0]), 1 + 0x10 + 2 + 1);
}

#[test]
fn refusals() {
    let with = |at: usize, word: u32| {
        let mut words = hall_a(&[9, 9, 9, 9]);
        words[at] = word;
        words
    };
    let hold = |node: usize, hold: u32| with(4 + node, 13 << 28 | hold);
    let cases = [
        (hold(1, 262_138), 0),
        (hold(1, 262_139), 34),
        (hold(2, 262_141), 0),
        (hold(2, 262_142), 34),
        (hold(0, TOP), 0),
        (hold(3, TOP), 0),
        (with(9, 5 << 28 | 262_143), 0),
        (with(13, 5 << 28 | 262_134), 0),
        (with(13, 5 << 28 | 262_135), 34),
        (with(13, 5 << 28 | 262_144), 9),
        (with(1, 2 << 28 | 1), 0),
        (with(0, 1 << 28 | 5), 2),
        (with(0, 1 << 28), 2),
        (hall_a(&[0; 3]), 2),
        (hall_a(&[0; 5]), 2),
        ([&HALL[..3], &[13 << 28; 4], &HALL[3..], &ARCS, &REGIONS].concat(), 2),
        ([&HALL[..], &ARCS, &[13 << 28; 4], &REGIONS].concat(), 2),
    ];
    cases.iter().for_each(|(words, number)| assert_eq!(judged(words), *number, "{words:08x?}"));
    assert!(matches!(accepted_by(Rules { holds: false, ..TODAY }, &bytes(&hall_a(&[0; 4]))), Err(2)));
}

/// Five arcs from node 1, of which one is too long with its hold: 34 comes before 10. With 262,144 on another, 9 comes before both.
#[test]
fn the_place_of_34() {
    let front = [0x1000_0002, 0x2000_0000, 0x3000_0001, 0xd000_0000, 0xd000_0001];
    let sheet = |first: u32, last: u32| {
        let arcs: Vec<u32> = [first, 0, 0, 0, last].iter().flat_map(|length| [0x4000_0400, 5 << 28 | length]).collect();
        [&front[..], &arcs, &[0x7000_0000, 0x7000_0001, 0x7000_0002, 0x7000_0003, 0x7000_0004]].concat()
    };
    assert_eq!(judged(&sheet(0, 262_142)), 10);
    assert_eq!(judged(&sheet(0, 262_143)), 34);
    assert_eq!(judged(&sheet(262_143, 262_144)), 9);
}

#[test]
fn the_byte_limit() {
    for case in 0..5 {
        let words = sheets::largest(&mut Random::of_case(8, case));
        assert_eq!((4 * words.len(), judged(&words)), (MOST_BYTES, 0));
        assert_eq!(judged(&[&words[..], &[7 << 28]].concat()), 1);
        assert!(matches!(accepted_by(Rules { holds: false, ..TODAY }, &bytes(&words)), Err(1)));
    }
}

/// Small halls with holds: a run's distances are the least lengths of all routes of up to one arc more than a simple one can have, which are those of Dijkstra.
#[test]
fn distances_are_those_of_all_routes() {
    let mut others = 0;
    for case in 0..2000 {
        let mut random = Random::of_case(8, case);
        let mut hall = halls::any(5, &mut random);
        hall.set_holds(Holds::any(&mut random), &mut random);
        let division = random.pick(&[Nesting::Flat, Nesting::Mixed, Nesting::Halves]).of(hall.arcs.len(), &mut random);
        let words = sheets::words(&hall, &division, Spans::UpTo(3), &mut random);
        let sheet = sheet_of(&words);
        let expected = travel::least(&sheet, sheet.nodes());
        assert_eq!(ended(&words).0, expected, "{words:08x?}");
        assert_eq!(reference::dijkstra::distances(&sheet).labels, expected);
        others += (ended(&charged_wrongly(&sheet, &mut random)).0 != expected) as u32;
    }
    println!("halls in which wrong charges lead to other distances: {others}");
    assert!(others > 300, "{others}");
}

/// A route is read out of a table with holds, and out of one by a wrong charge only where the distances are the same.
#[test]
fn tables_by_wrong_charges() {
    let mut refused = [0; 2];
    for case in 0..3000 {
        let mut random = Random::of_case(9, case);
        let words = sheets::any(&mut random);
        let sheet = sheet_of(&words);
        let other = charged_wrongly(&sheet, &mut random);
        let same = ended(&other).0 == ended(&words).0;
        let mut table = vec![0; table::longer(&sheet)];
        reference::run(&bytes(&other), &mut table);
        let answers = [reference::route(&bytes(&words), &table, sheet.source() as u32, &mut []), reference::resume(&bytes(&words), 1, &mut table)];
        assert!(same || answers == [24, 33].map(Answer::Refused), "{answers:?}, {words:08x?}");
        [24, 33].iter().zip(&mut refused).zip(answers).for_each(|((number, count), answer)| *count += (answer == Answer::Refused(*number)) as u32);
    }
    assert!(refused.iter().all(|count| *count > 100), "{refused:?}");
}
