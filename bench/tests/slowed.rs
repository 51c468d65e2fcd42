//! Request 2026-10: one length or one hold changed. By hand, on small halls by the independent program and by all routes, and by tables that are wrong.

use bench::generate::changes;
use bench::generate::divisions::NESTINGS;
use bench::generate::halls;
use bench::generate::random::Random;
use bench::generate::sheets::{self, bytes, Spans};
use bench::reference::judge::accepted;
use bench::reference::sheet::Sheet;
use bench::reference::slowed::{Change, Figure, Slowed};
use bench::reference::table::{self, feed_at, label_at};
use bench::reference::{self, travel, Answer, TOP};

const HALL: [u32; 4] = [0x1000_0004, 0x2000_0000, 0x3000_0002, 0x3000_0001];
const ARCS: [u32; 8] = [0x4000_0001, 0x5000_0004, 0x4000_0002, 0x5000_0001, 0x4000_0801, 0x5000_0002, 0x4000_0403, 0x5000_0005];
const REGIONS: [u32; 6] = [0x6000_0000, 0x6000_0000, 0x7000_0800, 0x7000_0803, 0x7000_1001, 0x7000_1002];

/// Hall A with these lengths and holds.
fn hall_a(lengths: [u32; 4], holds: &[u32]) -> Vec<u32> {
    let holds: Vec<u32> = holds.iter().map(|hold| 13 << 28 | hold).collect();
    let arcs: Vec<u32> = ARCS.iter().step_by(2).zip(lengths).flat_map(|(ends, length)| [*ends, 5 << 28 | length]).collect();
    [&HALL[..], &holds, &arcs, &REGIONS].concat()
}

const LENGTHS: [u32; 4] = [4, 1, 2, 5];

fn sheet_of(words: &[u32]) -> Sheet {
    accepted(&bytes(words)).map(|accepted| accepted.sheet).unwrap_or_else(|number| panic!("refused {number}"))
}

fn ended(words: &[u32]) -> Vec<u32> {
    let mut table = vec![0; table::length((words[0] & TOP) as usize)];
    assert_eq!(reference::run(&bytes(words), &mut table), Answer::Ended);
    table
}

fn labels(table: &[u32], nodes: usize) -> Vec<u32> {
    (0..nodes).map(|node| table[label_at(node)] & TOP).collect()
}

/// What is said of two sheets, once the second table is changed.
fn pair_with(words: &[u32], others: &[u32], change: impl FnOnce(&mut [u32])) -> Option<Slowed> {
    let mut table = ended(others);
    change(&mut table);
    Slowed::of(&sheet_of(words), &ended(words), &sheet_of(others), &table)
}

fn pair(words: &[u32], others: &[u32]) -> Slowed {
    pair_with(words, others, |_| ()).expect("one change")
}

fn sizes(pair: &Slowed) -> Vec<u32> {
    pair.sizes().collect()
}

/// Each change of hall A by itself, there and back: by how much the four distances move, and to which nodes the change is passed.
#[test]
fn hall_a_with_one_length_changed() {
    let cases = [
        (1, 4, [0, 1, 3, 1], [false, true, true, true]),
        (1, 2, [0, 1, 1, 1], [false, true, true, true]),
        (0, 9, [0, 0, 0, 0], [false; 4]),
        (0, 2, [0, 1, 0, 1], [false, true, false, true]),
        (2, 0, [0, 2, 0, 2], [false, true, false, true]),
        (3, 262_143, [0, 0, 0, 262_138], [false, false, false, true]),
    ];
    for (arc, length, moves, passed) in cases {
        let mut lengths = LENGTHS;
        lengths[arc] = length;
        let (one, other) = (hall_a(LENGTHS, &[]), hall_a(lengths, &[]));
        for (pair, before, after) in [(pair(&one, &other), LENGTHS[arc], length), (pair(&other, &one), length, LENGTHS[arc])] {
            assert_eq!(pair.change, Change { figure: Figure::Length(arc), before, after });
            assert_eq!((sizes(&pair), &pair.passed[..]), (moves.to_vec(), &passed[..]));
            assert!(pair.holds());
        }
    }
}

/// The first scanner of a hall without holds; the source's own; that of a node without outgoing arcs.
#[test]
fn hall_a_with_one_hold_changed() {
    let cases = [
        (2, 3, [0, 1, 0, 1], [false, true, false, true]),
        (1, 10, [0, 0, 0, 10], [false, false, false, true]),
        (0, TOP, [0; 4], [false; 4]),
        (3, TOP, [0; 4], [false; 4]),
    ];
    for (node, hold, moves, passed) in cases {
        let mut holds = [0; 4];
        holds[node] = hold;
        let (one, zeros, other) = (hall_a(LENGTHS, &[]), hall_a(LENGTHS, &[0; 4]), hall_a(LENGTHS, &holds));
        for (words, first) in [(&one, true), (&zeros, false)] {
            let pair = pair(words, &other);
            assert_eq!((pair.change, pair.first_holds), (Change { figure: Figure::Hold(node), before: 0, after: hold }, first));
            assert_eq!((pair.of_source, sizes(&pair), &pair.passed[..]), (node == 0, moves.to_vec(), &passed[..]));
            assert!(pair.holds());
        }
    }
}

/// No change, holds of 0 in place of none, two lengths, a length and a hold, another source, other ends: of these nothing is said. Other regions and spans are
/// no change.
#[test]
fn one_change_and_no_more() {
    let a = hall_a(LENGTHS, &[]);
    let with = |at: usize, word: u32| {
        let mut words = a.clone();
        words[at] = word;
        words
    };
    let others = [
        a.clone(),
        hall_a(LENGTHS, &[0; 4]),
        hall_a([4, 2, 3, 5], &[]),
        hall_a([4, 2, 2, 5], &[0, 0, 1, 0]),
        hall_a(LENGTHS, &[0, 1, 1, 0]),
        with(1, 0x2000_0001),
        with(8, 0x4000_0803),
    ];
    others.iter().for_each(|other| assert!(pair_with(&a, other, |_| ()).is_none(), "{other:08x?}"));
    let flat = [&[0x1000_0004, 0x2000_0000, 0x3000_0007], &a[4..7], &[0x5000_0004], &a[8..12], &[0x7000_0001, 0x7000_0003, 0x7000_0000, 0x7000_0002]]
        .concat();
    let pair = pair(&a, &flat);
    assert!(pair.other_division && pair.holds());
    assert_eq!(sizes(&pair), [0, 1, 3, 1]);
}

/// Arcs 1 and 3 leave other nodes. Each longer by 1, they move node 3 by 2.
#[test]
fn two_arcs_may_add_up() {
    let [before, after] = [LENGTHS, [4, 2, 2, 6]].map(|lengths| labels(&ended(&hall_a(lengths, &[])), 4));
    assert_eq!((before, after), (vec![0, 3, 1, 8], vec![0, 4, 2, 10]));
}

/// Hall A with arc 1 at 4 and with arc 0 at 9, whose table is then damaged in one word: each part of what is said tells its own fault.
#[test]
fn wrong_tables_are_told() {
    let (a, slower, other) = (hall_a(LENGTHS, &[]), hall_a([4, 4, 2, 5], &[]), hall_a([9, 1, 2, 5], &[]));
    let told = |others: &[u32], node: usize, label: u32| {
        let pair = pair_with(&a, others, |table| table[label_at(node)] = 9 << 28 | label).expect("one change");
        assert_eq!(pair.holds(), pair.same_reached() && pair.within() && pair.one_way() && pair.others_keep());
        (pair.same_reached(), pair.within(), pair.one_way(), pair.others_keep())
    };
    assert_eq!(told(&slower, 2, 4), (true, true, true, true));
    assert_eq!(told(&slower, 2, 5), (true, false, true, true));
    assert_eq!(told(&slower, 1, 2), (true, true, false, true));
    assert_eq!(told(&slower, 3, TOP), (false, false, true, true));
    assert_eq!(told(&slower, 0, 1), (true, true, true, false));
    assert_eq!(told(&other, 2, 2), (true, true, true, false));
    let held = hall_a(LENGTHS, &[5, 0, 0, 0]);
    assert!(!pair_with(&a, &held, |table| table[label_at(1)] += 1).expect("one change").within());
}

/// Hall A with both spans 1 after three rounds: with arc 1 longer, node 3 is reached already. Of paused tables nothing is said.
#[test]
fn nothing_is_said_of_paused_tables() {
    let patient = |lengths: [u32; 4]| {
        let mut words = hall_a(lengths, &[]);
        words[2] = 0x3000_0001;
        words
    };
    let tables = [LENGTHS, [4, 4, 2, 5]].map(|lengths| {
        let mut table = vec![0; table::length(4)];
        assert_eq!(reference::run_limited(&bytes(&patient(lengths)), 3, &mut table), Answer::Paused);
        table
    });
    assert_eq!(tables.each_ref().map(|table| labels(table, 4)), [vec![0, 3, 1, TOP], vec![0, 4, 4, 9]]);
    assert_eq!(tables.each_ref().map(|table| table[feed_at(3)] & TOP), [TOP, 3]);
    let [one, other] = [LENGTHS, [4, 4, 2, 5]].map(|lengths| sheet_of(&patient(lengths)));
    assert!(Slowed::of(&one, &tables[0], &other, &tables[1]).is_none());
}

/// Claims that say too much, and how many pairs have to be found of which they are not so.
const WRONG: [(&str, u32, fn(&Slowed) -> bool); 6] = [
    ("a bound of one less than the change", 400, |pair| pair.sizes().all(|size| size < pair.change.size())),
    ("a bound of 0", 600, |pair| pair.none_moves()),
    ("no less than the change, where there is a move", 100, |pair| !pair.moves_less()),
    ("lengthening brings no distance up", 300, |pair| !pair.change.is_longer() || pair.none_moves()),
    ("the passed nodes move", 30, |pair| pair.labels.iter().zip(&pair.passed).all(|((label, other), passed)| !passed || label != other)),
    ("some distance moves", 600, |pair| !pair.none_moves()),
];

/// Small halls: the distances of both sheets are the least lengths of all routes, and are as the request says.
#[test]
fn small_halls_by_all_routes() {
    let (mut pairs, mut holds, mut of_source, mut wrong) = (0, 0, 0, [0; WRONG.len()]);
    for case in 0..4000 {
        let mut random = Random::of_case(10, case);
        let hall = halls::any(5, &mut random);
        let division = random.pick(&NESTINGS).of(hall.arcs.len(), &mut random);
        let words = sheets::words(&hall, &division, Spans::UpTo(3), &mut random);
        let sheet = sheet_of(&words);
        let Some(others) = changes::slowed(&sheet, &ended(&words), &mut random) else { continue };
        for words in [&words, &others] {
            let sheet = sheet_of(words);
            assert_eq!(labels(&ended(words), sheet.nodes()), travel::least(&sheet, sheet.nodes()), "{words:08x?}");
        }
        let pair = pair(&words, &others);
        assert!(pair.holds(), "{:?}, {words:08x?}", pair.change);
        pairs += 1;
        holds += !pair.change.is_length() as u32;
        of_source += pair.of_source as u32;
        wrong.iter_mut().zip(WRONG).for_each(|(count, (_, _, is_so))| *count += !is_so(&pair) as u32);
    }
    println!("{pairs} pairs, {holds} of a hold, {of_source} of the source's; wrong claims are not so of {wrong:?}");
    assert!(pairs > 3000 && holds > 1000 && of_source > 300);
    assert!(wrong.iter().zip(WRONG).all(|(count, (_, least, _))| *count > least), "{wrong:?}");
}

/// Sheets of every shape, some of full size, by the independent program alone.
#[test]
fn sheets_of_every_shape() {
    let mut moved = 0;
    for case in 0..3000 {
        let mut random = Random::of_case(11, case);
        let words = if case < 30 { sheets::full(&mut random) } else { sheets::any(&mut random) };
        let Some(others) = changes::slowed(&sheet_of(&words), &ended(&words), &mut random) else { continue };
        let pair = pair(&words, &others);
        assert!(pair.holds(), "{:?}, {words:08x?}", pair.change);
        moved += !pair.none_moves() as u32;
    }
    assert!(moved > 600, "{moved}");
}

/// With the source's hold charged too, as a length of the arcs that leave the source, a change of it moves distances.
#[test]
fn a_charged_source_would_move_distances() {
    let charged = |hold: u32| labels(&ended(&hall_a([4 + hold, 1 + hold, 2, 5], &[])), 4);
    assert_eq!([0, 5].map(charged), [vec![0, 3, 1, 8], vec![0, 8, 6, 13]]);
}
