//! Request 2026-09: sheets without their self-arcs. By hand, by a converter that drops one region at a time, by wrong converters, and by the distances of all
//! routes.

use bench::generate::divisions::NESTINGS;
use bench::generate::halls;
use bench::generate::random::Random;
use bench::generate::sheets::{self, bytes, Spans};
use bench::reference::dijkstra::distances;
use bench::reference::judge::{accepted, accepted_by, CONVERTIBLE};
use bench::reference::procedure::Ties;
use bench::reference::sheet::{is_leaf, leaf_arc, parent, words, Arc, Sheet};
use bench::reference::table::{self, label_at};
use bench::reference::{self, travel, Answer, TOP};

const HALL_A: [u32; 12] = [
    0x1000_0004,
    0x2000_0000,
    0x3000_0002,
    0x3000_0001,
    0x4000_0001,
    0x5000_0004,
    0x4000_0002,
    0x5000_0001,
    0x4000_0801,
    0x5000_0002,
    0x4000_0403,
    0x5000_0005,
];
const REGIONS: [u32; 6] = [0x6000_0000, 0x6000_0000, 0x7000_0800, 0x7000_0803, 0x7000_1001, 0x7000_1002];

/// Hall A with two belts that end where they begin, as arcs 1 and 4: from node 1, in a region of its own within another, and from node 0, in region 2.
const BELTS: [u32; 12] = [
    0x4000_0001,
    0x5000_0004,
    0x4000_0401,
    0x5000_0007,
    0x4000_0002,
    0x5000_0001,
    0x4000_0801,
    0x5000_0002,
    0x4000_0000,
    0x5000_0000,
    0x4000_0403,
    0x5000_0005,
];
const WITH_BELTS: [u32; 10] =
    [0x6000_0000, 0x6000_0000, 0x6000_0000, 0x6000_0003, 0x7000_2001, 0x7000_0800, 0x7000_0805, 0x7000_1004, 0x7000_1002, 0x7000_1003];

/// Hall A with belts and these holds; the third span is for the height that the region with the belt in another gives.
fn with_belts(holds: &[u32]) -> Vec<u32> {
    [&HALL_A[..4], &[0x3000_0009], holds, &BELTS, &WITH_BELTS].concat()
}

fn hall_a(holds: &[u32]) -> Vec<u32> {
    [&HALL_A[..4], holds, &HALL_A[4..], &REGIONS].concat()
}

/// What both programs write.
fn converted(words_of: &[u32]) -> Vec<u32> {
    let sheet = bytes(words_of);
    let mut outs = [vec![0xa5; sheet.len() + 3], vec![0xa5; sheet.len() + 3]];
    let answer = reference::convert(&sheet, &mut outs[0]);
    assert_eq!(reference::convert_one_pass(&sheet, &mut outs[1]), answer);
    assert_eq!(outs[0], outs[1]);
    let Answer::Written(length) = answer else { panic!("{answer:?}, {words_of:08x?}") };
    assert!(outs[0][length as usize..].iter().all(|byte| *byte == 0xa5));
    words(&outs[0][..length as usize])
}

fn judged(words: &[u32]) -> u32 {
    accepted(&bytes(words)).err().unwrap_or(0)
}

fn convertible(words: &[u32]) -> Sheet {
    accepted_by(CONVERTIBLE, &bytes(words)).map(|accepted| accepted.sheet).unwrap_or_else(|number| panic!("refused {number}"))
}

#[test]
fn hall_a_with_belts() {
    let holds = [0xd000_0064, 0xd000_000a, 0xd000_0003, 0xd000_0007];
    for holds in [&[][..], &holds] {
        assert_eq!(judged(&with_belts(holds)), 35);
        assert_eq!(converted(&with_belts(holds)), hall_a(holds));
        assert_eq!(converted(&hall_a(holds)), hall_a(holds));
    }
}

/// A childless region 0 has height 1, so one span stays, the first.
#[test]
fn all_arcs_dropped() {
    let front = [0x1000_0001, 0x2000_0000, 0x3000_0005];
    let arcs = [0x3000_0006, 0x3000_0007, 0x4000_0000, 0x5000_0001, 0x4000_0000, 0x5000_0002];
    let sheet = [&front[..], &arcs, &[0x6000_0000, 0x7000_0801, 0x6000_0001, 0x7000_1800]].concat();
    assert_eq!(converted(&sheet), front);
    assert_eq!(converted(&front), front);
}

/// Two nodes and one arc beside a chain of so many inner regions with a self-arc at its end: the height falls to 1.
#[test]
fn a_chain_dropped() {
    for links in 1..15 {
        let spans: Vec<u32> = (0..=links).map(|at| 3 << 28 | (at + 1)).collect();
        let arcs = [0x4000_0401, 0x5000_0001, 0x4000_0001, 0x5000_0002];
        let inner: Vec<u32> = (0..links).map(|parent| 6 << 28 | parent).collect();
        let sheet = [&[0x1000_0002, 0x2000_0000][..], &spans, &arcs, &inner, &[7 << 28 | links << 11, 0x7000_0001]].concat();
        assert_eq!(converted(&sheet), [0x1000_0002, 0x2000_0000, 0x3000_0001, 0x4000_0001, 0x5000_0002, 0x7000_0000]);
    }
}

#[test]
fn short_buffers_and_refused_sheets() {
    let sheet = bytes(&with_belts(&[]));
    for call in [reference::convert, reference::convert_one_pass] {
        let mut out = [0xa5; 108];
        assert_eq!(call(&sheet, &mut out[..71]), Answer::Refused(31));
        assert_eq!(call(&sheet, &mut []), Answer::Refused(31));
        assert_eq!(call(&sheet[..107], &mut out), Answer::Refused(1));
        assert_eq!(call(&sheet[..104], &mut []), Answer::Refused(12));
        assert_eq!(out, [0xa5; 108]);
        assert_eq!(call(&sheet, &mut out[..72]), Answer::Written(72));
        assert_eq!(out[72..], [0xa5; 36]);
    }
}

/// 35 comes after 10 and before 11 to 14, which the converter finds.
#[test]
fn the_place_of_35() {
    let with = |at: usize, word: u32| {
        let mut words = with_belts(&[]);
        words[at] = word;
        words
    };
    let belts = with_belts(&[]);
    let cases = [
        (with(6, 5 << 28 | 262_144), 9, 9),
        (with(17, 6 << 28 | 1), 35, 11),
        (with(26, 0x7000_1002), 35, 12),
        ([&belts[..], &[6 << 28]].concat(), 35, 13),
        ([&belts[..4], &belts[5..]].concat(), 35, 14),
    ];
    for (words, by_judge, by_converter) in cases {
        assert_eq!(judged(&words), by_judge, "{words:08x?}");
        assert_eq!(reference::convert(&bytes(&words), &mut [0; 108]), Answer::Refused(by_converter));
    }
    let crowded = [&[0x1000_0001, 0x2000_0000, 0x3000_0001][..], &[0x4000_0000, 0x5000_0000].repeat(5)].concat();
    assert_eq!(judged(&crowded), 10);
    assert_eq!(reference::convert(&bytes(&crowded), &mut []), Answer::Refused(10));
}

/// What may be done wrong.
#[derive(Clone, Copy, Debug, PartialEq, Eq)]
enum Slip {
    None,
    ChildlessKept,
    ChildlessOnce,
    LeavesKept,
    OldArcs,
    OldParents,
    AllSpans,
    UpperSpans,
    HoldsDropped,
    SingleChildren,
}

const SLIPS: [Slip; 9] = [
    Slip::ChildlessKept,
    Slip::ChildlessOnce,
    Slip::LeavesKept,
    Slip::OldArcs,
    Slip::OldParents,
    Slip::AllSpans,
    Slip::UpperSpans,
    Slip::HoldsDropped,
    Slip::SingleChildren,
];

/// A converter that drops one region at a time, in any order, or one with a slip.
struct Dropping<'a> {
    sheet: &'a Sheet,
    slip: Slip,
    self_arcs: Vec<bool>,
    gone: Vec<bool>,
}

impl Dropping<'_> {
    fn words(sheet: &Sheet, slip: Slip, random: &mut Random) -> Vec<u32> {
        let self_arcs: Vec<bool> = sheet.arcs().map(Arc::is_self_arc).collect();
        let gone = vec![false; sheet.regions().len() + 1];
        let mut dropping = Dropping { sheet, slip, self_arcs, gone };
        dropping.drop_all(random);
        dropping.written()
    }

    fn word(&self, region: usize) -> u32 {
        self.sheet.regions()[region - 1]
    }

    fn left(&self) -> impl Iterator<Item = usize> + '_ {
        (1..self.gone.len()).filter(|region| !self.gone[*region])
    }

    fn children(&self, region: usize) -> usize {
        self.left().filter(|child| parent(self.word(*child)) == region).count()
    }

    /// The inner regions left without a child, and by one slip those with a single one.
    fn childless(&self) -> Vec<usize> {
        let most = (self.slip == Slip::SingleChildren) as usize;
        self.left().filter(|region| !is_leaf(self.word(*region)) && self.children(*region) <= most).collect()
    }

    fn drop_all(&mut self, random: &mut Random) {
        let leaves: Vec<usize> = self.left().filter(|region| is_leaf(self.word(*region)) && self.self_arcs[leaf_arc(self.word(*region))]).collect();
        leaves.iter().filter(|_| self.slip != Slip::LeavesKept).for_each(|leaf| self.gone[*leaf] = true);
        let mut childless = self.childless();
        match self.slip {
            Slip::ChildlessKept => childless.clear(),
            Slip::ChildlessOnce => childless.drain(..).for_each(|region| self.gone[region] = true),
            _ => {}
        }
        while !childless.is_empty() {
            self.gone[random.pick(&childless)] = true;
            childless = self.childless();
        }
    }

    /// The height by its definition.
    fn height(&self, region: usize) -> usize {
        let children = self.left().filter(|child| parent(self.word(*child)) == region);
        children.map(|child| if is_leaf(self.word(child)) { 1 } else { self.height(child) + 1 }).max().unwrap_or(1)
    }

    fn renumbered(&self, word: u32) -> u32 {
        let left = |dropped: &[bool], old: usize| dropped[..old].iter().filter(|dropped| !**dropped).count() as u32;
        let above = if self.slip == Slip::OldParents { parent(word) as u32 } else { left(&self.gone, parent(word)) };
        if !is_leaf(word) {
            return 6 << 28 | above;
        }
        let arc = if self.slip == Slip::OldArcs { leaf_arc(word) as u32 } else { left(&self.self_arcs, leaf_arc(word)) };
        7 << 28 | above << 11 | arc
    }

    fn written(&self) -> Vec<u32> {
        let (spans, height) = (self.sheet.spans(), self.height(0));
        let spans = match self.slip {
            Slip::AllSpans => spans,
            Slip::UpperSpans => &spans[spans.len() - height..],
            _ => &spans[..height],
        };
        let holds = if self.slip == Slip::HoldsDropped { &[] } else { self.sheet.holds() };
        let arcs = self.sheet.arc_words().chunks(2).zip(&self.self_arcs).filter(|(_, dropped)| !**dropped).flat_map(|(words, _)| words).copied();
        let regions = self.left().map(|region| self.renumbered(self.word(region)));
        [&self.sheet.before_regions()[..2], spans, holds, &arcs.collect::<Vec<_>>(), &regions.collect::<Vec<_>>()].concat()
    }
}

/// Whichever region is dropped first, the result is the same; and each slip changes it.
#[test]
fn one_region_at_a_time() {
    let (mut changed, mut others) = (0, [0; SLIPS.len()]);
    for case in 0..4000 {
        let mut random = Random::of_case(10, case);
        let words = sheets::with_self_arcs(&mut random);
        if words.len() > 150 {
            continue;
        }
        let sheet = convertible(&words);
        let right = converted(&words);
        changed += (right != words) as u32;
        assert_eq!(Dropping::words(&sheet, Slip::None, &mut random), right, "{words:08x?}");
        for (slip, others) in SLIPS.into_iter().zip(&mut others) {
            *others += (Dropping::words(&sheet, slip, &mut random) != right) as u32;
        }
    }
    println!("sheets changed: {changed}; others by slip: {:?}", SLIPS.iter().zip(others).collect::<Vec<_>>());
    assert!(changed > 2000 && others.iter().all(|count| *count > 200));
}

/// The converted sheet is accepted, has no self-arc and is its own conversion. A sheet without self-arcs is its own conversion.
#[test]
fn conversions_of_random_sheets() {
    let (mut lower, mut arcless) = (0, 0);
    for case in 0..3000 {
        let mut random = Random::of_case(11, case);
        let words = if case < 30 { sheets::full_with_self_arcs(&mut random) } else { sheets::with_self_arcs(&mut random) };
        let right = converted(&words);
        assert_eq!(judged(&right), 0);
        assert_eq!(converted(&right), right);
        assert_eq!(judged(&words) == 35, right != words);
        let (before, after) = (convertible(&words), convertible(&right));
        assert!(!after.arcs().any(Arc::is_self_arc));
        assert_eq!(distances(&after).labels, distances(&before).labels);
        lower += (after.spans().len() < before.spans().len()) as u32;
        arcless += (after.arc_count() == 0 && before.arc_count() > 0) as u32;
        let plain = sheets::any(&mut random);
        assert_eq!(converted(&plain), plain);
    }
    println!("lower {lower}, all arcs dropped {arcless}");
    assert!(lower > 300 && arcless > 100);
}

/// Labels of a run to its end by a judge that lets self-arcs in.
fn labels(words: &[u32]) -> Vec<u32> {
    let nodes = (words[0] & TOP) as usize;
    let mut table = vec![0; table::length(nodes)];
    assert_eq!(reference::run_of(accepted_by(CONVERTIBLE, &bytes(words)), Ties::ByHeight, None, &mut table), Answer::Ended);
    (0..nodes).map(|node| table[label_at(node)] & TOP).collect()
}

/// "The converted sheet's distances are those the old sheet had": small halls with holds or without. All routes of the old sheet, round its self-arcs too, are
/// measured by the sentence of request 2026-08; so are those of the converted one, and both are run.
#[test]
fn distances_are_those_of_the_old_sheet() {
    let mut changed = 0;
    for case in 0..2000 {
        let mut random = Random::of_case(12, case);
        let hall = halls::with_self_arcs(4, &mut random);
        let division = random.pick(&NESTINGS).of(hall.arcs.len(), &mut random);
        let words = sheets::words(&hall, &division, Spans::UpTo(3), &mut random);
        let right = converted(&words);
        let expected = travel::least(&convertible(&words), hall.nodes + 1);
        assert_eq!(travel::least(&convertible(&right), hall.nodes + 1), expected, "{words:08x?}");
        assert_eq!(labels(&words), expected);
        assert_eq!(labels(&right), expected);
        changed += (right != words) as u32;
    }
    println!("halls converted: {changed}");
    assert!(changed > 1000);
}
