//! Request 2026-04: the canonical form of small sheets, the linear program against the request's sentence, and what tells nestings apart.

use bench::generate::changes::{changed, renumbered, CHANGES};
use bench::generate::random::Random;
use bench::generate::sheets::{self, bytes};
use bench::reference::judge::accepted;
use bench::reference::nesting::alike;
use bench::reference::sheet::{self, Sheet};
use bench::reference::{self, Answer};

/// Hall A without its regions.
const FRONT: [u32; 4] = [0x1000_0004, 0x2000_0000, 0x3000_0002, 0x3000_0001];
const ARCS: [u32; 8] = [0x4000_0001, 0x5000_0004, 0x4000_0002, 0x5000_0001, 0x4000_0801, 0x5000_0002, 0x4000_0403, 0x5000_0005];
const NESTED: [u32; 6] = [0x6000_0000, 0x6000_0000, 0x7000_0800, 0x7000_0803, 0x7000_1001, 0x7000_1002];
/// The same nesting, written anew.
const NEAT: [u32; 6] = [0x6000_0000, 0x7000_0800, 0x7000_0803, 0x6000_0000, 0x7000_2001, 0x7000_2002];

fn hall_a(regions: &[u32]) -> Vec<u32> {
    [&FRONT[..], &ARCS, regions].concat()
}

/// The canonical form that both programs write.
fn form(words: &[u32]) -> Vec<u32> {
    let sheet = bytes(words);
    let mut outs = [vec![0xa5; sheet.len() + 3], vec![0xa5; sheet.len() + 3]];
    assert_eq!(reference::canonical(&sheet, &mut outs[0]), Answer::Written(sheet.len() as u32));
    assert_eq!(reference::canonical_linear(&sheet, &mut outs[1]), Answer::Written(sheet.len() as u32));
    assert_eq!(outs[0], outs[1]);
    assert_eq!(outs[0][sheet.len()..], [0xa5; 3]);
    sheet::words(&outs[0][..sheet.len()])
}

fn sheet_of(words: &[u32]) -> Sheet {
    accepted(&bytes(words)).map(|accepted| accepted.sheet).unwrap_or_else(|number| panic!("refused {number}"))
}

#[test]
fn hall_a_and_hall_a_renumbered() {
    let others = [
        NEAT,
        [0x6000_0000, 0x6000_0000, 0x7000_1000, 0x7000_1003, 0x7000_0801, 0x7000_0802],
        [0x6000_0000, 0x7000_0802, 0x6000_0000, 0x7000_1803, 0x7000_0801, 0x7000_1800],
    ];
    assert_eq!(form(&hall_a(&NESTED)), hall_a(&NEAT));
    for other in others {
        assert_eq!(form(&hall_a(&other)), hall_a(&NEAT));
        assert!(alike(&sheet_of(&hall_a(&NESTED)), &sheet_of(&hall_a(&other))));
    }
}

/// A child's place is by the lowest arc that it holds at any depth: region 2 has the leaf of arc 3, and a region with the leaf of arc 0.
#[test]
fn lowest_arc_at_any_depth() {
    let regions = [0x7000_0001, 0x6000_0000, 0x7000_1003, 0x7000_0002, 0x6000_0002, 0x7000_2800];
    let neat = [0x6000_0000, 0x6000_0001, 0x7000_1000, 0x7000_0803, 0x7000_0001, 0x7000_0002];
    let spans = [0x3000_0001, 0x3000_0002, 0x3000_0003];
    let sheet = |regions: &[u32]| [&FRONT[..2], &spans, &ARCS, regions].concat();
    assert_eq!(form(&sheet(&regions)), sheet(&neat));
}

/// Two nodes, one arc and a chain of so many inner regions below region 0.
fn chain(links: u32) -> Vec<u32> {
    let spans = vec![0x3000_0001; links as usize + 1];
    let inner: Vec<u32> = (0..links).map(|parent| 6 << 28 | parent).collect();
    [&[0x1000_0002, 0x2000_0000][..], &spans, &[0x4000_0001, 0x5000_0001], &inner, &[7 << 28 | links << 11]].concat()
}

#[test]
fn a_chain_of_single_children() {
    for links in 0..15 {
        assert_eq!(form(&chain(links)), chain(links));
    }
}

/// Arc 0 at the end of a chain and arc 1 on region 0, or the other way round, or each at the end of a chain: as many inner regions, other nestings.
#[test]
fn links_of_chains_are_counted() {
    let two = |regions: &[u32]| {
        let front = [0x1000_0002, 0x2000_0000, 0x3000_0001, 0x3000_0001, 0x3000_0001, 0x4000_0001, 0x5000_0001, 0x4000_0001, 0x5000_0001];
        [&front[..], regions].concat()
    };
    let nestings = [
        two(&[0x6000_0000, 0x6000_0001, 0x7000_1000, 0x7000_0001]),
        two(&[0x6000_0000, 0x6000_0001, 0x7000_1001, 0x7000_0000]),
        two(&[0x6000_0000, 0x6000_0001, 0x7000_1000, 0x7000_0801]),
        two(&[0x6000_0000, 0x6000_0001, 0x7000_1000, 0x7000_1001]),
    ];
    for (at, one) in nestings.iter().enumerate() {
        for (other_at, other) in nestings.iter().enumerate() {
            assert_eq!(alike(&sheet_of(one), &sheet_of(other)), at == other_at);
            assert_eq!(form(one) == form(other), at == other_at);
        }
    }
}

#[test]
fn a_sheet_without_arcs() {
    let sheet = [0x1000_0001, 0x2000_0000, 0x3000_0001];
    assert_eq!(form(&sheet), sheet);
    assert!(alike(&sheet_of(&sheet), &sheet_of(&sheet)));
    assert!(!alike(&sheet_of(&sheet), &sheet_of(&[0x1000_0001, 0x2000_0000, 0x3000_0002])));
}

#[test]
fn short_buffers_and_refused_sheets() {
    let sheet = bytes(&hall_a(&NESTED));
    for call in [reference::canonical, reference::canonical_linear] {
        let mut out = [0xa5; 73];
        assert_eq!(call(&sheet, &mut out[..71]), Answer::Refused(31));
        assert_eq!(call(&sheet, &mut []), Answer::Refused(31));
        assert_eq!(call(&sheet[..71], &mut out), Answer::Refused(1));
        assert_eq!(call(&sheet[..68], &mut []), Answer::Refused(12));
        assert_eq!(out, [0xa5; 73]);
        assert_eq!(call(&sheet, &mut out[..72]), Answer::Written(72));
    }
}

/// The form is accepted, is its own form and is alike to the sheet; so is the sheet with other numbers, and its form is the same.
#[test]
fn forms_of_random_sheets() {
    for case in 0..3000 {
        let mut random = Random::of_case(4, case);
        let words = if case < 30 { sheets::full(&mut random) } else { sheets::any(&mut random) };
        let sheet = sheet_of(&words);
        let neat = form(&words);
        assert_eq!(form(&neat), neat);
        assert!(alike(&sheet, &sheet_of(&neat)));
        let other = renumbered(&sheet, &mut random);
        assert_eq!(form(&other), neat);
        assert!(alike(&sheet, &sheet_of(&other)));
    }
}

/// A changed sheet that is accepted has the same form exactly when it is alike, and is not alike where the change leaves no sheet as it was.
#[test]
fn changed_sheets() {
    for case in 0..6000 {
        let mut random = Random::of_case(5, case);
        let words = if case < 20 { sheets::full(&mut random) } else { sheets::any(&mut random) };
        let sheet = sheet_of(&words);
        let change = random.pick(&CHANGES);
        let other = changed(change, &sheet, &mut random).filter(|other| accepted(&bytes(other)).is_ok());
        if let Some(other) = other {
            let same = alike(&sheet, &sheet_of(&other));
            assert_eq!(form(&words) == form(&other), same, "{change:?}");
            assert!(!same || change.may_leave(), "{change:?}");
        }
    }
}
