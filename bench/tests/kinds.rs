//! Request 2026-05: the list of which kind may follow which against the sections of a sheet.

use bench::generate::{kinds, random::Random, sheets::bytes};
use bench::reference::judge::accepted;
use bench::reference::neighbours::{holds_fit, in_order, places, Place, PLACES};
use bench::reference::sheet::Sheet;

/// All sheets of so many words of these kinds, with payloads 0.
fn all(kinds: &[u32], length: usize) -> Vec<Vec<u32>> {
    (0..length).fold(vec![vec![]], |shorter, _| {
        let longer = |words: &Vec<u32>, kind: u32| [words.as_slice(), &[kind << 28]].concat();
        shorter.iter().flat_map(|words| kinds.iter().map(move |kind| longer(words, *kind))).collect()
    })
}

fn hold(sheets: Vec<Vec<u32>>) {
    for words in sheets {
        assert_eq!(in_order(&words), Sheet::in_order(words.clone()).is_some(), "{words:08x?}");
    }
}

#[test]
fn sheets_of_all_kinds() {
    let kinds: Vec<u32> = (0..16).collect();
    (0..=4).for_each(|length| hold(all(&kinds, length)));
}

#[test]
fn sheets_of_kinds_with_a_case() {
    let kinds: Vec<u32> = (1..=7).chain([13]).collect();
    (5..=6).for_each(|length| hold(all(&kinds, length)));
}

#[test]
fn so_many_places_are_allowed() {
    let allowed: Vec<Place> = Place::all().filter(|place| place.is_allowed()).collect();
    let pairs = allowed.iter().filter(|place| matches!(place, Place::Pair(..))).count();
    let first = allowed.iter().filter(|place| matches!(place, Place::First(_))).count();
    assert_eq!((pairs, first, allowed.len()), (23, 1, 30));
    assert!(Place::all().map(Place::number).eq(0..PLACES));
    assert!(allowed.iter().all(|place| place.has_cases()));
}

/// Request 2026-08: kinds in order, and so many holds with a node count of so many. Refusal 2 has both parts, whatever 4 says of the count.
#[test]
fn holds_are_as_many_as_nodes_or_none() {
    for (nodes, holds) in (0..5).flat_map(|nodes| (0..5).map(move |holds| (nodes, holds))).chain([(1025, 1024), (1025, 1025), (1024, 1025)]) {
        let words = [&[1 << 28 | nodes, 2 << 28, 3 << 28 | 1][..], &vec![13 << 28; holds as usize]].concat();
        assert!(in_order(&words));
        assert_eq!(holds_fit(&words), holds == 0 || holds == nodes);
        let expected = match nodes {
            _ if !holds_fit(&words) => 2,
            0 | 1025.. => 4,
            _ => 0,
        };
        assert_eq!(accepted(&bytes(&words)).err().unwrap_or(0), expected, "{holds} of {nodes}");
    }
}

/// Where all kinds of a generated sheet have a case, one of its places at most is not allowed.
#[test]
fn generated_sheets_have_one_slip_at_most() {
    let mut slips = [0; 2];
    for case in 0..3000 {
        let words = kinds::words(&mut Random::of_case(6, case));
        assert_eq!(in_order(&words), Sheet::in_order(words.clone()).is_some());
        if places(&words).all(Place::has_cases) {
            slips[places(&words).filter(|place| !place.is_allowed()).count()] += 1;
        }
    }
    assert!(slips.iter().all(|sheets| *sheets > 300), "{slips:?}");
}
