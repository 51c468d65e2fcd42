//! Request 2026-05: which kind may follow which, as a list with one case per kind, in the order of the sheet's description. `Sheet::in_order` says the same
//! by sections; neither uses the other. Since request 2026-08 refusal 2 also looks at the number of holds, which is no matter of neighbours.

use super::sheet::{kind, payload};

/// How many kinds there are. Those without a case are in no sheet that is in order.
pub const KINDS: usize = 16;

/// How many values of `Place` there are.
pub const PLACES: usize = KINDS * (KINDS + 2);

/// The kinds that may come right after a kind.
pub fn following(kind: usize) -> &'static [usize] {
    match kind {
        1 => &[2],
        2 => &[3, 13, 4, 6, 7],
        3 => &[3, 13, 4, 6, 7],
        13 => &[13, 4, 6, 7],
        4 => &[5],
        5 => &[4, 6, 7],
        6 => &[6, 7],
        7 => &[6, 7],
        _ => &[],
    }
}

pub fn may_be_first(kind: usize) -> bool {
    kind == 1
}

pub fn may_be_last(kind: usize) -> bool {
    matches!(kind, 2 | 3 | 13 | 5 | 6 | 7)
}

/// What the list is asked of in a sheet: its first kind, two neighbouring kinds, its last kind.
#[derive(Clone, Copy, Debug, PartialEq, Eq)]
pub enum Place {
    First(usize),
    Pair(usize, usize),
    Last(usize),
}

impl Place {
    pub fn is_allowed(self) -> bool {
        match self {
            Place::First(kind) => may_be_first(kind),
            Place::Pair(kind, next) => following(kind).contains(&next),
            Place::Last(kind) => may_be_last(kind),
        }
    }

    /// Every kind of it has a case in the list.
    pub fn has_cases(self) -> bool {
        let has_case = |kind| !following(kind).is_empty();
        match self {
            Place::First(kind) | Place::Last(kind) => has_case(kind),
            Place::Pair(kind, next) => has_case(kind) && has_case(next),
        }
    }

    /// Its number among all, from 0.
    pub fn number(self) -> usize {
        match self {
            Place::First(kind) => kind,
            Place::Pair(kind, next) => KINDS * (kind + 1) + next,
            Place::Last(kind) => KINDS * (KINDS + 1) + kind,
        }
    }

    /// All, by their numbers.
    pub fn all() -> impl Iterator<Item = Place> {
        let pairs = (0..KINDS).flat_map(|kind| (0..KINDS).map(move |next| Place::Pair(kind, next)));
        (0..KINDS).map(Place::First).chain(pairs).chain((0..KINDS).map(Place::Last))
    }
}

/// The places of a sheet, from its front to its end; none where it has no words.
pub fn places(words: &[u32]) -> impl Iterator<Item = Place> + '_ {
    let kind = |word: &u32| kind(*word) as usize;
    let pairs = words.windows(2).map(move |pair| Place::Pair(kind(&pair[0]), kind(&pair[1])));
    words.first().map(kind).map(Place::First).into_iter().chain(pairs).chain(words.last().map(kind).map(Place::Last))
}

/// Of all words of a sheet as many are of kind 13 as its first word says, or none.
pub fn holds_fit(words: &[u32]) -> bool {
    let holds = words.iter().filter(|word| kind(**word) == 13).count();
    holds == 0 || words.first().is_some_and(|first| payload(*first) as usize == holds)
}

/// The sheet has words, and all its places are allowed.
pub fn in_order(words: &[u32]) -> bool {
    !words.is_empty() && places(words).all(Place::is_allowed)
}
