//! Sheets whose kinds go along the order, with one slip at most: a kind that may not follow the one before it, or may not come first or last.

use super::random::Random;
use super::sheets;
use crate::reference::neighbours::{following, may_be_last, KINDS};

/// The words of such a sheet, with payloads that are small or anything: kinds that lead up to one kind, and kinds that lead on from another. Where the two
/// fit, the sheet is in order.
pub fn words(random: &mut Random) -> Vec<u32> {
    let (before, after) = (any(random), any(random));
    let kinds = match random.below(8) {
        0 => end(after, random),
        1 => front(before, random),
        _ => [front(before, random), end(after, random)].concat(),
    };
    sheets::with_payloads(&kinds, random)
}

/// A kind that has a case, and at times any.
fn any(random: &mut Random) -> usize {
    if random.once_in(6) {
        random.below(KINDS)
    } else {
        random.pick(&[1, 2, 3, 13, 4, 5, 6, 7])
    }
}

/// Kinds in order up to this one, found from the last back. A kind without a case is alone.
fn front(last: usize, random: &mut Random) -> Vec<usize> {
    let mut kinds = vec![last];
    let mut before = preceding(last);
    while !before.is_empty() {
        let kind = random.pick(&before);
        kinds.push(kind);
        before = preceding(kind);
    }
    kinds.reverse();
    kinds
}

fn preceding(kind: usize) -> Vec<usize> {
    (0..KINDS).filter(|before| following(*before).contains(&kind)).collect()
}

/// Kinds in order from this one to one that may come last. A kind without a case is alone.
fn end(first: usize, random: &mut Random) -> Vec<usize> {
    let mut kinds = vec![first];
    let mut kind = first;
    while !(following(kind).is_empty() || may_be_last(kind) && random.once_in(3)) {
        kind = random.pick(following(kind));
        kinds.push(kind);
    }
    kinds
}
