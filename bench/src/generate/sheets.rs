//! Sheets: a hall, a division and spans as words, accepted ones and noise.

use super::changes;
use super::divisions::{Division, Nesting, NESTINGS};
use super::halls::{self, Hall, Holds, Shape};
use super::random::Random;

#[derive(Clone, Copy, Debug, PartialEq, Eq)]
pub enum Spans {
    One,
    Random,
    Million,
    UpTo(usize),
}

pub const SPANS: [Spans; 3] = [Spans::One, Spans::Random, Spans::Million];

impl Spans {
    pub fn span(self, random: &mut Random) -> u32 {
        match self {
            Spans::One => 1,
            Spans::Random => {
                let most = 1 << random.below(20);
                1 + random.below(most) as u32
            }
            Spans::Million => 1_000_000,
            Spans::UpTo(most) => 1 + random.below(most) as u32,
        }
    }
}

pub fn words(hall: &Hall, division: &Division, spans: Spans, random: &mut Random) -> Vec<u32> {
    let mut words = vec![1 << 28 | hall.nodes as u32, 2 << 28 | hall.source as u32];
    words.extend((0..division.height()).map(|_| 3 << 28 | spans.span(random)));
    words.extend(hall.holds.iter().map(|hold| 13 << 28 | hold));
    for (tail, head, length) in &hall.arcs {
        words.extend([4 << 28 | (*tail as u32) << 10 | *head as u32, 5 << 28 | length]);
    }
    words.extend(division.words());
    words
}

pub fn bytes(words: &[u32]) -> Vec<u8> {
    words.iter().flat_map(|word| word.to_be_bytes()).collect()
}

/// An accepted sheet of any shape; most are small, a few of full size.
pub fn any(random: &mut Random) -> Vec<u32> {
    let most_nodes = most_nodes(random);
    nested(&halls::any(most_nodes, random), random)
}

fn most_nodes(random: &mut Random) -> usize {
    match random.below(2000) {
        0 => halls::MOST_NODES,
        1..=20 => 200,
        21..=400 => 40,
        _ => 12,
    }
}

fn nested(hall: &Hall, random: &mut Random) -> Vec<u32> {
    let nesting = random.pick(&NESTINGS);
    let division = nesting.of(hall.arcs.len(), random);
    words(hall, &division, random.pick(&SPANS), random)
}

/// A convertible sheet of any shape: self-arcs are added to a hall, or arcs of an accepted sheet are led back to their tails. A few have no self-arc.
pub fn with_self_arcs(random: &mut Random) -> Vec<u32> {
    if random.once_in(2) {
        return changes::with_self_arcs(any(random), random);
    }
    let any = most_nodes(random);
    let most_nodes = random.pick(&[1, 4, any, any]);
    nested(&halls::with_self_arcs(most_nodes, random), random)
}

/// An accepted sheet, small and flat, with a span from 1 to a little above the number of arcs.
pub fn flat(random: &mut Random) -> Vec<u32> {
    let hall = halls::any(12, random);
    let division = Nesting::Flat.of(hall.arcs.len(), random);
    words(&hall, &division, Spans::UpTo(hall.arcs.len() + 2), random)
}

/// A sheet of the benchmark: a hall, a division and spans of these kinds.
pub fn regular(shape: Shape, nesting: Nesting, spans: Spans, nodes: usize) -> Vec<u8> {
    regular_with(Holds::None, shape, nesting, spans, nodes)
}

/// The same sheet with holds of this kind.
pub fn regular_with(holds: Holds, shape: Shape, nesting: Nesting, spans: Spans, nodes: usize) -> Vec<u8> {
    let mut random = Random::new(9);
    let mut hall = halls::regular(shape, nodes, &mut random);
    hall.set_holds(holds, &mut Random::new(13));
    let division = nesting.full(hall.arcs.len(), &mut random);
    bytes(&words(&hall, &division, spans, &mut random))
}

/// The same sheet with each fourth arc led back to its tail.
pub fn regular_with_self_arcs(holds: Holds, shape: Shape, nesting: Nesting, spans: Spans, nodes: usize) -> Vec<u8> {
    let mut words = crate::reference::sheet::words(&regular_with(holds, shape, nesting, spans, nodes));
    changes::lead_back(&mut words, |arc| arc % 4 == 0);
    bytes(&words)
}

/// An accepted sheet of full size: up to 2,048 arcs, between 1,024 nodes or so few that each has as many as the shape gives it. One in three has holds.
pub fn full(random: &mut Random) -> Vec<u32> {
    let shape = halls::any_shape(random);
    let nodes = random.pick(&[shape.full_nodes(), halls::MOST_NODES]);
    let mut hall = halls::regular(shape, nodes, random);
    if random.once_in(3) {
        hall.set_holds(Holds::any(random), random);
    }
    let division = random.pick(&NESTINGS).full(hall.arcs.len(), random);
    words(&hall, &division, random.pick(&SPANS), random)
}

/// An accepted sheet with as many words as there can be: 15 spans, 1,024 holds, 2,048 arcs and 4,094 regions.
pub fn largest(random: &mut Random) -> Vec<u32> {
    let shape = random.pick(&[Shape::Grid, Shape::Rings, Shape::Random, Shape::WideGrid, Shape::WideRandom]);
    let mut hall = halls::regular(shape, halls::MOST_NODES, random);
    hall.set_holds(Holds::any(random), random);
    words(&hall, &Division::largest(random), random.pick(&SPANS), random)
}

/// A convertible sheet of full size, or with as many words as there can be, whose arcs are led back.
pub fn full_with_self_arcs(random: &mut Random) -> Vec<u32> {
    let words = if random.once_in(2) { full(random) } else { largest(random) };
    changes::with_self_arcs(words, random)
}

/// An accepted sheet of the most words, or every second time with one region more.
pub fn largest_or_above(random: &mut Random) -> Vec<u32> {
    let mut words = largest(random);
    if random.once_in(2) {
        words.push(7 << 28);
    }
    words
}

/// Numbers of bytes about the limit of today and that of before request 2026-08.
pub const LENGTHS: [usize; 8] = [32_824, 32_828, 32_829, 32_832, 36_920, 36_924, 36_925, 36_928];

/// Bytes without a form, words of any kind, or words whose kinds are in order and whose payloads are small or anything.
pub fn noise(random: &mut Random) -> Vec<u8> {
    match random.below(8) {
        0 => (0..random.below(80)).map(|_| random.word() as u8).collect(),
        1 => bytes(&(0..random.below(20)).map(|_| random.word()).collect::<Vec<u32>>()),
        2 => (0..random.pick(&LENGTHS)).map(|_| random.word() as u8).collect(),
        _ => bytes(&ordered_noise(random)),
    }
}

fn ordered_noise(random: &mut Random) -> Vec<u32> {
    let mut kinds = vec![1, 2];
    kinds.extend(vec![3; random.below(4)]);
    kinds.extend(vec![13; random.pick(&[0, 0, 1, 2, 3])]);
    kinds.extend([4, 5].repeat(random.below(4)));
    kinds.extend((0..random.below(8)).map(|_| 6 + random.below(2)));
    with_payloads(&kinds, random)
}

/// Words of these kinds, with payloads that are small or anything. Where there are holds and kind 1 comes first, there are mostly as many nodes.
pub fn with_payloads(kinds: &[usize], random: &mut Random) -> Vec<u32> {
    let whole = random.once_in(4);
    let small = 1 + random.below(16);
    let mut payload = |kind| if whole { random.word() >> 4 } else { noise_payload(kind, small, random) };
    let mut words: Vec<u32> = kinds.iter().map(|kind| (*kind as u32) << 28 | payload(*kind)).collect();
    let holds = kinds.iter().filter(|kind| **kind == 13).count();
    if holds > 0 && kinds[0] == 1 && !random.once_in(4) {
        words[0] = 1 << 28 | holds as u32;
    }
    words
}

fn noise_payload(kind: usize, small: usize, random: &mut Random) -> u32 {
    let (first, second) = (random.below(small) as u32, random.below(small) as u32);
    match kind {
        4 => first << 10 | second,
        7 => first << 11 | second,
        _ => first,
    }
}
