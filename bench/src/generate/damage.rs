//! Damage to sheets: words changed, dropped, added and swapped, bits flipped, and one kind of damage for each refusal.

use super::changes;
use super::random::Random;
use super::sheets::LENGTHS;

/// The kinds in the order of a sheet.
const ORDER: [u32; 8] = [1, 2, 3, 13, 4, 5, 6, 7];

/// The bytes of a sheet damaged in one to three places.
pub fn damaged(mut words: Vec<u32>, random: &mut Random) -> Vec<u8> {
    for _ in 0..random.pick(&[1, 1, 1, 2, 3]) {
        match random.below(11) {
            0 => some_led_back(&mut words, random),
            1..=2 => crowded(&mut words, random),
            3..=6 => anywhere(&mut words, random),
            _ => in_a_section(&mut words, random),
        }
    }
    let mut bytes = super::sheets::bytes(&words);
    if random.once_in(30) {
        let kept = bytes.len() - random.below(bytes.len().min(4));
        bytes.truncate(kept);
    }
    if random.once_in(60) {
        bytes.resize(bytes.len() + 1 + random.below(4), random.word() as u8);
    }
    if random.once_in(1000) {
        bytes.resize(random.pick(&LENGTHS), random.word() as u8);
    }
    bytes
}

fn anywhere(words: &mut Vec<u32>, random: &mut Random) {
    if words.is_empty() {
        return words.push(random.word());
    }
    let at = random.below(words.len());
    let other = random.below(words.len());
    match random.below(8) {
        0 => words[at] = random.word(),
        1 => words[at] = words[other],
        2 => words[at] ^= 1 << random.below(32),
        3 => words[at] = words[at].wrapping_add(random.pick(&[1, 2, u32::MAX])),
        4 => words.swap(at, other),
        5 => drop(words.remove(at)),
        6 => words.insert(at, words[other]),
        _ => words.truncate(at),
    }
}

/// The places of the words of a kind.
fn places(words: &[u32], kind: u32) -> Vec<usize> {
    (0..words.len()).filter(|at| words[*at] >> 28 == kind).collect()
}

/// The place of the first word that comes after those of a kind.
fn first_after(words: &[u32], kind: u32) -> usize {
    let rank = |kind: u32| ORDER.iter().position(|other| *other == kind).unwrap_or(ORDER.len());
    words.iter().position(|word| rank(word >> 28) > rank(kind)).unwrap_or(words.len())
}

fn in_a_section(words: &mut Vec<u32>, random: &mut Random) {
    let kind = random.pick(&[1, 2, 3, 13, 4, 5, 6, 7, 8]);
    let places = places(words, kind);
    if kind == 8 || places.is_empty() {
        return lengthened(words, random);
    }
    if kind == 13 && random.once_in(4) {
        longest_allowed(words, random);
    }
    let at = random.pick(&places);
    let payload = match kind {
        1 => random.pick(&[0, 1, 2, 1023, 1024, 1025, (1 << 28) - 1]),
        2 => random.pick(&[0, 1, 1023, 1024, words[0] & 0xfff, (1 << 28) - 1]),
        3 => random.pick(&[0, 1, 1_000_000, 1_000_001, (1 << 28) - 1]),
        4 => ends_payload(words[at], random),
        5 => random.pick(&[0, 262_143, 262_144, (1 << 28) - 1]),
        6 => parent_payload(places.len(), random),
        13 => hold_payload(words, at - places[0], random),
        _ => leaf_payload(words[at], random),
    };
    words[at] = kind << 28 | payload;
}

/// Three, four or five arcs from one node, to one node, or both: as many arcs as that takes are led there. Five are refused as 10.
fn crowded(words: &mut [u32], random: &mut Random) {
    let mut places = places(words, 4);
    if places.is_empty() {
        return;
    }
    let ends = random.pick(&[0xffc00, 0x3ff, 0xfffff]);
    let wanted = words[random.pick(&places)] & ends;
    let there = places.iter().filter(|at| words[**at] & ends == wanted).count();
    let more = random.pick(&[3, 4, 5usize]).saturating_sub(there);
    places.retain(|at| words[*at] & ends != wanted);
    random.shuffle(&mut places);
    for at in places.into_iter().take(more) {
        words[at] = words[at] & !ends | wanted;
    }
}

/// One to three arcs, where there are some, led back to their tails. They are refused as 35.
fn some_led_back(words: &mut [u32], random: &mut Random) {
    let arcs = places(words, 4).len();
    let (first, more) = (random.below(arcs.max(1)), random.below(3));
    changes::lead_back(words, |arc| (first..=first + more).contains(&arc));
}

/// An arc, where there is one, of the greatest length that is allowed, or one above it.
fn longest_allowed(words: &mut [u32], random: &mut Random) {
    let places = places(words, 5);
    if !places.is_empty() {
        words[random.pick(&places)] = 5 << 28 | random.pick(&[262_143, 262_144]);
    }
}

/// A hold at the highest that refusal 34 lets a node have, unless it is the source, next to it, or anything.
fn hold_payload(words: &[u32], node: usize, random: &mut Random) -> u32 {
    let leaving = words.windows(2).filter(|pair| pair[0] >> 28 == 4 && (pair[0] >> 10 & 1023) as usize == node);
    let longest = leaving.map(|pair| pair[1] & 0xfff_ffff).max().unwrap_or(0);
    let most = 262_143u32.saturating_sub(longest);
    let any = random.word() >> 4;
    random.pick(&[0, most.saturating_sub(1), most, most + 1, 262_143, 262_144, (1 << 28) - 1, any])
}

fn ends_payload(ends: u32, random: &mut Random) -> u32 {
    let flipped = ends ^ 1 << random.below(28);
    let any = random.word() & 0xf_ffff;
    let low = random.word() & 0x1c07;
    random.pick(&[0, flipped, any, low]) & 0xfff_ffff
}

fn parent_payload(inner: usize, random: &mut Random) -> u32 {
    let low = random.below(8) as u32;
    random.pick(&[0, low, low, inner as u32, inner as u32 + 1, (1 << 28) - 1])
}

fn leaf_payload(leaf: u32, random: &mut Random) -> u32 {
    let flipped = leaf ^ 1 << random.below(28);
    let parent = leaf & 0x7ff | (random.below(12) as u32) << 11;
    let arc = leaf & !0x7ff | random.below(16) as u32;
    random.pick(&[flipped, parent, arc]) & 0xfff_ffff
}

/// More words in a section than are right, past its limit at times.
fn lengthened(words: &mut Vec<u32>, random: &mut Random) {
    match random.below(15) {
        0..=2 => words.resize(words.len() + 1, 6 << 28 | random.below(4) as u32),
        3..=5 => {
            let at = first_after(words, 3);
            let more = random.pick(&[1, 1, 2, 12, 13, 14, 15, 16, 40]);
            words.splice(at..at, vec![3 << 28 | 1; more]);
        }
        6..=8 => {
            let at = first_after(words, 5);
            words.splice(at..at, [4 << 28 | random.below(4) as u32, 5 << 28]);
        }
        9..=11 => other_holds(words, random),
        12..=13 => drop(words.pop()),
        _ if random.once_in(20) => past_a_limit(words, random),
        _ => words.truncate(first_after(words, 5)),
    }
}

/// Another number of holds than there are: one less, none, some more, as many more as there are nodes or nearly so; or one in any place.
fn other_holds(words: &mut Vec<u32>, random: &mut Random) {
    let at = first_after(words, 13);
    let nodes = words.first().map_or(0, |word| word & 0xfff_ffff).min(1024) as usize;
    let hold = 13 << 28 | random.below(4) as u32;
    match random.below(6) {
        0 if at > 0 => drop(words.remove(at - 1)),
        1 => words.retain(|word| word >> 28 != 13),
        2 => words.insert(random.below(words.len() + 1), hold),
        _ => {
            let more = random.pick(&[1, 2, nodes.saturating_sub(1), nodes, nodes + 1]);
            words.splice(at..at, vec![hold; more]);
        }
    }
}

/// So many arcs, regions or nodes with holds that their number is at its limit, or one above it.
fn past_a_limit(words: &mut Vec<u32>, random: &mut Random) {
    if random.once_in(4) {
        return past_the_nodes(words, 1024 + random.below(2));
    }
    let (first, second, most) = random.pick(&[(4, 5, 2048), (6, 6, 4094), (7, 7, 4094)]);
    let there = words.iter().filter(|word| **word >> 28 == first).count();
    let more = (most + random.below(2)).saturating_sub(there);
    let at = first_after(words, second);
    let added = if first == 4 { [4 << 28, 5 << 28].repeat(more) } else { vec![first << 28; more] };
    words.splice(at..at, added);
}

/// So many nodes, with a hold each.
fn past_the_nodes(words: &mut Vec<u32>, nodes: usize) {
    words.retain(|word| word >> 28 != 13);
    let at = first_after(words, 3);
    words.splice(at..at, vec![13 << 28; nodes]);
    words[0] = 1 << 28 | nodes as u32;
}
