//! Halls: nodes, source, arcs and holds, with at most four arcs from and to each node.

use super::random::Random;
use crate::reference::judge::{MOST_EACH_WAY, MOST_LENGTH};
use crate::reference::TOP;

pub const MOST_NODES: usize = 1024;
pub const MOST_ARCS: usize = 2048;

pub struct Hall {
    pub nodes: usize,
    pub source: usize,
    /// Tail, head and length.
    pub arcs: Vec<(usize, usize, u32)>,
    /// One for each node, or none.
    pub holds: Vec<u32>,
}

/// The holds of a hall: none, or one for each node, as high at most as refusal 34 lets it be.
#[derive(Clone, Copy, Debug, PartialEq, Eq)]
pub enum Holds {
    None,
    Zero,
    Below(usize),
    Any,
    Most,
    Mixed,
}

/// What a single node's hold is drawn from.
const AT_A_NODE: [Holds; 5] = [Holds::Zero, Holds::Below(4), Holds::Below(1000), Holds::Any, Holds::Most];

impl Holds {
    /// A hold for a node that may have this one at most.
    fn hold(self, most: u32, random: &mut Random) -> u32 {
        match self {
            Holds::None | Holds::Zero => 0,
            Holds::Below(limit) => most.min(random.below(limit) as u32),
            Holds::Any => random.below(most as usize + 1) as u32,
            Holds::Most => most,
            Holds::Mixed => random.pick(&AT_A_NODE).hold(most, random),
        }
    }

    /// Mixed or of one sort.
    pub fn any(random: &mut Random) -> Holds {
        if random.once_in(3) {
            Holds::Mixed
        } else {
            random.pick(&AT_A_NODE)
        }
    }
}

impl Hall {
    pub fn set_holds(&mut self, holds: Holds, random: &mut Random) {
        self.holds = match holds {
            Holds::None => vec![],
            _ => self.most_holds().into_iter().map(|most| holds.hold(most, random)).collect(),
        };
    }

    /// The highest hold that 34 lets each node have: any at the source and at a node without outgoing arcs.
    fn most_holds(&self) -> Vec<u32> {
        let mut most = vec![TOP; self.nodes];
        for (tail, _, length) in &self.arcs {
            most[*tail] = most[*tail].min(MOST_LENGTH - length);
        }
        most[self.source] = TOP;
        most
    }

    /// Adds self-arcs, so many at most, at nodes that may have one arc more each way, anywhere in the order of the arcs.
    fn add_self_arcs(&mut self, most: usize, random: &mut Random) {
        for _ in 0..most {
            let node = random.below(self.nodes);
            let out = self.arcs.iter().filter(|arc| arc.0 == node).count();
            let into = self.arcs.iter().filter(|arc| arc.1 == node).count();
            if out.max(into) < MOST_EACH_WAY && self.arcs.len() < MOST_ARCS {
                self.arcs.insert(random.below(self.arcs.len() + 1), (node, node, 0));
            }
        }
    }

    /// Lengths below one of some limits, or all the greatest; some of them 0 at times.
    fn set_lengths(&mut self, random: &mut Random) {
        let limit = random.pick(&[1, 2, 4, 16, 1000, 262_144]);
        let zeros = random.once_in(3);
        for arc in &mut self.arcs {
            arc.2 = if zeros && random.once_in(3) { 0 } else { random.below(limit) as u32 };
        }
        if random.once_in(20) {
            self.arcs.iter_mut().for_each(|arc| arc.2 = MOST_LENGTH);
        }
    }
}

#[derive(Clone, Copy, Debug, PartialEq, Eq)]
pub enum Shape {
    Grid,
    Ladder,
    Rings,
    Random,
    WideGrid,
    WideRandom,
}

/// The shapes with two arcs each way, and those with four.
pub const NARROW: [Shape; 4] = [Shape::Grid, Shape::Ladder, Shape::Rings, Shape::Random];
pub const WIDE: [Shape; 2] = [Shape::WideGrid, Shape::WideRandom];
pub const SHAPES: [Shape; 6] = [Shape::Grid, Shape::Ladder, Shape::Rings, Shape::Random, Shape::WideGrid, Shape::WideRandom];

impl Shape {
    /// The arcs from a node, and as many to it, where the number of nodes lets it.
    pub fn each_way(self) -> usize {
        if WIDE.contains(&self) {
            4
        } else {
            2
        }
    }

    /// The nodes of a hall in which 2,048 arcs are so many each way.
    pub fn full_nodes(self) -> usize {
        MOST_ARCS / self.each_way()
    }

    /// Arcs of this shape between so many nodes, with length 0 and no self-arc among them.
    fn arcs(self, nodes: usize, random: &mut Random) -> Vec<(usize, usize, u32)> {
        let mut arcs = match self {
            Shape::Grid => grid(nodes),
            Shape::Ladder => ladder(nodes),
            Shape::Rings => (0..nodes).flat_map(|v| [(v, (v + 1) % nodes, 0), (v, (v + nodes - 1) % nodes, 0)]).collect(),
            Shape::Random | Shape::WideRandom => random_arcs(nodes, self.each_way(), random),
            Shape::WideGrid => wide_grid(nodes),
        };
        arcs.retain(|arc| arc.0 != arc.1);
        arcs
    }

    /// The same, in random order and some left out where they are more than a hall may have.
    fn arcs_within_limit(self, nodes: usize, random: &mut Random) -> Vec<(usize, usize, u32)> {
        let mut arcs = self.arcs(nodes, random);
        if arcs.len() > MOST_ARCS {
            random.shuffle(&mut arcs);
            arcs.truncate(MOST_ARCS);
        }
        arcs
    }
}

/// How many nodes a row of a grid has.
fn row(nodes: usize) -> usize {
    (1..=nodes).take_while(|wide| wide * wide <= nodes).last().unwrap_or(1)
}

/// Rows and columns of one-way streets that change direction from one to the next, joined at the edges.
fn grid(nodes: usize) -> Vec<(usize, usize, u32)> {
    let wide = row(nodes);
    let high = nodes / wide;
    let mut arcs = Vec::new();
    for v in 0..wide * high {
        let (x, y) = (v % wide, v / wide);
        let along = if y % 2 == 0 { (x + 1) % wide } else { (x + wide - 1) % wide };
        let across = if x % 2 == 0 { (y + 1) % high } else { (y + high - 1) % high };
        arcs.extend([(v, y * wide + along, 0), (v, across * wide + x, 0)]);
    }
    arcs
}

/// Rows and columns of streets both ways. The end of a row is joined to the start of the next, and the last node to the first.
fn wide_grid(nodes: usize) -> Vec<(usize, usize, u32)> {
    let wide = row(nodes);
    let ahead = [1, nodes - 1, wide, nodes - wide];
    (0..nodes).flat_map(|v| ahead.map(|steps| (v, (v + steps) % nodes, 0))).collect()
}

/// Two rails, one for each direction, and rungs both ways between them.
fn ladder(nodes: usize) -> Vec<(usize, usize, u32)> {
    let rungs = nodes / 2;
    let mut arcs = Vec::new();
    for rung in 0..rungs {
        let (near, far) = (2 * rung, 2 * rung + 1);
        arcs.extend([(near, far, 0), (far, near, 0)]);
        if rung + 1 < rungs {
            arcs.extend([(near, near + 2, 0), (far + 2, far, 0)]);
        }
    }
    arcs
}

/// Parallel arcs among them. A self-arc, where there are two nodes or more, exchanges its head with the next arc that neither leads to its node nor from it.
fn random_arcs(nodes: usize, each_way: usize, random: &mut Random) -> Vec<(usize, usize, u32)> {
    let mut heads: Vec<usize> = (0..each_way * nodes).map(|end| end / each_way).collect();
    random.shuffle(&mut heads);
    for end in 0..heads.len() {
        let node = end / each_way;
        let mut others = (end + 1..heads.len()).chain(0..end).filter(|other| other / each_way != node && heads[*other] != node);
        if let Some(other) = others.next().filter(|_| heads[end] == node) {
            heads.swap(end, other);
        }
    }
    heads.into_iter().enumerate().map(|(end, head)| (end / each_way, head, 0)).collect()
}

/// A hall of full size or smaller for the benchmark, with lengths up to 262,143.
pub fn regular(shape: Shape, nodes: usize, random: &mut Random) -> Hall {
    let mut arcs = shape.arcs_within_limit(nodes, random);
    for arc in &mut arcs {
        arc.2 = random.below(262_144) as u32;
    }
    Hall { nodes, source: 0, arcs, holds: vec![] }
}

/// Wide and narrow shapes are equally frequent.
pub fn any_shape(random: &mut Random) -> Shape {
    if random.once_in(2) {
        random.pick(&WIDE)
    } else {
        random.pick(&NARROW)
    }
}

/// A hall of any kind without self-arcs: arcs left out, in any order, with lengths of a kind. One in three has holds.
pub fn any(most_nodes: usize, random: &mut Random) -> Hall {
    any_with(0, most_nodes, random)
}

/// The same with self-arcs added, some or wherever there is room.
pub fn with_self_arcs(most_nodes: usize, random: &mut Random) -> Hall {
    let more = random.pick(&[1, 1, 2, 3, 6, 4 * most_nodes]);
    any_with(more, most_nodes, random)
}

fn any_with(self_arcs: usize, most_nodes: usize, random: &mut Random) -> Hall {
    let nodes = 1 + random.below(most_nodes);
    let mut arcs = any_shape(random).arcs_within_limit(nodes, random);
    if random.once_in(2) {
        random.shuffle(&mut arcs);
    }
    if random.once_in(2) {
        let kept = random.below(arcs.len() + 1);
        random.shuffle(&mut arcs);
        arcs.truncate(kept);
    }
    let mut hall = Hall { nodes, source: random.below(nodes), arcs, holds: vec![] };
    hall.add_self_arcs(self_arcs, random);
    hall.set_lengths(random);
    if random.once_in(3) {
        hall.set_holds(Holds::any(random), random);
    }
    hall
}
