//! The nested-region procedure, written for speed: one winner tree for each region.
//!
//! The tree of a region with f children has 2f places. Its children stand at places f to 2f - 1, place p below f holds the better of places
//! 2p and 2p + 1, and place 1 the first-chosen child. A place holds key, height and region number in one number, so that the better one is the lower one.
//! A leaf's own key and its key in its parent are equal whenever one of them is read, and stand in the parent's tree alone.

use super::judge::{Accepted, MOST_EACH_WAY};
use super::sheet::{is_leaf, leaf_arc, parent, payload, Arc};
use super::table::{feed_at, key_at, label_at, length, write_header, write_key, write_node, Counts};
use super::{Answer, TOP};

/// The choice among equal keys. Since request 2026-07 it "goes to the region of lower height, then to the lower number"; before, to the lower number alone.
#[derive(Clone, Copy, Debug, PartialEq, Eq)]
pub enum Ties {
    ByHeight,
    ByNumber,
}

impl Ties {
    /// Of regions with equal keys the one is chosen for which this is lowest.
    fn rank(self, height: u8, region: usize) -> u32 {
        match self {
            Ties::ByHeight => (height as u32) << 16 | region as u32,
            Ties::ByNumber => region as u32,
        }
    }
}

const NONE: u64 = (TOP as u64) << 32;

fn item(key: u32, rank: u32) -> u64 {
    (key as u64) << 32 | rank as u64
}

fn key(item: u64) -> u32 {
    (item >> 32) as u32
}

fn region(item: u64) -> usize {
    item as u16 as usize
}

/// What is known of a region: where it stands in its parent's tree, where its own tree begins, its height, its rank among equal keys, and its span, or its
/// arc for a leaf.
#[derive(Clone, Copy)]
struct Region {
    parent: u16,
    place: u16,
    tree: u16,
    height: u8,
    rank: u32,
    span_or_arc: u32,
}

impl Region {
    fn is_leaf(&self) -> bool {
        self.height == 0
    }
}

/// A node's label and feeding arc, and the leaves of its outgoing arcs, 0 for none.
#[derive(Clone, Copy)]
struct Node {
    label: u32,
    feed: u32,
    leaves: [u16; MOST_EACH_WAY],
}

struct Run {
    regions: Vec<Region>,
    trees: Vec<u64>,
    arcs: Vec<Arc>,
    nodes: Vec<Node>,
    counts: Counts,
}

/// Runs an accepted sheet for at most so many rounds, or to its end, and writes the table in the form whose length it has.
pub fn run(accepted: &Accepted, ties: Ties, limit: Option<u32>, table: &mut [u32]) -> Answer {
    let mut run = Run::new(accepted, ties);
    run.start(accepted.sheet.source());
    run.rounds(limit);
    run.answer(table)
}

/// Goes on from a longer table that is a possible state, for at most so many rounds, and writes the new state over the old.
pub fn resume(accepted: &Accepted, ties: Ties, rounds: u32, table: &mut [u32]) -> Answer {
    let mut run = Run::new(accepted, ties);
    run.go_on(table);
    run.rounds(Some(rounds));
    run.answer(table)
}

/// How many places come before each region's tree, and after them the children of each region.
fn trees_and_children(words: &[u32]) -> (Vec<u16>, Vec<u16>) {
    let mut children = vec![0u16; words.len() + 1];
    for word in words {
        children[parent(*word)] += 1;
    }
    let mut places = vec![0; children.len()];
    for region in 1..children.len() {
        places[region] = places[region - 1] + 2 * children[region - 1];
    }
    (places, children)
}

fn regions(accepted: &Accepted, ties: Ties) -> Vec<Region> {
    let words = accepted.sheet.regions();
    let spans = accepted.sheet.spans();
    let (trees, mut free) = trees_and_children(words);
    let mut regions = Vec::with_capacity(words.len() + 1);
    let height = spans.len() as u8;
    regions.push(Region { parent: 0, place: 0, tree: 0, height, rank: 0, span_or_arc: payload(spans[spans.len() - 1]) });
    for (at, word) in words.iter().enumerate() {
        let parent = parent(*word);
        let height = accepted.heights[at + 1] as u8;
        let span_or_arc = if is_leaf(*word) { leaf_arc(*word) as u32 } else { payload(spans[height as usize - 1]) };
        let rank = ties.rank(height, at + 1);
        regions.push(Region { parent: parent as u16, place: free[parent], tree: trees[at + 1], height, rank, span_or_arc });
        free[parent] += 1;
    }
    regions
}

impl Run {
    fn new(accepted: &Accepted, ties: Ties) -> Run {
        let sheet = &accepted.sheet;
        let regions = regions(accepted, ties);
        let trees = vec![NONE; 2 * regions.len()];
        let arcs: Vec<Arc> = sheet.taken_arcs().collect();
        let mut leaves = vec![0u16; arcs.len()];
        for (number, row) in regions.iter().enumerate().filter(|(_, row)| row.is_leaf()) {
            leaves[row.span_or_arc as usize] = number as u16;
        }
        let mut nodes = vec![Node { label: TOP, feed: TOP, leaves: [0; MOST_EACH_WAY] }; sheet.nodes()];
        let mut taken = vec![0u8; sheet.nodes()];
        for (arc, leaf) in arcs.iter().zip(&leaves) {
            nodes[arc.tail].leaves[taken[arc.tail] as usize] = *leaf;
            taken[arc.tail] += 1;
        }
        Run { regions, trees, arcs, nodes, counts: Counts::default() }
    }

    fn start(&mut self, source: usize) {
        self.nodes[source].label = 0;
        self.update_outgoing(source, 0);
    }

    /// The state that a longer table stands for: "a keyed leaf's key being its tail's label, an inner region's keys its children's smallest". Children come
    /// after their parents, so one pass from the last region back finds all.
    fn go_on(&mut self, table: &[u32]) {
        self.counts = Counts::of(table);
        for (number, node) in self.nodes.iter_mut().enumerate() {
            node.label = payload(table[label_at(number)]);
            node.feed = payload(table[feed_at(number)]);
        }
        for child in (1..self.regions.len()).rev() {
            let row = self.regions[child];
            let smallest = if row.is_leaf() { self.own_key(table, row.span_or_arc as usize) } else { key(self.trees[row.tree as usize + 1]) };
            if smallest < TOP {
                self.write(self.regions[row.parent as usize].tree as usize, row.place as usize, item(smallest, row.rank));
            }
        }
    }

    /// The key that a longer table gives the leaf of an arc.
    fn own_key(&self, table: &[u32], arc: usize) -> u32 {
        match payload(table[key_at(self.nodes.len(), arc)]) {
            0 => TOP,
            _ => self.nodes[self.arcs[arc].tail].label,
        }
    }

    /// So many rounds more, or as many as it takes to the end.
    fn rounds(&mut self, most: Option<u32>) {
        let last = most.map(|most| self.counts.rounds + most as u64);
        while !self.ended() && last.is_none_or(|last| self.counts.rounds < last) {
            self.counts.rounds += 1;
            self.process(0);
        }
    }

    /// Writes the table in the form whose length it has.
    fn answer(&self, table: &mut [u32]) -> Answer {
        write_header(table, self.ended(), &self.counts);
        for (number, node) in self.nodes.iter().enumerate() {
            write_node(table, number, node.label, node.feed);
        }
        if table.len() > length(self.nodes.len()) {
            self.write_keys(table);
        }
        match self.ended() {
            true => Answer::Ended,
            false => Answer::Paused,
        }
    }

    fn write_keys(&self, table: &mut [u32]) {
        for leaf in self.regions.iter().filter(|row| row.is_leaf()) {
            let tree = self.regions[leaf.parent as usize].tree as usize;
            write_key(table, self.nodes.len(), leaf.span_or_arc as usize, self.trees[tree + leaf.place as usize] < NONE);
        }
    }

    /// The smallest key of region 0 is none. A hall without arcs has a tree of no places, but two are there.
    fn ended(&self) -> bool {
        self.trees[1] >= NONE
    }

    fn update_outgoing(&mut self, node: usize, key: u32) {
        for leaf in self.nodes[node].leaves {
            if leaf == 0 {
                break;
            }
            self.update(leaf as usize, key);
        }
    }

    /// An update that starts at a leaf and climbs while smallest keys fall.
    fn update(&mut self, leaf: usize, new: u32) {
        self.counts.updates += 1;
        let mut row = self.regions[leaf];
        let mut tree = self.regions[row.parent as usize].tree as usize;
        if key(self.trees[tree + row.place as usize]) <= new {
            return;
        }
        loop {
            self.counts.updates += 1;
            let before = key(self.trees[tree + 1]);
            self.write(tree, row.place as usize, item(new, row.rank));
            if row.parent == 0 || key(self.trees[tree + 1]) >= before {
                return;
            }
            row = self.regions[row.parent as usize];
            tree = self.regions[row.parent as usize].tree as usize;
        }
    }

    /// Puts an item into a tree and repairs the places above it.
    fn write(&mut self, tree: usize, mut place: usize, item: u64) {
        let trees = &mut self.trees[tree..];
        trees[place] = item;
        while place > 1 {
            place /= 2;
            let best = trees[2 * place].min(trees[2 * place + 1]);
            if trees[place] == best {
                return;
            }
            trees[place] = best;
        }
    }

    fn process(&mut self, inner: usize) {
        let worked = self.regions[inner];
        self.counts.inner[worked.height as usize - 1] += 1;
        let tree = worked.tree as usize;
        for _ in 0..worked.span_or_arc {
            let first = self.trees[tree + 1];
            if first >= NONE {
                return;
            }
            let child = region(first);
            let row = self.regions[child];
            let after = if row.is_leaf() {
                self.process_leaf(row.span_or_arc as usize);
                NONE
            } else {
                self.process(child);
                match self.trees[row.tree as usize + 1] {
                    NONE.. => NONE,
                    first => item(key(first), row.rank),
                }
            };
            self.write(tree, row.place as usize, after);
        }
    }

    fn process_leaf(&mut self, number: usize) {
        self.counts.leaves += 1;
        let arc = self.arcs[number];
        let sum = self.nodes[arc.tail].label + arc.length;
        let head = &mut self.nodes[arc.head];
        if head.label > sum {
            head.label = sum;
            head.feed = number as u32;
            self.update_outgoing(arc.head, sum);
        }
    }
}
