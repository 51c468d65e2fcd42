//! Divisions: the arcs of a hall nested in regions.

use super::halls::MOST_ARCS;
use super::random::Random;
use crate::reference::sheet::{is_leaf, leaf_arc, parent};

/// The most inner regions above a leaf.
pub const HIGHEST: usize = 15;
const MOST_REGIONS: usize = 4094;

/// Regions by number, region 0 first: the parent, and the arc of a leaf. A region comes after its parent.
pub struct Division {
    regions: Vec<(usize, Option<usize>)>,
}

#[derive(Clone, Copy, Debug, PartialEq, Eq)]
pub enum Nesting {
    Flat,
    Deep,
    Halves,
    Mixed,
    Chains,
}

pub const NESTINGS: [Nesting; 5] = [Nesting::Flat, Nesting::Deep, Nesting::Halves, Nesting::Mixed, Nesting::Chains];

impl Nesting {
    pub fn of(self, arcs: usize, random: &mut Random) -> Division {
        let mut division = Division { regions: vec![(0, None)] };
        let numbers: Vec<usize> = (0..arcs).collect();
        match self {
            _ if arcs == 0 => {}
            Nesting::Flat => numbers.iter().for_each(|arc| division.leaf(0, *arc)),
            Nesting::Deep => division.deep(HIGHEST.min(1 + random.below(3 * HIGHEST)), &numbers),
            Nesting::Halves => division.halves(0, &numbers),
            Nesting::Mixed => division.mixed(numbers, random),
            Nesting::Chains => division.chains(&numbers, 1 + random.below(HIGHEST - 1)),
        }
        division
    }

    /// A division for the benchmark: like the others, but deep ones and chains have height 15.
    pub fn full(self, arcs: usize, random: &mut Random) -> Division {
        let mut division = Division { regions: vec![(0, None)] };
        let numbers: Vec<usize> = (0..arcs).collect();
        match self {
            Nesting::Deep => division.deep(HIGHEST, &numbers),
            Nesting::Chains => division.chains(&numbers, HIGHEST - 1),
            _ => return self.of(arcs, random),
        }
        division
    }
}

impl Division {
    /// The division that words of kinds 6 and 7 say.
    pub fn of_words(words: &[u32]) -> Division {
        let regions = words.iter().map(|word| match is_leaf(*word) {
            true => (parent(*word), Some(leaf_arc(*word))),
            false => (parent(*word), None),
        });
        Division { regions: std::iter::once((0, None)).chain(regions).collect() }
    }

    /// The division of 2,048 arcs with as many regions as there can be, and of height 15: a chain of single children with one leaf at its end, and beside it
    /// regions with one leaf each, as many as have room; the other leaves on region 0. Numbers in random order.
    pub fn largest(random: &mut Random) -> Division {
        let mut division = Division { regions: vec![(0, None)] };
        let end = (1..HIGHEST).fold(0, |parent, _| division.inner(parent));
        division.leaf(end, 0);
        let alone = MOST_REGIONS - (HIGHEST - 1) - MOST_ARCS;
        for arc in 1..MOST_ARCS {
            let place = if arc <= alone { division.inner(0) } else { 0 };
            division.leaf(place, arc);
        }
        division.renumber(random);
        division
    }

    fn inner(&mut self, parent: usize) -> usize {
        self.regions.push((parent, None));
        self.regions.len() - 1
    }

    fn leaf(&mut self, parent: usize, arc: usize) {
        self.regions.push((parent, Some(arc)));
    }

    /// A chain of inner regions from region 0 on, with leaves in each of them.
    fn deep(&mut self, height: usize, arcs: &[usize]) {
        let mut chain = vec![0];
        for above in 0..height - 1 {
            chain.push(self.inner(above));
        }
        for (at, arc) in arcs.iter().enumerate() {
            self.leaf(chain[(at * height / arcs.len() + height - 1) % height], *arc);
        }
        self.without_childless();
    }

    /// Arcs by halves, down to single ones.
    fn halves(&mut self, parent: usize, arcs: &[usize]) {
        if arcs.len() == 1 {
            return self.leaf(parent, arcs[0]);
        }
        let (front, back) = arcs.split_at(arcs.len() / 2);
        for half in [front, back] {
            let place = if half.len() == 1 { parent } else { self.inner(parent) };
            self.halves(place, half);
        }
    }

    /// Regions side by side in region 0, each at the end of a chain of single children, with some leaves each.
    fn chains(&mut self, arcs: &[usize], inner: usize) {
        let most = (MOST_REGIONS - arcs.len()) / inner;
        let size = arcs.len().div_ceil(most).max(arcs.len() / 200 + 1);
        for group in arcs.chunks(size) {
            let end = (0..inner).fold(0, |parent, _| self.inner(parent));
            group.iter().for_each(|arc| self.leaf(end, *arc));
        }
    }

    /// Inner regions in random places, leaves in random places, regions without a child left out, numbers in random order.
    fn mixed(&mut self, mut arcs: Vec<usize>, random: &mut Random) {
        random.shuffle(&mut arcs);
        let mut places = vec![(0, 1)];
        for _ in 0..random.below((MOST_REGIONS - arcs.len()).min(arcs.len()) + 1) {
            let (parent, height) = places[places.len() - 1 - random.below(places.len().min(6))];
            if height < HIGHEST {
                places.push((self.inner(parent), height + 1));
            }
        }
        for arc in arcs {
            let place = random.below(places.len());
            self.leaf(places[place].0, arc);
        }
        self.without_childless();
        self.renumber(random);
    }

    /// Leaves out inner regions that hold no leaf, however deep. Each comes after its parent.
    pub fn without_childless(&mut self) {
        let mut held: Vec<bool> = self.regions.iter().map(|(_, arc)| arc.is_some()).collect();
        held[0] = true;
        for number in (1..self.regions.len()).rev() {
            if held[number] {
                held[self.regions[number].0] = true;
            }
        }
        let mut numbers = vec![0; self.regions.len()];
        let mut kept = Vec::new();
        for (number, (parent, arc)) in self.regions.iter().enumerate().filter(|(number, _)| held[*number]) {
            numbers[number] = kept.len();
            kept.push((numbers[*parent], *arc));
        }
        self.regions = kept;
    }

    /// Numbers the regions anew in a random order in which each comes after its parent.
    pub fn renumber(&mut self, random: &mut Random) {
        let mut children = vec![Vec::new(); self.regions.len()];
        for (number, (parent, _)) in self.regions.iter().enumerate().skip(1) {
            children[*parent].push(number);
        }
        let mut waiting: Vec<(usize, usize)> = children[0].iter().map(|child| (0, *child)).collect();
        let mut numbered = vec![(0, None)];
        while !waiting.is_empty() {
            let (parent, number) = waiting.swap_remove(random.below(waiting.len()));
            waiting.extend(children[number].iter().map(|child| (numbered.len(), *child)));
            numbered.push((parent, self.regions[number].1));
        }
        self.regions = numbered;
    }

    pub fn height(&self) -> usize {
        let mut heights = vec![0; self.regions.len()];
        heights[0] = 1;
        for (number, (parent, _)) in self.regions.iter().enumerate().skip(1).rev() {
            heights[*parent] = heights[*parent].max(heights[number] + 1);
        }
        heights[0]
    }

    /// The words of kinds 6 and 7.
    pub fn words(&self) -> impl Iterator<Item = u32> + '_ {
        self.regions.iter().skip(1).map(|(parent, arc)| match arc {
            Some(arc) => 7 << 28 | (*parent as u32) << 11 | *arc as u32,
            None => 6 << 28 | *parent as u32,
        })
    }
}

/// Changes. They leave the numbers of the regions as they are, so a region may come before its parent until they are numbered anew.
impl Division {
    fn numbers(&self, is_wanted: impl Fn(usize) -> bool) -> Vec<usize> {
        (1..self.regions.len()).filter(|number| is_wanted(*number)).collect()
    }

    fn leaves(&self) -> Vec<usize> {
        self.numbers(|number| self.regions[number].1.is_some())
    }

    fn inner_regions(&self) -> Vec<usize> {
        self.numbers(|number| self.regions[number].1.is_none())
    }

    /// Two leaves exchange their arcs.
    pub fn exchange_leaves(&mut self, random: &mut Random) {
        let leaves = self.leaves();
        let (one, other) = (random.pick(&leaves), random.pick(&leaves));
        let arc = self.regions[one].1;
        self.regions[one].1 = self.regions[other].1;
        self.regions[other].1 = arc;
    }

    /// A leaf is moved into any inner region.
    pub fn move_leaf(&mut self, random: &mut Random) {
        let leaf = random.pick(&self.leaves());
        self.regions[leaf].0 = random.pick(&[vec![0], self.inner_regions()].concat());
    }

    /// An inner region is moved into one that does not lie in it.
    pub fn move_inner(&mut self, random: &mut Random) -> Option<()> {
        let inner = self.inner_regions();
        let moved = (!inner.is_empty()).then(|| random.pick(&inner))?;
        let mut within = vec![false; self.regions.len()];
        within[moved] = true;
        for number in moved + 1..self.regions.len() {
            within[number] = within[self.regions[number].0];
        }
        let places: Vec<usize> = std::iter::once(0).chain(inner).filter(|number| !within[*number]).collect();
        self.regions[moved].0 = random.pick(&places);
        Some(())
    }

    /// Any region but 0 is put into a new one that takes its place.
    pub fn add_link(&mut self, random: &mut Random) {
        let number = 1 + random.below(self.regions.len() - 1);
        self.regions[number].0 = self.inner(self.regions[number].0);
    }

    /// An inner region with a single child, where there is one, gives its place to the child.
    pub fn drop_link(&mut self, random: &mut Random) -> Option<()> {
        let mut children = vec![0; self.regions.len()];
        self.regions.iter().skip(1).for_each(|(parent, _)| children[*parent] += 1);
        let links = self.numbers(|number| children[number] == 1);
        let dropped = (!links.is_empty()).then(|| random.pick(&links))?;
        let parent = self.regions[dropped].0;
        self.regions.iter_mut().skip(1).filter(|region| region.0 == dropped).for_each(|region| region.0 = parent);
        Some(())
    }
}
