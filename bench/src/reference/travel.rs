//! Request 2026-08: how long a route is. The procedure has the holds in the lengths of its arcs (`Sheet::taken_arcs`); neither uses the other.

use super::sheet::{Arc, Sheet};
use super::TOP;

/// "A route's length is its arcs plus the hold of each node between its ends; the source's own hold is never charged." The arcs of the sheet have their lengths
/// as written, and the route starts at the source.
pub fn length(sheet: &Sheet, arcs: &[Arc], route: &[u32]) -> u32 {
    let on_the_way = route.iter().map(|number| arcs[*number as usize]);
    let between = on_the_way.clone().take(route.len().saturating_sub(1)).map(|arc| arc.head);
    let charged = between.filter(|node| *node != sheet.source()).map(|node| sheet.hold(node));
    on_the_way.map(|arc| arc.length).sum::<u32>() + charged.sum::<u32>()
}

/// The least length of all routes of so many arcs at most from the source, by node, each route looked at by itself. For small halls.
pub fn least(sheet: &Sheet, most: usize) -> Vec<u32> {
    let mut least = Least { sheet, arcs: sheet.arcs().collect(), lengths: vec![TOP; sheet.nodes()] };
    least.go_on(&mut vec![], sheet.source(), most);
    least.lengths
}

struct Least<'a> {
    sheet: &'a Sheet,
    arcs: Vec<Arc>,
    lengths: Vec<u32>,
}

impl Least<'_> {
    fn go_on(&mut self, route: &mut Vec<u32>, node: usize, most: usize) {
        self.lengths[node] = self.lengths[node].min(length(self.sheet, &self.arcs, route));
        for number in 0..self.arcs.len() {
            if route.len() < most && self.arcs[number].tail == node {
                route.push(number as u32);
                self.go_on(route, self.arcs[number].head, most);
                route.pop();
            }
        }
    }
}
