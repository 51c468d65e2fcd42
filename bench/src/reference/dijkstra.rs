//! Plain Dijkstra with the heap of the standard library. A route that goes on from a node has this node between its ends, so that its hold is charged there
//! (`travel.rs`); nothing is added to an arc.

use super::judge::MOST_EACH_WAY;
use super::sheet::Sheet;
use super::table::{length, write_header, write_node, Counts};
use super::{Answer, TOP};
use std::cmp::Reverse;
use std::collections::BinaryHeap;

pub struct Distances {
    pub labels: Vec<u32>,
    pub feeds: Vec<u32>,
}

pub fn distances(sheet: &Sheet) -> Distances {
    let arcs: Vec<_> = sheet.arcs().collect();
    let mut outgoing = vec![[TOP; MOST_EACH_WAY]; sheet.nodes()];
    let mut taken = vec![0u8; sheet.nodes()];
    for (number, arc) in arcs.iter().enumerate() {
        outgoing[arc.tail][taken[arc.tail] as usize] = number as u32;
        taken[arc.tail] += 1;
    }
    let mut labels = vec![TOP; sheet.nodes()];
    let mut feeds = vec![TOP; sheet.nodes()];
    let mut heap = BinaryHeap::new();
    labels[sheet.source()] = 0;
    heap.push(Reverse((0, sheet.source() as u32)));
    while let Some(Reverse((label, node))) = heap.pop() {
        if label > labels[node as usize] {
            continue;
        }
        let passing = if node as usize == sheet.source() { 0 } else { sheet.hold(node as usize) };
        for number in outgoing[node as usize].into_iter().take_while(|number| *number != TOP) {
            let arc = arcs[number as usize];
            let sum = label + passing + arc.length;
            if sum < labels[arc.head] {
                labels[arc.head] = sum;
                feeds[arc.head] = number;
                heap.push(Reverse((sum, arc.head as u32)));
            }
        }
    }
    Distances { labels, feeds }
}

pub fn run(sheet: &Sheet, table: &mut [u32]) -> Answer {
    let found = distances(sheet);
    write_header(table, true, &Counts::default());
    for (node, (label, feed)) in found.labels.iter().zip(&found.feeds).enumerate() {
        write_node(table, node, *label, *feed);
    }
    table[length(sheet.nodes())..].fill(12 << 28);
    Answer::Ended
}
