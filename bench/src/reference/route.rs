//! The route reader: the refusals 15 and 21 to 24, and the arcs of a route. It takes tables of either form.

use super::dijkstra::distances;
use super::sheet::{kind, payload, Arc, Sheet};
use super::table::{feed_at, fits, label_at, length, HEADER};
use super::{travel, TOP};

/// The arcs from the source to a node, nothing for an unreached node, or a refusal. The buffer is left to the caller.
pub fn arcs(sheet: &Sheet, table: &[u32], node: u32) -> Result<Option<Vec<u32>>, u32> {
    if node as usize >= sheet.nodes() {
        return Err(15);
    }
    if !fits(sheet, table.len()) {
        return Err(21);
    }
    if wrong_form(sheet, table) {
        return Err(22);
    }
    if payload(table[0]) == 0 {
        return Err(23);
    }
    let labels: Vec<u32> = (0..sheet.nodes()).map(|node| payload(table[label_at(node)])).collect();
    let feeds: Vec<u32> = (0..sheet.nodes()).map(|node| payload(table[feed_at(node)])).collect();
    let arcs: Vec<Arc> = sheet.arcs().collect();
    if labels != distances(sheet).labels || !(0..sheet.nodes()).all(|node| fed_well(sheet, &arcs, &labels, &feeds, node)) {
        return Err(24);
    }
    if labels[node as usize] == TOP {
        return Ok(None);
    }
    Ok(chain(sheet, &arcs, &feeds, node as usize))
}

/// Refusal 22, of a table that has the length of one of the two forms.
pub fn wrong_form(sheet: &Sheet, table: &[u32]) -> bool {
    let (usual, keys) = table.split_at(length(sheet.nodes()));
    let (header, nodes) = usual.split_at(HEADER);
    kind(header[0]) != 8
        || header[1..].iter().any(|word| kind(*word) != 11)
        || nodes.chunks_exact(2).any(|pair| kind(pair[0]) != 9 || kind(pair[1]) != 10)
        || payload(header[0]) > 1
        || nodes.iter().skip(1).step_by(2).any(|word| payload(*word) != TOP && payload(*word) as usize >= sheet.arc_count())
        || keys.iter().any(|word| kind(*word) != 12 || payload(*word) > 1)
}

/// The source and unreached nodes have no feeding arc; the feeding arcs of any other node, followed back, are a route to it as long as its label.
fn fed_well(sheet: &Sheet, arcs: &[Arc], labels: &[u32], feeds: &[u32], node: usize) -> bool {
    if node == sheet.source() || labels[node] == TOP {
        return feeds[node] == TOP;
    }
    match chain(sheet, arcs, feeds, node) {
        Some(route) => travel::length(sheet, arcs, &route) == labels[node],
        None => false,
    }
}

/// Feeding arcs followed back from a node, from the source on; nothing where they do not lead to the source. A chain without a ring has less than n arcs.
fn chain(sheet: &Sheet, arcs: &[Arc], feeds: &[u32], node: usize) -> Option<Vec<u32>> {
    let mut route = Vec::new();
    let mut at = node;
    while at != sheet.source() {
        let feed = feeds[at];
        if feed == TOP || arcs[feed as usize].head != at || route.len() >= sheet.nodes() {
            return None;
        }
        route.push(feed);
        at = arcs[feed as usize].tail;
    }
    route.reverse();
    Some(route)
}
