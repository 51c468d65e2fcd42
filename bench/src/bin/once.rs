//! One call on one sheet of the benchmark, for a count of its instructions: `once CALL HALL DIVISION SPANS [TIMES [HOLDS]]`.
//!
//! CALL is proved-run, plain-run, dijkstra, proved-judge, plain-judge, proved-form, plain-form, proved-resume or plain-resume, from the start to the end, or
//! proved-convert or plain-convert, or one of these with -self-arcs behind it, for the sheet with each fourth arc led back to its tail; the others are named as
//! in the benchmark's table. HOLDS is None, Zero or Any.

use bench::generate::divisions::NESTINGS;
use bench::generate::halls::{Holds, SHAPES};
use bench::generate::sheets::{self, SPANS};
use bench::reference::sheet::{words, Sheet};
use bench::reference::table;
use bench::{proved, reference};
use std::fmt::Debug;
use std::hint::black_box;

const HOLDS: [Holds; 3] = [Holds::None, Holds::Zero, Holds::Any];

fn named<T: Copy + Debug>(items: &[T], name: Option<&String>) -> T {
    match items.iter().find(|item| name.is_some_and(|name| format!("{item:?}") == *name)) {
        Some(item) => *item,
        None => usage(),
    }
}

fn usage() -> ! {
    let calls = "proved-run|plain-run|dijkstra|proved-judge|plain-judge|proved-form|plain-form|proved-resume|plain-resume";
    let conversions = "proved-convert|plain-convert|proved-convert-self-arcs|plain-convert-self-arcs";
    eprintln!("usage: once {calls}|{conversions} HALL DIVISION SPANS [TIMES [HOLDS]]");
    eprintln!("halls {SHAPES:?}, divisions {NESTINGS:?}, spans {SPANS:?}, holds {HOLDS:?}");
    std::process::exit(2)
}

/// The longer table of the start.
fn started(sheet: &[u8]) -> Vec<u32> {
    let parts = Sheet::in_order(words(sheet)).expect("a sheet in order");
    let mut table = vec![0; table::longer(&parts)];
    reference::run_limited(sheet, 0, &mut table);
    table
}

/// What the calls need: a sheet, the same with self-arcs, tables of both forms and a buffer.
struct Lent {
    sheet: Vec<u8>,
    old: Vec<u8>,
    table: Vec<u32>,
    longer: Vec<u32>,
    out: Vec<u8>,
}

fn made(call: &str, lent: &mut Lent) -> u32 {
    let (sheet, old) = (black_box(&lent.sheet), black_box(&lent.old));
    match call {
        "proved-run" => proved::run(sheet, &mut lent.table),
        "plain-run" => reference::run(sheet, &mut lent.table).code(),
        "dijkstra" => reference::run_dijkstra(sheet, &mut lent.table).code(),
        "proved-judge" => proved::judge(sheet),
        "plain-judge" => reference::judge(sheet).code(),
        "proved-form" => proved::canonical(sheet, &mut lent.out),
        "plain-form" => reference::canonical_linear(sheet, &mut lent.out).code(),
        "proved-convert" => proved::convert(sheet, &mut lent.out),
        "plain-convert" => reference::convert_one_pass(sheet, &mut lent.out).code(),
        "proved-convert-self-arcs" => proved::convert(old, &mut lent.out),
        "plain-convert-self-arcs" => reference::convert_one_pass(old, &mut lent.out).code(),
        "proved-resume" => proved::resume(sheet, u32::MAX, &mut lent.longer),
        "plain-resume" => reference::resume(sheet, u32::MAX, &mut lent.longer).code(),
        _ => usage(),
    }
}

fn main() {
    let arguments: Vec<String> = std::env::args().skip(1).collect();
    let call = arguments.first().map_or("", String::as_str);
    let shape = named(&SHAPES, arguments.get(1));
    let (nesting, spans) = (named(&NESTINGS, arguments.get(2)), named(&SPANS, arguments.get(3)));
    let holds = arguments.get(5).map_or(Holds::None, |name| named(&HOLDS, Some(name)));
    let times = arguments.get(4).map_or(1, |times| times.parse().unwrap_or_else(|_| usage()));
    let nodes = shape.full_nodes();
    let sheet = sheets::regular_with(holds, shape, nesting, spans, nodes);
    let old = sheets::regular_with_self_arcs(holds, shape, nesting, spans, nodes);
    let started = started(&sheet);
    let (longer, out) = (started.clone(), vec![0; sheet.len()]);
    let mut lent = Lent { sheet, old, table: vec![0; table::length(nodes)], longer, out };
    for _ in 0..times {
        lent.longer.copy_from_slice(&started);
        black_box(made(call, &mut lent));
    }
}
