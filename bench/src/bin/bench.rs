//! Times the proved calls against the independent program and plain Dijkstra, in one run, and prints the ratios: `bench [HALL]..`, for all halls
//! unless some are named.
//!
//! Every time is that of a whole call, from the sheet's bytes to the table, the judgement, the canonical form or the converted sheet, and the least of
//! interleaved repetitions. A resume is from the longer table of the start, or from an ended one, which it gives back. A route is that to the node farthest
//! from the source. Of conversions there is one of a sheet without self-arcs, and one of the same sheet with each fourth arc led back to its tail.

use bench::generate::divisions::{Nesting, NESTINGS};
use bench::generate::halls::{Holds, Shape, NARROW, SHAPES, WIDE};
use bench::generate::sheets::{self, Spans, SPANS};
use bench::reference::sheet::{words, Sheet};
use bench::reference::table;
use bench::{proved, reference};
use std::hint::black_box;
use std::time::{Duration, Instant};

const TIME_FOR_A_SHEET: Duration = Duration::from_millis(400);
const LEAST_REPETITIONS: usize = 7;
const GROWING: [(Shape, Nesting, Spans); 4] = [
    (Shape::Grid, Nesting::Halves, Spans::Random),
    (Shape::Random, Nesting::Mixed, Spans::One),
    (Shape::Rings, Nesting::Flat, Spans::Million),
    (Shape::WideGrid, Nesting::Halves, Spans::Random),
];
const GROWING_ARCS: [usize; 6] = [64, 128, 256, 512, 1024, 2048];

/// Least times in microseconds, and the leaves that the run works.
struct Times {
    leaves: u64,
    proved_run: f64,
    plain_run: f64,
    dijkstra: f64,
    proved_judge: f64,
    plain_judge: f64,
}

fn least(time: &mut f64, call: impl FnOnce() -> u32, expected: u32) {
    let start = Instant::now();
    let answer = black_box(call());
    *time = time.min(start.elapsed().as_secs_f64() * 1e6);
    assert_eq!(answer, expected);
}

fn measured(sheet: &[u8], nodes: usize) -> Times {
    let mut table = vec![0; table::length(nodes)];
    let most = f64::INFINITY;
    let mut times = Times { leaves: 0, proved_run: most, plain_run: most, dijkstra: most, proved_judge: most, plain_judge: most };
    let start = Instant::now();
    let mut repetitions = 0;
    while repetitions < LEAST_REPETITIONS || start.elapsed() < TIME_FOR_A_SHEET {
        let sheet = black_box(sheet);
        least(&mut times.dijkstra, || reference::run_dijkstra(sheet, &mut table).code(), 258);
        least(&mut times.plain_run, || reference::run(sheet, &mut table).code(), 258);
        least(&mut times.proved_run, || proved::run(sheet, &mut table), 258);
        least(&mut times.plain_judge, || reference::judge(sheet).code(), 256);
        least(&mut times.proved_judge, || proved::judge(sheet), 256);
        repetitions += 1;
    }
    times.leaves = table::count(&table, 1);
    times
}

/// Least times in microseconds, and the words of the sheet. Spans don't matter to a canonical form.
struct FormTimes {
    words: usize,
    proved_form: f64,
    plain_form: f64,
    proved_judge: f64,
}

fn measured_form(sheet: &[u8]) -> FormTimes {
    let mut out = vec![0; sheet.len()];
    let most = f64::INFINITY;
    let mut times = FormTimes { words: sheet.len() / 4, proved_form: most, plain_form: most, proved_judge: most };
    let written = 131_072 + sheet.len() as u32;
    let start = Instant::now();
    let mut repetitions = 0;
    while repetitions < LEAST_REPETITIONS || start.elapsed() < TIME_FOR_A_SHEET {
        let sheet = black_box(sheet);
        least(&mut times.plain_form, || reference::canonical_linear(sheet, &mut out).code(), written);
        least(&mut times.proved_form, || proved::canonical(sheet, &mut out), written);
        least(&mut times.proved_judge, || proved::judge(sheet), 256);
        repetitions += 1;
    }
    times
}

/// Least times in microseconds, and the words of a sheet and of its conversion. Spans don't matter to a conversion.
struct ConversionTimes {
    words: usize,
    converted_words: usize,
    proved: f64,
    plain: f64,
    proved_judge: f64,
}

/// Of a sheet, and the judge's of another, since it looks at no division where there are self-arcs.
fn measured_conversion(sheet: &[u8], accepted: &[u8]) -> ConversionTimes {
    let mut out = vec![0; sheet.len()];
    let written = proved::convert(sheet, &mut out);
    let converted_words = (written as usize - 131_072) / 4;
    let mut times = ConversionTimes { words: sheet.len() / 4, converted_words, proved: NOT_TIMED, plain: NOT_TIMED, proved_judge: NOT_TIMED };
    let start = Instant::now();
    let mut repetitions = 0;
    while repetitions < LEAST_REPETITIONS || start.elapsed() < TIME_FOR_A_SHEET {
        let sheet = black_box(sheet);
        least(&mut times.plain, || reference::convert_one_pass(sheet, &mut out).code(), written);
        least(&mut times.proved, || proved::convert(sheet, &mut out), written);
        least(&mut times.proved_judge, || proved::judge(black_box(accepted)), 256);
        repetitions += 1;
    }
    times
}

/// Least times in microseconds: runs to the end into either form, resumes from the start to the end, both with no round, and a resume of an ended table.
struct ResumeTimes {
    rounds: u64,
    run: f64,
    longer_run: f64,
    resume: f64,
    plain_resume: f64,
    run_of_none: f64,
    resume_of_none: f64,
    resume_of_ended: f64,
}

const NOT_TIMED: f64 = f64::INFINITY;
const NO_TIMES: ResumeTimes = ResumeTimes {
    rounds: 0,
    run: NOT_TIMED,
    longer_run: NOT_TIMED,
    resume: NOT_TIMED,
    plain_resume: NOT_TIMED,
    run_of_none: NOT_TIMED,
    resume_of_none: NOT_TIMED,
    resume_of_ended: NOT_TIMED,
};

fn measured_resume(sheet: &[u8]) -> ResumeTimes {
    let parts = Sheet::in_order(words(sheet)).expect("a sheet in order");
    let mut usual = vec![0; table::length(parts.nodes())];
    let mut table = vec![0; table::longer(&parts)];
    assert_eq!(proved::run_limited(sheet, 0, &mut table), 257);
    let start_of_run = table.clone();
    let mut times = NO_TIMES;
    let start = Instant::now();
    let mut repetitions = 0;
    while repetitions < LEAST_REPETITIONS || start.elapsed() < TIME_FOR_A_SHEET {
        let sheet = black_box(sheet);
        least(&mut times.run, || proved::run(sheet, &mut usual), 258);
        least(&mut times.longer_run, || proved::run(sheet, &mut table), 258);
        least(&mut times.run_of_none, || proved::run_limited(sheet, 0, &mut table), 257);
        table.copy_from_slice(&start_of_run);
        least(&mut times.resume_of_none, || proved::resume(sheet, 0, &mut table), 257);
        least(&mut times.plain_resume, || reference::resume(sheet, u32::MAX, &mut table).code(), 258);
        table.copy_from_slice(&start_of_run);
        least(&mut times.resume, || proved::resume(sheet, u32::MAX, &mut table), 258);
        least(&mut times.resume_of_ended, || proved::resume(sheet, 1, &mut table), 258);
        repetitions += 1;
    }
    times.rounds = table::count(&table, 0);
    times
}

/// The node with the highest distance, in a table of the usual form.
fn farthest(table: &[u32], nodes: usize) -> u32 {
    let reached = (0..nodes).filter(|node| table[table::label_at(*node)] & reference::TOP != reference::TOP);
    reached.max_by_key(|node| table[table::label_at(*node)]).unwrap_or(0) as u32
}

/// Least times in microseconds of a run, a judgement and a route, of each of two sheets that lead to one table.
fn measured_held(sheets: [&[u8]; 2], nodes: usize) -> [[f64; 3]; 2] {
    let mut table = vec![0; table::length(nodes)];
    let mut buffer = vec![0; nodes];
    assert_eq!(proved::run(sheets[0], &mut table), 258);
    let node = farthest(&table, nodes);
    let route_found = proved::route(sheets[0], &table, node, &mut buffer);
    let mut times = [[NOT_TIMED; 3]; 2];
    let start = Instant::now();
    let mut repetitions = 0;
    while repetitions < LEAST_REPETITIONS || start.elapsed() < TIME_FOR_A_SHEET {
        for (sheet, [run, judge, route]) in sheets.into_iter().zip(&mut times) {
            let sheet = black_box(sheet);
            least(run, || proved::run(sheet, &mut table), 258);
            least(judge, || proved::judge(sheet), 256);
            least(route, || proved::route(sheet, &table, node, &mut buffer), route_found);
        }
        repetitions += 1;
    }
    times
}

/// Ratios of one column, for its summary.
struct Ratios(Vec<f64>);

impl Ratios {
    fn line(&self, name: &str) {
        let mean = (self.0.iter().map(|ratio| ratio.ln()).sum::<f64>() / self.0.len() as f64).exp();
        let least = self.0.iter().copied().fold(f64::INFINITY, f64::min);
        let most = self.0.iter().copied().fold(0.0, f64::max);
        println!("{name:<34} mean {mean:.2}  least {least:.2}  most {most:.2}");
    }
}

/// A table of halls with the same number of arcs each way, and the summary of their ratios.
fn every_sheet(shapes: &[Shape]) {
    let Some(first) = shapes.first() else { return };
    println!("Full-size sheets: {} nodes, {} arcs each way, up to 2048 arcs. Times in microseconds.", first.full_nodes(), first.each_way());
    println!("| hall | division | spans | leaves | proved run | plain run | Dijkstra | ratio | to Dijkstra | proved judge | plain judge | ratio |");
    println!("|---|---|---|--:|--:|--:|--:|--:|--:|--:|--:|--:|");
    let mut columns = [Ratios(vec![]), Ratios(vec![]), Ratios(vec![])];
    for shape in shapes {
        for nesting in NESTINGS {
            for spans in SPANS {
                let t = measured(&sheets::regular(*shape, nesting, spans, shape.full_nodes()), shape.full_nodes());
                let ratios = [t.proved_run / t.plain_run, t.proved_run / t.dijkstra, t.proved_judge / t.plain_judge];
                print!("| {shape:?} | {nesting:?} | {spans:?} | {} | {:.1} | {:.1} | {:.1} ", t.leaves, t.proved_run, t.plain_run, t.dijkstra);
                println!("| {:.2} | {:.2} | {:.1} | {:.1} | {:.2} |", ratios[0], ratios[1], t.proved_judge, t.plain_judge, ratios[2]);
                columns.iter_mut().zip(ratios).for_each(|(column, ratio)| column.0.push(ratio));
            }
        }
    }
    println!();
    columns[0].line("proved run / plain run");
    columns[1].line("proved run / Dijkstra");
    columns[2].line("proved judge / plain judge");
    println!();
}

/// The same for canonical forms.
fn every_form(shapes: &[Shape]) {
    let Some(first) = shapes.first() else { return };
    println!("Canonical forms: {} nodes, {} arcs each way, up to 2048 arcs. Times in microseconds.", first.full_nodes(), first.each_way());
    println!("| hall | division | words | proved form | plain form | ratio | proved judge | to the judge |");
    println!("|---|---|--:|--:|--:|--:|--:|--:|");
    let mut columns = [Ratios(vec![]), Ratios(vec![])];
    for shape in shapes {
        for nesting in NESTINGS {
            let t = measured_form(&sheets::regular(*shape, nesting, Spans::One, shape.full_nodes()));
            let ratios = [t.proved_form / t.plain_form, t.proved_form / t.proved_judge];
            print!("| {shape:?} | {nesting:?} | {} | {:.1} | {:.1} ", t.words, t.proved_form, t.plain_form);
            println!("| {:.2} | {:.1} | {:.2} |", ratios[0], t.proved_judge, ratios[1]);
            columns.iter_mut().zip(ratios).for_each(|(column, ratio)| column.0.push(ratio));
        }
    }
    println!();
    columns[0].line("proved form / plain form");
    columns[1].line("proved form / proved judge");
    println!();
}

/// The same for conversions, of a sheet and of it with self-arcs. The judge's time is that of the sheet without them.
fn every_conversion(shapes: &[Shape]) {
    let Some(first) = shapes.first() else { return };
    println!("Conversions: {} nodes, {} arcs each way, up to 2048 arcs. Times in microseconds.", first.full_nodes(), first.each_way());
    print!("| hall | division | words | proved conversion | plain | ratio | proved judge | to the judge ");
    println!("| words left without self-arcs | proved conversion | plain | ratio | to the judge |");
    println!("|---|---|--:|--:|--:|--:|--:|--:|--:|--:|--:|--:|--:|");
    let mut columns = [(); 4].map(|()| Ratios(vec![]));
    for (shape, nesting) in shapes.iter().flat_map(|shape| NESTINGS.map(|nesting| (*shape, nesting))) {
        let nodes = shape.full_nodes();
        let sheet = sheets::regular(shape, nesting, Spans::One, nodes);
        let old = sheets::regular_with_self_arcs(Holds::None, shape, nesting, Spans::One, nodes);
        let [same, other] = [&sheet, &old].map(|converted| measured_conversion(converted, &sheet));
        let ratios = [&same, &other].map(|times| [times.proved / times.plain, times.proved / times.proved_judge]);
        print!("| {shape:?} | {nesting:?} | {} | {:.1} | {:.1} | {:.2} ", same.words, same.proved, same.plain, ratios[0][0]);
        print!("| {:.1} | {:.2} | {} ", same.proved_judge, ratios[0][1], other.converted_words);
        println!("| {:.1} | {:.1} | {:.2} | {:.2} |", other.proved, other.plain, ratios[1][0], ratios[1][1]);
        columns.iter_mut().zip(ratios.into_iter().flatten()).for_each(|(column, ratio)| column.0.push(ratio));
    }
    println!();
    columns[0].line("proved conversion / plain");
    columns[1].line("proved conversion / proved judge");
    columns[2].line("self-arcs, the same / plain");
    columns[3].line("self-arcs, the same / proved judge");
    println!();
}

/// The same for resumes.
fn every_resume(shapes: &[Shape]) {
    let Some(first) = shapes.first() else { return };
    println!("Resumes: {} nodes, {} arcs each way, up to 2048 arcs. Times in microseconds.", first.full_nodes(), first.each_way());
    print!("| hall | division | spans | rounds | run | longer | ratio | resume | to the run | plain resume | ratio ");
    println!("| run of 0 | resume of 0 | ratio | resume of the end | ratio |");
    println!("|---|---|---|--:|--:|--:|--:|--:|--:|--:|--:|--:|--:|--:|--:|--:|");
    let mut columns = [(); 5].map(|()| Ratios(vec![]));
    for shape in shapes {
        for (nesting, spans) in NESTINGS.into_iter().flat_map(|nesting| SPANS.map(|spans| (nesting, spans))) {
            let t = measured_resume(&sheets::regular(*shape, nesting, spans, shape.full_nodes()));
            let of_none = [t.resume_of_none, t.resume_of_ended].map(|time| time / t.run_of_none);
            let ratios = [t.longer_run / t.run, t.resume / t.longer_run, t.resume / t.plain_resume, of_none[0], of_none[1]];
            print!("| {shape:?} | {nesting:?} | {spans:?} | {} | {:.1} | {:.1} | {:.2} ", t.rounds, t.run, t.longer_run, ratios[0]);
            print!("| {:.1} | {:.2} | {:.1} | {:.2} ", t.resume, ratios[1], t.plain_resume, ratios[2]);
            println!("| {:.1} | {:.1} | {:.2} | {:.1} | {:.2} |", t.run_of_none, t.resume_of_none, of_none[0], t.resume_of_ended, of_none[1]);
            columns.iter_mut().zip(ratios).for_each(|(column, ratio)| column.0.push(ratio));
        }
    }
    println!();
    columns[0].line("run, longer form / usual form");
    columns[1].line("proved resume / proved run");
    columns[2].line("proved resume / plain resume");
    columns[3].line("resume of no round / run of none");
    columns[4].line("resume of an ended table / the same");
    println!();
}

/// The same halls without holds and with holds of 0, which lead to the same tables; and with holds up to what is allowed, beside the plain program.
fn every_hold(shapes: &[Shape]) {
    let Some(first) = shapes.first() else { return };
    println!("Holds: {} nodes, {} arcs each way, up to 2048 arcs, spans Random. Times in microseconds.", first.full_nodes(), first.each_way());
    print!("| hall | division | run | with holds of 0 | ratio | judge | with holds of 0 | ratio | route | with holds of 0 | ratio ");
    println!("| leaves with holds | proved run | plain run | ratio | proved judge | plain judge | ratio |");
    println!("|---|---|--:|--:|--:|--:|--:|--:|--:|--:|--:|--:|--:|--:|--:|--:|--:|--:|");
    let mut columns = [(); 5].map(|()| Ratios(vec![]));
    for (shape, nesting) in shapes.iter().flat_map(|shape| NESTINGS.map(|nesting| (*shape, nesting))) {
        let nodes = shape.full_nodes();
        let [without, zero, any] =
            [Holds::None, Holds::Zero, Holds::Any].map(|holds| sheets::regular_with(holds, shape, nesting, Spans::Random, nodes));
        let [before, after] = measured_held([&without, &zero], nodes);
        let t = measured(&any, nodes);
        let of_plain = [t.proved_run / t.plain_run, t.proved_judge / t.plain_judge];
        print!("| {shape:?} | {nesting:?} ");
        before.iter().zip(after).for_each(|(before, after)| print!("| {before:.1} | {after:.1} | {:.2} ", after / before));
        print!("| {} | {:.1} | {:.1} | {:.2} ", t.leaves, t.proved_run, t.plain_run, of_plain[0]);
        println!("| {:.1} | {:.1} | {:.2} |", t.proved_judge, t.plain_judge, of_plain[1]);
        let ratios = before.iter().zip(after).map(|(before, after)| after / before).chain(of_plain);
        columns.iter_mut().zip(ratios).for_each(|(column, ratio)| column.0.push(ratio));
    }
    println!();
    columns[0].line("run, holds of 0 / no holds");
    columns[1].line("judge, holds of 0 / no holds");
    columns[2].line("route, holds of 0 / no holds");
    columns[3].line("holds, proved run / plain run");
    columns[4].line("holds, proved judge / plain judge");
    println!();
}

fn growth_of_forms(shape: Shape, nesting: Nesting) {
    println!("Growth: {shape:?}, {nesting:?}. Canonical forms in microseconds.");
    println!("| arcs | words | proved form | plain form | ratio | proved, ns a word | plain, ns a word |");
    println!("|--:|--:|--:|--:|--:|--:|--:|");
    for arcs in GROWING_ARCS {
        let t = measured_form(&sheets::regular(shape, nesting, Spans::One, arcs / shape.each_way()));
        let of_word = |time: f64| 1000.0 * time / t.words as f64;
        print!("| {arcs} | {} | {:.1} | {:.1} | {:.2} ", t.words, t.proved_form, t.plain_form, t.proved_form / t.plain_form);
        println!("| {:.1} | {:.1} |", of_word(t.proved_form), of_word(t.plain_form));
    }
    println!();
}

fn growth_of_conversions(shape: Shape, nesting: Nesting) {
    println!("Growth: {shape:?}, {nesting:?}. Conversions of sheets with self-arcs in microseconds.");
    println!("| arcs | words | words left | proved conversion | plain | ratio | proved, ns a word | plain, ns a word |");
    println!("|--:|--:|--:|--:|--:|--:|--:|--:|");
    for arcs in GROWING_ARCS {
        let nodes = arcs / shape.each_way();
        let sheet = sheets::regular(shape, nesting, Spans::One, nodes);
        let t = measured_conversion(&sheets::regular_with_self_arcs(Holds::None, shape, nesting, Spans::One, nodes), &sheet);
        let of_word = |time: f64| 1000.0 * time / t.words as f64;
        print!("| {arcs} | {} | {} | {:.1} | {:.1} | {:.2} ", t.words, t.converted_words, t.proved, t.plain, t.proved / t.plain);
        println!("| {:.1} | {:.1} |", of_word(t.proved), of_word(t.plain));
    }
    println!();
}

fn growth_of_resumes(shape: Shape, nesting: Nesting, spans: Spans) {
    println!("Growth: {shape:?}, {nesting:?}, spans {spans:?}. A run of no round, and resumes of its table and of an ended one, in microseconds.");
    println!("| arcs | run of 0 | resume of 0 | resume of the end | run, ns an arc | resume of 0, ns an arc | of the end, ns an arc |");
    println!("|--:|--:|--:|--:|--:|--:|--:|");
    for arcs in GROWING_ARCS {
        let t = measured_resume(&sheets::regular(shape, nesting, spans, arcs / shape.each_way()));
        let times = [t.run_of_none, t.resume_of_none, t.resume_of_ended];
        let of_arc = times.map(|time| 1000.0 * time / arcs as f64);
        let cells: Vec<String> = times.iter().chain(&of_arc).map(|time| format!("{time:.1}")).collect();
        println!("| {arcs} | {} |", cells.join(" | "));
    }
    println!();
}

fn growth(shape: Shape, nesting: Nesting, spans: Spans) {
    println!("Growth: {shape:?}, {nesting:?}, spans {spans:?}. Run and judge in microseconds.");
    println!("| arcs | leaves | proved run | plain run | Dijkstra | proved, ns a leaf | plain, ns a leaf | proved judge | plain judge | ns an arc |");
    println!("|--:|--:|--:|--:|--:|--:|--:|--:|--:|--:|");
    for arcs in GROWING_ARCS {
        let nodes = arcs / shape.each_way();
        let t = measured(&sheets::regular(shape, nesting, spans, nodes), nodes);
        let of_leaf = |time: f64| 1000.0 * time / t.leaves as f64;
        print!("| {arcs} | {} | {:.1} | {:.1} | {:.1} ", t.leaves, t.proved_run, t.plain_run, t.dijkstra);
        print!("| {:.1} | {:.1} ", of_leaf(t.proved_run), of_leaf(t.plain_run));
        println!("| {:.1} | {:.1} | {:.1} |", t.proved_judge, t.plain_judge, 1000.0 * t.proved_judge / arcs as f64);
    }
    println!();
}

fn main() {
    let names: Vec<String> = std::env::args().skip(1).collect();
    if names.iter().any(|name| !SHAPES.iter().any(|shape| format!("{shape:?}") == *name)) {
        eprintln!("usage: bench [HALL]..\nhalls {SHAPES:?}");
        std::process::exit(2)
    }
    let wanted = |shape: &Shape| names.is_empty() || names.contains(&format!("{shape:?}"));
    let groups = [&NARROW[..], &WIDE].map(|shapes| shapes.iter().copied().filter(wanted).collect::<Vec<_>>());
    groups.iter().for_each(|shapes| every_sheet(shapes));
    groups.iter().for_each(|shapes| every_form(shapes));
    groups.iter().for_each(|shapes| every_conversion(shapes));
    groups.iter().for_each(|shapes| every_resume(shapes));
    groups.iter().for_each(|shapes| every_hold(shapes));
    for (shape, nesting, spans) in GROWING.into_iter().filter(|(shape, _, _)| wanted(shape)) {
        growth(shape, nesting, spans);
        growth_of_forms(shape, nesting);
        growth_of_conversions(shape, nesting);
        growth_of_resumes(shape, nesting, spans);
    }
}
