//! The independent program against the cases in `tests/*_vectors.txt`, and its distances against Dijkstra's.

use bench::generate::halls::{self, WIDE};
use bench::generate::tables::{before, since, MORE};
use bench::generate::{random::Random, sheets};
use bench::reference::judge::{accepted_by, Accepted, Judged, Rules, TODAY};
use bench::reference::procedure::Ties;
use bench::reference::table::{self, HEADER, HEIGHTS};
use bench::reference::{self, listing, Answer, TOP};

/// The change requests that have vectors.
const REQUESTS: [&str; 10] = ["2026-01", "2026-02", "2026-03", "2026-04", "2026-05", "2026-06", "2026-07", "2026-08", "2026-09", "2026-10"];

fn lines(name: &str) -> Vec<Vec<String>> {
    let path = format!("{}/../tests/{name}_vectors.txt", env!("CARGO_MANIFEST_DIR"));
    let text = std::fs::read_to_string(&path).unwrap_or_else(|error| panic!("{path}: {error}"));
    let cases = text.lines().filter(|line| !line.starts_with('#') && !line.is_empty());
    cases.map(|line| line.split(' ').map(str::to_string).collect()).collect()
}

fn bytes(hex: &str) -> Vec<u8> {
    let hex = hex.trim_matches('-');
    (0..hex.len()).step_by(2).map(|at| u8::from_str_radix(&hex[at..at + 2], 16).unwrap()).collect()
}

fn words(hex: &str) -> Vec<u32> {
    bytes(hex).chunks_exact(4).map(|word| u32::from_be_bytes(word.try_into().unwrap())).collect()
}

fn answer(text: &str) -> Answer {
    match text.split_once(':') {
        Some(("input" | "state", number)) => Answer::Refused(number.parse().unwrap()),
        Some(("route", count)) => Answer::Route(count.parse().unwrap()),
        Some(("written", bytes)) => Answer::Written(bytes.parse().unwrap()),
        _ if text == "ended" => Answer::Ended,
        _ if text == "paused" => Answer::Paused,
        _ => Answer::NoRoute,
    }
}

/// By which rules of the judge a case holds, and the form of its tables: with one inner count, or level by level; whether there was a longer form; and how
/// equal keys were chosen.
#[derive(Clone, Copy)]
struct Era {
    rules: Rules,
    one_inner: bool,
    longer_form: bool,
    ties: Ties,
}

impl Era {
    fn judged(self, sheet: &[u8]) -> Judged {
        accepted_by(self.rules, sheet)
    }

    /// The same by a judge that knows holds.
    fn with_holds(self) -> Era {
        Era { rules: Rules { holds: true, ..self.rules }, ..self }
    }

    /// The same by a judge that refuses self-arcs.
    fn without_self_arcs(self) -> Era {
        Era { rules: Rules { self_arcs: false, ..self.rules }, ..self }
    }

    /// A table to be lent in today's form. One that is as long as it should be, or not, stays so.
    fn lent(self, words: Vec<u32>) -> Vec<u32> {
        if self.one_inner {
            since(&words)
        } else {
            words
        }
    }

    /// A length of today.
    fn length(self, words: usize) -> usize {
        if self.one_inner {
            words + MORE
        } else {
            words
        }
    }

    /// A table of so many words of today was refused as 21, since there was no longer form.
    fn had_no_such_length(self, sheet: &[u8], words: usize) -> bool {
        let is_longer = |accepted: Accepted| words != table::length(accepted.sheet.nodes()) && words == table::longer(&accepted.sheet);
        !self.longer_form && self.judged(sheet).is_ok_and(is_longer)
    }

    /// What a run has left, in the form of the case.
    fn left(self, table: &[u32]) -> Vec<u32> {
        if self.one_inner {
            before(table)
        } else {
            table.to_vec()
        }
    }
}

/// Cases made before request 2026-01 hold by the judge of that time, and with four arcs each way unless they were refused as 10.
fn each_before_2026_01(name: &str, holds: impl Fn(Era, &[String])) {
    let then = Era { rules: Rules { each_way: 2, holds: false, self_arcs: true }, one_inner: true, longer_form: false, ties: Ties::ByNumber };
    let four = Era { rules: Rules { each_way: TODAY.each_way, ..then.rules }, ..then };
    for case in lines(name) {
        holds(then, &case);
        if !matches!(then.judged(&bytes(&case[0])), Err(10)) {
            each_holds(four, &case, &holds);
        }
    }
}

/// Cases made before request 2026-08 hold by the judge of that time, and by today's unless they were refused as 1 or 2.
fn each_holds(era: Era, case: &[String], holds: impl Fn(Era, &[String])) {
    with_and_without_35(era, case, &holds);
    if !era.rules.holds && !matches!(era.judged(&bytes(&case[0])), Err(1 | 2)) {
        with_and_without_35(era.with_holds(), case, &holds);
    }
}

/// Cases made before request 2026-09 hold by the judge of that time, and by one that refuses self-arcs unless it refuses them as 35.
fn with_and_without_35(era: Era, case: &[String], holds: impl Fn(Era, &[String])) {
    holds(era, case);
    let without = era.without_self_arcs();
    if era.rules.self_arcs && !matches!(without.judged(&bytes(&case[0])), Err(35)) {
        holds(without, case);
    }
}

/// The cases of a call among those of a request. Since request 2026-02 their tables are level by level, since 2026-06 in two forms, since 2026-07 equal keys
/// are chosen by height, since 2026-08 there are holds, and since 2026-09 no self-arcs.
fn each_of_a_request(request: &str, call: &str, holds: impl Fn(Era, &[String])) {
    let ties = if request < "2026-07" { Ties::ByNumber } else { Ties::ByHeight };
    let rules = Rules { holds: request >= "2026-08", self_arcs: request < "2026-09", ..TODAY };
    let era = Era { rules, one_inner: request < "2026-02", longer_form: request >= "2026-06", ties };
    let lines = lines(request);
    let cases: Vec<_> = lines.iter().filter(|case| case[0] == call).collect();
    assert!(!cases.is_empty());
    cases.iter().for_each(|case| each_holds(era, &case[1..], &holds));
}

fn each_of_the_requests(call: &str, holds: impl Fn(Era, &[String])) {
    each_since("2026-01", call, holds);
}

/// The same from the request on that brought the call.
fn each_since(first: &str, call: &str, holds: impl Fn(Era, &[String])) {
    REQUESTS.into_iter().filter(|request| *request >= first).for_each(|request| each_of_a_request(request, call, &holds));
}

fn judge_holds(era: Era, case: &[String]) {
    let expected = match case[1].parse().unwrap() {
        0 => Answer::Accepted,
        number => Answer::Refused(number),
    };
    assert_eq!(reference::judge_of(era.judged(&bytes(&case[0]))), expected, "{}", case[0]);
}

#[test]
fn judge_agrees() {
    each_before_2026_01("judge", judge_holds);
    each_of_the_requests("judge", judge_holds);
}

/// What is printed after `inner`: the figures of the sheet's heights or, with one inner count, their sum. Region 0 alone is as high as there are spans,
/// and a round works it once; above it all figures are 0.
fn inner_of(table: &[u32], spans: usize, one_inner: bool) -> Vec<u64> {
    let figures: Vec<u64> = (0..HEIGHTS).map(|at| table::count(table, 2 + at)).collect();
    assert_eq!(figures[spans - 1], table::count(table, 0));
    assert!(figures[spans..].iter().all(|figure| *figure == 0));
    match one_inner {
        true => vec![figures.iter().sum()],
        false => figures[..spans].to_vec(),
    }
}

/// What `marks` prints, its lines joined by '|'.
fn printed(era: Era, sheet: &[u8]) -> String {
    let judged = era.judged(sheet);
    let (mut table, spans) = match &judged {
        Ok(accepted) => (vec![0; table::length(accepted.sheet.nodes())], accepted.sheet.spans().len()),
        Err(number) => return format!("refused {number}"),
    };
    assert_eq!(reference::run_of(judged, era.ties, None, &mut table), Answer::Ended);
    listing::lines_with(&table, &inner_of(&table, spans, era.one_inner)).join("|")
}

/// A line has blanks, or '_' for them and a last '|'.
#[test]
fn run_agrees() {
    let holds = |era: Era, case: &[String]| {
        let expected = case[1..].join(" ").replace('_', " ");
        assert_eq!(printed(era, &bytes(&case[0])), expected.trim_end_matches('|'), "{}", case[0]);
    };
    each_before_2026_01("marks", holds);
    each_of_the_requests("marks", holds);
}

fn limited_run_holds(era: Era, case: &[String]) {
    let lent = vec![0xdead_beef; era.length(case[2].parse().unwrap())];
    if era.had_no_such_length(&bytes(&case[0]), lent.len()) {
        return assert_eq!(case[3], "state:21");
    }
    let mut table = lent.clone();
    let answered = reference::run_of(era.judged(&bytes(&case[0])), era.ties, Some(case[1].parse().unwrap()), &mut table);
    assert_eq!(answered, answer(&case[3]), "{}", case[0]);
    match case[4].as_str() {
        "-" => assert_eq!(table, lent, "{}", case[0]),
        expected => assert_eq!(era.left(&table), words(expected), "{}", case[0]),
    }
}

#[test]
fn limited_run_agrees() {
    each_before_2026_01("limited", limited_run_holds);
    each_of_the_requests("run", limited_run_holds);
}

fn route_holds(era: Era, case: &[String], arcs: &[u32]) {
    let before = vec![0xdead_beef; case[3].parse().unwrap()];
    let mut buffer = before.clone();
    let table = era.lent(words(&case[1]));
    if era.had_no_such_length(&bytes(&case[0]), table.len()) {
        return assert_eq!(case[4], "state:21");
    }
    let answered = reference::route_of(era.judged(&bytes(&case[0])), &table, case[2].parse().unwrap(), &mut buffer);
    assert_eq!(answered, answer(&case[4]), "{}", case[0]);
    assert_eq!(buffer[..arcs.len()], *arcs, "{}", case[0]);
    assert_eq!(buffer[arcs.len()..], before[arcs.len()..], "{}", case[0]);
}

/// The arcs are numbers with commas between them, or words in hexadecimal.
#[test]
fn route_agrees() {
    let numbers = |text: &str| text.split(',').filter(|arc| *arc != "-").map(|arc| arc.parse().unwrap()).collect::<Vec<u32>>();
    each_before_2026_01("route", |era, case| route_holds(era, case, &numbers(&case[5])));
    each_of_the_requests("route", |era, case| route_holds(era, case, &words(&case[5])));
}

/// Both programs: by the request's sentence, and linear.
#[test]
fn canonical_agrees() {
    let holds = |era: Era, case: &[String]| {
        for call in [reference::canonical_of, reference::canonical_linear_of] {
            let before = vec![0xa5; case[1].parse().unwrap()];
            let mut out = before.clone();
            assert_eq!(call(era.judged(&bytes(&case[0])), &mut out), answer(&case[2]), "{}", case[0]);
            let expected = bytes(&case[3]);
            assert_eq!(out[..expected.len()], expected, "{}", case[0]);
            assert_eq!(out[expected.len()..], before[expected.len()..], "{}", case[0]);
        }
    };
    each_since("2026-04", "canonical", holds);
}

/// Both programs: by the request's sentence, and in one pass.
#[test]
fn convert_agrees() {
    let holds = |_: Era, case: &[String]| {
        for call in [reference::convert, reference::convert_one_pass] {
            let before = vec![0xa5; case[1].parse().unwrap()];
            let mut out = before.clone();
            assert_eq!(call(&bytes(&case[0]), &mut out), answer(&case[2]), "{}", case[0]);
            let expected = bytes(&case[3]);
            assert_eq!(out[..expected.len()], expected, "{}", case[0]);
            assert_eq!(out[expected.len()..], before[expected.len()..], "{}", case[0]);
        }
    };
    each_since("2026-09", "convert", holds);
}

#[test]
fn resume_agrees() {
    let holds = |era: Era, case: &[String]| {
        let lent = words(&case[1]);
        let mut table = lent.clone();
        let answered = reference::resume_of(era.judged(&bytes(&case[0])), era.ties, case[2].parse().unwrap(), &mut table);
        assert_eq!(answered, answer(&case[3]), "{}", case[0]);
        assert_eq!(table, if case[4] == "-" { lent } else { words(&case[4]) }, "{}", case[0]);
    };
    each_since("2026-06", "resume", holds);
}

#[test]
fn distances_are_those_of_dijkstra() {
    for case in 0..3000 {
        let mut random = Random::of_case(1, case);
        let words = if case < 30 { sheets::full(&mut random) } else { sheets::any(&mut random) };
        let sheet = sheets::bytes(&words);
        let length = table::length((words[0] & TOP) as usize);
        let mut tables = [vec![0; length], vec![0; length]];
        assert_eq!(reference::run(&sheet, &mut tables[0]), Answer::Ended);
        assert_eq!(reference::run_dijkstra(&sheet, &mut tables[1]), Answer::Ended);
        let labels = |table: &[u32]| table[HEADER..].iter().step_by(2).copied().collect::<Vec<_>>();
        assert_eq!(labels(&tables[0]), labels(&tables[1]));
    }
}

#[test]
fn full_size_wide_halls_have_four_arcs_each_way() {
    for shape in WIDE {
        let hall = halls::regular(shape, shape.full_nodes(), &mut Random::new(9));
        assert_eq!((hall.nodes, hall.arcs.len()), (512, 2048));
        for node in 0..hall.nodes {
            assert_eq!(hall.arcs.iter().filter(|arc| arc.0 == node).count(), 4);
            assert_eq!(hall.arcs.iter().filter(|arc| arc.1 == node).count(), 4);
        }
    }
}
