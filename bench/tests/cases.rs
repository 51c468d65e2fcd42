//! The independent program against every case of the test program: for each line of `crates/cases/stdin` it answers what `crates/cases/stdout` has.
//! `crates/cases/src/main.rt` says what the lines are.

use bench::reference::judge::accepted;
use bench::reference::{self, listing, table, Answer};
use std::collections::BTreeMap;
use std::fmt::LowerHex;

/// What lent words and bytes hold before a call.
const FILLING: u32 = 0xc5c5_c5c5;

/// The bytes of the longest line, and the most words and bytes that are lent.
const ROOM: usize = 16 + 65_536;
const MOST_WORDS: usize = 4_608;
const MOST_BYTES: usize = 37_888;

fn text(name: &str) -> String {
    let path = format!("{}/../crates/cases/{name}", env!("CARGO_MANIFEST_DIR"));
    std::fs::read_to_string(&path).unwrap_or_else(|error| panic!("{path}: {error}"))
}

fn words(bytes: &[u8]) -> Vec<u32> {
    bytes.chunks_exact(4).map(|word| u32::from_be_bytes(word.try_into().unwrap())).collect()
}

struct Case {
    call: u32,
    number: u32,
    lent: usize,
    sheet: Vec<u8>,
    table: Vec<u32>,
}

impl Case {
    /// The case of a line, where it is one.
    fn of(line: &str) -> Option<Case> {
        let digits: Vec<u8> = line.bytes().filter(|sign| *sign != b' ').collect();
        if !digits.iter().all(|sign| matches!(sign, b'0'..=b'9' | b'a'..=b'f')) || digits.len() % 2 != 0 || digits.len() / 2 > ROOM {
            return None;
        }
        let value = |sign: u8| (sign as char).to_digit(16).unwrap() as u8;
        let bytes: Vec<u8> = digits.chunks_exact(2).map(|pair| value(pair[0]) << 4 | value(pair[1])).collect();
        let [call, number, lent, size] = words(bytes.get(..16)?)[..] else { return None };
        let rest = &bytes[16..];
        let (sheet, table) = (rest.get(..size as usize)?.to_vec(), &rest[size as usize..]);
        let most_lent = if matches!(call, 6 | 8) { MOST_BYTES } else { MOST_WORDS };
        let is_case = match call {
            4 | 7 => table.len() % 4 == 0 && table.len() / 4 <= MOST_WORDS,
            _ => matches!(call, 1..=6 | 8) && table.is_empty(),
        };
        (is_case && lent as usize <= most_lent).then(|| Case { call, number, lent: lent as usize, sheet, table: words(table) })
    }

    fn answered(&self) -> String {
        let mut lent = vec![FILLING; self.lent];
        let answer = match self.call {
            1 => reference::judge(&self.sheet),
            2 => reference::run(&self.sheet, &mut lent),
            3 => reference::run_limited(&self.sheet, self.number, &mut lent),
            4 => reference::route(&self.sheet, &self.table, self.number, &mut lent),
            5 => return self.listing(),
            6 => return self.written(reference::canonical),
            8 => return self.written(reference::convert),
            _ => {
                lent.iter_mut().zip(&self.table).for_each(|(place, word)| *place = *word);
                reference::resume(&self.sheet, self.number, &mut lent)
            }
        };
        line(answer, &lent, FILLING)
    }

    fn listing(&self) -> String {
        match accepted(&self.sheet) {
            Err(number) => format!("refused {number}"),
            Ok(accepted) => {
                let mut table = vec![0; table::length(accepted.sheet.nodes())];
                reference::run(&self.sheet, &mut table);
                listing::lines(&table, accepted.sheet.spans().len()).join("\n")
            }
        }
    }

    fn written(&self, call: fn(&[u8], &mut [u8]) -> Answer) -> String {
        let mut lent = vec![FILLING as u8; self.lent];
        let answer = call(&self.sheet, &mut lent);
        line(answer, &lent, FILLING as u8)
    }
}

/// The word that the test program prints for an answer.
fn word(answer: Answer) -> u32 {
    match answer {
        Answer::Refused(number @ (21..=25 | 32 | 33)) => 1 << 16 | number,
        Answer::Refused(number) => number,
        Answer::Accepted => 2 << 16,
        Answer::Ended => 3 << 16,
        Answer::Paused => 4 << 16,
        Answer::NoRoute => 5 << 16,
        Answer::Route(count) => 6 << 16 | count,
        Answer::Written(bytes) => 7 << 16 | bytes,
    }
}

/// The answer's word and what is lent, up to the last that is not the filling.
fn line<T: Copy + PartialEq + LowerHex>(answer: Answer, lent: &[T], filling: T) -> String {
    let used = lent.iter().rposition(|item| *item != filling).map_or(0, |last| last + 1);
    let digits = 2 * size_of::<T>();
    let held: String = lent[..used].iter().map(|item| format!("{item:0digits$x}")).collect();
    match used {
        0 => format!("{:08x}", word(answer)),
        _ => format!("{:08x} {held}", word(answer)),
    }
}

#[test]
fn every_case_agrees() {
    let (cases, expected) = (text("stdin"), text("stdout"));
    let mut left = &expected[..];
    let mut calls = BTreeMap::new();
    for (at, line) in cases.strip_suffix('\n').unwrap().split('\n').enumerate() {
        let case = Case::of(line);
        let answered = case.as_ref().map_or("unreadable".to_string(), Case::answered) + "\n";
        left = left.strip_prefix(&answered[..]).unwrap_or_else(|| {
            let found = &left[..left.len().min(200)];
            panic!("line {}: answered {answered}, expected {found}, case {}", at + 1, &line[..line.len().min(300)])
        });
        *calls.entry(case.map_or(0, |case| case.call)).or_insert(0) += 1;
    }
    assert!(left.is_empty());
    println!("cases by call, 0 for lines that are none: {calls:?}");
    assert!((0..=8).all(|call| calls.contains_key(&call)));
}
