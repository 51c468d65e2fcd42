//! The seven calls as a program of its own, written from the paper; it shares nothing with the proved crates.

pub mod canonical;
pub mod convert;
pub mod dijkstra;
pub mod judge;
pub mod linear;
pub mod listing;
pub mod neighbours;
pub mod nesting;
pub mod one_pass;
pub mod possible;
pub mod procedure;
pub mod route;
pub mod sheet;
pub mod slowed;
pub mod table;
pub mod travel;
pub mod work;

use judge::{accepted, accepted_by, Judged, CONVERTIBLE};
use procedure::Ties;
use sheet::Sheet;

/// The payload that stands for 'unreached', for the key 'none' and for 'no arc'.
pub const TOP: u32 = (1 << 28) - 1;

/// What a call answers.
#[derive(Clone, Copy, Debug, PartialEq, Eq)]
pub enum Answer {
    Accepted,
    Paused,
    Ended,
    NoRoute,
    Route(u32),
    Written(u32),
    Refused(u32),
}

impl Answer {
    /// The answer as the number that the library for C hands back.
    pub fn code(self) -> u32 {
        match self {
            Answer::Refused(number) => number,
            Answer::Accepted => 256,
            Answer::Paused => 257,
            Answer::Ended => 258,
            Answer::NoRoute => 259,
            Answer::Route(count) => 65_536 + count,
            Answer::Written(bytes) => 131_072 + bytes,
        }
    }
}

pub fn judge(bytes: &[u8]) -> Answer {
    judge_of(accepted(bytes))
}

pub fn run(bytes: &[u8], table: &mut [u32]) -> Answer {
    run_of(accepted(bytes), Ties::ByHeight, None, table)
}

pub fn run_limited(bytes: &[u8], rounds: u32, table: &mut [u32]) -> Answer {
    run_of(accepted(bytes), Ties::ByHeight, Some(rounds), table)
}

pub fn route(bytes: &[u8], table: &[u32], node: u32, buffer: &mut [u32]) -> Answer {
    route_of(accepted(bytes), table, node, buffer)
}

pub fn resume(bytes: &[u8], rounds: u32, table: &mut [u32]) -> Answer {
    resume_of(accepted(bytes), Ties::ByHeight, rounds, table)
}

fn resumable(accepted: judge::Accepted, table: &[u32]) -> Judged {
    let sheet = &accepted.sheet;
    if table.len() != table::longer(sheet) || route::wrong_form(sheet, table) {
        return Err(32);
    }
    match possible::broken(sheet, table).next() {
        Some(_) => Err(33),
        None => Ok(accepted),
    }
}

/// The canonical form by the request's sentence.
pub fn canonical(bytes: &[u8], out: &mut [u8]) -> Answer {
    canonical_of(accepted(bytes), out)
}

/// The same, written for speed.
pub fn canonical_linear(bytes: &[u8], out: &mut [u8]) -> Answer {
    canonical_linear_of(accepted(bytes), out)
}

/// The converted sheet by the request's sentence.
pub fn convert(bytes: &[u8], out: &mut [u8]) -> Answer {
    convert_of(accepted_by(CONVERTIBLE, bytes), out)
}

/// The same, written for speed.
pub fn convert_one_pass(bytes: &[u8], out: &mut [u8]) -> Answer {
    convert_one_pass_of(accepted_by(CONVERTIBLE, bytes), out)
}

/// Distances and feeding arcs by Dijkstra's procedure, in a table whose counts are 0.
pub fn run_dijkstra(bytes: &[u8], table: &mut [u32]) -> Answer {
    match fitting(accepted(bytes), table) {
        Err(number) => Answer::Refused(number),
        Ok(accepted) => dijkstra::run(&accepted.sheet, table),
    }
}

/// The calls on a sheet that has been judged, by whichever rules, and with whichever choice among equal keys.
pub fn judge_of(judged: Judged) -> Answer {
    match judged {
        Ok(_) => Answer::Accepted,
        Err(number) => Answer::Refused(number),
    }
}

pub fn run_of(judged: Judged, ties: Ties, limit: Option<u32>, table: &mut [u32]) -> Answer {
    match fitting(judged, table) {
        Err(number) => Answer::Refused(number),
        Ok(accepted) => procedure::run(&accepted, ties, limit, table),
    }
}

/// Goes on from a longer table: 32 "in the place of 21 and 22", then 33, then so many rounds.
pub fn resume_of(judged: Judged, ties: Ties, rounds: u32, table: &mut [u32]) -> Answer {
    match judged.and_then(|accepted| resumable(accepted, table)) {
        Err(number) => Answer::Refused(number),
        Ok(accepted) => procedure::resume(&accepted, ties, rounds, table),
    }
}

/// What was judged, refused as 21 where the table has the length of neither form.
fn fitting(judged: Judged, table: &[u32]) -> Judged {
    let accepted = judged?;
    match table::fits(&accepted.sheet, table.len()) {
        true => Ok(accepted),
        false => Err(21),
    }
}

pub fn route_of(judged: Judged, table: &[u32], node: u32, buffer: &mut [u32]) -> Answer {
    match judged.and_then(|accepted| route::arcs(&accepted.sheet, table, node)) {
        Err(number) => Answer::Refused(number),
        Ok(None) => Answer::NoRoute,
        Ok(Some(arcs)) if arcs.len() > buffer.len() => Answer::Refused(25),
        Ok(Some(arcs)) => {
            buffer[..arcs.len()].copy_from_slice(&arcs);
            Answer::Route(arcs.len() as u32)
        }
    }
}

pub fn canonical_of(judged: Judged, out: &mut [u8]) -> Answer {
    written_of(judged, |sheet| words_written(out, &canonical::words(sheet)))
}

/// The form has the sheet's own length.
pub fn canonical_linear_of(judged: Judged, out: &mut [u8]) -> Answer {
    let length = |sheet: &Sheet| 4 * (sheet.before_regions().len() + sheet.regions().len());
    written_of(judged, |sheet| written(out, length(sheet), |front| linear::write(sheet, front)))
}

/// The sheet is judged as a convertible one.
pub fn convert_of(judged: Judged, out: &mut [u8]) -> Answer {
    written_of(judged, |sheet| words_written(out, &convert::words(sheet)))
}

pub fn convert_one_pass_of(judged: Judged, out: &mut [u8]) -> Answer {
    written_of(judged, |sheet| {
        let conversion = one_pass::Conversion::of(sheet);
        written(out, conversion.bytes(), |front| conversion.write(front))
    })
}

fn written_of(judged: Judged, write: impl FnOnce(&Sheet) -> Answer) -> Answer {
    match judged {
        Err(number) => Answer::Refused(number),
        Ok(accepted) => write(&accepted.sheet),
    }
}

fn words_written(out: &mut [u8], words: &[u32]) -> Answer {
    written(out, 4 * words.len(), |front| {
        for (place, word) in front.chunks_exact_mut(4).zip(words) {
            place.copy_from_slice(&word.to_be_bytes());
        }
    })
}

/// Writes the first so many bytes, or refuses with 31 where there are fewer.
fn written(out: &mut [u8], bytes: usize, write: impl FnOnce(&mut [u8])) -> Answer {
    match out.get_mut(..bytes) {
        None => Answer::Refused(31),
        Some(front) => {
            write(front);
            Answer::Written(bytes as u32)
        }
    }
}
