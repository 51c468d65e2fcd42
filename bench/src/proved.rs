//! The seven calls of the proved library, as the numbers of their answers.

use pigrozk::Answer;

fn code(answer: Answer) -> u32 {
    match answer {
        Answer::Refused(number) => number as u32,
        Answer::Accepted => 256,
        Answer::Paused => 257,
        Answer::Ended => 258,
        Answer::NoRoute => 259,
        Answer::Route(count) => 65_536 + count as u32,
        Answer::Written(bytes) => 131_072 + bytes as u32,
    }
}

pub fn judge(sheet: &[u8]) -> u32 {
    code(pigrozk::judge(sheet))
}

pub fn run(sheet: &[u8], table: &mut [u32]) -> u32 {
    code(pigrozk::run(sheet, table))
}

pub fn run_limited(sheet: &[u8], rounds: u32, table: &mut [u32]) -> u32 {
    code(pigrozk::run_limited(sheet, rounds, table))
}

pub fn route(sheet: &[u8], table: &[u32], node: u32, buffer: &mut [u32]) -> u32 {
    code(pigrozk::route(sheet, table, node, buffer))
}

pub fn resume(sheet: &[u8], rounds: u32, table: &mut [u32]) -> u32 {
    code(pigrozk::resume(sheet, rounds, table))
}

pub fn canonical(sheet: &[u8], out: &mut [u8]) -> u32 {
    code(pigrozk::canonical(sheet, out))
}

pub fn convert(sheet: &[u8], out: &mut [u8]) -> u32 {
    code(pigrozk::convert(sheet, out))
}
