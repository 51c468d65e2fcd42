//! Travel times by nested regions: the seven proved calls, from Rust.
//!
//! None of them has a precondition: each answers for every sheet, table and buffer, and ends. A refusal leaves all that was lent as it was. What they
//! promise is stated in `crates/pigrozk/src/lib.rt`; `include/pigrozk.h` has the same calls for C.
//!
//! A sheet may have holds: after the spans a word of kind 13 for each node, the hundredths of a second that a parcel is stopped there. A route is as long as
//! its arcs and the holds of the nodes between its ends together; the source's own hold is never charged. Distances, routes and possible states are meant so.

/// The limits of a sheet that is accepted. A node may have `MOST_ARCS_EACH_WAY` arcs out of it, and as many into it. There are as many holds as nodes, or none.
/// `MOST_LENGTH` limits the length of an arc, and its length with its tail's hold added, 0 for the source; so the source, and a node without outgoing arcs, may
/// have any hold.
pub const MOST_BYTES: usize = 36_924;
pub const MOST_NODES: usize = 1_024;
pub const MOST_SPANS: usize = 15;
pub const MOST_SPAN: u32 = 1_000_000;
pub const MOST_ARCS: usize = 2_048;
pub const MOST_LENGTH: u32 = 262_143;
pub const MOST_ARCS_EACH_WAY: usize = 4;
pub const MOST_REGION_WORDS: usize = 4_094;

/// The counts of a table: rounds, leaves worked, inner regions worked at each of the heights 1 to `MOST_SPANS`, updates. Before the words of its nodes a
/// table has the status and two words for each count.
pub const COUNTS: usize = 3 + MOST_SPANS;
pub const HEADER_WORDS: usize = 1 + 2 * COUNTS;

/// The longest table of the usual form and of the longer one, and room for every route, in words.
pub const MOST_TABLE_WORDS: usize = table_words(MOST_NODES);
pub const MOST_LONGER_TABLE_WORDS: usize = longer_table_words(MOST_NODES, MOST_ARCS);
pub const MOST_ROUTE_WORDS: usize = MOST_NODES - 1;

/// The payload of a table word that says 'unreached' or 'no arc'.
pub const NONE: u32 = 268_435_455;

/// How many words a table has, for a sheet of so many nodes.
pub const fn table_words(nodes: usize) -> usize {
    HEADER_WORDS + 2 * nodes
}

/// How many words a longer table has: after the usual ones a word of kind 12 for each arc, 1 if the arc's leaf has a key, else 0. With no arcs both forms have
/// one length.
pub const fn longer_table_words(nodes: usize, arcs: usize) -> usize {
    table_words(nodes) + arcs
}

/// The counts that a table gives, which has `HEADER_WORDS` words at least. `inner` has a figure for each height from 1 on; it is 0 at a height that the sheet
/// has no span for.
#[derive(Clone, Copy, Debug, PartialEq, Eq)]
pub struct Counts {
    pub rounds: u64,
    pub leaves: u64,
    pub inner: [u64; MOST_SPANS],
    pub updates: u64,
}

impl Counts {
    pub fn of(table: &[u32]) -> Counts {
        let payload = |at: usize| u64::from(table[at] & NONE);
        let count = |at: usize| payload(1 + 2 * at) << 28 | payload(2 + 2 * at);
        Counts { rounds: count(0), leaves: count(1), inner: std::array::from_fn(|at| count(2 + at)), updates: count(COUNTS - 1) }
    }
}

/// What a call answers.
#[derive(Clone, Copy, Debug, PartialEq, Eq, Hash)]
pub enum Answer {
    /// The sheet is in order.
    Accepted,
    /// The rounds were made, and the run has not ended.
    Paused,
    /// The run has ended.
    Ended,
    /// The node is unreached.
    NoRoute,
    /// So many arcs stand at the front of the buffer.
    Route(usize),
    /// So many bytes stand at the front of the buffer.
    Written(usize),
    /// The number of the refusal; `fault` says what it is from.
    Refused(u8),
}

/// What a refusal is from.
#[derive(Clone, Copy, Debug, PartialEq, Eq, Hash)]
pub enum Fault {
    Input,
    State,
}

impl Answer {
    /// The answer that a code of the library says.
    fn of(code: u32) -> Answer {
        match code {
            256 => Answer::Accepted,
            257 => Answer::Paused,
            258 => Answer::Ended,
            259 => Answer::NoRoute,
            1..=99 => Answer::Refused(code as u8),
            65_536..=131_071 => Answer::Route((code - 65_536) as usize),
            131_072.. => Answer::Written((code - 131_072) as usize),
            _ => unreachable!("{code} is no code of the library"),
        }
    }

    /// Whether input or state was at fault: 21 to 25, 32 and 33 are from the state, the others from the input. Nothing for an answer that is no refusal.
    pub fn fault(self) -> Option<Fault> {
        match self {
            Answer::Refused(21 | 22 | 23 | 24 | 25 | 32 | 33) => Some(Fault::State),
            Answer::Refused(_) => Some(Fault::Input),
            _ => None,
        }
    }
}

mod library {
    extern "C" {
        pub fn pigrozk_judge(sheet: *const u8, bytes: usize) -> u32;
        pub fn pigrozk_run(sheet: *const u8, bytes: usize, table: *mut u32, words: usize) -> u32;
        pub fn pigrozk_run_limited(sheet: *const u8, bytes: usize, rounds: u32, table: *mut u32, words: usize) -> u32;
        pub fn pigrozk_route(
            sheet: *const u8,
            bytes: usize,
            table: *const u32,
            words: usize,
            node: u32,
            buffer: *mut u32,
            room: usize,
        ) -> u32;
        pub fn pigrozk_resume(sheet: *const u8, bytes: usize, rounds: u32, table: *mut u32, words: usize) -> u32;
        pub fn pigrozk_canonical(sheet: *const u8, bytes: usize, out: *mut u8, room: usize) -> u32;
        pub fn pigrozk_convert(sheet: *const u8, bytes: usize, out: *mut u8, room: usize) -> u32;
    }
}

// SAFETY, of all seven: a call reads and writes within the pairs of pointer and length alone, and these are those of slices.

/// Judges a sheet: `Accepted`, or `Refused` with 1 to 14, with 34, which is looked at after 9, or with 35, an arc from a node to itself, after 10.
pub fn judge(sheet: &[u8]) -> Answer {
    Answer::of(unsafe { library::pigrozk_judge(sheet.as_ptr(), sheet.len()) })
}

/// Runs a sheet to its end and fills the table, usual or longer: `Ended`, or `Refused` as by `judge`, or with 21 where it has the length of neither.
pub fn run(sheet: &[u8], table: &mut [u32]) -> Answer {
    Answer::of(unsafe { library::pigrozk_run(sheet.as_ptr(), sheet.len(), table.as_mut_ptr(), table.len()) })
}

/// The same for at most so many rounds: `Ended`, `Paused`, or `Refused` as by `judge` or with 21.
pub fn run_limited(sheet: &[u8], rounds: u32, table: &mut [u32]) -> Answer {
    Answer::of(unsafe { library::pigrozk_run_limited(sheet.as_ptr(), sheet.len(), rounds, table.as_mut_ptr(), table.len()) })
}

/// Goes on from a longer table for at most so many rounds more, by the spans of the sheet, and writes the new state over the old: `Ended`, `Paused`, or
/// `Refused` as by `judge`, with 32 where the table has not the longer length or a word is wrong, or with 33 where it is not a possible state. The sheet has
/// the nodes, source, holds, arcs and division of the one that the table is from; its spans may be others.
pub fn resume(sheet: &[u8], rounds: u32, table: &mut [u32]) -> Answer {
    Answer::of(unsafe { library::pigrozk_resume(sheet.as_ptr(), sheet.len(), rounds, table.as_mut_ptr(), table.len()) })
}

/// Reads the route to a node out of a finished table, usual or longer, into the front of the buffer: `Route`, `NoRoute`, or `Refused` as by `judge`, with 15 or
/// with 21 to 25.
pub fn route(sheet: &[u8], table: &[u32], node: u32, buffer: &mut [u32]) -> Answer {
    Answer::of(unsafe {
        library::pigrozk_route(sheet.as_ptr(), sheet.len(), table.as_ptr(), table.len(), node, buffer.as_mut_ptr(), buffer.len())
    })
}

/// Writes a sheet anew, its regions numbered parent first and depth first, children in order of the lowest arc that they hold, and all else as given, into the
/// front of `out`: `Written` with the sheet's own length in bytes, or `Refused` as by `judge`, or with 31 where `out` is shorter.
pub fn canonical(sheet: &[u8], out: &mut [u8]) -> Answer {
    Answer::of(unsafe { library::pigrozk_canonical(sheet.as_ptr(), sheet.len(), out.as_mut_ptr(), out.len()) })
}

/// Writes a sheet without its self-arcs, the arcs from a node to itself, into the front of `out`: these and their leaves are dropped, then inner regions other
/// than 0 that are left childless, until none is; what is left is numbered anew in its old order, and spans above the new height are dropped. `Written` with
/// the length in bytes, the sheet's own at most, or `Refused` as by `judge` with 35 left out, or with 31 where `out` is shorter.
pub fn convert(sheet: &[u8], out: &mut [u8]) -> Answer {
    Answer::of(unsafe { library::pigrozk_convert(sheet.as_ptr(), sheet.len(), out.as_mut_ptr(), out.len()) })
}
