//! The seven calls through the wrapper: the paper's cases on hall A, lengths at the edge, and the samples, whose listings come from another program.
use pigrozk::{canonical, convert, judge, longer_table_words, resume, route, run, run_limited, table_words, Answer, Counts, Fault};
use pigrozk::{COUNTS, HEADER_WORDS, MOST_ARCS_EACH_WAY, MOST_BYTES, MOST_LONGER_TABLE_WORDS, MOST_SPANS, MOST_TABLE_WORDS, NONE};
use std::fmt::Write;
use std::path::{Path, PathBuf};

const PATTERN: u32 = 0x5eed_5eed;

fn samples() -> PathBuf {
    Path::new(env!("CARGO_MANIFEST_DIR")).join("../samples")
}

/// The bytes of a sheet that is written as words of eight hexadecimal digits; '#' starts a comment.
fn sheet_of(text: &str) -> Vec<u8> {
    let words = text.lines().flat_map(|line| line.split('#').next().unwrap_or("").split_whitespace());
    words.flat_map(|word| u32::from_str_radix(word, 16).expect("a word").to_be_bytes()).collect()
}

fn sample(name: &str) -> Vec<u8> {
    sheet_of(&std::fs::read_to_string(samples().join(name).with_extension("hex")).expect("a sample"))
}

/// A table for the sheet, as a run to its end leaves it.
fn ended(sheet: &[u8], nodes: usize) -> Vec<u32> {
    let mut table = vec![PATTERN; table_words(nodes)];
    assert_eq!(run(sheet, &mut table), Answer::Ended);
    table
}

fn payload(word: u32) -> u32 {
    word & NONE
}

/// The spans of a sheet.
fn spans_of(sheet: &[u8]) -> Vec<u32> {
    let words = sheet.chunks(4).map(|word| u32::from_be_bytes(word.try_into().expect("a word")));
    words.filter(|word| word >> 28 == 3).map(payload).collect()
}

/// What is printed of a table in the usual form, with an inner figure for each span of the sheet. The figures of other heights are 0.
fn listing(sheet: &[u8], table: &[u32]) -> String {
    let spans = spans_of(sheet).len();
    let shown = |word: u32| if payload(word) == NONE { "-".to_string() } else { payload(word).to_string() };
    let counts = Counts::of(table);
    assert!(counts.inner[spans..].iter().all(|figure| *figure == 0));
    let inner = counts.inner[..spans].iter().map(u64::to_string).collect::<Vec<_>>().join(" ");
    let status = ["paused", "ended"][payload(table[0]) as usize];
    let mut text = format!("{status} rounds {} leaves {} inner {inner} updates {}\n", counts.rounds, counts.leaves, counts.updates);
    for (node, words) in table[HEADER_WORDS..].chunks(2).enumerate() {
        writeln!(text, "{node} {} {}", shown(words[0]), shown(words[1])).expect("written");
    }
    text
}

#[test]
fn samples_as_listed() {
    let mut tried = 0;
    for entry in std::fs::read_dir(samples()).expect("samples/") {
        let path = entry.expect("an entry").path();
        if path.extension().is_some_and(|kind| kind == "hex") {
            let sheet = sheet_of(&std::fs::read_to_string(&path).expect("a sample"));
            let expected = std::fs::read_to_string(path.with_extension("txt")).expect("its listing");
            let nodes = u32::from_be_bytes([0, sheet[1], sheet[2], sheet[3]]) as usize;
            let mut table = vec![PATTERN; table_words(nodes)];
            let printed = match run(&sheet, &mut table) {
                Answer::Refused(number) => format!("refused {number}\n"),
                Answer::Ended => listing(&sheet, &table),
                other => panic!("{other:?}"),
            };
            assert_eq!(printed, expected, "{}", path.display());
            tried += 1;
        }
    }
    assert!(tried >= 13);
}

#[test]
fn judged() {
    let mut sheet = sample("hall-a");
    assert_eq!(judge(&sheet), Answer::Accepted);
    assert_eq!(judge(&sheet[..71]), Answer::Refused(1));
    assert_eq!(judge(&[]), Answer::Refused(2));
    sheet[3] = 0;
    assert_eq!(judge(&sheet), Answer::Refused(4));
}

/// Two nodes with so many arcs from each to the other, all on region 0.
fn joined(arcs: u32) -> Vec<u8> {
    let ends = (0..2 * arcs).flat_map(|arc| [0x4000_0000 | if arc < arcs { 1 } else { 1 << 10 }, 0x5000_0001]);
    let leaves = (0..2 * arcs).map(|arc| 0x7000_0000 | arc);
    [0x1000_0002, 0x2000_0000, 0x3000_0001].into_iter().chain(ends).chain(leaves).flat_map(u32::to_be_bytes).collect()
}

#[test]
fn arcs_each_way() {
    assert_eq!(judge(&joined(MOST_ARCS_EACH_WAY as u32)), Answer::Accepted);
    assert_eq!(judge(&joined(MOST_ARCS_EACH_WAY as u32 + 1)), Answer::Refused(10));
}

/// The words before those of the nodes, for counts below 2^28 and a sheet of two heights.
fn header(status: u32, rounds: u32, leaves: u32, inner: [u32; 2], updates: u32) -> Vec<u32> {
    let mut words = vec![11 << 28; HEADER_WORDS];
    words[0] = 8 << 28 | status;
    for (at, count) in [(0, rounds), (1, leaves), (2, inner[0]), (3, inner[1]), (COUNTS - 1, updates)] {
        words[2 + 2 * at] |= count;
    }
    words
}

#[test]
fn rounds() {
    let sheet = sample("hall-a");
    let mut table = ended(&sheet, 4);
    assert_eq!(run_limited(&sheet, 0, &mut table), Answer::Paused);
    assert_eq!(table[..HEADER_WORDS], header(0, 0, 0, [0, 0], 6));
    assert_eq!(run_limited(&sheet, 1, &mut table), Answer::Paused);
    assert_eq!(table[..HEADER_WORDS], header(0, 1, 2, [1, 1], 8));
    assert_eq!(run_limited(&sheet, u32::MAX, &mut table), Answer::Ended);
    assert_eq!(table[..HEADER_WORDS], header(1, 3, 5, [3, 3], 13));
    assert_eq!(table, ended(&sheet, 4));
}

#[test]
fn counts_of_a_table() {
    let inner: [u64; MOST_SPANS] = std::array::from_fn(|at| (at as u64 + 3) << 28 | 7 + at as u64);
    let halves = [[1, 2], [0, 4]].into_iter().chain(inner.map(|figure| [(figure >> 28) as u32, figure as u32 & NONE])).chain([[NONE, NONE]]);
    let table: Vec<u32> = std::iter::once(8 << 28).chain(halves.flatten().map(|half| 11 << 28 | half)).collect();
    assert_eq!((table.len(), table_words(0)), (37, 37));
    assert_eq!(Counts::of(&table), Counts { rounds: (1 << 28) + 2, leaves: 4, inner, updates: (1 << 56) - 1 });
}

/// One word less and one more than is right, and the 9 + 2n words of a table with one inner count.
#[test]
fn tables_of_other_lengths() {
    let sheet = sample("hall-a");
    for words in [0, 17, table_words(4) - 1, table_words(4) + 1, MOST_TABLE_WORDS] {
        let mut table = vec![PATTERN; words];
        assert_eq!(run(&sheet, &mut table), Answer::Refused(21));
        assert_eq!(run_limited(&sheet, 1, &mut table), Answer::Refused(21));
        assert_eq!(route(&sheet, &table, 3, &mut []), Answer::Refused(21));
        assert_eq!(table, vec![PATTERN; words]);
    }
}

#[test]
fn routes() {
    let sheet = sample("hall-a");
    let mut table = ended(&sheet, 4);
    let mut buffer = [PATTERN; 5];
    assert_eq!(route(&sheet, &table, 3, &mut buffer[..2]), Answer::Refused(25));
    assert_eq!(route(&sheet, &table, 4, &mut buffer), Answer::Refused(15));
    assert_eq!(route(&sheet, &table, 0, &mut []), Answer::Route(0));
    assert_eq!(buffer, [PATTERN; 5]);
    assert_eq!(route(&sheet, &table, 3, &mut buffer), Answer::Route(3));
    assert_eq!(buffer, [1, 2, 3, PATTERN, PATTERN]);
    table[HEADER_WORDS + 2 * 3] += 1;
    assert_eq!(route(&sheet, &table, 3, &mut buffer), Answer::Refused(24));
    table[0] -= 1;
    assert_eq!(route(&sheet, &table, 3, &mut buffer), Answer::Refused(23));
}

#[test]
fn no_route() {
    let sheet = sample("unreached");
    let nodes = u32::from_be_bytes([0, sheet[1], sheet[2], sheet[3]]) as usize;
    let table = ended(&sheet, nodes);
    let unreached = (0..nodes).find(|node| payload(table[HEADER_WORDS + 2 * node]) == NONE).expect("an unreached node");
    assert_eq!(route(&sheet, &table, unreached as u32, &mut []), Answer::NoRoute);
}

/// Hall A's longer table after so many rounds.
fn longer(sheet: &[u8], rounds: u32) -> Vec<u32> {
    let mut table = vec![PATTERN; longer_table_words(4, 4)];
    assert_ne!(run_limited(sheet, rounds, &mut table), Answer::Refused(21));
    table
}

/// The key words of hall A's longer table.
fn keys(table: &[u32]) -> [u32; 4] {
    table[table_words(4)..].try_into().expect("four words")
}

#[test]
fn longer_tables() {
    let sheet = sample("hall-a");
    assert_eq!((longer_table_words(4, 4), MOST_LONGER_TABLE_WORDS), (49, 4133));
    let words = |keyed: [u32; 4]| keyed.map(|key| 12 << 28 | key);
    for (rounds, keyed) in [(0, [1, 1, 0, 0]), (1, [0, 1, 0, 0]), (2, [0, 0, 0, 1]), (3, [0; 4]), (u32::MAX, [0; 4])] {
        let table = longer(&sheet, rounds);
        let mut usual = vec![PATTERN; table_words(4)];
        run_limited(&sheet, rounds, &mut usual);
        assert_eq!((&table[..table_words(4)], keys(&table)), (&usual[..], words(keyed)));
    }
    let mut table = vec![PATTERN; longer_table_words(4, 4)];
    assert_eq!(run(&sheet, &mut table), Answer::Ended);
    assert_eq!(table, longer(&sheet, 3));
    let mut buffer = [PATTERN; 3];
    assert_eq!(route(&sheet, &table, 3, &mut buffer), Answer::Route(3));
    assert_eq!(buffer, [1, 2, 3]);
    table[48] = 12 << 28 | 2;
    assert_eq!(route(&sheet, &table, 3, &mut buffer), Answer::Refused(22));
}

#[test]
fn rounds_in_parts() {
    let sheet = sample("hall-a");
    for (before, more) in [(0, 0), (0, 1), (0, 3), (1, 1), (1, 2), (2, 1), (2, 9), (3, 1)] {
        let mut table = longer(&sheet, before);
        let answer = resume(&sheet, more, &mut table);
        assert_eq!(table, longer(&sheet, before + more));
        assert_eq!(answer, if before + more < 3 { Answer::Paused } else { Answer::Ended });
    }
}

/// Three rounds with the spans of `practical-first`, the rest with those of `practical-then`.
#[test]
fn practical() {
    let mut text = String::new();
    let sheets = ["practical-first", "practical-then"].map(sample);
    let mut table = vec![PATTERN; longer_table_words(7, 9)];
    assert_eq!(run_limited(&sheets[0], 3, &mut table), Answer::Paused);
    for (sheet, rounds) in sheets.iter().zip([0, u32::MAX]) {
        assert_ne!(resume(sheet, rounds, &mut table), Answer::Refused(33));
        let shown = |numbers: Vec<u32>| numbers.iter().map(|number| format!(" {number}")).collect::<String>();
        let (usual, keys) = table.split_at(table_words(7));
        let keyed: Vec<u32> = (0..9).filter(|arc| payload(keys[*arc as usize]) == 1).collect();
        let keys = if keyed.is_empty() { " -".to_string() } else { shown(keyed) };
        write!(text, "spans{}\n{}keys{keys}\n", shown(spans_of(sheet)), listing(sheet, usual)).expect("written");
    }
    assert_eq!(text, std::fs::read_to_string(samples().join("practical.txt")).expect("its text"));
}

#[test]
fn tables_that_are_refused() {
    let sheet = sample("hall-a");
    let table = longer(&sheet, 1);
    let refused = |number: u8, sheet: &[u8], words: &[u32]| {
        let mut lent = words.to_vec();
        assert_eq!(resume(sheet, 1, &mut lent), Answer::Refused(number));
        assert_eq!(lent, words);
    };
    let with = |at: usize, word: u32| [&table[..at], &[word], &table[at + 1..]].concat();
    refused(1, &sheet[..71], &table[1..]);
    refused(32, &sheet, &table[..table_words(4)]);
    refused(32, &sheet, &with(48, 12 << 28 | 2));
    refused(32, &sheet, &with(HEADER_WORDS + 1, 10 << 28 | 4));
    for (at, word) in [(0, 8 << 28 | 1), (1, 11 << 28 | 1 << 27), (9, 11 << 28 | 1), (HEADER_WORDS, 9 << 28 | 1), (HEADER_WORDS + 2, 9 << 28 | 3)] {
        refused(33, &sheet, &with(at, word));
    }
}

/// Hall A with other words for its regions.
fn hall_a(regions: [u32; 6]) -> Vec<u8> {
    let mut sheet = sample("hall-a");
    sheet.splice(48.., regions.into_iter().flat_map(u32::to_be_bytes));
    sheet
}

#[test]
fn canonical_forms() {
    let form = hall_a([0x6000_0000, 0x7000_0800, 0x7000_0803, 0x6000_0000, 0x7000_2001, 0x7000_2002]);
    let renumbered = hall_a([0x6000_0000, 0x7000_0802, 0x6000_0000, 0x7000_1803, 0x7000_0801, 0x7000_1800]);
    for sheet in [&sample("hall-a"), &renumbered, &form] {
        let mut out = [0x5e; 75];
        assert_eq!(canonical(sheet, &mut out), Answer::Written(72));
        assert_eq!(out, *[&form[..], &[0x5e; 3]].concat());
        assert_eq!(canonical(sheet, &mut out[3..]), Answer::Written(72));
        assert_eq!(out, *[&form[..3], &form].concat());
    }
    assert_eq!(judge(&form), Answer::Accepted);
}

#[test]
fn short_buffers_for_canonical_forms() {
    let sheet = sample("hall-a");
    let mut out = [0x5e; 72];
    assert_eq!(canonical(&sheet, &mut out[..71]), Answer::Refused(31));
    assert_eq!(canonical(&sheet, &mut []), Answer::Refused(31));
    assert_eq!(canonical(&sheet[..71], &mut []), Answer::Refused(1));
    assert_eq!(canonical(&sheet[..68], &mut out[..67]), Answer::Refused(12));
    assert_eq!(out, [0x5e; 72]);
}

/// The samples `hall-a`, `renumbered` and `neat` have one canonical form, which is the last of them.
#[test]
fn one_canonical_form() {
    let neat = sample("neat");
    for name in ["hall-a", "renumbered", "neat"] {
        let mut form = vec![0x5e; neat.len()];
        assert_eq!(canonical(&sample(name), &mut form), Answer::Written(neat.len()), "{name}");
        assert_eq!(form, neat, "{name}");
    }
}

/// Every accepted sample: its form is accepted, its own form, and has the same distances.
#[test]
fn canonical_forms_of_the_samples() {
    let mut tried = 0;
    for entry in std::fs::read_dir(samples()).expect("samples/") {
        let path = entry.expect("an entry").path();
        if path.extension().is_none_or(|kind| kind != "hex") {
            continue;
        }
        let sheet = sheet_of(&std::fs::read_to_string(&path).expect("a sample"));
        let mut form = vec![0x5e; sheet.len()];
        if let Answer::Refused(number) = judge(&sheet) {
            assert_eq!(canonical(&sheet, &mut form), Answer::Refused(number));
            assert_eq!(form, vec![0x5e; sheet.len()]);
            continue;
        }
        assert_eq!(canonical(&sheet, &mut form), Answer::Written(sheet.len()));
        let mut again = vec![0; sheet.len()];
        assert_eq!(canonical(&form, &mut again), Answer::Written(sheet.len()));
        assert_eq!(again, form);
        let nodes = u32::from_be_bytes([0, sheet[1], sheet[2], sheet[3]]) as usize;
        let distances = |sheet: &[u8]| ended(sheet, nodes)[HEADER_WORDS..].iter().step_by(2).copied().collect::<Vec<u32>>();
        assert_eq!(distances(&form), distances(&sheet), "{}", path.display());
        tried += 1;
    }
    assert!(tried >= 8);
}

/// Hall A with these holds.
fn held(holds: &[u32]) -> Vec<u8> {
    let mut sheet = sample("hall-a");
    sheet.splice(16..16, holds.iter().flat_map(|hold| (13 << 28 | hold).to_be_bytes()));
    sheet
}

/// The detour by node 2 is now the longer way to node 1: 1 + 3 + 2 and not 4. Node 0 is the source, and node 3 is passed by no route: their holds don't matter.
#[test]
fn runs_with_holds() {
    let listed = "ended rounds 2 leaves 4 inner 2 2 updates 10\n0 0 -\n1 4 0\n2 1 1\n3 19 3\n";
    for sheet in [held(&[100, 10, 3, 7]), held(&[0, 10, 3, 0]), held(&[NONE, 10, 3, NONE])] {
        assert_eq!(judge(&sheet), Answer::Accepted);
        assert_eq!(listing(&sheet, &ended(&sheet, 4)), listed);
        assert_eq!(longer(&sheet, 2)[..table_words(4)], ended(&sheet, 4));
        assert_eq!(payload(longer(&sheet, 1)[HEADER_WORDS + 2 * 3]), 19);
    }
    assert_eq!(ended(&held(&[0; 4]), 4), ended(&sample("hall-a"), 4));
}

#[test]
fn routes_with_holds() {
    let sheet = held(&[100, 10, 3, 7]);
    let mut buffer = [PATTERN; 3];
    assert_eq!(route(&sheet, &ended(&sheet, 4), 3, &mut buffer), Answer::Route(2));
    assert_eq!(buffer, [0, 3, PATTERN]);
    for (other, answer) in [(held(&[0, 10, 2, 0]), Answer::Route(2)), (held(&[0, 9, 3, 0]), Answer::Refused(24)), (held(&[]), Answer::Refused(24))] {
        assert_eq!(route(&sheet, &ended(&other, 4), 3, &mut buffer), answer);
    }
}

#[test]
fn resumes_with_holds() {
    let sheet = held(&[100, 10, 3, 7]);
    for (before, more) in [(0, 0), (0, 1), (0, 2), (1, 0), (1, 1), (1, 9), (2, 1)] {
        let mut table = longer(&sheet, before);
        let answer = resume(&sheet, more, &mut table);
        assert_eq!(table, longer(&sheet, before + more));
        assert_eq!(answer, if before + more < 2 { Answer::Paused } else { Answer::Ended });
    }
    let mut table = longer(&sample("hall-a"), 1);
    assert_eq!(resume(&sheet, 1, &mut table), Answer::Refused(33));
    assert_eq!(table, longer(&sample("hall-a"), 1));
}

/// 34 is what is above 262,143 together with the tail's hold; node 1 has an arc of length 5 and node 2 one of length 2.
#[test]
fn holds_that_are_refused() {
    for holds in [[0, 262_139, 0, 0], [0, 0, 262_142, 0], [NONE, NONE, 0, 0]] {
        assert_eq!(judge(&held(&holds)), Answer::Refused(34));
    }
    assert_eq!(judge(&held(&[NONE, 262_138, 262_141, NONE])), Answer::Accepted);
    for holds in [&[0; 1][..], &[0; 3], &[0; 5], &[0; 8]] {
        assert_eq!(judge(&held(holds)), Answer::Refused(2));
    }
    let sheet = held(&[0, NONE, 0, 0]);
    let mut table = [PATTERN; 49];
    assert_eq!(run(&sheet, &mut table), Answer::Refused(34));
    assert_eq!(run_limited(&sheet, 1, &mut table), Answer::Refused(34));
    assert_eq!(resume(&sheet, 1, &mut table), Answer::Refused(34));
    assert_eq!(route(&sheet, &[], 4, &mut table), Answer::Refused(34));
    assert_eq!(table, [PATTERN; 49]);
}

#[test]
fn canonical_forms_with_holds() {
    let sheet = held(&[100, 10, 3, 7]);
    let mut form = vec![0x5e; sheet.len()];
    assert_eq!(canonical(&sheet, &mut form), Answer::Written(88));
    let mut neat = sample("neat");
    neat.splice(16..16, sheet[16..32].iter().copied());
    assert_eq!(form, neat);
    assert_eq!(canonical(&held(&[0, NONE, 0, 0]), &mut form), Answer::Refused(34));
    assert_eq!(form, neat);
}

/// Hall A with two self-arcs, as arcs 1 and 4, and so many of these holds. Arc 1, from node 1, is alone in region 4, which is alone in region 3, so that
/// region 0 has height 3 and the third span is 9; arc 4, from node 0, is in region 2.
fn with_self_arcs(holds: &[u32]) -> Vec<u8> {
    let arcs = [(0, 1, 4), (1, 1, 7), (0, 2, 1), (2, 1, 2), (0, 0, 0), (1, 3, 5)];
    let arcs = arcs.into_iter().flat_map(|(tail, head, length)| [4 << 28 | tail << 10 | head, 5 << 28 | length]);
    let inner = [0, 0, 0, 3].map(|parent| 6 << 28 | parent);
    let leaves = [(4, 1), (1, 0), (1, 5), (2, 4), (2, 2), (2, 3)].map(|(parent, arc)| 7 << 28 | parent << 11 | arc);
    let spans = [0x1000_0004, 0x2000_0000, 0x3000_0002, 0x3000_0001, 0x3000_0009];
    let holds = holds.iter().map(|hold| 13 << 28 | hold);
    spans.into_iter().chain(holds).chain(arcs).chain(inner).chain(leaves).flat_map(u32::to_be_bytes).collect()
}

/// Without them it is hall A: regions 3 and 4 and the third span go with arc 1.
#[test]
fn conversions() {
    let holds = [100, 10, 3, 7];
    for (sheet, expected) in [(with_self_arcs(&[]), sample("hall-a")), (with_self_arcs(&holds), held(&holds))] {
        let bytes = expected.len();
        let mut out = vec![0x5e; bytes + 3];
        assert_eq!(convert(&sheet, &mut out), Answer::Written(bytes));
        assert_eq!(out, [&expected[..], &[0x5e; 3]].concat());
        assert_eq!(convert(&expected, &mut out[3..]), Answer::Written(bytes));
        assert_eq!(out, [&expected[..3], &expected].concat());
    }
}

/// A childless region 0 has height 1: one span stays, the first.
#[test]
fn conversions_without_arcs() {
    let front = [0x1000_0001, 0x2000_0000, 0x3000_0005].map(u32::to_be_bytes).concat();
    let rest = [0x3000_0006, 0x4000_0000, 0x5000_0001, 0x6000_0000, 0x7000_0800].map(u32::to_be_bytes).concat();
    let mut out = [0x5e; 32];
    assert_eq!(convert(&[&front[..], &rest].concat(), &mut out), Answer::Written(12));
    assert_eq!(out, *[&front[..], &[0x5e; 20]].concat());
}

#[test]
fn short_buffers_for_conversions() {
    let sheet = with_self_arcs(&[]);
    let mut out = [0x5e; 108];
    assert_eq!(convert(&sheet, &mut out[..71]), Answer::Refused(31));
    assert_eq!(convert(&sheet, &mut []), Answer::Refused(31));
    assert_eq!(convert(&sheet[..107], &mut []), Answer::Refused(1));
    assert_eq!(convert(&sheet[..104], &mut out), Answer::Refused(12));
    assert_eq!(convert(&with_self_arcs(&[0, NONE, 0, 0]), &mut out), Answer::Refused(34));
    assert_eq!(out, [0x5e; 108]);
    assert_eq!(convert(&sheet, &mut out[..72]), Answer::Written(72));
    assert_eq!(out[72..], [0x5e; 36]);
}

/// 35 is refused by every other call, before 11 to 14 and 31, and after 10: five self-arcs at one node are 10.
#[test]
fn self_arcs_are_refused() {
    let sheet = with_self_arcs(&[]);
    let mut table = [PATTERN; 51];
    let mut out = [0x5e; 108];
    assert_eq!(judge(&sheet), Answer::Refused(35));
    assert_eq!(judge(&sheet[..104]), Answer::Refused(35));
    assert_eq!(run(&sheet, &mut table), Answer::Refused(35));
    assert_eq!(run_limited(&sheet, 1, &mut table[..45]), Answer::Refused(35));
    assert_eq!(resume(&sheet, 1, &mut table), Answer::Refused(35));
    assert_eq!(route(&sheet, &[], 4, &mut table), Answer::Refused(35));
    assert_eq!(canonical(&sheet, &mut out), Answer::Refused(35));
    assert_eq!(canonical(&sheet, &mut []), Answer::Refused(35));
    assert_eq!((table, out), ([PATTERN; 51], [0x5e; 108]));
    let front = [0x1000_0001, 0x2000_0000, 0x3000_0001];
    let crowded = [&front[..], &[0x4000_0000, 0x5000_0000].repeat(5)].concat();
    let crowded: Vec<u8> = crowded.into_iter().flat_map(u32::to_be_bytes).collect();
    assert_eq!((judge(&crowded), convert(&crowded, &mut out)), (Answer::Refused(10), Answer::Refused(10)));
}

/// The sample `recirculating` becomes `converted`.
#[test]
fn conversion_of_a_sample() {
    let mut out = sample("recirculating");
    assert_eq!(convert(&sample("recirculating"), &mut out), Answer::Written(sample("converted").len()));
    assert_eq!(out[..sample("converted").len()], sample("converted"));
}

/// Every sample that is accepted is its own conversion; one that is refused as 35 has one, which is accepted; others are refused alike.
#[test]
fn conversions_of_the_samples() {
    let mut tried = [0; 3];
    for entry in std::fs::read_dir(samples()).expect("samples/") {
        let path = entry.expect("an entry").path();
        if path.extension().is_none_or(|kind| kind != "hex") {
            continue;
        }
        let sheet = sheet_of(&std::fs::read_to_string(&path).expect("a sample"));
        let mut out = sheet.clone();
        let answer = convert(&sheet, &mut out);
        match (judge(&sheet), answer) {
            (Answer::Accepted, Answer::Written(bytes)) => assert_eq!((bytes, &out), (sheet.len(), &sheet)),
            (Answer::Refused(35), Answer::Written(bytes)) => assert_eq!(judge(&out[..bytes]), Answer::Accepted),
            (judged, _) => assert_eq!((judged, &out), (answer, &sheet)),
        }
        let sort = match answer {
            Answer::Written(bytes) => (bytes < sheet.len()) as usize,
            _ => 2,
        };
        tried[sort] += 1;
    }
    assert!(tried.into_iter().all(|count| count > 0), "{tried:?}");
}

/// As many bytes as a sheet may have are not refused as 1, and one word more is.
#[test]
fn bytes_of_a_sheet() {
    assert_eq!(judge(&vec![0; MOST_BYTES]), Answer::Refused(2));
    assert_eq!(judge(&vec![0; MOST_BYTES + 4]), Answer::Refused(1));
}

#[test]
fn faults() {
    for number in (1..=15).chain([31, 34, 35]) {
        assert_eq!(Answer::Refused(number).fault(), Some(Fault::Input));
    }
    for number in (21..=25).chain([32, 33]) {
        assert_eq!(Answer::Refused(number).fault(), Some(Fault::State));
    }
    assert_eq!(Answer::Written(31).fault(), None);
}
