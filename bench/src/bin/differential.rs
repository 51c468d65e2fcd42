//! The seven proved calls against the independent program, on generated sheets: `differential [CASES] [SEED]`.
//!
//! Compared are the answers, every word or byte of the tables and buffers lent and of what lies around them, and that a refusal changed nothing. Every
//! table left as ended is held to request 2026-03, the canonical forms of some sheets to request 2026-04, every refusal with 2 to the list of cases of
//! request 2026-05 and to the number of holds, rounds made in parts and with other spans to request 2026-06, distances to routes as request 2026-08 measures
//! them, converted sheets to request 2026-09, and the tables of two sheets that differ in one length or one hold to request 2026-10. Ends with 1 at the first
//! difference, or if a refusal number, an answer, a number of arcs one way, a sort of ended tables, a change to a sheet, two kinds next to each other, a broken
//! clause of a possible state, a sort of resumed tables, a table that the choice among equal keys of request 2026-07 changes, a sort of sheets with holds, a
//! sort of conversions or a sort of pairs of sheets were never seen, or no inner region of some height was worked.

use bench::generate::changes::{self, Change, CHANGES};
use bench::generate::random::Random;
use bench::generate::{damage, kinds, sheets, tables};
use bench::proved;
use bench::reference::dijkstra::distances;
use bench::reference::judge::{accepted, accepted_by, Judged, CONVERTIBLE, MOST_BYTES, MOST_EACH_WAY, MOST_LENGTH};
use bench::reference::neighbours::{self, Place, PLACES};
use bench::reference::nesting::alike;
use bench::reference::possible::{broken, Clause, CLAUSES};
use bench::reference::procedure::Ties;
use bench::reference::sheet::{is_leaf, kind, leaf_arc, parent, payload, words, Arc, Sheet};
use bench::reference::slowed::Slowed;
use bench::reference::table::{self, HEIGHTS};
use bench::reference::work::Work;
use bench::reference::{self, Answer, TOP};
use std::collections::{BTreeMap, BTreeSet};
use std::fmt::{LowerHex, Write};
use std::process::ExitCode;
use std::time::Instant;

const CASES: u64 = 1_000_000;
const SEED: u64 = 20_260;
const GUARD: usize = 4;

/// Of so many accepted sheets one is held to request 2026-04, and all that have more than so many region words.
const HELD_TO_2026_04: usize = 8;
const MANY_REGIONS: usize = 2_000;

/// Of so many accepted sheets without holds one is also run with holds of 0.
const WITH_ZERO_HOLDS: usize = 8;

/// Of so many cases the tables of one are also made with the choice among equal keys from before request 2026-07.
const MADE_AS_BEFORE: u64 = 4;

/// What was called and how the two differ.
struct Difference(String);

type Outcome = Result<(), Difference>;

/// Sorts of ended tables, by what request 2026-03 says of them.
const SORTS: [(&str, fn(&Work) -> bool); 11] = [
    ("all", |_| true),
    ("no reached arc", |work| work.reached == 0),
    ("all spans 1", |work| work.spans_are_1),
    ("all spans 1, two or more heights", |work| work.spans_are_1 && work.heights > 1),
    ("flat", |work| work.flat.is_some()),
    ("flat, the reached arcs no multiple of the span", |work| work.flat.is_some_and(|span| work.reached % span != 0)),
    ("flat, the reached arcs above the span and no multiple of it", |work| {
        work.flat.is_some_and(|span| work.reached % span != 0 && work.reached > span)
    }),
    ("flat, with an unreached tail", |work| work.flat.is_some() && work.reached < work.arcs),
    ("flat, the span above 1 and within 1 of the reached arcs", |work| work.flat.is_some_and(|span| span > 1 && span.abs_diff(work.reached) <= 1)),
    ("neither", |work| !work.spoken_of()),
    ("neither, leaves differ from the reached arcs", |work| !work.spoken_of() && work.leaves != work.reached),
];

/// The codes that stand for routes and canonical forms of any length.
const ROUTE: u32 = 65_536;
const WRITTEN: u32 = 131_072;

/// How often each call gave each answer. How many sheets there were of each sort, and by the most arcs that a node has one way, how many accepted ones and how
/// many refused as 10. How many finished tables have a figure above 0 at each height. How many ended tables there were of each of `SORTS`. What was seen of
/// canonical forms, of kinds, of possible states, of holds, of conversions, of pairs of sheets, and, by call, of the choice among equal keys.
#[derive(Default)]
struct Tally {
    answers: BTreeMap<(&'static str, u32), u64>,
    sheets: BTreeMap<&'static str, u64>,
    accepted: BTreeMap<usize, u64>,
    crowded: BTreeMap<usize, u64>,
    worked: [u64; HEIGHTS],
    ended: [u64; SORTS.len()],
    forms: Forms,
    kinds: Kinds,
    states: States,
    holds: Holds,
    conversions: Conversions,
    pairs: Pairs,
    choices: BTreeMap<&'static str, Choices>,
}

/// The calls that make rounds.
const ROUNDS: [&str; 3] = ["run", "run_limited", "resume"];

/// Request 2026-07: how many tables of a call were also made with the choice of before, how many of these are others, and how many of the others are ended and
/// have other feeding arcs.
#[derive(Clone, Copy, Default)]
struct Choices {
    made: u64,
    other: u64,
    other_feeds: u64,
}

impl Choices {
    fn count(&mut self, sheet: &Sheet, table: &[u32], before: &[u32]) {
        let feeds = |table: &[u32]| (0..sheet.nodes()).map(|node| table[table::feed_at(node)]).collect::<Vec<_>>();
        self.made += 1;
        self.other += (table != before) as u64;
        self.other_feeds += (table[0] & before[0] & 1 == 1 && feeds(table) != feeds(before)) as u64;
    }

    fn unseen(&self) -> impl Iterator<Item = &'static str> {
        let counts =
            [(self.other, "another table than by the choice of before"), (self.other_feeds, "other feeding arcs than by the choice of before")];
        counts.into_iter().filter(|(count, _)| *count == 0).map(|(_, name)| name)
    }
}

/// A sheet with holds whose kinds are in order, the number of its bytes, and that of its refusal, 0 for accepted.
struct Held<'a> {
    sheet: &'a Sheet,
    bytes: usize,
    number: u32,
}

impl Held<'_> {
    fn is_accepted(&self) -> bool {
        self.number == 0
    }

    /// How many holds there are more than nodes, where this alone is refused as 2.
    fn too_many(&self) -> Option<i64> {
        let more = self.sheet.holds().len() as i64 - self.sheet.nodes() as i64;
        (self.number == 2).then_some(more)
    }

    /// Some arc from the source, or some other arc, has this length with the hold of its tail.
    fn any_arc(&self, from_source: bool, is_wanted: impl Fn(u32) -> bool) -> bool {
        let sheet = self.sheet;
        let mut held = sheet.arcs().filter(|arc| (arc.tail == sheet.source()) == from_source && sheet.hold(arc.tail) > 0);
        held.any(|arc| is_wanted(sheet.hold(arc.tail) + arc.length))
    }

    /// Some node without outgoing arcs has a hold that 34 lets no other node have.
    fn high_at_an_end(&self) -> bool {
        let left = |node: usize| self.sheet.arcs().any(|arc| arc.tail == node);
        (0..self.sheet.nodes()).any(|node| node != self.sheet.source() && self.sheet.hold(node) > MOST_LENGTH && !left(node))
    }
}

/// Sorts of sheets with holds.
const HELD: [(&str, fn(&Held) -> bool); 15] = [
    ("accepted", |held| held.is_accepted()),
    ("accepted, all holds 0", |held| held.is_accepted() && held.sheet.holds().iter().all(|hold| payload(*hold) == 0)),
    ("accepted, a length with its hold at the limit", |held| held.is_accepted() && held.any_arc(false, |length| length == MOST_LENGTH)),
    ("accepted, with the source's hold above it", |held| held.is_accepted() && held.any_arc(true, |length| length > MOST_LENGTH)),
    ("accepted, a hold above it at a node without outgoing arcs", |held| held.is_accepted() && held.high_at_an_end()),
    ("accepted, of 36,924 bytes", |held| held.is_accepted() && held.bytes == MOST_BYTES),
    ("refused as 1, of 36,928 bytes", |held| held.number == 1 && held.bytes == MOST_BYTES + 4),
    ("refused as 34", |held| held.number == 34),
    ("refused as 34, by one", |held| held.number == 34 && !held.any_arc(false, |length| length > MOST_LENGTH + 1)),
    ("refused as 34, and five arcs one way", |held| held.number == 34 && held.sheet.most_one_way() > MOST_EACH_WAY),
    ("refused as 9, and 34 applies to another arc", |held| held.number == 9 && held.sheet.taken_arcs().zip(held.sheet.arcs()).any(within_9)),
    ("refused as 2, one hold too few", |held| held.too_many() == Some(-1)),
    ("refused as 2, one hold too many", |held| held.too_many() == Some(1)),
    ("refused as 2, another number of holds", |held| held.too_many().is_some_and(|more| more.abs() > 1)),
    ("refused as 2 for their number, a node count that is 4", |held| held.too_many().is_some() && !(1..=1024).contains(&held.sheet.nodes())),
];

/// The length as written is within its limit, and that with the hold is not.
fn within_9((taken, written): (Arc, Arc)) -> bool {
    written.length <= MOST_LENGTH && taken.length > MOST_LENGTH
}

/// Request 2026-08: how many sheets there were of each of `HELD`, how many of the accepted ones have other distances without their holds, how many without
/// holds were also run with holds of 0, and how many routes and resumes out of tables by wrong charges were refused as 24 and 33.
#[derive(Default)]
struct Holds {
    sheets: [u64; HELD.len()],
    other_distances: u64,
    zeros: u64,
    wrong_routes: u64,
    wrong_states: u64,
}

impl Holds {
    fn count(&mut self, bytes: &[u8], judged: &Judged) {
        let sheet = Sheet::in_order(words(bytes)).filter(|sheet| !sheet.holds().is_empty() && bytes.len() % 4 == 0);
        if let Some(sheet) = sheet {
            let held = Held { sheet: &sheet, bytes: bytes.len(), number: judged.as_ref().err().copied().unwrap_or(0) };
            self.sheets.iter_mut().zip(HELD).for_each(|(sheets, (_, is_of))| *sheets += is_of(&held) as u64);
        }
    }

    fn counts(&self) -> impl Iterator<Item = (u64, String)> {
        let sheets = self.sheets.into_iter().zip(HELD).map(|(count, (sort, _))| (count, format!("sheets with holds, {sort}")));
        let others = [
            (self.other_distances, "sheets with holds, other distances without them"),
            (self.zeros, "sheets without holds, the same table with holds of 0"),
            (self.wrong_routes, "routes out of tables with holds charged wrongly, refused as 24"),
            (self.wrong_states, "resumes of tables with holds charged wrongly, refused as 33"),
        ];
        sheets.chain(others.map(|(count, name)| (count, name.to_string())))
    }
}

/// A convertible sheet and the converted one.
struct Conversion<'a> {
    old: &'a Sheet,
    new: &'a Sheet,
}

impl Conversion<'_> {
    fn is_change(&self) -> bool {
        self.old.before_regions() != self.new.before_regions() || self.old.regions() != self.new.regions()
    }

    fn is_lower(&self) -> bool {
        self.new.spans().len() < self.old.spans().len()
    }

    fn inner_dropped(&self) -> usize {
        let inner = |sheet: &Sheet| sheet.regions().iter().filter(|word| !is_leaf(**word)).count();
        inner(self.old) - inner(self.new)
    }

    /// How many inner regions other than 0 have no child but leaves of self-arcs.
    fn childless_at_once(&self) -> usize {
        let self_arcs: Vec<bool> = self.old.arcs().map(Arc::is_self_arc).collect();
        let regions = self.old.regions();
        let mut has_child = vec![false; regions.len() + 1];
        regions.iter().filter(|word| !is_leaf(**word) || !self_arcs[leaf_arc(**word)]).for_each(|word| has_child[parent(*word)] = true);
        regions.iter().zip(&has_child[1..]).filter(|(word, has_child)| !is_leaf(**word) && !**has_child).count()
    }
}

/// Sorts of conversions.
const CONVERSIONS: [(&str, fn(&Conversion) -> bool); 10] = [
    ("without a change", |of| !of.is_change()),
    ("with a change", |of| of.is_change()),
    ("with a change, no inner region dropped", |of| of.is_change() && of.inner_dropped() == 0),
    ("inner regions dropped, as high as before", |of| of.inner_dropped() > 0 && !of.is_lower()),
    ("inner regions dropped after those within them", |of| of.inner_dropped() > of.childless_at_once()),
    ("lower", |of| of.is_lower()),
    ("lower by more than one", |of| of.new.spans().len() + 1 < of.old.spans().len()),
    ("all arcs dropped", |of| of.is_change() && of.new.arc_count() == 0),
    ("with a change, with holds", |of| of.is_change() && !of.old.holds().is_empty()),
    ("with a change, of 36,924 bytes", |of| of.is_change() && 4 * (of.old.before_regions().len() + of.old.regions().len()) == MOST_BYTES),
];

/// Request 2026-09: how many conversions there were of each of `CONVERSIONS`, how many sheets refused as 35 are not convertible, by what the converter refuses
/// them as, and how many with a self-arc are refused as 10.
#[derive(Default)]
struct Conversions {
    sheets: [u64; CONVERSIONS.len()],
    refused: BTreeMap<u32, u64>,
    crowded: u64,
}

impl Conversions {
    fn count(&mut self, old: &Sheet, new: &Sheet) {
        let conversion = Conversion { old, new };
        self.sheets.iter_mut().zip(CONVERSIONS).for_each(|(sheets, (_, is_of))| *sheets += is_of(&conversion) as u64);
    }

    /// Counts a sheet by the numbers of the judge and of the converter.
    fn count_refused(&mut self, bytes: &[u8], judged: u32, converter: u32) {
        if judged == 35 {
            *self.refused.entry(converter).or_default() += 1;
        }
        let has_self_arc = |sheet: Sheet| sheet.arcs().any(Arc::is_self_arc);
        self.crowded += (judged == 10 && Sheet::in_order(words(bytes)).is_some_and(has_self_arc)) as u64;
    }

    fn counts(&self) -> impl Iterator<Item = (u64, String)> + '_ {
        let sheets = self.sheets.into_iter().zip(CONVERSIONS).map(|(count, (sort, _))| (count, format!("conversions, {sort}")));
        let refused =
            (11..=14).map(|number| (self.refused.get(&number).copied().unwrap_or(0), format!("refused as 35, by the converter as {number}")));
        sheets.chain(refused).chain([(self.crowded, "refused as 10, with a self-arc".to_string())])
    }
}

/// Sorts of pairs of sheets that differ in one length or one hold.
const PAIRS: [(&str, fn(&Slowed) -> bool); 14] = [
    ("all", |_| true),
    ("a longer arc", |pair| pair.change.is_length() && pair.change.is_longer()),
    ("a shorter arc", |pair| pair.change.is_length() && !pair.change.is_longer()),
    ("a higher hold", |pair| !pair.change.is_length() && pair.change.is_longer()),
    ("a lower hold", |pair| !pair.change.is_length() && !pair.change.is_longer()),
    ("the source's hold", |pair| pair.of_source),
    ("holds in one sheet alone", |pair| pair.first_holds),
    ("other regions or spans", |pair| pair.other_division),
    ("with an unreached node", |pair| pair.labels.iter().any(|(label, _)| *label == TOP)),
    ("a distance moves by the whole change", |pair| pair.moves_whole()),
    ("a distance moves by less", |pair| pair.moves_less()),
    ("one by the whole change and one by less", |pair| pair.moves_whole() && pair.moves_less()),
    ("none moves", |pair| pair.none_moves()),
    ("none moves, and the change is passed", |pair| pair.none_moves() && pair.passed.contains(&true)),
];

/// Request 2026-10: how many pairs of sheets there were of each of `PAIRS`.
#[derive(Default)]
struct Pairs([u64; PAIRS.len()]);

impl Pairs {
    fn count(&mut self, pair: &Slowed) {
        self.0.iter_mut().zip(PAIRS).for_each(|(pairs, (_, is_of))| *pairs += is_of(pair) as u64);
    }

    fn counts(&self) -> impl Iterator<Item = (u64, String)> {
        self.0.into_iter().zip(PAIRS).map(|(count, (sort, _))| (count, format!("pairs of sheets, {sort}")))
    }
}

/// Request 2026-06: how many refusals with 33 break each clause alone, and how many several. How many breaks there were, how many with other spans than before;
/// how many halls ended after a break with other counts than a run of the sheet; how many resumed tables are given back, how many with a count of 2^54 or more.
#[derive(Default)]
struct States {
    alone: BTreeMap<Clause, u64>,
    several: u64,
    breaks: u64,
    other_spans: u64,
    other_counts: u64,
    given_back: u64,
    high_counts: u64,
}

impl States {
    fn counts(&self) -> [(u64, &'static str); 6] {
        [
            (self.several, "refused with 33 for several clauses"),
            (self.breaks, "breaks"),
            (self.other_spans, "breaks with other spans than before"),
            (self.other_counts, "halls with breaks ended with other counts than a run"),
            (self.given_back, "resumed tables given back"),
            (self.high_counts, "resumed tables with a count of 2^54 or more"),
        ]
    }

    fn print(&self) {
        for (clause, count) in &self.alone {
            println!("refused with 33 for one clause, {clause:?}: {count}");
        }
        for (count, name) in self.counts() {
            println!("{name}: {count}");
        }
    }

    fn unseen(&self) -> impl Iterator<Item = String> + '_ {
        let clauses = CLAUSES.into_iter().filter(|clause| !self.alone.contains_key(clause)).map(|clause| format!("33 for {clause:?} alone"));
        clauses.chain(self.counts().into_iter().filter(|(count, _)| *count == 0).map(|(_, name)| name.to_string()))
    }
}

/// How many sheets were held to request 2026-04, how many of them are no canonical forms, how many have another table than their form, and how many were
/// renumbered into another sheet. How many sheets that differ by a change have the same canonical form, another one or none.
#[derive(Default)]
struct Forms {
    held: u64,
    other_than_sheet: u64,
    other_tables: u64,
    renumbered: u64,
    changed: BTreeMap<Change, [u64; 3]>,
}

impl Forms {
    fn print(&self) {
        println!("sheets held to request 2026-04: {}", self.held);
        println!("of them other than their canonical form: {}", self.other_than_sheet);
        println!("of them with another table than their canonical form: {}", self.other_tables);
        println!("of them numbered anew into another sheet: {}", self.renumbered);
        for (change, [same, other, refused]) in &self.changed {
            println!("changed, {change:?}: same form {same}, another {other}, refused {refused}");
        }
    }

    fn unseen(&self) -> impl Iterator<Item = String> + '_ {
        let counts = [
            (self.other_than_sheet, "sheets other than their canonical form"),
            (self.other_tables, "sheets with another table than their canonical form"),
            (self.renumbered, "sheets numbered anew into another"),
        ];
        let counts = counts.into_iter().filter(|(count, _)| *count == 0).map(|(_, name)| name.to_string());
        let of = |change: &Change| self.changed.get(change).copied().unwrap_or_default();
        let same = CHANGES.into_iter().filter(move |change| change.may_leave() && of(change)[0] == 0);
        let other = CHANGES.into_iter().filter(move |change| of(change)[1] == 0);
        counts.chain(same.map(|change| format!("{change:?} with the same form"))).chain(other.map(|change| format!("{change:?} with another form")))
    }
}

/// How often each first kind, each pair of neighbouring kinds and each last kind was seen.
struct Seen([u64; PLACES]);

impl Default for Seen {
    fn default() -> Seen {
        Seen([0; PLACES])
    }
}

impl Seen {
    fn count(&mut self, place: Place) {
        self.0[place.number()] += 1;
    }

    fn of(&self, place: Place) -> u64 {
        self.0[place.number()]
    }
}

/// What has to be seen: a name, what was, and what of it is asked for.
type Wanted<'a> = (&'static str, &'a Seen, fn(Place) -> bool);

/// Request 2026-05: what was seen in sheets that are not refused with 1 or 2, in those refused with 2, and in these where it alone is not in order.
#[derive(Default)]
struct Kinds {
    in_order: Seen,
    refused: Seen,
    alone: Seen,
}

impl Kinds {
    fn count(&mut self, words: &[u32], refused: bool) {
        let seen = if refused { &mut self.refused } else { &mut self.in_order };
        neighbours::places(words).for_each(|place| seen.count(place));
        let mut wrong = neighbours::places(words).filter(|place| !place.is_allowed());
        if let (Some(place), None) = (wrong.next(), wrong.next()) {
            self.alone.count(place);
        }
    }

    /// A kind without a case is never alone in not being in order: it is wrong where it comes and where the next one does.
    fn wanted(&self) -> [Wanted<'_>; 3] {
        [
            ("in order", &self.in_order, Place::is_allowed),
            ("refused with 2", &self.refused, |_| true),
            ("alone not in order", &self.alone, |place| !place.is_allowed() && place.has_cases()),
        ]
    }

    fn print(&self) {
        for (name, seen, is_wanted) in self.wanted() {
            let counts: Vec<u64> = Place::all().filter(|place| is_wanted(*place)).map(|place| seen.of(place)).collect();
            let least = counts.iter().min().copied().unwrap_or_default();
            println!("first kinds, pairs of neighbouring kinds and last kinds, {name}: {}, each seen {least} times or more", counts.len());
        }
    }

    fn unseen(&self) -> impl Iterator<Item = String> + '_ {
        self.wanted().into_iter().flat_map(|(name, seen, is_wanted)| {
            let unseen = Place::all().filter(move |place| is_wanted(*place) && seen.of(*place) == 0);
            unseen.map(move |place| format!("kinds {name}, {place:?}"))
        })
    }
}

impl Tally {
    fn count(&mut self, call: &'static str, answer: Answer) {
        let code = match answer {
            Answer::Route(_) => ROUTE,
            Answer::Written(_) => WRITTEN,
            _ => answer.code(),
        };
        *self.answers.entry((call, code)).or_default() += 1;
    }

    fn count_ways(&mut self, bytes: &[u8], judged: &Judged) {
        let (sheets, most) = match judged {
            Ok(accepted) => (&mut self.accepted, accepted.sheet.most_one_way()),
            Err(10) => (&mut self.crowded, Sheet::in_order(words(bytes)).map_or(0, |sheet| sheet.most_one_way())),
            Err(_) => return,
        };
        *sheets.entry(most.min(MOST_EACH_WAY + 2)).or_default() += 1;
    }

    fn count_heights(&mut self, finished: &[u32]) {
        for (at, tables) in self.worked.iter_mut().enumerate() {
            *tables += (table::count(finished, 2 + at) > 0) as u64;
        }
    }

    fn count_work(&mut self, work: &Work) {
        for (tables, (_, is_of)) in self.ended.iter_mut().zip(SORTS) {
            *tables += is_of(work) as u64;
        }
    }

    fn print(&self) {
        for (kind, count) in &self.sheets {
            println!("sheets {kind}: {count}");
        }
        for (judged, sheets) in [("accepted", &self.accepted), ("refused as 10", &self.crowded)] {
            let parts: Vec<String> = sheets.iter().map(|(most, count)| format!("{} {count}", ways(*most))).collect();
            println!("{judged}, by the most arcs that a node has one way: {}", parts.join(", "));
        }
        println!("finished tables with inner regions worked at heights 1 to {HEIGHTS}: {}", self.worked.map(|tables| tables.to_string()).join(", "));
        for (tables, (sort, _)) in self.ended.iter().zip(SORTS) {
            println!("ended tables, {sort}: {tables}");
        }
        self.forms.print();
        self.kinds.print();
        self.states.print();
        self.sorts().for_each(|(count, name)| println!("{name}: {count}"));
        for call in ROUNDS {
            let Choices { made, other, other_feeds } = self.chosen(call);
            println!("{call}, tables also made with the tie rule of before: {made}, others {other}, ended with other feeding arcs {other_feeds}");
        }
        for call in ["judge", "run", "run_limited", "route", "canonical", "resume", "convert"] {
            let answers = self.answers.iter().filter(|((of, _), _)| *of == call);
            let parts: Vec<String> = answers.map(|((_, code), count)| format!("{} {count}", named(*code))).collect();
            println!("{call}: {}", parts.join(", "));
        }
        println!("calls compared: {}", self.answers.values().sum::<u64>());
    }

    fn chosen(&self, call: &str) -> Choices {
        self.choices.get(call).copied().unwrap_or_default()
    }

    /// How many there were of each sort of sheets with holds, of conversions and of pairs of sheets.
    fn sorts(&self) -> impl Iterator<Item = (u64, String)> + '_ {
        self.holds.counts().chain(self.conversions.counts()).chain(self.pairs.counts())
    }

    /// The numbers, answers, numbers of arcs one way, worked heights, sorts of ended tables, changes, neighbouring kinds, states, sorts of sheets with holds,
    /// sorts of conversions, sorts of pairs of sheets and choices that were never seen.
    fn unseen(&self) -> Vec<String> {
        let wanted = (1..=15).chain(21..=25).chain(31..=35).chain(256..=259).chain([ROUTE, WRITTEN]);
        let answers = wanted.filter(|code| !self.answers.keys().any(|(_, seen)| seen == code)).map(named);
        let seen: BTreeSet<_> = self.accepted.keys().chain(self.crowded.keys()).collect();
        let arcs = (0..=MOST_EACH_WAY + 2).filter(|most| !seen.contains(most)).map(|most| ways(most) + " arcs one way");
        let heights = (0..HEIGHTS).filter(|at| self.worked[*at] == 0).map(|at| format!("workings at height {}", at + 1));
        let sorts = SORTS.iter().zip(self.ended).filter(|(_, tables)| *tables == 0).map(|((sort, _), _)| format!("ended tables, {sort}"));
        let choices = ROUNDS.into_iter().flat_map(|call| self.chosen(call).unseen().map(move |name| format!("{call}, {name}")));
        let counted = self.sorts().filter(|(count, _)| *count == 0).map(|(_, name)| name);
        let of_requests = self.forms.unseen().chain(self.kinds.unseen()).chain(self.states.unseen()).chain(counted).chain(choices);
        answers.chain(arcs).chain(heights).chain(sorts).chain(of_requests).collect()
    }
}

fn ways(most: usize) -> String {
    if most > MOST_EACH_WAY + 1 {
        format!("above {}", MOST_EACH_WAY + 1)
    } else {
        most.to_string()
    }
}

fn named(code: u32) -> String {
    match code {
        256 => "accepted".to_string(),
        257 => "paused".to_string(),
        258 => "ended".to_string(),
        259 => "no-route".to_string(),
        ROUTE => "route".to_string(),
        WRITTEN => "written".to_string(),
        number => number.to_string(),
    }
}

/// What is lent: words or bytes.
trait Item: Copy + PartialEq + LowerHex {
    fn of(word: u32) -> Self;
}

impl Item for u32 {
    fn of(word: u32) -> u32 {
        word
    }
}

impl Item for u8 {
    fn of(word: u32) -> u8 {
        word as u8
    }
}

/// A slice to be lent, with guard items on both sides.
struct Lent<T> {
    items: Vec<T>,
}

impl<T: Item> Lent<T> {
    fn new(length: usize, random: &mut Random) -> Lent<T> {
        let first = random.word();
        Lent { items: (0..length + 2 * GUARD).map(|at| T::of(first.wrapping_add(0x0123_4567u32.wrapping_mul(at as u32)))).collect() }
    }

    /// A slice that holds these items, with guard items on both sides.
    fn holding(items: &[T], random: &mut Random) -> Lent<T> {
        let mut lent = Lent::new(items.len(), random);
        lent.part().copy_from_slice(items);
        lent
    }

    fn part(&mut self) -> &mut [T] {
        let end = self.items.len() - GUARD;
        &mut self.items[GUARD..end]
    }
}

/// Makes one call of both programs with equal slices, compares answers and items, and gives the answer and the slice at exit.
fn compared<T: Item>(
    call: &'static str,
    told: impl Fn() -> String,
    lent: Lent<T>,
    tally: &mut Tally,
    of_proved: impl FnOnce(&mut [T]) -> u32,
    of_reference: impl FnOnce(&mut [T]) -> Answer,
) -> Result<(Answer, Vec<T>), Difference> {
    let before = lent.items.clone();
    let mut expected = Lent { items: lent.items.clone() };
    let mut got = lent;
    let answer = of_reference(expected.part());
    let code = of_proved(got.part());
    tally.count(call, answer);
    if code != answer.code() {
        return Err(Difference(format!("{call} {}: answered {code}, expected {}", told(), answer.code())));
    }
    if let Some(at) = (0..before.len()).find(|at| got.items[*at] != expected.items[*at]) {
        let (found, wanted, digits) = (got.items[at], expected.items[at], 2 * size_of::<T>());
        let place = at as i64 - GUARD as i64;
        return Err(Difference(format!("{call} {}: place {place} has {found:0digits$x}, expected {wanted:0digits$x}", told())));
    }
    if matches!(answer, Answer::Refused(_) | Answer::NoRoute) && got.items != before {
        return Err(Difference(format!("{call} {}: a refusal changed what was lent", told())));
    }
    Ok((answer, got.part().to_vec()))
}

/// One sheet with what its calls need, and whether its tables are also made with the choice among equal keys of before.
struct Trial<'a> {
    bytes: &'a [u8],
    random: &'a mut Random,
    tally: &'a mut Tally,
    as_before: bool,
}

impl Trial<'_> {
    fn all(&mut self) -> Outcome {
        let untouched = self.bytes.to_vec();
        let bytes = self.bytes;
        let nothing = Lent { items: vec![0u32; 2 * GUARD] };
        let (answer, _) = compared("judge", String::new, nothing, self.tally, |_| proved::judge(bytes), |_| reference::judge(bytes))?;
        self.neighbours(answer)?;
        let judged = accepted(bytes);
        self.tally.count_ways(bytes, &judged);
        self.tally.holds.count(bytes, &judged);
        self.conversions(judged.as_ref().err().copied().unwrap_or(0))?;
        match judged {
            Ok(accepted) => {
                let finished = self.accepted(&accepted.sheet)?;
                self.forms(&accepted.sheet, &finished)?;
                self.resumed(&accepted.sheet, &finished)?;
                self.slowed(&accepted.sheet, &finished)?;
            }
            Err(_) => {
                self.refused()?;
                self.canonicals()?;
            }
        }
        match self.bytes == untouched {
            true => Ok(()),
            false => Err(Difference("the sheet itself was changed".to_string())),
        }
    }

    /// Requests 2026-05 and 2026-08: a sheet that is not refused with 1 is refused with 2 exactly where the list of cases says no, or the number of words of
    /// kind 13 is neither 0 nor what kind 1 says.
    fn neighbours(&mut self, judged: Answer) -> Outcome {
        if judged == Answer::Refused(1) {
            return Ok(());
        }
        let words = words(self.bytes);
        let refused = judged == Answer::Refused(2);
        self.tally.kinds.count(&words, refused);
        let wrong = neighbours::places(&words).find(|place| !place.is_allowed());
        let holds = words.iter().filter(|word| kind(**word) == 13).count();
        match (neighbours::in_order(&words) && neighbours::holds_fit(&words)) != refused {
            true => Ok(()),
            false => Err(Difference(format!("judge: answered {}, the first not in order by the list is {wrong:?}, {holds} holds", judged.code()))),
        }
    }

    fn refused(&mut self) -> Outcome {
        let length = self.random.below(60);
        let node = self.random.below(4) as u32;
        self.run(length)?;
        let rounds = self.rounds();
        self.run_limited(rounds, length)?;
        let table = Lent::<u32>::new(length, self.random).part().to_vec();
        let buffer = self.random.below(8);
        self.resume(rounds, &table)?;
        self.route(&table, node, buffer).map(drop)
    }

    /// Gives the finished table.
    fn accepted(&mut self, sheet: &Sheet) -> Result<Vec<u32>, Difference> {
        let length = table::length(sheet.nodes());
        let finished = self.run(length)?;
        self.tally.count_heights(&finished);
        self.shortest(sheet, &finished)?;
        self.zero_holds(sheet, &finished)?;
        if self.random.once_in(4) {
            let wrong = tables::wrong_length(length, sheet, self.random);
            self.run(wrong)?;
            self.run_limited(1, wrong)?;
        }
        let some = self.rounds();
        let mut paused = None;
        for rounds in [0, 1, 2, some, u32::MAX] {
            let (answer, table) = self.run_limited(rounds, length)?;
            if answer == Answer::Paused {
                paused = Some(table);
            }
        }
        self.routes(sheet, &finished)?;
        if let Some(table) = paused {
            let node = self.node(sheet);
            self.route(&table, node, sheet.nodes())?;
        }
        Ok(finished)
    }

    /// Routes out of the finished table, out of damaged ones, out of one of another length, out of one with one inner count, out of that of a hall that differs
    /// in a length or a hold and out of one by wrong charges.
    fn routes(&mut self, sheet: &Sheet, finished: &[u32]) -> Outcome {
        for _ in 0..3 {
            self.route_and_near(sheet, finished)?;
        }
        for _ in 0..4 {
            let mut table = finished.to_vec();
            tables::damaged(&mut table, sheet, self.random);
            self.route_and_near(sheet, &table)?;
        }
        if self.random.once_in(4) {
            let wrong = tables::wrong_length(finished.len(), sheet, self.random);
            let table: Vec<u32> = finished.iter().chain(finished).copied().take(wrong).collect();
            self.route_and_near(sheet, &table)?;
        }
        if self.random.once_in(8) {
            self.route_and_near(sheet, &tables::before(finished))?;
        }
        if sheet.arc_count() > 0 && self.random.once_in(2) {
            let other = self.other_table(sheet, finished.len());
            self.route_and_near(sheet, &other)?;
        }
        self.wrong_charges(sheet, finished.len())
    }

    /// The finished table of a hall that differs in the length of one arc, or in one hold.
    fn other_table(&mut self, sheet: &Sheet, length: usize) -> Vec<u32> {
        let mut other = words(self.bytes);
        let (holds_at, holds) = (2 + sheet.spans().len(), sheet.holds().len());
        if holds > 0 && self.random.once_in(2) {
            let hold = &mut other[holds_at + self.random.below(holds)];
            *hold = 13 << 28 | payload(*hold).saturating_sub(self.random.pick(&[1, 2, MOST_LENGTH]));
        } else {
            let arc = self.random.below(sheet.arc_count());
            other[holds_at + holds + 2 * arc + 1] = 5 << 28 | self.random.pick(&[0, 1, 2, MOST_LENGTH]);
        }
        let mut table = vec![0; length];
        reference::run(&sheets::bytes(&other), &mut table);
        table
    }

    /// A route with a buffer of some length, and where it is one, again with buffers as long as it and one word shorter or longer.
    fn route_and_near(&mut self, sheet: &Sheet, table: &[u32]) -> Outcome {
        let node = self.node(sheet);
        let room = self.random.pick(&[0, 1, 2, 3, sheet.nodes(), sheet.nodes()]);
        if let Answer::Route(count) = self.route(table, node, room)? {
            let count = count as usize;
            let near = self.random.pick(&[count, count + 1, count.saturating_sub(1)]);
            self.route(table, node, near)?;
        }
        Ok(())
    }

    fn run(&mut self, length: usize) -> Result<Vec<u32>, Difference> {
        let lent = Lent::new(length, self.random);
        let bytes = self.bytes;
        let told = || format!("with a table of {length} words");
        let (answer, table) = compared("run", told, lent, self.tally, |table| proved::run(bytes, table), |table| reference::run(bytes, table))?;
        self.held("run", told, answer, &table)?;
        self.chosen("run", &table, &table, |judged, table| reference::run_of(judged, Ties::ByNumber, None, table));
        Ok(table)
    }

    fn run_limited(&mut self, rounds: u32, length: usize) -> Result<(Answer, Vec<u32>), Difference> {
        let lent = Lent::new(length, self.random);
        let bytes = self.bytes;
        let told = || format!("for {rounds} rounds with a table of {length} words");
        let of_proved = |table: &mut [u32]| proved::run_limited(bytes, rounds, table);
        let (answer, table) = compared("run_limited", told, lent, self.tally, of_proved, |table| reference::run_limited(bytes, rounds, table))?;
        self.held("run_limited", told, answer, &table)?;
        self.chosen("run_limited", &table, &table, |judged, table| reference::run_of(judged, Ties::ByNumber, Some(rounds), table));
        Ok((answer, table))
    }

    /// Holds a table that the proved call has left as ended to request 2026-03.
    fn held(&mut self, call: &str, told: impl Fn() -> String, answer: Answer, table: &[u32]) -> Outcome {
        if answer != Answer::Ended {
            return Ok(());
        }
        let sheet = Sheet::in_order(words(self.bytes));
        let Some(work) = sheet.and_then(|sheet| Work::of(&sheet, table)) else {
            return Err(Difference(format!("{call} {}: the table of an ended run is not ended", told())));
        };
        self.tally.count_work(&work);
        match work.holds() && work.no_fewer() {
            true => Ok(()),
            false => Err(Difference(format!("{call} {}: {} rounds, {} leaves, {} reached arcs", told(), work.rounds, work.leaves, work.reached))),
        }
    }

    fn route(&mut self, table: &[u32], node: u32, room: usize) -> Result<Answer, Difference> {
        let lent = Lent::new(room, self.random);
        let bytes = self.bytes;
        let untouched = table.to_vec();
        let told = || {
            let words = untouched.iter().fold(String::new(), |text, word| text + &format!("{word:08x}"));
            format!("to node {node} with a buffer of {room} words out of the table {words}")
        };
        let of_proved = |buffer: &mut [u32]| proved::route(bytes, table, node, buffer);
        let (answer, _) = compared("route", told, lent, self.tally, of_proved, |buffer| reference::route(bytes, table, node, buffer))?;
        match table == untouched {
            true => Ok(answer),
            false => Err(Difference(format!("route {}: the table was changed", told()))),
        }
    }

    fn rounds(&mut self) -> u32 {
        let few = self.random.below(30) as u32;
        let any = self.random.word();
        self.random.pick(&[few, few, any])
    }

    fn node(&mut self, sheet: &Sheet) -> u32 {
        if self.random.once_in(12) {
            return self.random.pick(&[sheet.nodes() as u32, sheet.nodes() as u32 + 1, 1024, 65_536, 1 << 28, u32::MAX]);
        }
        self.random.below(sheet.nodes()) as u32
    }
}

/// Request 2026-04.
impl Trial<'_> {
    fn canonical(&mut self, room: usize) -> Result<(Answer, Vec<u8>), Difference> {
        let lent = Lent::new(room, self.random);
        let bytes = self.bytes;
        let told = || format!("into {room} bytes, of the sheet {}", hexadecimal(bytes));
        compared("canonical", told, lent, self.tally, |out| proved::canonical(bytes, out), |out| reference::canonical(bytes, out))
    }

    /// With no room, one byte too few, more than enough and just enough. Gives the last buffer.
    fn canonicals(&mut self) -> Result<Vec<u8>, Difference> {
        let length = self.bytes.len();
        let longer = length + 1 + self.random.below(9);
        for room in [0, length.saturating_sub(1), longer] {
            self.canonical(room)?;
        }
        Ok(self.canonical(length)?.1)
    }

    /// The canonical form of an accepted sheet and, for some, what the request says of it.
    fn forms(&mut self, sheet: &Sheet, finished: &[u32]) -> Outcome {
        let form = self.canonicals()?;
        if !self.random.once_in(HELD_TO_2026_04) && sheet.regions().len() <= MANY_REGIONS {
            return Ok(());
        }
        self.tally.forms.held += 1;
        self.tally.forms.other_than_sheet += (form != self.bytes) as u64;
        self.own_form(sheet, &form, finished)?;
        self.renumbered(sheet, &form)?;
        let change = self.random.pick(&CHANGES);
        self.changed(change, sheet, &form)
    }

    /// The same trial of another sheet.
    fn of<'a>(&'a mut self, bytes: &'a [u8]) -> Trial<'a> {
        Trial { bytes, random: self.random, tally: self.tally, as_before: self.as_before }
    }

    /// The canonical form that the proved call writes of a sheet, or nothing where it refuses the sheet.
    fn form_of(&mut self, bytes: &[u8]) -> Result<Option<Vec<u8>>, Difference> {
        let (answer, form) = self.of(bytes).canonical(bytes.len())?;
        Ok(matches!(answer, Answer::Written(_)).then_some(form))
    }

    /// The form is what the linear program writes, is accepted, is its own form and has the sheet's distances.
    fn own_form(&mut self, sheet: &Sheet, form: &[u8], finished: &[u32]) -> Outcome {
        let mut linear = vec![0; form.len()];
        reference::canonical_linear(self.bytes, &mut linear);
        let code = proved::judge(form);
        if linear != form || code != Answer::Accepted.code() {
            return Err(Difference(format!("the linear program writes {}; {} is judged {code}", hexadecimal(&linear), hexadecimal(form))));
        }
        if self.form_of(form)?.as_deref() != Some(form) {
            return Err(Difference(format!("{} is not its own canonical form", hexadecimal(form))));
        }
        let table = self.of(form).run(finished.len())?;
        self.tally.forms.other_tables += (table != finished) as u64;
        match labels(sheet, &table).eq(labels(sheet, finished)) {
            true => Ok(()),
            false => Err(Difference(format!("{} has other distances", hexadecimal(form)))),
        }
    }

    /// The sheet with other region numbers has the same form.
    fn renumbered(&mut self, sheet: &Sheet, form: &[u8]) -> Outcome {
        let other = sheets::bytes(&changes::renumbered(sheet, self.random));
        self.tally.forms.renumbered += (other != self.bytes) as u64;
        match self.form_of(&other)?.as_deref() == Some(form) {
            true => Ok(()),
            false => Err(Difference(format!("the renumbered sheet {} has another canonical form", hexadecimal(&other)))),
        }
    }

    /// A changed sheet that is accepted has the same form exactly when the two sheets are alike.
    fn changed(&mut self, change: Change, sheet: &Sheet, form: &[u8]) -> Outcome {
        let Some(other) = changes::changed(change, sheet, self.random) else { return Ok(()) };
        let bytes = sheets::bytes(&other);
        let same = self.form_of(&bytes)?.map(|other| other == form);
        let at = same.map_or(2, |same| !same as usize);
        self.tally.forms.changed.entry(change).or_default()[at] += 1;
        let expected = Sheet::in_order(other).map(|other| alike(sheet, &other));
        match same.is_none() || same == expected {
            true => Ok(()),
            false => Err(Difference(format!("{change:?}, to {}: same form {same:?}, alike {expected:?}", hexadecimal(&bytes)))),
        }
    }
}

/// Request 2026-06.
impl Trial<'_> {
    fn resume(&mut self, rounds: u32, table: &[u32]) -> Result<(Answer, Vec<u32>), Difference> {
        let lent = Lent::holding(table, self.random);
        let bytes = self.bytes;
        let told = || {
            let words = table.iter().fold(String::new(), |text, word| text + &format!("{word:08x}"));
            format!("for {rounds} rounds more of the sheet {} with the table {words}", hexadecimal(bytes))
        };
        let of_proved = |table: &mut [u32]| proved::resume(bytes, rounds, table);
        let (answer, left) = compared("resume", told, lent, self.tally, of_proved, |table| reference::resume(bytes, rounds, table))?;
        self.chosen("resume", table, &left, |judged, table| reference::resume_of(judged, Ties::ByNumber, rounds, table));
        Ok((answer, left))
    }

    /// Tables of the longer form: runs fill it, routes are read out of it, and rounds go on from it.
    fn resumed(&mut self, sheet: &Sheet, finished: &[u32]) -> Outcome {
        let ended = self.run(table::longer(sheet))?;
        if ended[..finished.len()] != *finished {
            return Err(Difference("the longer table of a run begins otherwise than the usual one".to_string()));
        }
        self.longer_routes(sheet, &ended)?;
        let few = self.random.below(4) as u32;
        let (_, table) = self.run_limited(few, ended.len())?;
        self.in_parts(&table, few)?;
        self.breaks(sheet, finished, &table)?;
        let table = self.random.pick(&[&ended, &table]).clone();
        self.damaged_states(sheet, &table)
    }

    /// Out of the finished longer table, and out of one with a damaged key word or another damage.
    fn longer_routes(&mut self, sheet: &Sheet, ended: &[u32]) -> Outcome {
        self.route_and_near(sheet, ended)?;
        let mut table = ended.to_vec();
        tables::key_damaged(&mut table, sheet, self.random);
        if self.random.once_in(3) {
            tables::damaged(&mut table, sheet, self.random);
        }
        self.route_and_near(sheet, &table)
    }

    /// With unchanged spans, rounds done in parts are those of a run.
    fn in_parts(&mut self, table: &[u32], before: u32) -> Outcome {
        let (first, then) = (self.random.below(4) as u32, self.rounds());
        let (_, parted) = self.resume(first, table)?;
        let (_, parted) = self.resume(then, &parted)?;
        let all = (before + first).saturating_add(then);
        let mut together = vec![0; table.len()];
        proved::run_limited(self.bytes, all, &mut together);
        match parted == together {
            true => Ok(()),
            false => Err(Difference(format!("{before}, {first} and {then} rounds leave another table than {all} together"))),
        }
    }

    /// Other spans at some breaks, a few rounds after each, and at last as many as it takes: the distances are those of the run.
    fn breaks(&mut self, sheet: &Sheet, finished: &[u32], started: &[u32]) -> Outcome {
        let mut table = started.to_vec();
        let mut bytes = self.bytes.to_vec();
        for at in 0..=self.random.below(4) {
            if at == 0 || self.random.once_in(2) {
                let other = sheets::bytes(&changes::with_other_spans(sheet, self.random));
                self.tally.states.other_spans += (other != bytes) as u64;
                bytes = other;
            }
            self.tally.states.breaks += 1;
            let rounds = self.random.below(4) as u32;
            table = self.of(&bytes).resume(rounds, &table)?.1;
        }
        let (answer, table) = self.of(&bytes).resume(u32::MAX, &table)?;
        self.tally.states.other_counts += (table[..table::HEADER] != finished[..table::HEADER]) as u64;
        match answer == Answer::Ended && labels(sheet, &table).eq(labels(sheet, finished)) {
            true => Ok(()),
            false => Err(Difference(format!("after breaks, at last {}: {answer:?}, or other distances", hexadecimal(&bytes)))),
        }
    }

    /// Tables damaged in their form or in a clause of a possible state, and one of another length.
    fn damaged_states(&mut self, sheet: &Sheet, table: &[u32]) -> Outcome {
        for _ in 0..4 {
            let mut state = table.to_vec();
            tables::state_damaged(&mut state, sheet, self.random);
            self.judged_state(sheet, &state)?;
        }
        let mut wrong = table.to_vec();
        tables::key_damaged(&mut wrong, sheet, self.random);
        self.judged_state(sheet, &wrong)?;
        tables::damaged(&mut wrong, sheet, self.random);
        self.judged_state(sheet, &wrong)?;
        if self.random.once_in(4) {
            let words = tables::wrong_length(table.len(), sheet, self.random);
            let wrong: Vec<u32> = table.iter().chain(table).copied().take(words).collect();
            self.judged_state(sheet, &wrong)?;
        }
        Ok(())
    }

    /// A few rounds from a table that may be refused. Where it is not, an ended one has shortest distances.
    fn judged_state(&mut self, sheet: &Sheet, table: &[u32]) -> Outcome {
        let rounds = self.rounds();
        let (answer, left) = self.resume(rounds, table)?;
        self.count_state(sheet, table, answer, &left);
        let mut shortest = vec![0; table::length(sheet.nodes())];
        reference::run_dijkstra(self.bytes, &mut shortest);
        match answer != Answer::Ended || labels(sheet, &left).eq(labels(sheet, &shortest)) {
            true => Ok(()),
            false => Err(Difference("a resumed table is ended and not shortest".to_string())),
        }
    }

    fn count_state(&mut self, sheet: &Sheet, table: &[u32], answer: Answer, left: &[u32]) {
        let states = &mut self.tally.states;
        if answer == Answer::Refused(33) {
            let mut clauses = broken(sheet, table);
            match (clauses.next(), clauses.next()) {
                (Some(clause), None) => *states.alone.entry(clause).or_default() += 1,
                _ => states.several += 1,
            }
        } else if !matches!(answer, Answer::Refused(_)) {
            states.given_back += (left == table) as u64;
            states.high_counts += (0..table::COUNTS).any(|at| table::count(table, at) >= 1 << 54) as u64;
        }
    }
}

/// Request 2026-08.
impl Trial<'_> {
    /// Holds of 0 change nothing in a sheet's table.
    fn zero_holds(&mut self, sheet: &Sheet, finished: &[u32]) -> Outcome {
        if !sheet.holds().is_empty() || !self.random.once_in(WITH_ZERO_HOLDS) {
            return Ok(());
        }
        let other = sheets::bytes(&changes::with_zero_holds(sheet));
        self.tally.holds.zeros += 1;
        match self.of(&other).run(finished.len())? == finished {
            true => Ok(()),
            false => Err(Difference(format!("with holds of 0, {}: another table", hexadecimal(&other)))),
        }
    }

    /// The distances of a run are those of routes, measured as the request says.
    fn shortest(&mut self, sheet: &Sheet, finished: &[u32]) -> Outcome {
        let shortest = distances(sheet).labels;
        if !sheet.holds().is_empty() {
            let without = [&sheet.before_regions()[..2], sheet.arc_words()].concat();
            let without = Sheet::in_order(without).expect("a sheet in order");
            self.tally.holds.other_distances += (distances(&without).labels != shortest) as u64;
        }
        match labels(sheet, finished).map(|word| payload(*word)).eq(shortest) {
            true => Ok(()),
            false => Err(Difference("the distances of a run are not those of routes with holds".to_string())),
        }
    }

    /// A route out of a table by wrong charges, of either form, and a resume of one after some rounds.
    fn wrong_charges(&mut self, sheet: &Sheet, length: usize) -> Outcome {
        if sheet.holds().is_empty() {
            return Ok(());
        }
        let other = sheets::bytes(&changes::charged_wrongly(sheet, self.random));
        let mut table = vec![0; self.random.pick(&[length, table::longer(sheet)])];
        reference::run(&other, &mut table);
        let node = self.node(sheet);
        let answer = self.route(&table, node, sheet.nodes())?;
        self.tally.holds.wrong_routes += (answer == Answer::Refused(24)) as u64;
        let mut table = vec![0; table::longer(sheet)];
        let rounds = self.rounds();
        reference::run_limited(&other, rounds, &mut table);
        let (answer, _) = self.resume(1, &table)?;
        self.tally.holds.wrong_states += (answer == Answer::Refused(33)) as u64;
        Ok(())
    }
}

/// Request 2026-09.
impl Trial<'_> {
    fn convert(&mut self, room: usize) -> Result<(Answer, Vec<u8>), Difference> {
        let lent = Lent::new(room, self.random);
        let bytes = self.bytes;
        let told = || format!("into {room} bytes, of the sheet {}", hexadecimal(bytes));
        compared("convert", told, lent, self.tally, |out| proved::convert(bytes, out), |out| reference::convert(bytes, out))
    }

    /// With no room, one byte too few, one more than enough, more than enough and just enough. Gives the converted sheet, which the program in one pass writes
    /// too, or the number of the refusal.
    fn converts(&mut self) -> Result<Result<Vec<u8>, u32>, Difference> {
        let mut expected = vec![0; self.bytes.len()];
        let length = match reference::convert_one_pass(self.bytes, &mut expected) {
            Answer::Written(bytes) => bytes as usize,
            _ => self.bytes.len(),
        };
        let longer = length + 2 + self.random.below(9);
        for room in [0, length.saturating_sub(1), length + 1, longer] {
            self.convert(room)?;
        }
        match self.convert(length)? {
            (Answer::Refused(number), _) => Ok(Err(number)),
            (_, converted) if converted == expected[..length] => Ok(Ok(converted)),
            _ => Err(Difference(format!("the program in one pass writes {}", hexadecimal(&expected)))),
        }
    }

    /// The conversion of any sheet, with the number that the judge refuses it by, or 0, and what the request says of it.
    fn conversions(&mut self, judged: u32) -> Outcome {
        let converted = match self.converts()? {
            Err(number) => {
                self.tally.conversions.count_refused(self.bytes, judged, number);
                return Ok(());
            }
            Ok(converted) => converted,
        };
        let (old, new) = (accepted_by(CONVERTIBLE, self.bytes), Sheet::in_order(words(&converted)));
        let (Ok(old), Some(new)) = (old, new) else {
            return Err(Difference(format!("{} is no conversion of a convertible sheet", hexadecimal(&converted))));
        };
        self.tally.conversions.count(&old.sheet, &new);
        match judged {
            0 if converted == self.bytes => Ok(()),
            35 if converted != self.bytes => self.converted(&old.sheet, &converted),
            _ => Err(Difference(format!("judged {judged}, converted into {}", hexadecimal(&converted)))),
        }
    }

    /// The converted sheet is accepted and its own conversion, and a run of it leaves the distances of the old sheet, measured with its self-arcs.
    fn converted(&mut self, old: &Sheet, converted: &[u8]) -> Outcome {
        let code = proved::judge(converted);
        let again = self.of(converted).converts()?;
        if code != Answer::Accepted.code() || again.as_deref() != Ok(converted) {
            return Err(Difference(format!("{} is judged {code}, or not its own conversion", hexadecimal(converted))));
        }
        let table = self.of(converted).run(table::length(old.nodes()))?;
        match labels(old, &table).map(|word| payload(*word)).eq(distances(old).labels) {
            true => Ok(()),
            false => Err(Difference(format!("{} has other distances", hexadecimal(converted)))),
        }
    }
}

/// Request 2026-10.
impl Trial<'_> {
    /// A sheet that differs in one length or one hold, and at times in its regions and spans: its table and the finished one are as the request says.
    fn slowed(&mut self, sheet: &Sheet, finished: &[u32]) -> Outcome {
        let Some(words) = changes::slowed(sheet, finished, self.random) else { return Ok(()) };
        let bytes = sheets::bytes(&words);
        let table = self.of(&bytes).run(finished.len())?;
        let Some(pair) = Sheet::in_order(words).and_then(|other| Slowed::of(sheet, finished, &other, &table)) else {
            return Err(Difference(format!("{} differs in something else than one length or hold, or its run has not ended", hexadecimal(&bytes))));
        };
        self.tally.pairs.count(&pair);
        match pair.holds() {
            true => Ok(()),
            false => Err(Difference(format!("{:?}, to {}: the distances are not as request 2026-10 says", pair.change, hexadecimal(&bytes)))),
        }
    }
}

/// Request 2026-07.
impl Trial<'_> {
    /// Of some cases, counts how a table that a call has left differs from that which the choice of before leaves of what was lent.
    fn chosen(&mut self, call: &'static str, lent: &[u32], left: &[u32], before: impl FnOnce(Judged, &mut [u32]) -> Answer) {
        if !self.as_before {
            return;
        }
        let mut table = lent.to_vec();
        if let (Answer::Ended | Answer::Paused, Ok(accepted)) = (before(accepted(self.bytes), &mut table), accepted(self.bytes)) {
            self.tally.choices.entry(call).or_default().count(&accepted.sheet, left, &table);
        }
    }
}

/// The words of a table that say the distances.
fn labels<'a>(sheet: &Sheet, table: &'a [u32]) -> impl Iterator<Item = &'a u32> {
    table[table::HEADER..table::length(sheet.nodes())].iter().step_by(2)
}

/// The sheet of a case, and of what sort it is.
fn sheet_of(random: &mut Random) -> (&'static str, Vec<u8>) {
    match random.below(1000) {
        0..=434 => ("accepted, any shape", sheets::bytes(&sheets::any(random))),
        435 if random.once_in(3) => ("accepted, full size", sheets::bytes(&sheets::full(random))),
        436 if random.once_in(3) => ("damaged, full size", damage::damaged(sheets::full(random), random)),
        437 if random.once_in(3) => ("of the most bytes or one word more", sheets::bytes(&sheets::largest_or_above(random))),
        438 => ("with self-arcs, full size", sheets::bytes(&sheets::full_with_self_arcs(random))),
        435..=789 => ("damaged", damage::damaged(sheets::any(random), random)),
        790..=809 => ("with self-arcs, damaged", damage::damaged(sheets::with_self_arcs(random), random)),
        810..=869 => ("with self-arcs", sheets::bytes(&sheets::with_self_arcs(random))),
        870..=899 => ("accepted, flat, spans near the arcs", sheets::bytes(&sheets::flat(random))),
        900..=949 => ("kinds along the order", sheets::bytes(&kinds::words(random))),
        _ => ("noise", sheets::noise(random)),
    }
}

fn hexadecimal(bytes: &[u8]) -> String {
    bytes.iter().fold(String::new(), |mut text, byte| {
        write!(text, "{byte:02x}").expect("text can be written");
        text
    })
}

fn number(argument: Option<String>, otherwise: u64) -> u64 {
    match argument {
        None => otherwise,
        Some(text) => text.parse().unwrap_or_else(|_| {
            eprintln!("usage: differential [CASES] [SEED]");
            std::process::exit(2)
        }),
    }
}

fn main() -> ExitCode {
    let mut arguments = std::env::args().skip(1);
    let cases = number(arguments.next(), CASES);
    let seed = number(arguments.next(), SEED);
    println!("{cases} cases, seed {seed}");
    let start = Instant::now();
    let mut tally = Tally::default();
    for case in 0..cases {
        let mut random = Random::of_case(seed, case);
        let (sort, bytes) = sheet_of(&mut random);
        *tally.sheets.entry(sort).or_default() += 1;
        let as_before = case % MADE_AS_BEFORE == 0;
        if let Err(Difference(text)) = (Trial { bytes: &bytes, random: &mut random, tally: &mut tally, as_before }).all() {
            println!("DIFFERENCE in case {case} of seed {seed} ({sort}): {text}\nsheet {}", hexadecimal(&bytes));
            return ExitCode::from(1);
        }
    }
    tally.print();
    println!("{} s", start.elapsed().as_secs());
    let unseen = tally.unseen();
    if !unseen.is_empty() {
        println!("never seen: {}", unseen.join(", "));
        return ExitCode::from(1);
    }
    println!("no difference");
    ExitCode::SUCCESS
}
