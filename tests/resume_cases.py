"""The cases of going on: a sheet, a table's words and a number of rounds, and the answer and the table expected, or the refusal.

What is expected comes from tests/procedure.py. It has to agree with every line for this call of the vectors of change requests, from
tests/2026-06_vectors.txt on, by the rules of their time, and with each answer that a case states: a table in parts with that of a run, a
damaged one with the clause of 33 that alone is broken. Each table that is expected is held to what request 2026-06 claims: it is a possible
state where no count of the table before it was 2^54 or more, by any spans, each count has grown by less than 2^54, and an ended one is
shortest; on small halls the run without heaps has to make the same. The halls of tests/ties.py have to tell wrong choices among equal keys
from that of request 2026-07 here too, and those of tests/holds.py wrong charges of holds from the right one. Otherwise the script stops.
"""
import sys
from collections import Counter

from cases import bytes_in, case_of, change_fields, counted, lines_of, stated_in, vectors_since, with_words, words_in
from holds import HELD_A, WRONG, by_hand, held_halls, hold_charged_apart, longest_row
from paper import BEFORE_2026_07, TODAY, Lists
from procedure import (
    CLAUSES, COUNTS, HEADER, MOST_HEIGHT, NONE, Hall, PlainRun, broken_clauses, columns, counts_of, halves_of, longer_size, longer_tables,
    resume, shortest, table_of, table_size,
)
from route_cases import feeding_at, label_at, with_payload
from run_cases import MOST_LIMIT, as_marked, listed_halls, rounds_of, small_halls, turntables, wide_halls
from sheets import (
    ANY_HOLD, FAULTS, HALL_A, KEPT, WIDE, Chance, alternate, as_holds, balanced, changed, divided, each_way, flat, halving, held, high_halls, one_deep, packed,
    random_arcs, random_regions, sheet_of, some_held, uneven_halls, with_faults, with_holds, woken,
)
from ties import hold_told_apart, tie_halls

A = packed(HALL_A)

# The request's claims are of tables whose counts are below the first; 33 lets counts in that are below the second.
CLAIMED = 2**54
LET_IN = 2**55


# A case is (sheet, table, rounds) with the answer stated, None where the procedure alone says it.

def longer(sheet, limit=None):
    return longer_tables(Hall(sheet), [limit])[limit]


def said(answer, table):
    """What is answered to a table: with the table left, which is the one lent where it is refused."""
    return with_words(answer[0], answer[1]) if answer[0] in ('ended', 'paused') else with_words('refused %s %d' % answer, table)


def stands(table):
    """The answer that a table of a run has, with its words."""
    return with_words(('paused', 'ended')[table[0] % 2], table)


def with_spans(sheet, spans):
    """The sheet with other spans and the same nodes, source, holds, arcs and division."""
    words = words_in(sheet.hex())
    if len(spans) != len(Lists(sheet).spans):
        sys.exit('%d spans' % len(spans))
    return packed(words[:2] + [3 << 28 | span for span in spans] + words[2 + len(spans):])


def with_other_spans(sheet, span):
    """The same, span gives the span for a height."""
    return with_spans(sheet, [span(h) for h in range(1, len(Lists(sheet).spans) + 1)])


def with_counts(table, counts):
    return table[:1] + [11 << 28 | half for half in halves_of(counts)] + table[HEADER:]


# Rounds done in parts.

def marked():
    """Hall A round by round, by hand; and what a table of it is left as when there is nothing more to do."""
    start = as_marked('paused', [0, 0, 0, 0, 6], [0, NONE, NONE, NONE], [NONE] * 4, [1, 1, 0, 0])
    one = as_marked('paused', [1, 2, 1, 1, 8], [0, 4, NONE, 9], [NONE, 0, NONE, 3], [0, 1, 0, 0])
    two = as_marked('paused', [2, 4, 2, 2, 13], [0, 3, 1, 9], [NONE, 2, 1, 3], [0, 0, 0, 1])
    end = as_marked('ended', [3, 5, 3, 3, 13], [0, 3, 1, 8], [NONE, 2, 1, 3], [0, 0, 0, 0])
    states = [start, one, two, end]
    for at, state in enumerate(states):
        table = words_in(state.split(': ')[1])
        for rounds in (0, 1, 2, 3, 4, MOST_LIMIT):
            yield (A, table, rounds), states[min(at + rounds, 3)]
    # With both spans 1 a round works one leaf: from the break after one round, arc 1, then arc 2, then arc 3.
    patient = with_spans(A, [1, 1])
    table = words_in(one.split(': ')[1])
    yield (patient, table, 1), as_marked('paused', [2, 3, 2, 2, 10], [0, 4, 1, 9], [NONE, 0, 1, 3], [0, 0, 1, 0])
    yield (patient, table, MOST_LIMIT), as_marked('ended', [4, 5, 4, 4, 13], [0, 3, 1, 8], [NONE, 2, 1, 3], [0, 0, 0, 0])


def in_parts(sheet, breaks):
    """From the table after each of the breaks, to each later one, to the end and by no round: as a run does."""
    made = longer_tables(Hall(sheet), [*breaks, None])
    rounds = counts_of(made[None])[0]
    for at, table in ((at, made[at]) for at in breaks):
        for then in [later for later in breaks if later >= at]:
            yield (sheet, table, then - at), stands(made[then])
        yield (sheet, table, rounds - min(at, rounds)), stands(made[None])
        yield (sheet, table, MOST_LIMIT), stands(made[None])


def some_halls():
    """Small halls of every shape."""
    return [
        *[*listed_halls()][::3], *[*turntables()][::6], *[*wide_halls()][::4], *small_halls(26, 36, 8, 2), *small_halls(27, 12, 6, 4),
        *[*uneven_halls()][::4], *[*high_halls()][::4],
    ]


def halls_with_holds():
    """Some of these halls with holds by chance, and some of those of tests/holds.py."""
    return some_held(some_halls(), 6, 111) + held_halls()[::5]


def parts():
    for sheet in some_halls()[::2] + halls_with_holds():
        rounds = rounds_of(sheet)
        yield from in_parts(sheet, sorted({0, rounds // 2, max(rounds - 1, 0)}))
    for levels, links, lanes in ((2, 3, 1), (4, 3, 2)):
        nodes, arcs, regions = woken(levels, links, lanes)
        for span in (lambda h: 1, lambda h: 2, lambda h: 1_000_000):
            yield from in_parts(divided(nodes, 0, arcs, regions, span), [0, 1, 3])


# Other spans at a break.

OTHER_SPANS = [lambda h: 1, lambda h: 1_000_000, lambda h: 1 + h % 3, lambda h: 2 if h == 1 else 1, lambda h: 16 - h, lambda h: 2]


def with_breaks(chance, sheet, turns):
    """From a table of the sheet's run on, so many breaks; at each other spans and a few rounds. At last as many rounds as it takes."""
    table = longer(sheet, chance.below(3))
    for turn in range(turns):
        other = with_other_spans(sheet, OTHER_SPANS[chance.below(len(OTHER_SPANS))])
        rounds = chance.below(3) if turn < turns - 1 else MOST_LIMIT
        yield (other, table, rounds), None
        _, table = resume(other, table, rounds)


def breaks():
    chance = Chance(28)
    for sheet in some_halls():
        yield from with_breaks(chance, sheet, 3)
    for sheet in [*uneven_halls()][1::4] + [*high_halls()][1::3]:
        yield from with_breaks(chance, sheet, 5)
    for lanes in (1, 3):
        nodes, arcs, regions = woken(6, 5, lanes)
        yield from with_breaks(chance, divided(nodes, 0, arcs, regions, lambda h: 2), 6)
    for sheet in halls_with_holds():
        yield from with_breaks(chance, sheet, 3)


def every_span_of_hall_a():
    """Hall A after each number of rounds with one pair of spans, a round with another, and to the end."""
    pairs = [(1, 1), (2, 1), (1, 2), (2, 2), (3, 1)]
    for first in pairs:
        for rounds in (0, 1, 2):
            table = longer(with_spans(A, first), rounds)
            for then in pairs:
                yield (with_spans(A, then), table, 1), None
                yield (with_spans(A, then), table, MOST_LIMIT), None


# Possible states that no run need reach.

def grown(chance, hall):
    """A state by chance: some nodes reached along a tree, labels not below the feeders', arcs keyed that have to be and some others."""
    labels, feeding = [NONE] * hall.nodes, [NONE] * hall.nodes
    labels[hall.source] = 0
    for _ in range(2 * len(hall.tails)):
        arc = chance.below(len(hall.tails))
        tail, head = hall.tails[arc], hall.heads[arc]
        if labels[tail] != NONE and labels[head] == NONE and head != hall.source:
            labels[head], feeding[head] = labels[tail] + hall.taken[arc] + (0, 0, 1, 7)[chance.below(4)], arc
    keyed = []
    for tail, head, length in zip(hall.tails, hall.heads, hall.taken):
        settled = labels[head] != NONE and labels[head] <= labels[tail] + length
        keyed.append(int(labels[tail] != NONE and (not settled or chance.below(3) == 0)))
    counts = [chance.below(1000) for _ in range(2 + len(hall.spans))] + [0] * (MOST_HEIGHT - len(hall.spans)) + [chance.below(10**6)]
    return table_of(labels, feeding, int(not any(keyed)), halves_of(counts), keyed)


def other_states():
    chance = Chance(29)
    plain = [*small_halls(30, 60, 8, 3)]
    for sheet in plain + some_held(plain, 3, 112):
        table = grown(chance, Hall(sheet))
        if not broken_clauses(Hall(sheet), table):
            for rounds in (0, 1 + chance.below(3), MOST_LIMIT):
                yield (sheet, table, rounds), None


def leaving(hall, table):
    """The arcs that leave a node which is reached in a table."""
    return [arc for arc, tail in enumerate(hall.tails) if table[label_at(tail)] % 2**28 != NONE]


def keyed_anew(hall, table, arcs):
    """An ended table with a key for each of some arcs."""
    words = with_payload(table, 0, 0)
    for arc in arcs:
        words = with_payload(words, table_size(hall.nodes) + arc, 1)
    return words


def all_keyed():
    """Ended tables with arcs keyed anew: one, and all that leave a reached node. The rounds that follow change counts alone."""
    plain = [A, *small_halls(31, 6, 6, 2)]
    for sheet in plain + [HELD_A, *some_held(plain[1:], 2, 113)]:
        hall, table = Hall(sheet), longer(sheet)
        arcs = leaving(hall, table)
        for some in (arcs[:1], arcs):
            if some:
                yield (sheet, keyed_anew(hall, table, some), 1), None
                yield (sheet, keyed_anew(hall, table, some), MOST_LIMIT), None


# No arcs; nothing to do.

def no_arcs():
    """Both forms have one length, and are the same words. The status has to be 'ended'."""
    for nodes, source in ((1, 0), (3, 2), (64, 5)):
        for span in (1, 2, 1_000_000):
            sheet = sheet_of(nodes, source, [span])
            table = longer(sheet)
            for rounds in (0, 1, MOST_LIMIT):
                yield (sheet, table, rounds), with_words('ended', table)
                yield (sheet, with_payload(table, 0, 0), rounds), 'refused state 33'
            yield (sheet, table + [12 << 28], 1), 'refused state 32'
            yield (sheet, table[:-1], 1), 'refused state 32'
    alone = longer(sheet_of(2, 0, [1]))
    for at, payload in ((label_at(0), 1), (label_at(0), NONE), (label_at(1), 0), (label_at(1), 7)):
        yield (sheet_of(2, 0, [1]), with_payload(alone, at, payload), 0), 'refused state 33'
    yield (sheet_of(2, 0, [1]), with_payload(alone, feeding_at(1), 0), 0), 'refused state 32'


def ended_given_back():
    """An ended table is left as it was, whatever the rounds and the spans."""
    for sheet in some_halls()[::5] + halls_with_holds()[::4]:
        table = longer(sheet)
        for rounds in (0, 1, MOST_LIMIT):
            yield (sheet, table, rounds), with_words('ended', table)
        yield (with_other_spans(sheet, lambda h: 4), table, 5), with_words('ended', table)


# Refusals of the sheet, of the form, and then of the state.

# Sheets of 8 nodes and 6 arcs, of which each fault of FAULTS makes another; source 1, nodes 0 and 7 unreached.
PAIRED = with_faults()
PAIRED_TABLE = longer(PAIRED, 0)


def wrong_form(table):
    """32, some ways."""
    size = len(table)
    return [
        table[:-1], table + [12 << 28], table[:-6], changed(table, 4, 10 << 28), with_payload(table, 0, 2), with_payload(table, feeding_at(3), 6),
        with_payload(table, size - 1, 2), changed(table, size - 6, 11 << 28),
    ]


def wrong_state(table):
    """33, some ways: the source at 1, an unreached node fed, ended with a key, a count of 2^55, a count at an unused height."""
    return [
        with_payload(table, label_at(1), 1), with_payload(table, feeding_at(0), 0), with_payload(table, 0, 1), with_payload(table, 1, 2**27),
        with_payload(table, HEADER - 3, 1),
    ]


def refusals():
    """Each refusal of the sheet is looked at before 32, and 32 before 33."""
    yield (PAIRED, PAIRED_TABLE, 1), None
    for table in wrong_form(PAIRED_TABLE):
        yield (PAIRED, table, 1), 'refused state 32'
    for wrong in wrong_state(PAIRED_TABLE):
        yield (PAIRED, wrong, 1), 'refused state 33'
        for table in wrong_form(wrong):
            yield (PAIRED, table, 0), 'refused state 32'
    tables = [PAIRED_TABLE, *wrong_form(PAIRED_TABLE), *wrong_state(PAIRED_TABLE), []]
    for number, changes in FAULTS.items():
        for at, change in enumerate(changes):
            for table in tables if at == 0 else tables[::4]:
                yield (with_faults(change), table, at), 'refused input %d' % number
    yield (b'', [], 0), 'refused input 2'
    yield (b'', PAIRED_TABLE, 1), 'refused input 2'


def wide():
    """Three and four arcs each way: the table of another hall, and its own."""
    for change in WIDE:
        sheet = with_faults(change)
        yield from in_parts(sheet, [0, 1])
        yield (sheet, PAIRED_TABLE, 1), None
        yield (sheet, PAIRED_TABLE[:-1], 1), 'refused state 32'


def forms():
    """32 in hall A: the usual form and lengths about both, every kind and several payloads of a key word, other kinds and payloads elsewhere."""
    for limit in (0, None):
        table = longer(A, limit)
        for wrong in (table[:table_size(4)], table[:-1], table + [12 << 28], [], table[:HEADER], table * 2, table[1:], table[:-4] + [12 << 28] * 5):
            for rounds in (0, 5):
                yield (A, wrong, rounds), 'refused state 32'
    table = longer(A, 1)
    for at in range(table_size(4), len(table)):
        for kind in {*range(16)} - {12}:
            yield (A, changed(table, at, kind << 28 | table[at] % 2), 1), 'refused state 32'
        for payload in (2, 3, 4, 65536, 65537, 2**27, NONE):
            yield (A, with_payload(table, at, payload), 1), 'refused state 32'
    for at, word in enumerate(table[:table_size(4)]):
        for kind in {9, 10, 11, 12} - {word >> 28}:
            yield (A, changed(table, at, kind << 28 | word % 2**28), 1), 'refused state 32'
    for status in (2, 3, 65537, NONE):
        yield (A, with_payload(table, 0, status), 1), 'refused state 32'
    for node in range(4):
        for arc in (4, 5, 2047, 2048, 65536, NONE - 1):
            yield (A, with_payload(table, feeding_at(node), arc), 1), 'refused state 32'


def lengths():
    """Tables that are one word off either form, in several halls, and the usual form itself."""
    for sheet in some_halls()[::6]:
        hall, table = Hall(sheet), longer(sheet, 1)
        usual = table_size(hall.nodes)
        for wrong in (table[:-1], table + table[-1:], table[:usual - 1], table[:usual + 1], table[:usual], table + table[usual:]):
            if len(wrong) != longer_size(hall):
                yield (sheet, wrong, 1), 'refused state 32'


# 33, clause by clause. A family of these gives sheets and tables with the clauses that are broken, none for a possible state at the boundary.

SOURCE, CHAINS, BELOW, UNFED, KEYLESS, RELAXED, BOUND, COUNT, UNUSED, STATUS = CLAUSES


def by_clause(of_tables):
    """The cases of tables that are given with the clauses that they break. Stops where they break others."""
    def family():
        for sheet, table, *wanted in of_tables():
            broken = broken_clauses(Hall(sheet), table)
            if broken != wanted:
                sys.exit('%s: broken is %s, wanted %s' % (of_tables.__name__, broken, wanted))
            for rounds in (1,) if wanted else (0, 1, MOST_LIMIT):
                yield (sheet, table, rounds), 'refused state 33' if wanted else None
    family.__name__ = of_tables.__name__
    return family


# Nodes 0, 1 and 2 in a row, a ring without length between nodes 2 and 3, an arc back to the source, node 4 ahead of node 3, an arc from node 4
# back to node 2; from node 5, which no arc leads to, arcs to nodes 4 and 6.
ROW = [(0, 1, 4), (1, 2, 3), (2, 3, 0), (3, 2, 0), (2, 0, 1), (3, 4, 5), (5, 4, 2), (5, 6, 1), (4, 2, 9)]
ROW_SHEET = divided(7, 0, ROW, balanced(3, list(range(9))), lambda h: 2)
ROW_COLUMNS = [0, 4, 7, 7, 12, NONE, NONE], [NONE, 0, 1, 2, 5, NONE, NONE], [0] * 9, [3, 9, 4, 3] + [0] * 13 + [20]
TWO_KEYED = {0: 1, 5: 1}


def row(labels=(), feeding=(), keyed=(), status=None, counts=()):
    """The ended table of the row with other labels, feeding arcs, keys and counts, given by their places. The status is as the keys say."""
    found = [list(column) for column in ROW_COLUMNS]
    for column, changes in zip(found, (labels, feeding, keyed, counts)):
        for at, payload in dict(changes).items():
            column[at] = payload
    status = int(not any(found[2])) if status is None else status
    return ROW_SHEET, table_of(found[0], found[1], status, halves_of(found[3]), found[2])


def source_at_0():
    """With all labels one more, with no node reached, and with a feeding arc of the source's own, that of another, and a keyed one."""
    yield row()
    yield *row({node: label + 1 for node, label in enumerate(ROW_COLUMNS[0][:5])}), SOURCE
    yield *row({node: NONE for node in range(5)}, {node: NONE for node in range(5)}), SOURCE
    for arc in (0, 4, 8):
        yield *row(feeding={0: arc}), SOURCE
        yield *row(feeding={0: arc}, keyed=TWO_KEYED), SOURCE


def chains():
    """Unfed, fed by another's arc, round the ring without length, by an arc that leaves it, and through a node that is not reached."""
    for node in range(1, 5):
        yield *row(feeding={node: NONE}, keyed=TWO_KEYED), CHAINS
    yield *row(feeding={4: 1}), CHAINS
    yield *row(feeding={3: 1}), CHAINS
    yield *row(feeding={2: 3}), CHAINS
    yield *row({2: 9, 3: 9, 4: 14}, {2: 3}, {1: 1}), CHAINS
    yield *row(feeding={4: 8}), CHAINS, BELOW
    yield *row(feeding={4: 6}), CHAINS, BELOW
    yield *row({3: 8, 2: 8, 4: 13}, {2: 3, 3: 2}, {1: 1}), CHAINS
    yield *row({1: NONE}, {1: NONE}, {0: 1}), CHAINS, BELOW
    # the ring entered at its other node: as good a chain
    other = [(0, 1, 4), (1, 3, 3), (2, 3, 0), (3, 2, 0)]
    sheet = sheet_of(4, 0, [1], other, flat(4))
    for feeding, *broken in (([NONE, 0, 3, 1],), ([NONE, 0, 3, 2], CHAINS), ([NONE, 0, 2, 3], CHAINS)):
        yield sheet, table_of([0, 4, 7, 7], feeding, 1, keyed=[0] * 4), *broken
    length = 9
    long_ring = sheet_of(length, 0, [1], [(0, 1, 2)] + [(v, v % 8 + 1, 0) for v in range(1, length)], flat(length))
    for first, *broken in ((0,), (8, CHAINS)):
        yield long_ring, table_of([0] + [2] * 8, [NONE, first] + list(range(1, 8)), 1, keyed=[0] * length), *broken


def not_below():
    """A label one below its feeder's plus length, just that, and above it, where its arc has a key."""
    yield *row({4: 11}), BELOW
    yield *row({4: 0}), BELOW
    yield row({4: 12})
    yield row({4: 13}, keyed={5: 1})
    yield *row({3: 6}, keyed={3: 1, 5: 1}), BELOW
    yield row({3: 8, 4: 13}, keyed={2: 1})
    yield *row({1: 3}, keyed={1: 1}), BELOW
    yield row({1: 5, 2: 8, 3: 8, 4: 13}, keyed={0: 1})


def unreached_nodes():
    """Fed nodes that are not reached; keyed arcs from them, and keyless ones."""
    for node, arc in ((5, 0), (6, 7), (6, 0), (5, 7)):
        yield *row(feeding={node: arc}), UNFED
        yield *row(feeding={node: arc}, keyed=TWO_KEYED), UNFED
    for arc in (6, 7):
        yield *row(keyed={arc: 1}), KEYLESS
        yield *row(keyed={**TWO_KEYED, arc: 1}), KEYLESS
    yield *row({4: NONE}, {4: NONE}, {5: 1, 8: 1}), KEYLESS
    yield row({4: NONE}, {4: NONE}, {5: 1})
    yield *row({4: NONE}, {}, {5: 1}), UNFED


def keyless_arcs():
    """Arcs that would lower a label, by one and by more, or reach a node: with a key it is a possible state, without one it is none."""
    for labels in ({4: 13}, {4: 1000}):
        yield row(labels, keyed={5: 1})
        yield *row(labels, keyed={1: 1}), RELAXED
    yield *row({4: 13}), RELAXED
    yield *row({4: NONE}, {4: NONE}), RELAXED
    yield *row({4: NONE}, {4: NONE}, {0: 1}), RELAXED
    yield row({2: 8, 3: 8, 4: 13}, keyed={1: 1})
    yield *row({2: 8, 3: 8, 4: 13}, keyed={2: 1}), RELAXED
    yield row({3: 9, 4: 14}, keyed={2: 1})
    # the arc back from node 3 has nothing to lower, that to it has
    yield *row({3: 9, 4: 14}, keyed={3: 1}), RELAXED
    # all keyed that may be
    yield row(keyed={arc: 1 for arc in (0, 1, 2, 3, 4, 5, 8)})


def bounds():
    """262,143 times the number of reached nodes less one: met, and exceeded by one. Five nodes are reached, or four, or all of a longest row."""
    yield row({4: 4 * 262_143}, keyed={5: 1})
    yield *row({4: 4 * 262_143 + 1}, keyed={5: 1}), BOUND
    yield *row({4: NONE - 1}, keyed={5: 1}), BOUND
    without = {4: NONE}, {4: NONE}
    yield row({**without[0], 3: 3 * 262_143}, without[1], {2: 1, 5: 1})
    yield *row({**without[0], 3: 3 * 262_143 + 1}, without[1], {2: 1, 5: 1}), BOUND
    for nodes in (2, 5, 40):
        sheet = sheet_of(nodes, 0, [1], [(v, v + 1, 262_143) for v in range(nodes - 1)], flat(nodes - 1))
        table = longer(sheet)
        yield sheet, table
        last = with_payload(with_payload(table, 0, 0), len(table) - 1, 1)
        yield sheet, last
        yield sheet, with_payload(last, label_at(nodes - 1), 262_143 * (nodes - 1) + 1), BOUND


def counts():
    """Each count about 2^54 and 2^55, and where a low half is full."""
    for at in (0, 1, 2, 3, COUNTS - 1):
        for count in (0, 2**28 - 1, 2**28, CLAIMED - 1, CLAIMED, LET_IN - 1):
            yield row(counts={at: count}, keyed=TWO_KEYED)
        for count in (LET_IN, LET_IN + 2**28 - 1, 2**56 - 1):
            yield *row(counts={at: count}, keyed=TWO_KEYED), COUNT
    most = {at: LET_IN - 1 for at in (0, 1, 2, 3, COUNTS - 1)}
    yield row(counts=most, keyed={0: 1, 1: 1, 2: 1})
    yield row(counts=most)
    yield *row(counts={**most, 3: LET_IN}), COUNT


def unused_heights():
    """Each height above the number of spans, at the lowest count above 0, at one of the high half alone, and at one that is too high besides."""
    for height in (4, 7, MOST_HEIGHT):
        yield *row(counts={1 + height: 1}), UNUSED
        yield *row(counts={1 + height: 2**28}, keyed=TWO_KEYED), UNUSED
        yield *row(counts={1 + height: LET_IN}), COUNT, UNUSED
    for sheet in [*listed_halls()][:45:9] + [*high_halls()][:1]:
        table, spans = longer(sheet, 1), len(Lists(sheet).spans)
        for height in sorted({1, spans, min(spans + 1, MOST_HEIGHT), MOST_HEIGHT}):
            counts = counts_of(table)
            counts[1 + height] += 1
            yield sheet, with_counts(table, counts), *([UNUSED] if height > spans else [])


def statuses():
    """Ended with a key, paused with none, with all other clauses kept."""
    yield row(status=1)
    yield *row(status=0), STATUS
    for arc in (0, 1, 4, 5, 8):
        yield row(keyed={arc: 1})
        yield *row(keyed={arc: 1}, status=1), STATUS
    for sheet in some_halls()[::7]:
        for limit in (0, 1, None):
            table = longer(sheet, limit)
            yield sheet, with_payload(table, 0, 1 - table[0] % 2), STATUS


# The same row with holds, of which those of the source and of node 6, which no arc leaves, are never charged. By arc it takes 4, 3 + 2, 0 + 3, 0 + 1, 1 + 3,
# 5 + 1, 2 + 4, 1 + 4 and 0 + 9.
HELD_ROW = with_holds(ROW_SHEET, [50, 2, 3, 1, 9, 4, ANY_HOLD])
HELD_LABELS = {2: 9, 3: 12, 4: 18}


def held_row(labels=(), *changes, **named):
    return HELD_ROW, row({**HELD_LABELS, **dict(labels)}, *changes, **named)[1]


def held_not_below():
    """A label one below its feeder's plus hold and length, just that, above it; without the hold, with the source's hold, with the node's own."""
    yield held_row()
    for label in (17, 13, 12, 0):
        yield *held_row({4: label}), BELOW
    yield held_row({4: 19}, keyed={5: 1})
    yield *held_row({2: 8}, keyed={2: 1}), BELOW
    yield *held_row({2: 7}, keyed={2: 1}), BELOW
    yield *held_row({3: 11}, keyed={5: 1}), BELOW
    yield *held_row({3: 9}, keyed={5: 1}), BELOW
    yield held_row({1: 54, 2: 59, 3: 62, 4: 68}, keyed={0: 1})
    yield *held_row({1: 54, 2: 59, 3: 62, 4: 67}, keyed={0: 1}), BELOW
    yield held_row({4: 27}, keyed={5: 1})
    # what is right without holds
    yield *held_row({2: 7, 3: 7, 4: 12}), BELOW


def held_keyless_arcs():
    """Arcs that would lower a label with the hold and the length of each taken: without a key no state. Those that would lower it without the hold alone."""
    yield *held_row({4: 19}), RELAXED
    yield *held_row({4: 27}), RELAXED
    yield *held_row({4: 19}, keyed={1: 1}), RELAXED
    yield held_row({4: 1000}, keyed={5: 1})
    yield *held_row({1: 54, 2: 59, 3: 62, 4: 68}), RELAXED
    yield *held_row({1: 5, 2: 10, 3: 13, 4: 19}), RELAXED
    yield held_row({1: 5, 2: 10, 3: 13, 4: 19}, keyed={0: 1})
    yield held_row({2: 10, 3: 13, 4: 19}, keyed={1: 1})
    yield *held_row({2: 10, 3: 13, 4: 19}, keyed={2: 1}), RELAXED
    yield held_row({4: NONE}, {4: NONE}, {5: 1})
    yield *held_row({4: NONE}, {4: NONE}), RELAXED
    # node 1 by 6, and over node 2 by 2, the hold and 1
    for hold, *broken in ((0, RELAXED), (2, RELAXED), (3,), (4,), (262_142,)):
        sheet = sheet_of(3, 0, [1], [(0, 1, 6), (0, 2, 2), (2, 1, 1)], flat(3), [ANY_HOLD, ANY_HOLD, hold])
        yield sheet, table_of([0, 6, 2], [NONE, 0, 1], 1, keyed=[0] * 3), *broken
        yield sheet, table_of([0, 6, 2], [NONE, 0, 1], 0, keyed=[0, 0, 1])
    sheet = sheet_of(3, 0, [1], [(0, 1, 6), (0, 2, 2), (2, 1, 1)], flat(3), [ANY_HOLD, ANY_HOLD, 2])
    for label, *broken in ((5,), (4, BELOW), (3, BELOW)):
        yield sheet, table_of([0, label, 2], [NONE, 2, 1], 1, keyed=[0] * 3), *broken


def held_bounds():
    """262,143 times the number of reached nodes less one, of lengths with holds: met, and exceeded by one."""
    yield held_row({4: 4 * 262_143}, keyed={5: 1})
    yield *held_row({4: 4 * 262_143 + 1}, keyed={5: 1}), BOUND
    for nodes in (3, 6, 40):
        sheet = longest_row(nodes)
        table = longer(sheet)
        last = with_payload(with_payload(table, 0, 0), len(table) - 1, 1)
        yield sheet, table
        yield sheet, last
        yield sheet, with_payload(last, label_at(nodes - 1), 262_143 * (nodes - 1) + 1), BOUND
        yield sheet, with_payload(last, label_at(nodes - 1), 262_143 * (nodes - 1) - 1), BELOW


def several():
    """Two clauses and more broken together."""
    yield *row({0: 1}, {5: 0}), SOURCE, BELOW, UNFED
    yield *row({4: 11}, status=0), BELOW, STATUS
    yield *row({4: NONE - 1}, {4: NONE}, {6: 1}, 1, {0: LET_IN, 9: 7}), CHAINS, KEYLESS, RELAXED, BOUND, COUNT, UNUSED, STATUS


CLAUSE_FAMILIES = [
    by_clause(of_tables) for of_tables in (
        source_at_0, chains, not_below, unreached_nodes, keyless_arcs, bounds, counts, unused_heights, statuses, several,
        held_not_below, held_keyless_arcs, held_bounds,
    )
]


def one_off():
    """Each word of tables of runs a little other: labels by one, feeding arcs, keys and the status. The procedure says what is answered."""
    chance = Chance(32)
    plain = [A, *small_halls(33, 9, 5, 2)]
    for sheet in plain + [HELD_A, *some_held(plain, 4, 114)]:
        hall = Hall(sheet)
        table = longer(sheet, 1 + chance.below(2))
        for node in range(hall.nodes):
            label = table[label_at(node)] % 2**28
            for other in {label - 1, label + 1, NONE} - {-1, NONE + 1, label}:
                yield (sheet, with_payload(table, label_at(node), other), 1), None
            for arc in {NONE, chance.below(len(hall.tails))}:
                yield (sheet, with_payload(table, feeding_at(node), arc), 1), None
        for at in range(table_size(hall.nodes), len(table)):
            other = with_payload(table, at, 1 - table[at] % 2)
            yield (sheet, other, 1), None
            yield (sheet, with_payload(other, 0, int(not any(columns(hall, other)[2]))), MOST_LIMIT), None


def counts_carry_on():
    """From a count of 2^55 less one: what is left has a count that is too high, so that it is a possible state no more. From counts about 2^54."""
    for at in (0, 1, 2, 3, COUNTS - 1):
        sheet, table = row({4: 1000}, counts={at: LET_IN - 1}, keyed={5: 1})
        _, left = resume(sheet, table, 1)
        yield (sheet, table, 1), with_words('ended', left)
        yield (sheet, left, 1), 'refused state 33'
    for sheet in some_halls()[1::6]:
        table = longer(sheet, 1)
        high = [count + (CLAIMED - 3 if count else 0) for count in counts_of(table)]
        yield (sheet, with_counts(table, high), 2), None
        yield (sheet, with_counts(table, high), MOST_LIMIT), None


# The choice among equal keys.

def ties():
    """From the table after each round one round on, as a run; to the end with other spans; from the table that the choice of before leaves; all keyed anew."""
    for at, sheet in enumerate(tie_halls()):
        hall, rounds = Hall(sheet), rounds_of(sheet)
        made = longer_tables(hall, [*range(rounds + 1)])
        for done in range(at % 2, rounds, 2):
            yield (sheet, made[done], 1), stands(made[done + 1])
        yield (with_other_spans(sheet, OTHER_SPANS[at % 6]), made[at % 2], MOST_LIMIT), None
        if at % 2:
            yield (sheet, longer_tables(hall, [1], rules=BEFORE_2026_07)[1], 1 + at % 4), None
        else:
            yield (sheet, keyed_anew(hall, made[rounds], leaving(hall, made[rounds])), 1 + at % 3), None


def hold_ties():
    hold_told_apart('resume', [case for case, _ in ties()], lambda run, sheet, table, rounds: resume(sheet, table, rounds, run))


# Holds.

def holds_by_hand():
    """Hall A with holds, round by round, by hand; the tables of hall A with and without holds given to the other; the sheet with other holds."""
    start = as_marked('paused', [0, 0, 0, 0, 6], [0, NONE, NONE, NONE], [NONE] * 4, [1, 1, 0, 0])
    one = as_marked('paused', [1, 2, 1, 1, 8], [0, 4, NONE, 19], [NONE, 0, NONE, 3], [0, 1, 0, 0])
    end = as_marked('ended', [2, 4, 2, 2, 10], [0, 4, 1, 19], [NONE, 0, 1, 3], [0, 0, 0, 0])
    states = [start, one, end]
    for at, state in enumerate(states):
        table = words_in(state.split(': ')[1])
        for rounds in (0, 1, 2, MOST_LIMIT):
            yield (HELD_A, table, rounds), states[min(at + rounds, 2)]
    ended = words_in(end.split(': ')[1])
    # without holds arc 2 would lower node 1; with holds hall A's node 1 is below its feeder's 1 + 3 + 2
    yield (A, ended, 1), 'refused state 33'
    yield (HELD_A, longer(A), 1), 'refused state 33'
    yield (HELD_A, longer(A, 0), 1), one
    for holds, answer in (
        ([0, 10, 3, 0], None), ([ANY_HOLD, 10, 3, ANY_HOLD], None), ([100, 10, 1, 7], None), ([100, 10, 0, 7], 'refused state 33'),
        ([100, 11, 3, 7], 'refused state 33'), ([100, 9, 3, 7], 'refused state 33'), ([0] * 4, 'refused state 33'), ([1] * 3, 'refused input 2'),
        ([1] * 5, 'refused input 2'), ([0, 262_139, 0, 0], 'refused input 34'),
    ):
        sheet = with_holds(A, holds)
        yield (sheet, ended, 1), end if answer is None else with_words(answer, ended)
    for change in KEPT:
        yield from in_parts(with_faults(change), [0, 1])


def holds_in_parts():
    """The halls of tests/holds.py whose distances are stated, from each round on to the next and to the end; the last labels are those."""
    for sheet, labels in [*by_hand()][::2]:
        if columns(Hall(sheet), longer(sheet))[0] != labels:
            sys.exit('the distances are not as stated: %s' % sheet.hex())
        yield from in_parts(sheet, [0, 1])


def same_times():
    """A hold of 0 at each node, and a part of the lengths as holds: what is left is what is left without holds."""
    chance = Chance(115)
    for at, sheet in enumerate(some_halls()[2::3]):
        limits = [at % 3, None]
        made = longer_tables(Hall(sheet), limits)
        for other in (with_holds(sheet, [0] * Hall(sheet).nodes), as_holds(chance, sheet))[at % 4 > 0:]:
            yield (other, made[at % 3], MOST_LIMIT), stands(made[None])
            yield (with_other_spans(other, lambda h: 2), made[at % 3], 1), None


def charged_otherwise():
    """Tables after a round and at the end of runs by wrong charges, where their labels can stand in a table."""
    for at, kind_of_hall in enumerate(WRONG.values()):
        for sheet in held_halls()[at % 3::3]:
            for limit in (1, None):
                table = longer_tables(kind_of_hall(sheet), [limit])[limit]
                if max(word - (9 << 28) for word in table[HEADER:table_size(Hall(sheet).nodes):2]) <= NONE:
                    yield (sheet, table, 1), None


def hold_holds():
    """A wrong charge answers otherwise: to tables of the right one, and to its own."""
    cases = [case for family in (holds_in_parts, charged_otherwise) for case, _ in family()]
    cases += [(sheet, longer(sheet, limit), MOST_LIMIT) for sheet in held_halls() for limit in (0, 1)]
    hold_charged_apart('resume', cases, lambda kind_of_hall, sheet, table, rounds: resume(sheet, table, rounds, kind_of_hall=kind_of_hall))


# Larger halls.

def full_size():
    """The longest sheet and table that there are; the longest row, whose last label is the bound itself; other spans at a break."""
    longest = divided(1024, 1023, each_way(2, 1024), one_deep(2032), lambda h: 2)
    yield (longest, longer(longest, 5), 3), stands(longer(longest, 8))
    line = divided(1024, 0, [(v, v + 1, 262143) for v in range(1023)], flat(1023)[::-1], lambda h: 1_000_000)
    table = longer(line)
    keyed = with_payload(with_payload(table, 0, 0), len(table) - 1, 1)
    yield (line, keyed, 1), None
    yield (line, with_payload(keyed, label_at(1023), 268_172_290), 1), 'refused state 33'
    ring = divided(1024, 0, [(0, 1, 5)] + [(v, v % 1023 + 1, 0) for v in range(1, 1024)], flat(1024), lambda h: 1)
    round_it = table_of([0] + [5] * 1023, [NONE, 1023] + list(range(1, 1023)), 1, keyed=[0] * 1024)
    yield (ring, round_it, 1), 'refused state 33'
    chance = Chance(34)
    wide = random_arcs(chance, 512, 2048, list(range(262144)), 4)
    for regions in (halving(), alternate(), random_regions(chance, 2048)[0]):
        sheet = divided(512, 9, wide, regions, lambda h: 3)
        yield (with_other_spans(sheet, lambda h: 1 + h % 2), longer(sheet, 20), MOST_LIMIT), None


def holds_full_size():
    """The longest sheet, 36,924 bytes, with the longest table; the largest label, of holds, and one more."""
    longest = held(Chance(116), divided(1024, 1023, each_way(2, 1024), one_deep(2032), lambda h: 2))
    yield (longest, longer(longest, 5), 3), stands(longer(longest, 8))
    line = longest_row(1024)
    table = longer(line)
    keyed = with_payload(with_payload(table, 0, 0), len(table) - 1, 1)
    yield (line, keyed, 1), None
    yield (line, with_payload(keyed, label_at(1023), 268_172_290), 1), 'refused state 33'


FAMILIES = [
    marked, parts, breaks, every_span_of_hall_a, other_states, all_keyed, no_arcs, ended_given_back, refusals, wide, forms, lengths,
    *CLAUSE_FAMILIES, one_off, counts_carry_on, full_size, ties, holds_by_hand, holds_in_parts, same_times, charged_otherwise, holds_full_size,
]


# What is expected, and what the request claims of it.

def stated_by(request):
    for sheet, table, rounds, answer, words in change_fields(request, 'resume'):
        yield (bytes_in(sheet), words_in(table), int(rounds)), stated_in(answer, words_in(words))


SEEN = Counter()

# How many answers of a kind there have to be at least.
KINDS = {
    'ended by rounds made': 400, 'paused': 250, 'given back': 100, 'counts from 2^54 on': 40, 'left no possible state': 5,
    **{'33, broken alone: ' + clause: 5 for clause in CLAUSES},
}


def as_claimed(hall, table, rounds, left):
    """Counts carry on, an ended table is shortest, and from counts below 2^54 what is left is a possible state again."""
    before, after = counts_of(table), counts_of(left)
    grown = [now - then for now, then in zip(after, before)]
    labels, feeding, _ = columns(hall, left)
    ended = left[0] % 2 == 1
    return (
        all(0 <= more < CLAIMED for more in grown) and (grown[0] == rounds or ended and grown[0] < rounds)
        and (not ended or shortest(hall, labels, feeding)) and (max(before) >= CLAIMED or not broken_clauses(hall, left))
    )


def see(hall, table, answer):
    if answer == ('state', 33):
        broken = broken_clauses(hall, table)
        SEEN['33, broken alone: ' + broken[0] if len(broken) == 1 else '33, several broken'] += 1
    elif answer[0] in ('ended', 'paused'):
        left = answer[1]
        SEEN['given back' if left == table else 'ended by rounds made' if answer[0] == 'ended' else 'paused'] += 1
        SEEN['counts from 2^54 on'] += max(counts_of(table)) >= CLAIMED
        SEEN['left no possible state'] += bool(broken_clauses(hall, left))


def expected(sheet, table, rounds, rules):
    """The answer, where it is as the request claims, and where the run without heaps has the same on a small hall."""
    answer = resume(sheet, table, rounds, rules=rules)
    if answer[0] == 'input':
        return answer
    hall = Hall(sheet)
    if rules == TODAY:
        see(hall, table, answer)
    if answer[0] != 'state' and not as_claimed(hall, table, rounds, answer[1]):
        sys.exit('what is left is not as claimed: %s' % case_of(7, sheet, rounds, len(table), table)[:300])
    if len(hall.tails) < 40 and resume(sheet, table, rounds, PlainRun, rules) != answer:
        sys.exit('the run without heaps differs: %s' % sheet.hex()[:300])
    return answer


def answered(family, rules=TODAY):
    """The cases of a family with the answers expected and stated."""
    for (sheet, table, rounds), stated in family():
        yield case_of(7, sheet, rounds, len(table), table), said(expected(sheet, table, rounds, rules), table), stated


def hold_kinds():
    print('seen: ' + counted(SEEN))
    few = [kind for kind, least in KINDS.items() if SEEN[kind] < least]
    if few:
        sys.exit('too few: %s' % few)


def lines():
    found = lines_of(([], [], vectors_since('2026-06', stated_by)), FAMILIES, answered)
    hold_kinds()
    hold_ties()
    hold_holds()
    return found
