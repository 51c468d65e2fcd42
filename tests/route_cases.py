"""The cases of the route reader: a sheet, a table's words, a node and the buffer's length, and the route, 'no route' or the refusal expected.

What is expected comes from the route reader of tests/procedure.py. It has to agree with every line of tests/route_vectors.txt and of the
vectors of every change request, from tests/2026-01_vectors.txt on, by the rules of their time, where tests/before.py says how with the older
ones, and with each answer that a case states. Tables whose distances are those of a wrong charge of holds are stated to be refused, and each
wrong charge of tests/holds.py has to be among them often enough. Otherwise the script stops.
"""
import sys
from collections import Counter

from before import MORE, table_before, table_since
from cases import bytes_in, case_of, change_fields, counted, data, lines_of, stated_in, vectors_of, vectors_since, with_words, words_in
from holds import HELD_A, LEAST, WRONG, by_hand, held_halls, longest_row
from paper import TODAY
from procedure import COUNTS, HEADER, NONE, Hall, distances, longer_tables, route, table_of, table_size, tables
from sheets import (
    FAULTS, HALL_A, KEPT, WIDE, Chance, as_holds, balanced, chain, changed, divided, each_way, flat, halving, held, high_halls, ladder, one_deep, packed,
    random_arcs, random_regions, sheet_of, single_children, some_held, turntable, with_faults, with_holds,
)


# Tables. A case is (sheet, table, node, room) with the answer stated, None where the route reader alone says it.

def ended(sheet):
    return tables(Hall(sheet))[None]


def other_tree(chance, sheet):
    """A table of distances whose feeding arcs are some shortest ones, grown from the source, and not those of a run."""
    hall = Hall(sheet)
    labels = distances(hall)
    feeding, reached, fresh = [NONE] * hall.nodes, {hall.source}, True
    while fresh:
        fresh = [
            arc for arc, (tail, head) in enumerate(zip(hall.tails, hall.heads))
            if tail in reached and head not in reached and labels[tail] + hall.taken[arc] == labels[head]
        ]
        if fresh:
            arc = fresh[chance.below(len(fresh))]
            feeding[hall.heads[arc]] = arc
            reached.add(hall.heads[arc])
    wild = [chance.below(2**28) for _ in range(8)]
    return table_of(labels, feeding, halves=[wild[at % 8] for at in range(2 * COUNTS)])


def routes(sheet, table, nodes=None):
    """Each node's route into a buffer just long enough, one word longer, one short and none; 15 on its near side and far."""
    count = Hall(sheet).nodes
    for node in range(count) if nodes is None else nodes:
        answer = route(sheet, table, node, 1024)
        length = len(answer[1]) if answer[0] == 'route' else 0
        for room in sorted({length, length + 3, max(length - 1, 0), 0}):
            yield (sheet, table, node, room), None if answer[0] == 'route' else 'no route'
    for node in (count, 2**32 - 1):
        yield (sheet, table, node, 1), 'refused input 15'


def with_payload(table, at, payload):
    return changed(table, at, table[at] >> 28 << 28 | payload)


def label_at(node):
    return HEADER + 2 * node


def feeding_at(node):
    return HEADER + 2 * node + 1


A = packed(HALL_A)
TABLE_A = ended(A)
ROUTE_A = 'route 3: 000000010000000200000003'


def marked():
    yield (A, TABLE_A, 3, 3), ROUTE_A
    yield (A, TABLE_A, 3, 2), 'refused state 25'
    yield (A, with_payload(TABLE_A, label_at(3), 9), 3, 3), 'refused state 24'
    yield from routes(A, TABLE_A)
    ring = sheet_of(3, 0, [1], [(1, 2, 0), (2, 1, 0)], flat(2))
    for label in (0, 7, 268172289, NONE - 1):
        yield (ring, table_of([0, label, label], [NONE, 1, 0]), 1, 9), 'refused state 24'
    yield from routes(ring, ended(ring))


def small_halls(seed, turns, ways):
    chance = Chance(seed)
    lengths = [[0], [0, 1], [1], [0, 1, 2, 5], [262143], list(range(0, 262144, 4099))]
    for turn in range(turns):
        nodes = 2 + chance.below(8)
        count = ways * nodes - chance.below(nodes)
        arcs = random_arcs(chance, nodes, count, lengths[turn % 6], ways)
        shapes = [
            flat(count), ladder(1 + turn % 15, count), chain(1 + turn % 15, count), single_children(2 + turn % 3, count),
            balanced(2, chance.shuffled(range(count))), random_regions(chance, count)[0],
        ]
        at = chance.below(len(shapes))
        source = arcs[0][0]
        sheet, other = (divided(nodes, source, arcs, shapes[(at + step) % 6], lambda h: 1 + (turn + h) % 4) for step in range(2))
        yield chance, sheet, other


def good_tables(halls=(5, 40, 2)):
    """Tables of a run, of a run of another division of the same hall, and of other shortest trees."""
    for chance, sheet, other in small_halls(*halls):
        yield from routes(sheet, ended(sheet))
        for table in (ended(other), other_tree(chance, sheet)):
            nodes = Hall(sheet).nodes
            yield from routes(sheet, table, sorted({chance.below(nodes), nodes - 1}))


def good_held_tables():
    """The same with holds: some of the halls of before, each in two divisions, and those of tests/holds.py."""
    chance = Chance(91)
    for _, plain, other in [*small_halls(5, 40, 2)][::4] + [*small_halls(14, 8, 4)][::4]:
        sheet = held(chance, plain)
        yield from routes(sheet, ended(sheet), [Hall(sheet).nodes - 1])
        yield from routes(sheet, ended(with_holds(other, Hall(sheet).holds)), [chance.below(Hall(sheet).nodes)])
        yield (sheet, ended(plain), 0, 99), None
    for sheet in held_halls()[::3]:
        nodes = Hall(sheet).nodes
        for table in (ended(sheet), other_tree(chance, sheet)):
            yield from routes(sheet, table, sorted({chance.below(nodes), nodes - 1}))
    for change in KEPT:
        sheet = with_faults(change)
        yield from routes(sheet, ended(sheet), [1, 2, 6])


def good_wide_tables():
    yield from good_tables((14, 8, 4))
    for change in WIDE:
        sheet = with_faults(change)
        yield from routes(sheet, ended(sheet), [1, 2, 6])


def lengths_of_tables():
    """Among the wrong ones the table with one inner count, one with a word for each count, and those with a height less or more."""
    for sheet in (A, sheet_of(1, 0, [1]), sheet_of(64, 63, [1])):
        table = ended(sheet)
        for wrong in (
            [], table[:1], table[:HEADER], table[:-2], table[:-1], table + [0], table + table[-2:], table + table, table + [0] * 1000,
            table_before(table), table[:1] + table[2:HEADER:2] + table[HEADER:], table[:5] + table[7:], table[:5] + [11 << 28] * 2 + table[5:],
        ):
            yield (sheet, wrong, 0, 9), 'refused state 21'
        yield (sheet, table, 0, 9), None
    two = sheet_of(2, 0, [1], [(0, 1)], flat(1))
    yield (A, ended(two), 0, 9), 'refused state 21'
    yield (two, TABLE_A, 0, 9), 'refused state 21'


def one_inner_count():
    """Tables with one inner count that have the right length: with words added, and those of a hall with 14 nodes more."""
    table = table_before(TABLE_A)
    for more in ([0] * MORE, [11 << 28] * MORE, table[-2:] * (MORE // 2)):
        yield (A, table + more, 3, 3), 'refused state 22'
    for source in (0, 17):
        more_nodes = sheet_of(18, source, [1], [(v, (v + 1) % 18) for v in range(18)], flat(18))
        if len(table_before(ended(more_nodes))) != table_size(4):
            sys.exit('%d words' % len(table_before(ended(more_nodes))))
        yield (A, table_before(ended(more_nodes)), 3, 3), 'refused state 22'
        yield (more_nodes, table_before(ended(more_nodes)), 3, 99), 'refused state 21'


def counts():
    """Counts of any payload are not examined: all at their highest, unused heights with figures, and counts of other runs."""
    chance = Chance(20)
    for halves in ([NONE] * 2 * COUNTS, [0] * 2 * COUNTS, *([chance.below(2**28) for _ in range(2 * COUNTS)] for _ in range(8))):
        yield (A, TABLE_A[:1] + [11 << 28 | half for half in halves] + TABLE_A[HEADER:], 3, 3), ROUTE_A
    for sheet in high_halls():
        yield (A, TABLE_A[:1] + ended(sheet)[1:HEADER] + TABLE_A[HEADER:], 3, 3), ROUTE_A
        yield (sheet, ended(sheet)[:1] + TABLE_A[1:HEADER] + ended(sheet)[HEADER:], Hall(sheet).source, 0), 'route 0'


def kinds():
    """Every kind at every place of the table of hall A."""
    for at, word in enumerate(TABLE_A):
        for kind in range(16):
            table = changed(TABLE_A, at, kind << 28 | word % 2**28)
            yield (A, table, 3, 3), ROUTE_A if kind == word >> 28 else 'refused state 22'


def payloads():
    """Status, feeding arcs, labels and counts with other payloads, at every place of the table of hall A."""
    yield (A, with_payload(TABLE_A, 0, 0), 3, 3), 'refused state 23'
    for status in (2, 3, 8, 65537, NONE):
        yield (A, with_payload(TABLE_A, 0, status), 3, 3), 'refused state 22'
    for at in range(1, HEADER):
        for count in (0, 1, 65535, NONE):
            yield (A, with_payload(TABLE_A, at, count), 3, 3), ROUTE_A
    for node in range(4):
        for arc in (4, 5, 2047, 2048, 65535, 65536, NONE - 1):
            yield (A, with_payload(TABLE_A, feeding_at(node), arc), 0, 0), 'refused state 22'
        for arc in (0, 1, 2, 3, NONE):
            right = TABLE_A[feeding_at(node)] % 2**28
            yield (A, with_payload(TABLE_A, feeding_at(node), arc), 3, 3), ROUTE_A if arc == right else 'refused state 24'
        label = TABLE_A[label_at(node)] % 2**28
        for wrong in {label - 1, label + 1, label + 65536, 2**27, NONE - 1, NONE} - {-1}:
            yield (A, with_payload(TABLE_A, label_at(node), wrong), 0, 0), 'refused state 24'


def one_off():
    """One distance one too small or too large, one feeding arc another, with all else right."""
    chance = Chance(6)
    plain = [sheet for _, sheet, _ in list(small_halls(5, 40, 2))[::4] + list(small_halls(14, 8, 4))[::4]]
    for sheet in plain + [HELD_A, *some_held(plain, 3, 93), *held_halls()[5::20]]:
        hall, table = Hall(sheet), ended(sheet)
        for node in range(hall.nodes):
            label = table[label_at(node)] % 2**28
            for wrong in {label - 1, label + 1} - {-1, NONE + 1}:
                yield (sheet, with_payload(table, label_at(node), wrong), 0, 9), 'refused state 24'
            if hall.tails:
                yield (sheet, with_payload(table, feeding_at(node), chance.below(len(hall.tails))), node, 99), None


def unreached():
    """Node 2 is not reached, node 3 leads to it and is not reached either."""
    sheet = sheet_of(4, 0, [1], [(0, 1, 5), (3, 2, 1)], flat(2))
    table = ended(sheet)
    for room in (0, 1, 9):
        yield (sheet, table, 2, room), 'no route'
    for at, payload in ((label_at(2), 0), (label_at(2), 6), (feeding_at(2), 1), (feeding_at(2), 0), (label_at(1), NONE), (feeding_at(1), NONE)):
        for node in range(4):
            yield (sheet, with_payload(table, at, payload), node, 0), 'refused state 24'
    fed = with_payload(with_payload(table, label_at(2), 6), feeding_at(2), 1)
    yield (sheet, fed, 1, 1), 'refused state 24'
    yield (sheet, with_payload(fed, label_at(3), 5), 1, 1), 'refused state 24'
    lost = with_payload(with_payload(table, label_at(1), NONE), feeding_at(1), NONE)
    yield (sheet, lost, 1, 1), 'refused state 24'
    yield (sheet, lost, 2, 1), 'refused state 24'


def rings():
    """Feeding arcs that are all tight and run round a ring, or come from one, or lead back to the source."""
    sheet = sheet_of(4, 0, [1], [(0, 1, 7), (1, 2, 0), (2, 1, 0), (2, 3, 1)], flat(4))
    labels = [0, 7, 7, 8]
    yield from routes(sheet, table_of(labels, [NONE, 0, 1, 3]))
    for node in range(4):
        yield (sheet, table_of(labels, [NONE, 2, 1, 3]), node, 9), 'refused state 24'
    for feeding in ([NONE, 0, 1, NONE], [NONE, 0, 0, 3], [NONE, 0, 1, 1], [NONE, 3, 1, 3], [NONE, 0, 3, 3]):
        yield (sheet, table_of(labels, feeding), 1, 9), 'refused state 24'
    both_ways = sheet_of(2, 0, [1], [(1, 0, 0), (0, 1, 3), (0, 1, 4), (1, 0, 0)], flat(4))
    yield from routes(both_ways, table_of([0, 3], [NONE, 1]))
    for feeding in ([0, 1], [3, 1], [NONE, 2], [1, 1], [NONE, 0], [NONE, 3]):
        yield (both_ways, table_of([0, 3], feeding), 1, 9), 'refused state 24'
    back = sheet_of(3, 0, [1], [(0, 1, 0), (1, 2, 0), (2, 0, 0), (2, 1, 0)], flat(4))
    yield from routes(back, table_of([0, 0, 0], [NONE, 0, 1]))
    for feeding in ([2, 0, 1], [NONE, 3, 1], [2, 3, 1]):
        for node in range(3):
            yield (back, table_of([0, 0, 0], feeding), node, 9), 'refused state 24'
    long_ring = sheet_of(9, 0, [1], [(0, 1, 2)] + [(v, v % 8 + 1, 0) for v in range(1, 9)], flat(9))
    yield from routes(long_ring, ended(long_ring))
    yield (long_ring, table_of([0] + [2] * 8, [NONE, 8] + list(range(1, 8))), 0, 9), 'refused state 24'


def parallel():
    """Arcs with the same ends: each feeds that is as short as any."""
    for lengths in ((3, 3), (3, 4), (4, 3), (0, 0), (3, 3, 3), (5, 3, 4), (0, 0, 0, 0), (4, 3, 3, 4), (9, 8, 7, 6)):
        sheet = sheet_of(2, 0, [1], [(0, 1, length) for length in lengths], flat(len(lengths)))
        for arc, length in enumerate(lengths):
            good = length == min(lengths)
            yield (sheet, table_of([0, min(lengths)], [NONE, arc]), 1, 1), said(('route', [arc])) if good else 'refused state 24'


def turntables():
    """Each of the lanes feeds the turntable that is as short as any, and no other arc does."""
    for lanes in (3, 4):
        table, last = lanes + 1, 2 * lanes + 1
        for length in (lambda a: 0, lambda a: 1, lambda a: 2 + a % 2, lambda a: 9 - a if a < 2 * lanes else 1):
            sheet = divided(last + 1, 0, turntable(lanes, length), balanced(3, list(range(3 * lanes))), lambda h: 1)
            shortest = min(length(v) + length(lanes + v) for v in range(lanes))
            yield from routes(sheet, ended(sheet), [0, table, last])
            for arc in range(3 * lanes):
                good = lanes <= arc < 2 * lanes and length(arc - lanes) + length(arc) == shortest
                answer = said(('route', [arc - lanes, arc, 3 * lanes - 1])) if good else 'refused state 24'
                yield (sheet, with_payload(ended(sheet), feeding_at(table), arc), last, 3), answer


# Two faults in one case. Each change makes one fault of a case over a sheet of 8 nodes, of which 0 and 7 are not reached.

PAIRED = with_faults()
PAIRED_TABLE = ended(PAIRED)


def made(*changes):
    case = {'sheet': PAIRED, 'table': PAIRED_TABLE, 'node': 5, 'room': 4}
    for change in changes:
        case.update(change(case))
    return case['sheet'], case['table'], case['node'], case['room']


def put_at(at, payload):
    return lambda case: {'table': with_payload(case['table'], at, payload)}


CASE_FAULTS = {
    'input 15': [lambda case: {'node': 8}, lambda case: {'node': 2**32 - 1}],
    'state 21': [
        lambda case: {'table': case['table'] + [0]}, lambda case: {'table': case['table'][:-1]}, lambda case: {'table': table_before(case['table'])},
    ],
    'state 22': [
        put_at(feeding_at(3), 6), lambda case: {'table': changed(case['table'], 4, 0)}, lambda case: {'table': changed(case['table'], label_at(7), 10 << 28)},
        lambda case: {'table': changed(case['table'], HEADER - 1, 9 << 28)},
    ],
    'state 23': [put_at(0, 0)],
    'state 24': [put_at(label_at(6), 1), put_at(feeding_at(2), NONE), put_at(feeding_at(1), 0), put_at(feeding_at(0), 1)],
    'state 25': [lambda case: {'room': 3}, lambda case: {'room': 0}],
}


def pairs():
    """Each fault alone and every two together, those of the sheet among them: the answer is the one that is looked at first."""
    yield made(), said(('route', [1, 2, 3, 4]))
    yield made(lambda case: {'node': 7, 'room': 0}), 'no route'
    for change in CASE_FAULTS['state 24']:
        yield made(change, lambda case: {'node': 7, 'room': 0}), 'refused state 24'
    names = list(CASE_FAULTS)
    for at, name in enumerate(names):
        for change in CASE_FAULTS[name]:
            yield made(change), 'refused ' + name
            for later in names[at + 1:]:
                for other in CASE_FAULTS[later]:
                    yield made(other, change), 'refused ' + name
    for number, changes in FAULTS.items():
        for change in changes:
            sheet = with_faults(change)
            yield made(lambda case: {'sheet': sheet}), 'refused input %d' % number
            for name in names:
                other = CASE_FAULTS[name][number % len(CASE_FAULTS[name])]
                yield made(other, lambda case: {'sheet': sheet}), 'refused input %d' % number


def wide_pairs():
    """Three and four arcs each way in the sheet, with the table of another, and with each fault of a case besides."""
    for change in WIDE:
        sheet = with_faults(change)
        yield made(lambda case: {'sheet': sheet}), 'refused state 24'
        for name, others in CASE_FAULTS.items():
            for other in others:
                yield made(other, lambda case: {'sheet': sheet}), 'refused state 24' if name == 'state 25' else 'refused ' + name


# Larger halls.

def middling():
    for chance, turns, least, ways in ((Chance(7), 6, 60, 2), (Chance(15), 3, 30, 4)):
        for turn in range(turns):
            nodes = least + chance.below(least)
            arcs = random_arcs(chance, nodes, ways * nodes, [[0, 1], list(range(262144)), [0]][turn % 3], ways)
            sheet = divided(nodes, chance.below(nodes), arcs, balanced(3, chance.shuffled(range(ways * nodes))), lambda h: 3)
            for table in (ended(sheet), other_tree(chance, sheet)):
                yield from routes(sheet, table, [chance.below(nodes)])


def full_size():
    chance = Chance(8)
    line = [(v, v + 1, 262143) for v in range(1023)] + [(v + 1, v, 0) for v in range(1023)]
    longest = divided(1024, 0, line, flat(2046), lambda h: 1)
    table = ended(longest)
    yield (longest, table, 1023, 1023), None
    yield (longest, table, 1023, 1022), 'refused state 25'
    yield (longest, with_payload(table, label_at(1023), 268172288), 0, 0), 'refused state 24'
    back = divided(1024, 1023, line, flat(2046), lambda h: 1)
    yield (back, ended(back), 0, 1024), None
    ring = divided(1024, 0, [(0, 1, 5)] + [(v, v % 1023 + 1, 0) for v in range(1, 1024)], flat(1024), lambda h: 1)
    yield (ring, ended(ring), 1023, 2000), None
    yield (ring, table_of([0] + [5] * 1023, [NONE, 1023] + list(range(1, 1023))), 0, 0), 'refused state 24'
    arcs = random_arcs(chance, 1024, 2048, [0, 1, 2])
    sheet = divided(1024, 7, arcs, one_deep(2032), lambda h: 1_000_000)
    yield (sheet, other_tree(chance, sheet), 9, 1023), None
    yield (sheet, ended(divided(1024, 7, arcs, halving(), lambda h: 2)), 1000, 4096), None
    wide = divided(1024, 0, each_way(2, 1024), halving(), lambda h: 1_000_000)
    yield (wide, ended(wide), 1023, 600), None
    alone = sheet_of(1024, 5, [1])
    yield from routes(alone, ended(alone), [0, 5])


def full_size_wide():
    chance = Chance(17)
    arcs = random_arcs(chance, 512, 2048, [0, 1, 2], 4)
    ties = divided(512, 7, arcs, halving(), lambda h: 2)
    yield (ties, other_tree(chance, ties), 9, 511), None
    yield (ties, ended(divided(512, 7, arcs, flat(2048), lambda h: 1)), 500, 4096), None
    wide = divided(512, 0, each_way(4, 512), one_deep(2032), lambda h: 1_000_000)
    yield (wide, ended(wide), 511, 600), None


# Longer tables. The route reader looks at the form of key words, and at nothing else of them.

def longer(sheet, limit=None):
    return longer_tables(Hall(sheet), [limit])[limit]


LONGER_A = longer(A)
KEYS_A = range(table_size(4), table_size(4) + 4)


def longer_forms():
    """The same routes out of either form; the two lengths, and those about them."""
    yield from routes(A, LONGER_A)
    for wrong in (LONGER_A[:-1], LONGER_A[:-2], LONGER_A + LONGER_A[-1:], TABLE_A + LONGER_A[-1:], LONGER_A + TABLE_A[-2:], LONGER_A[1:]):
        yield (A, wrong, 3, 3), 'refused state 21'
        yield (A, wrong, 4, 3), 'refused input 15'
    for chance, sheet, other in [*small_halls(24, 8, 2)] + [*small_halls(25, 3, 4)]:
        for table in (longer(sheet), longer(other), other_tree(chance, sheet) + [12 << 28 | chance.below(2) for _ in Hall(sheet).tails]):
            nodes = Hall(sheet).nodes
            yield from routes(sheet, table, sorted({chance.below(nodes), nodes - 1}))
        yield (sheet, longer(sheet, 0), 0, 99), 'refused state 23'
    alone = sheet_of(3, 1, [1])
    yield (alone, longer(alone), 1, 0), 'route 0'


def key_words():
    """Every kind and several payloads of a key word of hall A, with each other refusal of the table besides."""
    others = {'refused state 23': with_payload(LONGER_A, 0, 0), 'refused state 24': with_payload(LONGER_A, label_at(3), 9)}
    for at in KEYS_A:
        for payload in (2, 3, 4, 65536, 65537, 2**27, NONE - 1, NONE):
            yield (A, with_payload(LONGER_A, at, payload), 3, 3), 'refused state 22'
        for kind in range(16):
            for payload in (0, 1):
                yield (A, changed(LONGER_A, at, kind << 28 | payload), 3, 3), ROUTE_A if kind == 12 else 'refused state 22'
        for answer, table in others.items():
            yield (A, with_payload(table, at, 1), 3, 3), answer
            yield (A, with_payload(table, at, 2), 3, 3), 'refused state 22'
            yield (A, changed(table, at, 11 << 28), 3, 3), 'refused state 22'
        yield (A, with_payload(LONGER_A, at, 2), 3, 2), 'refused state 22'
        yield (A, with_payload(LONGER_A, at, 1), 3, 2), 'refused state 25'
        yield (A, with_payload(LONGER_A, at, 2), 4, 3), 'refused input 15'
        yield (A[:-1], with_payload(LONGER_A, at, 2), 3, 3), 'refused input 1'
    yield (A, TABLE_A + [12 << 28 | 1] * 4, 3, 3), ROUTE_A


def longer_damaged():
    """The other words of the longer table of hall A: each with other kinds, and as in the usual form with other payloads."""
    for at, word in enumerate(TABLE_A):
        for kind in (12, 9 if word >> 28 == 10 else 10):
            yield (A, changed(LONGER_A, at, kind << 28 | word % 2**28), 3, 3), 'refused state 22'
    for (sheet, table, node, room), answer in [*payloads()][::3]:
        yield (sheet, table + LONGER_A[-4:], node, room), answer
    for sheet, table, node, room in (case for case, _ in [*rings()][::2] + [*unreached()][::2]):
        yield (sheet, table + [12 << 28] * len(Hall(sheet).tails), node, room), said(route(sheet, table, node, room))


def longer_full_size():
    longest = divided(1024, 1023, each_way(2, 1024), one_deep(2032), lambda h: 1_000_000)
    table = longer(longest)
    yield (longest, table, 5, 1023), None
    yield (longest, with_payload(table, len(table) - 1, 2), 5, 1023), 'refused state 22'


# Holds.

TABLE_HELD = ended(HELD_A)


def holds_by_hand():
    """Hall A with holds: its own table, those of the sheets without holds and with other holds, and labels with other holds charged."""
    yield (HELD_A, TABLE_HELD, 3, 2), 'route 2: 0000000000000003'
    yield (HELD_A, TABLE_HELD, 3, 1), 'refused state 25'
    yield (HELD_A, TABLE_HELD, 1, 1), 'route 1: 00000000'
    yield from routes(HELD_A, TABLE_HELD)
    yield from routes(HELD_A, longer(HELD_A), [3])
    for sheet, table in ((HELD_A, TABLE_A), (A, TABLE_HELD), (with_holds(A, [100, 10, 3, 0]), TABLE_A), (with_holds(A, [0, 0, 0, 1]), TABLE_HELD)):
        yield (sheet, table, 3, 3), 'refused state 24'
    # what is held at the source, and at node 3, which is an end alone, is not charged
    for holds in ([0, 10, 3, 0], [2**28 - 1, 10, 3, 2**28 - 1], [7, 10, 3, 262144]):
        yield (with_holds(A, holds), TABLE_HELD, 3, 3), 'route 2: 0000000000000003'
    for labels in (
        [0, 3, 1, 8], [0, 4, 1, 9], [0, 4, 1, 18], [0, 4, 1, 20], [0, 4, 1, 26], [0, 104, 101, 119], [0, 14, 4, 26], [100, 104, 101, 119], [0, 6, 1, 21],
    ):
        yield (HELD_A, table_of(labels, [NONE, 0, 1, 3]), 3, 3), 'refused state 24'
    # node 1 over node 2 takes 1 + 3 + 2: as long with a hold of 1 at node 2, and the feeding arc may be either
    for hold, arcs in ((0, [2]), (1, [0, 2]), (2, [0])):
        sheet = with_holds(A, [100, 10, hold, 7])
        for arc in (0, 2):
            route_there = [1, 2, 3] if arc == 2 else [0, 3]
            first = min(4, 3 + hold)
            answer = said(('route', route_there)) if arc in arcs else 'refused state 24'
            yield (sheet, table_of([0, first, 1, first + 15], [NONE, arc, 1, 3]), 3, 3), answer


def listed_routes():
    """The distances of tests/holds.py that are stated, in tables whose feeding arcs are some shortest ones."""
    chance = Chance(94)
    for sheet, labels in [*by_hand()][::2]:
        table = other_tree(chance, sheet)
        if [word % 2**28 for word in table[HEADER::2]] != labels:
            sys.exit('the distances are not as stated: %s' % sheet.hex())
        yield from routes(sheet, table, [Hall(sheet).nodes - 1])


def same_times():
    """No holds, n holds of 0, and a part of the lengths as holds: each sheet takes the others' tables."""
    chance = Chance(95)
    for _, sheet, other in list(small_halls(96, 12, 2)) + list(small_halls(97, 4, 4)):
        zero, shifted = with_holds(sheet, [0] * Hall(sheet).nodes), as_holds(chance, sheet)
        for one, table in ((zero, ended(other)), (sheet, ended(zero)), (shifted, ended(sheet)), (sheet, ended(shifted))):
            node = chance.below(Hall(sheet).nodes)
            yield (one, table, node, 99), said(route(sheet, ended(sheet), node, 99)) if table == ended(sheet) else None


def tables_by_wrong_charges():
    """For each wrong charge and each hall with holds the table that it gives, where its labels are others, and can stand in a table."""
    for name, kind_of_hall in WRONG.items():
        for sheet in held_halls():
            table = tables(kind_of_hall(sheet))[None]
            labels = [word - (9 << 28) for word in table[HEADER::2]]
            if max(labels) <= NONE and labels != distances(Hall(sheet)):
                yield name, sheet, table


def charged_otherwise():
    """Tables whose distances are those of a wrong charge: 24. Of each wrong charge there have to be enough."""
    found = Counter()
    for name, sheet, table in tables_by_wrong_charges():
        found[name] += 1
        if found[name] <= LEAST + 5:
            yield (sheet, table, Hall(sheet).source, 0), 'refused state 24'
    print('tables by a wrong charge: ' + counted(found))
    if min(found[name] for name in WRONG) < LEAST:
        sys.exit('too few tables by a wrong charge')


def holds_full_size():
    """The longest sheet, 36,924 bytes, with the longest table; the longest route and the largest label."""
    longest = held(Chance(98), divided(1024, 1023, each_way(2, 1024), one_deep(2032), lambda h: 1_000_000))
    yield (longest, longer(longest), 5, 1023), None
    row = longest_row(1024)
    table = ended(row)
    yield (row, table, 1023, 1023), None
    yield (row, with_payload(table, label_at(1023), 268172288), 0, 0), 'refused state 24'


FAMILIES = [
    marked, good_tables, good_held_tables, good_wide_tables, lengths_of_tables, one_inner_count, counts, kinds, payloads, one_off, unreached, rings, parallel,
    turntables, pairs, wide_pairs, middling, full_size, full_size_wide, longer_forms, key_words, longer_damaged, longer_full_size,
    holds_by_hand, listed_routes, same_times, charged_otherwise, holds_full_size,
]


def vectors():
    for line in data('route_vectors.txt'):
        sheet, words, node, room, answer, arcs = line.split()
        listed = [] if arcs == '-' else [int(arc) for arc in arcs.split(',')]
        yield (bytes_in(sheet), table_since(words_in(words)), int(node), int(room)), stated_in(answer, listed)


def stated_by(request, table=lambda words: words):
    for sheet, words, node, room, answer, arcs in change_fields(request, 'route'):
        yield (bytes_in(sheet), table(words_in(words)), int(node), int(room)), stated_in(answer, words_in(arcs))


def said(answer):
    if answer[0] == 'route':
        return with_words('route %d' % len(answer[1]), answer[1])
    return 'no route' if answer[0] == 'no route' else 'refused %s %d' % answer


def answered(family, rules=TODAY):
    """The cases of a family with the answers expected and stated."""
    for (sheet, table, node, room), stated in family():
        yield case_of(4, sheet, node, room, table), said(route(sheet, table, node, room, rules)), stated


def kind(answer):
    """An answer without the route."""
    return 'route' if answer.startswith('route') else answer


def lines():
    return lines_of(([vectors], [vectors_of('2026-01', stated_by, table_since)], vectors_since('2026-02', stated_by)), FAMILIES, answered, kind)
