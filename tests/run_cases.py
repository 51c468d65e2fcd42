"""The cases of a run: a sheet, a limit of rounds (None for none) and the table's length, and the answer and the table expected, or the refusal.

What is expected comes from tests/procedure.py. It has to agree with every line of tests/limited_vectors.txt and tests/marks_vectors.txt,
and of the vectors of every change request, from tests/2026-01_vectors.txt on, by the rules of their time, where tests/before.py says how
with the older ones, and with each answer that a case states; every ended table has to hold the distances found a second way, and as much
work as tests/work.py says, every longer table has to be a possible state of request 2026-06, and on small halls the run without heaps has to
make the same tables, and an ended table has to hold the least of all routes, measured by the sentence of request 2026-08. The halls of
tests/ties.py have to tell wrong choices among equal keys from that of request 2026-07, and hall A has to be as it was by the choice of before;
those of tests/holds.py have to tell wrong charges of holds from the right one. The sheets of vectors that draw self-arcs are run once they are converted by
tests/convert.py, and have to have the distances that the vectors state. The ended tables of the pairs of tests/slowed_pairs.py, and of any other two sheets
that differ as these do, have to be as tests/slowed.py says. Otherwise the script stops.
"""
import sys
from collections import Counter

from before import MORE, answer_before, listing_before
from cases import (
    bytes_in, case_of, change_fields, counted, data, lines_of, retired_fields, stated_in, vectors_of, vectors_since, with_words, words_in,
)
from convert import convert
from holds import HELD_A, by_hand, held_halls, hold_charged_apart, hold_every_route, longest_row
from paper import BASE, BEFORE_2026_07, BEFORE_2026_09, TODAY, judge
from procedure import (
    COUNTS, HEADER, MOST_HEIGHT, NONE, Hall, PlainRun, Run, broken_clauses, columns, counts_of, distances, halves_of, longer_size, longer_tables,
    printed, shortest, table_of, table_refusal, table_size, tables,
)
from sheets import (
    ANY_HOLD, FAULTS, HALL_A, KEPT, WIDE, Chance, Parts, alternate, as_holds, balanced, beneath, chain, changed, divided, each_way, flat, halving, held,
    high_halls, inner, ladder, leaf, many_chains, nested, one_deep, packed, random_arcs, random_regions, sheet_of, side_by_side, single_children, some_held,
    turntable, uneven as uneven_regions, uneven_halls, with_faults, with_holds, woken,
)
from slowed import Pair
from slowed_pairs import (
    LONG_WAY, PATIENT, all_pairs, hold_among, hold_charges, hold_damaged, hold_pairs, hold_paused, hold_two_arcs, paused_pairs, stated_pairs, with_length,
)
from ties import SHALLOW_FIRST, hold_decided, hold_told_apart, tie_halls
from work import Work

MOST_LIMIT = 2**32 - 1

# The length of the table of a sheet with faults, were it accepted.
FAULTY = table_size(Parts().nodes)

# The bytes of a long sheet. Of the vectors of `marks` those that are longer are run to their end by the listing's cases, and are left out here.
LONG = 12_000


# A group of cases: a sheet with a list of limits and table lengths, and for each the answer stated, None where the procedure alone says it.

def right(sheet):
    """The length of the table of a sheet that has to be accepted."""
    if judge(sheet):
        sys.exit('refused with %d: %s' % (judge(sheet), sheet.hex()[:300]))
    return table_size(Hall(sheet).nodes)


def longer(sheet):
    """The length of its longer table."""
    return longer_size(Hall(sheet))


def rounds_of(sheet):
    return counts_of(tables(Hall(sheet))[None])[0]


def around_the_end(sheet):
    """Limits from 0 to beyond the end: those next to either, and one between."""
    rounds = rounds_of(sheet)
    limits = {0, 1, 2, rounds // 2, rounds - 1, rounds, rounds + 1, MOST_LIMIT}
    return sheet, [(limit, right(sheet), None) for limit in sorted(limits) if limit >= 0] + [(None, right(sheet), None)]


def as_marked(answer, counts, labels, feeding, keyed=()):
    """An answer with its table, from counts whose inner figures are those of the sheet's heights; the others are 0."""
    *first, updates = counts
    halves = halves_of(first + [0] * (COUNTS - len(counts)) + [updates])
    return with_words(answer, table_of(labels, feeding, answer == 'ended', halves, keyed))


def marked():
    a, one, good = packed(HALL_A), packed([0x10000001, 0x20000000, 0x30000001]), table_size(4)
    unreached = [NONE] * 3
    yield a, [(None, good, as_marked('ended', [3, 5, 3, 3, 13], [0, 3, 1, 8], [NONE, 2, 1, 3]))]
    yield a, [(1, good, as_marked('paused', [1, 2, 1, 1, 8], [0, 4, NONE, 9], [NONE, 0, NONE, 3]))]
    yield a, [(0, good, as_marked('paused', [0, 0, 0, 0, 6], [0] + unreached, [NONE] + unreached))]
    yield around_the_end(a)
    yield one, [(limit, table_size(1), as_marked('ended', [0, 0, 0, 0], [0], [NONE])) for limit in (0, 1, MOST_LIMIT, None)]
    yield packed([0x10000001, 0x20000000]), [(None, table_size(1), 'refused input 14')]
    yield around_the_end(packed(changed(HALL_A, 0, 1 << 28 | 1024)))
    for at in (5, 7, 9, 11):
        yield around_the_end(packed(changed(HALL_A, at, 5 << 28 | 262143)))
        yield packed(changed(HALL_A, at, 5 << 28 | 262144)), [(None, good, 'refused input 9')]


def lengths_of_tables():
    """Among the wrong ones the length with one inner count, with one word for each count, with a height less or more, and about both forms."""
    fourteen_more = sheet_of(18, 0, [1], [(0, 17, 5)], flat(1))
    for sheet in (packed(HALL_A), fourteen_more, sheet_of(1, 0, [1]), sheet_of(1024, 1023, [7], [(1023, 0, 5)], flat(1)), single(5), single(15)):
        good, forms = right(sheet), {right(sheet), longer(sheet)}
        wrong = {0, 1, HEADER, good - HEADER, good - MORE, good - COUNTS, good + MORE, good + 1000, 4096}
        wrong |= {form + more for form in forms for more in (-2, -1, 1, 2)}
        for limit in (0, 1, MOST_LIMIT, None):
            yield sheet, [(limit, length, 'refused state 21') for length in sorted(wrong - forms)]
            yield sheet, [(limit, form, None) for form in sorted(forms)]


def single(height):
    """A hall of five nodes in a division of single children."""
    arcs = [(0, 1, 3), (0, 2, 1), (2, 1, 1), (1, 3, 0), (3, 0, 0), (4, 1, 2)]
    return divided(5, 0, arcs, single_children(height, len(arcs)), lambda h: 1)


def refused():
    """Each refusal with a table of the right length, one short, one long and none: the lower number wins."""
    for number, changes in FAULTS.items():
        for at, change in enumerate(changes):
            sheet = with_faults(change)
            lengths = (FAULTY, FAULTY - 1, FAULTY + 1, 0) if at == 0 else (FAULTY, FAULTY - MORE)
            yield sheet, [(limit, length, 'refused input %d' % number) for length in lengths for limit in (None, at)]
    yield b'', [(None, 0, 'refused input 2'), (0, HEADER, 'refused input 2'), (5, table_size(1), 'refused input 2')]
    yield packed([0x10000000, 0x20000000]), [(None, HEADER, 'refused input 4')]


def wide():
    """Three and four arcs each way, with a table of the right length and of others."""
    for change in WIDE:
        yield around_the_end(with_faults(change))
        wrong = (FAULTY - 1, FAULTY + 1, FAULTY - MORE, 0)
        yield with_faults(change), [(limit, length, 'refused state 21') for length in wrong for limit in (None, 0, 1)]


# Small halls.

SPANS = [lambda h: 1, lambda h: 1_000_000, lambda h: 1 + h % 3, lambda h: 2 if h == 1 else 1]


def small_halls(seed, turns, most_nodes, ways):
    """Halls with ties, zero lengths, parallel arcs and nodes that no route reaches, in every shape of division."""
    chance = Chance(seed)
    lengths = [[0], [0, 1], [1], [0, 1, 2, 5], [262143], list(range(0, 262144, 4099))]
    for turn in range(turns):
        nodes = 2 + chance.below(most_nodes - 1)
        count = 1 + chance.below(ways * nodes) if turn % 4 else ways * nodes
        arcs = random_arcs(chance, nodes, count, lengths[turn % 6], ways)
        shapes = [
            flat(count), flat(count)[::-1], chain(1 + turn % 15, count), ladder(1 + turn % 15, count), single_children(1 + turn % 15, count),
            balanced(2, chance.shuffled(range(count))), balanced(3, list(range(count))), random_regions(chance, count)[0],
        ]
        source = arcs[chance.below(count)][0] if turn % 5 else chance.below(nodes)
        yield divided(nodes, source, arcs, shapes[turn % 8], SPANS[chance.below(4)])


def listed_halls():
    for height in range(1, 16):
        yield single(height)
        arcs = each_way(2, 4)
        yield divided(4, height % 4, arcs, chain(height, 8), lambda h: 1 + h % 2)
        yield divided(4, height % 4, arcs, ladder(height, 8), lambda h: 1_000_000)
    for arcs in ([(0, 1, 0)], [(0, 1, 5)], [(0, 1, 0)] * 2, [(0, 1, 4), (0, 1, 3)], [(0, 1, 3), (0, 1, 3)], [(1, 0, 2)], [(1, 2, 0), (2, 1, 0)],
                 [(0, 1, 0), (1, 0, 0)], [(0, 1, 7), (1, 2, 0), (2, 1, 0)], [(0, 2, 3), (0, 1, 2), (1, 2, 1)], [(0, 2, 3), (0, 1, 1), (1, 2, 1)]):
        for regions in (flat(len(arcs)), flat(len(arcs))[::-1], chain(3, len(arcs)), single_children(2, len(arcs))):
            yield divided(3, 0, arcs, regions, lambda h: 1)


def turntables():
    """Lanes that tie, that differ by turns, and each quicker than the one before; undivided, divided across the lanes, and by lanes."""
    for lanes in (3, 4):
        arcs = 3 * lanes
        for length in (lambda a: 0, lambda a: 1, lambda a: a % 2, lambda a: 2 * arcs - a):
            for regions in (
                flat(arcs), flat(arcs)[::-1], [inner(0)] * 3 + [leaf(3 - a // lanes, a) for a in range(arcs)],
                [inner(0)] * lanes + [leaf(1 + a % lanes, a) for a in range(arcs)],
            ):
                yield divided(2 * lanes + 2, 0, turntable(lanes, length), regions, lambda h: 1 + h % 2)


def wide_halls():
    for ways in (3, 4):
        for height in (1, 2, 15):
            yield divided(5, height % 5, each_way(ways, 5), chain(height, 5 * ways), lambda h: 1 + h % 2)
            yield divided(5, height % 5, each_way(ways, 5), ladder(height, 5 * ways), lambda h: 1_000_000)
        for arcs in ([(0, 1, 0)] * ways, [(0, 1, 3)] * ways, [(0, 1, 9 - a) for a in range(ways)], [(1, 0, 2)] * ways + [(0, 1, 2)] * ways):
            for regions in (flat(len(arcs)), flat(len(arcs))[::-1], single_children(2, len(arcs))):
                yield divided(3, 0, arcs, regions, lambda h: 1)


def small():
    """All without holds, then some of them with holds."""
    drawn = [small_halls(2, 72, 10, 2), small_halls(10, 12, 6, 3), small_halls(11, 24, 6, 4)]
    halls = [sheet for listed in (listed_halls(), turntables(), wide_halls(), *drawn) for sheet in listed]
    yield from (around_the_end(sheet) for sheet in halls + some_held(halls, 9, 81))


# Larger halls: middling ones, such in which the deepest region is woken again and again, and full size.

def middling_halls(seed, turns, more_nodes, ways):
    chance = Chance(seed)
    for turn in range(turns):
        nodes = 40 + chance.below(more_nodes)
        count = ways * nodes - chance.below(nodes)
        arcs = random_arcs(chance, nodes, count, [[0, 1, 2, 3], list(range(262144)), list(range(100))][turn % 3], ways)
        shapes = [
            flat(count), ladder(15, count), chain(15, count), balanced(2, chance.shuffled(range(count))), balanced(5, list(range(count))),
            side_by_side([1 + chance.below(15) for _ in range(count)]), random_regions(chance, count)[0], balanced(2, list(range(count))),
        ]
        span = [lambda h: 1, lambda h: 1 + chance.below(6), lambda h: 1_000_000][chance.below(3)]
        yield divided(nodes, arcs[0][0], arcs, shapes[turn % 8], span)


def middling():
    halls = [*middling_halls(3, 16, 60, 2), *middling_halls(12, 5, 10, 4)]
    for sheet in halls + some_held(halls, 6, 82):
        rounds = rounds_of(sheet)
        yield sheet, [(limit, right(sheet), None) for limit in (rounds // 2, rounds - 1, rounds + 5)] + [(None, right(sheet), None)]


def woken_again():
    chains = [(levels, links, 1) for levels, links in ((1, 1), (2, 3), (3, 1), (5, 20), (8, 60), (11, 100), (14, 12))]
    for levels, links, lanes in chains + [(2, 3, 4), (5, 6, 3), (9, 20, 4)]:
        nodes, arcs, regions = woken(levels, links, lanes)
        yield around_the_end(divided(nodes, 0, arcs, regions, lambda h: 1_000_000))
        if levels < 9:
            yield around_the_end(divided(nodes, 0, arcs, regions, lambda h: 1))
            yield around_the_end(divided(nodes, 0, arcs, regions, lambda h: 3 - h % 2))


def full_size():
    chance = Chance(4)
    arcs = each_way(2, 1024)
    mixed = random_arcs(chance, 1024, 2048, list(range(1000)))
    ties = random_arcs(chance, 1024, 2048, [0, 1, 2])
    wide = random_arcs(chance, 1024, 2048, list(range(262144)))
    longest = [(v, v + 1, 262143) for v in range(1023)] + [(v + 1, v, 0) for v in range(1023)]
    for sheet, limits in (
        (divided(1024, 1023, arcs, one_deep(2032), lambda h: 1_000_000), (None,)),
        (divided(1024, 1023, mixed, one_deep(2032), lambda h: 1 + chance.below(9)), (40,)),
        (divided(1024, 0, wide, halving(), lambda h: 1), (1000,)),
        (divided(1024, 0, mixed, halving(), lambda h: 1_000_000), (1,)),
        (divided(1024, 7, ties, alternate(), lambda h: 2), (100,)),
        (divided(1024, 7, wide, flat(2048)[::-1], lambda h: 1_000_000), (None,)),
        (divided(1024, 9, mixed, flat(2048), lambda h: 1), (MOST_LIMIT,)),
        (divided(1024, 0, longest, balanced(4, chance.shuffled(range(2046))), lambda h: 1 + h), (None,)),
        (divided(1024, 0, wide, balanced(13, chance.shuffled(range(2048))), lambda h: 1 + chance.below(1_000_000)), (2,)),
        (divided(200, 199, each_way(2, 200)[:286], many_chains(272, 14), lambda h: 1 + h % 2), (5, None)),
    ):
        yield sheet, [(limit, right(sheet), None) for limit in limits]


def full_size_wide():
    chance = Chance(13)
    ties = random_arcs(chance, 512, 2048, [0, 1, 2], 4)
    wide = random_arcs(chance, 512, 2048, list(range(262144)), 4)
    for sheet, limit in (
        (divided(512, 511, each_way(4, 512), one_deep(2032), lambda h: 1_000_000), None),
        (divided(512, 0, ties, halving(), lambda h: 1), 1000),
        (divided(512, 7, ties, alternate(), lambda h: 2), 100),
        (divided(512, 7, wide, flat(2048)[::-1], lambda h: 1_000_000), None),
        (divided(512, 9, wide, balanced(13, chance.shuffled(range(2048))), lambda h: 1 + chance.below(1_000_000)), 2),
    ):
        yield sheet, [(limit, right(sheet), None)]


# Counts level by level.

def to_the_end(sheet):
    run = Run(Hall(sheet))
    while not run.ended():
        run.round()
    return run


def by_depth(hall):
    """From the top down: region 0 has its height, and every other region one less than its parent."""
    levels = [hall.heights[0]]
    for parent in hall.parents[1:]:
        levels.append(levels[parent] - 1)
    return levels


def by_child(hall, choose):
    """One more than a child, which need not be the highest one."""
    levels = [0] * len(hall.parents)
    for region in reversed(range(len(levels))):
        if region not in hall.arc_of:
            levels[region] = 1 + choose([levels[child] for child in hall.children[region]])
    return levels


def uneven():
    """Halls in which other figures come out from the top down, by the nearest leaf, by the first child and by the last."""
    for sheet in uneven_halls():
        run = to_the_end(sheet)
        others = [by_depth(run.hall)] + [by_child(run.hall, choose) for choose in (min, lambda levels: levels[0], lambda levels: levels[-1])]
        if run.inner() in [run.inner(levels) for levels in others]:
            sys.exit('another level gives the same figures: %s' % sheet.hex()[:300])
        yield around_the_end(sheet)


def high():
    """Halls of height 15 with all fifteen figures above 0, in some of them no two alike."""
    found = [to_the_end(sheet).inner() for sheet in high_halls()]
    if any(0 in figures for figures in found) or not any(len(set(figures)) == len(figures) for figures in found):
        sys.exit('a height without workings, or two alike in each hall: %s' % found)
    yield from (around_the_end(sheet) for sheet in high_halls())


# How much work a run does: all spans 1, and every leaf directly on region 0.

# Nodes 1, 3 and 4 are a ring without length. No other node leads to nodes 6 and 7, from which the last four arcs lead; node 8 has no arcs.
NODES = 9
ARCS = [
    (0, 1, 4), (0, 2, 1), (2, 1, 2), (1, 3, 0), (3, 4, 0), (4, 1, 0), (4, 3, 0), (2, 0, 3), (1, 5, 2), (1, 5, 2), (2, 5, 6), (5, 0, 9),
    (6, 1, 1), (6, 7, 0), (7, 6, 0), (7, 6, 5),
]

# By source, the number of these arcs whose tail is reached.
TAILS_REACHED = {0: 12, 6: 16, 8: 0}

# The fan with which these arcs are balanced in at most so many heights.
FANS = {1: 16, 2: 4, 3: 3, 5: 2, 15: 2}


def at_the_end(sheet):
    """A limit one short of the end, one that is just enough, and none."""
    rounds = rounds_of(sheet)
    return sheet, [(limit, right(sheet), None) for limit in (rounds - 1, rounds, None) if limit != -1]


def raised(height, regions):
    """A division in as many single children as it takes to a height."""
    return beneath(height - Hall(divided(NODES, 0, ARCS, regions, lambda h: 1)).heights[0], regions)


def by_chance(chance, height):
    """A division by chance, of at least two heights of its own where there may be two."""
    while True:
        regions, own = random_regions(chance, len(ARCS))
        if min(2, height) <= own <= height:
            return raised(height, regions)


def patient_halls():
    """All spans are 1: single children, balanced divisions, such by chance, and leaves at different depths."""
    chance = Chance(19)
    for height, fan in FANS.items():
        for source, regions in (
            (0, single_children(height, len(ARCS))), (6, raised(height, balanced(fan, chance.shuffled(range(len(ARCS)))))),
            (0, by_chance(chance, height)), (6, by_chance(chance, height)), (8, by_chance(chance, height)),
        ):
            yield divided(NODES, source, ARCS, regions, lambda h: 1)
        arcs = random_arcs(chance, height + 2, 3 * height - 2, [0, 1, 2], 4)
        yield divided(height + 2, arcs[0][0], arcs, uneven_regions(height), lambda h: 1)


def flat_halls():
    """Every leaf hangs on region 0: small spans, those about the number of arcs whose tail is reached, and the largest."""
    chance = Chance(20)
    for source, number in TAILS_REACHED.items():
        for span in (1, 2, 3, number - 1, number, number + 1, 1_000_000) if number else (1, 2):
            yield divided(NODES, source, ARCS, chance.shuffled(flat(len(ARCS))), lambda h: span)
    for span in (1, 2, 1_000_000):
        yield sheet_of(3, 1, [span])


def small_flat_halls():
    """By chance, with spans 2 and 3, and with few arcs, so that some tails are unreached."""
    chance = Chance(21)
    for turn in range(14):
        nodes = 5 + turn % 4
        arcs = random_arcs(chance, nodes, nodes + 1, [0, 1, 2, 5])
        for span in (2, 3):
            yield divided(nodes, arcs[0][0], arcs, flat(len(arcs)), lambda h: span)


def work_done():
    """Also hall A with both spans 1, and with its spans exchanged."""
    for source, number in TAILS_REACHED.items():
        labels = distances(Hall(sheet_of(NODES, source, [1], ARCS, flat(len(ARCS)))))
        if sum(labels[tail] != NONE for tail, _, _ in ARCS) != number:
            sys.exit('from node %d another number of tails is reached' % source)
    good, ends = table_size(4), ([0, 3, 1, 8], [NONE, 2, 1, 3])
    patient, exchanged = packed(changed(HALL_A, 2, 3 << 28 | 1)), packed(HALL_A[:2] + HALL_A[3:1:-1] + HALL_A[4:])
    yield patient, [(limit, good, as_marked('ended', [4, 4, 4, 4, 13], *ends)) for limit in (4, None)]
    yield from (around_the_end(sheet) for sheet in (patient, exchanged, *flat_halls()))
    yield from (at_the_end(sheet) for sheet in (*patient_halls(), *small_flat_halls()))
    yield from (at_the_end(sheet) for sheet in some_held([*patient_halls(), *flat_halls(), *small_flat_halls()], 2, 83))


# Longer tables.

def in_the_longer_form(sheet, limits=None):
    """The cases of a group in the longer form. With no limits given, those about the start, the end and between."""
    rounds = rounds_of(sheet)
    limits = limits or sorted({0, 1, rounds // 2, max(rounds - 1, 0), rounds}) + [None]
    return sheet, [(limit, longer(sheet), None) for limit in limits]


def about_both_lengths(sheet):
    """Lengths one off either form, halfway between the two, and with a word of kind 12 for each node or region in place of each arc."""
    forms = right(sheet), longer(sheet)
    lists = Hall(sheet)
    wrong = {form + more for form in forms for more in (-1, 1)} | {sum(forms) // 2, forms[0] + lists.nodes, forms[0] + len(lists.parents) - 1}
    return sheet, [(limit, length, 'refused state 21') for length in sorted(wrong - {*forms}) for limit in (None, 1)]


def longer_of_hall_a():
    """Which arcs have a key after each round of hall A, by hand."""
    a, unreached = packed(HALL_A), [NONE] * 3
    ended = as_marked('ended', [3, 5, 3, 3, 13], [0, 3, 1, 8], [NONE, 2, 1, 3], [0, 0, 0, 0])
    yield a, [
        (0, table_size(4) + 4, as_marked('paused', [0, 0, 0, 0, 6], [0] + unreached, [NONE] + unreached, [1, 1, 0, 0])),
        (1, table_size(4) + 4, as_marked('paused', [1, 2, 1, 1, 8], [0, 4, NONE, 9], [NONE, 0, NONE, 3], [0, 1, 0, 0])),
        (2, table_size(4) + 4, as_marked('paused', [2, 4, 2, 2, 13], [0, 3, 1, 9], [NONE, 2, 1, 3], [0, 0, 0, 1])),
        *((limit, table_size(4) + 4, ended) for limit in (3, 4, MOST_LIMIT, None)),
    ]
    yield about_both_lengths(a)


def longer_forms():
    """Both run calls fill either form: the same counts, labels and feeding arcs, then the keys."""
    yield from longer_of_hall_a()
    one = packed([0x10000001, 0x20000000, 0x30000001])
    yield one, [(limit, longer(one), as_marked('ended', [0, 0, 0, 0], [0], [NONE])) for limit in (0, None)]
    drawn = [*small_halls(22, 16, 8, 2), *small_halls(23, 8, 6, 4)]
    halls = [*listed_halls()][::8] + [*turntables()][::8] + [*wide_halls()][::6] + drawn + [*uneven_halls()][::5] + [*high_halls()][::5]
    for sheet in halls + some_held(halls, 5, 84):
        yield in_the_longer_form(sheet)
    for sheet in drawn[::4]:
        yield about_both_lengths(sheet)
    for change in WIDE:
        yield in_the_longer_form(with_faults(change))
    for changes in FAULTS.values():
        sheet = with_faults(changes[0])
        yield sheet, [(limit, FAULTY + 6, 'refused input %d' % judge(sheet)) for limit in (None, 1)]
    for nodes, arcs, regions in (woken(3, 4), woken(5, 6, 3)):
        yield in_the_longer_form(divided(nodes, 0, arcs, regions, lambda h: 2))


def longer_full_size():
    """A table of 37 + 2,048 + 2,048 words, the longest that there is, before the end and at it."""
    longest = divided(1024, 1023, each_way(2, 1024), one_deep(2032), lambda h: 3)
    yield in_the_longer_form(longest, [9, None])
    yield in_the_longer_form(divided(512, 7, each_way(4, 512), alternate(), lambda h: 2), [100])
    yield longest, [(None, length, 'refused state 21') for length in (4132, 4134)]


# The choice among equal keys.

def ties_by_hand():
    """Two halls round by round, by hand.

    In the first a leaf, an inner region of height 1 and one of height 2 hang on region 0, the highest with the lowest number, each with an arc from the source,
    and all spans are 1: the leaf is worked in the first round, then the region of height 1, then that of height 2. In the second region 1 and the leaf of arc 3
    have the key 0 at the start, and the leaf is worked first: node 2 is at 500 when region 1 is worked, with a span of 3, up to arc 2, which feeds node 3.
    """
    heights = divided(4, 0, [(0, 1, 1), (0, 2, 1), (0, 3, 1)], nested([[[0]], [1], 2]), lambda h: 1)
    rounds = [
        as_marked('paused', [0, 0, 0, 0, 0, 9], [0, NONE, NONE, NONE], [NONE] * 4, [1, 1, 1]),
        as_marked('paused', [1, 1, 0, 0, 1, 9], [0, NONE, NONE, 1], [NONE, NONE, NONE, 2], [1, 1, 0]),
        as_marked('paused', [2, 2, 1, 0, 2, 9], [0, NONE, 1, 1], [NONE, NONE, 1, 2], [1, 0, 0]),
        as_marked('ended', [3, 3, 2, 1, 3, 9], [0, 1, 1, 1], [NONE, 0, 1, 2], [0, 0, 0]),
    ]
    yield heights, [(limit, longer(heights), answer) for limit, answer in enumerate(rounds)]
    rounds = [
        as_marked('paused', [0, 0, 0, 0, 5], [0, NONE, NONE, NONE], [NONE] * 4, [1, 0, 0, 1, 0]),
        as_marked('paused', [1, 1, 0, 1, 7], [0, NONE, 500, NONE], [NONE, NONE, 3, NONE], [1, 0, 1, 0, 0]),
        as_marked('paused', [2, 4, 1, 2, 11], [0, 200, 500, 700], [NONE, 0, 3, 2], [0, 0, 0, 0, 1]),
        as_marked('ended', [3, 5, 1, 3, 11], [0, 200, 500, 700], [NONE, 0, 3, 2], [0] * 5),
    ]
    yield SHALLOW_FIRST, [(limit, longer(SHALLOW_FIRST), answer) for limit, answer in enumerate(rounds)]


def ties():
    """Each limit from 0 to the end in the longer form, and none in the usual one."""
    for sheet in tie_halls():
        yield sheet, [(limit, longer(sheet), None) for limit in range(rounds_of(sheet) + 1)] + [(None, right(sheet), None)]


def hold_ties():
    """Also stops where hall A is not as by the choice of before: "hall A prints as before", and every limit of rounds leaves the same table."""
    def left(run, sheet, limit, length):
        return longer_tables(Hall(sheet), [limit], run)[limit][:length]
    hold_told_apart('run', [(sheet, limit, length) for sheet, cases in ties() for limit, length, _ in cases], left)
    hold_decided()
    a = packed(HALL_A)
    limits = [*range(rounds_of(a) + 2), None]
    if longer_tables(Hall(a), limits) != longer_tables(Hall(a), limits, rules=BEFORE_2026_07) or printed(a) != printed(a, BEFORE_2026_07):
        sys.exit('hall A is not as before')


# Holds.

def holds_by_hand():
    """Hall A with holds 100, 10, 3 and 7, round by round, by hand: arc 2 takes 2 + 3 and lowers nothing, and arc 3 takes 5 + 10."""
    good, unreached = table_size(4), [NONE] * 3
    rounds = [
        as_marked('paused', [0, 0, 0, 0, 6], [0] + unreached, [NONE] * 4, [1, 1, 0, 0]),
        as_marked('paused', [1, 2, 1, 1, 8], [0, 4, NONE, 19], [NONE, 0, NONE, 3], [0, 1, 0, 0]),
        as_marked('ended', [2, 4, 2, 2, 10], [0, 4, 1, 19], [NONE, 0, 1, 3], [0, 0, 0, 0]),
    ]
    yield HELD_A, [(limit, good + 4, answer) for limit, answer in enumerate(rounds)]
    yield HELD_A, [(limit, good, as_marked('ended', [2, 4, 2, 2, 10], [0, 4, 1, 19], [NONE, 0, 1, 3])) for limit in (2, 3, MOST_LIMIT, None)]
    yield HELD_A, [(limit, good + 8, 'refused state 21') for limit in (1, None)]
    for change in KEPT:
        yield around_the_end(with_faults(change))


def holds():
    """The halls of tests/holds.py, of which some have their distances stated."""
    for sheet, labels in by_hand():
        if distances(Hall(sheet)) != labels:
            sys.exit('the distances are not as stated: %s' % sheet.hex())
    yield from (at_the_end(sheet) for sheet in held_halls())
    yield from (in_the_longer_form(sheet, [0, 1, None]) for sheet in held_halls()[::4])


def left_alike(sheet, other):
    """Cases of a sheet, in which the table left is stated to be that of the other."""
    limits = sorted({0, 1, rounds_of(other) // 2, max(rounds_of(other) - 1, 0)}) + [None]
    made = longer_tables(Hall(other), limits)
    size = longer(sheet) if len(sheet) % 8 else right(sheet)
    return sheet, [(limit, size, with_words(('paused', 'ended')[made[limit][0] % 2], made[limit][:size])) for limit in limits]


def some_halls():
    return [*listed_halls()][::7] + [*turntables()][::5] + [*wide_halls()][::5] + [*small_halls(85, 30, 8, 3)] + [*uneven_halls()][::6] + [*high_halls()][::6]


def zero_holds():
    """A hold of 0 at each node: every table is that of the sheet without holds. So it is with holds at the source and where no arc leaves alone."""
    for sheet in some_halls()[::2]:
        yield left_alike(with_holds(sheet, [0] * Hall(sheet).nodes), sheet)
    for sheet in some_halls()[1::4]:
        hall = Hall(sheet)
        free = [node == hall.source or not hall.outgoing[node] for node in range(hall.nodes)]
        yield left_alike(with_holds(sheet, [ANY_HOLD * is_free for is_free in free]), sheet)


def lengths_as_holds():
    """Holds that take the place of a part of the lengths: every table is that of the sheet without holds."""
    chance = Chance(86)
    for sheet in some_halls():
        yield left_alike(as_holds(chance, sheet), sheet)
    for levels, links, lanes in ((3, 1, 1), (5, 6, 3), (8, 20, 1)):
        nodes, arcs, regions = woken(levels, links, lanes)
        sheet = divided(nodes, 0, arcs, regions, lambda h: 1_000_000 if lanes == 1 else 2)
        yield left_alike(as_holds(chance, sheet), sheet)


def holds_full_size():
    """The longest sheet that there is, 36,924 bytes; the largest label, of holds; four arcs each way; and zero holds."""
    chance = Chance(87)
    longest = held(chance, divided(1024, 1023, each_way(2, 1024), one_deep(2032), lambda h: 5))
    if len(longest) != TODAY.most_bytes:
        sys.exit('the longest sheet has %d bytes' % len(longest))
    yield longest, [(limit, longer(longest), None) for limit in (30, None)]
    row = longest_row(1024)
    if distances(Hall(row))[1023] != 268_172_289:
        sys.exit('the largest label is another')
    yield row, [(None, right(row), None)]
    wide = held(chance, divided(512, 7, random_arcs(chance, 512, 2048, list(range(200000)), 4), halving(), lambda h: 2))
    yield wide, [(200, right(wide), None), (None, right(wide), None)]


def hold_holds():
    def left(kind_of_hall, sheet, limit, length):
        return longer_tables(kind_of_hall(sheet), [limit])[limit][:length]
    hold_charged_apart('run', [(sheet, limit, length) for sheet, cases in holds() for limit, length, _ in cases], left)


# Self-arcs.

def converted_vectors():
    """The sheets of vectors that draw self-arcs, converted, with the rounds of the vector: where these ended, the distances are those that it states."""
    for request, sheet, (limit, _, answer, words) in retired_fields('run'):
        if answer in ('ended', 'paused'):
            made = convert(sheet)
            header = HEADER - MORE if request == '2026-01' else HEADER
            labels = [word % 2**28 for word in words_in(words)[header:header + 2 * Hall(made).nodes:2]]
            if answer == 'ended' and distances(Hall(made)) != labels:
                sys.exit('converted, it has other distances: %s' % sheet.hex()[:300])
            yield made, [(int(limit), right(made), None)] + [(None, longer(made), None)] * (answer == 'ended')


# One length or one hold changed.

def slowed_rounds():
    """Hall A with arc 1 at 4 in place of 1; then two halls with spans of 1, round by round, with arc 1 as it was and at 4, by hand.

    In hall A node 1 gets 4, over arc 0, and node 3 gets 9. In the second hall, which is hall A too, region 1 has the lower number of two with the key 4 and is
    worked in the third round, where with the shorter arc region 2 is: node 3 is at 9 then and was unreached. In the third hall, with an arc more, it is at 9
    after the fourth round and was at 20. In the end it is at 9 and was at 8.
    """
    a, good, ends = packed(changed(HALL_A, 7, 5 << 28 | 4)), table_size(4), ([0, 4, 4, 9], [NONE, 0, 1, 3])
    yield a, [(None, good, as_marked('ended', [2, 4, 2, 2, 10], *ends))]
    yield a, [(1, good + 4, as_marked('paused', [1, 2, 1, 1, 8], [0, 4, NONE, 9], [NONE, 0, NONE, 3], [0, 1, 0, 0]))]
    yield PATIENT, [(3, good + 4, as_marked('paused', [3, 3, 3, 3, 13], [0, 3, 1, NONE], [NONE, 2, 1, NONE], [0, 0, 0, 1]))]
    yield with_length(PATIENT, 1, 4), [
        (3, good + 4, as_marked('paused', [3, 3, 3, 3, 10], *ends, [0, 0, 1, 0])), (None, good + 4, as_marked('ended', [4, 4, 4, 4, 10], *ends, [0] * 4)),
    ]
    yield LONG_WAY, [
        (4, good + 5, as_marked('paused', [4, 4, 4, 4, 15], [0, 3, 1, 20], [NONE, 2, 1, 4], [0, 0, 0, 1, 0])),
        (None, good + 5, as_marked('ended', [5, 5, 5, 5, 15], [0, 3, 1, 8], [NONE, 2, 1, 3], [0] * 5)),
    ]
    yield with_length(LONG_WAY, 1, 4), [
        (4, good + 5, as_marked('paused', [4, 4, 4, 4, 12], *ends, [0, 0, 1, 0, 0])), (None, good + 5, as_marked('ended', [5, 5, 5, 5, 12], *ends, [0] * 5)),
    ]


def slowed():
    """The pairs of tests/slowed_pairs.py, of which some have their distances stated; in every third pair in the longer form."""
    for sheet, labels, other, after in stated_pairs():
        if [distances(Hall(sheet)), distances(Hall(other))] != [labels, after]:
            sys.exit('the distances are not as stated: %s, %s' % (sheet.hex(), other.hex()))
    for at, pair in enumerate(all_pairs()):
        yield from ((sheet, [(None, longer(sheet) if at % 3 == 0 else right(sheet), None)]) for sheet in pair)


def slowed_and_paused():
    """Pairs whose tables are not as is said of ended ones, after the same number of rounds."""
    for sheet, other, rounds in paused_pairs():
        yield from ((one, [(limit, longer(one), None) for limit in rounds]) for one in (sheet, other))


def hold_slowed(lines):
    """Holds the pairs, and all that happen to stand among the sheets of these cases, to tests/slowed.py by the ended tables expected."""
    ended = {sheet: table for sheet, table in tables_in(lines) if table[0] % 2}
    found = [Pair(sheet, ended[sheet], other, ended[other]) for sheet, other in all_pairs()]
    hold_pairs(found)
    hold_damaged(found)
    hold_charges(found)
    hold_two_arcs()
    hold_paused()
    hold_among(ended)


FAMILIES = [
    marked, lengths_of_tables, refused, wide, small, uneven, high, middling, woken_again, full_size, full_size_wide, work_done, longer_forms,
    longer_full_size, ties_by_hand, ties, holds_by_hand, holds, zero_holds, lengths_as_holds, holds_full_size, converted_vectors, slowed_rounds, slowed,
    slowed_and_paused,
]


# The vectors.

def limited_vectors():
    for line in data('limited_vectors.txt'):
        sheet, limit, length, answer, words = line.split()
        yield bytes_in(sheet), [(int(limit), int(length) + MORE, stated_in(answer, words_in(words)))]


def stated_by(request, more=0):
    """Where a limited run has ended, the run to the end has the same answer. Tables are longer by so many words."""
    for sheet, limit, length, answer, words in change_fields(request, 'run'):
        for rounds in (int(limit), None) if answer == 'ended' else (int(limit),):
            yield bytes_in(sheet), [(rounds, int(length) + more, stated_in(answer, words_in(words)))]


def marks_vectors():
    """The sheets of the vectors of `marks`, to their end, where what it prints is what the procedure says. The long ones are among the listings alone."""
    for line in data('marks_vectors.txt'):
        digits, stated = line.split(' ', 1)
        sheet = bytes_in(digits)
        found = listing_before('|'.join(printed(sheet, BASE)))
        if found != stated:
            sys.exit('marks prints %s: %s' % (found[:200], line[:200]))
        lengths = ([FAULTY] if judge(sheet, BASE) else []) + ([] if judge(sheet, BEFORE_2026_09) else [table_size(Hall(sheet).nodes)])
        if len(sheet) <= LONG:
            yield sheet, [(None, length, None) for length in lengths]


# What is expected.

def sound(hall, table):
    """Whether a longer table can be one of a run: an ended one is shortest, no label of a paused one is below the distance, a round works region 0,
    and the table is a possible state.

    Region 0 alone is as high as there are spans, and no region is higher.
    """
    labels, feeding, _ = columns(hall, table)
    rounds, _, *figures, _ = counts_of(table)
    if figures[len(hall.spans) - 1:] != [rounds] + [0] * (MOST_HEIGHT - len(hall.spans)) or broken_clauses(hall, table):
        return False
    if table[0] % 2:
        return shortest(hall, labels, feeding)
    return all(label >= distance for label, distance in zip(labels, distances(hall)))


def answers(sheet, wanted, rules):
    """The answers expected for a sheet and pairs of a limit and a length."""
    refusals = [table_refusal(sheet, length, rules) for _, length in wanted]
    if all(refusals):
        return ['refused %s %d' % refusal for refusal in refusals]
    hall = Hall(sheet)
    made = longer_tables(hall, [limit for limit, _ in wanted], rules=rules)
    if not all(sound(hall, table) for table in made.values()):
        sys.exit('a table is not one of a run: %s' % sheet.hex()[:300])
    if len(hall.tails) < 40 and longer_tables(hall, list(made), PlainRun, rules) != made:
        sys.exit('the run without heaps differs: %s' % sheet.hex()[:300])
    said = [with_words(('paused', 'ended')[made[limit][0] % 2], made[limit][:length]) for limit, length in wanted]
    return ['refused %s %d' % refusal if refusal else answer for refusal, answer in zip(refusals, said)]


def answered(family, rules=TODAY):
    """The cases of a family with the answers expected and stated."""
    for sheet, cases in family():
        for (limit, length, stated), answer in zip(cases, answers(sheet, [case[:2] for case in cases], rules)):
            yield case_of(2, sheet, words=length) if limit is None else case_of(3, sheet, limit, length), answer, stated


# What tests/work.py says, held to the tables expected.

def some_tails_unreached(work):
    return work.reached != work.arcs


def all_spans_1(work):
    """With two heights or more."""
    return work.ended and work.all_spans_1 and len(work.spans) > 1


def no_multiple(work):
    return work.ended and work.all_on_region_0 and work.reached % work.spans[0] != 0


def multiple(work):
    """Not 0, and of a span above 1."""
    return work.ended and work.half() == 'flat' and work.reached > 0 and work.reached % work.spans[0] == 0


def neither(work):
    return work.ended and work.half() == 'none'


# The kinds of table that there have to be: how many different ones at least, and what tells them.
KINDS = {
    'all spans 1': (120, all_spans_1),
    'all spans 1, some tails unreached': (50, lambda work: all_spans_1(work) and some_tails_unreached(work)),
    'flat, no multiple': (90, no_multiple),
    'flat, no multiple, some tails unreached': (35, lambda work: no_multiple(work) and some_tails_unreached(work)),
    'flat, a multiple': (40, multiple),
    'flat, a multiple, some tails unreached': (10, lambda work: multiple(work) and some_tails_unreached(work)),
    'flat, span 1': (80, lambda work: work.ended and work.half() == 'both'),
    'neither, other leaves': (80, lambda work: neither(work) and work.leaves != work.reached),
    'neither, 5 leaves for 4 arcs as in hall A': (1, lambda work: neither(work) and (work.leaves, work.reached) == (5, 4)),
    'neither, the same leaves, other rounds': (200, lambda work: neither(work) and work.rounds != work.leaves == work.reached),
    'with holds, all spans 1': (15, lambda work: all_spans_1(work) and work.held),
    'with holds, flat': (40, lambda work: work.ended and work.all_on_region_0 and work.held),
    'with holds, neither': (80, lambda work: neither(work) and work.held),
    'paused, all spans 1, not so': (500, lambda work: not work.ended and work.all_spans_1 and not work.both_equal()),
    'paused, flat, not so': (450, lambda work: not work.ended and work.all_on_region_0 and not work.divided_by_the_span()),
}


def tables_in(lines):
    """The sheets and tables of the cases in which a table is left, each pair once."""
    pairs = {(case.split()[4], line.split()[1]) for case, line in lines if ' ' in line}
    return [(bytes_in(sheet), words_in(words)) for sheet, words in sorted(pairs)]


def hold_work(lines):
    """Stops where an ended table does not hold as much work as is said, or where there are too few tables of a kind."""
    found = Counter()
    for sheet, table in tables_in(lines):
        work = Work(sheet, table)
        if work.ended:
            found['held: ' + work.half()] += 1
            if not work.holds() or not work.no_fewer():
                sys.exit('%d rounds, %d leaves, %d arcs with a tail reached: %s' % (work.rounds, work.leaves, work.reached, sheet.hex()[:300]))
        found.update(kind for kind, (_, tells) in KINDS.items() if tells(work))
    print('different tables: ' + counted(found))
    few = [kind for kind, (least, _) in KINDS.items() if found[kind] < least]
    if few:
        sys.exit('too few tables: %s' % few)


def ended_labels(lines):
    """The sheets and labels of the ended tables of small halls."""
    for sheet, table in tables_in(lines):
        hall = Hall(sheet)
        if table[0] % 2 and len(hall.tails) < 40:
            yield sheet, columns(hall, table)[0]


def lines():
    vectors = [limited_vectors, marks_vectors], [vectors_of('2026-01', stated_by, MORE)], vectors_since('2026-02', stated_by)
    found = lines_of(vectors, FAMILIES, answered, before=answer_before)
    hold_work(found)
    hold_ties()
    hold_every_route(ended_labels(found), 200)
    hold_holds()
    hold_slowed(found)
    return found
