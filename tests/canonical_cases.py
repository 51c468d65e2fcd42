"""The cases of the canonical form, the paper's neat copy: a sheet and the length of the byte buffer lent, and the bytes written or the refusal expected.

What is expected comes from tests/canonical.py. It has to agree with every line for this call of the vectors of change requests, from
tests/2026-04_vectors.txt on, and with each answer that a case states. Every copy that is expected is held to the sentences of request
2026-04, read off the words of sheet and copy: it is accepted and its own copy, it is as long as its sheet and has its distances, and of
all sheets of the cases two have the same copy exactly when they share nodes, source, spans, holds, arcs and nesting. Otherwise the script stops.
"""
import sys
from collections import Counter
from functools import cache
from itertools import product

from canonical import alike, copied, form, is_neat, nesting, shared, without_single_children
from cases import bytes_in, case_of, change_fields, counted, line_of, lines_of, name_in, vectors_since, with_bytes
from holds import HELD_A, held_halls
from line_cases import BYTES as MOST_ROOM
from paper import TODAY, Lists, applies, judge
from procedure import HEADER, Hall, distances, tables
from sheets import (
    ANY_HOLD, FAULTS, HALL_A, KEPT, WIDE, Chance, alternate, balanced, beneath, chain, changed, divided, each_way, every_division, flat, halving, held,
    high_halls, inner, ladder, later, leaf, left_for_holds, many_chains, nested, numbered, one_deep, packed, random_arcs, random_regions, sheet_of,
    side_by_side, single_children, turntable, uneven_halls, with_faults, with_holds, words_in, woken,
)

# What lent bytes hold before the call.
FILLING = b'\xc5'


# A case is (sheet, room) with the answer stated, None where tests/canonical.py alone says it.

def written(sheet, copy=b''):
    return with_bytes('written %d' % len(sheet), copy)


def rooms(sheet, copy=b''):
    """Buffers of just the length, one byte longer, three and many; one byte short, a word short, as many bytes as there are words, and none."""
    size = len(sheet)
    for room in (size, size + 1, size + 3, MOST_ROOM):
        yield (sheet, room), written(sheet, copy)
    for room in (size - 1, size - 4, size // 4, 0):
        yield (sheet, room), 'refused input 31'


def some_room(sheet, copy, turn):
    """A buffer that is long enough, by turns just so, and now and then one that is a byte short."""
    yield (sheet, len(sheet) + (0, 1, 3, 4, 900)[turn % 5]), written(sheet, copy)
    if turn % 5 == 0:
        yield (sheet, len(sheet) - 1), 'refused input 31'


def numberings(chance, regions, turns):
    """A division as it is given, breadth first, the last child first, and by chance, parents before children."""
    return [regions] + [numbered(regions, choose) for choose in (lambda n: 0, lambda n: n - 1, *[chance.below] * turns)]


def one_copy(chance, hall, regions, turns=2, span=lambda h: 1 + h % 3, holds=()):
    """The sheets of a hall and a division under several numbers. All have the copy of the first."""
    sheets = [divided(*hall, words, span, holds) for words in numberings(chance, regions, turns)]
    copy = form(sheets[0])
    for turn, sheet in enumerate(sheets):
        yield from some_room(sheet, copy, turn + len(regions))


# Small sheets.

A = packed(HALL_A)
NEAT_A = packed(HALL_A[:12] + [0x60000000, 0x70000800, 0x70000803, 0x60000000, 0x70002001, 0x70002002])
ARCS_A = [(0, 1, 4), (0, 2, 1), (2, 1, 2), (1, 3, 5)]


def marked():
    """Hall A, its inner regions the other way round, its leaves too, and its copy; the one-node sheet."""
    for regions in (
        HALL_A[12:], [inner(0), inner(0), leaf(2, 0), leaf(2, 3), leaf(1, 1), leaf(1, 2)],
        [inner(0), inner(0), leaf(1, 2), leaf(2, 3), leaf(1, 1), leaf(2, 0)], [inner(0), leaf(1, 1), leaf(1, 2), inner(0), leaf(4, 3), leaf(4, 0)],
    ):
        yield from rooms(packed(HALL_A[:12] + regions), NEAT_A)
    yield from rooms(NEAT_A, NEAT_A)
    one = packed([0x10000001, 0x20000000, 0x30000001])
    yield from rooms(one, one)
    yield (packed([0x10000001, 0x20000000]), 99), 'refused input 14'


# Divisions of the arcs of hall A, each with the one that its copy has.
BY_HAND = [
    (flat(4)[::-1], flat(4)),
    # a leaf between two inner regions
    ([inner(0), inner(0), leaf(0, 1), leaf(1, 2), leaf(2, 0), leaf(2, 3)], [inner(0), leaf(1, 0), leaf(1, 3), leaf(0, 1), inner(0), leaf(5, 2)]),
    # the lowest arc lies deeper than a higher one, beside which stands a region with the arc between
    ([inner(0), inner(0), leaf(1, 1), leaf(2, 2), inner(2), leaf(5, 0), leaf(0, 3)],
     [inner(0), inner(1), leaf(2, 0), leaf(1, 2), inner(0), leaf(5, 1), leaf(0, 3)]),
    # the lowest arc and the highest in one region, the two others in the other, which has the lower number
    ([inner(0), leaf(1, 2), leaf(1, 1), inner(0), leaf(4, 3), leaf(4, 0)], [inner(0), leaf(1, 0), leaf(1, 3), inner(0), leaf(4, 1), leaf(4, 2)]),
    # a chain of single children, with a leaf beside its first region
    ([inner(0), leaf(0, 0), inner(1), inner(3), leaf(4, 3), leaf(4, 2), leaf(4, 1)],
     [leaf(0, 0), inner(0), inner(2), inner(3), leaf(4, 1), leaf(4, 2), leaf(4, 3)]),
    # chains of one, two and three single children, and a leaf
    ([inner(0), inner(0), inner(2), inner(0), inner(4), inner(5), leaf(6, 0), leaf(3, 3), leaf(1, 2), leaf(0, 1)],
     [inner(0), inner(1), inner(2), leaf(3, 0), leaf(0, 1), inner(0), leaf(6, 2), inner(0), inner(8), leaf(9, 3)]),
    # four regions in two, numbered level by level
    ([inner(0), inner(0), inner(1), inner(2), inner(1), inner(2), leaf(3, 3), leaf(4, 0), leaf(5, 1), leaf(6, 2)],
     [inner(0), inner(1), leaf(2, 0), inner(1), leaf(4, 2), inner(0), inner(6), leaf(7, 1), inner(6), leaf(9, 3)]),
]


def by_hand():
    for regions, neat in BY_HAND:
        for words in (regions, neat):
            yield from rooms(divided(4, 0, ARCS_A, words, lambda h: h), divided(4, 0, ARCS_A, neat, lambda h: h))


def every_small_division():
    """All region words of up to three arcs and a few inner regions that are accepted."""
    for arcs, most in ((1, 3), (2, 3), (3, 2)):
        hall = arcs + 1, 0, [(a, a + 1, 5 + a) for a in range(arcs)]
        for inners in range(most + 1):
            for turn, regions in enumerate(every_division(list(range(arcs)), inners)):
                yield (divided(*hall, regions, lambda h: 2 * h), 64 + turn % 7), None


def within(singles, parts):
    """A nesting in so many regions more, each the only child of the one above."""
    return within(singles - 1, [parts]) if singles else parts


def single_chains():
    """Chains of single children that differ in their lengths alone: side by side, and at the top, in the middle and at the end of a nesting."""
    for depths in product(range(1, 5), repeat=3):
        if max(depths) == 4:
            yield (divided(4, 0, ARCS_A[:3], side_by_side(depths), lambda h: 1), 200), None
    for depth in range(1, 16):
        for depths in ((15, depth), (depth, 15)):
            yield (divided(4, 0, ARCS_A[:2], side_by_side(depths), lambda h: h), 200), None
    for top, middle, end in product(range(4), repeat=3):
        parts = within(top, [0, within(middle, [1, within(end, [2, 3])])])
        yield (divided(4, 0, ARCS_A, nested(parts), lambda h: 1), 200), None


def no_arcs():
    """Sheets without arcs have no region words and are their own copies."""
    for nodes, source, span in ((1, 0, 1), (1, 0, 1_000_000), (2, 1, 7), (1024, 0, 197), (1024, 1023, 1_000_000)):
        sheet = sheet_of(nodes, source, [span])
        yield from rooms(sheet, sheet)


def fronts():
    """Nodes, source, spans and arcs as given: each bit of a word of kinds 1 to 5 turned where the sheet stays accepted, and the highest values."""
    words = changed(HALL_A, 0, 1 << 28 | 1023)
    for at, word in enumerate(words[:12]):
        for bit in range(28):
            sheet = packed(changed(words, at, word ^ 1 << bit))
            if not judge(sheet):
                yield (sheet, 72 + bit % 4), written(sheet, sheet[:48] + NEAT_A[48:])
    chance = Chance(30)
    highest = [(v, 1023, 262143) for v in (1021, 0, 1022, 511)]
    for arcs in (highest, highest[::-1], [(0, 1, 0)] * 4, [(0, 1, 197)] * 4):
        yield from one_copy(chance, (1024, 1023, arcs), nested([[2, [1]], 0, [3]]), 1, lambda h: 1_000_001 - h)
    for order in ((1, 0, 2, 3), (0, 2, 1, 3), (3, 2, 1, 0)):
        yield (divided(4, 0, [ARCS_A[a] for a in order], HALL_A[12:], lambda h: 3 - h), 72), None


def shapes(chance, count, turn):
    """Divisions of so many arcs."""
    return [
        flat(count), flat(count)[::-1], chain(1 + turn % 15, count), ladder(1 + turn % 15, count), single_children(1 + turn % 4, count),
        side_by_side([1 + chance.below(5) for _ in range(count)]), balanced(2, chance.shuffled(range(count))), balanced(3, list(range(count))[::-1]),
        beneath(1 + turn % 3, balanced(2, chance.shuffled(range(count)))), *(random_regions(chance, count)[0] for _ in range(3)),
    ]


def small_halls():
    """Every shape of division under several numbers; in some of them leaves stand among inner regions, in any order."""
    chance = Chance(31)
    for turn in range(12):
        nodes, ways = 2 + chance.below(6), 2 + turn % 3
        arcs = random_arcs(chance, nodes, 1 + chance.below(ways * nodes), [0, 1, 2, 262143], ways)
        for regions in shapes(chance, len(arcs), turn):
            yield from one_copy(chance, (nodes, chance.below(nodes), arcs), regions)


def of_sheet(sheet):
    """Nodes, source and arcs of a sheet, and its region words."""
    lists = Lists(sheet)
    words = [kind << 28 | payload for kind, payload in lists.regions]
    return (lists.nodes, lists.sources[0], list(zip(lists.tails, lists.heads, lists.lengths))), words


def deep():
    """Leaves at different depths, fifteen heights, regions that are woken again and again, and turntables."""
    chance = Chance(32)
    for sheet in [*uneven_halls()][::4] + [*high_halls()][:4]:
        yield from one_copy(chance, *of_sheet(sheet), 1)
    for levels, links, lanes in ((2, 3, 1), (5, 6, 3), (14, 2, 1)):
        nodes, arcs, regions = woken(levels, links, lanes)
        yield from one_copy(chance, (nodes, 0, arcs), regions, 1)
    for lanes in (3, 4):
        yield from one_copy(chance, (2 * lanes + 2, 0, turntable(lanes)), balanced(lanes, chance.shuffled(range(3 * lanes))))
    for change in WIDE:
        yield from one_copy(chance, *of_sheet(with_faults(change)), 1)


# Larger sheets: regions and arcs whose numbers have nine bits and more, up to twelve and eleven.

def middling():
    chance = Chance(33)
    for nodes, division in (
        (150, lambda arcs: balanced(2, arcs)), (140, lambda arcs: balanced(5, arcs)), (131, lambda arcs: ladder(15, len(arcs))),
        (130, lambda arcs: numbered(side_by_side([1 + a % 7 for a in arcs]), chance.below)), (129, lambda arcs: flat(len(arcs))[::-1]),
    ):
        arcs = each_way(2, nodes)
        yield from one_copy(chance, (nodes, nodes // 2, arcs), division(chance.shuffled(range(len(arcs)))), 1)
    # the last byte of the copy is the filling
    last = divided(99, 0, each_way(2, 99), flat(198)[::-1], lambda h: 1)
    yield from rooms(last, form(last))


def full_size():
    """2,048 arcs and 4,094 region words, and others of the largest sheets, each under other numbers than its copy."""
    chance = Chance(34)
    hall, wide = (1024, 1023, each_way(2, 1024)), (512, 511, each_way(4, 512))
    longest = divided(*hall, one_deep(2032), lambda h: 1_000_000)
    copy = form(longest)
    if len(longest) != 32_828:
        sys.exit('the longest sheet without holds has %d bytes' % len(longest))
    for sheet in (longest, divided(*hall, numbered(one_deep(2032), chance.below), lambda h: 1_000_000)):
        yield (sheet, MOST_ROOM), written(sheet, copy)
    yield (longest, 32_828), written(longest, copy)
    yield from (((longest, room), 'refused input 31') for room in (32_827, 0))
    for at, (some, regions) in enumerate((
        (wide, numbered(halving(), chance.below)), (hall, numbered(balanced(2, chance.shuffled(range(2048))), lambda n: n - 1)),
        (hall, numbered(alternate(), lambda n: n - 1)), (wide, flat(2048)[::-1]),
        ((200, 199, each_way(2, 200)[:286]), numbered(many_chains(272, 14), chance.below)),
    )):
        sheet = divided(*some, regions, lambda h: 1 + h)
        yield (sheet, len(sheet) + at), written(sheet)


# Refusals.

def refused():
    """Each refusal of the sheet, into buffers that are long enough and too short: it is looked at before 31."""
    for number, changes in FAULTS.items():
        for change in changes:
            sheet = with_faults(change)
            for room in (len(sheet), len(sheet) + 3, MOST_ROOM, len(sheet) - 1, 0):
                yield (sheet, room), 'refused input %d' % number
    yield from rooms(with_faults())
    for room in (0, 1, 4, MOST_ROOM):
        yield (b'', room), 'refused input 2'
    for size in (1, 2, 3, 5):
        yield from (((A + A[:size], room), 'refused input 1') for room in (0, len(A), MOST_ROOM))
    for size, number in ((32_828, 2), (32_832, 2), (36_924, 2), (36_925, 1), (36_928, 1)):
        yield (A.ljust(size, b'\0'), MOST_ROOM), 'refused input %d' % number


def pairs():
    """Every two faults of a sheet together, into a buffer that is long enough and one that is too short."""
    for low, changes in FAULTS.items():
        for high in later(low):
            made = [with_faults(one, other) for one in changes for other in FAULTS[high]]
            for at, sheet in enumerate(sheet for sheet in made if applies(low, sheet) and applies(high, sheet)):
                yield (sheet, 400 if at % 2 else len(sheet) - 1), 'refused input %d' % low


def near():
    """Hall A with one word of its division another: refused with 11 to 14, or accepted with another nesting; buffers about its length."""
    for at in range(12, 18):
        for word in [inner(parent) for parent in range(4)] + [leaf(parent, a) for parent in range(4) for a in range(5)]:
            yield (packed(changed(HALL_A, at, word)), 72), None
    for room in range(64, 80):
        yield (A, room), written(A, NEAT_A) if room >= 72 else 'refused input 31'


# Holds. "The neat copy carries the holds."

NEAT_HELD = packed(words_in(HELD_A)[:8]) + NEAT_A[16:]


def holds_by_hand():
    """Hall A with holds, under its numbers and others; each bit of a hold turned where the sheet stays accepted; holds left out, and of 0."""
    for regions in (HALL_A[12:], [inner(0), inner(0), leaf(2, 0), leaf(2, 3), leaf(1, 1), leaf(1, 2)]):
        yield from rooms(packed(words_in(HELD_A)[:16] + regions), NEAT_HELD)
    yield from rooms(NEAT_HELD, NEAT_HELD)
    words = words_in(HELD_A)
    for at in range(4, 8):
        for bit in range(28):
            sheet = packed(changed(words, at, words[at] ^ 1 << bit))
            if not judge(sheet):
                yield (sheet, 88 + bit % 4), written(sheet, sheet[:64] + NEAT_A[48:])
    for listed in ([], [0] * 4, [ANY_HOLD, 0, 0, 0], [0, 0, 0, ANY_HOLD], [7, 3, 10, 100], [13, 6, 7, 1]):
        sheet = with_holds(A, listed)
        yield from rooms(sheet, with_holds(NEAT_A, listed))
    for count in (1, 3, 5):
        yield from (((with_holds(A, [0] * count), room), 'refused input 2') for room in (0, 99))
    for node, hold in ((1, 262139), (2, 262142)):
        sheet = with_holds(A, changed([0] * 4, node, hold))
        yield from (((sheet, room), 'refused input 34') for room in (0, len(sheet) - 1, len(sheet), MOST_ROOM))


def holds_alone():
    """Sheets that differ in holds alone, and such without arcs: each has a copy of its own."""
    for nodes, source in ((1, 0), (2, 1), (40, 3), (1024, 1023)):
        for hold in (0, 1, 197, ANY_HOLD):
            sheet = sheet_of(nodes, source, [5], holds=[hold] * nodes)
            yield from some_room(sheet, sheet, hold % 5)
    hall = 4, 0, ARCS_A
    for holds in product((0, 1, 262138), repeat=4):
        yield (divided(*hall, nested([[3, [1]], [0, 2]]), lambda h: 1, holds), 200), None


def small_held():
    """Divisions of small halls under several numbers, with holds by chance, and the halls of tests/holds.py."""
    chance = Chance(106)
    for turn in range(6):
        nodes, ways = 2 + chance.below(6), 2 + turn % 3
        arcs = random_arcs(chance, nodes, 1 + chance.below(ways * nodes), [0, 1, 2, 262143], ways)
        hall = nodes, chance.below(nodes), arcs
        holds = Lists(held(chance, divided(*hall, flat(len(arcs)), lambda h: 1))).holds
        for regions in shapes(chance, len(arcs), turn)[turn % 2::2]:
            yield from one_copy(chance, hall, regions, 1, holds=holds)
    for turn, sheet in enumerate(held_halls()):
        yield from some_room(sheet, b'', turn)
    for change in KEPT:
        yield from one_copy(chance, *of_sheet(with_faults(change)), 1, holds=Lists(with_faults(change)).holds)


def holds_full_size():
    """The longest sheet, 36,924 bytes, and one a word longer; the longest without arcs."""
    chance = Chance(107)
    plain = divided(1024, 1023, each_way(2, 1024), numbered(one_deep(2032), chance.below), lambda h: 1_000_000)
    longest = with_holds(plain, left_for_holds(plain))
    if len(longest) != TODAY.most_bytes:
        sys.exit('the longest sheet has %d bytes' % len(longest))
    yield (longest, 36_924), written(longest)
    yield (longest, MOST_ROOM), written(longest)
    yield (longest, 36_923), 'refused input 31'
    yield (longest + packed([leaf(0, 0)]), MOST_ROOM), 'refused input 1'


FAMILIES = [
    marked, by_hand, every_small_division, single_chains, no_arcs, fronts, small_halls, deep, middling, full_size, refused, pairs, near,
    holds_by_hand, holds_alone, small_held, holds_full_size,
]


def stated_by(request):
    for sheet, room, answer, copy in change_fields(request, 'canonical'):
        yield (bytes_in(sheet), int(room)), with_bytes(name_in(answer), bytes_in(copy))


def said(answer):
    name, found = answer
    return written(found, found) if name == 'written' else 'refused input %d' % found


def answered(family, rules=TODAY):
    """The cases of a family with the answers expected and stated."""
    for (sheet, room), stated in family():
        yield case_of(6, sheet, words=room), said(copied(sheet, room, rules)), stated


def kind(answer):
    """An answer without the copy and its length."""
    return 'written' if answer.startswith('written') else answer


def line_of_copy(answer):
    """The line printed: the bytes up to the last that is not the filling."""
    name, _, digits = answer.partition(': ')
    return line_of(with_bytes(name, bytes_in(digits).rstrip(FILLING)))


# What the request says, held to the copies expected.

def copies_in(lines):
    """The sheets and copies of the cases in which a copy is written, each pair once."""
    pairs = {(case.split()[4], *line.split()) for case, line in lines if ' ' in line}
    return [(bytes_in(sheet), bytes_in(copy).ljust(int(word, 16) % 65536, FILLING)) for sheet, word, copy in sorted(pairs)]


@cache
def ended_labels(sheet):
    """The distances that a run finds in a small hall, and in another those found without its regions."""
    hall = Hall(sheet)
    return [word % 2**28 for word in tables(hall)[None][HEADER::2]] if len(hall.tails) < 40 else distances(hall)


@cache
def is_a_copy(copy):
    """Accepted, neat, and its own copy."""
    return judge(copy) == 0 and is_neat(copy) and form(copy) == copy


def as_said(sheet, copy):
    """The copy is one, is as long as its sheet, shares what it has to share, and has the same distances. A sheet that is neat is its own."""
    return (
        is_a_copy(copy) and len(copy) == len(sheet) and alike(sheet, copy) and ended_labels(sheet) == ended_labels(copy)
        and is_neat(sheet) == (sheet == copy)
    )


def exactly_when(copies):
    """Of all sheets two have the same copy exactly when they share nodes, source, spans, holds, arcs and nesting."""
    pairs = {((shared(sheet), nesting(sheet)), copy) for sheet, copy in copies}
    return len({known for known, _ in pairs}) == len(pairs) == len({copy for _, copy in pairs})


# The kinds of sheets and pairs that there have to be: how many at least.
KINDS = {
    'other numbers than the copy': 1200, 'their own copies': 250, 'copies of several sheets': 200, 'same front, other nesting': 1500,
    'same front, other chains alone': 1200, 'sheets with holds': 300, 'same but for holds': 500,
}


def hold_copies(lines):
    """Stops where a copy is not as the request says, or where there are too few sheets of a kind."""
    copies = copies_in(lines)
    for sheet, copy in copies:
        if not as_said(sheet, copy):
            sys.exit('a copy is not as it is said: %s' % sheet.hex()[:300])
    if not exactly_when(copies):
        sys.exit('two sheets have the same copy and are not alike, or are alike and have two')
    found = Counter('their own copies' if sheet == copy else 'other numbers than the copy' for sheet, copy in copies)
    found['copies of several sheets'] = sum(count > 1 for count in Counter(copy for _, copy in copies).values())
    found['sheets with holds'] = sum(bool(Lists(sheet).holds) for sheet, _ in copies)
    fronts, chains, plain = Counter(), Counter(), Counter()
    for copy in {copy for _, copy in copies}:
        fronts[shared(copy)] += 1
        chains[shared(copy), without_single_children(nesting(copy))] += 1
        plain[with_holds(copy, [])] += 1
    found['same front, other nesting'], found['same front, other chains alone'], found['same but for holds'] = (
        sum(count * (count - 1) // 2 for count in counts.values()) for counts in (fronts, chains, plain)
    )
    print('sheets, copies and pairs of copies: ' + counted(found))
    few = [kind for kind, least in KINDS.items() if found[kind] < least]
    if few:
        sys.exit('too few: %s' % few)


def lines():
    found = lines_of(([], [], vectors_since('2026-04', stated_by)), FAMILIES, answered, kind, line_of_copy)
    hold_copies(found)
    return found
