"""The cases of the converter: a sheet and the length of the byte buffer lent, and the converted sheet or the refusal expected.

What is expected comes from tests/convert.py. It has to agree with every line for this call of the vectors of change requests, from
tests/2026-09_vectors.txt on, and with each answer that a case states. Every converted sheet that is expected is held to the sentences of request
2026-09, read off the words of both sheets: it is accepted and has the old one's arcs, regions and distances, and is its own conversion. Each wrong
converter of tests/wrong_converters.py has to answer otherwise often enough. Otherwise the script stops.
"""
import sys
from collections import Counter
from itertools import product

from canonical_cases import MOST_ROOM, copies_in, ended_labels, kind, line_of_copy, said
from cases import bytes_in, case_of, change_fields, counted, lines_of, name_in, vectors_since, with_bytes
from convert import SELF_ARCS_LEFT_OUT, Converter, convert, is_converted
from holds import HELD_A
from paper import TODAY, Lists, applies, draws_self_arc, judge
from procedure import Hall
from sheets import (
    ANY_HOLD, FAULTS, HALL_A, KEPT, WIDE, Chance, alternate, balanced, beneath, chain, changed, damaged, divided, each_way, every_division, flat, halving,
    held, inner, ladder, later, leaf, left_for_holds, many_chains, nested, numbered, one_deep, packed, random_arcs, random_regions, random_words, sheet_of,
    side_by_side, single_children, with_faults, with_holds, words_in,
)
from wrong_converters import hold_converters_apart

A = packed(HALL_A)
ARCS_A = [(0, 1, 4), (0, 2, 1), (2, 1, 2), (1, 3, 5)]


# A case is (sheet, room) with the answer stated, None where tests/convert.py alone says it.

def written(made):
    return with_bytes('written %d' % len(made), made)


def rooms(sheet, made):
    """Buffers of just the length, one byte longer, three and many, and of the old length; one byte short, a word short, a quarter and none."""
    size = len(made)
    for room in sorted({size, size + 1, size + 3, len(sheet), MOST_ROOM}):
        yield (sheet, room), written(made)
    for room in (size - 1, size - 4, size // 4, 0):
        yield (sheet, room), 'refused input 31'


def some_room(sheet, turn):
    """A buffer that is long enough, by turns just so, and now and then one that is a byte short."""
    size = len(convert(sheet))
    yield (sheet, (size, size + 1, size + 3, len(sheet), size + 900)[turn % 5]), None
    if turn % 5 == 0:
        yield (sheet, size - 1), 'refused input 31'


# Small sheets by hand, each with what it becomes.

def own(node, length=7):
    return node, node, length


BY_HAND = [
    # one of two leaves gone: its region stays
    (([5], ARCS_A[:1] + [own(2)], flat(2)), ([5], ARCS_A[:1], flat(1))),
    (([5], [own(2)] + ARCS_A[:1], flat(2)), ([5], ARCS_A[:1], flat(1))),
    (([5], [own(2)] + ARCS_A[:1], flat(2)[::-1]), ([5], ARCS_A[:1], flat(1))),
    # a chain of regions gone and the height down, from 4 to 1
    (([5, 6, 7, 8], ARCS_A[:1] + [own(1)], side_by_side([1, 4])), ([5], ARCS_A[:1], flat(1))),
    (([5, 6, 7, 8], [own(1)] + ARCS_A[:1], side_by_side([4, 1])), ([5], ARCS_A[:1], flat(1))),
    # to 3 and 2, and not at all
    (([5, 6, 7, 8], ARCS_A[:1] + [own(1)], side_by_side([3, 4])), ([5, 6, 7], ARCS_A[:1], chain(3))),
    (([5, 6, 7, 8], [own(1)] + ARCS_A[:1], side_by_side([4, 2])), ([5, 6], ARCS_A[:1], chain(2))),
    (([5, 6, 7, 8], [own(1)] + ARCS_A[:1], side_by_side([3, 4])), ([5, 6, 7, 8], ARCS_A[:1], chain(4))),
    # a region is left with one child, at the top of a chain and at its end
    (([5, 6, 7], ARCS_A[:1] + [own(0)], nested([[1, [0]]])), ([5, 6, 7], ARCS_A[:1], nested([[[0]]]))),
    (([5, 6, 7], ARCS_A[:1] + [own(0)], nested([[[1, 0]]])), ([5, 6, 7], ARCS_A[:1], nested([[[0]]]))),
    (([5, 6, 7], ARCS_A[:1] + [own(0)], nested([[[1], 0]])), ([5, 6], ARCS_A[:1], nested([[0]]))),
    # all arcs gone: one span is left
    (([5], [own(3)], flat(1)), ([5], [], [])),
    (([5, 6, 7], [own(3)], chain(3)), ([5], [], [])),
    (([5, 6, 7], [own(0), own(1), own(0, 0)], nested([[0, [1]], 2])), ([5], [], [])),
    # gone is the first of three regions, the one between, and the last
    (([5, 6], [own(1)] + ARCS_A[:2], nested([[0], [1], [2]])), ([5, 6], ARCS_A[:2], nested([[0], [1]]))),
    (([5, 6], ARCS_A[:1] + [own(1)] + ARCS_A[1:2], nested([[0], [1], [2]])), ([5, 6], ARCS_A[:2], nested([[0], [1]]))),
    (([5, 6], ARCS_A[:2] + [own(1)], nested([[0], [1], [2]])), ([5, 6], ARCS_A[:2], nested([[0], [1]]))),
    # numbered level by level: regions 2 and 5 and leaf 8 go
    (([5, 6, 7], ARCS_A[:1] + [own(1)] + ARCS_A[1:2], [inner(0), inner(0), inner(0), inner(1), inner(2), inner(3), leaf(4, 2), leaf(5, 1), leaf(6, 0)]),
     ([5, 6, 7], ARCS_A[:2], [inner(0), inner(0), inner(1), inner(2), leaf(3, 1), leaf(4, 0)])),
    # the leaves are in no order, and their arcs get lower numbers, by one and by two
    (([5], [ARCS_A[0], own(1), ARCS_A[1], own(3), ARCS_A[2]], [leaf(0, a) for a in (4, 1, 0, 3, 2)]), ([5], ARCS_A[:3], [leaf(0, a) for a in (2, 0, 1)])),
    # leaves before the inner regions, and between them
    (([5, 6], [ARCS_A[0], own(1), ARCS_A[1]], [leaf(0, 1), inner(0), leaf(2, 2), inner(0), leaf(4, 0)]),
     ([5, 6], ARCS_A[:2], [inner(0), leaf(1, 1), inner(0), leaf(3, 0)])),
    # parallel self-arcs, four at one node
    (([5, 6], [own(1, 0), own(1, 0), ARCS_A[0], own(2), own(1, 262143)], nested([[0, 4], 2, [1, 3]])), ([5], ARCS_A[:1], flat(1))),
    (([5], [own(0)] * 4, flat(4)), ([5], [], [])),
]


def sheets_by_hand(holds=()):
    for old, new in BY_HAND:
        yield tuple(sheet_of(4, 0, spans, arcs, regions, holds) for spans, arcs, regions in (old, new))


def marked():
    """Hall A, hall A with holds and the one-node sheet are their own conversions; sheets by hand, without holds and with."""
    for sheet in (A, HELD_A, packed([0x10000001, 0x20000000, 0x30000001]), sheet_of(1024, 1023, [1_000_000]), sheet_of(2, 0, [9], holds=[ANY_HOLD] * 2)):
        yield from rooms(sheet, sheet)
    for sheet, made in sheets_by_hand():
        yield from rooms(sheet, made)
    for holds in ([0] * 4, [ANY_HOLD, 0, 3, 9]):
        yield from (((sheet, len(made) + at % 3), written(made)) for at, (sheet, made) in enumerate(sheets_by_hand(holds)))
    yield (packed([0x10000001, 0x20000000]), 99), 'refused input 14'


def on_one_node():
    """Every arc is a self-arc: what is left is the node, its source and one span, with its hold or without."""
    for height in (1, 2, 15):
        for count in (1, 2, 4):
            for holds in ([], [0], [ANY_HOLD]):
                sheet = sheet_of(1, 0, [1 + h for h in range(height)], [own(0, 262143 * a % 262144) for a in range(count)], chain(height, count), holds)
                yield from rooms(sheet, sheet_of(1, 0, [1], holds=holds))


def drawn_as(arcs, which):
    """The arcs, of which some are self-arcs at their tails."""
    return [(tail, tail if a in which else head, length) for a, (tail, head, length) in enumerate(arcs)]


def every_small_division():
    """All region words of up to three arcs and a few inner regions, with every choice of self-arcs, also none."""
    for arcs, most in ((1, 3), (2, 2), (3, 1)):
        hall = [(a, a + 1, 5 + a) for a in range(arcs)]
        for inners in range(most + 1):
            for turn, regions in enumerate(every_division(list(range(arcs)), inners)):
                for chosen in product((False, True), repeat=arcs):
                    drawn = drawn_as(hall, {a for a in range(arcs) if chosen[a]})
                    yield (divided(arcs + 1, 0, drawn, regions, lambda h: 2 * h), 64 + turn % 7), None


def chains_side_by_side():
    """Chains of single children, of which some end in a self-arc."""
    for depths in product((1, 2, 4), repeat=3):
        for which in ({0}, {1}, {0, 2}, {1, 2}):
            yield from some_room(divided(4, 0, drawn_as(ARCS_A[:3], which), side_by_side(depths), lambda h: 10 + h), sum(depths))
    for depth in range(1, 16):
        for depths in ((15, depth), (depth, 15)):
            for which in ({0}, {1}):
                yield (divided(4, 0, drawn_as(ARCS_A[:2], which), side_by_side(depths), lambda h: h), 200), None


def nestings():
    """A chain of three regions in each other, with a leaf in each and two in the last, under several numbers; every choice of self-arcs."""
    arcs = [(0, 1, 4), (1, 2, 1), (2, 3, 2), (3, 0, 5)]
    for parts in ([0, [1, [2, 3]]], [[0, [1]], [[2], 3]], [[[0]], [[1, 2]], 3], [[[3], [0]], [[[1]]], 2]):
        for choose in (lambda n: 0, lambda n: n - 1):
            regions = numbered(nested(parts), choose)
            for chosen in product((False, True), repeat=4):
                drawn = drawn_as(arcs, {a for a in range(4) if chosen[a]})
                yield (divided(4, 3, drawn, regions, lambda h: 100 - h), 150), None


def shapes(chance, count, turn):
    """Divisions of so many arcs."""
    return [
        flat(count)[::-1], chain(1 + turn % 15, count), ladder(1 + turn % 15, count), single_children(1 + turn % 4, count),
        side_by_side([1 + chance.below(6) for _ in range(count)]), balanced(2, chance.shuffled(range(count))), balanced(3, list(range(count))[::-1]),
        beneath(1 + turn % 3, balanced(2, chance.shuffled(range(count)))), *(numbered(random_regions(chance, count)[0], chance.below) for _ in range(4)),
    ]


def own_by_chance(chance, nodes, arcs, every):
    """The arcs, of which one in so many is a self-arc, at its tail or its head, where that is no crowd."""
    found = list(arcs)
    for at, (tail, head, length) in enumerate(arcs):
        node = (tail, head)[chance.below(2)]
        others = [end[:2] for a, end in enumerate(found) if a != at]
        if chance.below(every) == 0 and all(sum(end[side] == node for end in others) < 4 for side in range(2)):
            found[at] = node, node, length
    return found


def small_halls():
    """Every shape of division, a half, a third or nearly all of the arcs self-arcs; some with holds."""
    chance = Chance(130)
    for turn in range(30):
        nodes, ways = 2 + chance.below(6), 2 + turn % 2
        plain = random_arcs(chance, nodes, 1 + chance.below(ways * nodes), [0, 1, 2, 262143], ways, turn % 3 == 0)
        arcs = own_by_chance(chance, nodes, plain, 1 + turn % 3)
        hall = nodes, chance.below(nodes), arcs
        holds = Lists(held(chance, divided(*hall, flat(len(arcs)), lambda h: 1))).holds if turn % 3 == 1 else ()
        for at, regions in enumerate(shapes(chance, len(arcs), turn)):
            yield from some_room(divided(*hall, regions, lambda h: 1 + 7 * h, holds), turn + at)


def random_sheets():
    """Sheets by chance in which self-arcs are drawn as often as others, with holds too, and damaged."""
    chance = Chance(131)
    for turn in range(250):
        sheet = packed(random_words(chance, 6, 2 + turn % 3, True))
        sheet = held(chance, sheet) if turn % 3 == 0 else sheet
        yield from some_room(sheet, turn)
        yield (packed(damaged(chance, words_in(sheet), turn % 4)), 900), None


def unreached():
    """Self-arcs at the source, at a reached node, at one that no route reaches and at one without other arcs; holds at each of these nodes."""
    arcs = [(0, 1, 4), (2, 1, 3), (1, 0, 2)]
    for nodes in product((None, 0, 1, 2, 3), repeat=2):
        selves = [own(v, 10 * at) for at, v in enumerate(nodes) if v is not None]
        for holds in ((), [ANY_HOLD, 7, 9, 11]):
            sheet = divided(4, 0, selves + arcs, balanced(2, list(range(len(selves) + 3))), lambda h: h, holds)
            yield from some_room(sheet, len(selves))


def fronts():
    """Each bit of a word of kinds 1 to 5 turned, of hall A with a self-arc, and of kind 13 with holds too, where it is left at fault in nothing else."""
    arcs = ARCS_A + [own(3, 4)]
    sheet = divided(1000, 0, arcs, nested([[0, 3], [1, [4]], 2]), lambda h: 1 + h)
    words = words_in(sheet)
    for at in range(5 + 2 * len(arcs)):
        for bit in range(28):
            turned = packed(changed(words, at, words[at] ^ 1 << bit))
            if not judge(turned, SELF_ARCS_LEFT_OUT):
                yield (turned, len(turned) + bit % 4), None
    words = words_in(with_holds(divided(4, 0, arcs, flat(5), lambda h: 9), [100, 10, 3, 7]))
    for at in range(3, 7):
        for bit in range(28):
            turned = packed(changed(words, at, words[at] ^ 1 << bit))
            if not judge(turned, SELF_ARCS_LEFT_OUT):
                yield (turned, len(turned)), None


# Larger sheets: numbers of nine bits and more, up to twelve and eleven.

def with_some_own(arcs, every):
    """One in so many arcs is a self-arc at its tail."""
    return [(tail, tail if a % every == 0 else head, length) for a, (tail, head, length) in enumerate(arcs)]


def middling():
    chance = Chance(132)
    for nodes, every, division in (
        (150, 2, lambda arcs: balanced(2, arcs)), (140, 3, lambda arcs: balanced(5, arcs)), (131, 7, lambda arcs: ladder(15, len(arcs))),
        (130, 2, lambda arcs: numbered(side_by_side([1 + a % 7 for a in arcs]), chance.below)), (129, 1, lambda arcs: balanced(3, arcs)),
    ):
        arcs = with_some_own(each_way(2, nodes), every)
        sheet = divided(nodes, nodes // 2, arcs, division(chance.shuffled(range(len(arcs)))), lambda h: 1 + h)
        yield from some_room(sheet, 0)
        yield from some_room(held(chance, sheet), 3)


def full_size():
    """2,048 arcs and 4,094 region words, of which one in so many, all and one alone go; the longest sheet, 36,924 bytes."""
    chance = Chance(133)
    arcs = each_way(2, 1024)
    longest = divided(1024, 1023, with_some_own(arcs, 2), one_deep(2032), lambda h: 1_000_000 - h)
    longest = with_holds(longest, left_for_holds(longest))
    if len(longest) != TODAY.most_bytes:
        sys.exit('the longest sheet has %d bytes' % len(longest))
    size = len(convert(longest))
    for room, stated in ((size, None), (MOST_ROOM, None), (size - 1, 'refused input 31'), (0, 'refused input 31')):
        yield (longest, room), stated
    yield (longest + packed([leaf(0, 0)]), MOST_ROOM), 'refused input 1'
    for every, regions in ((1, halving()), (3, numbered(halving(), chance.below)), (2048, alternate())):
        sheet = divided(1024, 5, with_some_own(arcs, every), regions, lambda h: 1 + h)
        yield (sheet, len(convert(sheet)) + every % 5), None
    few = with_some_own(each_way(2, 200)[:286], 2)
    sheet = divided(200, 199, few, numbered(many_chains(272, 14), chance.below), lambda h: 1 + h)
    yield (sheet, len(sheet)), None


# Refusals.

def others(number):
    """The faults other than 35 that are looked at after one."""
    return [high for high in later(number) if high != 35]


def refused():
    """Each other refusal of the sheet, with a self-arc and without, into buffers that are long enough and too short: it is looked at before 31."""
    for number, changes in FAULTS.items():
        for made in [[with_faults(*some, change) for change in changes] for some in ((), (lambda p: p.self_arc(2),), (lambda p: p.self_arc(4),))]:
            for sheet in [sheet for sheet in made if number != 35 and applies(number, sheet)]:
                for room in (len(sheet), MOST_ROOM, len(sheet) - 1, 0):
                    yield (sheet, room), 'refused input %d' % number
    for change in FAULTS[35] + WIDE + KEPT:
        yield from rooms(with_faults(change), convert(with_faults(change)))
    for room in (0, 1, 4, MOST_ROOM):
        yield (b'', room), 'refused input 2'
    for size in (1, 2, 3, 5):
        yield from (((A + A[:size], room), 'refused input 1') for room in (0, len(A), MOST_ROOM))
    for size, number in ((36_924, 2), (36_925, 1), (36_928, 1)):
        yield (A.ljust(size, b'\0'), MOST_ROOM), 'refused input %d' % number


def pairs():
    """Every two faults of a sheet together, and a self-arc: the answer is the number that is looked at first, and 35 is none."""
    for low, changes in FAULTS.items():
        for high in others(low) if low != 35 else ():
            made = [with_faults(one, other, lambda p: p.self_arc(3)) for one, other in zip(changes, FAULTS[high][::-1])]
            for at, sheet in enumerate(sheet for sheet in made if applies(low, sheet) and applies(high, sheet)):
                yield (sheet, 400 if at % 2 else len(sheet) - 1), 'refused input %d' % low


def crowds():
    """Self-arcs count for 10, and their lengths for 9 and 34, though they are dropped."""
    for count, number in ((3, None), (4, 10), (5, 10)):
        for arcs in ([(4, 5, 1)] + [own(4)] * count, [own(4)] * count + [(5, 4, 1)]):
            for room in (0, 400):
                yield (sheet_of(6, 0, [1], arcs, flat(len(arcs))), room), number and 'refused input %d' % number
    for length, hold, source, number in (
        (262144, 0, 0, 9), (262144, 0, 4, 9), (262143, 1, 0, 34), (262143, 1, 4, 0), (262143, ANY_HOLD, 4, 0), (0, 262144, 0, 34), (1, 262142, 0, 0),
        (0, ANY_HOLD, 4, 0),
    ):
        sheet = sheet_of(6, source, [1], [(0, 1, 5), own(4, length)], flat(2), [0, 0, 0, 0, hold, 0])
        stated = 'refused input %d' % number if number else written(sheet_of(6, source, [1], [(0, 1, 5)], flat(1), [0, 0, 0, 0, hold, 0]))
        for room in (400, len(sheet)):
            yield (sheet, room), stated


def spans_too_many():
    """The number of spans is that of the old height, 14 else, though fewer are left; spans that would be dropped are judged too."""
    arcs, regions = ARCS_A[:1] + [own(1)], side_by_side([2, 4])
    for count in range(7):
        for room in (0, 1, 12, 28, 32, 90):
            stated = None if count == 4 else 'refused input 14'
            yield (sheet_of(4, 0, [3] * count, arcs, regions), room), stated
    for at in range(4):
        for span in (0, 1_000_001):
            yield (sheet_of(4, 0, changed([3] * 4, at, span), arcs, regions), 90), 'refused input 6'


def near():
    """A hall with self-arcs with one word of its division another: refused with 11 to 14, or with another nesting; buffers about its length."""
    words = words_of_near()
    front = len(words) - 7
    for at in range(front, len(words)):
        for word in [inner(parent) for parent in range(4)] + [leaf(parent, a) for parent in range(4) for a in range(6)]:
            yield (packed(changed(words, at, word)), 99), None
    sheet = packed(words)
    size = len(convert(sheet))
    for room in range(size - 6, size + 6):
        yield (sheet, room), written(convert(sheet)) if room >= size else 'refused input 31'


def words_of_near():
    return words_in(divided(4, 0, ARCS_A[:3] + [own(2), own(0)], [inner(0), inner(0), leaf(1, 0), leaf(1, 3), leaf(2, 4), leaf(0, 1), leaf(0, 2)], lambda h: h))


FAMILIES = [
    marked, on_one_node, every_small_division, chains_side_by_side, nestings, small_halls, random_sheets, unreached, fronts, middling, full_size, refused,
    pairs, crowds, spans_too_many, near,
]


def stated_by(request):
    for sheet, room, answer, made in change_fields(request, 'convert'):
        yield (bytes_in(sheet), int(room)), with_bytes(name_in(answer), bytes_in(made))


def answered(family, rules=TODAY):
    """The cases of a family with the answers expected and stated."""
    for (sheet, room), stated in family():
        yield case_of(8, sheet, words=room), said(Converter().answer(sheet, room)), stated


# What the request says, held to the sheets expected.

KINDS = {
    'with self-arcs': 900, 'without': 100, 'lower': 400, 'fewer inner regions': 500, 'no arc left': 100, 'with holds': 150, 'other region numbers': 700,
    'the same inner regions': 200,
}


def kinds_of(sheet, made):
    """What may be said of a sheet and the one made of it."""
    old, new = Lists(sheet), Lists(made)
    inners = [len(lists.regions) - len(lists.leaves) for lists in (old, new)]
    yield 'with self-arcs' if draws_self_arc(old) else 'without'
    if draws_self_arc(old):
        yield from (name for name, holds in (
            ('lower', len(new.spans) < len(old.spans)), ('fewer inner regions', inners[1] < inners[0]), ('no arc left', not new.ends),
            ('with holds', bool(old.holds)), ('the same inner regions', inners[0] == inners[1] > 0),
            ('other region numbers', any(old.parents[:len(new.parents)][at] != parent for at, parent in enumerate(new.parents))),
        ) if holds)


def hold_converted(lines):
    """Stops where a converted sheet is not as the request says, or where there are too few of a kind."""
    found = Counter()
    for sheet, made in copies_in(lines):
        if not is_converted(sheet, made) or convert(made) != made:
            sys.exit('a converted sheet is not as it is said: %s' % sheet.hex()[:300])
        if ended_labels(sheet) != ended_labels(made):
            sys.exit('other distances: %s' % sheet.hex()[:300])
        found.update(kinds_of(sheet, made))
    print('converted sheets: ' + counted(found))
    few = [kind for kind, least in KINDS.items() if found[kind] < least]
    if few:
        sys.exit('too few: %s' % few)


def case_in(line):
    """The sheet and the bytes lent of a case's line."""
    fields = line.split()
    return bytes_in(fields[4]) if len(fields) > 4 else b'', int(fields[2], 16)


def lines():
    found = lines_of(([], [], vectors_since('2026-09', stated_by)), FAMILIES, answered, kind, line_of_copy)
    hold_converted(found)
    hold_converters_apart([case_in(line) for line, _ in found])
    return found
