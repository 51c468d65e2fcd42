"""The cases of the judge: a sheet, and the answer expected to it.

The judge of tests/paper.py has to agree with every line of tests/judge_vectors.txt, with the limit of that time, and of the vectors of
every change request, from tests/2026-01_vectors.txt on, and with each answer that a case states; otherwise the script stops.
"""
import sys
from itertools import product

from cases import bytes_in, case_of, change_fields, data, lines_of, vectors_of, vectors_since
from holds import HELD_A, held_halls
from paper import TODAY, applies, judge
from sheets import (
    ANY_HOLD, FAULTS, HALL_A, KEPT, WIDE, Chance, alternate, chain, changed, damaged, each_way, flat, halving, held, inner, later, leaf, left_for_holds,
    many_chains, one_deep, packed, random_words, sheet_of, side_by_side, with_faults, with_holds, words_in, words_of,
)

# The cases: pairs of a sheet and the answer stated for it, None where the judge alone says it.

def marked():
    yield packed(HALL_A), 0
    yield packed([0x10000001, 0x20000000, 0x30000001]), 0
    yield packed([0x10000001, 0x20000000]), 14
    for nodes, answer in ((0, 4), (1024, 0), (1025, 4)):
        yield packed(changed(HALL_A, 0, 1 << 28 | nodes)), answer
    for length, answer in ((262143, 0), (262144, 9)):
        for at in (5, 7, 9, 11):
            yield packed(changed(HALL_A, at, 5 << 28 | length)), answer
    yield packed(HALL_A[:-1] + [0x70001001]), 12
    yield packed(HALL_A + [0x60000000]), 13
    yield packed(changed(HALL_A, 2, 0x30000000)), 6
    yield sheet_of(3, 0, [1], [(1, 2, 0), (2, 1, 0)], flat(2)), 0


def nodes_and_sources():
    for nodes, answer in ((0, 4), (1, 0), (1024, 0), (1025, 4), (65537, 4), (2**28 - 1, 4)):
        yield sheet_of(nodes, 0), answer
    for nodes in (1, 2, 255, 256, 257, 1023, 1024):
        yield sheet_of(nodes, nodes - 1), 0
        for source in (nodes, 65536, 2**28 - 1):
            yield sheet_of(nodes, source), 5


def spans():
    for height in (1, 2, 15):
        for at in range(height):
            for span, answer in ((0, 6), (1, 0), (1_000_000, 0), (1_000_001, 6), (2**28 - 1, 6)):
                listed = changed([7] * height, at, span)
                yield sheet_of(4, 0, listed, [(0, 1)], chain(height)), answer
    for count in (16, 17, 271):
        yield sheet_of(4, 0, [1] * count, [(0, 1)], chain(15)), 7
    yield sheet_of(4, 0, [1] * 16 + [0], [(0, 1)], chain(15)), 6


def heights():
    for height in range(1, 16):
        for arcs in (1, 3):
            for count in (height - 1, height, height + 1):
                answer = 0 if count == height else 7 if count > 15 else 14
                yield sheet_of(4, 0, [2] * count, [(a, a + 1) for a in range(arcs)], chain(height, arcs)), answer
    for height, count, answer in ((16, 15, 14), (16, 16, 7), (17, 15, 14), (256, 0, 14), (257, 1, 14), (271, 15, 14)):
        yield sheet_of(4, 0, [2] * count, [(0, 1)], chain(height)), answer
    for count, answer in ((0, 14), (1, 0), (2, 14)):
        yield sheet_of(1, 0, [3] * count), answer
        yield sheet_of(1024, 1023, [3] * count), answer
    arcs = [(0, 1), (1, 2), (2, 3)]
    for listed in ((4, 1, 1), (1, 4, 1), (1, 1, 4), (3, 3, 2)):
        for count in range(max(listed) - 1, max(listed) + 2):
            yield sheet_of(4, 0, [1] * count, arcs, side_by_side(listed)), 0 if count == max(listed) else 14


def arc_ends():
    for nodes, answer in ((1023, 8), (1024, 0)):
        for tail, head in ((1023, 0), (0, 1023), (1023, 1022)):
            yield sheet_of(nodes, 0, [1], [(tail, head)], flat(1)), answer
    for tail, head in ((4, 3), (3, 4), (1023, 0), (0, 1023), (4, 4)):
        for at in range(3):
            arcs = changed([(0, 1), (1, 2), (2, 3)], at, (tail, head))
            yield sheet_of(4, 0, [1], arcs, flat(3)), 8


def degrees():
    """Up to five arcs from a node and five to it, in every mixture, self-arcs among them, which are 35 where they are not 10; parallel arcs; far too many."""
    for v in (0, 3, 1023):
        near = [(v + step) % 1024 for step in range(1, 6)]
        for own, out, into in product(range(6), repeat=3):
            selves, others = [(v, v)] * own, [(v, w) for w in near[:out]] + [(w, v) for w in near[:into]]
            most = own + max(out, into)
            for arcs in (selves + others, others + selves) if most <= 5 else ():
                yield sheet_of(1024, 0, [1], arcs, flat(len(arcs))), 10 if most == 5 else 35 if own else 0
        for count in range(1, 6):
            for ends in ((v, near[0]), (near[0], v)):
                yield sheet_of(1024, 0, [1], [ends] * count, flat(count)), 10 if count == 5 else 0
    for count in range(256, 262):
        yield sheet_of(1024, 0, [1], [(5, head) for head in range(count)], flat(count)), 10
        yield sheet_of(1024, 0, [1], [(tail, 5) for tail in range(count)], flat(count)), 10


def bits():
    """Each payload bit of each word of hall A turned, without holds and with. What must be zero is stated: 27 to 20 of kind 4, 27 to 23 of kind 7."""
    for words in (HALL_A, words_in(HELD_A)):
        for at, word in enumerate(words):
            zero = {4: 20, 7: 23}.get(word >> 28, 28)
            for bit in range(27, -1, -1):
                yield packed(changed(words, at, word ^ 1 << bit)), 3 if bit >= zero else None


def parents():
    arcs = [(0, 1), (1, 2), (2, 3)]
    good = [inner(0), leaf(1, 0), inner(1), leaf(3, 1), leaf(0, 2)]
    yield sheet_of(4, 0, [1] * 3, arcs, good), 0
    for at, word in enumerate(good):
        number = at + 1
        for parent in (number, number + 1, 5, 6, 2, 4, 4095) + ((4096, 65536, 2**28 - 1) if word >> 28 == 6 else ()):
            if parent >= number or parent in (2, 4):
                wrong = inner(parent) if word >> 28 == 6 else leaf(parent, word % 2048)
                yield sheet_of(4, 0, [1] * 3, arcs, changed(good, at, wrong)), 11
    yield sheet_of(4, 0, [1] * 3, arcs, good + [inner(2)]), 11
    yield sheet_of(4, 0, [1] * 3, arcs, good + [inner(5)]), 11


def leaves():
    arcs = [(0, 1), (1, 2), (2, 3)]
    for named, answer in (
        ((0, 1, 2), 0), ((2, 1, 0), 0), ((0, 1, 3), 12), ((3, 1, 2), 12), ((0, 1, 2047), 12), ((0, 1), 12), ((1, 2), 12), ((), 12),
        ((0, 1, 1), 12), ((0, 0, 1), 12), ((0, 1, 2, 2), 12), ((0, 0, 1, 2), 12), ((0, 1, 2, 3), 12), ((0, 1, 2) + (0,) * 256, 12),
    ):
        yield sheet_of(4, 0, [1], arcs, [leaf(0, a) for a in named]), answer
    yield sheet_of(4, 0, [1], [], [leaf(0, 0)]), 12
    yield sheet_of(4, 0, [1], [(0, 1)], []), 12


def childless_regions():
    arcs = [(0, 1), (1, 2)]
    for regions in (
        [inner(0), leaf(0, 0), leaf(0, 1)], [leaf(0, 0), inner(0), leaf(0, 1)], [leaf(0, 0), leaf(0, 1), inner(0)],
        [inner(0), inner(1), leaf(1, 0), leaf(0, 1)], [inner(0), inner(0), leaf(1, 0), leaf(1, 1)], [inner(0), inner(0), leaf(2, 0), leaf(2, 1)],
        [inner(0), leaf(1, 0), leaf(1, 1), inner(1)],
    ):
        for count in (1, 2, 3):
            yield sheet_of(4, 0, [1] * count, arcs, regions), 13
    yield sheet_of(4, 0, [1], [], [inner(0)]), 13
    yield sheet_of(4, 0, [1] * 2, [], [inner(0), inner(1)]), 13


def kinds():
    """Every kind at every place of hall A, without holds and with, and put in before every place and at the end."""
    for words, kind in product((HALL_A, words_in(HELD_A)), range(16)):
        for at, word in enumerate(words):
            yield packed(changed(words, at, kind << 28 | word % 2**28)), 0 if kind == word >> 28 else None
        for at in range(len(words) + 1):
            yield packed(words[:at] + [kind << 28] + words[at:]), None


def order():
    for listed in (
        '1', '2', '21', '11', '22', '112', '122', '121', '132', '12312', '1232', '1231', '124', '125', '1254', '12344', '123455', '1234545',
        '124455', '12345345', '1234563', '12634567', '123456745', '12456', '1274577', '12361', '12372', '120', '128', '12f', '0', '3', '45', '6', '7',
    ):
        answer = 2 if listed not in ('1234545', '12456') else None
        yield packed([int(kind, 16) << 28 for kind in listed]), answer
    for at in range(4, 12, 2):
        yield packed(HALL_A[:at] + HALL_A[at + 1:]), 2
        yield packed(HALL_A[:at + 1] + HALL_A[at + 2:]), 2
        yield packed(HALL_A[:at + 1]), 2
        yield packed(HALL_A[:at] + [HALL_A[at + 1], HALL_A[at]] + HALL_A[at + 2:]), 2
        for word in (0x30000001, 0x60000000, 0x70000800):
            yield packed(HALL_A[:at + 2] + [word] + HALL_A[at + 2:]), 2 if word >> 28 == 3 or at < 10 else None
    for at in range(2, 18):
        for word in (HALL_A[0], HALL_A[1]):
            yield packed(HALL_A[:at] + [word] + HALL_A[at:]), 2


# Request 2026-05: which kinds may follow each kind, one case per kind, in the order of the sheet's description; which come first and last. Kind 13, since
# request 2026-08, is the digit d.
MAY_FOLLOW = {
    '1': '2',
    '2': '3d467',
    '3': '3d467',
    'd': 'd467',
    '4': '5',
    '5': '467',
    '6': '67',
    '7': '67',
}
FIRST, LAST = '1', '23d567'

# By kind, the shortest front that leads to it, and the shortest end that leads on from it where it may not come last.
FRONTS = {'1': '1', '2': '12', '3': '123', 'd': '12d', '4': '124', '5': '1245', '6': '126', '7': '127'}
ENDS = {'1': '2', '4': '5'}

ALL_KINDS = '0123456789abcdef'


def let_through(listed):
    """Whether the front, every two neighbours and the end of these kinds are in order by the list of cases."""
    if not listed:
        return False
    return listed[0] in FIRST and listed[-1] in LAST and all(after in MAY_FOLLOW.get(kind, '') for kind, after in zip(listed, listed[1:]))


def far(listed):
    """A sheet of these kinds that gets far: as many nodes as holds, or two, spans of 1, arcs to the last node, regions and leaves in the last inner region,
    leaves of one arc after the other. With one node the arcs are self-arcs.
    """
    words, above, regions, leaves = [], 0, 0, 0
    nodes = listed.count('d') or 2
    for kind in listed:
        regions += kind in '67'
        if kind == '6':
            words.append(inner(above))
            above = regions
        elif kind == '7':
            words.append(leaf(above, leaves))
            leaves += 1
        else:
            words.append(int(kind, 16) << 28 | {'1': nodes, '3': 1, '4': nodes - 1}.get(kind, 0))
    return packed(words)


def of_holds(listed):
    """A sheet of these kinds with payloads of 0, but as many nodes as holds."""
    return packed([int(kind, 16) << 28 | (listed.count('d') if kind == '1' else 0) for kind in listed])


def strings(kinds, lengths):
    """All strings of kinds of these lengths."""
    return [''.join(listed) for length in lengths for listed in product(kinds, repeat=length)]


def next_to_each_other():
    """Every kind after each kind of a sheet, whatever comes before that, and at the front; then the shortest end."""
    places = ['', '1'] + [FRONTS[kind] + after for kind, following in MAY_FOLLOW.items() for after in following]
    return [place + kind + ENDS.get(kind, '') for place in places for kind in ALL_KINDS]


def in_sections():
    """Kinds in order as the description has them: up to three spans, two holds, two arcs and three regions."""
    fronts = ['12' + '3' * spans + 'd' * holds + '45' * arcs for spans in range(4) for holds in range(3) for arcs in range(3)]
    return [front + regions for front in fronts for regions in strings('67', range(4 - front.count('d')))]


def neighbours():
    """2 exactly where the list of cases says no. Where it says yes, 4 if all payloads are 0, which is no number of nodes, and 2 if there are holds then."""
    for listed in in_sections():
        if not let_through(listed):
            sys.exit('in order, but not by the list of cases: %s' % listed)
    some = strings(ALL_KINDS, range(3)) + ['12' + listed for listed in strings('34567', range(5))] + ['12' + listed for listed in strings('3d4567', range(4))]
    for listed in next_to_each_other() + in_sections() + some:
        yield packed([int(kind, 16) << 28 for kind in listed]), 4 if let_through(listed) and 'd' not in listed else 2
    for listed in next_to_each_other() + in_sections() + ['12' + listed for listed in strings('3d4567', range(5)) if 'd' in listed]:
        yield of_holds(listed), None if let_through(listed) else 2
    for listed in next_to_each_other() + in_sections():
        yield far(listed), None if let_through(listed) else 2


def cuts():
    """Hall A cut after each byte, and 1 to 7 bytes of the highest values."""
    sheet = packed(HALL_A)
    for size in range(len(sheet)):
        yield sheet[:size], 1 if size % 4 else 2 if size < 8 else None
    for size in range(1, 8):
        yield bytes(range(256 - size, 256)), 1 if size % 4 else 2


def pairs():
    """Each fault alone, and every two together: the answer is the number that is looked at first. Where one change undoes the other, the sheet is left out."""
    yield with_faults(), 0
    for low, changes in FAULTS.items():
        yield from ((with_faults(change), low) for change in changes)
        for high in later(low):
            made = [with_faults(one, other) for one in changes for other in FAULTS[high]]
            both = [sheet for sheet in made if applies(low, sheet) and applies(high, sheet)]
            if not both:
                sys.exit('no sheet has faults %d and %d' % (low, high))
            yield from ((sheet, low) for sheet in both)


def wide_pairs():
    """Three and four arcs each way, alone and with each fault, which is the answer, where the fault is left."""
    yield with_faults(*WIDE[2:]), 0
    for wide in WIDE:
        yield with_faults(wide), 0
        for number, changes in FAULTS.items():
            made = [with_faults(change, wide) if 10 in later(number) else with_faults(wide, change) for change in changes]
            left = [sheet for sheet in made if applies(number, sheet)]
            if not left:
                sys.exit('no wide sheet has fault %d' % number)
            yield from ((sheet, number) for sheet in left)


def full_size():
    arcs, wide = each_way(2, 1024), each_way(4, 512)
    full = words_of(1024, 1023, [1_000_000] * 15, arcs, one_deep(2032))
    for words, size in ((full, 32828), (words_of(1024, 1023, [1_000_000] * 15, arcs, one_deep(2031)), 32824)):
        if len(words) * 4 != size:
            sys.exit('a sheet of %d bytes has %d' % (size, len(words) * 4))
        yield packed(words), 0
    yield packed(full) + b'\0', 1
    yield packed(full + [leaf(0, 0)]), 7
    yield packed(full[:-1] + [leaf(4094, full[-1] % 2048)]), 11
    yield packed(full[:-1] + [leaf(0, 2047)]), 12
    yield packed(full[:2] + full[3:]), 14
    yield sheet_of(1024, 0, [9] * 11, arcs, halving()), 0
    yield sheet_of(1024, 512, [9] * 2, arcs, alternate()), 0
    yield sheet_of(512, 511, [1_000_000] * 15, wide, one_deep(2032)), 0
    yield sheet_of(512, 256, [9] * 11, wide, halving()), 0


def large():
    arcs = each_way(2, 1024)
    yield sheet_of(1024, 0, [1], arcs, flat(2048)[::-1]), 0
    yield sheet_of(1024, 0, [1], [(v, v ^ 1) for v in range(1024) for _ in range(2)], flat(2048)), 0
    yield sheet_of(1024, 0, [1], arcs + [(0, 0)], []), 7
    yield sheet_of(1023, 0, [1], arcs, []), 8
    yield sheet_of(1024, 0, [1], arcs[:-1] + [(1023, 4, 262144)], []), 9
    for third in ((1023, 5), (1022, 4)):
        yield sheet_of(1024, 0, [1], arcs[:-1] + [third], []), 12
        yield sheet_of(1024, 0, [1], arcs[:-1] + [third], flat(2048)), 0
    few = each_way(2, 200)
    for more, answer in ((14, 0), (15, 7)):
        regions = many_chains(272, more)
        if len(regions) != 4080 + more:
            sys.exit('%d region words' % len(regions))
        yield sheet_of(200, 199, [1] * 15, few[:272 + more], regions), answer
    yield sheet_of(2, 0, [1] * 15, [(0, 1)], chain(4094)), 14


def large_wide():
    arcs = each_way(4, 512)
    yield sheet_of(512, 0, [1], arcs, flat(2048)[::-1]), 0
    yield sheet_of(512, 0, [1], [(v, v ^ 1) for v in range(512) for _ in range(4)], flat(2048)), 0
    yield sheet_of(512, 0, [1], arcs + [(0, 0)], []), 7
    for fifth in ((511, 5), (510, 12)):
        yield sheet_of(512, 0, [1], arcs[:-1] + [fifth], []), 10
        yield sheet_of(512, 0, [1], [fifth] + arcs[:-1], flat(2048)), 10


def random_sheets():
    chance = Chance(1)
    for turn in range(300):
        words = random_words(chance, 12)
        if turn % 5 == 0:
            yield packed(words), 0
        yield packed(damaged(chance, words, turn % 4)), None
    for turn in range(4):
        words = random_words(chance, 100)
        yield packed(words), 0
        yield packed(damaged(chance, words, turn)), None


def random_wide():
    """Up to three, four and five arcs each way; of the last, some are refused."""
    chance = Chance(9)
    for turn in range(120):
        ways = 3 + turn % 3
        words = random_words(chance, 8, ways)
        yield packed(words), 0 if ways < 5 else None
        yield packed(damaged(chance, words, turn % 4)), None


# Request 2026-08: holds, n of them or none, and 34.

def numbers_of_holds():
    """None, one, n - 1, n, n + 1 and twice n, of a sheet with regions, with arcs alone and with spans alone; n is that of kind 1, right or wrong."""
    for nodes in (1, 2, 3, 4, 255, 256, 257, 1024):
        ends = 0, nodes - 1
        for count in sorted({0, 1, nodes - 1, nodes, nodes + 1, 2 * nodes}):
            good = count in (0, nodes)
            yield sheet_of(nodes, 0, [1], [ends], flat(1), [0] * count), (0 if nodes > 1 else 35) if good else 2
            yield sheet_of(nodes, nodes - 1, [1], holds=[ANY_HOLD] * count), 0 if good else 2
            yield sheet_of(nodes, 0, [], [ends], holds=[5] * count), (12 if nodes > 1 else 35) if good else 2
            yield sheet_of(nodes, 0, [], holds=[5] * count), 14 if good else 2
    for nodes, count, number in (
        (0, 0, 4), (0, 1, 2), (0, 2, 2), (1025, 0, 4), (1025, 1025, 4), (1025, 1024, 2), (1025, 1, 2), (2**28 - 1, 1, 2), (2**28 - 1, 1023, 2), (65537, 1, 2),
    ):
        yield sheet_of(nodes, 0, [1], holds=[0] * count), number


def places_of_holds():
    """The four holds of hall A together at every other place, apart, each at every other place, and the last at the front, in an arc and at the end."""
    words, holds = HALL_A, words_in(HELD_A)[4:8]
    for at in range(len(words) + 1):
        yield packed(words[:at] + holds + words[at:]), 0 if at == 4 else 2
        for apart in range(1, 4):
            split = words[:4] + holds[:apart] + words[4:at] + holds[apart:] + words[at:]
            yield packed(split if at > 4 else words[:at] + holds[:apart] + words[at:4] + holds[apart:] + words[4:]), 0 if at == 4 else 2
    for order in ([3, 2, 1, 0], [0, 0, 0, 0]):
        yield packed(words[:4] + [holds[at] for at in order] + words[4:]), 0


def held_lengths():
    """34: just at the limit and one above, at each tail of hall A but the source, with every split between hold and length."""
    for tail, arc in ((1, 3), (2, 2)):
        for length in (0, 1, 5, 131071, 262142, 262143):
            plain = packed(changed(HALL_A, 5 + 2 * arc, 5 << 28 | length))
            for more, answer in ((-1, 0), (0, 0), (1, 34), (2, 34), (ANY_HOLD - 262143 + length, 34)):
                hold = 262143 - length + more
                if hold >= 0:
                    yield with_holds(plain, changed([0] * 4, tail, hold)), answer
    for holds, answer in (
        ([ANY_HOLD, 0, 0, ANY_HOLD], 0), ([ANY_HOLD, 262138, 262141, ANY_HOLD], 0), ([0, 262139, 0, 0], 34), ([0, 0, 262142, 0], 34), ([0, 2**18, 0, 0], 34),
        ([0, 2**27, 0, 0], 34), ([0, 262143, 0, 0], 34), ([0, 262144 * 2, 0, 0], 34), ([0, 0, ANY_HOLD, 0], 34),
    ):
        yield with_holds(packed(HALL_A), holds), answer


def free_holds():
    """The source as tail, wherever it is and whatever leaves it; nodes that no arc leaves; and a tail that is not the source."""
    arcs = [(0, 1, 262143), (1, 2, 262143), (2, 0, 262143), (2, 1, 262143)]
    for source in range(4):
        for node in range(4):
            answer = 0 if node in (source, 3) else 34
            for hold in (1, 262144, ANY_HOLD):
                yield sheet_of(4, source, [1], arcs, flat(4), changed([0] * 4, node, hold)), answer
    for arc in ((1, 3), (1, 0), (1, 2)):
        for source, answer in ((1, 0), (0, 34), (2, 34)):
            yield sheet_of(4, source, [1], [(*arc, 262143)], flat(1), [0, ANY_HOLD, 0, 0]), answer
    # several arcs leave a node: the last one alone, and the first one alone, is too long with its hold
    for lengths in ((0, 0, 0, 7), (7, 0, 0, 0), (0, 7, 0, 0)):
        for hold, answer in ((262136, 0), (262137, 34)):
            yield sheet_of(6, 0, [1], [(1, 2 + a, length) for a, length in enumerate(lengths)], flat(4), [0, hold, 0, 0, 0, 0]), answer


def order_of_34():
    """9 over all arcs is looked at before 34, and 34 before 10 and all that follow it, whichever arc comes first."""
    beyond, held_arc, good = (1, 2, 262144), (2, 3, 10), (3, 4, 10)
    for arcs in ([beyond, held_arc], [held_arc, beyond], [good, held_arc, beyond], [good, beyond, held_arc]):
        yield sheet_of(6, 0, [1], arcs, flat(len(arcs)), [0, 0, 262134, 0, 0, 0]), 9
        yield sheet_of(6, 0, [1], [(u, v, min(length, 262143)) for u, v, length in arcs], flat(len(arcs)), [0, 0, 262134, 0, 0, 0]), 34
    # a length of 262,144 that leaves the source, and one whose tail is held at
    for source in (0, 1):
        yield sheet_of(6, source, [1], [beyond], flat(1), [5] * 6), 9
    crowd = [(2, 3, 10)] * 5
    for arcs in (crowd + [(4, 5, 3)], [(4, 5, 3)] + crowd):
        for hold, answer in ((262140, 10), (262141, 34)):
            yield sheet_of(6, 0, [1], arcs, flat(6), [0, 0, 0, 0, hold, 0]), answer
    for regions, spans in ((flat(1)[:0], [1]), ([leaf(0, 0), inner(0)], [1]), (flat(1), [1, 1]), ([inner(1), leaf(1, 0)], [1, 1])):
        yield sheet_of(3, 0, spans, [(1, 2, 262143)], regions, [0, 1, 0]), 34


def longer_sheets():
    """About 36,924 bytes; and sheets of more than 32,828 bytes without holds, which have too many words of some kind: 7, if no lower number applies."""
    arcs = each_way(2, 1024)
    full = words_of(1024, 1023, [1_000_000] * 15, arcs, one_deep(2032))
    sheet = packed(full)
    longest = with_holds(sheet, left_for_holds(sheet))
    for words, size, number in ((longest, 36_924, 0), (longest + packed([leaf(0, 0)]), 36_928, 1), (longest + b'\0', 36_925, 1), (longest[:-4], 36_920, 12)):
        if len(words) != size:
            sys.exit('a sheet of %d bytes has %d' % (size, len(words)))
        yield words, number
    yield with_holds(sheet, [0] * 1023), 2
    yield with_holds(sheet, changed(left_for_holds(sheet), 0, 262143)), 34
    for more, number in ((1, 7), (1024, 7), (1025, 1)):
        yield packed(full + [leaf(0, 0)] * more), number
    for word, number in ((8 << 28, 2), (1 << 28 | 4, 2), (7 << 28 | 1 << 23, 3)):
        yield packed(full + [word] * 1024), number
    yield packed(full[:2] + [3 << 28] * 1024 + full[2:]), 6
    yield packed(full[:17] + [4 << 28, 5 << 28] * 512 + full[17:]), 7
    yield packed(changed(full, 1, 2 << 28 | 1024) + [leaf(0, 0)] * 3), 5


def random_held():
    """Accepted sheets with holds by chance, damaged, and with one hold just beyond what may be."""
    chance = Chance(90)
    for turn in range(160):
        sheet = held(chance, packed(random_words(chance, 9, 2 + turn % 3)))
        most = left_for_holds(sheet)
        node = chance.below(len(most))
        yield sheet, 0
        yield packed(damaged(chance, words_in(sheet), turn % 4)), None
        if most[node] < ANY_HOLD:
            yield with_holds(sheet, changed([0] * len(most), node, most[node] + 1)), 34
    for sheet in held_halls():
        yield sheet, 0
        yield packed(damaged(chance, words_in(sheet), chance.below(4))), None


def held_pairs():
    """Holds that are no fault, alone and with each fault, which is the answer, where it is left."""
    for kept in KEPT:
        yield with_faults(kept), 0
        for number, changes in FAULTS.items():
            yield from ((sheet, number) for sheet in [with_faults(kept, change) for change in changes] if applies(number, sheet))


# Request 2026-09: 35, an arc from a node to itself, after 10.

ROUND = [(0, 1, 4), (0, 2, 1), (2, 1, 2), (1, 3, 5), (3, 0, 1)]


def self_arcs():
    """One self-arc in the place of each arc and after all, at each node, the source and an unreached one among them; several, all; of every length."""
    for at in range(len(ROUND) + 1):
        for v in range(5):
            for length in (0, 262143):
                arcs = ROUND[:at] + [(v, v, length)] + ROUND[at + 1:]
                yield sheet_of(5, 0, [1], arcs, flat(len(arcs))), 35
    for selves in ([(2, 2)] * 2, [(4, 4)] * 4, [(0, 0), (4, 4)], [(v, v) for v in range(5)]):
        for arcs in (selves, ROUND + selves, selves + ROUND):
            yield sheet_of(5, 0, [1], arcs, flat(len(arcs))), 35
    for nodes, v in ((1, 0), (256, 255), (257, 256), (1024, 1023), (1024, 512)):
        yield sheet_of(nodes, 0, [1], [(v, v)], flat(1)), 35
        yield sheet_of(nodes, v, [1], [(v, v)] * 4, flat(4)), 35
    for ways, nodes in ((2, 1024), (4, 512)):
        arcs = each_way(ways, nodes)
        for at in (0, 1000, 2047):
            yield sheet_of(nodes, 0, [1], changed(arcs, at, (arcs[at][0], arcs[at][0], 7)), flat(2048)), 35 if ways == 2 else 10
        yield sheet_of(nodes, 0, [1], [(v, v) for v in range(nodes) for _ in range(ways)], flat(2048)), 35


def bits_apart():
    """Tail and head that differ in one bit alone are no self-arc, whatever their other bits are; nor are two arcs there and back."""
    for bit in range(10):
        for v in (0, 1023, 341, 682):
            yield sheet_of(1024, 0, [1], [(v, v ^ 1 << bit), (v ^ 1 << bit, v)], flat(2)), 0
            yield sheet_of(1024, 0, [1], [(v, v ^ 1 << bit), (v ^ 1 << bit, v ^ 1 << bit)], flat(2)), 35


def order_of_35():
    """10 over all arcs is looked at before 35, and 35 before 11 to 14, whichever arc comes first."""
    crowd, own, good = [(2, 3)] * 5, [(4, 4)], [(0, 1)]
    for arcs in (crowd + own, own + crowd, good + own + crowd, [(4, 4)] * 5, [(4, 4)] * 4 + [(4, 5)], [(5, 4)] + [(4, 4)] * 4):
        yield sheet_of(6, 0, [1], arcs, flat(len(arcs))), 10
    for arcs in (crowd[1:] + own, own + crowd[1:], [(4, 4)] * 4, [(4, 4)] * 3 + [(4, 5)], [(5, 4)] + [(4, 4)] * 3, [(4, 4)] * 3 + [(4, 5), (5, 4)]):
        count = len(arcs)
        for regions, spans in (
            (flat(count), [1]), (flat(count)[:-1], [1]), (flat(count) + [leaf(0, 0)], [1]), ([*flat(count), inner(0)], [1]), (flat(count), [1, 1]),
            (flat(count), []), ([inner(1), *(leaf(1, a) for a in range(count))], [1, 1]), ([leaf(0, 0), *(leaf(1, a) for a in range(1, count))], [1]),
            ([], [1]),
        ):
            yield sheet_of(6, 0, spans, arcs, regions), 35
    for ends, number in (((6, 6), 8), ((1023, 1023), 8)):
        yield sheet_of(6, 0, [1], [(4, 4), ends], flat(2)), number
    for length, number in ((262143, 35), (262144, 9), (2**28 - 1, 9)):
        yield sheet_of(6, 0, [1], [(4, 4, length)], flat(1)), number
    for source, number in ((4, 35), (0, 34)):
        yield sheet_of(6, source, [1], [(4, 4, 262143)], flat(1), [0, 0, 0, 0, 1, 0]), number
    yield sheet_of(6, 0, [1], [(4, 4, 262142)], flat(1), [ANY_HOLD, 0, 0, 0, 1, 0]), 35


def random_self_arcs():
    """Sheets by chance in which self-arcs are drawn as often as others, with holds too, and damaged."""
    chance = Chance(121)
    for turn in range(90):
        sheet = packed(random_words(chance, 5, 2 + turn % 3, True))
        sheet = held(chance, sheet) if turn % 3 == 0 else sheet
        yield sheet, 35 if applies(35, sheet) else 0
        yield packed(damaged(chance, words_in(sheet), turn % 4)), None


FAMILIES = [
    marked, nodes_and_sources, spans, heights, arc_ends, degrees, bits, parents, leaves, childless_regions, kinds, order, cuts, pairs,
    wide_pairs, full_size, large, large_wide, random_sheets, random_wide, neighbours, numbers_of_holds, places_of_holds, held_lengths, free_holds,
    order_of_34, longer_sheets, random_held, held_pairs, self_arcs, bits_apart, order_of_35, random_self_arcs,
]


def vectors():
    for line in data('judge_vectors.txt'):
        digits, answer = line.split()
        yield bytes_in(digits), int(answer)


def stated_by(request):
    for digits, answer in change_fields(request, 'judge'):
        yield bytes_in(digits), int(answer)


def said(answer):
    return 'refused input %d' % answer if answer else 'accepted'


def answered(family, rules=TODAY):
    """The cases of a family with the answers expected and stated."""
    for sheet, stated in family():
        yield case_of(1, sheet), said(judge(sheet, rules)), None if stated is None else said(stated)


def lines():
    return lines_of(([vectors], [vectors_of('2026-01', stated_by)], vectors_since('2026-02', stated_by)), FAMILIES, answered)
