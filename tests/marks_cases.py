"""The cases of the listing: a sheet, and what `marks` prints of it.

What is expected comes from tests/procedure.py. It has to agree with every line of tests/marks_vectors.txt and of the vectors of every change
request, from tests/2026-01_vectors.txt on, by the rules of their time, where tests/before.py says how with the older ones, and with each text
that a case states, and what is printed of an ended run has to be shortest. Sheets of vectors that draw self-arcs are printed once they are converted by
tests/convert.py, with the distances that the vectors state. Otherwise the script stops.
"""
from before import listing_before
from cases import bytes_in, case_of, change_fields, data, lines_of, retired_fields, vectors_of, vectors_since
from convert import convert
from holds import HELD_A, by_hand, held_halls, longest_row
from paper import TODAY
from procedure import NONE, printed
from sheets import (
    FAULTS, HALL_A, KEPT, WIDE, Chance, as_holds, balanced, chain, changed, divided, each_way, flat, halving, held, high_halls, ladder, one_deep, packed,
    random_arcs, random_regions, sheet_of, some_held, turntable, uneven_halls, with_faults, with_holds,
)
from ties import SHALLOW_FIRST, tie_halls


# Each family yields sheets, each with the text stated, None where the procedure alone says it.

def marked():
    yield packed(HALL_A), 'ended rounds 3 leaves 5 inner 3 3 updates 13\n0 0 -\n1 3 2\n2 1 1\n3 8 3'
    yield packed([0x10000001, 0x20000000, 0x30000001]), 'ended rounds 0 leaves 0 inner 0 updates 0\n0 0 -'
    yield packed([0x10000001, 0x20000000]), 'refused 14'
    for at, word, number in ((0, 1 << 28, 4), (0, 1 << 28 | 1025, 4), (5, 5 << 28 | 262144, 9), (17, 0x70001001, 12), (2, 3 << 28, 6)):
        yield packed(changed(HALL_A, at, word)), 'refused %d' % number
    yield packed(HALL_A + [0x60000000]), 'refused 13'
    for at, word in ((0, 1 << 28 | 1024), (5, 5 << 28 | 262143)):
        yield packed(changed(HALL_A, at, word)), None


def refused():
    for number, changes in FAULTS.items():
        for change in changes:
            yield with_faults(change), 'refused %d' % number
    yield with_faults(), None
    for change in WIDE + KEPT:
        yield with_faults(change), None


def sizes():
    """Byte counts about the longest sheet, and input that goes on after it."""
    hall = packed(HALL_A)
    yield b'', 'refused 2'
    for size in range(1, 4):
        yield hall[:size], 'refused 1'
        yield hall + hall[:size], 'refused 1'
    for size in (32_828, 32_832, 36_920, 36_924):
        yield hall.ljust(size, b'\0'), 'refused 2'
    for size in (32_827, 32_829, 32_831, 32_833, 36_923, 36_925, 36_927, 36_928, 36_929, 40_000, 65_536):
        yield hall.ljust(size, b'\0'), 'refused 1'


def halls_of(seed, turns, ways):
    chance = Chance(seed)
    lengths = [[0], [0, 1], [1, 2, 5], [262143], list(range(0, 262144, 4099))]
    for turn in range(turns):
        nodes = 2 + chance.below(12)
        count = 1 + chance.below(ways * nodes)
        arcs = random_arcs(chance, nodes, count, lengths[turn % 5], ways)
        shapes = [flat(count), chain(1 + turn % 15, count), ladder(1 + turn % 15, count), balanced(2, list(range(count))), random_regions(chance, count)[0]]
        yield divided(nodes, chance.below(nodes), arcs, shapes[turn % 5], lambda h: 1 + chance.below(3)), None


def small_halls():
    yield from halls_of(5, 80, 2)
    yield from halls_of(16, 15, 3)
    yield from halls_of(18, 30, 4)
    for lanes in (3, 4):
        for length in (lambda a: 1, lambda a: a % 2, lambda a: 20 - a):
            yield divided(2 * lanes + 2, 0, turntable(lanes, length), balanced(lanes, list(range(3 * lanes))), lambda h: 2), None
    for sheet in some_held([sheet for sheet, _ in (*halls_of(5, 80, 2), *halls_of(18, 30, 4))], 5, 101):
        yield sheet, None


def levels():
    """Leaves at different depths, all fifteen heights, and heights without workings."""
    for sheet in (*uneven_halls(), *high_halls()):
        yield sheet, None
    for height in range(1, 16):
        idle = 'ended rounds 0 leaves 0 inner %s updates 0\n0 0 -\n1 - -\n2 - -' % ' '.join('0' * height)
        yield divided(3, 0, [(1, 2, 5)], chain(height), lambda h: 1), idle


def full_size():
    chance = Chance(6)
    mixed = random_arcs(chance, 1024, 2048, list(range(1000)))
    wide = random_arcs(chance, 1024, 2048, list(range(262144)))
    longest = [(v, v + 1, 262143) for v in range(1023)] + [(v + 1, v, 0) for v in range(1023)]
    yield divided(1024, 0, longest, balanced(4, chance.shuffled(range(2046))), lambda h: 1 + h), None
    yield divided(1024, 1023, each_way(2, 1024), one_deep(2032), lambda h: 1_000_000), None
    yield divided(1024, 5, wide, halving(), lambda h: 1), None
    yield divided(1024, 9, mixed, flat(2048), lambda h: 2), None
    yield divided(1024, 700, wide, balanced(13, chance.shuffled(range(2048))), lambda h: 1 + chance.below(1_000_000)), None
    yield divided(1024, 1, longest[:1], flat(1), lambda h: 1), None
    ties = random_arcs(chance, 512, 2048, [0, 1, 2], 4)
    yield divided(512, 3, ties, halving(), lambda h: 1), None
    yield divided(512, 511, each_way(4, 512), flat(2048), lambda h: 2), None


def ties():
    yield SHALLOW_FIRST, 'ended rounds 3 leaves 5 inner 1 3 updates 11\n0 0 -\n1 200 0\n2 500 3\n3 700 2'
    yield from ((sheet, None) for sheet in tie_halls())


def distances_of(labels):
    """A text whose distances are these, whatever its first line and the feeding arcs are."""
    return ['%d %s' % (node, '-' if label == NONE else label) for node, label in enumerate(labels)]


def holds():
    """Hall A with holds, by hand; halls whose distances are stated; n - 1 and n + 1 holds, and 34 by one."""
    yield HELD_A, 'ended rounds 2 leaves 4 inner 2 2 updates 10\n0 0 -\n1 4 0\n2 1 1\n3 19 3'
    for sheet, labels in by_hand():
        if without_arcs(printed(sheet)) != distances_of(labels):
            raise SystemExit('the distances are not as stated: %s' % sheet.hex())
        yield sheet, None
    yield from ((sheet, None) for sheet in held_halls())
    a = packed(HALL_A)
    for number, lists in ((2, ([1] * 3, [1] * 5, [0])), (34, ([0, 262139, 0, 0], [0, 0, 262142, 0], [0, 2**28 - 1, 0, 0]))):
        yield from ((with_holds(a, listed), 'refused %d' % number) for listed in lists)
    yield packed(HALL_A[:2] + [13 << 28] * 4 + HALL_A[2:]), 'refused 2'
    yield sheet_of(1, 0, [1], holds=[2**28 - 1]), 'ended rounds 0 leaves 0 inner 0 updates 0\n0 0 -'


def same_times():
    """A hold of 0 at each node, and a part of the lengths as holds: what is printed is what is printed without holds."""
    chance = Chance(102)
    for at, (sheet, _) in enumerate([*halls_of(103, 30, 3)] + [(sheet, None) for sheet in (*[*uneven_halls()][::5], *[*high_halls()][::5])]):
        nodes = int.from_bytes(sheet[:4], 'big') % 2**28
        yield with_holds(sheet, [0] * nodes) if at % 3 == 0 else as_holds(chance, sheet), '\n'.join(printed(sheet))


def holds_full_size():
    """The longest sheet, of 36,924 bytes; one word more; one hold less; the largest label there is."""
    longest = held(Chance(104), divided(1024, 1023, each_way(2, 1024), one_deep(2032), lambda h: 1_000_000))
    yield longest, None
    yield longest + packed([7 << 28]), 'refused 1'
    yield with_holds(longest, [0] * 1023), 'refused 2'
    yield longest_row(1024), None


def without_arcs(lines):
    """The lines of the nodes without their feeding arcs."""
    return [line.rsplit(' ', 1)[0] for line in lines[1:]]


def converted_vectors():
    """The sheets of vectors that draw self-arcs, converted: the distances are those that the vector states."""
    for _, sheet, (text,) in retired_fields('marks'):
        if text.startswith('ended'):
            if without_arcs(printed(convert(sheet))) != without_arcs(text_in(text).split('\n')):
                raise SystemExit('converted, it has other distances: %s' % sheet.hex()[:300])
            yield convert(sheet), None


FAMILIES = [marked, refused, sizes, small_halls, levels, full_size, ties, holds, same_times, holds_full_size, converted_vectors]


def vectors():
    for line in data('marks_vectors.txt'):
        digits, text = line.split(' ', 1)
        yield bytes_in(digits), text.replace('|', '\n')


def text_in(text):
    """A text as the vectors of requests spell it."""
    return text.replace('_', ' ').replace('|', '\n').rstrip('\n')


def stated_by(request):
    for digits, text in change_fields(request, 'marks'):
        yield bytes_in(digits), text_in(text)


def answered(family, rules=TODAY):
    """The cases of a family with the texts expected and stated."""
    for sheet, stated in family():
        yield case_of(5, sheet), '\n'.join(printed(sheet, rules)), stated


def kind(text):
    return text if text.startswith('refused') else text.split(' ')[0]


def lines():
    vectors_by_request = [vectors], [vectors_of('2026-01', stated_by)], vectors_since('2026-02', stated_by)
    return lines_of(vectors_by_request, FAMILIES, answered, kind, str, listing_before)
