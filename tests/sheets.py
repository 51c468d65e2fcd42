"""Sheets for the cases: their words, divisions of several shapes, sheets with faults, random sheets, and sheets with holds."""
from random import Random

from paper import Lists, hall_height


def packed(words):
    return b''.join(word.to_bytes(4, 'big') for word in words)


def inner(parent):
    return 6 << 28 | parent


def leaf(parent, arc):
    return 7 << 28 | parent << 11 | arc


def arc(tail, head, length=1):
    return [4 << 28 | tail << 10 | head, 5 << 28 | length]


def words_of(nodes, source, spans, arcs, regions, holds=()):
    """The words of a sheet. Arcs are (tail, head) or (tail, head, length); regions are words."""
    front = [1 << 28 | nodes, 2 << 28 | source] + [3 << 28 | span for span in spans] + [13 << 28 | hold for hold in holds]
    return front + [word for a in arcs for word in arc(*a)] + regions


def sheet_of(nodes=4, source=0, spans=(1,), arcs=(), regions=(), holds=()):
    return packed(words_of(nodes, source, spans, arcs, list(regions), holds))


def flat(arcs):
    return [leaf(0, a) for a in range(arcs)]


def chain(height, arcs=1):
    """Each inner region in the one before it, and all leaves in the last."""
    return [inner(parent) for parent in range(height - 1)] + [leaf(height - 1, a) for a in range(arcs)]


def side_by_side(depths):
    """For each arc a chain of its own in region 0, its leaf as deep as listed."""
    regions = []
    for a, depth in enumerate(depths):
        parent = 0
        for _ in range(depth - 1):
            regions.append(inner(parent))
            parent = len(regions)
        regions.append(leaf(parent, a))
    return regions


def each_way(ways, nodes):
    """So many arcs from each node and so many to each, with lengths that differ, and no self-arc."""
    steps = [step if step % nodes else step + 1 for step in range(1, 4 * ways, 4)]
    return [(v, (v + step) % nodes, 127 * v + step) for v in range(nodes) for step in steps]


def turntable(lanes, length=lambda a: 1):
    """Arcs from node 0 to so many lanes, from these to a turntable, and from it to so many nodes; length gives that of an arc."""
    table, numbers = lanes + 1, range(1, lanes + 1)
    ends = [(0, v) for v in numbers] + [(v, table) for v in numbers] + [(table, table + v) for v in numbers]
    return [(tail, head, length(a)) for a, (tail, head) in enumerate(ends)]


def changed(words, at, word):
    return words[:at] + [word] + words[at + 1:]


HALL_A = [int(word, 16) for word in (
    '10000004 20000000 30000002 30000001 40000001 50000004 40000002 50000001 40000801 50000002 40000403 50000005 '
    '60000000 60000000 70000800 70000803 70001001 70001002').split()]


# Sheets with faults. Each change of FAULTS, two for a refusal and more for 2, makes one fault in a sheet of 8 nodes and height 3. The refusals are in the order
# in which they are looked at.

class Parts:
    def __init__(self):
        self.nodes, self.source, self.spans = 8, 1, [5, 6, 7]
        self.arcs = [[v << 10 | v + 1, 10 + v] for v in range(6)]
        self.regions = [inner(0), inner(1), leaf(2, 0), leaf(2, 1), leaf(1, 2), leaf(1, 3), leaf(0, 4), leaf(0, 5)]
        self.front, self.end, self.bytes_after = [], [], b''
        self.holds, self.more_holds = {}, 0

    def sheet(self):
        words = self.front + [1 << 28 | self.nodes, 2 << 28 | self.source] + [3 << 28 | span for span in self.spans]
        if self.holds:
            words += [13 << 28 | self.holds.get(node, 0) for node in range(self.nodes + self.more_holds)]
        for ends, length in self.arcs:
            words += [4 << 28 | ends, 5 << 28 | length]
        return packed(words + self.regions + self.end) + self.bytes_after

    def set(self, name, value):
        setattr(self, name, value)

    def span(self, at, span):
        self.spans[at] = span

    def hold(self, node, hold, more=0):
        """A hold at a node, 0 at all others, and so many hold words more than nodes."""
        self.holds[node] = hold
        self.more_holds += more

    def tails(self, arcs, node):
        for a in arcs:
            self.arcs[a][0] = self.arcs[a][0] >> 20 << 20 | node << 10 | self.arcs[a][0] % 1024

    def heads(self, arcs, node):
        for a in arcs:
            self.arcs[a][0] = self.arcs[a][0] >> 10 << 10 | node

    def self_arc(self, a):
        self.heads([a], (self.arcs[a][0] >> 10) % 1024)

    def ends_bit(self, a, bit):
        self.arcs[a][0] |= 1 << bit

    def length(self, a, length):
        self.arcs[a][1] = length

    def region(self, number, word):
        self.regions[number - 1] = word

    def leaf_bit(self, number, bit):
        self.regions[number - 1] |= 1 << bit

    def leaf_parent(self, number, parent):
        word = self.regions[number - 1]
        self.regions[number - 1] = word >> 23 << 23 | parent << 11 | word % 2048

    def leaf_arc(self, number, a):
        self.regions[number - 1] = self.regions[number - 1] >> 11 << 11 | a


FAULTS = {
    1: [lambda p: p.set('bytes_after', b'\0'), lambda p: p.set('bytes_after', b'\x10\x00\x00')],
    2: [lambda p: p.end.append(0), lambda p: p.front.append(8 << 28), lambda p: p.hold(3, 7, 1), lambda p: p.hold(7, 262143, -1)],
    3: [lambda p: p.ends_bit(0, 20), lambda p: p.leaf_bit(8, 27)],
    4: [lambda p: p.set('nodes', 1025), lambda p: p.set('nodes', 0)],
    5: [lambda p: p.set('source', p.nodes), lambda p: p.set('source', 2**28 - 1)],
    6: [lambda p: p.span(0, 0), lambda p: p.span(2, 1_000_001)],
    7: [lambda p: p.spans.extend([1] * 13), lambda p: p.spans.extend([1] * 40)],
    8: [lambda p: p.heads([0], 8), lambda p: p.tails([5], 1023)],
    9: [lambda p: p.length(0, 262144), lambda p: p.length(5, 2**28 - 1)],
    34: [lambda p: p.hold(0, 262134), lambda p: p.hold(2, 2**28 - 1)],
    10: [lambda p: p.tails([0, 1, 2, 3, 4], 0), lambda p: p.heads([1, 2, 3, 4, 5], 0)],
    35: [lambda p: p.self_arc(3), lambda p: p.self_arc(0)],
    11: [lambda p: p.region(2, inner(2)), lambda p: p.leaf_parent(8, 3)],
    12: [lambda p: p.leaf_arc(3, 6), lambda p: p.leaf_arc(7, 3)],
    13: [lambda p: p.regions.append(inner(0)), lambda p: p.regions.extend([inner(0), inner(9)])],
    14: [lambda p: p.spans.extend([1] * 3), lambda p: p.spans.pop(1)],
}

# Three and four arcs from a node and to a node, which is no fault.
WIDE = [
    lambda p: p.tails([2, 3], 1), lambda p: p.heads([2, 3], 5), lambda p: p.tails([2, 3, 4], 1), lambda p: p.heads([0, 1, 2, 3], 7),
]


# Holds that are no fault: any payload at the source, node 1, and at nodes that no arc leaves, 6 and 7, and at node 5 what arc 5 leaves of 262,143.
KEPT = [lambda p: p.hold(1, 2**28 - 1), lambda p: (p.hold(6, 2**28 - 1), p.hold(7, 262144)), lambda p: p.hold(5, 262128)]


def later(number):
    """The refusals that are looked at after one."""
    numbers = list(FAULTS)
    return numbers[numbers.index(number) + 1:]


def with_faults(*changes):
    parts = Parts()
    for change in changes:
        change(parts)
    return parts.sheet()


# Divisions of the 2,048 arcs of a sheet at the limits of size.

def halving():
    """Two children for each inner region: 2,046 inner regions, then 2,048 leaves, height 11."""
    return [inner((number - 1) // 2) for number in range(1, 2047)] + [leaf((number - 1) // 2, number - 2047) for number in range(2047, 4095)]


def one_deep(others):
    """A chain of 14 inner regions and others at its regions, a leaf in each, the leaves left over in region 0: height 15."""
    regions = [inner(number) for number in range(14)] + [inner(number % 14) for number in range(others)]
    ends = list(range(14, 15 + others))
    return regions + [leaf(ends[a] if a < len(ends) else 0, 2047 - a) for a in range(2048)]


def many_chains(chains, more):
    """Chains of 14 inner regions with a leaf at each end, numbered level by level, and more leaves in region 0: height 15."""
    regions = [inner(max(0, number - chains)) for number in range(1, 14 * chains + 1)]
    return regions + [leaf(13 * chains + 1 + a, a) for a in range(chains)] + [leaf(0, chains + a) for a in range(more)]


def alternate():
    """Each inner region of region 0 followed by its one leaf, and two leaves more: height 2."""
    return [word for a in range(2046) for word in (inner(0), leaf(2 * a + 1, a))] + [leaf(0, 2046), leaf(0, 2047)]


# Random sheets. Only `random()` is used of the generator, since later versions of Python keep its numbers.

class Chance:
    def __init__(self, seed):
        self.random = Random(seed).random

    def below(self, limit):
        return int(self.random() * limit)

    def taken(self, items):
        return items.pop(self.below(len(items)))

    def shuffled(self, items):
        left = list(items)
        return [self.taken(left) for _ in items]


def random_regions(chance, arcs):
    """Groups leaves and groups of them from below, then numbers the groups so that each comes after its parent. Also the height."""
    groups = [('leaf', a) for a in chance.shuffled(range(arcs))]
    while len(groups) > 1 and chance.below(4):
        some = [chance.taken(groups) for _ in range(1 + chance.below(min(3, len(groups))))]
        groups.append(('inner', some))

    def height(group):
        return 0 if group[0] == 'leaf' else 1 + max(height(part) for part in group[1])

    words, waiting = [], [(0, group) for group in groups]
    while waiting:
        parent, (kind, held) = chance.taken(waiting)
        words.append(leaf(parent, held) if kind == 'leaf' else inner(parent))
        waiting += [(len(words), part) for part in held] if kind == 'inner' else []
    return words, 1 + max((height(group) for group in groups), default=0)


def parted(tails, heads):
    """The same heads in another order: one that is its tail changes places with the next one with which neither arc is a self-arc."""
    heads, count = list(heads), len(heads)
    for at, tail in enumerate(tails):
        if heads[at] == tail:
            other = next(other % count for other in range(at + 1, at + count) if tail not in (heads[other % count], tails[other % count]))
            heads[at], heads[other] = heads[other], heads[at]
    return heads


def random_ends(chance, nodes, count, ways, selves=False):
    """The tails and heads of so many arcs, at most so many ways from and to each node, parallel arcs among them, and self-arcs where these are wanted."""
    tails, heads = (chance.shuffled([v for v in range(nodes) for _ in range(ways)]) for _ in range(2))
    return [*zip(tails, heads if selves or nodes == 1 else parted(tails, heads))][:count]


def random_words(chance, most_nodes, ways=2, selves=False):
    """A hall of one node has no arcs but self-arcs."""
    nodes = 1 + chance.below(most_nodes)
    count = chance.below(ways * nodes + 1) if selves or nodes > 1 else 0
    arcs = [(tail, head, chance.below(262144)) for tail, head in random_ends(chance, nodes, count, ways, selves)]
    regions, height = random_regions(chance, count)
    return words_of(nodes, chance.below(nodes), [1 + chance.below(1_000_000) for _ in range(height)], arcs, regions)


def damaged(chance, words, way):
    """A bit turned, a word doubled, a word dropped, or two words swapped."""
    at = chance.below(len(words))
    other = (at + 1 + chance.below(len(words) - 1)) % len(words)
    if way == 0:
        return changed(words, at, words[at] ^ 1 << chance.below(32))
    if way == 1:
        return words[:at] + [words[at]] + words[at:]
    if way == 2:
        return words[:at] + words[at + 1:]
    return changed(changed(words, at, words[other]), other, words[at])


# Halls and divisions for runs. A division is a list of region words; `divided` gives it as many spans as region 0 is high.

def divided(nodes, source, arcs, regions, span, holds=()):
    """The sheet of a hall with a division; span gives the span for a height."""
    height = hall_height(Lists(sheet_of(nodes, source, [], arcs, regions)))
    return sheet_of(nodes, source, [span(h) for h in range(1, height + 1)], arcs, regions, holds)


def ladder(height, arcs):
    """A chain of inner regions with leaves at every one of them."""
    return [inner(parent) for parent in range(height - 1)] + [leaf(height - 1 - a % height, a) for a in range(arcs)]


def single_children(height, arcs):
    """Each leaf at the end of a chain of its own, all as deep."""
    return side_by_side([height] * arcs)


def balanced(fan, order):
    """Arcs in an order, as many children for each inner region as the fan; no region has one child alone, if fan is at least 2."""
    regions, waiting = [], [(0, order)]
    while waiting:
        parent, some = waiting.pop(0)
        size = -(-len(some) // fan)
        for at in range(0, len(some), size or 1):
            part = some[at:at + size]
            regions.append(leaf(parent, part[0]) if len(part) == 1 else inner(parent))
            if len(part) > 1:
                waiting.append((len(regions), part))
    return regions


def beneath(singles, regions):
    """A division in the last of so many inner regions, each in the one before it."""
    return [inner(parent) for parent in range(singles)] + [word + (singles << 11 if word >> 28 == 7 else singles) for word in regions]


def nested(parts, parent=0, before=0):
    """The region words of a nesting, given as arcs and lists of these, in the order in which they are listed, depth first."""
    words = []
    for part in parts:
        if isinstance(part, int):
            words.append(leaf(parent, part))
        else:
            number = before + len(words) + 1
            words += [inner(parent), *nested(part, number, number)]
    return words


def numbered(regions, choose):
    """The same division under other numbers. Of so many regions whose parents have theirs, choose says which one is next."""
    children = [[] for _ in range(len(regions) + 1)]
    for number, word in enumerate(regions, 1):
        children[(word >> 11 if word >> 28 == 7 else word) % 4096].append(number)
    words, waiting = [], [(number, 0) for number in children[0]]
    while waiting:
        number, parent = waiting.pop(choose(len(waiting)))
        word = regions[number - 1]
        words.append(leaf(parent, word % 2048) if word >> 28 == 7 else inner(parent))
        waiting += [(child, len(words)) for child in children[number]]
    return words


def every_division(arcs, inners, words=()):
    """Every list of region words, with a beginning, that holds these arcs and so many inner regions, each with a child."""
    if not arcs and not inners:
        parents = {(word >> 11 if word >> 28 == 7 else word) % 4096 for word in words}
        if all(number in parents for number, word in enumerate(words, 1) if word >> 28 == 6):
            yield list(words)
        return
    for parent in [0] + [number for number, word in enumerate(words, 1) if word >> 28 == 6]:
        for a in arcs:
            yield from every_division([other for other in arcs if other != a], inners, (*words, leaf(parent, a)))
        if inners:
            yield from every_division(arcs, inners - 1, (*words, inner(parent)))


def random_arcs(chance, nodes, count, lengths, ways=2, selves=False):
    """At most so many ways from and to each node, with lengths from a list."""
    return [(tail, head, lengths[chance.below(len(lengths))]) for tail, head in random_ends(chance, nodes, count, ways, selves)]


def uneven(height):
    """A chain of inner regions: beside the next one each has a leaf with a lower number, a region with a leaf alone, and a leaf at its end."""
    regions, arcs, at = [], 0, 0
    for _ in range(height - 1):
        below = len(regions) + 2
        regions += [leaf(at, arcs), inner(at), inner(at), leaf(below + 1, arcs + 1), leaf(at, arcs + 2)]
        arcs, at = arcs + 3, below
    return regions + [leaf(at, arcs)]


def woken(levels, links, lanes=1):
    """Arcs and division in which the deepest region is woken 2^levels times.

    From node j on, a long arc leads to node j + 1 and two short ones lead there too, by way of a node of its own; after the last of these
    comes a chain of so many links, each of so many lanes, the last the shortest. The long arcs and the chain are in the deepest region, the
    short arcs of node j in region j, so a long way is taken to its end before the next shorter one is tried.
    """
    arcs, short = [], []
    for j in range(levels):
        more = 2 ** (levels - 1 - j)
        arcs += [(j, j + 1, more + 2), (j, levels + 1 + j, 1), (levels + 1 + j, j + 1, 1)]
        short += [leaf(j, 3 * j + 1), leaf(j, 3 * j + 2)]
    first = 2 * levels + 1
    ends = [levels] + [first + link for link in range(links)]
    chained = [(tail, head, lane) for tail, head in zip(ends, ends[1:]) for lane in range(lanes, 0, -1)]
    deepest = [leaf(levels, 3 * j) for j in range(levels)] + [leaf(levels, 3 * levels + a) for a in range(links * lanes)]
    return first + links, arcs + chained, [inner(j) for j in range(levels)] + short + deepest


def uneven_halls():
    """Halls whose leaves hang at different depths."""
    for height in (3, 4, 8, 14, 15):
        arcs = 3 * height - 2
        for span in (lambda h: 1, lambda h: 2, lambda h: 1 + h % 3, lambda h: 1_000_000):
            yield divided((arcs + 1) // 2, height % 2, each_way(2, (arcs + 1) // 2)[:arcs], uneven(height), span)


def high_halls():
    """Halls of height 15 in which regions of every height are worked."""
    arcs = each_way(2, 15)
    for span in (lambda h: 1, lambda h: 1 + h % 2, lambda h: 3):
        yield divided(15, 0, arcs, chain(15, 30), span)
        yield divided(15, 1, arcs, ladder(15, 30), span)
        yield divided(15, 2, arcs, side_by_side([1 + a % 15 for a in range(30)]), span)
        yield divided(15, 3, arcs, side_by_side([15 - a // 2 for a in range(30)]), span)
    for span in (lambda h: 1_000_000, lambda h: 16 - h):
        nodes, ends, regions = woken(14, 3)
        yield divided(nodes, 0, ends, regions, span)


# Sheets with holds.

ANY_HOLD = 2**28 - 1


def words_in(sheet):
    return [int.from_bytes(sheet[at:at + 4], 'big') for at in range(0, len(sheet), 4)]


def with_holds(sheet, holds):
    """A sheet with these hold words after its spans, and no others."""
    words = [word for word in words_in(sheet) if word >> 28 != 13]
    at = 2 + len(Lists(sheet).spans)
    return packed(words[:at] + [13 << 28 | hold for hold in holds] + words[at:])


def left_for_holds(sheet):
    """By node the most that may be held there: what its longest arc leaves of 262,143; any payload at the source and at a node that no arc leaves."""
    lists = Lists(sheet)
    most = [ANY_HOLD] * lists.nodes
    for tail, length in zip(lists.tails, lists.lengths):
        if tail != lists.sources[0]:
            most[tail] = min(most[tail], 262143 - length)
    return most


def held(chance, sheet):
    """An accepted sheet with holds by chance, with which it stays accepted: at some nodes none, small ones, any, and the most that may be."""
    def hold(most):
        return (0, min(most, 1 + chance.below(3)), min(most, chance.below(1000)), chance.below(most + 1), most)[chance.below(5)]
    return with_holds(sheet, [hold(most) for most in left_for_holds(sheet)])


def some_held(sheets, every, seed):
    """Of every so many sheets one, with holds by chance."""
    chance = Chance(seed)
    return [held(chance, sheet) for sheet in [*sheets][::every]]


def as_holds(chance, sheet):
    """The sheet of the same times: each node but the source holds a part of the length of every arc that leaves it, and the arcs are so much shorter.

    The source, and nodes that no arc leaves, hold anything. The procedure takes the lengths that it took, so that every run leaves the table that it left.
    """
    lists = Lists(sheet)
    held_at = [ANY_HOLD] * lists.nodes
    for tail, length in zip(lists.tails, lists.lengths):
        held_at[tail] = ANY_HOLD if tail == lists.sources[0] else min(held_at[tail], length)
    held_at = [chance.below(4) and (chance.below(hold + 1) if chance.below(2) else hold) for hold in held_at]
    tails, words = iter(lists.tails), words_in(sheet)
    for at, word in enumerate(words):
        if word >> 28 == 5:
            tail = next(tails)
            words[at] -= 0 if tail == lists.sources[0] else held_at[tail]
    return with_holds(packed(words), held_at)
