"""Request 2026-07: halls in which the choice among equal keys decides, and wrong choices, which the cases of these halls have to tell from the right one.

"The choice among equal keys goes to the region of lower height, then to the lower number." The height is that of the child in the sheet: a leaf has 0, an
inner region one more than its highest child.
"""
import sys
from collections import Counter
from itertools import permutations

from cases import counted, height_may_decide
from paper import BEFORE_2026_07
from procedure import NONE, Hall, PlainRun, longer_tables
from sheets import Chance, as_holds, beneath, divided, nested, numbered, random_arcs, random_regions

# In how many cases each wrong choice has to give another table than the right one.
LEAST = 20


# Halls. A nesting is given as arcs and lists of these; a list is an inner region, and what stands earlier has the lower number.

# A line from node 0 over 1 and 2 to 3, and two belts that pass a node each: two shortest routes to node 3. samples/shallow-first.hex has this hall.
LINE = 4, 0, [(0, 1, 200), (1, 2, 400), (2, 3, 200), (0, 2, 500), (1, 3, 500)]
LINE_FIRST = nested([[0, 1, 2], 3, 4])
SHALLOW_FIRST = divided(*LINE, LINE_FIRST, lambda h: 3 if h == 1 else 1)

# Three equal ways from node 0 to node 4, and on to node 5: equal keys at the start and, where labels are equal, later.
FAN = 6, 0, [(0, 1, 1), (0, 2, 1), (0, 3, 1), (1, 4, 1), (2, 4, 1), (3, 4, 1), (4, 5, 1)]

# One way of three is shorter, and two are as long as each other.
OTHER_FAN = 6, 0, [(0, 1, 3), (0, 2, 3), (0, 3, 1), (1, 4, 1), (2, 4, 1), (3, 4, 3), (4, 5, 0)]

# No arc has a length: all keys are 0 at all times. The last two arcs lead back.
STILL = 5, 0, [(0, 1, 0), (0, 2, 0), (0, 3, 0), (1, 4, 0), (2, 4, 0), (3, 4, 0), (4, 0, 0), (3, 1, 0)]


def three_heights(more):
    """Under region 0 a region of height 2, one of height 1 and leaves, in every order of their numbers; more leaves come last."""
    for blocks in permutations(([[[0, 3]]], [[1, 4]], [2, 5])):
        yield nested([part for block in blocks for part in block] + more)


def uneven_heights(more):
    """Regions whose children are of different heights, so that their height is not that of the nearest leaf, of the first child or of the last."""
    for parts in (
        [[[0], 3], [1, 4], 2, 5], [[3, [0]], [1, 4], 2, 5], [[[[0]], 3], [[1], [4]], 2, 5], [[3, [[0]]], [[1, 4]], [2], 5], [[1, 4, [2]], [[0, 3]], [5]],
        [[[1, [2]], 4], [[[0]], 3], 5], [[5, [1], 4], [0, 3], 2],
    ):
        yield nested(parts + more)


def drawn_halls(seed, turns):
    """Halls by chance with few lengths, in which the old choice gives another ended table or another number of rounds."""
    chance = Chance(seed)
    while turns:
        nodes = 4 + chance.below(3)
        count = 2 * nodes - chance.below(3)
        arcs = random_arcs(chance, nodes, count, ([0, 1], [1], [1, 2])[turns % 3], 3)
        sheet = divided(nodes, arcs[0][0], arcs, random_regions(chance, count)[0], lambda h: 1 + chance.below(3))
        hall = Hall(sheet)
        if height_may_decide(sheet) and longer_tables(hall) != longer_tables(hall, rules=BEFORE_2026_07):
            turns -= 1
            yield sheet


def tie_halls():
    """Some of the halls have a part of their lengths as holds too, by which the same keys are equal."""
    chance, plain = Chance(88), [*plain_tie_halls()]
    return plain + [as_holds(chance, sheet) for sheet in plain[::5]]


def plain_tie_halls():
    """The choice is made under region 0 and under regions that lie deeper; with spans of 1, 2 and 3."""
    for at, regions in enumerate((LINE_FIRST, nested([3, [0, 1, 2], 4]), nested([3, 4, [0, 1, 2]]), nested([[[0, 1], 2], 3, [4]]), beneath(2, LINE_FIRST))):
        for span in (lambda h: 3 if h == 1 else 1, lambda h: 1, lambda h: 2)[:3 if at == 0 else 2]:
            yield divided(*LINE, regions, span)
    for hall, more in ((FAN, [6]), (OTHER_FAN, [6]), (STILL, [6, 7])):
        for at, regions in enumerate(three_heights(more)):
            yield divided(*hall, regions, (lambda h: 1, lambda h: 2, lambda h: 3 - h % 2)[at % 3])
        for at, regions in enumerate(uneven_heights(more)):
            yield divided(*hall, regions, (lambda h: 1, lambda h: 1 + h % 2)[at % 2])
    for deeper in (1, 12):
        yield divided(*FAN, beneath(deeper, [*three_heights([6])][0]), lambda h: 2 if h < 3 else 1)
    for choose in (lambda n: 0, lambda n: n - 1):
        yield divided(*FAN, numbered([*uneven_heights([6])][2], choose), lambda h: 1)
    yield from drawn_halls(70, 12)


# Which of key, height and number decides.

class Deciding(PlainRun):
    """A run that counts its choices by what decides them: a lower key against a lower height, a lower height against a lower number, a lower number alone."""

    def __init__(self, hall, *given, **named):
        self.decided = Counter()
        super().__init__(hall, *given, **named)

    def work(self, region):
        if region not in self.own_keys and self.first(region)[0] != NONE:
            self.decide(region)
        super().work(region)

    def decide(self, region):
        """Counts the first choice of a working."""
        key, child = self.first(region)
        heights, others = self.hall.heights, [other for other in self.hall.children[region] if self.keys[other] != NONE]
        equal = [other for other in others if self.keys[other] == key]
        self.decided['key'] += any(heights[other] < heights[child] for other in others)
        self.decided['height'] += any(other < child for other in equal)
        self.decided['number'] += any(other > child and heights[other] == heights[child] for other in equal)


# Wrong choices among equal keys: of children with equal keys the one for which this is lowest.

def depth(hall, region):
    return 0 if region == 0 else 1 + depth(hall, hall.parents[region])


def height_by(choose):
    """One more than the height of a child, which need not be the highest one."""
    def height(hall, region):
        return 0 if region in hall.arc_of else 1 + choose([height(hall, child) for child in hall.children[region]])
    return height


nearest, by_first, by_last = height_by(min), height_by(lambda heights: heights[0]), height_by(lambda heights: heights[-1])


def choosing(rank):
    class Wrong(PlainRun):
        def chosen(self, children):
            return min(children, key=lambda child: rank(self.hall, child))
    return Wrong


class HeightBeforeKey(PlainRun):
    def first(self, region):
        keyed = [child for child in self.hall.children[region] if self.keys[child] != NONE]
        child = min(keyed, key=lambda child: (self.hall.heights[child], self.keys[child], child), default=None)
        return (NONE, None) if child is None else (self.keys[child], child)


# The children of one region have one parent and one depth, and no two have one number: the first four are the choice of before, said in other ways.
WRONG = {
    'the lower number, as before': choosing(lambda hall, region: region),
    'the lower height of the parent, then number': choosing(lambda hall, region: (hall.heights[hall.parents[region]], region)),
    'the lower depth, then number': choosing(lambda hall, region: (depth(hall, region), region)),
    'number before height': choosing(lambda hall, region: (region, hall.heights[region])),
    'the deeper first': choosing(lambda hall, region: (-hall.heights[region], region)),
    'the higher number of equal heights': choosing(lambda hall, region: (hall.heights[region], -region)),
    'leaves first, then number': choosing(lambda hall, region: (region not in hall.arc_of, region)),
    'height by the nearest leaf': choosing(lambda hall, region: (nearest(hall, region), region)),
    'height by the first child': choosing(lambda hall, region: (by_first(hall, region), region)),
    'height by the last child': choosing(lambda hall, region: (by_last(hall, region), region)),
    'height before key': HeightBeforeKey,
}


def hold_told_apart(call, cases, answer):
    """Stops where a wrong choice gives another answer in too few cases. `answer` gives that to a case by a run, PlainRun for the right choice."""
    found = Counter({name: sum(answer(run, *case) != answer(PlainRun, *case) for case in cases) for name, run in WRONG.items()})
    print('%s, %d cases of ties, answered otherwise by a wrong choice: %s' % (call, len(cases), counted(found)))
    few = [name for name in WRONG if found[name] < LEAST]
    if few:
        sys.exit('told apart too rarely: %s' % few)


def hold_decided():
    """Stops where key, height or number decides too few choices."""
    found = Counter()
    for sheet in tie_halls():
        run = Deciding(Hall(sheet))
        while not run.ended():
            run.round()
        found += run.decided
    print('choices decided by: ' + counted(found))
    if min(found[by] for by in ('key', 'height', 'number')) < LEAST:
        sys.exit('too few choices are decided by key, height or number')
