"""Request 2026-08: halls in which holds decide, every route of a small hall measured by the request's sentence, and wrong ways to charge holds, which the
cases have to tell from the right one.

"A route's length is its arcs plus the hold of each node between its ends; the source's own hold is never charged. The procedure takes an arc's length with
its tail's hold added (0 for the source)."
"""
import sys
from collections import Counter

from cases import counted
from procedure import NONE, Hall, distances, travel_time
from sheets import ANY_HOLD, HALL_A, Chance, balanced, chain, divided, flat, held, packed, random_arcs, random_regions, sheet_of, with_holds

# In how many cases each wrong charge has to give another answer than the right one.
LEAST = 20

A = packed(HALL_A)

# Hall A with scanners: node 1 is reached at 4, where it was 3 by way of node 2, and node 3 at 4 + 10 + 5.
HELD_A = with_holds(A, [100, 10, 3, 7])


# Halls, each with its distances, by hand.

# Two ways from node 0 to node 3, over node 1 by 4 and over node 2 by 5, and on to node 4.
TWO_WAYS = 5, 0, [(0, 1, 2), (0, 2, 3), (1, 3, 2), (2, 3, 2), (3, 4, 1)]


def moved_ways():
    """The hold at node 1 makes its way the shorter one, as long, and the longer one; holds at both; at the source, at the end and at the last node but one."""
    for holds, three, four in (
        ([0, 0, 0, 0, 0], 4, 5), ([0, 1, 0, 0, 0], 5, 6), ([0, 2, 0, 0, 0], 5, 6), ([0, 262141, 0, 0, 0], 5, 6), ([0, 5, 7, 0, 0], 9, 10),
        ([0, 9, 8, 0, 0], 13, 14), ([ANY_HOLD, 0, 0, 0, 0], 4, 5), ([0, 0, 0, 0, ANY_HOLD], 4, 5), ([0, 0, 0, 262142, 0], 4, 262147),
        ([ANY_HOLD, 1, 4, 6, ANY_HOLD], 5, 12),
    ):
        yield TWO_WAYS, holds, [0, 2, 3, three, four]


def listed_halls():
    """Nodes, source and arcs, the holds, and the distances."""
    yield from moved_ways()
    # a route past the source again is no shorter; the source is node 1, and node 0 is held at
    yield (4, 1, [(1, 0, 3), (0, 1, 2), (1, 2, 9), (0, 2, 1), (2, 3, 1)]), [4, ANY_HOLD, 6, 8], [3, 0, 8, 15]
    yield (3, 0, [(0, 1, 0), (1, 0, 0), (1, 0, 0), (1, 2, 0)]), [ANY_HOLD, 7, ANY_HOLD], [0, 0, 7]
    # arcs without length: the holds are all the time there is, round a ring too
    yield (4, 0, [(0, 1, 0), (1, 2, 0), (2, 3, 0), (3, 1, 0), (2, 1, 0)]), [9, 5, 6, 1], [0, 0, 5, 11]
    # arcs side by side, there and back
    yield (3, 0, [(0, 1, 1), (2, 1, 0), (1, 2, 3), (1, 2, 2), (2, 1, 0)]), [1, 4, 262143], [0, 1, 7]
    # no arc leads to nodes 2 and 3: what is held there tells nowhere
    yield (4, 0, [(0, 1, 5), (2, 1, 0), (3, 2, 0)]), [3, 9, 262143, 262143], [0, 5, NONE, NONE]
    # the most that may be taken: of holds alone, of lengths alone, and of both
    yield (5, 0, [(0, 1, 262143), (1, 2, 0), (2, 3, 262143), (3, 4, 1)]), [ANY_HOLD, 262143, 0, 262142, ANY_HOLD], [0, 262143, 524286, 786429, 1048572]
    # nodes without arcs
    yield (3, 2, []), [ANY_HOLD, 1, 2], [NONE, NONE, 0]
    yield (1, 0, []), [ANY_HOLD], [0]


def by_hand():
    """The sheets of these halls, undivided and divided, each with the distances."""
    for hall, holds, labels in listed_halls():
        count = len(hall[2])
        for regions in (flat(count), chain(2, count), balanced(2, list(range(count))))[:3 if count > 1 else 1]:
            yield divided(*hall, regions, lambda h: 1 + h % 2, holds), labels


def drawn_halls(seed, turns):
    """Halls by chance in which holds are about as long as arcs, and the distances are others without them."""
    chance = Chance(seed)
    while turns:
        nodes = 4 + chance.below(4)
        lengths, most = (([0, 1, 2], 4), ([1, 5, 9], 9), ([0, 100, 260000], 2000))[turns % 3]
        arcs = random_arcs(chance, nodes, 2 * nodes - chance.below(3), lengths, 3)
        plain = divided(nodes, arcs[0][0], arcs, random_regions(chance, len(arcs))[0], lambda h: 1 + chance.below(3))
        sheet = with_holds(plain, [chance.below(most) for _ in range(nodes)]) if turns % 4 else held(chance, plain)
        if distances(Hall(sheet)) != distances(Hall(plain)):
            turns -= 1
            yield sheet


def held_halls():
    """Small halls with holds: hall A, those by hand, and such by chance."""
    return [HELD_A, *(sheet for sheet, _ in by_hand()), *drawn_halls(80, 36)]


def longest_row(nodes):
    """A row whose arcs but the first have no length, with the most at each node that may be held: the last label is the largest there is in so many nodes."""
    arcs = [(v, v + 1, 0 if v else 262143) for v in range(nodes - 1)]
    return sheet_of(nodes, 0, [1], arcs, flat(nodes - 1), [ANY_HOLD] + [262143] * (nodes - 2) + [ANY_HOLD])


# Every route, measured by the request's sentence.

MOST_ROUTES = 600


def routes(hall):
    """Every route from the source of at most as many arcs as there are nodes, or None where these are too many. Routes that pass nodes again are among them."""
    found = longest = [[]]
    for _ in range(hall.nodes):
        longest = [arcs + [arc] for arcs in longest for arc in hall.outgoing[hall.heads[arcs[-1]] if arcs else hall.source]]
        found = found + longest
        if len(found) > MOST_ROUTES:
            return None
    return found


def by_every_route(hall, found):
    """The least length of these routes, by the node to which they lead."""
    least = [NONE] * hall.nodes
    for arcs in found:
        end = hall.heads[arcs[-1]] if arcs else hall.source
        least[end] = min(least[end], travel_time(hall, arcs))
    return least


def hold_measured():
    """Routes of listed lengths. The source's own hold is not charged where a route passes it again, nor that of either end."""
    hall = Hall(sheet_of(3, 0, [1], [(0, 1, 3), (1, 0, 2), (0, 2, 4), (1, 2, 5), (2, 1, 1)], flat(5), [1000, 20, 300]))
    for arcs, length in (
        ([], 0), ([0], 3), ([2], 4), ([0, 1], 25), ([0, 1, 2], 29), ([0, 3], 28), ([0, 3, 4], 329), ([2, 4, 3, 4], 631),
        ([0, 1, 0, 1, 0, 3], 3 * 23 + 2 * 2 + 5),
    ):
        if travel_time(hall, arcs) != length:
            sys.exit('the route %s is %d long and not %d' % (arcs, travel_time(hall, arcs), length))


def hold_every_route(tables, least):
    """Stops where an ended table, given with its sheet and its labels, has another label than the least of all routes. So many have to be tried with holds."""
    hold_measured()
    found = Counter()
    for sheet, labels in tables:
        hall = Hall(sheet)
        listed = routes(hall)
        if listed is not None:
            found['with holds' if any(hall.holds) else 'without'] += 1
            if by_every_route(hall, listed) != labels:
                sys.exit('a label is not the least of all routes: %s' % sheet.hex()[:300])
    print('ended tables held to every route: ' + counted(found))
    if found['with holds'] < least:
        sys.exit('too few with holds')


# Wrong charges: what is added to the length of an arc. No route is shorter for passing the source again, so that what an arc to the source takes tells nowhere
# but in 34.

def charging(charge):
    class Wrong(Hall):
        def taken_lengths(self):
            return [length + charge(self, tail, head) for tail, head, length in zip(self.tails, self.heads, self.lengths)]
    return Wrong


def unless(wrong, hold):
    return 0 if wrong else hold


WRONG = {
    'no hold': charging(lambda hall, tail, head: 0),
    "the source's hold too": charging(lambda hall, tail, head: hall.holds[tail]),
    "the head's hold": charging(lambda hall, tail, head: unless(head == hall.source, hall.holds[head])),
    "the head's hold, 0 where the tail is the source": charging(lambda hall, tail, head: unless(tail == hall.source, hall.holds[head])),
    'the hold of the next node': charging(lambda hall, tail, head: unless(tail == hall.source, hall.holds[(tail + 1) % hall.nodes])),
    'the hold of the node before': charging(lambda hall, tail, head: unless(tail == hall.source, hall.holds[tail - 1])),
    '0 for node 0 and not for the source': charging(lambda hall, tail, head: unless(tail == 0, hall.holds[tail])),
    'both holds': charging(lambda hall, tail, head: unless(tail == hall.source, hall.holds[tail]) + unless(head == hall.source, hall.holds[head])),
}


def hold_charged_apart(call, cases, answer):
    """Stops where a wrong charge gives another answer in too few cases. `answer` gives that to a case by a kind of hall, Hall for the right charge."""
    found = Counter({name: sum(answer(hall, *case) != answer(Hall, *case) for case in cases) for name, hall in WRONG.items()})
    print('%s, %d cases of holds, answered otherwise by a wrong charge: %s' % (call, len(cases), counted(found)))
    few = [name for name in WRONG if found[name] < LEAST]
    if few:
        sys.exit('told apart too rarely: %s' % few)
