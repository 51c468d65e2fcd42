"""Request 2026-10: pairs of sheets that differ only in one arc's length or in one hold, and perhaps in their regions and spans; what has to be found among
them; and wrong claims, which they have to tell from those of the request. tests/slowed.py says what holds of a pair.
"""
import sys
from collections import Counter

from cases import counted
from holds import TWO_WAYS, WRONG as WRONG_CHARGES
from paper import Lists
from procedure import HEADER, NONE, Hall, Run, columns, distances, longer_tables, tables
from sheets import (
    ANY_HOLD, HALL_A, Chance, balanced, chain, changed, divided, flat, held, leaf, left_for_holds, packed, random_arcs, random_regions, sheet_of, with_holds,
    words_in,
)
from slowed import Pair, change_between

MOST_LENGTH = 262_143

# Hall A without its regions.
HALL = 4, 0, [(0, 1, 4), (0, 2, 1), (2, 1, 2), (1, 3, 5)]


# Sheets with one figure changed.

def with_length(sheet, arc, length):
    words = words_in(sheet)
    places = [at for at, word in enumerate(words) if word >> 28 == 5]
    words[places[arc]] = 5 << 28 | length
    return packed(words)


def with_hold(sheet, node, hold):
    """Where the sheet has no hold words, the other nodes get holds of 0: the first scanner of a hall."""
    holds = Lists(sheet).holds or [0] * Lists(sheet).nodes
    return with_holds(sheet, holds[:node] + [hold] + holds[node + 1:])


def with_change(sheet, change):
    kind, number, figure = change
    return (with_length if kind == 'length' else with_hold)(sheet, number, figure)


def most_of_length(sheet, arc):
    """What 34 leaves an arc of 262,143."""
    lists = Lists(sheet)
    return MOST_LENGTH - lists.charged(lists.tails[arc])


def divided_anew(chance, sheet):
    """A sheet with other regions and spans, drawn by chance, and all else as it was."""
    lists = Lists(sheet)
    regions = random_regions(chance, len(lists.ends))[0]
    arcs = [*zip(lists.tails, lists.heads, lists.lengths)]
    return divided(lists.nodes, lists.sources[0], arcs, regions, lambda h: 1 + chance.below(4), lists.holds)


# Pairs by hand: nodes, source and arcs, the holds, the distances, and changes, each with the distances after it.

ROW = 5, 0, [(0, 1, 0), (1, 2, 3), (2, 3, 0), (3, 4, 2)]
RING = 4, 0, [(0, 1, 1), (1, 2, 2), (2, 3, 3), (3, 1, 4)]
STILL_RING = 4, 0, [(0, 1, 5), (0, 2, 5), (1, 2, 0), (2, 1, 0), (2, 3, 1), (3, 2, 0)]


def listed_pairs():
    yield HALL, [], [0, 3, 1, 8], [
        (('length', 1, 4), [0, 4, 4, 9]), (('length', 1, 2), [0, 4, 2, 9]), (('length', 1, 0), [0, 2, 0, 7]), (('length', 0, 9), [0, 3, 1, 8]),
        (('length', 0, 3), [0, 3, 1, 8]), (('length', 0, 1), [0, 1, 1, 6]), (('length', 2, 0), [0, 1, 1, 6]), (('length', 2, 3), [0, 4, 1, 9]),
        (('length', 3, 0), [0, 3, 1, 3]), (('length', 3, MOST_LENGTH), [0, 3, 1, 262146]), (('hold', 2, 3), [0, 4, 1, 9]), (('hold', 2, 1), [0, 4, 1, 9]),
        (('hold', 1, 10), [0, 3, 1, 18]), (('hold', 1, 262138), [0, 3, 1, 262146]), (('hold', 0, ANY_HOLD), [0, 3, 1, 8]),
        (('hold', 3, ANY_HOLD), [0, 3, 1, 8]),
    ]
    yield HALL, [100, 10, 3, 7], [0, 4, 1, 19], [
        (('length', 1, 4), [0, 4, 4, 19]), (('length', 2, 0), [0, 4, 1, 19]), (('length', 0, 6), [0, 6, 1, 21]), (('length', 0, 9), [0, 6, 1, 21]),
        (('hold', 2, 0), [0, 3, 1, 18]), (('hold', 1, 0), [0, 4, 1, 9]), (('hold', 0, 0), [0, 4, 1, 19]), (('hold', 3, 0), [0, 4, 1, 19]),
        (('hold', 2, 262141), [0, 4, 1, 19]),
    ]
    yield TWO_WAYS, [0, 1, 0, 6, 0], [0, 2, 3, 5, 12], [
        (('hold', 1, 0), [0, 2, 3, 4, 11]), (('hold', 1, 9), [0, 2, 3, 5, 12]), (('hold', 2, 9), [0, 2, 3, 5, 12]), (('hold', 3, 0), [0, 2, 3, 5, 6]),
        (('length', 0, 0), [0, 0, 3, 3, 10]), (('length', 0, 7), [0, 7, 3, 5, 12]), (('length', 1, 0), [0, 2, 0, 2, 9]),
        (('length', 4, 262137), [0, 2, 3, 5, 262148]),
    ]
    # every node behind moves by the whole change, the largest there is
    yield ROW, [], [0, 0, 3, 3, 5], [
        (('length', 0, MOST_LENGTH), [0, 262143, 262146, 262146, 262148]), (('length', 2, MOST_LENGTH), [0, 0, 3, 262146, 262148]),
        (('hold', 2, MOST_LENGTH), [0, 0, 3, 262146, 262148]), (('hold', 3, 262141), [0, 0, 3, 3, 262146]), (('hold', 4, ANY_HOLD), [0, 0, 3, 3, 5]),
    ]
    # an arc and a node of a ring, which is entered before it, and the arc that closes it
    yield RING, [5, 6, 7, 8], [0, 1, 9, 19], [
        (('length', 1, 9), [0, 1, 16, 26]), (('length', 1, 0), [0, 1, 7, 17]), (('length', 3, 0), [0, 1, 9, 19]), (('length', 3, 200000), [0, 1, 9, 19]),
        (('hold', 2, 0), [0, 1, 9, 12]), (('hold', 3, 0), [0, 1, 9, 19]), (('hold', 0, 0), [0, 1, 9, 19]),
    ]
    # a ring without length that is entered at two nodes: with a slower way to one of them, it is fed from the other
    yield STILL_RING, [], [0, 5, 5, 6], [
        (('length', 0, 9), [0, 5, 5, 6]), (('length', 0, 2), [0, 2, 2, 3]), (('length', 1, 9), [0, 5, 5, 6]), (('length', 2, 4), [0, 5, 5, 6]),
        (('length', 5, 7), [0, 5, 5, 6]), (('hold', 1, 2), [0, 5, 5, 6]), (('hold', 2, 2), [0, 5, 5, 8]),
    ]
    # no arc leads to nodes 2 and 3
    yield (4, 0, [(0, 1, 5), (2, 1, 0), (3, 2, 0)]), [], [0, 5, NONE, NONE], [
        (('length', 1, 8), [0, 5, NONE, NONE]), (('length', 0, 8), [0, 8, NONE, NONE]), (('length', 2, MOST_LENGTH), [0, 5, NONE, NONE]),
        (('hold', 2, 9), [0, 5, NONE, NONE]), (('hold', 3, MOST_LENGTH), [0, 5, NONE, NONE]), (('hold', 1, ANY_HOLD), [0, 5, NONE, NONE]),
    ]
    # routes that pass the source again, and two arcs side by side
    yield (4, 1, [(1, 0, 3), (0, 1, 2), (1, 2, 9), (0, 2, 1), (2, 3, 1), (2, 3, 4)]), [4, ANY_HOLD, 6, 8], [3, 0, 8, 15], [
        (('hold', 1, 0), [3, 0, 8, 15]), (('hold', 0, 9), [3, 0, 9, 16]), (('hold', 0, 0), [3, 0, 4, 11]), (('length', 1, 0), [3, 0, 8, 15]),
        (('length', 4, 9), [3, 0, 8, 18]), (('length', 5, 0), [3, 0, 8, 14]), (('length', 0, MOST_LENGTH), [262143, 0, 9, 16]),
    ]
    # halls of which nothing is reached but the source
    yield (2, 0, [(1, 0, 3)]), [], [0, NONE], [(('length', 0, 4), [0, NONE]), (('hold', 1, 7), [0, NONE]), (('hold', 0, 7), [0, NONE])]
    yield (1, 0, []), [], [0], [(('hold', 0, ANY_HOLD), [0])]


def stated_pairs():
    """These pairs, undivided and divided, each with the distances of both sheets; of every third one the second sheet has other regions and spans."""
    chance, at = Chance(100), 0
    for hall, holds, labels, changes in listed_pairs():
        for change, after in changes:
            count = len(hall[2])
            sheet = divided(*hall, (flat(count), chain(2, count), balanced(2, list(range(count))))[at % 3 if count > 1 else 0], lambda h: 1 + h % 2, holds)
            other = with_change(sheet, change)
            yield sheet, labels, divided_anew(chance, other) if at % 3 == 1 else other, after
            at += 1


# Pairs by chance.

def another(chance, figure, most):
    """Another figure, up to the most there may be: one more or less, a little more or less, anything, 0, the most. None where there is but one."""
    choices = [figure - 1, figure + 1, figure - 1 - chance.below(9), figure + 1 + chance.below(9), chance.below(most + 1), 0, most]
    choices = [choice for choice in choices if 0 <= choice <= most and choice != figure]
    return choices[chance.below(len(choices))] if choices else None


def feeding_arcs(sheet):
    hall = Hall(sheet)
    return [arc for arc in columns(hall, tables(hall)[None])[1] if arc != NONE]


def changed_length(chance, sheet):
    """Two of three times that of a feeding arc, where there is one."""
    lists = Lists(sheet)
    arcs = chance.below(3) and feeding_arcs(sheet) or range(len(lists.ends))
    arc = arcs[chance.below(len(arcs))]
    length = another(chance, lists.lengths[arc], most_of_length(sheet, arc))
    return None if length is None else with_length(sheet, arc, length)


def changed_hold(chance, sheet):
    """Two of three times that of the tail of a feeding arc, where there is one; the source is such a tail."""
    lists = Lists(sheet)
    nodes = chance.below(3) and [lists.tails[arc] for arc in feeding_arcs(sheet)] or range(lists.nodes)
    node = nodes[chance.below(len(nodes))]
    hold = another(chance, (lists.holds or [0] * lists.nodes)[node], left_for_holds(sheet)[node])
    return None if hold is None else with_hold(sheet, node, hold)


def drawn_halls(seed, turns, fewest, more_nodes):
    """Halls with few lengths, with any, and with the largest alone; every second one has holds."""
    chance = Chance(seed)
    lengths = [[0, 1, 2], [1, 5, 9], [0, 3, 7], [0, 100, 260000], list(range(0, 262144, 4099)), [0], [262143]]
    for turn in range(turns):
        nodes = fewest + chance.below(more_nodes)
        count = (2, 3)[turn // 2 % 2] * nodes - chance.below(nodes)
        arcs = random_arcs(chance, nodes, count, lengths[turn % 7], 3)
        sheet = divided(nodes, arcs[0][0], arcs, random_regions(chance, count)[0], lambda h: 1 + chance.below(3))
        yield held(chance, sheet) if turn % 4 > 1 else sheet


def drawn_pairs(seed, turns, fewest, more_nodes):
    """A length is changed and a hold by turns; every third of the changed sheets has other regions and spans. About half of the pairs stand in the other
    order."""
    chance = Chance(seed + 1)
    for turn, sheet in enumerate(drawn_halls(seed, turns, fewest, more_nodes)):
        other = (changed_length, changed_hold)[turn % 2](chance, sheet)
        if other is not None:
            other = divided_anew(chance, other) if turn % 3 == 2 else other
            yield (sheet, other) if chance.below(2) else (other, sheet)


def moves_in_part(sheet, other):
    """Whether some distance moves, and not by the whole change."""
    change = change_between(sheet, other)
    return any(0 < abs(after - label) < abs(change.after - change.before) for label, after in zip(distances(Hall(sheet)), distances(Hall(other))))


def long_rows():
    """A row of 1,024 nodes whose first arc gets the largest length there is: all nodes but the source move by the whole change."""
    row = sheet_of(1024, 0, [4], [(v, v + 1, v % 7 if v else 0) for v in range(1023)], flat(1023))
    yield row, with_length(row, 0, MOST_LENGTH)


def all_pairs():
    """All pairs, those by hand without their distances. Of some by chance those alone in which another way is taken once the change is large enough."""
    stated = [(sheet, other) for sheet, _, other, _ in stated_pairs()]
    drawn = [*drawn_pairs(101, 260, 3, 6), *drawn_pairs(103, 12, 30, 20)]
    return [*dict.fromkeys(stated + drawn + [pair for pair in drawn_pairs(105, 500, 4, 4) if moves_in_part(*pair)] + [*long_rows()])]


# What has to be found among the pairs.

def sizes(pair):
    """By how much distances move, up or down."""
    return [abs(move) for move in pair.moves()]


def moves_whole(pair):
    return pair.size() in sizes(pair)


def moves_less(pair):
    return any(0 < size < pair.size() for size in sizes(pair))


def none_moves(pair):
    return not any(sizes(pair))


def is_length(pair):
    return pair.change.kind == 'length'


def other_lists(pair, name):
    """Whether a list of the one sheet differs from that of the other."""
    return getattr(Lists(pair.sheets[0]), name) != getattr(Lists(pair.sheets[1]), name)


def first_scanner(pair):
    """One sheet has no holds, and the other has some."""
    return bool(Lists(pair.sheets[0]).holds) != bool(Lists(pair.sheets[1]).holds)


def at_the_limit(pair):
    """The changed hold and the length of an arc are 262,143 together, in one of the two sheets."""
    longest = max(pair.change.before, pair.change.after)
    arcs = [length for tail, length in zip(pair.lists.tails, pair.lists.lengths) if tail == pair.change.number != pair.source]
    return not is_length(pair) and MOST_LENGTH in [longest + length for length in arcs]


def not_left(pair):
    """The hold of a node that no arc leaves, and that is not the source."""
    return not is_length(pair) and pair.change.number not in [pair.source, *pair.lists.tails]


def other_feeding_arcs(pair):
    return pair.feeding != pair.exchanged().feeding


def on_a_ring(pair):
    """The changed arc can be taken twice: a way leads from its head back to its tail."""
    if not is_length(pair):
        return False
    hall, met = Hall(pair.sheets[0]), {pair.lists.heads[pair.change.number]}
    for _ in range(hall.nodes):
        met |= {hall.heads[arc] for node in met for arc in hall.outgoing[node]}
    return pair.lists.tails[pair.change.number] in met


def some_keep(pair):
    """Of a longer arc or a higher hold: some distance moves, and some reached node other than the source keeps its distance, since the change is not passed."""
    others = [node for node, label in enumerate(pair.labels) if node != pair.source and label != NONE]
    return pair.is_longer() and not none_moves(pair) and not all(pair.is_passed(node) for node in others)


def passed_and_kept(pair):
    """Of a longer arc or a higher hold: a node keeps its distance although the change is passed, since another way is as short."""
    kept = [node for node in range(pair.lists.nodes) if pair.labels[node] == pair.others[node]]
    return pair.is_longer() and any(pair.is_passed(node) for node in kept)


# The kinds of pair that there have to be: how many different ones at least, and what tells them.
KINDS = {
    'a longer arc': (80, lambda pair: is_length(pair) and pair.is_longer()),
    'a shorter arc': (80, lambda pair: is_length(pair) and not pair.is_longer()),
    'a higher hold': (60, lambda pair: not is_length(pair) and pair.is_longer()),
    'a lower hold': (60, lambda pair: not is_length(pair) and not pair.is_longer()),
    "the source's hold": (40, Pair.is_of_source),
    'a hold at a node that no arc leaves': (6, not_left),
    'holds in one sheet alone': (40, first_scanner),
    'the largest change of a length': (8, lambda pair: is_length(pair) and pair.size() == MOST_LENGTH),
    'a hold that is the most with an arc': (15, at_the_limit),
    'other regions': (80, lambda pair: other_lists(pair, 'regions')),
    'other spans': (80, lambda pair: other_lists(pair, 'spans')),
    'unreached nodes': (20, lambda pair: NONE in pair.labels),
    'some distance moves by the whole change': (100, moves_whole),
    'some distance moves by less': (60, moves_less),
    'some by the whole change, some by less': (8, lambda pair: moves_whole(pair) and moves_less(pair)),
    'none moves': (80, none_moves),
    "none moves, of an arc or of a hold that is not the source's": (40, lambda pair: none_moves(pair) and not pair.is_of_source()),
    'other feeding arcs': (60, other_feeding_arcs),
    'other feeding arcs, none moves': (8, lambda pair: other_feeding_arcs(pair) and none_moves(pair)),
    'lengths of 0': (100, lambda pair: 0 in pair.lists.lengths),
    'an arc of a ring': (60, on_a_ring),
    'some keep their distances, since the change is not passed': (40, some_keep),
    'a distance is kept although the change is passed': (5, passed_and_kept),
}


# Wrong claims: each says too much of pairs.
WRONG = {
    'no distance moves by as much as the change': lambda pair: pair.none_moves_by_more(max(pair.size() - 1, 0)),
    'no distance moves': lambda pair: pair.none_moves_by_more(0),
    'some distance moves': lambda pair: not none_moves(pair),
    'lengthening brings no distance up': lambda pair: not pair.is_longer() or pair.none_goes_up(),
    'shortening brings no distance down': lambda pair: pair.is_longer() or pair.none_comes_down(),
    'the nodes by which the change is passed move by all of it': lambda pair: not pair.is_longer() or all(
        other - label == pair.size() for node, (label, other) in enumerate(zip(pair.labels, pair.others)) if pair.is_passed(node)),
    'with a shorter arc too, the other nodes keep their distances': lambda pair: pair.is_longer() or pair.others_keep(),
    'the same feeding arcs': lambda pair: not other_feeding_arcs(pair),
}

# In how many pairs each wrong claim has to fail.
LEAST = 20


def found_among(found, tests):
    """How many of the pairs each test tells."""
    return Counter({name: sum(tells(pair) for pair in found) for name, tells in tests.items()})


def hold_enough(found, least):
    few = [name for name, count in found.items() if count < least(name)]
    if few:
        sys.exit('too few pairs: %s' % few)


def hold_pairs(found):
    """Stops where what is said of a pair with its ended tables is not so, where there are too few pairs of a kind, or where a wrong claim holds too often."""
    for pair in found:
        if pair.change is None or not pair.ended or not pair.holds():
            sys.exit('%s, the distances %s and %s: %s' % (pair.change, pair.labels[:30], pair.others[:30], [sheet.hex()[:300] for sheet in pair.sheets]))
    kinds = found_among(found, {name: tells for name, (_, tells) in KINDS.items()})
    print('%d pairs of sheets: %s' % (len(found), counted(kinds)))
    hold_enough(kinds, lambda name: KINDS[name][0])
    wrong = found_among(found, {name: lambda pair, is_so=is_so: not is_so(pair) for name, is_so in WRONG.items()})
    print('pairs of which a wrong claim is not so: ' + counted(wrong))
    hold_enough(wrong, lambda name: LEAST)


# Tables that are wrong in one label.

def further(pair, label):
    return label + (pair.size() + 1) * (1 if pair.is_longer() else -1)


def the_other_way(pair, label):
    return label + (-1 if pair.is_longer() else 1)


# By what a label of the second table is wrong: its label, from that of the first table.
DAMAGES = {'further than the change': further, 'moved the other way': the_other_way, 'unreached': lambda pair, label: NONE}


def with_label(pair, node, label):
    """A pair with another label of one node in the second table."""
    (sheet, other), (table, other_table), at = pair.sheets, pair.tables, HEADER + 2 * node
    return Pair(sheet, table, other, changed(other_table, at, 9 << 28 | label))


def damaged_pairs(pair):
    """One of the nodes that are reached with each damage that gives a label, and the last one to which the change is not passed moved by 1."""
    longer = pair if pair.is_longer() else pair.exchanged()
    reached = [node for node, label in enumerate(pair.labels) if label != NONE]
    node = reached[pair.size() % len(reached)]
    labels = [(name, damage(pair, pair.labels[node])) for name, damage in DAMAGES.items()]
    yield from ((name, with_label(pair, node, label)) for name, label in labels if 0 <= label <= NONE)
    kept = [node for node in reached if not longer.is_passed(node)]
    yield 'moved without need', with_label(longer, kept[-1], longer.labels[kept[-1]] + 1)


def hold_damaged(found):
    """Stops where a wrong label is not told."""
    told = Counter()
    for name, pair in (damaged for pair in found for damaged in damaged_pairs(pair)):
        told[name] += 1
        if pair.holds():
            sys.exit('%s is not told: %s, the distances %s and %s' % (name, pair.change, pair.labels[:30], pair.others[:30]))
    print('pairs with a wrong label, told: ' + counted(told))


# Every two sheets of all cases of a run that differ so.

def figures_left_out(sheet):
    """For each length and hold of a sheet: that figure, and what else has to be the same, all other figures among it."""
    lists = Lists(sheet)
    figures = [*lists.lengths, *(lists.holds or [0] * lists.nodes)]
    for at, figure in enumerate(figures):
        yield figure, (lists.nodes, *lists.sources, *lists.ends, at, *figures[:at], *figures[at + 1:])


def pairs_among(sheets):
    """All pairs of these sheets that differ in one figure, with the lower one first."""
    alike = {}
    for sheet in sheets:
        for figure, rest in figures_left_out(sheet):
            alike.setdefault(rest, []).append((figure, sheet))
    for some in alike.values():
        yield from ((sheet, other) for figure, sheet in some for higher, other in some if figure < higher)


# Two arcs changed, and holds charged wrongly.

def by_one_each(sheet, arcs):
    """A sheet with these arcs longer by 1."""
    for arc in arcs:
        sheet = with_length(sheet, arc, Lists(sheet).lengths[arc] + 1)
    return sheet


def furthest(sheet, other):
    """The most that a distance moves."""
    return max(abs(after - label) for label, after in zip(distances(Hall(sheet)), distances(Hall(other))))


def two_arcs():
    """Sheets with two arcs that may be longer by 1: of hall A, and of halls by chance two feeding arcs."""
    yield from ((packed(HALL_A), arcs) for arcs in ((0, 1), (1, 3), (1, 2), (0, 3)))
    chance = Chance(110)
    for sheet in drawn_halls(109, 120, 4, 5):
        arcs = [arc for arc in feeding_arcs(sheet) if Lists(sheet).lengths[arc] < most_of_length(sheet, arc)]
        if len(arcs) > 1:
            yield sheet, chance.shuffled(arcs)[:2]


def hold_two_arcs():
    """Stops where two longer arcs of one tail move a distance by more than 1, or where two of other tails, of which nothing is said, do not move one by 2 often
    enough. Arcs 1 and 3 of hall A move node 3 by 2."""
    found = Counter()
    for sheet, arcs in two_arcs():
        other = by_one_each(sheet, arcs)
        one_tail = len({Lists(sheet).tails[arc] for arc in arcs}) == 1
        found[('other tails', 'one tail')[one_tail] + ', by %d' % furthest(sheet, other)] += 1
        if change_between(sheet, other) is not None:
            sys.exit('two arcs are taken for one: %s' % sheet.hex()[:300])
    print('two arcs longer by 1 each: ' + counted(found))
    hold_enough({'other tails, by 2': found['other tails, by 2']}, lambda name: LEAST)
    if found['one tail, by 2'] or furthest(packed(HALL_A), by_one_each(packed(HALL_A), (1, 3))) != 2:
        sys.exit('two arcs of one tail, or arcs 1 and 3 of hall A')


# Wrong charges of tests/holds.py, and when a pair with the tables that they leave is not as said.
CHARGED = {
    "the source's hold too": lambda pair: pair.is_of_source() and not pair.holds(),
    "the head's hold": lambda pair: not pair.holds(),
    'both holds': lambda pair: not pair.holds(),
}


def charged(name, pair):
    """A pair with the tables that a wrong charge of holds leaves."""
    (sheet, other), hall = pair.sheets, WRONG_CHARGES[name]
    return Pair(sheet, longer_tables(hall(sheet))[None], other, longer_tables(hall(other))[None])


def hold_charges(found):
    """Stops where tables by a wrong charge are as said in too many pairs: with the source's hold charged too, a change of it moves distances."""
    broken = Counter({name: sum(is_broken(charged(name, pair)) for pair in found) for name, is_broken in CHARGED.items()})
    print('pairs that are not as said by a wrong charge: ' + counted(broken))
    hold_enough(broken, lambda name: LEAST)


# Paused tables, after the same number of rounds.

# Hall A with both spans 1, which is samples/patient.hex; and with a long arc more, from node 0 to node 3, whose leaf is in region 2.
PATIENT = packed(changed(HALL_A, 2, 3 << 28 | 1))
LONG_WAY = sheet_of(4, 0, [1, 1], [*HALL[2], (0, 3, 20)], [*HALL_A[12:], leaf(2, 4)])


def same_division(sheet, other):
    one, two = Lists(sheet), Lists(other)
    return (one.regions, one.spans) == (two.regions, two.spans)


def after_each_round(sheet, other):
    """The pairs of tables after the same number of rounds, with this number, until one of the two has ended."""
    runs = Run(Hall(sheet)), Run(Hall(other))
    while not any(run.ended() for run in runs):
        yield runs[0].rounds, Pair(sheet, runs[0].table(), other, runs[1].table())
        for run in runs:
            run.round()


# What is said of ended tables.
SAID = {
    'the same nodes are reached': Pair.same_nodes_reached,
    'no label moves by more than the change': lambda pair: pair.none_moves_by_more(pair.size()),
    'no label moves the other way': lambda pair: all(move >= 0 if pair.is_longer() else move <= 0 for move in pair.moves()),
    'the other nodes keep their labels': lambda pair: (pair if pair.is_longer() else pair.exchanged()).others_keep(),
}


def is_as_said(pair):
    return all(is_so(pair) for is_so in SAID.values())


def paused_pairs():
    """Pairs with the same regions and spans whose paused tables are at some time not as is said of ended ones, each with the numbers of rounds."""
    drawn = [pair for pair in drawn_pairs(107, 1800, 4, 3) if same_division(*pair)]
    for sheet, other in [(PATIENT, with_length(PATIENT, 1, 4)), (LONG_WAY, with_length(LONG_WAY, 1, 4)), *drawn]:
        rounds = [rounds for rounds, pair in after_each_round(sheet, other) if not is_as_said(pair)]
        if rounds:
            yield sheet, other, rounds


def hold_paused():
    """Stops where what is said of ended tables is so of too many paused ones, or where a changed hold of the source changes a table at any time."""
    found = Counter({name: 0 for name in SAID})
    for sheet, other, rounds in paused_pairs():
        paused = [pair for at, pair in after_each_round(sheet, other) if at in rounds]
        found.update(name for name, is_so in SAID.items() if not all(is_so(pair) for pair in paused))
    print('pairs of which it is not so while they are paused: ' + counted(found))
    hold_enough(found, lambda name: LEAST)
    for sheet, other in all_pairs():
        if same_division(sheet, other) and change_between(sheet, other)[:2] == ('hold', Hall(sheet).source):
            if any(pair.tables[0] != pair.tables[1] for _, pair in after_each_round(sheet, other)):
                sys.exit("the source's hold changes a paused table: %s" % sheet.hex()[:300])


def hold_among(ended):
    """Stops where what is said of a pair is not so of two sheets of any cases, given with their ended tables, that happen to differ so."""
    small = [sheet for sheet in ended if len(Lists(sheet).ends) < 40 and Lists(sheet).nodes < 40]
    found = Counter()
    for sheet, other in pairs_among(small):
        pair = Pair(sheet, ended[sheet], other, ended[other])
        found[pair.change.kind] += 1
        if not pair.holds():
            sys.exit('%s: %s' % (pair.change, [sheet.hex()[:300] for sheet in pair.sheets]))
    print('pairs among all sheets of these cases: ' + counted(found))
