"""What one changed length or one changed hold does to the distances, as change request 2026-10 says it, over the words of two sheets and of their ended
tables. Written from its sentences alone:

"If two accepted sheets differ only in one arc's length, the same nodes are reached, no distance moves by more than the change, and lengthening the arc brings
no distance down. The same is wanted for a single changed hold."

What is proved beside it is here too: shortening brings no distance up, a changed hold of the source moves nothing, and where an arc is lengthened or a hold
raised, a node whose feeding arcs, followed back in the old table, do not take the arc, or do not pass the node, keeps its distance. Regions and spans may be
any in both sheets.
"""
from collections import namedtuple

from paper import Lists
from procedure import HEADER, NONE, table_size

# One length or one hold that alone differs: 'length' with the number of the arc or 'hold' with that of the node, and what it is in the one sheet and the other.
Change = namedtuple('Change', 'kind number before after')


def changes_in(kind, before, after):
    return [Change(kind, number, *figures) for number, figures in enumerate(zip(before, after, strict=True)) if figures[0] != figures[1]]


def change_between(sheet, other):
    """The change, where two sheets differ only in one arc's length or in one hold; otherwise None. A sheet without hold words has holds of 0."""
    one, two = Lists(sheet), Lists(other)
    if (one.nodes, one.sources, one.ends) != (two.nodes, two.sources, two.ends):
        return None
    changes = changes_in('length', one.lengths, two.lengths)
    changes += changes_in('hold', one.holds or [0] * one.nodes, two.holds or [0] * two.nodes)
    return changes[0] if len(changes) == 1 else None


class Pair:
    """What the sentences speak of, read off two sheets that differ by one change and the tables that runs of them leave. It is said of ended tables alone."""

    def __init__(self, sheet, table, other, other_table):
        self.sheets, self.tables = (sheet, other), (table, other_table)
        self.change = change_between(sheet, other)
        self.lists = Lists(sheet)
        self.source = self.lists.sources[0]
        self.ended = table[0] % 2**28 == other_table[0] % 2**28 == 1
        self.labels, self.others = (payloads(self.lists.nodes, words, 0) for words in (table, other_table))
        self.feeding = payloads(self.lists.nodes, table, 1)

    def exchanged(self):
        return Pair(self.sheets[1], self.tables[1], self.sheets[0], self.tables[0])

    def size(self):
        """How much the change is."""
        return abs(self.change.after - self.change.before)

    def is_longer(self):
        """Whether the arc is lengthened, or the hold raised."""
        return self.change.before < self.change.after

    def is_of_source(self):
        return self.change.kind == 'hold' and self.change.number == self.source

    def moves(self):
        """By how much each distance moves, up or down, of the nodes that are reached in both tables."""
        return [other - label for label, other in zip(self.labels, self.others) if NONE not in (label, other)]

    def same_nodes_reached(self):
        return [label == NONE for label in self.labels] == [label == NONE for label in self.others]

    def none_moves_by_more(self, most):
        return all(abs(move) <= most for move in self.moves())

    def none_comes_down(self):
        """"unreached" is above every number."""
        return all(label <= other for label, other in zip(self.labels, self.others))

    def none_goes_up(self):
        return all(label >= other for label, other in zip(self.labels, self.others))

    def followed_back(self, node):
        """The feeding arcs met from a node to the source, in the old table; none where the node is unreached."""
        arcs = []
        while self.feeding[node] != NONE and len(arcs) < self.lists.nodes:
            arcs.append(self.feeding[node])
            node = self.lists.tails[arcs[-1]]
        return arcs

    def is_passed(self, node):
        """Whether what is changed lies on the way to a node: the arc is among its feeding arcs, or the held node between their ends."""
        arcs = self.followed_back(node)
        between = [self.lists.tails[arc] for arc in arcs[:-1]]
        return self.change.number in (arcs if self.change.kind == 'length' else between)

    def others_keep(self):
        """Whether the nodes to whose ways the change does not belong keep their distances."""
        return all(self.is_passed(node) or self.labels[node] == self.others[node] for node in range(self.lists.nodes))

    def none_moves_the_other_way(self):
        return self.none_comes_down() if self.is_longer() else self.none_goes_up()

    def holds(self):
        """Whether all of it is so. Where the arc is shortened or the hold lowered, the way back is a lengthened arc or a raised hold."""
        most = 0 if self.is_of_source() else self.size()
        longer = self if self.is_longer() else self.exchanged()
        return self.same_nodes_reached() and self.none_moves_by_more(most) and self.none_moves_the_other_way() and longer.others_keep()


def payloads(nodes, table, column):
    """The labels, column 0, or the feeding arcs, column 1, of a table of either form."""
    return [word % 2**28 for word in table[HEADER + column:table_size(nodes):2]]
