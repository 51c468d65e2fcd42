"""How much work a run has done, as change request 2026-03 says it, over the words of a sheet and of a table. Written from its sentence alone:

"In every table that a run leaves as ended: where all spans are 1, the leaves worked and the rounds both equal the number of arcs whose tail
is reached; where every leaf hangs directly on region 0, the leaves worked equal that number for any span, and the rounds are that number
divided by the span, rounded up."
"""
from paper import Lists
from procedure import HEADER, NONE, counts_of, table_size

# Which half of the sentence applies, by whether all spans are 1 and whether every leaf hangs directly on region 0.
HALVES = {(False, False): 'none', (True, False): 'spans', (False, True): 'flat', (True, True): 'both'}


class Work:
    """What the sentence speaks of, read off any table that a run leaves. It is said of ended ones alone."""

    def __init__(self, sheet, table):
        lists = Lists(sheet)
        labels = [word % 2**28 for word in table[HEADER:table_size(lists.nodes):2]]
        self.ended = table[0] % 2**28 == 1
        self.rounds, self.leaves = counts_of(table)[:2]
        self.spans = lists.spans
        self.held = any(lists.holds)
        self.arcs = len(lists.tails)
        self.reached = sum(labels[tail] != NONE for tail in lists.tails)
        self.all_spans_1 = all(span == 1 for span in lists.spans)
        self.all_on_region_0 = all(payload >> 11 == 0 for payload in lists.leaf_payloads)

    def half(self):
        return HALVES[self.all_spans_1, self.all_on_region_0]

    def both_equal(self):
        return self.leaves == self.reached and self.rounds == self.reached

    def divided_by_the_span(self):
        """A sheet that is accepted has one span where every leaf hangs directly on region 0."""
        span, = self.spans
        return self.leaves == self.reached and self.rounds == rounded_up(self.reached, span)

    def no_fewer(self):
        """Not said by the request, and proved of every ended table."""
        return self.leaves >= self.reached

    def holds(self):
        """Whether what the halves that apply say is so."""
        return (not self.all_spans_1 or self.both_equal()) and (not self.all_on_region_0 or self.divided_by_the_span())


def rounded_up(number, divisor):
    return number // divisor + (number % divisor > 0)
