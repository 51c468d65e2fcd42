"""Tables and listings as they were before change request 2026-02: one inner count, a table of 9 + 2n words.

The vectors of the base paper and of 2026-01 are in that form. What is expected today has to be as they state once its fifteen figures are
added up into one. The cases go to the program in today's form: a table is lent with 28 words more. So a length that was wrong is wrong by
as much, unless it is that of the longer form of request 2026-06, which tests/cases.py has rules for. The words of a table that is read stay
in their order, the new ones stand after the inner count, which becomes that of height 1, and say 0: a wrong kind is at the same count or
node as it was.
"""
import re

from cases import with_words, words_in
from procedure import MOST_HEIGHT, counts_of

# Where the words of the inner counts begin, and how many more there are.
INNER_AT = 5
MORE = 2 * (MOST_HEIGHT - 1)


def table_since(words):
    """The table of today for one of before."""
    return words[:INNER_AT + 2] + [11 << 28] * MORE + words[INNER_AT + 2:]


def table_before(words):
    """The table of before for one of today, which a run has made."""
    _, _, *figures, _ = counts_of(words)
    inner = sum(figures)
    return words[:INNER_AT] + [11 << 28 | inner >> 28, 11 << 28 | inner % 2**28] + words[INNER_AT + 2 * MOST_HEIGHT:]


def answer_before(answer):
    """The answer of a run with its table of before."""
    name, _, digits = answer.partition(': ')
    return with_words(name, table_before(words_in(digits))) if digits else answer


def listing_before(text):
    """A listing with the figures after `inner` added up."""
    return re.sub(r'inner ([\d ]+) updates', lambda found: 'inner %d updates' % sum(map(int, found[1].split())), text)
