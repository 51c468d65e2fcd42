"""The judge, written from the paper and its requests, list by list: a sheet as lists by kind, and a test for each refusal of a sheet, in the order
in which they are looked at. It shares nothing with the Rattle code. Where kinds are in order, the lists are the sheet's sections.
"""
import re
from collections import namedtuple

# What has changed: since request 2026-01 the most arcs from a node and to a node, since 2026-06 the longer form of a table, since 2026-07 the choice among
# equal keys, which went to the lower region number alone, since 2026-08 the kind of the holds and the most bytes of a sheet, and since 2026-09 that no arc may
# lead from a node to itself.
Rules = namedtuple('Rules', 'most_each_way longer_form ties_by_height holds most_bytes self_arcs')
TODAY = Rules(4, True, True, True, 36_924, False)
BEFORE_2026_09 = TODAY._replace(self_arcs=True)
BEFORE_2026_08 = BEFORE_2026_09._replace(holds=False, most_bytes=32_828)
BEFORE_2026_07 = BEFORE_2026_08._replace(ties_by_height=False)
BEFORE_2026_06 = BEFORE_2026_07._replace(longer_form=False)
BASE = BEFORE_2026_06._replace(most_each_way=2)


class Lists:
    def __init__(self, sheet):
        self.size = len(sheet)
        words = [int.from_bytes(sheet[at:at + 4], 'big') for at in range(0, self.size // 4 * 4, 4)]
        self.kinds = ''.join('%x' % (word >> 28) for word in words)
        named = [(word >> 28, word % 2**28) for word in words]
        self.counts, self.sources, self.spans, self.ends, self.lengths = ([p for k, p in named if k == kind] for kind in range(1, 6))
        self.holds = [p for k, p in named if k == 13]
        self.nodes = self.counts[0] if self.counts else 0
        self.tails = [(p >> 10) % 1024 for p in self.ends]
        self.heads = [p % 1024 for p in self.ends]
        self.regions = [(k, p) for k, p in named if k in (6, 7)]
        self.leaf_payloads = [p for k, p in self.regions if k == 7]
        self.leaf_arcs = [p % 2048 for p in self.leaf_payloads]
        self.leaves = {number for number, (k, _) in enumerate(self.regions, 1) if k == 7}
        self.parents = [p if k == 6 else (p >> 11) % 4096 for k, p in self.regions]

    def charged(self, node):
        """"a tail's hold (0 for the source)", and 0 where there is no such hold"""
        return self.holds[node] if node < len(self.holds) and [node] != self.sources[:1] else 0


def wrong_kinds(s, rules):
    """Refusal 2, of which kind stands where."""
    return not re.fullmatch('123*d*(45)*[67]*' if rules.holds else '123*(45)*[67]*', s.kinds)


def wrong_holds(s):
    """Refusal 2, "A number of hold words other than 0 or the payload of kind 1": that is no matter of which kind follows which."""
    return len(s.holds) not in (0, s.nodes)


def held_too_long(s):
    return any(s.charged(tail) + length > 262143 for tail, length in zip(s.tails, s.lengths))


def more_alike(numbers, most):
    """Whether some number is there more than so many times."""
    ranked = sorted(numbers)
    return any(low == high for low, high in zip(ranked, ranked[most:]))


def crowded(s, rules):
    return more_alike(s.tails, rules.most_each_way) or more_alike(s.heads, rules.most_each_way)


def draws_self_arc(s):
    return any(tail == head for tail, head in zip(s.tails, s.heads))


def wrong_parent(s):
    return any(parent >= number or parent in s.leaves for number, parent in enumerate(s.parents, 1))


def wrong_leaves(s):
    """Each arc has exactly one leaf when the leaves name all arcs, nothing else, and none twice."""
    named = set(s.leaf_arcs)
    return named != set(range(len(s.ends))) or len(named) < len(s.leaf_arcs)


def childless(s):
    inner = set(range(1, len(s.regions) + 1)) - s.leaves
    return not inner <= set(s.parents)


def hall_height(s):
    """Where 11 to 13 do not apply, the deepest region is a leaf, and region 0 is as high as that leaf is deep."""
    depths = [0]
    for number, parent in enumerate(s.parents, 1):
        depths.append(depths[parent] + 1 if parent < number else 0)
    return max(depths[1:], default=1)


# By number, in the order in which they are looked at.
REFUSALS = {
    1: lambda s, rules: s.size % 4 != 0 or s.size > rules.most_bytes,
    2: lambda s, rules: wrong_kinds(s, rules) or wrong_holds(s),
    3: lambda s, _: any(p >= 2**20 for p in s.ends) or any(p >= 2**23 for p in s.leaf_payloads),
    4: lambda s, _: not 1 <= s.nodes <= 1024,
    5: lambda s, _: any(source >= s.nodes for source in s.sources),
    6: lambda s, _: any(not 1 <= span <= 1_000_000 for span in s.spans),
    7: lambda s, _: len(s.spans) > 15 or len(s.ends) > 2048 or len(s.regions) > 4094,
    8: lambda s, _: any(node >= s.nodes for node in s.tails + s.heads),
    9: lambda s, _: any(length > 262143 for length in s.lengths),
    34: lambda s, _: held_too_long(s),
    10: crowded,
    35: lambda s, rules: not rules.self_arcs and draws_self_arc(s),
    11: lambda s, _: wrong_parent(s),
    12: lambda s, _: wrong_leaves(s),
    13: lambda s, _: childless(s),
    14: lambda s, _: len(s.spans) != hall_height(s),
}


def applies(number, sheet):
    return REFUSALS[number](Lists(sheet), TODAY)


def judge(sheet, rules=TODAY):
    """The first number that applies, or 0. Rules of before can be given."""
    lists = Lists(sheet)
    return next((number for number, test in REFUSALS.items() if test(lists, rules)), 0)
