"""The procedure, its answer table, the route reader and going on from a table, written from the paper. They share nothing with the Rattle code.

`Run` keeps a heap for each inner region, `PlainRun` looks through all children instead; the cases hold the two to each other. Distances
are found a second way, by `distances`, and every ended table is held to them: there, and in the length of a route, holds are charged as request
2026-08 says it of routes, and in the run as it says it of the procedure. Rules of before can be given: the limits of a sheet and its kinds are
the judge's, the longer form that of a table's length, and the choice among equal keys the run's.

A run counts the workings of each region; the figures by height are added up where the table is made. Tables are made in the longer form of
request 2026-06; the usual form is their front.
"""
from heapq import heapify, heappop, heappush

from paper import TODAY, Lists, judge

NONE = 2**28 - 1
MOST_HEIGHT = 15

# The counts of a table: rounds, leaves, inner regions at each height, updates. A table begins with the status and two words for each count.
COUNTS = 1 + 1 + MOST_HEIGHT + 1
HEADER = 1 + 2 * COUNTS


class Hall:
    """What an accepted sheet says. Region 0 stands in the lists by region, with parent None."""

    def __init__(self, sheet):
        lists = Lists(sheet)
        self.nodes, self.source, self.spans = lists.nodes, lists.sources[0], lists.spans
        self.tails, self.heads, self.lengths = lists.tails, lists.heads, lists.lengths
        self.holds = lists.holds or [0] * self.nodes
        self.taken = self.taken_lengths()
        self.parents = [None] + lists.parents
        self.arc_of = {number: payload % 2048 for number, (kind, payload) in enumerate(lists.regions, 1) if kind == 7}
        self.leaf_of = {arc: number for number, arc in self.arc_of.items()}
        self.outgoing = [[] for _ in range(self.nodes)]
        for arc, tail in enumerate(self.tails):
            self.outgoing[tail].append(arc)
        self.children = [[] for _ in self.parents]
        for number, parent in enumerate(self.parents[1:], 1):
            self.children[parent].append(number)
        self.heights = [0] * len(self.parents)
        for number in reversed(range(len(self.parents))):
            if number not in self.arc_of:
                self.heights[number] = 1 + max((self.heights[child] for child in self.children[number]), default=0)

    def taken_lengths(self):
        """"The procedure takes an arc's length with its tail's hold added (0 for the source)." """
        return [length + (0 if tail == self.source else self.holds[tail]) for tail, length in zip(self.tails, self.lengths)]


class Run:
    """A run of a hall: its start, or the state that a longer table stands for, then a round at a time."""

    def __init__(self, hall, table=None, rules=TODAY):
        self.hall, self.rules = hall, rules
        # A leaf's own key is its one item; an inner region has a key for each child.
        self.own_keys = {leaf: NONE for leaf in hall.arc_of}
        self.keys = [NONE] * len(hall.parents)
        self.heaps = [[] for _ in hall.parents]
        self.workings = [0] * len(hall.parents)
        if table is None:
            self.start()
        else:
            self.go_on(table)

    def start(self):
        hall = self.hall
        self.labels = [NONE] * hall.nodes
        self.feeding = [NONE] * hall.nodes
        self.labels[hall.source] = 0
        self.rounds = self.leaves = self.updates = 0
        self.figures_before = [0] * MOST_HEIGHT
        for arc in hall.outgoing[hall.source]:
            self.update(arc, 0)

    def go_on(self, table):
        """"a keyed leaf's key being its tail's label, an inner region's keys its children's smallest. Counts carry on." """
        hall = self.hall
        self.labels, self.feeding, keyed = columns(hall, table)
        self.rounds, self.leaves, *self.figures_before, self.updates = counts_of(table)
        for arc, tail in enumerate(hall.tails):
            if keyed[arc]:
                self.own_keys[hall.leaf_of[arc]] = self.labels[tail]
        for region in reversed(range(1, len(hall.parents))):
            self.write(region, self.smallest(region))

    def first(self, region):
        """The key of an inner region's first-chosen item, and the item: the lowest key, then as `entry` has it."""
        heap = self.heaps[region]
        while heap and heap[0][0] != self.keys[heap[0][2]]:
            heappop(heap)
        return heap[0][::2] if heap else (NONE, None)

    def entry(self, item):
        """"The choice among equal keys goes to the region of lower height, then to the lower number." """
        return self.keys[item], self.hall.heights[item] if self.rules.ties_by_height else 0, item

    def write(self, item, key):
        """Writes an item's key in its region."""
        self.keys[item] = key
        heap = self.heaps[self.hall.parents[item]]
        if key != NONE:
            heappush(heap, self.entry(item))
        if len(heap) > 64 + 4 * len(self.hall.children[self.hall.parents[item]]):
            heap[:] = [self.entry(child) for child in self.hall.children[self.hall.parents[item]] if self.keys[child] != NONE]
            heapify(heap)

    def smallest(self, region):
        return self.own_keys[region] if region in self.own_keys else self.first(region)[0]

    def update(self, arc, key):
        """Updates an arc: from its leaf upward, while the smallest key falls."""
        region, item = self.hall.leaf_of[arc], None
        while True:
            self.updates += 1
            before = self.smallest(region)
            if item is None:
                self.own_keys[region] = key
            else:
                self.write(item, key)
            if self.smallest(region) >= before or region == 0:
                return
            region, item = self.hall.parents[region], region

    def work_leaf(self, region):
        self.leaves += 1
        hall, arc = self.hall, self.hall.arc_of[region]
        head, reached = hall.heads[arc], self.labels[hall.tails[arc]] + hall.taken[arc]
        if self.labels[head] > reached:
            self.labels[head], self.feeding[head] = reached, arc
            for outgoing in hall.outgoing[head]:
                self.update(outgoing, reached)
        self.own_keys[region] = NONE

    def work(self, region):
        if region in self.own_keys:
            self.work_leaf(region)
            return
        self.workings[region] += 1
        for _ in range(self.hall.spans[self.hall.heights[region] - 1]):
            key, child = self.first(region)
            if key == NONE:
                return
            self.work(child)
            self.write(child, self.smallest(child))

    def ended(self):
        return self.smallest(0) == NONE

    def round(self):
        self.rounds += 1
        self.work(0)

    def inner(self, levels=None):
        """How often inner regions were worked, for heights 1 to 15. Another number for each region can be given in place of its height."""
        figures = list(self.figures_before)
        for region, level in enumerate(levels or self.hall.heights):
            if region not in self.own_keys:
                figures[level - 1] += self.workings[region]
        return figures

    def counts(self):
        return [self.rounds, self.leaves] + self.inner() + [self.updates]

    def table(self):
        """In the longer form."""
        keyed = [self.own_keys[self.hall.leaf_of[arc]] != NONE for arc in range(len(self.hall.tails))]
        return table_of(self.labels, self.feeding, self.ended(), halves_of(self.counts()), keyed)


class PlainRun(Run):
    """The same with no heap: the first-chosen item by a look through all children."""

    def first(self, region):
        children = self.hall.children[region]
        key = min((self.keys[child] for child in children), default=NONE)
        return (NONE, None) if key == NONE else (key, self.chosen([child for child in children if self.keys[child] == key]))

    def chosen(self, children):
        """Of children with equal keys, in order of their numbers: the first of those that are as low as any."""
        if self.rules.ties_by_height:
            least = min(self.hall.heights[child] for child in children)
            children = [child for child in children if self.hall.heights[child] == least]
        return children[0]

    def write(self, item, key):
        self.keys[item] = key


def halves_of(counts):
    """Of each count the high 28 bits and the low 28."""
    return [half for count in counts for half in (count >> 28, count % 2**28)]


def table_of(labels, feeding, status=1, halves=(0,) * 2 * COUNTS, keyed=()):
    """A table's words; in the longer form whether each arc has a key is given."""
    words = [8 << 28 | status] + [11 << 28 | half for half in halves]
    for label, arc in zip(labels, feeding):
        words += [9 << 28 | label, 10 << 28 | arc]
    return words + [12 << 28 | key for key in keyed]


def columns(hall, table):
    """The labels, the feeding arcs and, in the longer form, the payloads of the key words of a table."""
    payloads, size = [word % 2**28 for word in table], table_size(hall.nodes)
    return payloads[HEADER:size:2], payloads[HEADER + 1:size:2], payloads[size:]


def counts_of(table):
    """The counts that a table gives."""
    halves = [word % 2**28 for word in table[1:HEADER]]
    return [high << 28 | low for high, low in zip(halves[::2], halves[1::2])]


def longer_tables(hall, limits=None, run=Run, rules=TODAY):
    """The longer tables after at most so many rounds, for each of the limits listed, None for no limit."""
    made, going, limits = {}, run(hall, rules=rules), limits or [None]
    for limit in sorted(limits, key=lambda limit: (limit is None, limit)):
        while not going.ended() and (limit is None or going.rounds < limit):
            going.round()
        made[limit] = going.table()
    return made


def tables(hall, limits=None):
    """The same in the usual form."""
    return {limit: table[:table_size(hall.nodes)] for limit, table in longer_tables(hall, limits).items()}


def travel_time(hall, arcs):
    """"A route's length is its arcs plus the hold of each node between its ends; the source's own hold is never charged." """
    between = [hall.tails[arc] for arc in arcs[1:]]
    return sum(hall.lengths[arc] for arc in arcs) + sum(hall.holds[node] for node in between if node != hall.source)


def distances(hall):
    """The lengths of shortest routes from the source, NONE where there is none: rounds over all arcs until nothing falls.

    A route to a node is left by an arc at its length, and later by the node's hold, which then stands between the ends.
    """
    found, left = [NONE] * hall.nodes, [NONE] * hall.nodes
    found[hall.source] = left[hall.source] = 0
    falling = True
    while falling:
        falling = False
        for tail, head, length in zip(hall.tails, hall.heads, hall.lengths):
            if left[tail] != NONE and left[tail] + length < found[head]:
                found[head] = left[tail] + length
                left[head] = found[head] + hall.holds[head]
                falling = True
    return found


def printed(sheet, rules=TODAY):
    """The lines that `marks` prints. An ended run is held to `shortest`."""
    number = judge(sheet, rules)
    if number:
        return ['refused %d' % number]
    hall = Hall(sheet)
    run = Run(hall, rules=rules)
    while not run.ended():
        run.round()
    if not shortest(hall, run.labels, run.feeding):
        raise SystemExit('not shortest: %s' % sheet.hex()[:300])
    figures = ' '.join(str(figure) for figure in run.inner()[:len(hall.spans)])
    lines = ['ended rounds %d leaves %d inner %s updates %d' % (run.rounds, run.leaves, figures, run.updates)]
    for node, values in enumerate(zip(run.labels, run.feeding)):
        lines.append(' '.join([str(node)] + ['-' if value == NONE else str(value) for value in values]))
    return lines


def table_size(nodes):
    return HEADER + 2 * nodes


def longer_size(hall):
    """"after the usual words, one per arc" """
    return table_size(hall.nodes) + len(hall.tails)


def wrong_length(hall, length, rules):
    """Refusal 21: neither form, and before request 2026-06 not the usual one."""
    return length != table_size(hall.nodes) and (length != longer_size(hall) or not rules.longer_form)


def table_refusal(sheet, length, rules=TODAY):
    """The refusal of a run, as ('input', number) or ('state', 21), or None."""
    number = judge(sheet, rules)
    if number:
        return 'input', number
    return ('state', 21) if wrong_length(Hall(sheet), length, rules) else None


# The route reader.

def chain_to(hall, feeding, node):
    """The feeding arcs followed back from a node, taken from the source on; None where they do not lead there."""
    arcs = []
    while node != hall.source:
        if feeding[node] == NONE or len(arcs) == hall.nodes:
            return None
        arcs.append(feeding[node])
        node = hall.tails[feeding[node]]
    return arcs[::-1]


def leads(hall, arcs, node):
    """Whether the arcs are a route from the source to the node."""
    at = hall.source
    for arc in arcs:
        if hall.tails[arc] != at:
            return False
        at = hall.heads[arc]
    return at == node


def shortest(hall, labels, feeding):
    """Whether the labels are the distances, and the feeding arcs form routes of those lengths."""
    if labels != distances(hall):
        return False
    for node in range(hall.nodes):
        if node == hall.source or labels[node] == NONE:
            if feeding[node] != NONE:
                return False
            continue
        arcs = chain_to(hall, feeding, node)
        if arcs is None or not leads(hall, arcs, node) or travel_time(hall, arcs) != labels[node]:
            return False
    return True


def wrong_word(hall, table):
    """Refusal 22, of a table in either form."""
    _, feeding, keyed = columns(hall, table)
    kinds = [8] + [11] * 2 * COUNTS + [9, 10] * hall.nodes + [12] * len(keyed)
    return (
        [word >> 28 for word in table] != kinds or table[0] % 2**28 > 1 or any(len(hall.tails) <= arc < NONE for arc in feeding)
        or any(key > 1 for key in keyed)
    )


def table_faults(hall, table):
    """Each of 22 to 24 with its test, for a table of the right length."""
    labels, feeding, _ = columns(hall, table)
    return {
        22: lambda: wrong_word(hall, table),
        23: lambda: table[0] % 2**28 == 0,
        24: lambda: not shortest(hall, labels, feeding),
    }


def route(sheet, table, node, room, rules=TODAY):
    """('route', arcs), ('no route',), ('input', number) or ('state', number)."""
    number = judge(sheet, rules)
    if number:
        return 'input', number
    hall = Hall(sheet)
    if node >= hall.nodes:
        return 'input', 15
    if wrong_length(hall, len(table), rules):
        return 'state', 21
    for number, applies in table_faults(hall, table).items():
        if applies():
            return 'state', number
    labels, feeding, _ = columns(hall, table)
    if labels[node] == NONE:
        return 'no route',
    arcs = chain_to(hall, feeding, node)
    return ('route', arcs) if len(arcs) <= room else ('state', 25)


# Going on. "A table is held to be a possible state if", clause by clause. The length of an arc is that which the procedure takes: request 2026-08 "adds the
# same to an arc's length too".

class State:
    """What a longer table says of a hall."""

    def __init__(self, hall, table):
        self.hall, self.ended, self.counts = hall, table[0] % 2**28 == 1, counts_of(table)
        self.labels, self.feeding, self.keyed = columns(hall, table)
        self.reached = [label != NONE for label in self.labels]
        self.others = [node for node in range(hall.nodes) if self.reached[node] and node != hall.source]
        self.most = 262_143 * (sum(self.reached) - 1)
        self.arcs = list(zip(hall.tails, hall.heads, hall.taken, self.keyed))


def fed_along_a_chain(s, node):
    """The feeding arcs, followed back, are a route from the source, over reached nodes."""
    arcs = chain_to(s.hall, s.feeding, node)
    return arcs is not None and leads(s.hall, arcs, node) and all(s.reached[s.hall.tails[arc]] for arc in arcs)


def below_its_feeder(s, node):
    """Unreached is above every number."""
    arc = s.feeding[node]
    if arc == NONE:
        return False
    tail = s.hall.tails[arc]
    return not s.reached[tail] or s.labels[node] < s.labels[tail] + s.hall.taken[arc]


CLAUSES = {
    'the source is at 0, unfed': lambda s: s.labels[s.hall.source] == 0 and s.feeding[s.hall.source] == NONE,
    'other reached nodes are fed along chains from the source': lambda s: all(fed_along_a_chain(s, node) for node in s.others),
    "none below its feeder's label plus length": lambda s: not any(below_its_feeder(s, node) for node in s.others),
    'unreached nodes are unfed': lambda s: all(reached or arc == NONE for reached, arc in zip(s.reached, s.feeding)),
    'the arcs leaving them keyless': lambda s: all(s.reached[tail] or not key for tail, _, _, key in s.arcs),
    "a keyless arc from a reached node has its head's label at most its tail's plus its length": lambda s: all(
        s.reached[head] and s.labels[head] <= s.labels[tail] + length for tail, head, length, key in s.arcs if s.reached[tail] and not key),
    "no reached node's label exceeds 262,143 × (reached nodes less one)": lambda s: all(
        label <= s.most for label, reached in zip(s.labels, s.reached) if reached),
    'each count is below 2 to the power 55': lambda s: all(count < 2**55 for count in s.counts),
    '0 at unused heights': lambda s: not any(s.counts[2 + len(s.hall.spans):-1]),
    'status is ended exactly when nothing has a key': lambda s: s.ended == (not any(s.keyed)),
}


def broken_clauses(hall, table):
    """The clauses that don't hold of a longer table in which no word is wrong: none of a possible state."""
    state = State(hall, table)
    return [clause for clause, holds in CLAUSES.items() if not holds(state)]


def resume(sheet, table, rounds, run=Run, rules=TODAY, kind_of_hall=Hall):
    """('ended', table), ('paused', table), ('input', number) or ('state', number)."""
    number = judge(sheet, rules)
    if number:
        return 'input', number
    hall = kind_of_hall(sheet)
    if len(table) != longer_size(hall) or wrong_word(hall, table):
        return 'state', 32
    if broken_clauses(hall, table):
        return 'state', 33
    going = run(hall, table, rules)
    last = going.rounds + rounds
    while not going.ended() and going.rounds < last:
        going.round()
    return ('ended' if going.ended() else 'paused'), going.table()
