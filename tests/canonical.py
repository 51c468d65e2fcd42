"""The canonical form of a sheet, which is the paper's neat copy, and when two sheets have the same one. Written from change request 2026-04:

"Write an accepted sheet anew: nodes, source, spans and arcs as given, regions numbered parent first and depth first from region 0, children
in order of the lowest arc number they hold. Two sheets have the same neat copy exactly when they share nodes, source, spans, arcs and
nesting, chains of single children counted." And from 2026-08: "The neat copy carries the holds." Where sheets share nodes, source and arcs they
"have the same kind 13 words as well".

`form` makes the copy. What holds of it is read off the words of sheets by `alike` and `is_neat`, which do not use `form`. All of it shares
nothing with the Rattle code.
"""
from paper import TODAY, Lists, judge

LEAF = 7


# The copy.

def children_of(lists):
    """The children of each region, region 0 first."""
    children = [[] for _ in range(len(lists.regions) + 1)]
    for number, parent in enumerate(lists.parents, 1):
        children[parent].append(number)
    return children


def form(sheet):
    """The canonical form of an accepted sheet."""
    lists = Lists(sheet)
    children, words = children_of(lists), []

    def lowest(region):
        kind, payload = lists.regions[region - 1]
        return payload % 2048 if kind == LEAF else min(lowest(child) for child in children[region])

    def write(region, parent):
        kind, payload = lists.regions[region - 1]
        words.append(kind << 28 | (parent << 11 | payload % 2048 if kind == LEAF else parent))
        write_children(region, len(words))

    def write_children(region, number):
        for child in sorted(children[region], key=lowest):
            write(child, number)

    write_children(0, 0)
    front = len(sheet) - 4 * len(words)
    return sheet[:front] + b''.join(word.to_bytes(4, 'big') for word in words)


def copied(sheet, room, rules=TODAY):
    """('written', the bytes at the front of a buffer with so much room) or ('input', number)."""
    number = judge(sheet, rules)
    if number:
        return 'input', number
    copy = form(sheet)
    return ('written', copy) if len(copy) <= room else ('input', 31)


# What two sheets share.

def shared(sheet):
    """Nodes, source, spans, holds and arcs: the words of kinds 1 to 5 and 13, in order."""
    return tuple(sheet[at:at + 4] for at in range(0, len(sheet), 4) if sheet[at] >> 4 in (1, 2, 3, 13, 4, 5))


def nesting(sheet):
    """What lies in region 0, without numbers: a leaf is its arc, an inner region the set of its children. A single child is a set in a set of one."""
    lists = Lists(sheet)
    held = [set() for _ in range(len(lists.regions) + 1)]
    for number in range(len(lists.regions), 0, -1):
        kind, payload = lists.regions[number - 1]
        held[lists.parents[number - 1]].add(payload % 2048 if kind == LEAF else frozenset(held[number]))
    return frozenset(held[0])


def without_single_children(nested):
    """A nesting in which a child that is alone stands for its parent: what would be compared if chains were not counted."""
    if isinstance(nested, int):
        return nested
    parts = [without_single_children(part) for part in nested]
    return parts[0] if len(parts) == 1 else frozenset(parts)


def alike(sheet, other):
    """Whether two accepted sheets share nodes, source, spans, holds, arcs and nesting."""
    return shared(sheet) == shared(other) and nesting(sheet) == nesting(other)


# The order of the numbers.

def chain_up(parents, region):
    """A region and those in which it lies, up to region 0."""
    regions = [region]
    while region:
        region = parents[region]
        regions.append(region)
    return regions


def is_neat(sheet):
    """Whether each region's parent is the region before it or one in which that lies, and siblings are in the order of their lowest arcs."""
    lists = Lists(sheet)
    parents = [None] + lists.parents
    if any(parent not in chain_up(parents, number - 1) for number, parent in enumerate(parents[1:], 1)):
        return False
    arcs = [[] for _ in parents]
    for number, (kind, payload) in enumerate(lists.regions, 1):
        for region in chain_up(parents, number) if kind == LEAF else ():
            arcs[region].append(payload % 2048)
    lowest = [[min(arcs[child]) for child in children] for children in children_of(lists)]
    return all(listed == sorted(listed) for listed in lowest)
