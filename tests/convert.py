"""The converter of self-arcs, and what holds of a converted sheet. Written from change request 2026-09:

"A converter takes a sheet at fault in nothing else, drops those arcs and their leaves, drops inner regions other than 0 left childless until none
is, renumbers what is left in its old order, and drops spans above the new height. The converted sheet's distances are those the old sheet had. Its
byte length is returned; the rest of the output buffer stays; a short one is 31."

`Converter` makes the sheet. What holds of it is read off the words of both sheets by `is_converted`, which does not use `Converter`. All of it
shares nothing with the Rattle code.
"""
from paper import TODAY, Lists, judge

LEAF = 7

# "a sheet at fault in nothing else"
SELF_ARCS_LEFT_OUT = TODAY._replace(self_arcs=True)


# The converter, step by step. tests/wrong_converters.py has others for each step.

class Converter:
    rules = SELF_ARCS_LEFT_OUT

    def answer(self, sheet, room):
        """('written', the bytes at the front of a buffer with so much room) or ('input', number)."""
        number = self.refusal(sheet)
        if number:
            return 'input', number
        made = self.converted(sheet)
        return ('written', made) if len(made) <= room else ('input', 31)

    def refusal(self, sheet):
        return judge(sheet, self.rules)

    def converted(self, sheet):
        lists = Lists(sheet)
        arcs = self.arcs_left(lists)
        regions = self.regions_left(lists, arcs)
        words = [1 << 28 | lists.nodes, 2 << 28 | lists.sources[0]]
        words += [3 << 28 | span for span in self.spans_left(lists, regions)] + [13 << 28 | hold for hold in self.holds_left(lists)]
        words += [word for arc in arcs for word in (4 << 28 | lists.ends[arc], 5 << 28 | lists.lengths[arc])]
        words += self.region_words(lists, regions, self.numbers_of_arcs(arcs), self.numbers_of_regions(regions))
        return b''.join(word.to_bytes(4, 'big') for word in words)

    def arcs_left(self, lists):
        return [arc for arc, (tail, head) in enumerate(zip(lists.tails, lists.heads)) if tail != head]

    def regions_left(self, lists, arcs):
        """The numbers of the regions other than 0 that are left, in order."""
        left, staying = set(), set(arcs)
        for number, (kind, payload) in enumerate(lists.regions, 1):
            if kind != LEAF or payload % 2048 in staying:
                left.add(number)
        childless = self.childless(lists, left)
        while childless:
            left -= childless
            childless = self.childless(lists, left)
        return sorted(left)

    def childless(self, lists, left):
        """The inner regions among these that hold none of them."""
        parents = {lists.parents[number - 1] for number in left}
        return {number for number in left - lists.leaves if number not in parents}

    def height_of(self, lists, regions):
        """The height of region 0 over these regions: one more than that of its highest child."""
        heights = {0: 1}
        for number in reversed(regions):
            parent = lists.parents[number - 1]
            heights[parent] = max(heights.get(parent, 1), heights.get(number, 0) + 1)
        return heights[0]

    def spans_left(self, lists, regions):
        return lists.spans[:self.height_of(lists, regions)]

    def holds_left(self, lists):
        return lists.holds

    def numbers_of_arcs(self, arcs):
        return {arc: number for number, arc in enumerate(arcs)}

    def numbers_of_regions(self, regions):
        return {0: 0, **{region: number for number, region in enumerate(regions, 1)}}

    def region_words(self, lists, regions, new_arc, new_region):
        words = []
        for number in regions:
            (kind, payload), parent = lists.regions[number - 1], new_region[lists.parents[number - 1]]
            words.append(kind << 28 | (parent << 11 | new_arc[payload % 2048] if kind == LEAF else parent))
        return words


def convert(sheet):
    return Converter().converted(sheet)


# What the request says, read off the words of a sheet and of the one made of it.

def words_of_kinds(sheet, kinds):
    return [sheet[at:at + 4] for at in range(0, len(sheet), 4) if sheet[at] >> 4 in kinds]


def arcs_in(sheet):
    """The arcs, two words each, and by each whether it is a self-arc."""
    words = words_of_kinds(sheet, (4, 5))
    arcs = [*zip(words[::2], words[1::2])]
    ends = [int.from_bytes(word, 'big') for word, _ in arcs]
    return arcs, [end >> 10 & 1023 == end & 1023 for end in ends]


def contents(sheet, arc_of):
    """What each region other than 0 holds, in order, without numbers: a leaf what `arc_of` says of its arc, an inner region the set of its children's.

    A leaf whose arc is None is left out, and so is a region that holds nothing.
    """
    lists = Lists(sheet)
    held = [set() for _ in range(len(lists.regions) + 1)]
    found = []
    for number in range(len(lists.regions), 0, -1):
        kind, payload = lists.regions[number - 1]
        content = arc_of(payload % 2048) if kind == LEAF else frozenset(held[number]) or None
        if content is not None:
            held[lists.parents[number - 1]].add(content)
            found.append((kind, content))
    return found[::-1], frozenset(held[0])


def is_converted(sheet, made):
    """Whether a sheet made of one that is at fault in nothing but self-arcs is accepted, draws the others in their order, and has their regions."""
    (arcs, own), (new_arcs, new_own) = arcs_in(sheet), arcs_in(made)
    spans, new_spans = (words_of_kinds(some, (3,)) for some in (sheet, made))
    new_numbers = [None if is_own else own[:arc].count(False) for arc, is_own in enumerate(own)]
    return (
        judge(made) == 0 and not any(new_own)
        and words_of_kinds(sheet, (1, 2, 13)) == words_of_kinds(made, (1, 2, 13))
        and spans[:len(new_spans)] == new_spans
        and [arc for arc, is_own in zip(arcs, own) if not is_own] == new_arcs
        and contents(sheet, new_numbers.__getitem__) == contents(made, lambda arc: arc)
        and len(made) <= len(sheet) - 12 * sum(own)
        and (any(own) or made == sheet)
    )
