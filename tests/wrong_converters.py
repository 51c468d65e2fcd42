"""Wrong converters of self-arcs, which the cases have to tell from that of request 2026-09."""
import sys
from collections import Counter

from canonical import form
from cases import counted
from convert import LEAF, Converter
from paper import REFUSALS, TODAY, Lists
from sheets import packed, words_in

# In how many cases each has to give another answer than the right one.
LEAST = 20


class ChildlessKept(Converter):
    def childless(self, lists, left):
        return set()


class OnePass(Converter):
    """Regions that are childless only once others have gone are kept."""

    def regions_left(self, lists, arcs):
        staying = set(arcs)
        left = {number for number, (kind, payload) in enumerate(lists.regions, 1) if kind != LEAF or payload % 2048 in staying}
        return sorted(left - self.childless(lists, left))


class LeavesParentDropped(Converter):
    """The region of a dropped leaf goes too, whatever else it holds; this comes to the region above."""

    def regions_left(self, lists, arcs):
        staying = set(arcs)
        gone = {lists.parents[at] for at, (kind, payload) in enumerate(lists.regions) if kind == LEAF and payload % 2048 not in staying} - {0}
        return [number for number in super().regions_left(lists, arcs) if number not in gone]

    def numbers_of_regions(self, regions):
        class Above(dict):
            def __missing__(self, region):
                return 0
        return Above(super().numbers_of_regions(regions))


class NoSpanForNothing(Converter):
    """A region 0 without children has the height 0."""

    def spans_left(self, lists, regions):
        return super().spans_left(lists, regions) if regions else []


class SpansKept(Converter):
    def spans_left(self, lists, regions):
        return lists.spans


class LowerSpansDropped(Converter):
    def spans_left(self, lists, regions):
        return lists.spans[-self.height_of(lists, regions):]


class OneSpanDropped(Converter):
    """One span goes where the height has fallen, however far."""

    def spans_left(self, lists, regions):
        return lists.spans[:-1] if self.height_of(lists, regions) < len(lists.spans) else lists.spans


class ArcsBackwards(Converter):
    def arcs_left(self, lists):
        return super().arcs_left(lists)[::-1]


class OldArcNumbers(Converter):
    def numbers_of_arcs(self, arcs):
        return {arc: arc for arc in arcs}


class OldParents(Converter):
    def numbers_of_regions(self, regions):
        return {region: region for region in [0, *regions]}


class LeavesLast(Converter):
    """Inner regions first, then leaves."""

    def region_words(self, lists, regions, new_arc, new_region):
        ordered = sorted(regions, key=lambda number: number in lists.leaves)
        return super().region_words(lists, ordered, new_arc, self.numbers_of_regions(ordered))


class Neat(Converter):
    """The canonical form of the converted sheet."""

    def converted(self, sheet):
        return form(super().converted(sheet))


class NotConverted(Converter):
    def converted(self, sheet):
        return sheet


class SelfArcsRefused(Converter):
    rules = TODAY


class SelfArcsUnjudged(Converter):
    """34 and 10 are looked at without self-arcs."""

    def refusal(self, sheet):
        lists, others = Lists(sheet), Lists(without_self_arcs(sheet))
        return next((number for number, test in REFUSALS.items() if test(others if number in (34, 10) else lists, self.rules)), 0)


def without_self_arcs(sheet):
    """The sheet without the words of kinds 4 and 5 of self-arcs, where kinds are in order."""
    words, dropped = words_in(sheet[:len(sheet) // 4 * 4]), set()
    for at, word in enumerate(words[:-1]):
        if word >> 28 == 4 and (word >> 10) % 1024 == word % 1024:
            dropped |= {at, at + 1}
    return packed([word for at, word in enumerate(words) if at not in dropped])


class ShortBefore14(Converter):
    """31 is looked at before 14."""

    def answer(self, sheet, room):
        return ('input', 31) if self.refusal(sheet) == 14 and len(self.converted(sheet)) > room else super().answer(sheet, room)


class ShortByTheOldLength(Converter):
    """31 for a buffer that is shorter than the sheet."""

    def answer(self, sheet, room):
        answer = super().answer(sheet, room)
        return ('input', 31) if answer[0] == 'written' and room < len(sheet) else answer


class ShortFromState(Converter):
    def answer(self, sheet, room):
        answer = super().answer(sheet, room)
        return ('state', 31) if answer == ('input', 31) else answer


class ExactRoomRefused(Converter):
    def answer(self, sheet, room):
        answer = super().answer(sheet, room)
        return ('input', 31) if answer[0] == 'written' and room == len(answer[1]) else answer


class HoldsDropped(Converter):
    def holds_left(self, lists):
        return []


class HeldAtSelfArcsNoMore(Converter):
    """The hold of a node with a self-arc is 0."""

    def holds_left(self, lists):
        own = {tail for tail, head in zip(lists.tails, lists.heads) if tail == head}
        return [0 if node in own else hold for node, hold in enumerate(lists.holds)]


def keeping(stays):
    """The converter that keeps some self-arcs too: for the lists, an arc and how many self-arcs came before it, whether it stays."""
    class Keeping(Converter):
        def arcs_left(self, lists):
            right = super().arcs_left(lists)
            own = sorted({*range(len(lists.ends))} - {*right})
            return sorted(right + [arc for before, arc in enumerate(own) if stays(lists, arc, before)])
    return Keeping


class ParallelDropped(Converter):
    """Of arcs with the same ends the first alone is kept."""

    def arcs_left(self, lists):
        return [arc for arc in super().arcs_left(lists) if arc == lists.ends.index(lists.ends[arc])]


class UnreachedDropped(Converter):
    """Arcs from unreached nodes go too."""

    def arcs_left(self, lists):
        reached = {lists.sources[0]}
        while True:
            more = {head for tail, head in zip(lists.tails, lists.heads) if tail in reached} - reached
            if not more:
                return [arc for arc in super().arcs_left(lists) if lists.tails[arc] in reached]
            reached |= more


WRONG = {
    'childless regions kept': ChildlessKept,
    'one pass of dropping': OnePass,
    "a dropped leaf's region dropped": LeavesParentDropped,
    'no span for a childless region 0': NoSpanForNothing,
    'spans above the height kept': SpansKept,
    'lower spans dropped': LowerSpansDropped,
    'one span dropped': OneSpanDropped,
    'arcs backwards': ArcsBackwards,
    "a leaf's old arc number": OldArcNumbers,
    "a parent's old number": OldParents,
    'leaves last': LeavesLast,
    'regions depth first': Neat,
    'not converted': NotConverted,
    '35 looked at': SelfArcsRefused,
    '34 and 10 without self-arcs': SelfArcsUnjudged,
    '31 before 14': ShortBefore14,
    '31 by the old length': ShortByTheOldLength,
    '31 from the state': ShortFromState,
    '31 for just enough room': ExactRoomRefused,
    'holds dropped': HoldsDropped,
    'no hold at self-arcs': HeldAtSelfArcsNoMore,
    'the first self-arc alone dropped': keeping(lambda lists, arc, before: before > 0),
    'self-arcs with a length kept': keeping(lambda lists, arc, before: lists.lengths[arc] > 0),
    'self-arcs of the source kept': keeping(lambda lists, arc, before: lists.tails[arc] == lists.sources[0]),
    'self-arcs of other nodes kept': keeping(lambda lists, arc, before: lists.tails[arc] != lists.sources[0]),
    'parallel arcs dropped': ParallelDropped,
    'arcs of unreached nodes dropped': UnreachedDropped,
}


def hold_converters_apart(cases):
    """Stops where a wrong converter gives another answer than the right one in too few cases, pairs of a sheet and the bytes lent."""
    right = {case: Converter().answer(*case) for case in cases}
    found = Counter({name: sum(wrong().answer(*case) != answer for case, answer in right.items()) for name, wrong in WRONG.items()})
    print('%d cases, answered otherwise by a wrong converter: %s' % (len(right), counted(found)))
    few = [name for name in WRONG if found[name] < LEAST]
    if few:
        sys.exit('told apart too rarely: %s' % few)
