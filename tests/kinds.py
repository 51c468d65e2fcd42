"""Holds docs/KINDS.md, the page for the class, to the program, to the definition and to the paper's order of kinds.

The cases of the program (crates/judge_form/src/order.rt), of the definition (crates/judgement/specs/Kinds.antt) and of the page have to be
the same and in the same order, each beside its words of the description, and to name a kind exactly where the order of tests/paper.py lets
it follow. Each sheet on the page has to be read as the page says, those that pass the cases and have another number of holds too, and the
orders of which it says that no sheet is accepted have to be those that no accepted sheet has, among the samples and random ones. Run it by
`python3 tests/kinds.py`: it prints what is wrong and exits with 1, or how many cases and sheets it has found.
"""
import re
import sys
from itertools import product
from pathlib import Path

from paper import Lists, judge
from sheets import HALL_A, Chance, held, packed, random_words

ROOT = Path(__file__).resolve().parent.parent
CODE = (ROOT / 'crates/judge_form/src/order.rt').read_text()
DEFINITION = (ROOT / 'crates/judgement/specs/Kinds.antt').read_text()
PAGE = (ROOT / 'docs/KINDS.md').read_text()

# The sheet's description, the paper's own words, by kind: one line, or two kinds in one line. Of kind 13 the words of request 2026-08.
NODES, SOURCE = 'kind 1, once: the node count n, 1 to 1,024', 'kind 2, once: the source node'
SPANS = 'kind 3, up to 15 times: the span, 1 to 1,000,000, for heights 1, 2, 3 and so on'
HOLDS = 'A sheet may carry n words of kind 13 after the spans, or none: the hold in hundredths at nodes 0, 1, 2 and so on.'
ARCS = (
    'kinds 4 and 5 in pairs, up to 2,048 pairs, one arc each.',
    'Kind 4: bits 19 to 10 the tail node, bits 9 to 0 the head, bits 27 to 20 zero.', 'Kind 5: the length in hundredths of a second, 0 to 262,143',
)
REGIONS = (
    'kinds 6 and 7 in any mixture, up to 4,094.',
    'Kind 6: an inner region, payload its parent.', 'Kind 7: a leaf, bits 22 to 11 its parent, bits 10 to 0 its arc, bits 27 to 23 zero.',
)


def by_kind(both, first, second):
    """The words of each of two kinds, with dots for those of the other."""
    return [' '.join((both, first, '..')), ' '.join((both, '..', second))]


DESCRIPTION = [NODES, SOURCE, SPANS, HOLDS, *by_kind(*ARCS), *by_kind(*REGIONS)]
KINDS = [1, 2, 3, 13, 4, 5, 6, 7]


def kinds_in(test):
    """The kinds that a test names, each by an equation."""
    return [int(kind) for kind in re.findall(r'(?:kind ==|eqb k) (\d+)', test)]


def listed(kinds):
    return ', '.join(map(str, kinds))


def rows(heading):
    """The cells of the rows of the table whose first cell of the head is given."""
    table = re.search(r'^\| %s \|.*\n\|[-:|]+\|\n((?:\|.*\n)+)' % re.escape(heading), PAGE, flags=re.M)
    return [[cell.strip() for cell in re.split(r'(?<!\\)\|', line)[1:-1]] for line in table[1].splitlines()]


# The cases: a kind, the description's words, the kinds that may follow.

def cases_in_code():
    return [(int(kind), words, kinds_in(test)) for words, kind, test in re.findall(r'// (.*)\n +(\d+) => (.*),\n', CODE)]


def cases_in_definition():
    """A request's sentence has the request's name behind it."""
    found = re.findall(r'-- "(.*)"(?: \(2026-\d\d\))?\n +if eqb before (\d+) then (.*) else\n', DEFINITION)
    return [(int(kind), words, kinds_in(test)) for words, kind, test in found]


def cases_on_page():
    return [(int(case.strip('`').split()[0]), words, kinds_in(case)) for words, _, case in rows("the sheet's description")]


def arms_on_page():
    """The cases of the page as the program spells them, and the list of kinds beside each."""
    return [(case.strip('`').replace('\\|', '|') + ',', kinds) for _, kinds, case in rows("the sheet's description")]


def named_first_and_last():
    """The kinds with which a sheet may begin, and after which it may end, in the program and in the definition."""
    bodies = [re.search(r'fn %s.*?{\n(.*?)\n}' % name, CODE, flags=re.S)[1] for name in ('may_begin', 'may_end')]
    clauses = [re.search(r'^%s k = (.*)$' % name, DEFINITION, flags=re.M)[1] for name in ('may_begin', 'may_end')]
    return [kinds_in(test) for test in bodies], [kinds_in(test) for test in clauses]


def with_nodes(kinds):
    """A sheet of these kinds, all payloads 0 but that of kind 1, the number of holds."""
    return packed([kind << 28 | (kinds.count(13) if kind == 1 else 0) for kind in kinds])


def in_order(most):
    """The strings of up to so many kinds that refusal 2 of tests/paper.py does not refuse, where there are as many nodes as holds."""
    strings = (kinds for size in range(1, most + 1) for kinds in product(range(16) if size < 4 else KINDS, repeat=size))
    return [kinds for kinds in strings if judge(with_nodes(kinds)) not in (1, 2)]


# Reading a sheet by the cases.

def reading(words, cases, first, last):
    """The rows of a sheet read word by word, up to the first no."""
    before = None
    for place, word in enumerate(words):
        kind = word >> 28
        named = first if before is None else cases.get(before, [])
        yield place, word, kind, before, named, kind in named
        if kind not in named:
            return
        before = kind
    yield None, None, None, before, last, before in last


def row_of(place, word, kind, before, named, _):
    if place is None:
        return ['', 'the end', '', str(before), 'yes: a sheet may end after kind %d' % before]
    if before is None:
        return [str(place), '`%08x`' % word, str(kind), 'the front', 'yes: a sheet begins with kind %s' % listed(named)]
    return [str(place), '`%08x`' % word, str(kind), str(before), 'yes: ' + listed(named)]


def stop_of(place, _, kind, before, named, yes):
    if yes:
        return 'nowhere'
    if place is None:
        return 'the end: a sheet may not end after kind %d' % before
    if before is None:
        return 'word %d: a sheet does not begin with kind %d' % (place, kind)
    return 'word %d: kind %d right after %d, which names %s' % (place, kind, before, listed(named))


def words_in(text):
    """The words of a sheet as the page writes it."""
    added = [int(word, 16) for word in ' '.join(re.findall('`([0-9a-f ]+)`', text)).split()]
    return HALL_A + added if text.startswith('hall A') else added


def shows(before, after, text):
    """Whether a sheet that 2 does not refuse has the one kind right after the other: at the word that is named, or anywhere."""
    words = words_in(text)
    place = re.search(r'word (\d+)', text)
    there = words[max(int(place[1]) - 1, 0):int(place[1]) + 1] if place else words
    return judge(packed(words)) not in (1, 2) and (before, after) in places_in(packed(there))


def wrong_cases(code, first_and_last):
    """Where the cases of the program, of the definition and of the page differ."""
    by_code, by_definition = first_and_last
    if [words for _, words, _ in code] != DESCRIPTION:
        yield 'the words above the cases are not the description'
    if code != cases_in_definition():
        yield 'the cases of the program are not those of the definition'
    if code != cases_on_page():
        yield 'the cases of the program are not those of the page'
    if by_code != by_definition:
        yield 'the first and last kinds of the program are not those of the definition'
    spoken = re.search(r'A sheet begins with kind (\d+) .*? It may end after kinds ([\d, and]+) \(', PAGE, flags=re.S)
    if [[int(kind) for kind in re.findall(r'\d+', text)] for text in spoken.groups()] != by_code:
        yield 'the page says otherwise how a sheet begins and ends'
    for arm, kinds in arms_on_page():
        if arm not in CODE or kinds != listed(kinds_in(arm)):
            yield 'the page spells or lists it otherwise: ' + arm


def wrong_order(cases, first, last, strings):
    """Where the cases differ from the order of kinds in sheets that refusal 2 does not refuse."""
    pairs = {pair for kinds in strings for pair in zip(kinds, kinds[1:])}
    if list(cases) != KINDS:
        yield 'the cases are not those of the kinds of a sheet, in their order'
    if pairs != {(kind, after) for kind, named in cases.items() for after in named}:
        yield 'the cases name other pairs than the order has'
    if [first, last] != [sorted({kinds[end] for kinds in strings}, key=KINDS.index) for end in (0, -1)]:
        yield 'the cases name other first or last kinds than the order has'


def wrong_readings(cases, first, last):
    """Where a sheet of the page is not read as it says."""
    if [row_of(*step) for step in reading(HALL_A, cases, first, last)] != rows('word'):
        yield 'hall A is read otherwise'
    for text, where in rows('sheet'):
        words = words_in(text)
        if judge(packed(words)) != 2:
            yield '%s is not refused with 2' % text
        if stop_of(*list(reading(words, cases, first, last))[-1]) != where:
            yield '%s: the reading stops elsewhere' % text


def wrong_numbers_of_holds(cases, first, last):
    """Where a sheet of the page does not pass the cases, or is not refused for the number of its holds, or has other numbers than it says."""
    for text, nodes, holds in rows('in order, with another number of holds'):
        words = words_in(text)
        lists = Lists(packed(words))
        if judge(packed(words)) != 2 or stop_of(*list(reading(words, cases, first, last))[-1]) != 'nowhere':
            yield '%s is not refused, or not for the number of its holds' % text
        if [nodes, holds] != [str(lists.nodes), str(len(lists.holds))]:
            yield '%s has other numbers' % text


def places_in(sheet):
    """The neighbours in a sheet, its front and its end among them."""
    kinds = ['the front'] + [str(int(kind, 16)) for kind in Lists(sheet).kinds] + ['the end']
    return set(zip(kinds, kinds[1:]))


def samples():
    for path in (ROOT / 'samples').glob('*.hex'):
        yield bytes.fromhex(''.join(re.sub('#.*', '', path.read_text()).split()))


def never_accepted():
    """The neighbours of which the page says that no accepted sheet has them."""
    for text, _ in rows('in order, but no such sheet is accepted'):
        for kinds, before in re.findall(r'([\d, or]+) right after (\d+)', text):
            yield from ((before, after) for after in re.findall(r'\d+', kinds))
        yield from ((before, 'the end') for before in re.findall(r'an end after (\d+)', text))


def wrong_never_accepted(shown):
    """Where an accepted sheet has what the page says that none has, or no accepted sample has another of those that are in order, `shown`."""
    never, chance = set(never_accepted()), Chance(5)
    found = [places_in(sheet) for sheet in samples() if judge(sheet) == 0]
    if set().union(*found) != shown - never:
        yield 'the accepted samples have other neighbours than the page says'
    drawn = [packed(random_words(chance, 8)) for _ in range(2000)]
    for sheet in drawn + [held(chance, sheet) for sheet in drawn]:
        if judge(sheet) == 0 and places_in(sheet) & never:
            yield 'accepted: ' + sheet.hex()


def wrong_witnesses(cases, first, last):
    """Where the page has no sheet for a yes, or one that does not show it."""
    shown = rows('right after')
    for before, after, text in shown:
        if not shows(before, after, text):
            yield '%s does not show %s right after %s' % (text, after, before)
    pairs = [(kind, after) for kind, named in cases.items() for after in named]
    wanted = [('the front', kind) for kind in first] + pairs + [(kind, 'the end') for kind in last]
    if [(before, after) for before, after, _ in shown] != [(str(before), str(after)) for before, after in wanted]:
        yield 'the page shows other pairs than the cases name'


def main():
    code, (by_code, by_definition) = cases_in_code(), named_first_and_last()
    cases, (first, last) = {kind: after for kind, _, after in code}, by_code
    wrong = [
        *wrong_cases(code, (by_code, by_definition)), *wrong_order(cases, first, last, in_order(6)),
        *wrong_readings(cases, first, last), *wrong_numbers_of_holds(cases, first, last), *wrong_witnesses(cases, first, last),
        *wrong_never_accepted({(before, after) for before, after, _ in rows('right after')}),
    ]
    if wrong:
        sys.exit('\n'.join(wrong))
    pairs = sum(map(len, cases.values()))
    print('%d cases that name %d pairs, %d sheets in order, %d out of order and %d with another number of holds: as the page says'
          % (len(code), pairs, len(rows('right after')), len(rows('sheet')), len(rows('in order, with another number of holds'))))


if __name__ == '__main__':
    main()
