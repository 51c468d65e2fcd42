"""What the cases share: reading the vectors, holding answers to what is stated, and the lines of a call, as crates/cases/src/main.rt reads and prints them."""
import re
import sys
from collections import Counter
from pathlib import Path

from paper import BASE, BEFORE_2026_06, BEFORE_2026_07, BEFORE_2026_08, BEFORE_2026_09, REFUSALS, TODAY, Lists, draws_self_arc
from procedure import Hall

ROOT = Path(__file__).resolve().parent.parent

# What the cases of one call may take in a file, so that a family that grows unseen is noticed.
MOST_BYTES = 8_500_000

# The vectors of the base paper were made when a node had at most two arcs each way, and those before 2026-06 when there was no longer table.
# The refusals that alone may have moved since. What a run leaves may have moved too, where the choice among equal keys has, 1 and 2 may have, of a sheet with
# holds or one that was too long, and what was said of a sheet that draws a self-arc (`may_move`).
REFUSED_THEN = {
    BASE: ('refused input 10', 'refused 10', 'refused state 21'), BEFORE_2026_06: ('refused state 21',), BEFORE_2026_07: (), BEFORE_2026_08: (),
    BEFORE_2026_09: (),
}
REFUSED_UNREAD = ('refused input 1', 'refused 1', 'refused input 2', 'refused 2')
REFUSED_BEFORE_35 = {form % number for number in [*REFUSALS][:[*REFUSALS].index(35)] for form in ('refused input %d', 'refused %d')}
REFUSED_35 = ('refused input 35', 'refused 35')

# The change requests. Each has its vectors in a file of its own.
REQUESTS = ['2026-01', '2026-02', '2026-03', '2026-04', '2026-05', '2026-06', '2026-07', '2026-08', '2026-09', '2026-10']

# The answers, numbered from 0 as the program numbers them.
ANSWERS = ['refused input', 'refused state', 'accepted', 'ended', 'paused', 'no route', 'route', 'written']


def data(name):
    """The lines of a file of vectors."""
    return [line for line in (ROOT / 'tests' / name).read_text().splitlines() if not line.startswith('#')]


def change_fields(request, call):
    """The fields of the vectors of a change request for a call, the call itself left out."""
    for line in data(request + '_vectors.txt'):
        name, *fields = line.split()
        if name == call:
            yield fields


def rules_of(request):
    """The rules by which the vectors of a request hold."""
    since = {'2026-06': BEFORE_2026_06, '2026-07': BEFORE_2026_07, '2026-08': BEFORE_2026_08, '2026-09': BEFORE_2026_09}
    return next((rules for changed, rules in since.items() if request < changed), TODAY)


def retired_fields(call):
    """The vectors of a call that are from before 2026-09 and draw self-arcs: each with its request, its sheet and its other fields."""
    for request in REQUESTS:
        for digits, *fields in change_fields(request, call) if rules_of(request).self_arcs else ():
            if draws_self_arc(Lists(bytes_in(digits))):
                yield request, bytes_in(digits), fields


def vectors_of(request, stated_by, *form):
    """The family of the vectors of a request. `stated_by` gives its cases; where tables had another form, it is also told what leads to today's."""
    def family():
        return stated_by(request, *form)
    family.__name__ = 'vectors of ' + request
    family.rules = rules_of(request)
    return family


def vectors_since(first, stated_by):
    """The families of the vectors of a request and of all after it."""
    return [vectors_of(request, stated_by) for request in REQUESTS if request >= first]


def bytes_in(digits):
    return bytes.fromhex('' if digits == '-' else digits)


def words_in(digits):
    held = bytes_in(digits)
    return [int.from_bytes(held[at:at + 4], 'big') for at in range(0, len(held), 4)]


def digits_of_words(words):
    return ''.join('%08x' % word for word in words)


def case_of(call, sheet, number=0, words=0, table=()):
    """The line of a case: the call, the node or the most rounds, how many words or bytes are lent, the sheet's size and the sheet, a table's words."""
    fields = [digits_of_words([field]) for field in (call, number, words, len(sheet))] + [sheet.hex(), digits_of_words(table)]
    return ' '.join(filter(None, fields))


# An answer is said as 'accepted', as 'refused state 21', or as 'route 2: 0000000300000001' with the words or bytes that it leaves.

def with_words(answer, words):
    return answer + ': ' + digits_of_words(words) if words else answer


def with_bytes(answer, held):
    return answer + ': ' + held.hex() if held else answer


def name_in(answer):
    """An answer as the vectors spell it."""
    if answer.startswith(('input:', 'state:')):
        return 'refused ' + answer.replace(':', ' ')
    return answer.replace(':', ' ').replace('-', ' ')


def stated_in(answer, words):
    """The same with the words of the table or the route that they list."""
    return with_words(name_in(answer), words)


def line_of(answer):
    """The line printed for an answer."""
    name, number, words = re.fullmatch(r'(.*?)(?: (\d+))?(?:: (\w+))?', answer).groups()
    word = digits_of_words([ANSWERS.index(name) << 16 | int(number or 0)])
    return ' '.join(filter(None, (word, words)))


def hold(family, case, answer, stated):
    """Stops where an answer is not as stated: the whole of it, or all but the words."""
    if stated is not None and answer != stated and not answer.startswith(stated + ':'):
        sys.exit('%s: expected is %s, stated is %s: %s' % (family.__name__, answer[:99], stated[:99], case[:300]))


def same(answer):
    return answer


def held(family, answered, before=same):
    """The cases of a family with their answers, which are as stated, in the form of before where that is given."""
    for case, answer, stated in answered(family):
        hold(family, case, before(answer), stated)
        yield case, answer


def counted(kinds):
    return ', '.join('%s: %d' % pair for pair in sorted(kinds.items()))


def is_of_rounds(answer):
    """Whether an answer tells of a state after rounds: that of a run, of going on or of the listing."""
    return answer.startswith(('ended', 'paused'))


def height_may_decide(sheet):
    """Whether under some region a child is higher than one with a higher number. Where none is, to choose by height and then number is to choose by number."""
    hall = Hall(sheet)
    heights = [[hall.heights[child] for child in children] for children in hall.children]
    return any(under != sorted(under) for under in heights)


def is_let_in(sheet):
    """Whether a sheet has words of kind 13, or is longer than one could be before request 2026-08 and not longer than one may be."""
    return bool(Lists(sheet).holds) or BEFORE_2026_08.most_bytes < len(sheet) <= TODAY.most_bytes


def sheet_in(case):
    """The sheet of a case's line."""
    fields = case.split()
    return bytes_in(fields[4]) if int(fields[3], 16) else b''


def may_move(rules, case, then, answer):
    """Whether the answer to a case may be another today.

    It was a refusal for which rules have changed, a refusal of a sheet that is read further today, what was said of a sheet that passed 1 to 10 and draws a
    self-arc, or a state after rounds where the tie rule may decide.
    """
    if then in REFUSED_THEN[rules] or then in REFUSED_UNREAD and not rules.holds and is_let_in(sheet_in(case)):
        return True
    if answer.split(':')[0] in REFUSED_35:
        return rules.self_arcs and then.split(':')[0] not in REFUSED_BEFORE_35 and draws_self_arc(Lists(sheet_in(case)))
    return not rules.ties_by_height and is_of_rounds(then) and is_of_rounds(answer) and height_may_decide(sheet_in(case))


def held_by_rules(family, answered, rules, before, kind):
    """The cases of vectors with the answers of today. By the rules of their time they are as stated; only the answers that may move do."""
    moved = Counter()
    for (case, then, stated), (_, answer, _) in zip(answered(family, rules), answered(family), strict=True):
        hold(family, case, before(then), stated)
        if answer != then:
            if not may_move(rules, case, then, answer):
                hold(family, case, answer, then)
            moved['from %s to %s' % (kind(then), kind(answer)) if kind(then) != kind(answer) else kind(then) + ' otherwise'] += 1
        yield case, answer
    if moved:
        print('%s: %d moved, %s' % (family.__name__, sum(moved.values()), counted(moved)))


def held_vectors(family, answered, rules, before, kind):
    return held(family, answered, before) if rules == TODAY else held_by_rules(family, answered, rules, before, kind)


def stored_by(case, answer):
    """What tells a vector from others: its line; of one that is 35 its call and its sheet, since it says nothing of what else is lent."""
    fields = case.split()
    return (fields[0], fields[4]) if answer.split(':')[0] in REFUSED_35 else case


def lines_of(vectors, families, answered, kind=lambda answer: answer.split(':')[0], line_of=line_of, before=same):
    """The lines of all vectors and, each once, of the cases of all families, where they are not too many; prints how many there are. Of the vectors that are
    35 each sheet has one line.

    The vectors are three lists: of the base paper, of 2026-01 and of the requests since. For a family and the rules of its time, `answered`
    gives the cases, each with the answer expected and the one stated, or None; `before` gives an answer in the form before 2026-02.
    """
    lines, seen, kinds = [], set(), Counter()
    base, first, since = vectors
    found = [(family, held_by_rules(family, answered, BASE, before, kind)) for family in base]
    found += [(family, held_vectors(family, answered, family.rules, before, kind)) for family in first]
    found += [(family, held_vectors(family, answered, family.rules, same, kind)) for family in since]
    found += [(family, held(family, answered)) for family in families]
    for family, cases in found:
        start = len(lines)
        for case, answer in cases:
            key = case if family in families else stored_by(case, answer)
            if key not in seen or family not in families and key == case:
                lines.append((case, line_of(answer)))
                kinds[kind(answer)] += 1
            seen.update((case, key))
        print('%s: %d cases' % (family.__name__, len(lines) - start))
    sizes = [sum(len(pair[at]) + 1 for pair in lines) for at in range(2)]
    if max(sizes) > MOST_BYTES:
        sys.exit('%d and %d bytes' % tuple(sizes))
    print('%d cases, %d and %d bytes' % (len(lines), *sizes))
    print(counted(kinds))
    return lines
