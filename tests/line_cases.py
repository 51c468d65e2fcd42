"""The lines that are no cases, some for each reason, and cases written in other ways or at the edge of what has room."""
from cases import case_of, digits_of_words, line_of, with_words
from procedure import table_size
from sheets import HALL_A, packed

A = packed(HALL_A)
JUDGED, ROUTED, RESUMED = case_of(1, A), case_of(4, A), case_of(7, A, 0, 3)
GOOD = table_size(4)

# The most bytes of a line, the most words of a table and lent, and the most bytes lent, as the program has room for.
ROOM = 16 + 65536
WORDS = 4608
BYTES = 37888


def other_signs():
    for sign in '/:`gAF-\t\r\x7f':
        yield from (JUDGED[:at] + sign + JUDGED[at:] for at in (0, 7, 40, len(JUDGED)))
        yield JUDGED[:10] + sign + JUDGED[11:]
    yield 'x' + JUDGED[1:] + JUDGED


def digits():
    yield from ('', ' ', '0', JUDGED[:-1], JUDGED + '0', ROUTED + '0')
    yield from (digits_of_words([1, 0, 0, 0])[:size] for size in (8, 24, 30, 31))


def sizes():
    """A sheet that is longer or shorter than the line says, and a line that is longer than there is room for."""
    for call in (1, 2, 3, 5, 6, 8):
        head = digits_of_words([call, 0, GOOD if call in (2, 3, 6, 8) else 0])
        for size in (0, len(A) - 4, len(A) - 1, len(A) + 1, len(A) + 4, 2**31, 2**32 - 16, 2**32 - 1):
            yield head + digits_of_words([size]) + A.hex()
    yield from (digits_of_words([call, 0, 9, size]) + A.hex() for call in (4, 7) for size in (len(A) + 1, 2**32 - 1))
    yield from (case_of(1, bytes(ROOM - 16 + more)) for more in (1, 2))


def calls():
    yield from (case_of(call, A, words=GOOD) for call in (0, 9, 10, 257, 264, 2**16 + 1, 2**16 + 8, 2**28, 2**32 - 1))


def tables():
    for case in (ROUTED, RESUMED):
        yield from (case + 'a0' * size for size in (1, 2, 3, 5, 4 * WORDS - 1))
    yield from (case_of(call, A, 0, 9, [0] * (WORDS + 1)) for call in (4, 7))


def words():
    yield from (case_of(call, A, 0, more) for call in (*range(1, 6), 7) for more in (WORDS + 1, 2**31, 2**32 - 1))
    for call in (6, 8):
        yield from (case_of(call, A, 0, more) for more in (BYTES + 1, 2**31, 2**32 - 1))
        yield from (case_of(call, A, 0, BYTES) + more for more in ('00', '00000000', '7000200270002002'))


def readable():
    """Other spaces, the longest lines, tables, lent words and lent bytes that there is room for, and a number where none is read.

    Of a resume the words lent hold the table, as far as they go, and then the filling.
    """
    for case in (JUDGED.replace(' ', ''), ' '.join(JUDGED), '  ' + JUDGED.replace(' ', '  ') + ' '):
        yield case, 'accepted'
    yield case_of(1, bytes(ROOM - 16)), 'refused input 1'
    yield case_of(4, A, 0, 9, [0] * WORDS), 'refused state 21'
    yield case_of(2, A, 0, WORDS), 'refused state 21'
    for table, words in (([5] * WORDS, WORDS), ([5] * 9, 3), ([5] * 9, 0), ([5] * 3, 9), ([], 9)):
        yield case_of(7, A, 0, words, table), with_words('refused state 32', table[:words])
    for call in (6, 8):
        yield case_of(call, bytes(ROOM - 16), 0, BYTES), 'refused input 1'
        yield from ((case_of(call, A, node, 71), 'refused input 31') for node in (1, 2**32 - 1))


def lines():
    """After each line that is no case stands one that is."""
    unreadable = [line for family in (other_signs, digits, sizes, calls, tables, words) for line in family()]
    found = [pair for line in unreadable for pair in ((line, 'unreadable'), (JUDGED, line_of('accepted')))]
    return found + [(case, line_of(answer)) for case, answer in readable()]
