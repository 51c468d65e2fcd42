"""Checks the samples: what `./mark` prints for each samples/NAME.hex is samples/NAME.txt, and that is what the procedure of tests/procedure.py gives.

The sheets that are said to have one neat copy have it, by tests/canonical.py. The practical, rounds with one set of spans and then with
another, is as samples/practical.txt has it. What the sample of request 2026-07 prints, and what it printed before, is as its comment says; all
others print the same by the tie rule of before. Of what the sample of request 2026-08 prints, with its holds and without, its comment has some
lines. The sample with self-arcs is converted into the one that is said to be made of it, by tests/convert.py; what `./convert` prints of each sample
is what that makes. The samples of request 2026-10 differ in one word each from the sample that they change, their comments have the lines that differ, and
what both print is as tests/slowed.py says. It also tries `./mark` and `./convert` on files that hold something else than words. Run it by
`python3 tests/samples.py`; with `--write` it writes the .txt files from tests/procedure.py, which shares nothing with the Rattle code.
"""
import re
import subprocess
import sys
import tempfile
from itertools import groupby
from pathlib import Path

from canonical import form
from convert import Converter, convert
from paper import TODAY, Lists
from procedure import NONE, Hall, columns, counts_of, distances, longer_tables, printed, resume, table_of
from sheets import with_holds, words_in
from slowed import Change, Pair

ROOT = Path(__file__).resolve().parent.parent

# Sheets with one neat copy. The last one is that copy; the first two print different texts.
ONE_COPY = ('hall-a', 'renumbered', 'neat')


# The practical: so many rounds of the first sheet, then the rest of the second, which has other spans and nothing else.
PRACTICAL = ('practical-first', 'practical-then')
ROUNDS = 3

# The sample that prints otherwise than by the tie rule of before request 2026-07, and has both texts in its comment. All others, hall A among them, print the
# same by both.
OTHERWISE = 'shallow-first'
TIES_OF_BEFORE = TODAY._replace(ties_by_height=False)

# The sample with self-arcs, and what it is converted into.
CONVERTED = ('recirculating', 'converted')

# The sample with holds that has in its comment some lines of what it prints, and of what it would print without them.
SCANNERS = 'scanners'

# The samples with a longer arc and with a higher hold: which sample each changes, the change, and by how much which distances move.
SLOWED = {
    'slowed': ('hall-a', Change('length', 1, 1, 4), {1: 1, 2: 3, 3: 1}),
    'slow-scanner': ('scanners', Change('hold', 14, 200, 350), {node: 150 for node in (15, 16, 17, 18, 20, 21)}),
}


def sheet_of(text):
    return bytes.fromhex(''.join(re.sub('#.*', '', text).split()))


def sample(name):
    return sheet_of((ROOT / 'samples' / (name + '.hex')).read_text())


def texts_in(name):
    """The texts in the comment of a sample: lines that are set in."""
    lines = (ROOT / 'samples' / (name + '.hex')).read_text().splitlines()
    return [[line[6:] for line in some] for is_text, some in groupby(lines, lambda line: line.startswith('#     ')) if is_text]


def prints_otherwise(name):
    """Whether the comment of a sample has what it prints and what it printed before request 2026-07, which is something else."""
    texts = [printed(sample(name), rules) for rules in (TODAY, TIES_OF_BEFORE)]
    return texts_in(name) == texts and texts[0] != texts[1]


def differs_by_holds(name):
    """Whether the comment of a sample has lines of what it prints and of what is printed without its holds, of the same nodes, some with another arc."""
    with_them, without = texts_in(name)
    sheets = sample(name), with_holds(sample(name), [])
    nodes, arcs = ([[line.split()[at] for line in text] for text in (with_them, without)] for at in (0, 2))
    there = all(set(text) <= set(printed(sheet)) for text, sheet in zip((with_them, without), sheets))
    return there and nodes[0] == nodes[1] and arcs[0] != arcs[1]


def table_in(name):
    """An ended table with the distances and feeding arcs that a sample's text lists. Its counts are 0."""
    lines = (ROOT / 'samples' / (name + '.txt')).read_text().splitlines()[1:]
    labels, feeding = zip(*([NONE if field == '-' else int(field) for field in line.split()[1:]] for line in lines))
    return table_of(labels, feeding)


def is_slowed_as_said(name):
    """Whether a sample differs from the one that it changes in one word, has in its comment the lines of both that differ, and what both print is as request
    2026-10 says. The nodes that move are those on whose ways the change lies."""
    original, change, moves = SLOWED[name]
    one_word = sum(word != other for word, other in zip(words_in(sample(original)), words_in(sample(name)), strict=True)) == 1
    lines = [(line, before) for line, before in zip(printed(sample(name)), printed(sample(original)), strict=True) if line != before]
    pair = Pair(sample(original), table_in(original), sample(name), table_in(name))
    moved = {node: other - label for node, (label, other) in enumerate(zip(pair.labels, pair.others)) if label != other}
    as_said = pair.change == change and pair.holds() and moved == moves and [*moves] == [*filter(pair.is_passed, range(len(pair.labels)))]
    return one_word and as_said and texts_in(name) == [[*text] for text in zip(*lines)]


def have_one_copy():
    """Whether the sheets have the copy that they are said to have, and the first two print different texts."""
    sheets = [sample(name) for name in ONE_COPY]
    return {form(sheet) for sheet in sheets} == {sheets[-1]} and printed(sheets[0]) != printed(sheets[1])


def differ_in_spans_alone(first, then):
    def without_spans(sheet):
        return [sheet[at:at + 4] for at in range(0, len(sheet), 4) if sheet[at] >> 4 != 3]
    return first != then and without_spans(first) == without_spans(then)


def listed(sheet, table):
    """A longer table as `marks` lists one, and then the arcs that have a key."""
    hall = Hall(sheet)
    labels, feeding, keyed = columns(hall, table)
    rounds, leaves, *figures, updates = counts_of(table)
    inner = ' '.join(str(figure) for figure in figures[:len(hall.spans)])
    lines = ['%s rounds %d leaves %d inner %s updates %d' % (('paused', 'ended')[table[0] % 2], rounds, leaves, inner, updates)]
    for node, values in enumerate(zip(labels, feeding)):
        lines.append(' '.join([str(node)] + ['-' if value == NONE else str(value) for value in values]))
    keys = [str(arc) for arc, key in enumerate(keyed) if key]
    return lines + [' '.join(['keys', *(keys or ['-'])])]


def practical():
    """The text of the practical: the table at the break, and at the end."""
    lines = []
    first, then = (sample(name) for name in PRACTICAL)
    table = longer_tables(Hall(first), [ROUNDS])[ROUNDS]
    for sheet, rounds in ((first, 0), (then, 2**32 - 1)):
        _, table = resume(sheet, table, rounds)
        lines += ['spans ' + ' '.join(str(span) for span in Lists(sheet).spans)] + listed(sheet, table)
    return '\n'.join(lines) + '\n'


def tried(script, *paths):
    done = subprocess.run([ROOT / script, *paths], capture_output=True, text=True)
    return done.returncode, done.stdout, done.stderr


def refuses(script, text, line):
    """A file that holds something else than words is refused before the program runs, in one line that names the file's line."""
    with tempfile.NamedTemporaryFile('w', suffix='.hex') as file:
        file.write(text)
        file.flush()
        status, out, err = tried(script, file.name)
    return status == 1 and not out and err.count('\n') == 1 and f'line {line}:' in err


def refuses_usage(script):
    """No file, two files, and one that isn't there."""
    usages = ([], ['a', 'b'], [ROOT / 'samples' / 'no-such-file.hex'])
    return all(status == 2 and not out and err for status, out, err in (tried(script, *paths) for paths in usages))


def conversion(sheet):
    """What `./convert` answers for a sheet: its exit status, standard output and standard error."""
    answer, found = Converter().answer(sheet, len(sheet))
    return (0, ''.join(found[at:at + 4].hex() + '\n' for at in range(0, len(found), 4)), '') if answer == 'written' else (3, '', f'refused {found}\n')


def is_converted_as_said():
    """Whether the sheet with self-arcs is converted into the other, with fewer arcs, regions and spans and the same distances."""
    old, new = (sample(name) for name in CONVERTED)
    fewer = all(len(getattr(Lists(new), name)) < len(getattr(Lists(old), name)) for name in ('ends', 'parents', 'spans'))
    return convert(old) == new and fewer and distances(Hall(old)) == distances(Hall(new))


def main():
    wrong = []
    samples = sorted((ROOT / 'samples').glob('*.hex'))
    for path in samples:
        expected, beside = '\n'.join(printed(sheet_of(path.read_text()))) + '\n', path.with_suffix('.txt')
        if '--write' in sys.argv[1:]:
            beside.write_text(expected)
        if beside.read_text() != expected:
            wrong.append(f'{beside.name} is not what the procedure gives')
        if tried('mark', path) != (0, expected, ''):
            wrong.append(f'./mark {path.name} prints something else')
        if tried('convert', path) != conversion(sample(path.stem)):
            wrong.append(f'./convert {path.name} prints something else')
        if path.stem != OTHERWISE and printed(sample(path.stem)) != printed(sample(path.stem), TIES_OF_BEFORE):
            wrong.append(f'{path.name} prints otherwise by the tie rule of before')
    refused = [('10000001\n\n2000000g\n', 3), ('1000000120000000\n', 1), ('# a comment\n10000001 2000 # another\n', 2), ('10000001\n-\n', 2)]
    for script in ('mark', 'convert'):
        wrong += [f'{text!r} is not refused by ./{script}' for text, line in refused if not refuses(script, text, line)]
        wrong += [] if refuses_usage(script) else [f'./{script}: wrong usage is not refused']
    if not is_converted_as_said():
        wrong.append('%s: not one converted into the other' % ', '.join(CONVERTED))
    if not prints_otherwise(OTHERWISE):
        wrong.append(f'{OTHERWISE}.hex: the comment has not what is printed and what was')
    if not differs_by_holds(SCANNERS):
        wrong.append(f'{SCANNERS}.hex: the comment has not what is printed, with its holds and without')
    wrong += [f'{name}.hex: not as the sample that it changes but for one word, or not as said' for name in SLOWED if not is_slowed_as_said(name)]
    if not have_one_copy():
        wrong.append('%s: not one neat copy' % ', '.join(ONE_COPY))
    beside = ROOT / 'samples' / 'practical.txt'
    if '--write' in sys.argv[1:]:
        beside.write_text(practical())
    if not differ_in_spans_alone(*(sample(name) for name in PRACTICAL)) or beside.read_text() != practical():
        wrong.append('%s: not as practical.txt has it' % ', '.join(PRACTICAL))
    if wrong:
        sys.exit('\n'.join(wrong))
    print(f'{len(samples)} samples and {len(refused)} files that are no sheets: as expected')


main()
