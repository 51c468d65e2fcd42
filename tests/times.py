"""Writes docs/TIMES.md from the log of a gate run: `python3 tests/times.py LOG [DATE [CLOCK]]`.

LOG holds what `rt ci` printed, DATE says when it ran and CLOCK how long it took as a whole, as 8m16s; without CLOCK the line `real` of the shell's `time`
says it, where the log has one. A log of a gate that has not passed is refused.
"""
import re
import sys
from pathlib import Path

ROOT = Path(__file__).resolve().parent.parent
PROVED = re.compile(r'^rt: (\w+) proved \((\d+) s\)$', re.M)
REFUSED = re.compile(r'^rt: must-fail (\w+)/\w+: refused, as it must be \((?:.*; )?(\d+) s\)$', re.M)
PASSED = re.compile(r'^(\d+ passed, 0 failed)$', re.M)
WHOLE = re.compile(r'^real\s+(\S+)$', re.M)
CLOCK = re.compile(r'^(?:(\d+)h)?(?:(\d+)m)?(?:(\d+)(?:\.\d+)?s)?$')

HEAD = '''# How long checks take

This page is written by `tests/times.py` from the log of one gate run (`rt ci`); the same work needs up to a tenth more or less from run to run.

| crate | seconds to prove | edits | seconds of its edits |
|---|--:|--:|--:|
'''


def spelled(clock):
    """A time such as 8m16.466s in words; what is none stays as it is."""
    parts = CLOCK.match(clock)
    if not parts or not any(parts.groups()):
        return clock
    return ' '.join('%d %s' % (int(n), unit if int(n) == 1 else unit + 's') for n, unit in zip(parts.groups(), ('hour', 'minute', 'second')) if n)


def page(log, date=None, clock=None):
    proved = {crate: int(seconds) for crate, seconds in PROVED.findall(log)}
    tried = {crate: [] for crate in proved}
    for crate, seconds in REFUSED.findall(log):
        tried.setdefault(crate, []).append(int(seconds))
    passed = PASSED.search(log)
    count = sum(map(len, tried.values()))
    if not passed or int(passed[1].split()[0]) != len(proved) + count:
        sys.exit('the log is not that of a gate that has passed')
    rows = ''.join('| `%s` | %d | %s | %s |\n' % (crate, seconds, len(tried[crate]) or '', sum(tried[crate]) or '') for crate, seconds in proved.items())
    total = '| all %d | %d | %d | %d |\n' % (len(proved), sum(proved.values()), count, sum(map(sum, tried.values())))
    whole = WHOLE.search(log)
    clock = clock or (whole[1] if whole else None)
    last = "The gate ended with '%s'" % passed[1] + (', on %s' % date if date else '') + (', after %s' % spelled(clock) if clock else '') + '.'
    return HEAD + rows + total + '''
Seconds are by the clock, each crate and each edit for itself; several run side by side, so that the whole takes less than their sum. An edit proves its crate
once more.

''' + last + '\n'


def main():
    if not 2 <= len(sys.argv) <= 4:
        sys.exit('usage: python3 tests/times.py LOG [DATE [CLOCK]]')
    text = page(Path(sys.argv[1]).read_text(), *sys.argv[2:])
    (ROOT / 'docs' / 'TIMES.md').write_text(text)


if __name__ == '__main__':
    main()
