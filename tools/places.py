"""Counts the places in crates/*/src that docs/DESIGN-PASS.md speaks of, point by point; with -v it lists them. Run it at the top of a checkout.

A line of code counts once for each pattern that it matches; comments and `ghost use` lines are left out.
"""
import re
import sys
from pathlib import Path

PATTERNS = [
    ('1 enums of the shape of Option or Result', r'^pub enum (Step|Judged|Ran|Routed|Copied)\b'),
    ('1 functions that answer a refusal as a number, 0 for none', r'^\s*(pub )?fn (\w+_refusal|of_number)\('),
    ('1 refusals written as a number', r'Fault::(Input|State)\((\d+|number)\)|^\s+return [1-9]\d?;$'),
    ('1 kinds of words as numbers', r'_KIND: u32|kind_at\(.*(==|!=) \d|past_kind\(.*, \d+\)|^\s*(pub )?fn (may_begin|may_follow|may_end|past_kind|wrong_kind|word_of)\(.*: u32'),
    ('1 numbers that stand for nothing', r'\bconst (NONE|INNER|DROPPED|NO_DIGITS)\b|fn digit_value\(.* -> u8'),
    ('2 functions of one name in two modules', None),
    ('3 while and loop', r'^\s*(while|loop)\b'),
    ('4 comparison, filling, copying, bytes and widening by hand', r'^\s*(pub )?fn (wide|larger|lower|fill|copy)\(|\* 16777216|/ 16777216'),
    ('4 conversion of answers by functions', r'^\s*(pub )?fn (number_of\(fault|judged_code|ran_code|routed_code|copied_code|of_number|of_status)'),
    ('4 decimals by hand', r'^\s*(pub )?fn (put_digit|put_number)\('),
    ('5 a sheet and its sections as two parameters', r'^(?!\s*pub sections)(.*\(|\s+)(.*, )?sections: Sections'),
    ('5 arrays of a run as parameters', r'\b(fixed|weights|state|winners|counts): &(mut )?\['),
    ('5 clauses that say that sections were found', r'\bLocated [a-z]+\.now sections'),
    ('6 sections of one array at offsets', r'^(pub )?const (REGION_ARCS|ARC_ROWS|FIRSTS|ARC_COUNT|SPANS|HEIGHTS|PREDECESSORS|OWN_KEYS): usize'),
    ('6 a buffer with a place in it', r'out: &mut \[u8\], from: usize'),
    ('7 flags that say which step to run', r'\b(head|exact|retired): bool'),
]


def code():
    """Each line of code with its place."""
    for path in sorted(Path('crates').glob('*/src/*.rt')):
        for number, line in enumerate(path.read_text().splitlines(), 1):
            text = line.split('//')[0].rstrip()
            if text and not text.startswith('ghost use'):
                yield f'{path}:{number}', text


def twice(lines):
    """The functions whose name stands in two modules."""
    seen = {}
    for place, text in lines:
        found = re.match(r'\s*(?:pub )?fn (\w+)', text)
        if found:
            seen.setdefault(found[1], []).append((place, text))
    return [line for name, here in seen.items() if len(here) > 1 and name != 'main' for line in here]


def main():
    lines = list(code())
    for name, pattern in PATTERNS:
        found = twice(lines) if pattern is None else [(place, text) for place, text in lines if re.search(pattern, text)]
        print(f'{len(found):4} {name}')
        if '-v' in sys.argv[1:]:
            for place, text in found:
                print(f'       {place}: {text.strip()}')


main()
