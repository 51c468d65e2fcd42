"""Writes the cases of crates/cases: stdin, a line for each, and stdout, what is expected of each. crates/cases/src/main.rt says what the lines are.

Where a call's expected answers do not agree with its vectors, or with an answer that a case states, it stops and writes nothing.
Run it by `python3 tests/write_cases.py`: it writes the same files each time.
"""
import canonical_cases
import convert_cases
import judge_cases
import line_cases
import marks_cases
import resume_cases
import route_cases
import run_cases
from cases import ROOT


def main():
    calls = (line_cases, judge_cases, run_cases, route_cases, marks_cases, canonical_cases, resume_cases, convert_cases)
    lines = [pair for cases in calls for pair in cases.lines()]
    for at, name in enumerate(('stdin', 'stdout')):
        (ROOT / 'crates' / 'cases' / name).write_text(''.join(pair[at] + '\n' for pair in lines))


if __name__ == '__main__':
    main()
