"""Holds the documents to the tree. Run it by `python3 tests/paths.py`: it prints what is wrong and exits with 1, or how many paths it has found.

Every path in backquotes has to exist, from the top of the repository; one with NAME in it stands for many and is passed over, and one with `*` has to
fit some file; what is built (`out/`) is passed over. Every edit that README's table of wrong programs names has to exist. Every file of definitions that is
to be believed has to be listed in docs/READING.md.
"""
import re
import sys
from pathlib import Path

ROOT = Path(__file__).resolve().parent.parent
FOLDERS = ('crates/', 'docs/', 'tests/', 'samples/', 'bench/', 'rust/', 'include/')
FILES = ('crates.txt', 'mark', 'convert', 'sheet.sh', '.ci/run')
# This page names what is gone, too.
PASSED_OVER_PAGES = ('docs/PORT.md',)
DOCUMENTS = ('README.md', 'CONTRIBUTING.md', 'docs/*.md', 'docs/changes/*.md', 'bench/README.md', 'samples/README.md')

# The crates whose definitions are to be believed, and the files of their specs/ that are not.
BELIEVED = ('indices', 'sheet', 'answer', 'judgement', 'procedure', 'conversion', 'calls', 'listing')
PASSED_OVER = ('Lib.antt', 'Inner.antt')


def quoted(text):
    """What stands in backquotes, line by line; blocks of code are left out."""
    for block in re.split(r'^```.*?^```', text, flags=re.M | re.S):
        yield from re.findall(r'`([^`\n]+)`', block)


def is_path(name):
    return ' ' not in name and '/out/' not in name and (name.startswith(FOLDERS) or name in FILES)


def is_there(path):
    return any(ROOT.glob(path)) if '*' in path else (ROOT / path).exists()


def edits(text):
    """The edits that the table of wrong programs names, as crate and edit."""
    table = re.search(r'^\| wrong program \|.*?(?=^\s*$)', text, flags=re.M | re.S)
    return re.findall(r'`([a-z0-9_]+)/([a-z0-9_]+)`', table[0]) if table else []


def believed():
    """The files of definitions that docs/READING.md has to list."""
    for crate in BELIEVED:
        files = sorted((ROOT / 'crates' / crate / 'specs').rglob('*.antt'))
        yield from (path.relative_to(ROOT).as_posix() for path in files if path.name not in PASSED_OVER)


def main():
    found, wrong = 0, []
    for document in sorted(path for pattern in DOCUMENTS for path in ROOT.glob(pattern)):
        name = document.relative_to(ROOT).as_posix()
        if name in PASSED_OVER_PAGES:
            continue
        for path in quoted(document.read_text()):
            if is_path(path) and 'NAME' not in path:
                found += 1
                if not is_there(path):
                    wrong.append('%s: `%s` is not there' % (name, path))
    named = edits((ROOT / 'README.md').read_text())
    if not named:
        wrong.append('README.md: no table of wrong programs')
    for crate, edit in named:
        found += 1
        if not is_there('crates/%s/must-fail/%s.edit' % (crate, edit)):
            wrong.append('README.md: no edit `%s/%s`' % (crate, edit))
    listed = set(quoted((ROOT / 'docs' / 'READING.md').read_text()))
    wrong += ['docs/READING.md: `%s` is not listed' % path for path in believed() if path not in listed]
    if wrong:
        print('\n'.join(wrong))
        sys.exit(1)
    print('%d paths, all there' % found)


if __name__ == '__main__':
    main()
