#!/usr/bin/env python3
"""Brings the definitions, lemmas and fields of this repository's specs/ and proofs/ to the spelling of today's Rattle: words in snake case, a dash only beside a
type. Run once, at the top, after the kit's port.py:

    python3 tools/respell.py          rewrites crates/ (sources, specs, proofs, edits) and the pages, and prints the map of names
    python3 tools/respell.py --map    prints the map alone

Types and modules are in camel case already. Names of src/, exported C names, strings, inputs and outputs are left as they are. A name that would fall together
with another keeps its spelling, and is printed."""
import os
import re
import sys

# names that would fall together with those of contracts, in a proof by hand
OTHERWISE = {"placeOf": "place_held", "readerAt": "reader_standing", "wordAfter": "word_read"}
# names that stand beside such a name only in the path of a goal
APART = {"wrongSize"}
# what the check of an older Rattle made, in proof files
MADE = re.compile(r"^(invariant|decreases|loop|returns|need|spec|tie|goal|ghost)(-|$)")
DECLARED = re.compile(r"^\s*(?:(?:pattern|unfoldable|abbrev|pub|\|) )*([^\s(){}=|,;:λ]+(?: [^\s(){}=|,;:λ]+)*)\s*(?:\{[^}:]*\} )?:(?!=)\s")
TOKEN = re.compile(r"[^\s(){}\[\].,;\"`⌜⌝⟨⟩«»]+")
# not names: words of antt that stand before a name with a type
WORDS = {"let", "in", "use", "elim", "as", "where", "unfolding", "unfold", "module", "_"}


def files(top, ends):
    for folder, dirs, names in os.walk(top):
        dirs[:] = sorted(d for d in dirs if d not in ("out", ".git", "target"))
        for name in sorted(names):
            if name.endswith(ends):
                yield os.path.join(folder, name)


def read(path):
    with open(path, encoding="utf-8") as f:
        return f.read()


def snake(word):
    word = re.sub(r"([a-z0-9])([A-Z])(?=[a-z])", lambda m: m.group(1) + "_" + m.group(2).lower(), word)
    word = re.sub(r"([a-z0-9])([A-Z]+)", lambda m: m.group(1) + "_" + m.group(2).lower(), word)
    return word


def declared():
    """The names that a line of specs/ or proofs/ declares."""
    found = set()
    for path in files("crates", (".antt",)):
        if path.endswith("/Proof.antt"):
            continue
        for line in read(path).splitlines():
            if line.lstrip().startswith("--"):
                continue
            m = DECLARED.match(line)
            if not m or line.lstrip().startswith("let "):
                continue
            found.update(n for n in m.group(1).split() if n not in WORDS)
    return found


def respelled(name):
    """The name in today's spelling: a dash stays beside a type alone."""
    parts = name.split("-")
    shown = parts[0] if parts[0][:1].isupper() else snake(parts[0])
    for before, after in zip(parts, parts[1:]):
        shown += ("-" if before[:1].isupper() or after[:1].isupper() else "_") + (after if after[:1].isupper() else snake(after))
    return shown


def names_map():
    found = declared()
    # The names that stand in each file, by file. A name in a path, as that of a function's folder or of a goal, is no name of an item.
    stands = {}
    for path in files("crates", (".antt",)):
        text = re.sub(r"--[^\n]*", "", read(path))
        for t in set(re.findall(r"(?<![.\w])[^\s(){}\[\].,;\"`⌜⌝⟨⟩«»]+(?!\.)", text)) | set(re.findall(r"\.([^\s(){}\[\].,;\"`]+)", re.sub(r"(?m)^use .*$", "", text))):
            stands.setdefault(t, set()).add(path)
    turned, kept, definitions = {}, [], set()
    # definitions first: a lemma or field that would have a definition's name, or has it already, ends in `_lem`
    for name in sorted(found, key=lambda n: ("-" in n, n)):
        if not re.match(r"[a-zA-Z]", name) or MADE.match(name) or not (re.search(r"[a-z0-9][A-Z]", name) and name[:1].islower() or "-" in name):
            continue
        new = OTHERWISE.get(name) or respelled(name)
        if new == name:
            continue
        if "-" in name and new in definitions:
            new += "_lem"
        elif name not in APART and stands.get(name, set()) & stands.get(new, set()):
            if "-" in name:
                new += "_lem"
            elif new in found and new not in turned.values() and new + "_lem" not in stands:
                turned[new] = new + "_lem"
                stands[new + "_lem"] = stands.get(new, set())
            else:
                kept.append((name, new))
                continue
        stands.setdefault(new, set()).update(stands.get(name, set()))
        turned[name] = new
        if "-" not in name:
            definitions.add(new)
    return turned, kept


def brought_in(text):
    """The names that a file imports from elsewhere than the repository."""
    own = set(os.listdir("crates"))
    found = set()
    for path, names in re.findall(r"^(?:ghost )?use ([^\s{]*)\.\{([^}]*)\}", text, re.M):
        parts = path.split(".")
        if parts[0] != "Rattle" or parts[1] not in own:
            found.update(n.split(" as ")[0].strip() for n in names.split(","))
    return found


def turn(text, turned):
    return TOKEN.sub(lambda m: turned.get(m.group(0), m.group(0)), text)


def turn_file(path, text, turned):
    """Of a file of crates/: what is code, and of comments names between backquotes and names in camel case, which are no words of prose. In a source file a
    name that is in snake case already may be a function's, and stays."""
    if path.endswith(".rt"):
        turned = {old: new for old, new in turned.items() if "-" in old or re.search(r"[A-Z]", old)}
    camel = {old: new for old, new in turned.items() if "-" not in old and re.search(r"[A-Z]", old)}
    mark = {".antt": "--", ".rt": "//", ".edit": "#"}[os.path.splitext(path)[1]]
    shown = []
    for line in text.split("\n"):
        at = line.find(mark) if mark != "#" else (0 if line.startswith("#") else -1)
        code, comment = (line, "") if at < 0 else (line[:at], line[at:])
        shown.append(turn(code, turned) + turn(turn_page(comment, turned), camel))
    return "\n".join(shown)


def turn_page(text, turned):
    """Of a page, names between backquotes."""
    return re.sub(r"`[^`\n]+`", lambda m: turn(m.group(0), turned), text)


def main():
    turned, kept = names_map()
    for name, new in kept:
        print(f"kept: {name} (would be {new})")
    for name in sorted(turned):
        print(f"{name} -> {turned[name]}")
    if "--map" in sys.argv[1:]:
        return
    for path in files("crates", (".antt", ".rt", ".edit")):
        text = read(path)
        foreign = brought_in(text)
        new = turn_file(path, text, {old: to for old, to in turned.items() if old not in foreign})
        if new != text:
            with open(path, "w", encoding="utf-8") as f:
                f.write(new)
    for path in ["README.md", "CONTRIBUTING.md", *files("docs", (".md",))]:
        text = read(path)
        new = turn_page(text, turned)
        if new != text:
            with open(path, "w", encoding="utf-8") as f:
                f.write(new)


main()
