#!/usr/bin/env python3
"""Brings the names of this repository's definitions and lemmas to today's spelling: words in snake case.

usage: tools/respell.py          rewrites crates/*/specs, crates/*/proofs, the clauses of crates/*/src and crates/*/must-fail
       tools/respell.py --list   prints each old name with its new one, and changes nothing

It was run once, right after the kit's own script, in the port to today's Rattle; docs/PORT.md tells of it. A name is respelled everywhere
or nowhere: where the new spelling stands for something else already, APART below gives another, and the script stops at one that is not
listed there. Names of Rattle source, exported names, strings, inputs and outputs are left as they are.
"""

import collections
import glob
import re
import sys

# The calls of the C boundary, as the demands name them: what it is done to, joined to what is done.
CALLS = set("""file-read file-write list-check list-scan list-runs table-check table-lookup table-build table-save table-runs image-build
image-lookup image-lookup-many segments-build segments-lookup segments-lookup-many segments-entries message-write counts-make""".split())

# Words that the kit's script left as words of a definition below: a lemma that would have its function's name gets `_lem`.
APART = {
    "all_in": "all_in_lem", "by_tests": "by_tests_lem", "cut_on": "cut_on_lem", "entry_read": "entry_read_lem", "first_read": "first_read_lem",
    "from_at": "from_at_lem", "goes_on": "goes_on_lem", "is_same": "is_same_lem", "read_at": "read_at_lem", "read_count": "read_count_lem",
    "some_below": "some_below_lem", "no_room": "without_room", "stride-of": "stride_of_lem",
}

DECLARED = re.compile(r"^\s*((?:abbrev |unfoldable |pub |data |record |ruleset )*)([^\s:(){}λ=→≡]+(?: [^\s:(){}λ=→≡]+)*) :(?: |$)")
ALIAS = re.compile(r"^use \S+ as (\S+)$")
MODULE = re.compile(r"^\s*module (\S+)")
TOKEN = re.compile(r"[^\s(){}\[\].,;«»\"`:|!?]+")
IMPORT = re.compile(r"^(?:ghost )?use ([A-Za-z0-9_.+]+)\.\{([^}]*)\}")
OURS = re.compile(r"Rattle\.(?!std\b|core\b|io\b|libc\b|os\b)[a-z_0-9]+\.(?:specs|proofs)\b")
SKIPPED = ("let ", "--", "(", "→", "∙", "in ", "λ", "|", "elim", "rw ", "record")


def texts(*patterns):
    for pattern in patterns:
        yield from sorted(glob.glob(pattern, recursive=True))


def read(path):
    with open(path, encoding="utf-8") as f:
        return f.read()


def snake(name):
    parts = re.split(r"-", name)
    out = []
    for part in parts:
        if part[:1].isupper():
            out.append(part)  # a fact keeps its capital
            continue
        part = re.sub(r"(?<=[a-z0-9'])([A-Z]+)(?=[a-z0-9_']|$)", lambda m: "_" + m.group(1).lower(), part)
        out.append(part)
    text = out[0]
    for before, part in zip(out, out[1:]):
        # a dash joins a type to a name
        text += ("-" if before[:1].isupper() else "_") + part
    return text


def declared():
    """The names that the repository declares, its aliases of modules among them, and those that it takes from a library."""
    own, library = collections.defaultdict(set), set()
    for path in texts("crates/*/specs/**/*.antt", "crates/*/proofs/**/*.antt"):
        for line in read(path).splitlines():
            m = IMPORT.match(line)
            if m:
                if not OURS.match(m.group(1)):
                    library.update(n.strip() for n in m.group(2).split(","))
                continue
            m = ALIAS.match(line) or MODULE.match(line)
            if m:
                own[m.group(1)].add(path)
                continue
            if line.lstrip().startswith(SKIPPED):
                continue
            m = DECLARED.match(line)
            if m:
                for name in m.group(2).split():
                    own[name].add(path)
    return own, library


def table():
    own, library = declared()
    names = {}
    for name in own:
        if name in library or name in CALLS or not re.search(r"[A-Z-]", name) or "Need-" in name or "◌" in name:
            continue
        if name[0].isupper() and "-" not in name:
            continue
        new = APART.get(name) or snake(name)
        if new != name:
            names[name] = new
    functions = {new for old, new in names.items() if "-" not in old}
    for old, new in names.items():
        if "-" in old and new in functions:
            names[old] = new + "_lem"
    return names, own, library


def bare(text):
    """The words of a text that name something by themselves: no part of a path, and no field."""
    for m in TOKEN.finditer(text):
        if not text[: m.start()].endswith("."):
            yield m.group(0)


def fallen(names):
    """Names that would fall together: with one another, or with a word that names something already."""
    words = set()
    for path in texts("crates/*/specs/**/*.antt", "crates/*/proofs/**/*.antt"):
        for line in read(path).splitlines():
            m = IMPORT.match(line)
            words.update(bare(m.group(2) if m else line.split("--")[0]))
    by_new = collections.defaultdict(list)
    for old, new in names.items():
        by_new[new].append(old)
    return {new: sorted(olds) + (["(stands already)"] if new in words and new not in APART else []) for new, olds in by_new.items() if len(olds) > 1 or new in words and new not in APART}


def respell(text, names, apart=True):
    def word(m):
        name = m.group(0)
        if name in names:
            return names[name]
        if apart and name in APART and not (text[: m.start()].endswith(".") and name != "goes_on") and text[m.end() : m.end() + 1] != ".":
            return APART[name]
        return name

    return TOKEN.sub(word, text)


def by_line(text, names, comment, apart):
    """Strings stay, and of a comment all but what can be no English word."""
    camel = {old: new for old, new in names.items() if "-" not in old}
    out = []
    for line in text.splitlines(keepends=True):
        at = re.search(comment, line)
        code, rest = (line[: at.start()], line[at.start() :]) if at else (line, "")
        pieces = re.split(r'("(?:[^"\\]|\\.)*")', code)
        code = "".join(p if p.startswith('"') else respell(p, names, apart) for p in pieces)
        out.append(code + respell(rest, camel, apart=False))
    return "".join(out)


def main():
    names, own, library = table()
    if "--list" in sys.argv:
        for old in sorted(names):
            print(old, names[old])
        return 0
    together = {new: olds for new, olds in fallen(names).items() if new != "table_runs"}
    if together:
        for new, olds in sorted(together.items()):
            print(f"{new}: {' '.join(olds)}", file=sys.stderr)
        print(f"respell: {len(together)} names would fall together", file=sys.stderr)
        return 1
    for path in texts("crates/*/specs/**/*.antt", "crates/*/proofs/**/*.antt", "crates/*/src/**/*.rt", "crates/*/must-fail/*.edit"):
        before = read(path)
        after = before
        if path.startswith("crates/demands/"):  # the kit's script took this call for a lemma
            after = re.sub(r"(?<![\w-])table_runs(?![\w-])(?!\.Reads)", "table-runs", after)
        after = by_line(after, names, r"(?:^|\s)--" if path.endswith(".antt") else r"(?:^|\s)(?://|#)", path.endswith(".antt"))
        if after != before:
            with open(path, "w", encoding="utf-8") as f:
                f.write(after)
    return 0


if __name__ == "__main__":
    raise SystemExit(main())
