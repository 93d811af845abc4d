#!/usr/bin/env python3
"""Brings this repository's own definitions and lemmas to the spelling of today's Rattle: snake case, no dash.

usage: python3 tools/respell.py          respells crates/ in place, once, behind the kit's own script
       python3 tools/respell.py --list   prints each name, old and new, and writes nothing

A name is respelled where a file of specs/ or a file of lemmas, right in proofs/, declares it: a definition, a lemma, a
field or a constructor. Facts and types keep their capital. Functions of src/, strings and comments keep their words;
a name in backquotes in a comment is respelled with the rest.
"""

import os
import re
import sys

ID = r"[^\W\d◌][\w'′₀-₉]*(?:-[\w'′₀-₉]+)*"
TOKEN = re.compile(r"[\w'′₀-₉◌]+(?:-[\w'′₀-₉◌]+)*")
DECLARED = re.compile(r"\s*(?:(?:abbrev|unfoldable|pub)\s+)*(" + ID + r")\s*:(?!=)|\s*(?:pub\s+)?(?:data|record)\s+(" + ID + ")")
# A lemma that would fall together with a definition, or with a name of the library, gets the library's ending.
LEMMAS = (
    "at-once carried-out events-behind first-from in-slot left-latched no-time ones-in pack-length parts-answers sector-row state-in"
).split()
BY_HAND = {old: old.replace("-", "_") + "_lem" for old in LEMMAS}
# The kit's script has put these lemmas into snake case already: by crate.
IN_CRATE = {
    "law_chain": {"left_alone": "left_alone_lem"},
    "law_exchange": {"goes_on": "goes_on_lem"},
    "bus_text": {"goes_on": "goes_on_lem"},
}


def snake(name):
    name = name.replace("′", "'")
    if name[0].isupper():
        return name
    return re.sub(r"([a-z0-9])([A-Z])", r"\1_\2", name).replace("-", "_").lower() if re.search(r"[a-z][A-Z]|-|[A-Z]", name) else name


def sources(root):
    for folder, dirs, files in os.walk(os.path.join(root, "crates")):
        dirs[:] = sorted(d for d in dirs if d != "out")
        for f in sorted(files):
            if f.endswith((".rt", ".antt")):
                yield os.path.join(folder, f)


def declares(path):
    """Whether names that this file declares are ours to respell: a file of specs/, or of lemmas."""
    parts = path.split(os.sep)
    at = parts.index("crates")
    return path.endswith(".antt") and (parts[at + 2] == "specs" or (parts[at + 2] == "proofs" and len(parts) == at + 4))


def names(root):
    found = {}
    for path in sources(root):
        if not declares(path):
            continue
        with open(path, encoding="utf-8") as f:
            for line in f:
                if re.match(r"\s*(--|use |pub use |pub mod |mod |unfolding |module |let |in )", line):
                    continue
                m = DECLARED.match(line)
                if m:
                    found.setdefault(m.group(1) or m.group(2), set()).add(path)
    table = {}
    for old in found:
        new = BY_HAND.get(old, snake(old))
        if new != old:
            table[old] = new
    return table, found


def respelled(text, table, path):
    """The text with each name of the table in its new spelling; strings and comments stay."""
    rust = path.endswith(".rt")
    parts = path.split(os.sep)
    if not rust:
        table = table | IN_CRATE.get(parts[parts.index("crates") + 1], {})

    def words(t):
        return TOKEN.sub(lambda m: table.get(m.group(0), m.group(0)), t)

    def quoted(t):
        return re.sub(r"`[^`]*`", lambda m: words(m.group(0)), t)

    out = []
    for line in text.split("\n"):
        mark = "//" if rust else "--"
        cut = re.search(r"(?<![^\s])" + mark, line)
        code, comment = (line[: cut.start()], line[cut.start():]) if cut else (line, "")
        if rust and '"' in code:
            out.append(line)
            continue
        out.append(words(code) + quoted(comment))
    return "\n".join(out)


def main(argv):
    root = os.path.dirname(os.path.dirname(os.path.realpath(__file__)))
    table, found = names(root)
    together = {}
    for old in list(table) + [n for n in found if n not in table]:
        together.setdefault(table.get(old, old), []).append(old)
    bad = {new: olds for new, olds in together.items() if len(olds) > 1}
    if argv == ["--list"]:
        for old in sorted(table):
            print(old, table[old])
        for new in sorted(bad):
            print("together:", new, *sorted(bad[new]), file=sys.stderr)
        return 0
    changed = 0
    for path in sources(root):
        with open(path, encoding="utf-8") as f:
            text = f.read()
        new = respelled(text, table, path)
        if new != text:
            changed += 1
            with open(path, "w", encoding="utf-8") as f:
                f.write(new)
    print(f"respell: {len(table)} names, {changed} files")
    return 0


if __name__ == "__main__":
    raise SystemExit(main(sys.argv[1:]))
