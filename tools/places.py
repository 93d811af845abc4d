#!/usr/bin/env python3
"""Lists, for each point of docs/DESIGN-PASS.md, the places in crates/*/src that a reader has to look at.

    python3 tools/places.py [POINT]     from the top of the repository; without POINT all seven, and how many lines each has

It goes by text: which of its lines are places, and which are another thing of the same look, the page says.
"""
import collections
import glob
import itertools
import re
import sys

FILES = sorted(glob.glob("crates/*/src/**/*.rt", recursive=True))
TEXT = {name: open(name).read().splitlines() for name in FILES}


def short(name):
    return name.removeprefix("crates/").replace("/src/", "/")


def lines(pattern):
    """Yields the lines that a pattern is found in."""
    for name in FILES:
        for at, line in enumerate(TEXT[name], 1):
            if re.search(pattern, line) and not line.lstrip().startswith("//"):
                yield f"{short(name)}:{at}: {line.strip()}"


def blocks(start):
    """Yields the items that begin with a line of that pattern and end with the next } in its column."""
    for name in FILES:
        body = TEXT[name]
        for at, line in enumerate(body):
            found = re.match(start, line)
            if not found:
                continue
            indent = re.match(r" *", line).group()
            end = next((k for k in range(at, len(body)) if body[k].startswith(indent + "}") or (k == at and body[k].endswith(";"))), at)
            yield name, at + 1, found, body[at : end + 1]


def functions():
    """Yields each function: its file, its line, its name, its parameters and its body's lines."""
    for name, at, found, body in blocks(r" *(?:pub(?:\(crate\))? )?(?:unsafe )?(?:extern \"C\" )?fn (\w+)"):
        text = "\n".join(body)
        head = re.split(r"\n\s*(?:requires|ensures)\b|\{\n", text, maxsplit=1)[0]
        inner = head[head.find("(") + 1 :]
        pairs = re.findall(r"(\w+): (&(?:'\w+ )?(?:mut )?[\w:\[\]<>; ]+|[\w:\[\]<>; ]+)", inner.split(") ->")[0])
        start = next((k for k, line in enumerate(body) if line.rstrip().endswith("{") and "ensures" not in line and "requires" not in line), 0)
        yield name, at, found.group(1), [(n, t.strip()) for n, t in pairs], body[start + 1 : -1]


def enums_and_flags():
    for name, at, found, body in blocks(r"(?:pub )?enum (\w+)"):
        cases = [line.strip() for line in body if re.match(r"    [A-Z]", line)]
        if len(cases) <= 3 and any("(" in it for it in cases):
            yield f"{short(name)}:{at}: enum {found.group(1)} {{ {' '.join(cases)} }}"
    for name, at, found, body in blocks(r"(?:pub )?struct (\w+)"):
        for k, line in enumerate(body):
            if re.match(r"    (?:pub )?\w+: bool,", line):
                yield f"{short(name)}:{at + k}: struct {found.group(1)}: {line.strip()}"
    for name in FILES:
        yield from numbered(name)
    for name, at, called, _, body in functions():
        arms = [line.strip() for line in body if re.match(r"\s+[0-9]+(?: \| [0-9]+)* => ", line)]
        if arms:
            yield f"{short(name)}:{at}: fn {called}: {len(arms)} arms of numbers, {arms[0]}"


def numbered(name):
    """Yields each run of constants whose values go up by one, as numbers for kinds do."""
    run = []
    for at, line in [*enumerate(TEXT[name], 1), (0, "const END: u8 = 0;")]:
        found = re.search(r"const ([A-Z_]+): u(?:8|16|32) = ([0-9]+);", line)
        if found and not (run and int(found.group(2)) == run[-1][2] + 1):
            if len(run) > 1:
                yield f"{short(name)}:{run[0][0]}: constants {' '.join(it[1] for it in run)}"
            run = []
        if found:
            run.append((at, found.group(1), int(found.group(2))))


def twins():
    shapes = collections.defaultdict(list)
    for name, at, called, _, body in functions():
        text = re.sub(r"\b[A-Za-z_]\w*\b|\d[\d_]*|b?\"[^\"]*\"|b'.'", "x", " ".join(body))
        if len(body) >= 3:
            shapes[text].append(f"{short(name)}:{at} {called}")
    for name, at, found, body in blocks(r"(?:pub )?struct (\w+)(?:<.*>)? \{"):
        text = "struct " + re.sub(r"\b[A-Z]\w*\b|\bu\d+\b", "X", " ".join(it for it in body[1:] if "//" not in it))
        shapes[text].append(f"{short(name)}:{at} struct {found.group(1)}")
    for same in shapes.values():
        if len(same) > 1:
            yield "; ".join(same)


def loops():
    yield from lines(r"^\s*while ")
    yield from lines(r"^\s*for \w+ in [^{]*\.\.")


def by_hand():
    alike = re.compile(r"\b(\w+)\.(\w+(?:\.\w+)*) [!=]= (\w+)\.\2\b|\b\w+\[(\w+)\] [!=]= \w+\[\4\]")
    copied = re.compile(r"^\s+(\w+): \w+(?:\.\w+)*\.\1,")
    told = re.compile(r"^\s+[A-Z]\w+::[A-Z]\w+(?:\(.*\))? => (?:\d|\"|[a-z_]+,)")
    for name, at, called, _, body in functions():
        for what, pattern in (("compared", alike), ("copied", copied), ("converted", told)):
            found = [line.strip() for line in body if pattern.search(line)]
            if found:
                yield f"{short(name)}:{at}: fn {called}: {len(found)} {what}, {found[0]}"
        if len(body) == 4 and body[0].strip().startswith("if ") and body[1].strip().startswith("return ") and re.fullmatch(r"\s*(?:\d+|\w+)", body[3]):
            yield f"{short(name)}:{at}: fn {called}: {body[0].strip()} {body[1].strip()} }} {body[3].strip()}"
        if any(re.search(r"print(?:ln)?!\(rt; \"[^\"]{0,3}\{\w+\}\"\)", line) for line in body) or (len(body) == 1 and "rt.print(" in body[0]):
            yield f"{short(name)}:{at}: fn {called}: prints, {body[0].strip()}"


def together():
    clauses = collections.defaultdict(list)
    for name, at, found, body in blocks(r" *(?:pub(?:\(crate\))? )?fn (\w+)"):
        for line in body:
            clause = re.match(r"\s+(?:requires|ensures)(?: \w+)? \{ (.*) \}$", line)
            if clause and "result" not in clause.group(1):
                clauses[clause.group(1)].append(f"{short(name)}:{at} {found.group(1)}")
    for clause, where in clauses.items():
        if len(where) >= 3:
            yield f"clause {clause}: " + "; ".join(where)
    given_of = {}
    for name, at, called, given, _ in functions():
        given_of[f"{short(name)}:{at} {called}"] = frozenset(it for it in given if it[0] != "rt" and len(it[1]) > 1)
    sets = {one & two for one, two in itertools.combinations(given_of.values(), 2)}
    uses = {some: sorted(k for k, v in given_of.items() if some <= v) for some in sets if len(some) >= 3}
    for some, where in sorted(uses.items(), key=lambda it: (-len(it[0]), it[1])):
        if len(where) >= 3 and not any(some < other and uses[other] == where for other in uses):
            yield "parameters " + ", ".join(f"{n}: {t}" for n, t in sorted(some)) + ": " + "; ".join(where)


def buffers():
    for name, at, called, given, _ in functions():
        given_types = [t for _, t in given]
        if any(re.search(r"\[u8", t) for t in given_types) and "usize" in given_types:
            yield f"{short(name)}:{at}: fn {called}(" + ", ".join(f"{n}: {t}" for n, t in given) + ")"
    for name, at, found, body in blocks(r"(?:pub )?struct (\w+)"):
        arrays = [line.strip() for line in body if re.search(r": \[", line)]
        places = [line.strip() for line in body if re.search(r": usize,", line)]
        if len(arrays) > 1 or places:
            yield f"{short(name)}:{at}: struct {found.group(1)} {{ {' '.join(arrays + places)} }}"
    yield from lines(r"const \w+: \[[A-Z]\w+; ")


def switches():
    for name, at, called, given, body in functions():
        names = "|".join(n for n, t in given if t in ("u8", "u16", "u32", "bool", "Stage"))
        tests = [line.strip() for line in body if names and re.match(rf"\s+(?:match (?:{names}) \{{|if !?(?:{names})(?: == [\w:]+)? \{{)", line)]
        calls = sum(1 for line in body if re.search(r"(?:=> |return |^    )[\w:]+\(", line))
        if tests and calls > 1:
            yield f"{short(name)}:{at}: fn {called}: {tests[0]} {calls} calls"
    yield from lines(r": fn\(|\[fn\(")


POINTS = {
    "1": enums_and_flags,
    "2": twins,
    "3": loops,
    "4": by_hand,
    "5": together,
    "6": buffers,
    "7": switches,
}

if __name__ == "__main__":
    for point in sys.argv[1:] or POINTS:
        found = list(dict.fromkeys(POINTS[point]()))
        print(f"point {point}: {len(found)}")
        if sys.argv[1:]:
            print("\n".join(found))
