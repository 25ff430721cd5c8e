#!/usr/bin/env python3
"""Counts the places in crates/*/src that docs/DESIGN-PASS.md speaks of, by point.

python3 tools/places.py [POINT]    the counts; with a point, its places too
"""
import collections
import re
import sys
from pathlib import Path

TOP = Path(__file__).resolve().parent.parent
SOURCES = sorted(TOP.glob("crates/*/src/**/*.rt"))
NUMBER = r"(?:0x[0-9A-Fa-f_]+|\d+)"


def lines():
    for path in SOURCES:
        for at, line in enumerate(path.read_text().split("\n"), 1):
            yield f"{path.parts[path.parts.index('crates') + 1]}/{path.name}:{at}", line.split("//")[0]


def text(path):
    return "\n".join(line.split("//")[0] for line in path.read_text().split("\n"))


def name(path):
    return f"{path.parts[path.parts.index('crates') + 1]}/{path.name}"


def items(word):
    """Each struct or enum: its place, its name and what stands between its braces."""
    for path in SOURCES:
        for m in re.finditer(rf"\b{word} (\w+)(?:<[^>]*>)? \{{(.*?)\n\}}", text(path), re.S):
            yield name(path), m[1], m[2]


def functions():
    """Each function: its place, its name, its parameters, its clauses and its body."""
    for path in SOURCES:
        for m in re.finditer(r"^( *)((?:pub(?:\([a-z]+\))? )?(?:extern \"C\" )?fn (\w+).*?)^\1\{(.*?)^\1\}", text(path),
                             re.S | re.M):
            yield name(path), m[3], m[2], m[4]


def point_1():
    for where, enum, body in items("enum"):
        cases = [c for c in re.findall(r"^    (\w+.*),", body, re.M)]
        full = [c for c in cases if "(" in c or "{" in c]
        if full and len(full) < len(cases) and len(full) <= 3 and len(cases) <= 5:
            yield f"{where} enum {enum}: {', '.join(cases)}"
    for where, struct, body in items("struct"):
        flags = re.findall(r"(\w+): bool", body)
        if flags and len(re.findall(r"^    (?:pub )?\w+:", body, re.M)) > 1:
            yield f"{where} struct {struct}: flag {', '.join(flags)}"
    for where, fn, head, body in functions():
        arms = re.findall(rf"^ +[^\n]*=> {NUMBER},|^ +{NUMBER} => |if \w+ == {NUMBER} ", body, re.M)
        if len(arms) > 2:
            yield f"{where} fn {fn}: {len(arms)} cases as numbers"
        if re.search(rf"return {NUMBER};|^ +{NUMBER}$", body, re.M) and re.search(r"-> (u8|u64)", head) and len(arms) < 3:
            yield f"{where} fn {fn}: a number for none, or for a kind"


def point_2():
    groups = collections.defaultdict(list)
    for where, fn, head, body in functions():
        plain = re.sub(r"\b\d+\b|0x[0-9A-Fa-f_]+|(?<=[a-z_])\d+", "N", body)
        plain = re.sub(r"\b[ui](8|16|32|64|size|N)\b", "T", plain)
        plain = re.sub(r"\b(\w+?)(::\w+)+\(", "CALL(", plain)
        plain = re.sub(r"\b\w+N\(", "CALL(", re.sub(r"\s+", " ", plain))
        plain = re.sub(r"(?<=CALL\()([^()]*)", lambda m: re.sub(r"\w+", "x", m[1]), plain)
        groups[plain].append(f"{where} fn {fn}")
    for plain, fns in groups.items():
        if len(fns) > 1 and len(plain) > 12:
            yield from (f"{f} (one of {len(fns)})" for f in fns)
    kinds = collections.defaultdict(set)
    for where, struct, body in items("struct"):
        kinds[struct] = set(re.findall(r"(?:pub )?(\w+: [^,\n]+),", body))
    for a in kinds:
        for b in kinds:
            if a != b and len(kinds[a]) > 2 and kinds[a] < kinds[b]:
                yield f"struct {a} is struct {b} without {len(kinds[b] - kinds[a])} fields"


def point_3():
    for where, line in lines():
        if re.match(r"\s*(let \w+ = )?(while |loop \{)", line):
            yield f"{where} {line.strip()}"
    for where, line in lines():
        if re.match(r"\s*for \w+ in 0\.\.", line):
            yield f"{where} {line.strip()}"


def point_4():
    for where, fn, head, body in functions():
        arms = re.findall(r"=> (\w+),", body)
        if len(arms) > 1 and "-> bool" in head and set(arms) <= {"true", "false", "neither"}:
            yield f"{where} fn {fn}: equality by a list of cases"
        if fn in ("same", "before", "eq", "cmp"):
            yield f"{where} fn {fn}: equality or order by hand"
        if re.search(r"if (\w+)(?:\.\w+)* <=? (\w+(?:::\w+)?) \{\s*\1\s*\} else \{\s*\2\s*\}", body):
            yield f"{where} fn {fn}: the smaller of two by hand"
        copies = re.findall(r"let (\w+) = \w+(?:\.\w+)*\.\1;", body)
        if copies:
            yield f"{where} fn {fn}: copies {', '.join(copies)}"
        if re.match(r"\s*match (\w+) \{(\s*[\w:]+\(\w+\) => [\w:]+\(\w+\),)+\s*\}\s*$", body):
            yield f"{where} fn {fn}: a conversion case by case"


def point_5():
    facts = collections.defaultdict(list)
    pairs = collections.defaultdict(list)
    for where, fn, head, body in functions():
        crate = where.split("/")[0]
        for fact in re.findall(r"requires (?:\w+ )?\{ (.*?) \}", head, re.S):
            facts[crate, re.sub(r"\s+", " ", fact)].append(fn)
        params = re.findall(r"(\w+): (&mut \[u8\]|&\[u8\]|[\w:]+)", re.sub(r"\s+", " ", head).split(") ->")[0])
        for a, b in zip(params, params[1:]):
            pairs[crate, a, b].append(fn)
    for (crate, fact), fns in facts.items():
        if len(fns) > 2:
            yield f"{crate}: `{fact}` in {', '.join(fns)}"
    for (crate, a, b), fns in pairs.items():
        if len(fns) > 3:
            yield f"{crate}: {a[0]}: {a[1]}, {b[0]}: {b[1]} in {', '.join(fns)}"


def point_6():
    for where, struct, body in items("struct"):
        arrays = re.findall(r"(\w+): \[", body)
        lengths = re.findall(r"(\w*len\w*|count|depth): ", body)
        if arrays and lengths:
            yield f"{where} struct {struct}: {', '.join(arrays)} with {', '.join(lengths)}"
        if len(arrays) > 1:
            yield f"{where} struct {struct}: arrays {', '.join(arrays)}"
    for where, line in lines():
        if re.search(r"\[\.\.0\]|\[0u8; 1\]", line):
            yield f"{where} {line.strip()}"


def point_7():
    frames = collections.defaultdict(list)
    for where, fn, head, body in functions():
        called = tuple(re.findall(r"(host_buffers::short_code|host_state::load_front|host_buffers::started|"
                                  r"host_buffers::told|\.started\()", body))
        if called:
            frames[called].append(f"{where} fn {fn}")
    for called, fns in frames.items():
        if len(fns) > 2:
            yield from (f"{f}: a call in the frame {' .. '.join(called)}" for f in fns)
    for where, fn, head, body in functions():
        if len(re.findall(rf"if \w+ == {NUMBER} ", body)) > 2:
            yield f"{where} fn {fn}: a switch over numbers"


def point_8():
    for path in sorted(TOP.glob("crates/*/proofs/**/Answers.antt")):
        for m in re.finditer(r"^(\w[^\s:]*) .*= search rules$", path.read_text(), re.M):
            yield f"{path.relative_to(TOP)}: {m[1]} is only `search rules`"
    for path in sorted(TOP.glob("crates/*/proofs/*.antt")):
        for m in re.finditer(r"^-- The same as (.*), for", path.read_text(), re.M):
            yield f"{path.relative_to(TOP)}: {m[0]}"


def main():
    points = {str(n): f for n, f in enumerate((point_1, point_2, point_3, point_4, point_5, point_6, point_7, point_8), 1)}
    for n, f in points.items():
        found = list(f())
        print(f"point {n}: {len(found)}")
        if sys.argv[1:] == [n]:
            print("\n".join("  " + x for x in found))


if __name__ == "__main__":
    main()
