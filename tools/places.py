#!/usr/bin/env python3
"""Lists the places in crates/*/src where an older form of code may stand, point by point (docs/DESIGN-PASS.md).

usage: python3 tools/places.py [POINT ..]      each place a line; the count of a point stands behind its name

It goes by text: what it lists is a place to look at, and no verdict.
"""
import difflib
import itertools
import os
import re
import sys

TOP = os.path.join(os.path.dirname(os.path.abspath(__file__)), "..")
os.chdir(TOP)


def sources():
    for root, _, names in sorted(os.walk("crates")):
        parts = root.split(os.sep)
        if len(parts) < 3 or parts[2] != "src":
            continue
        for name in sorted(names):
            if name.endswith(".rt"):
                path = os.path.join(root, name)
                yield path, open(path, encoding="utf-8").read()


FILES = list(sources())


def lines_with(pattern, skip=None):
    for path, text in FILES:
        for number, line in enumerate(text.split("\n"), 1):
            if re.match(r" *(//|requires|ensures|ghost)", line):
                continue
            if re.search(pattern, line) and not (skip and re.search(skip, line)):
                yield f"{path}:{number}: {line.strip()}"


def functions():
    """Each function: path, line, name, parameters, clauses, body."""
    head = re.compile(r"^( *)(?:pub(?:\([a-z]+\))? )?(?:final )?fn ([a-z_0-9]+)", re.M)
    for path, text in FILES:
        for found in head.finditer(text):
            indent = found.group(1)
            rest = text[found.start():]
            opening = re.search(r"\{\n|;\n", rest)
            if not opening or opening.group() == ";\n":
                continue
            sign, whole = rest[: opening.start()], rest[opening.end():]
            body = whole[: re.search(r"^" + indent + r"\}$", whole, re.M).start()]
            clauses = re.findall(r"^ *(?:requires|ensures\*?)[a-z_ ]*\{.*\}$", sign, re.M)
            inside = re.search(r"\((.*?)\)\s*(?:->|\n|\{|$)", sign[sign.index("fn "):], re.S)
            params = re.findall(r"([a-z_]+): *([^,()]+(?:\([^)]*\))?)", inside.group(1)) if inside else []
            line = text.count("\n", 0, found.start()) + 1
            yield path, line, found.group(2), [p[0] for p in params], clauses, body


KEEP = set("if else match for in while loop let mut return self Some None Ok Err true false as".split())


def shape(body):
    """The words of a body, with x for each name and number, but for keywords and the names of what is called."""
    words = re.findall(r"[A-Za-z_][A-Za-z_0-9]*|[0-9][0-9_a-z]*|\S", re.sub(r"//.*|\"[^\"]*\"", "", body))
    after = words[1:] + [""]
    return [w if w in KEEP or n == "(" or not re.match(r"[A-Za-z_0-9]", w) else "x" for w, n in zip(words, after)]


def point1():
    yield from lines_with(r"^ {4}(pub(\(crate\))? )?[a-z_]+: bool,$")
    yield from lines_with(r"^(pub |pub\(crate\) )?const [A-Z_]+: (u8|u16|u32) ")
    yield from lines_with(r"-> Option<[A-Za-z]*Fault>|Result<\(u")
    yield from lines_with(r"\b(number|put|code|seat|kind) (==|>=|<=|!=|<) [0-9A-Z]|Ok\(\(.*, [01]\)\)")
    yield from lines_with(r"Some\((\w+)\) => Some\(\1\)|Ok\((\w+)\) => Ok\(\2\)|None => None|Some\(_\) => (true|false)|None => (true|false|return false)")
    yield from lines_with(r"fn .*&mut self.*-> bool")


def point2():
    every = [f for f in functions() if len(shape(f[5])) >= 16]
    for one, other in itertools.combinations(every, 2):
        a, b = shape(one[5]), shape(other[5])
        if min(len(a), len(b)) / max(len(a), len(b)) < 0.65:
            continue
        ratio = difflib.SequenceMatcher(None, a, b, autojunk=False).ratio()
        if ratio >= 0.85:
            yield f"{one[0]}:{one[1]} {one[2]} ~ {other[0]}:{other[1]} {other[2]} ({ratio:.2f})"
    for one, other in itertools.combinations(functions(), 2):
        if one[0] == other[0] and one[2] != other[2] and re.sub(r"[0-9]+$", "", one[2]) == re.sub(r"[0-9]+$", "", other[2]):
            yield f"{one[0]}:{one[1]} {one[2]} ~ {other[2]} (by name)"
    structs = []
    for path, text in FILES:
        for found in re.finditer(r"^(?:pub )?struct (\w+)[^\n{;]*\{\n(.*?)^\}", text, re.M | re.S):
            fields = re.sub(r"//.*|pub(\(crate\))? |\{ .* \}", "", found.group(2))
            structs.append((path, found.group(1), re.findall(r"\w+(?=:)|[<\[&]|ghost", fields)))
    for one, other in itertools.combinations(structs, 2):
        same = difflib.SequenceMatcher(None, one[2], other[2], autojunk=False).ratio()
        if len(one[2]) >= 4 and len(other[2]) >= 4 and same >= 0.7:
            yield f"{one[0]} struct {one[1]} ~ {other[0]} struct {other[1]} ({same:.2f})"


def point3():
    yield from lines_with(r"^ *(for \(?[a-z_]+\)? in .*\.\..*|while .*|loop) \{")
    for path, line, name, _, _, body in functions():
        if re.search(r"for \w+ in [^{]*\{\s*if [^{]*\{\s*return ", body) and ".." not in body.split("for ")[1].split("{")[0]:
            yield f"{path}:{line}: {name} looks through a list by hand"
        if re.search(r"for .*\{(.|\n)*\b(\w+) \+= 1;", body):
            yield f"{path}:{line}: {name} counts by hand"


def point4():
    yield from lines_with(r"^impl(<.*>)? (Clone|Copy|PartialEq|Eq|PartialOrd|Ord|Default|Hash|Debug)(<.*>)? for ")
    yield from lines_with(r"fn (same|show|from|parse|to)_[a-z_]*[(<]")
    yield from lines_with(r"match \*?(code|kind|word) \{")


def point5():
    by_crate = {}
    for path, line, name, params, clauses, _ in functions():
        crate = path.split(os.sep)[1]
        for clause in set(re.sub(r"^ *(requires|ensures\*?)[a-z_ ]*", r"\1 ", c.strip()) for c in clauses):
            by_crate.setdefault((crate, clause), []).append(name)
        for pair in itertools.combinations(sorted(set(params) - {"heap"}), 2):
            by_crate.setdefault((crate, "parameters " + ", ".join(pair)), []).append(name)
    for (crate, what), names in sorted(by_crate.items()):
        if len(names) >= 3:
            yield f"{crate}: {what}: {', '.join(names)}"


def point6():
    yield from lines_with(r"^ {4}(pub(\(crate\))? )?[a-z_]+: (Vec<|\[[A-Za-z]+; |&'a mut \[|&'a \[)")
    yield from lines_with(r"^ {4}(pub(\(crate\))? )?(len|count|end|head|first|used): (usize|u16|u8),$")


def point7():
    yield from lines_with(r"(: fn\(|dyn |impl Fn|Box<dyn)")
    for path, line, name, _, _, body in functions():
        arms = re.findall(r"=> ([a-z_.:]+)\(", body)
        if len(arms) >= 3:
            yield f"{path}:{line}: {name} chooses between {', '.join(arms)}"


def point8():
    for crate in sorted(os.listdir("crates")):
        total = files = bare = 0
        for root, _, names in os.walk(os.path.join("crates", crate, "proofs")):
            for name in names:
                if name.endswith(".antt"):
                    text = open(os.path.join(root, name), encoding="utf-8").read()
                    files += 1
                    total += text.count("\n")
                    bare += len(re.findall(r"= search rules$", text, re.M))
        if files:
            yield f"{crate}: {total} lines in {files} files; {bare} answers only say `search rules`"


POINTS = {str(n): globals()[f"point{n}"] for n in range(1, 9)}
for point in sys.argv[1:] or POINTS:
    found = list(POINTS[point]())
    print(f"== point {point}: {len(found)}")
    for row in found:
        print(row)
