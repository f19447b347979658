#!/usr/bin/env python3
"""Spells the repository's own definitions and lemmas as today's Rattle does: words in snake case, types in camel case.

usage: python3 tools/respell.py [--list]     at the top of the repository, once, after the kit's port.py

A name is one that specs/*.antt or proofs/*.antt of a crate defines, with a dash in it. A type or a fact, which begins with a capital,
gets camel case (All-held: AllHeld); a lemma on a fact keeps the fact's name before a dash (All-apart-alike: AllApart-alike); every other
name gets underscores for its dashes. Names of Rust items, of the library, and those that Rattle makes from a source (returns-.., loop-..)
stay. The names change in .antt and .rt files, must-fail edits, and the Markdown pages. With --list the names are printed, and nothing changes.
"""
import os
import re
import sys

WORD = re.compile(r"(?<![\w·'-])[A-Za-z_][A-Za-z0-9_]*(?:-[A-Za-z0-9_]+)*'*(?![\w'])(?!-[\w])")
TOP = re.compile(r"^((?:private |abbrev |unfoldable |instance |pub |opaque )*)(record |data )?((?:pub )?)([A-Za-z_][^\s:(){}·]*)(?:\s[({].*?)?\s*:(?:\s|$)")
MEMBER = re.compile(r"^\s+(?:pub )?([A-Za-z_][^\s:(){}·]*)\s*:\s(?!.*=)")
STATED = re.compile(r"^\s+pub ([A-Za-z_][^\s:(){}·]*)\s*:\s")
MADE = re.compile(r"^(returns|loop|invariant|aborts|call|preserved|measure|goal|while|for)\b-?")
# a record of a refused feed and an enum of a Rust source, which camel case would make one
APART = {"Feed-fault": "FeedFailure"}
# names that the kit's script has left half turned, or that have no dash or an operator in them
LEFT = {"Laid_out": "LaidOut", "codedState": "coded_state", "count-readies": "count_readies"}
# Rattle makes these from names in a source, or the library has them
NOT_OURS = {"get_or-set_same", "get_or-set_other", "get_or-take", "getD-any"}


def files(root, ends):
    for d, ds, fs in os.walk(root):
        ds[:] = sorted(x for x in ds if x not in ("out", ".git", "target"))
        for f in sorted(fs):
            if f.endswith(ends):
                yield os.path.join(d, f)


def is_function_proof(p):
    return os.path.basename(p) in ("Answers.antt", "Invariants.antt", "Proof.antt", "Choices.antt")


def own_names(root):
    """The names with where each is defined, which of them are types, and which are fields or constructors."""
    names, types, members = {}, set(), set()
    for p in files(os.path.join(root, "crates"), ".antt"):
        answers = is_function_proof(p)
        in_type = False
        for line in open(p, encoding="utf-8"):
            if not line[:1].isspace():
                in_type = bool(re.match(r"(pub )?(record|data) ", line))
            m = TOP.match(line)
            if m:
                name = m.group(4)
                rest = line[m.end():]
                if answers and (MADE.match(name) or "goal." + name in rest):
                    continue
                if m.group(2) or re.search(r"(^|→ )Type \d+\s*$", rest.rstrip()):
                    types.add(name)
                names.setdefault(name, p)
            elif not answers:
                m = STATED.match(line) or MEMBER.match(line)
                if m:
                    names.setdefault(m.group(1), p)
                    if in_type:
                        members.add(m.group(1))
    return {n: p for n, p in names.items() if "-" in n and n not in NOT_OURS}, types, members


def camel(s):
    parts = s.split("-")
    return parts[0] + "".join(x[:1].upper() + x[1:] for x in parts[1:])


def respelled(name, types):
    if name in APART:
        return APART[name]
    if not name[:1].isupper():
        return name.replace("-", "_")
    if name in types:
        return camel(name)
    best = max((t for t in types if name.startswith(t + "-")), key=len, default=None)
    if best is None:
        return camel(name)
    return camel(best) + "-" + name[len(best) + 1:].replace("-", "_")


def main():
    root = os.getcwd()
    names, types, members = own_names(root)
    # a name that ends in an operator, as bares-++, keeps the dash before it
    new = {n: respelled(n, types) for n in names if WORD.fullmatch(n)}
    new.update(LEFT)
    new = {n: m for n, m in new.items() if n != m}
    names.update((n, root) for n in LEFT)
    back = {}
    for n, m in new.items():
        back.setdefault(m, []).append(n)
    if "--list" in sys.argv[1:]:
        for n in sorted(new):
            print(n, new[n], os.path.relpath(names[n], root), "FALLS-TOGETHER" if len(back[new[n]]) > 1 else "")
    for p in list(files(os.path.join(root, "crates"), (".antt", ".rt", ".edit"))) + [
        p for p in files(root, ".md") if os.path.join("docs", "PORT") not in p
    ]:
        t = open(p, encoding="utf-8").read()
        words = set(WORD.findall(t))
        hit = {w for w in words if w in new}
        for w in sorted(hit):
            if new[w] in words:
                print("falls together:", os.path.relpath(p, root), w, new[w])
        if "--list" in sys.argv[1:]:
            continue
        made = is_function_proof(p)

        def turn(m):
            w = m.group()
            before = m.string[m.start() - 1 : m.start()]
            # what a proof of a function cites after a dot is a name that Rattle made, but for a field
            if made and before == "." and w not in members:
                return w
            return new.get(w, w)

        if p.endswith(".md"):
            u = re.sub(r"`[^`\n]*`", lambda m: WORD.sub(turn, m.group()), t)
        elif p.endswith(".rt"):
            parts = re.split(r'("(?:[^"\\\n]|\\.)*")', t)
            u = "".join(x if i % 2 else WORD.sub(turn, x) for i, x in enumerate(parts))
        else:
            u = WORD.sub(turn, t)
        if u != t:
            open(p, "w", encoding="utf-8").write(u)


main()
