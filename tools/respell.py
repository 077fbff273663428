#!/usr/bin/env python3
"""Brings the repository's own definitions and lemmas to snake case, after the kit's port.py.

usage: python3 tools/respell.py         at the top of the repository, once; then `rt fmt` in each crate's folder

Every name that a file of specs/ or proofs/ declares (a definition, a lemma, a constructor, a field, a name after `as`) and that has a dash, or
a capital within, becomes snake case. Where two names would fall together in a file that has both, the definition of specs/ takes the plain name,
and the other gets `_lem`. Names that begin with a capital are types and keep it. Functions of src/, strings, inputs and outputs are not touched,
and neither are names that the check makes (goals and steps).
"""
import collections
import os
import re

WORD = re.compile(r"[^\W\d](?:[\w'\-]*[\w'])?", re.U)
# lemmas that stand beside another library's word of their new name
BESIDE = {"bit-and"}
# lemmas that are never seen with the definition: only functions of src/ have their name where it is
APART = {"counts_of"}
# types whose new name is not the old one in snake case
TYPES = {"Wrote-by": "WroteBy", "zeroPriority": "ZeroPriority", "unannounced": "Unannounced"}
STRING = re.compile(r'b?"(?:[^"\\]|\\.)*"')
OF_A_GOAL = re.compile(r"(?:^|[\s(,])c\.(?:[\w\-']+\.)*$")
MODS = r"(?:pub |abbrev |unfoldable |private |instance )*"
DECL = re.compile(r"(?m)^" + MODS + r"([^\s:(){}.]+)((?:\s*[({][^)}\n]*[)}])*)\s+:\s+(.*)$")
INNER = re.compile(r"(?m)^\s+(?:pub )?([^\s:(){}.]+)\s+:\s+")


def files(kinds):
    for top, dirs, names in os.walk("crates"):
        dirs[:] = sorted(d for d in dirs if d != "out")
        for n in sorted(names):
            if n.endswith(kinds):
                yield os.path.join(top, n)


def snake(n):
    if n in TYPES:
        return TYPES[n]
    n = n.replace("-", "_")
    if n[0].isupper():
        return n
    return re.sub(r"(?<=[a-z0-9'_])([A-Z])", lambda m: ("" if n[m.start() - 1] == "_" else "_") + m.group(1).lower(), n)


def odd(n):
    return snake(n) != n


def declared(path, text):
    """The names that the file declares, each with whether it is a definition of specs/."""
    spec = "/specs/" in path
    of_function = path.endswith("/Proof.antt")
    for b in re.split(r"(?m)^(?=\S)", text):
        head = b.split("\n", 1)[0]
        m = DECL.match(head)
        if m and not (of_function and (m.group(3).startswith("tie.") or m.group(1).endswith(("-spec", "_spec")))):
            yield m.group(1), spec
        m = re.match(MODS + r"(?:record|data) ([^\s:(){}]+)", head)
        if m:
            yield m.group(1), spec
        for i in INNER.finditer(b):
            yield i.group(1), spec
        if head.startswith("use "):
            for a in re.finditer(r" as ([^\s,}]+)", head):
                yield a.group(1), False


def words(text):
    return set(WORD.findall(text))


def names_and_files():
    names, seen = collections.defaultdict(set), {}
    for p in files((".antt", ".rt")):
        text = open(p, encoding="utf-8").read()
        seen[p] = words(STRING.sub('""', text))
        if p.endswith(".antt"):
            for n, spec in declared(p, text):
                names[n].add(spec)
        else:
            for l in text.splitlines():
                if l.startswith("ghost use "):
                    for a in re.finditer(r" as ([^\s,}]+)", l):
                        names[a.group(1)].add(True)
    return names, seen


def table():
    names, seen = names_and_files()
    groups = collections.defaultdict(list)
    for n in names:
        groups[snake(n)].append(n)
    new = {}
    for s, olds in groups.items():
        olds.sort(key=lambda n: (True not in names[n], "-" in n, n))
        first, rest = olds[0], olds[1:]
        if odd(first):
            new[first] = s + "_lem" if first in BESIDE else s
        for n in rest:
            together = n not in APART and [p for p, w in seen.items() if n in w and any(o in w for o in olds if o != n)]
            t = s + "_lem" if together else s
            if t != n:
                new[n] = t
            if together:
                print("fall together:", n, first, together[0])
    for p, w in seen.items():
        for n in w & set(new):
            if new[n] in w:
                print("already there:", p, n, new[n])
    return new


def fields():
    """The fields that records declare: the only names that are turned after a path that begins with `c.`, the facts at a goal."""
    found = set()
    for p in files((".antt",)):
        for b in re.split(r"(?m)^(?=\S)", open(p, encoding="utf-8").read()):
            if re.match(MODS + "record ", b):
                found |= {i.group(1) for i in INNER.finditer(b)}
    return found


def main():
    new, own = table(), fields()

    def turn(m):
        n = m.group(0)
        if n in new and n not in own and OF_A_GOAL.search(m.string[max(0, m.start() - 300):m.start()]):
            return n
        return new.get(n, n)

    for p in files((".antt", ".rt")):
        text = open(p, encoding="utf-8").read()
        parts, at = [], 0
        for m in STRING.finditer(text) if p.endswith(".rt") else ():
            parts += [WORD.sub(turn, text[at:m.start()]), m.group(0)]
            at = m.end()
        out = "".join(parts) + WORD.sub(turn, text[at:])
        if out != text:
            with open(p, "w", encoding="utf-8") as f:
                f.write(out)
    with open("tools/respelled.txt", "w", encoding="utf-8") as f:
        f.write("".join(f"{a} {b}\n" for a, b in sorted(new.items())))
    print(len(new), "names")


if __name__ == "__main__":
    main()
