#!/usr/bin/env python3
"""Brings the names of definitions and lemmas to Rattle's spelling: words in snake case, a capital only where a fact or a type is named.

usage: python3 tools/respell.py [--names]     at the top of the repository, once, after the kit's port.py

Functions of src/, exported names, strings, inputs and outputs keep their names. Written are:
- every name that begins small and has a capital inside (stateIn, toBits-join): state_in, to_bits-join;
- every field and constructor with a dash (label-fits): label_fits;
- names that would then fall together with another name of their module (APART);
- the same names between backquotes in README.md and docs/;
- the clause that a unit is as long as its rows, which port.py leaves starred: a plain clause, named after the parameter.
With --names it only prints the names, old and new, and those that would fall together.
"""

import os
import re
import sys

# a name of antt: what stands between spaces, brackets and punctuation
NAME = re.compile(r"[^\s(){};,.\"`:|]+")
HUMP = re.compile(r"(?<=[a-z0-9'])([A-Z])")
DEFINED = re.compile(r"^(\s*)(?:(?:pub|abbrev|unfoldable|data|record)\s+)*([^\s(){};,.:]+)\s*(?:\(.*\)\s*)?:\s")
LENGTH = re.compile(r"requires\*(?: \w+)? \{ do ⌜ \(← ⟦(\w+)\.len\(\)⟧\) ≡ (\w+) ⌝ \}")

# Fields and lemmas that would have the name of a definition in their scope: the file (or all), the name as port.py leaves it, and the new one.
APART = [
    ("", "labels-rise", "rising_labels"),
    ("", "profile-fits", "fitting_profile"),
    ("crates/model/proofs/HierarchyExamples.antt", "parent_live", "parent_live-house"),
    ("crates/equal_images/proofs/ParentProbes.antt", "parent_live", "parent_is_live"),
    ("crates/invariants/proofs/Hierarchy.antt", "parent_live", "parent_is_live"),
    ("crates/model/proofs/Modes.antt", "any_held", "any_held-has"),
    ("crates/invariants/proofs/Wall.antt", "any_held", "any_held-has"),
    ("crates/model/proofs/Decisions.antt", "of_number", "of_number-number"),
]


def files(ends):
    for folder, dirs, names in os.walk("crates"):
        dirs[:] = sorted(d for d in dirs if d != "out")
        for n in sorted(names):
            if n.endswith(ends):
                yield os.path.join(folder, n)


def text(path):
    with open(path, encoding="utf-8") as f:
        return f.read()


def snake(name):
    """The parts between dashes that begin small, in snake case; a part that begins with a capital names a fact and stays."""
    parts = []
    for part in name.split("-"):
        small = part[:1].islower()
        parts.append(HUMP.sub(lambda m: "_" + m.group(1).lower(), part) if small else part)
    return "-".join(parts)


def defined():
    """The names that the repository's antt files define: at the margin, and as fields and constructors."""
    top, fields = set(), set()
    for p in files(".antt"):
        inside = False
        for line in text(p).splitlines():
            if line and not line[0].isspace():
                inside = bool(re.match(r"(pub )?(data|record) ", line))
            m = DEFINED.match(line)
            if not m:
                continue
            if not m.group(1):
                top.add(m.group(2))
            elif inside:
                fields.add(m.group(2))
            else:
                top.add(m.group(2))
    return top, fields


def mapping():
    top, fields = defined()
    to = {}
    for n in top | fields:
        if n[:1].islower() and snake(n) != n:
            to[n] = snake(n)
    for n in fields - top:
        if "-" in n and n[:1].islower():
            to[n] = snake(n).replace("-", "_")
    return to


def together(to):
    """New names that another name has already."""
    taken = set()
    for p in files((".antt",)):
        taken.update(NAME.findall(text(p)))
    seen = {}
    for old, new in sorted(to.items()):
        if new in taken and new not in to:
            yield old, new, "stands already"
        if new in seen:
            yield old, new, "and " + seen[new]
        seen[new] = old


def of_mut(source, parameter, at):
    """Whether the parameter of the function whose clause stands at this place is a &mut."""
    head = source.rfind("fn ", 0, at)
    m = re.search(r"\b" + parameter + r": (&mut )?", source[head:at])
    return bool(m and m.group(1))


def plain_lengths(source):
    def clause(m):
        when = "old" if of_mut(source, m.group(1), m.start()) else "now"
        return f"requires {m.group(1)}_len {{ length {m.group(1)}.{when} ≡ {m.group(2)} }}"

    return LENGTH.sub(clause, source)


def write(path, old, new):
    if new != old:
        with open(path, "w", encoding="utf-8") as f:
            f.write(new)


def main():
    to = mapping()
    if "--names" in sys.argv:
        for old, new in sorted(to.items()):
            print(old, new)
        for old, new, why in together(to):
            print("falls together:", old, new, why)
        return
    for p in files((".antt", ".rt", ".edit")):
        here = to | {old: new for where, old, new in APART if where in ("", p)}
        old = text(p)
        new = NAME.sub(lambda m: here.get(m.group(0), m.group(0)), old)
        if p.endswith(".rt"):
            new = plain_lengths(new)
        write(p, old, new)
    for p in ["README.md"] + [os.path.join("docs", n) for n in sorted(os.listdir("docs")) if n.endswith(".md")]:
        old = text(p)
        new = re.sub(r"`[^`\n]+`", lambda m: NAME.sub(lambda n: to.get(n.group(0), n.group(0)), m.group(0)), old)
        write(p, old, new)


if __name__ == "__main__":
    main()
