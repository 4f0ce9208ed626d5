#!/usr/bin/env python3
"""Respells the repository's own definitions and lemmas: words in snake case, types in camel case.

usage: python3 tools/respell.py         at the top of the repository, once

It reads every definition of specs/ and proofs/ whose name has a dash, and writes the new name wherever a file
declares it or imports it from one of our crates, in clauses of src/ and, between back quotes, in README.md and docs/.
Names that the check makes (goals and their answers), and names of the library, stay.
"""
import glob
import os
import re
import sys

DECLARED = re.compile(r"^\s*((?:abbrev |unfoldable |pub |data |record )*)([^\s(){}.,;:|]+)((?: \([^)]*\))*) : (.*)$")
NAME = re.compile(r"(?<![\w'·-])(\.?)([^\W\d_][\w']*(?:-[\w']+)+)(?![\w'-])")
IMPORT = re.compile(r"^\s*(?:ghost )?(?:pub )?use Rattle\.(\w+)\.(specs|proofs)\.([^{;\n]*?)\.?\{([^}]*)\}", re.M)


def respelt(name):
    """The new spelling: a type is joined in camel case, anything else by low lines."""
    parts = name.split("-")
    if name[0].isupper():
        return "".join(p[0].upper() + p[1:] for p in parts)
    return "_".join(parts)


def is_answer(kind):
    return re.match(r"(goal|need|needs)\.", kind) is not None


def declarations(text):
    """The names that a file declares, without answers to goals, and those of them that are fields of a record."""
    names, fields, inside = set(), set(), False
    for line in text.splitlines():
        if line.strip().startswith("--"):
            continue
        if re.match(r"^(pub )?record ", line):
            inside = True
        elif line and not line[0].isspace():
            inside = False
        m = DECLARED.match(line)
        if m and not is_answer(m.group(4)):
            names.add(m.group(2))
            if inside and line[0].isspace():
                fields.add(m.group(2))
    return names, fields


def main():
    top = os.getcwd()
    crates = sorted(c for c in os.listdir(os.path.join(top, "crates")) if os.path.isdir(os.path.join(top, "crates", c)))
    antt = sorted(p for part in ("specs", "proofs") for c in crates for p in glob.glob(f"crates/{c}/{part}/**/*.antt", recursive=True))
    code = sorted(p for c in crates for p in glob.glob(f"crates/{c}/src/**/*.rt", recursive=True))
    texts = {p: open(p, encoding="utf-8").read() for p in antt + code}
    by_module, fields, every = {}, set(), set()
    for p in antt:
        names, in_records = declarations(texts[p])
        crate, part, rest = re.match(r"crates/(\w+)/(specs|proofs)/(.*)\.antt", p).groups()
        by_module[(crate, part, rest.replace("/", "."))] = names
        fields |= {n for n in in_records if "-" in n}
        every |= names
    changed = {}
    for p, text in texts.items():
        own = declarations(text)[0] if p.endswith(".antt") else set()
        for crate, part, module, words in IMPORT.findall(text):
            known = by_module.get((crate, part, module), set())
            own |= {w.split(" as ")[0].strip() for w in words.split(",")} & known

        def turn(m):
            dot, name = m.groups()
            if dot:
                return dot + respelt(name) if name in fields else m.group(0)
            return respelt(name) if name in own or name in fields and p.endswith(".antt") else m.group(0)

        after = NAME.sub(turn, text)
        if after != text:
            changed[p] = after
    for p in ["README.md", *sorted(glob.glob("docs/*.md"))]:
        text = open(p, encoding="utf-8").read()
        spelled = lambda m: NAME.sub(lambda n: n.group(1) + respelt(n.group(2)) if n.group(2) in every else n.group(0), m.group(0))
        after = re.sub(r"`[^`\n]+`", spelled, text)
        if after != text:
            changed[p] = after
    for p, after in changed.items():
        with open(p, "w", encoding="utf-8") as f:
            f.write(after)
    print(f"{len(changed)} files respelt")
    return 0


if __name__ == "__main__":
    sys.exit(main())
