#!/usr/bin/env python3
"""Brings the repository's own definitions and lemmas to today's spelling: everything but types, facts and modules is in snake case.

usage: python3 tools/spelling.py      at the top, once, right after the kit's port.py

It reads the names that specs/ and proofs/ declare (top-level names, constructors, fields), respells those in lower camel case or with dashes,
and puts the new name wherever the old one stands as a whole word: in specs/, proofs/, the clauses of src/ and the must-fail edits, and in comments
and pages where it stands between backquotes. Definitions come first, so that a definition may get the name of the function that it is about; a
constructor, a field or a lemma whose new name stands somewhere already keeps its dashes, so that no two names fall together. These are listed.
Functions of src/, exported names, strings, inputs and outputs are not touched: none of them is in lower camel case or has a dash.
"""
import glob
import re

WORD = re.compile(r"[^\s(){}\[\],;.\"`:λ→]+")
DECL = re.compile(r"^(?:(?:abbrev|unfoldable|pub)\s+)*([^\s:(){}]+)\s+:(?:\s|$)")
HEAD = re.compile(r"^(?:pub )?(record|data) ")
PART = re.compile(r"^  (?:pub )?([^\s:(){}]+) :")
QUOTED = re.compile(r"`[^`\n]*`")


def read(p):
    with open(p, encoding="utf-8") as f:
        return f.read()


def declared():
    """The names that specs/ and proofs/ declare, each with its kind: definition, part (a constructor or a field) or lemma."""
    names = {}
    files = glob.glob("crates/*/specs/**/*.antt", recursive=True) + glob.glob("crates/*/proofs/**/*.antt", recursive=True)
    for p in sorted(files):
        if p.endswith("/Proof.antt"):
            continue
        inside = False
        for line in read(p).split("\n"):
            if HEAD.match(line):
                inside = True
            elif line and not line[0].isspace():
                inside = False
                m = DECL.match(line)
                if m and not line.startswith(("--", "use ", "unfolding ")):
                    kind = "definition" if re.match(r"^(pub )?(abbrev|unfoldable) ", line) else "lemma"
                    names.setdefault(m.group(1), set()).add(kind)
            elif inside and PART.match(line):
                names.setdefault(PART.match(line).group(1), set()).add("part")
    order = ("definition", "part", "lemma")
    return {n: next(k for k in order if k in kinds) for n, kinds in names.items()}, order


def lower(n):
    return re.sub(r"([a-z0-9])([A-Z])", lambda m: m.group(1) + "_" + m.group(2).lower(), n)


def snake(n):
    return lower(n.replace("-", "_").replace("\u2032", "'"))


def choose(names, order, here):
    turned, said = {}, []
    for n in sorted(names, key=lambda n: (order.index(names[n]), n)):
        if not n[0].islower():
            continue
        to = snake(n)
        if names[n] == "definition":
            if to != n and to in here:
                said.append((n, to))
        elif to in turned.values():
            to = lower(n.replace("_", "-"))
            said.append((n, to))
        elif to != n and to in here:
            to = lower(n)
            said.append((n, to))
        if to != n:
            turned[n] = to
    for n, to in said:
        print(f"{names[n]} {n}: {to}")
    return turned


USE = re.compile(r"^(?:ghost )?use ([\w.+\-]+?)\.\{([^}]*)\}", re.M)


def from_outside(text, own):
    """The names that a file imports from libraries: they keep their spelling there."""
    names = set()
    for m in USE.finditer(text):
        part = m.group(1).split(".")
        if not (part[0] == "Rattle" and len(part) > 1 and part[1] in own):
            for item in m.group(2).split(","):
                names |= set(re.split(r"\s+as\s+", item.strip()))
    return names


def respell(p, text, turned):
    code = lambda t: WORD.sub(lambda m: turned.get(m.group(0), m.group(0)), t)
    quoted = lambda t: QUOTED.sub(lambda m: code(m.group(0)), t)
    if p.endswith(".md"):
        return quoted(text)
    lines = []
    for line in text.split("\n"):
        mark = {"t": "--", "r": "//"}.get({".antt": "t", ".rt": "r"}.get(p[p.rfind("."):], ""), None)
        if p.endswith(".edit"):
            lines.append(code(line) if line.startswith(("old:", "new:")) else quoted(line))
        elif line.lstrip().startswith(mark):
            lines.append(quoted(line))
        else:
            lines.append(code(line))
    return "\n".join(lines)


def main():
    names, order = declared()
    texts = [p for p in glob.glob("crates/**/*", recursive=True) if p.endswith((".antt", ".rt", ".edit")) and "/out/" not in p]
    here = set()
    for p in texts:
        if not p.endswith(".edit"):
            here |= set(WORD.findall(read(p)))
    turned = choose(names, order, here)
    # a lemma that port.py gave the name that a definition now gets: only where it stands as a name of its own, not in a path
    held = {n: to for n, to in turned.items() if "-" in to and "_" in n and "-" not in n}
    for n in held:
        del turned[n]
    own = {p.split("/")[1] for p in texts}
    count = 0
    for p in texts + ["README.md"] + sorted(glob.glob("docs/*.md")):
        text = read(p)
        new = text
        if p.endswith(".antt"):
            for n, to in held.items():
                new = re.sub(r"(?<![\w.'?\-])" + re.escape(n) + r"(?![\w.'?\-])", to, new)
        outside = from_outside(text, own) if not p.endswith(".md") else set()
        new = respell(p, new, {n: to for n, to in turned.items() if n not in outside} if outside & turned.keys() else turned)
        if new != text:
            with open(p, "w", encoding="utf-8") as f:
                f.write(new)
            count += 1
    print("apart:", held)
    print(f"{len(turned) + len(held)} names, {count} files")


main()
