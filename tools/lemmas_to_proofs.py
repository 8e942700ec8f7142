#!/usr/bin/env python3
"""Moves the lemma files of some crates from specs/ to proofs/, statements unchanged, so that an edit of a definition is refused and not unreadable.

usage: python3 tools/lemmas_to_proofs.py [--check] CRATE..

A file moves where it states something that is no definition, no clause of src/ cites it, and no file that stays cites it. Paths follow, in every crate.
"""
import collections
import glob
import os
import re
import sys


def read(p):
    with open(p, encoding="utf-8") as f:
        return f.read()


def has_lemma(text):
    for line in text.split("\n"):
        if not line or line[0].isspace() or line.startswith(("use ", "--", "mod ", "pub mod ", "pub use ", "unfolding", "}", ")", "]")):
            continue
        m = re.match(r"^((?:pub |abbrev |unfoldable )*)(record |data )?([^\s:(){}]+)\s*(.*)$", line)
        if m and not m.group(2) and m.group(4).startswith((":", "\n")) or (m and not m.group(2) and m.group(4) == ""):
            if "abbrev" not in m.group(1) and "unfoldable" not in m.group(1):
                return True
    return False


def cites(text, module):
    return re.search(re.escape(module) + r"(?![\w.]*\w)(?=[.\s;{]|$)", text) or re.search(re.escape(module) + r"\.\{", text)


def moved(crate):
    files = {}
    for p in sorted(glob.glob(f"crates/{crate}/specs/**/*.antt", recursive=True)):
        name = p[len(f"crates/{crate}/specs/") : -5].replace("/", ".")
        if name != "Lib" and not name.endswith(".Lib"):
            files[name] = read(p)
    code = "".join(read(p) for p in glob.glob("crates/*/src/*.rt"))
    go = {n for n, t in files.items() if has_lemma(t)}
    kept = {n for n in go if cites(code, f"Rattle.{crate}.specs.{n}")}
    go -= kept
    # what stays must not lean on what moves
    changed = True
    while changed:
        changed = False
        for n in sorted(files):
            if n in go:
                continue
            for m in sorted(go):
                if cites(files[n], f"Rattle.{crate}.specs.{m}"):
                    if has_lemma(files[n]) or not cites(code, f"Rattle.{crate}.specs.{n}"):
                        go.add(n)
                    else:
                        print(f"{crate}: {n} stays and cites {m}")
                        go.discard(m)
                    changed = True
                    break
    return files, go, kept


def main():
    check = "--check" in sys.argv
    turned = {}
    for crate in [a for a in sys.argv[1:] if not a.startswith("--")]:
        files, go, kept = moved(crate)
        print(crate, "move:", *sorted(go), "| stay:", *sorted(set(files) - go), "| cited by src:", *sorted(kept))
        if check:
            continue
        lib = f"crates/{crate}/specs/Lib.antt"
        proofs = f"crates/{crate}/proofs/Lib.antt"
        here = read(lib).split("\n")
        there = [l for l in (read(proofs).split("\n") if os.path.exists(proofs) else []) if l]
        os.makedirs(f"crates/{crate}/proofs", exist_ok=True)
        for n in sorted(go):
            os.rename(f"crates/{crate}/specs/{n}.antt", f"crates/{crate}/proofs/{n}.antt")
            here = [l for l in here if l.strip() not in (f"pub mod {n}", f"mod {n}")]
            there.append(f"pub mod {n}")
            turned[f"Rattle.{crate}.specs.{n}"] = f"Rattle.{crate}.proofs.{n}"
        open(lib, "w", encoding="utf-8").write("\n".join(here))
        if there:
            open(proofs, "w", encoding="utf-8").write("\n".join(there) + "\n")
    if turned:
        pattern = re.compile("|".join(re.escape(k) for k in sorted(turned, key=len, reverse=True)) + "")
        pattern = re.compile(r"(" + "|".join(re.escape(k) for k in sorted(turned, key=len, reverse=True)) + r")(?!\w)")
        for p in glob.glob("crates/**/*", recursive=True):
            if p.endswith((".antt", ".rt", ".edit")) and "/out/" not in p:
                t = read(p)
                new = pattern.sub(lambda m: turned[m.group(1)], t)
                if new != t:
                    open(p, "w", encoding="utf-8").write(new)


main()
