#!/usr/bin/env python3
"""Brings this repository's own definitions and lemmas to the spelling of today's Rattle. Run once, at the top, after the kit's port.py.

Words are in snake case. A dash stays where it joins two names, as in `length-bind`; a plain word is added with `_`, as in `and_swap`.
Types, modules, functions of src/, exported names, strings, inputs and outputs keep their names. Files named specs/Contracts.antt, a name that
Rattle makes itself now, get one that says whose contracts they are.
"""

import os
import re
import subprocess
import sys

# a letter that begins or goes on in a name of antt
NAME = r"[^\s(){}\[\],;:.\"λ]+"
TOKEN = re.compile(NAME)
DEFINED = re.compile(r"^\s*(?:unfoldable |abbrev )*(?:pub )?(?:unfoldable |abbrev )*(" + NAME + r")(?:\s+[({].*[)}])?\s*:(?!=)")
CAMEL = re.compile(r"(?<=[a-z0-9])(?=[A-Z])")

# the library's words that own names are joined to
WORDS = set("length append map set take drop get_or add sub mul and or not sum filter replicate reverse count zero suc true false cond".split())
# names that the library has, too: no file here means the library's by them, but they stay where they are
KEPT = set("all-at or-none at-end rest-is first-is holds-first or-zero sum-zero sum-add column-is and-true under-is or-false drop-replicate not-below below-zero map-set map-cons map-bind count-append".split())
# where two names would fall together, or a field or a word of a clause has the name: the one that is respelled gets this instead
INSTEAD = {"getD-set-past": "get_or-set_past"}
CONTRACTS = {"row_change": "ChangeContracts", "step_effect": "EffectContracts", "step_meets": "MeetContracts", "step_reads": "ReadContracts", "step_thread": "ThreadContracts"}


def files(suffix, *parts):
    for folder, dirs, names in os.walk(os.path.join("crates")):
        dirs[:] = sorted(d for d in dirs if d != "out")
        for n in sorted(names):
            p = os.path.join(folder, n)
            if n.endswith(suffix) and (not parts or p.split(os.sep)[2] in parts):
                yield p


def read(p):
    with open(p, encoding="utf-8") as f:
        return f.read()


def snake(name):
    return "-".join(CAMEL.sub("_", part).lower() if CAMEL.search(part) and part[0].islower() else part for part in name.split("-"))


def shared(p):
    """A file of definitions or of lemmas, not the proof of one function."""
    return not p.endswith("Proof.antt")


def own_names():
    """The names that files of definitions and lemmas define, and every name in camel case that begins small."""
    defined, seen = set(), set()
    for p in files(".antt", "specs", "proofs"):
        for line in read(p).split("\n"):
            if line.lstrip().startswith("--"):
                continue
            seen.update(m.group(0) for m in TOKEN.finditer(line) if not line[: m.start()].endswith(".") and not line[m.end() :].startswith("."))
            m = DEFINED.match(line)
            if m and shared(p):
                defined.add(m.group(1))
    return defined, seen


def respelled(defined, seen):
    new = {}
    for t in seen:
        if t[:1].islower() and CAMEL.search(t.split("-")[0]) or any(p[:1].islower() and CAMEL.search(p) for p in t.split("-")):
            new[t] = snake(t)
    plain = {new.get(d, d) for d in defined if "-" not in d} | WORDS
    for d in defined:
        if "-" not in d.strip("-") or d in KEPT or "→" in d or not re.match(r"[A-Za-z]", d):
            continue
        parts = new.get(d, d).split("-")
        out = parts[0]
        for a, b in zip(parts, parts[1:]):
            out += ("-" if a in plain and b in plain else "_") + b
        if out != d:
            new[d] = out
    for d, n in INSTEAD.items():
        if d in seen:
            new[d] = n
    return {d: n for d, n in new.items() if d != n}


def clauses(text):
    """The parts of a source file that are no code: ghost lines, and what stands in the braces of a clause."""
    spans = []
    for m in re.finditer(r"^\s*(?:pub )?ghost use [^;]*;", text, re.M):
        spans.append(m.span())
    for m in re.finditer(r"\b(?:requires|ensures|ghost)\*?(?: \w+)?:? \{", text):
        depth, i = 1, m.end()
        while i < len(text) and depth:
            depth += {"{": 1, "}": -1}.get(text[i], 0)
            i += 1
        spans.append((m.end(), i - 1))
    return sorted(set(spans))


def turned(text, new, fields):
    """Names by `new`; behind a dot only those of `fields`."""
    def one(m):
        t = m.group(0)
        before = text[m.start() - 1] if m.start() else ""
        if before == "." and t not in fields and not text[: m.start()].endswith("λ."):
            return t
        return new.get(t, t)
    return TOKEN.sub(one, text)


def main():
    defined, seen = own_names()
    new = respelled(defined, seen)
    # a lemma that would have its function's name
    for d in sorted(defined & new.keys()):
        if "-" in d and (new[d] in seen or any(e != d and new[e] == new[d] for e in new)):
            new[d] += "_lem"
    # and one that port.py gave the name of a function that is turned now
    for n in sorted(set(new.values())):
        if n in seen and n not in new:
            new[n] = n + "_lem"
    # names in camel case are only this repository's, so they are turned behind a dot, too
    fields = {d for d in new if CAMEL.search(d)}
    fallen = {}
    for d, n in new.items():
        fallen.setdefault(n, set()).add(d)
        if n in seen and n not in new:
            fallen[n].add(n)
    together = {n: d for n, d in fallen.items() if len(d) > 1}
    if "--show" in sys.argv:
        for n, d in sorted(together.items()):
            print("falls together:", n, sorted(d))
        for d, n in sorted(new.items()):
            print(d, n)
        return 0
    if together:
        print("names fall together, nothing was written:", together)
        return 1
    for p in list(files(".antt", "specs", "proofs")):
        lines = read(p).split("\n")
        # comments keep their words but for names between backquotes
        out = []
        for line in lines:
            code, dash, comment = line.partition("-- ")
            if dash and code.strip() == "":
                comment = re.sub(r"`[^`]*`", lambda m: turned(m.group(0), {"`" + k: "`" + v for k, v in new.items()} | new, fields), comment)
                line = code + dash + comment
            else:
                line = turned(line, new, fields)
            out.append(line)
        with open(p, "w", encoding="utf-8") as f:
            f.write("\n".join(out))
    for p in list(files(".rt", "src")):
        text = read(p)
        for a, b in reversed(clauses(text)):
            text = text[:a] + turned(text[a:b], new, fields) + text[b:]
        with open(p, "w", encoding="utf-8") as f:
            f.write(text)
    for crate, name in CONTRACTS.items():
        old = os.path.join("crates", crate, "specs", "Contracts.antt")
        if os.path.exists(old):
            subprocess.run(["git", "mv", old, os.path.join("crates", crate, "specs", name + ".antt")], check=True)
            lib = os.path.join("crates", crate, "specs", "Lib.antt")
            text = read(lib)
            with open(lib, "w", encoding="utf-8") as f:
                f.write(re.sub(r"^pub mod Contracts$", "pub mod " + name, text, flags=re.M))
            for p in list(files(".antt", "specs", "proofs")) + list(files(".rt", "src")):
                text = read(p)
                with open(p, "w", encoding="utf-8") as f:
                    f.write(text.replace(f"Rattle.{crate}.specs.Contracts.", f"Rattle.{crate}.specs.{name}."))
    print(len(new), "names respelled")
    return 0


if __name__ == "__main__":
    raise SystemExit(main())
