#!/usr/bin/env python3
"""Counts, in crates/*/src, the places that the points of docs/DESIGN-PASS.md speak of.

Usage: tools/design_places.py [POINT]   at the top of the repository; with a point it lists the places too
"""
import collections
import glob
import re
import sys

SOURCES = sorted(glob.glob("crates/*/src/**/*.rt", recursive=True))


def lines(pattern, keep=lambda line: True):
    """Places whose line fits the pattern."""
    found = []
    for path in SOURCES:
        for number, line in enumerate(open(path, encoding="utf8"), 1):
            if re.search(pattern, line) and keep(line):
                found.append(f"{path}:{number}: {line.strip()}")
    return found


def functions():
    """Each function with its name, its place and its lines from `fn` to the closing brace."""
    for path in SOURCES:
        text = open(path, encoding="utf8").read().split("\n")
        i = 0
        while i < len(text):
            match = re.match(r"\s*(?:pub )?(?:extern \"C\" )?fn (\w+)", text[i])
            if match:
                indent = re.match(r"\s*", text[i]).group(0)
                j = i
                while j < len(text) and text[j] != indent + "}":
                    j += 1
                yield match.group(1), f"{path}:{i + 1}", text[i : j + 1]
                i = j
            i += 1


def shape(body):
    """A body with its names, types, numbers and strings left out."""
    code = [re.sub(r"//.*", "", line) for line in body]
    code = [line for line in code if not re.match(r"\s*(requires|ensures|×|fn |pub fn )", line)]
    text = re.sub(r'b?"[^"]*"|b\'.\'', "S", " ".join(code))
    text = re.sub(r"\b(?!(?:let|mut|if|else|match|while|for|in|return|true|false)\b)[A-Za-z_]\w*", "N", text)
    return re.sub(r"\s+", " ", re.sub(r"\b\d\w*", "0", text))


def twins():
    """Groups of functions with bodies of one shape and of at least four lines."""
    groups = collections.defaultdict(list)
    for name, place, body in functions():
        if len(body) >= 7:
            groups[shape(body)].append(f"{place}: {name}")
    return ["\n    ".join(group) for group in groups.values() if len(group) > 1]


def repeated_facts():
    """Facts that stand in the `requires` of three or more functions."""
    facts = collections.Counter()
    for _, _, body in functions():
        for line in body:
            match = re.match(r"\s*requires (?:\w+ )?\{ (.*) \}", line)
            for fact in match.group(1).split(" × ") if match else []:
                facts[re.sub(r"\b[a-z]\w*(?:\.now|\.old)?\b(?= [≡≤<]| \d|$)", "x", fact.strip("() "))] += 1
    return [f"{count} {fact}" for fact, count in facts.most_common() if count >= 3]


POINTS = {
    "1 enums": lambda: lines(r"^(pub )?enum "),
    "1 flags beside values": lambda: lines(r"^ +(pub )?\w+: bool,"),
    "1 numbers for none": lambda: lines(r"//.*(0 for none|where there is none|else 17|17 if|16 of any other|which is no kind)"),
    "1 structs of one field": lambda: [
        place for place in lines(r"^pub struct (Slot|Cell|Field|Component|Wanted) ")
    ],
    "2 twins": twins,
    "3 loops that count by hand": lambda: lines(r"^\s*(while|loop)\b"),
    "4 equality by hand": lambda: lines(r"^(pub )?fn (same_|is_same|\w+_number\(|\w+_order\()"),
    "5 facts in three contracts": repeated_facts,
    "6 arrays with a count beside": lambda: lines(r"fn .*\[[A-Za-z]\w*; \w+\], (\w*count|n): usize|columns: usize, kinds: \[u8; 4\]"),
    "7 switches": lambda: lines(r"match kind \{"),
    "8 proof files of functions": lambda: sorted(
        glob.glob("crates/*/proofs/**/Answers.antt", recursive=True)
        + glob.glob("crates/*/proofs/**/Invariants.antt", recursive=True)
    ),
}


def main():
    wanted = sys.argv[1] if len(sys.argv) > 1 else None
    for point, places in POINTS.items():
        found = places()
        print(f"{point}: {len(found)}")
        if wanted and point.startswith(wanted):
            for place in found:
                print(f"  {place}")


main()
