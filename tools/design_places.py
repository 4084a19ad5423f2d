#!/usr/bin/env python3
"""Lists places in the sources that docs/DESIGN-PASS.md counts and no search by grep finds.

    tools/design_places.py twins    functions whose bodies are the same but for names, types, numbers and texts
    tools/design_places.py facts    facts that the contracts of three or more functions ask or promise
    tools/design_places.py groups   three or more parameters that three or more functions take together
    tools/design_places.py counts   the table of counts by crate, as Markdown
"""
import collections
import glob
import itertools
import os
import re
import sys

TOP = os.path.dirname(os.path.dirname(os.path.abspath(__file__)))
WORDS = set("fn let mut if else match while for in return loop pub struct enum impl true false break self Self as".split())
HEAD = re.compile(r"^( *)(?:pub(?:\(crate\))? )?fn (\w+)")


def functions():
    """Each function: its file, name, head (signature and contract) and body."""
    for path in sorted(glob.glob(TOP + "/crates/*/src/**/*.rt", recursive=True)):
        lines = open(path).read().split("\n")
        at = 0
        while at < len(lines):
            found = HEAD.match(lines[at])
            if not found:
                at += 1
                continue
            indent = found.group(1)
            end = at
            while not re.match(indent + r"\}", lines[end]) and end + 1 < len(lines):
                end += 1
            block = lines[at:end]
            opens = [i for i, line in enumerate(block) if line == indent + "{"]
            start = opens[-1] if opens else next((i for i, line in enumerate(block) if line.endswith("{")), 0)
            yield os.path.relpath(path, TOP + "/crates"), found.group(2), block[:start + 1], block[start + 1:]
            at = end + 1


def shape(body):
    text = re.sub(r"//[^\n]*", "", "\n".join(body))
    text = re.sub(r'b?"[^"]*"', "T", text)
    text = re.sub(r"b'[^']*'", "0", text)
    text = re.sub(r"\b[A-Za-z_]\w*\b", lambda m: m.group(0) if m.group(0) in WORDS else "x", text)
    text = re.sub(r"\b\d\w*\b", "0", text)
    return re.sub(r"\s+", " ", text).strip()


def twins():
    groups = collections.defaultdict(list)
    for path, name, _, body in functions():
        if len(body) >= 3:
            groups[shape(body)].append(path + " " + name)
    return [group for group in groups.values() if len(group) > 1]


def facts():
    seen = collections.defaultdict(set)
    for path, name, head, _ in functions():
        text = re.sub(r"\s+", " ", " ".join(head))
        for clause in re.findall(r"requires(?: \w+)? \{(.*?)\}(?= requires| ensures| \{|$)", text):
            for part in clause.split(" × "):
                part = re.sub(r"\.(old|now|new)\b", "", part.strip("() "))
                seen[part].add(path + " " + name)
    return [[fact] + sorted(places) for fact, places in seen.items() if len(places) >= 3]


def groups():
    seen = collections.defaultdict(set)
    for path, name, head, _ in functions():
        text = " ".join(head)
        inside = text[text.find("(") + 1:].split(")")[0]
        names = [p.split(":")[0].strip() for p in inside.split(",") if ":" in p]
        names = [p.replace("mut ", "") for p in names if p not in ("console", "rt")]
        crate = path.split("/")[0]
        for three in itertools.combinations(sorted(set(names)), 3):
            seen[(crate,) + three].add(path + " " + name)
    return [[" ".join(key)] + sorted(places) for key, places in sorted(seen.items()) if len(places) >= 3]


SEARCHES = [
    ("enums", r"^ *(pub(\(crate\))? )?enum "),
    ("flags", r"^ +(pub )?[a-z_]+: bool,"),
    ("`-> u8`", r"-> u8( \{)?$"),
    ("loops", r"^ *(while|loop)\b"),
    ("by hand", r"fn (eq|same|same_[a-z_]+|order_of|below|is_before|lesser|greater|least|larger|worse|put_bytes|copy[a-z_]*|[a-z_]*number|of_number)\("),
    ("arrays", r"^ +(pub )?[a-z_]+: \[.*; .*\],"),
    ("calls handed over", r"fn\(|dyn |impl Fn|: Fn"),
]


def counted_crates():
    lines = [line for line in open(TOP + "/crates.txt").read().split("\n") if line and line[0] != "#"]
    return [re.split(r"[ :]", line)[0] for line in lines]


def lines_of(crate, part, names):
    for folder, _, files in os.walk(f"{TOP}/crates/{crate}/{part}"):
        for name in files:
            if re.fullmatch(names, name):
                yield from open(os.path.join(folder, name)).read().split("\n")


def counts():
    found = {name: rows for name, rows in (("twins", twins()), ("facts", facts()), ("groups", groups()))}
    head = ["crate"] + [name for name, _ in SEARCHES] + list(found) + ["answers"]
    table = ["| " + " | ".join(head) + " |", "|---" * len(head) + "|"]
    sums = [0] * (len(head) - 1)
    for crate in counted_crates():
        row = [sum(1 for line in lines_of(crate, "src", r".*\.rt") if re.search(search, line)) for _, search in SEARCHES]
        row += [sum(1 for places in rows if re.search(rf"(^|\n){crate}[ /]", "\n".join(places))) for rows in found.values()]
        row += [sum(1 for line in lines_of(crate, "proofs", r"Answers\.antt") if re.match(r"[a-z].* =", line))]
        sums = [a + b for a, b in zip(sums, row)]
        table.append("| " + crate + " | " + " | ".join(str(n) for n in row) + " |")
    table.append("| all | " + " | ".join(str(n) for n in sums) + " |")
    print("\n".join(table))
    return 0


def main():
    if sys.argv[1:] == ["counts"]:
        return counts()
    what = {"twins": twins, "facts": facts, "groups": groups}.get(sys.argv[1] if len(sys.argv) > 1 else "")
    if not what:
        print(__doc__)
        return 2
    rows = what()
    for row in sorted(rows, key=lambda row: (-len(row), row)):
        print(" · ".join(row))
    print(len(rows), what.__name__)
    return 0


sys.exit(main())
