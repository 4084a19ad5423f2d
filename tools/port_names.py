#!/usr/bin/env python3
"""Brings the repository's own names of definitions and lemmas to today's spelling.

usage: python3 tools/port_names.py [--list]    at the top, once, after port.py

    hexDigit, whole-guarantee, utf8-1   ->   hex_digit, whole_guarantee, utf8_1

Words are in snake case. A dash stays where it joins two names of functions, as in written-length; a plain word is joined by an
underscore. It turns crates/*/{specs,proofs}/**/*.antt, the clauses and comments of crates/*/src/**/*.rt, crates/*/{refused,must-fail}/*.edit,
and the pages README.md and docs/*.md. Names of Rust items (fields, functions, constants, types, variants), strings and file names
stay. Where two old names would fall together, or a new name is one of src/, it stops and names them (CHOSEN has what was chosen).
--list prints the names, old and new, and writes nothing.
"""

import collections
import glob
import re
import sys

# Names that would fall together with another, or with a field, parameter or constant of src/, and what they are called instead.
CHOSEN = {
    "allDigits": "all_digits_of",
    "allNamed": "all_named_of",
    "bodyBytes": "body_bytes_of",
    "by-owner": "by_owners",
    "fieldStep": "field_step_of",
    "goesOn": "goes_on_at",
    "has-place": "has_place_lem",
    "heldAfter": "held_after_event",
    "isShare": "is_share_of",
    "mapWith": "map_with_entry",
    "nameIn": "name_in_line",
    "noIndex": "no_index_of",
    "no-owner": "for_no_owner",
    "noneFilled": "none_filled_of",
    "putMap": "put_map_of",
    "first-at": "first_at_lem",
    "hasCode": "has_code_in",
    "hasPlace": "has_place_in",
    "isAxis": "is_axis_of",
    "nameLen": "name_len_of",
    "nameStart": "name_start_of",
    "noUuid": "no_uuid_of",
}

TOKEN = re.compile(r"[\w′'-]+")
DECLARED = re.compile(r"^(?:(?:abbrev|unfoldable|infix[lr]? \d+) )?(?:pub )?(?:abbrev |unfoldable )?([^\s:(){}]+)(?: [^:\n]*)? :(?= |\n)", re.M)
FIELD = re.compile(r"^\s+(?:\| )?(?:pub )?([a-z][\w′'-]*) :(?= |\n)", re.M)
USE = re.compile(r"^\s*(?:pub |unfoldable |ghost )*use ([^\s{;]+?)(?:\.\{([^}]*)\})?(?: as ([^\s;]+))?;?$", re.M)


def read(path):
    with open(path, encoding="utf-8") as f:
        return f.read()


def camel(word):
    return re.match(r"[a-z]", word) and re.search(r"[a-z0-9][A-Z]", word)


def snake(word):
    """One part of a name between dashes: its words in lower case, with underscores between."""
    if not re.match(r"[a-z]", word):
        return word
    return re.sub(r"([a-z0-9])([A-Z])", r"\1_\2", word).lower()


def uncommented(text):
    return re.sub(r"--[^\n]*", "", text)


def main():
    own = {p.split("/")[1] for p in glob.glob("crates/*/src")}
    antt = sorted(p for d in ("specs", "proofs") for p in glob.glob(f"crates/*/{d}/**/*.antt", recursive=True))
    sources = sorted(glob.glob("crates/*/src/**/*.rt", recursive=True))
    declared = {"specs": set(), "laws": set(), "fields": set()}
    foreign, tokens, there = set(), set(), set()
    for path in antt:
        text = uncommented(read(path))
        place = "specs" if "/specs/" in path else "laws"
        if not path.endswith("/Proof.antt"):
            declared[place] |= {n for n in DECLARED.findall(text)}
            declared["fields"] |= set(FIELD.findall(text))
        for where, names, _ in USE.findall(text):
            parts = where.split(".")
            if not (len(parts) > 1 and parts[0] == "Rattle" and parts[1] in own):
                foreign |= {n.split(" as ")[0].strip() for n in (names or parts[-1]).split(",")}
        tokens |= set(TOKEN.findall(text))
        there |= set(DECLARED.findall(text)) | set(FIELD.findall(text))
    code = set()
    for path in sources:
        text = re.sub(r"//[^\n]*", "", read(path))
        text = re.sub(r"^ghost use[^;]*;", "", text, flags=re.M)
        text = re.sub(r"^\s*(requires|ensures|ghost)\b[^\n]*(\n\s+[^\n]*)*?\}\n", "\n", text, flags=re.M)
        code |= set(re.findall(r"\b[A-Za-z_]\w*", text))
        for where, names in re.findall(r"ghost use ([^\s{;]+?)\.\{([^}]*)\};", read(path)):
            if where.split(".")[1] not in own:
                foreign |= {n.strip() for n in names.split(",")}
    rust = {"fields": set(), "params": set(), "consts": set(), "fns": set()}
    for path in sources:
        text = re.sub(r"//[^\n]*", "", read(path))
        rust["fns"] |= set(re.findall(r"\bfn (\w+)", text))
        rust["consts"] |= set(re.findall(r"\b(?:const|static) (\w+)", text))
        rust["fields"] |= set(re.findall(r"^\s+(?:pub(?:\(\w+\))? )?(\w+): [^,\n]*,$", text, re.M))
        for sig in re.findall(r"\bfn \w+[^(]*\(([^)]*)\)", text):
            rust["params"] |= set(re.findall(r"(?:mut )?(\w+): ", sig))
    functions = {n for n in declared["specs"] | foreign if "-" not in n}
    # What another kit's library calls its words.
    known = {snake(n) for n in functions} | {"get_or", "length", "take", "drop", "set", "map", "append", "mem"}
    new = {}
    mine = (declared["specs"] | declared["laws"] | declared["fields"]) - foreign
    for name in sorted(tokens):
        if name in foreign or not re.match(r"[a-z]", name):
            if name not in mine or not re.match(r"[A-Z]", name) or "-" not in name:
                continue
        if name not in mine and not camel(name.split("-")[0]):
            continue
        parts = ["get_or" if p == "getD" else snake(p) for p in name.split("-")]
        if name in mine and len(parts) > 1:
            out = parts[0]
            for i, part in enumerate(parts[1:], 1):
                left = "-".join(out.split("-")[-1:])
                right = [part] + ["_".join(parts[i:j]) for j in range(i + 2, len(parts) + 1)]
                joins = (left in known or left[:1].isupper()) and any(r in known for r in right)
                out += ("-" if joins else "_") + part
            to = out
        else:
            to = "-".join(parts)
        to = CHOSEN.get(name, to).replace("′", "'")
        if to != name:
            new[name] = to
    for name in sorted(tokens):
        if "′" in name and name not in new:
            new[name] = name.replace("′", "'")
    # Two names that fall together, and names that are there already.
    bad = 0
    # A lemma that would have a function's name gets '_lem'.
    taken = {b for a, b in new.items() if "-" not in a} | {n for n in there if n not in new}
    for a, b in list(new.items()):
        if "-" in a and a not in CHOSEN and b in taken:
            new[a] = b + "_lem"
    back = collections.defaultdict(list)
    for a, b in new.items():
        back[b].append(a)
    for b, olds in sorted(back.items()):
        clash = []
        if len(olds) > 1:
            clash.append("from " + ", ".join(olds))
        if b in there and b not in new:
            clash.append("there already" + (" (foreign)" if b in foreign else ""))
        for kind in ("fields", "params", "consts"):
            if b in rust[kind]:
                clash.append("a " + kind[:-1] + " of src/")
        if clash:
            bad += 1
            print(f"clash: {b}: {olds[0]}: {'; '.join(clash)}")
    if "--list" in sys.argv:
        for a, b in sorted(new.items()):
            print(f"{a} {b}{' fn' if b in rust['fns'] else ''}")
        return 1 if bad else 0
    if bad:
        print(f"{bad} names fall together; nothing was written")
        return 1
    def turn(text):
        return TOKEN.sub(lambda m: new.get(m.group(0), m.group(0)), text)
    def turn_page(text):
        return re.sub(r"`[^`\n]*`", lambda m: turn(m.group(0)), text)
    def turn_rt(text):
        # strings stay
        return re.sub(r'b?"(?:[^"\\\n]|\\.)*"|[\w′\'-]+', lambda m: m.group(0) if m.group(0).lstrip("b").startswith('"') else new.get(m.group(0), m.group(0)), text)
    count = 0
    for path in antt + sources + sorted(glob.glob("crates/*/refused/*.edit") + glob.glob("crates/*/must-fail/*.edit")) + ["README.md"] + sorted(glob.glob("docs/*.md")):
        text = read(path)
        to = turn_rt(text) if path.endswith((".rt", ".antt")) else turn_page(text) if path.endswith(".md") else turn(text)
        if to != text:
            with open(path, "w", encoding="utf-8") as f:
                f.write(to)
            count += 1
    print(f"{len(new)} names, {count} files")
    return 0


if __name__ == "__main__":
    sys.exit(main())
