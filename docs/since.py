"""since.py REVISION: the contracts of all functions, and the definitions of specs/, against those of a revision.

Compared without remarks, blanks and the file that they stand in: a definition may have moved. Prints each contract or
definition that is not the same, and at the end how many are. Status 1 where one has changed or is gone.
"""
import re
import subprocess
import sys


def git(*words):
    return subprocess.run(("git",) + words, capture_output=True, text=True, check=True).stdout


def files(revision):
    """Path and text of each file of src/ and specs/, at a revision or (none) as it stands here."""
    names = git("ls-tree", "-r", "--name-only", revision) if revision else git("ls-files")
    for path in names.split("\n"):
        if re.match(r"crates/\w+/(src/.*\.rt|specs/.*\.antt)$", path):
            yield path, git("show", f"{revision}:{path}") if revision else open(path, encoding="utf-8").read()


def told(text):
    return re.sub(r"\s+", "", re.sub(r"^\s*(--|//).*$", "", text, flags=re.M))


def contracts(path, text):
    """Each function with its signature and its clauses."""
    within = ""
    for m in re.finditer(r"^impl(?:<[^>]*>)? (\w+)|^ *((?:pub )?(?:extern \"C\" )?fn (\w+).*?)^ *\{ *$", text, re.M | re.S):
        if m.group(1):
            within = m.group(1)
        else:
            inner = within + "::" if m.group(0).startswith(" ") else ""
            yield f"{path} {inner}{m.group(3)}", told(m.group(2))


def definitions(path, text):
    """Each definition of a file with its type and lines."""
    name, lines = None, []
    for line in text.split("\n") + ["pub end"]:
        m = re.match(r"(?:abbrev |unfoldable )?pub (?:record |data )?([^\s(:{]+)", line)
        if m:
            if name:
                yield f"{path.split('/')[1]} {name}", told("\n".join(lines))
            name, lines = m.group(1), []
        if name and not line.startswith("use "):
            lines.append(line)


def collected(revision):
    all_contracts, all_definitions = {}, {}
    for path, text in files(revision):
        if path.endswith(".rt"):
            all_contracts.update(contracts(path, text))
        elif not path.endswith("/Lib.antt"):
            for name, body in definitions(path, text):
                all_definitions.setdefault(name, []).append(body)
    return all_contracts, all_definitions


def main():
    before, now = collected(sys.argv[1]), collected(None)
    changed = 0
    for what, old, new in zip(("contract", "definition"), before, now):
        same = 0
        for name, body in old.items():
            if name in new and (sorted(body) == sorted(new[name]) if what == "definition" else body == new[name]):
                same += 1
            else:
                changed += 1
                print(f"{what} {'changed' if name in new else 'gone'}: {name}")
        for name in new:
            if name not in old:
                print(f"{what} new: {name}")
        print(f"{same} of {len(old)} {what}s the same")
    return 1 if changed else 0


sys.exit(main())
