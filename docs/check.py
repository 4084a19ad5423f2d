"""What the documents name has to be there, and a file of specs/ has to be of the kind that it says.

In a document, outside blocks of code:
  links   [words](TARGET) leads to a file, and TARGET#PART to a heading in it; those to other sites are left alone.
  files   a text in backticks that starts with a folder of the repository is a file or a folder there; one with NAME in
          it is a pattern. `Name.antt` alone is sought beside the file that was named before it in the same line.
  pairs   `a`, `b` in `FILE`: each is declared in FILE.
  rows    in a table with the columns File and Name, each name of a row is declared in one of the row's files. A cell
          File that is empty stands for the one above it. The row's other cells may hold any text.
  words   in READING.md and GUARANTEE.md every other single word in backticks is declared somewhere in crates/, or taken
          by specs/ from the toolchain's library; in the other documents every word_like_this, but edits' names, what
          stands in the bindings, and names of Rust's and PostgreSQL's (NOT_OURS).
  quotes  a block of code that opens with ```antt FILE has lines of FILE, word for word.
  all     each definition in a file of the first kind (below) of the layers has such a row in READING.md.
  edits   in REFUSED.md, below the heading of a crate, each call of a row is a function of that crate, each edit of a
          row is in its refused/ or must-fail/, and each edit there has a row for each of its wrong programs at least. Each public
          call of the layers has two rows and an edit; a row with the column Crate was tried by hand.
          A call that begins with _ is the end of a function's name.
In specs/, a file is of the first kind ("rest on these definitions") or of the second ("No public contract rests on
these", or "cites these"), and says so in its first lines; Lib.antt is neither. A file of the first kind uses none of the second, and a
public function's contract names nothing of the second. READING.md and DECISIONS.md name each file of the second kind,
READING.md each of the exports.
A library is a layer, the exports, for programs or for test programs. Those for programs are proved safe and promise
nothing, so they have no specs/ and no edits; those for test programs may have both. Neither has C functions, and no
layer depends on one.
Where the first lines of a file of specs/ name a theorem, `NAME` in ../proofs/FILE, it is there.
"""
import glob
import os
import re
import sys

DOCUMENTS = ["README.md", "docs/READING.md", "docs/GUARANTEE.md", "docs/DECISIONS.md", "docs/REFUSED.md",
             "docs/DIFFERENCES.md", "docs/CALLS.md", "docs/PERFORMANCE.md", "docs/HUB.md", "docs/COMPARING.md",
             "docs/GROUP.md"]
STRICT = ["docs/READING.md", "docs/GUARANTEE.md"]
FOLDERS = ("crates/", "docs/", "tests/", "bindings/", "differential/", "share/", ".ci/")
KEYWORDS = set("pub abbrev unfoldable record data where let in use mod as ensures requires result now old new ghost "
               "Type Unit TheVariants".split())
LAYERS = ("text", "line", "map", "store", "pad")
FOR_PROGRAMS = ("desk", "desk_records", "desk_pads", "desk_store")
FOR_TESTS = ("parts", "spelling")
NOT_OURS = ("add_env_mappings add_included_mappings black_box gilrs_core pg_terminate_backend pg_xact_status "
            "synchronous_commit").split()
WORD = re.compile(r"[^\W\d][\w'′%-]*$")
FIRST = re.compile(r"rests? on these definitions; they assume nothing")
SECOND = re.compile(r"No public contract (rests on|cites) these")

declared = {}
EDITS = sorted(glob.glob("crates/*/refused/*.edit") + glob.glob("crates/*/must-fail/*.edit"))
BESIDE = {os.path.basename(p)[:-len(".edit")] for p in EDITS} | set(NOT_OURS)
for header in glob.glob("bindings/*.h"):
    BESIDE |= set(re.findall(r"\braspteal_\w+", open(header, encoding="utf-8").read()))


def names_in(path):
    """What a file of antt or Rattle declares: definitions, theorems, fields, cases; functions, types, constants."""
    if path in declared:
        return declared[path]
    names = set()
    for line in open(path, encoding="utf-8"):
        if path.endswith(".antt"):
            m = re.match(r"(?:abbrev |unfoldable )*(?:pub )?(?:record |data )?([^\s(:{]+)", line)
            if m and m.group(1) not in ("use", "mod", "pub", "unfolding", "--"):
                names.add(m.group(1))
            m = re.match(r"\s+(?:pub )?([^\s(:{]+) :\s", line)
        else:
            for m in re.finditer(r"\b(?:fn|struct|enum|const|static|mod|impl) (\w+)", line):
                names.add(m.group(1))
            m = re.match(r"\s+(?:pub )?(\w+)(?:,|\(|:| \{|$)", line)
        if m:
            names.add(m.group(1).strip("«»"))
    declared[path] = names
    return names


def library_names():
    names = set()
    for path in glob.glob("crates/*/specs/*.antt"):
        for used, group in re.findall(r"^use (\S+?)\.\{(.*)\}", open(path, encoding="utf-8").read(), re.M):
            if not re.match(r"Rattle\.(" + "|".join(os.listdir("crates")) + r")\.", used):
                names.update(n.split(" as ")[0].strip() for n in group.split(","))
    return names


def every_name():
    names = set(KEYWORDS) | library_names() | {os.path.basename(p) for p in glob.glob("crates/*")}
    for path in glob.glob("crates/**/*", recursive=True):
        if path.endswith((".antt", ".rt")) and "/out/" not in path:
            names |= names_in(path)
    return names


def has(path, name):
    """Whether a file declares a name; of `A::b` both."""
    return all(part in names_in(path) for part in name.split("::"))


class Document:
    def __init__(self, path, everything):
        self.path, self.everything = path, everything
        self.missing, self.counts, self.listed = [], dict(links=0, files=0, names=0, quotes=0, edits=0), []
        self.section, self.columns, self.file_cell = "", None, []
        self.edits, self.rows, self.tried, self.gated, self.call = [], set(), {}, set(), ""

    def fail(self, number, what):
        self.missing.append(f"{self.path}:{number}: {what}")

    def count(self, kind, number, what):
        self.counts[kind] += 1
        self.listed.append(f"{self.path}:{number}: {kind[:-1]} {what}")

    def link(self, number, target):
        if re.match(r"\w+:", target):
            return
        self.count("links", number, target)
        name, _, part = target.partition("#")
        path = os.path.normpath(os.path.join(os.path.dirname(self.path), name)) if name else self.path
        if not os.path.exists(path):
            return self.fail(number, f"no such file: {target}")
        if part and path.endswith(".md"):
            heads = re.findall(r"^#+ (.*)$", open(path, encoding="utf-8").read(), re.M)
            if part not in [re.sub(r"[^\w -]", "", h.lower()).replace(" ", "-") for h in heads]:
                self.fail(number, f"no such heading: {target}")

    def file(self, number, text, before):
        """The path that a text in backticks names, or None."""
        if re.search(r"NAME|CRATE|\*|\s|<", text):
            return None
        if not text.startswith(FOLDERS):
            if not re.match(r"\w+\.antt$", text):
                return None
            text = os.path.join(os.path.dirname(before), text)
        self.count("files", number, text)
        if not os.path.exists(text):
            self.fail(number, f"no such file: {text}")
            return None
        return text

    def declared_in(self, number, name, paths):
        self.count("names", number, name)
        paths = [p for p in paths if p.endswith((".antt", ".rt"))]
        self.rows.update((p, name) for p in paths)
        if not any(has(p, name) for p in paths):
            self.fail(number, f"no {name} in {', '.join(paths)}")

    def line(self, number, line):
        for target in re.findall(r"\]\(([^)\s]+)\)", line):
            self.link(number, target)
        spans, before = [], ""
        for m in re.finditer(r"`([^`]+)`", line):
            path = self.file(number, m.group(1), before)
            before = path or before
            spans.append((m.start(), m.end(), m.group(1), path))
        paired = set()
        for k, (start, _, text, path) in enumerate(spans):
            if path and path.endswith((".antt", ".rt")) and line[:start].endswith("` in "):
                end, j = start - len(" in "), k - 1
                while j >= 0 and spans[j][1] == end and not spans[j][3]:
                    if WORD.match(spans[j][2].split("::")[-1]):
                        self.declared_in(number, spans[j][2], [path])
                        paired.add(j)
                    link = re.search(r"(, | and )$", line[:spans[j][0]])
                    end = spans[j][0] - len(link.group(1)) if link else -1
                    j -= 1
        if self.columns is not None and line.startswith("|"):
            paired |= self.row(number, line, spans)
        for k, (_, _, text, path) in enumerate(spans):
            name = k not in paired and not path and all(WORD.match(p) for p in text.split("::"))
            if name and (self.path in STRICT or re.match(r"[a-z]+[A-Z]|[a-z0-9]+_[a-z0-9_]*$", text) and text not in BESIDE):
                self.count("names", number, text)
                if not all(p in self.everything for p in text.split("::")):
                    self.fail(number, f"nothing is called {text}")

    def row(self, number, line, spans):
        cells, at = [], 1
        for cell in line.strip().strip("|").split("|"):
            cells.append((cell, at, at + len(cell)))
            at += len(cell) + 1
        cell = {c: x for c, x in zip(self.columns, cells)}
        done = set()
        if "File" in cell and "Name" in cell:
            text, start, end = cell["File"]
            files = [s[3] for s in spans if start <= s[0] < end and s[3]]
            self.file_cell = files or (self.file_cell if not text.strip() else [])
            _, start, end = cell["Name"]
            for k, s in enumerate(spans):
                done.add(k)
                if start <= s[0] < end and self.file_cell:
                    self.declared_in(number, s[2], self.file_cell)
        if self.path == "docs/REFUSED.md" and "Edit" in cell:
            self.refused(number, cell, self.section, cell["Edit"][0].strip().strip("`"))
        elif self.path == "docs/REFUSED.md" and "Crate" in cell and "Call" in cell:
            self.refused(number, cell, cell["Crate"][0].strip(), "")
        return done

    def refused(self, number, cell, crate, edit):
        text = cell.get("Call", ("",))[0]
        if text.strip() == "Call" or text.startswith("-"):
            return
        self.call = text.strip().strip("`") or self.call
        self.tried[crate, self.call] = self.tried.get((crate, self.call), 0) + 1
        if edit:
            self.count("edits", number, edit)
            if not any(p.startswith(f"crates/{crate}/") and p.endswith(f"/{edit}.edit") for p in EDITS):
                self.fail(number, f"no such edit in {crate}: {edit}")
            self.edits.append((crate, edit))
            self.gated.add((crate, self.call))
        for call in re.findall(r"`([\w:]+)`", text):
            self.count("names", number, call)
            sources = glob.glob(f"crates/{crate}/src/**/*.rt", recursive=True)
            ends = call.startswith("_") and any(n.endswith(call) for p in sources for n in names_in(p))
            if not ends and not any(has(p, call) for p in sources):
                self.fail(number, f"no function {call} in {crate}")

    def quote(self, number, line, path):
        self.count("quotes", number, line)
        if line.strip() not in [t.strip() for t in open(path, encoding="utf-8")]:
            self.fail(number, f"no such line in {path}: {line}")

    def check(self):
        code, quoted = False, None
        for number, line in enumerate(open(self.path, encoding="utf-8"), 1):
            line = line.rstrip("\n")
            if line.startswith("```"):
                code, quoted = not code, None
                if line.startswith("```antt "):
                    quoted = self.file(number, line[len("```antt "):], "")
            elif quoted and line:
                self.quote(number, line, quoted)
            if code or line.startswith(("    ", "```")):
                continue
            if line.startswith("#"):
                self.section = line.lstrip("# ").split(":")[0].strip("`")
            if not line.startswith("|"):
                self.columns = None
            elif self.columns is None:
                self.columns = [c.strip() for c in line.strip().strip("|").split("|")]
            self.line(number, line)
        if self.path == "docs/REFUSED.md":
            for path in EDITS:
                key = (path.split("/")[1], os.path.basename(path)[:-len(".edit")])
                programs = len(re.findall("^# refused at: ", open(path, encoding="utf-8").read(), re.M))
                if self.edits.count(key) < max(programs, 1):
                    self.fail(0, f"{self.edits.count(key)} rows for the {programs} wrong programs of {path}")
            for crate in LAYERS:
                for call in public_calls(crate):
                    if self.tried.get((crate, call), 0) < 2:
                        self.fail(0, f"fewer than two wrong programs for {call} of {crate}")
                    if (crate, call) not in self.gated:
                        self.fail(0, f"no wrong program in the gate for {call} of {crate}")
        if self.path == "docs/READING.md":
            for path in [p for c in LAYERS for p in sorted(glob.glob(f"crates/{c}/specs/*.antt")) if kind(p) == 1]:
                for name in definitions(path):
                    if (path, name) not in self.rows:
                        self.fail(0, f"no row for {name} in {path}")
            shared = open(self.path, encoding="utf-8").read().split("### Names that two files have")[-1].split("\n#")[0]
            for name in shared_names():
                if f"`{name}`" not in shared:
                    self.fail(0, f"two files have {name}, and the page doesn't say so")
        return self


def definitions(path):
    """The definitions of a file of antt, without fields and cases."""
    return re.findall(r"^(?:abbrev |unfoldable )?pub (?:record |data )?([^\s(:{]+)", open(path, encoding="utf-8").read(), re.M)


def shared_names():
    """The definitions that two files of the first kind have under one name."""
    found, twice = {}, set()
    for path in [p for p in sorted(glob.glob("crates/*/specs/*.antt")) if kind(p) == 1]:
        for name in definitions(path):
            if found.setdefault(name, path) != path:
                twice.add(name)
    return sorted(twice)


def kind(path):
    head = "".join(open(path, encoding="utf-8").readlines()[:4])
    return 1 if FIRST.search(head) else 2 if SECOND.search(head) else 0


def module(path):
    return path.split("/")[1], os.path.basename(path)[:-len(".antt")]


def public_sources(crate):
    """The files whose `pub fn` others can call: the public modules below lib.rt, and those with C functions."""
    found = {p for p in glob.glob(f"crates/{crate}/src/*.rt") if 'pub extern "C"' in open(p, encoding="utf-8").read()}
    open_ones = [f"crates/{crate}/src/lib.rt"]
    for path in open_ones:
        folder = os.path.dirname(path) if path.endswith("/lib.rt") else path[:-len(".rt")]
        if os.path.exists(path):
            found.add(path)
            open_ones += [f"{folder}/{m}.rt" for m in re.findall(r"^pub mod (\w+);", open(path).read(), re.M)]
    return sorted(found)


def public_calls(crate):
    """The functions that another crate can call, those of a type as Type::name."""
    for path in public_sources(crate):
        within = ""
        for m in re.finditer(r"^impl(?:<[^>]*>)? (\w+)|^( *)pub fn (\w+)", open(path, encoding="utf-8").read(), re.M):
            within = m.group(1) or within
            if m.group(3):
                yield f"{within}::{m.group(3)}" if m.group(2) else m.group(3)


def theorems_named(path):
    """The theorems that the first lines of a file of specs/ name, `NAME` in ../proofs/FILE, and that are not there."""
    head = " ".join(line[3:].strip() for line in open(path, encoding="utf-8").readlines()[:4] if line.startswith("-- "))
    for names, file in re.findall(r"((?:`[\w-]+`(?:, | and )?)+) in \.\./proofs/(\w+\.antt)", head):
        proofs = os.path.join(os.path.dirname(path), "../proofs", file)
        for name in re.findall(r"`([\w-]+)`", names):
            if not os.path.exists(proofs) or not has(proofs, name):
                yield f"{name} in {file}"


def kinds(crate, kinds_of):
    """What is wrong with the kinds of a crate's files of specs/, and with the names in its public contracts."""
    wrong, count = [], 0
    used = r"Rattle\.(\w+)\.specs\.(\w+)\b"
    for path in sorted(glob.glob(f"crates/{crate}/specs/*.antt")):
        if path.endswith("/Lib.antt"):
            continue
        count += 1
        if kinds_of[module(path)] == 0:
            wrong.append(f"{path}: doesn't say whether public contracts rest on it")
        for page in ("docs/READING.md", "docs/DECISIONS.md") if kinds_of[module(path)] == 2 else ():
            if not path.endswith("/Inner.antt") and f"`{path}`" not in open(page, encoding="utf-8").read():
                wrong.append(f"{path}: {page} doesn't name it among the files for proofs")
        if crate == "exports" and f"{os.path.basename(path)}`" not in open("docs/READING.md", encoding="utf-8").read():
            wrong.append(f"{path}: docs/READING.md doesn't name it")
        wrong += [f"{path}: no theorem {n}" for n in theorems_named(path)]
        for m in re.finditer(r"^(?:unfoldable )?(?:pub )?use " + used, open(path, encoding="utf-8").read(), re.M):
            if kinds_of[module(path)] == 1 and kinds_of.get(m.groups()) == 2:
                wrong.append(f"{path}: rests on {'/'.join(m.groups())}, which no public contract may rest on")
    for path in public_sources(crate):
        text, inner = open(path, encoding="utf-8").read(), set()
        for m in re.finditer(r"^ghost use " + used + r"\.\{(.*)\};", text, re.M):
            if kinds_of.get(m.groups()[:2]) == 2:
                inner.update(n.strip() for n in m.group(3).split(","))
        for m in re.finditer(r"^\s*pub (?:extern \"C\" )?fn (\w+)(.*?)^\s*\{$", text, re.M | re.S):
            count += 1
            if re.search(r"\brequires\b", m.group(2)):
                wrong.append(f"{path}: {m.group(1)} has a requires")
            for name in inner & set(re.findall(r"[\w'′-]+", m.group(2))):
                wrong.append(f"{path}: the contract of {m.group(1)} names {name}")
    return wrong, count


def libraries():
    """What is wrong with the crates that are libraries, by what they are for."""
    wrong, found = [], []
    depends = dict(re.findall(r"^(\w+)(?: staticlib)?:(.*)$", open("crates.txt", encoding="utf-8").read(), re.M))
    for crate in [c for c in depends if os.path.exists(f"crates/{c}/src/lib.rt")]:
        found.append(crate)
        if crate in FOR_PROGRAMS + FOR_TESTS:
            parts = [p for p in (f"crates/{crate}/{it}" for it in ("specs", "refused", "must-fail")) if os.path.exists(p)]
            sources = glob.glob(f"crates/{crate}/src/**/*.rt", recursive=True)
            wrong += [f"{p}: a library for programs has none" for p in parts if crate in FOR_PROGRAMS]
            wrong += [f"{p}: has C functions" for p in sources if 'extern "C"' in open(p, encoding="utf-8").read()]
            continue
        if crate not in LAYERS + ("exports",):
            wrong.append(f"crates/{crate}: is no layer, not the exports, and not for programs")
        below = [d for d in depends[crate].split() if d in FOR_PROGRAMS + FOR_TESTS]
        wrong += [f"crates/{crate}: depends on {d}, which is for programs" for d in below]
    wrong += [f"crates.txt: no library {c}" for c in LAYERS + FOR_PROGRAMS + FOR_TESTS if c not in found]
    return wrong, len(found)


def main():
    listing, passed, failed = "--list" in sys.argv, 0, 0
    everything = every_name()
    for path in [p for p in DOCUMENTS if os.path.exists(p)]:
        d = Document(path, everything).check()
        if listing:
            print("\n".join(d.listed))
        print(f"{path}: " + ", ".join(f"{n} {what}" for what, n in d.counts.items()))
        print("".join(f"  {m}\n" for m in d.missing), end="")
        passed, failed = passed + (not d.missing), failed + bool(d.missing)
    specs = [p for p in glob.glob("crates/*/specs/*.antt") if not p.endswith("/Lib.antt")]
    kinds_of = {module(p): kind(p) for p in specs}
    for crate in sorted({module(p)[0] for p in specs}):
        wrong, count = kinds(crate, kinds_of)
        print(f"crates/{crate}: {count} files of specs/ and public contracts, by their kind")
        print("".join(f"  {w}\n" for w in wrong), end="")
        passed, failed = passed + (not wrong), failed + bool(wrong)
    wrong, count = libraries()
    print(f"{count} libraries, by what they are for")
    print("".join(f"  {w}\n" for w in wrong), end="")
    passed, failed = passed + (not wrong), failed + bool(wrong)
    print(f"{passed} passed, {failed} failed")
    return 1 if failed else 0


sys.exit(main())
