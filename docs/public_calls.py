"""The public calls of the layers, read from the sources: see docs/public-calls."""
import re
import sys
from pathlib import Path

LAYERS = ["text", "line", "map", "store", "pad"]
PAGE = Path("docs/CALLS.md")

# A C function is named after its call: raspteal_, the type of a method (or `store`), and the call. These differ.
TYPES = {"AxisOrBtn": "element", "MappingData": "data"}
CROSSES_AS = {
    "start_state": "raspteal_parser_start",
    "step": "raspteal_parser_step",
    "token_at": "raspteal_parser_step",
    # A walker holds a reference, which does not cross: its position and state do.
    "Parser::new": "raspteal_parser_start",
    "Parser::next_token": "raspteal_parser_step",
    # The tables do not cross, nor places in them: the name in an element's row does.
    "find_row": "raspteal_ident_of",
    # What is read crosses from where it is read: the C function goes by `read_mapping`, which has the same definition.
    "parse_sdl_mapping": "raspteal_parse_sdl_mapping",
    # Of a list of numbers a map is made within a build; a C program puts its entries.
    "Mapping::of_numbers": "raspteal_from_data",
    # A refusal crosses within the answer that has it, as number, place and code.
    "Refusal::at": "raspteal_parse_sdl_mapping",
    "Refusal::plain": "raspteal_parse_sdl_mapping",
    "Refusal::of_code": "raspteal_from_data",
    "Error::refusal": "raspteal_parser_step",
    "MapFull::refusal": "raspteal_mapping_put",
    "put_outcome": "raspteal_mapping_put",
    "ParseSdlMappingError::refusal": "raspteal_parse_sdl_mapping",
    "reading_outcome": "raspteal_parse_sdl_mapping",
    "MappingError::refusal": "raspteal_from_data",
    "mapping_outcome": "raspteal_from_data",
    "StoreError::refusal": "raspteal_store_insert",
    "store_outcome": "raspteal_store_insert",
    "SaveError::refusal": "raspteal_store_save",
    "save_outcome": "raspteal_store_save",
    "LookError::refusal": "raspteal_store_found",
    "look_outcome": "raspteal_store_found",
    "near_outcome": "raspteal_store_found_near",
    "Unsound::refusal": "raspteal_store_share",
    "told_outcome": "raspteal_store_share",
    "pad_outcome": "raspteal_pad_raw_event",
}

# Small functions that the crates above call, and no program: they have no C function.
WITHIN = {"find_byte", "find_far", "find_text", "fits", "first_token", "line_size"}

# Calls whose C function has another name.
NAMED = {"event": "raspteal_mapping_event", "share_of": "raspteal_store_share", "next_line": "raspteal_next_line",
         "read_mapping": "raspteal_parse_sdl_mapping"}

# The definitions that give an answer its number.
REFUSING = re.compile(r"^(kind_number|\w+_refusal) :")

# A promise of an answer and a buffer at once; a C function says the two apart. That an ident is short follows from the
# table, and the struct that crosses has room for it. A raw event's call on a pad crosses with the pad after it.
PARTS = {"Wrote": ["write_answer", "write_buffer"], "Builds": ["build_of", "output_of"], "ident_max": [],
         "told_by": ["flat_told"], "pads_told_by": ["flat_pads_told"]}

HEAD = """# The public calls

Every public function of the four layers and of the pad layer beside them, with its contract in words. `docs/public-calls` makes this page from the sources; the gate fails where it is stale.

How to read an entry:

- The first line is the call: its name, its arguments with their types, and after `->` what it hands back. `&[u8]` is a lent text or buffer of bytes that is only read, `&mut [u8]` a lent buffer that may be written, `&[u32]` a list of codes, `usize` a place, a length or a count, `self` the value that the call is made on.
- **Promise** is the contract, as the checker has proved it for every input; no call asks anything of its arguments. `result` is what the call hands back. An argument's name stands for its value at the call, and with a prime (`out'`) for what a lent buffer holds when the call returns. `f x y` is the definition `f`, given x and y; `x.part` is a part of x.
- Below it stand the definitions that the promise cites, each with the words above it and the file that has it. A word in quotation marks is document 01's, document 02's or the RFC's.
- **In C** is the function of `bindings/raspteal.h` that makes the call. Small functions that only the crates above call have none.
- A type that is no number, flag or slice stands in the list at the end of the page, under [Types](#types). What a refusal's number means, and which answer says it, stands before that, under [Refusals](#refusals).
"""

REFUSALS = """## Refusals

Document 01's number of each refusal, its words in the header, and the answers of the layers that say it; the definitions that give each answer its number, place and code are `kind_number`, `full_refusal`, `reading_refusal` (`crates/line/specs/Refusals.antt`), `mapping_refusal` (`crates/map/specs/Refusals.antt`), `store_refusal`, `save_refusal`, `look_refusal`, `unsound_refusal` (`crates/store/specs/Refusals.antt`) and `pad_outcome` (`crates/pad/specs/Refusals.antt`).

| No. | Means | Answers that say it |
|---|---|---|"""

TYPES_HEAD = """## Types

What the calls take and hand back, as the sources declare it. A variant of an enum or a field of a struct is told with its own type; `Code(u32)` is a struct with one field that has no name.
"""


def lines_of(path):
    return path.read_text().split("\n")


def words(comment):
    """The text of comment lines, one sentence after the other."""
    return " ".join(re.sub(r"^\s*(//|--)\s?", "", line).strip() for line in comment).strip()


def comment_above(lines, i, mark):
    """The comment that ends at the line before i, attributes skipped."""
    j = i
    while j > 0 and lines[j - 1].strip().startswith("#["):
        j -= 1
    end = j
    while j > 0 and lines[j - 1].strip().startswith(mark):
        j -= 1
    return lines[j:end]


def head_of(source):
    """The comment that a file starts with."""
    lines = lines_of(source)
    return lines[: next(i for i, line in enumerate(lines) if not line.startswith("//"))]


def public_modules(layer):
    """The module paths that another crate can name, with their files."""
    found = []

    def visit(source, folder, path):
        for line in lines_of(source):
            named = re.match(r"pub mod (\w+);", line)
            if named:
                child = folder / (named[1] + ".rt")
                found.append((path + [named[1]], child))
                visit(child, folder / named[1], path + [named[1]])

    src = Path("crates") / layer / "src"
    visit(src / "lib.rt", src, [])
    return found


class Call:
    """A public function: where it stands, its words, and the clauses of its contract."""

    def __init__(self, layer, module, owner, source, number):
        lines = lines_of(source)
        self.layer, self.module, self.owner = layer, module, owner
        self.place = f"{source}:{number + 1}"
        self.comment = words(comment_above(lines, number, "//"))
        head = [lines[number]]
        while not re.search(r"\b(ensures|requires)\b|\{\s*$", head[-1]):
            number += 1
            head.append(lines[number])
        clauses = []
        while lines[number].strip() != "{":
            clauses.append(lines[number])
            number += 1
        text = " ".join(line.strip() for line in head)
        text = re.split(r"\b(?:ensures|requires)\b", text)[0].strip().rstrip("{").strip()
        self.signature = re.sub(r",\s*\)", ")", re.sub(r"\(\s+", "(", text.replace("pub fn ", "", 1)))
        self.name = re.match(r"\w+", self.signature)[0]
        self.title = f"{owner}::{self.name}" if owner else self.name
        contract = " ".join(line.strip() for line in clauses)
        self.requires = bool(re.search(r"\brequires\b", contract))
        self.promises = [clause_at(contract, m.end()) for m in re.finditer(r"\bensures\*?(?: \w+)? \{", contract)]

    def c_name(self):
        if self.title in CROSSES_AS:
            return CROSSES_AS[self.title]
        if self.title in NAMED:
            return NAMED[self.title]
        if self.owner:
            snake = re.sub(r"(?<=[a-z])(?=[A-Z])", "_", TYPES.get(self.owner, self.owner)).lower()
            return f"raspteal_{snake}_{self.name}"
        return f"raspteal_store_{self.name}" if self.layer == "store" else f"raspteal_{self.name}"


def clause_at(contract, start):
    """The text of a clause whose opening brace ends at `start`, up to the brace that closes it."""
    depth, at = 1, start
    while depth:
        depth += {"{": 1, "}": -1}.get(contract[at], 0)
        at += 1
    return " ".join(contract[start:at - 1].split())


def calls_of(layer, path, source):
    owner, found = None, []
    for i, line in enumerate(lines_of(source)):
        block = re.match(r"impl(?:<[^>]*>)? (\w+)", line)
        if block:
            owner = block[1]
        elif line == "}":
            owner = None
        elif re.match(r"\s*pub fn ", line):
            found.append(Call(layer, path, owner, source, i))
    return found


def imports_of(source, layer):
    """The names of specs/ that a source has imported: name to (crate, file, name), and module aliases."""
    names, aliases = {}, {}
    for line in lines_of(source):
        m = re.match(r"ghost use Rattle\.(\w+)\.specs\.(\w+)(?:\.\{(.*)\})?(?: as (\w+))?;", line)
        if not m or not Path("crates", m[1]).exists():
            continue
        if m[3]:
            for name in m[3].split(","):
                names[name.strip()] = (m[1], m[2], name.strip())
        if m[4]:
            aliases[m[4]] = (m[1], m[2])
    return names, aliases


def cited(promise, imports):
    names, aliases = imports
    found = []
    for m in re.finditer(r"(?:(\w+)\.)?([A-Za-z][\w-]*)", promise):
        if m[1] in aliases:
            one = (*aliases[m[1]], m[2])
        elif m[2] in names and not promise[: m.start()].endswith("."):
            one = names[m[2]]
        else:
            continue
        if one not in found:
            found.append(one)
    return found


def definition(crate, file, name):
    """The words above a definition; those of its section where it has none of its own, and else the file's first ones."""
    path = Path("crates") / crate / "specs" / (file + ".antt")
    lines = lines_of(path)
    for i, line in enumerate(lines):
        if re.match(rf"(?:abbrev |unfoldable )?pub (?:record )?{re.escape(name)} :", line):
            own = comment_above(lines, i, "--")
            while not own and i > 0:
                i -= 1
                if re.match(r"-- ---- ", lines[i]):
                    own = comment_above(lines, i + 1, "--")
            own = own or lines[:1]
            text = re.sub(r"-{4} ", "", words(own)).rstrip(". ")
            return path, text
    return path, None


def promise_words(text):
    """The contract with arguments by their names: x for what it is at the call, x' for what it is after it."""
    text = text.replace("«", "").replace("»", "").replace("specs.", "")
    text = re.sub(r"\b(\w+)\.(?:now|old|entry)\b", r"\1", text)
    text = re.sub(r"\b(\w+)\.new\b", r"\1'", text)
    return text.replace(" ≡ ", " = ").replace(" × ", " and ").strip()


def entry(call, imports):
    out = [f"#### `{call.title}`", "", f"    {call.signature}", ""]
    if call.comment:
        out += [call.comment, ""]
    seen = []
    for text in call.promises:
        out.append(f"**Promise:** `{promise_words(text)}`")
        seen += [one for one in cited(text, imports) if one not in seen]
    out.append("")
    for crate, file, name in seen:
        path, text = definition(crate, file, name)
        out.append(f"- `{name}`: {text} (`{path}`)")
    c_name = "no function of its own" if call.title in WITHIN else f"`{call.c_name()}`"
    out += ["", f"**In C:** {c_name}", ""]
    return out


def page(layers):
    out = [HEAD]
    for layer, modules in layers:
        out += [f"## {layer}", "", words(lines_of(Path("crates") / layer / "src/lib.rt")[:1]), ""]
        for path, source, calls in modules:
            if not calls:
                continue
            out += [f"### {layer}::{'::'.join(path)}", "", words(head_of(source)), ""]
            for call in calls:
                out += entry(call, imports_of(source, layer))
    out += [REFUSALS, *refusals(), "", TYPES_HEAD, *types(layers)]
    return "\n".join(out).rstrip() + "\n"


def refusals():
    """A row for each refusal: number, words, and the variants that the specs give that number."""
    said = {}
    for layer, path in [(layer, p) for layer in LAYERS for p in sorted(Path("crates", layer, "specs").glob("*.antt"))]:
        text = path.read_text()
        enums = {m[2]: m[1] for m in re.finditer(r"\.(\w+)\.TheVariants as (\w+)$", text, re.M)}
        told = r"^\w+ \(?(\w+)\.(\w+)[^=\n]*= (?:Refuses \(|Lo\.CannotLook \()?(?:refusal(?:_at|_of)? )?(\d+)\b"
        for m in re.finditer(told, text, re.M):
            if m[1] in enums and m[3] != "0" and REFUSING.search(text[: m.start()].split("\nabbrev pub ")[-1]):
                variant = f"`{layer}::{enums[m[1]]}::{m[2]}`"
                said.setdefault(int(m[3]), []).append(variant)
        # (an error of one case is a struct: its name alone says what it is)
        alone = r"^abbrev pub \w+ : (?:Result ⊤ )?(\w+) → (?:Result ⊤ )?Refusal\n(?:\w+ \(Ok \w+\) = Ok tt\n)?\w+ (?:\w+|\(Err \w+\)) = (?:Err \()?refusal (\d+)\)?$"
        for m in re.finditer(alone, text, re.M):
            said.setdefault(int(m[2]), []).append(f"`{layer}::{m[1]}`")
    header = Path("bindings/raspteal_numbers.h").read_text()
    for number, means in re.findall(r'case ([1-9]\d*): return "(.+)";', header):
        yield f"| {number} | {means} | {', '.join(dict.fromkeys(said.get(int(number), [])))} |"


def declared(source):
    """(name, declaration in one line, words above it) of each public type of a source."""
    lines = lines_of(source)
    for i, line in enumerate(lines):
        head = re.match(r"pub (?:struct|enum) (\w+)", line)
        if head:
            rest = lines[i : i + 1] if line.rstrip().endswith(";") else lines[i : lines.index("}", i) + 1]
            bare = " ".join(re.sub(r"//.*", "", one).replace("pub ", "").strip() for one in rest)
            bare = re.sub(r",\s*([}\)])", r" \1", re.sub(r"\s+", " ", bare)).strip().rstrip(";")
            yield head[1], bare, words(comment_above(lines, i, "//"))


def types(layers):
    """A line for each type that the calls take and hand back, or that stands in one of these."""
    found = [(f"{layer}::{'::'.join(path)}", *one)
             for layer, modules in layers for path, source, _ in modules for one in declared(source)]
    told = set()
    more = {word for _, modules in layers for _, _, calls in modules for call in calls
            for word in re.findall(r"\w+", call.signature) + [call.owner]}
    while more - told:
        told |= more
        more = {word for _, name, bare, _ in found if name in told for word in re.findall(r"\w+", bare)}
    for place, name, bare, about in found:
        if name in told:
            yield f"- `{bare}`, in {place}" + (f": {about}" if about else "")


def exported():
    """The bodies of the C functions of crates/exports, by name."""
    text = "\n".join(path.read_text() for path in sorted(Path("crates/exports/src").glob("*.rt")))
    found = re.finditer(r'#\[unsafe\(no_mangle\)\]\npub extern "C" fn (\w+)\((.*?)\n\}\n', text, re.S)
    return {m[1]: m[2] for m in found}


def faults(call, imports, exports):
    """What is wrong with a public call, in words."""
    if call.requires:
        yield "has a `requires`"
    if not call.promises:
        yield "has no `ensures`"
    found = [one for text in call.promises for one in cited(text, imports)]
    for crate, file, name in found:
        if not definition(crate, file, name)[1]:
            yield f"cites {name}, which has no words above it in {crate}'s {file}.antt"
    if call.promises and not [one for one in found if one[1] != "Inner"]:
        yield "cites no definition of specs/ outside Inner.antt"
    if not call.comment:
        yield "has no words above it"
    body = exports.get(call.c_name())
    if call.title in WITHIN:
        if body is not None:
            yield f"has the C function {call.c_name()}, and WITHIN says that it has none"
    elif body is None:
        yield f"has no C function {call.c_name()} in crates/exports"
    elif call.title not in CROSSES_AS:
        contract, code = body.split("\n{\n")
        if not re.search(rf"\b{call.name}\(", code):
            yield f"is not called by {call.c_name()}"
        for _, _, name in found:
            for part in PARTS.get(name, [name]):
                if not re.search(rf"\b{part}\b", contract):
                    yield f"promises {name}, and {call.c_name()} says nothing of {part}"


def main():
    layers = [
        (layer, [(path, source, calls_of(layer, path, source)) for path, source in public_modules(layer)])
        for layer in LAYERS
    ]
    text = page(layers)
    if sys.argv[1:] != ["--check"]:
        PAGE.write_text(text)
        return 0
    passed, failed, exports = 0, 0, exported()
    for layer, modules in layers:
        for _, source, calls in modules:
            for call in calls:
                wrong = list(faults(call, imports_of(source, layer), exports))
                passed, failed = passed + (not wrong), failed + bool(wrong)
                for what in wrong:
                    print(f"{call.place}: {call.title} {what}")
    for row in refusals():
        passed, failed = passed + (not row.endswith("|  |")), failed + row.endswith("|  |")
        if row.endswith("|  |"):
            print(f"no definition gives an answer this number: {row}")
    if PAGE.exists() and PAGE.read_text() == text:
        passed += 1
    else:
        failed += 1
        print(f"{PAGE} is stale: run docs/public-calls")
    print(f"{passed} passed, {failed} failed")
    return 1 if failed else 0


sys.exit(main())
