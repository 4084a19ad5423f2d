"""The three declarations of the C functions, compared: see bindings/declared. A type is told as C tells it."""
import ctypes
import re
import sys
from pathlib import Path

NUMBERS = {"u8": "uint8_t", "u16": "uint16_t", "u32": "uint32_t", "u64": "uint64_t", "i16": "int16_t", "usize": "size_t", "bool": "bool"}
LIMITS = ["CODES_MAX", "LIST_MAX", "NAME_MAX", "LINE_MAX", "INDEX_MAX", "TEXT_MAX", "BUTTONS", "AXES", "IDENT_MAX",
          "KEYS", "HELD_MAX", "ELEMENTS"]

# Of the boundary alone: the crates know no stack.
STACKS = ["SMALL_MAX", "STACK", "STACK_LARGE"]

# Numbers of ctypes; size_t and uint64_t are the same one.
PLAIN = {ctypes.c_uint8: "uint8_t", ctypes.c_uint16: "uint16_t", ctypes.c_uint32: "uint32_t", ctypes.c_int16: "int16_t"}

# Structs whose C name is not their own: a map with a refusal is one struct in C.
RATTLE = {name: "answer" for name in ("FlatPut", "FlatReading", "FlatDefault", "FlatSaved")} | {"KeyTable": "keys"}

# The crates whose structs C programs hold: exports, and the layers that it stands on.
CROSSING = ("text", "line", "map", "pad", "store", "exports")
RUST = {"AxisNumber": "axis", "MappingData": "data"}


def snake(name):
    return re.sub(r"(?<=[a-z])(?=[A-Z])", "_", name).lower()


def number_or_struct(kind, renamed):
    if kind in NUMBERS:
        return NUMBERS[kind]
    return "raspteal_" + renamed.get(kind, snake(re.sub("^Flat", "", kind)))


def plain_type(text, renamed):
    """A field's, argument's or result's type of Rattle or Rust, as C has it; an array ends in its length."""
    array = re.match(r"\[(\w+); (\w+)\]", text)
    if array:
        return f"{number_or_struct(array[1], renamed)}[{array[2]}]"
    pointer = re.match(r"\*(const|mut) (\w+)", text)
    if pointer:
        return ("const " if pointer[1] == "const" else "") + number_or_struct(pointer[2], renamed) + " *"
    return number_or_struct(text, renamed)


def parted(text):
    return [part.strip() for part in re.sub(r"\s+", " ", text).split(",") if part.strip()]


def named(text):
    """(name, type) of each `name: type` in a list."""
    return [tuple(part.replace("pub ", "").split(": ", 1)) for part in parted(text)]


def rattle():
    sources = [path for crate in CROSSING for path in sorted(Path(f"crates/{crate}/src").rglob("*.rt"))]
    text = "\n".join(path.read_text() for path in sources)
    structs, calls = {}, {}
    for m in re.finditer(r"#\[repr\(C\)\]\n(?:#\[derive[^\n]*\n)?pub struct (\w+) \{(.*?)\n\}", text, re.S):
        fields = [(name, plain_type(kind, RATTLE)) for name, kind in named(m[2])]
        structs.setdefault(number_or_struct(m[1], RATTLE), []).append(fields)
    for m in re.finditer(r'#\[unsafe\(no_mangle\)\]\npub extern "C" fn (\w+)\((.*?)\)(?: -> (\w+))?\s+ensures', text, re.S):
        arguments = []
        for name, kind in named(m[2]):
            lent = re.match(r"&(mut )?\[(\w+)\]", kind)
            if lent:
                arguments += [(name, f"{'' if lent[1] else 'const '}{NUMBERS[lent[2]]} *"), (name + "_len", "size_t")]
            else:
                arguments.append((name, plain_type(kind, RATTLE)))
        calls[m[1]] = (arguments, plain_type(m[3], RATTLE))
    return structs, calls


def rust():
    text = Path("bindings/rust/src/ffi.rs").read_text()
    structs, calls = {}, {}
    for m in re.finditer(r"#\[repr\(C\)\]\n#\[derive[^\n]*\npub struct (\w+) \{(.*?)\n\}", text, re.S):
        fields = [(name, plain_type(kind, RUST)) for name, kind in named(m[2])]
        structs.setdefault(number_or_struct(m[1], RUST), []).append(fields)
    for m in re.finditer(r"pub fn (\w+)\((.*?)\) -> (\w+);", text, re.S):
        calls[m[1]] = ([(name, plain_type(kind, RUST)) for name, kind in named(m[2])], plain_type(m[3], RUST))
    return structs, calls


def c_header():
    text = re.sub(r"/\*.*?\*/", "", Path("bindings/raspteal.h").read_text(), flags=re.S)
    structs, calls = {}, {}
    for m in re.finditer(r"typedef struct \{(.*?)\} (\w+);", text, re.S):
        fields = []
        for part in re.sub(r"\s+", " ", m[1]).split(";"):
            if part.strip():
                kind, name, length = re.match(r"(\w+) (\w+)(?:\[RASPTEAL_(\w+)\])?$", part.strip()).groups()
                fields.append((name, f"{kind}[{length}]" if length else kind))
        structs.setdefault(m[2], []).append(fields)
    for m in re.finditer(r"^(\w+) (raspteal_\w+)\((.*?)\);", text, re.S | re.M):
        arguments = []
        for part in parted(m[3]):
            if part != "void":
                kind, name = re.match(r"(.*?[ *])(\w+)$", part).groups()
                arguments.append((name, kind.strip()))
        calls[m[2]] = (arguments, m[1])
    return structs, calls


def python():
    """The structs, calls, limits and words of the Python module, without the names of arguments. Its text up to the
    place where it loads the library is read."""
    names = {}
    exec(Path("bindings/python/raspteal.py").read_text().split("\ndef library():", 1)[0], names)

    def kind(c):
        if hasattr(c, "_length_"):
            return kind(c._type_) + f"[{c._length_}]"
        if hasattr(c, "contents"):
            return kind(c._type_) + " *"
        if issubclass(c, ctypes.Structure):
            return "raspteal_" + c.__name__
        return {"c_ulong": "uint64_t", "c_bool": "bool"}.get(c.__name__) or PLAIN[c]

    shapes = [c for c in names.values() if isinstance(c, type) and issubclass(c, ctypes.Structure)]
    structs = {"raspteal_" + c.__name__: [(name, kind(t)) for name, t in c._fields_] for c in shapes}
    calls = {"raspteal_" + name: ([kind(a) for a in arguments], kind(result))
             for name, (result, arguments) in names["CALLS"].items()}
    limits = {name: {str(names[name])} for name in LIMITS + STACKS if name in names}
    return structs, calls, limits, {str(number): told for number, told in names["MEANINGS"].items()}


def wide(kind, sizes):
    """A type as Python tells it: size_t and uint64_t are one there, it knows no const, and a length is a number."""
    kind = re.sub(r"\[(\w+)\]", lambda m: f"[{sizes.get(m[1], m[1])}]", kind)
    return kind.replace("const ", "").replace("size_t", "uint64_t")


def limits():
    """Each limit as the crates, the header and the Rust crate have it; what is of the boundary alone twice as the header
    has it."""
    sources = [p for layer in ("line", "map", "store", "pad") for p in Path(f"crates/{layer}/src").rglob("*.rt")]
    crates = "\n".join(p.read_text() for p in sources)
    header, ffi = Path("bindings/raspteal.h").read_text(), Path("bindings/rust/src/ffi.rs").read_text()
    for name in LIMITS + STACKS:
        told = set(re.findall(rf"^#define RASPTEAL_{name} (\d+)", header, re.M))
        ours = set(re.findall(rf"^pub const {name}: usize = (\d+);", crates, re.M))
        yield name, [told if name in STACKS else ours, told,
                     set(re.findall(rf"^pub const {name}: usize = (\d+);", ffi, re.M))]


def named_numbers():
    """Each button, axis and native code as the crates, the header and the Rust crate have its number. Rust has no names
    for native codes."""
    ev, nec = (Path(f"crates/line/src/{name}.rt").read_text() for name in ("ev", "ev/nec"))
    header = Path("bindings/raspteal_numbers.h").read_text()
    element = Path("bindings/rust/src/element.rs").read_text()

    def shouted(name):
        return re.sub(r"(?<=[a-z0-9])(?=[A-Z])", "_", name.replace("DPad", "Dpad")).upper()

    for kind in ("Button", "Axis"):
        ours = {shouted(name): int(n) for name, n in re.findall(rf"pub const (\w+): {kind} = {kind}\((\d+)\);", ev)}
        theirs = {name: int(n) for name, n in re.findall(rf"RASPTEAL_{kind.upper()}_(\w+) = (\d+)\b", header)
                  if name != "VALUE"}
        listed = element.split(f"pub enum {kind} {{", 1)[1].split("}", 1)[0]
        crate = {shouted(name): int(n) for name, n in re.findall(r"(\w+) = (\d+),", listed)}
        yield kind, [ours, theirs, crate]
    ours = {name: int(n, 16) for name, n in re.findall(r"pub const (\w+): Code = Code\((\w+)\);", nec)}
    yield "Code", [ours, {name: int(n, 16) for name, n in re.findall(r"RASPTEAL_NEC_(\w+) = (0x\w+)", header)}]


def words():
    """The words of each refusal as the hub, the header, the Rust crate and the Python module have them, by number."""
    rows = Path("crates/desk/src/words.rt").read_text().split("const MEANINGS", 1)[1].split("\n];", 1)[0]
    hub = re.findall(r'^    b"(.*)",$', rows, re.M)
    listed = Path("bindings/raspteal_numbers.h").read_text().split("raspteal_meaning(", 1)[1]
    crate = Path("bindings/rust/src/error.rs").read_text()
    numbers, meanings = (crate.split(f"pub fn {name}(", 1)[1].split("pub fn ", 1)[0] for name in ("number", "meaning"))
    meant = dict(re.findall(r'Error::(\w+).* => "(.*)",', meanings))
    sides = [
        {str(number): told for number, told in enumerate(hub, 1)},
        dict(re.findall(r'case ([1-9]\d*): return "(.+)";', listed)),
        {number: meant.get(name) for name, number in re.findall(r"Error::(\w+).* => (\d+),", numbers)},
        python()[3],
    ]
    for number in sorted(set().union(*sides), key=int):
        yield number, [side.get(number) for side in sides]


def main():
    passed, failed = 0, 0

    def check(right, what):
        nonlocal passed, failed
        passed, failed = passed + bool(right), failed + (not right)
        if not right:
            print(what)

    (ours, calls), (header, prototypes), (ffi, externs) = rattle(), c_header(), rust()
    for name in sorted(set(calls) | set(prototypes) | set(externs)):
        told = [side.get(name) for side in (calls, prototypes, externs)]
        where = "".join(f"\n  {side} {what}" for side, what in zip(("exports", "header ", "ffi.rs "), told))
        check(None not in told and told[0] == told[1] == told[2], name + ":" + where)
    for name in sorted(set(ours) | set(header) | set(ffi)):
        told = [fields for side in (ours, header, ffi) for fields in side.get(name, [None])]
        check(None not in told and all(fields == told[0] for fields in told), f"{name}: {told}")
    for name, told in limits():
        check(told[0] == told[1] == told[2] and len(told[0]) == 1, f"{name}: exports, header, ffi.rs: {told}")
    for kind, told in named_numbers():
        check(told[0] and all(side == told[0] for side in told), f"numbers of {kind}: {told}")
    for number, told in words():
        check(told[0] is not None and len(set(told)) == 1, f"refusal {number}: hub, header, crate, module: {told}")
    shapes, asked, sizes, _ = python()
    lengths = {name: "".join(told[1]) for name, told in limits()}
    for name, fields in sorted(shapes.items()):
        right = [(field, wide(kind, lengths)) for field, kind in (header.get(name) or [[]])[0]]
        check(fields == right, f"{name}: Python {fields}, header {right}")
    for name, told in sorted(asked.items()):
        arguments, result = prototypes.get(name, ([], ""))
        right = ([wide(kind, lengths) for _, kind in arguments], wide(result, lengths))
        check(told == right, f"{name}: Python {told}, header {right}")
    for name, told in limits():
        check(sizes.get(name, told[1]) == told[1], f"{name}: Python {sizes.get(name)}, header {told[1]}")
    test, stores, stack = (Path(f"bindings/c/{name}.c").read_text() for name in ("test", "stores", "stack"))
    safe = Path("bindings/rust/src/ffi/safe.rs").read_text()
    sources = [p for folder in ("src", "tests") for p in Path("bindings/rust", folder).glob("*.rs")]
    used = "\n".join(p.read_text() for p in sources)
    for name in sorted(calls):
        check(f"{name}(" in test + stores, f"neither test.c nor stores.c of bindings/c calls {name}")
        check(f"X({name[9:]}, (" in stack, f"bindings/c/stack.c does not run {name}")
        check(f"{name}(" in safe, f"ffi/safe.rs does not call {name}")
        check(re.search(rf"\bsafe::{name[9:]}\(", used), f"the Rust crate does not use {name}")
    print(f"{passed} passed, {failed} failed")
    return 1 if failed else 0


sys.exit(main())
