"""Raspteal for Python: mapping lines, maps and the line store of the hub.

Each call is one of the proved library (docs/CALLS.md): it takes every input, ends, and answers what its definition
says. This module hands the values over and gives the answers Python types; it needs nothing but Python.
`bindings/library --shared` makes the library, libraspteal.so; it is taken from the folder RASPTEAL_LIB, or from
target/staticlib.

    store = Store()
    store.insert("03000000de280000ff11000001000000,Pad,a:b1,leftx:a0,\\n")
    pad = Uuid("03000000de280000ff11000001000000")
    map = store.mapping(pad, buttons=[0x10130, 0x10131], axes=[0x30000])
    map.event(0x30000, axis(1200))          # (leftx, 1200)

A code is the kind times 65536 plus the number of the Linux input headers: evtest's button 304 is 0x10130. A refusal
raises Refused. A store is two buffers; Store(data) takes a hub's store file of either size, bytes(store) gives one back.
Who changes a file that hubs use holds its folder's lock meanwhile, as the script hub does."""
import ctypes
import os
from collections import namedtuple
from concurrent.futures import Future
from ctypes import POINTER, c_bool, c_int16, c_size_t, c_uint8, c_uint16, c_uint32, c_uint64, c_void_p
from pathlib import Path

CODES_MAX, LINE_MAX, INDEX_MAX, TEXT_MAX, BUTTONS, AXES = 256, 16384, 1048576, 16777216, 20, 9
HELD_MAX, ELEMENTS = 256, 27

# The index and the text of a hub's smaller store file have so many bytes each. A call on a longer index takes up to so
# many bytes of the stack.
SMALL_MAX, STACK_LARGE = 65535, 4718592
LOWER_HALF, UPPER_HALF, FULL = 0, 1, 2
AXIS, BUTTON, HAT = 5, 6, 7

MEANINGS = {
    1: "the first field is no UUID",
    2: "no comma follows the UUID",
    3: "a pair has not exactly one colon",
    4: "a pair's value is none: aN, bN or hH.D with numbers up to 65535",
    5: "an axis value has an unknown key",
    6: "a button or hat value has an unknown key",
    7: "hat 0 has no such direction: 0, 1, 2, 4 or 8",
    8: "a pair's value is empty",
    9: "nothing follows a refused first field",
    10: "not UTF-8",
    11: "more than 256 codes in a map",
    12: "a list of more than 1024 codes",
    13: "the name has a comma",
    14: "the element is Unknown",
    15: "the code is not in its list",
    16: "no mapping line can name this axis",
    17: "the name has more than 8192 bytes",
    18: "the output is too short",
    19: "not a sound store",
    20: "a wanted line of more than 16384 bytes",
    21: "no room in the index",
    22: "the name has a line end or platform:",
    23: "an index of more than 1048576 bytes, or a text of more than 16777216",
    24: "an organiser's owner is 1 to 255, not 0",
    25: "no room in the text, the parties' shares counted",
    26: "the text is too small for that share",
    27: "more than 256 codes held by a pad",
}

# ---- What crosses: the structs of raspteal.h, under their names there


def struct(name, *fields):
    return type(name, (ctypes.Structure,), {"_fields_": list(fields)})


refusal = struct("refusal", ("number", c_uint8), ("has_place", c_bool), ("place", c_size_t), ("has_code", c_bool),
                 ("code", c_uint32))
written = struct("written", ("fits", c_bool), ("next", c_size_t))
uuid = struct("uuid", ("high", c_uint64), ("low", c_uint64))
party = struct("party", ("organiser", c_bool), ("owner", c_uint8))
uuid_parse = struct("uuid_parse", ("valid", c_bool), ("id", uuid), ("form", c_uint8))
element = struct("element", ("is_axis", c_bool), ("number", c_uint16))
mapped = struct("mapped", ("found", c_bool), ("element", element))
code = struct("code", ("found", c_bool), ("code", c_uint32))
ident = struct("ident", ("name", c_uint8 * 13), ("len", c_size_t))
entry = struct("entry", ("code", c_uint32), ("element", element), ("input", c_uint8), ("output", c_uint8),
               ("inverted", c_bool))
value = struct("value", ("found", c_bool), ("value", c_int16))
emitted = struct("emitted", ("found", c_bool), ("element", element), ("value", c_int16))
mapping = struct("mapping", ("count", c_size_t), ("entries", entry * CODES_MAX), ("name_start", c_size_t),
                 ("name_len", c_size_t), ("is_default", c_bool), ("hats_mapped", c_uint8))
answer = struct("answer", ("refusal", refusal), ("map", mapping))
pad = struct("pad", ("count", c_size_t), ("held", c_uint64 * HELD_MAX), ("entry_count", c_size_t),
             ("entries", c_uint64 * CODES_MAX))
event = struct("event", ("element", element), ("value", c_int16))
told = struct("told", ("refusal", refusal), ("pad", pad), ("count", c_size_t), ("events", event * ELEMENTS))
pads = struct("pads", ("first", pad), ("second", pad))
pads_told = struct("pads_told", ("refusal", refusal), ("pads", pads), ("count", c_size_t), ("events", event * ELEMENTS))
slot = struct("slot", ("filled", c_bool), ("code", c_uint32))
data = struct("data", ("buttons", slot * BUTTONS), ("axes", slot * AXES))
changed = struct("changed", ("former", code), ("slots", data))
built = struct("built", ("refusal", refusal), ("map", mapping), ("len", c_size_t))
inserted = struct("inserted", ("refusal", refusal), ("count", c_size_t), ("not_simple", c_size_t))
look = struct("look", ("refusal", refusal), ("found", c_bool))
near_look = struct("near_look", ("refusal", refusal), ("how", c_uint8))
record = struct("record", ("found", c_bool), ("is_share", c_bool), ("owner", c_uint8), ("id", uuid), ("offset", c_size_t),
                ("len", c_size_t), ("share", c_size_t), ("size", c_size_t))
cut = struct("cut", ("found", c_bool), ("len", c_size_t), ("next", c_size_t))
share = struct("share", ("refusal", refusal), ("share", c_size_t), ("used", c_size_t))
pair = struct("pair", ("from", c_uint16), ("direction", c_uint16), ("to", element), ("input", c_uint8),
              ("output", c_uint8), ("inverted", c_bool))
token = struct("token", ("kind", c_uint8), ("refusal", refusal), ("id", uuid), ("start", c_size_t), ("len", c_size_t),
               ("pair", pair))
step = struct("step", ("token", token), ("pos", c_size_t), ("state", c_uint8))

BYTES, CODES = [POINTER(c_uint8), c_size_t], [POINTER(c_uint32), c_size_t]
STORE, LISTS = BYTES + BYTES, CODES + CODES

# Each call with its result and its arguments; bindings/declared holds them to the header.
CALLS = {
    "uuid_parse_str": (uuid_parse, BYTES),
    "uuid_write_simple": (written, [uuid, *BYTES, c_size_t]),
    "find_element": (mapped, BYTES),
    "ident_of": (ident, [element]),
    "mapping_new": (mapping, []),
    "mapping_put": (answer, [mapping, entry]),
    "mapping_map": (mapped, [mapping, c_uint32]),
    "mapping_map_rev": (code, [mapping, element]),
    "parser_start": (c_uint8, BYTES),
    "parser_step": (step, [*BYTES, c_size_t, c_uint8]),
    "parse_sdl_mapping": (answer, BYTES + LISTS),
    "data_new": (data, []),
    "data_insert_btn": (changed, [data, c_uint32, c_uint16]),
    "data_insert_axis": (changed, [data, c_uint32, c_uint16]),
    "from_data": (built, [data, *LISTS, *BYTES, uuid, *BYTES]),
    "default": (answer, LISTS),
    "store_clear": (refusal, STORE),
    "store_insert": (inserted, [*STORE, party, *BYTES]),
    "store_save": (answer, [*STORE, party, data, *LISTS, *BYTES, uuid]),
    "store_remove": (look, [*STORE, party, uuid]),
    "store_set_share": (refusal, [*STORE, c_uint8, c_size_t]),
    "store_share": (share, [*STORE, c_uint8]),
    "store_record_at": (record, [*BYTES, c_size_t]),
    "next_line": (cut, [*BYTES, c_size_t]),
    "store_found": (look, [*STORE, party, uuid]),
    "store_get": (written, [*STORE, party, uuid, *BYTES]),
    "store_found_near": (near_look, [*STORE, party, uuid]),
    "store_get_near": (written, [*STORE, party, uuid, *BYTES]),
    "entry_value": (value, [entry, c_uint8, c_int16]),
    "mapping_event": (emitted, [mapping, c_uint32, c_uint8, c_int16]),
    "pad_new": (pad, []),
    "pad_raw_event": (told, [pad, c_uint32, c_uint8, c_int16]),
    "pad_change_map": (told, [pad, mapping]),
    "pad_value": (c_int16, [pad, element]),
    "pads_new": (pads, []),
    "pads_raw_event": (pads_told, [pads, c_bool, c_uint32, c_uint8, c_int16]),
    "pads_change_map": (pads_told, [pads, c_bool, mapping]),
    "pads_value": (c_int16, [pads, element]),
}


def library():
    folder = os.environ.get("RASPTEAL_LIB") or Path(__file__).resolve().parents[2] / "target/staticlib"
    path = Path(folder) / "libraspteal.so"
    if not path.is_file():
        raise ImportError(f"there is no {path}: bindings/library --shared makes it, RASPTEAL_LIB names its folder")
    lib = ctypes.CDLL(str(path))
    for name, (result, arguments) in CALLS.items():
        call = getattr(lib, "raspteal_" + name)
        call.restype, call.argtypes = result, arguments
    return lib


lib = library()


def call(name, *arguments):
    return getattr(lib, "raspteal_" + name)(*arguments)


system = ctypes.CDLL(None)
START = ctypes.CFUNCTYPE(c_void_p, c_void_p)
OWN_STACK = STACK_LARGE + (1 << 20)


def on_own_stack(run):
    """Runs a call on a thread of its own, whose stack has what a large store takes, and hands back its answer. The size
    goes with the thread; `threading.stack_size` is one for all, which others may set at the same moment."""
    answer, thread, attributes = Future(), c_size_t(), (c_uint64 * 8)()

    def start(_):
        try:
            answer.set_result(run())
        except BaseException as error:
            answer.set_exception(error)

    start = START(start)
    system.pthread_attr_init(attributes)
    if (system.pthread_attr_setstacksize(attributes, c_size_t(OWN_STACK))
            or system.pthread_create(ctypes.byref(thread), attributes, start, None)):
        raise MemoryError(f"a call on a large store takes a thread with a stack of {OWN_STACK} bytes")
    system.pthread_attr_destroy(attributes)
    system.pthread_join(thread, None)
    return answer.result()


def within(n, least, most, what):
    """The number n; one that C would cut off is an error."""
    if not isinstance(n, int) or not least <= n <= most:
        raise ValueError(f"{what}: {n!r} is no whole number from {least} to {most}")
    return n


def lent(text):
    """Bytes, or a text as UTF-8, as two arguments."""
    text = text.encode() if isinstance(text, str) else bytes(text)
    return (c_uint8 * max(1, len(text))).from_buffer_copy(text or b"\0"), len(text)


def listed(codes):
    """A list of codes as two arguments."""
    codes = [within(n, 0, 2**32 - 1, "a code") for n in codes]
    return (c_uint32 * max(1, len(codes)))(*codes), len(codes)


def who(owner):
    """Who calls the store: an organiser by its owner byte, or the hall for None. An organiser's 0 is refused: 24."""
    return party(owner is not None, 0 if owner is None else within(owner, 0, 255, "an owner"))


def owner_byte(owner):
    """The owner byte of an organiser, or the hall's 0 for None."""
    return 0 if owner is None else within(owner, 1, 255, "an owner")


# ---- Answers


class Refused(Exception):
    """A refusal of document 01: number and meaning, place or code where it has one. An insert tells the lines walked
    before it in `count`."""

    def __init__(self, r, count=None):
        self.number, self.meaning, self.count = r.number, MEANINGS.get(r.number, "?"), count
        self.place = r.place if r.has_place else None
        self.code = r.code if r.has_code else None
        text = f"refused {self.number}: {self.meaning}"
        text += "" if self.place is None else f" (place {self.place})"
        text += "" if self.code is None else f" (code {self.code:x})"
        super().__init__(text if count is None else f"{text}, after {count} lines")


def accepted(r, count=None):
    if r.number:
        raise Refused(r, count)


Inserted = namedtuple("Inserted", "count not_simple")
Share = namedtuple("Share", "share used")
Held = namedtuple("Held", "party pad line")

FORMS = ["none", "simple", "hyphenated", "braced", "urn", "xinput"]


def form(text):
    """How a UUID is spelled, or "none" where the text is no UUID."""
    return FORMS[call("uuid_parse_str", *lent(text)).form]


class Uuid(namedtuple("Uuid", "high low")):
    """A UUID of one of the four forms. As a text it has 32 digits."""

    def __new__(cls, text):
        parsed = call("uuid_parse_str", *lent(text))
        if not parsed.valid:
            raise ValueError(f"{text!r} is no UUID: 32 hexadecimal digits, or a form with hyphens")
        return super().__new__(cls, parsed.id.high, parsed.id.low)

    def __str__(self):
        out = (c_uint8 * 32)()
        call("uuid_write_simple", uuid(*self), out, 32, 0)
        return bytes(out).decode()


class Element(namedtuple("Element", "is_axis number")):
    """A button or an axis, by its fixed number. Element.named("leftx") is the one that a key of a line names; as a text
    it is that key, or `axis 7` where it has none."""

    @classmethod
    def named(cls, key):
        m = call("find_element", *lent(key))
        if not m.found:
            raise ValueError(f"{key!r} names no element")
        return cls(m.element.is_axis, m.element.number)

    @property
    def flat(self):
        return element(self.is_axis, within(self.number, 0, 65535, "an element's number"))

    def __str__(self):
        name = call("ident_of", self.flat)
        return bytes(name.name[: name.len]).decode() or f"{'axis' if self.is_axis else 'button'} {self.number}"


def plain(e):
    return Element(e.is_axis, e.number)


# What a pad reports of a code: released, pressed, or an axis value.
RELEASED, PRESSED = (0, 0), (1, 0)


def axis(v):
    return 2, within(v, -32768, 32767, "an axis value")


class Entry(namedtuple("Entry", "code element input output inverted", defaults=(FULL, FULL, False))):
    """A code and its element, with the halves of the axis that it takes and gives."""

    @property
    def flat(self):
        halves = (within(half, 0, 255, "a half") for half in (self.input, self.output))
        return entry(within(self.code, 0, 2**32 - 1, "a code"), self.element.flat, *halves, self.inverted)

    def value(self, raw):
        """What a raw value gives to the element, or None."""
        v = call("entry_value", self.flat, *raw)
        return v.value if v.found else None


class Pair(namedtuple("Pair", "kind number direction element input output inverted")):
    """A pair of a line: its kind (AXIS, BUTTON or HAT), its number, a hat's direction; the element with its halves."""


def pairs(line):
    """The pairs of a line that is read, in its order; no codes are asked for."""
    Mapping.read(line)
    (held, size), pos, found = lent(line), 0, []
    state = call("parser_start", held, size)
    while pos < size:
        s = call("parser_step", held, size, pos, state)
        p = s.token.pair
        if s.token.kind in (AXIS, BUTTON, HAT):
            source = s.token.kind, getattr(p, "from"), p.direction
            found.append(Pair(*source, plain(p.to), p.input, p.output, p.inverted))
        if s.pos <= pos:
            break
        pos, state = s.pos, s.state
    return found


class Mapping:
    """A map from codes to elements, at most 256, ascending by code."""

    def __init__(self, flat=None):
        self.flat = call("mapping_new") if flat is None else flat

    @classmethod
    def read(cls, line, buttons=(), axes=()):
        """The map of a line, by the lists of the pad's button and axis codes."""
        return cls.accepted(call("parse_sdl_mapping", *lent(line), *listed(buttons), *listed(axes)))

    @classmethod
    def default(cls, buttons=(), axes=()):
        """The map of a pad that has no line."""
        return cls.accepted(call("default", *listed(buttons), *listed(axes)))

    @classmethod
    def accepted(cls, a):
        accepted(a.refusal)
        return cls(a.map)

    def put(self, e):
        """Puts an entry, onto the one of its code if there is one."""
        put = call("mapping_put", self.flat, e.flat)
        accepted(put.refusal)
        self.flat = put.map

    def map(self, n):
        """The element of a code, or None."""
        m = call("mapping_map", self.flat, within(n, 0, 2**32 - 1, "a code"))
        return plain(m.element) if m.found else None

    def map_rev(self, e):
        """The least code of an element, or None."""
        c = call("mapping_map_rev", self.flat, e.flat)
        return c.code if c.found else None

    def event(self, n, raw):
        """What a raw value of a code gives: (element, value), or None."""
        e = call("mapping_event", self.flat, within(n, 0, 2**32 - 1, "a code"), *raw)
        return (plain(e.element), e.value) if e.found else None

    def name_in(self, line):
        """The name, in the line (bytes) that the map was read from."""
        return line[self.flat.name_start : self.flat.name_start + self.flat.name_len]

    @property
    def is_default(self):
        return self.flat.is_default

    @property
    def hats_mapped(self):
        return self.flat.hats_mapped

    def __len__(self):
        return self.flat.count

    def __iter__(self):
        for e in self.flat.entries[: len(self)]:
            yield Entry(e.code, plain(e.element), e.input, e.output, e.inverted)

    @property
    def told(self):
        """All that a map tells: its entries, the name's place, the default flag and the hat flags."""
        flat = self.flat
        return list(self), flat.name_start, flat.name_len, flat.is_default, flat.hats_mapped

    def __eq__(self, other):
        return isinstance(other, Mapping) and self.told == other.told

    __hash__ = None


class Pad:
    """A pad while a game runs: the codes that it has reported, with their last raw values, and its current map. Each
    call gives the events: (element, value) for each element whose value changed."""

    def __init__(self):
        self.flat = call("pad_new")

    def after(self, t):
        accepted(t.refusal)
        self.flat = t.pad
        return [(plain(e.element), e.value) for e in t.events[: t.count]]

    def raw_event(self, n, raw):
        """A raw value of a code. Refusal: 27, a 257th code."""
        return self.after(call("pad_raw_event", self.flat, within(n, 0, 2**32 - 1, "a code"), *raw))

    def change_map(self, map):
        """Another map: the held codes count by it from now on."""
        return self.after(call("pad_change_map", self.flat, map.flat))

    def value(self, e):
        """The value of an element; 0 for one other than buttons 1 to 19 and axes 1 to 8."""
        return call("pad_value", self.flat, e.flat)


class Pads:
    """Two pads for one player: each element has, of the two pads' values, the one farther from zero, and the first
    pad's between equals. `second` says which pad a call is for; 27 counts that pad's codes alone."""

    def __init__(self):
        self.flat = call("pads_new")

    def after(self, t):
        accepted(t.refusal)
        self.flat = t.pads
        return [(plain(e.element), e.value) for e in t.events[: t.count]]

    def raw_event(self, second, n, raw):
        """A raw value of a code of one pad. Refusal: 27, a 257th code of that pad."""
        return self.after(call("pads_raw_event", self.flat, second, within(n, 0, 2**32 - 1, "a code"), *raw))

    def change_map(self, second, map):
        """Another map for one pad."""
        return self.after(call("pads_change_map", self.flat, second, map.flat))

    def value(self, e):
        """The value of an element; 0 for one other than buttons 1 to 19 and axes 1 to 8."""
        return call("pads_value", self.flat, e.flat)


def slots_of(bound):
    """The slots that a dict from elements to codes fills."""
    slots = call("data_new")
    for e, n in bound.items():
        e = Element.named(e) if isinstance(e, str) else e
        fill = "data_insert_axis" if e.is_axis else "data_insert_btn"
        slots = call(fill, slots, within(n, 0, 2**32 - 1, "a code"), within(e.number, 0, 65535, "a number")).slots
    return slots


def build(bound, buttons, axes, name, pad):
    """The line of the elements bound to codes, and its map. `bound` is a dict: {"a": 0x10131}."""
    out = (c_uint8 * LINE_MAX)()
    b = call("from_data", slots_of(bound), *listed(buttons), *listed(axes), *lent(name), uuid(*pad), out, LINE_MAX)
    accepted(b.refusal)
    return bytes(out[: b.len]), Mapping(b.map)


def lines_of(text):
    """The lines of a text, as bytes, as an insert cuts them: at LF, without a CR before it."""
    (held, size), at = lent(text), 0
    while (line := call("next_line", held, size, at)).found:
        yield bytes(held[at : at + line.len])
        at = line.next


def held_in(index, size, text):
    """The lines of a sound store, by its records."""
    at = 0
    while (r := call("store_record_at", index, size, at)).found:
        if not r.is_share:
            yield Held(r.owner or None, Uuid._make((r.id.high, r.id.low)), text[r.offset : r.offset + r.len])
        at += r.size


class Store:
    """The lines held under their UUIDs, in an index and a text. Store() is fresh and has 65535 bytes each, Store.large()
    is as large as can be: 1048576 and 16777216. Store(data) holds the bytes of a hub's store file: those of the large
    one, or index and text of half each. Store.over(index, text) has any lengths.

    A call on an index of more than 65535 bytes takes some megabytes of stack, and runs on a thread of its own that has
    them, whatever thread calls; it waits for it.

    The hall and the league organisers share a store, each with lines of its own. A call is the hall's, or that of the
    organiser whose owner byte `party` says, 1 to 255."""

    def __init__(self, data=bytes(2 * SMALL_MAX)):
        if len(data) % 2:
            raise ValueError("index and text have half the bytes each")
        start = INDEX_MAX if len(data) == INDEX_MAX + TEXT_MAX else len(data) // 2
        self.buffers = lent(data[:start]) + lent(data[start:])

    @classmethod
    def over(cls, index, text):
        """The store of two buffers, which are copied."""
        store = cls(b"")
        store.buffers = lent(index) + lent(text)
        return store

    @classmethod
    def large(cls):
        """A fresh store as large as can be."""
        return cls(bytes(INDEX_MAX + TEXT_MAX))

    def grown(self):
        """The same lines and shares in a store as large as can be: zeros follow the bytes of each buffer."""
        index, text = self.halves
        return Store.over(index.ljust(INDEX_MAX, b"\0"), text.ljust(TEXT_MAX, b"\0"))

    @property
    def halves(self):
        """The bytes of index and text."""
        index, index_len, text, text_len = self.buffers
        return bytes(index)[:index_len], bytes(text)[:text_len]

    def __bytes__(self):
        return b"".join(self.halves)

    def call(self, name, *arguments):
        if self.buffers[1] <= SMALL_MAX:
            return call(name, *self.buffers, *arguments)
        return on_own_stack(lambda: call(name, *self.buffers, *arguments))

    def clear(self):
        """Sets every byte to 0, whether the store was sound or not: no party has a line or a share then."""
        accepted(self.call("store_clear"))

    def insert(self, lines, party=None):
        """Files the lines of a list, and hands back how many were walked, and how many of them were filed with a UUID
        that is not spelled in 32 digits."""
        done = self.call("store_insert", who(party), *lent(lines))
        accepted(done.refusal, done.count)
        return Inserted(done.count, done.not_simple)

    def save(self, bound, buttons, axes, name, pad, party=None):
        """Builds a line, as `build` does, files it under the UUID, and hands back its map."""
        lists = *listed(buttons), *listed(axes)
        slots = slots_of(bound)
        return Mapping.accepted(self.call("store_save", who(party), slots, *lists, *lent(name), uuid(*pad)))

    def remove(self, pad, party=None):
        """Takes the line held under the UUID out, and hands back whether there was one; all else stays."""
        gone = self.call("store_remove", who(party), uuid(*pad))
        accepted(gone.refusal)
        return gone.found

    def set_share(self, party, size):
        """Gives a party, None being the hall, a share of the text in bytes, which others can't fill; 0 takes it away."""
        size = within(size, 0, 2**64 - 1, "a share")
        accepted(self.call("store_set_share", owner_byte(party), size))

    def share(self, party=None):
        """The share of a party, and the bytes of its lines."""
        told = self.call("store_share", owner_byte(party))
        accepted(told.refusal)
        return Share(told.share, told.used)

    def lines(self):
        """The lines that all parties hold, each with its party and its UUID, in list order: the one filed last comes
        last. They are those that the store holds at the call."""
        self.share()
        index, text = self.halves
        return held_in(*lent(index), text)

    def found(self, pad, party=None):
        """Whether a line is held under the UUID."""
        at = self.call("store_found", who(party), uuid(*pad))
        accepted(at.refusal)
        return at.found

    def get(self, pad, party=None):
        """The line held under the UUID, as bytes, or None."""
        if not self.found(pad, party):
            return None
        out = (c_uint8 * LINE_MAX)()
        return bytes(out[: self.call("store_get", who(party), uuid(*pad), out, LINE_MAX).next])

    def get_near(self, pad, party=None):
        """The line held under the UUID, and "exact"; else the line held under it without its checksum, and "near";
        else None."""
        at = self.call("store_found_near", who(party), uuid(*pad))
        accepted(at.refusal)
        if not at.how:
            return None
        out = (c_uint8 * LINE_MAX)()
        line = bytes(out[: self.call("store_get_near", who(party), uuid(*pad), out, LINE_MAX).next])
        return line, "exact" if at.how == 1 else "near"

    def mapping(self, pad, buttons=(), axes=(), party=None):
        """The map of the line held under the UUID, or None."""
        line = self.get(pad, party)
        return None if line is None else Mapping.read(line, buttons, axes)
