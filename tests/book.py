"""Works the answers of samples_store's cases out from document 01, apart from the library, and compares them with
those that data/ expects. A store is its two buffers; a call takes the shares and the list that they encode, goes by the
book, and writes the encoding of what results. A line is held under its owner, 0 being the hall, and its UUID (document
02, P9); shares are a table by owner, without those of 0 bytes (P10); an offset or a share over 65535 has four bytes
(P12). The last line is 'N passed, M failed'."""
import re
import sys

BUTTONS = [None, "a", "b", "c", "y", "x", "z", "leftshoulder", "rightshoulder", "lefttrigger", "righttrigger", "back",
           "start", "guide", "leftstick", "rightstick", "dpup", "dpdown", "dpleft", "dpright"]
AXES = [None, "leftx", "lefty", "leftz", "rightx", "righty", "rightz"]
INDEX_MAX, TEXT_MAX, LINE_MAX, NAME_MAX, LIST_MAX = 1048576, 16777216, 16384, 8192, 1024


# ---- text
def valid_run(s):
    try:
        s.decode("utf-8")
        return len(s)
    except UnicodeDecodeError as e:
        return e.start


def hyphened(s):
    parts = s.split(b"-")
    return b"".join(parts) if [len(p) for p in parts] == [8, 4, 4, 4, 12] else b""


def uuid_of(field):
    """32 digits, the form with hyphens, that in braces, or that after `urn:uuid:`; else None."""
    if field.startswith(b"{") and field.endswith(b"}"):
        digits = hyphened(field[1:-1])
    elif field.startswith(b"urn:uuid:"):
        digits = hyphened(field[9:])
    else:
        digits = field if len(field) == 32 else hyphened(field)
    return int(digits, 16) if re.fullmatch(rb"[0-9a-fA-F]{32}", digits) else None


# ---- the shares and the list of lines that two buffers encode
def width(number):
    """The bytes of an offset, or of a share."""
    return 4 if number > 65535 else 2


def share_record(owner, share):
    return bytes([4 if width(share) == 2 else 6, owner]) + share.to_bytes(width(share), "big")


def line_record(key, offset, length):
    owner, uuid = key
    kind = {(False, 2): 1, (False, 4): 2, (True, 2): 3, (True, 4): 5}[owner > 0, width(offset)]
    front = bytes([kind, owner]) if owner else bytes([kind])
    return front + uuid.to_bytes(16, "big") + offset.to_bytes(width(offset), "big") + length.to_bytes(2, "big")


def encode(shares, held):
    index = [share_record(o, shares[o]) for o in sorted(shares) if shares[o]]
    text, used = [], 0
    for key, line in held:
        index.append(line_record(key, used, len(line)))
        text.append(line)
        used += len(line)
    return b"".join(index), b"".join(text)


def record_size(key, offset):
    return (22 if key[0] else 21) + (2 if offset > 65535 else 0)


def padded(s, n):
    return s + bytes(n - len(s))


def decode(index, text):
    """The shares and the list, or None where the store is not sound: where the encoding of what was read is other
    bytes."""
    if len(index) > INDEX_MAX or len(text) > TEXT_MAX:
        return None
    shares, held, at, used = {}, [], 0, 0
    while index[at:at + 1] in (b"\4", b"\6"):
        size = {4: 4, 6: 6}[index[at]]
        record = padded(index[at:at + size], size)
        shares[record[1]] = int.from_bytes(record[2:], "big")
        at += size
    while index[at:at + 1] in (b"\1", b"\2", b"\3", b"\5"):
        size = {1: 21, 2: 23, 3: 22, 5: 24}[index[at]]
        record = padded(index[at:at + size], size)
        owner, body = (record[1], record[2:]) if record[0] in (3, 5) else (0, record[1:])
        n = int.from_bytes(body[-2:], "big")
        held.append(((owner, int.from_bytes(body[:16], "big")), text[used:used + n]))
        at, used = at + size, used + n
    i, t = encode(shares, held) if used <= len(text) else (b"", b"\1")
    fits = len(i) <= len(index) and padded(i, len(index)) == index and padded(t, len(text)) == text
    unlike = len({key for key, _ in held}) == len(held)
    return (shares, held) if fits and unlike and all(1 <= len(line) <= LINE_MAX for _, line in held) else None


# ---- the book
def lines_of(text):
    pieces = text.split(b"\n")
    whole = [p[:-1] if p.endswith(b"\r") else p for p in pieces[:-1]]
    return whole + ([pieces[-1]] if pieces[-1] else [])


def wanted(line):
    """The UUID of a wanted line, or None."""
    at = line.find(b"platform:")
    if at >= 0 and line[at + 9:].split(b",")[0] != b"Linux":
        return None
    return uuid_of(line.split(b",")[0])


def use_of(held, owner):
    return sum(len(line) for (o, _), line in held if o == owner)


def claims(shares, held):
    """The sum over all parties of the larger of use and share."""
    return sum(max(use_of(held, o), shares.get(o, 0)) for o in range(256))


def index_sum(shares, held):
    total, offset = sum(4 if b < 65536 else 6 for b in shares.values() if b), 0
    for key, line in held:
        total += record_size(key, offset)
        offset += len(line)
    return total


def no_room(shares, after, index_len, text_len):
    """21 or 25 of what would then be held, or None."""
    if index_sum(shares, after) > index_len:
        return "21"
    return "25" if claims(shares, after) > text_len else None


def filed(held, key, line):
    """The list as it would then stand."""
    return [h for h in held if h[0] != key] + [(key, line)]


def insert(content, owner, text, index_len, text_len):
    """The answer, the lines walked, and the list that is then held, None where nothing is to be written."""
    if owner is None:
        return "24", 0, None
    if content is None:
        return "19", 0, None
    shares, held = content
    run = valid_run(text)
    if run < len(text):
        return "10@%d" % run, 0, held
    for count, line in enumerate(lines_of(text)):
        uuid = wanted(line)
        if uuid is None:
            continue
        if len(line) > LINE_MAX:
            return "20", count, held
        after = filed(held, (owner, uuid), line)
        full = no_room(shares, after, index_len, text_len)
        if full:
            return full, count, held
        held = after
    return "0", len(lines_of(text)), held


def set_share(content, owner, share, index_len, text_len):
    """Document 02, P10: the answer, and the shares that are then set."""
    if content is None:
        return "19", None
    shares, held = content
    after = {**shares, owner: share}
    if claims(after, held) > text_len:
        return "26", shares
    if index_sum(after, held) > index_len:
        return "21", shares
    return "0", after


def build(uuid, slots, buttons, axes, name):
    """Build's checks without 18, and its line; the lists are the codes from 1 on."""
    if valid_run(name) < len(name):
        return "10@%d" % valid_run(name), None
    for met, number in ((len(name) > NAME_MAX, "17"), (max(buttons, axes) > LIST_MAX, "12"), (b"," in name, "13")):
        if met:
            return number, None
    for letter, last, listed in (("b", 19, buttons), ("a", 8, axes)):
        if (letter, 0) in slots:
            return "14", None
        for n in range(1, last + 1):
            code = slots.get((letter, n), 1)
            if (letter, n) in slots and not 1 <= code <= listed:
                return "15@%d" % code, None
    if ("a", 7) in slots or ("a", 8) in slots:
        return "16", None
    pairs = ["%s:b%d," % (BUTTONS[n], slots["b", n] - 1) for n in range(1, 20) if ("b", n) in slots]
    pairs += ["%s:a%d," % (AXES[n], slots["a", n] - 1) for n in range(1, 7) if ("a", n) in slots]
    return "0", b"%032x,%s,%s" % (uuid, name, "".join(pairs).encode())


def save(content, owner, uuid, slots, buttons, axes, name, index_len, text_len):
    if owner is None:
        return "24", None
    answer, line = build(uuid, slots, buttons, axes, name)
    if answer != "0":
        return answer, None
    if b"\n" in name or b"platform:" in name:
        return "22", None
    if content is None:
        return "19", None
    shares, held = content
    after = filed(held, (owner, uuid), line)
    full = no_room(shares, after, index_len, text_len)
    return (full, held) if full else ("0", after)


# ---- the cases
def uuid_word(word):
    return int(word, 16) if len(word) == 32 else int(word)


def spelled(s):
    out = b""
    for part in s.split("|"):
        if part[:1] == "@":
            out += b"%032x" % uuid_word(part[1:])
        elif part[:1] == "\\":
            out += bytes.fromhex(part[1:])
        elif part[:1] == "*":
            out += part[-1:].encode() * int(part[1:-1])
        else:
            out += part.encode()
    return out


def slots_of(word):
    slots = {}
    for slot in word.split(",") if word != "-" else []:
        element, code = slot.split("=")
        slots[element[0], int(element[1:])] = int(code)
    return slots


def find(content, owner, uuid):
    """1 found, 0 none, 19 or 24, and the line."""
    if owner is None:
        return "24", b""
    if content is None:
        return "19", b""
    line = dict(content[1]).get((owner, uuid))
    return ("0", b"") if line is None else ("1", line)


def near(content, owner, uuid):
    """Document 02, P5: 1 exact, 2 near, 0 none, 19 or 24, and the line; digits 5 to 8 are bytes 2 and 3."""
    digits = "%032x" % uuid
    says, line = find(content, owner, uuid)
    if says == "0":
        says, line = find(content, owner, int(digits[:4] + "0000" + digits[8:], 16))
        return ("2" if says == "1" else says), line
    return says, line


class Store:
    def __init__(self, index_len, text_len):
        self.index, self.text = bytes(index_len), bytes(text_len)

    def hold(self, shares, held):
        index, text = encode(shares, held)
        self.index, self.text = padded(index, len(self.index)), padded(text, len(self.text))

    def hold_lines(self, held):
        if held is not None:
            self.hold(decode(self.index, self.text)[0], held)

    def poked(self, buffer, at, value):
        return buffer[:at] + value + buffer[at + len(value):] if at + len(value) <= len(buffer) else buffer

    def cleared(self):
        if len(self.index) > INDEX_MAX or len(self.text) > TEXT_MAX:
            return "23"
        self.hold({}, [])
        return "0"

    def shared(self, content, owner, share):
        answer, shares = set_share(content, owner, share, len(self.index), len(self.text))
        if shares is not None:
            self.hold(shares, content[1])
        return answer

    def right(self, owner, kind, words):
        """Whether a case expects what the documents say; the store is changed as they say. Owner None: 24."""
        content = decode(self.index, self.text)
        sizes = len(self.index), len(self.text)
        if kind == "clear":
            return words[0] == self.cleared()
        if kind == "share":
            return words[0] == self.shared(content, int(words[1]), 2 ** 64 - 1 if words[2] == "most" else int(words[2]))
        if kind == "told":
            shares, held = content or ({}, [])
            told = int(words[1]), shares.get(int(words[1]), 0), use_of(held, int(words[1]))
            return [words[0]] + [int(w) for w in words[1:]] == ["19" if content is None else "0", *told]
        if kind == "insert":
            answer, count, after = insert(content, owner, spelled(" ".join(words[2:])), *sizes)
            self.hold_lines(after)
            return words[:2] == [answer, str(count)]
        if kind == "forms":
            text = spelled(" ".join(words[3:]))
            answer, count, after = insert(content, owner, text, *sizes)
            others = [l for l in lines_of(text)[:count] if wanted(l) is not None and len(l.split(b",")[0]) != 32]
            self.hold_lines(after)
            return words[:3] == [answer, str(count), str(len(others))]
        if kind == "save":
            uuid, slots, name = uuid_word(words[1]), slots_of(words[2]), spelled(" ".join(words[5:]))
            answer, after = save(content, owner, uuid, slots, int(words[3]), int(words[4]), name, *sizes)
            self.hold_lines(after)
            return words[0] == answer
        if kind == "remove":
            key = owner, uuid_word(words[1])
            says, _ = find(content, *key)
            if says == "1":
                self.hold_lines([h for h in content[1] if h[0] != key])
            return words[0] == says
        if kind in ("find", "near"):
            says, line = (find if kind == "find" else near)(content, owner, uuid_word(words[1]))
            return words[0] == says and spelled(" ".join(words[2:])) == line
        buffer = self.index if kind == "index" else self.text
        expected = spelled(" ".join(words))
        return kind in ("index", "text") and len(expected) <= len(buffer) and padded(expected, len(buffer)) == buffer


def main(files):
    passed, failed, store = 0, 0, Store(0, 0)
    for file in files:
        for line in open(file, encoding="utf-8").read().split("\n"):
            kind, *words = line.split(" ")
            if line == "" or line[0] in "#=":
                continue
            owner = 0
            if kind == "by":
                owner, kind, words = int(words[0]) or None, words[1], words[2:]
            if kind == "new":
                store = Store(int(words[0]), int(words[1]))
            elif kind == "poke-index":
                store.index = store.poked(store.index, int(words[0]), bytes.fromhex(words[1]))
            elif kind == "poke-text":
                store.text = store.poked(store.text, int(words[0]), bytes.fromhex(words[1]))
            elif store.right(owner, kind, words):
                passed += 1
            else:
                failed += 1
                print("%s: %s" % (file, line))
    print("%d passed, %d failed" % (passed, failed))
    return 1 if failed else 0


if __name__ == "__main__":
    sys.exit(main(sys.argv[1:]))
