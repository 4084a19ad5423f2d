"""Four hubs at once on one store of a group: mixed inserts, saves, clears and look-ups, some hubs killed at random
moments, and the server crashed and started again once. Afterwards the calls are put in the order of their commits and
given to the book (tests/book.py), which knows document 01 and neither the library nor the database: each answer has to
be the book's, and the store's bytes those of the book's list.

A hub writes each call down before it makes it, and its answer afterwards; so a call of a killed hub is known too, and
the database's list of calls says whether it was done."""
import json
import os
import random
import signal
import subprocess
import sys
import time
import uuid
from pathlib import Path

from raspteal import Element, Mapping, Refused, Uuid, build
from raspteal_group import GroupStore, Trouble, Unknown

sys.path.append(str(Path(__file__).resolve().parents[2] / "tests"))
import book  # noqa: E402

HUBS, STORE, PARTIES = 4, "mixed", (None, None, None, 7, 7, 255, 0)
NAMES = ["Seat 7"] * 9 + ["n" * 700] * 3 + ["Größe", "", "a,b", "a\nb", "platform:", "n" * 8192, "n" * 8193]


# ---- A hub


def some_line(chance):
    """A line of a list: mostly wanted, also with other spellings, too long, for others, or nothing."""
    digits = f"{chance.randrange(60):032x}"
    spelled = chance.choice([digits] * 6 + ["{%s}" % uuid.UUID(digits), f"urn:uuid:{uuid.UUID(digits)}", "xinput", "#"])
    name = "n" * chance.choice([3, 3, 3, 9, 40, 800, 4000, 16384])
    return f"{spelled},{name}{chance.choice(['', ',a:b0,', ',platform:Linux,', ',platform:Mac OS X,'])}"


def some_call(chance):
    """A call, as JSON can hold it; the codes of its lists count from 1, as the book's do."""
    kind = chance.choices(["save", "insert", "clear", "find"], [64, 21, 1, 14])[0]
    call = {"kind": kind, "party": None if kind == "clear" else chance.choice(PARTIES)}
    if kind == "insert":
        text = "".join(some_line(chance) + chance.choice(["\n", "\r\n"]) for _ in range(chance.randrange(7))).encode()
        call["text"] = (text + chance.choice([b""] * 19 + [b"\xff"])).hex()
    elif kind in ("save", "find"):
        call["pad"] = f"{chance.randrange(60):032x}"
    if kind == "save":
        call["name"] = chance.choice(NAMES)
        call["buttons"], call["axes"] = chance.choice([(5, 3)] * 9 + [(1024, 0), (1025, 1)])
        call["slots"] = {f"{e}{n}": chance.randrange(1, most) for e, n, most in
                         [("b", chance.randrange(20), 7)] + [("b", n, 6) for n in range(1, chance.randrange(1, 6))] +
                         [("a", chance.randrange(1, 7), 4)] * chance.randrange(2)}
    return call


def run(store, call):
    """Makes a call on a store, and tells its answer as the book does: number and place or code, then what else."""
    party, pad = call["party"], "pad" in call and Uuid(call["pad"])
    try:
        if call["kind"] == "clear":
            return ["0", store.clear()][:1]
        if call["kind"] == "insert":
            return ["0", *store.insert(bytes.fromhex(call["text"]), party)]
        if call["kind"] == "find":
            line = store.get(pad, party)
            return ["0", ""] if line is None else ["1", line.hex()]
        return ["0", repr(store.save(*arguments(call), party).told)]
    except Refused as told:
        at = told.place if told.place is not None else told.code
        return [f"{told.number}" + ("" if at is None else f"@{at}"), told.count]


def asked(store, name):
    """What became of a call whose answer was lost; a server that is down is asked until it is up."""
    while True:
        try:
            return store.done(name)
        except Trouble:
            time.sleep(0.05)


def hub(seed, path):
    chance, store = random.Random(seed), GroupStore(STORE)
    store_log = os.open(path, os.O_WRONLY | os.O_APPEND | os.O_CREAT)

    def note(**what):
        os.write(store_log, json.dumps(what).encode() + b"\n")

    while True:
        call, name, answers = some_call(chance), str(uuid.uuid4()), []
        note(name=name, call=call)
        try:
            if call["kind"] == "find":
                held = store.read()
                note(name=name, answer=run(held, call), version=store.kept.version, written=False)
                continue
            store.change(lambda held: answers.append(run(held, call)), name)
            note(name=name, answer=answers[0], version=store.last.version, written=store.last.written)
        except Unknown:
            version = asked(store, name)
            note(name=name, unknown=True, answer=version and answers[0], version=version, written=version is not None)
        except Trouble as trouble:
            note(name=name, trouble=str(trouble))
            time.sleep(0.02)


# ---- All of them


def noted(log):
    """The notes of a hub. A kill can cut the last one short: that call was not made, or that answer counts as none. A
    note that is whole but for its line's end counts, and half a line before another is an error."""
    *lines, last = log.read_bytes().split(b"\n")
    notes = [json.loads(line) for line in lines]
    try:
        return [*notes, json.loads(last)]
    except json.JSONDecodeError:
        return notes


def play(server, seconds, seed):
    """Runs the hubs for so long, kills one about three times a second, and crashes the server in the middle. Hands
    back the notes of all, and how many were killed."""
    chance, killed, crash = random.Random(seed), 0, seconds / 2
    folder = Path(server.folder)
    began, number, hubs = time.monotonic(), 0, []
    while (now := time.monotonic() - began) < seconds or not killed:
        while len(hubs) < HUBS:
            number += 1
            log = folder / f"hub-{number}"
            # a hub ends with this process, however that ends
            hubs.append(subprocess.Popen(["setpriv", "--pdeathsig", "KILL", sys.executable, __file__,
                                          str(seed * 1000 + number), str(log)]))
        if crash and now > crash:
            server.restart(signal.SIGQUIT)
            crash = None
        time.sleep(chance.uniform(0.1, 0.5))
        if now < seconds * 0.9:
            chosen = hubs.pop(chance.randrange(HUBS))
            chosen.kill()
            chosen.wait()
            killed += 1
    for left in hubs:
        left.kill()
        left.wait()
    return [note for log in sorted(folder.glob("hub-*")) for note in noted(log)], killed


# ---- The book


def spelled(text):
    return "\\" + text if text else ""


def words(call, answer):
    """A call and its answer as tests/book.py reads them: the kind, and the words behind it."""
    kind = call["kind"]
    if kind == "insert":
        return "forms", [answer[0], str(answer[1]), str(answer[2] if len(answer) > 2 else ""), spelled(call["text"])]
    if kind == "save":
        slots = ",".join(f"{e}={code}" for e, code in call["slots"].items()) or "-"
        return kind, [answer[0], call["pad"], slots, str(call["buttons"]), str(call["axes"]),
                      spelled(call["name"].encode().hex())]
    return (kind, [answer[0], call["pad"], spelled(answer[1])]) if kind == "find" else (kind, [answer[0]])


def judged(store, call, answer):
    """Whether an answer is the book's. A refused insert does not tell the spellings: it is compared without them."""
    owner = {None: 0, 0: None}.get(call["party"], call["party"])
    kind, rest = words(call, answer)
    if kind == "forms" and not rest[2]:
        kind, rest = "insert", rest[:2] + rest[3:]
    return store.right(owner, kind, rest)


def arguments(call):
    """What a save is given: elements and codes, the two lists, name and pad."""
    bound = {Element(e[0] == "a", int(e[1:])): code for e, code in call["slots"].items()}
    lists = range(1, call["buttons"] + 1), range(1, call["axes"] + 1)
    return bound, *lists, call["name"], Uuid(call["pad"])


def holds(store, call, line):
    """Whether the book finds that line for a save's party and pad."""
    return store.right(call["party"] or 0, "find", ["1", call["pad"], spelled(line.hex())])


class Verdict:
    """What the notes and the database's list of calls say."""

    def __init__(self, notes, listed):
        self.calls = {n["name"]: n["call"] for n in notes if "call" in n}
        self.ends = {n["name"]: n for n in notes if "call" not in n}
        self.listed = listed
        self.saves, self.wrong, self.unread, self.numbers = {}, [], [], {}

    def count(self, word):
        """How many calls ended so."""
        return sum(word in end for end in self.ends.values())

    def unanswered(self):
        """The calls whose hub was killed before it had noted an answer, and those of them that were done."""
        left = set(self.calls) - set(self.ends)
        return len(left), sum(name in self.listed for name in left)

    def order(self):
        """The calls in the order of their commits; one that wrote nothing stands behind the version that it saw."""
        order = [((version, 0), name) for name, version in self.listed.items()]
        order += [((end["version"], 1), name) for name, end in self.ends.items()
                  if "answer" in end and not end["written"] and end["version"] is not None]
        return [name for _, name in sorted(order)]

    def lost(self):
        """Calls that were told done and are not in the list, or the other way round."""
        told = {n: e["version"] for n, e in self.ends.items() if "answer" in e and e["written"]}
        undone = {n for n, e in self.ends.items() if "trouble" in e or e["version"] is None}
        return [n for n in told if self.listed.get(n) != told[n]] + [n for n in undone if n in self.listed]

    def replay(self, sizes):
        """The book's store after all calls. `numbers` counts the answers that were compared, by kind and number."""
        store = book.Store(*sizes)
        for name in self.order():
            call, end = self.calls[name], self.ends.get(name)
            answer = end["answer"] if end else ["?", "", ""]
            if not judged(store, call, answer) and end:
                self.wrong.append((name, call, answer))
            key = f"{call['kind']} {answer[0].split('@')[0]}"
            self.numbers[key] = self.numbers.get(key, 0) + 1
            if key == "save 0":
                bound, buttons, axes, *_ = arguments(call)
                line = build(*arguments(call))[0]
                if not holds(store, call, line) or repr(Mapping.read(line, buttons, axes).told) != answer[1]:
                    self.unread.append(name)
                self.saves[call["party"], call["pad"]] = call, line, answer[1]
        # of the last done saves those whose line nothing took the place of
        self.saves = [s for s in self.saves.values() if holds(store, *s[:2])]
        return store


if __name__ == "__main__":
    hub(int(sys.argv[1]), sys.argv[2])
