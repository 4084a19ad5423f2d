"""The command `hub-group`: a hall group's stores in PostgreSQL, with hub's words. docs/GROUP.md is its page."""
import fcntl
import os
import shutil
import sys
import time
from pathlib import Path

from hub_words import Arguments, WrongUse, complain, complain_refused, pad_of, say, say_map, say_pairs, shown
from raspteal import INDEX_MAX, TEXT_MAX, Mapping, Refused, Uuid
from raspteal_group import WAIT, GroupStore, Trouble, Unknown, create

DONE, REFUSED, TROUBLE = 0, 1, 2
NIL = Uuid("0" * 32)

# The bytes of index and text of a hub's store files.
FILES = (65535, 65535), (1048576, 16777216)

# How long it is asked what became of a change whose answer was lost: longer than the server waits for a silent hub.
ASKING = 40

HELP = """hub-group: mapping lines of game pads, in a hall group's stores

  hub-group init STORE [large]         makes a fresh store in the database
  hub-group insert STORE FILE          files the lines of a list
  hub-group save STORE UUID NAME ..    builds a mapping and files it
  hub-group find STORE UUID|TEXT       prints the line held under a UUID, or those with TEXT in the name
  hub-group show STORE UUID ..         reads a line that is held, and prints its map, or its pairs
  hub-group export STORE               prints the lines held, as a list
  hub-group pull STORE FILE            writes a hub's own store file
  hub-group share STORE PARTY BYTES    gives a party a share of the text that others can't fill
  hub-group shares STORE               says what each party uses of the text, and its share
  hub-group clear STORE                empties the store
  hub-group done STORE CALL            says whether a call was done whose answer was lost
  hub-group allow STORE ROLE           lets a role of the database write as a party
  hub-group help COMMAND               says more about a command

The database is the one of the PG* variables: PGHOST, PGPORT, PGDATABASE, PGUSER and others.
A league organiser's lines are kept apart from the hall's: insert, save, find, show, export and
allow take party=NUMBER, from 1 to 255.
A refusal prints 'refused NUMBER: meaning'. The exit status is 0 where all was done,
1 where something was refused or not found, 2 for wrong use, for trouble with the database or
a file and where the output can't be written. Refusals and trouble go to standard error."""

MANUAL = {
    "init": """hub-group init STORE [large]
  Makes a fresh store of that name, which holds no line; first the tables (schema raspteal) where
  the database has none. A store that stands already is left alone.
  It has the size of a hub's store file, 65535 bytes each for index and text; a large one has
  1048576 and 16777216.""",
    "insert": """hub-group insert STORE FILE [party=NUMBER]
  Files the lines of a list, as 'hub insert' does, for all hubs of the group at once. It stops at
  a line that is too long (20) or has no room (21, 25), says at which, and keeps the lines before
  it.
  A list that is not UTF-8 (10) files nothing. party=7 files for league organiser 7.""",
    "save": """hub-group save STORE UUID NAME buttons=CODES axes=CODES ELEMENT=CODE .. [party=NUMBER] [anyway]
  Builds a mapping line for the pad and files it; prints the line and its map, and where it takes
  the place of another line, that line. 'hub help save' says how CODES and ELEMENTs are written.
  Not saved unless 'anyway' is added: a line with no element, and one that gives a code to two.""",
    "find": """hub-group find STORE UUID|TEXT [party=NUMBER]
  Prints the line held under that UUID, or says 'none'. What is no UUID is sought in the names,
  capital letters or not, and every line that has it there is printed. Where only the UUID without
  its checksum (zeros in digits 5 to 8) is held, its line is printed, and 'near' said on standard
  error.""",
    "show": """hub-group show STORE UUID [buttons=CODES axes=CODES] [party=NUMBER]
  Reads the line held under that UUID with the pad's codes, and prints it with its map; without
  lists it says so, and prints the line's pairs.""",
    "export": """hub-group export STORE [party=NUMBER]
  Prints the hall's lines, or those of organiser NUMBER, in the order in which they were filed: a
  list that 'hub insert' and 'hub-group insert' take.""",
    "pull": """hub-group pull STORE FILE
  Writes the group's store into FILE, a hub's own store file, which goes on when the line is cut.
  The former file is kept as FILE.old ('hub undo FILE' brings it back); what was saved in FILE and
  not in the group's store is no longer there. Hubs at work on FILE are waited for.""",
    "share": """hub-group share STORE PARTY BYTES
  Gives a party a share of the text, which others can't fill: PARTY is 'hall' or a league
  organiser's number from 1 to 255. BYTES 0 takes it away. 'hub help share' says what it is worth.
  Of the database's roles the owner and those that write as the hall may give shares.""",
    "shares": """hub-group shares STORE
  Says of each party that has lines or a share how many bytes of the text it uses, its share, and
  what all of them claim.""",
    "clear": """hub-group clear STORE
  Empties the store for all hubs, the hall's lines and the organisers', and drops the shares. The
  database's backup alone brings them back.""",
    "done": """hub-group done STORE CALL
  Where a connection broke while a change was committed, hub-group says the CALL and that it may
  be done or not. This says which: 'done', or 'not done' with status 1.""",
    "allow": """hub-group allow STORE ROLE [party=NUMBER]
  Lets a role of the database read all stores, and write in STORE as organiser NUMBER, or as the
  hall. The database refuses its changes of other parties' lines, whatever program it uses.""",
    "help": """hub-group help [COMMAND]
  Lists the commands, or says more about one.""",
}


def asked(store, unknown):
    """What became of a change whose answer was lost; a database that is down is asked for a while."""
    complain(f"{unknown}; asking, up to {ASKING} seconds")
    until = time.monotonic() + ASKING
    while time.monotonic() < until:
        try:
            return store.done(unknown.call)
        except Trouble:
            time.sleep(0.5)
    raise Trouble(f"it is not known whether it was done: 'hub-group done {store.name} {unknown.call}' says it when the "
                  "database can be reached again")


def changed(store, run):
    """What a change answers, or its refusal."""
    answer = told = None

    def kept(held):
        nonlocal answer, told
        try:
            answer = run(held)
        except Refused as refused:
            told = refused
            raise

    try:
        store.change(kept)
    except Unknown as unknown:
        if asked(store, unknown) is None:
            raise Trouble("it was not done; try again") from None
        if told:
            raise told from None
    return answer


def near_line(store, pad, party):
    """The line that a party holds under a UUID, or near it, which is said; or None, and `none` is said."""
    found = store.get_near(pad, party)
    if found is None:
        complain("none")
        return None
    line, how = found
    if how == "near":
        held = str(pad)
        complain(f"near: held under {held[:4]}0000{held[8:]}, without a checksum")
    return line


# ---- The commands


def init(name, *size):
    if size not in ((), ("large",)):
        raise WrongUse(shown(size[0]) + b": a store is as large as a hub's, or 'large'")
    if not create(name, *((INDEX_MAX, TEXT_MAX) if size else ())):
        complain(shown(name), ": the store stands already, and is left alone")
        return TROUBLE
    say("a fresh store: ", shown(name))
    return DONE


def insert(name, path, *words):
    party = Arguments(words).party
    with open(path, "rb") as file:
        lines = file.read()
    try:
        count, not_simple = changed(GroupStore(name), lambda store: store.insert(lines, party))
    except Refused as told:
        complain_refused(told)
        if told.number in (20, 21):
            line = lines.split(b"\n")[told.count].removesuffix(b"\r")
            complain(f"  line {told.count + 1} stopped the insert: ", shown(line[:80]), b".." if line[80:] else b"")
            complain("  the lines before it are kept")
        return REFUSED
    say(f"{count} lines walked")
    if not_simple:
        say(f"  {not_simple} with a UUID that is not spelled in 32 digits")
    return DONE


def save(name, key, title, *words):
    pad, asked = pad_of(key), Arguments(words, lists=True, slots=True)
    asked.check_whole()

    def run(store):
        former = store.found(pad, asked.party) and store.get(pad, asked.party)
        map = store.save(asked.bound, asked.buttons, asked.axes, os.fsencode(title), pad, asked.party)
        return former, store.get(pad, asked.party), map

    try:
        former, line, map = changed(GroupStore(name), run)
    except Refused as told:
        complain_refused(told, asked.not_listed(told.code) if told.number == 15 else None)
        return REFUSED
    say(shown(line))
    say_map(map, line)
    if former:
        say("in place of: ", shown(former))
    return DONE


def find_named(store, part, party):
    """The lines of a party whose names have that part, capital letters of ASCII or not."""
    store.found(NIL, party)
    lines = [line for owner, line in store.lines() if owner == (party or 0)]
    found = [line for line in lines if part.lower() in (line.split(b",") + [b""])[1].lower()]
    for line in found:
        say(shown(line))
    if not found:
        complain("none: no line of ", f"party {party}" if party else "the hall", " has '", shown(part), "' in its name, "
                 "and it is no UUID, which has 32 hexadecimal digits, or 36 characters with hyphens; hub-group export shows "
                 "what is held")
    return DONE if found else REFUSED


def find(name, key, *words):
    party, store = Arguments(words).party, GroupStore(name)
    try:
        pad = Uuid(os.fsencode(key))
    except ValueError:
        return find_named(store, os.fsencode(key), party)
    line = near_line(store, pad, party)
    if line is None:
        return REFUSED
    say(shown(line))
    return DONE


def show(name, key, *words):
    pad, asked = pad_of(key), Arguments(words, lists=True)
    line = near_line(GroupStore(name), pad, asked.party)
    if line is None:
        return REFUSED
    say(shown(line))
    if asked.buttons or asked.axes:
        say_map(Mapping.read(line, asked.buttons, asked.axes), line)
    else:
        say_pairs(line)
    return DONE


def export(name, *words):
    """The lines as they are, so that they are the same when they are inserted again."""
    party, store = Arguments(words).party, GroupStore(name)
    store.found(NIL, party)
    for owner, line in store.lines():
        if owner == (party or 0):
            say(line)
    return DONE


def lock_of(folder):
    """The lock of a folder, which hubs at work on a store in it hold; it is freed when this program ends."""
    lock, until = os.open(folder, os.O_RDONLY), time.monotonic() + WAIT
    while True:
        try:
            fcntl.flock(lock, fcntl.LOCK_EX | fcntl.LOCK_NB)
            return lock
        except BlockingIOError:
            if time.monotonic() > until:
                raise Trouble(f"{folder}: another hub was at work here for {WAIT} seconds; try again") from None
            time.sleep(0.05)


def pull(name, path):
    """As the script hub puts a store in place: under its folder's lock, synced, by a rename."""
    store, path = GroupStore(name).read(), os.path.realpath(path)
    if tuple(map(len, store.halves)) not in FILES:
        raise Trouble(f"{name}: its index and text have not the lengths of a hub's store file, large or not")
    data = bytes(store)
    if os.path.exists(path) and not os.path.isfile(path):
        raise Trouble(f"{path}: not a regular file, so no store")
    lock = lock_of(os.path.dirname(path))
    former = Path(path).read_bytes() if os.path.exists(path) else None
    if former != data:
        placed(path + ".new", data, path)
        if former is not None:
            placed(path + ".old.new", former, path)
            os.rename(path + ".old.new", path + ".old")
        os.rename(path + ".new", path)
        os.fsync(lock)
    say(shown(path), " is the store ", shown(name), " now")
    return DONE


def placed(path, data, like):
    """Writes a file, with another one's mode and owner where that stands, and syncs it."""
    with open(path, "wb") as file:
        file.write(data)
        file.flush()
        if os.path.exists(like):
            shutil.copymode(like, path)
            if os.geteuid() == 0:
                os.chown(path, os.stat(like).st_uid, os.stat(like).st_gid)
        os.fsync(file.fileno())


def told_share(party, told):
    """As hub says it."""
    who = f"party {party}" if party else "hall"
    kept = f"share {told.share}, of which {max(told.share - told.used, 0)} are kept for it"
    return f"{who}: {told.used} bytes used, {kept if told.share else 'no share'}"


def claimed(store):
    shares = [store.share(party or None) for party in range(256)]
    return shares, sum(max(told) for told in shares)


def say_claimed(store):
    sum = claimed(store)[1]
    size = len(store.halves[1])
    say(f"claimed: {sum} of {size} bytes of the text, of each party the larger of use and share; {size - sum} are left")


def share(name, who, size):
    if who != "hall" and not (who.isascii() and who.isdigit() and 1 <= int(who) <= 255):
        raise WrongUse(shown(who) + b": a party is 'hall', or a league organiser's number from 1 to 255")
    if not (size.isascii() and size.isdigit()):
        raise WrongUse(shown(size) + b": a share is a number of bytes; 0 takes it away")
    party = None if who == "hall" else int(who)

    def run(store):
        store.set_share(party, min(int(size), 2**64 - 1))
        return store

    held = changed(GroupStore(name), run)
    say(told_share(party or 0, held.share(party)))
    say_claimed(held)
    return DONE


def shares(name):
    store = GroupStore(name).read()
    for party, told in enumerate(claimed(store)[0]):
        if any(told):
            say(told_share(party, told))
    say_claimed(store)
    return DONE


def clear(name):
    changed(GroupStore(name), lambda store: store.clear())
    say("cleared: 0 lines held")
    return DONE


def done(name, call):
    version = GroupStore(name).done(call)
    say("not done" if version is None else f"done, version {version}")
    return REFUSED if version is None else DONE


def allow(name, role, *words):
    party, store = Arguments(words).party, GroupStore(name)
    store.found(NIL, party)
    store.link.begin("SELECT raspteal.allow(%s, %s, %s)", (name, role, party or 0))
    say(shown(role), " may write in ", shown(name), f" as {f'organiser {party}' if party else 'the hall'}")
    return DONE


# Each with the least and the most words behind it.
COMMANDS = {"init": (init, 1, 2), "insert": (insert, 2, 99), "save": (save, 3, 9999), "find": (find, 2, 99),
            "show": (show, 2, 9999), "export": (export, 1, 9), "pull": (pull, 2, 2), "share": (share, 3, 3),
            "shares": (shares, 1, 1), "clear": (clear, 1, 1), "done": (done, 2, 2), "allow": (allow, 2, 9)}


def manual(command):
    if command in MANUAL:
        say(MANUAL[command])
        return DONE
    complain(shown(command), ": no such command (hub-group help lists them)")
    return TROUBLE


def run(words):
    command = words[0] if words else "--help"
    if command in ("--help", "-h") or words == ["help"]:
        say(HELP)
        return DONE
    if command == "help" or len(words) > 1 and words[-1] in ("--help", "-h"):
        return manual(words[1] if command == "help" else command)
    if command not in COMMANDS:
        return manual(command)
    call, least, most = COMMANDS[command]
    if not least <= len(words) - 1 <= most:
        complain(MANUAL[command])
        complain("The arguments are not as above.")
        return TROUBLE
    return call(*words[1:])


def main(words):
    try:
        status = run(words)
        sys.stdout.flush()
        return status
    except Refused as told:
        complain_refused(told)
        return REFUSED
    except WrongUse as wrong:
        complain(wrong.args[0])
    except Trouble as trouble:
        complain("hub-group: ", shown(str(trouble).replace("\n", " ").replace("\t", "")))
    except UnicodeError:
        complain("hub-group: a name in the database is UTF-8")
    except BrokenPipeError:
        sys.stderr = open(os.devnull, "w")
        os.dup2(os.open(os.devnull, os.O_WRONLY), 1)
    except OSError as trouble:
        complain("hub-group: ", shown(f"{trouble.filename or 'the output'}: {trouble.strerror}"))
        if trouble.filename is None:
            os.dup2(os.open(os.devnull, os.O_WRONLY), 1)
    return TROUBLE
