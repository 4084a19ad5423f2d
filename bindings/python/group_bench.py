"""What a save in the group's store costs, on a server of its own on this machine (docs/GROUP.md has the figures):

    group_bench.py clients [SECONDS]    saves a second of 1, 4 and 16 hubs on one store and on 16, so long each
    group_bench.py rows [ROUNDS]        a row of the library's largest store and one of 1 MiB + 16 MiB, written back

The bytes of the larger row are no store that the library takes; only the database is measured there."""
import multiprocessing
import os
import random
import statistics
import sys
import time
import uuid

import psycopg2
from group_server import Server
from raspteal import Store, Uuid
from raspteal_group import LOCK, WRITE, GroupStore, Link, create

BUTTONS, AXES = list(range(0x10130, 0x1013F)), list(range(0x30000, 0x30006))
BOUND = {key: 0x10130 + n for n, key in enumerate("a b x y leftshoulder rightshoulder back start guide".split())}
PADS, LINES = 150, 200
SIZES = [(65535, 65535, "64 KiB + 64 KiB"), (1 << 16, 1 << 20, "64 KiB + 1 MiB"), (1 << 18, 1 << 22, "256 KiB + 4 MiB"),
         (1 << 20, 1 << 24, "1 MiB + 16 MiB")]


def lines(count, chance):
    """Lines as real lists have them."""
    keys = "a b x y back start guide leftstick rightstick leftx lefty rightx righty dpup dpdown".split()
    for _ in range(count):
        pairs = ",".join(f"{key}:{chance.choice('ab')}{chance.randrange(16)}" for key in keys)
        yield f"03000000{chance.getrandbits(96):024x},Pad {chance.randrange(10 ** 6)},{pairs},platform:Linux,"


def client(store, seconds, seed, told):
    chance, group, took = random.Random(seed), GroupStore(store), []
    until = time.monotonic() + seconds
    while (began := time.monotonic()) < until:
        pad = Uuid(f"{chance.randrange(PADS):032x}")
        group.save(BOUND, BUTTONS, AXES, f"Seat {chance.randrange(1000)}", pad)
        took.append(time.monotonic() - began)
    told.put(took)


def clients(seconds):
    text = "\n".join(lines(LINES, random.Random(1)))
    print("hubs  stores  saves a second  median ms  slowest of a hundred ms")
    for stores in (1, 16):
        for number in range(stores):
            create(f"{stores}-{number}", 65535, 65535)
            filled = GroupStore(f"{stores}-{number}")
            filled.insert(text)
        for hubs in (1, 4, 16):
            told = multiprocessing.Queue()
            at_work = [multiprocessing.Process(target=client, args=(f"{stores}-{n % stores}", seconds, n, told))
                       for n in range(hubs)]
            for process in at_work:
                process.start()
            took = sorted(t for _ in at_work for t in told.get())
            for process in at_work:
                process.join()
            print(f"{hubs:4}  {stores:6}  {len(took) / seconds:14.0f}  {statistics.median(took) * 1000:9.1f}  "
                  f"{took[len(took) * 99 // 100] * 1000:23.1f}", flush=True)
    group = GroupStore("1-0")
    held = group.read()
    began = time.monotonic()
    for n in range(200):
        held.save(BOUND, BUTTONS, AXES, "Seat", Uuid(f"{n % PADS:032x}"))
    print(f"the library's own part of a save: {(time.monotonic() - began) * 5:.2f} ms, "
          f"of a store with {len(group.lines())} lines")


def row(link, name, index, text, rounds):
    """Writes a row back so often, and says what a change of it took, wrote and left."""
    link.begin("INSERT INTO raspteal.store (name, call, index, text) VALUES (%s, %s, %s, %s)",
               (name, str(uuid.uuid4()), psycopg2.Binary(index), psycopg2.Binary(text)))
    parts = [[], [], []]
    log = link.begin("SELECT pg_current_wal_insert_lsn() - '0/0'")[0]
    for n in range(rounds):
        began = time.monotonic()
        version, *halves = link.begin(LOCK, {"name": name})
        held = Store.over(*halves).halves
        parts[0].append(time.monotonic() - began)
        line = next(lines(1, random.Random(n))).encode()
        changed = held[0], line + held[1][:-len(line)]
        began = time.monotonic()
        link.go_on(WRITE, (str(uuid.uuid4()), *map(psycopg2.Binary, changed), name))
        parts[1].append(time.monotonic() - began)
        began = time.monotonic()
        link.commit(None, version)
        parts[2].append(time.monotonic() - began)
    log = (link.begin("SELECT pg_current_wal_insert_lsn() - '0/0'")[0] - log) / rounds
    size = link.begin("SELECT pg_column_size(index) + pg_column_size(text) FROM raspteal.store WHERE name = %s",
                      (name,))
    read, write, commit = (statistics.median(part) * 1000 for part in parts)
    print(f"{name:28}  {read:7.1f}  {write:8.1f}  {commit:7.1f}  {read + write + commit:7.1f}  {size[0] / 1024:9.0f}  "
          f"{float(log) / 1024:9.0f}", flush=True)


def rows(rounds):
    create("first")
    link, chance = Link(), random.Random(1)
    text = "".join(lines(110000, chance)).encode()
    index = b"".join(b"\2" + chance.randbytes(16) + n.to_bytes(4, "big") + b"\0\xa0" for n in range(46000))
    print("row                           read ms  write ms  disk ms  together  stored KiB  logged KiB")
    for storage, compression, sizes in (("EXTENDED", "lz4", SIZES), ("EXTENDED", "pglz", SIZES[3:]),
                                        ("EXTERNAL", "pglz", SIZES[3:])):
        for column in ("index", "text"):
            link.begin(f"ALTER TABLE raspteal.store ALTER {column} SET STORAGE {storage}")
            link.begin(f"ALTER TABLE raspteal.store ALTER {column} SET COMPRESSION {compression}")
        how = "not packed" if storage == "EXTERNAL" else compression
        for i, t, words in sizes:
            row(link, f"{words}, {how}", index[:i].ljust(i, b"\0"), text[:t].ljust(t, b"\0"), rounds)
    print("the table after that:", link.begin("SELECT pg_size_pretty(pg_total_relation_size('raspteal.store'))")[0])


if __name__ == "__main__":
    server = Server()
    print(f"PostgreSQL {psycopg2.connect('').info.server_version // 10000}, {os.cpu_count()} processors, load "
          f"{os.getloadavg()[0]:.1f} at the start")
    try:
        {"clients": clients, "rows": rows}[sys.argv[1]](int((sys.argv + ["3"])[2]))
    finally:
        server.remove()
