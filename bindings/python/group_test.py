"""The group's store on a real server: its calls beside those of a store in memory, lost connections, roles, backup, and
four hubs at once. Each test says what it measured, where it did."""
import os
import shutil
import signal
import socket
import subprocess
import tempfile
import threading
import time
import unittest
import uuid

import psycopg2
import raspteal_group
from group_mixed import STORE, Verdict, arguments, play
from group_server import Server
from raspteal import INDEX_MAX, LINE_MAX, TEXT_MAX, Mapping, Refused, Store, Uuid
from raspteal_group import GroupStore, Trouble, Unknown, create

ONE, TWO = Uuid("0" * 31 + "1"), Uuid("0" * 31 + "2")
BUTTONS, AXES = [0x10130, 0x10131], [0x30000]
SIZES = 65535, 65535
SECONDS = float(os.environ.get("SECONDS_MIXED", 10))
server = None


def setUpModule():
    global server
    server = Server()


def tearDownModule():
    server.remove()


def sql(statement, *arguments, user="hall", database="postgres"):
    link = psycopg2.connect(f"user={user} dbname={database}")
    try:
        with link, link.cursor() as cursor:
            cursor.execute(statement, arguments)
            return cursor.fetchall() if cursor.description else None
    finally:
        link.close()


class Cut(threading.Thread):
    """A door to the server that breaks a connection at its COMMIT: before the server hears it, or after."""

    def __init__(self, heard):
        super().__init__(daemon=True)
        self.heard, self.folder, self.cut = heard, tempfile.mkdtemp(prefix="raspteal-door-"), False
        self.door = socket.socket(socket.AF_UNIX)
        self.door.bind(f"{self.folder}/.s.PGSQL.5432")
        self.door.listen()
        self.start()

    def run(self):
        while True:
            try:
                hub, there = self.door.accept()[0], socket.socket(socket.AF_UNIX)
            except OSError:
                return
            there.connect(f"{server.folder}/.s.PGSQL.5432")
            threading.Thread(target=self.carry, args=(hub, there, True), daemon=True).start()
            threading.Thread(target=self.carry, args=(there, hub, False), daemon=True).start()

    def carry(self, source, to, asks):
        try:
            while data := source.recv(1 << 16):
                if self.cut:
                    break
                self.cut = asks and data.endswith(b"COMMIT\0")
                if self.cut and not self.heard:
                    break
                to.sendall(data)
        except OSError:
            pass
        for end in (source, to):
            try:
                end.shutdown(socket.SHUT_RDWR)
            except OSError:
                pass

    def close(self):
        self.door.close()
        shutil.rmtree(self.folder)


class Cases(unittest.TestCase):
    def fresh(self, name, **options):
        self.assertTrue(create(name, *SIZES))
        store = GroupStore(name, **options)
        self.addCleanup(store.close)
        return store

    def told(self, run):
        """A call's answer, or its refusal."""
        try:
            answer = run()
            return answer.told if isinstance(answer, Mapping) else answer
        except Refused as refused:
            return str(refused)

    def test_calls(self):
        """Each call answers as it does on a store in memory, and leaves the same bytes; a call that changes none makes
        no version."""
        group, plain, versions = self.fresh("calls"), Store.over(*map(bytes, SIZES)), []
        calls = [lambda s: s.insert(f"# x\n{ONE},One,a:b0,\r\nxinput,X\n"), lambda s: s.insert(b"\xff"),
                 lambda s: s.set_share(7, 300), lambda s: s.set_share(None, 65536),
                 lambda s: s.insert(f"{{{'0' * 8}-0000-0000-0000-{'0' * 12}}},Braced", 7), lambda s: s.insert("", 0),
                 lambda s: s.save({"a": 0x10131, "leftx": 0x30000}, BUTTONS, AXES, "Größe", ONE),
                 lambda s: s.save({"a": 5}, BUTTONS, AXES, "x", ONE),
                 lambda s: s.insert(f"{TWO}\n{ONE},{'n' * 16384}\n"),
                 lambda s: s.save({"a": 0x10131}, BUTTONS, AXES, "Seat 7", TWO, 255), lambda s: s.clear(),
                 lambda s: s.insert(f"{TWO},again")]
        for call in calls:
            self.assertEqual(self.told(lambda: call(group)), self.told(lambda: call(plain)))
            versions.append((group.last.version, group.last.written))
            self.assertEqual(bytes(group.read()), bytes(plain))
            self.assertEqual(*([s.share(party) for party in (None, 7, 255)] for s in (group, plain)))
            for pad, party in ((ONE, None), (TWO, None), (TWO, 255), (TWO, 7), (TWO, 0)):
                for look in ("found", "get", "get_near", "mapping"):
                    self.assertEqual(*(self.told(lambda: getattr(s, look)(pad, party=party)) for s in (group, plain)))
        self.assertEqual([v for v, _ in versions], [1, 1, 2, 2, 3, 3, 4, 4, 5, 6, 7, 8])
        self.assertEqual([w for _, w in versions], [True, False] * 4 + [True] * 4)
        self.assertEqual(group.lines(), [(0, f"{TWO},again".encode())])

    def test_no_store(self):
        self.assertFalse(create("calls-2") and create("calls-2"))
        self.assertRaisesRegex(Trouble, "no store nowhere: hub-group init", GroupStore("nowhere").get, ONE)
        self.assertRaisesRegex(Trouble, "no store nowhere", GroupStore("nowhere").clear)
        self.assertRaisesRegex(Trouble, "no stores of a group yet", GroupStore("x", "dbname=template1").get, ONE)
        self.assertRaisesRegex(Trouble, "does not exist", GroupStore("x", "user=stranger").get, ONE)

    def test_snapshots(self):
        """A copy in memory is read anew when the server tells of a change, and after a lost connection."""
        writer, kept, asking = self.fresh("seen"), GroupStore("seen", keep=True), GroupStore("seen")
        writer.insert(f"{ONE},One")
        for store in (kept, asking):
            self.assertEqual((store.get(ONE), store.get(TWO)), (f"{ONE},One".encode(), None))
        copy = kept.read()
        self.assertIs(kept.read(), copy)
        writer.insert(f"{TWO},Two")
        self.assertEqual(asking.get(TWO), f"{TWO},Two".encode())
        until = time.monotonic() + 5
        while kept.get(TWO) is None and time.monotonic() < until:
            time.sleep(0.01)
        self.assertEqual((kept.get(TWO), kept.version), (f"{TWO},Two".encode(), 2))
        sql("SELECT pg_terminate_backend(%s, 9000)", kept.link.connection.info.backend_pid)
        writer.clear()
        self.assertEqual((kept.get(TWO), kept.version, kept.keep), (None, 3, True))
        copy = kept.read()
        self.assertIs(kept.read(), copy)

    def test_lost_commit(self):
        """The answer to COMMIT is lost: the caller is told so, and can ask."""
        self.fresh("cut")
        for heard, version in ((False, 0), (True, 1)):
            door = Cut(heard)
            self.addCleanup(door.close)
            store = GroupStore("cut", f"host={door.folder}")
            with self.assertRaises(Unknown) as raised:
                store.save({"a": 0x10130}, BUTTONS, AXES, "Seat", ONE)
            self.assertEqual(raised.exception.version, 1)
            asking = GroupStore("cut")
            self.assertEqual((asking.done(raised.exception.call) or 0, asking.version), (version, version))
            self.assertEqual(asking.found(ONE), heard)

    def test_asking(self):
        """Who asks for a call that is still at work waits until it has ended, done or not."""
        store = self.fresh("asked")
        for end, told in (("ROLLBACK", None), ("COMMIT", 1)):
            call, heard = uuid.uuid4(), []
            _, index, text = store.link.begin(raspteal_group.LOCK, {"name": "asked"})
            store.link.go_on(raspteal_group.WRITE, (str(call), index, text, "asked"))
            asking = threading.Thread(target=lambda: heard.append(GroupStore("asked").done(call)))
            asking.start()
            time.sleep(0.3)
            self.assertEqual(heard, [])
            store.link.go_on(end)
            asking.join(5)
            self.assertEqual(heard, [told])

    def test_waiting(self):
        """A change waits for the one before it, and then gives up; the lock of a silent hub is taken from it, and what
        it writes afterwards is refused: no two hubs ever write from one version."""
        first, second = self.fresh("wait"), GroupStore("wait")
        raspteal_group.WAIT, raspteal_group.SILENT = 1, 3
        self.addCleanup(lambda: raspteal_group.__dict__.update(WAIT=5, SILENT=30))

        def silent(store):
            store.insert(f"{ONE},first")
            self.assertRaisesRegex(Trouble, "another hub was at work on this store for 1 seconds", second.clear)
            time.sleep(3)
            self.assertEqual(second.insert(f"{TWO},second"), (1, 0))

        self.assertRaises(Trouble, first.change, silent)
        self.assertEqual((first.version, first.lines()), (1, [(0, f"{TWO},second".encode())]))
        first.insert(f"{ONE},again")
        self.assertEqual(first.version, 2)

    def test_crash(self):
        """What was told done before a crash is there after it, also where the server is set to answer before its disk
        has it."""
        store = self.fresh("crash")
        for how in ("on", "off"):
            sql(f"ALTER ROLE hall SET synchronous_commit = {how}")
            store.close()
            store.clear()
            for n in range(20):
                store.insert(f"{n:032x},{n}")
            server.restart(signal.SIGQUIT)
            self.assertEqual(len(store.lines()), 20)
        sql("ALTER ROLE hall RESET synchronous_commit")
        server.restart(signal.SIGINT)
        self.assertEqual(store.insert(f"{ONE},after"), (1, 0))

    def test_roles(self):
        """A role writes as its parties alone, whatever program it uses; the hall's role alone gives shares and empties
        the store."""
        hall = self.fresh("roles")
        hall.insert(f"{ONE},hall\n{TWO},hall")
        hall.insert(f"{ONE},league", 7)
        for role, party in (("league", 7), ("desk", 0), ("reader", None)):
            sql(f"CREATE ROLE {role} LOGIN")
            sql("SELECT raspteal.allow('roles', %s, %s)", role, party or 0)
        sql("CREATE ROLE member LOGIN IN ROLE league")
        sql("DELETE FROM raspteal.party WHERE role = 'reader'")
        users = "league", "member", "desk", "reader"
        league, member, desk, reader = (GroupStore("roles", f"user={user}") for user in users)
        self.assertEqual(league.insert(f"{TWO},league", 7), (1, 0))
        self.assertEqual(member.insert(f"{ONE},member", 7), (1, 0))
        self.assertEqual(desk.insert(f"{ONE},desk"), (1, 0))
        desk.set_share(7, 90)
        for store, party, words in ((league, None, "as party 7, and as no other"), (league, 8, "as party 7"),
                                    (desk, 7, "as party 0"), (reader, None, "as party none")):
            self.assertRaisesRegex(Trouble, words, store.insert, f"{ONE},other", party)
        self.assertRaisesRegex(Trouble, "as party 7", league.clear)
        self.assertRaisesRegex(Trouble, "as party 7", league.set_share, 7, 100)
        self.assertEqual((reader.get(ONE), reader.get(ONE, 7)), (f"{ONE},desk".encode(), f"{ONE},member".encode()))
        self.by_hand("league", league.read().halves)
        self.assertEqual([r for (r,) in sql("SELECT role FROM raspteal.call WHERE store = 'roles' ORDER BY version")],
                         ["hall", "hall", "league", "member", "desk", "desk", "league"])
        desk.clear()
        self.assertEqual(hall.lines(), [])

    def by_hand(self, role, halves):
        """Statements of a role's own. Refused: the hall's line changed, bytes that are no sound store, one UUID twice,
        other lengths, the same version again, other tables, a function of its own that the check is to use. Done: one
        more line of its own."""
        index, text = halves
        change = """UPDATE raspteal.store SET version = version + 1, call = gen_random_uuid(), index = %s, text = %s
            WHERE name = 'roles'"""
        at, own, used = text.index(b"desk"), index.rindex(b"\x03\x07"), len(text.rstrip(b"\0"))
        end = len(index.rstrip(b"\0"))

        def more(pad):
            record = b"\x03\x07" + pad + used.to_bytes(2, "big") + b"\0\1"
            return index[:end] + record + index[end + 22:], text[:used] + b"x" + text[used + 1:]

        for i, t, said in ((index, text[:at] + b"DESK" + text[at + 4:], "and as no other"),
                           (b"\x09" + index[1:], text, "not a sound store"), (index, text[:-1] + b"x", "not a sound"),
                           (*more(index[own + 2:own + 18]), "and as no other"), (index[:-1], text, "both lengths")):
            with self.assertRaisesRegex(psycopg2.Error, said):
                sql(change, i, t, user=role)
        for statement in ("UPDATE raspteal.store SET version = version WHERE name = 'roles'",
                          "UPDATE raspteal.store SET name = 'x'", "DELETE FROM raspteal.store",
                          "INSERT INTO raspteal.party VALUES ('roles', 'league', 0)", "DELETE FROM raspteal.call"):
            with self.assertRaisesRegex(psycopg2.Error, "permission denied|next version"):
                sql(statement, user=role)
        sql(f"GRANT CREATE ON DATABASE postgres TO {role}")
        sql("CREATE SCHEMA own; CREATE FUNCTION own.pg_has_role(oid, text) RETURNS boolean RETURN true", user=role)
        with self.assertRaisesRegex(psycopg2.Error, "and as no other"):
            sql("SET search_path = own, pg_catalog; " + change, index, text[:at] + b"DESK" + text[at + 4:], user=role)
        sql(change, *more(bytes(15) + b"\x09"), user=role)

    def test_large(self):
        """A store of the large size: the database takes records with long offsets and long shares apart, and none that is
        longer or shorter than its number needs."""
        self.assertTrue(create("large", INDEX_MAX, TEXT_MAX))
        store, plain = GroupStore("large"), Store.large()
        self.addCleanup(store.close)
        lines = [f"{n:032x},{'n' * (LINE_MAX - 33)}" for n in range(4)] + [f"{9:032x},far"]
        for s in (store, plain):
            s.insert("\n".join(lines))
            s.insert(f"{ONE},league", 7)
            s.set_share(9, 65536)
            s.set_share(10, 65535)
        self.assertEqual(bytes(store.read()), bytes(plain))
        self.assertEqual(store.lines(), [(0, line.encode()) for line in lines] + [(7, f"{ONE},league".encode())])
        index, text = plain.halves
        front, far = index[:6 + 4 + 4 * 21], index[6 + 4 + 4 * 21:][:23 + 24]
        self.assertEqual((front[0], front[6], far[0], far[23:25]), (6, 4, 2, b"\5\7"))
        for wrong in (b"\6\x09\0\0\xff\xff" + front[6:] + far, front[:6] + b"\4\x09" + front[8:] + far,
                      front + b"\1" + far[1:], front + far[:17] + b"\0\1\0\1" + far[21:],
                      front + far[:23] + b"\3\7" + far[25:], front[:10] + b"\2" + front[11:27] + b"\0\0" + front[27:] + far):
            with self.assertRaisesRegex(psycopg2.Error, "not a sound store"):
                sql("SELECT count(*) FROM raspteal.lines(%s, %s)", wrong.ljust(INDEX_MAX, b"\0"), text)
        self.assertEqual(sql("SELECT count(*) FROM raspteal.lines(%s, %s)", index, text), [(6,)])

    def test_backup(self):
        """pg_dump while a hub files lines: the copy is the store of one moment, and hubs go on with it."""
        store, over = self.fresh("kept"), threading.Event()

        def file():
            for n in range(100, 400):
                if not over.is_set():
                    GroupStore("kept").insert(f"{n:032x},{n}")

        store.insert(f"{ONE},One")
        at_work = threading.Thread(target=file)
        at_work.start()
        dump = subprocess.run([f"{server.bin}/pg_dump", "-n", "raspteal"], capture_output=True, check=True).stdout
        over.set()
        at_work.join()
        link = psycopg2.connect("")
        link.autocommit = True
        link.cursor().execute("CREATE DATABASE copy")
        link.close()
        psql = [f"{server.bin}/psql", "-q", "-v", "ON_ERROR_STOP=1", "copy"]
        subprocess.run(psql, input=dump, check=True, stdout=subprocess.DEVNULL)
        copy = GroupStore("kept", "dbname=copy")
        version = copy.version
        self.assertEqual((len(copy.lines()), version <= store.version), (version, True))
        copy.save({"a": 0x10130}, BUTTONS, AXES, "Seat", ONE)
        self.assertEqual((copy.version, len(copy.lines())), (version + 1, version))
        self.assertEqual(store.get(ONE), f"{ONE},One".encode())

    def test_mixed(self):
        """Four hubs at once, killed at random moments, and a crash of the server."""
        store = self.fresh(STORE)
        notes, killed = play(server, SECONDS, seed=1)
        listed = {str(call): version for call, version in
                  sql("SELECT call, version FROM raspteal.call WHERE store = %s", STORE)}
        verdict, halves = Verdict(notes, listed), store.read().halves
        end = verdict.replay([len(half) for half in halves])
        left, left_done = verdict.unanswered()
        print(f"\n{len(verdict.calls)} calls of {killed + 4} hubs in {SECONDS:g} seconds, {killed} killed, one crash "
              f"of the server: {store.version} changes; {len(verdict.order())} answers in the order of commits, "
              f"{len(verdict.wrong)} unlike the book's; {verdict.count('trouble')} turned away, "
              f"{verdict.count('unknown')} unknown and then asked; {left} without an answer, {left_done} of them done; "
              f"{len(verdict.lost())} lost\nanswers: "
              + ", ".join(f"{n} {key}" for key, n in sorted(verdict.numbers.items())))
        self.assertEqual(sorted(listed.values()), list(range(1, store.version + 1)))
        self.assertTrue(set(listed) <= set(verdict.calls))
        self.assertEqual((verdict.wrong[:3], verdict.unread[:3], verdict.lost()), ([], [], []))
        self.assertEqual((end.index, end.text), halves)
        self.assertTrue(killed and verdict.numbers.get("save 0"))
        for call, line, told in verdict.saves:
            _, buttons, axes, _, pad = arguments(call)
            self.assertEqual(store.get(pad, call["party"]), line)
            self.assertEqual(repr(store.mapping(pad, buttons, axes, call["party"]).told), told)


if __name__ == "__main__":
    unittest.main(verbosity=2)
