"""Every call of the module, on document 01's and 02's examples."""
import threading
import unittest

import raspteal
from raspteal import AXIS, BUTTON, FULL, HAT, INDEX_MAX, LINE_MAX, LOWER_HALF, PRESSED, RELEASED, TEXT_MAX, UPPER_HALF
from raspteal import Element, Entry, Mapping, Pad, Pads, Pair, Refused, Store, Uuid, axis, build, pairs

U = "0" * 32
ONE = Uuid("0" * 31 + "1")
BUTTONS, AXES = [0x10130, 0x10131], [0x30000]
SOUTH, LEFT_X = Element(False, 1), Element(True, 1)


class Cases(unittest.TestCase):
    def refused(self, number, run, *arguments, place=None, code=None):
        with self.assertRaises(Refused) as raised:
            run(*arguments)
        told = raised.exception
        self.assertEqual((told.number, told.place, told.code), (number, place, code))
        return told

    def test_uuids(self):
        for text in (U, "urn:uuid:00000000-0000-0000-0000-000000000000", "{00000000-0000-0000-0000-000000000000}"):
            self.assertEqual(str(Uuid(text)), U)
        self.assertEqual(Uuid("F81D4FAE7DEC11D0A76500A0C91E6BF6").high, 0xF81D4FAE7DEC11D0)
        for text in ("", "xinput", U + "0"):
            self.assertRaises(ValueError, Uuid, text)

    def test_elements(self):
        self.assertEqual(Element.named("leftx"), LEFT_X)
        self.assertEqual([str(e) for e in (SOUTH, LEFT_X, Element(True, 7), Element(False, 99))],
                         ["a", "leftx", "axis 7", "button 99"])
        self.assertRaises(ValueError, Element.named, "south")
        self.assertRaises(ValueError, str, Element(False, 65536))

    def test_reading(self):
        line = f"{U},Größe,a:b1,dpup:h0.1,-leftx:a0~".encode()
        map = Mapping.read(line, BUTTONS, AXES)
        self.assertEqual([(hex(e.code), str(e.element)) for e in map],
                         [("0x10131", "a"), ("0x10220", "dpup"), ("0x30000", "leftx"), ("0x30011", "axis 8")])
        self.assertEqual(list(map)[2], Entry(0x30000, LEFT_X, FULL, LOWER_HALF, True))
        self.assertEqual((map.name_in(line).decode(), map.hats_mapped, map.is_default), ("Größe", 1, False))
        self.assertEqual((map.map(0x10131), map.map(5), map.map_rev(SOUTH), map.map_rev(Element(False, 2))),
                         (SOUTH, None, 0x10131, None))

    def test_pairs(self):
        self.assertEqual(pairs(f"{U},T,a:b7,platform:Linux,-leftx:+a2~,dpup:h0.1,"),
                         [Pair(BUTTON, 7, 0, SOUTH, FULL, FULL, False),
                          Pair(AXIS, 2, 0, LEFT_X, UPPER_HALF, LOWER_HALF, True),
                          Pair(HAT, 0, 1, Element(False, 16), FULL, FULL, False)])
        self.assertEqual(pairs(f"{U},T"), [])
        self.refused(6, pairs, f"{U},T,q:b0", place=35)

    def test_refused_readings(self):
        for number, line, place in ((1, "q,T", 0), (2, U, 0), (3, f"{U},T,,", 35), (4, f"{U},T,a:b65536", 35),
                                    (5, f"{U},T,q:a0", 35), (6, f"{U},T,q:b0", 35), (7, f"{U},T,a:h0.3", 0),
                                    (10, b"A\xc3", 1)):
            told = self.refused(number, Mapping.read, line, BUTTONS, AXES, place=place)
            self.assertEqual(str(told), f"refused {number}: {raspteal.MEANINGS[number]} (place {place})")
        self.refused(12, Mapping.read, U, [0] * 1025, [])
        self.refused(12, Mapping.default, [], [0] * 1025)
        self.assertRaises(ValueError, Mapping.read, U, [2**32], [])

    def test_default(self):
        map = Mapping.default(BUTTONS, AXES)
        self.assertTrue(map.is_default)
        self.assertEqual([e.code for e in map], [0x10130, 0x10131, 0x30000])

    def test_puts(self):
        map = Mapping()
        for n in range(256):
            map.put(Entry(n, SOUTH))
        map.put(Entry(7, LEFT_X))
        self.refused(11, map.put, Entry(256, SOUTH))
        self.assertEqual((len(map), map.map(7)), (256, LEFT_X))

    def test_build(self):
        line, map = build({"a": 0x10131}, BUTTONS, AXES, "T", Uuid(U))
        self.assertEqual(line.decode(), f"{U},T,a:b1,")
        self.assertEqual(map, Mapping.read(line, BUTTONS, AXES))
        self.assertNotEqual(map, Mapping())
        self.refused(13, build, {}, [], [], ",", ONE)
        self.refused(14, build, {Element(False, 0): 5}, [5], [], "T", ONE)
        self.refused(15, build, {"a": 5}, [], [], "T", ONE, code=5)
        self.refused(16, build, {Element(True, 7): 5}, [], [5], "T", ONE)
        self.refused(17, build, {}, [], [], "n" * 8193, ONE)

    def test_store(self):
        store = Store()
        self.assertEqual(store.insert(f"# x\n{ONE},One,a:b0,\r\nxinput,X\n"), (3, 0))
        self.assertTrue(store.found(ONE) and not store.found(Uuid(U)))
        self.assertEqual(store.get(ONE).decode(), f"{ONE},One,a:b0,")
        self.assertEqual((store.get(Uuid(U)), store.mapping(Uuid(U))), (None, None))
        saved = store.save({"a": 0x10131, "leftx": 0x30000}, BUTTONS, AXES, "Seat 7", ONE)
        self.assertEqual(store.get(ONE).decode(), f"{ONE},Seat 7,a:b1,leftx:a0,")
        again = Store(bytes(store))
        self.assertEqual(again.mapping(ONE, BUTTONS, AXES), saved)
        self.assertEqual((len(bytes(store)), bytes(Store(bytes(store)))), (131070, bytes(store)))
        store.clear()
        self.assertEqual(bytes(store), bytes(131070))

    def test_near(self):
        store, pad = Store(), Uuid("0300abcd" + "0" * 24)
        self.assertIsNone(store.get_near(pad))
        store.insert(b"03000000" + b"0" * 24 + b",plain\n")
        self.assertEqual(store.get_near(pad), (b"03000000" + b"0" * 24 + b",plain", "near"))
        store.insert(b"0300abcd" + b"0" * 24 + b",summed\n")
        self.assertEqual(store.get_near(pad), (b"0300abcd" + b"0" * 24 + b",summed", "exact"))
        self.assertEqual(store.get_near(Uuid("03000000" + "0" * 24))[1], "exact")
        self.assertIsNone(store.get_near(Uuid("0300abcd" + "0" * 23 + "1")))
        self.refused(19, Store(b"\t" + bytes(65)).get_near, pad)

    def test_parties(self):
        store = Store(bytes(2 * 110))
        for n, party in enumerate((None, 1, 255)):
            self.assertFalse(store.found(ONE, party))
            self.assertEqual(store.insert(f"{ONE},{n}", party), (1, 0))
        for n, party in enumerate((None, 1, 255)):
            self.assertEqual(store.get(ONE, party=party), f"{ONE},{n}".encode())
            self.assertEqual(store.get_near(ONE, party), (f"{ONE},{n}".encode(), "exact"))
        self.assertIsNone(store.get(ONE, party=2))
        self.refused(25, store.save, {"a": 5}, [5], [], "", ONE, 2)
        self.assertEqual(store.save({"a": 5}, [5], [], "", ONE, 1), store.mapping(ONE, [5], party=1))
        self.assertEqual(len(store.mapping(ONE)), 0)
        before = bytes(store)
        self.assertEqual(self.refused(24, store.insert, b"\xff", 0).count, 0)
        self.refused(24, store.save, {}, [], [], "a,b", ONE, 0)
        self.refused(24, store.found, ONE, 0)
        self.refused(24, store.get_near, ONE, 0)
        self.refused(24, Store.over(bytes(INDEX_MAX + 1), b"").mapping, ONE, (), (), 0)
        self.assertEqual(bytes(store), before)
        self.assertRaises(ValueError, store.found, ONE, 256)
        store.clear()
        self.assertFalse(any(store.found(ONE, party) for party in (None, 1, 255)))

    def test_removals(self):
        store = Store.over(bytes(21 + 22 + 21), bytes(200))
        store.insert(f"{ONE},One\n{Uuid(U)},Nil")
        store.insert(f"{ONE},7", 7)
        before = bytes(store)
        self.assertFalse(store.remove(ONE, 8) or store.remove(Uuid("2" * 32)))
        self.refused(24, store.remove, ONE, 0)
        self.assertEqual(bytes(store), before)
        self.assertTrue(store.remove(ONE))
        self.assertFalse(store.remove(ONE))
        self.assertEqual([line for *_, line in store.lines()], [f"{Uuid(U)},Nil".encode(), f"{ONE},7".encode()])
        self.assertTrue(store.remove(ONE, 7) and store.remove(Uuid(U)))
        self.assertEqual(bytes(store), bytes(64 + 200))
        self.refused(19, Store(b"\t" + bytes(65)).remove, ONE)

    def test_shares(self):
        store = Store(bytes(2 * 110))
        self.assertEqual(store.share(), (0, 0))
        store.set_share(None, 60)
        store.insert(f"{ONE},{'n' * 17}", 7)
        self.assertEqual((store.share(), store.share(7)), ((60, 0), (0, 50)))
        self.assertEqual(self.refused(25, store.insert, f"{U}", 7).count, 0)
        self.refused(26, store.set_share, 7, 51)
        self.refused(26, store.set_share, 7, 2**64 - 1)
        self.assertEqual(len(store.save({"a": 5}, [5], [], "Cup", ONE)), 1)
        self.assertEqual(store.share(), (60, 42))
        store.set_share(None, 42)
        store.set_share(9, 18)
        self.refused(26, store.set_share, None, 43)
        self.assertEqual((bytes(store)[:9], store.share(9).share), (b"\4\0\0\x2a\4\x09\0\x12\3", 18))
        self.assertRaises(ValueError, store.set_share, 0, 5)
        self.assertRaises(ValueError, store.set_share, 9, -1)
        store.clear()
        self.assertEqual(store.share(9), (0, 0))
        self.refused(19, Store(b"\4\3\0\0" + bytes(62)).share)
        self.refused(19, Store(b"\4\3\0\0" + bytes(62)).set_share, 3, 1)

    def test_lines(self):
        store = Store(bytes(2 * 200))
        self.assertEqual(list(store.lines()), [])
        store.set_share(7, 5)
        store.insert(f"{ONE},League's", 7)
        store.insert(f"{ONE},Hall's\n{U},T")
        store.insert(f"{ONE},Hall's")
        held = [(None, Uuid(U), f"{U},T".encode()), (None, ONE, f"{ONE},Hall's".encode())]
        walk = store.lines()
        self.assertEqual(list(walk), [(7, ONE, f"{ONE},League's".encode()), *held])
        self.assertEqual(list(walk), [])
        self.assertEqual(list(store.grown().lines())[1:], held)
        self.refused(19, Store(b"\x09" + bytes(99)).lines)

    def test_cut_lines(self):
        self.assertEqual(list(raspteal.lines_of("a\r\n\nb\r")), [b"a", b"", b"b\r"])
        self.assertEqual((list(raspteal.lines_of("")), list(raspteal.lines_of(b"\n"))), ([], [b""]))

    def test_refused_stores(self):
        store = Store(b"\x09" + bytes(99))
        before = bytes(store)
        self.refused(19, store.found, ONE)
        self.refused(19, store.get, ONE)
        self.refused(19, store.mapping, ONE)
        self.refused(19, store.save, {}, [], [], "T", ONE)
        self.assertEqual(self.refused(19, store.insert, "").count, 0)
        self.assertEqual(bytes(store), before)
        store.clear()
        self.assertEqual(store.insert(b""), (0, 0))
        self.refused(22, store.save, {}, [], [], "platform:Linux", ONE)
        self.refused(10, store.insert, b"\xff", place=0)
        stopped = self.refused(25, store.insert, f"{U}\n{ONE}\n{Uuid('2' * 32)}")
        self.assertEqual((stopped.count, store.found(ONE)), (1, False))
        self.refused(21, Store(bytes(2 * 20)).insert, U)
        self.refused(20, Store().insert, U + "," + "n" * 16352)
        for over in (Store.over(bytes(INDEX_MAX + 1), b""), Store.over(b"", bytes(TEXT_MAX + 1))):
            self.refused(23, over.clear)
            self.refused(19, over.insert, "")
            self.refused(19, over.found, ONE)
        self.assertRaises(ValueError, Store, b"x")

    def test_large(self):
        """A file of the large size; lines on either side of offset 65536; a small store that grows."""
        store = Store.large()
        self.assertEqual((len(bytes(store)), [len(half) for half in store.halves]), (17825792, [INDEX_MAX, TEXT_MAX]))
        long = [f"{Uuid('0' * 31 + str(k))},{'n' * (LINE_MAX - 33)}" for k in range(4)]
        five = Uuid("0" * 31 + "5")
        self.assertEqual(store.insert("\n".join([*long, f"{five},T"])), (5, 0))
        self.assertEqual(bytes(store)[84:107], b"\2" + bytes(15) + b"\5\0\1\0\0\0\x22")
        self.assertEqual(store.insert(long[0]), (1, 0))
        self.assertEqual(bytes(store)[63:84], b"\1" + bytes(15) + b"\5\xc0\0\0\x22")
        self.assertEqual(store.save({"a": 0x10131}, BUTTONS, AXES, "T", ONE, 7), store.mapping(ONE, BUTTONS, AXES, 7))
        store.set_share(7, 65536)
        self.assertEqual((store.share(7), bytes(store)[:6]), ((65536, 40), b"\6\7\0\1\0\0"))
        again = Store(bytes(store))
        self.assertEqual((again.get(five), again.get_near(five)), (f"{five},T".encode(), (f"{five},T".encode(), "exact")))
        self.refused(23, Store.over(bytes(INDEX_MAX + 1), b"").clear)
        store.clear()
        self.assertEqual(bytes(store), bytes(17825792))
        small = Store()
        small.insert("\n".join(long[:3]))
        self.refused(25, small.insert, long[3])
        grown = small.grown()
        self.assertEqual([half[:65535] for half in grown.halves], list(small.halves))
        self.assertEqual(grown.insert(long[3]), (1, 0))
        self.assertEqual(grown.get(ONE).decode(), long[1])

    def test_own_stack(self):
        """A large store in a thread with a small stack, eight at a time; what a call raises comes through."""
        store, told = Store.large(), []
        store.insert(f"{ONE},One,a:b0,")
        before = threading.stack_size(256 << 10)
        threads = [threading.Thread(target=lambda: told.append(store.get(ONE))) for _ in range(8)]
        for t in threads:
            t.start()
        for t in threads:
            t.join()
        threading.stack_size(before)
        self.assertEqual(told, [f"{ONE},One,a:b0,".encode()] * 8)
        self.assertRaises(ZeroDivisionError, raspteal.on_own_stack, lambda: 1 // 0)

    def test_values(self):
        rows = {(FULL, False): (0, 16383, 16383, 16384, 32767), (FULL, True): (32767, 16383, 16383, 16382, 0),
                (UPPER_HALF, False): (None, None, 0, 1, 32767), (UPPER_HALF, True): (None, None, 32767, 32766, 0),
                (LOWER_HALF, False): (32767, 0, 0, None, None), (LOWER_HALF, True): (0, 32766, 32767, None, None)}
        for (input, inverted), told in rows.items():
            e = Entry(5, SOUTH, input, LOWER_HALF, inverted)
            self.assertEqual(tuple(e.value(axis(v)) for v in (-32768, -1, 0, 1, 32767)), told)
        lower = Entry(5, LEFT_X, FULL, LOWER_HALF)
        self.assertEqual([lower.value(raw) for raw in (axis(0), PRESSED, RELEASED)], [-16384, -32768, 0])
        self.assertEqual(Entry(5, LEFT_X).value(axis(-7)), -7)
        self.assertRaises(ValueError, axis, 32768)

    def test_events(self):
        map = Mapping.read(f"{U},T,a:b0,righttrigger:+a0", BUTTONS, AXES)
        self.assertEqual(map.event(0x10130, PRESSED), (SOUTH, 32767))
        self.assertEqual(map.event(0x30000, axis(100)), (Element(False, 10), 100))
        self.assertEqual((map.event(0x30000, axis(-1)), map.event(5, PRESSED)), (None, None))

    def test_pad(self):
        pad, other = Pad(), Element(False, 2)
        maps = [Mapping(), Mapping()]
        for map, e in zip(maps, (SOUTH, other)):
            map.put(Entry(5, e))
        self.assertEqual(pad.raw_event(5, PRESSED), [])
        self.assertEqual(pad.change_map(maps[0]), [(SOUTH, 32767)])
        self.assertEqual(pad.change_map(maps[1]), [(SOUTH, 0), (other, 32767)])
        self.assertEqual((pad.value(SOUTH), pad.value(other), pad.value(Element(False, 0))), (0, 32767, 0))
        self.assertEqual(pad.raw_event(5, RELEASED), [(other, 0)])
        self.assertEqual(pad.change_map(maps[0]), [])
        for n in range(6, 261):
            pad.raw_event(n, axis(n))
        self.refused(27, pad.raw_event, 261, PRESSED)
        self.assertEqual(pad.raw_event(5, PRESSED), [(SOUTH, 32767)])

    def test_pads(self):
        pads, map = Pads(), Mapping()
        map.put(Entry(5, LEFT_X))
        for second in (False, True):
            self.assertEqual(pads.change_map(second, map), [])
        self.assertEqual(pads.raw_event(True, 5, axis(-5)), [(LEFT_X, -5)])
        self.assertEqual(pads.raw_event(False, 5, axis(5)), [(LEFT_X, 5)])
        self.assertEqual(pads.raw_event(True, 5, axis(-6)), [(LEFT_X, -6)])
        self.assertEqual(pads.value(LEFT_X), -6)
        for n in range(6, 261):
            pads.raw_event(False, n, PRESSED)
        self.refused(27, pads.raw_event, False, 261, PRESSED)
        self.assertEqual(pads.raw_event(True, 261, PRESSED), [])

    def test_threads(self):
        """Look-ups of one store at the same time."""
        store = Store()
        store.insert(f"{ONE},One,a:b0,")
        told = []
        threads = [threading.Thread(target=lambda: told.append(store.get(ONE))) for _ in range(8)]
        for t in threads:
            t.start()
        for t in threads:
            t.join()
        self.assertEqual(told, [f"{ONE},One,a:b0,".encode()] * 8)


unittest.main()
