"""The command hub-group: group.session has commands and what they print, and a status other than 0 in brackets; and
where the program hub stands, both say the same of a store. `group_session.py --write` writes the session anew, as it
went."""
import os
import re
import subprocess
import sys
import tempfile
import unittest
from pathlib import Path

from group_server import Server

ROOT = Path(__file__).resolve().parents[2]
SESSION = Path(__file__).with_name("group.session")
PAD, LISTS = "00000000000000000000000000000001", ["buttons=10130,10131", "axes=30000"]
server = room = None


def setUpModule():
    global server, room
    server, room = Server(), tempfile.TemporaryDirectory()
    os.environ |= {"PATH": f"{ROOT}:{server.bin}:{os.environ['PATH']}", "LC_ALL": "C.UTF-8"}


def tearDownModule():
    room.cleanup()
    server.remove()


def replay(command):
    done = subprocess.run(["bash", "-c", command], stdout=subprocess.PIPE, stderr=subprocess.STDOUT, cwd=room.name)
    told = done.stdout.decode(errors="replace").replace(server.folder, "FOLDER").replace(room.name, "ROOM")
    return f"$ {command}\n{told}" + (f"[{done.returncode}]\n" if done.returncode else "")


def steps():
    parts = ("\n" + SESSION.read_text()).split("\n$ ")[1:]
    return [(part.split("\n")[0], f"$ {part}".removesuffix("\n") + "\n") for part in parts]


class Cases(unittest.TestCase):
    maxDiff = None

    def test_commands(self):
        for command, expected in steps():
            with self.subTest(command):
                self.assertEqual(replay(command), expected)

    def test_like_hub(self):
        """What hub says of its own store file, hub-group says of the group's store, and the other way round."""
        if not (ROOT / "crates/hub/out/hub").exists():
            self.skipTest("no program crates/hub/out/hub")
        replay("hub-group init beside; hub new beside")
        replay("printf '%s,A,a:b0,-lefty:a0~,+x:+a1,dpup:h0.1\n' " + PAD + " > list")
        for call in (["insert", "list"], ["find", PAD], ["find", PAD[:4] + "abcd" + PAD[8:]], ["find", "2" + PAD[1:]],
                     ["show", PAD], ["show", PAD, *LISTS], ["save", PAD, "Größe", *LISTS, "a=10131", "leftx=30000"],
                     ["show", PAD],
                     ["save", PAD, "a,b", *LISTS, "a=10130"], ["save", PAD, "T", *LISTS, "x=30000", "anyway"],
                     ["save", PAD, "T", *LISTS, "b=10130", "party=9"], ["find", PAD, "party=9"],
                     ["save", PAD, "T", *LISTS, "DPadX=30000"], ["save", PAD, "T", *LISTS, "DPadX=30005"],
                     ["save", PAD, "T", "misc1=10130", "buttons=10130"],
                     ["find", PAD, "party=0"], ["find", "7"], ["find", "gR"], ["find", ""], ["find", "t", "party=9"],
                     ["find", "x", "party=8"], ["find", "x", "party=0"], ["find", "\x1b[1m"], ["find", "a,b"],
                     ["save", PAD, "Bare", "buttons=10130", "anyway"], ["show", PAD],
                     ["save", PAD, "T", *LISTS], ["show", PAD, "a=10130"]):
            with self.subTest(call):
                own, shared = (subprocess.run([program, call[0], "beside", *call[1:]], capture_output=True,
                                              cwd=room.name) for program in ("hub", "hub-group"))
                self.assertEqual(shared.returncode, own.returncode)
                # hub counts an insert's lines by what became of them, and names what a save no longer binds
                heads = [re.split(rb" lines walked|no longer bound", told.stdout)[0] for told in (shared, own)]
                self.assertEqual(heads[0], heads[1])
                self.assertEqual(shared.stderr.replace(b"hub-group export", b"hub list"), own.stderr)
        replay("hub-group pull beside pulled")
        self.assertEqual(*((Path(room.name) / name).read_bytes() for name in ("pulled", "beside")))


if __name__ == "__main__":
    if "--write" in sys.argv:
        setUpModule()
        try:
            SESSION.write_text("".join(replay(command) for command, _ in steps()))
        finally:
            tearDownModule()
    else:
        unittest.main(verbosity=2)
