"""A PostgreSQL server for the group's tests: in a folder of its own, on a local socket, with no TCP port. It ends with
the process that started it, however that ends. PostgreSQL refuses to run as root: then it runs as postgres or nobody.
"""
import glob
import os
import pwd
import shutil
import signal
import subprocess
import tempfile
import time

import psycopg2

SETTINGS = ["listen_addresses=", "shared_buffers=64MB", "max_connections=60", "log_min_messages=fatal"]


def programs():
    """The folder of Debian's newest server, or of the one on the PATH; None where there is none."""
    found = glob.glob("/usr/lib/postgresql/*/bin/initdb")
    newest = max(found, key=lambda path: int(path.split("/")[4]), default=shutil.which("initdb"))
    return newest and os.path.dirname(newest)


class Server:
    def __init__(self):
        self.bin, self.process = programs(), None
        self.folder = tempfile.mkdtemp(prefix="raspteal-group-")
        self.data, self.log = f"{self.folder}/data", open(f"{self.folder}/log", "ab")
        self.drop = []
        if os.geteuid() == 0:
            user = next(u for u in map(known, ("postgres", "nobody")) if u)
            os.chown(self.folder, user.pw_uid, user.pw_gid)
            self.drop = [f"--reuid={user.pw_uid}", f"--regid={user.pw_gid}", "--clear-groups"]
        self.environment = {k: v for k, v in os.environ.items() if not k.startswith("PG")}
        self.environment |= {"PGHOST": self.folder, "PGUSER": "hall", "PGDATABASE": "postgres"}
        os.environ.update(self.environment)
        made = self.run("initdb", "-D", self.data, "-U", "hall", "-A", "trust", "-E", "UTF8", "--locale=C", "--no-sync")
        if made.wait() != 0:
            raise RuntimeError(f"initdb failed: {self.folder}/log")
        self.start()

    def run(self, program, *arguments):
        """A program of the server, as the user that it runs as; it is ended when this process ends."""
        return subprocess.Popen(["setpriv", *self.drop, "--pdeathsig", "QUIT", f"{self.bin}/{program}", *arguments],
                                stdout=self.log, stderr=self.log, cwd=self.folder, env=self.environment)

    def start(self):
        settings = [word for s in SETTINGS + [f"unix_socket_directories={self.folder}"] for word in ("-c", s)]
        self.process = self.run("postgres", "-D", self.data, *settings)
        for _ in range(600):
            try:
                psycopg2.connect("").close()
                return
            except psycopg2.Error:
                time.sleep(0.05)
        raise RuntimeError(f"the server did not start: {self.folder}/log")

    def stop(self, how=signal.SIGINT):
        """SIGINT ends the clients' transactions and writes all to the disk; SIGQUIT is a crash of the server."""
        if self.process:
            self.process.send_signal(how)
            self.process.wait(30)
            self.process = None

    def restart(self, how):
        self.stop(how)
        self.start()

    def remove(self):
        self.stop(signal.SIGQUIT)
        self.log.close()
        shutil.rmtree(self.folder, ignore_errors=True)


def known(name):
    try:
        return pwd.getpwnam(name)
    except KeyError:
        return None
