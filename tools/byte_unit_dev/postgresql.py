"""A cluster of PostgreSQL 15 on loopback, with the extension, in a folder of its own."""

import contextlib
import os
import re
import shutil
import socket
import tempfile
from pathlib import Path

from .builds import copied, environment
from .common import output, read
from .needs import POSTGRESQL_15

STATEMENTS = read("bindings/sql/postgresql/sql/byte_unit.sql")
# A function that returns what a query returns, or the SQLSTATE, the message and the detail of its error.
TRIED = re.search(r"^CREATE FUNCTION tried.*?\$\$;$", STATEMENTS, re.M | re.S)[0]


def quoted(text):
    """Returns a text as a constant of SQL."""
    return "E'" + "".join(c if c.isalnum() and c.isascii() or c in " ." else f"\\U{ord(c):08x}" for c in text) + "'"


def tried(expression):
    """Returns a statement that prints what an expression is, or its error."""
    return f"SELECT tried({quoted('SELECT ' + expression)});"


class Server:
    """A server, run by a user without rights if the tests are root's, from a copy of Debian's files."""

    def __init__(self, folder, library):
        self.folder, self.library = folder, library
        for place in ("lib", "share"):
            shutil.copytree(f"/usr/{place}/postgresql/15", folder / f"usr/{place}/postgresql/15", symlinks=True)
        self.bin = folder / "usr/lib/postgresql/15/bin"
        self.extension = f"{copied('sql', folder)}/postgresql"
        self.make("all", f"PG_CONFIG={POSTGRESQL_15}/bin/pg_config")
        self.make("install")
        # A port that is free now.
        with socket.socket() as free:
            free.bind(("127.0.0.1", 0))
            self.port = str(free.getsockname()[1])
        self.variables = environment(PGHOST="127.0.0.1", PGPORT=self.port, PGUSER="tester", PGDATABASE="postgres")
        for name in (folder, folder / "data"):
            name.mkdir(exist_ok=True)
            os.chmod(name, 0o755)
        shutil.chown(folder / "data", self.user())
        self.by_user(self.bin / "initdb", "-A", "trust", "-U", "tester", "-E", "UTF8", "--locale=C", "--no-sync")
        # Nothing waits for the disk. The tests decode changes, have workers, and turn jit on for single queries.
        settings = ["listen_addresses=127.0.0.1", "unix_socket_directories=", "fsync=off", "wal_level=logical",
                    "max_worker_processes=8", "jit=off"]  # fmt: skip
        options = " ".join([f"-p {self.port}", *(f"-c {setting}" for setting in settings)])
        self.by_user(self.bin / "pg_ctl", "-w", "-l", folder / "data/log", "-o", options, "start")
        self.sql("CREATE EXTENSION byte_unit;")

    @staticmethod
    def user():
        """Returns the user that the server runs as: PostgreSQL does not run as root."""
        return "nobody" if os.geteuid() == 0 else os.geteuid()

    def make(self, *words):
        """Calls make for the extension, with the server if it runs, and returns its output. A word such as PG_CONFIG,
        by which make finds the folders to install in, replaces the one here."""
        words = ["-C", self.extension, f"PG_CONFIG={self.bin}/pg_config", f"LIBRARY={self.library}", *words]
        here = environment(PGHOST="127.0.0.1", PGPORT=getattr(self, "port", ""), PGUSER="tester")
        return output("make", "-s", *words, env=here)

    def by_user(self, *words, **more):
        """Runs a program as the user of the server, and returns its output."""
        become = ["setpriv", "--reuid=nobody", "--regid=nogroup", "--clear-groups"] * (os.geteuid() == 0)
        return output(*become, *words, env=environment(PGDATA=self.folder / "data"), cwd=self.folder, **more)

    def sql(self, *statements, database="postgres", **more):
        """Runs statements in one session. Returns the lines of their results."""
        words = [self.bin / "psql", "-XAtq", "-v", "ON_ERROR_STOP=1", "-d", database, "-f", "-"]
        return output(*words, env=self.variables, input="\n".join(statements), **more).split("\n")[:-1]

    def wrong(self, rows):
        """Returns five at most of the expressions that do not have the result, a pattern, beside them."""
        got = self.sql(*[tried(expression) for expression, _ in rows])
        assert len(got) == len(rows)
        return [(*row, found) for row, found in zip(rows, got) if not re.fullmatch(row[1], found)][:5]

    def single(self, encoding):
        """Makes a cluster of an encoding. Returns the words that run statements in a backend of one user."""
        folder = self.folder / f"single-{encoding}"
        folder.mkdir()
        shutil.chown(folder, self.user())
        self.by_user(self.bin / "initdb", "-D", folder, "-A", "trust", "-E", encoding, "--locale=C", "--no-sync")
        return [self.bin / "postgres", "--single", "-D", folder, "-c", "shared_buffers=1MB", "postgres"]

    def stop(self):
        """Stops the server at once, since nothing of its data is kept."""
        self.by_user(self.bin / "pg_ctl", "-m", "immediate", "stop")


@contextlib.contextmanager
def running(library):
    """Yields a Server, which ends with its folder."""
    with tempfile.TemporaryDirectory(prefix="byte-unit-postgresql-", ignore_cleanup_errors=True) as folder:
        server = Server(Path(folder), os.path.realpath(library))
        try:
            yield server
        finally:
            server.stop()
