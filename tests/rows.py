"""A database in a folder, by python's module sqlite3 where it is there, else by the program sqlite3."""
import subprocess

from mounts import has_sqlite_module

# Of each journal what a connection begins with. Behind a log that is written ahead other connections share an index by mapped pages;
# a page that can't be had, since the program was killed, would end this process. So there the connection has the file for itself.
SETTINGS = {
    "DELETE": ["PRAGMA journal_mode=DELETE", "PRAGMA synchronous=FULL"],
    "WAL": ["PRAGMA locking_mode=EXCLUSIVE", "PRAGMA journal_mode=WAL", "PRAGMA synchronous=FULL"],
}
JOURNALS = list(SETTINGS)


class Lost(Exception):
    """The database couldn't do what it was told."""


class ByModule:
    """A connection of python's module."""

    name = "python's module sqlite3"

    def __init__(self, path, journal):
        import sqlite3
        self.faults = sqlite3.Error
        self.connection = sqlite3.connect(path, isolation_level=None, timeout=0)
        for setting in SETTINGS[journal]:
            self.run(setting)

    def run(self, statement):
        """The first values of its rows."""
        try:
            return [str(row[0]) for row in self.connection.execute(statement).fetchall()]
        except self.faults as fault:
            raise Lost(str(fault)) from fault

    def close(self):
        try:
            self.connection.close()
        except self.faults:
            pass


class ByProgram:
    """The same by the program, which tells by a line of its own that a statement is done."""

    name = "the program sqlite3"

    def __init__(self, path, journal):
        self.job = subprocess.Popen(["sqlite3", "-batch", "-bail", path], stdin=subprocess.PIPE, stdout=subprocess.PIPE,
                                    stderr=subprocess.DEVNULL, text=True, bufsize=1)
        for setting in SETTINGS[journal]:
            self.run(setting)

    def run(self, statement):
        try:
            self.job.stdin.write(f"{statement};\n.print done\n")
        except OSError as fault:
            raise Lost("it has ended") from fault
        rows = []
        for line in self.job.stdout:
            if line == "done\n":
                return rows
            rows.append(line.rstrip("\n"))
        raise Lost("it has ended")

    def close(self):
        try:
            self.job.stdin.close()
        except OSError:
            pass
        self.job.stdout.close()
        self.job.wait()


DATABASE = ByModule if has_sqlite_module() else ByProgram
