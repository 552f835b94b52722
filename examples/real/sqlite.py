"""Runs event lines in SQLite in WAL mode, each transaction on a connection of its own:

    python3 sqlite.py < EVENTS > KEPT
"""

import os
import sqlite3
import tempfile

from schedule import ROWS, TABLE, Killed, run


class Session:
    """A connection. A statement that finds the database locked waits, and is tried again."""

    def __init__(self, path):
        self.connection = sqlite3.connect(path, timeout=0, isolation_level=None)
        self.statement, self.is_ended = "", False

    def ask(self, statement):
        self.statement = statement

    def answer(self):
        try:
            row = self.connection.execute(self.statement).fetchone()
        except sqlite3.OperationalError as error:
            # (a snapshot that is no longer the newest can't be written to: to wait would not help)
            if error.sqlite_errorname == "SQLITE_BUSY":
                return None
            raise Killed(error.sqlite_errorname) from error
        self.is_ended = self.statement in ("COMMIT", "ROLLBACK")
        return str(row[0]) if row else ""

    def end(self):
        self.is_ended = True
        if self.connection.in_transaction:
            self.connection.execute("ROLLBACK")


with tempfile.TemporaryDirectory() as folder:
    file = os.path.join(folder, "objects.db")
    first = sqlite3.connect(file, isolation_level=None)
    for statement in ("PRAGMA journal_mode = WAL", TABLE, ROWS):
        first.execute(statement)
    run(lambda: Session(file))
