"""Runs event lines in a database, each transaction in a session of its own, and writes kept lines.

The lines are those that `acta run` reads, with `begin`, `do`, `commit` and `abort`: `do T OBJECT read`, `write V`, `get`
and `add V`. A statement that waits is a comment of the output, and the later lines of its transaction wait too. A
transaction that the database ends is written as `abort`, and its later lines are passed over.
"""

import sys

READ = "SELECT value FROM objects WHERE name = '{0}'"
STATEMENTS = {"read": READ, "get": READ}
STATEMENTS["write"] = "UPDATE objects SET value = {1} WHERE name = '{0}'"
STATEMENTS["add"] = "UPDATE objects SET value = value + {1} WHERE name = '{0}'"
# What makes the objects of the standard models that are numbers.
TABLE = "CREATE TABLE objects (name TEXT PRIMARY KEY, value INTEGER NOT NULL)"
ROWS = "INSERT INTO objects VALUES ('x', 0), ('n', 0), ('m', 0)"


class Killed(Exception):
    """The database has ended the transaction."""


def statement_of(words):
    """Returns the statement of a line: of an operation, or of another event."""
    if words[0] == "do":
        return STATEMENTS[words[3]].format(words[2], *words[4:])
    return {"begin": "BEGIN", "commit": "COMMIT", "abort": "ROLLBACK"}[words[0]]


class Transaction:
    """A transaction: its session, and the lines that it has not done."""

    def __init__(self, number, session):
        self.number, self.session, self.lines, self.is_asked, self.is_said = number, session, [], False, False

    def step(self):
        """Does the next line, or goes on with it. Returns whether it was done."""
        words = self.lines[0]
        try:
            if not self.is_asked:
                self.session.ask(statement_of(words))
            self.is_asked = True
            answer = self.session.answer()
        except Killed as why:
            self.session.end()
            self.lines = []
            print(f"# the database ends {self.number}: {why}", f"abort {self.number}", sep="\n")
            return True
        if answer is None:
            if not self.is_said:
                print(f"# {self.number} waits: {' '.join(words)}")
            self.is_said = True
            return False
        self.lines, self.is_asked, self.is_said = self.lines[1:], False, False
        print(" ".join(words) + (f" = {answer or 'done'}" if words[0] == "do" else ""))
        return True


def run(open_session):
    """Runs the lines of the standard input. A session has `ask`, `answer` (None while it waits) and `end`."""
    transactions = {}
    for line in sys.stdin:
        words = line.partition("#")[0].split()
        if not words:
            continue
        if words[0] == "begin":
            transactions[words[1]] = Transaction(words[1], open_session())
        # (the lines of a transaction that was ended are passed over)
        one = transactions[words[1]]
        if words[0] == "begin" or one.lines or not one.session.is_ended:
            one.lines.append(words)
        advance(transactions.values())
    while any(it.lines for it in transactions.values()):
        if not advance(transactions.values()):
            one = next(it for it in transactions.values() if it.lines)
            one.session.end()
            one.lines = []
            print(f"# {one.number} waits for ever", f"abort {one.number}", sep="\n")


def advance(transactions):
    """Does all lines that can be done. Returns whether there was one."""
    was_done = False
    while any([it.step() for it in transactions if it.lines]):
        was_done = True
    return was_done
