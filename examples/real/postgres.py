"""Runs event lines in PostgreSQL, each transaction in a psql of its own, at an isolation level:

    python3 postgres.py "repeatable read" < EVENTS > KEPT

psql connects as its environment says (PGHOST, PGUSER, PGDATABASE). The table `objects` there is made anew. With Debian's
package a server of one's own runs in a new folder D by `initdb D` and `pg_ctl -D D -o "-k D -c listen_addresses=" start`
(both in /usr/lib/postgresql/15/bin), with PGHOST=D and PGDATABASE=postgres.
"""

import queue
import subprocess
import sys
import threading

from schedule import ROWS, TABLE, Killed, run

# A statement that has no answer after so many seconds waits.
PATIENCE = 0.3


class Session:
    """A psql. A statement that waits goes on by itself."""

    def __init__(self, level):
        pipes = {"stdin": subprocess.PIPE, "stdout": subprocess.PIPE, "stderr": subprocess.STDOUT, "text": True}
        self.psql = subprocess.Popen(["psql", "-XqAt"], **pipes)
        self.level, self.lines, self.found, self.is_ended, self.is_last = level, queue.Queue(), [], False, False
        threading.Thread(target=self.listen, daemon=True).start()

    def listen(self):
        for line in self.psql.stdout:
            self.lines.put(line.rstrip("\n"))

    def ask(self, statement):
        self.is_last = statement in ("COMMIT", "ROLLBACK")
        statement += f" ISOLATION LEVEL {self.level}" if statement == "BEGIN" else ""
        self.psql.stdin.write(f"{statement};\n\\echo ready\n")
        self.psql.stdin.flush()
        self.found = []

    def answer(self):
        try:
            while (line := self.lines.get(timeout=PATIENCE)) != "ready":
                self.found.append(line)
        except queue.Empty:
            return None
        for line in self.found:
            if line.startswith("ERROR:"):
                raise Killed(line.removeprefix("ERROR:").strip())
        self.is_ended = self.is_last
        return " ".join(self.found)

    def end(self):
        self.is_ended = True
        self.psql.stdin.close()
        self.psql.wait()


made = f"DROP TABLE IF EXISTS objects; {TABLE}; {ROWS}"
subprocess.run(["psql", "-Xq", "-c", made], check=True, stderr=subprocess.DEVNULL)
run(lambda: Session(sys.argv[1]))
