"""Measures the processor time of the checks that run below this process, by crate."""

import os
import threading

# The parts of the time: the proof of a crate, the proof of its tests, and the checks of its mutants.
PARTS = ["proof", "tests", "mutants"]
TICKS = os.sysconf("SC_CLK_TCK")


def part_of(words):
    """Returns the crate of a process and the part that its time belongs to, by the words of its command.

    >>> part_of(["/kit/bin/rattle", "build", "--crate-name", "acta_sets", "src/lib.rt"])
    ('acta_sets', 'proof')
    >>> part_of(["rattle", "build", "--crate-name", "acta_tests", "--test", "src/lib.rt"])
    ('acta_tests', 'tests')
    >>> part_of(["rattle", "check", "--crate-name", "acta_sets", "-L", "dependency=/tmp/mutants-x"])
    ('acta_sets', 'mutants')
    >>> part_of(["acta", "run", "@atomic"])
    ('other', 'proof')
    """
    if os.path.basename(words[0]) != "rattle" or "--crate-name" not in words:
        return "other", "proof"
    crate = words[words.index("--crate-name") + 1]
    # (rt ci proves by `build`, and tries its edits by `check`)
    part = "tests" if "--test" in words else "proof" if words[1] == "build" else "mutants"
    return crate, part


def processes():
    """Returns the parent, the start and the seconds of each process of the machine."""
    found = {}
    for name in filter(str.isdigit, os.listdir("/proc")):
        try:
            with open(f"/proc/{name}/stat", encoding="utf-8", errors="replace") as file:
                words = file.read().rpartition(")")[2].split()
            found[int(name)] = int(words[1]), words[19], (int(words[11]) + int(words[12])) / TICKS
        except OSError:
            pass
    return found


def below(parents, top):
    """Returns the processes below one, from the parent of each.

    >>> sorted(below({2: 1, 3: 2, 4: 2, 5: 9}, 2))
    [3, 4]
    """
    children, found, left = {}, [], [top]
    for it, parent in parents.items():
        children.setdefault(parent, []).append(it)
    while left:
        more = children.get(left.pop(), [])
        found, left = found + more, left + more
    return found


class Minutes(threading.Thread):
    """Samples the processes below this one each second. The last second of a process may be lost."""

    def __init__(self):
        super().__init__(daemon=True)
        self.seconds, self.words, self.is_over = {}, {}, threading.Event()

    def run(self):
        while not self.is_over.wait(1):
            found = processes()
            for it in below({key: parent for key, (parent, _, _) in found.items()}, os.getpid()):
                key = it, found[it][1]
                try:
                    with open(f"/proc/{it}/cmdline", encoding="utf-8", errors="replace") as file:
                        self.words[key] = file.read().split("\0")
                except OSError:
                    continue
                self.seconds[key] = found[it][2]

    def table(self):
        """Returns the table of minutes: a line for each crate, in the order of their first checks, and the sums."""
        rows = {}
        for key, seconds in list(self.seconds.items()):
            crate, part = part_of(self.words[key])
            rows.setdefault(crate, dict.fromkeys(PARTS, 0.0))[part] += seconds / 60
        rows["other"] = rows.pop("other", dict.fromkeys(PARTS, 0.0))
        rows["together"] = {part: sum(row[part] for row in rows.values()) for part in PARTS}
        lines = [f"{'minutes of a processor':24}" + "".join(f"{it:>9}" for it in [*PARTS, "together"])]
        for crate, row in rows.items():
            lines.append(f"{crate:24}" + "".join(f"{it:9.1f}" for it in [*row.values(), sum(row.values())]))
        return "\n".join(lines)
