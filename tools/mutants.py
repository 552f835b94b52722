"""Tries the mutants of crates: deliberately wrong bodies, each of which the prover must reject.

A crate's mutants stand in its must-fail/bodies.md: a title, the function, and texts of its source with what replaces
them. A function is proved from its own body and the contracts of the functions that it calls, and from no other body.
So the mutants of several functions are tried together, in one check of a copy of the crate, in which all other
functions have no bodies and are taken by their contracts. A mutant is rejected where the check reports that a goal of
its own function is not proved. It may name the goals that stay open: the copy answers these by the calls that a check
tries at almost any goal, since at other open goals a check tries more and takes longer. Where a function has several
mutants, twins of it under other names get the others. A mutant that is not rejected beside others is tried again
without the rejected ones. Where a written answer cites a fact that the mutant removed, its rejection would show nothing
of a contract: the mutant is reported to have lost the answer, and is tried once more without it.
"""

import glob
import math
import os
import re
import shutil
import subprocess
import threading
import time
from dataclasses import dataclass, field, replace

from functions import functions_in, homes_of, modules_of, read, without_bodies

ROOT = os.path.dirname(os.path.dirname(os.path.abspath(__file__)))
BODIES = "must-fail/bodies.md"
# What is to be free, in kibibytes, before one more check begins beside rt ci.
ROOM = 6_000_000
# Runs a command that gives way to what else runs, and that is the first to be killed where memory runs out.
GIVES_WAY = ["sh", "-c", 'echo 1000 > /proc/self/oom_score_adj; exec nice -n 19 "$@"', "sh"]
# How the last line of a check of some functions begins.
VERDICT = r"(?m)^only=\d+ holes=\d+"
# The proof of a function that is left open, so that its callers take it by its contract.
HOLE = """use Rattle.{crate}.proofs.{path}.Statement as stated

left_open : {{A : Type 2}} → A
left_open = ?

pub {name}_spec : {{M : Type 1}} → stated.statement M
{name}_spec = left_open
"""
# The answers to a goal that must stay open: the calls that a check tries at almost any goal without an answer.
LEMMAS = ["Rattle.std.proofs.Common.rules", "Rattle.std.proofs.Common.arith"]
LEMMAS += ["Rattle.std.proofs.lemmas.Grind.common_steps", "Rattle.std.proofs.lemmas.Grind.elements"]
CALLS = ["search rules", *(f"grind (arith, {it}) steps 2000000" for it in ("common_steps", "elements"))]


def write(path, text):
    with open(path, "w", encoding="utf-8") as file:
        file.write(text)


@dataclass
class Mutant:
    """A mutant: its title, its function's path, the goals that it names, each with what its answer takes, its changes
    (file, old text, new text), and the goals whose written answers it has lost."""

    title: str
    function: str
    goals: list
    changes: list
    lost: list = field(default_factory=list)

    def spans(self, folder):
        """Returns the file of each change, where the old text begins and ends in it, and the new text; or None where an
        old text is not in its file once."""
        found = []
        for file, old, new in self.changes:
            text = read(f"{folder}/{file}")
            if text.count(old) != 1:
                return None
            start = text.index(old)
            found.append((file, start, start + len(old), new))
        return found


def mutants_of(crate):
    """Reads the crate's mutants."""
    mutants, text = [], read(f"{ROOT}/crates/{crate}/{BODIES}")
    # (each place as one line)
    text = re.sub(r"(?m)^(?:`|and in `).*(?:\n.+)*$", lambda place: place[0].replace("\n", " "), text)
    for line in text.split("\n"):
        if line.startswith("## "):
            mutants.append(Mutant(line[3:], "", [], []))
        elif place := re.match(r"(?:`([\w:]+)`|and) in `(src/\S+)`(?:, of which (.+) stays? open)?:$", line):
            mutants[-1].function = place[1] or mutants[-1].function
            mutants[-1].goals += re.findall(r"`([^`]+)`", place[3] or "")
            file = place[2]
        elif line.startswith("    - "):
            old = line[6:]
        elif line.startswith("    +"):
            mutants[-1].changes.append((file, old, line[6:]))
    return mutants


def together(folder, mutants):
    """Returns the mutants that can be tried together, no text changed twice; the changed files; and the function of
    each twin. A function gets its first mutant, and its twins get the others."""
    functions, taken, twins, changes = functions_in(folder), {}, {}, {}
    for body in mutants:
        spans = body.spans(folder)
        if spans is None:
            continue
        others = [(file, *it) for file in changes for it in changes[file]]
        apart = all(a[0] != b[0] or a[2] <= b[1] or b[2] <= a[1] for a in spans for b in others)
        if apart and body.function not in taken:
            taken[body.function] = body
            for file, *change in spans:
                changes.setdefault(file, []).append(change)
        elif (home := functions.get(body.function)) and all(is_within(it, home) for it in spans):
            name = f"{body.function}_{len(twins) + 2}"
            twins[name], taken[name] = body.function, replace(body, function=name)
            changes.setdefault(home[0], []).append([home[2], home[2], twin_of(folder, home, spans, name)])
    texts = {file: changed(read(f"{folder}/{file}"), changes[file]) for file in changes}
    return list(taken.values()), texts, twins


def is_within(span, home):
    """Returns whether a change is in a function."""
    return span[0] == home[0] and home[1] <= span[1] and span[2] <= home[2]


def twin_of(folder, home, spans, name):
    """Returns the text of a function with the changes made, under another name."""
    file, first, last = home
    text = changed(read(f"{folder}/{file}")[:last], [change for _, *change in spans])[first:]
    return "\n" + re.sub(r"\bfn \w+", f"fn {name.split('::')[-1]}", text, count=1)


def changed(text, changes):
    """Returns the text with the changes made. A change is where its old text begins and ends, and the new text."""
    for start, end, new in sorted(changes, reverse=True):
        text = text[:start] + new + text[end:]
    return text


def lists_of(crate, head):
    """Returns what a function's attributes have a check use at its goals, and what they have it unfold, by its names in
    proofs."""
    for kind in ("using", "unfolding"):
        paths = ", ".join(re.findall(rf"\b{kind}\(([^)]*)\)", head))
        yield [re.sub("^crate::", f"{crate}::", path).replace("::", ".") for path in paths.split(", ") if path]


def answers_to(crate, body, head, written):
    """Returns the written answers of a function, and after them answers to the goals that its mutant names. The
    function's attributes count there as they do where there is no answer."""
    used, unfolded = ([f"Rattle.{it}" for it in names] for names in lists_of(crate, head))
    names = [it.rpartition(".") for it in [*LEMMAS, *used, *unfolded]]
    uses = [f"use {module}.{{{name}}}\n" for module, _, name in names]
    if " as goal\n" not in written:
        uses.append(f"use Rattle.{crate}.proofs.{body.function.replace('::', '.')}.Goals as goal\n")
    calls = ", ".join([*CALLS, *(f"grind (arith, {it.rpartition('.')[2]})" for it in used)])
    opened = f"unfolding {' '.join(it.rpartition('.')[2] for it in unfolded)}\n" if unfolded else ""
    goals = [(it.split()[0], it) for it in body.goals]
    answers = [f"\npub {goal} : goal.{goal}\n{opened}{it} = first_of ({calls})\n" for goal, it in goals]
    return "".join([*uses, written, *answers])


# What the check reports of an answer that cites a missing name, which shows nothing of a contract.
LOST = r"has no field|is not in scope|has no `|was not admitted|which was rejected, was not checked"
# What it reports of the answer to a goal that a mutant names, where that goal is open.
UNPROVED = r"`(search|grind|omega)`"


def open_goals(crate, said, tried, is_wrong):
    """Returns the first open goal of each function that the check reports as not proved. Of an original function a goal
    that its mutant names counts as open whatever the check reports, also where the original has no such goal."""
    named = {(body.function, it.split()[0]) for body in tried for it in body.goals}
    found, goal = {}, None
    # (a line that begins with spaces continues the one before)
    for text in re.split(r"\n(?! )", said):
        line = text.partition("\n")[0]
        if error := re.match(r"\./proofs/(\S+)/\w+\.antt:\d+:\d+: error: (?:`([^`]+)`: )?(.*)", line):
            function = error[1].replace("/", "::")
            if (function, error[2]) in named:
                is_open = not is_wrong or re.match(UNPROVED, error[3])
            else:
                is_open = not re.search(LOST, line)
            if is_open:
                found.setdefault(f"{crate}::{function}", line)
        elif note := re.match(r"note: (src/\S+: (?:it is not proved|`search` found no proof) .*)", line):
            goal = goal or note[1]
        elif verdict := re.match(r"(?:fn|impl|struct|enum|trait) (\S+): ", line):
            if goal:
                found[verdict[1]] = goal
            goal = None
    return found


def lost_goals(crate, said):
    """Returns the goals of each function whose written answers cite a missing name."""
    found = {}
    for error in re.finditer(r"(?m)^\./proofs/(\S+)/Answers\.antt:\d+:\d+: error: `([^`]+)`: (.*)", said):
        if re.search(LOST, error[3]):
            found.setdefault(error[1].replace("/", "::"), set()).add(error[2])
    return found


def without_answers(text, goals):
    """Returns the text of answers without the answers to some goals. An answer ends at a blank line."""
    for goal in goals:
        text = re.sub(rf"(?m)^pub {re.escape(goal)} : .*(?:\n.+)*\n?", "", text)
    return text


def summary(every, missed, untried=0):
    """Returns a line on how many mutants were rejected, how many were not, and how many were not tried."""
    return f"{every - missed} mutants rejected, {missed} not" + f", {untried} not tried" * bool(untried)


def crates_listed():
    """Returns the libraries that each crate uses, from crates.txt."""
    lines = [line.split(":") for line in read(f"{ROOT}/crates.txt").split("\n") if line and not line.startswith("#")]
    return {name: words.split() for name, words in lines}


class Workshop:
    """A folder with changed copies of crates, and the libraries that they use."""

    def __init__(self, path, processors, is_beside, is_wrong, until=math.inf):
        """Beside rt ci half as many checks run at a time as there are processors, otherwise as many. With `is_wrong`
        they are of mutants, otherwise of the originals. No check goes on after `until`, by the monotonic clock."""
        self.path, self.is_wrong, self.until, self.stands_on = path, is_wrong, until, crates_listed()
        checks = max(processors // 2, 1) if is_beside else processors
        self.slots, self.later = threading.Semaphore(checks), processors - checks
        self.is_settled = {crate: threading.Event() for crate in self.stands_on}
        self.is_alone = threading.Event()
        self.kit = os.path.dirname(self.run(ROOT, "rt", "doc").strip())

    def run(self, folder, *words):
        """Runs a command in a folder, and returns its output."""
        how = {"stdout": subprocess.PIPE, "stderr": subprocess.STDOUT, "text": True, "errors": "replace"}
        return subprocess.run(words, cwd=folder, stdin=subprocess.DEVNULL, **how).stdout

    def own(self, crate):
        """Returns the crates of the repository that the crate uses."""
        return [it for it in self.stands_on[crate] if it in self.stands_on]

    def below(self, crate):
        """Returns the crates of the repository below this one, lowest first."""
        return list(dict.fromkeys(it for dep in self.own(crate) for it in [*self.below(dep), dep]))

    def take(self, crate):
        """Takes over the library of a proved crate, so that the crates above it can be checked."""
        library = f"out/rlib/{crate}.rlib"
        if os.path.isdir(f"{ROOT}/crates/{crate}/{library}"):
            shutil.copytree(f"{ROOT}/crates/{crate}/{library}", f"{self.path}/{crate}.rlib")
        self.is_settled[crate].set()

    def settle(self):
        """No library will come any more, and no other check runs beside these."""
        for event in [self.is_alone, *self.is_settled.values()]:
            event.set()
        for _ in range(self.later):
            self.slots.release()

    def wait_for_memory(self):
        """Waits until there is room for one more check, or no other runs."""
        while int(re.search(r"MemAvailable:\s+(\d+)", read("/proc/meminfo"))[1]) < ROOM:
            if self.is_alone.wait(5):
                return

    def words(self, crate):
        """Returns the words of a check of a copy of the crate."""
        places = {it: self.path if it in self.stands_on else f"{self.kit}/rlibs" for it in self.stands_on[crate]}
        root = "src/main.rt" if os.path.isfile(f"{ROOT}/crates/{crate}/src/main.rt") else "src/lib.rt"
        words = ["check", "--crate-name", crate, root, "--jobs", "1", "--links", f"{crate}="]
        for library, place in {"std": f"{self.kit}/rlibs", **places}.items():
            words += ["--extern", f"{library}={place}/{library}.rlib"]
        for place in (f"{self.kit}/rlibs", self.path):
            words += ["-L", f"dependency={place}"]
        words += ["--antt-project", f"{self.kit}/rattle/logic/antt-project.json"]
        words += ["--logic-built", f"{self.kit}/logic_built", "--incremental", "out/incremental"]
        return [*words, "--allow-holes"]

    def copy_proof(self, folder, function, twin):
        """Writes the proof files of a function for a twin of it."""
        for file in glob.glob(f"{folder}/proofs/{function.replace('::', '/')}/*.antt"):
            text = read(file).replace(f".{function.replace('::', '.')}.", f".{twin.replace('::', '.')}.")
            place = f"{folder}/proofs/{twin.replace('::', '/')}"
            os.makedirs(place, exist_ok=True)
            write(f"{place}/{os.path.basename(file)}", text)

    def answer(self, crate, folder, tried):
        """Answers the goals that the tried mutants name."""
        functions = functions_in(folder)
        for body in tried:
            if body.goals:
                # (functions_in has no method of a trait's impl)
                home = functions.get(body.function)
                head = read(f"{folder}/{home[0]}")[home[1] : home[2]].partition("fn ")[0] if home else ""
                proof = f"{folder}/proofs/{body.function.replace('::', '/')}"
                os.makedirs(proof, exist_ok=True)
                place = f"{proof}/Answers.antt"
                write(place, answers_to(crate, body, head, read(place) if os.path.isfile(place) else ""))

    def lay_out(self, crate, tried, texts, twins):
        """Makes the copy of the crate with these texts and twins, with answers to the named goals, and without the
        bodies of the functions that aren't tried."""
        folder, functions = f"{self.path}/{crate}", [body.function for body in tried]
        for part in ("src", "specs", "proofs"):
            shutil.rmtree(f"{folder}/{part}", ignore_errors=True)
            if os.path.isdir(f"{ROOT}/crates/{crate}/{part}"):
                shutil.copytree(f"{ROOT}/crates/{crate}/{part}", f"{folder}/{part}")
        for file, text in texts.items():
            write(f"{folder}/{file}", text)
        for twin, function in twins.items():
            self.copy_proof(folder, function, twin)
        for body in tried:
            place = f"{folder}/proofs/{body.function.replace('::', '/')}/Answers.antt"
            if body.lost:
                write(place, without_answers(read(place), body.lost))
        self.answer(crate, folder, tried)
        files, modules = modules_of(folder)
        homes = homes_of(modules)
        for module, lines in modules.items():
            text, emptied = without_bodies(lines, module, homes, functions)
            write(f"{folder}/{files[module]}", text)
            for path in emptied:
                proof = f"{folder}/proofs/{path.replace('::', '/')}"
                for old in glob.glob(f"{proof}/*.antt"):
                    os.remove(old)
                os.makedirs(proof, exist_ok=True)
                name, path = path.split("::")[-1], path.replace("::", ".")
                write(f"{proof}/Proof.antt", HOLE.format(crate=crate, path=path, name=name))

    def is_over(self):
        """Returns whether no more checks may run."""
        return time.monotonic() >= self.until

    def check(self, crate, tried, texts, twins):
        """Checks the tried functions in a copy of the crate with these texts and twins, and returns the output; or None
        where no time was left for it."""
        folder = f"{self.path}/{crate}"
        self.lay_out(crate, tried, texts, twins)
        only = [word for body in tried for word in ("--only", f"{crate}::{body.function}")]
        said = self.run_check(folder, crate, only)
        if not re.search(VERDICT, said) and not self.is_over():
            # (most likely it was killed for memory)
            self.is_alone.wait()
            said = self.run_check(folder, crate, only)
        if not re.search(VERDICT, said):
            if self.is_over():
                return None
            print(f"{crate}: its check with mutants came to no verdict:\n{said[-3000:]}", flush=True)
        return said

    def run_check(self, folder, crate, only):
        """Runs a check, once there is a slot and memory for it, and returns its output. It gives way, so that rt ci gets on
        with the crates on which others wait."""
        with self.slots:
            self.wait_for_memory()
            if self.is_over():
                return ""
            words = [*GIVES_WAY, f"{self.kit}/bin/rattle", *self.words(crate), *only]
            if self.until < math.inf:
                words = ["timeout", f"{self.until - time.monotonic():.3f}", *words]
            return self.run(folder, *words)

    def try_crate(self, crate):
        """Tries the mutants of a crate, once the libraries below it are there, and returns how many were tried, how many
        of these were not rejected, and how many were not tried; or tries the originals, and returns how many there are,
        how many were rejected, and 0."""
        for library in self.below(crate):
            self.is_settled[library].wait()
        mutants = mutants_of(crate)
        return self.try_mutants(crate, mutants) if self.is_wrong else self.try_originals(crate, mutants)

    def try_mutants(self, crate, mutants):
        left, untried = mutants, []
        while left:
            tried, texts, twins = together(f"{ROOT}/crates/{crate}", left)
            said = self.check(crate, tried, texts, twins) if tried else ""
            if said is None:
                # (those that do not fit their sources are found all the same)
                untried = [body for body in left if body.spans(f"{ROOT}/crates/{crate}")]
                left = [body for body in left if body not in untried]
                break
            goals, gone = open_goals(crate, said, tried, True), lost_goals(crate, said)
            rejected = [body for body in tried if f"{crate}::{body.function}" in goals]
            for body in rejected:
                print(f"{crate}: {body.title}: rejected, {goals[f'{crate}::{body.function}']}", flush=True)
            left = [body for body in left if body.title not in [it.title for it in rejected]]
            lost = {it.title: sorted(gone.get(it.function, set()) - {*it.lost}) for it in tried if it not in rejected}
            if not rejected and not any(lost.values()):
                break
            for title in filter(lost.get, lost):
                print(f"{crate}: {title}: answer lost, {', '.join(lost[title])}: tried without it", flush=True)
            left = [replace(it, lost=[*it.lost, *lost.get(it.title, [])]) for it in left]
        for body in left:
            is_tried = body.title in [it.title for it in tried]
            why = f"no goal of {body.function} is open" if is_tried else "an old text is not in its file once"
            print(f"{crate}: {body.title}: NOT REJECTED: {why}", flush=True)
        for body in untried:
            print(f"{crate}: {body.title}: not tried: no time was left", flush=True)
        count = len(mutants) - len(untried)
        print(f"{crate}: {summary(count, len(left), len(untried))}", flush=True)
        return count, len(left), len(untried)

    def try_originals(self, crate, mutants):
        tried, texts, twins = together(f"{ROOT}/crates/{crate}", [replace(body, changes=[]) for body in mutants])
        said = self.check(crate, tried, texts, twins)
        goals = open_goals(crate, said, tried, False)
        if not re.search(VERDICT, said):
            goals = {body.function: "no verdict" for body in tried}
        for function, goal in goals.items():
            print(f"{crate}: {function}: REJECTED as it is, {goal}", flush=True)
        print(f"{crate}: {len(tried)} originals, {len(goals)} rejected", flush=True)
        return len(tried), len(goals), 0
