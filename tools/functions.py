"""Reads the functions of a crate from its sources, as rt fmt lays them out. The examples are tests:

    python3 -m doctest tools/functions.py
"""

import glob
import itertools
import re


def read(path):
    with open(path, encoding="utf-8") as file:
        return file.read()


def homes_of(modules):
    """Returns the module of each type, from the lines of each module.

    >>> homes_of({"": ["pub struct Machine<A> {"], "edges": ["pub(crate) enum Kind {", "    struct Inner;"]})
    {'Machine': '', 'Kind': 'edges'}
    """
    kinds = r"(?:pub(?:\(crate\))? )?(?:struct|enum) (\w+)"
    return {it[1]: module for module, lines in modules.items() for line in lines if (it := re.match(kinds, line))}


def functions_of(lines, module, homes):
    """Yields the path of each function of the module and of its impls, and the lines on which its body begins and ends.
    Methods of traits and of their impls are left out. A method's path has the module of its type.

    >>> def shown(text, module="", homes={}):
    ...     return list(functions_of(text.strip("\\n").split("\\n"), module, homes))

    A head may have several lines, with clauses; what stands further in belongs to a clause.

    >>> shown('''
    ... pub fn add<A: Allocator>(
    ...     alloc: A,
    ... ) -> Result<u8, AllocError>
    ...     ensures { IfOk result (λ x. x ≡ 1) }
    ... {
    ...     Ok(1)
    ... }
    ... fn none() {}
    ... ''', "sums")
    [('sums::add', 4, 6), ('sums::none', 7, 7)]

    >>> shown('''
    ... impl<'a, A: Handle> Walk<'a, A> {
    ...     #[tactic(auto)]
    ...     pub(crate) fn step(&mut self) {
    ...         self.n += 1;
    ...     }
    ... }
    ... impl Drop for Walk<'_, u8> {
    ...     fn drop(self) {
    ...     }
    ... }
    ... pub trait Gate {
    ...     fn pass(&self) -> bool {
    ...         true
    ...     }
    ... }
    ... fn last() {
    ... }
    ... ''', "steps", {"Walk": "walk"})
    [('walk::Walk::step', 2, 4), ('steps::last', 15, 16)]

    The head of an impl may have several lines, too.

    >>> shown('''
    ... impl<
    ...     'a,
    ...     A: Gate<Entry<A>> + 'a,
    ... > Walk<'a, A> {
    ...     fn step(&self) {
    ...     }
    ... }
    ... ''', "walk")
    [('walk::Walk::step', 4, 5)]
    """
    owner = [module]
    for at, line in enumerate(lines):
        if re.match(r"(unsafe )?impl\b|(pub(\(crate\))? )?trait\b", line):
            rest = itertools.dropwhile(lambda it: not lines[it].endswith(("{", "}")), range(at, len(lines)))
            head = " ".join(lines[at : next(rest) + 1])
            own = " for " not in head and re.match(r"impl(?:<.*>)? (\w+).* \{$", head)
            owner = own and [homes.get(own[1], module), own[1]]
        elif line == "}":
            owner = [module]
        elif owner and (head := re.match(r"( *)(?:pub(?:\(crate\))? )?fn (\w+)", line)):
            path = "::".join([*(it for it in owner if it), head[2]])
            if line.endswith("{}"):
                yield path, at, at
                continue
            begin = next(it for it in range(at, len(lines)) if re.match(head[1] + r"(?! ).*[{};]$", lines[it]))
            if lines[begin].endswith("{"):
                yield path, begin, lines.index(head[1] + "}", begin)


def modules_of(folder):
    """Returns the file of each module of a crate, and its lines."""
    files = {file[4:-3]: file for file in glob.glob("src/**/*.rt", root_dir=folder, recursive=True)}
    files = {"" if it in ("lib", "main") else it.replace("/", "::"): file for it, file in files.items()}
    return files, {it: read(f"{folder}/{file}").split("\n") for it, file in files.items()}


def functions_in(folder):
    """Returns the file of each function of a crate, and where its attributes or its head begin and its body ends."""
    files, modules = modules_of(folder)
    homes, found = homes_of(modules), {}
    for module, lines in modules.items():
        ends = [0, *itertools.accumulate(len(line) + 1 for line in lines)]
        for path, begin, end in functions_of(lines, module, homes):
            found[path] = files[module], ends[head_of(lines, path, begin)], ends[end + 1]
    return found


def head_of(lines, path, begin):
    """Returns the line of the first attribute, or of the head, of the function whose body begins on a line.

    >>> head_of(["#[inline]", "#[cold]", "fn far(", "    n: u8,", ") {", "}"], "far", 4)
    0
    """
    name = path.split("::")[-1]
    head = next(at for at in range(begin, -1, -1) if re.match(rf" *(pub(\(crate\))? )?fn {name}\b", lines[at]))
    while head and lines[head - 1].lstrip().startswith("#["):
        head -= 1
    return head


def without_bodies(lines, module, homes, tried):
    """Returns the module's text without the bodies of functions that aren't tried, with as many lines, and the paths of
    those functions.

    >>> without_bodies(["fn a() {", "    b();", "    b();", "}", "fn b() {", "    c();", "}"], "m", {}, ["m::b"])
    ('fn a() {\\n    loop {}\\n\\n}\\nfn b() {\\n    c();\\n}', ['m::a'])
    """
    lines, emptied = [*lines], []
    for path, begin, end in reversed([*functions_of(lines, module, homes)]):
        if path not in tried and begin < end:
            lines[begin + 1 : end] = ["    loop {}", *[""] * (end - begin - 2)]
            emptied.append(path)
    return "\n".join(lines), emptied
