#!/usr/bin/env python3
"""Counts the lines of definitions that names of specs rest on, without imports, comments and blank lines.

    docs/count_definitions.py mega_promises.Runs.IsRun mega_promises.Promises.IsSerial ..

A name is CRATE.MODULE.NAME. Each declaration that is reached counts once, with its signature and all of its clauses. It reaches what its words and
its operators name in its module or in an import, through what libraries pass on (`Lib.antt`); a `do` reaches `>>=`. What std and the types of the
sources declare is not counted. Parameters, fields of a record and local names of a `where` block are no names of their own: they are read through
what declares them.
"""
import os
import re
import sys

CRATES = os.path.join(os.path.dirname(os.path.abspath(__file__)), "..", "crates")
HEAD = re.compile(r"(?:unfoldable |abbrev )?(?:pub )?(?:(?:record|data) )?([^\s(:]+)(?= |$)")
IMPORT = re.compile(r"(?:pub )?use Rattle\.(\w+)\.specs\.([\w.]+?)(?:\.\{(.*)\})?(?: as (\w+))?$")
PASSED_ON = re.compile(r"(?:unfoldable )?pub use Rattle\.(\w+)\.specs(?:\.([\w.]+))?(?: as (\w+))?$")
FIXITY = re.compile(r"infix[lr]? \d+ (◌.+◌)$")
WORD = re.compile(r"[\w◌≡'-]+(?:\.[\w'-]+)*")
SIGN = re.compile(r"[^\w\s()\[\]{},.'\"]+")
BINDER = re.compile(r"[({] ?([\w' -]+?) : |λ ([\w' -]+?)\. ")


def path_of(crate, module):
    return os.path.join(CRATES, crate, "specs", *module.split(".")) + ".antt"


def passed_on(crate):
    """What the library of a crate passes on: a name, and the crate and the module that it stands for."""
    found = {}
    if os.path.exists(path_of(crate, "Lib")):
        for line in open(path_of(crate, "Lib"), encoding="utf-8"):
            match = PASSED_ON.match(line.strip())
            if match:
                below, module, name = match.groups()
                found[name or module.split(".")[-1]] = (below, module or "")
    return found


def home_of(crate, module):
    """The crate and the module in which the definitions of a module stand, or None where they stand in no specs folder."""
    while module and not os.path.exists(path_of(crate, module)):
        first, _, rest = module.partition(".")
        if first not in passed_on(crate):
            return None
        crate, above = passed_on(crate)[first]
        module = ".".join(part for part in (above, rest) if part)
    return (crate, module) if module else None


class Module:
    def __init__(self, home):
        self.imports, self.declared, self.constructors = {}, {}, {}
        name, is_data = None, False
        for line in open(path_of(*home), encoding="utf-8"):
            line = line.rstrip()
            text = line.strip()
            if not text or text.startswith("--"):
                continue
            if line.startswith(("use ", "pub use ")):
                self.imported(line)
                continue
            if line[0] not in " })]" and not is_clause_of(name, line):
                name = (FIXITY.match(line) or HEAD.match(line)).group(1)
                is_data = line.startswith(("data ", "pub data "))
            elif is_data and re.match(r"[\w-]+ :", text):
                self.constructors[text.split(" ")[0]] = name
            self.declared.setdefault(name, []).append(text)

    def imported(self, line):
        match = IMPORT.match(line)
        home = home_of(*match.group(1, 2)) if match else None
        for item in (match.group(3) or "").split(", ") if home else ():
            name, _, other = item.partition(" as ")
            self.imports[other or name] = (home, name)


def is_clause_of(name, line):
    """Whether a line is a clause of the operator that was declared above it."""
    return name is not None and name[0] == "◌" and f" {name.strip('◌')} " in line.partition(" = ")[0]


def bound_in(name, lines):
    """The names that a declaration binds itself: parameters, variables of patterns, of λ and of `do`, fields, local functions."""
    fields = {match.group(1) for text in lines for match in [re.match(r"(?:pub )?([\w'-]+) : ", text)] if match}
    bound = set(fields)
    for text in lines:
        for names in BINDER.findall(text):
            bound.update(" ".join(names).split())
        left, equals, _ = text.partition(" = ")
        words = WORD.findall(left)
        if equals and words and (words[0] in fields | {name} or name[0] == "◌"):
            bound.update(word for word in words[1:] if word[0].islower())
        bound.update(re.findall(r"let (\w+) = ", text) + re.findall(r"^(\w+) ← ", text))
    return bound - {name}


def words_of(lines):
    for text in lines:
        for word in WORD.findall(text):
            yield from (word, word.split(".")[0])
        for sign in SIGN.findall(text):
            yield f"◌{sign}◌"
        if text.endswith(" do"):
            yield "◌>>=◌"


def rests_on(names):
    """The declarations that the names rest on, each with its lines."""
    modules, found, left = {}, {}, []
    for name in names:
        crate, _, rest = name.partition(".")
        module, _, last = rest.rpartition(".")
        home = home_of(crate, module)
        if home is None:
            sys.exit(f"{name}: there is no such module")
        left.append((home, last))
    while left:
        home, name = left.pop()
        if home not in modules:
            modules[home] = Module(home)
        module = modules[home]
        if name not in module.declared:
            name = module.constructors.get(name)
        if name is None or (home, name) in found:
            continue
        found[home, name] = module.declared[name]
        words = set(words_of(found[home, name])) - bound_in(name, found[home, name])
        left += [module.imports.get(word, (home, word)) for word in words]
    return found


if __name__ == "__main__":
    found = rests_on(sys.argv[1:])
    files = {home for home, _ in found}
    print(f"{sum(map(len, found.values()))} lines, {len(found)} declarations, {len(files)} files")
