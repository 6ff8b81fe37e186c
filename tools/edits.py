"""The edits that must fail: wrong bodies of functions, each of which the prover has to refuse.

An edit is a file crates/NAME/must-fail/*.edit, as `rt must-fail` reads it: a line `file: src/..` and pairs of lines
`old: TEXT` and `new: TEXT`, where the old text stands once in the file. `rt ci` tries each by a run of its own, over a
second proof of the whole crate. Here the edits of a crate that change different functions are tried in one run, which
checks just these functions and what they call. An edit is refused if a function that it changes is, by itself and not
because it calls another one. One that isn't refused so is tried again without those that were, and at last alone, on
the whole crate.
"""
import contextlib
import dataclasses
import pathlib
import re
import shutil
import signal
import subprocess
import tempfile

# Where the toolchain is: `rt` stands in its folder bin.
KIT = pathlib.Path(shutil.which("rt") or "rt").resolve().parent.parent
# The parts of a crate that the prover reads.
PARTS = "src", "specs", "proofs"
# What the prover says of a function that it refuses by itself.
REFUSED = re.compile(r"^fn (\S+): (?:not proved|no proof: expected answers)", re.MULTILINE)
# What it says of a text that it can't read.
UNREAD = re.compile(r"\berror\[[\w-]+\]")
# How the prover's output ends where a crate isn't proved, and a limit of its own that it met: it gives no verdict then,
# but doesn't admit the proof either.
NOT_PROVED = re.compile(r"^logic=not-proved", re.MULTILINE)
LIMIT = re.compile(r"antt ran out of (?:stack|the (?:steps|memory) that the check of one declaration may)")
FUNCTION = re.compile(r"( *)(?:pub(?:\([a-z]+\))? )?(?:const )?fn (\w+)")
# The header of an `impl`: the trait, if there is one, and the type.
OWNER = re.compile(r"impl(?:<.*?>)? (?:(\w+)(?:<[^>]*>)? for )?(?:\w+::)*(\w+)")


class BadEdit(Exception):
    """An edit that can't be applied, or of which nothing is known."""


@dataclasses.dataclass(frozen=True)
class Edit:
    """A wrong body: the texts that it replaces, with their file in the crate; the functions that these stand in; and
    whether it changes anything besides."""
    name: str
    changes: tuple
    functions: frozenset
    goes_beyond: bool

    def apply(self, crate):
        """Edits the crate in this folder, where other edits may have been applied."""
        for path, old, new in self.changes:
            file = crate / path
            file.write_text(file.read_text().replace(old, new, 1))


def module_of(path):
    """Returns the module that a file of a crate holds."""
    parts = pathlib.PurePath(path).with_suffix("").parts[1:]
    return "::".join(it for it in parts if it not in ("lib", "main", "mod"))


def function_at(lines, at, module):
    """Returns the name of the function around a line, as the prover takes it, or None if the line is outside of all."""
    start = next((it for it in range(at, -1, -1) if FUNCTION.match(lines[it])), None)
    if start is None:
        return None
    indent, name = FUNCTION.match(lines[start]).groups()
    end = next((it for it in range(start, len(lines)) if lines[it].rstrip() == f"{indent}}}"), start)
    if end < at:
        return None
    if not indent:
        return f"{module}::{name}" if module else name
    owner = next((OWNER.match(lines[it]) for it in range(start, -1, -1) if lines[it].startswith("impl")), None)
    return f"{owner[2]}{owner[1] or ''}::{name}" if owner else None


def read_edit(crate, file):
    """Reads an edit of the crate in this folder. Fails if it can't be applied."""
    path, old, changes, functions = None, None, [], set()
    for line in file.read_text().splitlines():
        word, _, text = line.partition(":")
        text = text.removeprefix(" ")
        if word == "file":
            path = text.strip()
        elif word == "old":
            old = text
        elif word == "new" and path and old:
            lines = (crate / path).read_text().splitlines()
            if sum(it.count(old) for it in lines) != 1:
                raise BadEdit(f"{file.name}: the text to replace doesn't stand just once in {path}")
            at = next(at for at, it in enumerate(lines) if old in it)
            functions.add(function_at(lines, at, module_of(path)))
            changes.append((path, old, text))
            old = None
    if not changes:
        raise BadEdit(f"{file.name}: it changes nothing")
    return Edit(file.stem, tuple(changes), frozenset(functions - {None}), None in functions)


def edits_of(crate):
    """Returns the edits of the crate in this folder, in the order of their names."""
    return [read_edit(crate, it) for it in sorted((crate / "must-fail").glob("*.edit"))]


def batch_of(edits):
    """Returns edits no two of which change the same function: the first, and those that go with it. One that changes
    more than bodies of functions is alone."""
    first, *others = edits
    batch, functions = [first], set(first.functions)
    for edit in others:
        if not first.goes_beyond and not edit.goes_beyond and not functions & edit.functions:
            batch.append(edit)
            functions |= edit.functions
    return batch


def is_named(function, names):
    """Returns whether a function, by the end of its name, is among those of these whole names."""
    return any(f"::{it}".endswith(f"::{function}") for it in names)


class Trial:
    """The trial of a crate's edits: the crate's folder, the prover's command for it, a folder to work in, and what is
    called before each run of the prover."""

    def __init__(self, crate, command, room, before):
        self.crate, self.command, self.room, self.before, self.runs = crate, command, room, before, 0
        (room / "kept").mkdir(parents=True)

    def check(self, edits, functions):
        """Checks the crate with these edits: these functions and what they call, or all if there are none. Returns the
        prover's status and what it says."""
        with tempfile.TemporaryDirectory(dir=self.room) as place:
            for part in PARTS:
                with contextlib.suppress(FileNotFoundError):
                    shutil.copytree(self.crate / part, f"{place}/{part}")
            for edit in edits:
                edit.apply(pathlib.Path(place))
            only = [word for it in sorted(functions) for word in ("--only", it)]
            self.before()
            self.runs += 1
            for _ in range(2):
                ran = subprocess.run([*self.command, *only, "--incremental", self.room / "kept"], cwd=place, text=True,
                                     errors="replace", stdin=subprocess.DEVNULL, stdout=subprocess.PIPE,
                                     stderr=subprocess.STDOUT)
                if ran.returncode != -signal.SIGKILL:
                    break
                # The system has most likely killed it because memory ran out, which others take for a while.
            return ran.returncode, ran.stdout

    def refused_among(self, edits):
        """Tries these edits together; returns those of which a function is refused by itself."""
        functions = frozenset().union(*(it.functions for it in edits))
        status, said = self.check(edits, functions) if functions else (0, "")
        if status != 1 or UNREAD.search(said):
            return []
        refused = REFUSED.findall(said)
        return [it for it in edits if any(is_named(function, refused) for function in it.functions)]

    def is_refused(self, edit):
        """Tries an edit alone; returns whether the crate isn't proved with it. Fails if nothing is known then."""
        status, said = self.check([edit], ())
        if status == 0:
            return False
        if status == 1 and NOT_PROVED.search(said) and not UNREAD.search(said) or status == 3 and LIMIT.search(said):
            return True
        raise BadEdit(f"{edit.name}: the prover gave no verdict:\n{said[:2000]}")

    def run(self, edits):
        """Tries these edits; returns the names of those that aren't refused."""
        left, missed = list(edits), []
        while left:
            batch = batch_of(left)
            done = self.refused_among(batch)
            if not done:
                done = batch[:1]
                missed += [it.name for it in done if not self.is_refused(it)]
            left = [it for it in left if it not in done]
        return missed
