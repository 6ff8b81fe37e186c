#!/usr/bin/env python3
"""Compares the documents with the tree: links and their anchors, paths, quoted contracts, names of definitions, calls
and must-fail edits, the file of each clause and definition that a document places in one, each crate's place, the
length of lines and of documents. Prints each disagreement, and exits with 1 if there is one.

    tests/documents.py
"""
import pathlib
import re
import subprocess
import sys

TOP = pathlib.Path(__file__).resolve().parent.parent
# The most lines of a document, and of a line outside tables and code.
LENGTHS = {"README.md": 120, "docs/ARCHITECTURE.md": 150, "docs/DECISIONS.md": 400, "docs/PROVED.md": 400,
           "docs/PERFORMANCE.md": 160}
COLUMNS = 120
# The documents whose names in backquotes are names of the tree, and the words there that aren't.
NAMING = ["CONTRIBUTING.md", "docs/ARCHITECTURE.md", "docs/DEFINITIONS.md", "docs/PROVED.md"]
INVENTED = {"ReadsYourKey", "rattle", "read_your_key"}
NAME = re.compile(r"[A-Za-z_][A-Za-z0-9_]*")
LINK = re.compile(r"\]\(([^)\s]+)\)")
QUOTED = re.compile(r"`([^`\n]+)`")
# Definitions, fields and clauses with the file where they stand, as in: `KeepsCustody.held`, `IsBound` (`Bound.antt`).
PLACED = re.compile(r"((?:`[\w.]+`, )*`[\w.]+`) \(`([\w/]+\.(?:antt|rt))`\)")
# The folder of a file without one.
HOME = "relay_world/specs"


def tracked(*patterns):
    command = ["git", "ls-files", "--cached", "--others", "--exclude-standard", *patterns]
    lines = subprocess.run(command, cwd=TOP, stdout=subprocess.PIPE, text=True, check=True).stdout.splitlines()
    return [TOP / line for line in lines if (TOP / line).is_file()]


def anchors_of(text):
    """Returns the anchors of a document's headings, as web sites make them of Markdown."""
    headings = re.findall(r"(?m)^#+ (.*)$", text)
    return {re.sub(r"[^\w\- ]", "", heading.lower()).replace(" ", "-") for heading in headings}


def faults_of_links(path, text):
    for link in LINK.findall(text):
        if re.match(r"[a-z]+:", link):
            continue
        name, _, anchor = link.partition("#")
        target = (path.parent / name).resolve() if name else path
        if not target.exists():
            yield f"the link {link} leads nowhere"
        elif anchor and anchor not in anchors_of(target.read_text()):
            yield f"the link {link} names no heading"


def faults_of_lengths(path, text):
    lines = text.splitlines()
    most = LENGTHS.get(str(path.relative_to(TOP)))
    if most and most < len(lines):
        yield f"{len(lines)} lines, above {most}"
    is_code = False
    for number, line in enumerate(lines, 1):
        is_code ^= line.startswith("```")
        if COLUMNS < len(line) and not is_code and not line.startswith(("|", "```")):
            yield f"line {number} has {len(line)} columns"


def faults_of_paths(text, names):
    """A path in backquotes below a crate's folder, or below one of the top, exists."""
    for quoted in QUOTED.findall(text):
        if not re.fullmatch(r"(relay\w*|tests|tools|bench|docs)/[\w./]+\.\w+", quoted):
            continue
        if not (TOP / quoted).exists() and not (TOP / "crates" / quoted).exists():
            yield f"there is no `{quoted}`"


def faults_of_contracts(text, code):
    """A quoted contract is that of the code, line by line."""
    for block in re.findall(r"(?ms)^```\n(pub fn .*?)^```", text):
        if block.strip() not in code:
            yield f"the quoted contract of `{block.splitlines()[0]}` isn't that of the code"


def faults_of_names(text, names):
    for quoted in QUOTED.findall(text):
        if re.fullmatch(r"[A-Za-z_][A-Za-z0-9_]*(::[A-Za-z_][A-Za-z0-9_]*)*", quoted):
            for name in quoted.split("::"):
                if name not in names | INVENTED:
                    yield f"`{quoted}`: nothing in the tree has the name {name}"


def is_declared(name, path):
    """Returns whether a file declares a name: a definition and its field, or a function and its clause."""
    first, _, second = name.partition(".")
    lines = path.read_text().splitlines()
    if path.suffix == ".rt":
        word, inner = r"\s*(pub |pub\(crate\) )?fn {}\b", r"\s*(ensures|requires) {} \{{"
    else:
        word, inner = r"\s*((abbrev|unfoldable|pub|record|data) )*{}(?= )", r"\s+(pub )?{} :"
    begin = next((at for at, line in enumerate(lines) if re.match(word.format(first), line)), None)
    if begin is None or not second:
        return begin is not None
    # A field or a clause stands deeper than its definition or its function, up to the next line that doesn't.
    margin = len(lines[begin]) - len(lines[begin].lstrip())
    for line in lines[begin + 1:]:
        if re.match(inner.format(second), line):
            return True
        if line.strip() and len(line) - len(line.lstrip()) <= margin and not line.lstrip().startswith(")"):
            return False
    return False


def faults_of_places(text):
    """A name that is placed in a file, in parentheses after it, is declared there."""
    for names, place in PLACED.findall(text):
        path = TOP / "crates" / (place if "/" in place else f"{HOME}/{place}")
        for name in QUOTED.findall(names):
            if not path.is_file() or not is_declared(name, path):
                yield f"`{name}` isn't declared in `{place}`"


def faults_of_crates(crates):
    for name in ("docs/ARCHITECTURE.md", "docs/PROVED.md"):
        text = (TOP / name).read_text()
        for crate in crates:
            is_program = crate == "relayd" or crate.endswith("_tests")
            if crate not in text and not (is_program and name == "docs/PROVED.md"):
                yield f"{name}: {crate} has no place there"


def main():
    crates = re.findall(r"(?m)^(\w+)\b.*:", (TOP / "crates.txt").read_text())
    sources = tracked("crates/*.rt", "crates/*.antt", "tests/*", "tools/*", "bench/*", "docs/relayd*", "relayd.toml")
    text_of = {path: path.read_text(errors="replace") for path in sources}
    names = {name for text in text_of.values() for name in NAME.findall(text)}
    names |= {path.stem for path in tracked("crates/*.edit")} | set(NAME.findall((TOP / "crates.txt").read_text()))
    # A contract in a document begins at the margin, and so is compared without the code's margin.
    sources = [text for path, text in text_of.items() if path.suffix == ".rt"]
    code = "\n".join(re.sub(r"(?m)^    ", "", text) + "\n" + text for text in sources)
    faults = list(faults_of_crates(crates))
    documents = tracked("*.md")
    for path in documents:
        text, name = path.read_text(), str(path.relative_to(TOP))
        found = [*faults_of_links(path, text), *faults_of_lengths(path, text), *faults_of_paths(text, names)]
        if name in NAMING:
            found += [*faults_of_contracts(text, code), *faults_of_names(text, names)]
        if name == "docs/PROVED.md":
            found += faults_of_places(text)
        faults += [f"{name}: {fault}" for fault in found]
    print(*faults, sep="\n")
    if faults:
        return 1
    print(f"documents: {len(documents)} documents agree with the tree")
    return 0


sys.exit(main())
