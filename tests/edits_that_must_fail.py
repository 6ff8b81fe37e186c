#!/usr/bin/env python3
"""Tests tools/edits.py: what it reads of an edit, which edits it tries together, and when an edit counts as refused.
The prover is a stand-in, which notes how it was called and says what the row wants.

    tests/edits_that_must_fail.py
"""
import json
import pathlib
import sys
import tempfile

from relay_program import Difference, run_main, same

TOP = pathlib.Path(__file__).resolve().parent.parent
sys.path.insert(0, str(TOP / "tools"))
sys.dont_write_bytecode = True
import edits  # noqa: E402

SOURCE = """\
const MOST: usize = 4;

pub fn first(x: usize) -> usize {
    x + 1
}

impl<S: Stream + Drop> Table<S> {
    fn put(&mut self, x: usize) {
        self.end = x + 2;
        self.most = MOST;
    }
}

impl<D: Disk> Drop for Spool<D> {
    pub(crate) fn drop(&mut self) {
        self.live = false;
    }
}
"""
# A stand-in for the prover: it takes its next answer, a status and lines, from the file beside it, and notes the words
# and the edited text.
PROVER = """\
#!/usr/bin/env python3
import json, os, pathlib, sys
here = pathlib.Path(__file__).parent
answers = json.loads((here / "answers").read_text())
(here / "answers").write_text(json.dumps(answers[1:]))
with open(here / "calls", "a") as calls:
    calls.write(json.dumps([sys.argv[1:], pathlib.Path("src/a/b.rt").read_text()]) + "\\n")
print(answers[0][1])
if answers[0][0] == "killed":
    os.kill(os.getpid(), 9)
sys.exit(answers[0][0])
"""
# An edit's changes, and the functions that it stands in; None where it changes something besides.
PLACES = [
    ([("x + 1", "x")], {"a::b::first"}, False),
    ([("self.end = x + 2;", "self.end = x;")], {"Table::put"}, False),
    ([("self.live = false;", "")], {"SpoolDrop::drop"}, False),
    ([("x + 1", "x"), ("= x + 2", "= x")], {"a::b::first", "Table::put"}, False),
    ([("usize = 4", "usize = 5")], set(), True),
    ([("usize = 4", "usize = 5"), ("x + 1", "x")], {"a::b::first"}, True),
]
FIRST, PUT, DROP, CONSTANT = (PLACES[at][0] for at in (0, 1, 2, 4))


def crate_in(folder, *all_changes):
    """Makes a crate with these edits, which are named a, b, c and so on."""
    crate = pathlib.Path(folder) / "crate"
    (crate / "src/a").mkdir(parents=True)
    (crate / "src/a/b.rt").write_text(SOURCE)
    (crate / "must-fail").mkdir()
    for name, changes in zip("abcdef", all_changes):
        lines = [f"old: {old}\nnew: {new}\n" for old, new in changes]
        (crate / "must-fail" / f"{name}.edit").write_text("file: src/a/b.rt\n" + "".join(lines))
    return crate


def knows_the_function_of_each_change():
    for changes, functions, goes_beyond in PLACES:
        with tempfile.TemporaryDirectory() as folder:
            edit, = edits.edits_of(crate_in(folder, changes))
            same(f"the functions of {changes}", (set(edit.functions), edit.goes_beyond), (functions, goes_beyond))


def refuses_what_cannot_be_applied():
    for changes in ([("y + 1", "y")], [("x + ", "x - ")], []):
        with tempfile.TemporaryDirectory() as folder:
            try:
                edits.edits_of(crate_in(folder, changes))
            except edits.BadEdit:
                continue
            raise Difference(f"{changes} is read as an edit")


def tried(answers, *all_changes):
    """Tries edits over a prover with these answers. Returns those that aren't refused, or the word BAD, and for each
    run the functions that it was to check, and how many lines of the text differed."""
    with tempfile.TemporaryDirectory() as folder:
        place = pathlib.Path(folder)
        (place / "prover").write_text(PROVER)
        (place / "prover").chmod(0o755)
        (place / "answers").write_text(json.dumps(answers))
        crate = crate_in(folder, *all_changes)
        trial = edits.Trial(crate, [place / "prover"], place / "room", lambda: None)
        try:
            missed = trial.run(edits.edits_of(crate))
        except edits.BadEdit:
            missed = "BAD"
        calls = [json.loads(it) for it in (place / "calls").read_text().splitlines()]
        runs = []
        for words, text in calls:
            only = {words[at + 1] for at, it in enumerate(words) if it == "--only"}
            runs.append((only, sum(one != two for one, two in zip(text.splitlines(), SOURCE.splitlines()))))
        return missed, runs


def tries_edits_of_different_functions_in_one_run():
    said = "fn c::a::b::first: not proved\nfn c::a::b::Table::put: no proof: expected answers in ./proofs/Answers.antt"
    same("both are refused", tried([[1, said]], FIRST, PUT), ([], [({"a::b::first", "Table::put"}, 2)]))


def tries_edits_of_one_function_in_two_runs():
    said = "fn c::a::b::first: not proved"
    found = tried([[1, said], [1, said]], FIRST, [("x + 1", "x + 3")])
    same("one after the other", found, ([], [({"a::b::first"}, 1), ({"a::b::first"}, 1)]))


def tries_an_edit_of_a_constant_alone():
    found = tried([[1, "logic=not-proved"], [1, "fn c::a::b::first: not proved"]], CONSTANT, FIRST)
    same("the constant on the whole crate", found, ([], [(set(), 1), ({"a::b::first"}, 1)]))


def counts_no_function_that_calls_a_refused_one():
    said = "fn c::a::b::first: not proved\nfn c::a::b::Table::put: no proof: it calls `c::a::b::first`, not proved"
    again = "fn c::a::b::Table::put: proved\nonly=1 proved=1"
    found = tried([[1, said], [0, again], [0, "logic=proved"]], FIRST, PUT)
    same("the other is tried by itself", found,
         (["b"], [({"a::b::first", "Table::put"}, 2), ({"Table::put"}, 1), (set(), 1)]))


def counts_no_other_function_of_a_like_name():
    found = tried([[1, "fn c::a::b::OtherTable::put: not proved"], [0, "logic=proved"]], PUT)
    same("it isn't refused", found, (["a"], [({"Table::put"}, 1), (set(), 1)]))


def takes_an_edit_that_another_function_refuses():
    found = tried([[0, "only=1 proved=1"], [1, "logic=not-proved"]], FIRST)
    same("it is refused on the whole crate", found, ([], [({"a::b::first"}, 1), (set(), 1)]))


def counts_no_text_that_cannot_be_read():
    unread = "src/a/b.rt:4:5: error[unresolved-name]: no value `z` is in scope\nfn c::a::b::first: not proved"
    found = tried([[1, unread], [1, f"{unread}\nlogic=not-proved"]], FIRST)
    same("it is bad", found, ("BAD", [({"a::b::first"}, 1), (set(), 1)]))


def counts_no_run_that_ended_for_another_reason():
    found = tried([[-9, ""], [-9, ""]], FIRST)
    same("nothing is known", found[0], "BAD")


def tries_once_more_where_the_prover_was_killed():
    refused = [1, "fn c::a::b::first: not proved"]
    same("once", tried([["killed", ""], refused], FIRST)[0], [])
    same("twice, and alone", tried([["killed", ""]] * 4, FIRST)[0], "BAD")


def takes_a_limit_of_the_prover_for_a_refusal():
    said = "rattle: no verdict: antt ran out of the steps that the check of one declaration may take"
    same("it isn't admitted", tried([[3, said], [3, said]], FIRST)[0], [])


def main():
    for row in (knows_the_function_of_each_change, refuses_what_cannot_be_applied,
                tries_edits_of_different_functions_in_one_run, tries_edits_of_one_function_in_two_runs,
                tries_an_edit_of_a_constant_alone, counts_no_function_that_calls_a_refused_one,
                counts_no_other_function_of_a_like_name, takes_an_edit_that_another_function_refuses,
                counts_no_text_that_cannot_be_read, counts_no_run_that_ended_for_another_reason,
                tries_once_more_where_the_prover_was_killed, takes_a_limit_of_the_prover_for_a_refusal):
        row()
        print(f"edits_that_must_fail: {row.__name__}")


run_main("edits_that_must_fail", main)
