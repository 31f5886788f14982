"""That the gate and the comparisons can fail. The gate, `.ci/run`, over a repository that stands in for the real one,
with an `rt` that passes, fails or has bad must-fail edits, with tests that pass, fail, crash or say nothing, and with
an exported CDPATH; the comparisons (tests/lib/program.py) over programs that print a line too many or too few, or
inside a line, that say a word on standard error, and that do not end well; the reading of a must-fail edit's refusal
(tests/must_fail_reasons.py) over what `rt` can say of one."""
import os
import subprocess
import sys
import tempfile

for folder in ("lib", ""):
    sys.path.insert(0, os.path.join(os.path.dirname(os.path.abspath(__file__)), folder))
import must_fail_reasons
import program
import repository
import stand_in

PASSING = 'print("2 passed, 0 failed")\n'
PASSED = "2 passed, 0 failed\n"
GATES = [  # what a test of the stand-in does, and how the gate ends
    ("a test that passes", PASSING, "", "5 passed, 0 failed", 0),
    ("a test that fails", 'print("1 passed, 2 failed")\nraise SystemExit(1)\n', "failed: tests/one.py\n", "4 passed, 2 failed", 1),
    ("a test that fails with status 0", 'print("1 passed, 1 failed")\n', "failed: tests/one.py\n", "4 passed, 1 failed", 1),
    ("a test that passes with status 3", PASSING + "raise SystemExit(3)\n", "failed: tests/one.py(status-3)\n", "5 passed, 1 failed", 1),
    ("a test that crashes", "raise ValueError\n", "failed: tests/one.py(no-verdict)\n", "3 passed, 1 failed", 1),
    ("a test that says nothing", "", "failed: tests/one.py(no-verdict)\n", "3 passed, 1 failed", 1),
    ("a test that tries nothing", 'print("0 passed, 0 failed")\n', "failed: tests/one.py(no-verdict)\n", "3 passed, 1 failed", 1),
    ("a test that says more afterwards", PASSING + 'print("more")\n', "failed: tests/one.py(no-verdict)\n", "3 passed, 1 failed", 1),
]
OK = "rt: ok; handles allowed: none; must-fail edits: 2 refused"
SHARE = "; every proof and must-fail edit was done in this run\n"
COUNT = "3 passed, 0 failed\n"
BAD = "rt: note: bad must-fail edits, as told above: 2. They fail nothing here\n"
RTS = [  # what `rt ci` says, with which status, and how the gate ends with a test that passes
    ("passes", OK + SHARE + COUNT, 0, "", "5 passed, 0 failed", 0),
    ("has bad edits and passes", BAD + OK + ", 2 bad" + SHARE + COUNT, 0, "failed: rt ci(2-bad)\n", "5 passed, 1 failed", 1),
    ("has one bad edit beside a limit", OK + ", 1 of them only by a limit, 1 bad" + SHARE + COUNT, 0, "failed: rt ci(1-bad)\n", "5 passed, 1 failed", 1),
    ("has no bad edit and says so", OK + ", 0 bad" + SHARE + COUNT, 0, "", "5 passed, 0 failed", 0),
    ("has an edit refused by a limit", OK + ", 1 of them only by a limit" + SHARE + COUNT, 0, "", "5 passed, 0 failed", 0),
    ("passes without its line", COUNT, 0, "failed: rt ci(no-ok)\n", "5 passed, 1 failed", 1),
    ("passes with status 1", OK + SHARE + COUNT, 1, "failed: rt ci(status-1)\n", "5 passed, 1 failed", 1),
    ("fails", "rt: FAILED: one\n2 passed, 1 failed\n", 1, "failed: rt ci rt ci(no-ok)\n", "4 passed, 2 failed", 1),
    ("is for some crates alone", OK + SHARE + "3 passed, 0 failed (one alone: not the gate)\n", 0, "failed: rt ci(no-verdict)\n", "2 passed, 1 failed", 1),
    ("stops", "rt: crates.txt lists no crate\n0 passed, 1 failed\n", 2, "failed: rt ci rt ci(no-ok)\n", "2 passed, 2 failed", 1),
    ("says nothing", "", 0, "failed: rt ci(no-verdict) rt ci(no-ok)\n", "2 passed, 2 failed", 1),
]
VERDICTS = [  # what `rt` says of an edit, and whether it is refused for a fact
    ("refused, as it must be: ./proofs/echo/Answers.antt:8:13: error: `returns`: expected type `A`, but this has type `B`", True),
    ("refused, as it must be: note: src/lib.rt:13:1: it is not proved that what the function ensures holds when it returns", True),
    ("refused, as it must be: note: src/clock.rt:16:5: `search` found no proof (`invariant_of-result`)", True),
    ("refused, as it must be", False),
    ("refused, as it must be: ./proofs/f/Answers.antt:5:27: error: `g`: module `low.Goals` has no `g` that can be named from here", False),
    ("refused, as it must be: ./proofs/f/Answers.antt:5:27: error: `g`: a record has no field `n`", False),
    ("refused, as it must be: ./proofs/f/Answers.antt:5:27: error: `g`: `n` is not in scope", False),
    ("refused, as it must be (only because a proof file names what the edit took away): ./proofs/f/Answers.antt:5:27: error: `g`", False),
    ("refused, as it must be (only by a limit of the prover): ./proofs/f/Answers.antt:5:27: error: `g`: antt ran out of stack", False),
    ("BAD EDIT: an 'old:' text is in src/lib.rt 0 times, and not once", False),
    ("NOT REFUSED: the crate is still proved with this edit", False),
    ("NOT TRIED: its check was killed, most likely for memory, so nothing is known of it: run this again", False),
]
RENAMED = [  # a need, another one, the words that an edit took and gave, and whether it renamed the second to the first
    ("returns-then-n-ge-ROOM", "returns-then-n-gt-ROOM", "if n > ROOM {", "if n >= ROOM {", True),
    ("returns-then-n-ge-LEAST", "returns-then-n-ge-MOST", "if n >= MOST {", "if n >= LEAST {", True),
    ("returns-then-n-ge-LEAST", "returns-then-n-ge-MOST", "let m = 1;", "let m = 2;", False),
    ("returns-then-not-fits", "returns-then-fits", "if fits {", "if !fits {", True),
    ("returns", "returns-then-n-ge-ROOM", "if n > ROOM {", "if n >= ROOM {", False),
    ("returns-else-n-ge-ROOM", "returns-then-n-ge-ROOM", "n", "m", False),
]
FINE = "cat >/dev/null; echo one; echo two"
PROGRAMS = [  # what a program does, and whether its answers are the two that are wanted
    ("prints the two lines", FINE, True),
    ("prints a line too many", FINE + "; echo three", False),
    ("prints an empty line more", FINE + "; echo", False),
    ("prints a line too few", "cat >/dev/null; echo one", False),
    ("prints another line", "cat >/dev/null; echo one; echo too", False),
    ("does not end its last line", "cat >/dev/null; echo one; printf two", False),
    ("prints half a line more", FINE + "; printf thr", False),
    ("prints nothing", "cat >/dev/null", False),
    ("says a word on standard error", FINE + "; echo two >&2", False),
    ("ends with status 1", FINE + "; exit 1", False),
    ("is killed", FINE + "; kill -9 $$", False),
]


def gate(folder, test, said=OK + SHARE + COUNT, ended=0, **more):
    """How the gate comes out over a repository with this test, started from above it by a path without a dot in front,
    and with an `rt` that says this and ends so, if it is called as `rt ci` at the top of the repository."""
    stand_in.put(os.path.join(folder, "root", ".ci", "run"), repository.text(".ci", "run"))
    stand_in.put(os.path.join(folder, "root", "crates.txt"), "")
    stand_in.put(os.path.join(folder, "root", "tests", "one.py"), test)
    stand_in.put(os.path.join(folder, "said"), said)
    called = '[ "$*" = ci ] && [ -d .ci ] && [ -f crates.txt ] && [ -f tests/one.py ] || exit 9'
    stand_in.put(os.path.join(folder, "bin", "rt"), f"#!/bin/sh\n{called}\ncat '{folder}/said'\nexit {ended}\n", 0o755)
    own = {**os.environ, "PATH": os.path.join(folder, "bin") + os.pathsep + os.environ["PATH"], **more}
    return subprocess.run(["bash", "root/.ci/run"], cwd=folder, env=own, capture_output=True, text=True)


def gates():
    """The gate's last lines and its status."""
    with tempfile.TemporaryDirectory() as folder:
        for name, test, failures, last, status in GATES:
            told = gate(folder, test)
            yield f"{name}: {told.stdout!r}, status {told.returncode}", told.stdout.endswith(failures + last + "\n") and told.returncode == status
        for name, said, ended, failures, last, status in RTS:
            told = gate(folder, PASSING, said, ended)
            wanted = f"== rt ci\n{said}== tests/one.py\n{PASSED}{failures}{last}\n", "", status
            yield f"rt ci {name}: {told}", (told.stdout, told.stderr, told.returncode) == wanted
        # what `rt ci` said is handed to each test, and is gone afterwards
        reading = f"import os\npath = os.environ['RT_CI_SAID']\nprint(path, {OK + SHARE + COUNT!r} == open(path).read())\n" + PASSING
        told = gate(folder, reading)
        path, _, read = told.stdout.split("\n")[4].partition(" ")
        yield f"what rt ci said is handed to the tests: {told}", read == "True" and told.returncode == 0 and not os.path.exists(path)
        # another repository in which the same path would be found
        stand_in.put(os.path.join(folder, "astray", "root", ".ci", "none"), "")
        told = gate(folder, PASSING, CDPATH=os.path.join(folder, "astray"))
        wanted = f"== rt ci\n{OK}{SHARE}{COUNT}== tests/one.py\n{PASSED}5 passed, 0 failed\n", "", 0
        yield f"the gate with an exported CDPATH: {told}", (told.stdout, told.stderr, told.returncode) == wanted


def comparisons():
    """Two cases, compared with what each program prints."""
    for name, text, fine in PROGRAMS:
        start = ["sh", "-c", text]
        checks = program.compared(["1@\n", "2@\n"], ["one", "two"], program.answers(start, ["1@\n", "2@\n"]))
        yield f"a program that {name}: {checks}", all(holds for _, holds in checks) == fine
        told = program.many(["sh", "-c", text + "; echo ."], [b"session"])
        yield f"the same on a session: {told}", (told == [b"one\ntwo\n"]) == fine
    two = ["sh", "-c", "cat >/dev/null; echo .; echo ."]
    yield "an answer too many on a session", program.many(two, [b"session"]) == [None]
    yield "an answer too few on two of three sessions", program.many(two, [b"session"] * 3) == [None] * 3


def reasons():
    """Edits of this repository, of which `rt` says one thing, or nothing, or two things."""
    crate, label = next((crate, label) for crate in repository.crates() for label in repository.edits(crate))
    for verdict, fine in VERDICTS:
        yield f"of an edit {verdict!r}", must_fail_reasons.is_for_fact(verdict) == fine
    for need, other, old, new, renamed in RENAMED:
        found = must_fail_reasons.is_renamed(need, other, *(set(words.split()) for words in (old, new)))
        yield f"{need} is {other} renamed by {new!r} for {old!r}: {found}", found == renamed
    line = f"rt: must-fail {crate}/{label}.edit: {VERDICTS[0][0]}\n"
    for name, text, fine in (("nothing", "", 0), ("one thing", line, 1), ("two things", line * 2, 0), ("half of it", line[:-90], 0)):
        checks = list(must_fail_reasons.checks("rt: low proved\n" + text))
        yield f"{name} said of one edit: {checks[:1]}", [holds for _, holds in checks].count(True) == fine and len(checks) > 1


if __name__ == "__main__":
    sys.exit(repository.report(list(gates()) + list(comparisons()) + list(reasons())))
