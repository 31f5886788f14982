"""Runs the script `herdspiral` with the real program: on each session of samples/, typed and as bytes, and compares what it
prints with the lines beside it and what it says of refusals with the words beside it; for the pages of all button settings that
samples/ has, and for those of the refused samples; on long sessions; on output that cannot be written. What a start comes to is
compared whole: its output, its exact words on standard error, its status. Holds README.md to the samples that it shows. Nothing in
the repository is changed but built/, where the script keeps the program. Needs the Rattle kit; the script builds the program if it
is missing. tests/script.py tries the script by itself, tests/words.py its words."""
import os
import re
import shutil
import sys
import tempfile

sys.path.insert(0, os.path.join(os.path.dirname(os.path.abspath(__file__)), "lib"))
import board_model
import program
import report_model
import repository
import stand_in
from long_sessions import LONGEST
from program import Told, well
from repository import same
from typed_text import places_typed, typed_bytes

SCRIPT = repository.path("herdspiral")
ENDED, REFUSED, UNDONE = 0, 3, 4  # exit statuses


def run(*words, **more):
    """What the script comes to with these words, started in the repository."""
    return program.run([SCRIPT, *words], cwd=repository.ROOT, **more)


def sample(name, ending):
    """What stands in a file of samples/; empty where there is none."""
    path = repository.path("samples", name + ending)
    return repository.text(path) if os.path.exists(path) else ""


def as_bytes(words, typed, name):
    """The words for a typed file, as they are for the same bytes: with places for lines and columns, and without a word on how a
    number is typed."""
    places = places_typed(typed)
    words = re.sub(r'; "\w\w" is \d+, and \d+ is typed "\w\w"', "", words)
    words = re.sub(r"line (\d+), column (\d+)", lambda found: f"place {places[int(found[1]), int(found[2])]}", words)
    return re.sub(r"^samples/[^:]*", name, words, flags=re.M)


def samples():
    """Each sample by its file, then all of them once more as bytes: on standard input, and as a file."""
    names = os.listdir(repository.path("samples"))
    typed, lines, words = ({name[: -len(end)] for name in names if name.endswith(end)} for end in (".hex", ".lines", ".words"))
    refused = {name for name in typed if "refused" in sample(name, ".lines")}
    checks = [same("each session has its lines, and each file of lines its session", typed, lines), ("there are samples", len(typed) > 20)]
    checks.append(same("each session that meets a refusal has its words, and no other", words, refused))
    for number in (*range(1, 11), 12, 17):
        checks.append((f"there is a sample of refusal {number}", any(f"(refusal {number})" in sample(name, ".words") for name in words)))
    with tempfile.TemporaryDirectory() as folder:
        raw = os.path.join(folder, "session")
        for name in sorted(typed & lines):
            text, out, said = (sample(name, ending) for ending in (".hex", ".lines", ".words"))
            status = REFUSED if re.search(r"^refused ", out, re.M) else ENDED
            data = typed_bytes(text)
            stand_in.put(raw, data)
            for way, told, wanted in (
                ("", run(f"samples/{name}.hex"), said),
                (" on standard input", run(data=data), as_bytes(said, text, "standard input")),
                (" as a file of bytes", run(raw), as_bytes(said, text, raw)),
            ):
                checks.append(same(f"samples/{name}.hex{way}", told, Told(out.encode(), wanted.encode(), status)))
    return checks


def pages():
    """Each page of samples/, of its session, of the board alone, and with the length of the log given; typed and as bytes."""
    names = sorted(name[: -len(".page")] for name in os.listdir(repository.path("samples")) if name.endswith(".page"))
    checks = [(f"there are pages: {names}", len(names) >= 2)]
    with tempfile.TemporaryDirectory() as folder:
        raw, board = (os.path.join(folder, name) for name in ("session", "board"))
        for name in names:
            checks.append((f"samples/{name}.page has its session", bool(sample(name, ".hex"))))
            data = typed_bytes(sample(name, ".hex") or sample("h0", ".hex"))
            stand_in.put(raw, data)
            stand_in.put(board, data[: board_model.read(data)[0]])
            for words in ([f"samples/{name}.hex"], [f"samples/{name}.hex", "4096"], [raw], [raw, "4096"], [board]):
                checks.append(same(f"the page of {name}, {words}", run("--settings", *words), well(sample(name, ".page").encode())))
    return checks


def page_lengths():
    """The page of long-run, whose 13 relays move 8,191 times whether its button is pushed or not, with logs of each sort; the log
    is for 4,096 moves where no length is given."""
    spent, idle = (report_model.page(told) for told in ((2, 0, 0, 0, 2, 8_192, 4_096, 0), (2, 2, 0, 0, 0, 16_382, 8_191, 0)))
    for words, page in (([], spent), (["4096"], spent), (["8191"], idle), (["65536"], idle), (["0008191"], idle)):
        yield same(f"the page of long-run, {words}", run("--settings", "samples/long-run.hex", *words), well(page))


def refused_pages():
    """The page of each sample that meets a refusal, typed and as bytes. Where its board is refused, the page is refused in the same
    words as the session, also with too long a log; what stands behind the board is not looked at."""
    checks, names = [], sorted(name[: -len(".words")] for name in os.listdir(repository.path("samples")) if name.endswith(".words"))
    with tempfile.TemporaryDirectory() as folder:
        raw = os.path.join(folder, "session")
        for name in names:
            text, out, said = (sample(name, ending) for ending in (".hex", ".lines", ".words"))
            stand_in.put(raw, typed_bytes(text))
            page = report_model.page_of(typed_bytes(text), 4_096)
            for file, words in ((f"samples/{name}.hex", said), (raw, as_bytes(said, text, raw))):
                wanted = Told(out.encode(), words.encode(), REFUSED) if page.startswith(b"refused ") else well(page)
                for log in [[], ["65537"]] if wanted.status == REFUSED else [[]]:
                    checks.append(same(f"the page of {name}, {[file] + log}", run("--settings", file, *log), wanted))
    return checks


def readme():
    """README.md shows commands that run a sample, each with the lines that it prints, what is said of one that is refused, and
    the typed bytes of some of them; and a command that prints a page of a sample, with the page after it."""
    blocks = re.findall(r"(?:^    .*\n)+", repository.text("README.md"), re.M)
    blocks = [[line[4:] for line in block.split("\n")[:-1]] for block in blocks]
    shown = [re.fullmatch(r"\./herdspiral samples/(.+)\.hex", line) for block in blocks for line in block]
    names = [command[1] for command in shown if command]
    checks = [same("README.md runs these samples", names, ["h2", "refused-terminal", "h1"])]
    printed = iter([block for block in blocks if re.match(r"0 |refused ", block[0])])
    for name in names:
        checks.append(same(f"README.md on samples/{name}.hex", "\n".join(next(printed, [])) + "\n", sample(name, ".lines")))
    said = ["\n".join(block) + "\n" for block in blocks if block[0].startswith("samples/")]
    checks.append(same("what README.md shows of the refusal", said, [sample("refused-terminal", ".words")]))
    typed = [typed_bytes("\n".join(block)) for block in blocks if re.match(r"[0-9a-f]{2} [0-9a-f]{2} ", block[0])]
    checks.append(same("the typed sessions of README.md", typed, [typed_bytes(sample("h1", ".hex"))]))
    command = ["./herdspiral --settings samples/muted-bell.hex"]
    page = sample("muted-bell", ".page").split("\n")[:-1]
    checks.append(same("README.md prints this page", [block for block in blocks if "--settings" in block[0]], [command]))
    checks.append(same("README.md has this page", [block for block in blocks if block[0].startswith("settings: ")], [page]))
    return checks + [("README.md has the page after its command", (command, page) in zip(blocks, blocks[1:]))]


def long_sessions():
    """H2 with events up to the longest session, and with one more."""
    start = typed_bytes(sample("h2", ".hex"))[:-2]
    events = LONGEST - len(start)
    data = start + bytes((event + 1) % 2 for event in range(events + 1))
    lines = "0 idle 0 0\n1 idle 1 1\n" + "".join(f"{event} idle 0 1\n" for event in range(2, events + 1))
    checks = []
    with tempfile.TemporaryDirectory() as folder:
        raw, typed = (os.path.join(folder, name) for name in ("long", "long.hex"))
        for length in (LONGEST, LONGEST + 1):
            stand_in.put(typed, data[:length].hex(" "))
            stand_in.put(raw, data[:length])
            for name, told, begin, last in (
                (typed, run(typed), "line 1, column 1", f"line 1, column {3 * LONGEST + 1}"),
                (raw, run(raw), "place 0", f"place {LONGEST}"),
                ("standard input", run(data=data[:length]), "place 0", f"place {LONGEST}"),
            ):
                too_long = f'{name}: {begin}: "03": the session is longer than 65,536 bytes: the first byte too many is at {last} (refusal 10)\n'
                want = well(lines.encode()) if length == LONGEST else Told(b"refused 10 0\n", too_long.encode(), REFUSED)
                checks.append(same(f"a session of {length} bytes, {name}", told, want))
    with open("/dev/zero", "rb") as endless:
        told = run("/dev/zero"), run(stdin=endless)
    checks.append(same("endless bytes", [(one.out, one.status) for one in told], [(b"refused 10 0\n", REFUSED)] * 2))
    return checks


def unwritten():
    """Output that is full, closed, or left by its reader."""
    checks, page = [], ["--settings", "samples/muted-bell.hex"]
    every = (["samples/h2.hex"], ["samples/refused-t65.hex"], page, page + ["65537"], ["--settings", "samples/refused-t65.hex"])
    for name, redirection in (("full", ">/dev/full"), ("closed", ">&-")):
        for words in every:
            told = program.run(["sh", "-c", f'exec "$@" {redirection}', "sh", SCRIPT, *words], cwd=repository.ROOT)
            checks.append(same(f"output that is {name}, {words}", told, Told(b"", b"herdspiral: standard output cannot be written\n", UNDONE)))
    for words in every:
        reading, writing = os.pipe()
        os.close(reading)
        checks.append(same(f"output whose reader has left, {words}", run(*words, stdout=writing), Told(b"", b"", UNDONE)))
        os.close(writing)
    told = program.run(["sh", "-c", '{ "$@"; echo "status $?" >&2; } | head -n 1', "sh", SCRIPT, "samples/refused-longest.hex"], cwd=repository.ROOT)
    checks.append(same("output whose reader leaves after the last line", (told.out, told.errors.splitlines()[-1]), (b"refused 10 0\n", b"status 3")))
    with tempfile.TemporaryDirectory() as folder:
        raw = os.path.join(folder, "long")
        stand_in.put(raw, typed_bytes(sample("h2", ".hex"))[:-2] + bytes((event + 1) % 2 for event in range(60_000)))
        told = program.run(["sh", "-c", '{ "$@"; echo "status $?" >&2; } | head -n 1', "sh", SCRIPT, raw])
        checks.append(same("output whose reader leaves before", told, Told(b"0 idle 0 0\n", b"status 4\n", 0)))
    return checks


def settled():
    """With nothing changed the real `rt` is not called: one that only notes it is first on PATH."""
    with tempfile.TemporaryDirectory() as folder:
        stand_in.put(os.path.join(folder, "rt"), f"#!/bin/sh\n: >'{folder}/called'\nexit 1\n", 0o755)
        kit = os.environ.get("RATTLE_HOME") or os.path.dirname(os.path.dirname(os.path.realpath(shutil.which("rt"))))
        own = {**os.environ, "PATH": folder + os.pathsep + os.environ["PATH"], "RATTLE_HOME": kit}
        told = run("samples/h2.hex", env=own)
        return [
            same("a start with nothing changed", told, well(sample("h2", ".lines").encode())),
            ("a start with nothing changed does not call rt", not os.path.exists(os.path.join(folder, "called"))),
        ]


def main():
    """If the program cannot be built that is one failure, and it is not tried again for each sample."""
    told = run("samples/h0.hex", timeout=None)
    if told.status:
        return [(f"the program starts; status {told.status}: {told.errors.decode()[-600:]}", False)]
    return samples() + pages() + list(page_lengths()) + refused_pages() + readme() + long_sessions() + unwritten() + settled()


if __name__ == "__main__":
    sys.exit(repository.report(main()))
