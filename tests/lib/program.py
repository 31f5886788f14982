"""Starting a proved program by its name: `rt ci`, or `rt run` in its folder, builds it as crates/NAME/out/NAME; and
what a run of it comes to. A test holds all of that to what is wanted: the whole output, standard error and the exit
status. Used by the comparisons and the measurements."""
import itertools
import os
import shutil
import subprocess
import typing

import repository

PATIENCE = 120  # seconds that a run may take
HANDED_BITS = 24  # of a number in a case for `run_cases`
LARGEST_HANDED = 2**HANDED_BITS - 1
START_BYTES = 5  # of the start of a board handed in
TEXT_ROOM = 65_400  # a program of typed cases takes texts of fewer than 65,536 bytes
SESSION_END = b".\n"  # of many sessions, the line after those of each


def toolchain():
    """The kit's folder of what programs for this machine need."""
    rt = os.path.realpath(shutil.which("rt"))
    kit = os.environ.get("RATTLE_HOME") or os.path.dirname(os.path.dirname(rt))
    return os.path.join(kit, "toolchain")


def emulator():
    """The kit's emulator where it has one: the program is for x86-64."""
    found = os.path.join(toolchain(), "bin", "qemu-x86_64")
    return found if os.access(found, os.X_OK) else None


def path(name):
    """Where the program is."""
    return repository.path("crates", name, "out", name)


def command(name, stack=None):
    """How the program is started: by the kit's loader, under the emulator where there is one. With a stack of so many
    bytes, if a size is given."""
    tools = toolchain()
    start = [os.path.join(tools, "lib", "ld-linux-x86-64.so.2"), "--library-path", os.path.join(tools, "lib"), path(name)]
    if emulator():
        return [emulator()] + (["-s", str(stack)] if stack else []) + start
    return ["sh", "-c", 'ulimit -s "$0" && exec "$@"', str(stack // 1024)] + start if stack else start


def handed_board(counts, rows, start):
    """The bytes of a board handed in: T R B, C as two bytes and the start as five, lowest first, then kind a b name of each
    part. The start is given as a sum of 2 to each of its relays."""
    return bytes(counts) + len(rows).to_bytes(2, "little") + start.to_bytes(START_BYTES, "little") + bytes(byte for row in rows for byte in row)


def handed_case(numbers, board, ending, sets=""):
    """The text of a case for `run_cases`: three numbers, which are the drawn relays, the pushed buttons and what is asked (a
    relay, the length of a log or a button), then the bytes of a board handed in; before them the text of kept sets, where
    they are not the board's own."""
    return sets + "".join(f"{number:06x}" for number in numbers) + board.hex() + ending + "\n"


class Told(typing.NamedTuple):
    """What a run comes to: standard output, standard error, and the exit status (below 0 a signal ended it, None: no end)."""

    out: bytes
    errors: bytes
    status: typing.Optional[int]


def well(out):
    """A run that prints this, says nothing on standard error, and ends with status 0."""
    return Told(out, b"", 0)


def refused_lines(out):
    """The lines of a session that say `refused`."""
    return b"".join(line for line in out.splitlines(True) if b"refused" in line)


def session_told(out):
    """A run of the program `herdspiral` that prints this, repeats what is refused on standard error, and ends with status 0."""
    return Told(out, refused_lines(out), 0)


def run(start, data=b"", **more):
    """A program, started so, run to its end with this on its standard input, or with other streams."""
    streams = {"stdout": subprocess.PIPE, "stderr": subprocess.PIPE, "timeout": PATIENCE} | ({} if "stdin" in more else {"input": data}) | more
    try:
        told = subprocess.run(start, **streams)
    except subprocess.TimeoutExpired as late:
        return Told(late.stdout or b"", late.stderr or b"", None)
    return Told(told.stdout or b"", told.stderr or b"", told.returncode)


def texts(cases):
    """Texts of these cases, one after the other, that a program of typed cases takes."""
    text = ""
    for case in cases:
        if len(text) + len(case) > TEXT_ROOM:
            yield text
            text = ""
        text += case
    yield text


def lines(told):
    """The lines of a run. Where it does not end well, or inside a line, a last one says so, which is no answer."""
    *found, rest = told.out.decode(errors="replace").split("\n")
    return found if told == well(told.out) and not rest else found + [f"({rest!r}, then {told.errors!r}, status {told.status})"]


def answers(start, cases):
    """The lines that a program of typed cases, started so, prints for these cases."""
    return [line for text in texts(cases) for line in lines(run(start, text.encode()))]


def compared(cases, wanted, told):
    """A check for each case, that its line is the one that is wanted; and one that there are no more lines than cases, and no
    fewer."""
    many = f"{len(cases)} cases have as many answers, not {len(told)}, where {len(wanted)} are wanted; after them {told[len(cases):][:3]}"
    lines = itertools.islice(itertools.zip_longest(cases, wanted, told), len(cases))
    return [(many, len(cases) == len(wanted) == len(told))] + [(f"{case.strip()}: wanted {want}, got {got}", want == got is not None) for case, want, got in lines]


def many(start, sessions):
    """What a program, started so, prints for each of many sessions, given to it one after the other, each after its length in
    four bytes. None for all of them where that is not one answer for each, or it does not end well."""
    told = run(start, b"".join(len(session).to_bytes(4, "little") + session for session in sessions), timeout=10 * PATIENCE)
    found = told.out.split(SESSION_END)
    fine = told == well(told.out) and len(found) == len(sessions) + 1 and not found[-1]
    return found[:-1] if fine else [None] * len(sessions)
