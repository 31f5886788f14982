"""Prints what two sessions cost in two builds of the session program, taken in turn in one run: an older one, kept from
another checkout, and that of this checkout. The sessions are the longest one on the board of 20 relays, and one on a
board of 32 relays that move one after the other, of which it tells the moves a second. First their lines are compared.
Run from anywhere: python3 bench/before_after.py PATH, where PATH is the older crates/herdspiral/out/herdspiral. On
x86-64 it prints the least of several times for the whole session. Elsewhere the programs run under the kit's emulator,
where a time says nothing: there it counts the x86-64 instructions that a session's first events take, which is no time,
but does not change from run to run."""
import os
import random
import subprocess
import sys
import tempfile

for folder in (("..", "tests", "lib"), ("..", "tests"), ()):
    sys.path.insert(0, os.path.join(os.path.dirname(os.path.abspath(__file__)), *folder))
import program
import sessions
import session_files
from session_files import session

EVENTS = 40  # of which the instructions are counted
PRESSES = 1000  # of the button that draws and drops 32 relays, one after the other


def commands(before):
    """How the two programs are started, the older one first."""
    own = program.command("herdspiral")
    return [own[:-1] + [os.path.abspath(before)], own]


def instructions(command, data):
    """How many instructions a program takes for a session: the emulator tells of each, one a line."""
    emulator, *start = command
    with tempfile.TemporaryDirectory() as folder:
        told = os.path.join(folder, "told")
        os.mkfifo(told)
        run = subprocess.Popen([emulator, "-one-insn-per-tb", "-d", "exec,nochain", "-D", told, *start], stdin=subprocess.PIPE, stdout=subprocess.DEVNULL)
        run.stdin.write(data)
        run.stdin.close()
        with open(told, "rb") as lines:
            count = sum(part.count(b"\n") for part in iter(lambda: lines.read(1 << 20), b""))
        run.wait()
    return count


def sessions_timed():
    """What is measured: a name, a board, its events as one byte each, and how many relay moves they make, or None."""
    twenty, row = sessions.twenty_relays(), sessions.falling_row()
    begin = len(session(twenty, sessions.ALLOWANCE, []))
    presses = session_files.presses(random.Random(1), 1, PRESSES)
    return [
        ("the board of 20 relays", twenty, sessions.filled(twenty)[begin:], None),
        ("32 relays that move one after the other", row, bytes(presses), 32 * PRESSES),
    ]


def compare(timed, before, after, name, board, events, moves):
    """Prints what a session costs in both programs, and answers whether they print the same."""
    begun = session(board, sessions.ALLOWANCE, [])
    lines = [timed.lines(command, begun + events) for command in (before, after)]
    print(f"{name}: {lines[0].count(b'%c' % 10):,} lines; the two programs print the same: {lines[0] == lines[1]}")
    if sessions.NATIVE:
        taken = timed.least((before, begun + events), (after, begun + events))
        print(f"seconds: before {taken[0]:.3f}, after {taken[1]:.3f}, after / before {taken[1] / taken[0]:.2f}")
        if moves:
            print(f"moves a second: before {moves / taken[0]:,.0f}, after {moves / taken[1]:,.0f}")
    else:
        some = begun + events[:EVENTS]
        each = [(instructions(command, some) - instructions(command, begun)) / EVENTS for command in (before, after)]
        print(f"instructions for an event: before {each[0]:,.0f}, after {each[1]:,.0f}, after / before {each[1] / each[0]:.2f}")
    return lines[0] == lines[1]


def main():
    before, after = commands(sys.argv[1])
    with tempfile.TemporaryDirectory() as folder:
        timed = sessions.Sessions(folder)
        same = [compare(timed, before, after, *one) for one in sessions_timed()]
    return 0 if all(same) else 1


if __name__ == "__main__":
    sys.exit(main())
