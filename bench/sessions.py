"""Prints what the session program `herdspiral` costs to run, the second program in plain Rust (second/) beside it in
the same run: sessions a second, the longest sessions, and the memory and the stack (bench/session_stack.py). Each time
is the least of several, with the input in a file and the lines thrown away; those that are compared are taken in turn.
Every measured session's lines are checked first against the second program's, and those with 2 MiB of stack against
these. No session walks chains: how judging by chains grows is in bench/judge.py, and judging without them in
bench/divide.py. Run from anywhere: python3 bench/sessions.py. Needs cargo, and the programs herdspiral and
session_cases, which `rt ci` builds, or `rt run` in their folders; takes some four minutes, and wants the machine to
itself. The program is for x86-64: on another machine it runs under the kit's emulator, and only the lines are
compared."""
import os
import platform
import random
import subprocess
import sys
import tempfile
import time

for folder in (("tests",), ("tests", "lib")):
    sys.path.insert(0, os.path.join(os.path.dirname(os.path.abspath(__file__)), "..", *folder))
import book_sessions
import program
import running
import second_program
import session_stack
from judge_model import BUTTON, LOWER, MINUS, PLUS, REGULAR, UPPER
from session_files import presses, session

RUNS = 9
STARTS = 200  # sessions one after the other, as one run
MANY = 100_000  # sessions in one stream, for one process
LONGEST = 65_536
ALLOWANCE = 100  # of a session, which is read and ignored
WIRE = 0
HERDSPIRAL, SECOND = program.command("herdspiral"), second_program.command()
MANY_PROVED, MANY_SECOND = program.command("session_cases"), second_program.command("--many")
NATIVE = platform.machine() == "x86_64"
H2 = bytes.fromhex(book_sessions.H2 + "64 01 00")
EMPTY = b""


class Sessions:
    """Sessions in files of a folder, each written once; what the programs print for them, and how long they take."""

    def __init__(self, folder):
        self.folder, self.paths, self.differ = folder, {}, []

    def path(self, data):
        if data not in self.paths:
            self.paths[data] = os.path.join(self.folder, str(len(self.paths)))
            with open(self.paths[data], "wb") as file:
                file.write(data)
        return self.paths[data]

    def lines(self, command, data):
        """What a program prints for a session."""
        with open(self.path(data), "rb") as file:
            return subprocess.run(command, stdin=file, capture_output=True).stdout

    def check(self, name, data):
        """Notes a session for which the program does not print what the second program prints."""
        if self.lines(HERDSPIRAL, data) != self.lines(SECOND, data):
            self.differ.append(name)

    def seconds(self, command, data, times=1):
        """How long a program takes for a session from its start to its end, so many times one after the other."""
        path = self.path(data)
        streams = [(os.POSIX_SPAWN_OPEN, 0, path, os.O_RDONLY, 0)] + [(os.POSIX_SPAWN_OPEN, stream, os.devnull, os.O_WRONLY, 0) for stream in (1, 2)]
        began = time.perf_counter()
        for _ in range(times):
            os.waitpid(os.posix_spawn(command[0], command, os.environ, file_actions=streams), 0)
        return (time.perf_counter() - began) / times

    def least(self, *jobs, times=1):
        """The least seconds of each of some programs on a session, taken in turn."""
        taken = [[self.seconds(command, data, times) for command, data in jobs] for _ in range(RUNS)]
        return [min(own) for own in zip(*taken)]


def filled(board):
    """The longest session on a board: pushes and releases to its end, none refused, each of one byte."""
    begin = session(board, ALLOWANCE, [])
    return begin + bytes(presses(random.Random(1), board[0][2], LONGEST - len(begin)))


def smallest():
    """The smallest board with a button: two terminals, no relay, no part."""
    return [2, 0, 1], []


def one_relay():
    """H1: a button feeds a regular relay, which draws with each push and drops with each release."""
    return [3, 1, 1], [[BUTTON, PLUS, 2, 0], [REGULAR, 2, MINUS, 0]]


def twenty_relays():
    """Ten relays, each drawn by a button and held by its own upper contact until another relay, drawn by a button too, cuts
    it: 20 relays, 20 buttons, 60 parts on 32 terminals."""
    rows = []
    for held in range(0, 20, 2):
        cutting = held + 1
        rows += [(REGULAR, held, [[[BUTTON, held]], [[UPPER, held], [LOWER, cutting]]]), (REGULAR, cutting, [[[BUTTON, cutting]]])]
    return running.wired(random.Random(1), 20, 20, rows, marks=[])


def falling_row():
    """32 relays that move one after the other, on 64 terminals and 256 parts: a button draws the first, and each drawn relay's
    upper contact the next. Beside that each relay's contacts, an upper and a lower one, hang a terminal on plus, and stand
    twice side by side, so that whatever is drawn it hangs there."""
    feeds = [[BUTTON, PLUS, 2, 0]] + [[UPPER, PLUS, 2 + relay, relay - 1] for relay in range(1, 32)]
    windings = [[REGULAR, 2 + relay, MINUS, relay] for relay in range(32)]
    hung = [[kind, PLUS, 34 + relay % 30, relay] for relay in range(32) for kind in (UPPER, LOWER, UPPER, LOWER)]
    return [64, 32, 1], feeds + windings + hung + [[WIRE, PLUS, 34 + n % 30] for n in range(64)]


def print_rate(name, each, start):
    print(f"{name}: {1 / each:,.0f} a second, {each * 1e6:.0f} us each; on empty input {start * 1e6:.0f} us: starting is {start / each:.0%} of it")


def print_rates(sessions):
    """Sessions a second, and what of that is starting the process."""
    jobs = (HERDSPIRAL, H2), (HERDSPIRAL, EMPTY), (SECOND, H2), (SECOND, EMPTY)
    own, own_start, second, second_start = sessions.least(*jobs, times=STARTS)
    print("1. Sessions a second: H2, a process for each, one after the other")
    print_rate("herdspiral", own, own_start)
    print_rate("second program", second, second_start)


def print_many(sessions):
    """Sessions a second of one process that runs many: what a session takes beside its start."""
    stream = (len(H2).to_bytes(4, "little") + H2) * MANY
    same = sessions.lines(MANY_PROVED, stream) == sessions.lines(MANY_SECOND, stream)
    sessions.differ += [] if same else ["many sessions in one process"]
    own, second = (taken / MANY for taken in sessions.least((MANY_PROVED, stream), (MANY_SECOND, stream)))
    print(f"{MANY:,} of them in one process, the proved library (session_cases): {1 / own:,.0f} a second, {own * 1e6:.2f} us each")
    print(f"the same, second program (--many): {1 / second:,.0f} a second, {second * 1e6:.2f} us each; proved / second {own / second:.2f}")


def print_longest(sessions, boards):
    """The time of the longest sessions in both programs."""
    print(f"\n2. The longest sessions: {LONGEST:,} bytes, starting included")
    print("| board | lines | herdspiral | lines a second | second program | herdspiral / second |")
    print("|---|---|---|---|---|---|")
    data = [filled(board) for _, board in boards]
    taken = iter(sessions.least(*((command, own) for own in data for command in (HERDSPIRAL, SECOND))))
    for (name, _), own in zip(boards, data):
        count, proved, second = sessions.lines(HERDSPIRAL, own).count(b"\n"), next(taken), next(taken)
        row = [name, f"{count:,}", f"{proved * 1e3:,.1f} ms", f"{count / proved:,.0f}", f"{second * 1e3:,.1f} ms", f"{proved / second:.2f}"]
        print("| " + " | ".join(row) + " |", flush=True)


def print_memory(sessions, named):
    """The most memory and stack of some sessions, and notes one that 2 MiB of stack do not do for."""
    print("\n3. The most memory and stack")
    print("| session | memory | stack | least `ulimit -s` |")
    print("|---|---|---|---|")
    for name, data in named:
        path = sessions.path(data)
        if session_stack.lines(path, session_stack.MOST_STACK) != sessions.lines(HERDSPIRAL, data):
            sessions.differ.append(f"{name}, with 2 MiB of stack")
        stack, limit = session_stack.peak_stack(path)
        print(f"| {name} | {session_stack.memory(path):,} KiB | {stack:,} bytes | {limit // 1024} KiB |", flush=True)


def measure(sessions, boards, named):
    """Prints all."""
    print(f"load {os.getloadavg()[0]:.2f}, {os.cpu_count()} cores; each time the least of {RUNS}")
    print_rates(sessions)
    print_many(sessions)
    print_longest(sessions, boards)
    print_memory(sessions, named)
    print(f"load {os.getloadavg()[0]:.2f}")


def main():
    built = second_program.cargo("build")
    if built.returncode:
        sys.exit(built.stderr)
    boards = [("the smallest with a button", smallest()), ("H1", one_relay()), ("20 relays, 60 parts", twenty_relays())]
    named = [("empty input", EMPTY), ("H2", H2)] + [(f"the longest, {name}", filled(board)) for name, board in boards]
    with tempfile.TemporaryDirectory() as folder:
        sessions = Sessions(folder)
        for name, data in named:
            sessions.check(name, data)
        if not NATIVE:
            print(f"Nothing was measured here: this machine is {platform.machine()}, and the program runs under the emulator.")
        else:
            measure(sessions, boards, named)
        print("lines that are not as they must be: " + ("; ".join(sessions.differ) or "none"))
    return 1 if sessions.differ else 0


if __name__ == "__main__":
    sys.exit(main())
