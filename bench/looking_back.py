"""Prints what looking back costs a run that is long and meets no state again (request A8): the counter of 14 stages in
tests/lib/counter_boards.py (T 59, R 29, C 114) fills a session's log and the longest one, and after each of its moves
the run looks back over those before. Beside it stands what its looks at the relays take alone, by an older build that
makes the same moves and does not look back. Both by `run_cases`, taken in turn, each time the least of several, less
that of the same case with a log of 0. First their lines are compared, but for the two numbers of a buzz, which the
older build does not print. Run from anywhere: python3 bench/looking_back.py PATH, where PATH is the older program
run_cases, of the commit before A8. The programs are for x86-64: on another machine they run under the kit's emulator,
and only the lines are compared."""
import os
import re
import sys
import tempfile

for folder in (("..", "tests", "lib"), ("..", "tests"), ()):
    sys.path.insert(0, os.path.join(os.path.dirname(os.path.abspath(__file__)), *folder))
import counter_boards
import program
import running
import sessions

STAGES = 14
ROOMS = (4_096, 65_536)
NO_MEETING = re.compile(rb"^(ran spent \d+ \d+ \d+ \d+) 0 0:")


def case(room):
    """The text of the counter's run with so much room in its log, as `run_cases` takes it."""
    return program.handed_case([0, 0, room], running.handed(*counter_boards.counter(STAGES)), "=").encode()


def commands(before):
    """How the two programs are started, the older one first."""
    own = program.command("run_cases")
    return [own[:-1] + [os.path.abspath(before)], own]


def compared(timed, before, after, moves):
    """Whether both make as many moves as there is room for, and print the same."""
    lines = timed.lines(before, case(moves)), NO_MEETING.sub(rb"\1:", timed.lines(after, case(moves)))
    same = lines[0] == lines[1] and lines[0].startswith(b"ran spent %d " % moves)
    print(f"both make {moves:,} moves and print the same: {same}")
    return same


def times(timed, before, after, moves):
    """The columns of the table."""
    if not sessions.NATIVE:
        return ["not measured"] * 4
    jobs = [(command, case(room)) for command in (before, after) for room in (moves, 0)]
    older, older_start, own, own_start = timed.least(*jobs)
    looks, whole = older - older_start, own - own_start
    back = whole - looks
    return [f"{whole * 1e3:,.1f} ms", f"{looks * 1e3:,.1f} ms", f"{back * 1e3:,.1f} ms", f"{back / looks:.2f}"]


def main():
    if len(sys.argv) != 2:
        print("usage: python3 bench/looking_back.py PATH, the older program run_cases")
        return 2
    with tempfile.TemporaryDirectory() as folder:
        timed = sessions.Sessions(folder)
        before, after = commands(sys.argv[1])
        same = all([compared(timed, before, after, moves) for moves in ROOMS])
        print("| moves without a meeting | the run | its looks alone | looking back | looking back / looks |")
        print("|---|---|---|---|---|")
        for moves in ROOMS:
            print("| " + " | ".join([f"{moves:,}", *times(timed, before, after, moves)]) + " |")
    return 0 if same else 1


if __name__ == "__main__":
    sys.exit(main())
