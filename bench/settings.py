"""Prints what a report on all button settings costs, the second program in plain Rust (second/) beside it in the same
run, and the stack of the page (bench/session_stack.py). Each time is the least of several, from the start of a process
to its end, and both programs are taken in turn; each report is checked first against the second program's. Run from
anywhere: python3 bench/settings.py. Needs cargo, and the programs herdspiral and run_cases, which `rt ci` builds, or
`rt run` in their folders; takes some two minutes, and wants the machine to itself. The program is for x86-64: on
another machine it runs under the kit's emulator, and only the reports are compared."""
import os
import platform
import sys
import tempfile
import time

for folder in (("tests",), ("tests", "lib")):
    sys.path.insert(0, os.path.join(os.path.dirname(os.path.abspath(__file__)), "..", *folder))
import counter_boards
import program
import second_program
import session_stack
from judge_model import BUTTON, LOWER, MINUS, PLUS, REGULAR, UPPER
from session_files import session

RUNS = 5
WIRE = 0
MOST_BUTTONS, RELAYS, TERMINALS, PARTS = 12, 32, 64, 256
SHORT, LONGEST = 4_096, 65_536  # lengths of logs
PROVED, SECOND = program.command("run_cases"), second_program.command("--cases")
NATIVE = platform.machine() == "x86_64"


def filled(buttons, rows):
    """A board of these parts, and of others that feed no winding, up to all that a board can have: each relay's contacts, an upper
    and a lower one, hang a terminal on plus, twice, and wires hang them there too."""
    hung = [[kind, PLUS, 34 + relay % 30, relay] for relay in range(RELAYS) for kind in (UPPER, LOWER, UPPER, LOWER)]
    rest = PARTS - len(rows) - len(hung)
    return [TERMINALS, RELAYS, buttons], rows + hung + [[WIRE, PLUS, 34 + n % 30] for n in range(rest)]


def windings():
    """A winding of each relay, from a terminal of its own."""
    return [[REGULAR, 2 + relay, MINUS, relay] for relay in range(RELAYS)]


def still(buttons):
    """No button feeds a winding, so nothing moves."""
    return filled(buttons, [[BUTTON, PLUS, 34 + button, button] for button in range(buttons)] + windings())


def side_by_side(buttons):
    """Each button draws a relay, whose upper contact draws another, and so on: 16 moves a setting on average."""
    feeds = [[BUTTON, PLUS, 2 + relay, relay] if relay < buttons else [UPPER, PLUS, 2 + relay, relay - buttons] for relay in range(RELAYS)]
    return filled(buttons, feeds + windings())


def falling_row(buttons):
    """The first button draws relay 0, and each drawn relay's upper contact the next: 32 moves at every second setting."""
    feeds = [[BUTTON, PLUS, 2, 0]] + [[UPPER, PLUS, 2 + relay, relay - 1] for relay in range(1, RELAYS)]
    return filled(buttons, feeds + windings())


def case(board, log):
    """The typed case of a report."""
    counts, rows = board
    return program.handed_case((0, 0, log), program.handed_board(counts, [row + [0] * (4 - len(row)) for row in rows], 0), "%")


def seconds(command, text):
    """How long a program takes for a case, from its start to its end."""
    began = time.perf_counter()
    program.run(command, text.encode())
    return time.perf_counter() - began


def agree(text):
    """What both programs answer to a case, if it is the same."""
    proved, second = (program.answers(command, [text]) for command in (PROVED, SECOND))
    return proved[0] if proved == second else None


def print_row(name, board, log):
    """Prints the figures and the times of a report; says whether both programs answer alike."""
    text = case(board, log)
    told = agree(text)
    if NATIVE and told:
        proved, second = (min(own) for own in zip(*((seconds(PROVED, text), seconds(SECOND, text)) for _ in range(RUNS))))
        settings, moves = (int(told.split()[place]) for place in (1, 6))
        times = f"{proved * 1e3:,.0f} ms | {proved / settings * 1e6:,.0f} us | {second * 1e3:,.0f} ms | {proved / second:.2f}"
        print(f"| {name} | {board[0][2]} | {log:,} | {settings:,} | {moves:,} | {times} |", flush=True)
    return told is not None


def print_times():
    """Prints the table of reports; says whether all are the second program's."""
    print("| board | buttons | log | settings | moves | proved | a setting | second program | proved / second |")
    print("|---|---|---|---|---|---|---|---|---|")
    asked = [(name, make(buttons), log) for name, make in BOARDS for buttons, log in ((4, SHORT), (8, SHORT), (MOST_BUTTONS, SHORT), (MOST_BUTTONS, LONGEST))]
    asked.append(("a counter of 29 relays, 60 terminals, 115 parts", counter_boards.counter(14, True), LONGEST))
    return all([print_row(*row) for row in asked])


def print_stack():
    """Prints the stack of the page, and says whether 2 MiB do for it."""
    print("\n| page | memory | stack | least `ulimit -s` |")
    print("|---|---|---|---|")
    fits = True
    with tempfile.TemporaryDirectory() as folder:
        path = os.path.join(folder, "board")
        for name, board, log in (("the falling row", falling_row(MOST_BUTTONS), LONGEST), ("the same", falling_row(MOST_BUTTONS), SHORT), ("13 buttons, refused", still(13), SHORT)):
            with open(path, "wb") as file:
                file.write(session(board, 100, []))
            words = [str(log)]
            page = program.run(program.command("herdspiral") + words, stdin=open(path, "rb"))
            fits &= session_stack.lines(path, session_stack.MOST_STACK, words=words) == page.out
            stack, limit = session_stack.peak_stack(path, words)
            print(f"| {name}, log of {log:,} | {session_stack.memory(path, words):,} KiB | {stack:,} bytes | {limit // 1024} KiB |", flush=True)
    return fits


BOARDS = [("nothing moves", still), ("rows side by side", side_by_side), ("a falling row", falling_row)]


def main():
    built = second_program.cargo("build")
    if built.returncode:
        sys.exit(built.stderr)
    print(f"{TERMINALS} terminals, {RELAYS} relays, {PARTS} parts; load {os.getloadavg()[0]:.2f}, {os.cpu_count()} cores; each time the least of {RUNS}")
    same = print_times()
    fits = print_stack() if NATIVE else True
    if not NATIVE:
        print(f"Nothing was measured here: this machine is {platform.machine()}, and the program runs under the emulator.")
    print(f"reports as the second program's: {'all' if same else 'NOT all'}; pages with 2 MiB of stack: {'right' if fits else 'NOT right'}")
    return 0 if same and fits else 1


if __name__ == "__main__":
    sys.exit(main())
