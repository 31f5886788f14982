"""Prints how many chains a second `judge` goes through on ladders of 8 to 64 terminals, beside the same search in plain
Rust (bench/ladder.rs), both in one run, and checks that both count the same effort. Each time is the least of several,
less that of a run with no search: of `judge` the same judgements with W 0, which read the boards and ask for the
refusals as well, and walk no chain. Run from anywhere: python3 bench/judge.py. Needs the program current_cases, which
`rt ci` builds, or `rt run` in its folder, and rustc; takes about a minute. The program is for x86-64: on another
machine it runs under the kit's emulator, and only the efforts are compared."""
import os
import platform
import subprocess
import sys
import tempfile
import time

sys.path.insert(0, os.path.join(os.path.dirname(os.path.abspath(__file__)), "..", "tests", "lib"))
import board_model
import program
import repository

ALLOWANCE = 2_097_151  # what three bytes can say, so that times compare with those from before request A1
CHAINS = 5_000_000  # to go through in one run; fewer where the text has no room for so many cases
RUNS = 7
SIZES = (8, 12, 16, 20, 24, 28, 32, 40, 48, 56, 64)
PLUS, MINUS = 0, 1


def ladder(terminals):
    """Two rails with a rung at each step, from plus to minus. On the last terminal but minus hangs a wire, and at its end
    the winding, which is dead. The pairs that wires join, and the winding's ends."""
    a, b = terminals - 2, terminals - 1
    order = [PLUS] + list(range(2, a)) + [MINUS]
    rails = list(zip(order, order[2:]))
    rungs = list(zip(order[::2], order[1::2]))
    return rails + rungs + [(order[-2], a)], a, b


def rust_text(terminals, times):
    """So many searches, for the plain search."""
    wires, a, b = ladder(terminals)
    return " ".join(map(str, [terminals, a, b, ALLOWANCE, times] + [end for pair in wires + [(a, b)] for end in pair]))


def case(terminals, allowance=ALLOWANCE):
    """One search, as a case for the proved program."""
    wires, a, b = ladder(terminals)
    asked = [0, 0, 0, 0, allowance]  # none drawn, none pushed, relay 0, its first winding
    data = board_model.file_of([terminals, 1, 0], [[0, *pair] for pair in wires] + [[4, a, b, 0]])
    return (data + bytes(byte for number in asked for byte in board_model.number_bytes(number))).hex() + "@\n"


def timed(command, text):
    """The lines that a command prints for a text, and the seconds it takes."""
    began = time.perf_counter()
    told = subprocess.run(command, input=text.encode(), capture_output=True, check=True).stdout.decode()
    return told.split("\n")[:-1], time.perf_counter() - began


def speed(command, text, idle, chains):
    """Chains a second: the least time with the searches, less the least time with none."""
    busy, start = (min(timed(command, each)[1] for _ in range(RUNS)) for each in (text, idle))
    return chains / max(busy - start, 1e-9)


def compare(rust, terminals):
    """The line of one search by the plain search, how many times the proved program did it, and whether all lines are the same."""
    (line,), _ = timed([rust], rust_text(terminals, 1))
    times = max(1, min(CHAINS // int(line.split()[1]), program.TEXT_ROOM // len(case(terminals))))
    told, _ = timed(program.command("current_cases"), case(terminals) * times)
    return line, times, told == ["judged " + line] * times


def speeds(rust, terminals, effort, times):
    """Chains a second of the proved program and of the plain search."""
    rust_times = CHAINS // effort
    return (
        speed(program.command("current_cases"), case(terminals) * times, case(terminals, 0) * times, times * effort),
        speed([rust], rust_text(terminals, rust_times), rust_text(terminals, 0), rust_times * effort),
    )


def main():
    """Prints the table; whether all efforts agree."""
    native, agree = platform.machine() == "x86_64", True
    with tempfile.TemporaryDirectory() as folder:
        rust = os.path.join(folder, "ladder")
        subprocess.run(["rustc", "-O", "-o", rust, repository.path("bench", "ladder.rs")], check=True)
        if not native:
            print(f"The ratio was not measured here: this machine is {platform.machine()}, and the program runs under the emulator.")
        print("| terminals | verdict and effort | times | efforts |" + (" `judge`, chains a second | plain Rust | Rust / `judge` |" if native else ""))
        print("|---|---|---|---|" + ("---|---|---|" if native else ""))
        for terminals in SIZES:
            line, times, same = compare(rust, terminals)
            agree = agree and same
            row = f"| {terminals} | {line} | {times} | {'agree' if same else 'DIFFER'} |"
            if native:
                own, plain = speeds(rust, terminals, int(line.split()[1]), times)
                row += f" {own:,.0f} | {plain:,.0f} | {plain / own:.2f} |"
            print(row, flush=True)
    return agree


if __name__ == "__main__":
    sys.exit(0 if main() else 1)
