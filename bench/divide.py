"""Prints how long the judge without chains (`divide::judge`) takes on a ladder of 64 terminals beside the same method
in plain Rust (bench/divide.rs), and on ladders of 16 to 40 beside the chain judge, all in one run, and checks first
that they judge the same. The winding hangs on the ladder at a terminal that divides it, or is live in line with a
second one, where all 64 floods are made. Then how many moves a second the session program makes with 32 relays that
move one after the other.

A time is that of a text of cases less that of a control, the same text with another number at the end of each case.
*Judging* is less the same cases asking for a second winding, which the relay lacks: all refusals are asked for, the
parts scanned, and 11, the last of them, given, so that what is left is the floods. *The call* is less the same cases
with a number too few, of which the board is read and its sets worked out, and no more: so its refusals are counted, and
the sets, which it works out again for 18. The plain program has no refusals; its time is less that of judging once. The
chain judge's control is W 0.

Each time is the least of many, those that are compared taken in turn; in brackets the least and the most ratio of
single rounds. Run from anywhere: python3 bench/divide.py, or with the path of an older
crates/herdspiral/out/herdspiral, which is compared then on the 32 relays as well (bench/before_after.py). Needs the
programs current_cases and herdspiral, which `rt ci` builds, or `rt run` in their folders, and rustc; takes a minute,
and wants the machine to itself. The program is for x86-64: on another machine it runs under the kit's emulator, and
only the judgements are compared."""
import os
import platform
import subprocess
import sys
import tempfile

sys.path.insert(0, os.path.dirname(os.path.abspath(__file__)))
import before_after
import board_model
import judge
import program
import repository
import sessions
from session_files import session

ROUNDS = 5  # of which each gives a ratio
TIMES = 4  # that a round takes the least of `sessions.RUNS` times
PLAIN_TIMES = 1_000  # judgements of the plain program in one run
TERMINALS = 64
SIZES = (16, 24, 32, 40)
CASES = program.command("current_cases")
WIRE, REGULAR = 0, 4
FIRST, SECOND, TOO_FEW = [0, 0, 0, 0], [0, 0, 0, 1], [0, 0, 0]  # none drawn, none pushed, relay 0, which of its windings
ASKED = (FIRST, "!"), (SECOND, "!"), (TOO_FEW, "!")  # what is measured, and the controls of judging and of the call


def hung(terminals, at):
    """A ladder with the winding hung at a terminal: its wires, and its windings, of which the first is asked for."""
    wires, a, b = judge.ladder(terminals)
    return terminals, wires[:-1] + [(at, a)], [(a, b)]


def live(terminals):
    """The same with a second winding from the first to minus, so that both are live."""
    _, wires, ((a, b),) = hung(terminals, terminals - 3)
    return terminals, wires, [(a, b), (b, judge.MINUS)]


def case(board, asked, ending):
    """A case of the proved program."""
    terminals, wires, windings = board
    parts = [[WIRE, *pair] for pair in wires] + [[REGULAR, *pair, relay] for relay, pair in enumerate(windings)]
    numbers = bytes(byte for number in asked for byte in board_model.number_bytes(number))
    return (board_model.file_of([terminals, len(windings), 0], parts) + numbers).hex() + ending + "\n"


def plain_text(board, times):
    """What the plain program reads, to judge so many times and once more."""
    terminals, wires, windings = board
    ends = [end for pair in wires + windings for end in pair]
    return " ".join(map(str, [terminals, times, len(wires)] + ends)).encode()


def texts(board, *asked):
    """For each way to ask a text of so many cases that fit in, and how many those are."""
    cases = [case(board, numbers, ending) for numbers, ending in asked]
    times = program.TEXT_ROOM // max(map(len, cases))
    return [(CASES, (own * times).encode()) for own in cases], times


def least(timed, jobs):
    """The least seconds of each job. They are taken in turn, each twice in a row, of which the second counts: a program that
    starts after another one takes a fifth of a millisecond more."""
    twice = [job for job in jobs for _ in range(2)]
    return [min(own) for own in zip(*(timed.least(*twice)[1::2] for _ in range(TIMES)))]


def same(timed, plain, name, board, wanted):
    """Whether both programs judge so, and the controls are what they must be; says where not."""
    jobs, times = texts(board, *ASKED)
    told = [timed.lines(*job).decode().split("\n")[:-1] for job in jobs + [([plain], plain_text(board, 0))]]
    fine = told == [["told " + wanted] * times, ["told refused 11"] * times, ["bad case"] * times, [wanted]]
    if not fine:
        print(f"{name}: wanted {wanted}, got {[sorted(set(lines)) for lines in told]}")
    return fine


def each(taken, times):
    """Seconds of the plain judge, of judging and of the call, by the times that the jobs took."""
    asked, refused, bad, many, once = taken
    return (many - once) / PLAIN_TIMES, (asked - refused) / times, (asked - bad) / times


def print_ratios(timed, plain, boards):
    """The proved judge and the plain one on the large ladder."""
    print("| winding | judgement | plain Rust | judging | ratio | the call | ratio |")
    print("|---|---|---|---|---|---|---|")
    for name, board, wanted in boards:
        jobs, times = texts(board, *ASKED)
        jobs += [([plain], plain_text(board, many)) for many in (PLAIN_TIMES, 0)]
        rounds = [least(timed, jobs) for _ in range(ROUNDS)]
        rounds.append([min(own) for own in zip(*rounds)])
        plains, *proved = zip(*(each(taken, times) for taken in rounds))
        cells = [name, wanted, f"{plains[-1] * 1e6:.2f} us"]
        for own in proved:
            ratios = [mine / theirs for mine, theirs in zip(own, plains)]
            cells += [f"{own[-1] * 1e6:.2f} us", f"{ratios[-1]:.2f} ({min(ratios):.2f} to {max(ratios):.2f})"]
        print("| " + " | ".join(cells) + " |", flush=True)


def print_growth(timed, boards):
    """The chain judge and the one without chains, by the size of the ladder."""
    print("\n| ladder | verdict and effort | the chain judge | judgement | without chains |")
    print("|---|---|---|---|---|")
    for name, board, wanted in boards:
        chains, chains_idle = (case(board, FIRST + [allowance], "@") for allowance in (judge.ALLOWANCE, 0))
        verdict = timed.lines(CASES, chains.encode()).decode().strip().removeprefix("judged ")
        times = max(1, min(judge.CHAINS // int(verdict.split()[1]), program.TEXT_ROOM // len(chains)))
        jobs, many = texts(board, *ASKED[:2])
        busy, idle, asked, refused = least(timed, [(CASES, (own * times).encode()) for own in (chains, chains_idle)] + jobs)
        cells = [name, verdict, f"{(busy - idle) / times * 1e6:,.1f} us", wanted, f"{(asked - refused) / many * 1e6:.2f} us"]
        print("| " + " | ".join(cells) + " |", flush=True)


def print_moves(timed):
    """Relay moves a second, of a whole session with its start, by the moves that its lines tell of."""
    name, board, events, _ = before_after.sessions_timed()[-1]
    data = session(board, sessions.ALLOWANCE, []) + events
    moves = sum(int(line.split()[2]) for line in timed.lines(sessions.HERDSPIRAL, data).splitlines())
    taken = timed.least((sessions.HERDSPIRAL, data))[0]
    print(f"\n{name}: {moves:,} moves in {taken:.3f} seconds, {moves / taken:,.0f} a second")


def main():
    """Prints all; whether all judgements agree."""
    large = [(f"hung at {at}", hung(TERMINALS, at), f"dead {at}") for at in (0, 2, 31, 61)] + [("in line", live(TERMINALS), "live")]
    small = [(f"{size} terminals", hung(size, size - 3), f"dead {size - 3}") for size in SIZES]
    with tempfile.TemporaryDirectory() as folder:
        timed, plain = sessions.Sessions(folder), os.path.join(folder, "divide")
        subprocess.run(["rustc", "-O", "-o", plain, repository.path("bench", "divide.rs")], check=True)
        agree = all([same(timed, plain, *one) for one in large + small])
        print("the judgements " + ("agree" if agree else "DIFFER"))
        if sessions.NATIVE:
            print(f"load {os.getloadavg()[0]:.2f}, {os.cpu_count()} cores")
            print_ratios(timed, plain, large)
            print_growth(timed, small)
            print_moves(timed)
            print(f"load {os.getloadavg()[0]:.2f}")
        else:
            print(f"Nothing was measured here: this machine is {platform.machine()}, and the program runs under the emulator.")
    if len(sys.argv) > 1:
        agree = before_after.main() == 0 and agree
    return 0 if agree else 1


if __name__ == "__main__":
    sys.exit(main())
