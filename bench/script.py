"""Prints what the script `herdspiral` costs beside the program that it runs: the start, on H2 and where a session is refused, and
the longest session on the board of 20 relays; as a file of bytes, on standard input, and typed. The ways are taken in turn, round
by round, the program itself twice: the second time is a control, which shows how far times differ by themselves. Of the long
session each way is divided by the program in the same round, and the median of these is printed, for time and for processor time,
with how many rounds were above the limit. The limits are a start of 50 ms over the program's own, and for the longest session as
bytes a tenth more than the program takes. Run from anywhere: python3 bench/script.py. Needs a built program (./herdspiral
samples/h2.hex builds it); wants the machine to itself, for some six minutes. The program is for x86-64: on another machine it
runs under the kit's emulator, and nothing is timed."""
import os
import platform
import shutil
import statistics
import sys
import tempfile
import time

for folder in (os.path.join("..", "tests", "lib"), os.path.join("..", "tests"), "."):
    sys.path.insert(0, os.path.join(os.path.dirname(os.path.abspath(__file__)), folder))
import program
import repository
import sessions
import stand_in

SHELLS = ("dash", "bash", "busybox sh")
REFUSED = b"\x03\x01\x01\x02\x03\x00\x02\x00\x04\x02\x09\x00"  # no such terminal
STARTS, LONG = 60, 15  # rounds of starts and of long sessions
MOST_START = 0.050  # seconds over the program's own start
MOST_LONGER = 1.10  # times the program's own


def ways(folder, data, shell):
    """How a session is run: by the program itself, twice, and by the script, started by a shell: on a file of bytes, on standard
    input, and on a typed file."""
    names = [os.path.join(folder, name) for name in ("session", "session.hex")]
    for name, own in zip(names, (data, data.hex(" ").encode())):
        stand_in.put(name, own)
    first, *more = shell.split()
    script = [shutil.which(first), *more, repository.path("herdspiral")]
    return [program.command("herdspiral")] * 2 + [script + names[:1], script, script + names[1:]], names[0]


def seconds(command, path):
    """The time and the processor time of a run with this file on its standard input."""
    streams = [(os.POSIX_SPAWN_OPEN, 0, path, os.O_RDONLY, 0)] + [(os.POSIX_SPAWN_OPEN, stream, os.devnull, os.O_WRONLY, 0) for stream in (1, 2)]
    began = time.perf_counter()
    _, _, used = os.wait4(os.posix_spawn(command[0], command, os.environ, file_actions=streams), 0)
    return time.perf_counter() - began, used.ru_utime + used.ru_stime


def rounds(shell, data, times):
    """The times of each way, round by round."""
    with tempfile.TemporaryDirectory() as folder:
        commands, path = ways(folder, data, shell)
        return [[seconds(command, path) for command in commands] for _ in range(times)]


def start(shell, name, data):
    """Prints the median of starts, and how much it is over the program's own; whether they are within the limit."""
    own, *others = [statistics.median(taken for taken, _ in way) for way in zip(*rounds(shell, data, STARTS))]
    print(f"| {shell} | {name} | {own * 1e3:.1f} ms | " + " | ".join(f"{(other - own) * 1e3:+.1f} ms" for other in others) + " |", flush=True)
    return all(other - own < MOST_START for other in others)


def long(shell, data):
    """Prints for each way the median of its shares of the program's time and processor time, and in how many rounds the first
    was above the limit; whether as bytes the median is within it."""
    taken = rounds(shell, data, LONG)
    own = sorted(round[0][0] for round in taken)
    shares = [[(round[way][0] / round[0][0], round[way][1] / round[0][1]) for round in taken] for way in range(1, 5)]
    medians = [[statistics.median(each) for each in zip(*way)] for way in shares]
    above = [sum(share > MOST_LONGER for share, _ in way) for way in shares]
    cells = [f"{share:.2f}, processor {used:.2f}, above in {many}" for (share, used), many in zip(medians, above)]
    print(f"| {shell} | 65,292 lines | {own[0] * 1e3:.0f} to {own[-1] * 1e3:.0f} ms | " + " | ".join(cells) + " |", flush=True)
    return all(share < MOST_LONGER for share, _ in medians[1:3])


def main():
    if platform.machine() != "x86_64":
        print(f"Nothing was measured here: this machine is {platform.machine()}, and the program runs under the emulator.")
        return 0
    longest, within = sessions.filled(sessions.twenty_relays()), []
    print(f"load {os.getloadavg()[0]:.2f}, {os.cpu_count()} cores; {STARTS} rounds of starts, {LONG} of long sessions")
    print("| shell | session | the program | the program again | a file of bytes | standard input | typed |")
    print("|---|---|---|---|---|---|---|")
    for shell in stand_in.found(SHELLS):
        within += [start(shell, "H2", sessions.H2), start(shell, "one that is refused", REFUSED), long(shell, longest)]
    print(f"within the limits: {all(within)}; load {os.getloadavg()[0]:.2f}")
    return 0 if all(within) else 1


if __name__ == "__main__":
    sys.exit(main())
