"""Prints the table of docs/COST.md: for each crate its lines of code, definitions and proof, and the time and memory
that its check takes alone. Run from anywhere: python3 bench/cost.py. Proves what is not proved yet, then each crate
once more, over libraries that are built; takes as long. `rt check` begins with what checks of the same crate kept in
other checkouts on this machine, if there are any: such a row says so, and is no time of a first check."""
import os
import re
import resource
import shutil
import subprocess
import sys
import time

sys.path.insert(0, os.path.join(os.path.dirname(os.path.abspath(__file__)), "..", "tests", "lib"))
import repository


def check(crate):
    """Proves one crate anew, its dependencies proved already: how that ended, seconds and the largest process in MB."""
    shutil.rmtree(repository.path("crates", crate, "out", "incremental"), ignore_errors=True)
    began = time.time()
    process = subprocess.Popen(["rt", "check"], cwd=repository.path("crates", crate), stdout=subprocess.PIPE, stderr=subprocess.STDOUT, text=True)
    told = process.stdout.read()
    ended = " (not proved)" if process.wait() else " (over kept work)" if re.search(r"^rt: \w+: begins with what a check kept", told, re.M) else ""
    return ended, time.time() - began, resource.getrusage(resource.RUSAGE_CHILDREN).ru_maxrss / 1024


subprocess.run(["rt", "all", "check"], cwd=repository.ROOT, check=True, stdout=subprocess.DEVNULL)
print("| crate | code | definitions | proof | must-fail edits | check | memory |")
print("|---|---|---|---|---|---|---|")
for crate in repository.crates():
    code, definitions, proof = (repository.lines(crate, part) for part in ("src", "specs", "proofs"))
    pid = os.fork()
    if pid == 0:
        ended, seconds, memory = check(crate)
        print(f"| `{crate}` | {code} | {definitions} | {proof} | {len(repository.edits(crate))} | {seconds:.0f} s{ended} | {memory:.0f} MB |", flush=True)
        os._exit(0)
    os.waitpid(pid, 0)
