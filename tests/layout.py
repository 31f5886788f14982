"""Every Rattle and antt file is in the formatter's layout, and no line of it has more than 120 characters. `rt fmt` has
no way to ask, so it lays out a copy of each crate in a folder of its own: it says nothing, and changes nothing."""
import os
import shutil
import subprocess
import sys
import tempfile

sys.path.insert(0, os.path.join(os.path.dirname(os.path.abspath(__file__)), "lib"))
import repository

LONGEST = 120
PARTS = ("src", "specs", "proofs")


def laid_out(crate, names):
    """What `rt fmt` says of a copy of the crate, its status, and the files there afterwards that are not as they
    were."""
    with tempfile.TemporaryDirectory() as folder:
        for part in PARTS:
            if os.path.isdir(repository.path("crates", crate, part)):
                shutil.copytree(repository.path("crates", crate, part), os.path.join(folder, part))
        told = subprocess.run(["rt", "fmt"], cwd=folder, capture_output=True, text=True)
        changed = []
        for name in names:
            with open(os.path.join(folder, os.path.relpath(name, os.path.join("crates", crate))), encoding="utf-8") as file:
                if file.read() != repository.text(name):
                    changed.append(name)
        return (told.stdout + told.stderr).strip(), told.returncode, changed


checks = []
for crate in repository.crates():
    names = [name for part in PARTS for name in repository.files(crate, part)]
    words, status, changed = laid_out(crate, names)
    checks.append((f"rt fmt is silent on {crate}: {words}, status {status}", status == 0 and not words))
    for name in names:
        long = [number for number, line in enumerate(repository.text(name).split("\n"), 1) if len(line) > LONGEST]
        checks.append((f"{name}: no line is longer than {LONGEST} characters, but {long} are", not long))
        checks.append((f"{name} is in the layout", name not in changed))
sys.exit(repository.report(checks))
