"""The second program, in plain Rust under second/: building it, its unit tests, and what it prints. What cargo makes goes to
target/second."""
import os
import shutil
import subprocess

import program
import repository

BUILT = repository.path("target", "second")


def cargo(task):
    """How cargo comes through a task on the second program."""
    options = ["--release", "--offline", "--quiet", "--manifest-path", repository.path("second", "Cargo.toml")]
    return subprocess.run(["cargo", task] + options, env=dict(os.environ, CARGO_TARGET_DIR=BUILT), capture_output=True, text=True)


def unbuilt():
    """Builds it; a check that fails where it cannot be built, and none where it is."""
    if not shutil.which("cargo"):
        return [("cargo is there, to build the second program", False)]
    built = cargo("build")
    return [(f"the second program builds: {built.stderr}", False)] if built.returncode else []


def command(*options):
    """How the second program is started."""
    return [os.path.join(BUILT, "release", "second")] + list(options)


def answers(sessions):
    """What it prints for each of many sessions."""
    return program.many(command("--many"), sessions)


def answer(session):
    """What it comes to on one session."""
    return program.run(command(), session)
