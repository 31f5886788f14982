"""The memory and the stack of the session program, started with some words, x86-64 only; bench/sessions.py and bench/settings.py
import this, and are what to run. The memory is what the kernel says of the process (`/proc/PID/status`) where it is about to end,
at which `ptrace` stops it. The stack is the least that `ulimit -s` may give with all lines still right: by halving, in pages, and
then to 16 bytes by an environment string that takes up the rest of the last page. The environment is empty else, and the start of
the stack is not random; both would add to it, the latter up to 8 KiB. Arguments and what the kernel puts above the program's own
stack (some 700 bytes) are counted."""
import ctypes
import os
import resource
import signal
import subprocess

import program

PAGE, GRAIN = 4096, 16
MOST_STACK = 2 * 1024 * 1024
TRACE_ME, GO_ON, SET_OPTIONS, STOP_AT_EXIT = 0, 7, 0x4200, 0x40  # <sys/ptrace.h>
STOPPED_AT_EXIT = signal.SIGTRAP | 6 << 8
NOT_RANDOM = 0x0040000  # <sys/personality.h>
LIBC = ctypes.CDLL(None, use_errno=True)
LIBC.ptrace.argtypes = [ctypes.c_long, ctypes.c_long, ctypes.c_void_p, ctypes.c_void_p]


def ptrace(request, pid=0, data=0):
    if LIBC.ptrace(request, pid, None, data) < 0:
        raise OSError(ctypes.get_errno(), "ptrace")


def stopped(pid):
    """Waits until a traced process stops, and says at what."""
    _, status = os.waitpid(pid, 0)
    if not os.WIFSTOPPED(status):
        raise OSError(f"the program ended instead of stopping: {status}")
    return status >> 8


def memory(session, words=()):
    """The most memory that the program has had, in KiB, where it is about to end."""
    with open(session, "rb") as file:
        process = subprocess.Popen([*program.command("herdspiral"), *words], stdin=file, stdout=subprocess.DEVNULL, stderr=subprocess.DEVNULL, env={}, preexec_fn=lambda: ptrace(TRACE_ME))
    stopped(process.pid)
    ptrace(SET_OPTIONS, process.pid, STOP_AT_EXIT)
    ptrace(GO_ON, process.pid)
    if stopped(process.pid) != STOPPED_AT_EXIT:
        raise OSError("the program stopped before its end")
    with open(f"/proc/{process.pid}/status") as file:
        told = dict(line.split(":", 1) for line in file)
    ptrace(GO_ON, process.pid)
    process.wait()
    return int(told["VmHWM"].split()[0])


def lines(session, stack, filler=0, words=()):
    """What the program prints with so many bytes of stack, some of them taken up by an environment string."""

    def limit():
        LIBC.personality(NOT_RANDOM)
        resource.setrlimit(resource.RLIMIT_STACK, (stack, resource.getrlimit(resource.RLIMIT_STACK)[1]))

    environment = {"F": "-" * (filler - len("F=") - 1)} if filler else {}
    with open(session, "rb") as file:
        return subprocess.run([*program.command("herdspiral"), *words], stdin=file, capture_output=True, env=environment, preexec_fn=limit).stdout


def last(fits, count):
    """The last of the numbers from 0 up, below a count, that fits; 0 does, and so does each below one that does."""
    least, most = 0, count
    while most - least > 1:
        middle = (least + most) // 2
        least, most = (middle, most) if fits(middle) else (least, middle)
    return least


def peak_stack(session, words=()):
    """The least stack in bytes, and in whole pages as `ulimit -s` gives it, with which the program prints what it prints
    with 2 MiB."""
    wanted, pages = lines(session, MOST_STACK, words=words), MOST_STACK // PAGE
    spare = last(lambda less: lines(session, (pages - less) * PAGE, words=words) == wanted, pages)
    stack = (pages - spare) * PAGE
    filler = GRAIN * last(lambda grains: lines(session, stack, grains * GRAIN, words) == wanted, PAGE // GRAIN + 1)
    return stack - filler, stack
