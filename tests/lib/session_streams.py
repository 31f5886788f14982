"""How the proved program `herdspiral` reads and writes: input that cannot be read, output that cannot be written, input around
the longest and endless, input in pieces, output around what the program keeps before it writes, the lines that it repeats on
standard error, how many writes a long session makes, how much stack it needs. A run is held to all that it comes to: its whole output, against the second program's, the exact
words on standard error, the exit status. Each check is a name and whether it holds."""
import os
import random
import socket
import subprocess
import tempfile
import time

import book_sessions
import judging
import long_sessions
import program
import second_program
import session_boards
import session_files
from board_model import LARGEST
from program import Told, session_told, well
from repository import same

COMMAND = program.command("herdspiral")
FAILED = 0  # the exit status after one of the two messages
UNREADABLE = Told(b"", b"herdspiral: standard input cannot be read\n", FAILED)
UNWRITABLE = Told(b"", b"herdspiral: standard output cannot be written\n", FAILED)
TOO_LONG = session_told(b"refused 10 0\n")
LONGEST = long_sessions.LONGEST
LINES_ROOM = 16_384  # bytes of lines that the program keeps before it writes them
MOST_WRITES = 100
PAUSE = 0.01  # seconds between pieces of input
H2 = next(data for name, data, _ in book_sessions.sessions() if name == "H2")


def holding(length):
    """A session of so many bytes, nearly all of them events that are not refused."""
    return long_sessions.filled(random.Random(length), session_boards.holding, length)


def redirected(words, data=H2):
    """The program started by a shell with these redirections."""
    return program.run(["sh", "-c", f'exec "$@" {words}', "sh"] + COMMAND, data)


def from_file(data):
    """What the program comes to on a file with these bytes, and how many of them it takes."""
    with tempfile.TemporaryFile() as file:
        file.write(data)
        file.seek(0)
        told = program.run(COMMAND, stdin=file)
        return told, os.lseek(file.fileno(), 0, os.SEEK_CUR)


def failing_reads():
    """Standard input that is a directory, open for writing only, or closed."""
    for name, path, mode in (("a directory", "/", os.O_RDONLY), ("a file open for writing only", os.devnull, os.O_WRONLY)):
        opened = os.open(path, mode)
        yield same(f"{name} as input", program.run(COMMAND, stdin=opened), UNREADABLE)
        os.close(opened)
    yield same("input that is closed", redirected("0<&-"), UNREADABLE)
    yield same("input and output that are closed", redirected("0<&- 1>&-"), UNREADABLE)


def broken_off():
    """A read that fails after some of the session was read: of a pair of sockets the one is closed before it has read what was
    sent to it, so that the other, once it has read what it was sent, is told so."""
    for name, data in (("H2", H2), ("a long session", holding(LONGEST))):
        sending, reading = socket.socketpair()
        with sending, reading, subprocess.Popen(COMMAND, stdin=reading, stdout=subprocess.PIPE, stderr=subprocess.PIPE) as running:
            reading.sendall(b"never read")
            sending.sendall(data)
            sending.close()
            yield same(f"a connection that breaks off after {name}", Told(*running.communicate(timeout=program.PATIENCE), running.returncode), UNREADABLE)


def failing_writes():
    """Standard output that is full, open for reading only, or closed; and standard error that is closed."""
    for name, words in (("full", ">/dev/full"), ("open for reading only", "1</dev/null"), ("closed", "1>&-")):
        for session, data in (("H2", H2), ("the longest session", holding(LONGEST)), ("bytes that are refused", b"\x80\x80")):
            yield same(f"{session}, output that is {name}", redirected(words, data), UNWRITABLE)
    yield same("a message that cannot be written either", redirected("1>/dev/full 2>/dev/full"), Told(b"", b"", FAILED))
    yield same("standard error that is closed", redirected("2>&-"), second_program.answer(H2))
    yield same("the same where something is refused", redirected("2>&-", b"\x80\x80"), well(b"refused 1 2\n"))


def left_by_its_reader():
    """Output that takes some lines and then no more: the reader of a pipe ends. What it was given are the first lines;
    the program ignores the signal for it, however it was started, and says that it cannot write."""
    data = holding(LONGEST)
    lines = second_program.answer(data).out
    for name, ignoring in (("ignored", "trap '' PIPE; "), ("not ignored", "")):
        start = ["sh", "-c", f'{ignoring}exec "$@"', "sh"] + COMMAND
        with tempfile.TemporaryFile() as file, subprocess.Popen(start, stdin=subprocess.PIPE, stdout=subprocess.PIPE, stderr=file) as running:
            running.stdin.write(data)
            running.stdin.close()
            found = running.stdout.read(LINES_ROOM // 2)
            running.stdout.close()
            ended = running.wait(timeout=program.PATIENCE)
            file.seek(0)
            yield same(f"a reader that ends, its signal {name}", Told(found, file.read(), ended), Told(lines[: LINES_ROOM // 2], UNWRITABLE.errors, FAILED))


def takings():
    """It reads one byte past the longest session and no more."""
    for size in (LONGEST - 1, LONGEST, LONGEST + 1, LONGEST + 2, 200_000):
        data = holding(size)
        told, place = from_file(data)
        yield f"of {size} bytes {min(size, LONGEST + 1)} are taken, not {place}", place == min(size, LONGEST + 1)
        yield same(f"{size} bytes from a file", told, TOO_LONG if size > LONGEST else second_program.answer(data))
        yield same(f"{size} bytes from a pipe", program.run(COMMAND, data), told)
    for size in (LONGEST, LONGEST + 1):
        data = bytes([2, 0, 0, 0, 0]).ljust(size, b"\x80")
        yield same(f"H0 and top bits, {size} bytes", program.run(COMMAND, data), TOO_LONG if size > LONGEST else session_told(b"0 idle 0 0\nrefused 2 5\n"))
    with open("/dev/zero", "rb") as endless:
        yield same("endless input", program.run(COMMAND, stdin=endless), TOO_LONG)
    yield same("no input", program.run(COMMAND, stdin=subprocess.DEVNULL), session_told(b"refused 1 0\n"))


def in_pieces(data, size):
    """What the program comes to on input in pieces of so many bytes."""
    with subprocess.Popen(COMMAND, stdin=subprocess.PIPE, stdout=subprocess.PIPE, stderr=subprocess.PIPE) as running:
        try:
            for at in range(0, len(data), size):
                running.stdin.write(data[at : at + size])
                running.stdin.flush()
                time.sleep(PAUSE)
        except BrokenPipeError:
            pass  # the program ended before its input did, and its answer shows it
        return Told(*running.communicate(timeout=program.PATIENCE), running.returncode)


def pieces():
    """Input in pieces is read to its end, and no further than it must be."""
    for name, data, wanted in book_sessions.sessions():
        if name in ("H2", "H5", "80 80"):
            yield same(f"{name} byte by byte", in_pieces(data, 1), session_told(wanted))
    for size in (LONGEST, LONGEST + 1):
        data = holding(size)
        yield same(f"{size} bytes in pieces", in_pieces(data, 5_000), TOO_LONG if size > LONGEST else second_program.answer(data))


def around_the_room():
    """Sessions whose lines come to about as many bytes as the program keeps, once, twice and four times: to each number of bytes
    within some lines of it that can be met."""
    start, events = session_files.session(session_boards.holding(random.Random(1)), LARGEST, []), [1, 0]
    longest = start + bytes(events * 4_000)
    lines = second_program.answer(longest).out.split(b"\n")[:-1]
    for room in (LINES_ROOM, 2 * LINES_ROOM, 4 * LINES_ROOM):
        ends, size = [], 0
        for count, line in enumerate(lines):
            size += len(line) + 1
            if abs(size - room) < 40:
                ends.append((count, size))
        yield f"some session's lines are about {room} bytes", len(ends) > 3
        for count, size in ends:
            wanted = b"".join(line + b"\n" for line in lines[: count + 1])
            yield same(f"a session whose lines are {size} bytes", program.run(COMMAND, longest[: len(start) + count]), well(wanted))


def repeated():
    """Lines that are refused come once more on standard error, each of them whole, wherever they stand in the program's buffer;
    no other line does."""
    start = session_files.session(session_boards.holding(random.Random(1)), LARGEST, [])
    for name, events in (("every event refused but the first", [1]), ("every other event refused", [1, 1, 0, 0]), ("few refused", [1, 0] * 1_000 + [0])):
        for last in ([], [0x80]):
            data = start + bytes((events * 8_000)[:8_000] + last)
            told = second_program.answer(data).out
            yield same(f"{name}, an end of {last}", program.run(COMMAND, data), session_told(told))
            yield f"{name}: some line is refused, and some is not", 0 < len(program.refused_lines(told)) < len(told)


def writes(data):
    """What the program writes for a session, one message for each write, and how it ends."""
    ours, theirs = socket.socketpair(socket.AF_UNIX, socket.SOCK_SEQPACKET)
    with ours, tempfile.TemporaryFile() as file, tempfile.TemporaryFile() as errors:
        file.write(data)
        file.seek(0)
        with subprocess.Popen(COMMAND, stdin=file, stdout=theirs, stderr=errors) as running:
            theirs.close()
            ours.settimeout(program.PATIENCE)
            found = list(iter(lambda: ours.recv(1 << 22), b""))
            ended = running.wait(timeout=program.PATIENCE)
        errors.seek(0)
        return found, Told(b"".join(found), errors.read(), ended)


def few_writes():
    """A long session makes few writes, and prints the same into any stream."""
    data = holding(LONGEST)
    found, told = writes(data)
    yield f"{len(found)} writes for a session of {LONGEST} bytes, fewer than {MOST_WRITES}", 0 < len(found) < MOST_WRITES
    yield same("they are the session's lines", told, second_program.answer(data))


def small_stack():
    """2 MiB of stack are enough for the longest session."""
    data = holding(LONGEST)
    told = program.run(program.command("herdspiral", judging.STACK), data)
    yield same(f"the longest session with {judging.STACK} bytes of stack", told, second_program.answer(data))


def checks():
    parts = (failing_reads, broken_off, failing_writes, left_by_its_reader, takings, pieces, around_the_room, repeated, few_writes, small_stack)
    return [check for part in parts for check in part()]
