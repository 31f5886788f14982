"""Tries the script `herdspiral` over a repository and a kit that stand in for the real ones (tests/lib/stand_in.py): typed text,
arguments and odd names, what is handed to the program for a page of all settings, when and how it builds, two starts at once, the
progress, closed streams, a clone that cannot be written, a full disk, how the program ends. What reads and says is tried with each
shell and each awk of SHELLS and AWKS that this machine has; those that it lacks are named. A start is compared whole: its output,
its exact words on standard error, its status. Needs no kit."""
import os
import platform
import pty
import resource
import shutil
import signal
import subprocess
import sys
import tempfile
import time

sys.path.insert(0, os.path.join(os.path.dirname(os.path.abspath(__file__)), "lib"))
import program
import repository
import stand_in
from program import Told, well
from repository import same
from stand_in import AWKS, BUILDING, BUILT, PROGRESS, StandIn, built, found, said, timeless
from typed_text import typed_bytes

SHELLS = ("dash", "bash", "bash --posix", "busybox sh")
EVERY_BYTE = bytes(range(256))
NO_DIGIT, NO_SECOND = "is not a hex digit", "has no second hex digit right after it"
MARK = b"\xef\xbb\xbf"  # a byte order mark
MORE = "./herdspiral --help says more"
NOT_BUILT = "the program could not be proved and built: rt run in crates/herdspiral says why, above"
NO_KIT = "rt is not found: this needs the Rattle kit, with rt on the PATH or RATTLE_HOME set to the kit's folder"
NO_FLOCK = "flock is not found, and nothing keeps two starts apart: begin no other until this one has built"
WAITING = "the program is being built already, or the gate is running: waiting for it"
RT_SAID = b"rt: said on standard output\nrt: said on standard error\n"
RT_SAID += b"rt: chose --jobs 2 for one\nlogic=proved functions=1\nrt: chose --jobs 2 for herdspiral\n"
RUN = "run in herdspiral"  # the call of rt
UNWRITTEN = said("standard output cannot be written")
UNREAD = said("standard input cannot be read")
NOBODY = 65_534
LONGEST_TEXT = 4_194_304  # bytes of a typed file
NO_LENGTH = f"the length of the log is a decimal number, such as 4096; {MORE}"
NO_PAGE = f"--settings takes a file, and the length of the log if it is not 4096; {MORE}"
# What is no length of a log; and lengths, each with what is handed to the program for it.
NO_LENGTHS = ["", "-1", "+5", "0x10", "4 096", "4096.0", "abc", "4,096", " 4096", "4096 ", "4096\n", "\n", "4e3", "-", "4096a", "*"]
NO_LENGTHS += ["\xb2", "\u0664"]
LENGTHS = {"0": 0, "00": 0, "7": 7, "00007": 7, "4096": 4_096, "09": 9, "65535": 65_535, "65536": 65_536, "000065536": 65_536}
LENGTHS |= {"0" * 100: 0, "0" * 100 + "12": 12}
TOO_LONG = ["65537", "65538", "99999", "00065538", "100000", "4294967296", "18446744073709551616", "9" * 100, "1" + "0" * 99]
LENGTHS |= {log: 65_537 for log in TOO_LONG}
FILES = ("a b  c.hex", "-n.hex", "-", "--.hex", "a=b.hex", "*.hex", "ä'\".hex", "$x\\n.hex", "-f", "NAME=x", "a\nb.hex")

# Typed texts and the bytes that they stand for.
GOOD = [
    ("an empty file", b"", b""),
    ("a comment only", b"# 03 zz\n", b""),
    ("a comment with no newline, and any bytes in it", b"#\x00\xff\xc3\xa4 # g", b""),
    ("pairs", b"03 01\n00 ff\n", b"\x03\x01\x00\xff"),
    ("no newline at the end", b"03 01", b"\x03\x01"),
    ("CRLF and tabs", b"03\t01\r\n\t00 # c\r\n\r\nff\r\n", b"\x03\x01\x00\xff"),
    ("CR, which ends a comment too", b"03 # c 04\r01\r\r00 ff\r", b"\x03\x01\x00\xff"),
    ("a byte order mark", MARK + b"03 01", b"\x03\x01"),
    ("a byte order mark and nothing else", MARK, b""),
    ("a byte order mark in a comment", b"#" + MARK + b"\n03", b"\x03"),
    ("upper, lower and mixed case", b"AB ab Ab aB", b"\xab\xab\xab\xab"),
    ("pairs with nothing between them", b"0301ff", b"\x03\x01\xff"),
    ("a comment right after a pair", b"03#04\n05", b"\x03\x05"),
    ("many of the same", b"00" * 100 + b" " * 100 + b"\n" * 100 + b"ff", bytes(100) + b"\xff"),
    ("every byte", EVERY_BYTE.hex(" ").encode(), EVERY_BYTE),
    ("every byte in upper case, one on a line", EVERY_BYTE.hex("\n").upper().encode(), EVERY_BYTE),
    ("bytes that a shell could take for its own", b"25 73 5c 6e 24 2a 0a 0a 20 00", b"%s\\n$*\n\n \0"),
    ("255 bytes", b"01 " * 255, b"\x01" * 255),
    ("256 bytes", b"01 " * 256, b"\x01" * 256),
    ("257 bytes", b"01 " * 257, b"\x01" * 257),
]

# Typed texts with a slip: line and column, both from 1, and what is said of it.
BAD = [
    (b"03 g1", 1, 4, f'"g" {NO_DIGIT}'),
    (b"# fine\n03 01\n  00 O1\n", 3, 6, f'"O" {NO_DIGIT}'),
    (b"03 01 # a\r\n\t,", 2, 2, f'"," {NO_DIGIT}'),
    (b"03\r01\r\n\r,", 4, 1, f'"," {NO_DIGIT}'),
    (b"0x03", 1, 1, f'"0" {NO_SECOND}: type the two digits without 0x'),
    (b"03 0X01", 1, 4, f'"0" {NO_SECOND}: type the two digits without 0x'),
    (b"3 1 1 2", 1, 1, f'"3" {NO_SECOND}: type "03"'),
    (b"a\rb", 1, 1, f'"a" {NO_SECOND}: type "0a"'),
    (b"03 0g", 1, 4, f'"0" {NO_SECOND}'),
    (b"030", 1, 3, f'"0" {NO_SECOND}: type "00"'),
    (b"03\n01 A\n", 2, 4, f'"A" {NO_SECOND}: type "0A"'),
    (b"03 0", 1, 4, f'"0" {NO_SECOND}: type "00"'),
    (b"03 0 1", 1, 4, f'"0" {NO_SECOND}: type "00"'),
    (b"03 0\n1", 1, 4, f'"0" {NO_SECOND}: type "00"'),
    (b"03 0\t1", 1, 4, f'"0" {NO_SECOND}: type "00"'),
    (b"0\r\n", 1, 1, f'"0" {NO_SECOND}: type "00"'),
    (b"03 0#1", 1, 4, f'"0" {NO_SECOND}: type "00"'),
    (b"03 \x00", 1, 4, f"the byte 00 {NO_DIGIT}"),
    (b"03\n\xc3\xa4", 2, 1, f"the byte c3 of a special character {NO_DIGIT}"),
    (b"\xff\xfe0\x003\x00", 1, 1, f"the byte ff of a special character {NO_DIGIT}"),
    (MARK + b"03 x", 1, 4, f'"x" {NO_DIGIT}'),
    (b"03 " + MARK, 1, 4, f"the byte ef of a special character {NO_DIGIT}"),
    (MARK[:2], 1, 1, f"the byte ef of a special character {NO_DIGIT}"),
    (MARK[:1] + b"03", 1, 1, f"the byte ef of a special character {NO_DIGIT}"),
    (b"# long\n" + b"00 " * 70_000 + b"\n.", 3, 1, f'"." {NO_DIGIT}'),
]


def nothing_done(own):
    """The check that nothing was built or started so far."""
    return same("nothing is built or started", (own.noted("calls"), own.noted("starts")), ([], []))


# ---- with each shell and each awk


def typed_text(own):
    """Typed text, good and bad. A slip is told before anything is built or started."""
    checks = []
    for text, line, column, what in BAD:
        wrong = f"{own.folder}/typed.hex: line {line}, column {column}: {what}\n".encode()
        checks.append(same(f"the text {text[-40:]!r}", own.typed(text), Told(b"", wrong, 2)))
    checks.append(nothing_done(own))
    own.start()
    for name, text, data in GOOD:
        checks.append(same(f"typed, {name}", own.typed(text), well(data)))
    long = EVERY_BYTE * 300
    checks.append(same("76,800 bytes typed, with a comment each", own.typed("\n".join(f"{byte:02x} # byte {byte}" for byte in long)), well(long)))
    checks.append(same("a file of bytes is taken as it is", own.typed(b"03 zz\0\xff\n", "typed.hex.bin"), well(b"03 zz\0\xff\n")))
    for data in (b"", EVERY_BYTE, b"\0", b"\n\n", b"end", EVERY_BYTE * 256):
        checks.append(same(f"{data[:9]!r} on standard input", own.session(data), well(data)))
    return checks


def arguments(own):
    """Wrong arguments, and the ways to name the script and its file."""
    checks = []
    for name, words, message in (
        ("a file that is not there", ["none.hex"], f"none.hex: there is no such file; {MORE}"),
        ("one whose name has a newline and more", ["a\nb\x1b[m\x7f"], f"a?b?[m?: there is no such file; {MORE}"),
        ("a directory", [own.folder], f"{own.folder}: this is a directory, not a session"),
        ("two files", ["a.hex", "b.hex"], f"one file at most, and there are 2 arguments; {MORE}"),
        ("an empty name", [""], f"an empty name is no file; {MORE}"),
    ):
        checks.append(same(name, own.start(*words), Told(b"", said(message), 2)))
    folder = os.open("/", os.O_RDONLY)
    checks.append(same("a directory on standard input", own.start(streams={"stdin": folder}), Told(b"", said("standard input is a directory, not a session"), 2)))
    os.close(folder)
    usage = repository.text("herdspiral").split("    cat <<'EOF'\n")[1].split("EOF\n")[0]
    checks.append(same("--help", own.start("--help"), well(usage.encode())))
    checks.append(nothing_done(own))
    own.start()
    for name in FILES:
        stand_in.put(os.path.join(own.folder, "files", name), "03 ff" if name.endswith(".hex") else b"\x03\xff")
        checks.append(same(f"a file called {name!r}", own.start(name, folder=os.path.join(own.folder, "files")), well(b"\x03\xff")))
    stand_in.put(os.path.join(own.folder, "files", "a\nb.hex"), "03 f")
    wrong = Told(b"", f'a?b.hex: line 1, column 4: "f" {NO_SECOND}: type "0f"\n'.encode(), 2)
    checks.append(same("a slip in a file whose name has a newline", own.start("a\nb.hex", folder=os.path.join(own.folder, "files")), wrong))
    return checks


def page_arguments(own):
    """Wrong arguments with --settings: each is told before anything is built or started."""
    checks, slip = [], os.path.join(own.folder, "slip.hex")
    stand_in.put(slip, "03 f")
    for name, words, message in (
        ("no file", [], NO_PAGE),
        ("three arguments", ["a.hex", "5", "6"], NO_PAGE),
        ("a file that is not there", ["none.hex"], f"none.hex: there is no such file; {MORE}"),
        ("--help, which is no file here", ["--help"], f"--help: there is no such file; {MORE}"),
        ("--settings, which is no file here", ["--settings"], f"--settings: there is no such file; {MORE}"),
        ("a file that is not there, and a length", ["none.hex", "5"], f"none.hex: there is no such file; {MORE}"),
        ("a file that is not there, and no length", ["none.hex", "abc"], NO_LENGTH),
        ("a directory", [own.folder], f"{own.folder}: this is a directory, not a session"),
        ("an empty name", [""], f"an empty name is no file; {MORE}"),
        *((f"the length {log!r}", [slip, log], NO_LENGTH) for log in NO_LENGTHS),
    ):
        checks.append(same(f"--settings, {name}", own.start("--settings", *words), Told(b"", said(message), 2)))
    mistyped = Told(b"", f'{slip}: line 1, column 4: "f" {NO_SECOND}: type "0f"\n'.encode(), 2)
    for words in ([], ["5"], ["99999"]):
        checks.append(same(f"--settings, a mistyped file, {words}", own.start("--settings", slip, *words), mistyped))
    behind = Told(b"", said(f"one file at most, and there are 2 arguments; {MORE}"), 2)
    return checks + [same("--settings behind its file", own.start(slip, "--settings"), behind), nothing_done(own)]


def page_lengths(own):
    """What the program is started with for a page: the length of the log, 4096 if none is given, typed file or not, whatever the
    file is called; and for a session nothing."""
    checks, folder = [], os.path.join(own.folder, "files")
    for name in (*FILES, "--help", "--settings", "4096"):
        stand_in.put(os.path.join(folder, name), "03 ff" if name.endswith(".hex") else b"\x03\xff")
    told = own.start("--settings", "--help", folder=folder), own.noted("starts")
    checks.append(same("--settings, a file called --help", told, (built(b"\x03\xff"), ["started <4096>"])))
    for file, words, length in (
        *((file, [], 4_096) for file in (*FILES, "--help", "--settings", "4096")),
        *((file, [log], length) for file in ("-n.hex", "--help") for log, length in LENGTHS.items()),
    ):
        told = own.start("--settings", file, *words, folder=folder), own.noted("starts")[-1]
        checks.append(same(f"--settings {file!r} {words!s:.60}", told, (well(b"\x03\xff"), f"started <{length}>")))
    told = own.start("-n.hex", folder=folder, log="5"), own.session(b"session"), own.noted("starts")[-2:]
    return checks + [same("what a session is started with", told, (well(b"\x03\xff"), well(b"session"), ["started", "started"]))]


def unwritten_lines(own, name, out, *words):
    """The checks of a program that prints this and then cannot write: into a file, and into a pipe with the signal for
    a pipe that is left ignored, or one that never waits, it is said; into another pipe nothing is said, since only a
    reader that left can be why."""
    with tempfile.TemporaryFile() as file:
        told = own.start(*words, streams={"stdout": file})
        file.seek(0)
        yield same(f"{name}, a file", told._replace(out=file.read()), Told(out, UNWRITTEN, 4))
    ignoring = ["sh", "-c", "trap '' PIPE; exec \"$@\"", "sh", *own.command(*words)]
    told = program.run(ignoring, cwd=own.folder, env=own.environment())
    yield same(f"{name}, a pipe, the signal ignored", told._replace(errors=timeless(told.errors)), Told(out, UNWRITTEN, 4))
    yield same(f"{name}, a pipe", own.start(*words), Told(out, b"", 4))
    reading, writing = os.pipe()
    os.set_blocking(writing, False)
    told = own.start(*words, streams={"stdout": writing})
    os.close(writing)
    with open(reading, "rb") as file:
        yield same(f"{name}, a pipe that never waits", told._replace(out=file.read()), Told(out, UNWRITTEN, 4))


def refused_pages(own):
    """What the program says of a page that is refused comes out in words, typed and as bytes, with status 3."""
    checks, typed, raw = [], os.path.join(own.folder, "typed.hex"), os.path.join(own.folder, "bytes")
    many = "the board has 13 buttons, and a page of all settings is for 12 at most (refusal 20)"
    lacking = "there is no such terminal: the board has 3, 0 to 2 (refusal 5)"
    for line, text, places, message in (
        ("refused 13 0", "03 01 01 00", ("herdspiral: ",) * 2, "LOG is above 65,536, the most moves that a log is for (refusal 13)"),
        ("refused 20 0", "# one\n02 00\n 0d 00", (f'{typed}: line 3, column 2: "0d": ', f'{raw}: place 2: "0d": '), many),
        ("refused 20 0", "02 00 0c 00", (f"{typed}: line 1, column 1: ", f"{raw}: place 0: "), "this is refused (refusal 20)"),
        ("refused 5 10", "03 01 01 02 03000200\n04 02 09", (f'{typed}: line 2, column 7: "09": ', f'{raw}: place 10: "09": '), lacking),
        ("refused 99 1", "03 01", (f"{typed}: line 1, column 4: ", f"{raw}: place 1: "), "this is refused (refusal 99)"),
    ):
        own.program(f"#!/bin/sh\ncat >/dev/null\necho {line}; echo {line} >&2\n")
        own.start()
        stand_in.put(typed, text)
        stand_in.put(raw, typed_bytes(text))
        for file, place in zip((typed, raw), places):
            wanted = Told(f"{line}\n".encode(), f"{place}{message}\n".encode(), 3)
            checks.append(same(f"a page: {line}, {os.path.basename(file)}", own.start("--settings", file, "5"), wanted))
    own.program("#!/bin/sh\ncat >/dev/null\necho settings: 1; echo 'herdspiral: standard output cannot be written' >&2\n")
    own.start()
    for file in (typed, raw):
        checks += unwritten_lines(own, f"a page that cannot be written, {os.path.basename(file)}", b"settings: 1\n", "--settings", file)
    return checks


def refusals(own):
    """What the program says of refusals comes out in words, after its lines; and the status goes by it."""
    checks = []
    for name, lines, text, messages, status in (
        ("the end is refused", ["refused 5 10"], "03 01 01 02\n03 00 02 00\n04 02 09 00", ['line 3, column 7: "09": there is no such terminal: the board has 3, 0 to 2 (refusal 5)'], 3),
        ("an event is refused by 12", ["1 refused 12"], "03 01 01 00 05\n00", ['line 2, column 1: "00": event 1 releases button 0, which is released already (refusal 12)'], 0),
        ("both", ["1 refused 12", "refused 7 6"], "03 01 01 00 05\n00 04", ['line 2, column 1: "00": event 1 releases button 0, which is released already (refusal 12)', 'line 2, column 4: "04": event 2 releases button 2, and there is no such button: the board has 1, number 0 (refusal 7)'], 3),
        ("a refusal that the words do not know", ["refused 99 1"], "03 01", ["line 1, column 4: this is refused (refusal 99)"], 3),
    ):
        out = "".join(line + "\n" for line in lines).encode()
        own.program("#!/bin/sh\ncat >/dev/null\n" + "".join(f"echo '{line}'; echo '{line}' >&2\n" for line in lines))
        own.start()
        wanted = "".join(f"{own.folder}/typed.hex: {message}\n" for message in messages).encode()
        checks.append(same(name, own.typed(text), Told(out, wanted, status)))
    cut = "the input ends here, and the number of buttons (B) is wanted"
    for name, does, sentence in (("goes away", "rm -f", cut), ("is overwritten", "printf '\\3' >", "this is refused")):
        own.program(f"#!/bin/sh\n{does} '{own.folder}/bytes'\necho refused 1 2 | tee /dev/stderr\n")
        own.start()
        stand_in.put(os.path.join(own.folder, "bytes"), b"\x03\x01")
        told = own.start("bytes")
        checks.append(same(f"a file of bytes that {name}", told, Told(b"refused 1 2\n", f"bytes: place 2: {sentence} (refusal 1)\n".encode(), 3)))
    own.program("#!/bin/sh\ncat >/dev/null\necho line; echo 'herdspiral: standard output cannot be written' >&2\n")
    own.start()
    for name, words in (("typed", ["typed.hex"]), ("on standard input", [])):
        checks += unwritten_lines(own, f"lines that cannot be written, {name}", b"line\n", *words)
    return checks


def streams(own):
    """Streams that are closed or full."""
    checks = []
    stand_in.put(os.path.join(own.folder, "a.hex"), "03 ff")
    stand_in.put(os.path.join(own.folder, "slip.hex"), "03 f")
    stand_in.put(os.path.join(own.folder, "bytes"), b"\x03\xff")
    started = own.command()
    for name, words, redirection, want in (
        ("input", "", "0<&-", Told(b"", UNREAD, 4)),
        ("input, open for writing only", "", "0>/dev/null", Told(b"", UNREAD, 4)),
        ("input, with a typed file", "a.hex", "0<&-", built(b"\x03\xff")),
        ("input, with a file of bytes", "bytes", "0<&-", well(b"\x03\xff")),
        ("output", "a.hex", "1>&-", Told(b"", UNWRITTEN, 4)),
        ("output, with --help", "--help", "1>&-", Told(b"", UNWRITTEN, 4)),
        ("output that is full, with --help", "--help", "1>/dev/full", Told(b"", UNWRITTEN, 4)),
        ("standard error", "a.hex", "2>&-", well(b"\x03\xff")),
        ("standard error, with a slip", "none.hex", "2>&-", Told(b"", b"", 2)),
        ("standard error that is full, with a slip", "none.hex", "2>/dev/full", Told(b"", b"", 2)),
        ("standard error, with a mistyped file", "slip.hex", "2>&-", Told(b"", b"", 2)),
        ("standard error that is full, with a mistyped file", "slip.hex", "2>/dev/full", Told(b"", b"", 2)),
        ("standard error, open for reading only, with a mistyped file", "slip.hex", "2</dev/null", Told(b"", b"", 2)),
        ("input, named as a file", "/dev/stdin", "0<&-", Told(b"", said("/dev/stdin cannot be read"), 4)),
        ("nothing: bytes in 3", "/dev/fd/3", "3<bytes", well(b"\x03\xff")),
        ("nothing: bytes in 4", "/dev/fd/4", "4<bytes", well(b"\x03\xff")),
        ("nothing: input by its name", "/dev/stdin", "<bytes", well(b"\x03\xff")),
        ("all of them", "a.hex", "0<&- 1>&- 2>&-", Told(b"", b"", 4)),
        ("input, with --settings and a typed file", "--settings a.hex", "0<&-", well(b"\x03\xff")),
        ("input, with --settings and a file of bytes", "--settings bytes 5", "0<&-", well(b"\x03\xff")),
        ("input, named as a file, for a page", "--settings /dev/stdin", "0<&-", Told(b"", said("/dev/stdin cannot be read"), 4)),
        ("nothing: input by its name, with --settings", "--settings /dev/stdin", "<bytes", well(b"\x03\xff")),
        ("output, with --settings", "--settings a.hex", "1>&-", Told(b"", UNWRITTEN, 4)),
        ("standard error, with --settings", "--settings a.hex", "2>&-", well(b"\x03\xff")),
        ("standard error, with --settings and no file", "--settings", "2>&-", Told(b"", b"", 2)),
        ("all of them, with --settings", "--settings a.hex", "0<&- 1>&- 2>&-", Told(b"", b"", 4)),
    ):
        told = program.run(["sh", "-c", f'exec "$@" {words} {redirection}', "sh", *started], cwd=own.folder, env=own.environment())
        checks.append(same(f"closed or full: {name}", told._replace(errors=timeless(told.errors)), want))
    return checks


# ---- once


def longest_text(own):
    """A typed text of as many bytes as are taken, and of one more."""
    own.start()
    checks = [same("the longest text", own.typed(b"#" * LONGEST_TEXT), well(b""))]
    longer = f"{own.folder}/typed.hex: this is longer than {LONGEST_TEXT} bytes, and no session is typed in so many\n".encode()
    return checks + [same("a text that is too long", own.typed(b"#" * (LONGEST_TEXT + 1)), Told(b"", longer, 2))]


def ways_to_start(own):
    """The ways to name the script."""
    checks = []
    own.start()
    stand_in.put(os.path.join(own.folder, "files", "-n.hex"), "03 ff")
    os.symlink("../the root/herdspiral", os.path.join(own.folder, "files", "first"))
    os.symlink(os.path.join(own.folder, "files", "first"), os.path.join(own.folder, "links", "second"))
    for name, script, folder in (
        ("from the repository", "./herdspiral", own.root),
        ("from a folder of it", "../../herdspiral", os.path.join(own.root, "crates", "one")),
        ("by its absolute path", own.script, "/"),
        ("by a link", "./first", os.path.join(own.folder, "files")),
        ("by a link to a link", os.path.join(own.folder, "links", "second"), "/"),
    ):
        told = own.start(os.path.join(own.folder, "files", "-n.hex"), script=script, folder=folder, CDPATH="/tmp:/")
        checks.append(same(f"started {name}", told, well(b"\x03\xff")))
    told = program.run(["sh", "-c", "second '-n.hex'"], cwd=os.path.join(own.folder, "files"), env=own.environment())
    checks.append(same("started by its name, found on PATH", told, well(b"\x03\xff")))
    reading, writing = os.pipe()
    os.close(reading)
    checks.append(same("--help whose reader left", own.start("--help", streams={"stdout": writing}), Told(b"", b"", 4)))
    os.close(writing)
    checks.append(same("all of these are built once", own.noted("calls"), [RUN]))
    own.program(stand_in.ECHO)
    told = program.run(["sh", "-c", "sh -c 'rt version >/dev/null 2>&1 && ../herdspiral /dev/null; true' /x/rt "], cwd=os.path.join(own.root, "crates"), env=own.environment())
    return checks + [same("started by one that names rt, which is not waited for", timeless(told.errors), built(b"").errors)]


def starts(own, name, *calls):
    """The checks that starts one after the other call `rt` so often, and say and print what they must."""
    for number, times in enumerate(calls, 1):
        before, told = len(own.noted("calls")), own.session(b"\0session\xff")
        yield same(f"{name}, start {number}: what is printed, and said of building", told, (built if times else well)(b"\0session\xff"))
        yield same(f"{name}, start {number}: calls of rt", own.noted("calls")[before:], [RUN] * times)


def building(own):
    """When `rt` is asked: at the first start, and once after each change."""

    def file(*words):
        return os.path.join(own.root, *words)

    checks = list(starts(own, "at first", 1, 0))
    for name, change in (
        ("a file edited", lambda: stand_in.put(file("crates", "one", "src", "lib.rt"), "other\n")),
        ("a file added", lambda: stand_in.put(file("crates", "one", "src", "new.rt"), "new\n")),
        ("a file removed", lambda: os.remove(file("crates", "one", "src", "more.rt"))),
        ("crates.txt edited", lambda: stand_in.put(file("crates.txt"), "one:\nherdspiral: one\n")),
        ("another kit", lambda: stand_in.put(os.path.join(own.kit, "KIT-ID"), "another kit\n")),
        ("the program removed", lambda: os.remove(file("built", "herdspiral"))),
        ("the stamp removed", lambda: os.remove(file("built", "stamp"))),
        ("both programs removed", lambda: [os.remove(file(*folder, "herdspiral")) for folder in (["built"], ["crates", "herdspiral", "out"])]),
        ("built/ removed", lambda: shutil.rmtree(file("built"))),
        ("a folder of a crate removed", lambda: shutil.rmtree(file("crates", "one", "specs"))),
        ("a folder called out in a crate's src/", lambda: stand_in.put(file("crates", "one", "src", "out", "a.rt"), "a\n")),
    ):
        own.age()
        checks += starts(own, f"before {name}", 0)
        change()
        checks += starts(own, name, 1, 0)
    for crate in ("one", "herdspiral"):
        shutil.rmtree(file("crates", crate, "out"))
    checks += starts(own, "the folders out/ removed", 0)
    for crate in ("one", "herdspiral"):
        stand_in.put(file("crates", crate, "out", "rlib", "stamp"), "new\n")
    checks += starts(own, "the folders out/ filled by another rt", 0)
    return checks + [same("in built/ there are the program and the stamp", sorted(os.listdir(file("built"))), ["herdspiral", "stamp"])]


def edited_meanwhile(own):
    """A file that is edited while it is checked: the next start builds again."""
    own.note("edit")
    checks = list(starts(own, "a file edited during the check", 1))
    own.forget("edit")
    return checks + list(starts(own, "a file edited during the check, later", 1, 0))


def not_whole(own):
    """A clone of which something is missing."""
    checks = []
    for part in ("crates.txt", *(os.path.join("script", name) for name in sorted(os.listdir(os.path.join(own.root, "script"))))):
        os.rename(os.path.join(own.root, part), os.path.join(own.folder, "away"))
        checks.append(same(f"no {part}", own.session(b"session"), Told(b"", said(f"the clone in {own.root} is not whole: there is no {part}"), 1)))
        os.rename(os.path.join(own.folder, "away"), os.path.join(own.root, part))
    return checks + [nothing_done(own)]


def not_built(own):
    """A check that fails is shown and nothing is run, each time."""
    own.note("refuse")
    checks = []
    for which in ("first", "second"):
        told = own.session(b"session")
        checks.append(same(f"a check fails, the {which} start", told, Told(b"", said(BUILDING, *PROGRESS) + RT_SAID + said(NOT_BUILT), 1)))
    checks.append(same("a check that fails is made again", len(own.noted("calls")), 2))
    checks.append(same("nothing is left of it", os.listdir(os.path.join(own.root, "built")), []))
    own.forget("refuse")
    own.note("killed")
    told = Told(b"", said(BUILDING, *PROGRESS) + RT_SAID + b"rt: half a line\n" + said(NOT_BUILT), 1)
    checks.append(same("a check that is killed", own.session(b"session"), told))
    own.forget("killed")
    own.note("remove")
    left = f"rt run in crates/herdspiral left no {own.root}/crates/herdspiral/out/herdspiral"
    checks.append(same("a check that leaves no program", own.session(b"session"), Told(b"", said(BUILDING, *PROGRESS, left), 1)))
    own.forget("remove")
    own.note("fail")
    checks.append(same("a program that is built, and that rt could not run", own.session(b"session"), built(b"session")))
    own.forget("fail")
    return checks


def without_tools(own):
    """Where the kit is not found by PATH, or not at all, or something else that the script needs is not."""
    checks, bare = [], own.bare_path()
    checks.append(same("no rt", own.session(b"session", PATH=bare), Told(b"", said(NO_KIT), 1)))
    checks.append(same("the kit by RATTLE_HOME alone", own.session(b"session", PATH=bare, RATTLE_HOME=own.kit), built(b"session")))
    shutil.rmtree(os.path.join(own.root, "built"))
    told = own.session(b"session", PATH=own.bare_path("flock"), RATTLE_HOME=own.kit)
    checks.append(same("no flock", told, built(b"session")._replace(errors=said(NO_FLOCK) + built(b"").errors)))
    for tool in ("od", "sed", "tr", "awk", "find", "uname", "readlink", "cat"):
        checks.append(same(f"no {tool}", own.session(b"session", PATH=own.bare_path(tool)), Told(b"", said(f"{tool} is not found, and this needs it"), 1)))
    loader = os.path.join(own.tools, "lib", "ld-linux-x86-64.so.2")
    shutil.rmtree(own.tools)
    lacking = f"the Rattle kit at {own.kit} has nothing for this machine, {platform.machine()}: there is no {loader}"
    checks.append(same("a kit for other machines", own.session(b"session"), Told(b"", said(lacking), 1)))
    return checks


class Begun:
    """A start whose end is not waited for. What it has said so far can be asked."""

    def __init__(self, own, command=None):
        self.out, self.errors = tempfile.TemporaryFile(), tempfile.TemporaryFile()
        self.process = subprocess.Popen(command or own.command("a.hex"), cwd=own.root, env=own.environment(), stdin=subprocess.DEVNULL, stdout=self.out, stderr=self.errors)

    def said(self):
        self.errors.seek(0)
        return self.errors.read()

    def end(self):
        """What it comes to."""
        status = self.process.wait(timeout=program.PATIENCE)
        self.out.seek(0)
        return Told(self.out.read(), timeless(self.said()), status)


def until(holds):
    """Waits until this holds, or for too long."""
    late = time.monotonic() + program.PATIENCE
    while not holds() and time.monotonic() < late:
        time.sleep(0.02)


def meeting(own, first, second, waits):
    """Begins the first, which holds as soon as it is in rt, then the second, and lets the first go on once the second says that
    it waits: what both come to, and the calls of rt."""
    own.program(stand_in.ECHO)
    own.note("hold")
    first = Begun(own, first)
    until(lambda: own.noted("calls"))
    second = Begun(own, second)
    until(lambda: waits in second.said())
    own.note("go")
    told = first.end(), second.end(), own.noted("calls")
    own.forget("hold", "go", "calls")
    return told


def after(message, out=b"\x03\xff"):
    """A run that says this, then builds the program, and prints the session."""
    return built(out)._replace(errors=message + built(out).errors)


def two_at_once(own):
    """Of two first starts one builds; the other waits, says so, and then finds the program built. A build waits for the gate, and
    for a bare rt; a start whose program is built does not."""
    stand_in.put(os.path.join(own.root, "a.hex"), "03 ff")
    stand_in.put(os.path.join(own.root, ".ci", "run"), repository.text(".ci", "run"))
    gate, rt = ["bash", ".ci/run"], [os.path.join(own.kit, "bin", "rt"), "ci"]
    checking, testing = [RUN, "run ended"], ["ci in the root", "ci ended"]
    checks = []

    first, second, calls = meeting(own, None, None, said(WAITING))
    checks.append(same("two at once", (first, second, calls), (built(b"\x03\xff"), Told(b"\x03\xff", said(WAITING), 0), checking)))

    at_work = said(f"rt is at work in {own.root}: waiting for it to end")
    _, second, calls = meeting(own, rt, None, at_work)
    checks.append(same("a start during rt ci", (second, calls), (after(at_work), testing + checking)))

    _, second, calls = meeting(own, gate, None, said(WAITING))
    checks.append(same("a start during the gate", (second, calls), (after(said(WAITING)), testing + checking)))

    own.program(stand_in.ECHO)
    own.note("wait")
    told = own.start("a.hex", folder=own.root)
    waiting = Told(b"\x03\xff", said(BUILDING) + at_work + said(*PROGRESS, BUILT), 0)
    checks.append(same("an rt that waits for another, and says so of two crates", told, waiting))
    own.forget("wait", "calls")

    own.note("hold")
    bare = Begun(own, rt)
    until(lambda: own.noted("calls"))
    checks.append(same("a start during rt ci where the program is built", Begun(own).end(), well(b"\x03\xff")))
    own.note("go")
    bare.end()
    return checks


def killed(own):
    """A start that is killed leaves no lock; the next waits for the rt that it left."""
    stand_in.put(os.path.join(own.root, "a.hex"), "03 ff")
    own.note("hold")
    first = Begun(own)
    until(lambda: own.noted("calls"))
    first.process.kill()
    second = Begun(own)
    until(lambda: said(WAITING) in second.said())
    own.note("go")
    told = second.end(), own.noted("calls")
    return [same("a start after one that was killed", told, (after(said(WAITING)), [RUN, "run ended"] * 2))]


def gate_waits(own):
    """The gate waits for a build, and says so."""
    stand_in.put(os.path.join(own.root, "a.hex"), "03 ff")
    stand_in.put(os.path.join(own.root, ".ci", "run"), repository.text(".ci", "run"))
    own.note("hold")
    first = Begun(own)
    until(lambda: own.noted("calls"))
    gate = Begun(own, ["bash", ".ci/run"])
    until(lambda: os.fstat(gate.out.fileno()).st_size)
    own.note("go")
    checks = [same("the build", first.end(), built(b"\x03\xff")), same("the gate", gate.end().out.split(b"\n")[0], b"waiting: ./herdspiral is building")]
    return checks + [same("one after the other", own.noted("calls"), [RUN, "run ended", "ci in the root", "ci ended"])]


def on_a_terminal(own):
    """Where standard error is a terminal the progress is one line, which is cleared at the end."""
    ours, theirs = pty.openpty()
    stand_in.put(os.path.join(own.folder, "a.hex"), "03 ff")
    told = own.start("a.hex", streams={"stderr": theirs})
    os.close(theirs)
    shown = b""
    try:
        while piece := os.read(ours, 65_536):
            shown += piece
    except OSError:
        pass  # that is how the end of a terminal is told
    os.close(ours)
    steps = b"".join(f"\rherdspiral: {step:<38}".encode() for step in PROGRESS)
    wanted = said(BUILDING).replace(b"\n", b"\r\n") + steps + b"\r" + b" " * 50 + b"\r" + said(BUILT).replace(b"\n", b"\r\n")
    return [same("the lines", told.out, b"\x03\xff"), same("the progress on a terminal", timeless(shown), wanted)]


def as_nobody(own):
    """How a program is started so that permissions bind it: as root by another user, where that one reaches the stand-in. None
    where he does not."""
    if os.geteuid():
        return {}
    os.chmod(own.folder, 0o755)
    other = {"user": NOBODY, "group": NOBODY, "extra_groups": []}
    try:
        return other if program.run(["test", "-r", own.script], **other).status == 0 else None
    except PermissionError:
        return None


def not_to_be_read(own):
    """A file that may not be read, and files whose reading fails."""
    other = as_nobody(own)
    if other is None:
        print("not tried, since nobody cannot reach the temporary folder: a file that may not be read")
        return []
    own.start()
    checks = []
    for name in ("a.hex", "bytes"):
        stand_in.put(os.path.join(own.folder, name), "03 ff", 0)
        checks.append(same(f"{name}, which may not be read", own.start(name, streams=other), Told(b"", said(f"{name}: this file may not be read"), 4)))
    os.symlink("/proc/self/mem", os.path.join(own.folder, "mem.hex"))
    checks.append(same("a typed file whose reading fails", own.start("mem.hex"), Told(b"", said("mem.hex cannot be read"), 4)))
    own.program("#!/bin/sh\necho 'herdspiral: standard input cannot be read' >&2\n")
    own.start()
    stand_in.put(os.path.join(own.folder, "bytes"), "03 ff")
    return checks + [same("a file of bytes whose reading fails", own.start("bytes"), Told(b"", said("bytes cannot be read"), 4))]


def not_to_be_written(own):
    """A clone that cannot be written: where it is built already it runs, and else it says so."""
    other, locked = as_nobody(own), 0o755 if os.geteuid() == 0 else 0o555
    if other is None:
        print("not tried, since nobody cannot reach the temporary folder: a clone that cannot be written")
        return []
    stand_in.put(os.path.join(own.folder, "a.hex"), "03 ff")
    own.program(stand_in.CAT)
    cannot = Told(b"", said(f"cannot write in {own.root}/built"), 1)
    os.chmod(own.root, locked)
    checks = [same("a clone that cannot be written, not built", own.start("a.hex", streams=other), cannot)]
    os.chmod(own.root, 0o755)
    own.start("a.hex")
    os.chmod(own.root, locked)
    checks.append(same("a clone that cannot be written, built", own.start("a.hex", streams=other), well(b"\x03\xff")))
    os.chmod(own.root, 0o755)
    return checks


def full_disk(own):
    """A disk without room: no file takes a byte."""

    def no_room():
        resource.setrlimit(resource.RLIMIT_FSIZE, (0, 0))
        signal.signal(signal.SIGXFSZ, signal.SIG_IGN)

    stand_in.put(os.path.join(own.folder, "a.hex"), "03 ff")
    own.program(stand_in.CAT)
    full = {"preexec_fn": no_room, "restore_signals": False}
    checks = [same("a full disk, not built", own.start("a.hex", streams=full), Told(b"", said(f"cannot write in {own.root}/built"), 1))]
    own.start("a.hex")
    checks.append(same("a full disk, built", own.start("a.hex", streams=full), well(b"\x03\xff")))
    return checks


def how_it_ends(own):
    """How the program ended: by a signal, or not started. It is started by the emulator where there is one."""
    checks = []
    stand_in.put(os.path.join(own.folder, "a.hex"), "03")
    not_started = said(f"the program could not be started; without the folder {own.root}/built it is built anew")
    for name, text, want in (
        ("killed", "kill -9 $$", Told(b"", said("the program was ended by signal 9"), 137)),
        ("its reader left", "kill -13 $$", Told(b"", b"", 4)),
        ("another status", "echo word >&2; exit 7", Told(b"", b"word\n" + not_started, 1)),
        ("its input not read", "exit 0", well(b"")),
    ):
        own.program(f"#!/bin/sh\n{text}\n")
        own.start()
        for way, told in (
            ("on bytes", own.session(b"session")),
            ("on typed text", own.start("a.hex")),
            ("on a file of bytes", own.start(own.script)),
            ("for a page of typed text", own.start("--settings", "a.hex")),
            ("for a page of a file of bytes", own.start("--settings", own.script, "5")),
        ):
            checks.append(same(f"{name}, {way}", told, want))
    checks.append(same("a program that does not read all", own.typed("00 " * 300_000), well(b"")))
    os.chmod(os.path.join(own.root, "built", "herdspiral"), 0o644)
    told = own.start("a.hex")
    checks.append(same("a program that cannot be started", (told.out, told.errors.endswith(not_started), told.status), (b"", True, 1)))
    stand_in.put(os.path.join(own.tools, "bin", "qemu-x86_64"), stand_in.EMULATOR, 0o755)
    own.program(stand_in.ECHO)
    own.start()
    checks.append(same("the emulator", (own.start("a.hex"), os.path.exists(os.path.join(own.kit, "emulated"))), (well(b"\x03"), True)))
    told = own.start("--settings", "a.hex", "5"), own.noted("starts")[-1]
    checks.append(same("the emulator, for a page", told, (well(b"\x03"), "started <5>")))
    return checks


def tried(part, shell="", awk=""):
    """The checks of one part, over a stand-in of its own."""
    with tempfile.TemporaryDirectory() as folder:
        other = shell + awk and f"{shell}{awk}: "
        return [(other + name, holds) for name, holds in part(StandIn(os.path.realpath(folder), shell.split(), awk))]


def main():
    reading = (typed_text, arguments, page_arguments, page_lengths, refusals, refused_pages, streams)
    checks = [check for shell in found(SHELLS) for part in reading for check in tried(part, shell=shell)]
    checks += [check for awk in found(AWKS) for part in (typed_text, refusals, refused_pages) for check in tried(part, awk=awk)]
    once = (longest_text, ways_to_start, building, edited_meanwhile, not_built, without_tools, not_whole, two_at_once, killed, gate_waits, on_a_terminal, not_to_be_read, not_to_be_written, full_disk, how_it_ends)
    return checks + [check for part in once for check in tried(part)]


if __name__ == "__main__":
    sys.exit(repository.report(main()))
