"""What the script `herdspiral` says of a refusal (script/words.awk). Typed sessions with each slip, whole, with the
real program and each awk of stand_in.AWKS that this machine has: the exact words. Pages of all button settings that are
refused by 13 and by 20, typed and as bytes; those whose board is refused are refused in the words of the session. The
hint that typed text was taken as bytes. Refusals that are not the session's. Then refused sessions of every sort of
tests/lib/session_sorts.py, and those of tests/lib/number_sessions.py that are not cut: number, place, the bytes quoted
and the numbers that the words name are held to the session's own bytes. Seeded; `python3 tests/words.py SEED SESSIONS`
tries others, or more (it is 1 and 1,500 else). Needs the kit, and the program session_cases, which `rt ci` builds, or
`rt run` in its folder; the script builds the program if it is missing."""
import concurrent.futures
import os
import re
import sys
import tempfile

sys.path.insert(0, os.path.join(os.path.dirname(os.path.abspath(__file__)), "lib"))
import board_model
import number_sessions
import program
import report_model
import repository
import session_sorts
import stand_in
from board_model import LARGEST, LONGEST_NUMBER
from long_sessions import LONGEST
from program import Told
from repository import same
from typed_text import typed_bytes

SCRIPT = repository.path("herdspiral")
H1 = "03 01 01 02\n03 00 02 00\n04 02 01 00\n"  # T 3, R 1, B 1: button 0 on 0-2, regular winding on 2-1
H5 = "04 02 01 04\n05 00 02 00\n06 00 03 00\n04 02 01 01\n03 00 02 00\n"  # T 4, R 2, B 1: a steel relay and a regular one
MARKED = H1.replace("01 02\n", "01 04\n")  # the same with two parts more to come
END = "the input ends here"
GOES_ON = "a byte of 80 or more says that another comes"
TOO_LARGE = 'is too large: no number is above 4,294,967,295, typed "ff ff ff ff 0f"'
HINT = "this looks like typed text, and was taken as bytes: a typed file's name ends in .hex, and it is given by that name, as in ./herdspiral board.hex"

# Typed sessions, the lines that are refused, and the words for them without the file's name.
CASES = [
    # 1: the input ends before a number, or inside one
    ("", ["refused 1 0"], [f"line 1, column 1: {END}, and the number of terminals (T) is wanted (refusal 1)"]),
    ("# nothing\n\n", ["refused 1 0"], [f"line 3, column 1: {END}, and the number of terminals (T) is wanted (refusal 1)"]),
    ("03", ["refused 1 1"], [f"line 1, column 3: {END}, and the number of relays (R) is wanted (refusal 1)"]),
    ("03 01\n", ["refused 1 2"], [f"line 1, column 6: {END}, and the number of buttons (B) is wanted (refusal 1)"]),
    ("03\n 01 01 # more\n\n", ["refused 1 3"], [f"line 2, column 7: {END}, and the number of parts (C) is wanted (refusal 1)"]),
    ("03 01 01 02", ["refused 1 4"], [f"line 1, column 12: {END}, and the kind of part 1 of 2 is wanted (refusal 1)"]),
    ("03 01 01 02\r03", ["refused 1 5"], [f"line 2, column 3: {END}, and the first end of part 1 of 2 is wanted (refusal 1)"]),
    ("03 01 01 02\r\n03 00", ["refused 1 6"], [f"line 2, column 6: {END}, and the second end of part 1 of 2 is wanted (refusal 1)"]),
    ("03 01 01 02\n030002", ["refused 1 7"], [f"line 2, column 7: {END}, and the button of part 1 of 2 is wanted (refusal 1)"]),
    ("03 01 01 02\n0300020004 0201", ["refused 1 11"], [f"line 2, column 16: {END}, and the relay of part 2 of 2 is wanted (refusal 1)"]),
    ("03 01 01 02\n00 00 02", ["refused 1 7"], [f"line 2, column 9: {END}, and the kind of part 2 of 2 is wanted (refusal 1)"]),
    (MARKED + "07", ["refused 1 13"], [f"line 4, column 3: {END}, and the relay of part 3 of 4 is wanted (refusal 1)"]),
    (MARKED + "07 00", ["refused 1 14"], [f"line 4, column 6: {END}, and the kind of part 4 of 4 is wanted (refusal 1)"]),
    (MARKED + "07 80", ["refused 1 14"], [f'line 4, column 6: {END}, inside the relay of part 3 of 4: "80" goes on, since {GOES_ON} (refusal 1)']),
    (H1, ["refused 1 12"], [f"line 3, column 12: {END}, and the allowance (W) is wanted (refusal 1)"]),
    (H1 + "ff ff", ["refused 1 14"], [f'line 4, column 6: {END}, inside the allowance (W): "ff ff" goes on, since {GOES_ON} (refusal 1)']),
    (H1 + "64 01 80", ["refused 1 15"], [f'line 4, column 9: {END}, inside event 2: "80" goes on, since {GOES_ON} (refusal 1)']),
    ("80 80 80", ["refused 1 3"], [f'line 1, column 9: {END}, inside the number of terminals (T): "80 80 80" goes on, since {GOES_ON} (refusal 1)']),
    ("80 80 80 80", ["refused 1 4"], [f'line 1, column 12: {END}, inside the number of terminals (T): "80 80 80 80" goes on, since {GOES_ON} (refusal 1)']),
    (H1 + "ff ff ff ff", ["refused 1 16"], [f'line 4, column 12: {END}, inside the allowance (W): "ff ff ff ff" goes on, since {GOES_ON} (refusal 1)']),
    (H1 + "64 01 81 80 80", ["refused 1 17"], [f'line 4, column 15: {END}, inside event 2: "81 80 80" goes on, since {GOES_ON} (refusal 1)']),
    # 2: a number's form
    ("80 00", ["refused 2 0"], [f'line 1, column 1: "80 00": the number of terminals (T) is not in its shortest form, since {GOES_ON}: type "00" (refusal 2)']),
    ("8F 80\n00", ["refused 2 0"], [f'line 1, column 1: "8F 80 00": the number of terminals (T) is not in its shortest form, since {GOES_ON}: type "0f" (refusal 2)']),
    ("80 # and\n80 # and\n80 80 80", ["refused 2 0"], [f'line 1, column 1: "80 80 80 80 80": the number of terminals (T) is longer than 5 bytes, since {GOES_ON} (refusal 2)']),
    (H1 + "ffff ff ff ff 01", ["refused 2 12"], [f'line 4, column 1: "ff ff ff ff ff": the allowance (W) is longer than 5 bytes, since {GOES_ON} (refusal 2)']),
    (H1 + "64 01 81 80 80 80 80", ["refused 2 14"], [f'line 4, column 7: "81 80 80 80 80": event 2 is longer than 5 bytes, since {GOES_ON} (refusal 2)']),
    (H1 + "ff ff 00", ["refused 2 12"], [f'line 4, column 1: "ff ff 00": the allowance (W) is not in its shortest form, since {GOES_ON}: type "ff 7f" (refusal 2)']),
    (H1 + "64 01 80 00", ["refused 2 14"], [f'line 4, column 7: "80 00": event 2 is not in its shortest form, since {GOES_ON}: type "00" (refusal 2)']),
    ("80 80 80 80 00", ["refused 2 0"], [f'line 1, column 1: "80 80 80 80 00": the number of terminals (T) is not in its shortest form, since {GOES_ON}: type "00" (refusal 2)']),
    (H1 + "FF FF FF FF 00", ["refused 2 12"], [f'line 4, column 1: "FF FF FF FF 00": the allowance (W) is not in its shortest form, since {GOES_ON}: type "ff ff ff 7f" (refusal 2)']),
    ("80 80 80 80 10", ["refused 2 0"], [f'line 1, column 1: "80 80 80 80 10": the number of terminals (T) {TOO_LARGE} (refusal 2)']),
    ("03 01 01 02\nff ff ff ff 7f", ["refused 2 4"], [f'line 2, column 1: "ff ff ff ff 7f": the kind of part 1 of 2 {TOO_LARGE} (refusal 2)']),
    ("03 01 01 02\n04 00 02 80 80 80 80 10", ["refused 2 7"], [f'line 2, column 10: "80 80 80 80 10": the relay of part 1 of 2 {TOO_LARGE} (refusal 2)']),
    (MARKED + "07 80 80 80 80 10", ["refused 2 13"], [f'line 4, column 4: "80 80 80 80 10": the relay of part 3 of 4 {TOO_LARGE} (refusal 2)']),
    (MARKED + "07 81 00", ["refused 2 13"], [f'line 4, column 4: "81 00": the relay of part 3 of 4 is not in its shortest form, since {GOES_ON}: type "01" (refusal 2)']),
    (H1 + "ff ff ff ff 10 01", ["refused 2 12"], [f'line 4, column 1: "ff ff ff ff 10": the allowance (W) {TOO_LARGE} (refusal 2)']),
    (H1 + "64 01 81 80 80 80 10", ["refused 2 14"], [f'line 4, column 7: "81 80 80 80 10": event 2 {TOO_LARGE} (refusal 2)']),
    # 3: a count outside its range
    ("01", ["refused 3 0"], ['line 1, column 1: "01": the number of terminals (T) is 1, and must be 2 to 64 (refusal 3)']),
    ("64", ["refused 3 0"], ['line 1, column 1: "64": the number of terminals (T) is 100, and must be 2 to 64; "64" is 100, and 64 is typed "40" (refusal 3)']),
    ("03 32", ["refused 3 1"], ['line 1, column 4: "32": the number of relays (R) is 50, and must be 0 to 32; "32" is 50, and 32 is typed "20" (refusal 3)']),
    ("03 01 2a", ["refused 3 2"], ['line 1, column 7: "2a": the number of buttons (B) is 42, and must be 0 to 32 (refusal 3)']),
    ("03 01 01 81 02", ["refused 3 3"], ['line 1, column 10: "81 02": the number of parts (C) is 257, and must be 0 to 256 (refusal 3)']),
    ("ff ff ff ff 0f", ["refused 3 0"], ['line 1, column 1: "ff ff ff ff 0f": the number of terminals (T) is 4,294,967,295, and must be 2 to 64 (refusal 3)']),
    ("03 80 80 80 80 08", ["refused 3 1"], ['line 1, column 4: "80 80 80 80 08": the number of relays (R) is 2,147,483,648, and must be 0 to 32 (refusal 3)']),
    ("03 01 ff ff ff ff 07", ["refused 3 2"], ['line 1, column 7: "ff ff ff ff 07": the number of buttons (B) is 2,147,483,647, and must be 0 to 32 (refusal 3)']),
    # 4: no such kind
    ("03 01 01 02\n08 00 02", ["refused 4 4"], ['line 2, column 1: "08": there is no such kind of part: the kinds are 0 to 7 (refusal 4)']),
    ("03 01 01 02\n10 00 02", ["refused 4 4"], ['line 2, column 1: "10": there is no kind 16 of part: the kinds are 0 to 7 (refusal 4)']),
    ("03 01 01 02\n84 02 00 02 00", ["refused 4 4"], ['line 2, column 1: "84 02": there is no kind 260 of part: the kinds are 0 to 7 (refusal 4)']),
    ("03 01 01 02\n84 80 80 80 08 00 02 00", ["refused 4 4"], ['line 2, column 1: "84 80 80 80 08": there is no kind 2,147,483,652 of part: the kinds are 0 to 7 (refusal 4)']),
    # 5: no such terminal
    ("03 01 01 02\n03 00 02 00\n04 02 09 00\n", ["refused 5 10"], ['line 3, column 7: "09": there is no such terminal: the board has 3, 0 to 2 (refusal 5)']),
    ("0c 01 01 02\n03 10 02 00\n", ["refused 5 5"], ['line 2, column 4: "10": there is no terminal 16: the board has 12, 0 to 11; "10" is 16, and 10 is typed "0a" (refusal 5)']),
    ("0c 01 01 02\n03 12 02 00\n", ["refused 5 5"], ['line 2, column 4: "12": there is no terminal 18: the board has 12, 0 to 11 (refusal 5)']),
    ("02 01 01 02\n03 82 01 02 00\n", ["refused 5 5"], ['line 2, column 4: "82 01": there is no terminal 130: the board has 2, 0 to 1 (refusal 5)']),
    ("03 01 01 02\n03 00 ff ff ff ff 0f\n", ["refused 5 6"], ['line 2, column 7: "ff ff ff ff 0f": there is no terminal 4,294,967,295: the board has 3, 0 to 2 (refusal 5)']),
    # 6: both ends equal
    ("03 01 01 02\n03 00 00 00\n", ["refused 6 6"], ['line 2, column 7: "00": both ends of part 1 of 2 are terminal 0 (refusal 6)']),
    # 7: no such relay or button
    ("03 01 01 02\n03 00 02 01\n", ["refused 7 7"], ['line 2, column 10: "01": there is no such button: the board has 1, number 0 (refusal 7)']),
    ("03 00 00 02\n01 00 02 00\n", ["refused 7 7"], ['line 2, column 10: "00": there is no such relay: the board has none (refusal 7)']),
    ("03 0c 00 02\n04 00 02 11\n", ["refused 7 7"], ['line 2, column 10: "11": there is no relay 17: the board has 12, 0 to 11; "11" is 17, and 11 is typed "0b" (refusal 7)']),
    (MARKED + "07 01\n", ["refused 7 13"], ['line 4, column 4: "01": there is no such relay: the board has 1, number 0 (refusal 7)']),
    ("03 0c 00 02\n07 11\n", ["refused 7 5"], ['line 2, column 4: "11": there is no relay 17: the board has 12, 0 to 11; "11" is 17, and 11 is typed "0b" (refusal 7)']),
    (H1 + "64 01 05", ["refused 7 14"], ['line 4, column 7: "05": event 2 pushes button 2, and there is no such button: the board has 1, number 0 (refusal 7)']),
    (H1 + "64 01 ff 01", ["refused 7 14"], ['line 4, column 7: "ff 01": event 2 pushes button 127, and there is no button 127: the board has 1, number 0 (refusal 7)']),
    ("03 00 0a 00\n64 16", ["refused 7 5"], ['line 2, column 4: "16": event 1 releases button 11, and there is no button 11: the board has 10, 0 to 9; "16" is 22, and 16 is typed "10" (refusal 7)']),
    ("03 01 01 02\n03 00 02 80 80 80 80 08\n", ["refused 7 7"], ['line 2, column 10: "80 80 80 80 08": there is no button 2,147,483,648: the board has 1, number 0 (refusal 7)']),
    ("03 0c 00 02\n04 00 02 fe ff ff ff 0f\n", ["refused 7 7"], ['line 2, column 10: "fe ff ff ff 0f": there is no relay 4,294,967,294: the board has 12, 0 to 11 (refusal 7)']),
    (H1 + "64 01 ff ff ff ff 0f", ["refused 7 14"], ['line 4, column 7: "ff ff ff ff 0f": event 2 pushes button 2,147,483,647, and there is no button 2,147,483,647: the board has 1, number 0 (refusal 7)']),
    # 8: a winding too many
    ("03 01 01 02\n04 00 02 00\n04 02 01 00", ["refused 8 11"], ['line 3, column 10: "00": relay 0 has a regular winding already, at line 2, column 10 (refusal 8)']),
    (H5.replace("04 02 01 01", "05 02 01 00"), ["refused 8 15"], ['line 4, column 10: "00": relay 0 has a drawing winding already, at line 2, column 10 (refusal 8)']),
    (H5.replace("04 02 01 01", "06 02 01 00"), ["refused 8 15"], ['line 4, column 10: "00": relay 0 has a dropping winding already, at line 3, column 10 (refusal 8)']),
    (H5.replace("04 02 01 01", "04 02 01 00"), ["refused 8 15"], ['line 4, column 10: "00": relay 0 has a drawing winding already, at line 2, column 10: so it can have no regular winding (refusal 8)']),
    ("03 01 01 02\n04 00 02 00\n06 02 01 00", ["refused 8 11"], ['line 3, column 10: "00": relay 0 has a regular winding already, at line 2, column 10: so it can have no dropping winding (refusal 8)']),
    # 17: a relay marked twice
    (MARKED + "07 00\n07 00\n64", ["refused 17 15"], ['line 5, column 4: "00": relay 0 is marked as starting drawn already, at line 4, column 4 (refusal 17)']),
    ("03 02 00 04\n07 01 07 00\n07 01\n", ["refused 17 9"], ['line 3, column 4: "01": relay 1 is marked as starting drawn already, at line 2, column 4 (refusal 17)']),
    # 9: a winding too few
    ("03 01 01 01\n07 00\n64", ["refused 9 6"], ['line 3, column 1: "64": the board ends before this, after 1 part: relay 0 has no winding (refusal 9)']),
    ("03 01 01 01\n03 00 02 00\n64", ["refused 9 8"], ['line 3, column 1: "64": the board ends before this, after 1 part: relay 0 has no winding (refusal 9)']),
    ("03 01 01 01\n03 00 02 00\n", ["refused 9 8"], ["line 2, column 12: the board ends here, and so does the input, after 1 part: relay 0 has no winding (refusal 9)"]),
    ("03 02 01 01\n05 00 02 00\na0 8d 06", ["refused 9 8"], ['line 3, column 1: "a0 8d 06": the board ends before this, after 1 part: relay 0 has a drawing winding and no dropping winding, and 1 other relay lacks one too (refusal 9)']),
    ("03 04 01 02\n06 00 02 02\n04 00 02 00 80", ["refused 9 12"], ['line 3, column 13: "80": the board ends before this, after 2 parts: relay 1 has no winding, and 2 other relays lack one too (refusal 9)']),
    ("03 01 01 01\n06 00 02 00\nffff ff ff ff ff", ["refused 9 8"], ['line 3, column 1: "ff ff ff ff ff": the board ends before this, after 1 part: relay 0 has a dropping winding and no drawing winding (refusal 9)']),
    # 12, with which a session goes on
    (H1 + "64 01\n01 00 00", ["2 refused 12", "4 refused 12"], ['line 5, column 1: "01": event 2 pushes button 0, which is pushed already (refusal 12)', 'line 5, column 7: "00": event 4 releases button 0, which is released already (refusal 12)']),
    (H1 + "64 00 80", ["1 refused 12", "refused 1 15"], ['line 4, column 4: "00": event 1 releases button 0, which is released already (refusal 12)', f'line 4, column 9: {END}, inside event 2: "80" goes on, since {GOES_ON} (refusal 1)']),
]

# Typed boards whose page is refused, the length of the log, the line, and the words for it: what they begin with, typed and as
# bytes, which is no file where LOG is wrong and else the file's name and the place, with what stands there; and what is wrong.
LONG_LOG = "refused 13 0", ("herdspiral: ", "herdspiral: "), "LOG is above 65,536, the most moves that a log is for (refusal 13)"
BUTTONS = "the board has {} buttons, and a page of all settings is for 12 at most (refusal 20)"
PAGES = [
    (H1, "65537", *LONG_LOG),
    (H1, "65538", *LONG_LOG),
    (H1 + "64 01 05 80 80", "9" * 100, *LONG_LOG),
    ("02 00 0d 00", "65537", *LONG_LOG),
    ("02 00 20 00 # more", "00100000", *LONG_LOG),
    ("02 00 0d 00", "4096", "refused 20 0", ('t.hex: line 1, column 7: "0d": ', 't: place 2: "0d": '), BUTTONS.format(13)),
    ("02 00 0d 00", "65536", "refused 20 0", ('t.hex: line 1, column 7: "0d": ', 't: place 2: "0d": '), BUTTONS.format(13)),
    ("# a\n02\n00 # R\n\t0D # B\n00", "0", "refused 20 0", ('t.hex: line 4, column 2: "0D": ', 't: place 2: "0d": '), BUTTONS.format(13)),
    ("02\r00\r\n1f00", "7", "refused 20 0", ('t.hex: line 3, column 1: "1f": ', 't: place 2: "1f": '), BUTTONS.format(31)),
    (H1.replace("01 01", "01 20"), "5", "refused 20 0", ('t.hex: line 1, column 7: "20": ', 't: place 2: "20": '), BUTTONS.format(32)),
    (H5.replace("01 04", "0e 04") + "64", "5", "refused 20 0", ('t.hex: line 1, column 7: "0e": ', 't: place 2: "0e": '), BUTTONS.format(14)),
    (H1.replace("01 01", "01 1e") + "ff", "1", "refused 20 0", ('t.hex: line 1, column 7: "1e": ', 't: place 2: "1e": '), BUTTONS.format(30)),
    ("02 00 12 00", "7", "refused 20 0", ('t.hex: line 1, column 7: "12": ',), BUTTONS.format(18).replace(" (", '; "12" is 18, and 12 is typed "0c" (')),
    ("02 00 10 00", "7", "refused 20 0", ('t.hex: line 1, column 7: "10": ',), BUTTONS.format(16).replace(" (", '; "10" is 16, and 10 is typed "0a" (')),
]

# Bytes that look like typed text, and bytes that do not.
LOOKS_TYPED = [H1 + "64 01", "03", "# a board\n03 01", "\ufeff03 01 01", "03 01 0x", "  0c\r\n", "03 # ä", H1.upper(), "0x03 0x01", "3 1 1 2", "O3 01"]
LOOKS_NOT = [b"", b"A", b"\x03\x01\x01\x02", b"0", b"03 01\0", b"\x41\x00\x00\x00", b"03 01\x1b", b"\x80\x80", b"\x80\x80\x80", b"\xff0"]

# The words for a refusal, and in them the numbers that are held to the session.
FORMS = {
    1: r"the input ends here, (?:and .+ is wanted|inside .+: \"(?P<begun>[0-9a-f ]+)\" goes on, since .+)",
    2: rf".+ (?:(?P<long>is longer than 5 bytes, since .+)|(?P<large>{TOO_LARGE})|is not in its shortest form, since .+: type \"(?P<shortest>[0-9a-f ]+)\")",
    3: r"the number of (?:terminals|relays|buttons|parts) \([TRBC]\) is (?P<value>[\d,]+), and must be \d+ to \d+(?:; .*)?",
    4: r"there is no (?:such kind|kind (?P<value>[\d,]+)) of part: the kinds are 0 to 7",
    5: r"there is no (?:such terminal|terminal (?P<value>[\d,]+)): the board has (?P<terminals>\d+), 0 to \d+(?:; .*)?",
    6: r"both ends of part \d+ of (?P<parts>\d+) are terminal (?P<value>\d+)",
    7: r"(?:event \d+ (?:pushes|releases) button (?P<button>[\d,]+), and )?there is no (?:such )?(?P<thing>relay|button)(?: [\d,]+)?: the board has (?P<many>none|\d+).*",
    8: r"relay (?P<value>\d+) has a \w+ winding already, at place (?P<earlier>\d+)(?:: so it can have no \w+ winding)?",
    17: r"relay (?P<value>\d+) is marked as starting drawn already, at place (?P<earlier>\d+)",
    9: r"the board ends (?:before this|here, and so does the input), after (?P<parts>\d+) parts?: relay (?P<relay>\d+) has .+",
    10: r"the session is longer than 65,536 bytes: the first byte too many is at place 65536",
}


def by_awk(said, data):
    """The sentences of words.awk for these refused lines of a session of bytes."""
    text = "".join(line + "\n" for line in said) + "bytes\n" + "".join(f" {byte:03o}\n" for byte in data[: LONGEST + 1])
    start = ["awk", *(word for name in ("typed.awk", "words.awk") for word in ("-f", repository.path("script", name)))]
    return program.lines(program.run(start, text.encode(), env={**os.environ, "NAME": "it", "LONGEST_INPUT": str(LONGEST), "LC_ALL": "C"}))


def typed_cases(awk, folder, own):
    """Each typed session through the script, with this awk, by way of a folder and an environment in which it is the one that is
    found. Where its board is refused, its page is refused in the same words."""
    for text, lines, words in CASES:
        stand_in.put(os.path.join(folder, "t.hex"), text)
        told = program.run([SCRIPT, "t.hex"], cwd=folder, env=own)
        found = Told(program.refused_lines(told.out), told.errors, told.status)
        status = 3 if lines[-1].startswith("refused") else 0
        want = Told("".join(line + "\n" for line in lines).encode(), "".join(f"t.hex: {word}\n" for word in words).encode(), status)
        yield same(f"{awk}: {text!r}", found, want)
        page = report_model.page_of(typed_bytes(text), 4_096)
        told = program.run([SCRIPT, "--settings", "t.hex"], cwd=folder, env=own)
        yield same(f"{awk}: the page of {text!r}", told, want if page.startswith(b"refused ") else program.well(page))


def page_cases(awk, folder, own):
    """Pages that are refused by 13 and by 20 through the script, with this awk, typed and as bytes."""
    for text, log, line, places, words in PAGES:
        for name, content, place in zip(("t.hex", "t"), (text, typed_bytes(text)), places):
            stand_in.put(os.path.join(folder, name), content)
            told = program.run([SCRIPT, "--settings", name, log], cwd=folder, env=own)
            want = Told(f"{line}\n".encode(), f"{place}{words}\n".encode(), 3)
            yield same(f"{awk}: the page of {text!r} in {name}, logs of {log:.20}", told, want)


def with_each_awk():
    """The exact words, with each awk that this machine has."""
    with tempfile.TemporaryDirectory() as folder:
        for awk in stand_in.found(stand_in.AWKS):
            stand_in.put_awk(os.path.join(folder, "bin"), awk)
            own = {**os.environ, "PATH": os.path.join(folder, "bin") + os.pathsep + os.environ["PATH"]}
            yield from typed_cases(awk, folder, own)
            yield from page_cases(awk, folder, own)


def boards_refused():
    """Bytes whose board is refused, some of which look like typed text: their page is refused in the words of the session, whatever
    the length of the log."""
    every = [text.encode() for text in LOOKS_TYPED] + LOOKS_NOT + [typed_bytes(text) for text, _, _ in CASES]
    refused = [data for data in every if report_model.page_of(data, 4_096).startswith(b"refused ")]
    yield f"{len(refused)} of {len(every)} boards are refused, and not all", 20 < len(refused) < len(every)
    with tempfile.TemporaryDirectory() as folder:
        for data in refused:
            stand_in.put(os.path.join(folder, "t"), data)
            starts = ["t"], ["--settings", "t"], ["--settings", "t", "65537"]
            session, *pages = (program.run([SCRIPT, *words], cwd=folder) for words in starts)
            yield f"{data!r}: a session that is refused: {session}", session.status == 3
            yield same(f"the page of {data!r}", pages, [session] * 2)


def hints():
    """Typed text that is taken for bytes: by its file's name, or on standard input."""
    with tempfile.TemporaryDirectory() as folder:
        for data, looks in [(text.encode(), True) for text in LOOKS_TYPED] + [(data, False) for data in LOOKS_NOT]:
            for name in ("t.txt", "t.HEX", "t", None):
                stand_in.put(os.path.join(folder, name or "unused"), data)
                told = program.run([SCRIPT, *([name] if name else [])], data, cwd=folder)
                hint = told.errors.decode().split("\n")[1:-1]
                wanted = [f"{name or 'standard input'}: {HINT}"] if looks else []
                yield same(f"{data!r} in {name}: a hint", (hint, told.status), (wanted, 3))


def lies():
    """Refusals that a session does not meet: number and place are said, and nothing else."""
    board = bytes.fromhex(H1)
    for line in ["refused 1 3", "refused 1 99", "refused 2 1", "refused 5 99", "refused 8 11", "refused 9 5", "refused 9 12", "refused 10 0", "refused 7 12", "refused 17 4", "refused 18 4"]:
        number, place = line.split()[1:]
        yield same(f"{line}, which is not so", by_awk([line], board), [f"it: place {place}: this is refused (refusal {number})"])


def numbers(data, many):
    """The first numbers of a session, so many."""
    found, at = [], 0
    for _ in range(many):
        value, at = board_model.number_at(data, at)
        found.append(value)
    return found


def facts(data, number, place, found):
    """Whether the numbers that the words name are those of the session."""
    named = {name: value.replace(",", "") for name, value in found.groupdict().items() if value is not None}
    form = data[place : place + LONGEST_NUMBER]
    form = form[: next((at for at, byte in enumerate(form, 1) if byte < 128), LONGEST_NUMBER)]
    if number == 1:
        return "begun" not in named or data.endswith(bytes.fromhex(named["begun"])) and place == len(data)
    if number == 2:
        value = sum(byte % 128 << 7 * at for at, byte in enumerate(form))
        shortest = bytes(board_model.number_bytes(value)).hex(" ")
        return (named.get("shortest", shortest), "long" in named, "large" in named) == (shortest, form[-1] >= 128, value > LARGEST and form[-1] < 128)
    if number == 10:
        return len(data) > LONGEST
    if number == 9:
        return int(named["relay"]) < numbers(data, 4)[1] and int(named["parts"]) == numbers(data, 4)[3]
    value = board_model.number_at(data, place)[0]
    if number == 3:
        return int(named["value"]) == value
    terminals, relays, buttons, parts = numbers(data, 4)
    if number == 7:
        many = {"relay": relays, "button": buttons}[named["thing"]]
        return named["many"] == (str(many) if many else "none") and int(named.get("button", value // 2)) == value // 2
    if number in (8, 17) and board_model.number_at(data, int(named["earlier"]))[0] != value:
        return False
    return int(named.get("value", value)) == value and int(named.get("terminals", terminals)) == terminals and int(named.get("parts", parts)) == parts


def held(name, data, said, words):
    """The checks on the words for one session's refused lines: one for each, with its number and place, the bytes that stand
    there, and words of its form whose numbers are the session's."""
    hint = words[-1:] == [f"it: {HINT}"]
    words = words[:-1] if hint else words
    yield f"{name}: {len(said)} refused lines have as many sentences: {words[:3]}", len(words) == len(said)
    for line, sentence in zip(said, words):
        form = re.fullmatch(r'it: place (\d+): (?:"([0-9a-f ]+)": )?(.*) \(refusal (\d+)\)', sentence)
        closing = re.fullmatch(r"refused (\d+) (\d+)", line)
        number, place = (int(closing[1]), int(closing[2])) if closing else (12, int(form[1]) if form else 0)
        quoted = bytes.fromhex(form[2] or "") if form else b""
        fine = bool(form) and (int(form[4]), int(form[1])) == (number, place) and data[place : place + len(quoted)] == quoted
        fine = fine and bool(quoted) == (number != 1 and place < len(data))
        if fine and closing:
            found = re.fullmatch(FORMS.get(number, "never"), form[3])
            fine = bool(found) and facts(data, number, place, found)
        elif fine:
            does, done = ("pushes", "pushed") if quoted[0] % 2 else ("releases", "released")
            fine = len(quoted) == 1 and form[3] == f"event {line.split()[0]} {does} button {quoted[0] // 2}, which is {done} already"
        yield f"{name}: {line}: {sentence}, {data[:40].hex(' ')}", fine


def many(seed, count):
    """Refused sessions of every sort, and with each form of a number at each place."""
    sessions = [(f"seed {seed}, {sort}, {place}", session) for sort, place, session in session_sorts.sessions(seed, count)]
    sessions += [(name, session) for session, name in number_sessions.whole().items()]
    answers = program.many(program.command("session_cases"), [session for _, session in sessions])
    if None in answers:
        return [("session_cases answers", False)]
    refused = [(name, data, program.refused_lines(out).decode().split("\n")[:-1]) for (name, data), out in zip(sessions, answers)]
    refused = [(name, data, said) for name, data, said in refused if said]
    with concurrent.futures.ThreadPoolExecutor(os.cpu_count()) as workers:
        told = workers.map(lambda own: by_awk(own[2], own[1]), refused)
    checks = [check for (name, data, said), words in zip(refused, told) for check in held(name, data, said, words)]
    met = {line.split()[1] if line.startswith("refused") else "12" for _, _, said in refused for line in said}
    return checks + [same("every refusal is met", met, {str(number) for number in (*range(1, 11), 12, 17)})]


def main(seed, count):
    told = program.run([SCRIPT, "samples/h0.hex"], cwd=repository.ROOT, timeout=None)
    if told.status:
        return [(f"the program starts; status {told.status}: {told.errors.decode()[-600:]}", False)]
    return [*with_each_awk(), *boards_refused(), *hints(), *lies(), *many(seed, count)]


if __name__ == "__main__":
    seed, count = [int(word) for word in sys.argv[1:3]] + [1, 1_500][len(sys.argv[1:3]) :]
    sys.exit(repository.report(main(seed, count)))
