"""The page of all settings of a board's buttons (request A10), which the proved program `herdspiral` prints where it is started
with the length of the logs: of boards by hand (tests/lib/book_reports.py); of generated boards as files, in sessions and with
anything behind them; of damaged boards; of inputs around the longest; with every form of a length, and with what is no number;
with streams that cannot be read or written, and with little stack. Each is held to the model (tests/lib/report_model.py), whole:
its output, what it says on standard error, its status. Each check is a name and whether it holds."""
import collections
import itertools
import os

import board_model
import book_reports
import book_sessions
import damaged_sessions
import judging
import program
import report_model as model
import session_files
import setting_boards
from long_sessions import LONGEST
from program import Told, session_told, well
from repository import same
from run_model import LONGEST_LOG

COMMAND = program.command("herdspiral")
UNREADABLE = Told(b"", b"herdspiral: standard input cannot be read\n", 0)
UNWRITABLE = Told(b"", b"herdspiral: standard output cannot be written\n", 0)
NO_NUMBER = Told(b"", b"herdspiral: the length of the log is not a decimal number\n", 0)
MOST_MODELLED = 5  # buttons of a board for all of whose settings the model has time
MANY_BUTTONS = range(model.MOST_BUTTONS + 1, 33)
BOARDS, DAMAGED = 30, 12  # so many boards, and so many with each damage
LONGEST_ARGUMENT = 4_096  # bytes of an argument that the program looks at
LOGS = ["0", "00", "1", "2", "007", "10", "4096", "004096", "65535", "65536", "0000065536"]
TOO_LONG = ["65537", "065537", "65538", "99999", "100000", "655360", "4294967296", "4294967297", "18446744073709551616"]
TOO_LONG += ["18446744073709551617", "9" * 100, "1" + "0" * 1_000, "9" * LONGEST_ARGUMENT]
LONG_FORMS = ["0" * 100, "0" * 4_000 + "7", "0" * 1_000 + str(LONGEST_LOG)]
NO_NUMBERS = ["", " ", "-", "-1", "-0", "+5", "0x10", "4 096", "4,096", "4096.0", "4e3", "4_096", " 4096", "4096 ", "4096\n"]
NO_NUMBERS += ["abc", "4096a", "a4096", "1" * 100 + "x", "--help", "/", ":", "\u0664\u0660", "\xb2", "4096\xa0"]
NO_NUMBERS += ["9" * (LONGEST_ARGUMENT + 1)]
OFTEN = 5  # so often a page is printed, and each refusal of one
PRINTED = ["page", *(f"refused {number}" for number in (*range(1, 11), 13, 17, 20))]


def printed(log, data, **more):
    """What the program comes to with this length and these bytes."""
    return program.run(COMMAND + [log], data, **more)


# What is asked: each with its name, the length and the bytes.


def behind(dice, board):
    """What may stand behind a board: nothing, W, W and events, some that are refused, or no number at all."""
    events = [[], session_files.some_presses(dice, board), [64, 0, 0]]
    return [b"", *(session_files.typed([100] + some) for some in events), b"\x80" * 5, dice.randbytes(40)]


def boards(dice):
    """Generated boards, with each thing behind them, the lengths in turn."""
    logs = itertools.cycle(LOGS)
    for number in range(BOARDS):
        board = setting_boards.small(dice, number % (MOST_MODELLED + 1))
        yield from (("a board", next(logs), board_model.file_of(*board) + more) for more in behind(dice, board))


def many_buttons(dice):
    """Boards of more than 12 buttons, with logs that are long and too long."""
    for buttons in MANY_BUTTONS:
        data = board_model.file_of(*setting_boards.small(dice, buttons)) + dice.choice([b"", b"\x64\x01", b"\xff"])
        yield from ((f"{buttons} buttons", log, data) for log in (dice.choice(LOGS), "65536", dice.choice(TOO_LONG)))


def wound(dice, buttons):
    """A board with so many buttons and a relay at least."""
    every = (setting_boards.small(dice, buttons) for _ in itertools.count())
    return next(board for board in every if board[0][1])


def damaged(dice):
    """Boards with each damage, half of them with many buttons, and with logs that may be too long: what the reader refuses comes
    first."""
    for damage, number in itertools.product(damaged_sessions.DAMAGES.values(), range(DAMAGED)):
        buttons = dice.choice(MANY_BUTTONS[:-1]) if number % 2 else number % MOST_MODELLED
        draft = damaged_sessions.Draft(wound(dice, buttons), [100])
        damage(dice, draft)
        yield damage.__name__, dice.choice(LOGS + TOO_LONG), draft.data()


def longest(dice):
    """Inputs of as many bytes as are read, and of more, whatever they are."""
    few, many = (board_model.file_of(*setting_boards.small(dice, buttons)) for buttons in (3, 13))
    for name, data in (("a board", few), ("13 buttons", many), ("T 1", b"\x01"), ("top bits", b"")):
        for length, log in itertools.product((LONGEST - 1, LONGEST, LONGEST + 1, 2 * LONGEST), ("0", "65537")):
            yield f"{name}, {length} bytes", log, data.ljust(length, b"\x80")


def lengths():
    """Every form of a length, on a board that buzzes after 3 moves while its button is pushed."""
    data = bytes.fromhex(book_sessions.LED_IN_BUTTON)
    yield from (("a buzzer that is led in", log, data) for log in LOGS + TOO_LONG + LONG_FORMS)


# The checks.


def by_hand():
    """The boards by hand: alone, and with W and events behind them."""
    for name, data, room, told in book_reports.reports():
        wanted = b"refused %d 0\n" % told if isinstance(told, int) else model.page(told)
        for more in (b"", b"\x64\x01\x01\x00"):
            told = printed(str(room), data + more)
            yield same(f"the page of {name}, logs of {room}, behind it {more}", told, session_told(wanted))


def by_model(asked):
    """That the program prints the page of the board that these bytes begin with, or what it is refused by, in each of these cases;
    and that each occurs often, printed with its count."""
    counts = collections.Counter()
    for name, log, data in asked:
        wanted = model.page_of(data, int(log))
        counts["page" if wanted.startswith(b"settings") else wanted.decode().rsplit(" ", 1)[0]] += 1
        yield same(f"{name}, logs of {log:.30}, {data[:600].hex()}", printed(log, data), session_told(wanted))
    print(f"{sum(counts.values()):7} pages of bytes: {', '.join(f'{counts[what]} {what}' for what in PRINTED)}")
    for what in PRINTED:
        yield f"{what}: {counts[what]} times, at least {OFTEN}", counts[what] >= OFTEN
    yield f"nothing else is printed: {set(counts) - set(PRINTED)}", set(counts) <= set(PRINTED)


def no_numbers():
    """What is no number, on boards that are fine and that would be refused."""
    fine, many = map(bytes.fromhex, (book_sessions.H1, book_reports.THIRTEEN))
    inputs = {"H1": fine, "nothing": b"", "13 buttons": many, "too many bytes": bytes(LONGEST + 1)}
    for log, name in itertools.product(NO_NUMBERS, inputs):
        yield same(f"{name}, logs of {log!r:.30}, which is no number", printed(log, inputs[name]), NO_NUMBER)


def redirected(words, data):
    """The program started for a page by a shell with these redirections."""
    return program.run(["sh", "-c", f'exec "$@" {words}', "sh"] + COMMAND + ["5"], data)


def streams():
    """Streams that cannot be read or written, and a reader who has left."""
    data, refused = bytes.fromhex(book_reports.PARALLEL), bytes.fromhex(book_reports.THIRTEEN)
    for name, words, wanted in (
        ("input that is closed", "0<&-", UNREADABLE),
        ("input that is a directory", "0</", UNREADABLE),
        ("output that is full", ">/dev/full", UNWRITABLE),
        ("output that is closed", "1>&-", UNWRITABLE),
        ("output that is open for reading only", "1</dev/null", UNWRITABLE),
    ):
        yield same(f"a page, {name}", redirected(words, data), wanted)
        yield same(f"a refused page, {name}", redirected(words, refused), wanted)
    yield same("a refused page, standard error that is closed", redirected("2>&-", refused), well(b"refused 20 0\n"))
    for name, ignoring in (("not ignored", ""), ("ignored", "trap '' PIPE; ")):
        reading, writing = os.pipe()
        os.close(reading)
        start = ["sh", "-c", f'{ignoring}exec "$@"', "sh"] + COMMAND + ["5"]
        yield same(f"a page whose reader has left, its signal {name}", program.run(start, data, stdout=writing), UNWRITABLE)
        os.close(writing)
    with open("/dev/zero", "rb") as endless:
        yield same("a page of endless bytes", printed("5", b"", stdin=endless), session_told(b"refused 10 0\n"))


def small_stack(dice):
    """2 MiB of stack are enough for 12 buttons with the longest log."""
    for number in range(3):
        data = board_model.file_of(*setting_boards.large(dice, model.MOST_BUTTONS))
        told = program.run(program.command("herdspiral", judging.STACK) + [str(LONGEST_LOG)], data)
        yield same(f"12 buttons, board {number}, with {judging.STACK} bytes of stack", told, printed(str(LONGEST_LOG), data))
        yield f"board {number} has a page: {told.out}", told.out.startswith(b"settings: 4096\n")


def checks(dice):
    asked = [*boards(dice), *many_buttons(dice), *damaged(dice), *longest(dice), *lengths()]
    return [*by_hand(), *by_model(asked), *no_numbers(), *streams(), *small_stack(dice)]
