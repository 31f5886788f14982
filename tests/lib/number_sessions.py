"""Sessions for tests/sessions.py and tests/words.py that are H2 with one of its numbers typed otherwise, or H2 with a mark and one
of the mark's numbers typed otherwise: at each place, forms of one to five bytes at their edges, numbers that would fit if they
were narrowed before they are held to their limit, and forms that are too large, too long, not shortest or cut. Whole, and cut
at every byte. What each must print is worked out by the models beside this file."""
import board_model as model
import run_model
from board_model import LARGEST, LONGEST_NUMBER, NARROW, number_bytes
from running import total

COUNTS, PARTS = [3, 1, 1], [[3, 0, 2, 0], [1, 0, 2, 0], [4, 2, 1, 0]]
H2 = run_model.Board(COUNTS, PARTS)
REST = [100, 1, 0]  # W 100, a push and a release
NUMBERS = [*COUNTS, len(PARTS), *(number for part in PARTS for number in part)]
NAMES = "T R B C kind a b button kind a b relay kind a b relay W event event".split()
MARK = {"kind": model.MARK, "relay": 0}
LOG = 4_096
EDGES = [edge for groups in range(1, LONGEST_NUMBER + 1) for edge in (128**groups - 1, 128**groups)]
EDGES += [2**31 - 1, 2**31, LARGEST, LARGEST + 1, LARGEST + 128**4]  # the last is ff ff ff ff 10


def forms(number):
    """What is typed for a number below 128."""
    narrowed = [own + 2**bits for own in (0, 1, number) for bits in (7, 14, 21, 28, *NARROW, 32)]
    found = [number_bytes(value) for value in EDGES + narrowed]
    for first, more in ((128 + number, 128), (128, 128), (255, 255)):
        for count in range(1, LONGEST_NUMBER + 1):
            goes_on = [first] + [more] * (count - 1)
            found += [goes_on, goes_on + [0]]
    return [bytes(form) for form in found]


def otherwise(numbers, at):
    """The sessions of these numbers, each below 128, with the one at a place typed otherwise: each with what is typed."""
    for form in forms(numbers[at]):
        yield bytes(numbers[:at]) + form + bytes(numbers[at + 1 :]), form.hex(" ")


def whole():
    """The sessions that are not cut, none twice: each with its name."""
    found = {}
    for at, name in enumerate(NAMES):
        for data, form in otherwise(NUMBERS + REST, at):
            found.setdefault(data, f"H2, number {at}, {name}: {form}")
    marked = [*COUNTS, len(PARTS) + 1, *NUMBERS[4:], *MARK.values()]
    for at, name in enumerate(MARK, len(NUMBERS)):
        for data, form in otherwise(marked + REST, at):
            found.setdefault(data, f"H2 with a mark, its {name}: {form}")
    return found


def lines(data):
    """The lines of a session whose board is that of H2, with a mark or without, or is refused."""
    found, pushed, event = [], set(), None
    try:
        at, drawn = model.read(data)
        _, at = model.number_at(data, at)  # W, which is read and ignored
        while True:
            if event is not None and event % 2 == (event // 2 in pushed):
                found.append(f"{len(found)} refused 12")
            else:
                pushed = pushed if event is None else pushed ^ {event // 2}
                ran = run_model.run(H2, drawn, pushed, LOG)
                drawn = ran.drawn
                found.append(f"{len(found)} {ran.word} {len(ran.log)} {total(drawn)}")
            if at == len(data):
                return found
            event, after = model.number_at(data, at)
            if event // 2 >= COUNTS[2]:
                raise model.Refused(7, at)
            at = after
    except model.Refused as refusal:
        return found + ["refused %d %d" % refusal.args]


def sessions():
    """All of them, cut and not, none twice: each one's name, its bytes and what it must print."""
    found = {}
    for data, name in whole().items():
        for length in range(len(data), -1, -1):
            found.setdefault(data[:length], f"{name}, {length} bytes of {len(data)}")
    return [(name, data, "".join(line + "\n" for line in lines(data)).encode()) for data, name in found.items()]
