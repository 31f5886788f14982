"""Compares the proved program `file_cases` with the model of the rule book in tests/lib/board_model.py on thousands of
generated cases: good files, damaged files, files with a part twice, cut files, random bytes, boards handed in with and without
a fault. Those are moved and run as well, and their buttons pushed and released, by `run_cases`, with the board's own kept sets
and with sets of no board. Seeded, so each run tries the same cases;
`python3 tests/board_files.py SEED CASES` tries others, or more (it is 1 and 10,500 else). Needs the programs
file_cases and run_cases, which `rt ci` builds, or `rt run` in their folders."""
import itertools
import os
import random
import sys

sys.path.insert(0, os.path.join(os.path.dirname(os.path.abspath(__file__)), "lib"))
import board_model as model
import judge_model
import judging
import kept_model
import program
import repository
import run_model
from running import REFUSED, total

ODD_VALUES = [0, 1, 2, 3, 4, 5, 6, 7, 8, 32, 33, 64, 65, 127, 128, 255, 256, 257, 16383, 16384, 2097151, 2097152]
ODD_VALUES += [268435455, 268435456, model.LARGEST, model.LARGEST + 1, 2**35 - 1]
LONG_FORMS = [[0], [128, 0], [255, 127], [128, 128, 0], [128, 128, 128, 0], [255, 255, 255, 15], [255, 255, 255, 16], [128, 128, 128, 128, 0]]
HANDED_PARTS = 5 + program.START_BYTES  # the first part of a board handed in begins at this byte
NONE = frozenset()
# A move of relay 0, a run with a log of 4, a push and a release of button 0, with nothing drawn or pushed: what each asks.
ROOM = 4
ASKED = {"^": 0, "=": ROOM, "+": 0, "-": 0}


def board(dice):
    """The counts T, R, B and the parts of some fine board."""
    terminals = dice.choice([2, 3, 4, 5, 64, dice.randint(2, 64)])
    relays, buttons = dice.choice([0, 1, 1, 2, 3, 32]), dice.choice([0, 1, 2, 32])

    def ends():
        a, b = dice.randrange(terminals), dice.randrange(terminals - 1)
        return [a, b + (b >= a)]

    parts = []
    for relay in range(relays):
        for kind in dice.choice([[4], [5, 6]]):
            parts.append([kind] + ends() + [relay])
    for _ in range(dice.choice([0, 1, 2, 5, 70])):
        kind = dice.choice([0, 1, 2, 3])
        names = buttons if kind == model.BUTTON else relays
        parts.append([kind] + ends() + [dice.randrange(names)] if kind and names else [0] + ends())
    parts += judging.some_marks(dice, relays)
    dice.shuffle(parts)
    return [terminals, relays, buttons], parts


def file_case(dice):
    """The bytes of a board file, good or damaged in one of several ways."""
    counts, parts = board(dice)
    damage = dice.random()
    if parts and 0.54 < damage < 0.58:
        marks = [part for part in parts if part[0] == model.MARK]
        parts.insert(dice.randint(0, len(parts)), dice.choice(marks or parts))
    numbers = counts + [len(parts)] + [number for part in parts for number in part]
    if damage < 0.4:
        at = dice.randrange(len(numbers))
        numbers[at] = dice.choice(ODD_VALUES + [numbers[at] + 1] + [numbers[at] + 2**bits for bits in model.NARROW])
    data = []
    for number in numbers:
        form = model.number_bytes(number)
        if dice.random() < 0.005:
            form[-1] |= 128
            form += dice.choice(LONG_FORMS)
        data += form
    if damage > 0.8:
        data = data[: dice.randrange(len(data) + 1)]
    elif damage > 0.7:
        data += [dice.randrange(256) for _ in range(3)]
    elif damage > 0.6:
        data[dice.randrange(len(data))] = dice.randrange(256)
    elif damage > 0.58:
        data = [dice.randrange(256) for _ in range(dice.randrange(40))]
    return bytes(data)


def handed_row(dice, part):
    """A part as kind a b name. What the table gives it no field for is any number."""
    if part[0] == model.MARK:
        return [model.MARK, *dice.choice([dice.randbytes(2), [dice.randrange(3)] * 2, dice.sample(range(3), 2)]), part[1]]
    return (part + [dice.randrange(256)])[:4]


def handed_case(dice):
    """The bytes of a board handed in, fine or with a fault. In some the start has a relay too many or too few."""
    counts, parts = board(dice)
    start = total(judge_model.start(parts))
    if dice.random() < 0.15:
        start ^= 1 << dice.choice([dice.randrange(max(counts[1], 1)), counts[1], dice.randrange(8 * program.START_BYTES)])
    data = list(program.handed_board(counts, [handed_row(dice, part) for part in parts], start))
    if dice.random() < 0.6:
        data[dice.randrange(len(data))] = dice.choice([0, 1, 2, 3, 4, 5, 6, 7, 8, 32, 33, 64, 65, 128, 255])
    if dice.random() < 0.1:
        data = data[: dice.randrange(len(data) + 1)]
    return bytes(data)


def typed_part(row):
    """The numbers that the file has for a part handed in as kind a b name."""
    kind, a, b, name = row
    return [0, a, b] if kind == 0 else [model.MARK, name] if kind >= model.MARK else [kind, a, b, name]


def handed_board(data):
    """How long the file of a board handed in is, None for one that is not fine, its counts and its parts. It is fine exactly
    if its file reads and its start is that of its marks."""
    data = data + bytes(HANDED_PARTS + 4 * 256)
    counts, parts, start = list(data[:3]), int.from_bytes(data[3:5], "little"), int.from_bytes(data[5:HANDED_PARTS], "little")
    if parts > 256:
        return None, counts, []
    rows = [typed_part(data[at : at + 4]) for at in range(HANDED_PARTS, HANDED_PARTS + 4 * parts, 4)]
    try:
        size, marked = model.read(model.file_of(counts, rows))
    except model.Refused:
        return None, counts, rows
    return size if total(marked) == start else None, counts, rows


def calls(counts, parts):
    """What the calls come to that are asked with the board's own sets, each as its answer, the state that it leaves and the rest
    of its line."""
    own = run_model.Board(counts, parts)
    moved, after = run_model.move(own, NONE, NONE, 0) if counts[1] else ("refused 11", NONE)
    ran = run_model.run(own, NONE, NONE, ROOM)
    yield "^", f"moved {moved}", (after, NONE), ""
    rest = f" {ran.relay} {ran.earlier} {ran.between}:" + "".join(f" {byte}" for byte in ran.log)
    yield "=", f"ran {ran.word} {len(ran.log)}", (ran.drawn, NONE), rest
    pushed, released, button = ("done", "refused 12", {0}) if counts[2] else ("refused 7", "refused 7", NONE)
    yield "+", f"pressed {pushed}", (NONE, button), ""
    yield "-", f"pressed {released}", (NONE, NONE), ""


def call_lines(counts, parts):
    """The lines of the calls on a fine board, up to the sets themselves."""
    for ending, answer, (drawn, pushed), rest in calls(counts, parts):
        kept = kept_model.words(parts, (NONE, NONE), None, (drawn, pushed), "refused" in answer)
        yield ending, up_to_sets(f"{answer} {total(drawn)} {total(pushed)}{rest}{kept}")


def refused_lines(number, own):
    """The lines of the calls where all are refused by this number, up to the sets themselves."""
    return {ending: f"{line.format(number, '0 0')} sets given {own}" for ending, line in REFUSED.items()}


def up_to_sets(line):
    """A line up to the sets themselves: the model does not know those of a broken board."""
    return line.split(" near")[0]


def handed_answers(data):
    """What comes of a board handed in: the line of writing it, and those of the calls with its own sets and with sets of no
    board."""
    size, counts, parts = handed_board(data)
    if size is None:
        return "write refused 15", refused_lines(15, "own"), refused_lines(15, "foreign")
    return f"write {size}", dict(call_lines(counts, parts)), refused_lines(judge_model.FOREIGN_SETS, "foreign")


def file_answer(ending, data):
    """What reading a file comes to, and writing it back: into a buffer that has room, or into one that is a byte too short."""
    try:
        next_place, _ = model.read(data)
    except model.Refused as refusal:
        return "refused %d %d" % refusal.args
    return f"read {next_place} wrote {next_place} same" if ending == ">" else "short refused 16 kept"


def some_case(dice):
    """A case: its ending, its bytes and the line that it should print; for a board handed in also those of the calls."""
    ending = dice.choice(">>>!!?")
    data = handed_case(dice) if ending == "!" else file_case(dice)
    return ending, data, handed_answers(data) if ending == "!" else (file_answer(ending, data),)


def compared(name, cases, wanted):
    """The checks that a program prints these lines for these cases, up to kept sets, and no others."""
    return program.compared(cases, wanted, [up_to_sets(line) for line in program.answers(program.command(name), cases)])


def case_checks(found):
    """The checks on some cases: all of them by `file_cases`, the boards handed in also by the calls of `run_cases`, with the
    board's own sets and with sets of no board."""
    checks = compared("file_cases", [data.hex() + ending + "\n" for ending, data, _ in found], [lines[0] for _, _, lines in found])
    handed = [(data, lines) for ending, data, lines in found if ending == "!"]
    for ending, (place, sets) in itertools.product(ASKED, enumerate([None, kept_model.NOWHERE], 1)):
        cases = [program.handed_case([0, 0, ASKED[ending]], data, ending, kept_model.typed(sets)) for data, _ in handed]
        checks += compared("run_cases", cases, [lines[place][ending] for _, lines in handed])
    return checks


def every_line(found):
    """The lines that are wanted."""
    for _, _, (line, *calls) in found:
        yield line
        yield from (wanted for lines in calls for wanted in lines.values())


def compare(seed, count):
    dice, words = random.Random(seed), set()
    found = [some_case(dice) for _ in range(count)]
    checks = case_checks(found)
    for want in every_line(found):
        words.update(f"refused {number.split()[0]}" for number in want.split("refused ")[1:])
        words.update({want.split()[0], " ".join(want.split()[:2])})
    met = ["read", "write", "short", "moved drew", "moved rests", "moved conflict", "ran idle", "ran spent", "ran conflict", "ran buzz", "pressed done"]
    for word in met + [f"refused {number}" for number in (1, 2, 3, 4, 5, 6, 7, 8, 9, 11, 12, 15, 16, 17, 18)]:
        checks.append((f"some case answers {word}", word in words))
    return checks


if __name__ == "__main__":
    seed, count = (int(word) for word in sys.argv[1:3]) if len(sys.argv) > 2 else (1, 10_500)
    sys.exit(repository.report(compare(seed, count)))
