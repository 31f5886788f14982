"""Reports on all settings of a board's buttons (request A10). Those of the proved program `run_cases` are held to a model in
Python (tests/lib/report_model.py), which runs each setting from the start, on generated boards of up to 7 buttons, with logs of
0, of 1, around the most moves of any setting, of 4,096 and of 65,536, and on boards handed in that break a rule, that have too
many buttons, or with too long a log, in every combination; and to figures by hand (tests/lib/book_reports.py). They are held to
the independent second program in plain Rust (second/) on all these, and on more and larger boards, of up to 12 buttons; to the
program's own runs of all settings, added up; and to laws: the four counts add up; with a longer log no idle, buzz or conflict is
taken back; a button that no part names doubles the counts. The pages that the program `herdspiral` prints are held to the model
too (tests/lib/report_pages.py).

It prints how often each sort of report occurs, and how often models that are wrong by one slip are refuted; each must be often.
Seeded, so each run tries the same cases; `python3 tests/reports.py SEED BOARDS` tries others, or more (it is 1 and 260 else).
Needs cargo, and the programs run_cases and herdspiral, which `rt ci` builds, or `rt run` in their folders."""
import collections
import itertools
import os
import random
import re
import sys
import typing

sys.path.insert(0, os.path.join(os.path.dirname(os.path.abspath(__file__)), "lib"))
import board_files
import book_reports
import book_sessions
import judge_model
import kept_model
import program
import report_model as model
import report_pages
import repository
import run_model
import running
import second_program
import setting_boards
from board_files import HANDED_PARTS
from judge_model import BUTTON
from program import LARGEST_HANDED
from report_model import MOST_BUTTONS, Figures
from repository import same
from run_model import LONGEST_LOG

START = range(HANDED_PARTS - program.START_BYTES, HANDED_PARTS)  # the bytes of its start in a board handed in
MOST_MODELLED = 7  # buttons of a board for all of whose settings the model has time
SESSION_LOG = 4_096
TOO_LONG = [LONGEST_LOG + 1, LONGEST_LOG + 2, LARGEST_HANDED]
LOGS = [0, 1, 2, 5, SESSION_LOG, LONGEST_LOG]
RUNS, REPORTS = 3_000, 40  # about so many runs of each number of buttons are added up, to so many reports at most
OFTEN = 10  # so often each sort of report occurs, and each wrong model is refuted
LINE = re.compile(r"reported (?:refused (\d+) )?(\d+(?: \d+){7})")

NO_BUTTON = "the board has no button"
MARKED = "some relay starts drawn"
STEEL = "some relay is of steel"
AT_SOME = "some settings end with {}, and some with another word"
THREE_WORDS = "three words occur, or four"
NONE_MOVES = "no setting moves, however long the log is"
SEVERAL = "several settings have the most moves, and not all"
LATER = "the first setting with the most moves is not 0"
LATER_OF_SEVERAL = "it is not 0, and not the only one that has so many"
ALL_SPENT = "all settings are spent"
JUST_ROOM = "there is just room for the most moves, and none is spent"
ONE_FEWER = "there is room for one move fewer, and some are spent"
SORTS = [NO_BUTTON, MARKED, STEEL, *(AT_SOME.format(word) for word in ("idle", "buzz", "conflict", "spent")), THREE_WORDS]
SORTS += [NONE_MOVES, SEVERAL, LATER, LATER_OF_SEVERAL, ALL_SPENT, JUST_ROOM, ONE_FEWER]
STANDING = [numbers for many in (1, 2, 3) for numbers in itertools.combinations(model.ORDER, many)]
WRONG = {slip: "refuted: " + slip.__name__.replace("_", " ") for slip in model.WRONG}
WRONG_NUMBERS = {slip: "refuted: " + slip for slip in model.WRONG_NUMBERS}


class Asked(typing.NamedTuple):
    """A report that is asked for: the board handed in, the room in the logs, and the text of the case; the line that it should
    print by the model, None where there is no time for that, and the lines that it would print by wrong models."""

    data: bytes
    room: int
    case: str
    wanted: typing.Optional[str] = None
    wrong: typing.Mapping = {}


def ask(dice, data, room, wanted=None, wrong=None, sets=""):
    """A report with these sets, and in a state that is any: both are not looked at."""
    numbers = [dice.getrandbits(program.HANDED_BITS), dice.getrandbits(program.HANDED_BITS), room]
    return Asked(data, room, program.handed_case(numbers, data, "%", sets), wanted, wrong or {})


def by_runs(made):
    """The line of a report on settings with these runs."""
    return model.line([], model.figures(model.ended(made)))


# ---- what is asked


def look(own, room, most, made, seen):
    """Counts of what sorts the report on these runs is, on a board on which the most moves of any setting are so many."""
    told, words, moves = model.figures(model.ended(made)), {ran.word for ran in made}, [len(ran.log) for ran in made]
    seen[NO_BUTTON] += not own.counts[2]
    seen[MARKED] += bool(judge_model.start(own.parts))
    seen[STEEL] += any(part[0] == judge_model.DRAWING for part in own.parts)
    seen.update(AT_SOME.format(word) for word in words if len(words) > 1)
    seen[THREE_WORDS] += len(words) > 2
    seen[NONE_MOVES] += not most
    seen[SEVERAL] += 1 < moves.count(told.most) < len(moves)
    seen[LATER] += told.first > 0
    seen[LATER_OF_SEVERAL] += told.first > 0 and moves.count(told.most) > 1
    seen[ALL_SPENT] += words == {"spent"}
    seen[JUST_ROOM] += room == most > 0 == told.spent
    seen[ONE_FEWER] += room == most - 1 and told.spent > 0


def modelled(dice, own, seen):
    """Reports on a board, each with a longer log than the one before, with their lines by the model and by wrong ones."""
    most = max(len(ran.log) for ran in model.runs(own, LONGEST_LOG))
    for room in sorted({0, 1, max(most - 1, 0), most, most + 1, SESSION_LOG, LONGEST_LOG}):
        made = model.runs(own, room)
        look(own, room, most, made, seen)
        wrong = {slip: model.line([], slip(own, room, made)) for slip in WRONG}
        sets = kept_model.typed(dice.choice([None, kept_model.NOWHERE]))
        yield ask(dice, running.handed(own.counts, own.parts), room, by_runs(made), wrong, sets)


def by_hand(dice):
    """Reports on the boards by hand, and on one that carries another start than its marks give."""
    for _, data, room, told in book_reports.reports():
        wanted = model.line([told]) if isinstance(told, int) else model.line([], told)
        yield ask(dice, running.handed(*model.board_at(data)), room, wanted)
    counts, parts = model.board_at(bytes.fromhex(book_sessions.H1))
    yield ask(dice, program.handed_board(counts, parts, 1), LONGEST_LOG + 1, model.line([model.BROKEN_BOARD]))


def broken(dice, data):
    """A board handed in with its start changed, with some of its parts cut off, or with one or two bytes changed, so that it breaks
    a rule most often."""
    data, sort = bytearray(data), dice.random()
    if sort < 0.3:
        data[dice.choice(START)] ^= 1 << dice.randrange(8)
        return bytes(data)
    if sort < 0.4:
        return bytes(data[: dice.randint(HANDED_PARTS, len(data))])
    for _ in range(dice.choice([1, 1, 2])):
        at = dice.choice([dice.randrange(HANDED_PARTS), dice.randrange(len(data))])
        odd = dice.choice([0, 1, 2, 4, 5, 6, 7, 8, 32, 33, 64, 65, 255])
        data[at] = dice.choice([(data[at] + 1) % 256, (data[at] - 1) % 256, odd])
    return bytes(data)


def refusals(dice, count):
    """Reports on boards handed in, most of them refused: broken, with too many buttons, with too long a log."""
    for _ in range(count):
        few, many = dice.randrange(MOST_MODELLED), dice.choice([MOST_BUTTONS + 1, dice.randint(MOST_BUTTONS + 1, 32), 32])
        board = setting_boards.small(dice, dice.choice([few, many]))
        data = running.handed(*board)
        data = broken(dice, data) if dice.random() < 0.5 else data
        room = dice.choice([dice.choice(LOGS), dice.choice(TOO_LONG)])
        size, counts, parts = board_files.handed_board(data)
        numbers = model.against(size is not None, counts[2], room)
        if numbers:
            yield ask(dice, data, room, model.line(numbers))
        elif counts[2] <= MOST_MODELLED:
            yield ask(dice, data, room, by_runs(model.runs(run_model.Board(counts, parts), room)))


def more_reports(dice, count):
    """Reports on boards of each number of buttons, small and large, for which the model has no time, each with a longer log than
    the one before."""
    for number in range(count):
        make = setting_boards.large if number % 3 == 0 else setting_boards.small
        data = running.handed(*make(dice, number % (MOST_BUTTONS + 1)))
        yield from (ask(dice, data, room) for room in sorted(dice.sample(LOGS, 2)))


# ---- what is held to it


def figures_of(line):
    """The figures of a line that is not refused; else None."""
    form = LINE.fullmatch(line)
    return Figures(*map(int, form[2].split())) if form and not form[1] else None


def lawful(told, buttons, room):
    """Whether figures are some that a report on so many buttons can have, with so much room in the logs."""
    ends, first_is_0 = told.idle + told.buzz + told.conflict + told.spent, told.first == 0 or told.most > 0
    bounds = told.most <= min(room, told.moves) and told.moves <= told.settings * told.most and told.first < told.settings
    return told.settings == ends == 2**buttons and bounds and first_is_0


def goes_on(less, more):
    """Whether the second figures can be those with a longer log: none of the first is taken back, and where nothing was spent,
    they are the same."""
    rises = all(getattr(less, name) <= getattr(more, name) for name in ("idle", "buzz", "conflict", "moves", "most"))
    return rises and less.spent >= more.spent and (less == more or less.spent > 0)


def laws(asked, lines):
    """The checks on the program's lines by themselves, and on any two of the same board."""
    for data, group in itertools.groupby(zip(asked, lines), key=lambda each: each[0].data):
        told = [(each.room, figures_of(line)) for each, line in group if "refused" not in line]
        for room, found in told:
            yield f"{data.hex()}: with a log of {room} lawful: {found}", found is not None and lawful(found, data[2], room)
        for (room, less), (more_room, more) in itertools.combinations(sorted(pair for pair in told if pair[1]), 2):
            yield f"{data.hex()}: with a log of {room} {less}, and of {more_room} {more}", goes_on(less, more)


def added_up(dice, asked, lines):
    """The checks that the program's runs of all settings, from the start with the buttons of each pushed, add up to its reports:
    some on each number of buttons."""
    found, every = [], dice.sample(list(zip(asked, lines)), len(asked))
    for buttons in range(MOST_BUTTONS + 1):
        fitting = [(each, line) for each, line in every if each.data[2] == buttons and can_add_up(each, line)]
        found += fitting[: min(max(RUNS >> buttons, 1), REPORTS)]
    cases = [every_run(each) for each, _ in found]
    ran = program.answers(program.command("run_cases"), itertools.chain(*cases))
    print(f"{len(ran):7} runs are added up to {len(found)} reports")
    yield same("the runs that are answered", len(ran), sum(map(len, cases)))
    left = iter(ran)
    for (each, line), own in zip(found, cases):
        ended = [(one.word, one.moves) for one in running.run_lines(zip(own, left))]
        yield same(f"{each.case.strip()}: {len(ended)} runs add up to it", line, ended and model.line([], model.figures(ended)))


def can_add_up(each, line):
    """Whether a report is answered, and runs can be asked from its board's start."""
    return figures_of(line) is not None and start_of(each.data) <= LARGEST_HANDED


def every_run(each):
    """The runs of all settings of a board, as a report is asked on it."""
    start, settings = start_of(each.data), 2 ** each.data[2]
    return [program.handed_case([start, setting, each.room], each.data, "=") for setting in range(settings)]


def start_of(data):
    """The start of a board handed in, as a sum."""
    return int.from_bytes(data[START.start : START.stop], "little")


def with_one_more(counts, parts, lowest):
    """A board with one button more, which no part names: the lowest or the highest one."""
    moved = [part[:3] + [part[3] + 1] if lowest and part[0] == BUTTON else part for part in parts]
    return [*counts[:2], counts[2] + 1], moved


def unnamed_buttons(dice, boards):
    """The checks that a button more that no part names doubles all counts and leaves the most moves; and the first setting that has
    so many, where it is the highest button, and else doubles it."""
    cases = []
    for own in boards:
        room = dice.choice(LOGS)
        three = [(own.counts, own.parts), *(with_one_more(own.counts, own.parts, lowest) for lowest in (False, True))]
        cases += [ask(dice, running.handed(*board), room).case for board in three]
    lines = program.answers(program.command("run_cases"), cases)
    yield f"{len(cases)} cases have as many answers, not {len(lines)}", len(cases) == len(lines)
    for case, *three in zip(cases[::3], lines[::3], lines[1::3], lines[2::3]):
        told, highest, lowest = map(figures_of, three)
        doubled = told and Figures(*(2 * figure for figure in told[:6]), told.most, told.first)
        yield same(f"{case.strip()}: with a button more", highest, doubled)
        yield same(f"{case.strip()}: with a button more, number 0", lowest, doubled and doubled._replace(first=2 * told.first))


# ---- what occurs


def number_said(line):
    """The number that a line is refused by; None where it is not."""
    form = LINE.fullmatch(line)
    return int(form[1]) if form and form[1] else None


def standing(numbers):
    """What stands against a report, in words."""
    return "against it stands " + " and ".join(map(str, numbers))


def refute(asked, lines, seen):
    """Counts of what stands against the reports, and of the wrong models that their lines refute."""
    for each, line in zip(asked, lines):
        seen.update(WRONG[slip] for slip, wrong in each.wrong.items() if wrong != line)
        what = board_files.handed_board(each.data)[0] is not None, each.data[2], each.room
        seen[standing(model.against(*what))] += 1
        for slip, name in WRONG_NUMBERS.items():
            wrong = model.against(*what, **model.WRONG_NUMBERS[slip])
            seen[name] += number_said(line) != (wrong[0] if wrong else None)


def met(seen):
    """The checks that each sort of report occurs often, and that each wrong model is refuted often, printed with its count."""
    for what in [*SORTS, *map(standing, STANDING), *WRONG.values(), *WRONG_NUMBERS.values()]:
        print(f"{seen[what]:7} times {what}")
        yield f"{what}: {seen[what]} times, at least {OFTEN}", seen[what] >= OFTEN


def buttons_met(asked, lines):
    """The checks that boards of each number of buttons are reported on often, printed with the count."""
    counts = collections.Counter(each.data[2] for each, line in zip(asked, lines) if figures_of(line))
    print(f"{sum(counts.values()):7} reports, by the number of buttons: {sorted(counts.items())}")
    for buttons in range(MOST_BUTTONS + 1):
        yield f"{counts[buttons]} reports on {buttons} buttons, at least {OFTEN}", counts[buttons] >= OFTEN


def by_second(asked):
    """What the second program prints; it takes no sets."""
    return program.answers(second_program.command("--cases"), (each.case.split(":")[-1] for each in asked))


def compare(seed, count):
    unbuilt = second_program.unbuilt()
    if unbuilt:
        return unbuilt
    dice, seen = random.Random(seed), collections.Counter()
    boards = [run_model.Board(*setting_boards.small(dice, number % (MOST_MODELLED + 1))) for number in range(count)]
    asked = [each for own in boards for each in modelled(dice, own, seen)]
    asked += [*by_hand(dice), *refusals(dice, 2 * count), *more_reports(dice, 2 * count)]
    cases = [each.case for each in asked]
    lines = program.answers(program.command("run_cases"), cases)
    held = [(each, line) for each, line in zip(asked, lines) if each.wanted]
    checks = program.compared(cases, by_second(asked), lines)
    checks += program.compared([each.case for each, _ in held], [each.wanted for each, _ in held], [line for _, line in held])
    print(f"{len(asked):7} reports are held to the second program, {len(held)} of them to the model")
    refute(asked, lines, seen)
    checks += [*laws(asked, lines), *added_up(dice, asked, lines), *unnamed_buttons(dice, boards)]
    return checks + [*buttons_met(asked, lines), *met(seen), *report_pages.checks(dice)]


if __name__ == "__main__":
    seed, count = (int(word) for word in sys.argv[1:3]) if len(sys.argv) > 2 else (1, 260)
    sys.exit(repository.report(compare(seed, count)))
