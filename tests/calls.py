"""Compares the proved calls with the independent second program in plain Rust (second/), one judgement, check, move or run a line,
by way of `current_cases` and `run_cases`: the verdict, the effort, the length and the chain that is shown; what is told without an
allowance, with the terminal that divides; whether a terminal handed in does; what a relay comes to; the word of a run, its moves,
the state left, the relay that stopped it, where it met its state before, and every byte of the log (a run prints the first 40
moves, and where it is spent is asked to go on from there). Boards of all sorts in tests/lib/session_boards.py and
tests/dividing.py, in states within and beyond them, with allowances around the efforts, terminals on the board and beyond it, and
logs of 0, 1 and around the moves; relays that count (tests/lib/counter_boards.py), up to the longest log; damaged files; boards
handed in that break a rule; boards worked out by hand, some with more chains than any allowance (tests/lib/feed_boards.py). The
kept sets are the board's own, and must be so afterwards. No answer is compared with a model in Python, which only tells which
damaged files are read at all; what is around an effort is asked of the second program. Seeded, so each run tries the same cases;
`python3 tests/calls.py SEED BOARDS` tries others, or more (it is 1 and 540 else). Needs cargo, and the programs
current_cases and run_cases, which `rt ci` builds, or `rt run` in their folders."""
import collections
import concurrent.futures
import os
import random
import re
import sys

sys.path.insert(0, os.path.join(os.path.dirname(os.path.abspath(__file__)), "lib"))
import board_files
import board_model
import counter_boards
import dividing
import feed_boards
import judging
import program
import repository
import running
import second_program
import session_boards as boards
from board_model import LARGEST
from program import LARGEST_HANDED
from running import SHOWN, total

LONGEST_LOG = 65_536
MUCH = 20_000  # the allowance that efforts are asked with, of boards with many chains
NAMED = program.HANDED_BITS  # a state that a case hands in has relays and buttons below this
ROUNDS = 6  # so often a run that fills the log that is shown goes on from the state left
COUNTERS = range(1, 11)  # stages of counters that are run around their end
OFTEN = 10  # each answer occurs at least so many times
SHOWING = re.compile(r"judged (live|dead) (\d+)")
KEPT = re.compile(r"((?:moved|ran) .*) sets (given|changed) own near[ =\d]* bare[ =\d]*")
SPENT = re.compile(rf"ran spent {SHOWN} (\d+) (\d+) ")
LED_IN = re.compile(r"ran buzz \d+ \d+ \d+ 255 [1-9]")

SORTS = [boards.feeding, boards.feeding, boards.web, boards.web, boards.buzzing, boards.conflicting, boards.every_kind, boards.crowded]
SORTS += [boards.largest, lambda dice: boards.counting(dice, dice.randint(2, 8), dice.randint(0, 3)), lambda dice: boards.diamonds(dice, dice.randint(0, 20))]
SORTS += [lambda dice: boards.dense(dice, dice.randint(4, 9)), boards.shunting, dividing.board, dividing.board, boards.pulsing]
SORTS += [lambda dice: counter_boards.counter(dice.randint(1, 8), dice.random() < 0.5)]


class Asked:
    """A fine board and a state, and which windings it has there: each as its relay, whether it is the second, and its effort,
    None for one beyond the allowance that it was asked with."""

    def __init__(self, counts, parts, drawn, pushed):
        self.counts, self.parts, self.drawn, self.pushed, self.windings = counts, parts, drawn, pushed, []

    def typed(self, relay, second, more, ending):
        return judging.typed((self.counts, self.parts, self.drawn, self.pushed, relay, int(second)), more, ending)

    def judgement(self, relay, second, allowance):
        return self.typed(relay, second, [allowance], "@")

    def every_judgement(self):
        """Each relay's first and second winding."""
        return [(self, relay, second) for relay in range(self.counts[1]) for second in (False, True)]

    def handed(self, asked, ending):
        return program.handed_case([total(self.drawn), total(self.pushed), asked], running.handed(self.counts, self.parts), ending)

    def run(self, room):
        return self.handed(room, "=")

    def is_large(self):
        return any(effort is None for _, _, effort in self.windings)


def some_board(dice, sort):
    """A board of a sort in some state."""
    counts, parts = sort(dice)
    drawn, pushed = judging.state(dice, *(min(count, NAMED - 1) for count in counts[1:]), NAMED)
    return Asked(counts, parts, *({name for name in names if name < NAMED} for names in (drawn, pushed)))


def second(cases):
    """What the second program prints for each case."""
    return program.answers(second_program.command("--cases"), cases)


def asked_boards(dice, count):
    """So many boards and states, and those worked out by hand, with the efforts of their windings, which the second program is asked
    for."""
    found = [some_board(dice, SORTS[number % len(SORTS)]) for number in range(count)]
    found += [Asked(*own.asked[:4]) for own in feed_boards.every_one()]
    every = [each for own in found for each in own.every_judgement()]
    for (own, relay, is_second), line in zip(every, second(own.judgement(relay, is_second, MUCH) for own, relay, is_second in every)):
        if (form := SHOWING.match(line)) or line.startswith("judged undecided"):
            own.windings.append((relay, is_second, int(form[2]) if form else None))
    return found


def around(effort):
    """Allowances around an effort, the least and the largest."""
    return [0, 1, 5, MUCH - 1] if effort is None else sorted({0, 1, max(effort - 1, 0), effort, effort + 1, LARGEST})


def judgements(dice, own):
    """Judgements of some windings of a board, and of windings that are not there."""
    relays = own.counts[1]
    for relay, is_second, effort in dice.sample(own.windings, min(3, len(own.windings))):
        yield from (own.judgement(relay, is_second, allowance) for allowance in around(effort))
    for relay in {dice.randrange(max(relays, 1)), relays, dice.choice([relays + 1, 255, 256, LARGEST])}:
        yield own.judgement(relay, dice.random() < 0.5, dice.choice([0, 1, MUCH if own.is_large() else LARGEST]))


def at_once(dice, own):
    """Judgements without an allowance of each winding of a board and of some that are not there, and checks of terminals on the
    board and beyond it."""
    terminals, relays = own.counts[:2]
    absent = [(relays, False), (dice.choice([relays + 1, 255, 256, LARGEST]), True), (dice.randrange(max(relays, 1)), True)]
    for relay, is_second in [each[:2] for each in own.windings] + absent:
        yield own.typed(relay, is_second, [], "!")
        for x in {0, 1, dice.randrange(terminals), terminals - 1, dice.choice([terminals, *dividing.BEYOND])}:
            yield own.typed(relay, is_second, [x], "?")


def moves(dice, own):
    """Single moves of some relays, and of one that is not there."""
    relays = own.counts[1]
    for relay, _, _ in dice.sample(own.windings, min(2, len(own.windings))):
        yield own.handed(relay, "^")
    yield own.handed(dice.choice([relays, relays + 1, 256, LARGEST_HANDED]), "^")


def runs(dice, own, line):
    """Runs from the board's state, given the line of one: logs of 0, 1 and around its moves, and a log that is too long."""
    made = int(line.split()[2]) if "refused" not in line else 0
    for room in sorted({0, 1, 2, max(made - 1, 0), made, made + 1, SHOWN, dice.choice([3, 100, 1_000, LONGEST_LOG + 1])}):
        yield own.run(room)
    if made < SHOWN and dice.random() < 0.1:
        yield own.run(LONGEST_LOG)


def going_on(found):
    """Runs that fill the log that is shown, each going on from the state that the second program left, so that the log is seen
    for some hundred moves."""
    cases, every = [own.run(SHOWN) for own in found], []
    for _ in range(ROUNDS):
        lines = second(cases)
        spent = [(case, form) for case, line in zip(cases, lines) if (form := SPENT.match(line))]
        cases = [f"{int(form[1]):06x}{int(form[2]):06x}" + case[12:] for case, form in spent if int(form[1]) < 1 << 24]
        every += cases
    return every


def long_runs(dice):
    """Runs of counters with logs that end just before the first state comes again, there, and after; of 15 relays that go through all
    their states, with a log that is just too short for that and with one that is not; and one that fills the longest log."""
    for stages in COUNTERS:
        moves = counter_boards.moves_round(stages)
        yield from (Asked(*counter_boards.counter(stages), (), ()).run(room) for room in (moves - 1, moves, moves + 1))
    every = Asked(*boards.counting(dice, 15, 0), (), ())
    yield from (every.run(room) for room in (2**15 - 2, 2**15 - 1))
    yield Asked(*counter_boards.counter(14), (), ()).run(LONGEST_LOG)


def broken(dice, own):
    """A board handed in with one or two bytes changed, so that it breaks a rule most often; moved and run in any state."""
    data = bytearray(running.handed(own.counts, own.parts))
    for _ in range(dice.choice([1, 1, 2])):
        at = dice.randrange(board_files.HANDED_PARTS) if dice.random() < 0.3 else dice.randrange(len(data))
        data[at] = dice.choice([(data[at] + 1) % 256, (data[at] - 1) % 256, dice.choice([0, 1, 2, 4, 5, 6, 7, 8, 32, 33, 64, 65, 255])])
    state = [total(own.drawn), total(own.pushed)] if dice.random() < 0.7 else [dice.getrandbits(24), dice.getrandbits(24)]
    yield program.handed_case(state + [dice.choice([0, 1, 40, LARGEST_HANDED])], data, "^")
    yield program.handed_case(state + [dice.choice([0, 1, 5, SHOWN, LONGEST_LOG, LONGEST_LOG + 1])], data, "=")


def hostile_files(dice, count):
    """Judgements and checks on damaged files that are refused, and on fine ones of tests/board_files.py."""
    for _ in range(count):
        data, ending = board_files.file_case(dice), dice.choice("@!?")
        try:
            if board_model.read(data)[0] == len(data):
                last = [] if ending == "!" else [dice.choice([0, 1, 100])]
                yield (data + bytes([0, 0, dice.choice([0, 1, 31]), dice.randrange(2)] + last)).hex() + ending + "\n"
        except board_model.Refused:
            yield data.hex() + ending + "\n"


def handed_boards(dice, count):
    """Boards handed in by tests/board_files.py, many with a fault, moved and run."""
    for _ in range(count):
        data, state = board_files.handed_case(dice), [dice.choice([0, 0, 1, 3]), dice.choice([0, 0, 1])]
        yield program.handed_case(state + [dice.choice([0, 1, 31])], data, "^")
        yield program.handed_case(state + [dice.choice([0, 1, 5, LONGEST_LOG + 1])], data, "=")


def every_case(seed, count):
    """The cases of each program."""
    dice = random.Random(seed)
    found = asked_boards(dice, count)
    lines = second(own.run(SHOWN) for own in found)
    judged = [case for own in found for part in (judgements(dice, own), at_once(dice, own)) for case in part]
    judged += hostile_files(dice, 4 * count)
    ran = [case for own, line in zip(found, lines) for part in (moves(dice, own), runs(dice, own, line), broken(dice, own), broken(dice, own)) for case in part]
    return judged, ran + going_on(found) + list(handed_boards(dice, count)) + list(long_runs(dice))


def without_own(line):
    """The line of a proved program without what it says of the kept sets, which the second program does not know. They must be
    the board's own; where they are not, and where a refused call changes them, the line stays as it is."""
    form = KEPT.fullmatch(line)
    return line if form is None or ("refused" in line and form[2] == "changed") else form[1]


def compared(name, cases):
    """The checks that a proved program prints what the second program does, and nothing else; and those lines."""
    wanted = second(cases)
    told = [without_own(line) for line in program.answers(program.command(name), cases)]
    return program.compared(cases, wanted, told), wanted


def occurring(lines):
    """The checks that each answer occurs often, printed with its count."""
    counts = collections.Counter(re.match(r"refused|\w+ refused \d+|\w+ \w+|", line)[0] for line in lines)
    for word, count in sorted(counts.items()):
        print(f"{count:7} {word}")
    known = [f"judged {word}" for word in ("live", "dead", "undecided", "refused 11", "refused 14")] + ["refused"]
    known += [f"told {word}" for word in ("live", "shunted", "dead", "refused 11", "refused 14")]
    known += [f"checked {word}" for word in ("divides", "does", "refused 11", "refused 14", "refused 19")]
    known += [f"moved {word}" for word in ("drew", "dropped", "rests", "conflict", "refused 11", "refused 14", "refused 15")]
    known += [f"ran {word}" for word in ("idle", "spent", "conflict", "buzz", "refused 13", "refused 14", "refused 15")]
    for word in known:
        yield f"{word} occurs {counts[word]} times, at least {OFTEN}", counts[word] >= OFTEN
    shunted = lines.count("judged dead 0")
    yield f"judged dead 0, which is shunted, occurs {shunted} times, at least {OFTEN}", shunted >= OFTEN
    led_in = sum(bool(LED_IN.match(line)) for line in lines)
    yield f"ran buzz with moves before the earlier state occurs {led_in} times, at least {OFTEN}", led_in >= OFTEN
    yield f"no other answer occurs: {set(counts) - set(known)}", set(counts) <= set(known)


def compare(seed, count):
    unbuilt = second_program.unbuilt()
    if unbuilt:
        return unbuilt
    with concurrent.futures.ThreadPoolExecutor() as workers:
        (checks, lines), (more, others) = workers.map(compared, ("current_cases", "run_cases"), every_case(seed, count))
    return checks + more + list(occurring(lines + others))


if __name__ == "__main__":
    seed, count = (int(word) for word in sys.argv[1:3]) if len(sys.argv) > 2 else (1, 540)
    sys.exit(repository.report(compare(seed, count)))
