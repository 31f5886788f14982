"""Compares the proved program `run_cases` with the model of moving and running in tests/lib/run_model.py on generated
pushes, releases, single moves and runs, with the kept sets that each hands back: relays that feed each other by their
contacts, in sequence and in rings, rings that go round once other relays have drawn, relays that hold themselves, steel
relays fed by buttons and contacts, relays that are shunted, relays that count (tests/lib/counter_boards.py), and the
boards of tests/judging.py, with marks and without; states within and beyond the board, relays that are there and that
are not, logs around the number of moves; the longest log, filled and not; the boards of tests/lib/shunt_boards.py; and
boards worked out by hand, some with more chains than any allowance (tests/lib/feed_boards.py). Of the program's own
answers it compares any two runs from one board and state: the one with the longer log starts with every move of the
other, and is the same if that one ended idle, in conflict or with buzz; and no run whose log has room for as many moves
as the board has states is spent. Seeded, so each run tries the same cases; `python3 tests/running.py SEED BOARDS` tries
others, or more (it is 1 and 130 else). Needs the program run_cases, which `rt ci` builds, or `rt run` in its folder."""
import itertools
import os
import random
import re
import sys
import typing

sys.path.insert(0, os.path.join(os.path.dirname(os.path.abspath(__file__)), "lib"))
import counter_boards
import feed_boards
import judge_model
import judging
import kept_model
import program
import repository
import run_model as model
import shunt_boards
from divide_model import LIVE, SHUNTED
from judge_model import BUTTON, DRAWING, DROPPING, LOWER, MARK, MINUS, PLUS, REGULAR, UPPER
from program import LARGEST_HANDED

MANY_MOVES = 400  # a run is followed so far to find its end; the longest of the counters here makes 380
COUNTERS = range(1, 7)  # their stages
LONG_RUNS = [(12, counter_boards.moves_round(12)), (12, model.LONGEST_LOG), (14, model.LONGEST_LOG)]  # stages, and length of the log
SHOWN = 40  # the program prints so many moves of a log
# A refused call by its ending, with its number and the state.
REFUSED = {"+": "pressed refused {} {}", "-": "pressed refused {} {}", "^": "moved refused {} {}", "=": "ran refused {} 0 {} 255 0 0:"}
# The line of a run that is not refused, but for the sets: its word, the moves, the two numbers of a buzz, and the log.
RAN = re.compile(r"ran (\w+) (\d+) \d+ \d+ \d+ (\d+) (\d+):([ \d]*)")
STANDING = ("idle", "conflict", "buzz")  # the words that a longer log does not change
OFTEN = 10  # so often each word of a run, and so many relays that are judged have a shunt, of each sort


def wired(dice, relays, buttons, rows, marks=None):
    """The board of these rows, its terminals in any order. A row is a winding, as its kind and relay, and the ways that feed
    it from plus; perhaps also the ways that shunt it, and the relay through whose regular winding it returns, None for one
    that returns to minus. A way is a list of switches in series, each a kind with its relay or button. It has these marks
    besides, or some if none are given."""
    terminals, parts = 2, []
    for kind, relay, ways, *more in rows:
        shunts, load = more or ([], None)
        fed, back, terminals = terminals, MINUS, terminals + 1
        if load is not None:
            back, terminals = terminals, terminals + 1
            parts.append([REGULAR, back, MINUS, load])
        parts.append([kind, fed, back, relay])
        for way, at, end in [(way, PLUS, fed) for way in ways] + [(way, fed, back) for way in shunts]:
            for switch in way[:-1]:
                parts.append([switch[0], at, terminals] + switch[1:])
                at, terminals = terminals, terminals + 1
            parts.append([way[-1][0], at, end] + way[-1][1:])
    order = [PLUS, MINUS] + dice.sample(range(2, terminals), terminals - 2)
    for part in parts:
        part[1:3] = dice.sample([order[part[1]], order[part[2]]], 2)
    parts += judging.some_marks(dice, relays) if marks is None else marks
    dice.shuffle(parts)
    return [terminals, relays, buttons], parts


def some_switch(dice, relays, buttons):
    """A contact of some relay, a button, or seldom a wire."""
    kind = dice.choice([UPPER, LOWER, BUTTON] * 5 + [0])
    return [kind, dice.randrange(buttons if kind == BUTTON else relays)] if kind else [0]


def any_rows(dice):
    """Relays of both sorts, each winding with up to three ways of up to two switches."""
    relays, buttons, rows = dice.randint(1, 5), dice.randint(1, 3), []
    for relay in range(relays):
        for kind in dice.choice([[REGULAR], [REGULAR], [DRAWING, DROPPING]]):
            ways = [[some_switch(dice, relays, buttons) for _ in range(dice.choice([1, 1, 2]))] for _ in range(dice.choice([0, 1, 1, 2, 3]))]
            rows.append((kind, relay, ways))
    return relays, buttons, rows


def sequence_rows(dice):
    """Relays in any order, the first fed by a button, each other one by a contact of the one before."""
    relays = dice.randint(2, 8)
    order = dice.sample(range(relays), relays)
    feeds = [[BUTTON, 0]] + [[dice.choice([UPPER, UPPER, UPPER, LOWER]), before] for before in order]
    return relays, 1, [(REGULAR, relay, [[feed]]) for relay, feed in zip(order, feeds)]


def ring_rows(dice):
    """Relays in a ring, each fed by a contact of the next, some through a button. With an odd number of lower contacts that
    are all fed there is always one that can move."""
    relays, rows = dice.randint(1, 4), []
    for relay in range(relays):
        feed = [dice.choice([UPPER, LOWER, LOWER]), (relay + 1) % relays]
        rows.append((REGULAR, relay, [[[BUTTON, 0], feed] if dice.random() < 0.3 else [feed]]))
    return relays, 1, rows


def pulsing_rows(dice):
    """Relays in any order: some draw one after the other, the first by a button; then the others go round, in a ring with an odd
    number of lower contacts, which a contact of the last closes."""
    first = dice.randint(1, 4)
    relays = first + dice.randint(1, 4)
    order = dice.sample(range(relays), relays)
    leading, ring = order[:first], order[first:]
    feeds = [[BUTTON, 0]] + [[UPPER, before] for before in leading]
    rows = [(REGULAR, relay, [[feed]]) for relay, feed in zip(leading, feeds)]
    lower = dice.sample(ring, dice.choice([odd for odd in (1, 3) if odd <= len(ring)]))
    ways = [[[LOWER if relay in lower else UPPER, after]] for relay, after in zip(ring, ring[1:] + ring[:1])]
    dice.choice(ways).append([UPPER, leading[-1]])
    return relays, 1, rows + [(REGULAR, relay, [way]) for relay, way in zip(ring, ways)]


def holding_rows(dice):
    """A relay that a button draws and that its own upper contact holds, until another that a button draws cuts it."""
    held, cutting = dice.sample([0, 1], 2)
    return 2, 2, [(REGULAR, held, [[[BUTTON, 0]], [[UPPER, held], [LOWER, cutting]]]), (REGULAR, cutting, [[[BUTTON, 1]]])]


def steel_rows(dice):
    """Steel relays, each winding fed by a button or by a contact of another relay, some through a contact of their own."""
    relays, rows = dice.randint(1, 4), []
    for relay in range(relays):
        for kind, own in ((DRAWING, LOWER), (DROPPING, UPPER)):
            feed = dice.choice([[BUTTON, dice.randrange(2)], [UPPER, dice.randrange(relays)], [LOWER, dice.randrange(relays)]])
            rows.append((kind, relay, [[feed, [own, relay]] if dice.random() < 0.5 else [feed]]))
    return relays, 2, rows


def shunting_rows(dice):
    """Relays of both sorts, each winding fed by a switch or a wire, and shunted by one or two switches in series. Most
    return through the winding of a relay of their own; without it a closed shunt of a fed winding links plus and minus, and
    so shunts all that is fed."""
    relays, buttons, rows = dice.randint(1, 3), 2, []
    every = relays
    for relay in range(relays):
        for kind in dice.choice([[REGULAR], [REGULAR], [DRAWING, DROPPING]]):
            load, every = (every, every + 1) if dice.random() < 0.8 else (None, every)
            feed = dice.choice([[0], some_switch(dice, relays, buttons)])
            shunt = [some_switch(dice, relays, buttons) for _ in range(dice.choice([1, 1, 2]))]
            rows.append((kind, relay, [[feed]], [shunt], load))
    return every, buttons, rows


def board(dice):
    """The counts T, R, B and the parts of some fine board."""
    if dice.random() < 0.2:
        return judging.board(dice)
    rows = [any_rows] * 5 + [sequence_rows, steel_rows, ring_rows] * 2 + [shunting_rows] * 4 + [pulsing_rows] * 3 + [holding_rows]
    return wired(dice, *dice.choice(rows)(dice))


def total(names):
    """A set as the sum of 2 to each."""
    return sum(2**name for name in names)


def handed(counts, parts):
    """The bytes of a board handed in. A mark's ends are plus and the last terminal, so that it would show if it joined them."""
    rows = [[MARK, PLUS, counts[0] - 1, part[1]] if part[0] == MARK else (part + [0])[:4] for part in parts]
    return program.handed_board(counts, rows, total(judge_model.start(parts)))


def case(own, state, asked, ending, sets):
    """The text of a case: the kept sets, the state and what is asked, then the board handed in."""
    numbers = [total(names) for names in state] + [asked]
    return program.handed_case(numbers, handed(own.counts, own.parts), ending, kept_model.typed(sets))


def left(own, before, sets, after, numbers):
    """What a line says of the sets that a call hands back, against which these numbers stand."""
    return kept_model.words(own.parts, before, sets, after, bool(numbers))


def press_case(own, drawn, pushed, button, is_push, sets=None):
    """A push or a release, with the line that it should print. The kept sets are these or the board's own, as with all calls."""
    numbers = model.against(own, drawn, pushed, own.belong(sets, drawn, pushed), press=(button, is_push))
    word, after = (f"refused {numbers[0]}", pushed) if numbers else ("done", pushed ^ {button})
    line = f"pressed {word} {total(drawn)} {total(after)}" + left(own, (drawn, pushed), sets, (drawn, after), numbers)
    return case(own, (drawn, pushed), button, "+" if is_push else "-", sets), line


def move_case(own, drawn, pushed, relay, sets=None):
    """A single move, with the line that it should print."""
    numbers = model.against(own, drawn, pushed, own.belong(sets, drawn, pushed), relay=relay)
    word, after = (f"refused {numbers[0]}", drawn) if numbers else model.move(own, drawn, pushed, relay)
    line = f"moved {word} {total(after)} {total(pushed)}" + left(own, (drawn, pushed), sets, (after, pushed), numbers)
    return case(own, (drawn, pushed), relay, "^", sets), line


def run_case(own, drawn, pushed, room, sets=None):
    """A run with so much room in its log, with the line that it should print."""
    numbers = model.against(own, drawn, pushed, own.belong(sets, drawn, pushed), room=room)
    ran = model.Ran(f"refused {numbers[0]}", [], drawn) if numbers else model.run(own, drawn, pushed, room)
    said = ran.word, len(ran.log), total(ran.drawn), total(pushed), ran.relay, ran.earlier, ran.between
    line = " ".join(["ran", *map(str, said)]) + ":" + "".join(f" {byte}" for byte in ran.log[:SHOWN])
    return case(own, (drawn, pushed), room, "=", sets), line + left(own, (drawn, pushed), sets, (ran.drawn, pushed), numbers)


def moves(dice, own, drawn, pushed):
    """Single moves of some relay in a state, and of one that the board lacks."""
    relays = own.counts[1]
    there = [dice.randrange(relays)] if relays else []
    return [move_case(own, drawn, pushed, relay) for relay in [dice.choice([relays, relays + 1, LARGEST_HANDED])] + there]


def runs(dice, own, drawn, pushed):
    """Runs from a state, each with more room in its log than the one before: some around its end, and one for all states."""
    if model.against(own, drawn, pushed):
        rooms = [5, model.LONGEST_LOG + 1]
    else:
        made = len(model.run(own, drawn, pushed, MANY_MOVES).log)
        rooms = {0, 1, 2, max(made - 1, 0), made, made + 1, SHOWN}
        if made < MANY_MOVES:
            rooms.add(2 ** own.counts[1])
        if made < MANY_MOVES and dice.random() < 0.2:
            rooms |= {model.LONGEST_LOG, model.LONGEST_LOG + 1}
    return [run_case(own, drawn, pushed, room) for room in sorted(rooms)]


def long_runs(dice):
    """Runs that fill the longest log, or meet their first state late, and a run of 32 relays from the highest down."""
    most = wired(dice, 32, 1, [(REGULAR, relay, [[[UPPER, relay + 1]]]) for relay in range(31)] + [(REGULAR, 31, [[[BUTTON, 0]]])])
    counting = [run_case(counter_boards.Counter(stages), set(), set(), room) for stages, room in LONG_RUNS]
    return counting + [run_case(model.Board(*most), set(), {0}, model.LONGEST_LOG)]


def boards_by_hand():
    """Moves and runs on the boards worked out by hand, some with more chains than any allowance."""
    for each in shunt_boards.every_one() + feed_boards.every_one():
        counts, parts, drawn, pushed, relay, _ = each.asked
        own = model.Board(counts, parts)
        yield move_case(own, drawn, pushed, relay)
        yield run_case(own, drawn, pushed, SHOWN)


class Line(typing.NamedTuple):
    """What the line of a run says that is not refused; from its case, how many relays there are, and how much room in the log."""

    relays: int
    room: int
    word: str
    moves: int
    earlier: int
    between: int
    log: list
    whole: str


def run_lines(told):
    """The lines of runs that are not refused, among these cases, in which the sets are the board's own, and their lines."""
    for case, whole in told:
        if form := RAN.fullmatch(kept_model.unsaid(whole)):
            word, *numbers, log = form.groups()
            yield Line(int(case[20:22], 16), int(case[12:18], 16), word, *map(int, numbers), log.split(), whole)


def goes_on(less, more):
    """Whether the second line, of a run with a longer log, starts with every move of the first, and is the same if that one ended
    with a word that stands."""
    if less.word in STANDING:
        return more.whole == less.whole
    return more.moves >= less.moves and more.log[: len(less.log)] == less.log


def disagreeing(told):
    """The pairs that break demand 3, of the lines of runs from one board and state, each with a longer log than the one before."""
    return [(less.whole, more.whole) for less, more in itertools.combinations(run_lines(told), 2) if not goes_on(less, more)]


def presses(dice, own):
    """Pushes and releases of a button of a board, and of one that it lacks, in some state."""
    drawn, pushed = judging.state(dice, own.counts[1], own.counts[2], program.HANDED_BITS)
    buttons = own.counts[2]
    named = {dice.randrange(max(buttons, 1)), dice.choice([buttons, buttons + 1, LARGEST_HANDED])}
    return [press_case(own, drawn, pushed, button, is_push) for button in sorted(named) for is_push in (True, False)]


def met(found):
    """Whether what must occur does."""
    for word in ("done", "refused 7", "refused 12", "refused 14"):
        yield f"some press is {word}", any(line.startswith("pressed " + word) for _, line in found)
    for word in ("drew", "dropped", "rests", "conflict", "refused 11", "refused 14"):
        yield f"some move is {word}", any(line.startswith("moved " + word) for _, line in found)
    for word in ("idle", "spent", "conflict", "buzz", "refused 13", "refused 14"):
        count = sum(line.startswith("ran " + word) for _, line in found)
        yield f"{count} runs are {word}, at least {OFTEN}", count >= OFTEN


def runs_met(made):
    """Whether enough runs end in each way that must occur, of those that are not refused."""
    buzzing = [ran for ran in made if ran.word == "buzz"]
    for name, some in (
        ("are idle after 3 moves or more", [ran for ran in made if ran.word == "idle" and ran.moves >= 3]),
        ("do not move relay 0 first", [ran for ran in made if ran.log and int(ran.log[0]) % model.DRAW]),
        ("buzz after a lead-in", [ran for ran in buzzing if ran.earlier]),
        ("buzz with more than 2 moves between", [ran for ran in buzzing if ran.between > 2]),
        ("buzz after a lead-in with more than 2 between", [ran for ran in buzzing if ran.earlier and ran.between > 2]),
        ("buzz where the log is just full", [ran for ran in buzzing if ran.moves == ran.room]),
        ("have room for as many moves as there are states", [ran for ran in made if ran.room >= 2**ran.relays]),
    ):
        yield f"{len(some)} runs {name}, at least {OFTEN}", len(some) >= OFTEN
    wrong = [ran for ran in made if ran.word == "spent" and ran.room >= 2**ran.relays]
    yield f"no run is spent that has room for as many moves as there are states: {wrong[:3]}", not wrong
    wrong = [ran for ran in made if ran.earlier + ran.between != (ran.moves if ran.word == "buzz" else 0)]
    yield f"the two numbers of a buzz add up to its moves, and are 0 with other words: {wrong[:3]}", not wrong


def counters_met():
    """Whether counters come to what their stages are for, and come round after as many moves as they should."""
    for stages in COUNTERS:
        ran = model.run(model.Board(*counter_boards.counter(stages)), set(), set(), model.LONGEST_LOG)
        quick = model.run(counter_boards.Counter(stages), set(), set(), model.LONGEST_LOG)
        yield f"a counter, stages {stages}: its relays come to what the stages are for", quick == ran
        yield f"the same: it comes round after {ran.between} moves", (ran.word, ran.earlier, ran.between) == ("buzz", 0, counter_boards.moves_round(stages))


def shunts_met(boards):
    """Whether enough relays have a shunt in the states that these boards came to."""
    regular, steel = 0, 0
    for ((drawn, _), relay), windings in (each for own in boards for each in own.known.items()):
        regular += windings == [SHUNTED] and relay in drawn
        steel += SHUNTED in windings and LIVE in windings
    yield f"{regular} drawn regular relays are shunted, at least {OFTEN}", regular >= OFTEN
    yield f"of {steel} steel relays one winding is shunted and one live, at least {OFTEN}", steel >= OFTEN


def some_state(dice, own):
    """Some state for a board, seldom one with a relay or button that it lacks."""
    return judging.state(dice, own.counts[1], own.counts[2], program.HANDED_BITS)


def boards_and_states(dice, count):
    """So many boards, and the counters of few stages besides, each with two states."""
    for _ in range(count):
        own = model.Board(*board(dice))
        yield own, [some_state(dice, own), some_state(dice, own)]
    for stages in COUNTERS:
        own = model.Board(*counter_boards.counter(stages))
        yield own, [(set(), set()), some_state(dice, own)]


def compare(seed, count):
    dice, found, groups, boards = random.Random(seed), [], [], []
    for own, states in boards_and_states(dice, count):
        boards.append(own)
        for drawn, pushed in states:
            of_moves, of_runs = moves(dice, own, drawn, pushed), runs(dice, own, drawn, pushed)
            groups.append((len(found) + len(of_moves), len(of_runs)))
            found += of_moves + of_runs
    found += long_runs(dice) + list(boards_by_hand()) + [each for own in boards for each in presses(dice, own)]
    cases, wanted = zip(*found)
    lines = program.answers(program.command("run_cases"), cases)
    checks, told = program.compared(cases, wanted, lines), list(zip(cases, lines))
    for start, many in groups:
        wrong = disagreeing(told[start : start + many])
        checks.append((f"{found[start][0].strip()}: of two runs from this state the one goes on as the other did: {wrong}", not wrong))
    checks += [*met(found), *runs_met(list(run_lines(told))), *counters_met()]
    return checks + list(shunts_met(boards))


if __name__ == "__main__":
    seed, count = (int(word) for word in sys.argv[1:3]) if len(sys.argv) > 2 else (1, 130)
    sys.exit(repository.report(compare(seed, count)))
