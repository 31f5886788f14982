"""Does the order of moves matter (request A9)? On generated small boards this walks every order of allowed single moves, buttons
fixed, with the model in tests/lib/run_model.py: all states that they lead to. By search alone it finds out whether the supposition
holds, which is (i) that in no state walked is any relay in conflict, and (ii) that in each of them, of two different relays that
can move, after either has moved the other still can; and which states are idle, after how many moves, and from where. Wherever (ii)
holds and some order of n moves ends idle, every order must come to that state, and by n moves. Wherever (i) holds too, the proved
program `run_cases` must run to idle after n moves in that state, with room for n moves and for more, and be spent with room for one
fewer. Some of the single moves walked are compared with the program's.

The boards have up to 6 relays: those of tests/running.py and some of tests/lib/session_boards.py; relays side by side that can move
at once, and that draw and drop again; relays of which one draws or another; conflicts that pass as a relay moves; counters; boards
worked out by hand. They are walked from the start, from where a run ends once other buttons are pushed, and with any relays drawn.
It prints how often the supposition holds and fails, and how often it would be wrong to ask it of the first state alone, to suppose
no order that ends idle, to leave out the clause on conflict for runs or ask it of the first state alone, or to give runs room for
one move fewer; each of these must occur often. Seeded, so each run tries the same cases; `python3 tests/orders.py SEED BOARDS`
tries others, or more (it is 1 and 250 else). Needs the program run_cases, which `rt ci` builds, or `rt run` in its
folder."""
import collections
import itertools
import os
import random
import sys
import typing

sys.path.insert(0, os.path.join(os.path.dirname(os.path.abspath(__file__)), "lib"))
import counter_boards
import feed_boards
import judge_model
import kept_model
import program
import repository
import run_model as model
import running
import session_boards
import shunt_boards
from judge_model import BUTTON, DRAWING, DROPPING, LOWER, MINUS, PLUS, REGULAR, UPPER
from running import total

MOST_RELAYS, MOST_TERMINALS = 6, 20  # of a board on which there is time for all states
SETTINGS = 4  # of the buttons, most that are tried on a board
OFTEN = 10  # so often each sort of walk, of wrong statement and of single move occurs

# Each relay is fed through the other's lower contact.
EACH_OTHER = [4, 2, 0], [[LOWER, PLUS, 2, 1], [REGULAR, 2, MINUS, 0], [LOWER, PLUS, 3, 0], [REGULAR, 3, MINUS, 1]]
# Of that board, by hand: the drawn relays, the relay that is moved, and the word and the drawn relays as a line says them.
EACH_OTHER_MOVES = [((), 0, "drew 1"), ((), 1, "drew 2")]  # both can move
EACH_OTHER_MOVES += [((0,), 1, "rests 1"), ((1,), 0, "rests 2")]  # after either the other cannot
EACH_OTHER_MOVES += [((0,), 0, "rests 1"), ((1,), 1, "rests 2")]  # so these are two idle states
H3 = [3, 1, 0], [[LOWER, PLUS, 2, 0], [REGULAR, 2, MINUS, 0]]

HOLDS = "the supposition holds"
BY_MOVES = "it fails by (ii): after a move another relay no longer can"
BY_CONFLICT = "it fails by (i) alone: some relay is in conflict"
ENDS = "it holds, and some order ends idle"
FOR_EVER = "it holds, and no order ends idle: it goes on for ever"
AT_ONCE = "it holds, some order ends idle, and in some state two relays or more can move"
TWICE = "it holds, some order ends idle, and some relay moves more than once"
CONFLICT_ENDS = "it fails by (i) alone, and some order ends idle"
SEVERAL = "it fails by (ii), some order ends idle, and not all come to one ending"
SORTS = [HOLDS, BY_MOVES, BY_CONFLICT, ENDS, FOR_EVER, AT_ONCE, TWICE, CONFLICT_ENDS, SEVERAL]
FIRST_ALONE = "asked of the first state alone it would be wrong"
NONE_ENDS = "with no order that ends idle supposed it would be wrong"
CONFLICT_LEFT_OUT = "of runs without the clause on conflict it would be wrong"
CONFLICT_AT_FIRST = "of runs with that clause asked of the first state alone it would be wrong"
ONE_FEWER = "of runs with room for n - 1 moves it would be wrong"
WRONG = [FIRST_ALONE, NONE_ENDS, CONFLICT_LEFT_OUT, CONFLICT_AT_FIRST, ONE_FEWER]
WORDS = ["drew", "dropped", "rests", "conflict"]


class Walk:
    """Every state that allowed moves lead to from a first one of a board, buttons fixed. A state is the set of its drawn relays.
    For each there is what every relay comes to, and of each relay that can move the state after it."""

    def __init__(self, own, drawn, pushed):
        self.own, self.first, self.pushed, self.comes, self.ways = own, frozenset(drawn), pushed, {}, {}
        waiting = [self.first]
        while waiting:
            state = waiting.pop()
            if state not in self.comes:
                moved = [model.move(own, state, pushed, relay) for relay in range(own.counts[1])]
                self.comes[state] = [word for word, _ in moved]
                self.ways[state] = {relay: after for relay, (word, after) in enumerate(moved) if word in ("drew", "dropped")}
                waiting += self.ways[state].values()

    def name(self):
        """The board and the first state as a typed case has them."""
        return running.case(self.own, (self.first, self.pushed), 0, "", None).strip()

    def no_conflict(self, states):
        """Clause (i), asked of these states: no relay is in conflict."""
        return not any("conflict" in self.comes[state] for state in states)

    def stays_movable(self, states):
        """Clause (ii), asked of these states: of two different relays that can move, after either has moved the other still can."""
        return all(r in self.ways[self.ways[state][q]] for state in states for q, r in itertools.permutations(self.ways[state], 2))

    def idle(self):
        """The states in which every relay rests."""
        return {state for state, words in self.comes.items() if set(words) <= {"rests"}}

    def layers(self):
        """The states that lists of 0, 1, 2 and more moves lead to, as long as there are any, up to twice as many moves as states. A
        list of as many moves as there are states goes round: it comes to some state twice. If one that ends idle does, one of
        fewer than twice as many moves does, since a round with no state twice can be left out of any longer one."""
        found, layer = [], {self.first}
        while layer and len(found) < 2 * len(self.comes):
            found.append(layer)
            layer = {after for state in layer for after in self.ways[state].values()}
        return found

    def leading_to(self, ends):
        """The states from which some list of moves leads to one of these."""
        found, before = set(ends), None
        while found != before:
            before = found
            found = found | {state for state, ways in self.ways.items() if not found.isdisjoint(ways.values())}
        return found


class Orders(typing.NamedTuple):
    """What a search through all that was walked finds: whether the clauses hold, in all states and in the first alone; the idle
    states, and the lengths of the lists of moves that end there; whether some list goes round, and whether every state can be
    carried on to idle."""

    no_conflict: bool
    stays_movable: bool
    at_first: bool
    idle: set
    lengths: list
    goes_round: bool
    carried_on: bool

    def one_ending(self):
        """The conclusion: one idle state, by lists of one length, none of which goes round, and from everywhere."""
        return len(self.idle) == len(self.lengths) == 1 and not self.goes_round and self.carried_on

    def ending(self):
        """The number of moves and the state of the one ending."""
        (state,), (length,) = self.idle, self.lengths
        return length, state


def searched(walk):
    """What a search through all that was walked finds."""
    idle, layers, first = walk.idle(), walk.layers(), [walk.first]
    return Orders(
        no_conflict=walk.no_conflict(walk.comes),
        stays_movable=walk.stays_movable(walk.comes),
        at_first=walk.no_conflict(first) and walk.stays_movable(first),
        idle=idle,
        lengths=[length for length, layer in enumerate(layers) if layer & idle],
        goes_round=len(layers) > len(walk.comes),
        carried_on=len(walk.leading_to(idle)) == len(walk.comes),
    )


def side_by_side(dice):
    """Relays in any order, each fed by a button or by upper contacts of one or two before it: while they only draw, or only drop,
    several can move at once and none hinders another."""
    relays, rows = dice.randint(2, MOST_RELAYS), []
    order = dice.sample(range(relays), relays)
    for place, relay in enumerate(order):
        before = [[UPPER, other] for other in dice.sample(order[:place], min(place, dice.choice([0, 0, 1, 1, 2])))]
        feeds = before or [[BUTTON, dice.randrange(2)]]
        rows.append((REGULAR, relay, dice.choice([[feeds], [[feed] for feed in feeds]])))
    return relays, 2, rows


def one_or_another(dice):
    """Relays in any order: some draw one after the other, the first by a button; then one of two draws, each of which is fed by the
    last of them, or by the button, through the lower contact of the other."""
    leading = dice.randint(0, MOST_RELAYS - 2)
    order = dice.sample(range(leading + 2), leading + 2)
    feeds = [[BUTTON, 0]] + [[UPPER, before] for before in order[:leading]]
    rows = [(REGULAR, relay, [[feed]]) for relay, feed in zip(order, feeds[:leading])]
    one, other = order[leading:]
    return leading + 2, 1, rows + [(REGULAR, one, [[feeds[-1], [LOWER, other]]]), (REGULAR, other, [[feeds[-1], [LOWER, one]]])]


def passing_conflict(dice):
    """Relays that draw one after the other, the first by a button; and a steel relay, both of whose windings are fed until one of
    those relays has drawn, on most boards only from where the one before it has. On most it has the lowest number, so that a run
    comes upon the conflict. If it is where the winding that is always fed has it, the supposition fails by (i) alone."""
    relays = dice.randint(3, MOST_RELAYS)
    steel = dice.choice([0, 0, dice.randrange(relays)])
    others = dice.sample([relay for relay in range(relays) if relay != steel], relays - 1)
    feeds = [[BUTTON, 0]] + [[UPPER, before] for before in others]
    rows = [(REGULAR, relay, [[feed]]) for relay, feed in zip(others, feeds)]
    place = dice.randrange(1, relays - 1)
    until = dice.choice([[], [feeds[place]], [feeds[place]]]) + [[LOWER, others[place]]]
    always, some = dice.choice([(DRAWING, DROPPING), (DROPPING, DRAWING), (DROPPING, DRAWING)])
    return relays, 2, rows + [(always, steel, [[dice.choice([[BUTTON, 1], [0]])]]), (some, steel, [until])]


def pairs(dice):
    """Pairs of relays side by side. Of each a button draws the one, that draws the other, and the other drops the one again. Most
    of the others hold themselves then; of the rest the pair goes round."""
    relays, rows = 2 * dice.randint(1, MOST_RELAYS // 2), []
    order = dice.sample(range(relays), relays)
    for one, other in zip(order[::2], order[1::2]):
        button = [BUTTON, dice.randrange(2)]
        holding = [[button, [UPPER, other]]] if dice.random() < 0.8 else []
        rows += [(REGULAR, one, [[button, [LOWER, other]]]), (REGULAR, other, [[[UPPER, one]]] + holding)]
    return relays, 2, rows


def counting(dice):
    """Relays that count through all their states and rest then, and some that follow."""
    bits = dice.randint(2, 4)
    return session_boards.counting(dice, bits, dice.randint(0, MOST_RELAYS - bits))


def any_board(dice):
    """The counts and the parts of some fine board."""
    sort = dice.random()
    if sort < 0.35:
        return running.board(dice)
    if sort < 0.85:
        return running.wired(dice, *dice.choice([side_by_side, pairs, one_or_another, passing_conflict, passing_conflict])(dice))
    return dice.choice([session_boards.conflicting, session_boards.buzzing, session_boards.pulsing, counting])(dice)


def is_small(counts):
    """Whether there is time for all states of a board."""
    return counts[0] <= MOST_TERMINALS and counts[1] <= MOST_RELAYS


def boards(dice, count):
    """So many small boards; the counters of few stages, H3, the two relays that feed each other, and the small boards that were
    worked out by hand for other tests."""
    generated = (any_board(dice) for _ in itertools.count())
    yield from itertools.islice((board for board in generated if is_small(board[0])), count)
    yield from (counter_boards.counter(stages, button) for stages in (1, 2) for button in (False, True))
    yield from (H3, EACH_OTHER)
    by_hand = (each.asked[:2] for each in shunt_boards.every_one() + feed_boards.every_one())
    yield from (board for board, _ in itertools.groupby(by_hand) if is_small(board[0]))


def some_of(dice, names):
    """Some of so many names."""
    return frozenset(name for name in range(names) if dice.random() < 0.5)


def states(dice, own):
    """States of a board, each once: with no button pushed, with all, and with some, each from the start, from where a run from the
    start ends with another setting, and with any relays drawn."""
    _, relays, buttons = own.counts
    some = [frozenset(), frozenset(range(buttons))] + [some_of(dice, buttons) for _ in range(SETTINGS - 2)]
    settings, start = list(dict.fromkeys(some)), frozenset(judge_model.start(own.parts))
    for pushed in settings:
        ended = model.run(own, start, dice.choice(settings), model.LONGEST_LOG).drawn
        for drawn in dict.fromkeys([start, frozenset(ended), some_of(dice, relays)]):
            yield drawn, pushed


class Run(typing.NamedTuple):
    """A typed run, the line that it should print by the model, and how that must begin by what was walked, in one of these ways.
    Beside it how the line would begin by wrong statements, and these."""

    case: str
    line: str
    begins: tuple
    claimed: str
    wrong: tuple


def some_run(walk, room, begins, claimed="", wrong=()):
    """A run from the first state with so much room in its log."""
    return Run(*running.run_case(walk.own, walk.first, walk.pushed, room), begins, claimed, wrong)


def endless_runs(walk):
    """The run from the first state with room for as many moves as there can be states, where it goes on for ever."""
    return [some_run(walk, 2 ** walk.own.counts[1], ("ran buzz ",))]


def ending_runs(dice, walk, orders):
    """The runs from the first state where there is one ending, after n moves: with room for n moves, for more, and for one fewer;
    where (i) does not hold with room for n moves, which may end in conflict."""
    moves, state = orders.ending()
    idle = f"ran idle {moves} {total(state)} {total(walk.pushed)} {model.NO_RELAY} 0 0:"
    if not orders.no_conflict:
        wrong = (CONFLICT_LEFT_OUT, CONFLICT_AT_FIRST) if orders.at_first else (CONFLICT_LEFT_OUT,)
        return [some_run(walk, moves, (idle, "ran conflict "), idle, wrong)]
    fewer = [some_run(walk, moves - 1, (f"ran spent {moves - 1} ",), idle, (ONE_FEWER,))] if moves else []
    return fewer + [some_run(walk, room, (idle,)) for room in (moves, moves + 1, moves + dice.choice([2, 10, 100, 1000]))]


def runs(dice, walk, orders):
    """The runs from the first state that say something of the orders, where (ii) holds."""
    if orders.stays_movable and orders.one_ending():
        return ending_runs(dice, walk, orders)
    holds = orders.stays_movable and orders.no_conflict
    return endless_runs(walk) if holds and not orders.idle else []


def single_moves(dice, walk):
    """The single moves of all relays in some state that was walked."""
    state = dice.choice(list(walk.comes))
    return [running.move_case(walk.own, state, walk.pushed, relay) for relay in range(walk.own.counts[1])]


def look(walk, orders, seen):
    """Counts of what sorts a walk is, and which wrong statements it refutes."""
    seen["states"] += len(walk.comes)
    seen["moves"] += sum(map(len, walk.ways.values()))
    holds, ends = orders.stays_movable and orders.no_conflict, bool(orders.idle)
    seen[HOLDS if holds else BY_CONFLICT if orders.stays_movable else BY_MOVES] += 1
    seen[ENDS] += holds and ends
    seen[FOR_EVER] += holds and not ends
    seen[AT_ONCE] += holds and ends and any(len(ways) > 1 for ways in walk.ways.values())
    seen[TWICE] += holds and ends and min(orders.lengths) > max(len(walk.first ^ state) for state in orders.idle)
    seen[CONFLICT_ENDS] += orders.stays_movable and not orders.no_conflict and ends
    seen[SEVERAL] += not orders.stays_movable and ends and not orders.one_ending()
    seen[FIRST_ALONE] += orders.at_first and ends and not orders.one_ending()
    seen[NONE_ENDS] += holds and not ends  # no state can be carried on to idle then


def of_walk(walk, orders):
    """The checks of what was walked, where the supposition holds."""
    if orders.stays_movable and orders.idle:
        yield f"{walk.name()}: every order comes to one idle state by as many moves: {orders}", orders.one_ending()


def of_runs(asked, told, seen):
    """The checks that the lines of these runs begin as they must. Counts those that refute a wrong statement."""
    for run, line in zip(asked, told):
        seen.update(run.wrong if not line.startswith(run.claimed) else ())
        yield f"{run.case.strip()}: wanted {run.begins}, got {line}", line.startswith(run.begins)


def each_other():
    """The checks that the supposition fails of two relays that are each fed through the other's lower contact, where two states are
    idle: the program's single moves to those by hand, and what was walked."""
    own = model.Board(*EACH_OTHER)
    cases = [running.case(own, (drawn, ()), relay, "^", None) for drawn, relay, _ in EACH_OTHER_MOVES]
    lines = [kept_model.unsaid(line) for line in program.answers(program.command("run_cases"), cases)]
    yield from program.compared(cases, [f"moved {said} 0" for *_, said in EACH_OTHER_MOVES], lines)
    orders = searched(Walk(own, set(), set()))
    yield f"two relays that feed each other: (i) holds and (ii) does not: {orders}", orders.no_conflict and not orders.stays_movable
    two = {frozenset({0}), frozenset({1})}
    yield f"the same: there are two idle states, each after one move: {orders}", (orders.idle, orders.lengths) == (two, [1])


def met(seen, found):
    """The checks that each sort of walk, of wrong statement and of single move occurs often, printed with its count."""
    print(f"{seen[HOLDS] + seen[BY_MOVES] + seen[BY_CONFLICT]:7} states of {seen['boards']} boards are walked from")
    print(f"{seen['states']:7} states are walked through, by {seen['moves']} moves; {len(found)} single moves are compared")
    seen.update({f"a single move says {word}": sum(line.startswith(f"moved {word} ") for _, line in found) for word in WORDS})
    for what in SORTS + WRONG + [f"a single move says {word}" for word in WORDS]:
        print(f"{seen[what]:7} times: {what}")
        yield f"{what}: {seen[what]} times, at least {OFTEN}", seen[what] >= OFTEN


def compare(seed, count):
    dice, seen, checks, found, asked = random.Random(seed), collections.Counter(), [], [], []
    for own in (model.Board(*board) for board in boards(dice, count)):
        seen["boards"] += 1
        for walk in (Walk(own, *state) for state in states(dice, own)):
            orders = searched(walk)
            look(walk, orders, seen)
            checks += of_walk(walk, orders)
            found += single_moves(dice, walk)
            asked += runs(dice, walk, orders)
    cases, wanted = zip(*found, *(run[:2] for run in asked))
    told = program.answers(program.command("run_cases"), cases)
    checks += program.compared(cases, wanted, told)
    checks += of_runs(asked, told[len(found) :], seen)
    return checks + list(each_other()) + list(met(seen, found))


if __name__ == "__main__":
    seed, count = (int(word) for word in sys.argv[1:3]) if len(sys.argv) > 2 else (1, 250)
    sys.exit(repository.report(compare(seed, count)))
