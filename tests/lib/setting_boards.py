"""Fine boards for the reports on all settings of their buttons in tests/reports.py (request A10), each as its counts T, R, B and
its parts, with as many buttons as are asked for: those of tests/lib/session_boards.py, tests/running.py and
tests/lib/counter_boards.py with other buttons, some of which may have no part; some of these side by side, so that settings end
with different words; relays in a row, each behind a button of its own. Most have marks in half of the cases."""
import counter_boards
import running
import session_boards
from judge_model import BUTTON, LOWER, MARK, MINUS, PLUS, REGULAR, UPPER
from session_boards import MOST_PARTS, MOST_RELAYS, MOST_TERMINALS

FEW_TERMINALS, FEW_RELAYS = 24, 8  # of a board for whose settings a model in Python has time


def with_buttons(dice, board, buttons):
    """A board with so many buttons for its own: of each part of a button any of them, of some boards any of a few. Where there
    are none, these parts are left out."""
    counts, parts = board
    names = dice.sample(range(buttons), dice.choice([buttons, buttons, dice.randint(1, buttons)])) if buttons else []
    kept = [part for part in parts if names or part[0] != BUTTON]
    return counts[:2] + [buttons], [part[:3] + [dice.choice(names)] if part[0] == BUTTON else part for part in kept]


def moved(part, terminals, relays, places):
    """A part of a board that stands beside others, which have so many terminals, plus and minus not counted, and so many relays.
    The relays of all come to these places."""
    name = [places[relays + number] if part[0] not in (BUTTON, 0) else number for number in part[-1:]]
    if part[0] == MARK:
        return [MARK] + name
    ends = [end if end in (PLUS, MINUS) else end + terminals for end in part[1:3]]
    return [part[0]] + ends + (name if len(part) > 3 else [])


def beside(dice, boards):
    """Boards side by side, joined at plus and minus alone, with their relays in any order. They share their buttons."""
    every = sum(counts[1] for counts, _ in boards)
    places, terminals, relays, parts = dice.sample(range(every), every), 0, 0, []
    for counts, own in boards:
        parts += [moved(part, terminals, relays, places) for part in own]
        terminals, relays = terminals + counts[0] - 2, relays + counts[1]
    dice.shuffle(parts)
    return [terminals + 2, relays, max(counts[2] for counts, _ in boards)], parts


def in_turn(dice, buttons):
    """Relays in any order, each fed by a contact of the one before and by a button of its own, as long as there are any: so the
    moves go by how many of these are pushed from the first on."""
    relays = dice.randint(1, 6)
    order = dice.sample(range(relays), relays)
    own = [[[BUTTON, name]] for name in dice.sample(range(buttons), min(buttons, relays))] + [[]] * relays
    feeds = [[[0]]] + [[[dice.choice([UPPER] * 6 + [LOWER]), before]] for before in order]
    rows = [(REGULAR, relay, [feed + button]) for relay, feed, button in zip(order, feeds, own)]
    return running.wired(dice, relays, buttons, rows)


def counting(dice, most):
    """Relays that go through all their states, so many at most, and rest then; a few follow."""
    return session_boards.marked(dice, session_boards.counting(dice, dice.randint(2, most), dice.randint(0, 2)))


def counter(dice, most):
    """A counter of so many stages at most, behind a button."""
    return session_boards.marked(dice, counter_boards.counter(dice.randint(1, most), True))


def some_board(dice):
    """A board of few relays with any number of buttons."""
    sorts = [session_boards.feeding] * 3 + [session_boards.shunting, session_boards.buzzing, session_boards.pulsing, running.board]
    sorts += [session_boards.conflicting] * 2 + [session_boards.every_kind, session_boards.crowded, session_boards.web]
    return dice.choice(sorts + [lambda dice: counting(dice, 4), lambda dice: counter(dice, 2)])(dice)


def is_small(counts):
    """Whether a model in Python has time for all settings of a board, if it has few buttons."""
    return counts[0] <= FEW_TERMINALS and counts[1] <= FEW_RELAYS


def small(dice, buttons):
    """A small board with so many buttons: in a row, by itself, or beside others."""
    if dice.random() < 0.15:
        return in_turn(dice, buttons)
    while True:
        board = beside(dice, [some_board(dice) for _ in range(dice.choice([1, 1, 2, 2, 3]))])
        if is_small(board[0]) and len(board[1]) <= MOST_PARTS:
            return with_buttons(dice, board, buttons)


def large(dice, buttons):
    """A board with so many buttons and many relays: the most of everything, long counters, or some boards side by side."""
    sorts = [session_boards.largest, session_boards.web, lambda dice: counting(dice, 7), lambda dice: counter(dice, 5)]
    sorts += [lambda dice: beside(dice, [some_board(dice) for _ in range(4)])] * 4
    while True:
        counts, parts = dice.choice(sorts)(dice)
        if counts[0] <= MOST_TERMINALS and counts[1] <= MOST_RELAYS and len(parts) <= MOST_PARTS:
            return with_buttons(dice, (counts, parts), buttons)
