"""The report on all settings of a board's buttons (request A10) once more, in plain Python, after the rule book (docs/RULES.md),
"All button settings" and "Numbers for no": each setting is run by run_model from the start. Beside it models that are wrong, each
by one slip, for tests/reports.py to refute; and the page, which the program `herdspiral` prints. Its author had read the crates,
so it is not the independent second program."""
import collections
import typing

import board_model
import judge_model
import run_model
from run_model import LOG_TOO_LONG, LONGEST_LOG

BROKEN_BOARD, TOO_MANY_BUTTONS = 15, 20
ORDER = BROKEN_BOARD, LOG_TOO_LONG, TOO_MANY_BUTTONS
MOST_BUTTONS = 12
# What is asked wrongly of refusals, each by one slip: another order, or another limit.
WRONG_NUMBERS = {
    "20 asked before 13": {"order": (15, 20, 13)},
    "13 asked before 15": {"order": (13, 15, 20)},
    "20 asked first": {"order": (20, 15, 13)},
    "13 buttons reported": {"most_buttons": 13},
    "12 buttons refused": {"most_buttons": 11},
    "a log of 65,537 taken": {"longest_log": LONGEST_LOG + 1},
    "a log of 65,536 refused": {"longest_log": LONGEST_LOG - 1},
}
FIELDS = {0: 2, judge_model.MARK: 1}  # of a wire and of a mark; all others have three
PAGE = ["settings", "ended idle", "ended with buzz", "ended in conflict", "spent", "moves in all", "most moves"]
PAGE += ["first setting with the most moves"]


class Figures(typing.NamedTuple):
    """The eight figures of a report."""

    settings: int
    idle: int
    buzz: int
    conflict: int
    spent: int
    moves: int
    most: int
    first: int


ZEROS = Figures(0, 0, 0, 0, 0, 0, 0, 0)


def figures(ended):
    """The figures of runs, each given by its word and its moves, in the order of their settings."""
    words, moves = collections.Counter(word for word, _ in ended), [made for _, made in ended]
    counts = [words[word] for word in ("idle", "buzz", "conflict", "spent")]
    return Figures(len(ended), *counts, sum(moves), max(moves), moves.index(max(moves)))


def buttons_of(setting):
    """The buttons that are pushed in a setting, which is the sum of 2 to each."""
    return frozenset(button for button in range(setting.bit_length()) if setting >> button & 1)


def runs_from(own, drawn, room):
    """The runs of all settings of a board from these drawn relays, each with so much room in its log."""
    return [run_model.run(own, drawn, buttons_of(setting), room) for setting in range(2 ** own.counts[2])]


def runs(own, room):
    """The runs of all settings of a board from its start."""
    return runs_from(own, judge_model.start(own.parts), room)


def ended(made):
    """Runs by their words and their moves."""
    return [(ran.word, len(ran.log)) for ran in made]


def against(is_fine, buttons, room, order=ORDER, most_buttons=MOST_BUTTONS, longest_log=LONGEST_LOG):
    """The numbers for no that stand against a report on a board that is fine or breaks a rule, with so many buttons, and so much
    room in the logs; in their order, so that the first is given. Another order, or other limits, make a wrong model."""
    stands = {BROKEN_BOARD: not is_fine, LOG_TOO_LONG: room > longest_log, TOO_MANY_BUTTONS: buttons > most_buttons}
    return [number for number in order if stands[number]]


def line(numbers, told=ZEROS):
    """The line of a report with these figures, unless some numbers stand against it: then the first is given, and all are zeros."""
    said = ["reported", "refused", numbers[0], *ZEROS] if numbers else ["reported", *told]
    return " ".join(map(str, said))


# Wrong models: each takes a board, the room in the logs, and the runs of all settings as they should be.


def last_with_the_most(own, room, made):
    """Of several settings with the most moves the last is told."""
    right, moves = figures(ended(made)), [len(ran.log) for ran in made]
    return right._replace(first=max(setting for setting, many in enumerate(moves) if many == right.most))


def each_from_the_one_before(own, room, made):
    """A setting goes on from the state that the one before left."""
    drawn, found = judge_model.start(own.parts), []
    for setting in range(len(made)):
        found.append(run_model.run(own, drawn, buttons_of(setting), room))
        drawn = found[-1].drawn
    return figures(ended(found))


def after_a_run_with_none_pushed(own, room, made):
    """Buttons are pushed after a run with none, as in a session."""
    return figures(ended(runs_from(own, made[0].drawn, room)))


def from_none_drawn(own, room, made):
    """Marks have no say."""
    return figures(ended(runs_from(own, set(), room)))


def one_log_for_all(own, room, made):
    """A log that is filled by one setting is not emptied for the next."""
    drawn, found = judge_model.start(own.parts), []
    for setting in range(len(made)):
        found.append(run_model.run(own, drawn, buttons_of(setting), room - sum(len(ran.log) for ran in found)))
    return figures(ended(found))


def button_0_set_first(own, room, made):
    """Button 0 is the last to change, so that settings come as their digits are read backwards."""
    backwards = [int(f"{setting:0{own.counts[2]}b}"[::-1], 2) for setting in range(len(made))]
    return figures([ended(made)[setting] for setting in backwards])


def on_before_off(own, room, made):
    """Settings come from the highest down."""
    return figures(ended(made)[::-1])


def highest_button_left_alone(own, room, made):
    """The highest button is never pushed."""
    return figures(ended(made)[: (len(made) + 1) // 2])


def moves_of_a_buzz_not_counted(own, room, made):
    """A buzz counts for no moves."""
    return figures([(ran.word, 0 if ran.word == "buzz" else len(ran.log)) for ran in made])


def moves_up_to_the_meeting_counted(own, room, made):
    """A buzz counts for the moves up to the state that comes again."""
    return figures([(ran.word, ran.earlier if ran.word == "buzz" else len(ran.log)) for ran in made])


def buzz_counted_as_idle(own, room, made):
    """A buzz is taken for idle."""
    return figures([("idle" if ran.word == "buzz" else ran.word, len(ran.log)) for ran in made])


WRONG = [last_with_the_most, each_from_the_one_before, after_a_run_with_none_pushed, from_none_drawn, one_log_for_all]
WRONG += [button_0_set_first, on_before_off, highest_button_left_alone, moves_of_a_buzz_not_counted]
WRONG += [moves_up_to_the_meeting_counted, buzz_counted_as_idle]


# The page.


def page(told):
    """The page of these figures."""
    return "".join(f"{words}: {figure}\n" for words, figure in zip(PAGE, told)).encode()


def board_at(data):
    """The counts T, R, B and the parts of the board at the start of these bytes, which reads."""
    place = 0

    def take(many):
        nonlocal place
        for _ in range(many):
            number, place = board_model.number_at(data, place)
            yield number

    *counts, many = take(4)
    return counts, [[kind, *take(FIELDS.get(kind, 3))] for _ in range(many) for kind in take(1)]


def page_of(data, room):
    """What the program prints of these bytes, asked with so much room in the logs: the page of the board at their start, or what it
    is refused by, with the place, which is 0 where it is not the reader that refuses."""
    try:
        board_model.read(data)
    except board_model.Refused as refusal:
        return b"refused %d %d\n" % refusal.args
    counts, parts = board_at(data)
    numbers = against(True, counts[2], room)
    return b"refused %d 0\n" % numbers[0] if numbers else page(figures(ended(runs(run_model.Board(counts, parts), room))))
