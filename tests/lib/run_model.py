"""Pushing a button, moving a relay and running a board once more, in plain Python, after the rule book (docs/RULES.md), "How a
relay moves" and "Numbers for no", on top of judge_model, from which it has requests A4 and A5, and of divide_model, from which it
has A6: moves and runs judge without an allowance. For request A8 a run keeps every state that it comes through. Its author had read
the crates, so it is not the independent second program. Refusal 15 is left out: every board here is fine."""
import typing

import divide_model as divide
import judge_model as judge
import kept_model as kept
from divide_model import LIVE

NO_SUCH_BUTTON, ALREADY_SO, LOG_TOO_LONG = 7, 12, 13
LONGEST_LOG = 65_536
NO_RELAY = 255
DRAW = 128


class Board:
    """The counts T, R, B and the parts of a fine board. What a relay's windings are in a state is worked out once."""

    def __init__(self, counts, parts):
        self.counts, self.parts, self.near, self.known = counts, parts, {}, {}
        own = [[judge.winding(parts, relay, second) for second in (False, True)] for relay in range(counts[1])]
        self.windings = [[part for part in pair if part] for pair in own]

    def belong(self, sets, drawn, pushed):
        """Whether these kept sets belong to the board in a state; None is for those that do."""
        return sets is None or sets == kept.own(self.parts, drawn, pushed)

    def judged(self, drawn, pushed, relay):
        """What each winding of a relay is in a state, the first one first: live, shunted or dead."""
        state = frozenset(drawn), frozenset(pushed)
        if state not in self.near:
            self.near[state] = judge.neighbours(self.counts[0], self.parts, drawn, pushed)
        if (state, relay) not in self.known:
            words = [divide.judged(self.parts, drawn, pushed, self.near[state], part)[0] for part in self.windings[relay]]
            self.known[state, relay] = words
        return self.known[state, relay]


def against(board, drawn, pushed, belong=True, room=0, relay=None, press=None):
    """The numbers for no that stand against a run with so much room in its log, a move of this relay, or a press, with kept sets
    that belong or do not; in their order, so that the first is given. A press is a button, and whether it is pushed or
    released."""
    lines = [(judge.beyond(board.counts, drawn, pushed), judge.STATE_BEYOND_BOARD), (not belong, judge.FOREIGN_SETS)]
    lines += [(room > LONGEST_LOG, LOG_TOO_LONG), (relay is not None and relay >= board.counts[1], judge.NO_SUCH_WINDING)]
    if press:
        button, is_push = press
        lines += [(button >= board.counts[2], NO_SUCH_BUTTON), ((button in pushed) == is_push, ALREADY_SO)]
    return [number for stands, number in lines if stands]


def motion(windings, drawn):
    """What a relay comes to, by what each of its windings is, and whether the relay is drawn."""
    live = [word == LIVE for word in windings]
    if live == [True, True]:
        return "conflict"
    draws, drops = live if len(live) == 2 else (live[0], not live[0])
    if draws and not drawn:
        return "drew"
    if drops and drawn:
        return "dropped"
    return "rests"


def after(drawn, relay, word):
    """The drawn relays after a relay came to this."""
    return drawn | {relay} if word == "drew" else drawn - {relay} if word == "dropped" else drawn


def move(board, drawn, pushed, relay):
    """The word of a single move of a relay that is there, and the drawn relays after it."""
    word = motion(board.judged(drawn, pushed, relay), relay in drawn)
    return word, after(drawn, relay, word)


def look(board, drawn, pushed):
    """The first relay from 0 up that does not rest, and what it comes to; idle if there is none."""
    for relay in range(board.counts[1]):
        word, _ = move(board, drawn, pushed, relay)
        if word != "rests":
            return word, relay
    return "idle", NO_RELAY


class Ran(typing.NamedTuple):
    """How a run ends: its word, its log, the drawn relays, the relay that stopped it, and where it buzzes the moves made up to the
    earlier state and those between."""

    word: str
    log: list
    drawn: set
    relay: int = NO_RELAY
    earlier: int = 0
    between: int = 0


def run(board, drawn, pushed, room):
    """A run with so much room in its log. Where a state comes again it buzzes; that is asked before whether the log is full."""
    log, states = [], {frozenset(drawn): 0}
    while True:
        word, relay = look(board, drawn, pushed)
        if word not in ("drew", "dropped"):
            return Ran(word, log, drawn, relay)
        if len(log) == room:
            return Ran("spent", log, drawn, relay)
        log.append(relay + (DRAW if word == "drew" else 0))
        drawn = after(drawn, relay, word)
        earlier = states.setdefault(frozenset(drawn), len(log))
        if earlier < len(log):
            return Ran("buzz", log, drawn, NO_RELAY, earlier, len(log) - earlier)
