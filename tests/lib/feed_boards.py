"""Boards for request A6, judging without listing chains: a ladder and two ring mains, both with more chains than any allowance, a
ring, bridges, rows of terminals that each divide, and the rule book's H4 and H6. Each judgement with what it must come to and
every terminal that divides the winding, worked out by hand. Parts are as in tests/lib/judge_model.py."""
import typing

from judge_model import BUTTON, REGULAR
from shunt_boards import FIRST, WIRE, asked_of, wires


class Fed(typing.NamedTuple):
    """What is asked, as in tests/lib/shunt_boards.py; what the judge without an allowance tells of that winding; and the
    terminals that divide it."""

    name: str
    asked: tuple
    told: str
    dividing: tuple


def fed(name, terminals, parts, *asked, **state):
    """A board's judgements in a state, each of a relay's first winding."""
    return [Fed(name, asked_of(terminals, parts, relay, FIRST, **state), *comes_to) for relay, *comes_to in asked]


def ladder():
    """Two rails from plus to minus with 30 rungs; on terminal 61 hang relays 0 and 1 in a row, with a button to minus behind
    them; relay 2 lies beside a rung."""
    rails = wires(0, *range(2, 62, 2), 1) + wires(0, *range(3, 62, 2), 1)
    rungs = [[WIRE, rung, rung + 1] for rung in range(2, 62, 2)]
    hung = [[REGULAR, 61, 62, 0], [REGULAR, 62, 63, 1], [BUTTON, 63, 1, 0], [REGULAR, 30, 31, 2]]
    board, beside = (64, rails + rungs + hung), (2, "shunted", ())
    yield from fed("a ladder, its button up", *board, (0, "dead 61", (61,)), (1, "dead 61", (61, 62)), beside)
    yield from fed("a ladder, its button pushed", *board, (0, "live", ()), (1, "live", ()), beside, pushed=[0])


def ring_mains():
    """Two ring mains with 30 ties, each fed at one place. On terminal 32 hangs relay 0, with a button to minus behind it and
    relay 2 at its end; relay 1 returns from terminal 33 to minus."""
    mains = wires(*range(2, 62, 2), 2) + wires(*range(3, 62, 2), 3)
    ties = [[WIRE, tie, tie + 1] for tie in range(2, 62, 2)]
    hung = [[REGULAR, 32, 62, 0], [BUTTON, 62, 1, 0], [REGULAR, 33, 1, 1], [REGULAR, 62, 63, 2]]
    board, returns = (64, wires(2, 0, 3) + mains + ties + hung), (1, "live", ())
    yield from fed("ring mains, the button up", *board, (0, "dead 32", (32,)), returns, (2, "dead 32", (32, 62)))
    yield from fed("ring mains, the button pushed", *board, (0, "live", ()), returns, (2, "dead 62", (62,)), pushed=[0])


def ring():
    """One ring, fed at one place; relay 0 hangs on it, and relay 1 returns from it to minus."""
    parts = wires(0, 2) + wires(*range(2, 63), 2) + [[REGULAR, 20, 63, 0], [REGULAR, 40, 1, 1]]
    yield from fed("a ring", 64, parts, (0, "dead 20", (20,)), (1, "live", ()))


def bridges():
    """Relay 0 on the bridge between two ways from plus to minus, each of two other windings; and without some of these."""
    bridge = [[REGULAR, 2, 3, 0]]
    upper, lower = [[REGULAR, 0, 2, 1], [REGULAR, 3, 0, 2]], [[REGULAR, 2, 1, 3], [REGULAR, 1, 3, 4]]
    yield from fed("a bridge", 4, bridge + upper + lower, (0, "live", ()), (1, "live", ()), (4, "live", ()))
    yield from fed("no way to minus", 4, bridge + upper, (0, "dead 0", (0,)), (1, "dead 0", (0,)))
    left = bridge + upper[:1] + wires(2, 1)
    yield from fed("one side only", 4, left, (0, "dead 2", (2,)), (1, "live", ()))
    across = bridge + [[REGULAR, 3, 0, 1]] + wires(2, 1)
    yield from fed("in at one side, out at the other", 4, across, (0, "live", ()), (1, "live", ()))


def rows():
    """A winding at the end of a row of wires, at each of which it can be cut off; on a pole; from pole to pole; and away from
    both, where each terminal divides it."""
    parts = wires(0, 2, 1) + wires(2, 3, 4, 5) + [[REGULAR, 5, 6, 0]]
    yield from fed("a row that ends in a winding", 7, parts, (0, "dead 2", (2, 3, 4, 5)))
    yield from fed("on plus", 3, [[REGULAR, 0, 2, 0]], (0, "dead 0", (0,)))
    yield from fed("on minus", 3, [[REGULAR, 2, 1, 0]], (0, "dead 1", (1,)))
    yield from fed("from pole to pole", 2, [[REGULAR, 1, 0, 0]], (0, "live", ()))
    yield from fed("away from both poles", 5, [[REGULAR, 2, 3, 0]], (0, "dead 0", (0, 1, 2, 3, 4)))


def rule_book():
    """H4 and H6, and H4 with the winding of a second relay for its wire 4-2."""
    h4 = wires(0, 2, 3) + [[REGULAR, 3, 4, 0]]
    yield from fed("H4", 5, h4 + wires(4, 2), (0, "shunted", (0, 2)))
    yield from fed("H4 with a wire 2-1 more", 5, h4 + wires(4, 2, 1), (0, "shunted", (2,)))
    second = h4 + [[REGULAR, 4, 2, 1]]
    yield from fed("H4 with a second winding", 5, second, (0, "dead 0", (0, 2)), (1, "dead 0", (0, 2)))
    yield from fed("the same and a wire 2-1", 5, second + wires(2, 1), (0, "dead 2", (2,)), (1, "dead 2", (2,)))
    yield from fed("H6", 3, wires(0, 2, 1) + [[REGULAR, 2, 1, 0]], (0, "shunted", ()))


def every_one():
    """All of them."""
    return [each for make in (ladder, ring_mains, ring, bridges, rows, rule_book) for each in make()]
