"""Boards with shunts (request A4), and beside each of them some that are nearly so: judgements, each with the effort and the
chain that it must come to, worked out by hand. A winding is shunted if conducting parts that are no windings link its ends;
then it is dead with effort 0, and conducts for others all the same. Parts are as in tests/lib/judge_model.py."""
import typing

from judge_model import BUTTON, DRAWING, DROPPING, LOWER, MARK, REGULAR, UPPER

WIRE = 0
FIRST, SECOND = 0, 1  # which of a relay's windings
SHUNTED = 0, None  # the effort of a shunted winding, and no chain


class Judged(typing.NamedTuple):
    """What is asked, as the counts, the parts, the drawn relays, the pushed buttons, the relay and which of its windings;
    and what that winding comes to: its effort and the chain that shows it, None for a dead one."""

    name: str
    asked: tuple
    effort: int
    chain: typing.Optional[tuple]


def wires(*ends):
    """Wires from each of these terminals to the next."""
    return [[WIRE, a, b] for a, b in zip(ends, ends[1:])]


def asked_of(terminals, parts, relay, which, drawn=(), pushed=()):
    """A winding of a board in a state, as it is asked for."""
    names = [{part[-1] for part in parts if part[0] in kinds} for kinds in ((REGULAR, DRAWING), (BUTTON,))]
    counts = [terminals, *(max(own, default=-1) + 1 for own in names)]
    return counts, parts, set(drawn), set(pushed), relay, which


def judged(name, terminals, parts, *asked, **state):
    """A board's judgements in a state. Each is the relay, which of its windings, the effort and the chain."""
    return [Judged(name, asked_of(terminals, parts, relay, which, **state), *comes_to) for relay, which, *comes_to in asked]


def by_one_part():
    """A wire, a contact or a button beside a winding. What does not conduct is no shunt, and a mark is none."""
    fed = wires(0, 2) + [[REGULAR, 2, 1, 0]]
    shunted, live = (0, FIRST, *SHUNTED), (0, FIRST, 3, (0, 2, 1))
    yield from judged("H6: a wire", 3, fed + wires(2, 1), shunted)
    yield from judged("a wire typed the other way", 3, fed + wires(1, 2), shunted)
    for name, kind, closed, opened in (
        ("an upper contact", UPPER, {"drawn": [0]}, {}),
        ("a lower contact", LOWER, {}, {"drawn": [0]}),
        ("a button", BUTTON, {"pushed": [0]}, {}),
    ):
        yield from judged(f"{name}, closed", 3, fed + [[kind, 2, 1, 0]], shunted, **closed)
        yield from judged(f"{name}, open", 3, fed + [[kind, 2, 1, 0]], live, **opened)
    yield from judged("a mark", 3, [[REGULAR, 0, 2, 0], [MARK, 0]] + wires(2, 1), live)
    yield from judged("a wire from pole to pole", 2, [[REGULAR, 0, 1, 0]] + wires(0, 1), shunted)
    yield from judged("a winding on the poles, and no wire", 2, [[REGULAR, 0, 1, 0]], (0, FIRST, 2, (0, 1)))


def in_a_row():
    """An upper contact, a lower one and a button in a row beside a winding: a shunt only while all of them are closed."""
    row = [[UPPER, 2, 3, 1], [LOWER, 3, 4, 0], [BUTTON, 4, 1, 0]]
    board = 7, wires(0, 2) + [[REGULAR, 2, 1, 0], [REGULAR, 5, 6, 1]] + row
    live = 0, FIRST, 3, (0, 2, 1)
    yield from judged("a row that is closed", *board, (0, FIRST, *SHUNTED), drawn=[1], pushed=[0])
    yield from judged("a row, its upper contact open", *board, live, pushed=[0])
    yield from judged("a row, its lower contact open", *board, live, drawn=[0, 1], pushed=[0])
    yield from judged("a row, its button open", *board, live, drawn=[1])


def over_terminals():
    """Shunts over plus, over minus, and over a terminal that another winding hangs on; each with what the other comes to."""
    shunted = 0, FIRST, *SHUNTED
    plus = wires(2, 0, 3) + [[REGULAR, 2, 3, 0], [REGULAR, 3, 1, 1]]
    yield from judged("over plus", 4, plus, shunted, (1, FIRST, 4, (0, 2, 3, 1)))
    minus = wires(2, 1, 3) + [[REGULAR, 0, 3, 1], [REGULAR, 2, 3, 0]]
    yield from judged("over minus", 4, minus, shunted, (1, FIRST, 3, (0, 3, 1)))
    hangs = wires(0, 2, 4, 3, 1) + [[REGULAR, 2, 3, 0], [REGULAR, 4, 5, 1]]
    yield from judged("over a terminal with another winding", 6, hangs, shunted, (1, FIRST, 10, None))
    both = wires(0, 2, 4, 3, 1) + [[REGULAR, 2, 3, 0], [REGULAR, 2, 4, 1]]
    yield from judged("two windings, both shunted", 5, both, shunted, (1, FIRST, *SHUNTED))


def over_all_terminals():
    """Shunts that lead through every terminal, the numbers going up or down; and one that is cut."""
    winding = [[REGULAR, 0, 1, 0]]
    up, down = wires(0, *range(2, 64), 1), wires(0, *range(63, 0, -1))
    yield from judged("over all terminals", 64, winding + up, (0, FIRST, *SHUNTED))
    yield from judged("over all terminals, downwards", 64, winding + down, (0, FIRST, *SHUNTED))
    yield from judged("the wires in another order", 64, up[::-1] + winding, (0, FIRST, *SHUNTED))
    cut = [wire for wire in up if wire != [WIRE, 32, 33]]
    yield from judged("over all terminals, cut in the middle", 64, winding + cut, (0, FIRST, 2, (0, 1)))


def by_windings():
    """What only windings link is no shunt: other windings, beside it or in a row, or the winding itself."""
    live = 3, (0, 2, 1)
    beside = wires(0, 2) + [[REGULAR, 2, 1, 0], [REGULAR, 1, 2, 1]]
    yield from judged("windings beside each other", 3, beside, (0, FIRST, *live), (1, FIRST, *live))
    hanging = wires(0, 2) + [[REGULAR, 2, 3, 0], [REGULAR, 2, 3, 1]]
    yield from judged("windings beside each other, dead", 4, hanging, (0, FIRST, 3, None), (1, FIRST, 3, None))
    row = wires(0, 2, 4) + wires(3, 1) + [[REGULAR, 2, 3, 0], [REGULAR, 4, 3, 1]]
    yield from judged("a row with a winding in it", 5, row, (0, FIRST, 4, (0, 2, 3, 1)), (1, FIRST, 8, (0, 2, 4, 3, 1)))
    own = wires(0, 2, 4) + wires(3, 5, 1) + [[REGULAR, 2, 3, 0]]
    yield from judged("what only the winding itself links", 6, own, (0, FIRST, 5, (0, 2, 3, 5, 1)))
    steel = wires(0, 2) + [[DRAWING, 2, 1, 0], [DROPPING, 2, 1, 0]]
    yield from judged("a steel relay's windings beside each other", 3, steel, (0, FIRST, *live), (0, SECOND, *live))


def of_steel_relays():
    """One winding of a steel-core relay shunted and the other not: each returns through the winding of a relay of its own.
    With a wire there the shunt of the one links plus and minus, and so the ends of the other too."""
    returns = [[REGULAR, 4, 1, 1], [REGULAR, 5, 1, 2], [BUTTON, 2, 4, 0], [BUTTON, 3, 5, 1]]
    steel = wires(2, 0, 3) + [[DRAWING, 2, 4, 0], [DROPPING, 3, 5, 0]] + returns
    draws, drops = (0, FIRST, 4, (0, 2, 4, 1)), (0, SECOND, 7, (0, 3, 5, 1))
    no_draw, no_drop = (0, FIRST, *SHUNTED), (0, SECOND, *SHUNTED)
    yield from judged("steel, none shunted", 6, steel, draws, drops)
    yield from judged("steel, the drawing winding shunted", 6, steel, no_draw, drops, pushed=[0])
    yield from judged("steel, the dropping winding shunted", 6, steel, draws, no_drop, pushed=[1])
    yield from judged("steel, both shunted", 6, steel, no_draw, no_drop, pushed=[0, 1])
    short = wires(2, 0, 3) + wires(2, 1) + [[DRAWING, 2, 1, 0], [DROPPING, 3, 1, 0]]
    yield from judged("steel, both shunted by one wire", 4, short, no_draw, no_drop)


def through_shunted_windings():
    """Relays that are live only by a chain through the shunted winding of another: the way beside that leads over plus,
    where the chain has been."""
    through = wires(2, 0, 3, 1) + [[REGULAR, 2, 3, 0], [REGULAR, 2, 4, 1], [REGULAR, 4, 0, 2]]
    chain = 13, (0, 4, 2, 3, 1)
    yield from judged("through a shunted winding", 5, through, (0, FIRST, *SHUNTED), (1, FIRST, *chain), (2, FIRST, *chain))


def rule_book():
    """H4, and H4 with the winding of a second relay for its wire 4-2: then relay 0 is not shunted, and dead all the same."""
    h4 = wires(0, 2, 3) + [[REGULAR, 3, 4, 0]]
    yield from judged("H4", 5, h4 + wires(4, 2), (0, FIRST, *SHUNTED))
    yield from judged("H4 with a wire 2-1 more", 5, h4 + wires(4, 2, 1), (0, FIRST, *SHUNTED))
    second = h4 + [[REGULAR, 4, 2, 1]]
    yield from judged("H4 with a second winding", 5, second, (0, FIRST, 6, None), (1, FIRST, 6, None))
    wire = second + wires(2, 1)
    yield from judged("H4 with a second winding and a wire 2-1", 5, wire, (0, FIRST, 7, None), (1, FIRST, 7, None))


def many_chains():
    """Boards with more chains than there is time for. What is shunted there is dead at once, whatever is allowed."""
    shunted = 0, FIRST, *SHUNTED
    every = [[WIRE, a, b] for a in range(22) for b in range(a)]
    yield from judged("22 terminals, each joined to each other", 22, every + [[REGULAR, 20, 21, 0]], shunted)
    apart = every + [[REGULAR, 22, 23, 0]] + wires(22, 24, 23)
    yield from judged("beside them a winding and its shunt", 25, apart, shunted)
    rungs = [[WIRE, rung, rung + 1] for rung in range(2, 62, 2)]
    ladder = wires(*range(0, 62, 2)) + wires(0, *range(3, 63, 2)) + rungs
    end = [[DRAWING, 61, 62, 0], [DROPPING, 62, 63, 0], [BUTTON, 61, 63, 0], [BUTTON, 63, 62, 1]]
    yield from judged("a ladder's end", 64, ladder + end, shunted, (0, SECOND, *SHUNTED), pushed=[0, 1])


def every_one():
    """All of them."""
    makers = [by_one_part, in_a_row, over_terminals, over_all_terminals, by_windings, of_steel_relays]
    makers += [through_shunted_windings, rule_book, many_chains]
    return [each for make in makers for each in make()]
