"""Fine boards for the comparison of whole sessions in tests/sessions.py, some of them also for that of the orders of moves in
tests/orders.py, each as its counts T, R, B and its parts: relays that feed each other, relays that are shunted, relays that buzz,
at once or after others have drawn, relays that count, steel relays in conflict, every kind of part, many parallel parts, the most
of everything, and boards with many chains; most of them with marks in half of the cases. Built with the generators of
tests/running.py and tests/judging.py."""
import judging
import running
from judge_model import BUTTON, DRAWING, DROPPING, LOWER, MARK, MINUS, PLUS, REGULAR, UPPER

WIRE = 0
MOST_TERMINALS, MOST_RELAYS, MOST_BUTTONS, MOST_PARTS = 64, 32, 32, 256


def marked(dice, board):
    """A board with marks of some of its relays, in half of the cases none."""
    counts, parts = board
    parts = parts + judging.some_marks(dice, counts[1])
    return counts, dice.sample(parts, len(parts))


def feeding(dice):
    """Relays of both sorts that feed each other; seldom they buzz."""
    rows = dice.choice([running.any_rows] * 4 + [running.sequence_rows] * 3 + [running.steel_rows] * 3 + [running.holding_rows])
    return running.wired(dice, *rows(dice))


def shunting(dice):
    """Relays that buttons and contacts shunt."""
    return running.wired(dice, *running.shunting_rows(dice))


def web(dice):
    """Terminals joined at random, densely, in a ring, as a ladder or in a path."""
    return judging.board(dice)


def buzzing(dice):
    """Relays in a ring with an odd number of lower contacts, so that there is always one that can move; some of the rings are
    closed by a button."""
    relays = dice.randint(1, 4)
    lower = set(dice.sample(range(relays), dice.choice([odd for odd in (1, 3) if odd <= relays])))
    ways = [[[LOWER if relay in lower else UPPER, (relay + 1) % relays]] for relay in range(relays)]
    if dice.random() < 0.6:
        dice.choice(ways).append([BUTTON, 0])
    return running.wired(dice, relays, 1, [(REGULAR, relay, [way]) for relay, way in enumerate(ways)])


def pulsing(dice):
    """Relays that draw one after the other, and then others that buzz."""
    return running.wired(dice, *running.pulsing_rows(dice))


def conflicting(dice):
    """Some steel relays with a button for each winding, and a regular relay that a contact of the first of them feeds."""
    steel = dice.randint(1, 3)
    rows = [(REGULAR, steel, [[[dice.choice([UPPER, LOWER]), 0]]])]
    for relay in range(steel):
        rows += [(DRAWING, relay, [[[BUTTON, 2 * relay]]]), (DROPPING, relay, [[[BUTTON, 2 * relay + 1]]])]
    return running.wired(dice, steel + 1, 2 * steel, rows)


def every_kind(dice):
    """A regular and a steel relay, with parts of all eight kinds."""
    regular, steel = dice.sample([0, 1], 2)
    feeds = [[BUTTON, 0], [UPPER, regular], [LOWER, steel], [WIRE], [BUTTON, 1], [dice.choice([UPPER, LOWER]), steel]]
    dice.shuffle(feeds)
    rows = [(REGULAR, regular, [feeds[:2]]), (DRAWING, steel, [feeds[2:4]]), (DROPPING, steel, [feeds[4:]])]
    return running.wired(dice, 2, 2, rows, [[MARK, relay] for relay in dice.sample([0, 1], dice.randint(1, 2))])


def holding(dice):
    """A relay that holds itself until another cuts it."""
    return running.wired(dice, *running.holding_rows(dice))


def sequence(dice):
    """Relays that draw one after the other."""
    return running.wired(dice, *running.sequence_rows(dice))


def counting(dice, bits, followers):
    """Relays that count: so many of them go through all their states, as Gray's code has them, one move each, and rest when
    only the highest is drawn; then its followers draw. Two rails lead from plus past each relay from the highest down: the
    first is fed if an even number of those above is drawn, else the second. Relay 0 follows the first; each other one draws
    by the first and drops by the second while the relay below it is drawn, which then is the lowest drawn one, as those
    below have come to rest. Button 0 feeds the highest one's dropping winding, button 1 nothing."""
    even, odd, parts, terminals = PLUS, 2, [], 3
    for relay in range(bits - 1, 0, -1):
        draws, drops, next_even, next_odd = range(terminals, terminals + 4)
        terminals += 4
        parts += [[UPPER, even, draws, relay - 1], [DRAWING, draws, MINUS, relay], [UPPER, odd, drops, relay - 1], [DROPPING, drops, MINUS, relay]]
        parts += [[LOWER, even, next_even, relay], [UPPER, even, next_odd, relay], [LOWER, odd, next_odd, relay], [UPPER, odd, next_even, relay]]
        even, odd = next_even, next_odd
    parts += [[REGULAR, even, MINUS, 0], [BUTTON, PLUS, 4, 0], [BUTTON, PLUS, terminals, 1]]
    for relay in range(bits, bits + followers):
        terminals += 1
        parts += [[UPPER, PLUS, terminals, bits - 1], [REGULAR, terminals, MINUS, relay]]
    dice.shuffle(parts)
    return [terminals + 1, bits + followers, 2], parts


CALM = [holding, sequence, conflicting]  # every run comes to an end soon, so a session may have tens of thousands of events


def crowded(dice):
    """Few terminals and so many parts, most of them parallel, that their count takes two bytes. In half of the cases only
    windings join minus to the others, since else nearly all windings are shunted."""
    terminals, relays, buttons = dice.randint(3, 5), dice.randint(1, 4), dice.randint(1, 3)
    every = [[a, b] for a in range(terminals) for b in range(a)]
    pairs = dice.choice([every, [pair for pair in every if MINUS not in pair]])
    some = dice.sample(pairs, dice.randint(1, len(pairs)))
    parts = judging.some_parts(dice, relays, buttons, [], every)
    count = dice.choice([128, MOST_PARTS - 1, MOST_PARTS, dice.randint(128, MOST_PARTS)])
    while len(parts) < count:
        kind, name = dice.choice([[BUTTON, dice.randrange(buttons)], [UPPER, dice.randrange(relays)]])
        parts.append([kind] + dice.choice(some) + [name])
    dice.shuffle(parts)
    return [terminals, relays, buttons], parts


def earlier_switch(dice, earlier):
    """A button, most often, or a contact of one of the earlier relays, or seldom a wire."""
    kind = dice.choice([BUTTON] * 50 + [UPPER] * 40 + [LOWER] * 2 + [WIRE]) if earlier else BUTTON
    if kind == WIRE:
        return [WIRE]
    return [kind, dice.randrange(MOST_BUTTONS) if kind == BUTTON else dice.choice(earlier)]


def largest(dice):
    """The most of everything: 64 terminals, 32 relays, 32 buttons, 256 parts. In some order of the relays each is fed by
    buttons and by contacts of those before it, so every run comes to an end. On half of the boards a few are shunted by
    such, and a run may buzz, since a shunt can link plus and minus, and so acts on all relays."""
    order = dice.sample(range(MOST_RELAYS), MOST_RELAYS)
    steel = dice.sample(order, dice.randint(1, 12))
    kinds = {relay: [DRAWING, DROPPING] if relay in steel else [REGULAR] for relay in order}
    rows = [(kind, relay, [], [], None) for relay in order for kind in kinds[relay]]
    between = MOST_TERMINALS - 2 - len(rows)  # terminals for ways of two switches
    marks, share = judging.some_marks(dice, MOST_RELAYS), dice.choice([0, 0.03])
    for number in range(MOST_PARTS - len(rows) - between - len(marks)):
        _, relay, ways, shunts, _ = rows[number] if number < len(rows) else dice.choice(rows)
        earlier = order[: order.index(relay)]
        kept = shunts if number >= len(rows) and dice.random() < share else ways
        kept.append([earlier_switch(dice, earlier) for _ in range(2 if number < between else 1)])
    return running.wired(dice, MOST_RELAYS, MOST_BUTTONS, rows, marks)


def dense(dice, terminals):
    """So many terminals, each joined to each other, in half of the cases all but minus; a regular winding on minus and
    another, which is shunted, or else live; and one that hangs on a terminal of its own and is dead."""
    others = [terminal for terminal in range(terminals) if terminal != MINUS]
    joined = dice.choice([others, range(terminals)])
    parts = [[WIRE, a, b] for a in joined for b in joined if b < a]
    parts += [[REGULAR, MINUS, dice.choice(others), 0], [REGULAR, dice.randrange(terminals), terminals, 1]]
    dice.shuffle(parts)
    return [terminals + 1, 2, 0], parts


def short(dice, terminals):
    """So many terminals, each joined to each other, and relays of both sorts, all of whose windings are shunted."""
    relays, every = dice.randint(1, 8), [[a, b] for a in range(terminals) for b in range(a)]
    parts = judging.some_parts(dice, relays, 0, [], every) + [[WIRE] + pair for pair in every]
    dice.shuffle(parts)
    return [terminals, relays, 0], parts


def diamonds(dice, count):
    """A row of diamonds from plus to minus, each of two ways side by side, and behind the last a dead winding. Each diamond
    more than doubles the chains."""
    free = dice.sample(range(2, 3 * count + 3), 3 * count + 1)
    at, parts = PLUS, []
    for _ in range(count):
        one, other, end = free.pop(), free.pop(), free.pop()
        parts += [[WIRE, at, one], [WIRE, at, other], [WIRE, one, end], [WIRE, other, end]]
        at = end
    parts += [[WIRE, at, MINUS], [REGULAR, at, free.pop(), 0]]
    dice.shuffle(parts)
    return [3 * count + 3, 1, 0], parts
