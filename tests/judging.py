"""Compares the proved program `current_cases` with the model of judging in tests/lib/judge_model.py on generated judgements:
random boards of 2 to 10 terminals, rings, ladders, paths through all 64 terminals, with marks and without, with windings
that are live, dead and shunted, each with allowances around the effort, states within and beyond the board, relays that are
there and that are not; on the boards with shunts in tests/lib/shunt_boards.py; and on searches that nest deeply, these two
with 2 MiB of stack. Seeded, so each run tries the same cases; `python3 tests/judging.py SEED BOARDS` tries others, or more
(it is 1 and 650 else). Needs the program current_cases, which `rt ci` builds, or `rt run` in its folder."""
import collections
import os
import random
import sys

sys.path.insert(0, os.path.join(os.path.dirname(os.path.abspath(__file__)), "lib"))
import board_model
import judge_model as model
import kept_model
import program
import repository
import shunt_boards
from board_model import LARGEST, NARROW

MOST_CHAINS = 200_000  # of boards with more only shunted windings are judged
STACK = 2 * 1024 * 1024
SHARE = 0.15  # of the windings that are judged at least so many are live, so many dead by their chains, and so many shunted
OFTEN = 20  # and at least so many would have another effort if the shunted windings of others did not conduct


def some_marks(dice, relays):
    """Marks of some of these relays, in half of the cases none."""
    share = dice.choice([0, dice.random()])
    return [[model.MARK, relay] for relay in range(relays) if dice.random() < share]


def some_parts(dice, relays, buttons, joined, ends):
    """A part on each of the pairs that are to be joined, each relay's windings on some of the pairs of ends, and some marks.
    On most boards nothing lies beside a winding but other windings."""
    parts = []
    for relay in range(relays):
        for kind in dice.choice([[4], [5, 6], [6, 5]]):
            parts.append([kind] + dice.choice(ends) + [relay])
    if dice.random() < 0.7:
        joined = [pair for pair in joined if pair not in [part[1:3] for part in parts]]
    kinds = [0] * dice.choice([1, 5, 500, 500]) + [1, 2, 3]
    for pair in joined:
        kind = dice.choice(kinds)
        names = buttons if kind == model.BUTTON else relays
        parts.append([kind] + pair + [dice.randrange(names)] if kind and names else [0] + pair)
    for part in parts:
        if dice.random() < 0.5:
            part[1:3] = part[2:0:-1]
    parts += some_marks(dice, relays)
    dice.shuffle(parts)
    return parts


def random_pairs(dice):
    """Between 2 and 10 terminals, joined at random, some of them more than once."""
    terminals = dice.randint(2, 10)
    every = [[a, b] for a in range(terminals) for b in range(a)]
    joined = [dice.choice(every) for _ in range(dice.randint(0, dice.choice([1, 2, 4]) * terminals))]
    return terminals, joined, joined + every if dice.random() < 0.5 or not joined else joined


def dense_pairs(dice):
    """Between 4 and 9 terminals, nearly all of them joined to each other."""
    terminals = dice.randint(4, 9)
    every = [[a, b] for a in range(terminals) for b in range(a)]
    joined = dice.sample(every, len(every) - dice.randint(0, 3))
    return terminals, joined, joined


def ring_pairs(dice):
    """A ring of terminals in any order."""
    terminals = dice.randint(3, 20)
    order = dice.sample(range(terminals), terminals)
    ring = [list(pair) for pair in zip(order, order[1:] + order[:1])]
    return terminals, ring, ring


def ladder_pairs(dice):
    """Two rails with rungs, plus at one end and minus at the other."""
    rungs = dice.randint(2, 11)
    order = [0] + dice.sample(range(2, 2 * rungs), 2 * rungs - 2) + [1]
    rails = [[order[i], order[i + 2]] for i in range(2 * rungs - 2)]
    ladder = rails + [[order[i], order[i + 1]] for i in range(0, 2 * rungs, 2)]
    return 2 * rungs, ladder, ladder


def path_pairs(dice):
    """A path through all 64 terminals from plus to minus, in any order, with some short cuts."""
    order = [0] + dice.sample(range(2, 64), 62) + [1]
    path = [list(pair) for pair in zip(order, order[1:])]
    cuts = [dice.sample(range(64), 2) for _ in range(dice.choice([0, 0, 1, 3]))]
    return 64, path + cuts, path + cuts


SORTS = [random_pairs] * 6 + [dense_pairs] + [ring_pairs, ladder_pairs, path_pairs] * 2


def parted(dice, terminals, joined, ends):
    """Pairs to be joined and pairs of ends, of these, so that windings alone join plus and some terminals around it to the
    others: those windings are never shunted. As many, if there is room, lie elsewhere."""
    side = {model.PLUS}
    for _ in range(dice.randrange(terminals)):
        near = [end for pair in joined if side.intersection(pair) for end in pair if end not in side and end != model.MINUS]
        side.update(dice.sample(near, min(1, len(near))))
    across = [pair for pair in joined if len(side.intersection(pair)) == 1]
    others = [pair for pair in joined if pair not in across]
    return others, across + dice.sample(others, min(len(others), len(across))) or ends


def board(dice, sorts=None):
    """The counts T, R, B and the parts of some fine board, of these sorts or of any here."""
    terminals, joined, ends = dice.choice(sorts or SORTS)(dice)
    sort = dice.random()
    if sort < 0.3 and terminals < 64:  # about half of the windings hang on a terminal of their own, and are dead
        ends = ends + [[dice.randrange(terminals), terminals]] * len(ends)
        terminals += 1
    elif sort < 0.7:
        joined, ends = parted(dice, terminals, joined, ends)
    relays, buttons = dice.choice([0, 1, 3, 5, 8, 12]), dice.choice([0, 1, 2, 5])
    return [terminals, relays, buttons], some_parts(dice, relays, buttons, joined, ends)


def state(dice, relays, buttons, names=32):
    """The drawn relays and the pushed buttons, most of the buttons; seldom one that the board lacks, of so many names."""
    drawn = {relay for relay in range(relays) if dice.random() < 0.5}
    pushed = {button for button in range(buttons) if dice.random() < 0.8}
    if dice.random() < 0.1:
        beyond, limit = dice.choice([(drawn, relays), (pushed, buttons)])
        beyond.add(dice.choice([limit, limit + 1, dice.randrange(limit, names)]))
    return drawn, pushed


def typed(asked, more, ending, sets=None):
    """The text of a case: what is asked of a board, some numbers more and the ending, with these kept sets or the board's own."""
    counts, parts, drawn, pushed, relay, which = asked
    numbers = [sum(2**name for name in drawn), sum(2**name for name in pushed), relay, which, *more]
    data = board_model.file_of(counts, parts) + bytes(byte for number in numbers for byte in board_model.number_bytes(number))
    return kept_model.typed(sets) + data.hex() + ending + "\n"


def case(counts, parts, drawn, pushed, relay, which, allowance, sets=None):
    """The text of a judgement by chains."""
    return typed((counts, parts, drawn, pushed, relay, which), [allowance], "@", sets)


def carried(asked, found):
    """Whether the effort of a winding, or the chain that shows it, would be another if shunted windings did not conduct."""
    counts, parts, drawn, pushed, relay, which = asked
    own = model.winding(parts, relay, which)
    shunted = [part for part in parts if part[0] in model.WINDINGS and model.shunted(parts, drawn, pushed, *part[1:3])]
    others = [part for part in parts if part == own or part not in shunted]
    return others != parts and model.effort(counts, others, drawn, pushed, relay, which, MOST_CHAINS) != found


def lines(asked, effort, chain, allowances):
    """The judgements of a winding with these allowances, each with the line that it should print."""
    verdicts = [(allowance, model.verdict(effort, chain, allowance)) for allowance in sorted(allowances)]
    return [(case(*asked, allowance), f"judged {verdict}") for allowance, verdict in verdicts]


def around(effort):
    """The least allowances, the largest, and those around an effort."""
    return {0, 1, max(effort - 1, 0), effort, effort + 1, LARGEST}


def some_winding(dice, relays):
    """A relay and which of its windings; seldom a relay that is not there."""
    there = dice.randrange(max(relays, 1))
    relay = dice.choice([there] * 6 + [relays, there + 2 ** dice.choice(NARROW), LARGEST])
    return relay, dice.choice([0] * 4 + [1, 1, 2, LARGEST])


def judgements(dice, counts, parts, seen):
    """Judgements of some winding on a board, with the line that each should print; counts what is seen of it."""
    drawn, pushed = state(dice, counts[1], counts[2])
    asked = counts, parts, drawn, pushed, *some_winding(dice, counts[1])
    numbers = model.against(*asked)
    if numbers:
        return [(case(*asked, dice.choice([0, 1, 100, LARGEST])), f"judged refused {numbers[0]}")]
    effort, chain = model.effort(*asked, MOST_CHAINS)
    if effort is None:
        return []
    seen["live" if chain else "dead" if effort else "shunted"] += 1
    seen["carried"] += carried(asked, (effort, chain))
    return lines(asked, effort, chain, around(effort) | {effort - 1 + 2 ** dice.choice(NARROW)})


def deep_boards():
    """Boards on which a search nests deeply: a path through all 64 terminals, whose last part is the winding; and a path whose
    terminals are all joined to minus and to terminal 2 as well. Those are tried first, so that the search is three tries
    deep at each terminal of the path; the winding hangs on its end, and is dead."""
    path = [[0, 0, 2]] + [[0, n, n + 1] for n in range(2, 63)] + [[4, 63, 1, 0]]
    deep = [[0, 0, 3]] + [[0, n, n + 1] for n in range(3, 62)] + [[0, n, low] for n in range(3, 63) for low in (1, 2)] + [[4, 62, 63, 0]]
    return [([64, 1, 0], path), ([64, 1, 0], deep)]


def deep_judgements():
    """Searches that nest deeply, with the line that each should print."""
    found = []
    for counts, parts in deep_boards():
        asked = counts, parts, set(), set(), 0, 0
        found += lines(asked, *model.effort(*asked, MOST_CHAINS), [LARGEST])
    return found


def shunt_judgements():
    """The judgements of the boards with shunts, with the line that each should print by what was worked out by hand."""
    return [line for own in shunt_boards.every_one() for line in lines(own.asked, own.effort, own.chain, around(own.effort))]


def by_hand():
    """The checks that the model comes to what was worked out by hand for the boards with shunts."""
    for own in shunt_boards.every_one():
        found, wanted = model.effort(*own.asked, MOST_CHAINS), (own.effort, own.chain)
        yield f"{own.name}, {own.asked[2:]}: the model says {found}, and by hand it is {wanted}", found == wanted


def shares(seen):
    """The checks that there are enough windings of each sort."""
    judged = seen["live"] + seen["dead"] + seen["shunted"]
    for sort in ("live", "dead", "shunted"):
        yield f"{seen[sort]} of {judged} windings are {sort}, at least {SHARE:.0%}", seen[sort] >= SHARE * judged
    yield f"shunted windings carry the chains of {seen['carried']} others, at least {OFTEN}", seen["carried"] >= OFTEN


def compared(found, stack=None):
    """A check for each judgement, that the program prints its line, and that it prints no others."""
    cases, wanted = zip(*found)
    return program.compared(cases, wanted, program.answers(program.command("current_cases", stack), cases))


def compare(seed, boards):
    dice, found, seen = random.Random(seed), [], collections.Counter()
    for _ in range(boards):
        counts, parts = board(dice)
        for _ in range(3):
            found += judgements(dice, counts, parts, seen)
    checks = compared(found) + compared(deep_judgements() + shunt_judgements(), STACK) + list(by_hand())
    for words in ("live", "dead", "dead 0", "undecided", "undecided 0", "refused 11", "refused 14"):
        checks.append((f"some case is {words}", any(line.startswith("judged " + words) for _, line in found)))
    return checks + list(shares(seen))


if __name__ == "__main__":
    seed, boards = (int(word) for word in sys.argv[1:3]) if len(sys.argv) > 2 else (1, 650)
    sys.exit(repository.report(compare(seed, boards)))
