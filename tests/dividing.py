"""Compares the proved program `current_cases` with the model in tests/lib/divide_model.py on judging without listing chains and on
the check of a terminal handed in (request A6): every board of 2 to 4 terminals whose pairs are open, wired or have a winding;
random boards of 2 to 10 terminals, rings, ladders, blocks that hang on each other by single terminals, bridges, paths through all
64 terminals, with windings on poles and elsewhere, live, shunted and dead, where one terminal divides or several do, a pole among
them; states and relays beyond the board, kept sets that do not belong, terminals at T - 1, T and far beyond, in each order of the
numbers for no. On a share of the boards every terminal is checked. On every board of up to 10 terminals the chain judge, allowed
enough, is compared with the new one: the one says live exactly if the other does, and dead exactly if that says shunted or dead.
The boards of tests/lib/feed_boards.py, worked out by hand, some with more chains than any allowance, are answered at once. Seeded,
so each run tries the same cases; `python3 tests/dividing.py SEED BOARDS` tries others, or more (it is 1 and 1,500 else). Needs
the program current_cases, which `rt ci` builds, or `rt run` in its folder."""
import collections
import itertools
import os
import random
import re
import sys
import time

sys.path.insert(0, os.path.join(os.path.dirname(os.path.abspath(__file__)), "lib"))
import divide_model as model
import feed_boards
import judge_model
import judging
import kept_model
import program
import repository
from board_model import LARGEST
from judge_model import MINUS, PLUS, REGULAR

SMALL = 10  # terminals of a board on which there is time for all chains
LEAST_BOARDS = range(2, 5)  # of so many terminals every board is tried
AT_ONCE = 10  # seconds within which all boards worked out by hand are answered
OFTEN = 20  # each sort of answer, and each order of two numbers, occurs so often
ORDERS = [(14, 18), (14, 11), (14, 19), (18, 11), (18, 19), (11, 19)]  # the number that is given, and one that stands against it too
BEYOND = (63, 64, 255, LARGEST)
ANSWERS = ["told live", "told shunted", "told dead 0", "told dead 1", "told dead 2", "told refused 11", "told refused 14", "told refused 18"]
ANSWERS += ["checked divides", "checked does not divide"] + [f"checked refused {number}" for number in (11, 14, 18, 19)]
MET = ["several divide", "a pole and another divide", "only the last terminal divides", "shunted, and some divide", "shunted, and none divides"]
MET += ["live with a pole as an end", "dead with a pole as an end", "checked at T - 1", "checked at T", *(f"checked at {x}" for x in BEYOND)]
# What the chain judge says where the new one says this.
CHAINS_SAY = {"live": "live", "shunted": "dead", "dead": "dead"}


def blocks(dice):
    """Up to 10 terminals in rings that each hang on another by one terminal, some of them single pairs, some with a short cut;
    plus and minus lie anywhere."""
    terminals, joined = dice.randint(3, SMALL), []
    order, placed = dice.sample(range(terminals), terminals), 1
    while placed < terminals:
        ring = [dice.choice(order[:placed])] + order[placed : placed + dice.randint(1, 4)]
        placed += len(ring) - 1
        joined += [list(pair) for pair in zip(ring, ring[1:])] + [[ring[-1], ring[0]]] * (len(ring) > 2)
        if len(ring) > 3 and dice.random() < 0.5:
            joined.append([ring[0], ring[2]])
    return terminals, joined, joined


def hung_on_last(dice):
    """A ring or a dense board on whose last terminal windings hang, by a terminal of their own."""
    terminals, joined, _ = dice.choice([judging.ring_pairs, judging.dense_pairs])(dice)
    own = dice.randrange(2, terminals)
    joined = [[terminals if end == own else end for end in pair] for pair in joined]
    return terminals + 1, joined, joined + [[own, terminals]] * len(joined)


def board(dice):
    """The counts and the parts of some board: two in three of the sorts above, the others those of tests/judging.py."""
    return judging.board(dice, dice.choice([[blocks], [hung_on_last], judging.SORTS]))


def least_boards():
    """Every board of few terminals on which each pair is open, wired or has the winding of a relay."""
    for terminals in LEAST_BOARDS:
        pairs = list(itertools.combinations(range(terminals), 2))
        for kinds in itertools.product([None, 0, REGULAR], repeat=len(pairs)):
            parts = [[kind, *pair] for kind, pair in zip(kinds, pairs) if kind is not None]
            windings = [part for part in parts if part[0] == REGULAR]
            for relay, part in enumerate(windings):
                part.append(relay)
            for relay in range(len(windings)):
                yield [terminals, len(windings), 0], parts, set(), set(), relay, 0


def judgement(asked, belong=True, sets=None):
    """A judgement without an allowance, with the line that it should print."""
    return judging.typed(asked, [], "!", sets), f"told {model.told(*asked, belong)}"


def check(asked, x, belong=True, sets=None):
    """The check of a terminal, with the line that it should print."""
    return judging.typed(asked, [x], "?", sets), f"checked {model.checked(*asked, x, belong)}"


def every_check(asked):
    """The checks of all terminals of a board."""
    return [check(asked, x) for x in range(asked[0][0])]


def some_checks(dice, asked, seen):
    """The checks of some terminals, on the board and beyond it."""
    terminals = asked[0][0]
    places = {"T - 1": terminals - 1, "T": terminals, **{str(x): x for x in BEYOND}}
    for name in dice.sample(sorted(places), 2):
        seen[f"checked at {name}"] += 1
        yield check(asked, places[name])
    yield check(asked, dice.randrange(terminals))


def look(asked, seen):
    """Counts what there is to a winding."""
    counts, parts, drawn, pushed, relay, second = asked
    near, winding = judge_model.neighbours(counts[0], parts, drawn, pushed), judge_model.winding(parts, relay, second)
    word, _ = model.judged(parts, drawn, pushed, near, winding)
    divide = list(model.dividing(near, winding))
    seen["several divide"] += word == model.DEAD and len(divide) > 1
    seen["a pole and another divide"] += word == model.DEAD and len(divide) > 1 and divide[0] in (PLUS, MINUS) and divide[-1] > MINUS
    seen["only the last terminal divides"] += word == model.DEAD and divide == [counts[0] - 1]
    seen["shunted, and some divide"] += word == model.SHUNTED and bool(divide)
    seen["shunted, and none divides"] += word == model.SHUNTED and not divide
    if word != model.SHUNTED and {PLUS, MINUS}.intersection(winding[1:3]):
        seen[f"{word} with a pole as an end"] += 1


def with_sets(dice, asked, seen):
    """Judgements and checks with kept sets of every sort, which belong or do not."""
    counts, parts, drawn, pushed = asked[:4]
    own = kept_model.own(parts, drawn, pushed)
    for _, sets in kept_model.every_sort(dice, counts, parts, drawn, pushed):
        x, belong = dice.choice([dice.randrange(counts[0]), counts[0]]), sets == own
        count_orders(asked, x, belong, seen)
        yield from (judgement(asked, belong, sets), check(asked, x, belong, sets))


def count_orders(asked, x, belong, seen):
    """Counts which numbers for no stand against a check beside the one that is given."""
    numbers = model.against_check(*asked, x, belong)
    seen.update((numbers[0], number) for number in numbers[1:])


def of_board(dice, seen):
    """Judgements and checks on a board, each with its line, and what the small ones of them ask."""
    found, small = [], []
    counts, parts = board(dice)
    for _ in range(3):
        asked = counts, parts, *judging.state(dice, counts[1], counts[2]), *judging.some_winding(dice, counts[1])
        found.append(judgement(asked))
        if counts[0] <= SMALL:
            small.append(asked)
        if judge_model.against(*asked):
            found += [check(asked, x) for x in (0, counts[0])]
            count_orders(asked, counts[0], True, seen)
        else:
            look(asked, seen)
            found += every_check(asked) if dice.random() < 0.3 else some_checks(dice, asked, seen)
        if dice.random() < 0.15:
            found += with_sets(dice, asked, seen)
    return found, small


def answers(cases):
    """What the program prints for these cases."""
    return program.answers(program.command("current_cases"), cases)


def compared(found):
    """A check for each case, that the program prints its line, and that it prints no others."""
    cases, wanted = zip(*found)
    return program.compared(cases, wanted, answers(cases))


def both_judges(every):
    """A check for each winding, that the chain judge and the new one say the same of it; and how often each says what."""
    chains, told = answers([judging.case(*asked, LARGEST) for asked in every]), answers([judging.typed(asked, [], "!") for asked in every])
    checks = [(f"both judges answer {len(every)} times, not {len(chains)} and {len(told)}", len(every) == len(chains) == len(told))]
    for asked, by_chains, at_once in zip(every, chains, told):
        words, others = by_chains.split()[1:], at_once.split()[1:]
        agree = words == others if "refused" in words + others else words[:1] == [CHAINS_SAY.get(*others[:1])]
        checks.append((f"{judging.typed(asked, [], '').strip()}: by chains {by_chains}, without {at_once}", agree))
    return checks


def by_hand():
    """The checks that program and model come to what was worked out by hand, and that the program does so at once."""
    found = []
    for own in feed_boards.every_one():
        near, winding = judge_model.neighbours(own.asked[0][0], *own.asked[1:4]), judge_model.winding(own.asked[1], *own.asked[4:])
        model_says = model.told(*own.asked), tuple(model.dividing(near, winding))
        yield f"{own.name}, {own.asked[2:]}: the model says {model_says}, by hand it is {own[2:]}", model_says == own[2:]
        found.append((judging.typed(own.asked, [], "!"), f"told {own.told}"))
        for x in range(own.asked[0][0]):
            found.append((judging.typed(own.asked, [x], "?"), "checked divides" if x in own.dividing else "checked does not divide"))
    begin = time.monotonic()
    yield from compared(found)
    took = time.monotonic() - begin
    yield f"the boards worked out by hand are answered within {AT_ONCE} s, not {took:.1f}", took <= AT_ONCE


def met(found, seen):
    """The checks that each sort of answer, of winding and of order occurs often, printed with its count."""
    counts = collections.Counter(re.match(r"told dead \d+|\w+ refused \d+|.*", line)[0] for _, line in found)
    for answer in ANSWERS:
        seen[answer] = counts[answer]
    seen["told dead by another"] = sum(count for line, count in counts.items() if re.fullmatch(r"told dead ([3-9]|\d\d)", line))
    orders = ["{} is given before {}".format(*order) for order in ORDERS]
    seen.update({name: seen[order] for name, order in zip(orders, ORDERS)})
    for what in ANSWERS + ["told dead by another"] + MET + orders:
        print(f"{seen[what]:7} {what}")
        yield f"{what}: {seen[what]} times, at least {OFTEN}", seen[what] >= OFTEN


def compare(seed, boards):
    dice, found, small, seen = random.Random(seed), [], [], collections.Counter()
    for _ in range(boards):
        more, asked = of_board(dice, seen)
        found += more
        small += asked
    for asked in least_boards():
        found += [judgement(asked)] + every_check(asked)
        small.append(asked)
    return list(by_hand()) + compared(found) + both_judges(small) + list(met(found, seen))


if __name__ == "__main__":
    seed, boards = (int(word) for word in sys.argv[1:3]) if len(sys.argv) > 2 else (1, 1_500)
    sys.exit(repository.report(compare(seed, boards)))
