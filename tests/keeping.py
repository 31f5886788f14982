"""Compares the proved calls with the model in tests/lib/kept_model.py on kept sets that are handed in (request A5): a board's own;
in either row one neighbour too few, or one too many: where parts touch both terminals, at a terminal that no part touches, and
such a one at a terminal that parts touch, on the board and beyond it; those of another state and those of another board, which
may be the same. Each is handed to a judgement by `current_cases`, and to a move, a run, a push and a release by `run_cases`:
sets that do not belong are refused by 18, in its place among the numbers for no, and all but the judgement hand them back with
the state; others are taken, and those handed back are the board's own in the state that is left. The boards are those of
tests/running.py, half of them with terminals more that no part touches, in states within and beyond them, with relays, buttons
and logs that are refused and not. The calls of `run_cases` are tried once more with a number of terminals that breaks a rule;
judgements are not, since `current_cases` reads its boards from files. Seeded, so each run tries the same cases; `python3
tests/keeping.py SEED BOARDS` tries others, or more (it is 1 and 150 else). Needs the programs current_cases and
run_cases, which `rt ci` builds, or `rt run` in their folders."""
import collections
import functools
import os
import random
import sys

sys.path.insert(0, os.path.join(os.path.dirname(os.path.abspath(__file__)), "lib"))
import judge_model
import judging
import kept_model
import program
import repository
import run_model as model
import running
from judge_model import MARK, MINUS, PLUS
from program import LARGEST_HANDED
from running import total

MOST_CHAINS = 400  # of boards with more only shunted windings are judged by their chains
OFTEN = 20  # each sort of sets, and each order of two numbers, occurs so often
OFF_BY_ONE = ["one too few", "one too many", "at an untouched terminal", "an untouched neighbour"]  # untouched, of the board
OFF_BY_ONE += ["at a terminal beyond the board", "a neighbour beyond the board"]
SORTS = [f"{row}, {how}" for row in kept_model.ROW_NAMES for how in OFF_BY_ONE]
ELSEWHERE = ["of another state", "of another board"]
ORDERS = [(14, 18), (18, 13), (18, 11), (18, 7), (18, 12)]  # the number that is given, and one that stands against the call too
ROOMS = [0, 1, 5, model.LONGEST_LOG + 1]
NO_COUNTS = [1, 65, 255]  # of terminals


def board(dice):
    """The counts and the parts of a board of tests/running.py, in half of the cases with some terminals more, anywhere but at
    plus and minus, that no part touches."""
    counts, parts = running.board(dice)
    terminals = min(counts[0] + dice.choice([0, 0, 1, 3]), kept_model.PLACES)
    places = [PLUS, MINUS] + dice.sample(range(2, terminals), counts[0] - 2)
    moved = [part if part[0] == MARK else [part[0], places[part[1]], places[part[2]]] + part[3:] for part in parts]
    return [terminals] + counts[1:], moved


def judgement(own, drawn, pushed, relay, which, belong, sets):
    """A judgement by chains: the numbers that stand against it, its text, and the line that it should print; none where there are
    too many chains."""
    asked = own.counts, own.parts, drawn, pushed, relay, which
    numbers = judge_model.against(*asked, belong)
    effort, chain = (None, None) if numbers else judge_model.effort(*asked, MOST_CHAINS)
    if numbers or effort is not None:
        verdict = f"refused {numbers[0]}" if numbers else judge_model.verdict(effort, chain, LARGEST_HANDED)
        yield numbers, judging.case(*asked, LARGEST_HANDED, sets), f"judged {verdict}"


def calls(dice, own, drawn, pushed, sets):
    """A move, a run, a push and a release with these sets, each as `judgement` gives it."""
    against = functools.partial(model.against, own, drawn, pushed, own.belong(sets, drawn, pushed))
    relay, button, room = dice.randint(0, own.counts[1]), dice.randint(0, own.counts[2]), dice.choice(ROOMS)
    yield against(relay=relay), *running.move_case(own, drawn, pushed, relay, sets)
    yield against(room=room), *running.run_case(own, drawn, pushed, room, sets)
    for is_push in (True, False):
        yield against(press=(button, is_push)), *running.press_case(own, drawn, pushed, button, is_push, sets)


def broken_calls(dice, own, drawn, pushed, sets):
    """The same calls on a board that breaks a rule: each is refused by 15, whatever else stands against it."""
    data = running.handed([dice.choice(NO_COUNTS)] + own.counts[1:], own.parts)
    numbers = [total(drawn), total(pushed), dice.choice(ROOMS)]
    left = kept_model.words(own.parts, (drawn, pushed), sets, (drawn, pushed), True)
    for ending, line in running.REFUSED.items():
        yield program.handed_case(numbers, data, ending, kept_model.typed(sets)), line.format(15, f"{numbers[0]} {numbers[1]}") + left


def of_state(dice, own, seen):
    """The judgements in some state of a board, and the other calls, with sets of every sort; counts what is seen of them."""
    drawn, pushed = judging.state(dice, own.counts[1], own.counts[2], program.HANDED_BITS)
    judged, called = [], []
    for sort, sets in kept_model.every_sort(dice, own.counts, own.parts, drawn, pushed):
        belong = own.belong(sets, drawn, pushed)
        asked = list(judgement(own, drawn, pushed, dice.randint(0, own.counts[1]), dice.randrange(2), belong, sets))
        others = list(calls(dice, own, drawn, pushed, sets))
        seen[sort, belong] += not judge_model.beyond(own.counts, drawn, pushed)
        seen.update((numbers[0], number) for numbers, _, _ in asked + others for number in numbers[1:])
        judged += [each[1:] for each in asked]
        called += [each[1:] for each in others] + list(broken_calls(dice, own, drawn, pushed, sets))
    return judged, called


def compared(name, found):
    """The checks that a program prints its line for each case, and no others."""
    cases, wanted = zip(*found)
    return program.compared(cases, wanted, program.answers(program.command(name), cases))


def met(seen):
    """The checks that each sort of sets, and each order of numbers, is tried often."""
    for sort in SORTS + ELSEWHERE:
        yield f"sets {sort} do not belong {seen[sort, False]} times, at least {OFTEN}", seen[sort, False] >= OFTEN
    for sort in ELSEWHERE + ["its own"]:
        yield f"sets {sort} belong {seen[sort, True]} times, at least {OFTEN}", seen[sort, True] >= OFTEN
    for order in ORDERS:
        yield "{} is given before {}".format(*order) + f" {seen[order]} times, at least {OFTEN}", seen[order] >= OFTEN


def compare(seed, count):
    dice, judged, called, seen = random.Random(seed), [], [], collections.Counter()
    for _ in range(count):
        of_judging, of_calls = of_state(dice, model.Board(*board(dice)), seen)
        judged += of_judging
        called += of_calls
    return compared("current_cases", judged) + compared("run_cases", called) + list(met(seen))


if __name__ == "__main__":
    seed, count = (int(word) for word in sys.argv[1:3]) if len(sys.argv) > 2 else (1, 150)
    sys.exit(repository.report(compare(seed, count)))
