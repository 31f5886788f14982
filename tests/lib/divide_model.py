"""Judging a winding without listing chains once more, in plain Python, after request A6 ("Dead boards take all afternoon"), on top
of judge_model: take out a terminal, then search from each end of the winding for a pole. Its author had read the proved
`divide`, so it is not the independent second program."""
import judge_model
from judge_model import MINUS, PLUS

TERMINAL_BEYOND = 19
LIVE, SHUNTED, DEAD = "live", "shunted", "dead"


def reaches_pole(near, end, x):
    """Whether an end of a winding remains with x taken out, and reaches a remaining pole then; a pole reaches itself."""
    seen = waiting = {end} - {x}
    while waiting:
        if not waiting.isdisjoint((PLUS, MINUS)):
            return True
        waiting = set().union(*(near[terminal] for terminal in waiting)) - seen - {x}
        seen = seen | waiting
    return False


def divides(near, winding, x):
    """Whether a terminal divides a winding: with it taken out, no remaining end reaches a remaining pole."""
    return not any(reaches_pole(near, end, x) for end in winding[1:3])


def dividing(near, winding):
    """The terminals that divide a winding, from the lowest up."""
    return (x for x in range(len(near)) if divides(near, winding, x))


def judged(parts, drawn, pushed, near, winding):
    """What a winding is in a state with these neighbours, and the lowest terminal that divides it, if it is dead by that."""
    if judge_model.shunted(parts, drawn, pushed, *winding[1:3]):
        return SHUNTED, None
    lowest = next(dividing(near, winding), None)
    return (LIVE, None) if lowest is None else (DEAD, lowest)


def told(counts, parts, drawn, pushed, relay, second, belong=True):
    """What the judge without an allowance says, refused or not."""
    numbers = judge_model.against(counts, parts, drawn, pushed, relay, second, belong)
    if numbers:
        return f"refused {numbers[0]}"
    near = judge_model.neighbours(counts[0], parts, drawn, pushed)
    word, lowest = judged(parts, drawn, pushed, near, judge_model.winding(parts, relay, second))
    return word if lowest is None else f"{word} {lowest}"


def against_check(counts, parts, drawn, pushed, relay, second, x, belong=True):
    """The numbers for no that stand against checking a terminal, in their order, so that the first is given."""
    numbers = judge_model.against(counts, parts, drawn, pushed, relay, second, belong)
    return numbers + [TERMINAL_BEYOND] * (x >= counts[0])


def checked(counts, parts, drawn, pushed, relay, second, x, belong=True):
    """What the check of a terminal handed in says, refused or not; shunted or not has no say."""
    numbers = against_check(counts, parts, drawn, pushed, relay, second, x, belong)
    if numbers:
        return f"refused {numbers[0]}"
    near = judge_model.neighbours(counts[0], parts, drawn, pushed)
    return "divides" if divides(near, judge_model.winding(parts, relay, second), x) else "does not divide"
