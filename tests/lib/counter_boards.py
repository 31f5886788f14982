"""Relays that count (request A8): an oscillator and stages, each of which draws and drops at half the pace of the one before. A run
makes twice as many moves with each stage more until its first state comes again, and no other state comes twice before that. Parts
are as in tests/lib/judge_model.py."""
import run_model
from divide_model import DEAD, LIVE
from judge_model import BUTTON, LOWER, MINUS, PLUS, REGULAR, UPPER


def stage(clock, output, memory, free):
    """The parts of a stage with these two relays and four terminals, which counts the moves of the relay that is its clock. While
    the clock is drawn the output stays, and the memory comes to what the output is not; while it is dropped the memory stays, and
    the output comes to what the memory is."""
    while_drawn, while_dropped, to_output, to_memory = free
    parts = [[UPPER, PLUS, while_drawn, clock], [LOWER, PLUS, while_dropped, clock]]
    parts += [[UPPER, while_drawn, to_output, output], [LOWER, while_drawn, to_memory, output]]
    parts += [[UPPER, while_dropped, to_memory, memory], [LOWER, to_memory, to_output, clock]]
    return parts + [[REGULAR, to_output, MINUS, output], [REGULAR, to_memory, MINUS, memory]]


def counter(stages, button=False):
    """The counts and the parts of a counter with so many stages: of each the output is relay 2n and the memory relay 2n + 1, and its
    clock is the output of the one before. That of the first is the oscillator, the highest relay, which is fed through its own lower
    contact, and through a button if there is to be one."""
    oscillator, fed, terminals = 2 * stages, PLUS, 3
    parts = [[REGULAR, 2, MINUS, oscillator]]
    if button:
        fed, terminals = 3, 4
        parts.append([BUTTON, PLUS, fed, 0])
    parts.append([LOWER, fed, 2, oscillator])
    for number in range(stages):
        clock = 2 * (number - 1) if number else oscillator
        parts += stage(clock, 2 * number, 2 * number + 1, range(terminals, terminals + 4))
        terminals += 4
    return [terminals, 2 * stages + 1, int(button)], parts


def moves_round(stages):
    """How many moves a counter makes from its first state, none drawn, until that comes again: the oscillator 2 * 2**stages, each
    relay of the first stage half as many, each of the next half of that, and so on down to 2."""
    return 6 * 2**stages - 4


class Counter(run_model.Board):
    """A counter whose relays come to what its stages are for. It needs no winding judged to tell that, so there is time for its
    longest run; tests/running.py holds it to the model where there are few stages."""

    def __init__(self, stages):
        super().__init__(*counter(stages))

    def judged(self, drawn, pushed, relay):
        oscillator, number = self.counts[1] - 1, relay // 2
        if relay == oscillator:
            return [DEAD if relay in drawn else LIVE]
        clock = 2 * (number - 1) if number else oscillator
        output, memory = 2 * number in drawn, 2 * number + 1 in drawn
        if clock in drawn:
            return [LIVE if output == (relay % 2 == 0) else DEAD]
        return [LIVE if memory else DEAD]
