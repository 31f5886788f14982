"""Sessions for tests/sessions.py that are long, or whose boards are large, as bytes: runs that fill the log, the largest and the
densest boards, boards worked out by hand, some with more chains than any allowance, and inputs around the longest. A function
that makes a session takes the dice and what its variant is; tests/lib/session_sorts.py has the variants."""
import counter_boards
import session_boards as boards
from damaged_sessions import damaged_session
from session_files import presses, session, some_allowance, typed

LONGEST = 65_536


def full_log_session(dice, variant):
    """Runs that end just before the log is full, where it is full, and after; the next events act on the state left."""
    return session(boards.counting(dice, *variant), some_allowance(dice), [3, 1, 0])


def counter_session(dice, stages):
    """Runs of a counter while its button is pushed, each going on from where the one before was left."""
    return session(counter_boards.counter(stages, button=True), some_allowance(dice), [1, 0, 1, 0])


def largest_board_session(dice, events):
    return session(boards.largest(dice), some_allowance(dice), presses(dice, boards.MOST_BUTTONS, events))


def dense_session(dice, terminals):
    return session(boards.dense(dice, terminals), some_allowance(dice), [])


def short_session(dice, terminals):
    return session(boards.short(dice, terminals), some_allowance(dice), [])


def fed_session(dice, own):
    """A board worked out by hand, and its button, where it has one, pushed and released."""
    counts, parts, *_ = own.asked
    return session((counts, parts), some_allowance(dice), [1, 0] * counts[2])


def filled(dice, calm, length):
    """A session of so many bytes on a board of this sort, nearly all of them events; none is refused."""
    board = calm(dice)
    begin = session(board, some_allowance(dice), [])
    return begin + typed(presses(dice, board[0][2], length - len(begin)))


def longest_session(dice, calm):
    return filled(dice, calm, LONGEST)


def doubles_session(dice, calm):
    """As long as may be, each event any push or release, so that about half of them are refused by 12."""
    board = calm(dice)
    begin = session(board, some_allowance(dice), [])
    return begin + bytes(dice.randrange(2 * board[0][2]) for _ in range(LONGEST - len(begin)))


def bad_end_session(dice, end):
    return filled(dice, boards.holding, LONGEST - len(end)) + end


def longest_bad_session(dice, damage):
    return damaged_session(dice, damage).ljust(LONGEST, dice.choice([b"\x00", b"\x01"]))


def too_long_session(dice, more):
    return filled(dice, boards.holding, LONGEST + more)


def too_long_bad_session(dice, damage):
    return longest_bad_session(dice, damage) + dice.randbytes(dice.choice([1, 70_000]))


def random_session(dice, more):
    return dice.randbytes(LONGEST + more)
