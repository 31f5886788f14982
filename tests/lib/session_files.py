"""Sessions for tests/sessions.py, as bytes: fine boards with an allowance, which is read and ignored, and events, and those with
an event or an allowance that is refused. A function that makes a session takes the dice; tests/lib/session_sorts.py says of which
sort it is."""
import session_boards as boards
from board_model import LARGEST, LONGEST_NUMBER, NARROW, file_of, number_bytes

TOP = 128  # the top bit of a byte
CUT = range(1, LONGEST_NUMBER)  # so many bytes with their top bit set are a number that is cut, and one more are no form
# Behind a byte with its top bit set: no form.
BAD_TAILS = [[0], [TOP, 0], [TOP, TOP, 0], [TOP, TOP, TOP, 0], [TOP, TOP, TOP, 16], [255, 255, 255, 16], [255, 255, 255, 127], [255] * 4, [TOP] * 4 + [0], [255] * 4 + [15]]


def typed(numbers):
    """Numbers in their shortest form."""
    return bytes(byte for number in numbers for byte in number_bytes(number))


def session(board, allowance, events):
    """The bytes of a session."""
    return file_of(*board) + typed([allowance] + events)


def presses(dice, buttons, count):
    """So many events, each a push of a released button or a release of a pushed one; none where there is no button."""
    pushed, events = set(), []
    for _ in range(count if buttons else 0):
        button = dice.randrange(buttons)
        pushed ^= {button}
        events.append(2 * button + (button in pushed))
    return events


def some_presses(dice, board, most=6):
    """Some such events for a board."""
    return presses(dice, board[0][2], dice.randint(1, most))


def some_allowance(dice):
    """An allowance of one to five bytes."""
    return dice.choice([0, 1, 100, 127, 128, 16_383, 16_384, 2_097_151, 2_097_152, 268_435_455, 268_435_456, 2**31, LARGEST])


def feeding_session(dice):
    board = boards.feeding(dice)
    return session(board, some_allowance(dice), some_presses(dice, board))


def shunting_session(dice):
    board = boards.shunting(dice)
    return session(board, some_allowance(dice), some_presses(dice, board, 8))


def buzzing_session(dice):
    board = boards.buzzing(dice)
    return session(board, some_allowance(dice), some_presses(dice, board, 3))


def pulsing_session(dice):
    board = boards.pulsing(dice)
    return session(board, some_allowance(dice), some_presses(dice, board, 3))


def counting_session(dice):
    board = boards.marked(dice, boards.counting(dice, dice.randint(2, 7), dice.randint(0, 3)))
    return session(board, some_allowance(dice), some_presses(dice, board))


def conflicting_session(dice):
    board = boards.conflicting(dice)
    return session(board, some_allowance(dice), some_presses(dice, board, 12))


def every_kind_session(dice):
    board = boards.every_kind(dice)
    return session(board, some_allowance(dice), some_presses(dice, board))


def web_session(dice):
    board = boards.web(dice)
    return session(board, some_allowance(dice), some_presses(dice, board))


def crowded_session(dice):
    board = boards.crowded(dice)
    return session(board, some_allowance(dice), some_presses(dice, board, 4))


def calm_board(dice):
    """A board with a button, most often one whose runs come to an end soon."""
    return dice.choice(boards.CALM + [boards.every_kind])(dice)


def double_session(dice):
    board = calm_board(dice)
    events = some_presses(dice, board)
    for _ in range(dice.choice([1, 1, 2, 3])):
        at = dice.randrange(len(events))
        events[at:at] = [events[at]]
    if dice.random() < 0.3:
        events[:0] = [2 * dice.randrange(board[0][2])]
    return session(board, some_allowance(dice), events)


def widened(dice, number):
    """A number that is this one if it is narrowed."""
    return number + 2 ** dice.choice(NARROW)


def absent_button_session(dice):
    board = calm_board(dice)
    events, buttons = some_presses(dice, board), board[0][2]
    absent = dice.choice([2 * buttons, 2 * buttons + 1, 2 * buttons + 2, 63, 64, 65, 127, 128, 129, 16_383, 16_384, LARGEST, widened(dice, dice.choice(events))])
    events.insert(dice.randint(0, len(events)), absent)
    return session(board, some_allowance(dice), events)


def top_bits(dice, count):
    """So many bytes with their top bit set."""
    return bytes(dice.choice([TOP, 255, dice.randint(TOP, 255)]) for _ in range(count))


def cut_event_session(dice):
    board = calm_board(dice)
    return session(board, some_allowance(dice), some_presses(dice, board)) + top_bits(dice, dice.choice(CUT))


def bad_form(dice):
    """Bytes that are no number, whatever comes after them."""
    return top_bits(dice, 1) + bytes(dice.choice(BAD_TAILS))


def bad_event_session(dice):
    board = calm_board(dice)
    data, more = session(board, some_allowance(dice), some_presses(dice, board)), some_presses(dice, board)
    return data + bad_form(dice) + typed(dice.choice([[], more]))


def bad_allowance_session(dice):
    board = calm_board(dice)
    return file_of(*board) + dice.choice([b"", top_bits(dice, dice.choice(CUT)), bad_form(dice), bad_form(dice) + typed(some_presses(dice, board))])
