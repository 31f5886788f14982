"""Damaged sessions for tests/sessions.py, as bytes: files that the lines 1 to 9 and 17 of the rule book's refusals are for, one
or two in a file, damaged marks, changed bytes and random bytes. A function that makes a session takes the dice;
tests/lib/session_sorts.py says of which sort it is."""
import board_files
import judge_model
import session_boards as boards
import session_files
from board_model import LARGEST, LONGEST_NUMBER, RANGES, number_bytes
from session_files import BAD_TAILS, TOP, bad_form, top_bits, typed, widened


def numbers(parts):
    """The numbers of these parts."""
    return [number for part in parts for number in part]


class Draft:
    """A session that is being typed: the counts T, R, B and C, the parts, and the rest, an allowance and events. Some of its
    numbers may get a bad form, and it may be cut."""

    def __init__(self, board, rest):
        counts, parts = board
        self.counts, self.parts, self.rest = counts + [len(parts)], [list(part) for part in parts], rest
        self.bad, self.kept = [], 1.0

    def data(self):
        """Its bytes."""
        forms = [number_bytes(number) for number in self.counts + numbers(self.parts) + self.rest]
        for share, tail in self.bad:
            form = forms[int(share * len(forms))]
            form[-1] |= TOP
            form += tail
        data = bytes(byte for form in forms for byte in form)
        return data[: int(self.kept * len(data))]

    def insert(self, dice, part):
        """Adds a part at any place among the others."""
        self.parts.insert(dice.randint(0, len(self.parts)), part)
        self.counts[3] += 1


def with_ends(draft):
    """The parts of a draft that join terminals: all but its marks."""
    return [part for part in draft.parts if len(part) > 2]


def windings(draft):
    """The parts of a draft that are windings."""
    return [part for part in draft.parts if len(part) == 4 and part[0] >= judge_model.REGULAR]


# Damages: each changes a draft so that its line of the rule book holds somewhere.


def cut(dice, draft):
    draft.kept = dice.random()


def badly_formed(dice, draft):
    draft.bad.append((dice.random(), dice.choice(BAD_TAILS)))


def count_outside(dice, draft):
    which = dice.randrange(len(RANGES))
    least, most = RANGES[which]
    draft.counts[which] = dice.choice([most + 1, most + 2, 257, 16_384, LARGEST, widened(dice, draft.counts[which])] + list(range(least)))


def no_such_kind(dice, draft):
    part = dice.choice(draft.parts)
    part[0] = dice.choice([8, 9, 64, 127, 128, LARGEST, widened(dice, part[0])])


def no_such_terminal(dice, draft):
    part, end = dice.choice(with_ends(draft)), dice.choice([1, 2])
    part[end] = dice.choice([draft.counts[0], draft.counts[0] + 1, 64, 128, LARGEST, widened(dice, part[end])])


def equal_ends(dice, draft):
    part = dice.choice(with_ends(draft))
    part[2] = part[1]


def no_such_name(dice, draft):
    part = dice.choice([part for part in draft.parts if part[0] != boards.WIRE])
    limit = draft.counts[2 if part[0] == judge_model.BUTTON else 1]
    part[-1] = dice.choice([limit, limit + 1, 32, 128, LARGEST, widened(dice, part[-1])])


def winding_too_many(dice, draft):
    part = list(dice.choice(windings(draft)))
    part[0] = dice.choice([4, 5, 6]) if part[0] == 4 else dice.choice([4, part[0]])
    draft.insert(dice, part)


def marked_twice(dice, draft):
    relay = dice.choice(windings(draft))[3]
    for _ in range(2):
        draft.insert(dice, [judge_model.MARK, relay])


def winding_missing(dice, draft):
    if dice.random() < 0.3:
        draft.counts[1] += 1
    else:
        draft.parts.remove(dice.choice(windings(draft)))
        draft.counts[3] -= 1


# By the rule book's lines, in their order for a file: 17 stands in the place of 8.
DAMAGES = {1: cut, 2: badly_formed, 3: count_outside, 4: no_such_kind, 5: no_such_terminal, 6: equal_ends, 7: no_such_name}
DAMAGES |= {8: winding_too_many, 17: marked_twice, 9: winding_missing}


def fine_draft(dice):
    """A fine session that is yet to be damaged."""
    board = dice.choice([boards.feeding] * 4 + [boards.every_kind] * 2 + [boards.crowded])(dice)
    return Draft(board, [session_files.some_allowance(dice)] + session_files.some_presses(dice, board, 3))


def damaged_session(dice, damage):
    """A session with this damage; a cut is in its board or its allowance."""
    draft = fine_draft(dice)
    if damage == cut:
        del draft.rest[1:]
    damage(dice, draft)
    return draft.data()


def twice_damaged_session(dice):
    draft, lines = fine_draft(dice), list(DAMAGES)
    for line in sorted(dice.sample(lines, 2), key=lines.index):
        DAMAGES[line](dice, draft)
    return draft.data()


def damaged_mark_session(dice):
    """A mark more among the parts, and what follows it or nothing more: of a relay that is there, perhaps marked already, or is
    not; with ends as a contact has; in a bad form or cut."""
    draft = fine_draft(dice)
    draft.counts[3] += 1
    at, relay = dice.randint(0, len(draft.parts)), dice.choice(windings(draft))[3]
    fields = typed(dice.choice([[relay], [relay], [draft.counts[1]], [32], [LARGEST], [widened(dice, relay)], [0, 2, relay]]))
    form = dice.choice([fields, fields, bad_form(dice), top_bits(dice, dice.randrange(LONGEST_NUMBER))])
    behind = typed(numbers(draft.parts[at:]) + draft.rest)
    return typed(draft.counts + numbers(draft.parts[:at]) + [judge_model.MARK]) + form + dice.choice([behind, b""])


def ending_number_session(dice):
    """Ends with one to five bytes that have their top bit set: cut, or at the fifth a bad form."""
    draft = fine_draft(dice)
    cut(dice, draft)
    return draft.data() + top_bits(dice, dice.randint(1, LONGEST_NUMBER))


def changed_byte_session(dice):
    data = bytearray(session_files.feeding_session(dice))
    data[dice.randrange(len(data))] = dice.choice([0, 1, 127, 128, 255, dice.randrange(256)])
    return bytes(data)


def file_session(dice):
    """A board file of tests/board_files.py, fine or damaged, with a small allowance."""
    return board_files.file_case(dice) + typed([dice.choice([0, 1, 2, 3])] + [dice.randrange(6) for _ in range(dice.randint(0, 3))])


def random_session(dice):
    return dice.randbytes(dice.choice([1, 2, 3, 5, 10, 40, 200]))


def like_board_session(dice):
    """Random bytes behind the counts of a board, most of them small."""
    terminals = dice.randint(2, 5)
    counts = [terminals, dice.randint(0, 2), dice.randint(0, 2), dice.randint(0, 3)]
    low = dice.choice([terminals, terminals, 8])
    return typed(counts) + bytes(dice.randrange(dice.choice([low] * 19 + [256])) for _ in range(dice.randint(5, 20)))
