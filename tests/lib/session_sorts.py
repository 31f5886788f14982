"""The sorts of sessions that tests/sessions.py tries, and how many there are of each."""
import random

import damaged_sessions as damaged
import feed_boards
import long_sessions
import session_boards as boards
import session_files as fine
from board_model import LONGEST_NUMBER
from damaged_sessions import DAMAGES

LEAST = 10  # of each sort of which there are many

# Those sorts: the share of each in the sessions, and what makes one.
SORTS = {
    "relays that feed each other": (1_350, fine.feeding_session),
    "relays that are shunted": (300, fine.shunting_session),
    "relays that buzz": (120, fine.buzzing_session),
    "relays that buzz after others have drawn": (120, fine.pulsing_session),
    "relays that count": (100, fine.counting_session),
    "steel relays in conflict": (300, fine.conflicting_session),
    "every kind of part": (200, fine.every_kind_session),
    "rings, ladders, paths and random boards": (450, fine.web_session),
    "128 to 256 parts": (150, fine.crowded_session),
    "pushed or released twice": (300, fine.double_session),
    "an event of a button that is not there": (200, fine.absent_button_session),
    "a cut event": (120, fine.cut_event_session),
    "an event in a bad form": (150, fine.bad_event_session),
    "an allowance cut or in a bad form": (100, fine.bad_allowance_session),
    "two damages": (400, damaged.twice_damaged_session),
    "a damaged mark": (150, damaged.damaged_mark_session),
    "an end of top bits": (100, damaged.ending_number_session),
    "one byte changed": (200, damaged.changed_byte_session),
    "a board file with few numbers behind it": (150, damaged.file_session),
    "random bytes": (100, damaged.random_session),
    "random bytes behind counts": (200, damaged.like_board_session),
}
for line, damage in DAMAGES.items():
    SORTS[f"damaged by line {line}: {damage.__name__.replace('_', ' ')}"] = (80, lambda dice, damage=damage: damaged.damaged_session(dice, damage))

# The bytes of an event that is cut, in a bad form, or of a button that is not there.
BAD_ENDS = [b"\x80" * count for count in range(1, LONGEST_NUMBER + 1)] + [b"\x80\x00", b"\xff\xff\xff\xff\x10", b"\xff\xff\xff\xff\x0f", b"\x7f"]

# Sorts of which a few are enough, or all there is time for: what makes a session, and the variants, each tried once.
FEW = {
    "runs of about 4,096 moves": (long_sessions.full_log_session, [(bits, followers) for bits in (12, 13) for followers in (0, 1, 2)]),
    "counters that come round within 4,096 moves, and that do not": (long_sessions.counter_session, range(6, 15)),
    "the largest boards": (long_sessions.largest_board_session, range(1, 41)),
    "dense boards": (long_sessions.dense_session, [9, 12, 12, 22, 22]),
    "all shunted, with very many chains": (long_sessions.short_session, [16, 16, 22, 22]),
    "boards worked out by hand, some with more chains than any allowance": (long_sessions.fed_session, feed_boards.every_one()),
    "65,536 bytes, nearly all events": (long_sessions.longest_session, boards.CALM),
    "65,536 bytes, half the events refused by 12": (long_sessions.doubles_session, [boards.holding]),
    "65,536 bytes, the last event bad": (long_sessions.bad_end_session, BAD_ENDS),
    "65,536 bytes with a damaged board": (long_sessions.longest_bad_session, list(DAMAGES.values())[1:]),
    "65,536 random bytes": (long_sessions.random_session, [0] * 4),
    "65,537 bytes and more, nearly all events": (long_sessions.too_long_session, [1, 1, 2, 1_000]),
    "65,537 bytes and more with a damaged board": (long_sessions.too_long_bad_session, list(DAMAGES.values())[1:]),
    "65,537 bytes and more, random": (long_sessions.random_session, [1, 1, 2, 100_000]),
}


def sessions(seed, count):
    """About so many sessions of the many sorts, and those of the few: each with its sort and its number in it."""
    found, shares = [], sum(share for share, _ in SORTS.values())
    for sort, (share, make) in SORTS.items():
        for number in range(max(LEAST, -(-share * count // shares))):
            found.append((sort, number, make(random.Random(f"{seed} {sort} {number}"))))
    for sort, (make, variants) in FEW.items():
        for number, variant in enumerate(variants):
            found.append((sort, number, make(random.Random(f"{seed} {sort} {number}"), variant)))
    return found
