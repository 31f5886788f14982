"""The rule book's "Boards to try" that are reported on (request A10), and some more, each with its eight figures, or with the
number that it is refused by: worked out by hand from docs/RULES.md. Boards are typed as files."""
import book_sessions
import counter_boards
from board_model import file_of

PARALLEL = "03 01 02 03  03 00 02 00  03 00 02 01  04 02 01 00"  # buttons 0 and 1 on 0-2, the winding on 2-1
TAKEN_OVER = "04 02 00 05  01 00 02 00  04 02 01 00  07 00  04 03 01 01  07 01"
THIRTEEN = "02 00 0d 00"  # buttons, and nothing else
# Button 2 on 0-2, the winding on 2-1; buttons 0 and 1 have no part.
THIRD = "03 01 03 02  03 00 02 02  04 02 01 00"
# Buttons 0, 1 and 2 in a row before the winding; then a relay fed by its contact.
IN_A_ROW = "06 02 03 06  03 00 02 00  03 02 03 01  03 03 04 02  04 04 01 00  01 00 05 00  04 05 01 01"

TYPED = [
    ("H0", "02 00 00 00", 0, (1, 1, 0, 0, 0, 0, 0, 0)),
    ("H3", book_sessions.H3, 5, (1, 0, 1, 0, 0, 2, 2, 0)),
    ("H3", book_sessions.H3, 2, (1, 0, 1, 0, 0, 2, 2, 0)),
    ("H3", book_sessions.H3, 1, (1, 0, 0, 0, 1, 1, 1, 0)),
    ("H5", book_sessions.H5, 2, (4, 3, 0, 1, 0, 1, 1, 1)),
    ("H5", book_sessions.H5, 0, (4, 2, 0, 1, 1, 0, 0, 0)),
    ("two buttons side by side", PARALLEL, 1, (4, 4, 0, 0, 0, 3, 1, 1)),
    ("the hut taken over", TAKEN_OVER, 65_536, (1, 1, 0, 0, 0, 1, 1, 0)),
    ("13 buttons", THIRTEEN, 65_537, 13),
    ("13 buttons", THIRTEEN, 65_536, 20),
    ("H1", book_sessions.H1, 4_096, (2, 2, 0, 0, 0, 1, 1, 1)),
    ("H1 and a mark", book_sessions.H1_DRAWN, 4_096, (2, 2, 0, 0, 0, 1, 1, 0)),
    ("H2", book_sessions.H2, 4_096, (2, 2, 0, 0, 0, 1, 1, 1)),
    ("H5 and a mark", book_sessions.H5_DRAWN, 4_096, (4, 3, 0, 1, 0, 1, 1, 2)),
    ("a bell", book_sessions.BELL, 4_096, (2, 1, 1, 0, 0, 2, 2, 1)),
    ("a bell, its relay drawn by another button", book_sessions.BELL_HELD, 4_096, (4, 3, 1, 0, 0, 4, 2, 1)),
    ("12 buttons", "02 00 0c 00", 0, (4_096, 4_096, 0, 0, 0, 0, 0, 0)),
    ("button 2, and two that have no part", THIRD, 65_536, (8, 8, 0, 0, 0, 4, 1, 4)),
    ("three buttons in a row", IN_A_ROW, 2, (8, 8, 0, 0, 0, 2, 2, 7)),
    ("three buttons in a row", IN_A_ROW, 1, (8, 7, 0, 0, 1, 1, 1, 7)),
]
# A counter behind a button, its stages, and the room in the logs: in setting 0 nothing moves.
COUNTERS = [
    (9, 3_067, (2, 1, 0, 0, 1, 3_067, 3_067, 1)),
    (9, 3_068, (2, 1, 1, 0, 0, 3_068, 3_068, 1)),
    (10, 4_096, (2, 1, 0, 0, 1, 4_096, 4_096, 1)),
    (10, 65_536, (2, 1, 1, 0, 0, 6_140, 6_140, 1)),
    (13, 65_536, (2, 1, 1, 0, 0, 49_148, 49_148, 1)),
    (14, 65_536, (2, 1, 0, 0, 1, 65_536, 65_536, 1)),
]


def reports():
    """Each report's name, the file of its board, the room in the logs, and its figures or the number that it is refused by."""
    found = [(name, bytes.fromhex(typed), room, told) for name, typed, room, told in TYPED]
    for stages, room, told in COUNTERS:
        found.append((f"a counter behind a button, stages {stages}", file_of(*counter_boards.counter(stages, True)), room, told))
    return found
