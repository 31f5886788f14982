"""The rule book's "Boards to try" as sessions, and sessions with shunts (request A4) and buzzers (request A8), each with the
lines that it must print: worked out by hand from docs/RULES.md. W is read and ignored (request A7)."""

H1 = "03 01 01 02  03 00 02 00  04 02 01 00"
H2 = "03 01 01 03  03 00 02 00  01 00 02 00  04 02 01 00"
H3 = "03 01 00 02  02 00 02 00  04 02 01 00"
H4 = "05 01 00 04  00 00 02  00 02 03  00 04 02  04 03 04 00"
H4_AND_WIRE = "05 01 00 05  00 00 02  00 02 03  00 04 02  04 03 04 00  00 02 01"
H4_WINDING = "05 02 00 04  00 00 02  00 02 03  04 04 02 01  04 03 04 00"  # for the wire 4-2 the winding of relay 1
H4_WINDING_AND_WIRE = "05 02 00 05  00 00 02  00 02 03  04 04 02 01  04 03 04 00  00 02 01"
H5 = "04 01 02 04  03 00 02 00  03 00 03 01  05 02 01 00  06 03 01 00"
H6 = "03 01 00 03  00 00 02  00 02 01  04 02 01 00"
H1_DRAWN = "03 01 01 03  03 00 02 00  04 02 01 00  07 00"
H2_DRAWN = "03 01 01 04  03 00 02 00  01 00 02 00  04 02 01 00  07 00"
H5_DRAWN = "04 01 02 05  03 00 02 00  03 00 03 01  05 02 01 00  06 03 01 00  07 00"
H6_DRAWN = "03 01 00 04  00 00 02  00 02 01  04 02 01 00  07 00"

# H1 with button 1 beside the winding.
H1_SHUNT = "03 01 02 03  03 00 02 00  04 02 01 00  03 02 01 01"
# Button 0 feeds relay 0 and behind it relay 1; button 1 lies beside the winding of relay 0.
SHUNT = "04 02 02 04  03 00 02 00  04 02 03 00  03 02 03 01  04 03 01 01"
# Buttons 0 and 1 feed the drawing and the dropping winding; button 2 lies beside the drawing one, behind which is relay 1.
STEEL_SHUNT = "05 02 03 06  03 00 02 00  03 00 03 01  05 02 04 00  06 03 01 00  03 02 04 02  04 04 01 01"
# H5, drawn from the start, with a wire 2-1: with both buttons pushed plus and minus are linked, and so both windings' ends.
H5_SHORT = "04 01 02 06  03 00 02 00  03 00 03 01  05 02 01 00  06 03 01 00  00 02 01  07 00"
# A wire 0-2, and on 2-1 the winding of relay 0 and its own contact, an upper or a lower one.
SHUNTS_ITSELF = "03 01 00 03  00 00 02  04 02 01 00  01 02 01 00"
SHUNTED_DROPPED = "03 01 00 03  00 00 02  04 02 01 00  02 02 01 00"
SHUNTED_DROPPED_DRAWN = "03 01 00 04  00 00 02  04 02 01 00  02 02 01 00  07 00"
# A button, relay 0's lower contact and its winding in a row; and the same with a second button on 0 and the winding.
BELL = "04 01 01 03  03 00 02 00  02 02 03 00  04 03 01 00"
BELL_HELD = "04 01 02 04  03 00 02 00  02 02 03 00  04 03 01 00  03 00 03 01"
# Relay 0 is fed by the upper contact of relay 1, relay 1 by the lower contact of relay 0: they draw and drop in turn.
RING = "04 02 00 04  01 00 02 01  04 02 01 00  02 00 03 00  04 03 01 01"
RING_DRAWN = "04 02 00 05  01 00 02 01  04 02 01 00  02 00 03 00  04 03 01 01  07 00"
# Relay 0 on 0-1, or behind a button; its upper contact feeds relay 1 through the lower contact of that.
LED_IN = "04 02 00 04  04 00 01 00  01 00 02 00  02 02 03 01  04 03 01 01"
LED_IN_BUTTON = "05 02 01 05  03 00 04 00  04 04 01 00  01 00 02 00  02 02 03 01  04 03 01 01"

TYPED = [
    ("H0", "02 00 00 00  00", ["0 idle 0 0"]),
    ("H0 without an allowance", "02 00 00 00", ["refused 1 4"]),
    ("the empty input", "", ["refused 1 0"]),
    ("T 1", "01 00 00 00  00", ["refused 3 0"]),
    ("T 65", "41 00 00 00  00", ["refused 3 0"]),
    ("T 64", "40 00 00 00  00", ["0 idle 0 0"]),
    ("H1 unpushed", H1 + "64", ["0 idle 0 0"]),
    ("H1 pushed", H1 + "64  01", ["0 idle 0 0", "1 idle 1 1"]),
    ("H1 pushed twice", H1 + "64  01 01 00 00", ["0 idle 0 0", "1 idle 1 1", "2 refused 12", "3 idle 1 0", "4 refused 12"]),
    ("H1, a button that is not there", H1 + "64  01 03 00", ["0 idle 0 0", "1 idle 1 1", "refused 7 14"]),
    ("H1, a cut event", H1 + "64  01 80", ["0 idle 0 0", "1 idle 1 1", "refused 1 15"]),
    ("H1, an event that is not shortest", H1 + "64  01 80 00", ["0 idle 0 0", "1 idle 1 1", "refused 2 14"]),
    ("H2", H2 + "64  01 00", ["0 idle 0 0", "1 idle 1 1", "2 idle 0 1"]),
    ("H3", H3 + "64", ["0 buzz 2 0"]),
    ("H4", H4 + "64", ["0 idle 0 0"]),
    ("H4 with a wire 2-1 more", H4_AND_WIRE + "64", ["0 idle 0 0"]),
    ("H4 with a second winding", H4_WINDING + "64", ["0 idle 0 0"]),
    ("H4 with a second winding and a wire 2-1", H4_WINDING_AND_WIRE + "64", ["0 idle 0 0"]),
    ("H5", H5 + "64  01 00 03 01 02", ["0 idle 0 0", "1 idle 1 1", "2 idle 0 1", "3 idle 1 0", "4 conflict 0 0", "5 idle 1 1"]),
    ("H5 both pushed", H5 + "64  01 03", ["0 idle 0 0", "1 idle 1 1", "2 conflict 0 1"]),
    ("H6", H6 + "64", ["0 idle 0 0"]),
    ("H6 and a mark", H6_DRAWN + "64", ["0 idle 1 0"]),
    ("a relay that a button shunts", SHUNT + "64  01 03 02 00",
     ["0 idle 0 0", "1 idle 2 3", "2 idle 1 2", "3 idle 1 3", "4 idle 2 0"]),
    ("the same, shunted first", SHUNT + "64  03 01 02", ["0 idle 0 0", "1 idle 0 0", "2 idle 1 2", "3 idle 1 3"]),
    ("H1 and a button beside the winding", H1_SHUNT + "64  01 03 02",
     ["0 idle 0 0", "1 idle 1 1", "2 idle 1 0", "3 idle 1 1"]),
    ("the same, shunted first", H1_SHUNT + "64  03 01 02", ["0 idle 0 0", "1 idle 0 0", "2 idle 0 0", "3 idle 1 1"]),
    ("steel, both pushed, shunted", STEEL_SHUNT + "64  05 01 03", ["0 idle 0 0", "1 idle 0 0", "2 idle 1 2", "3 idle 0 2"]),
    ("steel, then not shunted", STEEL_SHUNT + "64  05 01 03 04",
     ["0 idle 0 0", "1 idle 0 0", "2 idle 1 2", "3 idle 0 2", "4 conflict 0 2"]),
    ("steel, in conflict, then shunted", STEEL_SHUNT + "64  01 03 05",
     ["0 idle 0 0", "1 idle 2 3", "2 conflict 0 3", "3 idle 1 2"]),
    ("steel, drawn, then shunted", STEEL_SHUNT + "64  01 05 04", ["0 idle 0 0", "1 idle 2 3", "2 idle 0 3", "3 idle 0 3"]),
    ("steel, both windings shunted", H5_SHORT + "64  01 03 00", ["0 idle 0 1", "1 idle 0 1", "2 idle 0 1", "3 idle 1 0"]),
    ("a relay that shunts itself", SHUNTS_ITSELF + "64", ["0 buzz 2 0"]),
    ("a relay that shunts itself while dropped", SHUNTED_DROPPED + "64", ["0 idle 0 0"]),
    ("the same, drawn from the start", SHUNTED_DROPPED_DRAWN + "64", ["0 idle 0 1"]),
    ("a bell", BELL + "64  01 00 01", ["0 idle 0 0", "1 buzz 2 0", "2 idle 0 0", "3 buzz 2 0"]),
    ("a bell, its relay drawn by another button", BELL_HELD + "64  03 01 02 00",
     ["0 idle 0 0", "1 idle 1 1", "2 idle 0 1", "3 buzz 2 1", "4 idle 1 0"]),
    ("two relays that go round", RING + "64", ["0 buzz 4 0"]),
    ("the same, the first drawn from the start", RING_DRAWN + "64", ["0 buzz 4 1"]),
    ("a buzzer behind a relay that draws first", LED_IN + "64", ["0 buzz 3 1"]),
    ("the same with a button for that relay", LED_IN_BUTTON + "64  01 00 01", ["0 idle 0 0", "1 buzz 3 1", "2 idle 1 0", "3 buzz 3 1"]),
    ("80 00", "80 00", ["refused 2 0"]),
    ("80 80", "80 80", ["refused 1 2"]),
    ("80 80 80", "80 80 80", ["refused 1 3"]),
    ("80 80 80 80", "80 80 80 80", ["refused 1 4"]),
    ("five top bits", "80 80 80 80 80", ["refused 2 0"]),
    ("five top bits and more", "80 80 80 80 80 00", ["refused 2 0"]),
    ("0 in five bytes", "80 80 80 80 00", ["refused 2 0"]),
    ("ff ff ff ff 10", "ff ff ff ff 10", ["refused 2 0"]),
    ("80 80 80 80 10", "80 80 80 80 10", ["refused 2 0"]),
    ("ff ff ff ff 7f", "ff ff ff ff 7f", ["refused 2 0"]),
    ("the largest as T", "ff ff ff ff 0f", ["refused 3 0"]),
    ("260 as a kind", "03 01 01 02  84 02", ["refused 4 4"]),
    ("the largest as a kind", "03 01 01 02  ff ff ff ff 0f", ["refused 4 4"]),
    ("256 as an end", "03 01 01 02  03 80 02", ["refused 5 5"]),
    ("the largest as an end", "03 01 01 02  03 00 ff ff ff ff 0f", ["refused 5 6"]),
    ("256 as a button", "03 01 01 02  03 00 02 80 02", ["refused 7 7"]),
    ("the largest as a relay", "03 01 01 02  04 00 02 ff ff ff ff 0f", ["refused 7 7"]),
    ("257 as an event", H1 + "64  81 02", ["0 idle 0 0", "refused 7 13"]),
    ("the largest as an event", H1 + "64  01 ff ff ff ff 0f", ["0 idle 0 0", "1 idle 1 1", "refused 7 14"]),
    ("an event that is too large", H1 + "64  01 80 80 80 80 10", ["0 idle 0 0", "1 idle 1 1", "refused 2 14"]),
    ("ff ff 7f as W", "02 00 00 00  ff ff 7f", ["0 idle 0 0"]),
    ("80 80 80 as W", "02 00 00 00  80 80 80", ["refused 1 7"]),
    ("80 80 80 80 as W", "02 00 00 00  80 80 80 80", ["refused 1 8"]),
    ("five top bits as W", "02 00 00 00  80 80 80 80 80", ["refused 2 4"]),
    ("ff ff ff ff 10 as W", "02 00 00 00  ff ff ff ff 10", ["refused 2 4"]),
    ("ff ff ff ff 0f as W", "02 00 00 00  ff ff ff ff 0f", ["0 idle 0 0"]),
    ("H1 and a mark", H1_DRAWN + "64  01", ["0 idle 1 0", "1 idle 1 1"]),
    ("H1 and a mark before the winding", "03 01 01 03  03 00 02 00  07 00  04 02 01 00" + "64  01", ["0 idle 1 0", "1 idle 1 1"]),
    ("H2 and a mark", H2_DRAWN + "64  01 00", ["0 idle 0 1", "1 idle 0 1", "2 idle 0 1"]),
    ("H2 and a mark before all else", "03 01 01 04  07 00  03 00 02 00  01 00 02 00  04 02 01 00" + "64", ["0 idle 0 1"]),
    ("H3 and a mark", "03 01 00 03  02 00 02 00  04 02 01 00  07 00" + "64", ["0 buzz 2 1"]),
    ("H5 and a mark: steel", H5_DRAWN + "64  03 02 01", ["0 idle 0 1", "1 idle 1 0", "2 idle 0 0", "3 idle 1 1"]),
    ("marks of two relays of three", "02 03 00 05  07 02  04 00 01 00  07 00  04 00 01 01  04 00 01 02" + "01", ["0 idle 1 7"]),
    ("a mark and no other part", "02 01 00 01  07 00" + "64", ["refused 9 6"]),
    ("a mark that C does not count", "02 01 00 01  04 00 01 00  07 00", ["0 idle 1 1", "refused 7 9"]),
    ("a mark that C counts and that is not there", "02 01 00 02  04 00 01 00" + "64", ["refused 4 8"]),
    ("a mark cut before its relay", "02 01 00 02  04 00 01 00  07", ["refused 1 9"]),
    ("a mark cut in its relay", "02 01 00 02  04 00 01 00  07 80", ["refused 1 10"]),
    ("a mark whose relay is not shortest", "02 01 00 02  04 00 01 00  07 80 00" + "64", ["refused 2 9"]),
    ("a mark of a relay that is not there", "02 01 00 02  04 00 01 00  07 01" + "64", ["refused 7 9"]),
    ("a mark of relay 256", "02 01 00 02  04 00 01 00  07 80 02" + "64", ["refused 7 9"]),
    ("a relay marked twice", "02 01 00 03  04 00 01 00  07 00  07 00" + "64", ["refused 17 11"]),
    ("a relay marked twice and without a winding", "02 01 00 02  07 00  07 00" + "64", ["refused 17 7"]),
    ("8 as a kind", "02 01 00 02  04 00 01 00  08 00" + "64", ["refused 4 8"]),
    ("263 as a kind", "02 01 00 02  04 00 01 00  87 02 00" + "64", ["refused 4 8"]),
]

# Boards and events, which print the same whatever W stands between them.
ANY_W = [
    ("H1", H1, "01 00 00"),
    ("H3", H3, ""),
    ("H5 both pushed", H5, "01 03"),
    ("H1, a button that is not there", H1, "01 03"),
    ("H1, a cut event", H1, "01 80"),
    ("H1, an event that is not shortest", H1, "01 80 00"),
]


def sessions():
    """Each session's name, its bytes and what it must print."""
    return [(name, bytes.fromhex(typed), "".join(line + "\n" for line in lines).encode()) for name, typed, lines in TYPED]
