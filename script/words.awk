# Says in words what a session was refused for, and where: a line for each event refused by 12, one for the refusal that
# ended the session; or what a page of all settings was refused for. For the script `herdspiral`, together with typed.awk.
# Number and place are the proved program's; this goes once more through the numbers of the session, to say what is wanted at
# that place and what the board has. Where it comes to no such place, it says number and place alone.
#
# In the environment: NAME is what the input is called, LONGEST_INPUT how many bytes a session may have, LONGEST_LOG how many
# moves a log may be for. Input: what the program said on standard error; a line `typed` or `bytes`; then what the session was
# read from, as od prints it in octal: the typed text, or the bytes themselves.

BEGIN {
    name = ENVIRON["NAME"]
    LONGEST_INPUT = ENVIRON["LONGEST_INPUT"] + 0
    LONGEST_LOG = ENVIRON["LONGEST_LOG"] + 0
    LONGEST_NUMBER = 5 # bytes
    LARGEST_NUMBER = 4294967295
    MARK = LAST_KIND = 7
    MOST_SET = 12 # buttons of a board whose settings are all run
    GOES_ON = "a byte of 80 or more says that another comes"
    WINDING[4] = "regular winding"; WINDING[5] = "drawing winding"; WINDING[6] = "dropping winding"
    NAMED[1] = NAMED[2] = NAMED[4] = NAMED[5] = NAMED[6] = NAMED[MARK] = "relay"; NAMED[3] = "button"
    CONVFMT = "%.0f" # mawk goes by this for numbers above 2,147,483,647
    at = size = 0
}

# ---- what comes in

sort == "" && $1 == "refused" && NF == 3 { refusal = $2 + 0; refused_at = $3 + 0; next }
sort == "" && $2 == "refused" && NF == 3 { double[$1] = doubles = 1; next }
sort == "" && (/^typed$/ || /^bytes$/) { sort = $1; next }
sort == "" { print; next }
{ for (i = 1; i <= NF; i++) if (sort == "typed") take(octal[$i]); else byte[size++] = octal[$i] }

# A pair of the typed text: its value, where it stands, and as it was typed.
function met(place, first, second, column) {
    byte[place] = 16 * digit[first] + digit[second]
    line_of[place] = line
    column_of[place] = column
    pair[place] = sprintf("%c%c", first, second)
    size = pairs
}

# ---- how it is said

# Where a place is. The input's end is right after its last pair, or where there is none at the end of the text.
function where(place) {
    if (sort == "bytes") return "place " place
    if (place < size) return "line " line_of[place] ", column " column_of[place]
    return size ? "line " line_of[size - 1] ", column " column_of[size - 1] + 2 : "line " line ", column " column + 1
}

# So many bytes from a place on, as they were typed.
function quoted(place, many,    text, i) {
    for (i = 0; i < many; i++) text = text (i ? " " : "") (sort == "typed" ? pair[place + i] : sprintf("%02x", byte[place + i]))
    return "\"" text "\""
}

# The bytes of a number in its shortest form.
function shortest(rest,    text) {
    for (text = ""; rest >= 128; rest = int(rest / 128)) text = text sprintf("%02x ", 128 + rest % 128)
    return "\"" text sprintf("%02x", rest) "\""
}

# A number with a comma before every three digits from the right.
function grouped(many) { return many < 1000 ? many : grouped(int(many / 1000)) sprintf(",%03d", many % 1000) }

# So many of a thing, in words.
function counted(many, thing) { return many " " thing (many == 1 ? "" : "s") }

# That there is no thing of this number, and how many the board has.
function no_such(thing, chosen, many) {
    return "there is no " (chosen < 10 ? "such " thing : thing " " grouped(chosen)) ": the board has " (many == 0 ? "none" : many == 1 ? "1, number 0" : many ", 0 to " many - 1)
}

# Two decimal digits that would be in range were perhaps meant so: then this says how the number is typed.
function meant(low, high,    decimal) {
    decimal = 10 * int(value / 16) + value % 16
    if (sort == "bytes" || at - start != 1 || value < 16 || value % 16 > 9 || decimal < low || decimal > high) return ""
    return "; " quoted(start, 1) " is " value ", and " decimal " is typed " shortest(decimal)
}

# Tells of a refusal, with so many bytes that stand there.
function tell(no, place, many, sentence) {
    print name ": " where(place) ": " (many ? quoted(place, many) ": " : "") sentence " (refusal " no ")"
}

# Tells of the refusal that ended the session, if it is of this place.
function tell_end(place, many, sentence) {
    if (refused_at != place || sentence == "") return
    told = 1
    tell(refusal, place, many, sentence)
}

# ---- the way through the session

# How many bytes the number at a place has, as far as the input and a number go.
function bytes_at(place,    many) {
    for (many = 0; place + many < size && many < LONGEST_NUMBER;) if (byte[place + many++] < 128) break
    return many
}

# Goes past the number at `at`, which is wanted for this; it starts at `start` and is `value`. Answers whether the way goes on
# after it. Where it must lie between two numbers these are given, and whose number it is, if it is a relay's or button's.
function go_past(wanted, low, high, whose,    many, i) {
    start = at
    many = bytes_at(start)
    at += many
    value = 0
    for (i = many - 1; i >= 0; i--) value = 128 * value + byte[start + i] % 128
    if (many && byte[at - 1] < 128) {
        if (refusal == 2 && many > 1 && byte[at - 1] == 0) tell_end(start, many, wanted " is not in its shortest form, since " GOES_ON ": type " shortest(value))
        else if (refusal == 2 && value > LARGEST_NUMBER) tell_end(start, many, wanted " is too large: no number is above " grouped(LARGEST_NUMBER) ", typed " shortest(LARGEST_NUMBER))
        else if (refusal >= 3 && refusal <= 8 || refusal == 17) tell_end(start, many, unfit(wanted, low, high, whose))
        return !told
    }
    if (refusal == 2 && many == LONGEST_NUMBER) tell_end(start, many, wanted " is longer than " many " bytes, since " GOES_ON)
    else if (refusal == 1) tell_end(at, 0, "the input ends here, " (many ? "inside " wanted ": " quoted(start, many) " goes on, since " GOES_ON : "and " wanted " is wanted"))
    return 0
}

# 3 to 8 and 17: the number's meaning.
function unfit(wanted, low, high, whose) {
    if (refusal == 3) return wanted " is " grouped(value) ", and must be " low " to " high meant(low, high)
    if (refusal == 4) return "there is no " (value < 10 ? "such kind" : "kind " grouped(value)) " of part: the kinds are 0 to " LAST_KIND
    if (refusal == 5) return no_such("terminal", value, terminals) meant(0, terminals - 1)
    if (refusal == 6) return "both ends of " part " are terminal " value
    if (refusal == 8) return wound_before(value)
    if (refusal == 17) return marked_before(value)
    if (whose == "event") return event_does() ", and " no_such("button", int(value / 2), buttons) meant(0, high)
    return no_such(whose, value, high + 1) meant(0, high)
}

# 8: which winding the relay has already, and where. Of the same kind, or of the other sort.
function wound_before(relay,    has) {
    for (has = 4; has <= 6; has++) if ((has, relay) in wound && (has == kind || has == 4 || kind == 4)) break
    if (has > 6) return ""
    return "relay " relay " has a " WINDING[has] " already, at " where(wound[has, relay]) (has == kind ? "" : ": so it can have no " WINDING[kind])
}

# 17: where the relay is marked already.
function marked_before(relay) { return (relay in marked_at) ? "relay " relay " is marked as starting drawn already, at " where(marked_at[relay]) : "" }

# 9: what a relay lacks; empty where it has what it needs.
function lack(relay) {
    if ((4, relay) in wound || (5, relay) in wound && (6, relay) in wound) return ""
    if ((5, relay) in wound) return "a drawing winding and no dropping winding"
    return (6, relay) in wound ? "a dropping winding and no drawing winding" : "no winding"
}

# 9: the lowest relay that lacks a winding, and how many there are besides.
function lacking(    relay, first, more) {
    for (relay = 0; relay < relays; relay++) {
        if (lack(relay) == "") continue
        if (first != "") more++
        else first = "relay " relay " has " lack(relay)
    }
    return first (more ? ", and " counted(more, "other relay") (more == 1 ? " lacks" : " lack") " one too" : "")
}

function board_ends(what) {
    if (what != "") tell_end(at, bytes_at(at), "the board ends " (at < size ? "before this" : "here, and so does the input") ", after " counted(parts, "part") ": " what)
}

function event_does() { return event (value % 2 ? " pushes" : " releases") " button " grouped(int(value / 2)) }

# A part: its kind, its ends, which a mark has none of, and the relay or button that it names.
function next_part(    last) {
    if (!go_past("the kind of " part)) return 0
    kind = value
    if (kind != MARK && (!go_past("the first end of " part) || !go_past("the second end of " part))) return 0
    if (!(kind in NAMED)) return 1
    last = (NAMED[kind] == "relay" ? relays : buttons) - 1
    if (!go_past("the " NAMED[kind] " of " part, 0, last, NAMED[kind])) return 0
    if (kind in WINDING) wound[kind, value] = start
    if (kind == MARK) marked_at[value] = start
    return 1
}

function whole_board(    i) {
    if (!go_past("the number of terminals (T)", 2, 64)) return 0
    terminals = value
    if (!go_past("the number of relays (R)", 0, 32)) return 0
    relays = value
    if (!go_past("the number of buttons (B)", 0, 32)) return 0
    buttons = value
    buttons_at = start
    buttons_meant = meant(0, MOST_SET)
    if (!go_past("the number of parts (C)", 0, 256)) return 0
    parts = value
    for (i = 1; i <= parts; i++) {
        part = "part " i " of " parts
        if (!next_part()) return 0
    }
    if (refusal == 9) board_ends(lacking())
    return !told
}

function events(    i) {
    for (i = 1; at < size; i++) {
        event = "event " i
        if (!go_past(event, 0, 2 * buttons - 1, "event")) return
        if (i in double) tell(12, start, at - start, event_does() ", which is " (value % 2 ? "pushed" : "released") " already")
    }
}

# 10: the place is that of the first byte; which one is too many is said besides.
function too_long() {
    if (size > LONGEST_INPUT) tell_end(0, 1, "the session is longer than " grouped(LONGEST_INPUT) " bytes: the first byte too many is at " where(LONGEST_INPUT))
}

# 13, of a page of all settings: it is of no file.
function log_too_long() {
    told = 1
    print "herdspiral: LOG is above " grouped(LONGEST_LOG) ", the most moves that a log is for (refusal 13)"
}

# 20, of a page of all settings, at the number of buttons.
function too_many_buttons() {
    if (!whole_board() || buttons <= MOST_SET) return
    told = 1
    tell(20, buttons_at, 1, "the board has " buttons " buttons, and a page of all settings is for " MOST_SET " at most" buttons_meant)
}

# Whether bytes look like typed text: two hex digits at least, and no control byte but white space. No board with a part in
# it does, since kinds are control bytes.
function looks_typed(    digits, i) {
    for (i = 0; i < size; i++) {
        if (byte[i] < 9 || byte[i] > 13 && byte[i] < 32) return 0
        if (byte[i] in digit) digits++
    }
    return digits > 1
}

END {
    if (!refusal && !doubles) exit
    if (refusal == 10) too_long()
    else if (refusal == 13) log_too_long()
    else if (refusal == 20) too_many_buttons()
    else if (whole_board() && go_past("the allowance (W)")) events()
    if (refusal && !told) tell(refusal, refused_at, 0, "this is refused")
    if (refusal && sort == "bytes" && looks_typed()) print name ": this looks like typed text, and was taken as bytes: a typed file's name ends in .hex, and it is given by that name, as in ./herdspiral board.hex"
}
