# Typed text, read byte by byte: pairs of hex digits, white space between them, # begins a comment. A line ends with LF, CR
# or CRLF, and a byte order mark at the begin is skipped. For the script `herdspiral`, together with rows.awk or words.awk:
# that file hands in each byte of the text by take(), has met() for what to do with a pair, and, where the text may have a slip,
# tells the end by finish().
#
#   pairs    how many pairs there were so far
#   line     the line of the byte taken last, from 1
#   fault    what is wrong and where; empty where nothing is
#   octal    the number of each three octal digits, as od prints a byte
#   digit    the value of each hex digit, by its code

BEGIN {
    for (i = 0; i < 256; i++) octal[sprintf("%03o", i)] = i
    for (i = 0; i < 10; i++) digit[48 + i] = i
    for (i = 10; i < 16; i++) digit[55 + i] = digit[87 + i] = i
    space[9] = space[11] = space[12] = space[32] = 1
    LF = 10; CR = 13; HASH = 35
    mark[1] = 239; mark[2] = 187; mark[3] = 191
    line = 1
    column = pairs = taken = marked = half = 0
    fault = ""
}

function shown(code) {
    if (code > 32 && code < 127) return sprintf("\"%c\"", code)
    return sprintf("the byte %02x", code) (code < 128 ? "" : " of a special character")
}

function wrong(at, what) { fault = "line " line ", column " at ": " what }

# A digit is alone: before this byte, or where that is empty before the end.
function no_second(code,    more) {
    if (code == 120 || code == 88) more = ": type the two digits without 0x"
    else if (code == "" || code == LF || code == CR || code == HASH || code in space) more = sprintf(": type \"0%c\"", half)
    wrong(column, shown(half) " has no second hex digit right after it" more)
}

# The text began as a byte order mark begins, and has none.
function unmarked() { wrong(1, shown(mark[1]) " is not a hex digit") }

# Takes the next byte of the text. After a fault nothing is taken.
function take(code,    ends_crlf) {
    if (fault != "") return
    if (++taken <= 3 && marked == taken - 1 && code == mark[taken]) { marked = taken; return }
    if (marked == 1 || marked == 2) { unmarked(); return }
    ends_crlf = code == LF && last == CR
    last = code
    if (ends_crlf) return
    if (half && !(code in digit)) { no_second(code); return }
    column++
    if (half) { met(pairs++, half, code, column - 1); half = 0 }
    else if (code == LF || code == CR) { line++; column = 0; comment = 0 }
    else if (comment) return
    else if (code in digit) half = code
    else if (code == HASH) comment = 1
    else if (!(code in space)) wrong(column, shown(code) " is not a hex digit")
}

# The text is at its end.
function finish() {
    if (fault == "" && (marked == 1 || marked == 2)) unmarked()
    if (fault == "" && half) no_second("")
}
