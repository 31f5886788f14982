# Prints the bytes of a typed session as octal escapes; or, with status 1, what is wrong in the text and where. For the
# script `herdspiral`, together with typed.awk. Input: the text as od prints it in octal, so that no awk meets a NUL or a
# letter of which it has ideas of its own. LONGEST_TEXT, in the environment, is how many bytes of text are taken.

BEGIN { for (i = 0; i < 256; i++) escape[i] = sprintf("\\%03o", i) }

# The escapes are gathered in rows of 256, since adding to a long text takes long.
function met(place, first, second, column) {
    row = row escape[16 * digit[first] + digit[second]]
    if (pairs % 256 == 0) { rows[++full] = row; row = "" }
}

{
    for (i = 1; i <= NF; i++) take(octal[$i])
    if (fault != "") exit
}

END {
    finish()
    if (fault == "" && taken > ENVIRON["LONGEST_TEXT"] + 0) fault = "this is longer than " ENVIRON["LONGEST_TEXT"] " bytes, and no session is typed in so many"
    if (fault != "") { print fault; exit 1 }
    ORS = ""
    for (i = 1; i <= full; i++) print rows[i]
    print row
}
