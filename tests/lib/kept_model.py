"""The sets of neighbours that are kept beside the state (request A5) once more, in plain Python, on top of judge_model: which
terminals conducting parts join, and which they join without windings; how a case hands them in, and what a line says of them.
Sets are given as one set of neighbours, each as its row, its terminal and the one that is beside it. Beside them sets of every
sort to hand in, which belong to a board and a state or do not."""
import judge_model

NEAR, BARE = ROWS = 0, 1  # by all parts that conduct, and by those of them that are no windings
ROW_NAMES = "near", "bare"
PLACES = 64  # of a row, however many terminals a board has
NOWHERE = {(BARE, 0, 1)}  # sets that belong to no board, broken ones neither: what is bare is near too


def own(parts, drawn, pushed):
    """The sets of a board in a state."""
    joining = {NEAR: parts, BARE: [part for part in parts if part[0] not in judge_model.WINDINGS]}
    rows = {row: judge_model.neighbours(PLACES, those, drawn, pushed) for row, those in joining.items()}
    return {(row, x, y) for row in ROWS for x in range(PLACES) for y in rows[row][x]}


def typed(sets):
    """The text of sets before the numbers of a case; None is for the board's own, which are not typed."""
    return "" if sets is None else (bytes(number for each in sorted(sets) for number in each).hex() or "00") + ":"


def shown(sets):
    """Sets as a line shows them."""
    text = ""
    for row in ROWS:
        sums = [sum(2**y for y in range(PLACES) if (row, x, y) in sets) for x in range(PLACES)]
        text += f" {ROW_NAMES[row]}" + "".join(f" {x}={number}" for x, number in enumerate(sums) if number)
    return text


def words(parts, before, sets, after, refused):
    """What a line says of the sets that a call hands back. It was given these, None for the board's own, with the state before;
    refused, it hands them back, and else it leaves the board's own in the state after. A state is its drawn relays and its
    pushed buttons."""
    given, fitting = own(parts, *before) if sets is None else sets, own(parts, *after)
    left = given if refused else fitting
    return f" sets {'given' if left == given else 'changed'} {'own' if left == fitting else 'foreign'}" + shown(left)


def unsaid(line):
    """A line without what it says of the sets."""
    return line.split(" sets ")[0]


def another_state(dice, counts, drawn, pushed):
    """A state with one relay or one button the other way, if there is any."""
    state, some = [drawn, pushed], [place for place in (0, 1) if counts[1 + place]]
    for place in dice.sample(some, min(1, len(some))):
        state[place] = state[place] ^ {dice.randrange(counts[1 + place])}
    return state


def another_board(dice, counts, parts):
    """The parts of a board with one part fewer, or a wire more."""
    if parts and dice.random() < 0.5:
        gone = dice.randrange(len(parts))
        return parts[:gone] + parts[gone + 1 :]
    return parts + [[0] + dice.sample(range(counts[0]), 2)]


def too_many(terminals, parts):
    """The sorts of neighbours that a row may have too many, each with the terminals that have them and those that they are.
    Untouched is a terminal of the board that no part touches; a mark touches none."""
    touched = {end for part in parts if part[0] != judge_model.MARK for end in part[1:3]}
    untouched, beyond = set(range(terminals)) - touched, set(range(terminals, PLACES))
    return [
        ("one too many", touched, touched),
        ("at an untouched terminal", untouched, range(PLACES)),
        ("at a terminal beyond the board", beyond, range(PLACES)),
        ("an untouched neighbour", touched, untouched),
        ("a neighbour beyond the board", touched, beyond),
    ]


def off_by_one(dice, terminals, parts, sets, row):
    """Sets with a neighbour too few in a row, and with one too many of each sort that there is, each with its sort."""
    there = sorted(each for each in sets if each[0] == row)
    if there:
        yield f"{ROW_NAMES[row]}, one too few", sets - {dice.choice(there)}
    for sort, places, others in too_many(terminals, parts):
        more = sorted({(row, x, y) for x in places for y in others} - sets)
        if more:
            yield f"{ROW_NAMES[row]}, {sort}", sets | {dice.choice(more)}


def every_sort(dice, counts, parts, drawn, pushed):
    """Sets to hand in with a board and a state, each with its sort."""
    sets = own(parts, drawn, pushed)
    yield "its own", sets
    for row in ROWS:
        yield from off_by_one(dice, counts[0], parts, sets, row)
    yield "of another state", own(parts, *another_state(dice, counts, drawn, pushed))
    yield "of another board", own(another_board(dice, counts, parts), drawn, pushed)
