"""The rule book's board files once more, in plain Python, after the rule book (docs/RULES.md): reading with its refusals
and the rules on a board. It shares no text with the crates, but those who wrote it had read the crates' public functions,
so it is a check on slips and not the independent second program."""

LONGEST_NUMBER, LARGEST = 5, 4_294_967_295  # most bytes of a number, and its largest value
NARROW = (8, 16, 24, 31)  # bits to which a slip may narrow a number before it is held to its limit
RANGES = ((2, 64), (0, 32), (0, 32), (0, 256))  # T, R, B, C
BUTTON, MARK = 3, 7
LAST_KIND = MARK


class Refused(Exception):
    """A refusal by number and place."""


def number_at(data, at):
    """The number at a place: its value and the next place."""
    value = 0
    for group in range(LONGEST_NUMBER):
        if at + group >= len(data):
            raise Refused(1, len(data))
        byte = data[at + group]
        value |= (byte & 127) << (7 * group)
        if byte < 128:
            if (group > 0 and byte == 0) or value > LARGEST:
                raise Refused(2, at)
            return value, at + group + 1
    raise Refused(2, at)


def number_bytes(value):
    """A number in its shortest form."""
    groups = []
    while value >= 128:
        groups.append(128 | value % 128)
        value //= 128
    return groups + [value]


def winding_taken(windings, kind):
    """Whether a relay with these windings has this one already, or is of the other sort."""
    return kind in windings or (kind == 4 and bool(windings)) or (kind > 4 and 4 in windings)


def read(data):
    """The place just after the board that begins the data, and its start: the relays that it marks."""
    if len(data) > 65536:
        raise Refused(10, 0)
    at, counts = 0, []
    for least, most in RANGES:
        value, after = number_at(data, at)
        if not least <= value <= most:
            raise Refused(3, at)
        counts.append(value)
        at = after
    terminals, relays, buttons, parts = counts
    windings, marked = [set() for _ in range(relays)], set()
    for _ in range(parts):
        at = read_part(data, at, terminals, relays, buttons, windings, marked)
    if any(own not in ({4}, {5, 6}) for own in windings):
        raise Refused(9, at)
    return at, marked


def read_ends(data, at, terminals):
    """The place just after the two ends at a place."""
    ends = []
    for _ in range(2):
        end, after = number_at(data, at)
        if end >= terminals:
            raise Refused(5, at)
        if end in ends:
            raise Refused(6, at)
        ends.append(end)
        at = after
    return at


def read_part(data, at, terminals, relays, buttons, windings, marked):
    """The place just after the part at a place. Its winding or its mark is added to those before it."""
    kind, after = number_at(data, at)
    if kind > LAST_KIND:
        raise Refused(4, at)
    at = after if kind == MARK else read_ends(data, after, terminals)
    if kind == 0:
        return at
    name, after = number_at(data, at)
    if name >= (buttons if kind == BUTTON else relays):
        raise Refused(7, at)
    if kind == MARK:
        if name in marked:
            raise Refused(17, at)
        marked.add(name)
    elif kind >= 4:
        if winding_taken(windings[name], kind):
            raise Refused(8, at)
        windings[name].add(kind)
    return after


def file_of(counts, parts):
    """The file of a board: T, R, B, C, then each part's numbers. A mark is its kind and its relay."""
    numbers = list(counts) + [len(parts)] + [number for part in parts for number in part]
    return bytes(byte for number in numbers for byte in number_bytes(number))
