"""Judging a winding once more, in plain Python, after the rule book (docs/RULES.md), "Parts of a board", "Chains and current"
and "Numbers for no", and requests A4, a shunted winding is dead with effort 0, and A5, refusal 18. Its author had read the
crates, so it is not the independent second program. A part is [kind, a, b] or [kind, a, b, relay or button], a mark
[kind, relay]."""

PLUS, MINUS = 0, 1
UPPER, LOWER, BUTTON, REGULAR, DRAWING, DROPPING, MARK = 1, 2, 3, 4, 5, 6, 7
WINDINGS = (REGULAR, DRAWING, DROPPING)
NO_SUCH_WINDING, STATE_BEYOND_BOARD, FOREIGN_SETS = 11, 14, 18


def conducts(part, drawn, pushed):
    """Whether a part conducts while these relays are drawn and these buttons are pushed."""
    kind = part[0]
    if kind == UPPER:
        return part[3] in drawn
    if kind == LOWER:
        return part[3] not in drawn
    if kind == BUTTON:
        return part[3] in pushed
    return kind != MARK


def start(parts):
    """The relays that start drawn: those that are marked."""
    return {part[1] for part in parts if part[0] == MARK}


def neighbours(terminals, parts, drawn, pushed):
    """For each terminal those that a conducting part joins to it, from the lowest up, each once."""
    near = [set() for _ in range(terminals)]
    for part in parts:
        if conducts(part, drawn, pushed):
            near[part[1]].add(part[2])
            near[part[2]].add(part[1])
    return [sorted(own) for own in near]


def chains(near, chain=(PLUS,)):
    """The chains that begin with this one, in dictionary order."""
    yield chain
    if chain[-1] != MINUS:
        for terminal in near[chain[-1]]:
            if terminal not in chain:
                yield from chains(near, chain + (terminal,))


def shows(chain, a, b):
    """Whether a chain ends at minus and has a and b side by side."""
    return chain[-1] == MINUS and any({a, b} == {x, y} for x, y in zip(chain, chain[1:]))


def shunted(parts, drawn, pushed, a, b):
    """Whether conducting parts, none of them a winding, link a and b: what they link to a grows until nothing is added."""
    links = [set(part[1:3]) for part in parts if part[0] not in WINDINGS and conducts(part, drawn, pushed)]
    linked, before = {a}, set()
    while linked != before:
        before = linked
        linked = linked.union(*(ends for ends in links if ends & linked))
    return b in linked


def beyond(counts, drawn, pushed):
    """Whether a state has a relay or button that the board lacks."""
    _, relays, buttons = counts
    return any(name >= relays for name in drawn) or any(name >= buttons for name in pushed)


def against(counts, parts, drawn, pushed, relay, second, belong=True):
    """The numbers for no that stand against judging this winding in this state, with kept sets that belong to both or do not;
    in their order, so that the first is given."""
    lines = [(beyond(counts, drawn, pushed), STATE_BEYOND_BOARD), (not belong, FOREIGN_SETS)]
    lines.append((winding(parts, relay, second) is None, NO_SUCH_WINDING))
    return [number for stands, number in lines if stands]


def winding(parts, relay, second):
    """The part that is the first or the second winding of a relay, or None."""
    kinds = (DROPPING,) if second else (REGULAR, DRAWING)
    return next((part for part in parts if part[0] in kinds and part[3] == relay), None)


def effort(counts, parts, drawn, pushed, relay, second, most):
    """The effort of a winding and the chain that shows it, None for a dead one; None for both beyond so many chains. A
    shunted winding is dead with effort 0, however many chains there are."""
    _, a, b, _ = winding(parts, relay, second)
    if shunted(parts, drawn, pushed, a, b):
        return 0, None
    count = 0
    for chain in chains(neighbours(counts[0], parts, drawn, pushed)):
        count += 1
        if count > most:
            return None, None
        if shows(chain, a, b):
            return count, chain
    return count, None


def verdict(count, chain, allowance):
    """The verdict within an allowance on a winding of this effort, shown by this chain or dead."""
    if count > allowance:
        return f"undecided {allowance}"
    if chain is None:
        return f"dead {count}"
    return f"live {count} {len(chain)}: " + " ".join(map(str, chain))
