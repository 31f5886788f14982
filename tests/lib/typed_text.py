"""Typed text in which nothing is wrong, read once more in Python: its pairs of hex digits, their bytes and places."""
import re


def typed_pairs(text):
    """The pairs of a typed text in which nothing is wrong: line and column, both from 1, and the two digits."""
    for number, line in enumerate(text.split("\n"), 1):
        for pair in re.finditer(r"[0-9A-Fa-f]{2}", line.split("#")[0]):
            yield number, pair.start() + 1, pair[0]


def typed_bytes(text):
    """The bytes of a typed text."""
    return bytes.fromhex("".join(pair for _, _, pair in typed_pairs(text)))


def places_typed(text):
    """The place of each line and column at which a pair stands; that of the end is right after the last pair, or at the text's
    end where there is none."""
    pairs, lines = list(typed_pairs(text)), text.split("\n")
    end = (pairs[-1][0], pairs[-1][1] + 2) if pairs else (len(lines), len(lines[-1]) + 1)
    return {end: len(pairs), **{(line, column): place for place, (line, column, _) in enumerate(pairs)}}
