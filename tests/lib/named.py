"""What the documents name in backquotes must be there. A name by itself is a word of the crates' code, definitions or
proofs, comments left out, or a crate, a must-fail edit, a file or a sample; one with a hyphen or an underscore is
besides declared, as a law is, a definition or a function. `a::b` begins with a crate or a type. A path is one below the
repository, its folder second/ or samples/, crates/, or a crate. What comes after the words crate and program, after
`rt ci` or `rt must-fail`, or before a file of definitions, is a crate. Text that is no name, such as bytes, lines and
commands, is not looked at."""
import glob
import os
import re

import repository

# What stands for any name.
PLACEHOLDER = re.compile(r"(?<![A-Za-z])(NAME|LABEL|CRATE|X)(?![A-Za-z])")

# Names of what is not in the repository.
ELSEWHERE = {
    "01-scope.md": "the rule book, which is handed to the developers",
    "02-change-requests.md": "the requests, which are handed to the developers",
    "DownFrom": "a law of before, in the note on request A5",
    "Fields::one": "a function of before, in the note on request A2",
    "MoveDecided": "a statement of before, in the notes on requests A6 and A7",
    "RegularByChains": "a statement of before, in the notes on requests A4 to A7",
    "RunDecided": "a statement of before, in the notes on requests A6 and A7",
    "SteelByChains": "a statement of before, in the notes on requests A4 to A7",
    "board.hex": "a file of the reader's own",
    "board_cases": "a program of before, in a comparison of docs/COST.md",
    "crates/neighbours/proofs/conducts/Proof.antt": "a proof of before, in the note on request A3",
    "definitions": "a column of a table",
    "flock": "a command of the system",
    "h1-w2": "a sample of before, in the note on request A6",
    "h4-winding-w5": "a sample of before, in the notes on requests A4 and A6",
    "handed_sets.rt": "a file of before, in the note on request A5",
    "head": "a command of the system",
    "is_bare": "a function of before, in the note on request A4",
    "ladder": "a sample of before, in the note on request A1",
    "ladder-w2097151": "a sample of before, in the note on request A1",
    "open": "a word of the proof language",
    "os": "a crate of the older kit, in the note on request A10",
    "proof": "a column of a table",
    "repeats": "a script that is handed to the developers",
    "u32::from": "a conversion of the kit's library",
    "util": "a name that is not to be used",
}

NAME = r"[^\W\d](?:[\w-]*\w)?"
QUOTED = r"`[^`\n]+`"

# What code declares: a function, a constant, a variable, a field or parameter, a type's alias, a module or a clause.
DECLARED = (r"\b(?:fn|const|static|mod|type|let|let mut) (\w+)", r"\b(\w+): ", r"\b(?:requires|ensures) (\w+) \{")
ENDINGS = ("py", "md", "txt", "antt", "rt", "rs", "hex", "lines", "words", "page", "edit", "awk", "sh")


# Pages that set names of before beside today's.
RECORDS = ("docs/PORT.md", "docs/DESIGN-PASS.md", "docs/LOOK-BACK.md")


def documents():
    """The documents whose names are looked at, as paths below the repository."""
    pages = glob.glob(repository.path("docs", "**", "*.md"), recursive=True)
    names = sorted(os.path.relpath(page, repository.ROOT) for page in pages)
    return ["README.md", "samples/README.md", "second/README.md"] + [name for name in names if name not in RECORDS]


def code():
    """All code, definitions and proofs, comments left out."""
    names = [name for crate in repository.crates() for part in ("src", "specs", "proofs") for name in repository.files(crate, part)]
    return "\n".join(re.sub(r"//.*|--.*", "", repository.text(name)) for name in names)


def tracked():
    """Every file below the repository but those that were built, as a path."""
    skipped = ("target", "out", "built", ".git", "__pycache__")
    found = []
    for folder, folders, names in os.walk(repository.ROOT):
        folders[:] = [name for name in folders if name not in skipped]
        found += [os.path.relpath(os.path.join(folder, name), repository.ROOT) for name in names]
    return found


class Known:
    """All that can be named."""

    def __init__(self):
        text, files = code(), [os.path.basename(name) for name in tracked()]
        self.crates = set(repository.crates())
        self.files = set(files) | {os.path.splitext(name)[0] for name in files if name.endswith((".edit", ".hex", ".antt", ".rt"))}
        self.words = set(re.findall(NAME, text))
        self.declared = set(re.findall(rf"^\s*(?:\w+ )*({NAME}) :", text, re.M))
        self.declared.update(*(re.findall(form, text) for form in DECLARED))
        self.types = {word for word in self.words if word[0].isupper()}

    def has_name(self, name):
        return name in self.crates or name in self.files or name in (self.declared if re.search("[-_]", name.strip("_")) else self.words)

    def has_parts(self, name):
        first, *others = name.split("::")
        return first in self.crates | self.types and all(self.has_name(other) for other in others)

    def has(self, name):
        """Whether what is named is there; also where it is no name."""
        if name in ELSEWHERE or PLACEHOLDER.search(name):
            return True
        if re.fullmatch(NAME, name):
            return self.has_name(name)
        if re.fullmatch(r"\w+(::\w+)+", name):
            return self.has_parts(name)
        if re.fullmatch(r"[\w./-]*\w/[\w./-]*", name):
            return is_path(name)
        if re.fullmatch(rf"[\w-]+\.({'|'.join(ENDINGS)})", name):
            return name in self.files
        return True


def is_path(name):
    """Whether a path is there, or is built."""
    folders = ("", "second", "samples", "crates", os.path.join("crates", "*"))
    if name == "target/second" or re.match(r"(?:(?:crates/\w+/)?out|built)/", name):
        return True
    return any(glob.glob(repository.path(folder, name)) for folder in folders)


def named_crates(text):
    """The names in a document that must be crates."""
    for words in re.findall(rf"\b(?:[Cc]rates?|[Pp]rograms?) ((?:{QUOTED}(?:, and |, | and )?)+)", text):
        yield from re.findall(r"`(\w+)`", words)
    for words in re.findall(r"`rt (?:check|ci|lib|must-fail|run|test|tidy|verdict) ([\w ]+)`", text):
        yield from words.split()
    yield from re.findall(r"`(\w+)`: `specs/", text)


def definition_files(text):
    """The files of definitions that a row of docs/READING.md names by crate and file, as pairs: | .. | `crate`: `File`, `File` |"""
    for crate, names in re.findall(r"\| `(\w+)`: ((?:`\w+`(?:, )?)+) \|", text):
        yield from ((crate, name) for name in re.findall(r"`(\w+)`", names))


def checks():
    known, found = Known(), []
    for document in documents():
        text = re.sub(r"^```.*?^```", "", repository.text(document), flags=re.S | re.M)
        names = sorted({quoted[1:-1] for quoted in re.findall(QUOTED, text)})
        found += [(f"{document}: `{name}` is there", known.has(name)) for name in names]
        found += [(f"{document}: `{name}` is a crate", name in known.crates) for name in named_crates(text) if not PLACEHOLDER.search(name)]
        for crate, name in definition_files(text) if document == "docs/READING.md" else ():
            found.append((f"{document}: crates/{crate}/specs/{name}.antt is there", is_path(f"crates/{crate}/specs/{name}.antt")))
    return found
