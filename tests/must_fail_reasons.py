"""Each must-fail edit was refused because a fact no longer holds. `rt` says of each edit what its try came to. It tells
itself where an edit could not be applied, compiled or read (BAD EDIT), where its check came to no end (NOT TRIED),
where the only errors are of proof files that name what the edit took away, and where only a limit of the prover stopped
it; each of these fails here. Of the others it shows how the first error begins that is no such naming: that is an
answer that the prover does not accept, or a need that is not proved any more. Errors before that one it does not show;
so a need of another name than one that is answered, where the edit changed what the name is made of, fails here: its
answer was not read. Such an edit renames the answer too (`file: proofs/F/Answers.antt`).
In the gate this reads what `rt ci` said (RT_CI_SAID); by itself it asks `rt must-fail`, which tries no edit again that
`rt ci` tried."""
import os
import re
import subprocess
import sys

sys.path.insert(0, os.path.join(os.path.dirname(os.path.abspath(__file__)), "lib"))
import repository

# What says that an edit changed the code's shape, or never reached a fact. That a name is not in scope "here" is advice on how
# a message is read, and no such word.
SHAPE = re.compile(
    r"has no field|has no `|is no name|that can be named from here|is not in scope(?! here)|was not admitted|Parse|is never closed"
    r"|error\[|ran out of|the borrow checker"
)

# What `rt` says of an edit: its crate, its label, and what the try came to.
SAID = re.compile(r"^rt: must-fail (\w+)/([\w.-]+)\.edit: (.*)$", re.M)
# An error of a proof, a definition or a need, or what is not proved at a place of the code.
REFUSED = re.compile(r"refused, as it must be: ((?:note: )?\S+:\d+:\d+: .+)")


# What the name of a need tells of a test, beside the names in it.
COMPARED = {"ge", "gt", "le", "lt", "eq", "ne"}


def answered(crate, function):
    """The needs of a function that its proof has an answer for, by name. Functions that call one another have one proof, whose
    folder begins with a plus."""
    found = []
    for name in repository.files(crate, "proofs"):
        folder, file = os.path.split(name)
        owner = os.path.basename(folder)
        if file == "Answers.antt" and (owner == function or owner[0] == "+" and f"_{function}_" in f"_{owner[1:]}_"):
            found += re.findall(r"^pub (\S+) :", repository.text(name), re.M)
    return found


def function_at(crate, file, line):
    """The function of the code in which a line stands, or that begins there. An edit keeps the lines where they are."""
    lines = repository.text("crates", crate, file).split("\n")[:line]
    return next((made[1] for made in (re.search(r"\bfn (\w+)", text) for text in reversed(lines)) if made), "")


def is_renamed(need, other, old, new):
    """Whether a need is another one, renamed by an edit that put the words of `new` in the place of those of `old`."""
    ours, theirs = ([part for part in name.split("-") if part != "not"] for name in (need, other))
    if len(ours) != len(theirs):
        return False
    changed = [(part, was) for part, was in zip(ours, theirs) if part != was]
    return all(part in new | COMPARED and was in old | COMPARED for part, was in changed)


def is_unread(crate, label, first):
    """Whether an edit was refused at a need that it renamed, so that the answer to it was not read."""
    need = re.match(r"note: (src/\S+?):(\d+):\d+: .*?\(`([\w-]+)`\)", first)
    text = repository.text("crates", crate, "must-fail", label + ".edit")
    if not need or re.search(r"^file: proofs/", text, re.M):
        return False
    answers = answered(crate, function_at(crate, need[1], int(need[2])))
    old, new = (set(re.findall(r"\w+", " ".join(re.findall(rf"^{word}: (.*)$", text, re.M)))) for word in ("old", "new"))
    return need[3] not in answers and any(is_renamed(need[3], other, old, new) for other in answers)


def said():
    """What `rt` said of the edits."""
    path = os.environ.get("RT_CI_SAID")
    if path:
        with open(path, encoding="utf-8", errors="replace") as file:
            return file.read()
    return subprocess.run(["rt", "must-fail"], cwd=repository.ROOT, stdin=subprocess.DEVNULL, stdout=subprocess.PIPE, text=True, errors="replace").stdout


def is_for_fact(verdict):
    """Whether what `rt` said of an edit is that it was refused for a fact."""
    first = REFUSED.fullmatch(verdict)
    return first is not None and not SHAPE.search(first[1])


def is_fine(crate, label, verdict):
    """The same of an edit of the repository, whose answer must have been read."""
    return is_for_fact(verdict) and not is_unread(crate, label, REFUSED.fullmatch(verdict)[1])


def checks(text):
    """A check for each edit of the repository, by what was said."""
    found = {}
    for crate, label, verdict in SAID.findall(text):
        found.setdefault((crate, label), []).append(verdict)
    for crate in repository.crates():
        for label in repository.edits(crate):
            verdicts = found.get((crate, label), [])
            yield f"{crate}/{label}: {verdicts}", len(verdicts) == 1 and is_fine(crate, label, verdicts[0])


if __name__ == "__main__":
    sys.exit(repository.report(list(checks(said()))))
