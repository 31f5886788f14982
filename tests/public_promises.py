"""Each function of the library that another crate can call has one promise, under one name: its `ensures` is exactly that named
relation, of the call's arguments in their order, the answer, and what a lent buffer holds afterwards. The relation is defined
once, in the crate's own specs/, and the proved list of laws of one answer (crates/demands/specs/OneAnswer.antt,
proofs/OneAnswer.antt) has a line over that name at any arguments, and lines for nothing else. docs/PROMISES.md has a row for it
that names the relation, that line and at least two must-fail edits, all of which exist, and it names every edit. A call that
refuses has its rows in demand 1."""
import os
import re
import sys

sys.path.insert(0, os.path.join(os.path.dirname(os.path.abspath(__file__)), "lib"))
import repository

# What the programs share is no part of the library: its functions promise what they do, and have no line in the list. And one line
# of the list is of a promise that std's `u32::from` keeps today.
PROGRAMS_OWN = ["cases"]
KIT_PROMISE = ("bits_wide", "(x : ℕ) → x < 256 → One (WideByte x)")
REFUSING = "WritesNumber WritesLine Writes Pushes Releases Judges Moves Runs RunLine EventLine NextLine NextLines".split()

page = repository.text("docs", "PROMISES.md")
rows = {}
for line in page.split("\n"):
    row = re.match(r"\| `(\w+(?:::\w+)+)` \|", line)
    if row:
        rows[row.group(1)] = line

# The list is the last of its file. A line of it may go on below, further in.
statements = repository.text("crates", "demands", "specs", "OneAnswer.antt").partition("pub record OneAnswer ")[2]
listed = dict(re.findall(r"^  pub ([\w-]+) : (.*(?:\n    .*)*)$", statements, re.M))
answers = repository.text("crates", "demands", "proofs", "OneAnswer.antt").partition("pub one_answer ")[2]
proved = re.findall(r"^  ([\w-]+) = ", answers, re.M)


def line_of(name):
    """A function's line in the list: the crate's name and its own."""
    words = name.split("::")
    return f"{words[0]}_{words[-1]}"


def parameters(contract):
    """A function's parameters: pairs of the name and the type, which is empty for `self`, and `&Self` for `&self`."""
    inside = contract[contract.index("(") + 1:contract.index(") ->")]
    named = [("self: &Self" if part.strip() == "&self" else part.strip()).partition(": ") for part in re.split(r", (?![^<]*>)", inside) if part.strip()]
    return [(name, kind) for name, _, kind in named]


def answered(contract):
    """How a promise names the answer: a slice by what it holds, a vector of fixed capacity by its items, another as it is."""
    kind = contract[contract.index(") ->") + 4:].strip()
    return "result.now" if kind.startswith("&") else "result.items" if kind.startswith("ArrayVec<") else "result"


def promise_of(contract):
    """The name of the relation that a contract promises, if it is of just the call's arguments, its answer and what it lends."""
    lent = [name for name, kind in parameters(contract) if kind.startswith("&mut ")]
    held = [(name, ".old" if name in lent else ".now" if kind.startswith("&") else "") for name, kind in parameters(contract)]
    rest = " ".join([name + when for name, when in held] + [answered(contract)] + [f"{name}.new" for name in lent])
    made = re.search(r"\n\s*ensures \{ (\w+) (.*) \}\s*\{$", contract, re.S)
    return made.group(1) if made and " ".join(made.group(2).split()) == rest else None


def says_one(line, relation, contract):
    """Whether a line of the list says that the relation allows one answer, whatever the call is given."""
    binders = re.findall(r"\(([\w ]+) : [\w ]+\)", line)
    names = " ".join(binders).split()
    law = "OneLent" if "&mut " in contract else "One"
    said = f"({relation} {' '.join(names)})" if names else relation
    whole = "".join(f"({group}) " for group in re.findall(r"\(([\w ]+ : [\w ]+)\)", line))
    return len(names) == len(set(names)) == len(parameters(contract)) and line == (f"{whole}→ {law} {said}" if names else f"{law} {said}")


checks, public = [], set()
for crate in repository.crates():
    if not repository.is_library(crate) or crate in PROGRAMS_OWN:
        continue
    edits = repository.edits(crate)
    own = "\n".join(repository.text(name) for name in repository.files(crate, "specs"))
    checks.append((f"{crate} has must-fail edits", bool(edits)))
    for name, contract in repository.public_functions(crate):
        public.add(name)
        row = rows.get(name, "")
        named = re.findall(r"`([^`\s]+)`", row)
        relation = promise_of(contract)
        line = " ".join(listed.get(line_of(name), "").split())
        checks.append((f"{name} has no requires", "requires" not in contract))
        checks.append((f"{name}'s ensures is one named relation of its arguments, its answer and what it was lent", relation is not None))
        checks.append((f"{name}'s promise {relation} is defined in its crate's specs/", len(re.findall(rf"^abbrev pub {relation} : ", own, re.M)) == 1))
        checks.append((f"{name} has a row in docs/PROMISES.md", bool(row)))
        checks.append((f"{name} has a line in the list of laws of one answer", line_of(name) in listed and line_of(name) in proved))
        checks.append((f"{name}'s line in the list is over its promise {relation}, whatever it is given", says_one(line, relation, contract)))
        checks.append((f"{name}'s row names its promise {relation} and that line", relation in named and line_of(name) in named))
        checks.append((f"{name}'s row names two must-fail edits", len([label for label in named if label in edits]) >= 2))
    for label in edits:
        checks.append((f"docs/PROMISES.md names the edit {label} of {crate}", f"`{label}`" in page))
front = repository.text("crates", "demands", "specs", "EveryCallComesBack.antt")
bodies = {name: front.partition(f"pub record {name} ")[2].partition("\n\n")[0] for name in ("InOrder", "AsLent", "EveryCallComesBack")}
checks.append(("the list is a field of demand 1", " : OneAnswer\n" in bodies["EveryCallComesBack"]))
# What the calls that refuse promise, each with a row for the order of its refusals and one for what it leaves; that of `read` has
# its order as `FileRefused`, and `read_number` is lent nothing, nor are `divide`'s `judge` and `check`, which refuse by number alone.
for relation in REFUSING + ["JudgesAtOnce", "ChecksTerminal"]:
    checks.append((f"InOrder has a row for {relation}", re.search(rf"→ {relation} ", bodies["InOrder"]) is not None))
for relation in REFUSING + ["Reads"]:
    checks.append((f"AsLent has a row for {relation}", re.search(rf"→ {relation} ", bodies["AsLent"]) is not None))
for line in listed:
    checks.append((f"{line} of the list is a public function", line in {line_of(name) for name in public} | {KIT_PROMISE[0]}))
checks.append((f"{KIT_PROMISE[0]} of the list says {KIT_PROMISE[1]}", " ".join(listed.get(KIT_PROMISE[0], "").split()) == KIT_PROMISE[1]))
for crate in PROGRAMS_OWN:
    for label in repository.edits(crate):
        checks.append((f"docs/PROMISES.md names the edit {label} of {crate}", f"`{label}`" in page))
for name in rows:
    checks.append((f"{name} of docs/PROMISES.md is a public function", name in public))
sys.exit(repository.report(checks))
