"""The front page quotes the user: the head of each demand's statement (crates/demands/specs/) has the demand word for word, as
docs/RULES.md has it, sentence by sentence; under each sentence it names the fields that state it, and it names every field. So
have the statements of requests A9 and A10. And what any definition's file quotes of a demand ("Demand 3: ..") stands there word
for word."""
import os
import re
import sys

sys.path.insert(0, os.path.join(os.path.dirname(os.path.abspath(__file__)), "lib"))
import repository

STATEMENTS = ["EveryCallComesBack", "AsTheModelSays", "LargerNeverChanges"]
REQUESTS = {"A9": ("InAnyOrder", "The order of moves"), "A10": ("WhateverIsPushed", "All button settings")}  # and the rules' section


def asked(rules):
    """The three demands as the rules quote them."""
    section = rules.partition("## The three demands\n")[2].partition("\n## ")[0]
    return [" ".join(said.split()) for said in re.findall(r'^\d\. "([^"]*)"$', section, re.M)]


def requested(rules, heading):
    """A request as the rules quote it in this section."""
    section = rules.partition(f"## {heading}\n")[2].partition("\n## ")[0]
    return " ".join(" ".join(re.findall(r"^> (.*)$", section, re.M)).split()).strip('"')


def sentences(page):
    """What the head of a statement quotes, each piece with the names in backquotes that stand under it."""
    found, quoting = [], False
    for line in page.partition("\nuse ")[0].split("\n"):
        text = line[2:].strip()
        if not quoting and re.match(r'--     "', line):
            found.append(["", []])
            quoting = True
        if quoting:
            found[-1][0] += " " + text
            quoting = not text.endswith('"')
        elif re.match(r"--         \S", line) and found:
            found[-1][1] += re.findall(r"`([\w-]+)`", text)
    return [(said.strip().strip('"'), names) for said, names in found]


def fields(page, record):
    """The fields of a record, and of the records of the same file that its fields are of."""
    body = page.partition(f"pub record {record} ")[2].partition(" where\n")[2].partition("\n\n")[0]
    own = re.findall(r"^  pub ([\w-]+) : (\w+)", body, re.M)
    return {name for name, _ in own}.union(*(fields(page, inner) for _, inner in own if f"pub record {inner} " in page))


def quoted_of(page):
    """What the comments of a page quote of the demands: pairs of the demand's number and the words. A quotation is of the demand
    named before it in its sentence."""
    comments = " ".join(" ".join(re.findall(r"^ *--(.*)$", page, re.M)).split())
    found = []
    for named in re.finditer(r"\bDemand (\d)\b", comments):
        pieces = comments[named.end():].split('"')
        for before, said in zip(pieces[0::2], pieces[1::2]):
            if re.search(r"\.( |$)", before):
                break
            found.append((int(named.group(1)), said))
            if said.endswith("."):
                break
    return found


checks = []
RULES = repository.text("docs", "RULES.md")
demands = asked(RULES)
checks.append(("docs/RULES.md quotes three demands", len(demands) == 3))
words = [(f"demand {number}", demand, name) for number, (demand, name) in enumerate(zip(demands, STATEMENTS), 1)]
words += [(f"request {request}", requested(RULES, heading), name) for request, (name, heading) in REQUESTS.items()]
for what, demand, name in words:
    page = repository.text("crates", "demands", "specs", f"{name}.antt")
    quoted = sentences(page)
    named = {field for _, names in quoted for field in names}
    there = fields(page, name)
    checks.append((f"{name} quotes {what} word for word", " ".join(said for said, _ in quoted) == demand))
    for said, names in quoted:
        checks.append((f'{name} has a field for "{said}"', bool(names)))
    for field in sorted(named):
        checks.append((f"{name} has the field {field} that its head names", field in there))
    for field in re.findall(r"^  pub ([\w-]+) : ", page.partition(f"pub record {name} ")[2], re.M):
        checks.append((f"{name}'s head names the field {field}", field in named))
for crate in repository.crates():
    for name in repository.files(crate, "specs"):
        page = repository.text(name)
        quotations = quoted_of(page)
        if re.search(r"\bDemand \d", page):
            checks.append((f"{name} quotes the demand that it names", bool(quotations)))
        for number, said in quotations:
            stands = 0 < number <= len(demands) and said in demands[number - 1]
            checks.append((f'{name} quotes demand {number} word for word: "{said}"', stands))
sys.exit(repository.report(checks))
