"""docs/READING.md lists every file of definitions once with its number of lines, adds up those of its first part, says how many
calls the table of boards to try has, and names laws that are there; docs/COST.md has every crate with its own counts, and no
other; docs/CONTRIBUTING.md has a row for every script of tests/. What a document names in backquotes is there
(tests/lib/named.py)."""
import os
import re
import sys

sys.path.insert(0, os.path.join(os.path.dirname(os.path.abspath(__file__)), "lib"))
import named
import repository

page = repository.text("docs", "READING.md")
ROW = r"^\| `(crates/[^`]+)` \| (\d+) \|"
rows = re.findall(ROW, page, re.M)
reading = dict(rows)
cost = {name: tuple(map(int, counts)) for name, *counts in re.findall(r"^\| `(\w+)` \| (\d+) \| (\d+) \| (\d+) \| (\d+) \|", repository.text("docs", "COST.md"), re.M)}

checks = []
for crate in repository.crates():
    for name in repository.files(crate, "specs"):
        if not name.endswith("/Lib.antt"):
            count = str(repository.text(name).count("\n"))
            checks.append((f"docs/READING.md: {name} has {count} lines, not {reading.get(name)}", reading.get(name) == count))
    own = tuple(repository.lines(crate, part) for part in ("src", "specs", "proofs")) + (len(repository.edits(crate)),)
    checks.append((f"docs/COST.md: {crate} has {own}, not {cost.get(crate)}", cost.get(crate) == own))
for name in reading:
    checks.append((f"docs/READING.md: {name} is there", os.path.exists(repository.path(name))))
    checks.append((f"docs/READING.md: {name} has one row", [row for row, _ in rows].count(name) == 1))

# The stated sum of the first part, and that of the whole.
first = sum(int(count) for _, count in re.findall(ROW, page.split("\n## Part two")[0], re.M))
whole = sum(int(count) for _, count in rows)
stated = re.findall(r"^Part one: ([\d,]+) lines of ([\d,]+)\.", page, re.M)
checks.append((f"docs/READING.md: part one has {first:,} lines of {whole:,}, not {stated}", stated == [(f"{first:,}", f"{whole:,}")]))

# The rows of the starred table: each begins with the call that it is of, which makes a `Row`.
makers, table = repository.text("crates", "demands", "specs", "Starred.antt").split("\nstarred =\n")
calls = "|".join(re.findall(r"^(?:  |abbrev pub )(\w+) : .* → Row$", makers, re.M))
count = len(re.findall(rf"^    (?:∷ )?(?:{calls}) ", table, re.M))
checks.append((f"docs/READING.md: the starred table has {count} calls", f'"Boards to try", {count} calls with their answers' in page))

# A law is named after the file that proves it: `crate/proofs/File.antt`: `law`, `law`.
for name, laws in re.findall(r"`(\w+/proofs/\w+\.antt)`: ((?:`[\w-]+`(?:, )?)+)", page):
    proofs = repository.text("crates", name) if os.path.exists(repository.path("crates", name)) else ""
    for law in re.findall(r"`([\w-]+)`", laws):
        checks.append((f"docs/READING.md: {name} proves {law}", bool(re.search(rf"^\s*pub {law} :", proofs, re.M))))

# A row of docs/COST.md is a crate's; a row of docs/CONTRIBUTING.md is a script's.
for crate in cost:
    checks.append((f"docs/COST.md: {crate} is a crate", crate in repository.crates()))
scripts = sorted(name for name in os.listdir(repository.path("tests")) if name.endswith(".py"))
listed = sorted(re.findall(r"^\| `(\w+\.py)` \|", repository.text("docs", "CONTRIBUTING.md"), re.M))
checks.append((f"docs/CONTRIBUTING.md: a row for each script of tests/, {scripts}, not {listed}", scripts == listed))
sys.exit(repository.report(checks + named.checks()))
