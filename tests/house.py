"""docs/HOUSE.md agrees with crates.txt: its drawing, read from the bottom up, and its table of rooms have the same wings, each
with the same crates in the same order, and mark by ° exactly the crates without code. And in crates.txt a crate depends only
on crates that stand before it, or on libraries of the kit."""
import os
import re
import sys

sys.path.insert(0, os.path.join(os.path.dirname(os.path.abspath(__file__)), "lib"))
import repository

KIT = {"arrayvec", "itoa"}  # the kit's libraries
NO_CODE = "°"

page = repository.text("docs", "HOUSE.md").split("\n")


def listed():
    """The wings of crates.txt, each with its crates, and what each crate depends on."""
    wings, depends = [], {}
    for line in repository.text("crates.txt").split("\n"):
        wing, crate = re.match(r"# ([A-Z][a-z]+): ", line), re.match(r"(\w+):(.*)", line)
        if wing:
            wings.append((wing.group(1), []))
        elif crate and wings:
            wings[-1][1].append(crate.group(1))
            depends[crate.group(1)] = crate.group(2).split()
    return wings, depends


def drawn():
    """The wings of the drawing, each with its rooms: a cell that begins with a capital letter names a wing and lists them."""
    cells = [cell.split() for line in reversed(page) if line.startswith("    |") for cell in line.split("|")]
    return [(cell[0], cell[1:]) for cell in cells if cell and cell[0][0].isupper()]


def tabled():
    """The wings of the table, each with its rooms: a row has a room, and the first of a wing's rows its name."""
    wings = []
    for line in page:
        row = re.match(rf"\| (?:\*\*(\w+)\*\* )?\| `(\w+)`({NO_CODE}?) \|", line)
        if row and row.group(1):
            wings.append((row.group(1), []))
        if row and wings:
            wings[-1][1].append(row.group(2) + row.group(3))
    return wings


def has_code(crate):
    """Whether a file of the crate's code has a line that is not a comment, an import of definitions, a theorem, nor the
    line that has the check try its tactics."""
    text = "\n".join(repository.text(name) for name in repository.files(crate, "src"))
    lines = [line.strip() for line in repository.without_theorems(text).split("\n")]
    return any(line and not line.startswith(("//", "ghost use ")) and line != "#![tactic(auto)]" for line in lines)


wings, depends = listed()
names = [wing for wing, _ in wings]
checks = [("crates.txt: every crate stands below the heading of a wing", list(depends) == repository.crates())]
for where, house in (("drawing", drawn()), ("table", tabled())):
    own = [wing for wing, _ in house]
    checks.append((f"docs/HOUSE.md, {where}: the wings are {names}, not {own}", own == names))
    for wing, crates in wings:
        rooms = [room.rstrip(NO_CODE) for name, rooms in house if name == wing for room in rooms]
        checks.append((f"docs/HOUSE.md, {where}: {wing} has {crates}, not {rooms}", rooms == crates))
    rooms = [room for _, rooms in house for room in rooms]
    for crate in depends:
        room = crate if has_code(crate) else crate + NO_CODE
        checks.append((f"docs/HOUSE.md, {where}: {room} stands there once", [r for r in rooms if r.rstrip(NO_CODE) == crate] == [room]))
before = set()
for crate, needed in depends.items():
    late = [name for name in needed if name not in before | KIT]
    checks.append((f"crates.txt: {crate} knows {late}, which do not stand before it", not late))
    before.add(crate)
sys.exit(repository.report(checks))
