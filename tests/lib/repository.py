"""Reading a Rattle repository: its crates, the functions that another crate can call, and its must-fail edits.
Used by the comparisons beside this file."""
import os
import re

ROOT = os.path.dirname(os.path.dirname(os.path.dirname(os.path.abspath(__file__))))


def path(*parts):
    return os.path.join(ROOT, *parts)


def text(*parts):
    with open(path(*parts), encoding="utf-8") as file:
        return file.read()


def crates():
    """The names of the crates that crates.txt lists, in its order."""
    lines = (line.split("#")[0] for line in text("crates.txt").split("\n"))
    return [line.split(":")[0].strip() for line in lines if ":" in line]


def is_library(crate):
    return os.path.exists(path("crates", crate, "src", "lib.rt"))


def exported_files(crate):
    """The library's root file and those of its modules that it exports, each with its module path."""
    found, todo = [], [("lib.rt", [])]
    while todo:
        name, module = todo.pop()
        found.append((name, module))
        for child in re.findall(r"^pub mod (\w+);", text("crates", crate, "src", name), re.M):
            todo.append((os.path.join(*module, child + ".rt"), module + [child]))
    return found


def without_theorems(text):
    """Code without the functions that stand for a theorem: no parameter, an empty body, and a statement as the contract, which is of
    each type where the function has a type's parameter."""
    return re.sub(r"pub fn \w+(?:<[^<>]*>)?\(\)\n    ensures \{ [^{}\n]* \}\n\{\}\n", "", text)


def functions_of(code):
    """The functions that a file declares with `pub`: the type whose method each is, if it is one, its name, and its contract's text."""
    kind = None
    lines = code.split("\n")
    for number, line in enumerate(lines):
        block = re.match(r"impl(?:<[^>]*>)? (\w+)(?:<[^>]*>)? \{", line)
        if block:
            kind = block.group(1)
        elif line == "}":
            kind = None
        function = re.match(r'\s*pub (?:extern "C" )?fn (\w+)', line)
        if function:
            end = number
            while lines[end].strip() != "{" and not lines[end].rstrip().endswith(" {"):
                end += 1
            yield kind if line.startswith(" ") else None, function.group(1), "\n".join(lines[number:end + 1])


def public_functions(crate):
    """The functions that another crate can call: a pair of the name, as crate::module::Type::function, and the contract's text.
    A method of a type that the library exports is one of them, whatever module of the crate it stands in."""
    functions, home = [], {}
    exported = exported_files(crate)
    for name, module in exported:
        code = without_theorems(text("crates", crate, "src", name))
        home.update({kind: module for kind in re.findall(r"^pub (?:struct|enum) (\w+)", code, re.M)})
        for kind, function, contract in functions_of(code):
            functions.append(("::".join([crate] + module + ([kind] if kind else []) + [function]), contract))
    inner = set(files(crate, "src")) - {os.path.join("crates", crate, "src", name) for name, _ in exported}
    for name in inner:
        for kind, function, contract in functions_of(text(name)):
            if kind in home:
                functions.append(("::".join([crate] + home[kind] + [kind, function]), contract))
    return sorted(functions)


def edits(crate):
    """The labels of the crate's must-fail edits."""
    folder = path("crates", crate, "must-fail")
    if not os.path.isdir(folder):
        return []
    return sorted(name[: -len(".edit")] for name in os.listdir(folder) if name.endswith(".edit"))


def files(crate, part):
    """The Rattle and antt files of one part of a crate, src, specs or proofs, as paths below the repository."""
    found = []
    for folder, _, names in os.walk(path("crates", crate, part)):
        found += [os.path.relpath(os.path.join(folder, name), ROOT) for name in names if name.endswith((".rt", ".antt"))]
    return sorted(found)


def lines(crate, part):
    """How many lines that part has."""
    return sum(text(name).count("\n") for name in files(crate, part))


def same(name, got, want):
    """A check that two things are equal, with both in its name."""
    return f"{name}: wanted {want!r:.300}, got {got!r:.300}", got == want


def report(checks):
    """Prints each failure and, last, the count; the exit status says whether all passed. A check is a name and whether it holds."""
    failed = [name for name, holds in checks if not holds]
    for name in failed:
        print("FAILED:", name)
    print(f"{len(checks) - len(failed)} passed, {len(failed)} failed")
    return 1 if failed else 0
