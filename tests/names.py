"""One name, one thing: no two definitions of specs/ have the same name, nor any two laws that other crates can cite. A
function may have its definition's name, a type has one name in code and definitions, and a constructor is not looked at: the
rule book's word `conflict` is one of several types."""
import os
import re
import sys

sys.path.insert(0, os.path.join(os.path.dirname(os.path.abspath(__file__)), "lib"))
import repository

DEFINITION = re.compile(r"^(?:(?:abbrev|unfoldable|pub) )+(?:(?:record|data) )?([^\s:({]+) [:({]", re.M)
LAW = re.compile(r"^\s*pub ([a-z][^\s:]*) :", re.M)


# What is written of a function's proof, in a folder of its name; a law's file stands right in proofs/.
OWN = re.compile(r"crates/\w+/proofs/.+/(?:Proof|Invariants|Answers)\.antt")


def places(part, names_of):
    """Where each name of that part of the crates stands; the proof of a function has no name that another file can cite."""
    found = {}
    for crate in repository.crates():
        for file in repository.files(crate, part):
            if not OWN.fullmatch(file):
                for name in names_of(repository.text(file)):
                    found.setdefault(name, []).append(file)
    return found


def laws(text):
    """The laws that other crates can cite, without the fields of records."""
    return LAW.findall(re.sub(r"^(?:pub )?record .*\n(?:[ ].*\n|\n(?= ))*", "", text, flags=re.M))


checks = []
for kind, found in (("definition", places("specs", DEFINITION.findall)), ("law", places("proofs", laws))):
    checks += [(f"the {kind} {name} stands once: {files}", len(files) == 1) for name, files in sorted(found.items())]
sys.exit(repository.report(checks))
