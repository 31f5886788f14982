#!/usr/bin/env python3
"""Renames the repository's own definitions, lemmas, fields and constructors to the kit's spelling, in every crate at once:
contracts of src/, specs/, proofs/, the comments beside them, and both texts of each must-fail edit.

How to run it, at the top of the repository (committed, after port.py and turn_edits.py, best before the crates are proved one by one):
    python3 respell.py [--write] [--lemmas] [--docs] [--only CRATE] [--keep NAME,NAME..]
It prints `name: OLD -> NEW (where)`, `fall together:` where two names would be one (those stay as they are), `hides:` where a file that
uses the old name has a variable or parameter of the new one, and `look:` for plain lower-case words whose type is a fact.
Nothing is written without --write. --lemmas renames the lemmas of proofs/ too (dash only before a name, `_` before a plain word).
--docs turns names in backquotes in *.md at the top and in docs/, and lists tests/ and script/ that name them.

The rules (CONTRACT_STYLE.md, "Names"): types, facts (into `Type 0`) and modules in upper camel case; everything else in snake case; a dash
joins two names in a lemma's name. None of it is demanded: `rt ci` takes any spelling, so a name that falls together may stay.
Never touched: functions, types, constants and fields of src/, strings, exported names, what Rattle makes (goals, steps, `TheVariants`),
names of std. A second run changes nothing.
"""
import collections
import glob
import os
import re
import subprocess
import sys

ARGV = sys.argv[1:]
WRITE, LEMMAS, DOCS = "--write" in ARGV, "--lemmas" in ARGV, "--docs" in ARGV
ONLY = ARGV[ARGV.index("--only") + 1] if "--only" in ARGV else None
KEEPERS = set(ARGV[ARGV.index("--keep") + 1].split(",")) if "--keep" in ARGV else set()
TOP = subprocess.run(["git", "rev-parse", "--show-toplevel"], capture_output=True, text=True).stdout.strip() or "."
os.chdir(TOP)

WORD = r"[^\W\d][\w'-]*"
DECL = re.compile(r"^(\s*)((?:(?:abbrev|pub|unfoldable|opaque|private)\s+)*)((?:data|record)\s+)?((?:" + WORD + r"\s+)*?" + WORD + r")((?:\s+\([^()]*\)|\s+\{[^{}]*\})*)\s*:(?=\s)(.*)$")
MADE = re.compile(r"/proofs/(?:.*/)?(Answers|Invariants|Proof)\.antt$")
RESERVED = set("where let in elim use pub mod module record data abbrev unfoldable unfolding infixl infixr infix open syntax ruleset private do if then else as".split())


def files(pattern):
    return sorted(p for p in glob.glob(pattern, recursive=True) if "/out/" not in p)


ANTT = files("crates/*/specs/**/*.antt") + files("crates/*/proofs/**/*.antt")
RT = files("crates/*/src/**/*.rt")
text = {p: open(p, encoding="utf-8").read() for p in ANTT + RT}

# ---------------------------------------------------------------- by hand, before the rest

# Names that would fall together with another one's new name: (old, new, the files that mean it, or None for all).
BY_HAND = [
    ("least-terminals", "terminals_enough", None),
    ("most-terminals", "terminals_few", None),
    ("most-relays", "relays_few", None),
    ("most-buttons", "buttons_few", None),
    ("most-parts", "parts_few", None),
    ("is-winding", "is_its_winding", None),
    ("part-at", "part_place", None),
    ("parts-at", "parts_place", None),
    ("word-at", "word_at_lem", None),
    ("parts-fit", "parts_fit_lem", None),
    ("ends_at", "ends_place", r"file_means/proofs/(ReachedRead|HoldsRefused)\.antt$"),
    ("ends_read", "ends_come", r"file_means/proofs/(ReachedRead|HoldsRefused)\.antt$"),
    ("ends_read", "ends_read_lem", r"file_means/proofs/PartTrip\.antt$"),
    ("part_bytes", "part_bytes_lem", r"file_means/proofs/PartTrip\.antt$"),
    ("ended_by", "ended_by_lem", r"lines/proofs/LineLaws\.antt$"),
    ("same_word", "same_word_lem", r"report_means/proofs/GrowLaws\.antt$"),
    ("step_by", "step_by_lem", r"(moves/proofs/(StepLaws|MovingLaws)|runs/proofs/SeenLaws)\.antt$"),
]
# Names that port.py gave to clauses which had none: (file, old, new), in contracts and in must-fail edits of that file.
CLAUSES = [
    ("current_cases/src/typed.rt run_cases/src/typed.rt", {"lower_bound": "no_fewer", "upper_bound": "digits_fit", "sets_le_digits_2": "sets_still_fit", "digits_bound_2": "digits_still_fit", "sets_le_digits": "sets_fit", "digits_bound": "digits_fit"}),
    ("feed/src/lib.rt", {"x_lt_room": "x_in_room", "served_value": "served_so_far"}),
    ("herdspiral/src/page.rt", {"number_bound": "number_fits", "digit_bound": "is_digit"}),
    ("herdspiral/src/main.rt", {"prefix_len": "prefix", "length_value": "clamped", "failed_value": "failed", "length_in_bounds_2": "not_full", "length_in_bounds": "length_fits", "begin_lt_used": "some_left", "used_in_bounds": "used_fits", "lower_bound": "goes_on", "upper_bound": "within", "longest_line_in_bounds": "line_fits"}),
    ("neighbours/src/lib.rt", {"near_len": "near_whole", "bare_len": "bare_whole", "each_set_2": "bare_set", "each_set": "near_set", "near_after": "near_gathered", "bare_after": "bare_gathered"}),
    ("report/src/lib.rt", {"room_value": "accepted", "longest_log_in_bounds": "log_long"}),
    ("report/src/tally.rt", {"within_2": "others_within", "within": "some_within"}),
    ("runs/src/back.rt", {"words_nonzero": "some_words", "words_le_most_words": "words_few", "notches_nonzero": "some_notches", "notches_len_bound": "notches_few", "moves_in_bounds": "moves_logged", "value": "looked_back", "notches_after": "notched"}),
    ("runs/src/course.rt", {"relays_le_most_relays": "relays_few", "start_value": "start_kept", "notches_nonzero": "some_notches", "notches_len_bound": "notches_few"}),
    ("search/src/walk.rt", {"n_le_terminals": "n_within", "terminals_le_most_terminals": "terminals_few", "length_lt_terminals": "length_below", "length_le_most_terminals": "length_few"}),
]


def by_hand():
    for p in ANTT:
        for old, new, where in BY_HAND:
            if where is None or re.search(where, p):
                text[p] = re.sub(r"(?<![\w'-])%s(?![\w'-])" % re.escape(old), new, text[p])
    for places, turned in CLAUSES:
        for p in ("crates/" + x for x in places.split()):
            for old, new in turned.items():
                text[p] = re.sub(r"(?m)^(\s*(?:requires|ensures)) %s (?=\{)" % old, r"\1 %s " % new, text[p])


before = dict(text)
by_hand()

# ---------------------------------------------------------------- what is declared

decl = collections.defaultdict(list)      # name -> [(file, layer, kind, result)]
for p in ANTT:
    if MADE.search(p):
        continue
    layer = "specs" if "/specs/" in p else "proofs"
    inside = None                          # record or data
    lines = text[p].split("\n")
    for i, l in enumerate(lines):
        if l.strip().startswith("--") or not l.strip():
            continue
        ind = len(l) - len(l.lstrip())
        m = re.match(r"^\s*(?:(?:abbrev|pub)\s+)*(record|data)\s+(" + WORD + r").*", l)
        if m:
            inside = (ind, m.group(1))
        elif inside and ind <= inside[0]:
            inside = None
        m = DECL.match(l)
        if not m:
            continue
        sig = m.group(6)
        j = i + 1
        while j < len(lines) and lines[j].strip() and len(lines[j]) - len(lines[j].lstrip()) > ind and not DECL.match(lines[j]):
            sig += " " + lines[j].strip()
            j += 1
        fact = bool(re.search(r"(?:^|→)\s*Type\s+(?:0|ℓ|1)\s*$", re.sub(r"\s+where\s*$", "", sig.strip())))
        kind = ("type" if m.group(3) else "field" if inside and inside[1] == "record" and ind > inside[0] else "constructor" if inside and ind > inside[0] else "definition" if layer == "specs" else "lemma")
        for n in m.group(4).split():
            if n not in RESERVED:
                decl[n].append((p, layer, kind, fact))

src_names = set()
for p in RT:
    code = re.sub(r'"(?:[^"\\]|\\.)*"|//[^\n]*', " ", text[p])
    src_names |= set(re.findall(r"\b(?:fn|struct|enum|const|static|trait|type|mod)\s+(\w+)", code))

STD = set("length append map drop take set get_or reverse concat sum filter member zip eqb leb ltb cond not".split())
DEFS = {n for n, ds in decl.items() if any(d[1] == "specs" for d in ds)} | STD


def snake(n):
    n = re.sub(r"(?<=[a-z0-9'])(?=[A-Z])", "_", n)
    n = re.sub(r"(?<=[A-Z])(?=[A-Z][a-z])", "_", n)
    return n.lower()


def camel(n):
    return "".join(w[:1].upper() + w[1:] for w in re.split(r"[-_]", n) if w)


def new_name(n, ds):
    kinds = {d[2] for d in ds}
    if n in KEEPERS:
        return n
    lower = n[0].islower()
    odd = "-" in n or (lower and re.search(r"[a-z0-9'][A-Z]", n))
    if all(d[3] for d in ds) and not kinds & {"field", "constructor"}:
        if lower and odd and all(d[1] == "specs" for d in ds):
            return camel(n)
        if lower and not odd and all(d[1] == "specs" for d in ds):
            print(f"look: {n} is a fact in lower case ({ds[0][0]}): {camel(n)}, by hand")
        return n
    if not odd:
        return n
    if kinds <= {"lemma"} and not LEMMAS and "-" in n:
        return n
    if kinds <= {"lemma"} and "-" in n:
        return lemma_name(n)
    if n[0].isupper():
        # `All-append`, `IsX-y`: a fact keeps its capital
        head, *rest = n.split("-")
        parts = [head]
    else:
        head, *rest = n.split("-")
        parts = [snake(head)]
    for w in rest:
        s = w if w[:1].isupper() else snake(w)
        joined_to_name = kinds <= {"lemma"} and ((w in DEFS or s in DEFS) and len(w) > 2 or head[:1].isupper() and len(parts) == 1)
        parts.append(("-" if joined_to_name else "_") + s)
    return "".join(parts)


def lemma_name(n):
    """Segments that make a definition's name go together; a dash stands between two names, `_` before a plain word."""
    segs = [s if s[:1].isupper() else snake(s) for s in n.split("-")]
    parts, i = [], 0
    while i < len(segs):
        for j in range(len(segs), i, -1):
            w = "_".join(segs[i:j])
            if w in DEFS_NEW and (j - i > 1 or len(w) > 3):
                break
        else:
            j, w = i + 1, segs[i]
        parts.append(("_".join(segs[i:j]), w in DEFS_NEW and (j - i > 1 or len(w) > 3)))
        i = j
    out = parts[0][0]
    for k in range(1, len(parts)):
        out += ("-" if parts[k][1] and (parts[k - 1][1] or k == 1) or (k == 1 and parts[0][0][:1].isupper()) else "_") + parts[k][0]
    return out


DEFS_NEW = {snake(n).replace("-", "_") for n, ds in decl.items() if any(d[1] == "specs" and d[2] == "definition" for d in ds)} | STD | {n for n in decl if n[0].isupper() and "-" not in n}
names = {}
for n in sorted(decl):
    to = new_name(n, decl[n])
    if to != n:
        names[n] = to

# ---------------------------------------------------------------- names that fall together

TOKEN = re.compile(r"[^\W\d][\w'-]*")
tokens = {p: set(TOKEN.findall(t)) for p, t in text.items()}
by_new = collections.defaultdict(set)
for n, to in names.items():
    by_new[to].add(n)
dropped = set()
for to, olds in by_new.items():
    both = set(olds) | ({to} if to in decl else set())
    if len(both) > 1:
        # a lemma that would have its function's name gets `_lem`
        lem = {n for n in olds if {d[2] for d in decl[n]} <= {"lemma"} and "-" in n}
        if LEMMAS and len(lem) == 1 and all({d[2] for d in decl[n]} <= {"definition", "type"} for n in both - lem) and to + "_lem" not in decl:
            names[next(iter(lem))] = to + "_lem"
            both -= lem
            olds = set(olds) - lem
    if len(both) > 1:
        where = {n: {d[0] for d in decl[n]} for n in both}
        seen = [p for p in tokens if len(both & tokens[p]) > 1]
        if seen or len({tuple(sorted(v)) for v in where.values()}) < len(where):
            print(f"fall together: {', '.join(sorted(both))} -> {to}; both in {', '.join(seen[:3]) or 'one file'}: left as they are")
            dropped |= set(olds)
# a variable of a lemma or a clause, or a parameter of a function, would hide the new name
BARE = re.compile(r"(?<![\w'.-])[^\W\d][\w'-]*")
bare = {}
for p in ANTT:
    # without comments and paths; what a `use` line imports counts
    it = re.sub(r"(?m)^\s*--.*$", " ", text[p])
    bare[p] = set(BARE.findall(re.sub(r"\buse\s+[\w'.+-]+", " ", it)))
for p in RT:
    code = re.sub(r"//[^\n]*", "", text[p])
    bare[p] = set(re.findall(r"[(,]\s*(?:mut )?(\w+):", code))
for n in list(names):
    if n in dropped:
        continue
    to = names[n]
    for p in tokens:
        if n in tokens[p] and to in bare[p] and to not in decl:
            what = "a parameter has the new name" if p.endswith(".rt") else "the new name is used there already"
            print(f"hides: {n} -> {to} in {p}: {what}: left as it is")
            dropped.add(n)
            break
for n in dropped:
    names.pop(n, None)
for n in sorted(names):
    print(f"name: {n} -> {names[n]} ({decl[n][0][0]})")

# ---------------------------------------------------------------- renaming

FIELDS = {n for n in names if any(d[2] in ("field", "constructor") for d in decl[n])}


def realign(old, new):
    """Keeps the columns of a comment's table: the gap after a longer name gets shorter."""
    more = len(new) - len(old)
    m = re.match(r"^(--\s{2,}\S(?:\S| (?! ))*?)(\s{2,})(\S.*)$", new)
    if more > 0 and m and len(m.group(2)) - more >= 1:
        return m.group(1) + m.group(2)[more:] + m.group(3)
    return new


def antt(t, made=False):
    out = []
    for line in t.split("\n"):
        comment = line.lstrip().startswith("--")

        def sub(m):
            w = m.group(0)
            to = names.get(w)
            if to is None:
                return w
            before = line[:m.start()]
            if comment and "-" in w and not re.search(r"(`|^--\s{2,})$", before):
                return w
            if before.endswith("."):
                if re.search(r"(?<![\w'.-])(?:c|w|goal|l)\.$", before) and made:
                    return w                      # a step or a goal of Rattle's
                path = re.search(r"([\w'.+-]+)\.$", before)
                module = path and re.match(r"Rattle\.", path.group(1))
                if not module and w not in FIELDS and "-" in w:
                    return w
            return to
        new = TOKEN.sub(sub, line)
        out.append(realign(line, new) if comment else new)
    return "\n".join(out)


CLAUSE = re.compile(r"\b(requires|ensures|ghost|decreases|invariant)\b")


def rust(t):
    out, depth = [], 0
    for line in t.split("\n"):
        bare = line.lstrip()
        comment = bare.startswith("//")
        clause = depth > 0 or (not comment and re.match(r"(pub )?(requires|ensures|ghost)\b", bare))

        def sub(m):
            w = m.group(0)
            to = names.get(w)
            if to is None or (w in src_names):
                return w
            if "-" in w and not clause:
                return w
            s = line[:m.start()]
            if len(re.findall(r'(?<!\\)"', s)) % 2:
                return w                          # in a string
            return to
        new = TOKEN.sub(sub, line) if (clause or comment or True) else line
        if clause:
            depth = max(0, depth + line.count("{") - line.count("}"))
            if re.match(r"ghost use", bare):
                depth = 0
        out.append(new)
    return "\n".join(out)


changed = 0
for p in ANTT + RT:
    if ONLY and p.split("/")[1] != ONLY:
        continue
    new = rust(text[p]) if p.endswith(".rt") else antt(text[p], bool(MADE.search(p)))
    if new != before[p]:
        changed += 1
        if WRITE:
            open(p, "w", encoding="utf-8").write(new)
edits = 0
for p in files("crates/*/must-fail/*.edit"):
    if ONLY and p.split("/")[1] != ONLY:
        continue
    t = open(p, encoding="utf-8").read()
    out, file = [], ""
    for l in t.split("\n"):
        if l.startswith("file: "):
            file = l
        if l.startswith(("old: ", "new: ")):
            for was, be, where in BY_HAND:
                if file.endswith(".antt") and (where is None or re.search(where, p.split("/must-fail/")[0] + "/" + file[6:].strip())):
                    l = re.sub(r"(?<![\w'-])%s(?![\w'-])" % re.escape(was), be, l)
            for places, turned in CLAUSES:
                if file[6:].strip().endswith(".rt") and p.split("/")[1] + "/" + file[6:].strip() in places.split():
                    for was, be in turned.items():
                        l = re.sub(r"((?:requires|ensures)) %s (?=\{)" % was, r"\1 %s " % be, l)
            l = l[:5] + (antt(l[5:], bool(MADE.search(file))) if file.endswith(".antt") else TOKEN.sub(lambda m: names.get(m.group(0), m.group(0)) if "-" not in m.group(0) else m.group(0), l[5:]))
        out.append(l)
    new = "\n".join(out)
    if new != t:
        edits += 1
        if WRITE:
            open(p, "w", encoding="utf-8").write(new)
pages = 0
if DOCS:
    for p in files("*.md") + files("docs/**/*.md"):
        t = open(p, encoding="utf-8").read()
        new = re.sub(r"`([^`\n]+)`", lambda m: "`" + TOKEN.sub(lambda w: names.get(w.group(0), w.group(0)), m.group(1)) + "`", t)
        if new != t:
            pages += 1
            if WRITE:
                open(p, "w", encoding="utf-8").write(new)
    for p in files("tests/**/*") + files("script/**/*"):
        if os.path.isfile(p):
            hit = sorted(set(TOKEN.findall(open(p, encoding="utf-8", errors="replace").read())) & set(names))
            if hit:
                print(f"look: {p} names {', '.join(hit[:8])}")
print(f"{len(names)} names, {len(dropped)} left as they are; {changed} files, {edits} edits, {pages} pages" + ("" if WRITE else "; nothing written"))
