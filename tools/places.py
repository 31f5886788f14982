"""Lists the places in crates/*/src that docs/DESIGN-PASS.md counts, a line each, and how many there are for each pattern:
`python3 tools/places.py [-q] [COMMIT]`, at the top of the checkout; without a commit, the files as they are. `-q`: counts alone."""
import re
import subprocess
import sys

ARMS = r"Refused|Nothing|NotYet|Absent|Over|Broken|Bad|DividesNot"
# Each pattern: the point of the issue, what is looked for, and how it is found in the text of a file.
PATTERNS = [
    ("1", "enums with a case for a refusal or for nothing", rf"enum \w+ \{{[^}}]*\n    (?:{ARMS})(?:\(\w+\))?,[^}}]*\}}"),
    ("1", "structs of a value and a flag or an answer that says whether it counts",
     r"struct \w+ \{[^}]*\n    (?:pub )?(?:answer|against|coming|more|is_number|push): [^}]*\}"),
    ("1", "numbers for kinds and refusals, as constants", r"(?m)^pub const (?!ROOM)[A-Z_0-9]+: u32 = .*;$"),
    ("2", "functions of which another differs in a type, a row, a sort or a limit alone",
     r"fn (?:one|two|three|draw|push|release|read_within|read_below|place_of|no_counts|no_ends|no_part|no_field|refuse|counts_length"
     r"|fields_length|part_length|parts_length|write_counts|write_fields|write_part|write_parts|is_contact|is_of_button|same_counts"
     r"|same_fields|same_part|same_parts|same_row|put_event|put_closing|take_text|in_comment|add_digit|read_text|typed_sets|handed_kept"
     r"|byte_at|handed_part|handed_counts|handed_start|handed_board|words|counted|read_refusal|call_refusal|bad_text)\b"),
    ("3", "`while` and `loop`", r"(?m)^ *(?:'\w+: )?(?:while|loop)\b.*\{$"),
    ("3", "`for` over numbers that are only an index", r"(?m)^ *for \w+ in [^{]*\.\.[^{]*\{$"),
    ("4", "`bits::wide(..)`: a byte as a u32", r"bits::wide\("),
    ("4", "`as` to a type that has `From`", r"\b\w[\w.]*(?:\[\w+\])? as u(?:32|64|size)\b"),
    ("4", "equality by hand: a test that returns false", r"if [^\n]* != [^\n]* \{\n *return false;"),
    ("4", "`if a { b } else { false }`, `if a { true } else { b }`, `if a { return false; }`",
     r"\{\n? *(?:false|true)\n? *\} else \{|\} else \{\n? *(?:false|true)\n? *\}|if [^\n]* \{\n *return (?:false|true);"),
    ("4", "match arms of one kind each that say `true`, `false` or the same as the next", r"(?m)^ *Kind::\w+(?:\(\w+\))? => (?:true|false|next),$"),
    ("5", "a `requires` that stands in three contracts or more", None),
    ("6", "parameters `count`, `at` or `used` beside a buffer or an array", r"fn \w+(?:<[^>]*>)?\([^)]*(?:\[Part; 256\]|&mut \[u8\]|&\[u8\])[^)]*\b(?:count|used|read): usize"),
    ("6", "clamps of a count to what an array holds", r"MOST_\w+ <=? (?:count|i|x|relay|terminals)\b|PLACES <=? "),
    ("7", "tests handed in as a `bool` that the callee goes by", r"\b(?:joins|conducting|here|settable|short): bool"),
]


def sources(commit):
    if commit:
        names = subprocess.run(["git", "ls-tree", "-r", "--name-only", commit, "crates"], check=True, capture_output=True, text=True).stdout
        for name in names.split("\n"):
            if "/src/" in name and name.endswith(".rt"):
                yield name, subprocess.run(["git", "show", f"{commit}:{name}"], check=True, capture_output=True, text=True).stdout
    else:
        names = subprocess.run(["git", "ls-files", "crates"], check=True, capture_output=True, text=True).stdout
        for name in names.split("\n"):
            if "/src/" in name and name.endswith(".rt"):
                with open(name, encoding="utf-8") as file:
                    yield name, file.read()


def repeated(texts):
    """Each `requires` that stands in three contracts of a crate or more, with what it is called left out."""
    found = {}
    for name, text in texts:
        for place in re.finditer(r"requires (?:\w+ )?\{ (.*) \}", text):
            fact = re.sub(r"\.(?:old|now)\b", "", place.group(1))
            fact = re.sub(r"length (?:near|bare) ", "length row ", fact)
            found.setdefault((name.split("/")[1], fact), []).append((name, text.count("\n", 0, place.start()) + 1, place.group(0)))
    return [place for places in found.values() if len(places) >= 3 for place in places]


words = [word for word in sys.argv[1:] if word != "-q"]
texts = list(sources(words[0] if words else None))
for point, what, pattern in PATTERNS:
    if pattern is None:
        places = repeated(texts)
    else:
        places = [(name, text.count("\n", 0, place.start()) + 1, place.group(0).split("\n")[0].strip())
                  for name, text in texts for place in re.finditer(pattern, text)]
    if "-q" not in sys.argv:
        for name, line, text in places:
            print(f"{point}\t{name}:{line}\t{text}")
    print(f"point {point}: {len(places)} {what}")
