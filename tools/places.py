#!/usr/bin/env python3
"""Lists the places in crates/*/src that an older Rattle wrote by hand and today's has a form for.

    python3 tools/places.py [--count] [FOLDER]

One list for each kind of place; --count prints only how many there are. It goes by text, so that each line is a place to
look at and not a verdict. docs/DESIGN-PASS.md says what became of each.
"""
import re
import sys
from itertools import combinations
from pathlib import Path

words = [w for w in sys.argv[1:] if w != "--count"]
top = Path(words[0] if words else ".")
only_count = "--count" in sys.argv

sources = sorted(top.glob("crates/*/src/**/*.rt"))


class Function:
    """A function of a source file: its head (with its clauses) and its body."""

    def __init__(self, path, line, name, head, body):
        self.crate = path.relative_to(top).parts[1]
        self.where = f"{path.relative_to(top)}:{line}"
        self.name, self.head, self.body = name, head, body
        signature = re.split(r" requires | ensures ", head.replace("pub(crate) ", ""))[0]
        params = re.search(r"\((.*?)\)\s*(?:->|where|$)", signature, re.S)
        listed = params.group(1) if params else ""
        self.params = [p.split(":")[0].replace("mut ", "").strip() for p in re.split(r",(?![^<(\[]*[>)\]])", listed) if ":" in p]
        self.requires = re.findall(r"requires(?: \w+)? \{ (.*?) \}(?= ensures| requires|$)", head)


def functions(path):
    lines = path.read_text().split("\n")
    found = []
    for start, text in enumerate(lines):
        match = re.match(r"(\s*)(?:pub(?:\(crate\))? )?fn (\w+)", text)
        if not match:
            continue
        indent = match.group(1)
        opening = start
        while opening < len(lines) - 1 and not lines[opening].endswith(";") and lines[opening] != indent + "{" and not re.search(r"(\)|>|\w) \{$", lines[opening]):
            opening += 1
        if lines[opening].endswith(";"):
            continue
        end = opening
        while end < len(lines) - 1 and lines[end] != indent + "}":
            end += 1
        head = re.sub(r"\s+", " ", " ".join(lines[start:opening + 1])).rstrip("{ ")
        found.append(Function(path, start + 1, match.group(2), head, "\n".join(lines[opening + 1:end])))
    return found


every = [f for path in sources for f in functions(path)]
plain = [f for f in every if "tests.rt" not in f.where]


def show(title, rows):
    print(f"{title}: {len(rows)}")
    if not only_count:
        for row in rows:
            print(f"    {row}")


def matching(pattern, skip=r"^\s*//|ghost "):
    rows = []
    for path in sources:
        for number, text in enumerate(path.read_text().split("\n"), 1):
            if re.search(pattern, text) and not re.search(skip, text) and "tests.rt" not in str(path):
                rows.append(f"{path.relative_to(top)}:{number}: {text.strip()}")
    return rows


def shape(body):
    """A body with its names and numbers taken out."""
    return re.sub(r"\s+", " ", re.sub(r"\b[A-Za-z_]\w*\b|\d[\d_]*|\"[^\"]*\"|b?'[^']*'", "x", body))


show("1a enums of one's own (look for the shape of an Option or a Result)", matching(r"^(pub(\(crate\))? )?enum \w+"))
show("1b flags beside values (a field or variable that is a bool)", matching(r"^\s+(pub(\(\w+\))? )?\w+: bool,$|let mut \w+ = (true|false);"))
show("1c numbers of kinds and refusals, by a match", [f"{f.where}: {f.name}" for f in plain if len(re.findall(r"=> \d+,", f.body)) >= 1 and re.search(r"-> (u8|usize)", f.head)])

by_shape = {}
for f in plain:
    if f.body.count("\n") >= 1:
        by_shape.setdefault(shape(f.body), []).append(f)
show("2 twins (bodies of two lines and more with one shape)", [", ".join(f"{f.where} {f.name}" for f in fs) for fs in by_shape.values() if len(fs) > 1])

show("3 loops that count by hand", matching(r"\bwhile |\bloop \{|for \w+ in [^{]*\.\.|\.enumerate\(\)|\b\w+ \+= 1;"))

by_hand = r"^(number|new|of|read|spells|alike|prefers\w*|lesser|preference|comparison_number|entry|meant)$|_(text|words|number)$"
show("4 comparing, converting and printing in functions of one's own", [f"{f.where}: {f.name}" for f in plain if re.search(by_hand, f.name)])

repeated, together = [], []
for crate in sorted({f.crate for f in plain}):
    inside = [f for f in plain if f.crate == crate]
    clauses, groups = {}, {}
    for f in inside:
        for clause in f.requires:
            clauses.setdefault(clause, []).append(f.name)
        for pair in combinations(f.params, 2):
            groups.setdefault(pair, []).append(f.name)
    repeated += [f"{crate}: {clause}: {', '.join(names)}" for clause, names in clauses.items() if len(names) >= 3]
    together += [f"{crate}: {', '.join(pair)}: {', '.join(names)}" for pair, names in groups.items() if len(names) >= 3]
show("5a facts that three contracts and more require", repeated)
show("5b parameters that travel together through three functions and more", together)

show("6 buffers of fixed length, parallel arrays, references to a Vec, a String or an Option of one", matching(r": \[\w+; \w+\]|-> \[\w+; \w+\]|\[[^\]]*; (512|STATES)\]|&(Vec<|String\b|Option<Vec)|: Vec<"))

switches = []
for f in plain:
    arms = re.findall(r"=> (?:self\.)?(\w+)\(", f.body)
    own = {g.name for g in plain if g.crate == f.crate}
    called = [a for a in arms if a in own]
    if len(called) >= 2:
        switches.append(f"{f.where}: {f.name} ({', '.join(called)})")
show("7 switches on which function to run", switches)

proofs = sorted(top.glob("crates/*/proofs/**/*.antt"))
answers = [p for p in proofs if p.name == "Answers.antt"]
lemmas = [p for p in proofs if p.name not in ("Answers.antt", "Invariants.antt", "Proof.antt", "Lib.antt")]
print(f"8 proofs: {len(answers)} files of answers with {sum(len(re.findall(r'^(abbrev )?pub ', p.read_text(), re.M)) for p in answers)} answers, "
      f"{len(lemmas)} files of lemmas, {sum(p.read_text().count(chr(10)) for p in proofs)} lines in all")
