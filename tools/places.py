#!/usr/bin/env python3
"""Counts places in src/ that read like an older language: python3 tools/places.py [-v] [ROOT].

Prints a count for each kind of place, and with -v each place by file and line. It goes by text, in the layout of
`rt fmt`, so what it counts is a place to look at and not yet one to change.
"""
import collections
import glob
import os
import re
import sys

VERBOSE = "-v" in sys.argv
ARGUMENTS = [argument for argument in sys.argv[1:] if argument != "-v"]
ROOT = ARGUMENTS[0] if ARGUMENTS else "."
KEYWORDS = set(
    "as break const continue crate else enum false fn for if impl in let loop match mod move mut pub ref return "
    "self Self static struct super trait true type use where while Ok Err Some None".split()
)


def sources():
    for path in sorted(glob.glob(os.path.join(ROOT, "crates/*/src/**/*.rt"), recursive=True)):
        yield os.path.relpath(path, ROOT), open(path, encoding="utf-8").read().split("\n")


class Function:
    """A function: where it stands, its parameters, its clauses and the text of its body."""

    def __init__(self, path, line, name, head, body):
        self.place = f"{path}:{line} {name}"
        self.name = name
        self.clauses = re.findall(r"(?:requires|ensures)(?: \w+)? \{ (.*) \}$", head, re.M)
        signature = re.split(r"\n\s*(?:requires|ensures)\b", head)[0]
        between = re.search(r"\((.*)\)", signature, re.S)
        self.parameters = []
        if between:
            for part in re.split(r",(?![^<(\[]*[>)\]])", " ".join(between.group(1).split())):
                name, colon, kind = part.partition(":")
                if colon:
                    kind = re.sub(r"'\w+ ?", "", kind.strip()).replace("&mut ", "&")
                    self.parameters.append((name.strip().replace("mut ", ""), kind))
        self.body = body


def functions():
    for path, lines in sources():
        at = 0
        while at < len(lines):
            found = re.match(r"(\s*)(?:pub(?:\(\w+\))? )?(?:const )?fn (\w+)", lines[at])
            if not found:
                at += 1
                continue
            indent, name = found.groups()
            end = at
            while not (lines[end].endswith("{") and not re.match(r"\s*(requires|ensures)", lines[end])) \
                    and not lines[end].endswith(";") and not lines[end].endswith("{}"):
                end += 1
            close = end
            if lines[end].endswith("{"):
                while lines[close] != indent + "}":
                    close += 1
            yield Function(path, at + 1, name, "\n".join(lines[at:end + 1]), "\n".join(lines[end + 1:close]))
            at = close + 1


def lines_matching(pattern, leave_out=None):
    for path, lines in sources():
        for number, line in enumerate(lines, 1):
            if re.search(pattern, line) and not line.lstrip().startswith("//") and not line.startswith("ghost use"):
                if not (leave_out and re.search(leave_out, line)):
                    yield f"{path}:{number} {line.strip()}"


def shape(text):
    """The text with each name and number replaced by the order in which it comes first."""
    seen = {}
    out = []
    for token in re.findall(r"[A-Za-z_]\w*|\d[\w.]*|\S", re.sub(r"//.*", "", text)):
        if re.match(r"[A-Za-z_0-9]", token) and token not in KEYWORDS:
            token = seen.setdefault(token, f"#{len(seen)}")
        out.append(token)
    return tuple(out)


def twins():
    by_shape = collections.defaultdict(list)
    for function in functions():
        form = shape(function.body)
        if len(form) >= 24:
            by_shape[form].append(function.place)
    for path, lines in sources():
        for at, line in enumerate(lines):
            if re.match(r"(pub(\(\w+\))? )?(struct|enum) \w+.*\{$", line):
                close = at
                while lines[close] != "}":
                    close += 1
                body = "\n".join(l for l in lines[at + 1:close] if "ghost" not in l)
                form = shape(re.sub(r"pub(\(\w+\))? ", "", body))
                if len(form) >= 8:
                    by_shape[form].append(f"{path}:{at + 1} {line.strip(' {')}")
    return [" = ".join(places) for places in by_shape.values() if len(places) > 1]


def facts():
    by_fact = collections.defaultdict(list)
    for function in functions():
        for clause in set(function.clauses):
            by_fact[(function.place.split("/")[1], clause)].append(function.name)
    return [f"{len(names)} in {crate}: {clause}" for (crate, clause), names in by_fact.items() if len(names) >= 3]


def companions():
    by_pair = collections.defaultdict(list)
    for function in functions():
        parameters = sorted(set(function.parameters))
        for at, one in enumerate(parameters):
            for other in parameters[at + 1:]:
                by_pair[(function.place.split("/")[1], one, other)].append(function.name)
    return [f"{len(names)} in {crate}: {one[0]}: {one[1]} and {other[0]}: {other[1]}"
            for (crate, one, other), names in by_pair.items() if len(names) >= 3]


def proofs():
    answers, lemmas = [], []
    for path in sorted(glob.glob(os.path.join(ROOT, "crates/*/proofs/**/*.antt"), recursive=True)):
        text = open(path, encoding="utf-8").read()
        given = len(re.findall(r"^(?:abbrev )?pub [\w'-]+ :.*goal\.", text, re.M))
        place = os.path.relpath(path, ROOT)
        if "goal" in text:
            answers += [place] * max(given, 1)
        elif os.path.basename(path) != "Lib.antt":
            lemmas += [place] * len(re.findall(r"^(?:abbrev )?(?:pub )?[\w'-]+ : ", text, re.M))
    return answers, lemmas


ANSWERS, LEMMAS = proofs()
KINDS = [
    ("1a numbers for kinds or refusals", list(lines_matching(r"\b(opening|kind|number|status|quality): u8\b|-> u8$|-> u8 \{"))),
    ("1b an arm that turns one Option or Result into another",
     list(lines_matching(r"^\s*(Ok\(\w*\)|Some\(\w+\)|Err\(\w+\)|None) => (return )?(Ok|Err|Some|None|true|false)\b"))),
    ("1c a change whose outcome is a flag", list(lines_matching(r"fn \w+.*&mut self.*-> bool"))),
    ("1d own enums", list(lines_matching(r"^(pub(\(\w+\))? )?enum \w+"))),
    ("2 twins by shape", twins()),
    ("3a loops that count an index or fuel", list(lines_matching(r"\bwhile\b.*[<>]|for \w+ in \d+\.\.|for _ in \d+\.\.|\bloop \{"))),
    ("3b counters", list(lines_matching(r"\+= 1;|= \w+\.saturating_add\(1\);"))),
    ("4a conversions and kinds by hand", list(lines_matching(r"fn (from_octet|octet|letter|number|name|named|reception_code|move_code|tick_code|invocation_code|length_octets|digit|digit_value)\(", r"^\s*fn number\(&"))),
    ("4b equality and order by hand", list(lines_matching(r"fn (same|same_block|compare|compare_numbers|is_before|is_active|is_closed)\("))),
    ("4c defaults by hand", list(lines_matching(r"fn (none|blank|hollow|zero|new)\(\) -> "))),
    ("4d text by hand", list(lines_matching(r"fn \w+_text\(|fn say_\w+[<(]"))),
    ("5a facts in three or more contracts of a crate", facts()),
    ("5b parameters together in three or more functions of a crate", companions()),
    ("6 an array, a slice or a Vec with a number beside it",
     list(lines_matching(r"^\s+(pub(\(\w+\))? )?\w+: (&'\w+ (mut )?)?(\[\w+(; \w+)?\]|Vec<\w+>),"))),
    ("7 a kind that is passed to choose a step, or a trait for one call",
     list(lines_matching(r"\b(class|depth): \w+|^(pub )?trait (Player|Watcher)|Pile::\w+ => \w+\("))),
    ("8a answers", ANSWERS),
    ("8b lemmas in proofs/", LEMMAS),
]
for title, places in KINDS:
    print(f"{len(places):5}  {title}")
    if VERBOSE:
        for place in places:
            print(f"         {place}")
