#!/usr/bin/env python3
"""Brings this repository's own definitions and lemmas to one spelling: words in snake case, types and facts in upper camel case.

usage: python3 tools/respell.py      once, at the top, on what port.py of kit rattle-kit-13f left

It renames what specs/ and proofs/ define (definitions, lemmas, fields of records, constructors) and the names that a `use` gives by `as`,
wherever they stand in .antt files, in clauses of .rt files and in must-fail edits. Functions, types and fields of src/, strings, comments of
the code, inputs and outputs keep theirs. Two names that would fall together are told apart by the table below.
It also takes apart the `use` lines of specs/ that name several modules at once, as `use lib.{Dec.leb, ListN.length}`, which port.py
leaves, and writes the library's words of today for those that these lines bring in.
"""

import os
import re

# Names that would fall together with another of this repository, and what they are called instead.
APART = {
    "octets-of": "octets_typed",
    "quality-octet": "quality_octet_lem",
    "status-octet": "status_octet_lem",
    "stamp-if-length": "stamp_if_length_lem",
    "records-from": "records_from_lem",
    "requested-quality-octet": "requested_quality_octet_lem",
    "reason-octet": "reason_octet_lem",
    "handed_out": "handed_out_lem",
    "longest-data": "longest_data_lem",
    "data-beyond": "data_beyond_lem",
    "no-data": "no_data_lem",
    "in-range": "in_range_lem",
    "records-of": "buffer_records",
    "selection-of": "held_selection",
    "accountOf": "account_of_events",
    "by-fault": "by_fault_lem",
    "by-reading": "by_reading_lem",
    "handed-over": "handed_over_lem",
    "protocol-error": "cell_protocol_error",
}
# Names that the library has too, and some files import from there.
LIBRARY = {"and-false"}
# The same, where the name is also one that the toolchain makes from a function: only in these crates.
APART_IN = {"histories": {"is-active": "when_active", "is-ready": "when_ready", "not-active": "when_not_active"}}

# What the names of the old library that such lines bring in are now: the module, and the word.
PRELUDE = "Rattle.std.specs.Prelude"
NOW = {
    "Rattle.std.specs.shelf.Lists.joined": ("Rattle.std.specs.List", "flat_map"),
    "Rattle.std.specs.shelf.Lists.kept_by": ("Rattle.std.specs.List", "filter"),
    "Rattle.std.specs.shelf.Lists.kept-by": ("Rattle.std.specs.List", "filter"),
    "Rattle.std.specs.shelf.Lists.All": ("Rattle.std.specs.List", "AllByRecursion as All"),
    "Rattle.std.specs.shelf.Text.sameBytes": ("Rattle.std.specs.Str", "bytes_eq"),
    "lib.Dec.leb": (PRELUDE, "nat_le"),
    "lib.Dec.ltb": (PRELUDE, "nat_lt"),
    "lib.Dec.eqb": (PRELUDE, "◌==◌"),
}
BODY = {"joined": "flat_map", "kept_by": "filter", "kept-by": "filter", "sameBytes": "bytes_eq", "leb": "nat_le", "ltb": "nat_lt"}

WORD = re.compile(r"(?<![\w'«-])[A-Za-z_][\w'-]*")
DEFINED = re.compile(r"^\s*(?:(?:pub|abbrev|unfoldable|record|data) )*([A-Za-z_][\w'-]*) (?::|\{|\()")
SEVERAL = re.compile(r"^  ([a-z][\w'-]*(?: [a-z][\w'-]*)+) : ")
ALIAS = re.compile(r"(?<=\bas )[a-z][\w'-]*")


def spelled(name):
    if name in APART:
        return APART[name]
    if name[0].isupper():
        return "".join(w[:1].upper() + w[1:] for w in name.split("-"))
    return re.sub(r"([a-z0-9])([A-Z])", lambda m: m[1] + "_" + m[2].lower(), name).replace("-", "_")


def texts():
    for folder, dirs, files in os.walk("crates"):
        dirs[:] = sorted(d for d in dirs if d != "out")
        for f in sorted(files):
            if f.endswith((".antt", ".rt", ".edit")):
                path = os.path.join(folder, f)
                with open(path, encoding="utf-8") as it:
                    yield path, it.read()


def defined():
    """Every name that this repository's .antt files define, and each that a `use` line gives by `as`."""
    names = set()
    for path, text in texts():
        for line in text.splitlines():
            if re.match(r"\s*(ghost )?use ", line):
                names |= set(ALIAS.findall(line))
            elif path.endswith(".antt") and " : " in line and ": goal." not in line:
                if m := DEFINED.match(line):
                    names.add(m[1])
                elif m := SEVERAL.match(line):
                    names |= set(m[1].split())
    return {n for n in names if spelled(n) != n and n not in LIBRARY}


def pieces(path, text):
    """The text in pieces, each with whether names in it are to be renamed: not in comments and strings of the code."""
    if not path.endswith(".rt"):
        yield True, text
        return
    last = 0
    for m in re.finditer(r'//[^\n]*|b?"(?:\\.|[^"\\])*"', text):
        yield True, text[last : m.start()]
        yield False, m[0]
        last = m.end()
    yield True, text[last:]


def respell(path, text, names):
    own = APART_IN.get(path.split(os.sep)[1], {})

    def word(m):
        n = m[0]
        if n in own:
            return own[n]
        return spelled(n) if n in names else n

    def line(l):
        if path.endswith(".antt") and re.match(r"\s*--", l):
            # of a comment only what cannot be an ordinary word of English
            return re.sub(r"(?<![\w'-])[a-z]+[A-Z]\w*", word, l)
        if path.endswith(".edit") and not l.startswith(("old: ", "new: ")):
            return l
        if path.endswith(".edit"):
            return l[:5] + WORD.sub(word, l[5:])
        return WORD.sub(word, l)

    return "".join("\n".join(line(l) for l in t.split("\n")) if turned else t for turned, t in pieces(path, text))


GROUPED = re.compile(r"^use ([\w.]+)\.\{(.*)\}$")


def flattened(path, text):
    """The text with its grouped imports as one line for each module, and the words that they brought in as they are now."""
    lines = text.split("\n")
    grouped = [m for l in lines if (m := GROUPED.match(l)) and re.search(r"[\w]\.", m[2])]
    if not grouped or "/specs/" not in path:
        return text
    modules, out, old = {}, [], set()
    at = None
    for l in lines:
        m = GROUPED.match(l)
        if not m:
            out.append(l)
            continue
        if at is None:
            at = len(out)
        for item in m[2].split(", "):
            full = f"{m[1]}.{item}"
            module, word = full.rsplit(".", 1)
            old.add(word)
            if full in NOW:
                module, word = NOW[full]
            elif module.startswith(("mathlib.Core", "lib.")) or module.startswith(("Rattle.std.specs.declared.option", "Rattle.std.specs.declared.result")):
                module = PRELUDE
            names = modules.setdefault(module, [])
            if word not in names:
                names.append(word)
    order = sorted(modules, key=lambda k: (k != PRELUDE, not k.startswith("Rattle.std"), list(modules).index(k)))
    out[at:at] = [f"use {k}.{{{', '.join(modules[k])}}}" for k in order]

    def body(l):
        if l.startswith("use ") or re.match(r"\s*--", l):
            return l
        l = WORD.sub(lambda m: BODY.get(m[0], m[0]) if m[0] in old else m[0], l)
        if "eqb" in old:
            atom = r"(\((?:[^()]|\([^()]*\))*\)|[\w.']+)"
            l = re.sub(r"\(eqb " + atom + " " + atom + r"\)", r"(\1 == \2)", l)
            l = re.sub(r"\beqb " + atom + " " + atom, r"(\1 == \2)", l)
            l = re.sub(r"= \(([^()]*(?:\([^()]*\))?[^()]*)\)$", lambda m: f"= {m[1]}" if " == " in m[1] else m[0], l)
        return l

    return "\n".join(body(l) for l in out)


def main():
    names = defined() - {n for table in APART_IN.values() for n in table}
    new = {}
    for n in sorted(names):
        new.setdefault(spelled(n), []).append(n)
    for s, olds in new.items():
        if len(olds) > 1:
            print(f"respell: {', '.join(olds)} all become {s}")
    changed = 0
    for path, text in texts():
        turned = flattened(path, respell(path, text, names))
        if turned != text:
            with open(path, "w", encoding="utf-8") as it:
                it.write(turned)
            changed += 1
    print(f"respell: {len(names)} names, {changed} files")


main()
