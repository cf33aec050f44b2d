#!/usr/bin/env python3
"""Brings the names of this repository's definitions and lemmas to snake case, as today's Rattle spells words.

usage: tools/respell.py          in the repository, once, after port.py
       tools/respell.py --list   prints the table, old and new, and writes nothing

A name is one that a file of specs/ or proofs/ declares: a definition, a lemma, a field or a constructor. Types and modules keep their
spelling, and so do names that are not the repository's own, functions of src/ and what Rattle makes of them. Proof.antt files declare
none: their names are Rattle's, or stay in their file.
"""

import collections
import os
import re
import sys

WORD = r"[^\s(){}.;,@\"«»`]+"
MARKS = r"(?:(?:pub|abbrev|unfoldable)\s+)*"
DECLARED = re.compile(rf"^\s*{MARKS}({WORD}(?:\s+{WORD})*)\s+:(?=\s)", re.M)
QUIET = re.compile(r"\{-.*?-\}|(?<![^\s(){}.;,@])--[^\n]*", re.S)
USE = re.compile(r"^(?:ghost |pub )*use ([\w.'·-]+)\.\{([^}]*)\}", re.M)


# Lemmas that would have their function's name, and what else would fall together with another name.
LEMMAS = """all-allowed all-taken digest-size enter-all first-no first-votes hand-journal hand-leaders heard-mask held-id id-member id-round
    is-parent join-round journal-at last-place leader-id made-record made-records mask-of ordered-id own-member parents-in put-vertex
    refused-with round-of signing-round so-far-in state-size up-to vertex-of vertex-taken votes-mask weak-parent without-leader
    well-formed all_made no_record""".split()
APART = {name: name.replace("-", "_") + "_lem" for name in LEMMAS} | {
    "with-weak": "record_with", "oneRecord": "is_one_record", "oneVertex": "is_one_vertex", "body-size": "body_long", "terms-of": "terms_are",
    "is-parent": "is_a_parent", "state-size": "state_long"}
# Of these names one is a field of the premises and one a lemma: here it is the field.
FIELDS = {"well-formed": ("crates/protocol/", "crates/agreement/proofs/Family.antt")}


def files(root, ends):
    for folder, dirs, names in os.walk(root):
        dirs[:] = sorted(d for d in dirs if d not in ("out", "target", ".git"))
        for name in sorted(names):
            if name.endswith(ends):
                yield os.path.join(folder, name)


def read(path):
    with open(path, encoding="utf-8") as f:
        return f.read()


def snake(name):
    name = re.sub(r"(?<=[a-z0-9])([A-Z])", lambda m: "_" + m[1].lower(), name)
    return name.replace("-", "_")


def declared(text):
    for found in DECLARED.finditer(QUIET.sub("", text)):
        for name in found[1].split():
            yield name


def table():
    own, foreign = set(), set()
    crates = set(os.listdir("crates"))
    for path in files("crates", ".antt"):
        text = read(path)
        if os.path.basename(path) != "Proof.antt":
            own |= set(declared(text))
        for module, names in USE.findall(text):
            if not (module.startswith("Rattle.") and module.split(".")[1] in crates):
                foreign |= {n.split(" as ")[0].strip() for n in names.split(",")}
    turned = dict(APART)
    for name in sorted(own - foreign):
        if name not in turned and re.fullmatch(r"[a-z][\w'₀-₉-]*", name) and snake(name) != name and not re.fullmatch(r"\w+-\d+", name):
            turned[name] = snake(name)
    both = [n for n in own & foreign if snake(n) != n and n[0].islower()]
    return turned, own, both


def turn_words(text, rows, dashes=True):
    def one(m):
        if m[0] not in rows or ("-" in m[0] and not dashes):
            return m[0]
        # Behind a dot a word of a Proof.antt may be a step, which has its function's name.
        if rows.steps and m[0] in APART and text[m.start() - 1:m.start()] == "." and (m[0] != "terms-of" or text[m.end():m.end() + 1] == "."):
            return snake(m[0])
        return rows[m[0]]

    return re.sub(WORD, one, text)


class Rows(dict):
    steps = False


def rows_of(rows, path):
    here = Rows(rows)
    here.steps = os.path.basename(path) == "Proof.antt"
    for name, places in FIELDS.items():
        if path.startswith(places):
            here[name] = snake(name)
    return here


def turn_prose(text, rows):
    """Names in code spans, and outside them those with no dash."""
    parts = re.split(r"(`[^`\n]*`)", text)
    return "".join(turn_words(p, rows, dashes=i % 2 == 1) for i, p in enumerate(parts))


def turn_code(text, rows, comment):
    out, last = [], 0
    for found in comment.finditer(text):
        out += [turn_words(text[last:found.start()], rows), turn_prose(found[0], rows)]
        last = found.end()
    return "".join(out) + turn_words(text[last:], rows)


def main(argv):
    rows, own, both = table()
    together = collections.defaultdict(set)
    for name in own | set(rows):
        together[rows.get(name, name)].add(name)
    clash = {new: names for new, names in together.items() if len(names) > 1}
    if argv == ["--list"]:
        for old, new in rows.items():
            print(f"{old}\t{new}")
        print("together:", clash, "\nnot turned, since a library has the name:", both, file=sys.stderr)
        return 0
    for path in files("crates", (".antt", ".rt", ".edit")):
        text = read(path)
        comment = QUIET if path.endswith(".antt") else re.compile(r"//[^\n]*") if path.endswith(".rt") else re.compile(r"^#[^\n]*", re.M)
        new = turn_code(text, rows_of(rows, path), comment)
        if new != text:
            with open(path, "w", encoding="utf-8") as f:
                f.write(new)
    for path in ["README.md", *files("docs", ".md")]:
        text = read(path)
        new = turn_prose(text, rows_of(rows, path))
        if new != text and not path.startswith(os.path.join("docs", "changes")):
            with open(path, "w", encoding="utf-8") as f:
                f.write(new)
    return 0


if __name__ == "__main__":
    raise SystemExit(main(sys.argv[1:]))
