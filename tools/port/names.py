#!/usr/bin/env python3
"""Spells the repository's own names in specs/ and proofs/ as today's Rattle does: words in snake case.

Usage: tools/port/names.py          once, at the top, after the kit's port.py
       tools/port/names.py --list   writes the old and new names and changes nothing

Definitions, lemmas, fields of records and constructors that were in camel case or had hyphens get
underscores; types, modules and facts keep their capitals, and so do the standard's own names (A, B,
C, SHIFT, FNC, CODE, START). Names of libraries, of Rattle's own goals and of src/ stay. Where two
names would fall together, GIVEN has another one; the script stops if two still do.
"""
import collections
import os
import re
import sys

NAME = r"[^\s(){}.;,@\"«»`]+"
DECLARED = re.compile(r"^( *)((?:pub |abbrev |unfoldable )*)(" + NAME + r")((?: \{[^{}\n]*\})*) :(?:\s|$)")
CAMEL = re.compile(r"^[a-zà-ž◌][^\s]*[a-z0-9ŹźŻżŽ][A-Z]")
WORD = re.compile(NAME)

# Names that would fall together with another.
GIVEN = {
    "isSHIFT": "is_shift_symbol",
}


def snake(name):
    """A name in snake case."""
    if name in GIVEN:
        return GIVEN[name]
    name = re.sub(r"(?<=[a-z0-9])([A-Z]+)", lambda m: "_" + m.group(1).lower(), name)
    return name.replace("-", "_")


def files():
    for folder, inner, names in os.walk("crates"):
        inner[:] = sorted(i for i in inner if i != "out")
        for name in sorted(names):
            if name.endswith((".antt", ".rt", ".edit")):
                yield os.path.join(folder, name)


def walked(path):
    """Is the file the proof of one function, whose names are mostly Rattle's own?"""
    return os.path.basename(path) in ("Proof.antt", "Answers.antt", "Invariants.antt")


def declared():
    """The names that specs/ and the lemma files declare, each with its files."""
    found = collections.defaultdict(set)
    for path in files():
        if path.endswith(".antt") and not walked(path):
            for line in open(path, encoding="utf-8"):
                match = DECLARED.match(line)
                if match and not line.lstrip().startswith("--"):
                    found[match.group(3)].add(path)
    return found


def local(path):
    """Names that a function's proof file declares for itself."""
    return {m.group(3) for m in map(DECLARED.match, open(path, encoding="utf-8")) if m}


def imported(text):
    """Names that a text imports from a library, which stay."""
    names = set()
    for match in re.finditer(r"\buse ((?!Rattle\.(?!std\.|core\.|std_))\S+?)\.\{([^}]*)\}", text):
        names |= {part.split(" as ")[0].strip() for part in match.group(2).split(",")}
    return names


def table():
    """Old and new names. A lemma that would have a definition's name, and stands in a file with it,
    gets `_lem` at its end."""
    own = declared()
    names = {n: snake(n) for n in own if (("-" in n and n[0] != "◌") or CAMEL.match(n)) and snake(n) != n}
    words = {p: set(WORD.findall(open(p, encoding="utf-8").read())) for p in files() if p.endswith(".antt")}
    by_new = collections.defaultdict(set)
    for old in own:
        by_new[names.get(old, old)].add(old)
    for new, olds in by_new.items():
        if len(olds) < 2:
            continue
        where = {o: {p for p in words if o in words[p]} for o in olds}
        first = next((o for o in sorted(olds) if CAMEL.match(o)), None) or next(o for o in sorted(olds) if "-" not in o)
        for lemma in olds - {first}:
            if where[lemma] & where[first]:
                names[lemma] = new + "_lem"
                print(f"look: {lemma} becomes {names[lemma]}, since {first} becomes {new}")
            else:
                print(f"look: {lemma} and {first} both become {new}, in different files")
    return names


def turned(path, text, names):
    """A file's text with the names turned, and the pairs that were met."""
    keep = imported(text) if path.endswith((".antt", ".rt")) else set()
    if walked(path):
        keep |= local(path)
    met = {}

    def one(match):
        word = match.group(0)
        tail = ""
        while word and word[-1] in ":'" and word not in names:
            tail, word = word[-1] + tail, word[:-1]
        if word in keep or word not in names:
            return match.group(0)
        at = match.start()
        if walked(path) and at and text[at - 1] == "." and re.search(r"(^|[\s(,])(c|p|w|v|taken|start|tie|goal)\b[\w.«»·-]*\.$", text[:at][-200:]):
            if not any(field in word for field in ("-",)) or word not in FIELDS:
                return match.group(0)
        met[word] = names[word]
        return names[word] + tail

    return WORD.sub(one, text), met


FIELDS = set()


def renamed():
    """Rattle makes a module `specs.contracts`, so a file of that name gets another."""
    for crate in ("ean", "helpers"):
        old = os.path.join("crates", crate, "specs", "Contracts.antt")
        if os.path.exists(old):
            os.rename(old, os.path.join("crates", crate, "specs", "Terms.antt"))
    for path in files():
        text = open(path, encoding="utf-8").read()
        after = re.sub(r"\b(helpers|ean)([·\w]*\.specs)\.Contracts\b", r"\1\2.Terms", text)
        if path in ("crates/ean/specs/Lib.antt", "crates/helpers/specs/Lib.antt"):
            after = after.replace("pub mod Contracts", "pub mod Terms")
        if after != text:
            open(path, "w", encoding="utf-8").write(after)


def main(words):
    names = table()
    if words != ["--list"]:
        renamed()
    for path in files():
        if path.endswith(".antt") and not walked(path):
            record = False
            for line in open(path, encoding="utf-8"):
                if re.match(r" *(pub )?record ", line):
                    record = True
                elif line.strip() and not line.startswith(" "):
                    record = False
                match = DECLARED.match(line)
                if record and match and match.group(1):
                    FIELDS.add(match.group(3))
    bad = 0
    if words == ["--list"]:
        for old in sorted(names):
            print(old, names[old])
        return 0
    for path in files():
        text = open(path, encoding="utf-8").read()
        after, met = turned(path, text, names)
        present = set(WORD.findall(text))
        for old, new in met.items():
            if new in present and new != old and not path.endswith((".rt", ".edit")):
                print(f"look: {path}: {old} becomes {new}, which stands there already")
        if after != text:
            open(path, "w", encoding="utf-8").write(after)
    return bad


if __name__ == "__main__":
    sys.exit(main(sys.argv[1:]))
