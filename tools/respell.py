#!/usr/bin/env python3
"""Respells this repository's own names as today's Rattle writes them, after port.py: usage, once, at the top: python3 tools/respell.py
Definitions, lemmas, parameters and locals of specs/ and proofs/ that were written in camel case become snake case, and lemmas that were
written with dashes too, in the files that declare and cite them: specs/, proofs/, the clauses of src/, the must-fail edits and the pages.
What Rust or C sees keeps its name (those names are in snake case already), and so do types, facts, constructors and modules, which begin
with a capital letter. A lemma that would have the name of a definition or a function ends in _lem, as the library's do."""

import os
import re

# a definition and a lemma of one module that would fall together: the lemma takes the ending that the library gives such a lemma
LEMMAS = {
    "crates/original/proofs/Examples.antt": {"one_place": "one_place_lem"},
    "crates/round/proofs/Agreeing.antt": {"turn_by": "turn_by_lem"},
}
# fields of records
FIELDS = {w: w.replace("-", "_") for w in ("ids-are", "orphan-is", "reports-are", "found-is", "first-long", "second-long")}
# a function that was written as a type is
VALUES = {"Judged": "judged"}
WORD = re.compile(r"(?<![\w'-])([a-z][\w'-]*)")
# a function's own proof files, where Rattle's names for goals and steps keep the source's spelling
MADE = re.compile(r"/proofs/.+/(Answers|Invariants)\.antt$")
PAGES = ("README.md", "docs", "course", "oracle/README.md", "tests")


def snake(word):
    return re.sub(r"(?<=[a-z0-9'])([A-Z])", lambda m: "_" + m.group(1).lower(), word)


def files(root):
    for folder, folders, names in os.walk(root):
        folders[:] = sorted(d for d in folders if d not in ("out", ".git", "target"))
        for name in sorted(names):
            yield os.path.join(folder, name)


def read(path):
    with open(path, encoding="utf-8") as f:
        return f.read()


def declared():
    """The words in camel case of specs/ and proofs/."""
    found = set()
    for path in files("crates"):
        if path.endswith(".antt") and not MADE.search(path):
            for word in WORD.findall(re.sub(r"--.*", "", read(path))):
                if snake(word) != word:
                    found.add(word)
    return found


def turn(text, words, more):
    def one(m):
        w = m.group(1)
        return snake(w) if w in words else more.get(w, w)
    return WORD.sub(one, text)


def code(path):
    text = read(path)
    return re.sub(r"--.*", "", text) if path.endswith(".antt") else text


def dashed():
    """The names of lemmas that have a dash, each with the name that it gets, and the files in which such a name is the library's."""
    own, words, theirs = set(), set(), {}
    crates = "|".join(os.listdir("crates"))
    for path in files("crates"):
        if not path.endswith((".antt", ".rt")):
            continue
        text = code(path)
        words.update(re.findall(r"[^\s(){}\[\],;.λ:]+", text))
        if path.endswith(".rt"):
            continue
        for module, names in re.findall(r"(?m)^use (\S+?)\.?\{([^}]*)\}", text):
            if not re.match(r"Rattle\.(%s)\." % crates, module):
                for name in re.split(r"[,\s]+", names):
                    theirs.setdefault(name, set()).add(path)
        if path.endswith("/Proof.antt"):
            continue
        for name, made in re.findall(r"(?m)^ *(?:(?:abbrev|unfoldable|pub|record|data) )*([^\s:(){}.]+)(?: [^:\n]*)? :( goal\.)?", text):
            if re.fullmatch(r"[a-z][\w']*(-[\w']+)+", name) and not made:
                own.add(name)
    turned = {name: name.replace("-", "_") for name in own}
    return {a: b + "_lem" if b in words else b for a, b in turned.items()}, theirs


def turn_dashed():
    names, theirs = dashed()
    word = re.compile(r"(?<![\w'./-])([a-z][\w']*(?:-[\w']+)+)(?![\w'/-])")
    for root in ("crates",) + PAGES:
        for path in [root] if os.path.isfile(root) else files(root):
            if not path.endswith((".antt", ".edit", ".md")):
                continue
            old = read(path)
            one = lambda m: m[1] if path in theirs.get(m[1], ()) else names.get(m[1], m[1])
            spans = lambda text: re.sub(r"`[^`\n]+`", lambda m: word.sub(one, m[0]), text)
            is_prose = lambda line: path.endswith(".md") or line.lstrip().startswith(("--", "#"))
            new = "\n".join(spans(line) if is_prose(line) else word.sub(one, line) for line in old.split("\n"))
            if new != old:
                with open(path, "w", encoding="utf-8") as f:
                    f.write(new)
    return len(names)


def main():
    words = declared()
    turned = 0
    for root in ("crates",) + PAGES:
        for path in [root] if os.path.isfile(root) else files(root):
            if not path.endswith((".antt", ".rt", ".edit", ".md")) and not path.startswith("tests/"):
                continue
            try:
                old = read(path)
            except UnicodeDecodeError:
                continue
            lemmas = LEMMAS.get(path, {})
            new = turn(old, words, dict(FIELDS, **({} if any(it in old for it in lemmas.values()) else lemmas)))
            if path.startswith("crates/") and path.endswith((".antt", ".edit")):
                for a, b in VALUES.items():
                    new = re.sub(r"(?<![\w'.-])" + a + r"(?![\w'-])", b, new)
            if new != old:
                with open(path, "w", encoding="utf-8") as f:
                    f.write(new)
                turned += 1
    print("respell: %d words, %d files, %d lemmas" % (len(words), turned, turn_dashed()))


main()
