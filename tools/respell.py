#!/usr/bin/env python3
"""Brings the repository's own definitions and lemmas to snake case, once, after port.py.

usage: tools/respell.py [--list]    at the top; --list writes nothing and tells what would be renamed

Words of specs/ and proofs/ that begin with a small letter (functions, lemmas, fields, constructors, local names) go from kebab and camel case to
snake case; README.md and docs/ (docs/landings/ aside) follow. Types, modules, the library's names, names that Rattle makes of the code, functions of
src/, strings, inputs and outputs stay. Two names of one file that would fall together are refused.
"""
import glob
import os
import re
import sys

LETTER = r"[A-Za-z0-9_'′₀-₉ᴰ]"
WORD = re.compile(rf"(?<![A-Za-z0-9_'′₀-₉ᴰ·-])[A-Za-z_]{LETTER}*(?:-{LETTER}+)*")
USED = re.compile(r"^\s*(?:ghost\s+)?use\s+([^;{]*?)(?:\.?\{([^}]*)\})?;?\s*$", re.M)
GIVEN = re.compile(rf"^([a-z]{LETTER}*(?:-{LETTER}+)*) : tie\.", re.M)

# Names of the library that a path leads to, and no `use`.
LIBRARY = {"not-nil"}

# A definition that would have the name of a function of src/, or of a field.
DEFINITIONS = {
    "firstN": "first_n_of",
    "firstOnCycle": "first_on_cycle_of",
    "firstRow": "first_row_of",
    "secondRow": "second_row_of",
    "groupField": "group_field_of",
    "hexDigit": "hex_digit_of",
    "recordRoom": "most_record_bytes",
}

# A lemma that would have its function's name.
LEMMAS = (
    "all-below at-most bit-and bit-or by-job digit-fits forest-bits forest-from forest-groups forest-heaviest forest-leaves forest-start forest-tokens"
    " gang-hours group-start longest-sheet read-forest group-token in-number kind-bit node-bits none-at orders-with read-bits read-tree rule-by top-of tree-reason"
).split()


def files(top):
    for folder, dirs, names in os.walk(os.path.join(top, "crates")):
        dirs[:] = sorted(d for d in dirs if d != "out")
        for n in sorted(names):
            if n.endswith((".antt", ".rt")):
                yield os.path.join(folder, n)


def snake(name):
    if name in DEFINITIONS:
        return DEFINITIONS[name]
    if name in LEMMAS:
        return name.replace("-", "_") + "_lem"
    name = name.replace("-", "_")
    return re.sub(r"(?<=[a-z0-9])([A-Z])", lambda m: "_" + m.group(1).lower(), name)


def turns(name):
    return name[0].islower() and snake(name) != name


def uncommented(text):
    return re.sub(r"--.*|//.*", "", text)


def read(path):
    with open(path, encoding="utf-8") as f:
        return f.read()


def own_names(top):
    """Words of specs/, of lemmas and of what a proof by hand says beside its answers, but those that come from a library."""
    own, library, given = set(), set(LIBRARY), set()
    for path in files(top):
        text = uncommented(read(path))
        for m in USED.finditer(text):
            if not re.match(r"Rattle\.(?!std\b|core\b)", m.group(1)):
                library |= {w.strip().split(" as ")[0] for w in (m.group(2) or "").split(",")}
        if path.endswith("Proof.antt"):
            given |= set(GIVEN.findall(text))
        elif path.endswith(".antt"):
            own |= {w for w in WORD.findall(text) if turns(w)}
    return own - library, given


def pieces(text):
    at = 0
    for m in re.finditer(r"--.*|//.*|\"(?:[^\"\\]|\\.)*\"", text):
        yield "code", text[at:m.start()]
        yield ("string" if m.group().startswith('"') else "comment"), m.group()
        at = m.end()
    yield "code", text[at:]


def ticked(text, word):
    return re.sub(r"`[^`\n]*`", lambda m: WORD.sub(word, m.group()), text)


def respelt(text, word):
    turn = {"code": lambda p: WORD.sub(word, p), "comment": lambda p: ticked(p, word), "string": lambda p: p}
    return "".join(turn[kind](piece) for kind, piece in pieces(text))


def lemma_of_ahead(path, text):
    """poset's lemma `ahead_in`, of which port.py made the name of the definition `aheadIn` in snake case."""
    if re.search(r"^use Rattle\.poset\.proofs\.Ahead\b.*\bahead_in\b", text, re.M) or path.endswith("poset/proofs/Ahead.antt"):
        return re.sub(r"\bahead_in\b", "ahead_in_append", text)
    return text


def together(path, text, names):
    made, bad = {}, 0
    for kind, piece in pieces(text):
        if kind == "code":
            for w in set(WORD.findall(piece)):
                made.setdefault(snake(w) if w in names else w, set()).add(w)
    for new, old in sorted(made.items()):
        if len(old) > 1:
            bad += 1
            print(f"{path}: fall together as {new}: {', '.join(sorted(old))}")
    return bad


def main(argv):
    own, given = own_names(".")
    # an answer in a proof by hand keeps the name of its goal
    kept = sorted(own & given)
    if kept:
        print("also names of goals: " + ", ".join(kept))
    bad = sum(together(path, lemma_of_ahead(path, read(path)), own) for path in files("."))
    print(f"{len(own)} names")
    if "--list" in argv:
        print("\n".join(sorted(own)))
    if bad or "--list" in argv:
        return bad != 0

    def word(m):
        return snake(m.group()) if m.group() in own else m.group()

    pages = [p for p in ["README.md", *sorted(glob.glob("docs/*.md"))]]
    for path in [*files("."), *pages]:
        text = read(path)
        new = ticked(text, word) if path.endswith(".md") else respelt(lemma_of_ahead(path, text), word)
        if new != text:
            with open(path, "w", encoding="utf-8") as f:
                f.write(new)
    return 0


if __name__ == "__main__":
    raise SystemExit(main(sys.argv[1:]))
