#!/usr/bin/env python3
"""Brings the names of this repository's definitions and lemmas to one spelling: words in snake case, types and facts in
upper camel case. It was run once, at the top, right after the kit's port.py, with nothing edited between. It changes names
in specs/, in proofs/, in the lines of src/ that hold no string or are ghost text, and in the code spans of the documents.
Functions of src/, labels of clauses, strings, must-fail edits, inputs, outputs, and the names that Rattle makes or its
library has, stay.

usage: python3 tools/respell.py [TOP]"""

import os
import re
import sys

TOP = sys.argv[1] if len(sys.argv) > 1 else "."
# a name: whatever stands between blanks, brackets, dots and punctuation
NAME = re.compile(r"[^\s(){}\[\],.;:→λ\"`|]+")
DASHED = re.compile(r"[^\W\d_].*-")
CAMEL = re.compile(r"[a-z]+(?:[A-Z][a-z]+)+")
# names that would fall together with another one, and one whose word the library has renamed
BY_HAND = {
    "dot-monic": "dot_monic_value",  # dotMonic
    "eval-monic": "eval_monic_value",  # evalMonic
    "timesRoot": "times_linear",  # the function times_root
    "No-character": "NamesNoCharacter",  # the fault NoCharacter
    "getD-packed": "get_or_packed",  # getD is get_or
}
# an import of what is not ours: whatever lies outside this repository's crates (paths `Rattle.NAME`), and std
FOREIGN = re.compile(r"use (?!Rattle\.(?!std\b))([^{;\n]*)\.\{([^}]*)\}")
DECLARED = re.compile(r"\s*(?:(?:abbrev|unfoldable|opaque|pub|record|data|module|let)\s+)*(" + NAME.pattern + r")(?=[^=\n]*? :)")
ALIAS = re.compile(r"\bas ([a-z]\w*(?:-\w+)+)")


def spelled(name):
    if name in BY_HAND:
        return BY_HAND[name]
    if name[0].isupper():
        first, *rest = name.split("-")
        return first + "".join(p[:1].upper() + p[1:] for p in rest)
    camel = CAMEL.match(name)
    if camel:
        head = re.sub("[A-Z]", lambda m: "_" + m.group(0).lower(), camel.group(0))
        name = head + name[camel.end():]
    return name.replace("-", "_")


def is_odd(name):
    return bool(DASHED.match(name) or CAMEL.match(name))


def files(ending):
    for folder, dirs, names in os.walk(os.path.join(TOP, "crates")):
        dirs[:] = sorted(d for d in dirs if d != "out")
        for n in sorted(names):
            if n.endswith(ending):
                yield os.path.join(folder, n)


def read(path):
    with open(path, encoding="utf-8") as f:
        return f.read()


def write(path, old, new):
    if new != old:
        with open(path, "w", encoding="utf-8") as f:
            f.write(new)


def foreign(text):
    """The names that a file brings in from elsewhere."""
    kept = set()
    for _, names in FOREIGN.findall(text):
        for n in names.replace("\n", " ").split(","):
            kept.add(n.split(" as ")[0].strip())
    return kept


def is_lemma_file(path):
    return os.path.basename(os.path.dirname(path)) in ("specs", "proofs")


def before_comment(line, mark):
    """The part of a line before its comment, and the comment."""
    at = line.find(mark)
    return (line, "") if at < 0 else (line[:at], line[at:])


def own_names():
    """Every name to respell that specs/ and the files of lemmas use without bringing it in."""
    own = set()
    for path in files(".antt"):
        if is_lemma_file(path):
            text = read(path)
            used = {n for line in text.splitlines() for n in NAME.findall(before_comment(line, "--")[0])}
            own |= {n for n in used - foreign(text) if is_odd(n) and "◌" not in n}
    return own


def local_names(text):
    """Names that the proof of one function declares itself, but for the goals that it answers."""
    found = set()
    for line in text.splitlines():
        m = DECLARED.match(line)
        if m and is_odd(m.group(1)) and "goal." not in line and "◌" not in m.group(1):
            found.add(m.group(1))
    return found


def is_made(code, at, name):
    """Whether Rattle made the name: `c.loop-k.next-is` (of a branch `w.next-is`) says what the local `next` is."""
    path = re.search(r"[\w.'-]*$", code[:at]).group(0)
    return path.startswith(("c.", "w.")) and name.endswith("-is")


def turned(code, names, proof=False):
    def word(m):
        n = m.group(0)
        return n if n not in names or (proof and is_made(code, m.start(), n)) else spelled(n)

    return NAME.sub(word, code)


def turn_lines(text, mark, turn):
    """The text with `turn` applied to each line, comments aside."""
    return "\n".join(turn(code) + comment for code, comment in (before_comment(l, mark) for l in text.split("\n")))


def clashes(own):
    """Pairs of names that would fall together."""
    seen = {}
    for n in sorted(own):
        seen.setdefault(spelled(n), []).append(n)
    return [olds for olds in seen.values() if len(olds) > 1]


def turn_antt(own):
    for path in files(".antt"):
        text = read(path)
        lemmas = is_lemma_file(path)
        names = (own if lemmas else own | local_names(text)) - foreign(text)
        write(path, text, turn_lines(text, "--", lambda code: turned(code, names, not lemmas)))


def turn_src(own):
    for path in files(".rt"):
        text = read(path)
        names = (own | set(ALIAS.findall(text))) - foreign(text)

        def turn(code):
            return turned(code, names) if '"' not in code or re.search("ghost|requires|ensures", code) else code

        write(path, text, turn_lines(text, "//", turn))


def turn_documents(own):
    docs = os.path.join(TOP, "docs")
    for path in [os.path.join(TOP, "README.md"), *(os.path.join(docs, n) for n in sorted(os.listdir(docs)) if n.endswith(".md"))]:
        text = read(path)
        write(path, text, re.sub(r"`([^`\n]+)`", lambda m: "`" + turned(m.group(1), own) + "`", text))


def main():
    own = own_names()
    if clashes(own):
        sys.exit(f"names that fall together: {clashes(own)}")
    turn_antt(own)
    turn_src(own)
    turn_documents(own)
    print(len(own), "names respelled")


if __name__ == "__main__":
    main()
