#!/usr/bin/env python3
"""Spells the repository's own definitions and lemmas as the language's library does: words in snake case.

usage: python3 tools/respell.py          at the top of the repository, once, after the scripts of the kit

In the .antt files, in the ghost text of the .rt files, in must-fail edits and in the documents, each name that a dash joins to others and that is
written in lower camel case (`cellsFrom`, `byPlace-is`) gets underscores (`cells_from`, `by_place-is`). Names in strings stay, and so do names of functions, which have
underscores already. Where a definition would fall together with a lemma, a field, a constructor or a local name, CLASHES says what the other is called.
"""

import os
import re

NAME = re.compile(r"[A-Za-zα-ωΑ-Ω_][\w'₀-₉]*(?:-[\w'₀-₉]+)*")
CAMEL = re.compile(r"[a-z][a-z0-9]*[A-Z][A-Za-z0-9]*'?")
STRING = re.compile(r'"(?:[^"\\\n]|\\.)*"')

# A name that stood in snake case, beside a definition that comes to the same: what it is called from here on.
CLASHES = {
    "any_real": "any-real",  # a lemma on anyReal
    "count_fits": "count-fits",  # a field that says countFits
    "count_left": "count-left",  # a lemma on countLeft
    "list_left": "list-left",  # a lemma on listLeft
    "no_room": "no-room",  # lemmas on the refusal noRoom
    "found_in": "found-in",  # a lemma on firstIn; foundIn is a definition
    "one_in": "one-in",  # a lemma; oneIn is a definition
    "same_at": "same-at",  # a lemma; sameAt is a definition
    "is_free": "is-free",  # a local name; isFree is a definition
    "is_IsBody": "is-body",  # a local name that lost its spelling
}
# A definition whose name in snake case is a constructor's: `taken_out` is a Walk.
APART = {"takenOut": "taken_out_form"}
# Files in which a name of CLASHES is a function's of src/, which keeps its name.
CODE = (".rt",)


def snake(part):
    return APART.get(part) or re.sub(r"[A-Z]", lambda m: "_" + m[0].lower(), part)


def respelled(name, camel):
    if name in CLASHES:
        return CLASHES[name]
    return "-".join(snake(p) if p in camel else p for p in name.split("-"))


def texts(top, endings):
    for folder, dirs, files in os.walk(top):
        dirs[:] = sorted(d for d in dirs if d not in ("out", ".git", "target"))
        for f in sorted(files):
            if f.endswith(endings):
                yield os.path.join(folder, f)


def outside_strings(text, change):
    out, last = [], 0
    for m in STRING.finditer(text):
        out += [change(text[last:m.start()]), m[0]]
        last = m.end()
    return "".join(out + [change(text[last:])])


def is_path_part(line, m):
    """Whether the name stands inside a path, as a module's: it is a file's or a function's there."""
    return line[m.end():m.end() + 1] == "." and (line[:m.start()].endswith(".") or line.startswith("use ", 0))


def main():
    camel = set()
    for p in texts("crates", (".antt",)):
        with open(p, encoding="utf-8") as f:
            for m in NAME.finditer(f.read()):
                camel |= {x for x in m[0].split("-") if CAMEL.fullmatch(x)}
    changed = 0
    files = [(p, True) for p in texts("crates", (".antt", ".rt"))]
    files += [(p, False) for p in texts("crates", (".edit",))] + [(p, False) for p in texts("docs", (".md",))] + [("README.md", False)]
    for p, code in files:
        with open(p, encoding="utf-8") as f:
            old = f.read()

        def turned(text, p=p):
            lines = []
            for line in text.split("\n"):
                def one(m, line=line):
                    name = m[0]
                    if name in CLASHES and (not p.endswith(".antt") or is_path_part(line, m)):
                        return name
                    return respelled(name, camel)
                lines.append(NAME.sub(one, line))
            return "\n".join(lines)

        new = outside_strings(old, turned) if code else turned(old)
        if new != old:
            changed += 1
            with open(p, "w", encoding="utf-8") as f:
                f.write(new)
    print(f"respell: {len(camel)} words, {changed} files")


if __name__ == "__main__":
    main()
