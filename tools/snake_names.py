#!/usr/bin/env python3
"""Brings the repository's own definitions, lemmas, fields and bound names in clauses, specs/ and proofs/ to snake case: sumBy becomes sum_by.

usage: python3 tools/snake_names.py          at the top of the repository: rewrites the files in place
       python3 tools/snake_names.py --look   writes nothing, and says which names fall together

It ran once, after the kit's port.py, when the repository came to a newer Rattle. Types, modules, constructors, functions of src/ and strings keep
their names; a name that is a type of its own, which was in lower case, becomes one in camel case (TYPES).
"""

import os
import re
import sys

TYPES = {"every": "Every", "no_one": "NoOne", "is_group": "IsGroup"}
# Lemmas that would have their function's name, by file.
LEMMAS = {"accepted/specs/Standing.antt": "rows_fit", "nodes/proofs/GroupLaws.antt": "over_by", "spec/specs/Whole.antt": "built_of"}
# Names that a generated word holds, or that stand for a source's own spelling.
KEPT = {"is_IsWide"}
TOKEN = re.compile(r'"(?:[^"\\\n]|\\.)*"|[A-Za-z_][\w\']*(?:-[\w\'*+]+)*')


def snake(part):
    if not re.match(r"[a-z_]", part):
        return part
    return re.sub(r"([a-z0-9])([A-Z])", lambda m: m.group(1) + "_" + m.group(2).lower(), part)


def renamed(word):
    if word.startswith('"') or word in KEPT:
        return word
    if word in TYPES:
        return TYPES[word]
    return "-".join(snake(p) for p in word.split("-"))


def files(top):
    for folder, dirs, names in os.walk(top):
        dirs[:] = sorted(d for d in dirs if d not in ("out", "target", ".git"))
        for name in sorted(names):
            if name.endswith((".antt", ".rt", ".edit")):
                yield os.path.join(folder, name)


def ghost_parts(text, path):
    """The spans of a file in which names are ghost names: all of an .antt file, the clauses, imports and comments of a .rt file."""
    if not path.endswith(".rt"):
        yield 0, len(text)
        return
    for m in re.finditer(r"^ghost [^;]*;|^\s*(?:requires|ensures)\b.*$|//.*$", text, re.M):
        yield m.start(), m.end()


def turn(path, text, types):
    out, at = [], 0
    for begin, end in ghost_parts(text, path):
        out.append(text[at:begin])
        out.append(TOKEN.sub(lambda m: TYPES[m.group(0)] if m.group(0) in types else (m.group(0) if m.group(0) in TYPES else renamed(m.group(0))), text[begin:end]))
        at = end
    out.append(text[at:])
    return "".join(out)


def main(argv):
    changed = 0
    for path in files("crates"):
        with open(path, encoding="utf-8") as f:
            text = f.read()
        # A lower-case type is renamed only where it is declared or imported.
        types = {t for t in TYPES if re.search(r"(?m)^(?:(?:abbrev|unfoldable|pub) )*" + t + r" : .*Type 0\s*$|^(?:ghost )?use [^;\n]*[{ ,]" + t + r"[},]", text)}
        lemma = next((w for f, w in LEMMAS.items() if path.endswith(f)), None)
        if lemma:
            text = re.sub(r"(?<![\w.-])" + lemma + r"(?![\w-])", lemma + "_lem", text)
        new = turn(path, text, types)
        if "--look" in argv:
            tokens = {m.group(0) for b, e in ghost_parts(text, path) for m in TOKEN.finditer(text[b:e])}
            made = {}
            for t in sorted(tokens):
                made.setdefault(renamed(t), []).append(t)
            for name, old in sorted(made.items()):
                if len(old) > 1:
                    print(f"{path}: {' and '.join(old)} fall together")
            if path.endswith(".rt"):
                for m in re.finditer(r"\bfn (\w+)[^(]*\(([^{}]*?)\)(?:[^{}]*?)((?:\n\s*(?:requires|ensures)\b.*)+)", text):
                    given = set(re.findall(r"(\w+):", m.group(2)))
                    for t in TOKEN.finditer(m.group(3)):
                        r = renamed(t.group(0))
                        if r != t.group(0) and r in given:
                            print(f"{path}: {t.group(0)} falls together with a parameter of {m.group(1)}")
        elif new != text:
            with open(path, "w", encoding="utf-8") as f:
                f.write(new)
            changed += 1
    if "--look" not in argv:
        print(f"{changed} files changed")
    return 0


if __name__ == "__main__":
    raise SystemExit(main(sys.argv[1:]))
