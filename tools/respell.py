#!/usr/bin/env python3
"""Brings the definitions and lemmas of this repository to snake case: each word of tools/respell.tsv becomes the word beside it.

usage: python3 tools/respell.py [FOLDER]     once, after port.py, at the top of a checkout (or of FOLDER)

It touches specs/, proofs/, src/ and must-fail/ of every crate, and what stands between backquotes in README.md, CONTRIBUTING.md and docs/.
Strings, inputs and outputs, functions of src/ and exported C names are not touched, nor the goals that the check names.
"""
import os
import re
import sys

TOP = sys.argv[1] if len(sys.argv) > 1 else "."
HERE = os.path.dirname(os.path.abspath(__file__))
NEW = dict(line.rstrip("\n").split("\t") for line in open(os.path.join(HERE, "respell.tsv"), encoding="utf-8"))
WORD = re.compile(r"[A-Za-zℕ][\wℕ'′≢≡⊎≤-]*")
FIELD = re.compile(r"^\s+(?:pub )?([a-z][\w'-]*) : ")
DECLARED = re.compile(r"^(?:abbrev |unfoldable )?(?:pub )?([a-z][\w'-]*) : ")
IMPORT = re.compile(r"^(?:ghost )?use (?!Rattle[.·](?!std\b|core\b))[^{;]*\{([^}]*)\}", re.M)


def own(text):
    """The words that the file takes from the kit, or that a proof of a function declares itself."""
    return {w for m in IMPORT.finditer(text) for w in WORD.findall(m.group(1))}


def respelled(text, fields, skip, camel_only, aliases=()):
    def turn(m):
        w = m.group(0)
        if w not in NEW or w in skip or (camel_only and "-" in w):
            return w
        before = text[max(0, m.start() - 5):m.start()]
        if before.endswith("tie.") or before.endswith("goal."):
            return w
        if any(text.endswith(a + ".", 0, m.start()) for a in aliases):
            return NEW[w]
        if before.endswith(".") and w not in fields and not re.search(r"(?:specs|proofs)(?:\.\w+)*\.$", text[max(0, m.start() - 120):m.start()]):
            return w
        return NEW[w]
    return WORD.sub(turn, text)


def lines_of(path, text, fields, skip):
    out = []
    aliases = re.findall(r"^use Rattle[.·](?!std\b)[\w.·+-]+ as ([\w-]+)$", text, re.M)
    aliases = [a for a in aliases if a not in ("tie", "goal")]
    mark = "--" if path.endswith(".antt") else "//" if path.endswith(".rt") else "#"
    for line in text.split("\n"):
        comment = line.lstrip().startswith(mark)
        if path.endswith(".rt"):
            parts = re.split(r'("(?:[^"\\]|\\.)*")', line)
            ghost = re.search(r"ghost use|requires|ensures|invariant|prove!", line) is not None
            line = "".join(p if i % 2 else respelled(p, fields, skip, comment or not ghost) for i, p in enumerate(parts))
        else:
            line = respelled(line, fields, skip, comment, aliases)
        out.append(line)
    return "\n".join(out)


def main():
    files = []
    for folder, dirs, names in os.walk(os.path.join(TOP, "crates")):
        dirs[:] = sorted(d for d in dirs if d not in ("out", "data"))
        files += [os.path.join(folder, n) for n in sorted(names) if n.endswith((".antt", ".rt", ".edit"))]
    fields = set()
    for path in files:
        if path.endswith(".antt"):
            for line in open(path, encoding="utf-8"):
                m = FIELD.match(line)
                if m:
                    fields.add(m.group(1))
    for path in files:
        text = open(path, encoding="utf-8").read()
        skip = own(text)
        if os.path.basename(os.path.dirname(path)) not in ("specs", "proofs", "src", "must-fail"):
            skip |= {m.group(1) for line in text.split("\n") for m in [DECLARED.match(line)] if m and "tie." in line or m and "goal." in line}
        new = lines_of(path, text, fields, skip)
        if new != text:
            open(path, "w", encoding="utf-8").write(new)
    pages = [os.path.join(TOP, p) for p in ("README.md", "CONTRIBUTING.md")]
    for folder, dirs, names in os.walk(os.path.join(TOP, "docs")):
        pages += [os.path.join(folder, n) for n in names if n.endswith(".md") and not n.startswith("PORT")]
    for path in pages:
        if os.path.exists(path):
            text = open(path, encoding="utf-8").read()
            new = re.sub(r"`[^`\n]*`", lambda m: WORD.sub(lambda w: NEW.get(w.group(0), w.group(0)), m.group(0)), text)
            if new != text:
                open(path, "w", encoding="utf-8").write(new)


main()
