#!/usr/bin/env python3
"""Brings the names of this repository's definitions and lemmas to snake case, as today's library has them.

usage: python3 tools/snake_names.py [--table] [ROOT]

Run once, behind port.py. It reads the names that the files of specs/ and proofs/ declare, and turns each that is no type: a capital
inside begins a new word, `anyBelow` to `any_below`, and a dash is `_`, `row-union` to `row_union`. Where two names would fall
together, the lemma gets `_lem` at its end and the definition keeps the plain name; a name of the library stays. Names that Rattle makes, in the proof of a
function, stay, and so do all names of src/. In comments and pages only code spans turn. --table prints the names alone.
"""

import os
import re
import sys

WORD = re.compile(r"[^\s(){}\[\].;,@\"«»`:|/\\*…⟨⟩⟦⟧’#]+")
SIGNATURE = re.compile(r"^(\s*)((?:(?:unfoldable|abbrev|pub|pattern)\s+)*)([^\s(){}.;,@\"«»:]+(?:\s[^\s(){}.;,@\"«»:=→]+)*)(?:\s+\{[^}]*\})?\s+:\s+(.*)")
MADE = re.compile(r"(tie|goal|given)\.|\{M : Type 1\}")
STRING = re.compile(r'b?"(?:\\.|[^"\\\n])*"')
SPAN = re.compile(r"`[^`\n]*`")
COMMENT = {".antt": re.compile(r"(?<!\S)--.*"), ".rt": re.compile(r"//.*")}
# Lemmas that port.py itself gave the name of a definition.
FELL_TOGETHER = {
    "line_of": "replay_answers/proofs",
    "no_word": "text_numbers/proofs trace_words/proofs/read/word_or text_fields/proofs/field/read_exact text_fields/proofs/entry/read_action",
    "said_of": "refusals_order/proofs",
    "table_of": "flow_table/proofs/Meanings.antt",
    "word_of": "page_lines/proofs/line/mention_of bit_sets/proofs",
}


def files(root, endings, below):
    for folder, dirs, names in os.walk(os.path.join(root, below)):
        dirs[:] = sorted(d for d in dirs if d not in ("out", "target", ".git"))
        for name in sorted(names):
            if name.endswith(endings):
                yield os.path.join(folder, name)


def read(path):
    with open(path, encoding="utf-8") as f:
        return f.read()


def declared(root):
    """Each declared name, and whether a file of specs/ has it."""
    found = {}
    for path in files(root, (".antt",), "crates"):
        for line in read(path).split("\n"):
            m = SIGNATURE.match(line)
            if not m or line.lstrip().startswith("--") or MADE.match(m[4]):
                continue
            for name in m[3].split():
                found[name] = found.get(name, False) or "/specs/" in path
    return found


def imported(root):
    """The names of the library that files import."""
    own, found = set(os.listdir(os.path.join(root, "crates"))), set()
    for path in files(root, (".antt", ".rt"), "crates"):
        for m in re.finditer(r"(?m)^(?:ghost )?use ([^\s{}]+)\.\{([^}]*)\}", read(path)):
            head = m[1].split(".")
            if not (head[0] == "Rattle" and head[1] in own):
                found |= {n.strip().split(" as ")[-1] for n in m[2].split(",")}
    return found


def snake(word):
    parts = re.sub(r"(?<=[a-z0-9₀-₉])(?=[A-Z])", "-", word).split("-")
    return "_".join(p[0].lower() + p[1:] if re.fullmatch(r"[A-Z][a-z].*", p) else p for p in parts)


def table(root):
    found, library = declared(root), imported(root)
    turned = {n: snake(n) for n in found if re.match(r"[a-z]", n) and snake(n) != n and n not in library}
    holders = dict.fromkeys(library, "")
    for name in sorted(found, key=lambda n: (not found[n], "-" in n, n)):
        new = turned.get(name, name)
        while name not in library and holders.setdefault(new, name) != name:
            new += "_lem"
        if new != name:
            turned[name] = new
    return turned


def turn(text, turned):
    return WORD.sub(lambda m: turned.get(m[0]) or (turned[m[0][:-1]] + "'" if m[0][-1:] == "'" and m[0][:-1] in turned else m[0]), text)


def between(pattern, text, inside, outside):
    parts, at = [], 0
    for m in pattern.finditer(text):
        parts += [outside(text[at : m.start()]), inside(m[0])]
        at = m.end()
    return "".join(parts) + outside(text[at:])


def spans(text, turned):
    return between(SPAN, text, lambda t: turn(t, turned), lambda t: t)


def code(text, turned):
    return between(STRING, text, lambda t: t, lambda t: turn(t, turned))


def turned_text(path, text, turned):
    end = os.path.splitext(path)[1]
    if end == ".md":
        return spans(text, turned)
    if end == ".edit":
        return "\n".join(code(l, turned) if re.match(r"(old|new):", l) else spans(l, turned) for l in text.split("\n"))
    return between(STRING, text, lambda t: t, lambda t: between(COMMENT[end], t, lambda c: spans(c, turned), lambda c: turn(c, turned)))


def main(words):
    only = "--table" in words
    root = ([w for w in words if w != "--table"] or ["."])[0]
    turned = table(root)
    if only:
        print("\n".join(f"{a}\t{b}" for a, b in sorted(turned.items())))
        return
    for path in [*files(root, (".antt", ".rt", ".edit"), "crates"), *files(root, (".md",), "docs"), os.path.join(root, "README.md")]:
        old = read(path)
        here = dict(turned)
        for name, places in FELL_TOGETHER.items():
            if any(("/crates/" + p) in path for p in places.split()):
                here[name] = name + "_lem"
        if not path.endswith(".antt"):
            here = {a: b for a, b in here.items() if re.search("[A-Z-]", a)}
        new = turned_text(path, old, here)
        if new != old:
            with open(path, "w", encoding="utf-8") as f:
                f.write(new)
    print(f"snake_names: {len(turned)} names turned")


if __name__ == "__main__":
    main(sys.argv[1:])
