#!/usr/bin/env python3
"""Brings this repository's own definitions, lemmas and record fields to snake case.

usage: python3 tools/respell.py [FOLDER]     once, after /opt/rattle/port/port.py; FOLDER is a checkout (default: this one)

Each name that crates/*/specs or crates/*/proofs declare and that is written with capitals or a dash within (wordAt, put-same,
PSW·PRS) becomes its words in lower case, joined by `_` (word_at, put_same, psw_prs). Types, facts and modules keep their capitals.
Functions of src/ and what Rattle makes keep their names. It stops where two names would fall together.
"""
import glob
import os
import re
import sys

TOKEN = re.compile(r"[^\s(){}\[\];,.`\"⌜⌝]+")
HEAD = re.compile(r"^(\s*)((?:(?:pub|abbrev|unfoldable|data|record|mutual)\s+)*)([^\s(){}:;,.]+)((?:\s*(?:\{[^{}]*\}|\([^()]*\)))*)\s+:\s")
KEEP = {"_"}


def read(path):
    with open(path, encoding="utf-8") as f:
        return f.read()


def snake(name):
    if "·" in name:
        return name.replace("·", "_").lower()
    name = name.replace("-", "_")
    return re.sub(r"(?<=[a-z0-9])([A-Z])", lambda m: "_" + (m[1] if name[m.end() : m.end() + 1] in ("", "_") and m[1] == "E" else m[1].lower()), name)


def is_old(name):
    if not re.match(r"[a-z]", name) and "·" not in name:
        return False
    return bool(re.search(r"[a-z0-9][A-Z]", name)) or "-" in name or "·" in name


def lemma_files(root):
    out = []
    for pattern in ("crates/*/specs/**/*.antt", "crates/*/proofs/**/*.antt"):
        out += glob.glob(os.path.join(root, pattern), recursive=True)
    return sorted(p for p in out if os.path.basename(os.path.dirname(p)) in ("specs", "proofs"))


def code(line):
    """The line without its comment, and the comment."""
    at = re.search(r"(^|\s)--(\s|$)", line)
    return (line[: at.start()], line[at.start() :]) if at else (line, "")


def declared(root):
    names, fields = set(), set()
    for path in lemma_files(root):
        record = None
        for line in read(path).split("\n"):
            head = HEAD.match(code(line)[0] + " ")
            if not head:
                continue
            names.add(head[3])
            if head[1]:
                fields.add(head[3])
    return names, fields


# Names for which the rule below has no answer: a fact keeps its capital, a constant its capitals, and a lemma gives way to a definition.
BY_HAND = {"Lowest·from": "LowestFrom", "ST·W": "ST_W", "walk_at": "walk_at_lem"}


def table(root):
    """Returns each old name with its new one. A lemma whose new name a function, a definition or another lemma has gets `_lem`."""
    names, fields = declared(root)
    new = {n: snake(n) for n in names if is_old(n)}
    new.update({n: to for n, to in BY_HAND.items() if n in names and (n != "walk_at" or "walkAt" in names)})
    told = {}
    for path in lemma_files(root):
        for token in TOKEN.findall(read(path)):
            told.setdefault(token, set()).add(path)
    sources = set()
    for path in glob.glob(os.path.join(root, "crates/*/src/**/*.rt"), recursive=True):
        sources.update(re.findall(r"\w+", read(path)))
    count = {}
    for to in new.values():
        count[to] = count.get(to, 0) + 1
    for old, to in new.items():
        if old in BY_HAND or "-" not in old:
            continue
        if count[to] > 1 or to in told or (to in sources and old not in fields):
            new[old] = to + "_lem"
    clash, seen = [], {}
    for old, to in sorted(new.items()):
        if to in seen:
            clash.append(f"{old} and {seen[to]} would both be {to}")
        if to in told and to not in new:
            clash.append(f"{old} would be {to}, which stands in {', '.join(sorted(os.path.relpath(p, root) for p in told[to])[:3])}")
        seen[to] = old
    return new, fields, clash


def turned(text, new, dashes):
    """The text with each whole token under its new name; a token with a dash only where dashes holds of its place."""

    def one(m):
        token = m[0]
        if token not in new:
            return token
        if "-" in token and not dashes(m.string, m.start()):
            return token
        return new[token]

    return TOKEN.sub(one, text)


def antt(text, new, walk):
    out = []
    for line in text.split("\n"):
        body, comment = code(line)

        def dashes(string, at):
            # in a proof that walks the code, what follows a dot is a step that Rattle names
            return not (walk and string[:at].endswith("."))

        out.append(turned(body, new, dashes) + turned(comment, new, lambda s, at: s[:at].endswith("`")))
    return "\n".join(out)


def rattle(text, new):
    out, clause = [], False
    for line in text.split("\n"):
        if re.match(r"\s*(ghost |requires|ensures)", line):
            clause = True
        elif re.match(r"\s*(\{|\}|//|pub |fn |use |let )", line) or not line.strip():
            clause = False
        here = clause
        out.append(turned(line, new, lambda s, at: here or s[:at].endswith("`")))
    return "\n".join(out)


def edit(text, new):
    out, kind = [], "rt"
    for line in text.split("\n"):
        if line.startswith("file: "):
            kind = "antt" if line.strip().endswith(".antt") else "rt"
        if line.startswith(("old: ", "new: ")):
            line = line[:5] + (antt(line[5:], new, False) if kind == "antt" else turned(line[5:], new, lambda s, at: True))
        elif line.startswith("law: "):
            line = turned(line, new, lambda s, at: True)
        out.append(line)
    return "\n".join(out)


def main():
    root = sys.argv[1] if len(sys.argv) > 1 else os.path.join(os.path.dirname(os.path.abspath(__file__)), "..")
    new, fields, clash = table(root)
    if clash:
        print("\n".join(clash))
        if "--force" not in sys.argv:
            raise SystemExit(1)
    changed = 0
    for pattern in ("crates/*/specs/**/*.antt", "crates/*/proofs/**/*.antt", "crates/*/src/**/*.rt", "crates/*/must-fail/*.edit"):
        for path in sorted(glob.glob(os.path.join(root, pattern), recursive=True)):
            text = read(path)
            if path.endswith(".edit"):
                to = edit(text, new)
            elif path.endswith(".rt"):
                to = rattle(text, new)
            else:
                to = antt(text, new, os.path.basename(path) == "Proof.antt")
            if to != text:
                changed += 1
                with open(path, "w", encoding="utf-8") as f:
                    f.write(to)
    print(f"{len(new)} names, {changed} files")


if __name__ == "__main__":
    main()
