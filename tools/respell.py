#!/usr/bin/env python3
"""Spells the names that the crates declare in specs/ and proofs/ as the library spells its own.

usage: tools/respell.py [--list] [FOLDER]

A definition, a lemma, a field and a constructor is in snake case, a type in camel case. A dash stays where it joins two names
that the lemma's own statement has, as in `steps-sort`; else it becomes an underscore. A name that would fall together with
another one of the crates, or with an imported one, gets `_lem`. --list prints the rows and writes nothing.

Turned are .antt files, the clauses and ghost items of .rt files, the lines of must-fail edits, and the code spans of comments
and of the documents. What Rattle makes (behind `tie.`, `goal.` or `c.`) and what a function's own proof folder declares stays.
"""
import os
import re
import sys

# Lemmas that have the name that a definition gets.
YIELDING = {n: n + "_lem" for n in ("lent_length", "step_call")}
WORD = re.compile(r"[^\s(){}.;,@\"«»]+")
DECLARED = re.compile(r"(?m)^( *)((?:abbrev|unfoldable|pub|private|opaque) )*([^\s(){}.;,@\"«»]+)((?: *\([^()]*\)| *\{[^{}]*\})*) :(?= )")
USED = re.compile(r"\buse [^\s{;]+\.\{([^}]*)\}")
RENAMED = re.compile(r" as ([^\s(){}.;,@\"«»]+)")
CLAUSE = re.compile(r"(?:requires|ensures)\s*\*?\s*(?:\w+\s*)?\{|ghost\s*(?:\w+\s*(?::\s*(?:(?:owns|lends)\s*)?|=\s*))?\{")
GHOST_USE = re.compile(r"ghost\s+use\b[^;]*;")
COMMENT = re.compile(r"--[^\n]*")


def texts(root, *ends):
    for folder, dirs, files in os.walk(root):
        dirs[:] = sorted(d for d in dirs if d not in ("out", "target", ".git", "pictures"))
        for name in sorted(files):
            if name.endswith(ends):
                yield os.path.join(folder, name)


def read(path):
    with open(path, encoding="utf-8") as f:
        return f.read()


def of_function(path):
    """Whether a file is of the proof of one function: its names are Rattle's labels."""
    return "/proofs/" in path and path.endswith(("/Proof.antt", "/Answers.antt", "/Invariants.antt"))


def statement(text, at):
    """The type behind the colon: to the end of the line, and on over lines that are further in."""
    start = text.rfind("\n", 0, at) + 1
    indent = len(text[start:at]) - len(text[start:at].lstrip())
    end = text.find("\n", at)
    while end >= 0:
        after = text.find("\n", end + 1)
        line = text[end + 1:after if after >= 0 else len(text)]
        if not line.strip() or len(line) - len(line.lstrip()) <= indent:
            break
        end = after
    return text[start:end if end >= 0 else len(text)]


def snake(part):
    part = re.sub(r"(?<=[a-z0-9])([A-Z])(?=[a-z])", lambda m: "_" + m[1].lower(), part)
    return re.sub(r"(?<=[a-z0-9])([A-Z])$", lambda m: "_" + m[1].lower(), part)


def spelled(name, said):
    if not name[:1].isascii() or not name[:1].isalpha():
        return name
    parts = name.split("-")
    words = set(WORD.findall(said[said.find(":"):]))
    out = parts[0] if parts[0][:1].isupper() else snake(parts[0])
    for before, part in zip(parts, parts[1:]):
        joins = before in words and part in words
        out += ("-" if joins else "_") + (part if part[:1].isupper() else snake(part))
    return out


def clauses(text):
    """What a .rt file has of ghost text, and its parameters and fields, which hide a word of the same name."""
    found = [m[0] for m in GHOST_USE.finditer(text)] + re.findall(r"\b\w+(?=: )", text)
    for m in CLAUSE.finditer(text):
        found.append(text[m.end():block(text, m.end())])
    return " ".join(found)


def block(text, end):
    """The end of a block whose opening brace stands before."""
    depth = 1
    while depth and end < len(text):
        depth += {"{": 1, "}": -1}.get(text[end], 0)
        end += 1
    return end


def table(root):
    """Each name that changes, with its new spelling. Names without a dash, the definitions', come first."""
    declared, files = {}, []
    for path in texts(os.path.join(root, "crates"), ".antt", ".rt"):
        text = COMMENT.sub("", read(path)) if path.endswith(".antt") else clauses(read(path))
        if not of_function(path):
            files.append({m[0] for m in WORD.finditer(re.sub(r"\buse [^\s{;]+\.", "use ", text)) if m.string[m.start() - 1:m.start()] != "."})
        if path.endswith(".antt") and not of_function(path):
            for m in DECLARED.finditer(text):
                declared.setdefault(m[3], statement(text, m.start(3)))
            for m in RENAMED.finditer(" ".join(u[0] for u in USED.finditer(text))):
                declared.setdefault(m[1], "")
    rows = dict(YIELDING)
    for name in sorted(declared, key=lambda n: ("-" in n, n)):
        if name in rows:
            continue
        new = spelled(name, declared[name])
        if new == name:
            continue
        near = set().union(*(f for f in files if name in f))
        met = {rows.get(w, w) for w in near if w != name}
        while new in met:
            new += "_lem"
        rows[name] = new
    return rows


def words(text, rows):
    def turn(m):
        before = text[:m.start()]
        if re.search(r"(?:^|[\s(])(?:tie|goal)\.$", before[-8:]) or m[0].startswith("Need-"):
            return m[0]
        return rows.get(m[0], m[0])
    return WORD.sub(turn, text)


def spans(text, rows):
    return re.sub(r"`[^`\n]+`", lambda m: words(m[0][:1] + " " + m[0][1:-1] + " `", rows).replace("` ", "`", 1).replace(" `", "`"), text)


def antt(text, rows):
    lines = []
    for line in text.split("\n"):
        at = re.search(r"(?:^|(?<=\s))--(?=\s|$)", line)
        code, comment = (line[:at.start()], line[at.start():]) if at else (line, "")
        lines.append(words(code, rows) + spans(comment, rows))
    return "\n".join(lines)


def rust(text, rows):
    out, at = "", 0
    while True:
        m, g = CLAUSE.search(text, at), GHOST_USE.search(text, at)
        if g and (not m or g.start() < m.start()):
            out += plain(text[at:g.start()], rows) + words(g[0], rows)
            at = g.end()
        elif m:
            end = block(text, m.end())
            out += plain(text[at:m.end()], rows) + antt(text[m.end():end], rows)
            at = end
        else:
            return out + plain(text[at:], rows)


def plain(text, rows):
    return "\n".join(spans(line, rows) if "//" in line else line for line in text.split("\n"))


def main(argv):
    listing = "--list" in argv
    root = ([a for a in argv if not a.startswith("--")] or ["."])[0]
    rows = table(root)
    if listing:
        for name, new in rows.items():
            print(f"{name}\t{new}")
        return 0
    changed = 0
    for path in texts(root, ".antt", ".rt", ".edit", ".md"):
        old = read(path)
        if path.endswith(".antt"):
            new = antt(old, rows)
        elif path.endswith(".rt"):
            new = rust(old, rows)
        elif path.endswith(".edit"):
            new = "\n".join(words(line, rows) if re.match(r"(old|new):", line) else line for line in old.split("\n"))
        else:
            new = spans(old, rows)
        if new != old:
            changed += 1
            with open(path, "w", encoding="utf-8") as f:
                f.write(new)
    print(f"{len(rows)} names, {changed} files")
    return 0


if __name__ == "__main__":
    raise SystemExit(main(sys.argv[1:]))
