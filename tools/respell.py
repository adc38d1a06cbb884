#!/usr/bin/env python3
"""Spells the repository's own definitions and lemmas in snake case.

usage: respell.py [--check] at the top of the repository

A name that a file of specs/ or proofs/ declares, such as sameLink or row-spelled, is written same_link or row_spelled
everywhere: in .antt files, in the clauses and `ghost use` items of .rt files, and in the code spans of comments and of
Markdown pages. Types, facts and modules keep their capital. The names of goals and invariants are the checker's own and
stay, as do names that a file imports from another library, and all Rust code.

A lemma that would then bear the name of its function ends in _lem.
"""
import os
import re
import sys

WORD = re.compile(r'[^\s(){}.;,@"«»\[\]`]+')
QUIET = re.compile(r'"(?:[^"\\\n]|\\.)*"|(?<![^\s(){}.;,@"«»])--[^\n]*')
DECLARED = re.compile(
    r"(?m)^ *(?:(?:pub|abbrev|unfoldable|pattern|data|record|module) )*"
    r"([^\s(){}.;,@\"«»]+)(?: \{[^{}\n]*\})*(?: \([^()\n]*\))* : (goal\.)?"
)
BOUND = re.compile(r"\blet ([^\s(){}.;,@\"«»]+) [:=]")
USE = re.compile(r"(?m)^use ([^\s;{]+?)\.?(?:\{([^}]*)\})?(?: as \S+)?$")
GHOST_USE = re.compile(r"ghost\s+use\b[^;]*;")
CLAUSE = re.compile(r"(?:requires|ensures)\s*(?:\w+\s*)?\{|ghost\s+(?:\w+\s*[:=]\s*)?\{")
MADE = re.compile(r"/proofs/(?:.*/)(?:Answers|Invariants|Choices|Proof)\.antt$")
HEAD = re.compile(r"(?<![^\s(){},;])(?:goal|c|w|g|l)\.([^\s(){}.;,]*-[^\s(){}.;,]*)")


def in_snake_case(name):
    words = re.sub(r"(?<=[a-z0-9])[A-Z]", lambda m: "_" + m[0].lower(), name)
    return words.replace("-", "_")


def files(*endings):
    for folder, folders, names in os.walk("."):
        folders[:] = sorted(f for f in folders if f not in ("out", "target", "tools") and not f.startswith("."))
        for name in sorted(names):
            if name.endswith(endings):
                yield os.path.join(folder, name)


def read(path):
    with open(path, encoding="utf-8") as f:
        return f.read()


def foreign(text):
    """The names that a file of definitions or proofs takes from another library."""
    names = set()
    for path, items in USE.findall(text):
        steps = path.split(".")
        if steps[0] == "Rattle" and len(steps) > 1 and os.path.isdir(os.path.join("crates", steps[1])):
            continue
        names.update(WORD.findall(items or steps[-1]))
    return names


def table():
    """Each name that is to be spelled anew, with its new spelling."""
    names = set()
    for path in files(".antt"):
        text = QUIET.sub(" ", read(path))
        theirs = foreign(text)
        for name, of_goal in DECLARED.findall(text):
            if not of_goal and not (MADE.search(path) and re.match(r"(invariant|decreases|measure)-", name)):
                names.add(name)
        names.update(BOUND.findall(text))
        names -= theirs & set(["_"])
    own = {name for name in names if name[0].islower()}
    functions = {in_snake_case(name) for name in own if "-" not in name}
    rows = {}
    for name in sorted(own):
        new = in_snake_case(name)
        if "-" in name and new in functions:
            new += "_lem"
        if new != name:
            rows[name] = new
    return rows, names


def turned(text, rows, stay=frozenset()):
    return WORD.sub(lambda m: rows[m[0]] if m[0] in rows and m[0] not in stay else m[0], text)


def between(pattern, text, inside, outside):
    out, at = [], 0
    for m in pattern.finditer(text):
        out += [outside(text[at : m.start()]), inside(m[0])]
        at = m.end()
    return "".join(out + [outside(text[at:])])


SPAN = re.compile(r"`[^`\n]+`")


def spans(text, rows):
    return between(SPAN, text, lambda t: turned(t, rows), str)


def antt(path, text, rows):
    code = QUIET.sub(" ", text)
    stay = foreign(code)
    comment = lambda t: t if t[0] == '"' else turned(t, rows)
    if not MADE.search(path):
        return between(QUIET, text, comment, lambda t: turned(t, rows, stay))
    labels = lambda t: between(HEAD, t, str, lambda u: turned(u, rows, stay))
    return between(QUIET, text, comment, labels)


def closing(text, at):
    depth = 0
    for m in re.compile(r"[{}]").finditer(text, at):
        depth += 1 if m[0] == "{" else -1
        if depth < 0:
            return m.start()
    return len(text)


def rt(text, rows):
    out, at = [], 0
    starts = re.compile(r"//[^\n]*|\"(?:[^\"\\]|\\.)*\"|" + GHOST_USE.pattern + "|" + CLAUSE.pattern)
    while m := starts.search(text, at):
        out.append(text[at : m.start()])
        if m[0].startswith("//"):
            out.append(spans(m[0], rows))
        elif m[0][0] == '"':
            out.append(m[0])
        elif GHOST_USE.fullmatch(m[0]):
            theirs = m[0].split()[2].startswith("Rattle.std")
            out.append(m[0] if theirs else turned(m[0], rows))
        else:
            end = closing(text, m.end())
            out += [m[0], turned(text[m.end() : end], rows)]
            at = end
            continue
        at = m.end()
    return "".join(out + [text[at:]])


def clashes(rows, names):
    """Says which names would fall together."""
    new = {}
    for old, to in rows.items():
        new.setdefault(to, []).append(old)
    rust = set()
    for path in files(".rt"):
        rust.update(re.findall(r"\b(?:fn|const|static|mod) (\w+)", read(path)))
    for to, olds in sorted(new.items()):
        if len(olds) > 1 or to in names:
            print(f"together: {to}: {', '.join(olds)}{' (and itself)' if to in names else ''}")
        if to in rust:
            print(f"rust: {to}: {', '.join(olds)}")


def main():
    rows, names = table()
    clashes(rows, names)
    if "--check" in sys.argv:
        return
    for path in files(".antt", ".rt", ".md", ".edit"):
        old = read(path)
        if path.endswith(".antt"):
            new = antt(path, old, rows)
        elif path.endswith(".rt"):
            new = rt(old, rows)
        elif path.endswith(".md"):
            new = spans(old, rows)
        else:
            new = old
        if new != old:
            with open(path, "w", encoding="utf-8") as f:
                f.write(new)
    print(f"respelled: {len(rows)} names")


if __name__ == "__main__":
    main()
