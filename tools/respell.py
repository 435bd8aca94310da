#!/usr/bin/env python3
"""Turns the repository's own names in antt to snake case, once, right after port.py: definitions, lemmas, fields and variables.

usage: python3 tools/respell.py [--list]      at the top of the repository

A name turns where the repository declares it: a dash and a change of case become an underscore, a prime becomes an apostrophe. Types and
modules keep their capitals. A name that a library declares stays as it is, and so does a goal that the check names (`tie.Need-..`). Where
a lemma falls together with a definition, the lemma gets `_lem`. It turns specs/, proofs/, the clauses of src/ and the must-fail edits.
"""
import os
import re
import sys

WORD = r'[^\s(){}.;,@"«»]+'
KEPT = re.compile(r"^(goal|tie)\b")


def files(ending):
    for folder, dirs, names in os.walk("crates"):
        dirs[:] = sorted(d for d in dirs if d not in ("out", "data"))
        for name in sorted(names):
            if name.endswith(ending):
                yield os.path.join(folder, name)


def read(path):
    with open(path, encoding="utf-8") as f:
        return f.read()


def bare(text):
    """The code without comments and quoted text."""
    return re.sub(r'"(?:[^"\\\n]|\\.)*"|--[^\n]*', " ", text)


def turned(name):
    name = name.replace("′", "'")
    if re.match(r"^[A-Z]", name):
        return name.replace("-", "_")
    name = re.sub(r"(?<=[^\W_A-Z])([A-Z])", lambda m: "_" + m[1].lower(), name)
    return re.sub(r"(?<=\w)-(?=\w)", "_", name)


def declared(text):
    """Names that a file declares, and those among them that answer the check's goals."""
    own, goals = set(), set()
    for m in re.finditer(rf"(?m)^[ \t]*(?:pub |abbrev |unfoldable )*((?:{WORD} )+): ?(\S*)", text):
        for name in m[1].split():
            (goals if KEPT.match(m[2]) else own).add(name)
    own |= {m[1] for m in re.finditer(rf"\b(?:data|record|let) ({WORD})", text)}
    for m in re.finditer(rf"(?:λ|[({{])\s*((?:{WORD} )*{WORD})(?:\.| :)", text):
        own |= set(m[1].split())
    own |= {m[1] for m in re.finditer(rf"\bas ({WORD})", text)}
    for m in re.finditer(rf"(?m)^[ \t]*{WORD}((?: (?:{WORD}))+) =", text):
        own |= set(m[1].split())
    return own, goals


def imported(text):
    """Names that a file takes from the libraries, and from the repository."""
    theirs, ours = set(), set()
    for m in re.finditer(r"(?m)^[ \t]*(?:ghost )?use ([^\s{;]+?)(?:\.\{([^}]*)\})?(?: as \S+)?;?$", text):
        names = {n.split(" as ")[0].strip() for n in (m[2] or "").split(",")}
        own = m[1].startswith("Rattle.") and m[1].split(".")[1] in CRATES
        (ours if own else theirs).update(names)
    return theirs, ours


CRATES = set(os.listdir("crates")) if os.path.isdir("crates") else set()


def table():
    """Every name that turns, and its new form; what each file keeps."""
    own, used, keep = set(), {}, {}
    for path in files(".antt"):
        text = bare(read(path))
        names, goals = declared(text)
        theirs, _ = imported(text)
        own |= names - theirs
        keep[path] = theirs | goals
        used[path] = set(re.findall(WORD, text))
    for path in files(".rt"):
        theirs, _ = imported(read(path))
        keep[path] = theirs
        used[path] = set(re.findall(WORD, read(path)))
    new = {n: turned(n) for n in own if turned(n) != n}
    # a lemma gives way where a file has both
    by = {}
    for n in set(own) | {n for k in keep.values() for n in k}:
        by.setdefault(new.get(n, n), set()).add(n)
    snake = {}
    for to, names in sorted(by.items()):
        if len(names) == 1:
            continue
        if not any(len(names & words) > 1 for words in used.values()):
            continue
        dashed = sorted(n for n in names if "-" in n and n in new)
        for n in dashed:
            new[n] = to + "_lem"
        if not dashed and to in names:
            snake[to] = to + "_lem"
    return new, snake, keep


def lemmas(snake):
    """Files under proofs/ that declare a lemma whose name a definition now has: there, and where it is taken from there, the lemma turns."""
    found = {}
    for path in files(".antt"):
        if "/proofs/" in path:
            for n in declared(bare(read(path)))[0] & set(snake):
                if re.search(rf"(?m)^(?:pub )?{re.escape(n)} :", read(path)):
                    found.setdefault(path, set()).add(n)
    return found


SPAN = re.compile(r"`[^`\n]+`")


def words(text, new, keep):
    return re.sub(WORD, lambda m: new[m[0]] if m[0] in new and m[0] not in keep else m[0], text)


def turn_code(text, new, keep, comment):
    """The code outside quoted text; in comments, what stands between backticks."""
    parts = re.split(rf'("(?:[^"\\\n]|\\.)*"|{comment}[^\n]*)', text)
    for i, part in enumerate(parts):
        if i % 2 == 0:
            parts[i] = words(part, new, keep)
        elif part.startswith(comment):
            parts[i] = SPAN.sub(lambda m: "`" + words(m[0][1:-1], new, keep) + "`", part)
    return "".join(parts)


def main(argv):
    if not os.path.isdir("crates"):
        print(__doc__)
        return 2
    new, snake, keep = table()
    if argv == ["--list"]:
        print("\n".join(f"{a}\t{b}" for a, b in sorted(new.items())))
        print("\n".join(f"{a}\t{b}\t(lemmas)" for a, b in sorted(snake.items())))
        return 0
    local = lemmas(snake)
    for path in [*files(".antt"), *files(".rt")]:
        text = read(path)
        extra = {n: snake[n] for n in local.get(path, ())}
        comment = "--" if path.endswith(".antt") else "//"
        out = turn_code(text, extra, set(), comment) if extra else text
        out = turn_code(out, new, keep[path], comment)
        if out != text:
            with open(path, "w", encoding="utf-8") as f:
                f.write(out)
    # the papers: what stands between backticks
    every = set()
    for path in files(".antt"):
        every |= set(re.findall(WORD, bare(read(path))))
    for name in ["README.md", *("docs/" + n for n in sorted(os.listdir("docs"))), *("docs/changes/" + n for n in sorted(os.listdir("docs/changes")))]:
        if name.endswith(".md"):
            text = read(name)
            say = lambda w: w if w in every or not ("-" in w or re.match(r"[a-z]\w*[A-Z]", w)) else (new.get(w) or (turned(w) if turned(w) in every else w))
            out = SPAN.sub(lambda m: "`" + re.sub(WORD, lambda w: say(w[0]), m[0][1:-1]) + "`", text)
            if out != text:
                with open(name, "w", encoding="utf-8") as f:
                    f.write(out)
    return 0


if __name__ == "__main__":
    raise SystemExit(main(sys.argv[1:]))
