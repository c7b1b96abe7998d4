#!/usr/bin/env python3
"""Gives the repository's own definitions and lemmas today's spelling: words in snake case, types and modules in upper camel case, a prime as
an apostrophe. Run once, at the top of the repository, after the kit's own port script. Functions of src/, exported C names, strings, inputs and
outputs keep their names. It prints each name that it turns, and stops, with nothing written, where two names would fall together.

usage: python3 tools/respell.py [--names]      --names: only print what would be turned
"""

import os
import re
import sys

TOKEN = re.compile(r"[\w'′₀-₉?-]+(?:-[\w'′₀-₉?]+)*")
WORDS = {"let", "in", "use", "record", "data", "module", "open", "where", "pub", "abbrev", "unfoldable", "mod", "unfolding", "rw", "case", "import"}


def files(ending):
    for folder, dirs, names in os.walk("crates"):
        dirs[:] = sorted(d for d in dirs if d not in ("out", ".git"))
        for name in sorted(names):
            if name.endswith(ending):
                yield os.path.join(folder, name)


def read(path):
    with open(path, encoding="utf-8") as f:
        return f.read()


def bare(text):
    """The text without comments."""
    return "\n".join(re.sub(r"(^|\s)--(\s.*|-*)$", "", line) for line in text.split("\n"))


def declared():
    """The names that the .antt files declare: definitions, lemmas, fields, constructors."""
    found = {}
    for path in files(".antt"):
        for line in bare(read(path)).split("\n"):
            m = re.match(r"^\s*((?:[^\s:(){}λ]+\s+)+):(\s|$)", line)
            if not m:
                continue
            names = m[1].split()
            if path.endswith("/Proof.antt"):
                # Beside its own name such a file has names of goals, which are the checker's.
                names = [n for n in names if n.endswith("-spec") or "-" not in n]
            if not names or names[0] in ("let", "in", "use", "module", "open", "λ"):
                continue
            for n in names:
                if n not in WORDS:
                    found.setdefault(n, path)
    return found


def imported():
    """The names that are brought in from outside the repository."""
    own = "|".join(sorted(os.listdir("crates")))
    found = set()
    for ending in (".antt", ".rt"):
        for path in files(ending):
            for m in re.finditer(r"(?:ghost )?use ([\w.'-]+)\.\{([^}]*)\}", read(path)):
                if not re.match(rf"Rattle\.({own})\.", m[1]):
                    for it in m[2].split(","):
                        found.update(w.strip() for w in it.split(" as "))
    return found


def snake(word):
    """A word in snake case."""
    word = re.sub(r"([a-z0-9'])([A-Z])", r"\1_\2", word)
    return re.sub(r"([A-Z]+)([A-Z][a-z])", r"\1_\2", word).lower()


def spelled(name):
    """A name's new spelling."""
    name = re.sub(r"^get_?[dD](?=[-_])", "get_or", name.replace("′", "'").replace("getD", "get_or"))
    return name if name[0].isupper() else "_".join(snake(part) for part in name.split("-"))


def main(argv):
    own, outside = declared(), imported()
    turned = {}
    for n in own:
        if n not in outside and re.match(r"[A-Za-z]", n) and spelled(n) != n:
            turned[n] = spelled(n)
    # A lemma that would have a definition's name.
    taken = {n for n in own if n not in turned} | {to for n, to in turned.items() if "-" not in n} | outside
    for n in turned:
        if "-" in n and turned[n] in taken:
            turned[n] += "_lem"
    for n in list(turned):
        if n.endswith("-spec") and own[n].endswith("/Proof.antt"):
            turned[n] = n.replace("-", "_")
    back = {}
    bad = 0
    for n, to in turned.items():
        if to in own or to in outside or to in back:
            print(f"falls together: {n} ({own[n]}) as {to}")
            bad += 1
        back[to] = n
    if "--names" in argv:
        for n, to in turned.items():
            print(f"{n} {to}")
        return 0
    if bad:
        return 1
    each = re.compile(r"(?<![\w'′?-])(" + "|".join(re.escape(n) for n in sorted(turned, key=len, reverse=True)) + r")(?![\w'′?]|-[\w'′?])")
    for ending in (".antt", ".rt", ".edit"):
        for path in files(ending):
            text = read(path)
            new = each.sub(lambda m: turned[m[1]], text)
            if new != text:
                with open(path, "w", encoding="utf-8") as f:
                    f.write(new)
    print(f"{len(turned)} names turned")
    return 0


if __name__ == "__main__":
    raise SystemExit(main(sys.argv[1:]))
