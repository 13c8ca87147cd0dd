#!/usr/bin/env python3
"""Turns the repository's own names to the spelling of today's Rattle: definitions, lemmas and fields in snake case. Types, modules,
and whatever a library, the source or the C header names stay.

usage: tools/respell.py [ROOT]          once, after port.py: rewrites the .antt and .rt files below ROOT/crates
       tools/respell.py --list [ROOT]   prints the table, old name and new, before that run
       tools/respell.py --pages FILE..  with the table on standard input: the names between backticks in pages, and those in edits"""
import collections
import os
import re
import sys

SIGNATURE = re.compile(r"^\s*(?:(?:abbrev|unfoldable|pattern|pub|axiom)\s+)*([^\s(){}.;:,]+) :(?= )")
FIELD = re.compile(r"^\s+(?:pub )?([A-Za-z][^\s:]*) :")
WORD = re.compile(r"(?<![A-Za-z0-9_'-])[A-Za-z][A-Za-z0-9_'₀-₉′-]*")
USE = re.compile(r"^(\s*(?:pub )?(?:ghost )?use )([^\s{;]+)(.*)$")
# two names of one file that would fall together
BY_HAND = {"sameTruth": "same_bool"}


def files(root):
    for folder, dirs, names in os.walk(os.path.join(root, "crates")):
        dirs[:] = sorted(d for d in dirs if d not in ("out", "target"))
        for name in sorted(names):
            if name.endswith((".antt", ".rt")):
                yield os.path.join(folder, name)


def read(path):
    with open(path, encoding="utf-8") as f:
        return f.read()


def snake(part):
    return re.sub(r"([a-z0-9'])([A-Z])", lambda m: m.group(1) + "_" + m.group(2).lower(), part)


def declared(text):
    return {m.group(1) for m in map(SIGNATURE.match, text.splitlines()) if m}


def fields(text):
    found, inside = set(), False
    for line in text.splitlines():
        if re.match(r"^\s*(pub )?record .* where", line):
            inside = True
        elif inside:
            m = FIELD.match(line)
            if m:
                found.add(m.group(1))
            elif line.strip() and not line.startswith(" "):
                inside = False
    return found


def table(root):
    """Old name to new, the names that are declared, and those that are fields of records."""
    found, parts = set(), set()
    for path in files(root):
        if path.endswith(".antt") and not path.endswith("/Proof.antt"):
            text = read(path)
            found |= declared(text)
            parts |= fields(text)
    out = {}
    for old in sorted(found | parts):
        if not re.fullmatch(r"[A-Za-z][A-Za-z0-9_'-]*", old):
            continue
        new = "_".join(snake(p) if p[:1].islower() else p for p in old.split("-"))
        new = BY_HAND.get(old, new)
        if new != old:
            out[old] = new
    # where a lemma would have a definition's name, its dash stays
    by_new = collections.defaultdict(set)
    for old, new in out.items():
        by_new[new].add(old)
    for new, olds in by_new.items():
        if len(olds) > 1 or new in found:
            for old in olds:
                if "-" in old:
                    del out[old]
    return out, parts


def brought_in(text, own):
    """The names that a file brings in from elsewhere than this repository's crates."""
    out = set()
    for line in text.splitlines():
        m = USE.match(line)
        if m and "{" in m.group(3):
            path = m.group(2).rstrip(".").split(".")
            if not (path[0] == "Rattle" and len(path) > 1 and path[1] in own):
                out |= {w for item in m.group(3).strip(".{};").split(",") for w in item.split()}
    return out


def respell(path, to, parts, own):
    text = read(path)
    kept = brought_in(text, own)
    if path.endswith("/Proof.antt"):
        kept |= declared(text)

    def word(m):
        w = m.group(0)
        if w not in to or w in kept:
            return w
        if m.start() and m.string[m.start() - 1] == "." and w not in parts:
            return w
        return to[w]

    lines = []
    for line in text.split("\n"):
        m = USE.match(line)
        if m:
            path_of = m.group(2).rstrip(".").split(".")
            if path_of[0] == "Rattle" and len(path_of) > 1 and path_of[1] in own:
                line = m.group(1) + m.group(2) + WORD.sub(lambda x: to.get(x.group(0), x.group(0)), m.group(3))
        elif re.match(r"^\s*(--|//)", line):
            line = WORD.sub(lambda x: to[x.group(0)] if x.group(0) in to and re.search(r"[a-z][A-Z]", x.group(0)) else x.group(0), line)
        else:
            code, dashes, comment = line.partition("  --")
            line = WORD.sub(word, code) + dashes + comment
        lines.append(line)
    new = "\n".join(lines)
    if new != text:
        with open(path, "w", encoding="utf-8") as f:
            f.write(new)
        return True
    return False


def pages(paths):
    to = dict(line.split() for line in sys.stdin if line.strip())
    for path in paths:
        text = read(path)
        if path.endswith(".md"):
            new = re.sub(r"`[^`\n]+`", lambda m: WORD.sub(lambda x: to.get(x.group(0), x.group(0)), m.group(0)), text)
        else:
            new = WORD.sub(lambda x: to.get(x.group(0), x.group(0)), text)
        if new != text:
            with open(path, "w", encoding="utf-8") as f:
                f.write(new)


def main(argv):
    if argv[:1] == ["--pages"]:
        return pages(argv[1:])
    root = next((a for a in argv if not a.startswith("--")), ".")
    to, parts = table(root)
    if "--list" in argv:
        print("\n".join(f"{old} {new}" for old, new in to.items()))
        return None
    own = set(os.listdir(os.path.join(root, "crates")))
    changed = sum(respell(path, to, parts, own) for path in list(files(root)))
    print(f"{len(to)} names, {changed} files")
    return None


if __name__ == "__main__":
    main(sys.argv[1:])
