#!/usr/bin/env python3
"""Brings the names of definitions and lemmas to today's spelling, once, after the kit's port.py.

Words are in snake case. A dash stays only where it joins the names of two definitions, as in `length-drop`. A lemma that would
take the name of something else gets `_lem`. Functions of src/, exported names, strings, inputs and outputs keep their names.
usage: python3 tools/respell.py [--list]   at the top of the repository
"""
import glob
import re
import sys

NAME = r"[^\s(){}\[\];,.`\"]+"
HEAD = re.compile(r"^\s*(?:(?:abbrev|unfoldable|pub|data|record)\s+)*(" + NAME + r")(?:\s+[({].*)?\s*:(?:\s|$)")
# Words of the library that lemmas here are named after.
LIBRARY = """length take drop append map reverse replicate get_or set cond add sub mul min max zeros concat sum""".split()
# Plain words that are also names of definitions here, but do not stand for them in a lemma's name.
PLAIN = set("base size at holds stops sound same alone last reads first is on by in".split())


def antt():
    return sorted(glob.glob("crates/*/specs/*.antt") + glob.glob("crates/*/proofs/*.antt"))


def tokens(text):
    return set(re.findall(NAME, text))


def snake(name):
    parts = []
    for part in name.split("-"):
        words = re.findall(r"[0-9]+[A-F]*(?![a-z])|[A-Z]+(?![a-z])|[A-Z]?[a-z']+|_|.", part)
        parts.append("".join(w.lower() if i == 0 or w == "_" or words[i - 1] == "_" else "_" + w.lower() for i, w in enumerate(words)))
    return "-".join(parts)


def declared():
    """The names that modules declare, and of them those of specs/."""
    names, specs = {}, set()
    for path in antt():
        # a signature whose type begins on the next line is read as one line
        for line in re.sub(r"\n\s+:", " :", open(path).read()).split("\n"):
            head = HEAD.match(line)
            if head and not line.lstrip().startswith("--"):
                names.setdefault(head[1], path)
                if "/specs/" in path:
                    specs.add(head[1])
    return names, specs


def joined(name, known):
    """A dash between the names of two definitions, `_` elsewhere."""
    parts, segments = name.split("-"), []
    while parts:
        for n in range(len(parts), 0, -1):
            word = "_".join(parts[:n])
            if n == 1 or word in known:
                segments.append((word, word in known and word not in PLAIN))
                parts = parts[n:]
                break
    result = segments[0][0]
    for before, after in zip(segments, segments[1:]):
        result += ("-" if before[1] and after[1] else "_") + after[0]
    return result


def table():
    names, specs = declared()
    every = set()
    for path in glob.glob("crates/*/specs/*.antt") + glob.glob("crates/*/proofs/**/*.antt", recursive=True):
        every |= tokens(open(path).read())
    new = {}
    known = set(LIBRARY) | {snake(n) for n in specs if "-" not in n}
    for name in sorted(names):
        if re.search(r"[a-z][A-Z]", name) and name[0].islower() and "-" not in name:
            new[name] = snake(name)
    # a lemma whose name a definition takes
    for name in set(new.values()) & set(names):
        if "/proofs/" in names[name]:
            new[name] = name + "_lem"
    taken = (every - set(names)) | set(new.values()) | {n for n in names if n not in new and "-" not in n}
    for name in sorted(names):
        if "-" in name and name[0].islower():
            to = joined(snake(name), known)
            if to == name:
                continue
            # a field is named after a function of src/, and nothing else has that name
            if to in taken and name != "is-good-place":
                to += "_lem"
            taken.add(to)
            new[name] = to
    # local names in the older spelling
    for token in sorted(every):
        if token not in new and re.fullmatch(r"[a-z][A-Za-z0-9']*[a-z0-9][A-Z][A-Za-z0-9']*", token):
            new[token] = snake(token)
    return new


def turned(text, new):
    return re.sub(NAME, lambda m: new.get(m[0], m[0]), text)


def in_comment(text, new):
    return re.sub(r"`[^`]*`", lambda m: turned(m[0], new), text)


def turn_lines(path, new, comment, plain=False):
    lines = open(path).read().split("\n")
    for i, line in enumerate(lines):
        at = line.find(comment)
        code, rest = (line, "") if at < 0 else (line[:at], line[at:])
        parts = re.split(r'("(?:[^"\\]|\\.)*")', code) if plain else [code]
        lines[i] = "".join(p if p.startswith('"') else turned(p, new) for p in parts) + in_comment(rest, new)
    open(path, "w").write("\n".join(lines))


def main():
    new = table()
    if "--list" in sys.argv:
        for old in sorted(new):
            print(old, new[old])
        return
    for path in glob.glob("crates/*/specs/*.antt") + glob.glob("crates/*/proofs/**/*.antt", recursive=True):
        turn_lines(path, new, "--")
    for path in glob.glob("crates/*/src/*.rt"):
        turn_lines(path, new, "//", plain=True)
    for path in glob.glob("crates/*/must-fail/*.edit"):
        lines = open(path).read().split("\n")
        lines = [turned(l, new) if re.match(r"(old|new|# claim):", l) else in_comment(l, new) for l in lines]
        open(path, "w").write("\n".join(lines))
    for path in glob.glob("docs/*.md") + glob.glob("docs/changes/*.md") + ["README.md"]:
        text = open(path).read()
        open(path, "w").write(in_comment(text, new))


main()
