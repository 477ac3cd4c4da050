#!/usr/bin/env python3
"""Spells the repository's own definitions, fields and lemmas in snake case: groupSizes -> group_sizes, total-next -> total_next.

usage: tools/snake_names.py        at the top, once, after the kit's port.py

A name is the repository's own if a file of specs/ or a lemma file of proofs/ declares it. What a function of src/, a module or a type is
called stays, and so does a name that a file imports from a library. Text in quotes stays. A line that begins 'meets:' names two
names that would fall together.
"""

import collections
import os
import re
import sys

NAME = r"[^\s(){}.;,@\"«»\[\]\\|:]+"
DECLARED = re.compile(rf"^\s*((?:(?:unfoldable|abbrev|pub|opaque|record|data|private) )*)({NAME})(?: [({{].*)? :(?: |$)")
CONSTRUCTOR = re.compile(rf"^\s*\| ({NAME})")
TOKEN = re.compile(r"--[^\n]*|\"(?:[^\"\\]|\\.)*\"|" + NAME)
RUST = re.compile(r"\"(?:[^\"\\]|\\.)*\"|'(?:[^'\\]|\\.)'|" + r"[A-Za-z_][A-Za-z0-9_'-]*")
USE = re.compile(r"^\s*(?:ghost |pub )*use ([^\s;{]+)\.\{([^}]*)\}", re.M)
OWN_CRATES = set()
LEMMAS = {}


def in_snake_case(name):
    name = re.sub(r"(?<=[a-z0-9])[A-Z]+", lambda m: "_" + m[0].lower(), name)
    name = re.sub(r"(?<=-)[A-Z]+(?![A-Za-z])", lambda m: m[0].lower(), name)
    return name.replace("-", "_").replace("′", "'")


def files():
    for folder, dirs, names in os.walk("crates"):
        dirs[:] = sorted(d for d in dirs if d not in ("out", "must-fail", "data"))
        for n in sorted(names):
            if n.endswith((".antt", ".rt")):
                yield os.path.join(folder, n)


def read(path):
    with open(path, encoding="utf-8") as f:
        return f.read()


def is_own(path):
    steps = path.split(".")
    return steps[0] == "Rattle" and len(steps) > 1 and steps[1] in OWN_CRATES


def own_names(texts):
    """The names that the repository declares and that change."""
    found = collections.defaultdict(set)
    for path, text in texts.items():
        if not path.endswith(".antt") or path.endswith("Proof.antt"):
            continue
        for line in text.split("\n"):
            if line.lstrip().startswith("--"):
                continue
            m = DECLARED.match(line) or CONSTRUCTOR.match(line)
            if not m:
                continue
            name = m.group(m.lastindex)
            # In a lemma file a plain line that is indented below a term may be a binder; only what reads as an item counts.
            if re.search(r"[a-z0-9][A-Z]|-|′", name) and not name[0].isupper() and re.match(r"[A-Za-z0-9]", name):
                found[name].add(path)
    return found


def imports(text):
    """The names that a file takes from a library, those that it takes from the repository, and the aliases of library modules."""
    of_library, of_own, aliases = set(), set(), set()
    for m in USE.finditer(text):
        for item in m[2].split(","):
            words = item.split()
            if not words:
                continue
            (of_own if is_own(m[1]) else of_library).add(words[0])
            if len(words) == 3:
                (of_own if is_own(m[1]) else of_library).add(words[2])
    for m in re.finditer(r"^\s*(?:pub )?use ([^\s;{]+) as (\S+)", text, re.M):
        if not is_own(m[1]):
            aliases.add(m[2])
    return of_library, of_own, aliases


def turn(path, text, table):
    of_library, of_own, aliases = imports(text)
    pattern = TOKEN if path.endswith(".antt") else RUST
    out, at, last_dot, in_library = [], 0, None, False
    for m in pattern.finditer(text):
        word = m[0]
        out.append(text[at : m.start()])
        at = m.end()
        if word.startswith("--") and path.endswith(".antt"):
            # a comment names definitions too
            out.append(re.sub(NAME, lambda w: table.get(w[0], w[0]) if w[0] not in of_library else w[0], word))
            continue
        new = table.get(word)
        if path in LEMMAS.get(word, ()) and text[m.start() - 1 : m.start()] != ".":
            new = word + "_is"
        if new is None or word[0] in "\"'":
            out.append(word)
            continue
        line = text[text.rfind("\n", 0, m.start()) + 1 : m.start()]
        use = re.match(r"\s*(?:ghost |pub )*use ([^\s;{]+)", line)
        behind = re.search(r"([^\s(){},;@\"«»]+)\.$", line)
        if use:
            keep = not is_own(use[1].rstrip("."))
        elif behind:
            keep = behind[1].split(".")[0] in aliases
        else:
            keep = word in of_library
        out.append(word if keep else new)
    out.append(text[at:])
    return "".join(out)


def main():
    OWN_CRATES.update(os.listdir("crates"))
    texts = {p: read(p) for p in files()}
    found = own_names(texts)
    table = {n: in_snake_case(n) for n in found}
    table = {a: b for a, b in table.items() if a != b}
    words = {p: set(TOKEN.findall(t)) for p, t in texts.items()}
    everywhere = set().union(*words.values())
    # A lemma or a field that would meet another name is a fact of the thing so called: name_is.
    camel = {b for a, b in table.items() if "-" not in a}
    many = collections.Counter(table.values())
    for a, b in list(table.items()):
        if "-" in a and (b in camel or many[b] > 1 or any(a in w and b in w for w in words.values())):
            table[a] = b + "_is" if b + "_is" not in table.values() else b + "_here"
            print("meets:", a, "->", table[a])
    # Lemmas that port.py has spelled so already.
    for b in sorted(camel):
        lemmas = [p for p, t in texts.items() if "/proofs/" in p and not p.endswith("Proof.antt") and re.search(rf"^ *(?:pub )?{re.escape(b)} : ", t, re.M)]
        if lemmas:
            LEMMAS[b] = set(lemmas) | {p for p, t in texts.items() if p.endswith(".antt") and re.search(rf"use Rattle\.[^\n]*\.proofs\.[^\n]*[{{ ]{b}[,}}]", t)}
            print("meets:", b, "->", b + "_is", "in", *sorted(LEMMAS[b]))
    for b in set(table.values()) | {b + "_is" for b in LEMMAS}:
        if b.endswith("_is") and b in everywhere:
            print("FALLS TOGETHER:", b)
    again = collections.Counter(table.values())
    for b, n in again.items():
        if n > 1:
            print("FALLS TOGETHER:", b, [a for a in table if table[a] == b])
    if "--try" in sys.argv:
        print(len(table), "names")
        return
    for p, t in texts.items():
        new = turn(p, t, table)
        if new != t:
            with open(p, "w", encoding="utf-8") as f:
                f.write(new)


main()
