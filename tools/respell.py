#!/usr/bin/env python3
"""Brings the repository's own names to the spelling of today's Rattle: facts and types in camel case, all else in snake case.

usage: tools/respell.py        at the top of the repository, once, after the kit's port.py

A dash stays where it joins two names (`exec-drop`, `length-overlay`): a lemma whose parts are each a definition or a word of the library.
It turns declared names of specs/ and proofs/, the local names below, and the definition `result`, which clauses now read as the returned value.
"""

import os
import re
import sys

WORD = re.compile(r"[^\s(){}.;,@\"«»]+")
DECLARED = re.compile(
    r"\s*(?:abbrev pub|unfoldable pub|unfoldable|abbrev|pub data|pub record|data|record|pub)?\s*"
    r"([^\s(){}.;,@\"«»]+)\s*(?:\(.*|\{.*)?:(?:\s|$)"
)
LIBRARY = {"length", "take", "drop", "set", "get_or", "map"}
LOCAL = {
    "in-cs", "in-ms", "is-path", "k-in", "kind-is", "left-A", "left-B", "past-A", "past-B", "no-low",
    "stores-few", "unread-on", "emits-of", "series-on", "task-in", "zero-before",
}
GENERATED = re.compile(r"^(returns|invariant|decreases|loop|overflow|bounds|in|type)-")


def files(top, endings):
    for folder, _, names in os.walk(os.path.join(top, "crates")):
        if "/out" in folder:
            continue
        for name in sorted(names):
            if name.endswith(endings):
                yield os.path.join(folder, name)


def declared(top):
    """The declared names: of specs/, of the lemma files, and of the definitions alone."""
    specs, lemmas, words = set(), set(), set()
    for path in files(top, (".antt",)):
        parts = os.path.relpath(path, top).split("/")
        if len(parts) != 4:
            continue
        with open(path, encoding="utf-8") as text:
            for line in text:
                if line.lstrip().startswith("--"):
                    continue
                found = DECLARED.match(line)
                if not found:
                    continue
                name = found.group(1)
                (specs if parts[2] == "specs" else lemmas).add(name)
                if parts[2] == "specs" and line.startswith(("abbrev", "unfoldable")):
                    words.add(name)
    return specs, lemmas, words


def camel(name):
    return "".join(part[:1].upper() + part[1:] for part in re.split(r"[-_]", name))


def snake(name):
    return "_".join(part if part == "getD" else part.lower() for part in name.split("-"))


def lemma(name, words):
    parts = [snake(part) for part in name.split("-")]
    text = parts[0]
    for left, right in zip(parts, parts[1:]):
        joins = left in words and right in words
        text += ("-" if joins else "_") + right
    return text


def table(top):
    specs, lemmas, words = declared(top)
    rows = {}
    names = LIBRARY | {snake(w) for w in words if not w[:1].isupper()}
    for name in sorted(specs | lemmas | LOCAL):
        if name[:1].isupper():
            new = camel(name) if re.search(r"[-_]", name) else name
        elif name in lemmas and name not in specs:
            new = lemma(name.replace("getD", "get_or"), names)
        else:
            new = snake(name) if "-" in name else name
        if new != name:
            rows[name] = new
    return rows, specs | lemmas


def told(rows, known):
    """Names that would fall together."""
    seen = {}
    for name in sorted(known):
        new = rows.get(name, name)
        if new in seen and seen[new] != name:
            yield f"{seen[new]} and {name} both become {new}"
        seen[new] = name


def turn_result(text, path):
    """The definition `result` of Runs is `result_of`."""
    if path.endswith(".rt"):
        if "specs.Runs.{" not in text:
            return text
        text = re.sub(r"(specs\.Runs\.\{[^}]*)\bresult\b", r"\1result_of", text)
        return re.sub(r"\bresult operator\b", "result_of operator", text)
    home = path.endswith("program/specs/Runs.antt")
    if not home and not re.search(r"specs\.Runs\.\{[^}]*\bresult\b", text):
        return text
    return re.sub(r"(?<![\w.-])result(?![\w-])", "result_of", text)


def main():
    top = os.getcwd()
    if not os.path.exists(os.path.join(top, "crates.txt")):
        sys.exit("respell: run it at the top of the repository")
    rows, known = table(top)
    for line in told(rows, known):
        print("look:", line)

    def one(found):
        return rows.get(found.group(0), found.group(0))

    for path in files(top, (".antt", ".rt")):
        with open(path, encoding="utf-8") as source:
            old = source.read()
        new = re.sub(r"`([^`\n]*)`", lambda m: "`" + WORD.sub(one, m.group(1)) + "`", old)
        new = turn_result(WORD.sub(one, new), path)
        if new != old:
            with open(path, "w", encoding="utf-8") as sink:
                sink.write(new)
    for name, new in sorted(rows.items()):
        print(f"{name}\t{new}")


main()
