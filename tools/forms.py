#!/usr/bin/env python3
"""Lists the places in crates/*/src where an older form of the language may stand, by point, for a reader to judge.

python3 tools/forms.py [FOLDER] [POINT..]   FOLDER has crates/ (default: here); without points, all of them and the counts
"""
import collections
import pathlib
import re
import sys

LINES = {
    # a flag in a struct; a number for a kind or a refusal, or that stands for nothing; a result taken apart by hand
    "1": [
        r"^\s*(pub(\(\w+\))? )?\w+: bool,",
        r"fn \w+(<T>)?\(\) -> u8|fn number\(self\)|Result<.*, u8>",
        r"let (Ok|Some|Err)\(.*\belse \{|Err\(_\) =>",
    ],
    # a loop over numbers, or by a condition
    "3": [r"\bfor \w+ in [^{]*\.\.", r"\bwhile\b", r"\bloop \{"],
    # texts made by hand; words of bytes by hand; a match that only copies or gives a default
    "4": [
        r"String::|push_str|format!|-> Result<String|-> &'static str",
        r"\* 256|256 \*|% 256|/ 256|65536",
        r"Some\(word\) => \*word|None => 0",
        r"^fn \w*(name|text|sign|spaced)\b",
    ],
    # a length or a count beside a buffer, indices into a table
    "6": [r"^\s*(pub(\(\w+\))? )?(count|tasks|len|size|first): (u8|u16|u32|usize),", r"^\s*\w+: \[[^\]]+; \w+\],"],
    # a function chosen by a number or held in a table
    "7": [r"\bfn\(", r"\bdyn\b", r"match (step|kind|which|mode)\b"],
}


def sources(top):
    return sorted(p for p in top.glob("crates/*/src/**/*.rt"))


def code(line):
    return line.split("//")[0]


def by_lines(top, patterns):
    for path in sources(top):
        for number, line in enumerate(path.read_text().splitlines(), 1):
            if any(re.search(p, code(line)) for p in patterns):
                yield f"{path.relative_to(top)}:{number}: {line.strip()}"


def enums(top):
    """Enums of at most two variants, one of which holds nothing."""
    for path in sources(top):
        for m in re.finditer(r"\benum (\w+)(<[^>]*>)? \{(.*?)\n\}", path.read_text(), re.S):
            variants = [v.strip() for v in re.sub(r"//.*|#\[.*?\]", "", m[3]).split("\n") if v.strip()]
            if len(variants) <= 2 and any("(" in v for v in variants):
                yield f"{path.relative_to(top)}: enum {m[1]}"


def functions(top):
    """Each function with its body, names and numbers left out."""
    for path in sources(top):
        text = re.sub(r"//.*", "", path.read_text())
        for m in re.finditer(r"^( *)(?:pub(?:\(\w+\))? )?fn (\w+)(.*?)^\1\}", text, re.M | re.S):
            body = m[3][m[3].find("{\n") :] if "ensures" not in m[3] else re.split(r"\n\s*\{\n", m[3], maxsplit=1)[-1]
            shape = re.sub(r"\b[A-Za-z_]\w*\b|\d+|\"[^\"]*\"", "x", body)
            shape = re.sub(r"\s+", "", shape)
            yield path.relative_to(top), m[2], shape


def twins(top):
    """Functions that differ in names and numbers alone."""
    groups = collections.defaultdict(list)
    for path, name, shape in functions(top):
        if len(shape) > 14:
            groups[shape].append(f"{path}: {name}")
    for group in groups.values():
        if len(group) > 1:
            yield " | ".join(group)


def clauses(top):
    """A requirement, or a fact of an ensures, that stands in three functions or more of a crate."""
    seen = collections.defaultdict(list)
    for path in sources(top):
        for m in re.finditer(r"\b(requires|ensures)( \w+)? \{ (.*?) \}$", path.read_text(), re.M):
            fact = re.sub(r"\bself\.(old|new|now|entry)\b", "self", m[3])
            if len(fact) > 12:
                seen[(path.parts[path.parts.index("crates") + 1], m[1], fact)].append(path)
    for (crate, kind, fact), paths in seen.items():
        if len(paths) > 2:
            yield f"{crate}: {kind} {{ {fact} }} in {len(paths)} functions"


def places(top, point):
    found = list(by_lines(top, LINES[point])) if point in LINES else []
    if point == "1":
        found += enums(top)
    if point == "2":
        found += twins(top)
    if point == "5":
        found += clauses(top)
    return found


def main():
    arguments = sys.argv[1:]
    top = pathlib.Path(arguments.pop(0)) if arguments and not arguments[0].isdigit() else pathlib.Path(".")
    for point in arguments or "1234567":
        found = places(top, point)
        print(f"point {point}: {len(found)}")
        for place in found:
            print("  " + place)
    answers = list(top.glob("crates/*/proofs/**/Answers.antt"))
    lines = sum(len(p.read_text().splitlines()) for p in top.glob("crates/*/proofs/**/*.antt"))
    print(f"point 8: {len(answers)} files of answers, {lines} lines of proofs")


if __name__ == "__main__":
    main()
