#!/usr/bin/env python3
"""Respells the names that specs/ and proofs/ declare: snake case, and camel case for types.

usage: python3 tools/respell.py            at the top of the repository, once, behind the kit's port.py
       python3 tools/respell.py --list     only prints old and new names, and those that would fall together

A name that starts with a capital is a type and is joined in camel case (`Size-line`, `SizeLine`; and `Laid_out`,
`LaidOut`, where the kit's script turned the dash); any other has its dashes turned to underscores (`own-fault`,
`own_fault`). Left alone are names that Rattle makes (goals,
the parts of a goal), names of the kit's libraries, Rust's own names, strings, inputs and outputs. A label of a
clause is a Rust identifier, so that its field in an answer is spelled as it stands in src/.
"""
import glob
import os
import re
import sys

WORD = r"[A-Za-z0-9_'\u00C0-\uFFFF-]"
TOKEN = re.compile(rf"(?<!{WORD})[A-Za-z]{WORD}*[_-]{WORD}+(?!{WORD})")
NAME = r"[A-Za-z][A-Za-z0-9_'-]*"
MARKS = r"(?:(?:abbrev|pub|unfoldable|pattern|data|record|field)\s+)*"
SIGNATURE = re.compile(rf"^\s*{MARKS}({NAME}(?:\s+{NAME})*)\s*(?:\{{[^}}]*\}}\s*)?:(?!:)\s*(.*)$")
TYPE = re.compile(rf"^\s*(?:abbrev\s+)?(?:pub\s+)?(?:data|record)\s+(?:pub\s+)?({NAME})")
BINDER = re.compile(rf"[({{]({NAME}(?:\s+{NAME})*)\s*:(?!:)")
LET = re.compile(rf"\blet\s+({NAME})\s*(?:=|:)")
LABEL = re.compile(r"\b(?:ensures|requires)\s+([a-z][a-z0-9_]*)\s*\{")
IMPORT = re.compile(r"^\s*(?:pub |ghost )*use\s+([^;{]*?)(?:\.\{([^}]*)\})?;?\s*$")
STRING = re.compile(r'"(?:[^"\\]|\\.)*"')


def files(*patterns):
    found = []
    for p in patterns:
        found += glob.glob(p, recursive=True)
    return sorted(f for f in found if "/out/" not in f)


def read(path):
    with open(path, encoding="utf-8") as f:
        return f.read()


def code(line):
    """A line of antt without its comment."""
    return line.split("-- ", 1)[0] if not line.lstrip().startswith("--") else ""


def declared():
    """The names with a dash that this repository declares, and those that it takes from elsewhere or that Rattle makes."""
    own, made = set(), set()
    for path in files("crates/*/specs/**/*.antt", "crates/*/proofs/**/*.antt"):
        for line in read(path).split("\n"):
            text = code(line)
            m = SIGNATURE.match(text)
            if m and "use " not in text.split(":")[0]:
                for n in m.group(1).split():
                    (made if m.group(2).startswith("goal.") else own).add(n)
            for rule in (TYPE, LET):
                for m in rule.finditer(text):
                    own.add(m.group(1))
            for m in BINDER.finditer(text):
                own.update(m.group(1).split())
            m = IMPORT.match(text)
            if m and m.group(2) and not re.match(r"Rattle\.(%s)\." % "|".join(sorted(os.listdir("crates"))), m.group(1)):
                made.update(w.strip().split(" as ")[0] for w in m.group(2).split(","))
    for path in files("crates/*/src/**/*.rt"):
        for label in LABEL.findall(read(path)):
            own.add(label.replace("_", "-"))
    return {n for n in own if "-" in n or re.match(r"[A-Z][a-z]+_", n)} - made


def respelled(name):
    if name[0].isupper():
        return "".join(w[:1].upper() + w[1:] for w in re.split("[_-]", name))
    return name.replace("-", "_")


def turned(text, names):
    return TOKEN.sub(lambda m: names.get(m.group(0), m.group(0)), text)


def turn_antt(line, names):
    head = code(line)
    rest = line[len(head):]
    return turned(head, names) + re.sub(r"`[^`]*`", lambda m: turned(m.group(0), names), rest)


def turn_rt(line, names):
    if line.lstrip().startswith("//"):
        return re.sub(r"`[^`]*`", lambda m: turned(m.group(0), names), line)
    parts, at = [], 0
    for m in STRING.finditer(line):
        parts += [turned(line[at:m.start()], names), m.group(0)]
        at = m.end()
    return "".join(parts) + turned(line[at:], names)


def main():
    names = {n: respelled(n) for n in declared()}
    listing = "--list" in sys.argv
    by_new = {}
    for old, new in sorted(names.items()):
        by_new.setdefault(new, []).append(old)
    for new, olds in by_new.items():
        if len(olds) > 1:
            print("fall together:", olds, new)
    sources = files("crates/*/specs/**/*.antt", "crates/*/proofs/**/*.antt", "crates/*/src/**/*.rt")
    for path in sources:
        text = read(path)
        words = set(re.findall(rf"{WORD}+", text))
        for old, new in sorted(names.items()):
            if old in words and new in words:
                print("both stand in", path, ":", old, new)
    if listing:
        for old, new in sorted(names.items()):
            print(old, new)
        return
    for path in sources:
        turn = turn_rt if path.endswith(".rt") else turn_antt
        text = read(path)
        new = "\n".join(turn(line, names) for line in text.split("\n"))
        if new != text:
            with open(path, "w", encoding="utf-8") as f:
                f.write(new)


main()
