#!/usr/bin/env python3
"""Respells the repository's own definitions and lemmas: words in snake case, types in camel case.

Run once, at the top, on what an older Rattle's spelling left with dashes. It takes the dashed names that
stand in specs/ and in the lemma files of proofs/, and the dashed import aliases, but for those that a file
imports from a library, and turns each wherever it stands: in those files, in clauses, in must-fail edits, and
between backquotes in documents. Names that the check makes, functions of src/, strings and comments stay.
It stops where two dashed names fall together; whether one falls on a name without a dash is not looked at.
"""
import collections
import glob
import re
import sys

OWN = r"Rattle\.(ring|residue|bit|word|licensee|refusal|matrix|circuit|worksheet|lowering|builder|verifier|prover)\."
TOKEN = re.compile(r"[^\s(){}\[\];,.|λ∷\"`:«»]+")
DASHED = re.compile(r"^[A-Za-z0-9_']+(-[A-Za-z0-9_']+)+$")
DECLARED = re.compile(
    r"\s*(?:abbrev\s+|unfoldable\s+|pub\s+)*(?:record\s+|data\s+)?([^\s(){};:,]+)\s*(?:[({:]|:)"
)
USE = re.compile(r"\s*(?:pub )?(?:ghost )?use ([^{;]*?)(?:\.\{(.*)\})?;?\s*$")
SPECIAL = {"W-L": "W_L", "W-R": "W_R", "W-O": "W_O", "W-V": "W_V"}


def respelled(name):
    if name in SPECIAL:
        return SPECIAL[name]
    words = name.split("-")
    if name[0].isupper() and not any(c.isdigit() for c in words[0]):
        return "".join(w[0].upper() + w[1:] for w in words)
    return "_".join([words[0].lower() if name[0].isupper() else words[0]] + words[1:])


def joined_uses(text):
    """Each import on one line, as (module, names)."""
    text = re.sub(r"\.\{\s*\n([^}]*)\}", lambda m: ".{" + " ".join(m.group(1).split()) + "}", text)
    for line in text.split("\n"):
        m = USE.match(line)
        if m and m.group(2):
            yield m.group(1).strip(), [n.strip() for n in m.group(2).split(",") if n.strip()]


def code(line):
    """The part of a line before its comment."""
    return re.split(r"(?:^|\s)(?:--|//)(?:\s|$)", line, maxsplit=1)[0]


sources = sorted(glob.glob("crates/*/specs/**/*.antt", recursive=True) + glob.glob("crates/*/proofs/*.antt"))
answers = sorted(set(glob.glob("crates/*/proofs/**/*.antt", recursive=True)) - set(sources))
rust = sorted(glob.glob("crates/*/src/*.rt"))
edits = sorted(glob.glob("crates/*/must-fail/*.edit"))
documents = sorted(["README.md"] + glob.glob("docs/*.md") + glob.glob("crates/*/must-fail/*.md"))

names, fields, imported = set(), set(), set()
for path in sources:
    text = open(path).read()
    in_record = False
    for line in text.split("\n"):
        if re.match(r"\s*(pub )?record\b", line):
            in_record = True
        elif line and not line[0].isspace():
            in_record = False
        m = DECLARED.match(code(line))
        if m and DASHED.match(m.group(1)) and not USE.match(line):
            names.add(m.group(1))
            if in_record and line[0].isspace():
                fields.add(m.group(1))
for path in sources + answers + rust:
    for module, items in joined_uses(open(path).read()):
        for item in items:
            name, _, alias = (n.strip() for n in item.partition(" as "))
            if not re.match(OWN, module):
                imported.add(name)
            if DASHED.match(alias):
                names.add(alias)

# what specs/ and proofs/ bind within a definition
for path in sources:
    for line in open(path):
        if not USE.match(line):
            names.update(t for t in TOKEN.findall(code(line)) if DASHED.match(t))
names -= imported
table = {n: respelled(n) for n in names}
back = collections.defaultdict(set)
for old, new in table.items():
    back[new].add(old)
for new, olds in sorted(back.items()):
    if len(olds) > 1:
        sys.exit(f"these names fall together: {sorted(olds)}")


def turned(text, chosen, after_dot=lambda t: True):
    def one(m):
        t = m.group(0)
        if t not in chosen:
            return t
        if m.start() and m.string[m.start() - 1] == "." and not after_dot(t):
            return t
        return table[t]

    out = []
    for line in text.split("\n"):
        head = code(line)
        parts = re.split(r'("(?:[^"\\]|\\.)*")', head)
        parts = [p if p.startswith('"') else TOKEN.sub(one, p) for p in parts]
        out.append("".join(parts) + line[len(head):])
    return "\n".join(out)


def write(path, text, new):
    if new != text:
        open(path, "w").write(new)


for path in sources + rust:
    text = open(path).read()
    write(path, text, turned(text, table.keys()))
for path in answers:
    text = open(path).read()
    mine = set()
    for module, items in joined_uses(text):
        own = re.match(OWN, module) and ".Goals" not in module and ".Given" not in module
        for item in items:
            mine.update(item.split(" as ") if own else item.split(" as ")[1:])
    mine = {n.strip() for n in mine} & table.keys()
    write(path, text, turned(text, mine | (fields & table.keys()), lambda t: t in fields or t in mine))
for path in edits:
    text = open(path).read()
    write(path, text, turned(text, table.keys()))
for path in documents:
    text = open(path).read()
    new = re.sub(r"`[^`\n]*`", lambda m: TOKEN.sub(lambda t: table.get(t.group(0), t.group(0)), m.group(0)), text)
    write(path, text, new)
print(f"respell: {len(table)} names")
