#!/usr/bin/env python3
"""Tries the edits that the compiler refuses, before there is anything to prove.

A page crates/NAME/must-fail/does_not_compile.md has, indented, edits as those beside it (lines `file:`, `old:` and
`new:`, each text one line that stands once in that file), each followed by a line with what the compiler answers.
Each is made in a copy of the crates and has to be answered so. Run at the top; ends with status 1 where one is not.
"""
import glob
import os
import re
import shutil
import subprocess
import sys
import tempfile

EDIT = re.compile(r"^ +file: (.*)\n +old: (.*)\n +new: (.*)\n\n +(error\[.*)$", re.M)


def answer_to(crate, name, old, new):
    """The compiler's answer to an edit of a file of the crate, which is then put back."""
    path = os.path.join(crate, name)
    with open(path) as source:
        text = source.read()
    if text.count(old) != 1:
        return f"'{old}' does not stand once in {name}"
    with open(path, "w") as source:
        source.write(text.replace(old, new))
    try:
        run = subprocess.run(["rt", "try"], cwd=crate, capture_output=True, text=True)
        return run.stdout + run.stderr
    finally:
        with open(path, "w") as source:
            source.write(text)


def main():
    failed = 0
    with tempfile.TemporaryDirectory() as copy:
        shutil.copy("crates.txt", copy)
        shutil.copytree("crates", os.path.join(copy, "crates"), ignore=shutil.ignore_patterns("out"))
        for page in sorted(glob.glob("crates/*/must-fail/does_not_compile.md")):
            crate = os.path.join(copy, os.path.dirname(os.path.dirname(page)))
            with open(page) as text:
                edits = EDIT.findall(text.read())
            if not edits:
                failed += 1
                print(f"{page}: no edit reads")
            for name, old, new, expected in edits:
                answer = answer_to(crate, name, old, new)
                if expected in answer:
                    print(f"{page}: {name}: refused: {expected}")
                else:
                    failed += 1
                    print(f"{page}: {name}: NOT REFUSED SO: {new}\n{answer}")
    return 1 if failed else 0


if __name__ == "__main__":
    sys.exit(main())
