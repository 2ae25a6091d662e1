#!/usr/bin/env python3
"""Names the choice of `model` `when◌then◌else◌`, since `if◌then◌else◌` is the library's, which chooses among values alone; ours chooses among
types too. Run once, over the sources, specs, proofs and edits that import it."""
import glob
import os
import re

ROOT = os.path.join(os.path.dirname(os.path.abspath(__file__)), "..", "crates")
WORD = re.compile(r'"(?:[^"\\\n]|\\.)*"|(?<![^\s(){}.;,@"«»])--[^\n]*|(?<![^\s(){}.;,@"«»])if(?![^\s(){}.;,@"«»])')


def turned(text):
    return WORD.sub(lambda m: "when" if m[0] == "if" else m[0], text.replace("if◌then◌else◌", "when◌then◌else◌"))


def main():
    for path in glob.glob(f"{ROOT}/*/must-fail/*.edit"):
        with open(path, encoding="utf-8") as f:
            text = f.read()
        target = re.search(r"(?m)^file: (.*\.antt)$", text)
        if target:
            with open(os.path.join(os.path.dirname(path), "..", target[1]), encoding="utf-8") as f:
                if "if◌then◌else◌" in f.read():
                    with open(path, "w", encoding="utf-8") as out:
                        out.write(turned(text))
    for path in glob.glob(f"{ROOT}/*/specs/**/*.antt", recursive=True) + glob.glob(f"{ROOT}/*/proofs/**/*.antt", recursive=True):
        with open(path, encoding="utf-8") as f:
            text = f.read()
        if "if◌then◌else◌" in text:
            with open(path, "w", encoding="utf-8") as f:
                f.write(turned(text))


if __name__ == "__main__":
    main()
