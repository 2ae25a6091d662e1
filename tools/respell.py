#!/usr/bin/env python3
"""Respells the names that the specs and proofs of this repository declare, from camel case and dashes to snake case.

usage: tools/respell.py [ROOT]

Types, facts and modules keep their capitals, and so do functions of src/, strings and file names. Where a lemma's new name is that of a definition, the
lemma gets `_lem`. What it cites of libraries stays. In comments it turns names in back quotes, and those in camel case everywhere.
"""
import collections
import os
import re
import sys

WORD = r'[^\s(){}.;,@"«»]+'
DECLARED = re.compile(rf"^ *(?:unfoldable )?(?:abbrev )?(?:pub )?({WORD}) :", re.M)

def files(root, endings):
    for folder, dirs, names in os.walk(root):
        dirs[:] = sorted(d for d in dirs if d not in ("out", ".git", "target"))
        for name in sorted(names):
            if name.endswith(endings):
                yield os.path.join(folder, name)


def snake(name):
    return re.sub(r"(?<=[a-z0-9])[A-Z]", lambda m: "_" + m[0].lower(), name).replace("-", "_")


def table(root):
    """Each declared name that is not in snake case, with its new spelling."""
    own, old = set(), {}
    for path in files(os.path.join(root, "crates"), (".antt",)):
        if not re.search(r"/proofs/.*(Proof|Answers|Invariants)\.antt$", path):
            own.update(DECLARED.findall(read(path)))
    for name in own:
        if not name[0].isupper() and snake(name) != name:
            old[name] = snake(name)
    met = collections.Counter([*old.values(), *(own - set(old))])
    for name, new in list(old.items()):
        if met[new] > 1 and "-" in name:
            old[name] = new + "_lem"
    camel = {new for name, new in old.items() if "-" not in name}
    old |= {name: name + "_lem" for name in own if name in camel and name not in old}
    for new, times in collections.Counter([*old.values(), *(own - set(old))]).items():
        if times > 1:
            sys.exit(f"{new} would stand for {times} names")
    return old


def read(path):
    with open(path, encoding="utf-8") as f:
        return f.read()


def words(text, names):
    return re.sub(WORD, lambda m: names.get(m[0], m[0]), text)


def quoted(text, names):
    """Prose: what stands in back quotes, and names in camel case anywhere."""
    text = re.sub(r"`[^`\n]+`", lambda m: words(m[0][1:-1], names).join("``"), text)
    camel = {a: b for a, b in names.items() if re.search(r"[a-z0-9][A-Z]", a) and "-" not in a}
    return re.sub(r"(?<![\w-])[a-z]\w*(?![\w-])", lambda m: camel.get(m[0], m[0]), text)


def antt(text, names):
    out, at = [], 0
    for m in re.finditer(r'"(?:[^"\\\n]|\\.)*"|(?<![^\s(){}.;,@"«»])--[^\n]*', text):
        out += [words(text[at : m.start()], names), m[0] if m[0][0] == '"' else quoted(m[0], names)]
        at = m.end()
    return "".join(out) + words(text[at:], names)


def clauses(code):
    """Where the ghost parts of a source stand: `ghost use` items and the braces of clauses."""
    for m in re.finditer(r"ghost use [^;]*;|\b(?:requires|ensures)\*?(?: \w+)? \{", code):
        if code[m.end() - 1] == ";":
            yield m.start(), m.end()
            continue
        depth, at = 1, m.end()
        while depth:
            depth += {"{": 1, "}": -1}.get(code[at], 0)
            at += 1
        yield m.end(), at


def rt(text, names):
    out, at = [], 0
    for m in re.finditer(r'"(?:[^"\\]|\\.)*"|//[^\n]*', text):
        out.append((text[at : m.start()], True))
        out.append((m[0], False))
        at = m.end()
    out.append((text[at:], True))
    whole = "".join(part for part, _ in out)
    ghost = [False] * len(whole)
    blank = "".join(part if code else re.sub(r"[{};]", " ", part) for part, code in out)
    for start, end in clauses(blank):
        ghost[start:end] = [True] * (end - start)
    said, at = [], 0
    for part, code in out:
        if not code:
            said.append(part if part[0] == '"' else quoted(part, names))
        else:
            cut = 0
            for i in range(1, len(part) + 1):
                if i == len(part) or ghost[at + i] != ghost[at + cut]:
                    piece = part[cut:i]
                    said.append(words(piece, names) if ghost[at + cut] else piece)
                    cut = i
        at += len(part)
    return "".join(said)


def main():
    root = sys.argv[1] if len(sys.argv) > 1 else os.path.join(os.path.dirname(os.path.abspath(__file__)), "..")
    names = table(root)
    turned = 0
    for path in files(os.path.join(root, "crates"), (".antt", ".rt")):
        text = read(path)
        new = (antt if path.endswith(".antt") else rt)(text, names)
        if new != text:
            turned += 1
            with open(path, "w", encoding="utf-8") as f:
                f.write(new)
    print(f"{len(names)} names, {turned} files")


if __name__ == "__main__":
    main()
