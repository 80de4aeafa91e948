#!/usr/bin/env python3
"""Brings this repository's own names in clauses, specs/ and proofs/ to snake case: run once, at the top, right after the kit's port.py.

A name in camel case or with dashes becomes snake case; types, facts and modules keep their capitals. A lemma that would get a definition's name gets `_lem`.
A name that a file takes from the kit's library stays in that file, and so does a name that rt makes (behind `tie.`, `reads.` and the like).
Sources of functions, strings, inputs and outputs keep their names. The file renamed.txt beside this one lists each old name with its new one.
"""
import collections
import glob
import os
import re
import sys

HERE = os.path.dirname(os.path.realpath(__file__))
NAME = re.compile(r"[A-Za-z_][\w'₀-₉?]*(?:-[\w'₀-₉?]+)*")
DECLARED = re.compile(r"^\s*(?:(?:pub|abbrev|unfoldable|data|record|mutual)\s+)*([^\s(){}:]+(?: [^\s(){}:]+)*)\s*:", re.M)
BOUND = re.compile(r"[({]([^(){}:λ.]+) : ")
IMPORT = re.compile(r"use\s+([\w.'-]+)\.\{([^}]*)\}")
MADE = {"tie", "reads", "lts", "goal", "walk"}


def snake(name):
    name = name.replace("getD", "get_or").replace("-", "_")
    name = re.sub(r"([a-z0-9₀-₉'])([A-Z]+)", r"\1_\2", name)
    return name[0] + name[1:].lower()


def texts():
    for pattern in ("crates/**/*.antt", "crates/**/*.rt"):
        for path in sorted(glob.glob(pattern, recursive=True)):
            with open(path, encoding="utf-8") as f:
                yield path, f.read()


def code(path, text):
    return re.sub(r"--.*" if path.endswith(".antt") else r"//.*", "", text)


def declared(path, text):
    if not path.endswith(".antt") or re.search(r"/proofs/\w+/(?:Proof|Answers|Invariants)\.antt$", path):
        return set()
    return {n for names in DECLARED.findall(code(path, text)) + BOUND.findall(code(path, text)) for n in names.split()}


def own_library(module):
    m = re.match(r"Rattle\.(\w+)\.", module)
    return bool(m) and os.path.isdir(os.path.join("crates", m.group(1)))


def foreign(text):
    names = set()
    for module, items in IMPORT.findall(text):
        if not own_library(module):
            names |= {i.strip().split(" as ")[-1].strip() for i in items.split(",")}
    return names


def renaming():
    """Each declared name in lower case with its new one."""
    names = set()
    for path, text in texts():
        names |= {n for n in declared(path, text) if n[0].islower() and NAME.fullmatch(n)}
    groups = collections.defaultdict(set)
    for n in names:
        groups[snake(n)].add(n)
    new = {}
    for to, olds in groups.items():
        camel = {n for n in olds if re.search("[A-Z]", n) and "-" not in n}
        plain = {n for n in olds if n == to}
        first = (camel or plain or olds) if len(olds) > 1 else olds
        assert len(first) == 1, (to, olds)
        for n in olds:
            new[n] = to if n in first else to + "_lem"
    assert len(set(new.values())) == len(new), [n for n, k in collections.Counter(new.values()).items() if k > 1]
    return {a: b for a, b in new.items() if a != b}


def spelled(text, new, stay):
    """The text with its names renamed, but for those in stay and those that rt makes."""
    def put(m):
        n = m.group(0)
        if n in stay or n not in new:
            return n
        before = text[: m.start()]
        owner = re.search(r"([\w'-]+)\.$", before)
        if owner and owner.group(1) in MADE:
            return n
        return new[n]
    return NAME.sub(put, text)


def clauses(path, text, new):
    """A .rt file: only what antt reads is renamed, the braces behind requires, ensures, ghost and invariant, and ghost use lines."""
    out, i = [], 0
    for m in re.finditer(r"ghost use [^;]*;|\b(?:requires|ensures|invariant)(?: \w+)? \{|\bghost \w+: \{", text):
        if m.start() < i:
            continue
        end = m.end()
        if text[end - 1] == "{":
            depth = 1
            while depth:
                depth += {"{": 1, "}": -1}.get(text[end], 0)
                end += 1
        out += [text[i : m.start()], spelled(text[m.start() : end], new, foreign(text[m.start() : end]) if "use" in m.group(0) else foreign(text))]
        i = end
    return "".join(out) + text[i:]


def ticked(text, new, known=frozenset()):
    """Names in comments and pages: those between backticks, and those in camel case."""
    def put(m):
        turned = spelled(m.group(1), new, set())
        return "`" + NAME.sub(lambda n: snake(n.group(0)) if n.group(0) not in known and snake(n.group(0)) in known else n.group(0), turned) + "`"
    text = re.sub(r"`([^`\n]*)`", put, text)
    camel = {a: b for a, b in new.items() if re.search("[A-Z]", a)}
    return spelled(text, camel, set())


def main():
    new = renaming()
    for path, text in texts():
        stay = foreign(text)
        before = set(NAME.findall(code(path, text)))
        after = {new.get(n, n) if n not in stay else n for n in before}
        if len(after) != len(before) and path.endswith(".antt"):
            seen = collections.defaultdict(set)
            for n in before:
                seen[new.get(n, n) if n not in stay else n].add(n)
            print("fall together:", path, [v for v in seen.values() if len(v) > 1])
        lines = []
        if path.endswith(".rt"):
            text = clauses(path, text, new)
        for line in text.split("\n"):
            mark = "--" if path.endswith(".antt") else "//"
            at = line.find(mark)
            head, tail = (line, "") if at < 0 else (line[:at], line[at:])
            lines.append((spelled(head, new, stay) if path.endswith(".antt") else head) + ticked(tail, new))
        with open(path, "w", encoding="utf-8") as f:
            f.write("\n".join(lines))
    known = set().union(*(declared(path, text) for path, text in texts()))
    for path in sorted(["README.md"] + glob.glob("docs/*.md")):
        with open(path, encoding="utf-8") as f:
            text = f.read()
        with open(path, "w", encoding="utf-8") as f:
            f.write(ticked(text, new, known))
    with open(os.path.join(HERE, "renamed.txt"), "w", encoding="utf-8") as f:
        f.writelines(f"{a} {b}\n" for a, b in sorted(new.items()))


if __name__ == "__main__":
    sys.exit(main())
