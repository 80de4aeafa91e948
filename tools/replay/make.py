#!/usr/bin/env python3
"""Writes crates/replay/stdin and crates/replay/stdout: the cases of the program `replay`, and the lines expected of it.

    python3 tools/replay/make.py SRC OUT

From the repository's root. SRC is the folder of the Rust's sources; OUT, outside the repository, is where tools/oracle/build.sh builds the Rust.
Nothing here runs this port. A case that document 01 accepts has what the Rust says in the same room. Where the Rust panics (tools/patterns/panics.txt), the
permutation and six statistics are the Rust's in a room in which it does not panic, since no room changes them, and n_cmp_a is that of the theorems in
crates/definition/proofs/Compared.antt. A refusal is the first line that applies of document 01's table, written once more below.
The cases are the same at every run.
"""
import collections
import fractions
import pathlib
import subprocess
import sys

TOOLS = pathlib.Path(__file__).resolve().parent.parent
sys.path.insert(0, str(TOOLS / "shared"))
from draw import Draw  # noqa: E402
CRATE = TOOLS.parent / "crates" / "replay"

# as in crates/replay/src/main.rt
MOST_OUTPUT, MOST_LISTS, MOST_SCRATCH, MOST_NUMBERS, MOST_BYTES = 160, 2048, 4096, 49152, 131072

# n_cmp_a of every line of panics.txt: Compared.antt
COLLECTIONS_OF_A_PANIC = 1

# the multiplier is a / b, in floats
Case = collections.namedtuple("Case", "n a b aggressive permutation inverse lists scratch pointers rows")


def multiplier(c):
    if c.b == 0:
        return float("nan") if c.a == 0 else float("inf") * (1 if c.a > 0 else -1)
    return c.a / c.b


# ---- document 01's table

def bad_multiplier(c):
    m = multiplier(c)
    if m != m or m in (float("inf"), float("-inf")) or m > 1000:
        return True
    return not m < 0 and (fractions.Fraction(m) * 4).denominator != 1


def bad_pointers(c):
    p = c.pointers
    return (len(p) != c.n + 1 or p[0] != 0 or any(y < x for x, y in zip(p, p[1:])) or p[-1] > 20_000_000 or p[-1] > len(c.rows))


def jumbled(c):
    return any(c.rows[k + 1] <= c.rows[k] for a, e in zip(c.pointers, c.pointers[1:]) for k in range(a, e - 1))


def answer(c):
    if c.n < 0 or c.n > 2_000_000:
        return 2
    if bad_multiplier(c):
        return 3
    if c.permutation != c.n or c.inverse != c.n:
        return 4
    if bad_pointers(c):
        return 5
    nnz = c.pointers[-1]
    if any(r < 0 or r >= c.n for r in c.rows[:nnz]):
        return 6
    if c.lists < 2 * nnz + c.n or c.scratch < nnz + 16 * c.n + 16:
        return 7
    return int(jumbled(c))


# ---- cases

def case(pointers, rows, a=10, b=1, aggressive=1, more=0):
    """At the least room, or with `more` cells of lists."""
    n, nnz = len(pointers) - 1, pointers[-1]
    return Case(n, a, b, aggressive, n, n, 2 * nnz + n + more, nnz + 16 * n + 16, list(pointers), list(rows))


def of_columns(columns, **settings):
    pointers, rows = [0], []
    for c in columns:
        rows += c
        pointers.append(len(rows))
    return case(pointers, rows, **settings)


def of_edges(n, edges, **settings):
    """Upper entries, each column ascending."""
    columns = [[] for _ in range(n)]
    for i, j in sorted(edges):
        columns[max(i, j)].append(min(i, j))
    return of_columns([sorted(c) for c in columns], **settings)


def settled():
    star = lambda n: [(0, k) for k in range(1, n)]
    for aggressive in (1, 0):
        yield of_edges(0, [], aggressive=aggressive)
        yield of_edges(1, [], aggressive=aggressive)
        yield of_edges(2, [(0, 1)], aggressive=aggressive)
        yield of_edges(3, [(0, 1), (1, 2)], aggressive=aggressive)
        yield of_edges(3, [(0, 1), (1, 2), (0, 2)], aggressive=aggressive)
        yield of_edges(4, [(0, 1), (1, 2), (2, 3), (0, 3)], aggressive=aggressive)
        yield of_edges(17, star(17), a=-1, aggressive=aggressive)
        yield of_edges(18, star(18), a=-1, aggressive=aggressive)
    # the User Guide's sample, and the jumbled pattern of docs/DIFFERENCES.md
    yield case([0, 2, 6, 10, 12, 14], [0, 1, 0, 1, 2, 4, 1, 2, 3, 4, 2, 3, 1, 4])
    yield case([0, 3, 4, 6, 6], [2, 2, 3, 3, 1, 3])
    yield case([0, 2, 3, 5, 5], [2, 3, 3, 1, 3])


def of_file(name):
    for line in (TOOLS / "patterns" / name).read_text().splitlines():
        if line and not line.startswith("#"):
            head, pointers, rows = line.split("|")
            room, m, aggressive = head.split()
            c = case([int(x) for x in pointers.split()], [int(x) for x in rows.split()], a=int(m), aggressive=int(aggressive))
            yield c._replace(lists=int(room))


def found():
    """Hard patterns and those on which the Rust panics: as they are, in more room, the other way with aggressive, in one cell more."""
    for name in ("hard.txt", "panics.txt"):
        for c in of_file(name):
            yield c
            yield c._replace(lists=c.lists + c.n)
            if name == "hard.txt":
                yield c._replace(aggressive=1 - c.aggressive)
                yield c._replace(lists=c.lists + 1)


def drawn_edges(n, k, draw):
    out = set()
    while len(out) < min(k, n * (n - 1) // 2):
        i, j = draw.between(0, n - 1), draw.between(0, n - 1)
        if i != j:
            out.add((min(i, j), max(i, j)))
    return out


def stored(n, edges, kind, draw):
    """The columns of a pattern with these edges: upper, lower, both, either by chance, with a diagonal, out of order with repeats."""
    columns = [[] for _ in range(n)]
    for i, j in sorted(edges):
        here = draw.chance(0.5) if kind in ("either", "jumbled") else kind != "lower"
        if here or kind in ("both", "diagonal"):
            columns[j].append(i)
        if not here or kind in ("both", "diagonal"):
            columns[i].append(j)
    if kind == "diagonal":
        for k in range(n):
            columns[k].append(k)
    columns = [sorted(c) for c in columns]
    if kind == "jumbled":
        for c in columns:
            c.reverse()
            if c and draw.chance(0.3):
                c.append(draw.one_of(c))
    return columns


def drawn(draw):
    kinds = ("upper", "lower", "both", "either", "diagonal", "jumbled")
    # of every kind, of growing size
    for turn in range(48):
        n = 4 + turn // 2
        edges = drawn_edges(n, n + turn // 3, draw)
        yield of_columns(stored(n, edges, kinds[turn % 6], draw), aggressive=turn // 6 % 2)
    # dense rows
    for turn, (a, b) in enumerate([(0, 1), (0, -1), (1, 4), (1, 1), (2, 1), (5, 4), (3, 1), (-1, 1), (-1, 4), (1000, 1), (3999, 4), (5, 2)]):
        n = 24 + 3 * turn
        edges = drawn_edges(n, n, draw) | {(0, k) for k in range(1, n)} | {(min(5, k), max(5, k)) for k in range(0, 21) if k != 5}
        for aggressive in (1, 0):
            yield of_columns(stored(n, edges, kinds[turn % 6], draw), a=a, b=b, aggressive=aggressive)
    # grids, a complete graph, no edge, two parts
    for w, h in ((4, 4), (5, 7), (9, 9)):
        edges = {(x + w * y, x + 1 + w * y) for x in range(w - 1) for y in range(h)} | {(x + w * y, x + w * y + w) for x in range(w) for y in range(h - 1)}
        for kind in ("upper", "both"):
            yield of_columns(stored(w * h, edges, kind, draw))
    for n in (5, 16, 17, 18):
        yield of_edges(n, [(i, j) for j in range(n) for i in range(j)])
        yield of_edges(n, [(i, j) for j in range(n) for i in range(j)], a=0)
    yield of_edges(7, [])
    yield of_edges(9, [(0, 1), (1, 2), (4, 8), (5, 8), (4, 5)])


def collecting(draw, ask, want):
    """Patterns in whose least room the Rust collects its lists: those that the Rust says so of."""
    got = []
    while len(got) < want:
        cs = []
        for _ in range(400):
            n = draw.between(12, 34)
            edges = drawn_edges(n, draw.between(n, 2 * n), draw)
            cs.append(of_columns(stored(n, edges, "upper", draw), aggressive=draw.between(0, 1)))
        got += [c for c, line in zip(cs, ask(cs)) if "panic" not in line and line.rsplit(" ", 1)[1] != "0"]
    return got[:want]


def about(x):
    return (x - 1, x, x + 1)


def refused():
    """Every answer at its boundary, and two faults at once."""
    good = case([0, 2, 6, 10, 12, 14], [0, 1, 0, 1, 2, 4, 1, 2, 3, 4, 2, 3, 1, 4])
    n, nnz = good.n, good.pointers[-1]
    for size in (-2147483647, -1, 0, 4, 6, 1_999_999, 2_000_000, 2_000_001, 2147483647):
        yield good._replace(n=size)
    for a, b in ((0, 0), (1, 0), (-1, 0), (1000, 1), (4001, 4), (1001, 1), (3, 10), (1, 8), (1, 4), (0, -1), (-3, 10), (-1, 1000), (-2000, 1), (1, 3), (999, 1)):
        yield good._replace(a=a, b=b)
    for x in about(n):
        for y in about(n):
            yield good._replace(permutation=x, inverse=y)
    yield good._replace(pointers=good.pointers[:-1])
    yield good._replace(pointers=good.pointers + [nnz])
    yield good._replace(pointers=[])
    for k in range(n + 1):
        for x in (good.pointers[k] - 1, good.pointers[k] + 1, -1, 20_000_000, 20_000_001):
            p = list(good.pointers)
            p[k] = x
            yield good._replace(pointers=p)
    yield good._replace(rows=good.rows[:-1])
    for x in (-1, n, 2147483647):
        yield good._replace(rows=good.rows + [x])
        for k in (0, 7, nnz - 1):
            rows = list(good.rows)
            rows[k] = x
            yield good._replace(rows=rows)
    for x in about(good.lists) + (0,):
        for y in about(good.scratch) + (0,):
            yield good._replace(lists=x, scratch=y)
    faults = [dict(n=-1), dict(a=3, b=10), dict(permutation=n + 1), dict(pointers=[1] + good.pointers[1:]), dict(rows=[n] + good.rows[1:]), dict(lists=0)]
    for i, x in enumerate(faults):
        for y in faults[i + 1:]:
            yield good._replace(**{**x, **y})
    # no columns
    none = case([0], [])
    yield none
    yield none._replace(rows=[3])
    yield none._replace(pointers=[])
    yield none._replace(pointers=[1], rows=[0])
    yield none._replace(pointers=[0, 0])
    yield none._replace(scratch=15)
    yield none._replace(permutation=1)


# ---- what is expected

class Rust:
    def __init__(self, src, out):
        subprocess.run(["sh", str(TOOLS / "oracle" / "build.sh"), src, out], check=True)
        self.program = str(pathlib.Path(out) / "oracle")

    def ask(self, cases):
        """The Rust's line for each, in a room of `lists` cells; no columns are its own function's."""
        text = ""
        for c in cases:
            room = "order" if c.n == 0 else c.lists
            rows = c.rows[:c.pointers[-1]]
            text += f"{room} {multiplier(c)!r} {c.aggressive}|{' '.join(map(str, c.pointers))}|{' '.join(map(str, rows))}\n"
        done = subprocess.run([self.program], input=text, capture_output=True, text=True, check=True)
        return done.stdout.splitlines()


def expected(cases, rust):
    accepted = [c for c in cases if answer(c) < 2]
    told = dict(zip(map(repr, accepted), rust.ask(accepted)))
    lines, panics = [], 0
    for c in cases:
        if answer(c) >= 2:
            lines.append(f"{answer(c)}|||0 0 0 0 0 0 0|kept")
            continue
        line = told[repr(c)]
        if line.startswith("panic"):
            panics += 1
            line = rust.ask([c._replace(lists=c.lists + 16 * c.n)])[0]
            assert line.endswith(" 0")
            line = line[:-1] + str(COLLECTIONS_OF_A_PANIC)
        assert line.startswith(f"{answer(c)}|"), (c, line)
        lines.append(line + "|cleared")
    return lines, panics


def main():
    rust = Rust(sys.argv[1], sys.argv[2])
    draw = Draw(20)
    cases = [*settled(), *found(), *drawn(draw), *collecting(draw, rust.ask, 40), *refused()]
    lines, panics = expected(cases, rust)
    stdin = ""
    for c in cases:
        assert max(c.permutation, c.inverse) <= MOST_OUTPUT and c.lists <= MOST_LISTS and c.scratch <= MOST_SCRATCH
        head = [c.n, c.a, c.b, c.aggressive, c.permutation, c.inverse, c.lists, c.scratch, len(c.pointers), len(c.rows)]
        stdin += " ".join(map(str, head + c.pointers + c.rows)) + "\n"
    assert len(stdin.split()) <= MOST_NUMBERS and len(stdin) < MOST_BYTES
    (CRATE / "stdin").write_text(stdin)
    (CRATE / "stdout").write_text("".join(line + "\n" for line in lines))
    numbers = collections.Counter(line.split("|")[0] for line in lines)
    collections_seen = sum(line.split("|")[3].split()[-1] != "0" for line in lines)
    print(f"{len(cases)} cases, {panics} on which the Rust panics, {collections_seen} with collections; answers:",
          " ".join(f"{a}: {numbers[a]}" for a in sorted(numbers)))


main()
