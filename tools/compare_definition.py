#!/usr/bin/env python3
"""Holds the definition against the Rust, by theorems that the prover computes.

    python3 tools/compare_definition.py SRC [--work DIR]

From the repository's root. SRC is the folder of the Rust's sources. In DIR, outside the repository (a temporary folder where none is
named), the oracle is built and a repository of the crates plain, definition and comparison is written; `rt check` proves it.
Outcomes: answer, permutation, inverse and the seven statistics, the Rust run in the same room.
Lists: the neighbours of each row in order, against preprocess.rs and the first half of amd_1.rs, here line by line in Python.
The cases are the same at every run.
"""
import argparse
import collections
import pathlib
import re
import shutil
import subprocess
import sys
import tempfile
import time

TOOLS = pathlib.Path(__file__).resolve().parent
sys.path.insert(0, str(TOOLS / "shared"))
from draw import Draw  # noqa: E402
CRATES = TOOLS.parent / "crates"
EMPTY = -1

# ---- cases

# columns: the rows of each column, as stored
Problem = collections.namedtuple("Problem", "kind columns multiplier aggressive room")
Listed = collections.namedtuple("Listed", "kind columns")
# a case as it is printed, and in antt
Entry = collections.namedtuple("Entry", "kind n label text")


def packed(columns):
    pointers = [0]
    for column in columns:
        pointers.append(pointers[-1] + len(column))
    return pointers, [row for column in columns for row in column]


def least_room(columns):
    return 2 * sum(map(len, columns)) + len(columns)


def stored(draw, storage, n, edges):
    """The pairs i < j of edges, stored above the diagonal, below it, or both. Mixed: each its own way; single: each once."""
    columns = [[] for _ in range(n)]
    ways = {"mixed": ["upper", "lower", "symmetric"], "single": ["upper", "lower"]}
    for i, j in edges:
        way = draw.one_of(ways.get(storage, [storage]))
        if way != "lower":
            columns[j].append(i)
        if way != "upper":
            columns[i].append(j)
    return [sorted(column) for column in columns]


def drawn(draw, storage, n, degree):
    """About `degree` neighbours for each row. Unsymmetric: each place off the diagonal by itself."""
    p = min(1, degree / n)
    if storage == "unsymmetric":
        return [[i for i in range(n) if i != j and draw.chance(p / 2)] for j in range(n)]
    return stored(draw, storage, n, [(i, j) for j in range(n) for i in range(j) if draw.chance(p)])


def with_diagonal(draw, columns):
    return [sorted(column + [j]) if draw.chance(0.5) else column for j, column in enumerate(columns)]


def jumbled(draw, columns):
    """Out of order, with repeats; the longest column has one for sure."""
    longest = max(range(len(columns)), key=lambda j: len(columns[j]))
    result = []
    for j, column in enumerate(columns):
        repeats = [row for row in column if draw.chance(0.25)]
        if j == longest:
            repeats.append(column[0] if column else j)
            column = column or [j]
        result.append(draw.shuffled(column + repeats))
    return result


def hubs(draw, n, count):
    """Rows next to every other row, or to all but a few; between the others a few edges, or none: a star."""
    middle = draw.shuffled(range(n))[:count]
    edges = set()
    for hub in middle:
        spared = draw.shuffled(range(n))[:draw.one_of([0, 0, 0, 1, 3])]
        edges |= {(min(hub, v), max(hub, v)) for v in range(n) if v != hub and v not in spared}
    if draw.chance(0.7):
        edges |= {(i, j) for j in range(n) for i in range(j) if draw.chance(1.5 / n)}
    return sorted(edges)


def grid(rows, width):
    right = [(v, v + 1) for v in range(rows * width) if (v + 1) % width]
    down = [(v, v + width) for v in range((rows - 1) * width)]
    return sorted(right + down)


def problems():
    """Every second one is aggressive; the room is 0 to 7 cells above the least."""
    draw = Draw(20817)
    result = []

    def add(kind, columns, multiplier="10", most=7):
        result.append(Problem(kind, columns, multiplier, len(result) % 2 == 0, least_room(columns) + draw.between(0, most)))

    for line in (TOOLS / "patterns" / "hard.txt").read_text().splitlines():
        if not line.startswith("#"):
            head, pointers, rows = line.split("|")
            room, multiplier, aggressive = head.split()
            pointers, rows = [int(x) for x in pointers.split()], [int(x) for x in rows.split()]
            columns = [rows[a:b] for a, b in zip(pointers, pointers[1:])]
            result.append(Problem("hard", columns, multiplier, aggressive == "1", int(room)))

    for storage in ["unsymmetric", "upper", "lower", "symmetric", "mixed"]:
        for k in range(32):
            n = 1 + k % 24 if k < 24 else draw.between(12, 24)
            columns = drawn(draw, storage, n, 1 + 5 * draw.random())
            add(storage, with_diagonal(draw, columns) if k % 4 == 3 else columns)
    # where lists are collected
    for k in range(24):
        add("tight", drawn(draw, ["upper", "lower", "single"][k // 2 % 3], draw.between(10, 24), 4 + 2 * draw.random()), most=1)
    for k in range(40):
        n = draw.between(2, 20)
        columns = drawn(draw, draw.one_of(["unsymmetric", "mixed"]), n, 1 + 4 * draw.random())
        add("jumbled", jumbled(draw, with_diagonal(draw, columns) if k % 4 == 3 else columns))
    for k in range(48):
        n = draw.between(18, 26)
        columns = stored(draw, ["upper", "lower", "symmetric", "mixed"][k // 4 % 4], n, hubs(draw, n, 1 + k % 3))
        add("dense", jumbled(draw, columns) if k % 6 == 5 else columns, ["-1", "0", "0.25", "-0"][k // 2 % 4])
    for k, (rows, width) in enumerate([(2, 2), (2, 3), (3, 3), (2, 6), (3, 4), (4, 4), (3, 6), (4, 5), (5, 4), (5, 5), (4, 6), (5, 6)]):
        add("grid", stored(draw, ["upper", "symmetric", "lower", "mixed"][k % 4], rows * width, grid(rows, width)))
    # lib.rs chooses this room: of A+A', one fifth more, and n. For one triangle it is never below the least.
    for k in range(20):
        columns = drawn(draw, ["upper", "lower"][k % 2], k, 1 + 4 * draw.random()) if k else []
        entries = 2 * sum(map(len, columns))
        result.append(Problem("order", columns, "10", k // 2 % 2 == 0, entries + entries // 5 + k))
    return result


def patterns():
    """The patterns whose neighbour lists are compared."""
    draw = Draw(9090)
    result = []
    # the first kinds are those in which rows wait
    for kind, storage, count in [("unsymmetric", "unsymmetric", 40), ("single", "single", 30), ("mixed", "mixed", 30), ("jumbled", "mixed", 30),
                                 ("upper", "upper", 6), ("lower", "lower", 6), ("symmetric", "symmetric", 6)]:
        for k in range(count):
            n = 2 + k % 11
            columns = drawn(draw, storage, n, n * (0.2 + 0.7 * draw.random()))
            columns = with_diagonal(draw, columns) if k % 3 == 2 else columns
            columns = jumbled(draw, columns) if kind == "jumbled" else columns
            if all(columns != p.columns for p in result):
                result.append(Listed(kind, columns))
    return result


# ---- the Rust

Answer = collections.namedtuple("Answer", "answer permutation inverse statistics")


def ask(oracle, lines):
    """An Answer for each line, or the oracle's word where it has none."""
    said = subprocess.run([oracle], input="\n".join(lines) + "\n", stdout=subprocess.PIPE, text=True, check=True).stdout.splitlines()
    if len(said) != len(lines):
        sys.exit(f"{len(said)} answers for {len(lines)} cases")
    parts = [line.split("|") for line in said]
    return [Answer(*([int(x) for x in field.split()] for field in part)) if len(part) == 4 else part[0] for part in parts]


def line_of(room, p):
    pointers, rows = packed(p.columns)
    return f"{room} {p.multiplier} {int(p.aggressive)}|{' '.join(map(str, pointers))}|{' '.join(map(str, rows))}"


def answered(oracle, ps):
    """Each problem with the Rust's answer in its room. `order` must give the same, but for the collections of its own room."""
    lines = [line_of("order" if p.kind == "order" else p.room, p) for p in ps]
    result = []
    for p, line, here, whole in zip(ps, lines, ask(oracle, lines), ask(oracle, [line_of("order", p) for p in ps])):
        if not isinstance(here, Answer):
            print(f"not compared, the Rust says {here}: {line}")
            continue
        if isinstance(whole, Answer) and whole._replace(statistics=whole.statistics[:6]) != here._replace(statistics=here.statistics[:6]):
            sys.exit(f"`order` says something else than its parts: {line}")
        result.append((p, line, here))
    return result


# ---- preprocess.rs, and amd_1.rs up to its call of amd_2, with their names


def preprocess(n, a_p, a_i):
    w = [0] * n
    flag = [EMPTY] * n
    for j in range(n):
        p1 = a_p[j]
        p2 = a_p[j + 1]
        for p in range(p1, p2):
            i = a_i[p]
            if flag[i] != j:
                w[i] += 1
                flag[i] = j
    nz = a_p[n]
    r_p = [0] * (n + 1)
    r_i = [0] * max(nz, 1)
    for i in range(n):
        r_p[i + 1] = r_p[i] + w[i]
    for i in range(n):
        w[i] = r_p[i]
        flag[i] = EMPTY
    for j in range(n):
        p1 = a_p[j]
        p2 = a_p[j + 1]
        for p in range(p1, p2):
            i = a_i[p]
            if flag[i] != j:
                r_i[w[i]] = j
                w[i] += 1
                flag[i] = j
    return r_p, r_i


def amd_1(n, a_p, a_i, length, iwlen):
    p_e = [0] * n
    s_p = [0] * n
    t_p = [0] * n
    i_w = [0] * iwlen
    pfree = 0
    for j in range(n):
        p_e[j] = pfree
        s_p[j] = pfree
        pfree += length[j]
    for k in range(n):
        p1 = a_p[k]
        p2 = a_p[k + 1]
        p = p1
        while p < p2:
            j = a_i[p]
            if j < k:
                i_w[s_p[j]] = k
                s_p[j] += 1
                i_w[s_p[k]] = j
                s_p[k] += 1
                p += 1
            elif j == k:
                p += 1
                break
            else:
                break
            pj = t_p[j]
            pj2 = a_p[j + 1]
            while pj < pj2:
                i = a_i[pj]
                if i < k:
                    i_w[s_p[i]] = j
                    s_p[i] += 1
                    i_w[s_p[j]] = i
                    s_p[j] += 1
                    pj += 1
                elif i == k:
                    pj += 1
                    break
                else:
                    break
            t_p[j] = pj
        t_p[k] = p
    for j in range(n):
        p2 = a_p[j + 1]
        for pj in range(t_p[j], p2):
            i = a_i[pj]
            i_w[s_p[i]] = j
            s_p[i] += 1
            i_w[s_p[j]] = i
            s_p[j] += 1
    for j in range(n):
        assert s_p[j] == p_e[j] + length[j]
    return [i_w[p_e[j]:s_p[j]] for j in range(n)]


def neighbour_lists(columns):
    n = len(columns)
    a_p, a_i = packed(columns)
    if any(a >= b for column in columns for a, b in zip(column, column[1:])):
        a_p, a_i = preprocess(n, a_p, a_i)
    entries = {(a_i[p], j) for j in range(n) for p in range(a_p[j], a_p[j + 1])}
    length = [sum(i != j and ((i, j) in entries or (j, i) in entries) for i in range(n)) for j in range(n)]
    return amd_1(n, a_p, a_i, length, sum(length) + n)


# ---- in antt

MULTIPLIERS = {"10": "ten", "-1": "minus_one", "0": "(fin false 0 (pos 0))", "0.25": "a_quarter", "-0": "minus_zero"}

# of a module: its first lines, the type of a case, the test, and what is opened for it
Sheet = collections.namedtuple("Sheet", "head case test opened")

HEAD = """use Rattle.std.proofs.Common.{◌≡◌, ℕ, Bool, true, false, ◌&&◌, List, [], ◌∷◌, pos, refl}
use lib.Ieee.{fin}
use Rattle.plain.specs.Lists.{every}
use Rattle.definition.specs.Opened.{opened}
use Rattle.definition.proofs.Problems.{ten, minus_one, minus_zero, a_quarter, equal}
"""

OUTCOMES = Sheet(HEAD + "use Rattle.definition.proofs.Compared.{Case, case, agrees}\n", "Case", "agrees", "opened agrees equal")
LISTS = Sheet(HEAD + "use Rattle.comparison.proofs.Listed.{Listed, listed, equal_all, alike}\n", "Listed", "alike", "opened alike equal_all equal")

LISTED = HEAD + """use Rattle.definition.specs.Cleaned.{cleaned}
use Rattle.definition.specs.Neighbours.{neighbours}

pub record Listed : Type 0 where
  pub columns : List (List ℕ)
  pub lists : List (List ℕ)

abbrev pub listed : List (List ℕ) → List (List ℕ) → Listed
listed columns lists = record { columns = columns; lists = lists }

unfoldable pub equal_all : List (List ℕ) → List (List ℕ) → Bool
equal_all [] [] = true
equal_all [] (y ∷ ys) = false
equal_all (x ∷ xs) [] = false
equal_all (x ∷ xs) (y ∷ ys) = equal x y && equal_all xs ys

unfoldable pub alike : Listed → Bool
alike c = equal_all (neighbours (cleaned c.columns)) c.lists
"""


def antt(xs):
    return "(" + " ∷ ".join([antt(x) if isinstance(x, list) else str(x) for x in xs] + ["[]"]) + ")"


def outcome_entry(p, line, said):
    pointers, rows = packed(p.columns)
    asked = [len(p.columns), antt(pointers), antt(rows), MULTIPLIERS[p.multiplier], "true" if p.aggressive else "false", p.room]
    answers = [said.answer[0], antt(said.permutation), antt(said.inverse), antt(said.statistics)]
    return Entry(p.kind, len(p.columns), line, " ".join(map(str, ["case", *asked, *answers])))


def list_entry(p):
    return Entry(p.kind, len(p.columns), str(p.columns), f"listed {antt(p.columns)} {antt(neighbour_lists(p.columns))}")


def module(sheet, entries):
    cases = "\n    ∷ ".join([entry.text for entry in entries] + ["[]"])
    return (f"{sheet.head}\nabbrev cases : List {sheet.case}\ncases =\n    {cases}\n\n"
            f"pub compared : every {sheet.test} cases ≡ true\nunfolding {sheet.opened}\ncompared = refl\n")


def parts(entries, most):
    """Some cases to a part, each large one in a part of its own: a declaration may take so many steps only."""
    small = [entry for entry in entries if entry.n <= 40]
    return [small[k:k + most] for k in range(0, len(small), most)] + [[entry] for entry in entries if entry.n > 40]


# ---- the prover

def check(repository, modules):
    """Proves the modules, a name with a sheet and entries each, and returns the names of those that fail."""
    proofs = repository / "crates" / "comparison" / "proofs"
    shutil.rmtree(proofs, ignore_errors=True)
    proofs.mkdir(parents=True)
    (proofs / "Listed.antt").write_text(LISTED)
    for name, (sheet, entries) in modules.items():
        (proofs / f"{name}.antt").write_text(module(sheet, entries))
    (proofs / "Lib.antt").write_text("".join(f"pub mod {name}\n" for name in ["Listed", *modules]))
    done = subprocess.run(["rt", "check"], cwd=repository / "crates" / "comparison", stdout=subprocess.PIPE, stderr=subprocess.STDOUT, text=True)
    failed = set(re.findall(r"proofs/(\w+)\.antt:\d+:\d+: error", done.stdout))
    if done.returncode and not failed & set(modules):
        sys.exit(done.stdout)
    return failed


def disagreeing(repository, modules):
    """The entries that fail: of each module that does, case by case."""
    failed = check(repository, modules)
    alone = [(sheet, [entry]) for name, (sheet, entries) in modules.items() if name in failed for entry in entries]
    single = {f"One{k}": case for k, case in enumerate(alone, 1)}
    failed = check(repository, single) if single else set()
    return [entries[0] for name, (sheet, entries) in single.items() if name in failed]


def lay_out(repository):
    for name in ["plain", "definition"]:
        shutil.rmtree(repository / "crates" / name, ignore_errors=True)
        shutil.copytree(CRATES / name, repository / "crates" / name, ignore=shutil.ignore_patterns("out", "must-fail"))
    (repository / "crates" / "comparison" / "src").mkdir(parents=True, exist_ok=True)
    (repository / "crates" / "comparison" / "src" / "lib.rt").write_text("// No code: the comparisons stand in proofs/.\n#![tactic(auto)]\n")
    (repository / "crates.txt").write_text("plain:\ndefinition: plain\ncomparison: plain definition\n")


def report(what, entries, bad):
    kinds = collections.Counter(entry.kind for entry in entries)
    print(f"{what}: {len(entries) - len(bad)} of {len(entries)} agree ({', '.join(f'{kind} {count}' for kind, count in kinds.items())})")
    for entry in bad:
        print(f"  does not agree: {entry.kind}: {entry.label}")


def run(src, work):
    subprocess.run([TOOLS / "oracle" / "build.sh", src, work / "oracle"], check=True)
    compared = answered(work / "oracle" / "oracle", problems())
    outcomes = [outcome_entry(*case) for case in compared]
    lists = [list_entry(p) for p in patterns()]

    modules = {f"Part{k}": (OUTCOMES, part) for k, part in enumerate(parts(outcomes, 15), 1)}
    modules.update({f"Lists{k}": (LISTS, part) for k, part in enumerate(parts(lists, 30), 1)})
    lay_out(work / "repository")
    began = time.time()
    bad = disagreeing(work / "repository", modules)
    took = time.time() - began

    report("outcomes", outcomes, [entry for entry in bad if entry in outcomes])
    said = [s for p, line, s in compared]
    print(f"  aggressive {sum(p.aggressive for p, line, s in compared)}, jumbled {sum(s.answer == [1] for s in said)}, "
          f"with dense rows {sum(s.statistics[4] > 0 for s in said)}, with collections {sum(s.statistics[6] > 0 for s in said)}")
    report("lists", lists, [entry for entry in bad if entry in lists])
    print(f"{len(modules)} theorems, proved in {took:.0f} s")
    return bool(bad)


def main():
    parser = argparse.ArgumentParser()
    parser.add_argument("src", type=pathlib.Path)
    parser.add_argument("--work", type=pathlib.Path)
    given = parser.parse_args()
    if given.work:
        given.work.mkdir(parents=True, exist_ok=True)
        sys.exit(run(given.src, given.work.resolve()))
    with tempfile.TemporaryDirectory() as folder:
        sys.exit(run(given.src, pathlib.Path(folder)))


if __name__ == "__main__":
    main()
