#!/usr/bin/env python3
"""Turns a crate's proofs/F/Proof.antt, a walk of the code by hand, into Invariants.antt and Answers.antt, once the crates below it prove.

usage: turn_proofs.py NAMES CRATE [F..]     NAMES: the file that `rt check --generated OUT --old-names` writes in the crate

An answer that a check finds alone is left out; the others keep their terms, with the names of goals and steps as they are today.
"""
import json
import os
import re
import sys

FIELD = r"[A-Za-z_][\w'-]*"


def blocks(text):
    """The declarations of a file: name, signature, unfolding, left side and body, comment."""
    out, cur, note = [], None, []
    for line in text.split("\n"):
        if line.startswith("--"):
            note.append(line)
            continue
        if line.startswith("use "):
            note = [] if out else note
            continue
        m = re.match(r"((?:abbrev |pub |unfoldable )*)(\S+) : (.*)", line) if line and not line[0].isspace() else None
        if m:
            cur = {"mark": m.group(1), "name": m.group(2), "sig": m.group(3), "unf": "", "def": [], "note": note if out else []}
            note = []
            out.append(cur)
        elif cur is not None and line.startswith("unfolding"):
            cur["unf"] = line
        elif cur is not None and line.strip():
            cur["def"].append(line)
    return out


def key(name):
    name = re.sub(r"^(overflow|nonzero|bounds|offset_bounds|slice_bounds|slice-bounds|offset-bounds)[-_]", "", name.replace("shared_slice_copy_out", "shared-slice-copy-out"))
    return name.replace("_", "-")


class Names:
    def __init__(self, record):
        self.needs = {}
        for (old, new), (place, _) in zip(record["needs"], record["asked_at"]):
            self.needs[key(old)] = (new, place)
        self.places = {p[0]: (p[1], p[2][0], p[2][1]) for p in record["places"]}
        self.place_now = dict(zip(self.places, record["places_by_name"]))
        self.loops = record["loops"]
        self.changed = record["changed"]
        self.arms = {}
        for p, arm in zip(record["places"], record["arms"]):
            for new, old, rest in arm[2] if arm else []:
                if rest:
                    self.arms[p[0]] = (arm[0], new, old, rest)
        self.steps = {}
        for p in record["places"]:
            self.steps.setdefault(p[2][0].replace("_", "-"), []).append(p[2][1])


def turned(body, names, place, goal, helpers):
    """The body with each path of steps from c as it is today. A helper takes the record of its own place."""
    alias = {"c": place}
    trouble = []
    for h, at in helpers.items():
        inner = "c" if at == place else f"(goal.at.{goal} c).{names.place_now[at]}"
        body = re.sub(r"(?<![\w.'-])" + re.escape(h) + r" ([a-z]\w*'?)((?:\.before)*)(?![\w.'-])", f"{h} {inner}" if goal else h + r" \1\2", body)

    def walk(m):
        root, path = m.group(1), m.group(2)
        if root not in alias:
            return m.group(0)
        at, parts, out = alias[root], path.split(".")[1:], []
        first = True
        for i, part in enumerate(parts):
            if first and at in names.arms and key(part) == key(names.arms[at][2]) and parts[i + 1 : i + 1 + len(names.arms[at][3])] == names.arms[at][3]:
                return root + "." + ".".join([names.arms[at][0], names.arms[at][1]] + parts[i + 1 + len(names.arms[at][3]) :])
            if part == "before" and at is not None:
                at = names.places[at][0] if at in names.places else None
                continue
            if first:
                old = names.places[at][1] if at in names.places else None
                if old is not None and key(re.sub("_lem$", "", part)) == key(old) and old:
                    part = names.places[at][2]
                elif part.replace("-", "_") not in ("args", "requires", "ranges", "well_formed", "type_inv", "auto"):
                    known = names.steps.get(part.replace("_", "-"))
                    if known and len(set(known)) == 1:
                        part = known[0]
                    else:
                        trouble.append(part)
                first = False
            out.append({"well-formed": "well_formed", "type-inv": "type_inv"}.get(part, part))
        walked.append((root, at, bool(out)))
        return root + "".join("." + p for p in out)

    walked = []
    lines = []
    for line in body.split("\n"):
        m = re.match(r"^(\s*(?:\S+ \S+(?: \S+)* = )?let (\w+'?) = )(\w+)((?:\.before)*)( in.*)$", line)
        if m and m.group(3) in alias:
            at = alias[m.group(3)]
            for _ in range(m.group(4).count(".before")):
                at = names.places[at][0] if at in names.places else None
            alias[m.group(2)] = at
            lines.append(m.group(1) + m.group(3) + m.group(5))
            continue
        lines.append(re.sub(r"(?<![\w.'-])([A-Za-z]\w*'?)((?:\." + FIELD + r"|\.\d+)+)", walk, line))
    return "\n".join(lines), trouble


def trivial(body):
    one = r"(?:search rules(?: depth \d+)?|omega arith|tt|refl)"
    return bool(re.fullmatch(one, body) or re.fullmatch(r"\(%s(?:, %s)*\)" % (one, one), body))


def imports(text, used, skip):
    out = []
    for m in re.finditer(r"^use ([\w.'-]+)\.\{([^}]*)\}$", text, re.M):
        if any(s in m.group(1) for s in skip):
            continue
        items = [i.strip() for i in m.group(2).split(",")]
        kept = []
        for i in items:
            name = i.split(" as ")[-1].strip()
            bare = [w for w in re.split("◌", name) if w]
            if all(re.search(r"(?<![\w'-])" + re.escape(w) + r"(?![\w'-])", used) if re.match(r"\w", w) else w in used for w in bare):
                kept.append(i)
        if kept:
            out.append("use %s.{%s}" % (m.group(1), ", ".join(kept)))
    for m in re.finditer(r"^use ([\w.'-]+) as (\S+)$", text, re.M):
        if not any(m.group(1).endswith(s) for s in skip) and re.search(r"(?<![\w'-])" + re.escape(m.group(2)) + r"\.", used):
            out.append(m.group(0))
    return out


def turn(crate, fn, record, source):
    path = f"crates/{crate}/proofs/{fn}/Proof.antt"
    with open(path, encoding="utf-8") as f:
        text = f.read()
    head = []
    for line in text.split("\n"):
        if not line.startswith("--"):
            break
        if line != "-- Assumes nothing.":
            head.append(line)
    names = Names(record)
    body_of = re.search(r"fn " + fn + r"\b.*?\n}\n", source, re.S)
    fors = set(re.findall(r"for (\w+) in", body_of.group(0))) if body_of else set()
    inv, ans, said, helpers = [], [], [], {}
    loops = {}
    for i, (pair, variables) in enumerate(names.loops):
        loops[pair[0].replace("_", "-")] = (pair[1], variables, names.changed[i])
    for b in blocks(text):
        m = re.match(r"\(c : tie\.(\S+?)[ )]", b["sig"]) or (re.match(r"tie\.(\S+).* → ", b["sig"]) if b["name"] != "statement" else None)
        if m and m.group(1) in names.places:
            at = m.group(1)
            sig = re.sub(r"tie\." + re.escape(at) + r"(?: invariant-\S+| decreases-[^\s)]+)*", "goal." + names.place_now[at], b["sig"])
            sig, t1 = turned(sig, names, at, None, helpers)
            body, t2 = turned("\n".join(b["def"]), names, at, None, helpers)
            if t1 + t2:
                said.append(f"steps of {b['name']}: {t1 + t2}")
            helpers[b["name"]] = at
            ans.append(("helper", dict(b, sig=sig, **{"def": [body]})))
            continue
        m = re.match(r"tie\.(\S+)", b["sig"])
        if not m:
            if "statement" not in b["sig"]:
                if "tie." in b["sig"]:
                    said.append("local " + b["name"])
                ans.append(("local" if "tie." in b["sig"] else "helper", b))
            continue
        need = m.group(1)
        body = "\n".join(b["def"])
        if need.startswith(("invariant-", "decreases-")):
            kind, loop = need.split("-", 1)
            if loop.replace("_", "-") not in loops:
                said.append("loop? " + need)
                continue
            new, variables, changed = loops[loop.replace("_", "-")]
            measured = kind == "decreases"
            if measured and new.split("-", 1)[-1] in fors:
                continue
            left, right = body.split("=", 1)
            params = left.split()[1:]
            fields = [("l.initial." if c else "l.") + v for v, c in zip(variables, changed)] + ["l." + v for v, c in zip(variables, changed) if c]
            if len(fields) != len(params):
                said.append(f"params of {need}: {params} {fields}")
            field = dict(zip(params, fields))
            if "l" not in field:
                field["l"] = "xs"
            right = re.sub(r"(?<![\w.'-])[^\W\d][\w'₀-₉]*", lambda w: field.get(w.group(0), w.group(0)), right)
            inv.append((f"{kind}-{new}", b["unf"], right.strip("\n"), b["note"]))
            continue
        need = need[5:] if need.startswith("Need-") else need
        if "=" not in body:
            said.append("odd " + b["name"])
            continue
        term = body.split("=", 1)[1]
        if trivial(" ".join(term.split())) and not b["unf"]:
            continue
        if key(need) not in names.needs:
            said.append("goal? " + need)
            ans.append(("lost", b))
            continue
        new, place = names.needs[key(need)]
        term, trouble = turned(term, names, place, new, helpers)
        if trouble:
            said.append(f"steps of {new}: {trouble}")
        ans.append((new, b["unf"], term, b["note"]))
    base = f"Rattle.{crate}.proofs.{fn}."
    skip = [base + "Statement", base + "Tie", ".Statement", ".Tie", ".Reads", ".Lts"]
    folder = os.path.dirname(path)
    if inv:
        used = "\n".join(u + "\n" + r for _, u, r, _ in inv)
        lines = head + imports(text, used, skip) + [f"use {base}Given as goal"]
        for name, unf, right, note in inv:
            lines += [""] + note + [f"abbrev pub {name} : goal.{name}"] + ([unf] if unf else []) + [f"{name} l ={right}" if right.startswith(" ") else f"{name} l =\n{right}"]
        with open(f"{folder}/Invariants.antt", "w", encoding="utf-8") as f:
            f.write("\n".join(lines) + "\n")
    if ans:
        used = "\n".join((a[2] + "\n" + a[1]) if len(a) == 4 else a[1]["sig"] + "\n" + a[1]["unf"] + "\n" + "\n".join(a[1]["def"]) for a in ans)
        lines = ([] if inv else head) + imports(text, used, skip) + [f"use {base}Goals as goal"]
        for a in ans:
            if len(a) == 2:
                b = a[1]
                lines += [""] + (["-- TODO " + a[0]] if a[0] != "helper" else []) + b["note"] + [f"{b['mark']}{b['name']} : {b['sig']}"] + ([b["unf"]] if b["unf"] else []) + b["def"]
            else:
                name, unf, term, note = a
                lines += [""] + note + [f"pub {name} : goal.{name}"] + ([unf] if unf else []) + [f"{name} c ={term}"]
        with open(f"{folder}/Answers.antt", "w", encoding="utf-8") as f:
            f.write("\n".join(lines) + "\n")
    os.remove(path)
    if said:
        print(crate, fn, said)


def main():
    with open(sys.argv[1], encoding="utf-8") as f:
        names = json.load(f)
    crate = sys.argv[2]
    only = sys.argv[3:]
    source = ""
    for f in sorted(os.listdir(f"crates/{crate}/src")):
        with open(f"crates/{crate}/src/{f}", encoding="utf-8") as g:
            source += g.read()
    for name, record in names.items():
        m = re.fullmatch(r"Rattle-\w+-proofs\.(.+)\.Lts", name)
        if m and os.path.exists(f"crates/{crate}/proofs/{m.group(1)}/Proof.antt") and (not only or m.group(1) in only):
            turn(crate, m.group(1), record, source)


if __name__ == "__main__":
    main()
