#!/usr/bin/env python3
"""Turns proofs walked by hand (proofs/F/Proof.antt) into Invariants.antt and Answers.antt.

usage: python3 tools/to_answers.py NAMES CRATE [FUNCTION ..]     at the top; NAMES is what `rt names` wrote

A need becomes the goal of the same place, under the name that names.json has for it; a path `c.before.before.f.ensures` becomes
`c.f-x.ensures`. Answers that are `search rules` go: the check finds them. A place handed to a lemma becomes `(goal.at.G c).PLACE`.
It proves nothing; what it could not turn it prints, and rt check decides.
"""
import json
import os
import re
import sys

START = {"args", "requires", "ranges", "lifetimes", "well-formed", "type-inv", "fn"}
FIELD = r"(?:\.[\w'\-+\u2080-\u2089\u25cc]+)"


def norm(s):
    s = s.replace("_", "-")
    s = re.sub(r"-lem$", "", s)
    return re.sub(r"-(\d+)$", r"\1", s)


def dash(s):
    return re.sub(r"-lem(?=-|$)", "", s.replace("_", "-"))


def read(f):
    with open(f, encoding="utf-8") as it:
        return it.read()


def items_of(text):
    """The parts of a proof file between blank lines at the top level: (comment, signature and equations)."""
    parts, now = [], []
    for line in text.split("\n"):
        if line.strip() == "" :
            if now:
                parts.append(now)
                now = []
            continue
        now.append(line)
    if now:
        parts.append(now)
    # a part whose first line is indented goes on with the one before
    out = []
    for p in parts:
        if out and p[0].startswith(" "):
            out[-1] += [""] + p
        else:
            out.append(p)
    return out


class Function:
    def __init__(self, names, folder, of_file):
        self.n = names
        self.file = of_file
        self.said = []
        self.used = set()
        self.new_steps = {p[2][1] for p in names["places"]} | {a[0] for a in names["arms"] if a} | {"match", "at"}
        self.places = {norm(p[0]): i for i, p in enumerate(names["places"])}
        self.needs = {dash(o): (i, new) for i, (o, new) in enumerate(names["needs"])}
        self.loops = {norm(o): i for i, ((o, new), vs) in enumerate(names["loops"])}

    def say(self, text):
        self.said.append(text)

    def parent(self, i):
        p = self.n["places"][i][1]
        return None if p is None else self.places[norm(p)]

    def place_name(self, i):
        """The new name of a place, as its record is named in Goals: of a merged arm the last part."""
        return self.n["places_by_name"][i]

    def merged(self, i):
        """An arm that is several old places: the last of them, where the chain goes on."""
        name = self.place_name(i)
        m = re.match(r"^(In-.*)-\d+$", name)
        if m and m.group(1) in self.n["places_by_name"]:
            return m.group(1)
        return name

    def path(self, at, text, goal, bound):
        """A path from a place: `c.before.before.f.x`; the new one, or None."""
        fields = text.split(".")[1:]
        i = at
        fields = list(fields)
        while fields and fields[0] == "before":
            if i is not None:
                i = self.parent(i)
            fields.pop(0)
        if i is None:
            self.say(f"more befores than places, taken by name: {text}")
            i = at
        if not fields:
            if i == at and len(text.split(".")) == 1:
                return None
            self.used.add(self.merged(i))
            if goal:
                return f"(goal.at.{goal} c).{self.merged(i)}"
            self.say(f"a place in a lemma: {text} -> {self.merged(i)}")
            return f"(goal.at.? c).{self.merged(i)}"
        first = fields[0]
        # a record opens what stands before it: a field may be of an earlier place
        for start in (i, at):
            j = start
            while j is not None:
                step = self.n["places"][j][2]
                if norm(step[0]) == norm(first):
                    if start != i:
                        self.say(f"by its name, not its place: {text}")
                    return self.step(j, fields, text, bound)
                j = self.parent(j)
        if first in self.new_steps:
            return None
        if norm(first) in START:
            return self.plain("c", fields)
        self.say(f"no step {first}: {text}")
        return None

    def plain(self, head, fields):
        out = []
        for k, f in enumerate(fields):
            if out and out[-1] in ("args", "ranges", "type_inv", "auto", "new"):
                f = f.replace("-", "_")
            out.append({"well-formed": "well_formed", "type-inv": "type_inv"}.get(f, f))
        return ".".join([head] + out)

    def step(self, j, fields, text, bound):
        old, new = self.n["places"][j][2]
        rest = fields[1:]
        arm = self.n["arms"][j] if j < len(self.n["arms"]) else None
        if arm:
            best = None
            for field, step, path in arm[2]:
                if norm(step) == norm(old) and path and [norm(x) for x in path] == [norm(x) for x in rest[: len(path)]]:
                    if best is None or len(path) > len(best[1]):
                        best = (field, path)
            if best:
                tail = rest[len(best[1]) :]
                if best[0] == "ensures":
                    tail = self.clause(j, tail)
                return self.plain("c", [self.arm_name(j), best[0]] + tail)
        # the place of another arm with this step
        for k, a in enumerate(self.n["arms"]):
            if a and k >= j:
                for field, step, path in a[2]:
                    if norm(step) == norm(old) and path and [norm(x) for x in path] == [norm(x) for x in rest[: len(path)]]:
                        return self.plain("c", [a[0], field] + rest[len(path) :])
        if rest and rest[0] == "ensures":
            rest = ["ensures"] + self.clause(j, rest[1:])
        loop = self.loops.get(norm(old))
        if loop is not None and rest and rest[0] not in ("invariant", "auto"):
            rest = [rest[0].replace("-", "_")] + rest[1:]
        return self.plain("c", [new] + rest)

    def arm_name(self, j):
        return self.n["arms"][j][0]

    def clause(self, j, tail):
        info = self.n["clauses"][j] if j < len(self.n["clauses"]) else None
        if not info or not info.get("fields"):
            return tail
        names = info["fields"]
        if len(names) == 1:
            return [names[0]] + tail
        k = 0
        tail = list(tail)
        while tail and tail[0] == "1" and k < len(names) - 1:
            k += 1
            tail.pop(0)
        if tail and tail[0] == "0" and k < len(names) - 1:
            tail.pop(0)
            return [names[k]] + tail
        if k == len(names) - 1:
            return [names[k]] + tail
        if not tail:
            return tail
        return tail

    def turn(self, text, at, goal, bound="c"):
        if at is None:
            return text
        def sub(m):
            new = self.path(at, m.group(0), goal, bound)
            return m.group(0) if new is None else new

        # a name for an earlier place: its paths are the record's own now
        while True:
            m = re.search(r"let (\w+) = " + re.escape(bound) + r"((?:\.before)+) in\s*", text)
            if not m:
                break
            i = at
            for _ in range(m.group(2).count(".before")):
                i = self.parent(i)
            text = text[: m.start()] + text[m.end() :]
            text = self.turn(text, i, goal, m.group(1))
        return re.sub(r"(?<![\w'.\-])" + re.escape(bound) + FIELD + "+", sub, text)


def convert(names, crate, folder, f):
    """One function: F as the path below proofs/."""
    where = f"crates/{crate}/proofs/{f}"
    proof = f"{where}/Proof.antt"
    text = read(proof)
    fn = Function(names, where, proof)
    head, uses, rest = [], [], []
    items = items_of(text)
    goals, invariants, lemmas = [], [], []
    module = f"Rattle.{crate}.proofs." + f.replace("/", ".")
    for it in items:
        lines = list(it)
        while lines and lines[0].startswith("--") and not (len(lines) > 1 and not lines[1].startswith(("--", "use"))):
            head.append(lines.pop(0))
        if lines and lines[0].startswith("--") and not goals and not lemmas and not invariants and len(lines) > 1 and lines[1].startswith("use"):
            head.append(lines.pop(0))
        if not lines:
            continue
        if lines[0].startswith("use "):
            block = "\n".join(lines)
            for m in re.finditer(r"^use [^\n{]*(?:\{[^}]*\})?[^\n]*", block, re.M):
                uses.append(m.group(0))
            continue
        comment = []
        while lines[0].startswith("--"):
            comment.append(lines.pop(0))
        block = "\n".join(lines)
        m = re.match(r"^(?:pub |abbrev |unfoldable )*([^\s:]+) : ", block)
        name = m.group(1) if m else None
        need = re.match(r"^([^\s:]+) : tie\.Need-([^\s]+)(.*)$", lines[0])
        inv = re.match(r"^(?:abbrev |pub )*([^\s:]+) : tie\.(invariant|decreases|measure)-?([^\s]*)(.*)$", lines[0])
        if need:
            goals.append((comment, lines, need))
        elif inv:
            invariants.append((comment, lines, inv))
        elif name and "statement" in lines[0] and (name.endswith("-spec") or name.endswith("_spec")):
            continue
        else:
            lemmas.append((comment, lines, name))
    bad = []
    used_by_invariants = set()
    inv_out = []
    for comment, lines, m in invariants:
        name, kind, loop = m.group(1), m.group(2), m.group(3)
        key = norm(loop) if loop else ""
        idx = fn.loops.get(key)
        body = "\n".join(lines[1:])
        if idx is None:
            fn.say(f"no loop {kind}-{loop}")
            inv_out.append("-- ?? " + "\n-- ".join(lines))
            continue
        (old, new), vs = names["loops"][idx]
        changed = names["changed"][idx]
        mm = re.match(r"^(?:unfolding [^\n]*\n)?" + re.escape(name) + r"\s+(.*?)\s*=", body, re.S)
        params = mm.group(1).split() if mm else []
        want = []
        for v, ch in zip(vs, changed):
            want.append(f"l.initial.{v}" if ch else f"l.{v}")
        for v, ch in zip(vs, changed):
            if ch:
                want.append(f"l.{v}")
        rhs = body[mm.end() :]
        if len(params) != len(want):
            fn.say(f"{kind}-{loop}: {len(params)} parameters for {len(want)}: {params} {want}")
        table = {p: w for p, w in zip(params, want) if p != "_"}
        for p in sorted(table, key=len, reverse=True):
            rhs = re.sub(r"(?<![\w'.\-\u2080-\u2089])" + re.escape(p) + r"(?![\w'\-\u2080-\u2089])", "\0" + table[p].replace("l.", "\1.", 1), rhs)
        rhs = rhs.replace("\0", "").replace("\1", "l")
        inv_out.append("\n".join(comment + [f"abbrev pub {kind}-{new} : goal.{kind}-{new}", f"{kind}-{new} l ={rhs}"]))
    lemma_names = {l[2] for l in lemmas if l[2]}
    inv_text = "\n".join(inv_out)
    shared = set()
    grew = True
    while grew:
        grew = False
        for c, lines, name in lemmas:
            if name and name not in shared and re.search(r"(?<![\w'.\-])" + re.escape(name) + r"(?![\w'\-])", inv_text):
                shared.add(name)
                inv_text += "\n" + "\n".join(lines)
                grew = True
    answers = []
    for comment, lines, name in lemmas:
        block = "\n".join(lines)
        if name in shared:
            if not re.match(r"^(?:abbrev |unfoldable )*pub ", lines[0]):
                lines[0] = re.sub(r"^((?:abbrev |unfoldable )*)", r"\1pub ", lines[0])
            continue
        m = re.search(r"\((\w+) : tie\.([\w\-]+)((?: (?:invariant|decreases|measure)[\w\-]*)*)\)", block)
        if m:
            at = fn.places.get(norm(m.group(2)))
            if at is None:
                fn.say(f"lemma {name}: no place {m.group(2)}")
            else:
                block = block.replace(m.group(0), f"({m.group(1)} : {fn.merged(at)})")
                fn.used.add(fn.merged(at))
                block = fn.turn(block, at, None, m.group(1))
        answers.append("\n".join(comment) + ("\n" if comment else "") + block)
    for comment, lines, m in goals:
        old = dash(m.group(2))
        for cut in ("overflow-", "nonzero-"):
            if old not in fn.needs and old.startswith(cut):
                old = old[len(cut) :]
        if old not in fn.needs:
            fn.say(f"no need {old}")
            answers.append("-- ?? no goal for this\n" + "\n".join("-- " + x for x in lines))
            continue
        i, new = fn.needs[old]
        name = m.group(1)
        body = "\n".join(lines[1:])
        plain = re.sub(r"^unfolding [^\n]*\n", "", body)
        if re.match(r"^" + re.escape(name) + r"\s+[^=]*=\s*search rules\s*$", plain):
            continue
        at = fn.places[norm(names["asked_at"][i][0])]
        if new.endswith("-requires") or "-requires-" in new:
            plain2 = re.sub(r"(?m)^(" + re.escape(name) + r"\s+(?:\S+ )*?)(κs|k|κ) =", r"\1=", body)
            body = plain2
        mm = re.search(r"(?m)^" + re.escape(name) + r"((?:\s+\S+)*?)\s+=", body)
        args = mm.group(1).split() if mm else ["c"]
        bound = args[-1] if args else "c"
        body = re.sub(r"(?m)^" + re.escape(name) + r"(?=\s)", new, body)
        body = fn.turn(body, at, new, bound)
        answers.append("\n".join(comment) + ("\n" if comment else "") + f"pub {new} : goal.{new}\n{body}")
    keep = [u for u in uses if ".Tie as tie" not in u and ".Statement." not in u and "PlainCycle" not in u]
    os.makedirs(where, exist_ok=True)
    out = {}
    if inv_out:
        shared_text = ["\n".join(c + lines) for c, lines, name in lemmas if name in shared]
        t = "\n\n".join(["\n".join(keep + [f"use {module}.Given as goal"])] + shared_text + inv_out) + "\n"
        out["Invariants.antt"] = t
    if answers:
        more = []
        if shared:
            more = [f"use {module}.Invariants.{{{', '.join(sorted(shared))}}}"]
        if fn.used:
            more.append(f"use {module}.Goals.{{{', '.join(sorted(fn.used))}}}")
        t = "\n".join(head + keep + more + [f"use {module}.Goals as goal"]) + "\n\n" + "\n\n".join(answers) + "\n"
        out["Answers.antt"] = t
    for k, v in out.items():
        with open(f"{where}/{k}", "w", encoding="utf-8") as it:
            it.write(prune(v))
    os.remove(proof)
    if not os.listdir(where):
        os.rmdir(where)
    for s in fn.said:
        print(f"{where}: {s}")
    return out


def prune(text):
    """Drops imported names that the file does not use."""
    uses = list(re.finditer(r"^use ([^\n{]*?)(?:\{([^}]*)\})?((?: as [^\n]*)?)\n", text, re.M))
    body = re.sub(r"^use [^\n{]*(?:\{[^}]*\})?[^\n]*\n", "", text, flags=re.M)
    def stands(n):
        if "◌" in n:
            # an operator: its parts
            bits = [b for b in n.split("◌") if b]
            return all(b in body for b in bits)
        return re.search(r"(?<![\w'.\-])" + re.escape(n) + r"(?![\w'\-])", body) is not None
    def one(m):
        head, names, alias = m.group(1), m.group(2), m.group(3)
        if names is None:
            return m.group(0)
        kept = []
        for n in [x.strip() for x in names.replace("\n", " ").split(",") if x.strip()]:
            local = n.split(" as ")[-1].strip()
            if stands(local):
                kept.append(n)
        if not kept:
            return ""
        return f"use {head}{{{', '.join(kept)}}}{alias}\n"
    return re.sub(r"^use ([^\n{]*?)(?:\{([^}]*)\})((?: as [^\n]*)?)\n", one, text, flags=re.M)


def main():
    folder, crate = sys.argv[1], sys.argv[2]
    only = sys.argv[3:]
    d = json.load(open(f"{folder}/crates/{crate}/names.json", encoding="utf-8"))
    base = f"crates/{crate}/proofs"
    n = 0
    for at, dirs, fs in sorted(os.walk(base)):
        if "Proof.antt" not in fs:
            continue
        f = os.path.relpath(at, base)
        if only and f not in only:
            continue
        key = f"Rattle-{crate}-proofs.{f.replace('/', '.')}.Lts"
        if key not in d:
            print(f"{at}: no names for {key}")
            continue
        convert(d[key], crate, at, f)
        n += 1
    print(n, "turned")


if __name__ == "__main__":
    main()
