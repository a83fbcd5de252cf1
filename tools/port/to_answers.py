#!/usr/bin/env python3
"""Turns the old Proof.antt of each function of a crate to Invariants.antt and Answers.antt.

usage: to_answers.py CRATE NAMES [F..]

CRATE is the crate's folder, whose proofs/F/Proof.antt have the form of port.py's output. NAMES is the names.json that
`rt check --generated DIR --old-names` writes in it. An answer that is only a search is left out, since the check tries
that itself. What a script cannot turn, as cases of two branches, is left as it reads, for a hand.
"""

import json
import os
import re
import sys

# Names behind a module's alias, which respell.py leaves in such a file: old and new, from a file of its table.
RESPELLED = {}
if os.environ.get("RESPELLED"):
    with open(os.environ["RESPELLED"], encoding="utf-8") as table_file:
        RESPELLED = dict(line.split() for line in table_file)

WORD = r"[^\s(){};,@«»\"`.]+"


def declarations(text):
    """The `use` lines, and each declaration with the comment above it."""
    uses, decls, comment, head = [], [], [], []
    lines = text.split("\n")
    i = 0
    while i < len(lines) and (lines[i].startswith("--") or not lines[i].strip()):
        if lines[i].startswith("--"):
            head.append(lines[i])
        i += 1
    current = None
    while i < len(lines):
        line = lines[i]
        i += 1
        if line.startswith("use "):
            while line.count("{") > line.count("}"):
                line += " " + lines[i].strip()
                i += 1
            uses.append(line)
        elif line.startswith("--"):
            comment.append(line)
            current = None
        elif not line.strip():
            current = None
        elif current is None:
            current = {"comment": comment, "lines": [line]}
            comment = []
            decls.append(current)
        else:
            current["lines"].append(line)
    return head, uses, decls


def norm(name):
    return name.replace("_", "-").replace("′", "'")


class Function:
    def __init__(self, crate, path, names):
        self.crate, self.path = crate, path
        self.names = names
        self.needs = [(norm(a), b) for a, b in names["needs"]]
        self.places = {}
        self.callees = {}
        self.steps = {}
        for place, parent, step, callee, more in names["places"]:
            self.places.setdefault(norm(place), place)
            if step[0] and callee:
                self.callees[step[1]] = callee
            if step[0] and step[0] != step[1]:
                self.steps.setdefault(norm(step[0]), step[1])
            elif step[0]:
                self.steps.setdefault(norm(step[0]), step[0])
        self.new_place = {}
        for (place, *_), new in zip(names["places"], names["places_by_name"]):
            self.new_place.setdefault(norm(place), new)
        self.loops = {norm(l[0][0]): (l[0][1], l[1], c) for l, c in zip(names["loops"], names["changed"])}
        self.place_of_need = {}
        for need, at in zip(self.needs, names["asked_at"]):
            self.place_of_need[need[0]] = at[1]

    def need(self, name):
        name = norm(name)
        for drop in ("", "overflow-"):
            if name.startswith(drop):
                for old, new in self.needs:
                    if old == name[len(drop):]:
                        return old, new
        return None

    def body(self, text, need=None, helpers=()):
        alias = {"c"} | set(re.findall(r"let (%s) = c(?:\.before)* in" % WORD, text))
        grew = True
        while grew:
            more = set(re.findall(r"let (%s) = (?:%s)(?:\.before)+ in" % (WORD, "|".join(map(re.escape, alias))), text))
            grew = not more <= alias
            alias |= more
        if need:
            for helper, place in helpers:
                text = re.sub(
                    r"(?<![\w-])" + re.escape(helper) + r" (?:%s)(?:\.before)*(?![\w.-])" % "|".join(map(re.escape, sorted(alias, key=len, reverse=True))),
                    lambda m: f"{helper} (goal.at.{need} c).{place}", text)
                text = re.sub(
                    r"(?<![\w-])" + re.escape(helper) + r" \((?:%s)(?:\.before)*\)" % "|".join(map(re.escape, sorted(alias, key=len, reverse=True))),
                    lambda m: f"{helper} (goal.at.{need} c).{place}", text)
        text = re.sub(r"(?:\.before)+(?![\w-])", "", text)

        def step(m):
            return m[1] + "." + self.steps.get(norm(m[2]), m[2])

        heads = "|".join(map(re.escape, sorted(alias, key=len, reverse=True)))
        text = re.sub(r"(?<![\w.'-])(%s)\.(%s)" % (heads, WORD), step, text)
        bound = {v: s for v, s in re.findall(r"let (%s) = (?:%s)\.(%s) in" % (WORD, heads, WORD), text)}

        def last(m):
            step = m[2] or bound.get(m[1])
            params = self.names["params"].get(self.callees.get(step, ""), [])
            k = m[3].count("1")
            return f"{m[1]}{'.' + m[2] if m[2] else ''}.new.{params[k]}" if k < len(params) else m[0]

        text = re.sub(r"(?<![\w.'-])(%s)(?:\.(%s))?\.new((?:\.1)*)\.0" % (WORD, WORD), last, text)
        text = re.sub(r"\.(args|new)\.([\w-]+)", lambda m: f".{m[1]}.{m[2].replace('-', '_')}", text)
        text = text.replace(".taken", ".true").replace(".left)", ".false)").replace(".left,", ".false,")
        return text


def signature(lines):
    """The name, its type, the `unfolding` line, the arguments and the body."""
    text = "\n".join(lines)
    m = re.match(r"(abbrev )?(pub )?(\S+) :(.*?)\n(unfolding [^\n]*\n)?\3((?:\s+[^\s=]+)*?) =[ \n](.*)$", text, re.S)
    if not m:
        return None
    return m


def turn(crate_name, folder, function, names):
    path = os.path.join(folder, "Proof.antt")
    with open(path, encoding="utf-8") as f:
        head, uses, decls = declarations(f.read())
    dotted = function.replace("/", ".")
    it = Function(crate_name, dotted, names)
    kept = []
    for use in uses:
        if ".Statement." in use or use.endswith(" as tie"):
            continue
        kept.append(use)
    invariants, answers, helpers, imports, ways = [], [], [], [], []
    for d in decls:
        m = signature(d["lines"])
        way = re.match(r"abbrev (\S+) : tie\.[^\n]* → tie\.[^\n]*\n\1 (\w+) = \2(?:\.before)*\s*$", "\n".join(d["lines"]))
        if way:
            ways.append(way[1])
            continue
        if m and m[4].strip().startswith("{M : Type 1}"):
            continue
        if m and re.match(r"\s*tie\.(invariant|decreases)-", m[4]):
            kind, loop = re.match(r"\s*tie\.(invariant|decreases)-(\S+)", m[4]).groups()
            new, variables, changed = it.loops[norm(loop)]
            args = m[6].split()
            want = len(variables) + sum(changed)
            table = {}
            if len(args) == want:
                for a, v, c in zip(args, variables, changed):
                    table[a] = f"l.initial.{v}" if c else f"l.{v}"
                for a, v in zip(args[len(variables):], [v for v, c in zip(variables, changed) if c]):
                    table[a] = f"l.{v}"
            else:
                d["comment"].append(f"-- arguments were: {m[6]}; variables are {variables} {changed}")
            body = re.sub(r"(?<![.\w'-])(%s)" % WORD, lambda w: table.get(w[1], w[1]), m[7])
            name = f"{kind}-{new}"
            invariants.append("\n".join([*d["comment"], f"abbrev pub {name} : goal.{name}", *([m[5].strip()] if m[5] else []), f"{name} l =" + ("\n" if "\n" in body else " ") + body]))
            continue
        n = m and re.match(r"\s*tie\.Need-(\S+)", m[4])
        if n:
            found = it.need(n[1]) or it.need(m[3])
            if not found:
                if m[7].strip() != "search rules":
                    answers.append("-- no goal of this name: " + "\n-- ".join(d["lines"]))
                continue
            old, new = found
            body = m[7]
            if body.strip() in ("search rules", "search needs") and not m[5]:
                continue
            body = it.body(body, new, helpers)
            own = re.sub(r"(?<![\w.-])" + re.escape(m[3]) + r"(?![\w-])", new, body)
            if re.fullmatch(r"\s*search \w+\s*", body) and not m[5]:
                continue
            answers.append("\n".join([*d["comment"], f"pub {new} : goal.{new}", *([m[5].strip()] if m[5] else []), f"{new} c =" + ("\n" if "\n" in body else " ") + own]))
            continue
        text = "\n".join(d["lines"])
        at = re.search(r"\(\w+ : tie\.(\S+?)[\s)]", text)
        bare = re.match(r"(?:abbrev )?(?:pub )?\S+ : tie\.(\S+) →", text)
        if bare and norm(bare[1]) in it.new_place:
            place = it.new_place[norm(bare[1])]
            name = re.match(r"(?:abbrev )?(?:pub )?(\S+)", text)[1]
            imports.append(place)
            text = it.body(text.replace(f"tie.{bare[1]} →", f"{place} →"))
            helpers.append((name, place))
        elif at and norm(at[1]) in it.new_place:
            place = it.new_place[norm(at[1])]
            name = re.match(r"(?:abbrev )?(?:pub )?(\S+)", text)[1]
            imports.append(place)
            text = re.sub(r"\((\w+) : tie\.[^)]*\)", rf"(\1 : {place})", text)
            text = it.body(text)
            helpers.append((name, place))
        else:
            text = it.body(text)
        answers.append("\n".join([*d["comment"], text]))
    aliases = [u.rsplit(" as ", 1)[1] for u in kept if " as " in u and "{" not in u]

    def finish(text):
        for name in ways:
            while True:
                new = re.sub(r"\((?<![\w-])" + re.escape(name) + r" (\w+|\((?:[^()]|\([^()]*\))*\))\)", r"\1", text)
                new = re.sub(r"(?<![\w.'-])" + re.escape(name) + r" (\w+|\((?:[^()]|\([^()]*\))*\))", r"\1", new)
                if new == text:
                    break
                text = new
        text = re.sub(r"\(goal\.at\.\S+ c\)\.[\w'-]+(?=\.(?:args|requires)\b)", "c", text)
        text = re.sub(r"\.pre(?![\w-])", ".requires", text)
        text = re.sub(r"\.inv(?![\w-])", ".invariant", text)
        text = re.sub(r"\.args\.t1(?![\w-])", ".args.self", text)
        text = re.sub(r"\.new\.t1(?![\w-])", ".new.self", text)
        for alias in aliases:
            text = re.sub(r"(?<![\w.'-])" + re.escape(alias) + r"\.([\w'-]+)", lambda m: f"{alias}.{RESPELLED.get(m[1], m[1])}", text)
        return text

    answers = [finish(a) for a in answers]
    title = "\n".join(head)
    base = f"Rattle.{crate_name}.proofs.{dotted}"
    if invariants:
        with open(os.path.join(folder, "Invariants.antt"), "w", encoding="utf-8") as f:
            f.write("\n".join([title, *kept, f"use {base}.Given as goal"]) + "\n\n" + "\n\n".join(invariants) + "\n")
    if answers:
        more = [f"use {base}.Goals.{{{', '.join(sorted(set(imports)))}}}"] if imports else []
        with open(os.path.join(folder, "Answers.antt"), "w", encoding="utf-8") as f:
            f.write("\n".join([title, *kept, f"use {base}.Goals as goal", *more]) + "\n\n" + "\n\n".join(answers) + "\n")
    os.remove(path)


def main(crate, names, wanted):
    with open(names, encoding="utf-8") as f:
        table = json.load(f)
    name = os.path.basename(os.path.realpath(crate))
    top = os.path.join(crate, "proofs")
    for folder, _, files in os.walk(top):
        if "Proof.antt" not in files:
            continue
        function = os.path.relpath(folder, top)
        if wanted and function not in wanted:
            continue
        key = f"Rattle-{name}-proofs.{function.replace('/', '.')}.Lts"
        if key not in table:
            print(f"no names of {function}")
            continue
        turn(name, folder, function, table[key])


if __name__ == "__main__":
    if len(sys.argv) < 3:
        sys.exit(__doc__)
    main(sys.argv[1], sys.argv[2], sys.argv[3:])
