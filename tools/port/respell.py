#!/usr/bin/env python3
"""Respells this repository's own definitions, lemmas and fields as today's Rattle spells names.

usage: tools/port/respell.py before   renames the one local name that port.py would take for the new spelling
       tools/port/respell.py after    after port.py: respells names in crates/, README.md and docs/
       tools/port/respell.py table    prints the names that 'after' would change, old and new

The rule: a word is in snake case (`queueAfter` is `queue_after`), a field or a label has underscores alone (`swaps-is` is
`swaps_is`), and in a lemma's name a dash stands behind the function that it is a law of (`isOwing-held` is
`is_owing-held`), and an underscore everywhere else (`took-oldest` is `took_oldest`). Types, modules, and the paper's own
letters (Q, K, L) stay.
"""

import collections
import os
import re
import sys

ROOT = os.path.dirname(os.path.dirname(os.path.dirname(os.path.realpath(__file__))))
CRATES = os.path.join(ROOT, "crates")
# What antt's text cuts words by.
CUT = r"\s(){};,@«»\"`"
WORD = re.compile(r"[^%s.]+" % CUT)
HEAD = r"(?:(?:abbrev|unfoldable|pub|ruleset|axiom|let) )*"
DECLARED = re.compile(r"(?m)^( *)" + HEAD + r"([^%s.:=]+)(?: [({][^(){}\n]*[)}])* :(?= |$)" % CUT)
MADE = re.compile(r"(?m)^ *(?:unfoldable )?(?:pub )?(?:unfoldable )?(?:record|data) (?:pub )?(\S+)")
# Words of the library after which a lemma's name has a dash.
LIBRARY = set("""length take drop sum sum_by map filter get_or set replicate append reverse min max eqb leb ltb not cond
add sub mul pow div mod zip fold bytes update choose decimal""".split())
# Names that would meet another in some file, and what they are called instead.
OTHERWISE = {
    "after-end": "after_the_end",
    "cell_below": "cell_below_lem",
    "cells-in": "cells_inside",
    "state-of": "state_from",
}


def snake(word):
    word = re.sub(r"(?<=[a-z0-9])([A-Z])(?=[a-z0-9]|$|-)", lambda m: "_" + m[1].lower(), word)
    return word


def texts(kinds):
    for folder, folders, files in os.walk(CRATES):
        folders[:] = sorted(f for f in folders if f != "out")
        for name in sorted(files):
            path = os.path.join(folder, name)
            if path.endswith(kinds):
                yield path


def read(path):
    with open(path, encoding="utf-8") as f:
        return f.read()


def without_comments(text):
    return re.sub(r"(?m)(^|(?<=\s))--(?=\s|$).*$", "", text)


def is_of_a_function(path):
    """Whether the file is in the proof of one Rust function."""
    return bool(re.search(r"/proofs/.+/(Proof|Answers|Invariants)\.antt$", path))


def table():
    """The old and the new spelling of each name that this repository declares in specs/ and proofs/."""
    plain, fields, defined = set(), set(), set()
    for path in texts(".antt"):
        if is_of_a_function(path):
            continue
        text = without_comments(read(path))
        record = None
        for line in text.split("\n"):
            made = re.match(r"^(?:unfoldable )?(?:pub )?(record|data)\b", line)
            if made:
                record = made[1]
                continue
            if re.match(r"^\S", line):
                record = None
            m = DECLARED.match(line)
            if not m:
                continue
            if m[1] and record == "record":
                fields.add(m[2])
            else:
                plain.add(m[2])
                if not m[1] and "/specs/" in path and "-" not in m[2]:
                    defined.add(snake(m[2]))
    names = {}
    functions = defined | LIBRARY
    for name in plain | fields:
        if not name[0].isascii() or not name[0].isalpha():
            continue
        new = snake(name) if not name[0].isupper() else name
        if name in fields and name not in plain:
            new = new.replace("-", "_")
        elif "-" in new and not name[0].isupper():
            first, rest = new.split("-", 1)
            new = first + ("-" if first in functions else "_") + rest.replace("-", "_")
        elif "-" in new:
            first, rest = new.split("-", 1)
            new = first + "-" + rest.replace("-", "_")
        new = OTHERWISE.get(name, new)
        if new != name:
            names[name] = new
    # A lemma that would have its function's name gets `_lem`.
    count = collections.Counter(names.values())
    for name, new in names.items():
        if count[new] > 1 and "-" in name and name in plain:
            names[name] = new + "_lem"
    return names


def words_of(text):
    return set(WORD.findall(text))


def turn(text, names, comments_too):
    """The text with each name respelled; in a comment only where it has a hump or stands between backticks."""

    def words(part):
        return WORD.sub(lambda m: respelled(m[0], names), part)

    if not comments_too:
        return words(text)
    out = []
    for line in text.split("\n"):
        m = re.match(r"^(.*?)((?:^|(?<=\s))--(?=\s|$).*)$", line)
        code, comment = (m[1], m[2]) if m else (line, "")
        out.append(words(code) + in_prose(comment, names))
    return "\n".join(out)


def respelled(word, names):
    if word in names:
        return names[word]
    bare = word.rstrip("'′₀₁₂₃₄₅₆₇₈₉")
    if bare != word and bare in names:
        return names[bare] + word[len(bare):]
    return word


def in_prose(text, names):
    text = re.sub(r"`([^`]*)`", lambda m: "`" + WORD.sub(lambda w: respelled(w[0], names), m[1]) + "`", text)
    return re.sub(r"(?<![\w`.-])[a-z]+(?:[A-Z][a-z0-9]*)+(?![\w-])", lambda m: respelled(m[0], names), text)


def turn_rust(text, names):
    """A .rt file: names stand in `ghost use` lines, in clauses and in comments; strings stay."""
    out = []
    for line in text.split("\n"):
        parts = re.split(r'("(?:[^"\\]|\\.)*")', line)
        for i in range(0, len(parts), 2):
            code, slashes, comment = parts[i].partition("//")
            ghost = {n: to for n, to in names.items() if re.search(r"[A-Z-]", n)}
            code = WORD.sub(lambda m: respelled(m[0], ghost), code)
            parts[i] = code + slashes + (in_prose(comment, ghost) if slashes else "")
        out.append("".join(parts))
    return "\n".join(out)


def imported(text):
    """The names that a file brings in from this repository's own crates."""
    own = set(os.listdir(CRATES))
    found = set()
    for m in re.finditer(r"use Rattle\.(\w+)\.(?:specs|proofs)[^{\n]*\{([^}]*)\}", text):
        if m[1] in own:
            found |= {w.strip().split(" ")[0] for w in m[2].split(",")}
    return found


def after():
    names = table()
    met = collections.defaultdict(list)
    for path in texts((".antt", ".rt")):
        there = words_of(without_comments(read(path)))
        for old in there & set(names):
            if names[old] in there:
                met[old].append(os.path.relpath(path, ROOT))
    for old, paths in sorted(met.items()):
        print(f"meets: {old} {names[old]} {' '.join(paths[:4])}")
    for path in texts((".antt", ".rt", ".edit")):
        text = read(path)
        if path.endswith(".rt"):
            new = turn_rust(text, names)
        elif path.endswith(".antt"):
            here = names
            if is_of_a_function(path):
                brought = imported(text)
                here = {n: to for n, to in names.items() if re.search("[A-Z]", n) or n in brought or "-" not in n}
                fields = {n: to for n, to in names.items() if n.replace("-", "_") == to and re.search(r"\." + re.escape(n) + r"(?![\w-])|[{;] *" + re.escape(n) + " =|^ +" + re.escape(n) + " =", text, re.M)}
                local = set(re.findall(r"(?m)^(?:abbrev )?(?:pub )?(\S+) :", text))
                here = here | {n: to for n, to in fields.items() if n not in local}
            new = turn(text, here, True)
        else:
            new = turn_edit(text, names)
        if new != text:
            with open(path, "w", encoding="utf-8") as f:
                f.write(new)
    ask_for_tactics()
    for page in ["README.md", *sorted(os.path.join("docs", f) for f in os.listdir(os.path.join(ROOT, "docs")) if f.endswith(".md"))]:
        path = os.path.join(ROOT, page)
        text = read(path)
        new = in_prose(text, names)
        if new != text:
            with open(path, "w", encoding="utf-8") as f:
                f.write(new)


def ask_for_tactics():
    """Writes the line that has the check try tactics above the first item of each crate."""
    for path in texts(("/lib.rt", "/main.rt")):
        text = read(path)
        if "tactic(auto)" not in text:
            lines = text.split("\n")
            at = next((i for i, line in enumerate(lines) if line and not line.startswith("//")), len(lines) - 1)
            lines[at:at] = ["#![tactic(auto)]", ""]
            with open(path, "w", encoding="utf-8") as f:
                f.write("\n".join(lines))


def turn_edit(text, names):
    out = []
    kind = ".rt"
    for line in text.split("\n"):
        if line.startswith("file: "):
            kind = os.path.splitext(line.strip())[1]
        if line.startswith(("old: ", "new: ")):
            head, body = line[:5], line[5:]
            line = head + (turn_rust(body, names) if kind == ".rt" else turn(body, names, True))
        elif not line.startswith("file: "):
            line = in_prose(line, names)
        out.append(line)
    return "\n".join(out)


def before():
    path = os.path.join(CRATES, "buffer_choices", "proofs", "Tallies.antt")
    text = read(path)
    with open(path, "w", encoding="utf-8") as f:
        f.write(re.sub(r"\bstored_bytes\b", "storedNow", text))


if __name__ == "__main__":
    what = sys.argv[1] if len(sys.argv) == 2 else ""
    if what == "before":
        before()
    elif what == "after":
        after()
    elif what == "table":
        for old, new in sorted(table().items()):
            print(old, new)
    else:
        sys.exit(__doc__)
