#!/usr/bin/env python3
"""Brings the repository's own definitions and lemmas to snake case, after port.py: a word in camel case or with dashes, as
`verifyInstr` or `clean-both`, becomes `verify_instr` or `clean_both`. Types, modules and the names of the Rust's enums keep theirs, and so
do the names that the kit's library declares or that Rattle makes. Turns specs, proofs, clauses in src/ and the texts of must-fail edits.

usage: tools/respell.py [--list]     at the top of the repository; --list only prints what would change and which names fall together
"""
import collections
import glob
import os
import re
import sys

NAME = r"[^\s(){}\[\].,;«»\"`|]+"
TOKEN = re.compile(NAME)
KIT_USE = re.compile(r"^\s*(?:ghost )?use (?!Rattle\.(?!std\b|core\b)[a-z_0-9]+[.\s])")
# words that Rattle makes for a function's goals; they follow the source's names and are not ours to spell
MADE = re.compile(r"^(?:invariant-|decreases-|Need-|After-|At-|loop-|returns-\d|enum-told|if-|in_|else-|then-)")


def turned(word):
    word = re.sub(r"(?<=[a-z0-9'])[A-Z]+(?=[A-Z][a-z])|(?<=[a-z0-9'])[A-Z]", lambda m: "_" + m[0].lower(), word)
    return word.replace("-", "_")


def is_old(word):
    if not re.match(r"[a-z_]", word) or word.startswith("is_"):
        return bool(re.match(r"[a-z][a-z0-9_]*-[a-z]", word)) and not MADE.match(word)
    if MADE.match(word):
        return False
    return bool(re.search(r"[a-z0-9']-[A-Za-z0-9]|[a-z0-9'][A-Z]", word)) and "->" not in word and not word.startswith("--")


def code(line):
    """The part of a line before its comment."""
    at = re.search(r"(?:^|\s)--(?:\s|$)", line)
    return (line, "") if at is None else (line[: at.start()], line[at.start() :])


def kit_names(text):
    """The names that a text imports from the kit."""
    found = set()
    for m in re.finditer(r"(?m)^\s*(?:ghost )?use ([^\s;{]+?)\.?(?:\{([^}]*)\})?;?(?: as (\S+))?\s*$", text):
        path = m[1]
        if re.match(r"Rattle\.(?!std\b|core\b)[a-z_0-9]+\b", path):
            continue
        for n in (m[2] or "").split(","):
            found.add(n.strip().split(" as ")[0])
            if path.count("."):
                found.add(path.rsplit(".", 1)[1])
    return found


def texts():
    for pattern in ("crates/*/specs/**/*.antt", "crates/*/proofs/**/*.antt"):
        yield from sorted(glob.glob(pattern, recursive=True))


def is_of_a_function(path):
    return bool(re.match(r"crates/[^/]+/proofs/.+/[^/]+\.antt$", path))


def own_names(files):
    """What the specs and the lemma files say in the old spelling, but for the kit's names."""
    kit = set()
    for f in files:
        kit |= kit_names(open(f, encoding="utf-8").read())
    own = collections.Counter()
    for f in files:
        if is_of_a_function(f):
            continue
        for line in open(f, encoding="utf-8"):
            if KIT_USE.match(line):
                continue
            for t in TOKEN.findall(code(line)[0]):
                if is_old(t) and t not in kit:
                    own[t] += 1
    return own, kit


def turn_line(line, table, in_proof=False):
    if KIT_USE.match(line):
        return line
    body, comment = code(line)

    def one(m):
        word = m[0]
        if word not in table:
            return word
        if in_proof and m.start() and body[m.start() - 1] == "." and word not in FIELDS:
            before = body[: m.start()]
            if not re.search(r"Rattle\.[\w.']*$", before) and not re.search(r"(?<![\w.'-])[A-Z]\w*\.$", before):
                return word
        return table[word]

    body = TOKEN.sub(one, body)
    comment = re.sub(r"`(" + NAME + r")`", lambda m: "`" + table.get(m[1], m[1]) + "`", comment)
    comment = TOKEN.sub(lambda m: table.get(m[0], m[0]) if re.search(r"[a-z][A-Z]", m[0]) else m[0], comment)
    return body + comment


# a lemma whose name port.py turned, in a file where the definition that it is about now has the same name
APART = {("crates/instruction_effect/proofs/Table.antt", "same_effect"): "same_effect_law"}
FIELDS = set()


def fields(files):
    for f in files:
        if is_of_a_function(f):
            continue
        inside = False
        for line in open(f, encoding="utf-8"):
            if re.match(r"\s*(?:pub )?record\b.*\bwhere", line):
                inside = True
            elif line.strip() == "" or re.match(r"\S", line):
                inside = False
            elif inside:
                m = re.match(r"\s+(?:pub )?(" + NAME + r"(?: " + NAME + r")*) :", line)
                if m:
                    FIELDS.update(w for w in m[1].split() if is_old(w))


def new_names(own):
    """Each old name with its new one. A definition in camel case and a lemma with dashes can fall together: the lemma is then a law of it."""
    table = {w: turned(w) for w in own}
    taken = {n for w, n in table.items() if "-" not in w}
    return {w: n + "_law" if "-" in w and n in taken else n for w, n in table.items()}


def main():
    files = list(texts())
    own, kit = own_names(files)
    fields(files)
    table = new_names(own)
    if "--list" in sys.argv:
        every = set()
        for f in files:
            for line in open(f, encoding="utf-8"):
                every |= set(TOKEN.findall(code(line)[0]))
        back = collections.defaultdict(list)
        for w, n in table.items():
            back[n].append(w)
        for n, ws in sorted(back.items()):
            if len(ws) > 1 or n in every:
                print("together:", n, ws, "(kit)" if n in kit else "")
        rust = set()
        for f in glob.glob("crates/*/src/*.rt"):
            rust |= set(re.findall(r"\b(?:fn|mod|const|static) (\w+)", open(f, encoding="utf-8").read()))
        print("also a Rust item:", sorted(n for n in back if n in rust))
        print(len(table), "names")
        return
    for f in files:
        old = open(f, encoding="utf-8").read()
        mine = dict(table) | {w: n for (g, w), n in APART.items() if g == f}
        new = "".join(turn_line(l, mine, is_of_a_function(f)) for l in old.splitlines(keepends=True))
        if new != old:
            open(f, "w", encoding="utf-8").write(new)
    for f in sorted(glob.glob("crates/*/src/*.rt")):
        old = open(f, encoding="utf-8").read()
        out = []
        for l in old.splitlines(keepends=True):
            if re.match(r"\s*(?:ghost use|requires|ensures|ghost|where|//)", l) or re.match(r"\s*(?:requires|ensures|ghost)\b", l) or "ensures" in l:
                l = turn_line(l, table)
            out.append(l)
        new = "".join(out)
        if new != old:
            open(f, "w", encoding="utf-8").write(new)
    for f in sorted(glob.glob("crates/*/must-fail/*.edit")):
        old = open(f, encoding="utf-8").read()
        target, out = "", []
        for l in old.splitlines(keepends=True):
            if l.startswith("file:"):
                target = l[5:].strip()
            elif re.match(r"(?:old|new):", l) and (target.endswith(".antt") or re.search(r"requires|ensures|ghost", l)):
                head, rest = l.split(":", 1)
                l = head + ":" + turn_line(rest, table)
            out.append(l)
        new = "".join(out)
        if new != old:
            open(f, "w", encoding="utf-8").write(new)


main()
