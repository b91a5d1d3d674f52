#!/usr/bin/env python3
"""Brings the names of this repository's own definitions and lemmas to one spelling: words in snake case, types in camel case.

usage: python3 tools/respell.py [--dry]      at the top of the repository

A name is taken where specs/ or proofs/ of a crate define it: a definition, a lemma, a record, a field or a constructor.
Names that Rattle makes (the goals of a proof folder, steps behind `c.`) and names of the library stay. A name that is a
type, or ends in one, becomes camel case (Read-told: ReadTold); a lemma that begins with such a name keeps the dash behind
it (All-more); every other name is in snake case (script-asks: script_asks). A question mark becomes a word.
"""

import os
import re
import sys

TOKEN = re.compile(r"[A-Za-z_][A-Za-z0-9_]*(?:[-?'][A-Za-z0-9_ℕℤ]*)*[?']?")
SIGN = re.compile(r"^(\s*)(?:(?:abbrev|unfoldable|pub|data|record)\s+)*((?:[A-Za-z_][^\s(){}:;,.]*\s+)+):(?!\s*goal\.)\s")
HEAD = re.compile(r"^\s*(?:pub\s+)?(data|record)\s+(?:pub\s+)?([A-Z][\w'-]*)")
FIELD = re.compile(r"[{;]\s*([a-z][\w'-]*)\s*:\s")
LIBRARY = re.compile(r"^\s*(?:ghost\s+)?(?:pub\s+)?use\s+(?:Rattle\.std|borrow|denote|lib|Mathlib|Prim|mathlib)\b[^{]*\{([^}]*)\}")
QUESTIONS = {"Amount-fault": "IsAmountFault", "within?": "within_limit", "all-within?": "all_within_limit"}


def files(top):
    for folder, dirs, names in os.walk(os.path.join(top, "crates")):
        dirs[:] = sorted(d for d in dirs if d != "out")
        for name in sorted(names):
            if name.endswith((".antt", ".rt")):
                yield os.path.join(folder, name)


def code(line, mark):
    """The line's part before a comment."""
    i = line.find(mark)
    return line if i < 0 else line[:i]


def odd(name):
    return "-" in name or "?" in name


def collect(top):
    """Own names that want another spelling, those of them that are types, and those that are fields."""
    own, types, fields = set(), set(), set()
    for path in files(top):
        if not path.endswith(".antt"):
            continue
        text = "\n".join(code(l, "--") for l in open(path, encoding="utf-8").read().split("\n"))
        lines = text.split("\n")
        for i, line in enumerate(lines):
            m = HEAD.match(line)
            if m:
                if odd(m[2]):
                    own.add(m[2])
                    types.add(m[2])
                continue
            m = SIGN.match(line + " ")
            if m:
                rest, k = line, i
                while k + 1 < len(lines) and lines[k + 1].startswith(m[1] + "    ") and " = " not in lines[k + 1]:
                    k += 1
                    rest += " " + lines[k].strip()
                for name in m[2].split():
                    if name in ("pub", "abbrev", "unfoldable", "use", "let", "in") or not odd(name):
                        continue
                    own.add(name)
                    if rest.rstrip().endswith("Type 0") and name[0].isupper():
                        types.add(name)
                    if m[1]:
                        fields.add(name)
            for m in FIELD.finditer(line):
                if odd(m[1]):
                    own.add(m[1])
                    fields.add(m[1])
    return own, types, fields


def camel(name):
    return "".join(part[0].upper() + part[1:] for part in name.split("-"))


def respelled(name, types):
    if name in QUESTIONS:
        return QUESTIONS[name]
    if name in types:
        return camel(name)
    if name[0].isupper():
        heads = [t for t in types if name.startswith(t + "-")]
        head = max(heads, key=len) if heads else name.split("-")[0]
        return (camel(head) if heads else head) + "-" + name[len(head) + 1 :].replace("-", "_")
    return name.replace("-", "_")


def turn(path, names, fields, text):
    """The text with the names respelled."""
    mark = "--" if path.endswith(".antt") else "//"
    taken = set()
    for line in text.split("\n"):
        m = LIBRARY.match(line)
        if m:
            taken |= {w.strip().split(" ")[0] for w in m[1].split(",")}
    in_folder = "/proofs/" in path and path.endswith(("Answers.antt", "Invariants.antt", "Proof.antt"))
    out = []
    for line in text.split("\n"):
        body = code(line, mark)
        tail = line[len(body) :]
        if LIBRARY.match(line) or (path.endswith(".rt") and not ("ghost" in line or "{" in line or "≡" in line or "λ" in line)):
            out.append(line)
            continue

        def one(m, body=body):
            name, at = m[0], m.start()
            if name not in names or name in taken:
                return name
            if at and body[at - 1] == "." and in_folder:
                head = re.search(r"([A-Za-z_][\w'-]*)(?:\.[\w'-]+)*\.$", body[:at])
                if (head is None or head[1] in ("c", "w", "g", "l", "goal")) and name not in fields:
                    return name
            return names[name]

        if '"' in body and path.endswith(".rt"):
            out.append(line)
            continue
        tail = re.sub(r"`([^`]*)`", lambda q: "`" + TOKEN.sub(lambda m: names.get(m[0], m[0]), q[1]) + "`", tail)
        out.append(TOKEN.sub(one, body) + tail)
    return "\n".join(out)


def main(argv):
    top = os.getcwd()
    own, types, fields = collect(top)
    names = {name: respelled(name, types) for name in own if respelled(name, types) != name}
    back = {}
    for old, new in sorted(names.items()):
        if new in back:
            print(f"together: {old} and {back[new]} would both be {new}")
        back[new] = old
    for path in files(top):
        text = open(path, encoding="utf-8").read()
        tokens = set(TOKEN.findall(text))
        for old in sorted(tokens & set(names)):
            if names[old] in tokens and path.endswith(".antt"):
                print(f"together: {path[len(top) + 1:]} has {old} and {names[old]}")
        new = turn(path, names, fields, text)
        if new != text and "--dry" not in argv:
            open(path, "w", encoding="utf-8").write(new)
    for old, new in sorted(names.items()):
        print(f"{old}\t{new}")
    return 0


if __name__ == "__main__":
    raise SystemExit(main(sys.argv[1:]))
