#!/usr/bin/env python3
"""Lists the places in crates/*/src where an older form stands for one that the language has now, by kind of form.

    python3 tools/places.py [FOLDER]        each place, and a count for each kind
    python3 tools/places.py --counts [FOLDER]    the counts alone

It reads text and not types, so it lists more than has to change: docs/DESIGN-PASS.md says of each kind what became of it.
"""
import collections
import os
import re
import sys

counts_only = "--counts" in sys.argv
folders = [a for a in sys.argv[1:] if not a.startswith("--")]
top = folders[0] if folders else os.path.join(os.path.dirname(os.path.abspath(__file__)), "..")
crates = os.path.join(top, "crates")


def sources():
    for folder, _, names in sorted(os.walk(crates)):
        parts = os.path.relpath(folder, crates).split(os.sep)
        if len(parts) > 1 and parts[1] == "src":
            for name in sorted(n for n in names if n.endswith(".rt")):
                path = os.path.join(folder, name)
                with open(path, encoding="utf-8") as file:
                    yield os.path.relpath(path, crates), file.read()


files = list(sources())
places = collections.OrderedDict()


def place(kind, where, line, said):
    places.setdefault(kind, []).append(f"{where}:{line}: {' '.join(said.split())[:110]}")


def line_of(text, at):
    return text.count("\n", 0, at) + 1


def each(kind, pattern, flags=re.M, only=None):
    places.setdefault(kind, [])
    for where, text in files:
        if only and not only(where):
            continue
        bare = re.sub(r"//[^\n]*", lambda m: " " * len(m.group(0)), text)
        for m in re.finditer(pattern, bare, flags):
            place(kind, where, line_of(text, m.start()), m.group(0))


# Functions: where, line, name, parameters, result, clauses, body.
Function = collections.namedtuple("Function", "where line name parameters result clauses body")


def matching(text, at, opening, closing):
    depth = 0
    for i in range(at, len(text)):
        if text[i] == opening:
            depth += 1
        elif text[i] == closing:
            depth -= 1
            if depth == 0:
                return i + 1
    return len(text)


def functions():
    for where, text in files:
        bare = re.sub(r"//[^\n]*", lambda m: " " * len(m.group(0)), text)
        for m in re.finditer(r"\bfn (\w+)(<[^(]*>)?\(", bare):
            close = matching(bare, m.end() - 1, "(", ")")
            parameters = bare[m.end():close - 1]
            rest = bare[close:]
            result = re.match(r"\s*->\s*([^\n{;]+)", rest)
            at = close + (result.end() if result else 0)
            clauses = []
            while True:
                c = re.match(r"\s*(requires|ensures)\*?( \w+)? \{", bare[at:])
                if not c:
                    break
                end = matching(bare, at + c.end() - 1, "{", "}")
                clauses.append((c.group(1), bare[at + c.end():end - 1].strip()))
                at = end
            b = re.match(r"\s*\{", bare[at:])
            body = bare[at + b.end():matching(bare, at + b.end() - 1, "{", "}") - 1] if b else ""
            yield Function(where, line_of(text, m.start()), m.group(1), parameters, (result.group(1).strip() if result else ""), clauses, body)


every = list(functions())

# 1. Options and results by hand -------------------------------------------------------------------------------------------
each("1a an option of an error", r"-> Option<\w*(Refusal|Fault)>")
each("1b a number for an error", r"Result<[^<>;=]*(<[^<>]*>)?[^<>;=]*, u(8|16|32|64)>")
each("1c a change that answers a flag", r"fn \w+\(&mut self[^)]*\) -> bool")
places["1d a value beside what says whether it is there"] = []
for where, text in files:
    for m in re.finditer(r"//[^\n]*(otherwise 0|, or 0)\.?\n\s*pub(\(crate\))? \w+: [^\n]+", text):
        place("1d a value beside what says whether it is there", where, line_of(text, m.start()), m.group(0))
places["1e an enum of the shape of Option, Result or Either"] = []
for where, text in files:
    for m in re.finditer(r"enum (\w+)[^{]*\{", text):
        inner = re.sub(r"//[^\n]*", "", text[m.end():matching(text, m.end() - 1, "{", "}") - 1])
        variants = re.findall(r"(?:^|,)\s*(\w+)\s*(\(|\{)?", re.sub(r"\{[^}]*\}", "{", re.sub(r"\([^)]*\)", "(", inner)))
        if len(variants) == 2 and any(v[1] for v in variants):
            place("1e an enum of the shape of Option, Result or Either", where, line_of(text, m.start()), m.group(0) + ", ".join(v[0] for v in variants))
places["1f a table of numbers for an enum"] = []
for f in every:
    if f.name in ("number", "kind_of", "line") and re.search(r"=>\s*\d+,", f.body):
        place("1f a table of numbers for an enum", f.where, f.line, f.name)
each("1g a number for a kind or a way", r"\b(kind|way|way_number): u(8|16|32)\b")
each("1h a refusal handed on by hand", r"(else \{\s*return (Err\([^;]*\)|None);)|(None => (return )?Err\([^\n]*)|(Err\((\w+)\) => Err\(\6\))|(None => None,)")

# 2. Twins -----------------------------------------------------------------------------------------------------------------
places["2a a constant that stands twice"] = []
constants = collections.defaultdict(list)
for where, text in files:
    for m in re.finditer(r"^(?:pub(?:\(crate\))? )?const (\w+): \w+ = ([\d_]+);", text, re.M):
        constants[m.group(2).replace("_", "")].append((where, line_of(text, m.start()), m.group(0)))
for value, found in constants.items():
    if int(value) > 9 and len(found) > 1:
        for where, line, said in found:
            place("2a a constant that stands twice", where, line, said)
places["2b functions of one shape"] = []
shapes = collections.defaultdict(list)
keywords = {"if", "else", "for", "in", "match", "return", "let", "mut", "while", "Some", "None", "Ok", "Err", "self", "true", "false", "as"}
for f in every:
    words = {}
    shape = re.sub(r"[A-Za-z_]\w*|\d[\d_]*", lambda m: m.group(0) if m.group(0) in keywords else words.setdefault(m.group(0), f"w{len(words)}"), f.body)
    shape = " ".join(shape.split())
    if f.body.count("\n") >= 3:
        shapes[shape].append(f)
for found in shapes.values():
    if len(found) > 1:
        for f in found:
            place("2b functions of one shape", f.where, f.line, f.name)
places["2c arms that do the same"] = []
for where, text in files:
    for m in re.finditer(r"^\s*([\w:]+)( =>[^\n{]*,)\n\s*([\w:]+)\2\n", text, re.M):
        if not where.split("/")[0].endswith("_tests") and " => {}," not in m.group(2):
            place("2c arms that do the same", where, line_of(text, m.start()) + 1, m.group(0))

# 3. Loops -----------------------------------------------------------------------------------------------------------------
each("3a a loop over an index", r"^\s*for \w+ in \(?\d+\.\.[^\n{]*\{")
each("3b a loop with a test", r"^\s*(while [^\n]*|loop )\{")

# 4. By hand what is derived or converted ------------------------------------------------------------------------------------
each("4a an impl by hand", r"^impl[^\n]* (Partial(Eq|Ord)|Eq|Ord|Clone|Copy|Default|Hash|From(<\w+>)?|TryFrom(<\w+>)?|Display|Drop)(<[^\n]*>)? for [^\n]*")
each("4b a cast that a test makes safe", r"\w[\w.]*(\([^()\n]*\))?(?: \+ \w+)? as (u8|u16|u32|i64)\b")
places["4c text made by hand outside Display"] = []
for f in every:
    if re.search(r"\bwrite!\(|\bformat!\(", f.body) and f.name != "fmt" or re.match(r"put_|\w+_length$", f.name) and f.where.startswith("journal/"):
        place("4c text made by hand outside Display", f.where, f.line, f.name)

# 5. Facts and parameters that go together -----------------------------------------------------------------------------------
places["5a a fact that three functions require"] = []
facts = collections.defaultdict(list)
for f in every:
    for kind, said in f.clauses:
        if kind == "requires":
            for fact in re.split(r" × ", said):
                fact = re.sub(r"\b\w+(\.\w+)*\.(now|old|entry)\b", lambda m: re.sub(r"\.(now|old|entry)\b", "", m.group(0)), " ".join(fact.split()))
                facts[f.where.split("/")[0], fact].append(f)
for (crate, fact), found in facts.items():
    if len({f.name for f in found}) > 2:
        place("5a a fact that three functions require", found[0].where, found[0].line, f"{fact}  in " + ", ".join(f.name for f in found))
words = collections.defaultdict(list)
for f in every:
    for kind, said in f.clauses:
        if kind == "requires":
            for word in set(re.findall(r"(?<![\w.])[A-Z][a-z]\w+(?![\w.])", said)):
                words[f.where.split("/")[0], word].append(f)
for (crate, word), found in words.items():
    if len({f.name for f in found}) > 2:
        place("5a a fact that three functions require", found[0].where, found[0].line, f"{word} ..  in " + ", ".join(f.name for f in found))
places["5b parameters that go together in three functions"] = []
groups = collections.defaultdict(set)
for f in every:
    if f.where.split("/")[0].endswith("_tests"):
        continue
    typed = re.findall(r"(\w+): (&?(?:'\w+ )?(?:mut )?[\w<>\[\]';]+)", f.parameters)
    for i in range(len(typed)):
        for j in range(i + 1, len(typed)):
            a, b = sorted((typed[i], typed[j]))
            groups[f.where.split("/")[0], a, b].add(f.name)
for (crate, a, b), names in sorted(groups.items()):
    if len(names) > 2:
        place("5b parameters that go together in three functions", crate, 0, f"{a[0]}: {a[1]}, {b[0]}: {b[1]}  in " + ", ".join(sorted(names)))

# 6. Buffers, parallel arrays, searches --------------------------------------------------------------------------------------
places["6a a buffer with a length beside it"] = []
places["6b arrays side by side"] = []
for where, text in files:
    for m in re.finditer(r"struct (\w+)[^{;]*\{", text):
        inner = re.sub(r"//[^\n]*", "", text[m.end():matching(text, m.end() - 1, "{", "}") - 1])
        arrays = re.findall(r"(\w+): \[[^\n]*; (\w+)\]", inner)
        if arrays and re.search(r"\b(len|count|used): usize", inner) and len(arrays) == 1:
            place("6a a buffer with a length beside it", where, line_of(text, m.start()), m.group(1))
        for size in {s for _, s in arrays}:
            if sum(1 for _, s in arrays if s == size) > 1:
                place("6b arrays side by side", where, line_of(text, m.start()), m.group(1) + ": " + ", ".join(n for n, s in arrays if s == size))
each("6c a stretch of a long list by its place", r"\b(64|32|MOST_\w+) \* \(?[^\n,;]*")
each("6d a row of a table with no names", r"^type \w+ = \([^\n]*|&\[\(([^)\n]*, ){3,}[^\n]*")
each("6e an element by a tested index", r"if \w+ < \w+(\.\w+)*\.len\(\) \{[^\n]*")

# 7. Switches ----------------------------------------------------------------------------------------------------------------
each("7 a switch on what is to be done", r"match (\w+\.)?(phase|effect|told|step|change|log|way|request\(?\)?)\b[^\n]*\{")

shown = 0
for kind, found in places.items():
    print(f"{kind}: {len(found)}")
    if not counts_only:
        for said in found:
            print(f"    {said}")
