#!/usr/bin/env python3
"""Brings the repository's own names to the spelling of today's Rattle: words in snake case, types in
upper camel case, a dash only between two names. Run once, at the top, after the kit's port.py.

usage: tools/respell.py [--check]

It renames what specs/ and proofs/ define, in every .antt and .rt file of a crate, and the same
words in edits and documents. It says which two names of one file would fall together, and renames
neither's use there: --check prints that alone, and writes nothing.
"""
import os
import re
import sys
from collections import defaultdict

TABLE = "tools/respelled.tsv"
ROOTS = ["crates", "unfinished"]
# Files whose module would have a name that Rattle makes itself.
MOVED = {"crates/walk/specs/Contracts.antt": "crates/walk/specs/Clauses.antt"}
MOVED_PATHS = {"Rattle.walk.specs.Contracts.": "Rattle.walk.specs.Clauses."}
STOP = r"\s(){}\[\];,"
WORD = re.compile(rf"[^{STOP}]+")
SIGNATURE = re.compile(
    r"^(\s*)(?:abbrev\s+|unfoldable\s+)?(?:pub\s+)?(?:(?:abbrev|record|data|unfoldable)\s+)?([^\s:(){}|]+)((?:\s*\([^()]*(?:\([^()]*\)[^()]*)*\)|\s*\{[^{}]*\})*)\s*:\s",
    re.M,
)
# Names that would fall together with another of their file under the rule, and what they are called.
LISTS = {"length", "take", "drop", "map", "reverse", "set", "suc", "zero"}
OWN = {"from_last": "from_last_lem"}
# The same in one file alone.
OWN_IN = {
    "crates/fields/proofs/Runs.antt": {"run_length": "run_length_lem"},
    "crates/path/proofs/Writing.antt": {"in_order": "in_order_lem"},
    "crates/triangles_join/proofs/to_convex_polygons/Proof.antt": {"too_many": "too_many_lem"},
}


def texts(endings, roots=ROOTS):
    for root in roots:
        for folder, dirs, files in os.walk(root):
            dirs[:] = sorted(d for d in dirs if d not in ("out", ".git", "target"))
            for f in sorted(files):
                if f.endswith(endings):
                    yield os.path.join(folder, f)


def read(path):
    with open(path, encoding="utf-8") as f:
        return f.read()


def code_of(text):
    return "\n".join(l.split("--")[0] if l.lstrip().startswith("--") else re.sub(r"\s-- .*", "", l) for l in text.split("\n"))


def snake(word):
    """camelCase as snake_case; a word with a capital first, or of capitals alone, as it is."""
    if not re.match(r"[a-z]", word):
        return word
    word = word.replace("getD", "get_or")
    return re.sub(r"(?<=[a-z0-9'ℤℕ])([A-Z])", lambda m: "_" + m.group(1).lower(), word)


def symbol(part):
    return not re.search(r"[A-Za-z0-9]", part)


def named(part):
    """Whether a part of a lemma's name is a definition's name: of ours by its two words, or a list's."""
    return "_" in part or symbol(part) or part in LISTS


def joined(parts):
    name = parts[0]
    for before, part in zip(parts, parts[1:]):
        name += ("-" if named(before) and named(part) else "_") + part
    return name


def is_goal(text, at):
    """Whether a signature is that of an answer, which Rattle names."""
    return re.match(r"\s*(tie|goal|given|Given|Tie)\.", text[at:]) is not None


def defined():
    """The names that specs/ and proofs/ define, and the fields of their records."""
    names, fields = set(), set()
    for path in texts(".antt"):
        text = code_of(read(path))
        for m in SIGNATURE.finditer(text):
            name = m.group(2)
            if "◌" in name or name in ("_", "λ", "let", "use", "mod") or is_goal(text, m.end() - 1):
                continue
            names.add(name)
        for m in re.finditer(r"^\s*\|?\s*([a-z][^\s:(){}|]*)\s*:\s", text, re.M):
            if not is_goal(text, m.end() - 1):
                names.add(m.group(1))
        for m in re.finditer(r"^(?:pub\s+)?(?:record|data)\b.*?\bwhere\n((?:[ \t]+.*\n|\n)*)", text + "\n", re.M):
            for f in re.finditer(r"^\s+(?:pub\s+)?([^\s:(){}|]+)((?:\s+[^\s:(){}|]+)*)\s*:\s", m.group(1), re.M):
                fields.add(f.group(1))
                fields.update(f.group(2).split())
    return names | fields, fields


def of_name(n, fields):
    if n.endswith("-spec") or n in fields:
        # the proof of a function, which keeps the function's spelling; a field, an identifier of Rattle's
        return "_".join(snake(p) for p in n.split("-"))
    if "-" in (n[0], n[-1]):
        return n
    return joined([snake(p) for p in n.split("-")])


def table(lemmas):
    names, fields = defined()
    turn = {}
    for n in sorted(names | set(OWN)):
        new = OWN.get(n) or lemmas.get(n) or of_name(n, fields)
        if "◌" not in n and new != n:
            turn[n] = new
    return turn, {f for f in fields if f in turn}


def turn_word(word, turn, fields, aliases, dotted):
    """One word of antt: a name, a path of the crate, or a value with its fields."""
    parts = word.split(".")
    if len(parts) == 1:
        return turn.get(word, word)
    path = parts[0] == "Rattle" or parts[0] in aliases or parts[0] in dotted
    out = [parts[0] if path else turn.get(parts[0], parts[0])]
    for p in parts[1:]:
        out.append(turn.get(p, p) if (parts[0] in aliases and parts[0] not in ("tie", "goal", "code")) or p in fields else p)
    return ".".join(out)


def answers(text):
    """Names that Rattle gave, in a file of answers."""
    return {m.group(2) for m in SIGNATURE.finditer(text) if is_goal(text, m.end() - 1)}


def turn_antt(text, turn, fields):
    aliases = set(re.findall(r"^\s*use \S+ as (\S+)", text, re.M))
    mine = answers(text)
    local = {k: v for k, v in turn.items() if k not in mine}
    out = []
    for line in text.split("\n"):
        m = re.match(r"^(\s*)--", line) or re.search(r"\s-- ", line)
        at = m.start() if m else len(line)
        head, tail = line[:at], line[at:]
        head = WORD.sub(lambda w: turn_word(w.group(0), local, fields, aliases, ()), head)
        out.append(head + turn_prose(tail, local))
    return "\n".join(out)


def turn_prose(text, turn):
    """In a comment only what is a name beyond doubt: a word in camel case, or one between backticks."""
    text = re.sub(r"`([^`\n]+)`", lambda m: "`" + WORD.sub(lambda w: turn.get(w.group(0), w.group(0)), m.group(1)) + "`", text)
    return re.sub(r"(?<![\w'./-])[a-z]+[A-Z][A-Za-z]*(?![\w'-])", lambda m: turn.get(m.group(0), m.group(0)), text)


def turn_rt(text, turn, fields):
    """In code a hyphen is a minus, so of hyphened names only those that a ghost use brings in are turned."""
    imported = set()
    for m in re.finditer(r"ghost use [^;]*\{([^}]*)\}", text):
        imported.update(w.strip().split(" as ")[0] for w in m.group(1).split(","))
    local = {k: v for k, v in turn.items() if "-" not in k or k in imported}
    out = []
    for line in text.split("\n"):
        m = re.search(r"(^|\s)//", line)
        at = m.start() if m else len(line)
        head, tail = line[:at], line[at:]
        if '"' not in head:
            head = WORD.sub(lambda w: turn_word(w.group(0), local, fields, (), ()), head)
        out.append(head + turn_prose(tail, local))
    return "\n".join(out)


def clashes(turn, fields):
    """For each file the new names that two of its names would have."""
    for path in texts((".antt", ".rt")):
        text = read(path)
        is_antt = path.endswith(".antt")
        own = {**turn, **OWN_IN.get(path, {})}
        code = code_of(text) if is_antt else re.sub(r"//.*", "", text)
        seen = set()
        for w in WORD.findall(code):
            if not w.startswith("Rattle."):
                parts = w.split(".")
                seen.update([parts[0]] + [p for p in parts[1:] if p in fields])
        fall = defaultdict(set)
        mine = answers(text) if is_antt else set()
        for w in seen:
            fall[w if w in mine else own.get(w, w)].add(w)
        for new, olds in fall.items():
            if len(olds) > 1 and new:
                yield path, new, olds


def of_libraries(text, crates):
    """The names that a file takes from a library of the kit, which keep their spelling."""
    names = set()
    for m in re.finditer(r"use (\S+?)\.\{([^}]*)\}", text):
        path = m.group(1).split(".")
        if path[0] != "Rattle" or path[1] not in crates:
            names.update(w.strip().split(" as ")[0] for w in m.group(2).split(","))
    return names


def main(argv):
    check = "--check" in argv
    crates = set(os.listdir("crates"))
    # a lemma that would have its function's name
    lemmas = {}
    turn, fields = table(lemmas)
    for path, new, olds in clashes(turn, fields):
        if path.endswith(".antt"):
            lemmas.update((n, turn[n] + "_lem") for n in olds if "-" in n)
    turn, fields = table(lemmas)
    if os.path.exists(TABLE):
        # what the repository's own names became, so that an older commit is turned alike
        turn = dict(l.rstrip("\n").split("\t") for l in open(TABLE, encoding="utf-8"))
        fields = {f for f in defined()[1] if f in turn}
    bad = 0
    for path, new, olds in clashes(turn, fields):
        print(f"together: {path}: {new}: {' '.join(sorted(olds))}")
        bad += path.endswith(".antt")
    for path in texts((".antt", ".rt")):
        text = read(path)
        for old, moved in MOVED_PATHS.items():
            text = text.replace(old, moved)
        if path == "crates/walk/specs/Lib.antt":
            text = text.replace("mod Contracts\n", "mod Clauses\n")
        kept = of_libraries(text, crates)
        own = {k: v for k, v in {**turn, **OWN_IN.get(path, {})}.items() if k not in kept}
        new = turn_antt(text, own, fields) if path.endswith(".antt") else turn_rt(text, own, fields)
        if new != read(path) and not check:
            with open(path, "w", encoding="utf-8") as f:
                f.write(new)
    for old, moved in MOVED.items():
        if os.path.exists(old) and not check:
            os.rename(old, moved)
    print(f"{len(turn)} names, {bad} places where two fall together")
    if not check:
        with open(TABLE, "w", encoding="utf-8") as f:
            f.writelines(f"{k}\t{v}\n" for k, v in sorted(turn.items()))
    return 1 if bad else 0


if __name__ == "__main__":
    sys.exit(main(sys.argv[1:]))
