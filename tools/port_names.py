#!/usr/bin/env python3
"""Brings the repository's own definitions and lemmas to today's spelling: words in snake case.

    tools/port_names.py           rewrites crates/*/specs, crates/*/proofs and the clauses of crates/*/src
    tools/port_names.py --table   prints the table old -> new, and writes nothing
    tools/port_names.py --docs F  rewrites the names in backticks of the pages F ..

It ran once, after port.py (docs/PORT.md). A name is the repository's own if a file of specs/ or
proofs/ defines it: at the left margin, as a field of a record, or as a constructor. `planTo` becomes
`plan_to`, `plan-exists` `plan_exists`, `A-plan` `A_plan`, `◌orElse◌` `◌or_else◌`. Types keep their
names, and so do functions of src/, strings, and what Rattle itself names (proofs/F/Proof.antt).
Names that would fall together in a file get an ending by hand: APART below."""
import glob
import json
import os
import re
import sys

TOKEN = re.compile(r"[^\s(){}\[\],;.:«»\"`]+")
DEFINED = re.compile(r"^\s*(?:(?:abbrev|unfoldable|pub|data|record|ruleset|infixl|infixr|infix)\s+)*([^\s:(){}=,;]+)\s+:(?=\s)")
HEAD = re.compile(r"^\s*(?:abbrev\s+)?(?:pub\s+)?(?:data|record|ruleset)\s+(?:pub\s+)?([^\s:(){}=]+)")
# Lemmas that would get their function's name: they end in _lem, as std's do.
APART = {
    "lengths_read": "lengths_read_lem", "word_count": "word_count_lem", "first_run": "first_run_lem",
    "best_of": "best_of_lem", "read_whole": "read_whole_lem", "neqb→ne": "neqb_ne",
}
# Fields of records, which nothing hides.
PLAIN = {"lent_after", "lower_carried", "reasons_text", "chunks_in", "sets_in", "equal_bases", "need_in", "layers_in"}
# The same in some files alone.
APART_IN = {"crates/planfile/": {"rows_in": "rows_in_lem"}}


def spelled(name):
    """Today's spelling of a name, or the name itself."""
    if name in APART:
        return APART[name]
    if name.startswith("◌") or name.endswith("◌"):
        return re.sub(r"[A-Za-z][A-Za-z0-9_'-]*", lambda m: spelled(m[0]), name)
    core = name.replace("→", "_").replace("-", "_")
    if re.match(r"[A-Z]", name):
        return core if "-" in name or "→" in name else name
    return re.sub(r"(?<=[a-z0-9'])([A-Z])", lambda m: "_" + m[1].lower(), re.sub(r"(?<=[a-z])_([A-Z])(?![A-Za-z])", r"_\1", core))


def files():
    for kind in ("specs", "proofs"):
        yield from sorted(glob.glob(f"crates/*/{kind}/**/*.antt", recursive=True))


def made_by_rattle(path, line):
    return bool(re.search(r":\s*(tie|goal|statement)\b|:\s*(tie|goal)\.", line)) or "/proofs/" in path and path.endswith("/Proof.antt") and re.search(r"\b(tie|statement|goal)\b", line)


def own():
    names = set()
    for path in files():
        for line in open(path, encoding="utf8"):
            m = DEFINED.match(line) or HEAD.match(line)
            if m and not made_by_rattle(path, line) and not line.lstrip().startswith(("--", "let ")):
                names.add(m[1])
            # constructors and fields of one line: `data T = a | b`, `pub a b : ..`
    snake = {n for n in names if re.fullmatch(r"[a-z][a-z0-9_']*", n) and n not in APART}
    camel = {spelled(n) for n in names if re.match(r"[a-z]", n) and "-" not in n and spelled(n) != n}
    for n in names:
        if "-" in n and re.match(r"[a-z]", n) and (spelled(n) in camel or spelled(n) in snake):
            APART[n] = spelled(n) + ("" if spelled(n) in PLAIN else "_lem")
    return {n for n in names if spelled(n) != n}


def library():
    """Names that today's library defines: those are not ours to respell."""
    top = os.path.dirname(os.popen("rt doc").read().strip())
    known = set()
    for path in glob.glob(f"{top}/rattle/**/*.antt", recursive=True):
        for line in open(path, encoding="utf8", errors="replace"):
            m = DEFINED.match(line) or HEAD.match(line)
            if m:
                known.add(m[1])
    return known


def functions():
    """The functions of src/, as the older Rattle wrote them in proofs."""
    found = set()
    for path in glob.glob("crates/*/src/**/*.rt", recursive=True):
        found |= set(re.findall(r"\bfn (\w+)", open(path, encoding="utf8").read()))
    return {f.replace("_", "-") for f in found}


MADE = set()


def words(text, table):
    def one(m):
        if m.start() and text[m.start() - 1] == "." and m[0].rstrip("0123456789").rstrip("-") in MADE:
            return m[0]
        return table.get(m[0], m[0])

    return TOKEN.sub(one, text)


def of_library(text):
    """What a file imports from the library."""
    found = re.findall(r"(?m)^use (?:lib|borrow|mathlib|native|Prim|logic|Rattle\.std|Rattle\.core)\b[^{\n]*\{([^}]*)\}", text)
    return {w for group in found for w in re.split(r"[\s,]+", group)}


def table_of(path, text, table):
    mine = {n: v for n, v in table.items() if n not in of_library(text)}
    for start, more in APART_IN.items():
        if path.startswith(start):
            mine |= more
    return mine


def in_ticks(text, table):
    return re.sub(r"`[^`\n]*`", lambda m: words(m[0], table), text)


def antt(text, table):
    out = []
    for line in text.split("\n"):
        code, dashes, comment = line.partition("--") if re.search(r"(^|\s)--(\s|$)", line) else (line, "", "")
        m = re.search(r"(?:^|\s)(--)(?:\s|$)", line)
        code, comment = (line[: m.start(1)], line[m.start(1):]) if m else (line, "")
        out.append(words(code, table) + in_ticks(comment, table))
    return "\n".join(out)


def rattle(text, table):
    out = []
    for line in text.split("\n"):
        m = re.search(r"(?:^|\s)//", line)
        code, comment = (line[: m.start()], line[m.start():]) if m else (line, "")
        parts = re.split(r"(b?\"(?:[^\"\\]|\\.)*\")", code)
        out.append("".join(p if k % 2 else words(p, table) for k, p in enumerate(parts)) + in_ticks(comment, table))
    return "\n".join(out)


def main():
    names, known = own(), library()
    table = {n: spelled(n) for n in sorted(names)}
    if sys.argv[1:2] == ["--docs"]:
        with open("docs/port-names.json") as f:
            table = json.load(f)
        for path in sys.argv[2:]:
            text = open(path, encoding="utf8").read()
            new = in_ticks(text, table)
            if new != text:
                open(path, "w", encoding="utf8").write(new)
        return
    both = sorted(n for n in table if n in known)
    if both:
        print("in the library too:", " ".join(both), file=sys.stderr)
    clash = 0
    paths = list(files()) + sorted(glob.glob("crates/*/src/**/*.rt", recursive=True))
    for path in paths:
        text = open(path, encoding="utf8").read()
        tokens = set(TOKEN.findall(re.sub(r"(?m)(^|\s)(--|//).*$", "", text)))
        new, mine = {}, table_of(path, text, table)
        for t in tokens:
            new.setdefault(mine.get(t, t), []).append(t)
        for n, olds in sorted(new.items()):
            if len(olds) > 1:
                clash += 1
                print(f"fall together in {path}: {' '.join(sorted(olds))}", file=sys.stderr)
    called = functions()
    if "--table" in sys.argv:
        return print(json.dumps(table, ensure_ascii=False, indent=0))
    for path in paths:
        MADE.clear()
        if path.endswith("/Proof.antt"):
            MADE.update(called)
        text = open(path, encoding="utf8").read()
        new = (antt if path.endswith(".antt") else rattle)(text, table_of(path, text, table))
        if new != text:
            open(path, "w", encoding="utf8").write(new)
    with open("docs/port-names.json", "w", encoding="utf8") as f:
        json.dump(table, f, ensure_ascii=False, indent=0)
    print(f"{len(table)} names, {clash} places to look at")


if __name__ == "__main__":
    main()
