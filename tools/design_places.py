#!/usr/bin/env python3
"""Counts the places that docs/DESIGN-PASS.md speaks of, in the src/ of every crate.

    python3 tools/design_places.py            the tree as it stands
    python3 tools/design_places.py COMMIT     the tree of a commit
    python3 tools/design_places.py --list N   the places of point N, a line each

A line of a comment is not counted; a line under a comment `// Kept:` is counted all the same, and
the number of such comments stands in a row of its own.
"""
import re
import subprocess
import sys

FN = re.compile(r"\bfn (\w+)")
# Point, name, and a pattern over one line of code.
LINES = [
    (1, "answer enums with a refusal's number", r"\bRefused\(u8\)"),
    (1, "functions that answer a refusal's number", r"^\s*(pub |pub\(crate\) )?fn \w*refusal\w*\(.*-> u8|^\) -> u8"),
    (1, "numbers of refusals written out", r"(Refused|refused|refuse_unless)\((\d+)|code: \d+"),
    (2, "own helpers for what std has", r"\bfn (larger|smaller|sooner|fewer|fewest|less|both|wide|add|all_six|refuse_unless|or_else)\("),
    (2, "twins by type", r"\bfn (copy8|copy16|copy32|bytes|halves|words|next_slots|next_bytes|\w+_number)\("),
    (3, "while loops", r"^\s*while "),
    (3, "steps of a counter by hand", r"^\s*(\w+) (\+= 1|= \1 [+-] 1|-= 1);"),
    (4, "equality, order, copying, printing by hand", r"impl (PartialEq|Ord|PartialOrd|Clone|Display)\b|fn (compare|is_same|same)\("),
    (5, "a job's parameters one by one", r"\bsize_chunks: &"),
    (5, "rows' parameters one by one", r"\b(slots|fetched_slots|row_slots): &"),
    (5, "lengths of arrays as facts", r"length \w+(\.now|\.old|\.new)? ≡ (10|64|65|500|501|512|1024|2000|3600|3601|5599|5957|32000)\b"),
    (6, "arrays with a first place or a count beside", r"\bfirst: usize,"),
    (7, "flags that say which step to run", r"\b(afresh|sequenced): bool"),
]


def files(commit):
    if commit:
        names = subprocess.run(["git", "ls-tree", "-r", "--name-only", commit], capture_output=True, text=True, check=True).stdout.split("\n")
    else:
        names = subprocess.run(["git", "ls-files"], capture_output=True, text=True, check=True).stdout.split("\n")
    for name in names:
        if re.fullmatch(r"crates/\w+/src/.*\.rt", name):
            if commit:
                text = subprocess.run(["git", "show", f"{commit}:{name}"], capture_output=True, text=True, check=True).stdout
            else:
                text = open(name, encoding="utf-8").read()
            yield name, text


def main():
    args = sys.argv[1:]
    wanted = None
    if args and args[0] == "--list":
        wanted, args = int(args[1]), args[2:]
    commit = args[0] if args else None
    found = {(point, name): [0, 0] for point, name, _ in LINES}
    kept = [0, 0]
    many = [0, 0]
    for name, text in files(commit):
        kind = 1 if "/test_" in name else 0
        code = [line for line in text.split("\n") if not line.lstrip().startswith("//")]
        kept[kind] += sum(1 for line in text.split("\n") if line.lstrip().startswith("// Kept:"))
        for point, what, pattern in LINES:
            for line in code:
                if re.search(pattern, line):
                    found[(point, what)][kind] += 1
                    if wanted == point:
                        print(f"{name}: {line.strip()}")
        for head in re.findall(r"\bfn \w+(?:<[^>]*>)?\(([^{]*?)\)(?: ->|\n|\s*\{)", "\n".join(code)):
            if head.count(":") > 6:
                many[kind] += 1
    if wanted is None:
        print("point\tplaces\tlibraries\ttests")
        for (point, what), (libraries, tests) in found.items():
            print(f"{point}\t{what}\t{libraries}\t{tests}")
        print(f"5\tfunctions of more than six parameters\t{many[0]}\t{many[1]}")
        print(f"-\tcomments `// Kept:`\t{kept[0]}\t{kept[1]}")


main()
