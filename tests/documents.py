"""The documents against the tree: no document may name a file, a crate, a call, a definition or a
must-fail edit that isn't there; docs/PROMISES.md has to name every edit, docs/CALLS.md every call of
the headers, docs/ARCHITECTURE.md every crate. No long line of a document may stand in it twice.
A must-fail edit has to find what it replaces.
Looked at are links, what stands in `code`, and paths in commands. The notes and the changelog tell
what was, so of them only the links are looked at. In sources every file that a comment names has to
be there.
Run it at the root of the repository: python3 tests/documents.py"""
import glob
import os
import re
import sys

import header

DOCUMENTS = ["README.md", "CONTRIBUTING.md", "CHANGELOG.md"] + sorted(glob.glob("docs/*.md") + glob.glob("docs/notes/*.md") + glob.glob("bench/*.md"))
HISTORY = ("docs/PORT.md", "docs/DESIGN-PASS.md", "docs/notes/", "CHANGELOG.md")

# What a command may name and the tree need not have: what is built or made by another command, and
# folders that a reader chooses.
MADE = ("target/", "desk/", "desk", "/dev/", "PREFIX")

# Where a name of the tree may stand.
SOURCES = ["crates/**/*.rt", "crates/**/*.antt", "include/*.h", "rust/**/*.rs", "rust/**/*.toml", "film/src/**/*.rs", "film/tests/**/*.rs",
           "tests/*", "tools/*", "bench/*", "examples/*", "samples/*", "crates.txt", "toolchain.txt"]
# Words of the papers, of the languages and of the tools beside the project.
WORDS = set("""PG LY BW SZ EN KP FT specs proofs lemmas requires ensures unsafe cargo gcc rt valgrind python3 refl omega antt abbrev
    unfoldable u8 u16 u32 u64 usize stdin stdout data noalias callgrind memcheck glibc rattle_open_to_read rattle_set_errno""".split())
# Targets of CMake, which look like a crate's names.
TARGETS = {"film_planner::film_planner", "film_planner::shared"}


def read(path):
    with open(path, encoding="utf8", errors="replace") as f:
        return f.read()


def made(path):
    """Whether a file is what a build or a check left."""
    return "target/" in path or "/out/" in path


def tree():
    """The text in which a name has to stand, by word."""
    words = set()
    for pattern in SOURCES:
        for path in glob.glob(pattern, recursive=True):
            if os.path.isfile(path) and not made(path):
                words.update(re.findall(r"[^\s(){}\[\]`,;:.\"]+", read(path)))
    return words


CRATES = {os.path.basename(path) for path in glob.glob("crates/*")}
KIT_CRATES = {"std", "io", "os", "libc", "check", "bytes"}
EDITS = {f"{path.split('/')[1]}/{os.path.basename(path)[:-5]}" for path in glob.glob("crates/*/must-fail/*.edit")}
HEADERS = read("include/film_planner.h") + read("include/film_most.h")


def modules():
    """The files of each crate's specs and proofs, by crate and name."""
    found = {}
    for path in glob.glob("crates/*/specs/**/*.antt", recursive=True) + glob.glob("crates/*/proofs/**/*.antt", recursive=True):
        found.setdefault((path.split("/")[1], os.path.basename(path)[:-5]), []).append(path)
    return found


MODULES = modules()
WORDS_OF_TREE = tree()


def defined(name, paths):
    mark = r"(?:abbrev |unfoldable |pub |record |data |axiom |ruleset |constructor )*"
    return any(re.search(rf"(?m)^\s*{mark}{re.escape(name)}(?=[\s:({{])", read(path)) for path in paths)


def module_fault(span):
    """A name of a crate's specs, as `crate/File.name` or `Crate.File.name`; None if it is no such
    name."""
    found = re.fullmatch(r"([a-z]\w*)/(?:(?:specs|proofs|lemmas)/)*([A-Z]\w*)(?:\.(\S+))?", span)
    found = found or re.fullmatch(r"([A-Z]\w*)\.([A-Z]\w*)(?:\.(\S+))?", span)
    if not found or found[1].lower() not in CRATES:
        return None
    crate, file, name = found[1].lower(), found[2], found[3]
    paths = MODULES.get((crate, file))
    if not paths:
        return f"crate {crate} has no file {file}.antt"
    if name and not defined(name.split(".")[0], paths):
        return f"{name} is not defined there"
    return ""


def call_fault(span):
    """A function, type or constant of a crate, as `crate::name`; None if it is no such name."""
    found = re.match(r"([a-z]\w*)::(\w+)", span)
    if not found or found[1] not in CRATES:
        return None
    if span in TARGETS:
        return ""
    sources = "\n".join(read(path) for path in glob.glob(f"crates/{found[1]}/src/**/*.rt", recursive=True))
    if re.search(rf"\b(?:fn|const|struct|enum|type) {found[2]}\b", sources):
        return ""
    return f"crate {found[1]} has no {found[2]}"


def path_fault(span, document):
    """A file or a folder."""
    if span.startswith(MADE) or re.search(r"NAME|CRATE|FILE|^crate/File", span):
        return ""
    places = [span, os.path.join(os.path.dirname(document), span), f"docs/{span}", f"crates/{span}", f"crates/*/{span}",
              "crates/" + span.replace("/lemmas", "/specs/lemmas")]
    if any(glob.glob(place) for place in places):
        return ""
    return "there is no such file"


def span_fault(span, document):
    for judge in (module_fault, call_fault):
        fault = judge(span)
        if fault is not None:
            return fault
    if re.fullmatch(r"\w+/\w+", span) and span.split("/")[0] in CRATES:
        return "" if span in EDITS or not path_fault(span, document) else "there is no such edit or file"
    if re.fullmatch(r"[\w.-]+(?:/[\w.*-]*)+", span):
        return path_fault(span, document)
    if re.fullmatch(r"[\w-]+\.(?:py|md|h|rs|txt|svg|toml|job|trace|sh|c|cc|out)", span):
        return "" if glob.glob(f"**/{span}", recursive=True) else "there is no such file"
    if re.fullmatch(r"film_\w+|FILM_\w+", span):
        return "" if span in CRATES or re.search(rf"\b{span}\b", HEADERS) or span in WORDS_OF_TREE else "no crate, call or constant of that name"
    if re.fullmatch(r"(?:core|theory|test)_\w+", span):
        return "" if span in CRATES else "there is no such crate"
    if "NAME" in span:
        return ""
    # A word that only code has: with a hyphen, an underscore or a capital inside.
    if re.fullmatch(r"[A-Za-z][\w'-]*", span) and re.search(r"[a-z][_A-Z-]|[A-Z][a-z]", span) and span not in WORDS:
        return "" if span in WORDS_OF_TREE or span in CRATES or glob.glob(f"*/{span}") else "nothing in the tree has that name"
    return ""


def named(text):
    """What a document names: the inside of `code`, and the paths in commands and in code with
    blanks."""
    fenced = re.sub(r"```.*?```", lambda found: "\n".join("    " + line for line in found[0].splitlines()[1:-1]), text, flags=re.S)
    for line in fenced.splitlines():
        if line.startswith("    "):
            spans = [line.split(" # ")[0]]
        else:
            spans = re.findall(r"`([^`]+)`", line)
        for span in spans:
            if " " not in span.strip() and not line.startswith("    "):
                yield span.strip()
            else:
                yield from re.findall(r"(?<![\w./$-])(?:tests|tools|bench|samples|examples|rust|film|crates|docs|include|\.ci)/[\w./*-]*\w", span)


def faults(document):
    text = read(document)
    for target in re.findall(r"\]\(([^)#]+)(?:#[^)]*)?\)", text):
        if "://" not in target and not os.path.exists(os.path.join(os.path.dirname(document), target)):
            yield f"{target}: a link to nothing"
    # The two pages list statements, some of which several crates or sections have.
    lines = [line for line in text.splitlines() if len(line) > 60 and document not in HISTORY[:2]]
    for line in lines:
        if lines.count(line) > 1:
            yield f"{line[:60]}: stands there twice"
    if document.startswith(HISTORY):
        return
    for span in named(text):
        fault = span_fault(span, document)
        if fault:
            yield f"{span}: {fault}"


def source_faults():
    """Files that the sources name and the tree lacks; rust/ and film/ name some from their own
    folder."""
    name = re.compile(r"(?<![\w./-])(?:tests|tools|bench|docs|samples|examples|include|crates)/[\w./-]*\w\.(?:py|md|txt|c|h|rs|job|trace|svg|out|antt)\b")
    for pattern in SOURCES:
        for path in sorted(glob.glob(pattern, recursive=True)):
            if os.path.isfile(path) and not made(path):
                for found in set(name.findall(read(path))):
                    if not any(os.path.exists(os.path.join(place, found)) for place in ("", path.split("/")[0])):
                        yield f"{path}: {found}: there is no such file"


def edit_faults():
    """A must-fail edit replaces a text that stands once in its file."""
    for path in sorted(glob.glob("crates/*/must-fail/*.edit")):
        texts, file, old = {}, "", ""
        for line in read(path).split("\n"):
            if line.startswith("file: "):
                file = os.path.join(os.path.dirname(path), "..", line[6:])
            elif line.startswith("old: "):
                old = line[5:]
            elif line.startswith("new:"):
                text = texts[file] if file in texts else read(file) if os.path.isfile(file) else ""
                if text.count(old) != 1:
                    yield f"{path}: its file has what it replaces {text.count(old)} times: {old.strip()}"
                texts[file] = text.replace(old, line[5:])


def main():
    count = 0
    for fault in [*source_faults(), *edit_faults()]:
        print(fault)
        count += 1
    for document in DOCUMENTS:
        if not os.path.exists(document):
            continue
        for fault in dict.fromkeys(faults(document)):
            print(f"{document}: {fault}")
            count += 1
    for document, what, wanted in (("docs/PROMISES.md", "an edit", EDITS), ("docs/CALLS.md", "a call of the headers", set(header.calls())),
                                   ("docs/ARCHITECTURE.md", "a crate", CRATES)):
        for lacking in sorted(wanted - set(re.findall(r"`([\w/]+)`", read(document)))):
            print(f"{document}: {lacking} is {what} that it does not name")
            count += 1
    print(f"{len(DOCUMENTS)} documents, {count} faults")
    sys.exit(bool(count))


main()
