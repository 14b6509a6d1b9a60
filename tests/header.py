"""What include/film_planner.h and include/film_most.h say, for the programs that hold them against
something else or take their words from them: version, calls, constants, refusals and inline
functions."""
import hashlib
import os
import re

FOLDER = os.path.join(os.path.dirname(os.path.dirname(os.path.abspath(__file__))), "include")


def read(name):
    with open(os.path.join(FOLDER, name)) as f:
        return f.read()


TEXT = read("film_planner.h")
# Most pictures stand in a header of their own, which has no version.
TEXTS = [TEXT, read("film_most.h")]

# What the compiler reads of film_planner.h, in one form however it is laid out.
CODE = " ".join(re.sub(r"/\*.*?\*/", " ", TEXT, flags=re.S).split())

VERSION = int(re.search(r"^#define FILM_VERSION (\d+)$", TEXT, re.M)[1])


def fingerprint():
    """A sum of film_planner.h's code, which changes with whatever a caller may have compiled in."""
    return hashlib.sha256(CODE.encode()).hexdigest()[:16]


def calls():
    """Each call of the archive and its arguments, blanks folded; "void" where it takes none."""
    found = re.findall(r"^FILM_(?:CALL|ANSWER) (film_\w+)\((.*?)\);", "".join(TEXTS), re.M | re.S)
    return {name: " ".join(args.split()) for name, args in found}


def inline():
    """The functions of the inline layer, by name."""
    return set(re.findall(r"^static inline \w+ (film_\w+_of)\(", "".join(TEXTS), re.M))


def constants():
    """The largest results by name, without FILM_ in front."""
    blocks = [re.search(r"the largest results.*?enum \{(.*?)\};", text, re.S)[1] for text in TEXTS]
    return {name: int(value) for name, value in re.findall(r"FILM_(\w+) = (\d+)", "".join(blocks))}


def refusals():
    """The sentence of each refusal by its number; a long one stands in several strings."""
    block = re.search(r"#define FILM_REFUSALS\(X\) \\\n(.*?)\n\n", TEXT, re.S)[1]
    entries = re.findall(r'X\((\d+), \w+, ((?:"[^"]*"[\s\\]*)+)\)', block)
    return {int(number): "".join(re.findall(r'"([^"]*)"', said)) for number, said in entries}
