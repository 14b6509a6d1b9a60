"""The headers against the sources of crate `film_planner`. Prints a C file that includes them and
declares each call once more from those sources, so that the compiler refuses a header with other
types, and that names each, so that the linker refuses an archive that lacks one. Refused here, since
the compiler takes it: arguments of other names, or two of one type in another order; a call with
slices that the inline layer lacks; a version that is not the crate's; and a film_planner.h whose code
is not the one that include/versions.txt keeps for its version.
Run it at the root of the repository: python3 tests/prototypes.py > target/kit/prototypes.c"""
import glob
import re
import sys

import header

TYPES = {"u8": "uint8_t", "u16": "uint16_t", "u32": "uint32_t", "u64": "uint64_t", "usize": "size_t"}


def calls():
    """Each exported call: its name, its arguments and its result."""
    for path in sorted(glob.glob("crates/film_planner/src/*.rt")):
        with open(path) as f:
            source = f.read()
        for name, args, result in re.findall(r'#\[unsafe\(no_mangle\)\]\s*pub extern "C" fn (\w+)\((.*?)\) -> (\w+)', source, re.S):
            yield name, [a.split(":") for a in args.split(",") if a.strip()], result


def arguments(args):
    parts = []
    for arg, kind in args:
        arg, kind = arg.strip(), kind.strip()
        found = re.fullmatch(r"&(mut )?\[(\w+)\]", kind)
        if found:
            parts += [f"{'' if found[1] else 'const '}{TYPES[found[2]]} *{arg}", f"size_t {arg}_len"]
        else:
            parts.append(f"{TYPES[kind]} {arg}")
    return ", ".join(parts) or "void"


def check_version():
    """One number: the header's, the crate's, what its calls are proved to answer, and the name that
    every program links."""
    with open("crates/film_planner/src/version.rt") as f:
        source = f.read()
    said = [int(n) for n in re.findall(r"pub const VERSION: u64 = (\d+);|result ≡ (\d+)|film_archive_of_version_(\d+)\(", source) for n in n if n]
    if set(said) != {header.VERSION} or len(said) != 4:
        sys.exit(f"the header is of version {header.VERSION}, crates/film_planner/src/version.rt says {said}")
    with open("include/versions.txt") as f:
        kept = dict(line.split() for line in f if not line.startswith("#"))
    if kept.get(str(header.VERSION)) != header.fingerprint():
        sys.exit(f"the header's code is not that of version {header.VERSION}: raise the version in the header and in\n"
                 "crates/film_planner/src/version.rt, unless this version has never been shipped, and keep in\n"
                 f"include/versions.txt: {header.VERSION} {header.fingerprint()}")


def main():
    found = {name: (arguments(args), result) for name, args, result in calls()}
    said, inline = header.calls(), header.inline()
    lacking = set(said) ^ set(found)
    if lacking:
        sys.exit(f"in the header or in the crate alone: {', '.join(sorted(lacking))}")
    for name, (args, _) in found.items():
        if said[name] != args:
            sys.exit(f"the header says otherwise than the crate: {name}({args})")
    lacking = inline ^ {f"{name}_of" for name, (args, _) in found.items() if "*" in args}
    if lacking:
        sys.exit(f"a call that the inline layer lacks, or the other way round: {', '.join(sorted(lacking))}")
    check_version()
    print('#include "film_most.h"\n')
    for name, (args, result) in found.items():
        print(f"{TYPES[result]} {name}({args});")
    print("\n/* Every call, by its address: the archive has them all. */")
    print("typedef void film_call(void);")
    print("extern film_call *const film_calls[];")
    print(f"film_call *const film_calls[{len(found)}] = {{")
    for name in found:
        print(f"    (film_call *){name},")
    print("};")


main()
