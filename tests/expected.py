"""What each program of the gate reads and has to print, made again from another reading of the
papers (`reference.py`). Run it at the root of the repository:

    python3 tests/expected.py                   writes all of it, in some minutes
    python3 tests/expected.py test_report       that of some programs
    python3 tests/expected.py --check           writes nothing: names each file that differs, status 1
    python3 tests/expected.py --list            the programs

Made are crates/NAME/stdout, stdin, data/ and CASES.md, whichever a program has."""
import argparse
import os
import sys
import time

import bookings
import cases
import lives
import most_cases
import program_cases
import reasons
import replans
import searches
import traces
import waits

PROGRAMS = {}
for module in (program_cases, cases, traces, reasons, bookings, searches, most_cases, waits, replans, lives):
    PROGRAMS |= module.PROGRAMS

# Nothing else computes what this program prints: it holds the planner against a planner of its own,
# and its lines count jobs, lists and faults. They are read and kept by hand.
BY_ITSELF = {"test_planner_exhaustive"}


def there(folder):
    """The files that a program reads and has to print, as they are."""
    names = [name for name in ("stdout", "stdin", "CASES.md") if os.path.exists(f"{folder}/{name}")]
    if os.path.isdir(f"{folder}/data"):
        names += [f"data/{name}" for name in os.listdir(f"{folder}/data")]
    found = {}
    for name in names:
        with open(f"{folder}/{name}", "rb") as f:
            found[name] = f.read()
    return found


def write(folder, made, old):
    for name in old.keys() - made.keys():
        os.remove(f"{folder}/{name}")
    for name, data in made.items():
        if old.get(name) != data:
            os.makedirs(os.path.dirname(f"{folder}/{name}"), exist_ok=True)
            with open(f"{folder}/{name}", "wb") as f:
                f.write(data)


def main():
    parser = argparse.ArgumentParser(description=__doc__, formatter_class=argparse.RawDescriptionHelpFormatter)
    parser.add_argument("--check", action="store_true")
    parser.add_argument("--list", action="store_true")
    parser.add_argument("program", nargs="*")
    args = parser.parse_args()
    if args.list:
        return print("\n".join(PROGRAMS))
    unknown = set(args.program) - PROGRAMS.keys()
    if unknown:
        parser.error(f"nothing makes the files of {', '.join(sorted(unknown))}")
    differ = 0
    for program in args.program or PROGRAMS:
        begun, folder = time.time(), f"crates/{program}"
        made, old = PROGRAMS[program](), there(folder)
        changed = sorted(name for name in made.keys() | old.keys() if made.get(name) != old.get(name))
        for name in changed:
            print(f"{folder}/{name} {'differs from what is made' if args.check else 'written' if name in made else 'removed'}")
        if not args.check:
            write(folder, made, old)
        print(f"{program}: {len(made)} files, {len(changed)} {'differ' if args.check else 'changed'}, {time.time() - begun:.1f} s", flush=True)
        differ += len(changed)
    sys.exit(bool(args.check and differ))


if __name__ == "__main__":
    main()
