"""The constants of the headers against the theorems and definitions that bound them:
each constant's number has to stand in the statement that is named here for it, and in the sources
where they name it too. A constant without a row is refused. That the statements hold is the proofs'
work. Run it at the root of the repository: python3 tests/constants.py"""
import glob
import re
import sys

import header

# The constant; the crate and the name of what bounds it; its text, with {} for the number.
BOUNDS = [
    ("LAYERS", "core_ffi", "JobSmall", "layers j ≤ {}"),
    ("SLOTS", "core_ffi", "JobSmall", "length j.forecast ≤ {}"),
    ("SZS", "core_ffi", "JobSmall", "length j.overrides ≤ {}"),
    ("SLOTS", "core_ffi", "trace_read", "slots ≤ {}"),
    ("MARKS", "core_ffi", "marks_few", "length (marks_of j choice) ≤ {}"),
    ("ROWS", "core_ffi", "rows_planned", "length (plan_rows (job_in h)) ≤ {}"),
    ("ROWS", "core_ffi", "rows_afresh", "length (rows_on h o) ≤ {}"),
    ("ROWS", "core_ffi", "rows_found_lem", "length (rows_found (job_in h) budget) ≤ {}"),
    ("ROWS", "core_ffi", "rows_over_lem", "length (rows_over (job_in h) set) ≤ {}"),
    ("PIECES", "core_ffi", "pieces_asked", "length (pieces i) ≤ {}"),
    ("FILE", "core_ffi", "plan_written", "length (file_of (plan_of s)) ≤ {}"),
    ("FILE_ROWS", "core_ffi", "rows_read", "length (plan_in count file).rows ≤ {}"),
    ("JOB_FILE", "core_ffi", "job_written", "length (job_file (job_in h)) ≤ {}"),
    ("JOB_FILE", "core_ffi", "converted_small", "length (job_file (job_of_file mixed job)) ≤ {}"),
    ("PLAN_FILE", "core_ffi", "FilesSmall", "length (file_of (plan_of_job (job_said job))) ≤ {}"),
    ("REPORT", "core_ffi", "FilesSmall", "length (plan_report (job_said job)) ≤ {}"),
    ("REPORT", "core_ffi", "report_written", "length (plan_report (job_in h)) ≤ {}"),
    ("REASONS", "core_ffi", "FilesSmall", "length (plan_text (job_said job)) ≤ {}"),
    ("REASONS", "core_ffi", "reasons_written", "length (plan_text (job_in h)) ≤ {}"),
    ("TRACE", "trace", "trace_fits", "length (trace_of f) ≤ {}"),
    # The slices beside the library's own: 11 exactly if they are shorter.
    ("PROGRAMME", "core_ffi", "job_return_refusal", "leb {} (length lent.programme)"),
    ("LENGTHS", "core_ffi", "job_return_refusal", "leb {} (length lent.lengths)"),
    ("COUNTS", "core_ffi", "with_counts", "leb {} (length counts)"),
    ("COUNTS", "core_ffi", "with_walk", "leb {} (length counts)"),
    ("WALK", "core_ffi", "with_walk", "leb {} (length walk)"),
    # The bounds of most pictures have the walk's room.
    ("BOUNDS", "core_ffi", "with_walk", "leb {} (length walk)"),
    # Room for any plan, and so many numbers for each of C + 1 rows of needs.
    ("ROWS", "most", "has_room", "leb {} slots"),
    ("MOST_WORK", "most", "has_room", "leb ((count + 1) * {}) work"),
    ("SAMPLES", "core_ffi", "cells_refusal", "leb {} (length s.slots)"),
    ("SAMPLES", "core_ffi", "cells_refusal", "leb {} (length s.bytes)"),
]

# The constant, and what the sources call it.
NAMED = [
    ("LAYERS", "job", "LAYERS"),
    ("SLOTS", "job", "SLOTS"),
    ("MARKS", "job", "CHUNKS"),
    ("ROWS", "job", "ROWS"),
    ("PIECES", "job", "SIZES"),
    ("SZS", "job", "OVERRIDES"),
    ("MOST_WORK", "most", "WORK_ROW"),
    ("FILE", "records", "FILE_BYTES"),
    ("JOB_FILE", "programs", "CONVERTED_BYTES"),
    ("PLAN_FILE", "programs", "PLAN_BYTES"),
    ("REPORT", "programs", "REPORT_BYTES"),
    ("REASONS", "programs", "REASONS_BYTES"),
]


def read(paths):
    texts = []
    for path in sorted(paths):
        with open(path) as f:
            texts.append(f.read())
    return "\n\n".join(texts)


def statement(crate, name, theorem):
    """What stands under a name in a crate's specs: a theorem's or a record's statement, which goes
    on as long as lines are indented, or a definition with its body."""
    specs = read(glob.glob(f"crates/{crate}/specs/**/*.antt", recursive=True))
    found = re.findall(rf"^(?:(?:pub|abbrev|unfoldable) )*(?:record )?{re.escape(name)} .*?(?=\n\n|\Z)", specs, re.M | re.S)
    if len(found) != 1:
        sys.exit(f"crates/{crate}/specs has {len(found)} times {name}: tests/constants.py asks for it")
    return " ".join((re.split(r"\n(?! )", found[0])[0] if theorem else found[0]).split())


def main():
    constants = header.constants()
    without = set(constants) ^ {name for name, _, _, _ in BOUNDS}
    if without:
        sys.exit(f"a constant without a bound, or the other way round: {', '.join(sorted(without))}")
    # The rows of needs of the largest job, by the numbers of one.
    constants["MOST_WORK"], rest = divmod(constants["MOST_WORK"], constants["MARKS"] + 1)
    if rest:
        sys.exit("FILM_MOST_WORK is not a row for each of FILM_MARKS + 1")
    for constant, crate, name, text in BOUNDS:
        wanted = text.format(constants[constant])
        if not re.search(re.escape(wanted) + r"(?!\d)", statement(crate, name, "≤" in text)):
            sys.exit(f"FILM_{constant} is {constants[constant]}: `{wanted}` does not stand in {crate}'s {name}")
    for constant, crate, name in NAMED:
        source = read(glob.glob(f"crates/{crate}/src/*.rt"))
        if f"pub const {name}: usize = {constants[constant]};" not in source:
            sys.exit(f"FILM_{constant} is {constants[constant]}: {crate}::{name} is not")
    print(f"{len(constants)} constants, {len(BOUNDS)} statements, {len(NAMED)} names of the sources")


main()
