"""The case files of the programs `test_files`, `test_calls` and `test_report`, and what they,
`test_buffers` and `test_uneven` have to print: for the case files from `reference.py`, for the
direct calls from by_hand/ and from `LARGE` and `ROOMS` below, which are written by hand."""
from reference import Job, Override, Refused, bw, ft, kp, ly, pg, read_job, read_plan, report, sz, verdict, write_job
from jobs import JOB_A
from printing import by_hand, cases_page

PG, LY, EN = pg(3, 2, 2, 2), ly(2) + ly(1), b"EN"
BW = b"".join(bw(1, b) for b in JOB_A.forecast)
TWO = bw(3, 1) + bw(3, 2)
SZ = sz(2, 1, 2) + sz(3, 0, 1)

# Every SZ that a job can have: 499 chunks of 4 layers.
EVERY_SZ = b"".join(sz(i, n, 2) for i in range(2, 501) for n in range(4))
LONG = pg(500, 1, 1, 9) + ly(1) * 4

# (what the case is, its bytes). Each refusal alone, then pairs where two compete and the order
# decides.
JOBS = [
    ("job A", PG + LY + BW + EN),
    ("the empty file", b""),
    ("one stray byte", b"P"),
    ("a mark that no file has", b"XX"),
    ("a plan's mark", b"KP" + bytes(3)),
    ("a record without its whole body", PG[:-1]),
    ("the last record one byte short", PG + LY + BW[:-1]),
    ("no EN", PG + LY + BW),
    ("half of EN", PG + LY + BW + b"E"),
    ("a byte after EN", PG + LY + BW + EN + b"\0"),
    ("a second PG", PG + LY + PG + BW + EN),
    ("EN alone: no PG", EN),
    ("no chunk", pg(0, 2, 2, 2)),
    ("500 chunks", pg(500, 1, 1, 9) + ly(1) + bw(500, 1) + EN),
    ("501 chunks", pg(501, 1, 1, 9) + ly(1) + bw(501, 1) + EN),
    ("no slot of film a chunk", pg(3, 0, 2, 2)),
    ("60 slots of film a chunk", pg(2, 60, 1, 0) + ly(1) + bw(61, 0) + EN),
    ("61 slots of film a chunk", pg(2, 61, 1, 0) + ly(1) + bw(62, 0) + EN),
    ("no start delay", pg(3, 2, 0, 2)),
    ("a start delay of 3,600", pg(1, 1, 3600, 65535) + ly(1) + bw(3600, 0) + EN),
    ("a start delay of 3,601", pg(1, 1, 3601, 0) + ly(1)),
    ("last due slot 3,600", pg(60, 60, 60, 65535) + ly(1) + bw(3600, 1) + EN),
    ("last due slot 3,601", pg(60, 60, 61, 65535) + ly(1) + bw(3600, 1) + bw(1, 1) + EN),
    ("a layer of no bytes", PG + ly(0)),
    ("a layer of 16,777,216 bytes", PG + ly(1 << 24) + BW + EN),
    ("a layer of one byte more", PG + ly((1 << 24) + 1) + BW + EN),
    ("four layers", PG + ly(1) * 4 + BW + EN),
    ("a fifth layer", PG + ly(1) * 5 + BW + EN),
    ("no layer by EN", PG + BW + EN),
    ("a run of no slots", PG + LY + bw(0, 1)),
    ("16,777,216 bytes in a slot", PG + LY + bw(6, 1 << 24) + EN),
    ("one byte more in a slot", PG + LY + bw(6, (1 << 24) + 1) + EN),
    ("runs beyond 3,600 slots", PG + LY + bw(3600, 1) + bw(1, 2)),
    ("a slot too few", PG + LY + bw(5, 1) + EN),
    ("a slot too many", PG + LY + bw(7, 1) + EN),
    ("records mixed, PG last", LY[:6] + BW[:24] + LY[6:] + BW[24:] + PG + EN),
    ("one run in two records", PG + LY + bw(2, 1) + bw(4, 1) + EN),
    ("a second PG out of range: 4 before 5", PG + pg(501, 1, 1, 9)),
    ("a second PG cut off: 1 before 4", PG + PG[:-1]),
    ("a size out of range, cut off: 1 before 6", PG + ly(0)[:-1]),
    ("out of range, then an unknown mark: 5 before 2", pg(0, 1, 1, 1) + b"XX"),
    ("an unknown mark, then out of range: 2 before 5", b"XX" + pg(0, 1, 1, 1)),
    ("a bad run, then a bad size: 7 before 6", PG + bw(0, 1) + ly(0)),
    ("bytes after EN and no PG: 3 before 4", EN + b"\0"),
    ("a BW straight after PG is in sequence: 6 at EN", PG + TWO + EN),
    ("no layer and a slot too few: 6 before 7", PG + bw(5, 1) + EN),
    ("65,536 bytes", PG + bytes(65526)),
    ("65,537 bytes: 9 before all", b"XX" + bytes(65535)),
    ("70,000 bytes", PG + LY + BW + EN + bytes(70000 - 74)),
    ("an LY after a BW", PG + LY[:6] + TWO[:8] + LY[6:] + TWO[8:] + EN),
    ("PG second, after an LY", LY[:6] + PG + LY[6:] + BW + EN),
    ("PG not first, after a BW", BW + PG + LY + EN),
    ("PG missing", LY + BW + EN),
    ("no PG and no layer", BW + EN),
    ("an LY first, bytes after EN", LY + EN + b"\0"),
    ("runs of the same bytes with another between", PG + LY + bw(2, 5) + bw(2, 1) + bw(2, 5) + EN),
    ("three runs that could be two", PG + LY + bw(2, 1) + bw(2, 5) + bw(2, 5) + EN),
    ("a second PG after a BW: 4 before 17", PG + LY + BW + PG + EN),
    ("a second PG after a BW, out of range: 4 before 17 and 5", PG + LY + BW + pg(0, 1, 1, 1) + EN),
    ("an LY first, then a PG out of range: 17 before 5", LY + pg(0, 1, 1, 1)),
    ("an LY first, of no bytes: 17 before 6", ly(0) + PG),
    ("an LY after a BW, of no bytes: 17 before 6", PG + LY + BW + ly(0)),
    ("a fifth LY, after a BW: 17 before 6", PG + ly(1) * 4 + BW + ly(1)),
    ("a BW first, of no slots: 17 before 7", bw(0, 1) + PG),
    ("an empty run of the same bytes: 17 before 7", PG + LY + bw(1, 1) + bw(0, 1)),
    ("the same bytes, beyond 3,600 slots: 17 before 7", PG + LY + bw(3600, 1) + bw(1, 1)),
    ("bytes out of range twice: 7 at the first", PG + LY + bw(1, (1 << 24) + 1) * 2),
    ("an LY after a BW, cut off: 1 before 17", PG + LY + BW + ly(0)[:-1]),
    ("an LY first, then an unknown mark: 17 before 2", LY + b"XX"),
    ("an unknown mark, then an LY: 2 before 17", b"XX" + LY),
    ("3,600 runs of one slot that could be one, PG last", ly(1) + bw(1, 0) * 3600 + pg(1, 1, 3600, 0) + EN),
    ("uneven chunks", PG + LY + SZ + BW + EN),
    ("an SZ of 16,777,216 bytes", PG + LY + sz(3, 1, 1 << 24) + BW + EN),
    ("every SZ that a job can have", LONG + EVERY_SZ + bw(500, 1) + EN),
    ("an SZ for chunk 1", PG + LY + sz(1, 0, 1) + BW + EN),
    ("an SZ for chunk 0", PG + LY + sz(0, 0, 1) + BW + EN),
    ("an SZ for a chunk that isn't in the job", PG + LY + sz(4, 0, 1) + BW + EN),
    ("an SZ for a layer that isn't in the job", PG + LY + sz(2, 2, 1) + BW + EN),
    ("the same layer of a chunk twice", PG + LY + sz(2, 0, 1) + sz(2, 0, 3) + BW + EN),
    ("SZs with layers falling", PG + LY + sz(2, 1, 2) + sz(2, 0, 1) + BW + EN),
    ("SZs with chunks falling", PG + LY + sz(3, 0, 1) + sz(2, 1, 2) + BW + EN),
    ("an SZ of no bytes", PG + LY + sz(2, 0, 0) + BW + EN),
    ("an SZ of 16,777,217 bytes", PG + LY + sz(2, 0, (1 << 24) + 1) + BW + EN),
    ("an SZ of the layer's own size", PG + LY + sz(2, 0, 2) + BW + EN),
    ("a bad SZ, then a good one", PG + LY + sz(2, 0, 2) + sz(3, 0, 1) + BW + EN),
    ("one SZ more than any job has", LONG + EVERY_SZ + sz(500, 3, 3) + bw(500, 1) + EN),
    ("7,000 SZs", PG + LY + sz(2, 0, 1) * 7000 + bw(6, 1) + EN),
    ("an SZ for a layer that isn't in the job yet, and an LY after it: 17", PG + LY[:6] + sz(2, 1, 2) + LY[6:] + BW + EN),
    ("an SZ first", SZ + PG + LY + BW + EN),
    ("an SZ after a BW", PG + LY + BW + SZ + EN),
    ("an SZ after a BW, for chunk 1: 17 before 18", PG + LY + BW + sz(1, 0, 1) + EN),
    ("an SZ straight after PG is in sequence: 6 at EN", PG + SZ + BW + EN),
    ("no layer and a bad SZ: 6 before 18", PG + sz(1, 0, 1) + BW + EN),
    ("a bad SZ and a slot too few: 18 before 7", PG + LY + sz(1, 0, 1) + bw(5, 1) + EN),
    ("a bad SZ, then a run of no slots: 7 at the run", PG + LY + sz(1, 0, 1) + bw(0, 1) + EN),
    ("a bad SZ, then a run of the same bytes: 17 at the run", PG + LY + sz(1, 0, 1) + bw(3, 1) * 2 + EN),
    ("a bad SZ and a byte after EN: 3 before 18", PG + LY + sz(1, 0, 1) + BW + EN + b"\0"),
    ("a bad SZ, then a second PG: 4 at the PG", PG + LY + sz(1, 0, 1) + PG + BW + EN),
    ("a bad SZ, then an unknown mark: 2 at the mark", PG + LY + sz(1, 0, 1) + b"XX"),
    ("an SZ one byte short", PG + LY + SZ[:-1]),
]

KP = kp(1, 0) + kp(2, 3) + kp(3, 1)
PLAN = ft(1, 2, 0, 2) + ft(1, 2, 1, 1) + ft(5, 3, 0, 2)
BETTER = ft(1, 1, 0, 2) + ft(1, 1, 1, 1) + ft(3, 3, 0, 1) + ft(5, 3, 0, 1) + ft(5, 3, 1, 1)


def marked(a, b, c):
    return kp(1, a) + kp(2, b) + kp(3, c)


# Plan files read for job A, then judged.
PLANS = [
    ("A's plan", KP + PLAN + EN),
    ("the list that beats its counts", marked(3, 0, 3) + BETTER + EN),
    ("nothing fetched", marked(0, 0, 0) + EN),
    ("the plan's rows in another order", KP + PLAN[22:] + PLAN[:22] + EN),
    ("the empty file", b""),
    ("a job's mark", LY),
    ("a row without its whole body", KP + PLAN[:-1]),
    ("no EN", KP + PLAN),
    ("a byte after EN", KP + PLAN + EN + b"\0"),
    ("chunks from 0", kp(0, 0) + KP + EN),
    ("a chunk left out", kp(1, 0) + kp(3, 1) + EN),
    ("a chunk twice", kp(1, 0) + kp(1, 0) + EN),
    ("a chunk more than the job has", KP + kp(4, 0) + EN),
    ("a chunk too few", kp(1, 0) + kp(2, 3) + EN),
    ("a mark after a row", kp(1, 0) + kp(2, 3) + PLAN + kp(3, 1) + EN),
    ("rows before the marks are complete", kp(1, 0) + PLAN + EN),
    ("out of turn and cut off: 1 before 8", kp(2, 0)[:-1]),
    ("out of turn, then an unknown mark: 8 before 2", kp(2, 0) + b"XX"),
    ("incomplete, with a byte after EN: 3 before 8", EN + b"\0"),
    ("65,537 bytes: 9 before all", b"XX" + bytes(65535)),
    ("slot 0", KP + ft(0, 2, 0, 2) + EN),
    ("slot 7", KP + ft(7, 2, 0, 2) + EN),
    ("chunk 4", KP + ft(1, 4, 0, 2) + EN),
    ("layer 2", KP + ft(1, 2, 2, 2) + EN),
    ("a row of no bytes", KP + PLAN + ft(5, 3, 0, 0) + EN),
    ("half a layer", KP + PLAN[:-11] + ft(5, 3, 0, 1) + EN),
    ("a repeated row", KP + PLAN + PLAN[22:] + EN),
    ("a refinement without its base", marked(2, 0, 0) + ft(1, 1, 1, 1) + EN),
    ("a byte too many in a slot", marked(1, 1, 0) + ft(1, 1, 0, 2) + ft(1, 2, 0, 2) + EN),
    ("a row one slot late", marked(1, 0, 0) + ft(3, 1, 0, 1) + ft(1, 1, 0, 1) + EN),
    ("two held where one is allowed", KP + PLAN[:-11] + ft(3, 3, 0, 1) + ft(5, 3, 0, 1) + EN),
    ("other marks", marked(0, 1, 1) + PLAN + EN),
    ("a bit above the layer count", marked(0, 7, 1) + PLAN + EN),
    ("rules 2 and 4 broken", marked(0, 0, 0) + ft(2, 1, 0, 1) + EN),
    ("rules 3 and 4 broken", marked(2, 0, 0) + ft(2, 1, 1, 1) + EN),
    ("rules 4 and 5 broken", marked(1, 0, 0) + ft(4, 1, 0, 2) + EN),
    ("rules 5 and 7 broken", marked(0, 0, 0) + ft(3, 1, 0, 1) + ft(1, 1, 0, 1) + EN),
    ("rules 6 and 7 broken", marked(0, 0, 0) + PLAN[:-11] + ft(3, 3, 0, 1) + ft(5, 3, 0, 1) + EN),
    ("rules 1 and 2 broken", KP + ft(1, 2, 0, 1) + ft(9, 9, 9, 9) + EN),
]


# Plan files of 8 chunks and 5,954 rows, of 6 and 5,954, of 6 and 5,955, each written and what was
# written read; then `TOO_LONG`.
LARGE = """\
written 65536
rows 5954
written 65526
rows 5954
refused 9
refused 1
q00 refused 9
"""
TOO_LONG = b"".join(kp(i, 255) for i in range(1, 7)) + ft(65535, 1, 7, 0xFFFFFFFF) * 5955 + EN


def stepped(span, sizes, slots):
    """A job of one chunk for each number in `slots`: of the slots up to its due slot so many have the base's bytes."""
    forecast = [sizes[0] if t < n else 0 for n in slots for t in range(span)]
    return Job(len(slots), span, span, span, sizes, [], forecast)


def by_slot(forecast):
    """A job of a chunk a slot that holds nothing, of layers of 9 and 3 bytes: 12 in a slot carries
    both, 9 the base, less skips."""
    return Job(len(forecast), 1, 1, 0, [9, 3], [], forecast)


TOP = 1 << 24

# Jobs whose report is printed.
REPORTS = [
    ("job A", JOB_A),
    ("one chunk", Job(1, 1, 1, 0, [5], [], [5])),
    ("nothing carried", JOB_A._replace(forecast=[0] * 6)),
    ("more switched than film shown", Job(2, 1, 1, 2, [1, 7], [], [1, 8])),
    ("less switched than film shown", Job(4, 1, 1, 4, [9, 3], [], [12, 9, 12, 9])),
    ("the largest layers, nothing left over", stepped(4, [TOP] * 4, [4, 1, 4, 0, 2, 4, 3])),
    ("the largest layers, something left over", stepped(5, [TOP, TOP - 1, TOP - 2, TOP - 3], [4, 1, 4, 0, 2, 4, 3])),
    ("no chunk skipped", by_slot([12, 9, 12, 12, 9])),
    ("one carried, the first", by_slot([12, 0, 8])),
    ("one carried between skipped ones", by_slot([0, 0, 9, 0])),
    ("two carried, neighbours", by_slot([9, 12])),
    ("two carried, a skipped run between", by_slot([12, 0, 8, 0, 9])),
    ("a skipped run at both ends", by_slot([0, 0, 12, 9, 0, 0])),
    ("skipped runs at both ends and in the middle", by_slot([0, 8, 12, 0, 9, 12, 0, 0, 9, 0])),
    ("only skipped ones", by_slot([8, 0, 8])),
    ("uneven bases", by_slot([12, 10, 4, 16, 9])._replace(overrides=[Override(2, 0, 7), Override(3, 0, 4), Override(4, 0, 13), Override(5, 0, 10)])),
    ("uneven layers above", by_slot([12, 10, 18, 9])._replace(overrides=[Override(2, 1, 1), Override(3, 1, 9), Override(4, 1, 1)])),
    ("chunks of the same bytes, other layers", by_slot([12, 12, 12])._replace(overrides=[Override(2, 0, 10), Override(2, 1, 2), Override(3, 0, 12)])),
    ("the largest layers, uneven", stepped(4, [TOP] * 4, [4, 4, 4])._replace(overrides=[Override(2, 3, TOP - 1), Override(3, 0, 1)])),
]

# Job A's report has 86 bytes. Room for them, for one more, for one less; then a job that is refused
# whatever the room.
ROOMS = """\
written 86
first 115
last 10
written 86
first 115
last 9
refused 11
first 9
last 9
5 before 11: refused 5
first 9
last 9
"""


def job_line(data, mixed):
    try:
        job = read_job(data, mixed)
    except Refused as r:
        return f"refused {r.number}"
    said = f"layers {len(job.sizes)} SZs {len(job.overrides)} slots {len(job.forecast)}"
    assert read_job(write_job(job)) == job
    return f"chunks {job.chunks} {said} written {len(write_job(job))} again {said}"


def job_lines(data):
    return job_line(data, False) + "\n    mixed " + job_line(data, True)


def plan_line(data):
    try:
        marks, rows = read_plan(JOB_A, data)
    except Refused as r:
        return f"refused {r.number}"
    return f"rows {len(rows)} verdict {verdict(JOB_A, rows, marks)}"


def case_files():
    made, lines, page = {}, [], []
    for kind, cases, line in (("j", JOBS, job_lines), ("p", PLANS, plan_line)):
        for k, (what, data) in enumerate(cases):
            name = f"{kind}{k:02d}"
            made[f"data/{name}"] = data
            lines.append(f"{name} {line(data)}\n")
            page.append((name, what))
    made["data/q00"] = TOO_LONG
    made["stdout"] = ("".join(lines) + LARGE).encode()
    made["CASES.md"] = cases_page("test_files", "tests/cases.py. `j..` are job files, read in one sequence and then as mixed files, `p..` plan "
                                  "files for job A. `q00` is a plan file of 6 chunks and 5,955 rows: 65,537 bytes.", page)
    return made


def report_files():
    made, text, page = {}, "", []
    for k, (what, job) in enumerate(REPORTS):
        name = f"r{k:02d}"
        made[f"data/{name}"] = write_job(job)
        text += f"{name}\n{report(job)}"
        page.append((name, what))
    made["stdout"] = (text + ROOMS).encode()
    made["CASES.md"] = cases_page("test_report", "tests/cases.py. `r..` are job files.", page)
    return made


PROGRAMS = {
    "test_files": case_files,
    "test_report": report_files,
    "test_calls": lambda: {"data/q00": TOO_LONG, "stdout": by_hand("test_calls")},
    "test_buffers": lambda: {"stdout": by_hand("test_buffers")},
    "test_uneven": lambda: {"stdout": by_hand("test_uneven")},
}
