"""The reason under each missing layer once more (document 02, request 14): plans by `reference.py`,
and for each missing layer a search over all pairs of slots, with carry and need summed anew for
each. The case files of the program `test_reasons` and what it has to print."""
from reference import Job, Override, Refused, bw, check_job, due, ly, pg, plan, read_job, size, sz, write_job
from jobs import JOB_A
from printing import cases_page


def added(job, levels, i, n):
    """What the line under layer n of chunk i is held against: the layers settled as carried before
    it, and this one; for bases settled by request 9 all bases kept, and this one."""
    before, own = levels[:i - 1], levels[i:]
    if n == 0 and job.limit // job.span >= job.chunks and any(size(job, k, 0) != job.sizes[0] for k in range(1, job.chunks + 1)):
        return [min(k, 1) for k in before] + [1] + [min(k, 1) for k in own]
    return [min(k, n) for k in before] + [n + 1] + [min(k, n + 1) for k in own]


def stretch(job, levels):
    """Of the slots that need more than they carry those with the smallest last slot, then the
    greatest first slot."""
    kept = [i for i in range(1, job.chunks + 1) if levels[i - 1]]
    held = job.limit // job.span
    begin = [1 if m < held else due(job, kept[m - held]) for m in range(len(kept))]
    for last in range(1, due(job, job.chunks) + 1):
        for first in range(last, 0, -1):
            carry = sum(job.forecast[first - 1:last])
            need = sum(
                size(job, i, n) for i, start in zip(kept, begin) if start >= first and due(job, i) <= last for n in range(levels[i - 1]))
            if need > carry:
                return first, last, carry, need
    raise AssertionError(job)


def reasons(job):
    check_job(job)
    levels, _ = plan(job)
    text = ""
    for i in range(1, job.chunks + 1):
        for n in range(levels[i - 1], len(job.sizes)):
            if n > levels[i - 1]:
                text += f"chunk {i} layer {n}: layer {n - 1} is missing\n"
            else:
                text += "chunk {} layer {}: slots {} to {} carry {}, need {}\n".format(i, n, *stretch(job, added(job, levels, i, n)))
    return text


# ---- case files

MOST = 1 << 24
POOR = Job(3, 1, 1, 3, [1], [Override(3, 0, 2)], [1, 1, 0])

CASES = [
    ("job A", JOB_A),
    ("A with limit 3", JOB_A._replace(limit=3)),
    ("A with limit 6", JOB_A._replace(limit=6)),
    ("A with B all 0", JOB_A._replace(forecast=[0] * 6)),
    ("a plan that lacks nothing", JOB_A._replace(limit=6, forecast=[9] * 6)),
    ("size 5, forecast 5", Job(1, 1, 1, 0, [5], [], [5])),
    ("size 5, forecast 4", Job(1, 1, 1, 0, [5], [], [4])),
    ("limit 0: the chunk can begin in its due slot only", Job(1, 1, 2, 0, [5], [], [5, 0])),
    ("limit 0, three chunks", Job(3, 2, 1, 0, [1, 1, 1], [], [1, 3, 0, 0, 2])),
    ("two chunks that can begin from one slot", Job(2, 1, 1, 1, [1, 1], [], [1, 1])),
    ("four layers, none carried", Job(2, 1, 1, 2, [4, 3, 2, 1], [], [3, 3])),
    ("four layers, one after the other missing", Job(5, 2, 2, 10, [1, 1, 1, 1], [], [1, 1, 2, 0, 3, 0, 4, 0, 0, 0])),
    ("request 9: a base against all bases kept", POOR),
    ("the same job with limit 2: against what was settled before", POOR._replace(limit=2)),
    ("the same job with equal bases", POOR._replace(overrides=[])),
    ("request 9: an early base is dropped, and upper layers", Job(4, 1, 2, 4, [2, 1], [Override(2, 0, 5), Override(4, 0, 1)], [2, 1, 1, 2, 1])),
    ("request 9: of equals the earliest is dropped", Job(4, 1, 1, 4, [3, 1], [Override(3, 0, 2)], [3, 3, 1, 0])),
    ("uneven layers above equal bases", Job(3, 2, 2, 6, [1, 2, 1], [Override(2, 1, 5), Override(3, 2, 4)], [2, 1, 2, 1, 2, 1])),
    ("uneven, a limit that binds", Job(4, 2, 1, 4, [2, 1], [Override(2, 0, 1), Override(3, 0, 4), Override(3, 1, 2)], [2, 0, 1, 3, 0, 1, 2])),
    ("request 9: the base of a chunk in the middle", Job(3, 1, 2, 3, [1], [Override(2, 0, 3), Override(3, 0, 2)], [1, 0, 0, 2])),
    ("the largest layers", Job(5, 60, 60, 300, [MOST] * 4, [], [MOST] * 11 + [0] * 289)),
    ("the largest sums", Job(9, 1, 1, 9, [MOST] * 4, [], [MOST] * 8 + [MOST - 1])),
    ("slots of four digits", Job(2, 60, 3000, 65535, [9], [], [0] * 3060)),
]

REFUSED = [
    ("the empty file", b""),
    ("no chunk", pg(0, 2, 2, 2)),
    ("no layer by EN", pg(3, 2, 2, 2) + bw(6, 1) + b"EN"),
    ("an SZ for chunk 1", pg(3, 2, 2, 2) + ly(2) + sz(1, 0, 1) + bw(6, 1) + b"EN"),
    ("a slot too few", pg(3, 2, 2, 2) + ly(2) + bw(5, 1) + b"EN"),
]


# ---- a family of small jobs, and their texts summed

def member(k):
    """Small job k: C 1 to 3, L 1 or 2, s 1 or 2, limit 0 to 3, bases of 1 or 2 bytes, a layer of 1
    byte, SZs or none, slots of 0 to 2."""
    chunks, span, delay, limit, base, kind = 1 + k % 3, 1 + k // 3 % 2, 1 + k // 6 % 2, k // 12 % 4, 1 + k // 48 % 2, k // 96 % 3
    sizes = [Override(2, 0, base + 1), Override(2, 1, 2), Override(3, 0, base + 2)]
    f = k // 288
    forecast = [f % 3, f // 3 % 3, f // 9 % 3, f // 27 % 3, f // 81 % 3, f // 243 % 3]
    job = Job(chunks, span, delay, limit, [base, 1], [o for o in sizes[:[0, 1, 3][kind]] if o.chunk <= chunks], forecast)
    return job._replace(forecast=forecast[:due(job, chunks)])


def family():
    jobs = silent = lines = lower = total = 0
    for step in range(11000):
        text = reasons(member(step * 19)).encode()
        jobs, silent, lines, lower = jobs + 1, silent + (not text), lines + text.count(b"\n"), lower + text.count(b"m")
        for byte in text:
            total = total % 1000000007 * 31 + byte
    return f"jobs {jobs} without a line {silent}\nlines {lines} of the second kind {lower}\nall texts as one number {total}\n"


# Job A's lines have 128 bytes. Room for them, for one more, for one less, for any; then a job that
# is refused whatever the room, and a plan that lacks nothing, in no room.
ROOMS = """written 128
first 99
last 10
written 128
first 99
last 9
refused 11
first 9
last 9
written 128
first 99
last 9
5 before 11: refused 5
first 9
last 9
nothing in no room: written 0
"""


def said(data):
    try:
        return reasons(read_job(data))
    except Refused as r:
        return f"refused {r.number}\n"


def files():
    made, text, page = {}, "", []
    for k, (what, data) in enumerate([(what, write_job(job)) for what, job in CASES] + REFUSED):
        name = f"s{k:02d}"
        made[f"data/{name}"] = data
        text += f"{name}\n{said(data)}"
        page.append((name, what))
    made["stdout"] = (text + ROOMS + family()).encode()
    made["CASES.md"] = cases_page("test_reasons", "tests/reasons.py. `s..` are job files.", page)
    return made


PROGRAMS = {"test_reasons": files}
