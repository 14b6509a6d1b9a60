"""Every call of the built library, as a caller in C meets it, against `reference.py`: random and
damaged files, jobs and lists, meters in any state, and lent slices too short by one, exact and
longer, with every byte around each slice watched. Which plan film_most finds is free, so what it
wrote is held against what is promised of it. A difference is printed as a case to be replayed.
Run it at the root of the repository, with the Rattle toolchain and gcc:

    python3 tests/compare.py                     100,000 calls and some more, in a few minutes
    python3 tests/compare.py --calls 1000000 --seed 7
    python3 tests/compare.py --only film_check,film_plan
    python3 tests/compare.py --replay CASE       a case as printed, or a file that holds it
    python3 tests/compare.py --null              slices of length 0 as null, which the header asks
                                                 nobody to hand: what the archive does then
"""
import argparse
import ctypes
import json
import os
import random
import re
import subprocess
import sys
import time
from array import array
from collections import Counter

import header
from reference import (Job, Override, Refused, Row, bound_any_order, bound_in_order, bounds_fast, brought, carried_in_any_order,
                       carried_in_order, check_fields, check_job, check_sizes, check_slot, convert, count_marks, count_word, due,
                       fits_fast, four, ft, in_order, in_range, kp, listed, live, live_fast, marks_given, meter_forecast, meter_take,
                       plan, plan_fast, plan_over, plan_over_fast, read_job, read_plan, read_trace, reasons, release, replan, report,
                       search, size, sizes_by_chunk, taken, verdict, verdict_fast, wait, write_job, write_trace)

REFUSED = 1 << 32
NUMBERS = {"b": ctypes.c_uint8, "h": ctypes.c_uint16, "w": ctypes.c_uint32, "q": ctypes.c_uint64, "z": ctypes.c_size_t}
JOB = "h h h h I H B I I"
ROWS = "H H B I"
LENT_ROWS = "B! H! H! B! I!"

# The arguments of each call: a small letter is a number, a large one a slice of 8 (B), 16 (H), 32
# (I) or 64 (Q) bits, ! for lent room, ? for lent storage that holds something.
CALLS = {
    "film_read_job": "B H! Q! I! H! B! I! I!",
    "film_read_mixed_job": "B H! Q! I! I!",
    "film_write_job": f"{JOB} B!",
    "film_read_plan": f"{JOB} B {LENT_ROWS}",
    "film_write_plan": f"{JOB} B {ROWS} B!",
    "film_check": f"{JOB} B {ROWS}",
    "film_check_from": f"{JOB} h B {ROWS}",
    "film_plan": f"{JOB} {LENT_ROWS} H!",
    "film_compare": "H H",
    "film_replan": f"{JOB} h {ROWS} I {LENT_ROWS} H!",
    "film_live": f"{JOB} h {ROWS} w H! B! I!",
    "film_search": f"{JOB} w {LENT_ROWS} H! I!",
    "film_most": f"{JOB} w Q! {LENT_ROWS} H! H!",
    "film_wait": "h h h I H B I I",
    "film_report": f"{JOB} B!",
    "film_reasons": f"{JOB} B!",
    "film_plan_file": "B B!",
    "film_verdict_files": "B B",
    "film_report_file": "B B!",
    "film_reasons_file": "B B!",
    "film_convert_file": "B B!",
    "film_read_trace": "B z I!",
    "film_write_trace": "I B!",
    "film_book": f"{JOB[:-1]}I? B {ROWS}",
    "film_release": f"{JOB[:-1]}I? {ROWS}",
    "film_count_marks": "B b Q!",
    "film_count_word": "q b",
    "film_meter_new": "H? I? B?",
    "film_meter_take": "H? I? B? h w",
    "film_meter_forecast": "H I B",
}


def declared():
    """The arguments of each call as the headers declare them, in the letters of CALLS; storage is
    lent room there. Without the calls that take nothing, the archive's version."""
    letters = {"uint8_t": "b", "uint16_t": "h", "uint32_t": "w", "uint64_t": "q", "size_t": "z"}
    slices = {"uint8_t": "B", "uint16_t": "H", "uint32_t": "I", "uint64_t": "Q"}
    calls = {}
    for name, args in header.calls().items():
        if args == "void":
            continue
        kinds = []
        for arg in args.split(","):
            const, kind, star, _ = re.fullmatch(r"\s*(const )?(\w+) (\*?)(\w+)\s*", arg).groups()
            if star:
                kinds.append(slices[kind] + ("" if const else "!"))
            elif not arg.endswith("_len"):
                kinds.append(letters[kind])
        calls[name] = " ".join(kinds)
    return calls


# ---- the library

def build(out="target/kit/libfilm.so"):
    """The archive of the proved calls as a shared object."""
    subprocess.run(["tools/archive"], check=True)
    os.makedirs(os.path.dirname(out), exist_ok=True)
    subprocess.run(["gcc", "-shared", "-o", out, "-Wl,--whole-archive", "target/staticlib/libfilm_planner.a", "-Wl,--no-whole-archive"], check=True)
    return out


class Library:
    """Calls with every slice in one stretch of memory, each between bytes that nothing may
    change."""
    ROOM = 1 << 22

    def __init__(self, path, null=False):
        self.null = null
        assert declared() == {name: kinds.replace("?", "!") for name, kinds in CALLS.items()}, "the header declares other calls"
        self.calls = {}
        library = ctypes.CDLL(os.path.abspath(path))
        assert library.film_version() == header.VERSION, "the header is of another version"
        for name, kinds in CALLS.items():
            call = getattr(library, name)
            call.restype = ctypes.c_uint64
            call.argtypes = [t for k in kinds.split() for t in ([NUMBERS[k]] if k in NUMBERS else [ctypes.c_void_p, ctypes.c_size_t])]
            self.calls[name] = call
        self.memory = ctypes.create_string_buffer(self.ROOM + 64)
        self.base = -(-ctypes.addressof(self.memory) // 64) * 64
        self.noise = random.Random(1).randbytes(self.ROOM)

    def run(self, name, args, after):
        """The call's answer, and what differs in memory from what is expected after it; that may
        depend on the answer and on what each slice then holds."""
        places, at, flat = [], 24, []
        for kind, value in zip(CALLS[name].split(), args):
            if kind in NUMBERS:
                flat.append(value)
                continue
            data = array(kind[0], value)
            places.append((at, data))
            flat += [None if self.null and not value else self.base + at, len(value)]
            at += -(-len(data) * data.itemsize // 8) * 8 + 24
        before = bytearray(self.noise[:at])
        for place, data in places:
            before[place:place + len(data) * data.itemsize] = data.tobytes()
        ctypes.memmove(self.base, bytes(before), at)
        answer = self.calls[name](*flat)
        now = ctypes.string_at(self.base, at)
        named = [k for k, kind in enumerate(CALLS[name].split()) if kind not in NUMBERS]
        if callable(after):
            after = after(answer, {k: array(data.typecode, now[place:place + len(data) * data.itemsize]) for k, (place, data) in zip(named, places)})
        for k, (place, data) in zip(named, places):
            if k in after:
                new = array(data.typecode, after[k])
                before[place:place + len(new) * new.itemsize] = new.tobytes()
        changed = [] if now == before else [k for k in range(at) if now[k] != before[k]]
        return answer, [(self.where(name, places, k), now[k], before[k]) for k in changed[:8]]

    @staticmethod
    def where(name, places, byte):
        named = [k for k, kind in enumerate(CALLS[name].split()) if kind not in NUMBERS]
        for k, (place, data) in zip(named, places):
            if place <= byte < place + len(data) * data.itemsize:
                return f"byte {byte - place} of argument {k}"
        return f"byte {byte}, beside every slice"


# ---- what each call has to answer, by the reference: the result, and what goes to each lent slice
# by its argument's place

def overrides_of(columns):
    if len({len(c) for c in columns}) != 1:
        return None
    return [Override(*o) for o in zip(*columns)]


def job_of(args):
    """A job out of a call's first nine arguments; SZs that are not handed whole are 18 after 5 and
    6."""
    chunks, span, delay, limit, sizes, *columns, forecast = args[:9]
    overrides = overrides_of(columns)
    if overrides is None:
        check_fields(chunks, span, delay, limit)
        check_sizes(sizes)
        raise Refused(18)
    job = Job(chunks, span, delay, limit, list(sizes), overrides, list(forecast))
    check_job(job)
    return job


def small(job):
    return job.chunks * len(job.sizes) <= 20 and len(job.forecast) <= 60


def planned(job):
    if not small(job):
        return plan_fast(job)
    literal = plan(job)
    assert literal == plan_fast(job), job
    return literal


def judged(job, rows, marks, since=1):
    if not small(job) or len(rows) > 60:
        return verdict_fast(job, rows, marks, since)
    literal = verdict(job, rows, marks, since)
    assert literal == verdict_fast(job, rows, marks, since), (job, rows, marks, since)
    return literal


def columns_of(rows):
    return [list(c) for c in zip(*rows)] if rows else [[], [], [], []]


def marks_of(levels):
    return [(1 << k) - 1 for k in levels]


def counts_of(levels):
    return [sum(k > n for k in levels) for n in range(4)]


def file_read(job, first):
    """A job that was read, into the arguments from a place on; without SZs where mixed."""
    programme = [job.chunks, job.span, job.delay, job.limit]
    return len(job.forecast), [programme, [len(job.sizes), len(job.overrides)], job.sizes, *first, job.forecast]


def by_place(first, results):
    return dict(enumerate(results, first))


def film_read_job(file, *lent):
    job = read_job(bytes(file))
    n, results = file_read(job, columns_of3(job.overrides))
    return n, by_place(1, results)


def film_read_mixed_job(file, *lent):
    n, results = file_read(read_job(bytes(file), mixed=True), [])
    return n, by_place(1, results)


def columns_of3(overrides):
    return [list(c) for c in zip(*overrides)] if overrides else [[], [], []]


def film_write_job(*args):
    text = write_job(job_of(args))
    return len(text), {9: list(text)}


def film_read_plan(*args):
    marks, rows = read_plan(job_of(args), bytes(args[9]))
    return len(rows), by_place(10, [marks] + columns_of(rows))


def plan_file(marks, rows):
    return b"".join(kp(i, m) for i, m in enumerate(marks, 1)) + b"".join(ft(*x) for x in rows) + b"EN"


def film_write_plan(*args):
    job = job_of(args)
    rows, marks = listed(*args[10:14]), args[9]
    if len(marks) != job.chunks:
        raise Refused(8)
    text = plan_file(marks, rows)
    if len(text) > 65536:
        raise Refused(9)
    return len(text), {14: list(text)}


def handed_list(job, marks, columns):
    rows = listed(*columns)
    if len(marks) != job.chunks:
        raise Refused(8)
    return rows


def film_check(*args):
    job = job_of(args)
    return judged(job, handed_list(job, args[9], args[10:14]), args[9]), {}


def film_check_from(*args):
    job = job_of(args)
    rows = handed_list(job, args[10], args[11:15])
    check_slot(job, args[9])
    return judged(job, rows, args[10], args[9]), {}


def plan_handed(levels, rows, first):
    return len(rows), by_place(first, [marks_of(levels)] + columns_of(rows) + [counts_of(levels)])


def film_plan(*args):
    return plan_handed(*planned(job_of(args)), 9)


def film_replan(*args):
    job = job_of(args)
    p, columns, onward = args[9], args[10:14], list(args[14])
    if small(job):
        return plan_handed(*replan(job, p, onward, *columns), 15)
    # Of larger jobs only a standing plan is made afresh, and goes on.
    levels, rows = plan_fast(job)
    assert not by_moore_hodgson(job) and onward == job.forecast[p - 1:] and sorted(listed(*columns)) == [x for x in rows if x.slot < p]
    return plan_handed(levels, [x for x in rows if x.slot >= p], 15)


def film_live(*args):
    job = job_of(args)
    p, columns, rate = args[9], args[10:14], args[14]
    if not small(job) or len(columns[0]) > 60:
        pieces = live_fast(job, p, rate, *columns)
    else:
        pieces = live(job, p, rate, *columns)
        assert pieces == live_fast(job, p, rate, *columns), (job, p, rate, columns)
    return len(pieces), by_place(15, [list(c) for c in zip(*pieces)] if pieces else [[], [], []])


def by_moore_hodgson(job):
    """Request 9 settles the bases."""
    return job.limit // job.span >= job.chunks and any(o.layer == 0 for o in job.overrides)


def film_search(*args):
    job = job_of(args)
    levels, rows, steps, ended, shortfall = search(job, args[9])
    n, results = plan_handed(levels, rows, 10)
    return n, {**results, 16: [steps, int(ended), shortfall]}


def film_most(*args):
    """Room for any plan of the job, and for the work."""
    job = job_of(args)
    lengths = [501 * (job.chunks + 1), job.chunks, 5599, 5599, 5599, 5599, 4, 3]
    return 0, by_place(10, [[0] * n for n in lengths])


def promised_most(args, now):
    """The answer, and what each slice has to hold, if the set of bases that the marks show is the
    one found; the work slice may hold anything. Then what is wrong with that set and the bounds."""
    job, passes = job_of(args), args[9]
    kept = [i for i, mark in enumerate(now[11][:job.chunks], 1) if mark & 1]
    levels, rows = plan_over_fast(job, kept)
    marks, bound, in_any = marks_of(levels), now[17][0], bounds_fast(job)[1]
    if small(job):
        assert (levels, rows) == plan_over(job, kept) and bounds_fast(job) == (bound_in_order(job), bound_any_order(job)), job
    n, results = plan_handed(levels, rows, 11)
    faults = most_faults(job, passes, kept, marks, rows, bound, own_bases(job))
    return n, {10: list(now[10]), **results, 17: [bound, in_any, int(len(kept) == bound)]}, faults


def own_bases(job):
    """The chunks that document 01's plan shows: those of the same film without other layers."""
    bases = job._replace(sizes=job.sizes[:1], overrides=[o for o in job.overrides if o.layer == 0])
    return [i for i, k in enumerate(planned(bases)[0], 1) if k]


def most_faults(job, passes, kept, marks, rows, bound, own):
    """What is wrong with the plan over a set of bases, and with the bound in playing order; own are
    the bases of document 01's plan."""
    most, count = job.limit // job.span, len(kept)
    highest, in_any = bounds_fast(job)
    begun = {x.chunk: x.slot for x in reversed(rows)}
    turns = [begun[i] for i in sorted(begun)]
    equal = not any(o.layer == 0 for o in job.overrides)
    told = {
        "its own list does not pass": judged(job, rows, marks) != 0,
        "its own list is not in playing order": turns != sorted(turns) or small(job) and not in_order(job, rows),
        "the plan has more bases": count < len(own),
        "it has more bases than the bound": bound < count,
        "the bound is higher than defined": highest < bound,
        "equal film or all held, and not exact": (equal or most >= job.chunks) and {bound, in_any, len(own)} != {count},
        "a set has more bases than the bound": small(job) and bound < job.chunks and carried_in_order(job, bound + 1),
        "a set has more bases than the bound in any order": tiny(job) and in_any < job.chunks and carried_in_any_order(job, in_any + 1),
        # What follows is not promised, but so.
        "no pass, and other bases than the plan's": not passes and most >= 2 and kept != own,
        "at most one held, and not exact": most < 2 and count != bound,
    }
    return [fault for fault, broken in told.items() if broken]


def tiny(job):
    """Few enough slots to begin in for every choice of them to be tried."""
    return job.chunks <= 4 and len(job.forecast) <= 8


def film_compare(a, b):
    a, b = four(a), four(b)
    return 0 if a == b else 1 if a < b else 2, {}


def film_wait(chunks, span, limit, sizes, *rest):
    overrides = overrides_of(rest[:3])
    if overrides is None:
        if not (1 <= chunks <= 500 and 1 <= span <= 60):
            raise Refused(5)
        check_sizes(sizes)
        raise Refused(18)
    return wait(chunks, span, limit, list(sizes), overrides, list(rest[3]), lambda job: skips_none(job)), {}


def skips_none(job):
    if small(job):
        return all(plan(job)[0])
    return fits_fast(job, [(i + 1, z[0]) for i, z in enumerate(sizes_by_chunk(job))], brought(job))


def film_report(*args):
    job = job_of(args)
    text = report(job, planned(job)).encode()
    return len(text), {9: list(text)}


def film_reasons(*args):
    job = job_of(args)
    text = reasons(job, planned(job)).encode()
    return len(text), {9: list(text)}


def film_plan_file(file, lent):
    job = read_job(bytes(file))
    levels, rows = planned(job)
    text = plan_file(marks_of(levels), rows)
    return len(text), {1: list(text)}


def film_verdict_files(file, plan_bytes):
    job = read_job(bytes(file))
    marks, rows = read_plan(job, bytes(plan_bytes))
    return judged(job, rows, marks), {}


def film_report_file(file, lent):
    job = read_job(bytes(file))
    text = report(job, planned(job)).encode()
    return len(text), {1: list(text)}


def film_reasons_file(file, lent):
    job = read_job(bytes(file))
    text = reasons(job, planned(job)).encode()
    return len(text), {1: list(text)}


def film_convert_file(file, lent):
    text = convert(bytes(file))
    return len(text), {1: list(text)}


def film_read_trace(trace, slots, lent):
    return slots, {2: read_trace(bytes(trace), slots)}


def film_write_trace(forecast, lent):
    text = write_trace(forecast)
    return len(text), {1: list(text)}


def film_book(*args):
    job = job_of(args)
    rows = handed_list(job, args[9], args[10:14])
    if judged(job, rows, args[9]):
        raise Refused(19)
    return 0, {8: [has - sum(x.bytes for x in rows if x.slot == t) for t, has in enumerate(job.forecast, 1)]}


def film_release(*args):
    job = job_of(args)
    return 0, {8: release(job, *args[9:13])}


def film_count_marks(marks, n, lent):
    return 0, {2: [count_marks(marks, n)]}


def film_count_word(word, n):
    return count_word(word, n), {}


def storage(slots, samples, kept):
    """The meter in three slices; a shorter one holds none."""
    if len(slots) < 10 or len(samples) < 10 or not kept:
        raise Refused(11)
    return list(slots[:10]), list(samples[:10]), kept[0]


def film_meter_new(*three):
    storage(*three)
    return 0, by_place(0, [[0] * 10, [0] * 10, [0]])


def film_meter_take(slots, samples, kept, slot, sample):
    if not in_range(slot, sample):
        raise Refused(10)
    a, b, k = meter_take(*storage(slots, samples, kept), slot, sample)
    return 0, by_place(0, [a, b, [k]])


def film_meter_forecast(*three):
    return meter_forecast(*storage(*three)), {}


# ---- random cases

class Cases:
    def __init__(self, seed):
        self.r = random.Random(seed)

    def odds(self, p):
        return self.r.random() < p

    def job(self, kind):
        """An accepted job, small or large, of equal or uneven film."""
        r = self.r
        if kind == "small":
            chunks, span, delay = r.randint(1, 5), r.randint(1, 3), r.randint(1, 4)
            top, layers = r.choice((2, 4, 9)), r.randint(1, 4)
            limit = r.choice((0, span - 1, span, 2 * span, r.randint(0, 12), 65535))
        elif kind == "middle":
            chunks, span, delay = r.randint(1, 40), r.randint(1, 6), r.randint(1, 30)
            top, layers = r.choice((3, 50, 1 << 24)), r.randint(1, 4)
            limit = r.choice((r.randint(0, 40), r.randint(0, 300), 65535))
        else:
            chunks, span = r.choice((500, r.randint(100, 500))), r.choice((1, 7, r.randint(1, 7)))
            delay = r.choice((1, 3600 - (chunks - 1) * span, r.randint(1, 3600 - (chunks - 1) * span)))
            top, layers = r.choice((1 << 24, 9000)), 4
            limit = r.choice((28, r.randint(0, 3600), 65535))
        sizes = [r.randint(1, top) for _ in range(layers)]
        overrides = []
        if self.odds(0.5):
            share = r.choice((0.1, 0.5, 1))
            for i in range(2, chunks + 1):
                for n in range(layers):
                    z = r.randint(1, top)
                    if z != sizes[n] and self.odds(share):
                        overrides.append(Override(i, n, z))
        last = (chunks - 1) * span + delay
        rich = max(1, r.choice((top // 2, top, 2 * top, sum(sizes) * chunks // last)))
        gaps = r.choice((0, 0.3, 0.7))
        forecast = [0 if self.odds(gaps) else min(r.randint(0, rich), 1 << 24) for _ in range(last)]
        if self.odds(0.3):
            forecast = [b for b in forecast[::5] for _ in range(5)][:last]
        return Job(chunks, span, delay, limit, sizes, overrides, forecast)

    def some_job(self):
        return self.job(self.r.choices(("small", "middle", "large"), (96, 3.7, 0.3))[0])

    def handed(self, job, damage=0.25):
        """A job's nine arguments, at times damaged in one place or two."""
        args = [job.chunks, job.span, job.delay, job.limit, list(job.sizes), *columns_of3(job.overrides), list(job.forecast)]
        while self.odds(damage):
            damage = 0.3
            k = self.r.randrange(9)
            if k < 4:
                args[k] = self.r.choice((0, 1, 60, 61, 500, 501, 3600, 3601, 65535, args[k] + 1, max(0, args[k] - 1))) % 65536
            elif k == 6:
                self.spoil(args[k], (0, 1, 3, 4, 255), 255)
            elif k == 5:
                self.spoil(args[k], (0, 1, 2, job.chunks, job.chunks + 1, 65535), 65535)
            else:
                self.spoil(args[k], (0, 1, 1 << 24, (1 << 24) + 1, (1 << 32) - 1, *job.sizes), (1 << 32) - 1)
        return args

    def spoil(self, values, odd, top):
        """One change of a list: a value, one more, one fewer, two swapped."""
        r, how = self.r, self.r.randrange(4)
        at = r.randrange(len(values) + 1)
        if how == 0 and values:
            values[at % len(values)] = r.choice((r.choice(odd), r.randint(0, top)))
        elif how == 1:
            values.insert(at, r.choice(odd))
        elif how == 2 and values:
            values.pop(at % len(values))
        elif len(values) > 1:
            i, k = r.randrange(len(values)), r.randrange(len(values))
            values[i], values[k] = values[k], values[i]

    def spoiled_file(self, data, marks):
        """A file's bytes, at times damaged: cut, longer, a byte or a record changed, moved or
        doubled."""
        r, data = self.r, bytearray(data)
        while self.odds(0.55) and len(data) < 70000:
            how, at = r.randrange(8), r.randrange(len(data) + 1)
            if how == 0:
                del data[at:]
            elif how == 1:
                data += r.choice((b"E", b"EN", b"\0", r.choice(marks) + bytes(r.randrange(9))))
            elif how == 2 and data:
                data[at % len(data)] = r.choice((0, 1, 255, r.randrange(256)))
            elif how == 3:
                data[at:at] = r.randbytes(r.randint(1, 3))
            elif how == 4 and data:
                del data[at - 1:at + r.randrange(3)]
            else:
                starts = [k for k in range(len(data)) if data[k:k + 2] in marks]
                if not starts:
                    continue
                k = r.choice(starts)
                end = min([x for x in starts if x > k], default=len(data))
                part = data[k:end]
                if how != 5:
                    del data[k:end]
                if how != 6:
                    to = r.choice(starts + [len(data)])
                    data[to:to] = part
            if self.odds(0.02):
                data[at:at] = bytes(65536)
        if self.odds(0.01):
            data += bytes(max(0, r.choice((65535, 65536, 65537)) - len(data)))
        return list(data)

    def rows(self, job):
        """A fetch list: the plan's own, changed or not, another plan's, or any rows."""
        r = self.r
        if self.odds(0.8):
            base = job if self.odds(0.7) else job._replace(limit=r.choice((0, job.limit + job.span, 65535)) % 65536)
            if self.odds(0.2):
                base = base._replace(forecast=[b // 2 for b in base.forecast])
            levels, rows = plan_fast(base)
            rows = [list(x) for x in rows]
        else:
            rows = [self.row(job) for _ in range(r.choice((0, 1, 3, 8, 30)))]
        marks = marks_given(job, [Row(*x) for x in rows]) if small(job) and len(rows) < 60 else None
        while self.odds(0.5):
            how = r.randrange(7)
            if how == 0:
                rows.insert(r.randrange(len(rows) + 1), self.row(job))
            elif how == 1 and rows:
                rows.append(list(r.choice(rows)))
            elif how == 2 and rows:
                x = r.choice(rows)
                if x[3] > 1:
                    part = r.randint(1, x[3] - 1)
                    x[3] -= part
                    rows.append([r.choice((x[0], max(0, x[0] - 1), r.randint(1, len(job.forecast)))), x[1], x[2], part])
            elif how == 3 and rows:
                rows.pop(r.randrange(len(rows)))
            elif how == 4 and rows:
                x = r.choice(rows)
                x[0] = max(0, min(65535, x[0] + r.choice((-1, 1))))
            elif how == 5 and rows:
                # Late, where the link may well have the bytes.
                x = r.choice(rows)
                x[0] = r.randint(min(due(job, min(x[1], job.chunks)) + 1, len(job.forecast)), len(job.forecast))
            else:
                r.shuffle(rows)
        if self.odds(0.004):
            rows += [self.row(job) for _ in range(r.choice((6000, 20000)))]
        rows = [Row(*x) for x in rows]
        if marks is None or self.odds(0.8):
            marks = self.marks(job, rows)
        return rows, marks

    def marks(self, job, rows):
        table, got = sizes_by_chunk(job), Counter()
        for x in rows:
            got[x.chunk, x.layer] += x.bytes
        marks = [sum(1 << n for n in range(len(job.sizes)) if got[i + 1, n] == table[i][n]) for i in range(job.chunks)]
        if self.odds(0.15):
            self.spoil(marks, (0, 1, 3, 15, 16, 255), 255)
        return marks

    def row(self, job):
        r = self.r
        slot, chunk = r.randint(1, len(job.forecast)), r.randint(1, job.chunks)
        layer = r.randrange(len(job.sizes))
        row = [slot, chunk, layer, r.choice((1, job.sizes[layer], r.randint(1, job.sizes[layer])))]
        if self.odds(0.1):
            k = r.randrange(4)
            row[k] = r.choice(((0, len(job.forecast) + 1, 65535), (0, job.chunks + 1, 65535), (len(job.sizes), 4, 255), (0, (1 << 32) - 1))[k])
        return row

    def columns(self, rows):
        """A list's four slices; at times a row is not handed whole."""
        columns = columns_of(rows)
        if self.odds(0.04):
            k = self.r.randrange(4)
            self.spoil(columns[k], (0, 1), 1)
        return columns

    def list_args(self, job):
        rows, marks = self.rows(job)
        return marks, self.columns(rows)

    # ---- the arguments of each call; None stands for lent room

    def film_read_job(self):
        return [self.spoiled_file(write_job(self.some_job()), (b"PG", b"LY", b"SZ", b"BW", b"EN"))] + [None] * 7

    def film_read_mixed_job(self):
        job = self.some_job()
        if self.odds(0.8):
            job = job._replace(overrides=[])
        parts, data = [], write_job(job)
        if self.odds(0.7):
            at = 0
            while at < len(data) - 2:
                width = 2 + {b"PG": 8, b"LY": 4, b"SZ": 7, b"BW": 6}[data[at:at + 2]]
                parts.append(data[at:at + width])
                at += width
            self.r.shuffle(parts)
            data = b"".join(parts) + b"EN"
        return [self.spoiled_file(data, (b"PG", b"LY", b"BW", b"EN"))] + [None] * 4

    def film_write_job(self):
        return self.handed(self.some_job()) + [None]

    def film_read_plan(self):
        job = self.some_job()
        rows, marks = self.rows(job)
        return self.handed(job, 0.1) + [self.spoiled_file(plan_file(marks, rows), (b"KP", b"FT", b"EN"))] + [None] * 5

    def film_write_plan(self):
        job = self.some_job()
        marks, columns = self.list_args(job)
        return self.handed(job, 0.1) + [marks] + columns + [None]

    def film_check(self):
        job = self.some_job()
        marks, columns = self.list_args(job)
        return self.handed(job, 0.1) + [marks] + columns

    def film_check_from(self):
        job = self.some_job()
        marks, columns = self.list_args(job)
        p = self.r.choice((1, self.r.randint(1, len(job.forecast)), self.r.randint(1, len(job.forecast)), len(job.forecast)))
        if self.odds(0.08):
            p = self.r.choice((0, len(job.forecast) + 1, 65535))
        return self.handed(job, 0.1) + [p, marks] + columns

    def film_plan(self):
        return self.handed(self.some_job()) + [None] * 6

    def film_replan(self):
        """A plan's own rows before p, changed or not, and the forecast from p on, as it was or
        another."""
        r = self.r
        if self.odds(0.02):
            return self.standing()
        job = self.job("small")
        levels, rows = plan_fast(job if self.odds(0.8) else job._replace(limit=65535))
        p = r.choice((1, r.randint(1, len(job.forecast)), r.randint(1, len(job.forecast)), len(job.forecast)))
        rows = [x for x in rows if x.slot < p]
        while self.odds(0.3):
            how = r.randrange(4)
            if how == 0 and rows:
                rows.pop(r.randrange(len(rows)))
            elif how == 1 and rows:
                k = r.randrange(len(rows))
                rows[k] = rows[k]._replace(bytes=max(1, rows[k].bytes - 1))
            elif how == 2:
                rows.append(Row(*self.row(job)))
            else:
                r.shuffle(rows)
        onward = job.forecast[p - 1:]
        if self.odds(0.6):
            onward = [r.choice((b, 0, r.randint(0, 9))) for b in onward]
        if self.odds(0.1):
            self.spoil(onward, (0, 1 << 24, (1 << 24) + 1), 1 << 25)
        if self.odds(0.06):
            p = r.choice((0, len(job.forecast) + 1, 65535))
        return self.handed(job, 0.1) + [p] + self.columns(rows) + [onward] + [None] * 6

    def standing(self):
        """A larger job, its plan's own rows before p in any order, and its forecast from p on."""
        r, job = self.r, self.job(self.r.choices(("middle", "large"), (9, 1))[0])
        if small(job) or by_moore_hodgson(job):
            job = job._replace(limit=job.span * r.randrange(job.chunks))
        p = r.randint(1, len(job.forecast))
        rows = [x for x in plan_fast(job)[1] if x.slot < p]
        if self.odds(0.5):
            r.shuffle(rows)
        return self.handed(job, 0) + [p] + columns_of(rows) + [job.forecast[p - 1:]] + [None] * 6

    def rate(self, job, p):
        """A rate that just brings the base of a chunk by its due slot, by itself or behind another
        one, or one byte less; or any number."""
        r = self.r
        if self.odds(0.3):
            return r.choice((0, 1, r.randint(0, 9), r.randint(0, 99), 1 << 24, (1 << 32) - 1))
        i = r.choice([i for i in range(1, job.chunks + 1) if due(job, i) >= p] or [1])
        need = size(job, i, 0) + (size(job, r.randint(1, i), 0) if self.odds(0.3) else 0)
        return max(0, -(-need // max(1, due(job, i) - p + 1)) - r.choice((0, 0, 1)))

    def act(self, job, last):
        """The rows of an act before slot last, and what each slot brought: what the rule asks for,
        as far as the job's forecast goes, at any rates."""
        rows, forecast = [], list(job.forecast)
        for p in range(1, last):
            on = job._replace(forecast=forecast)
            pieces = live_fast(on, p, self.rate(job, p), *columns_of(rows))
            came = taken(p, pieces, forecast[p - 1])
            forecast[p - 1] = sum(x.bytes for x in came)
            rows += came
        return rows, forecast

    def one_behind(self):
        """A begun chunk that is late, a whole one behind it, and a third that may come in time: what
        an act meets too seldom by chance."""
        r = self.r
        chunks, span = r.randint(3, 5), r.randint(1, 2)
        sizes = [r.randint(3, 9)] + [r.randint(1, 4) for _ in range(r.randint(0, 2))]
        job = Job(chunks, span, r.randint(2, 4), span * r.randint(2, 4), sizes, [], [])
        job = job._replace(forecast=[40] * due(job, chunks))
        k = r.randint(1, chunks - 2)
        p = max(2, due(job, k) - r.choice((0, 0, 1)))
        t = r.randint(1, p - 1)
        rows = [Row(t, k, 0, r.randint(1, sizes[0] - 1)), Row(t, k + 1, 0, sizes[0])]
        if k < chunks - 2 and self.odds(0.3):
            rows.append(Row(r.randint(t, p - 1), k + 2, 0, r.randint(1, sizes[0])))
        return self.handed(job, 0) + [p] + columns_of(rows) + [self.rate(job, p)] + [None] * 3

    def film_live(self):
        """The rows of an act, or of a plan, before p, changed or not."""
        r = self.r
        if self.odds(0.05):
            return self.one_behind()
        job = self.job(r.choices(("small", "middle", "large"), (980, 19, 1))[0])
        p = r.choice((1, r.randint(1, len(job.forecast)), r.randint(1, len(job.forecast)), len(job.forecast)))
        if self.odds(0.6):
            rows, forecast = self.act(job, min(p, 40))
            job = job._replace(forecast=forecast)
        else:
            rows = [x for x in plan_fast(job if self.odds(0.8) else job._replace(limit=65535))[1] if x.slot < p]
        while self.odds(0.3):
            how = r.randrange(5)
            if how == 0 and rows:
                rows.pop(r.randrange(len(rows)))
            elif how == 1 and rows:
                k = r.randrange(len(rows))
                rows[k] = rows[k]._replace(bytes=max(1, rows[k].bytes - 1))
            elif how == 2:
                rows.append(Row(*self.row(job)))
            elif how == 3:
                # A slot gone, maybe, that says less than it brought.
                job.forecast[r.randrange(len(job.forecast))] //= 2
            else:
                r.shuffle(rows)
        if self.odds(0.06):
            p = r.choice((0, len(job.forecast) + 1, 65535))
        return self.handed(job, 0.1) + [p] + self.columns(rows) + [self.rate(job, p)] + [None] * 3

    def film_search(self):
        job = self.job(self.r.choices(("small", "middle"), (97, 3))[0])
        top = 2000 if job.chunks > 5 else 70
        budget = self.r.choice((0, 1, 2 * job.chunks, self.r.randint(0, top), top if job.chunks > 5 else (1 << 32) - 1))
        return self.handed(job, 0.15) + [budget] + [None] * 7

    def film_most(self):
        kind = self.r.choices(("small", "middle", "large"), (96, 3.8, 0.2))[0]
        job = self.job(kind)
        passes = self.r.choice((0, 1, 2, 4, 4 if kind == "large" else (1 << 32) - 1))
        return self.handed(job, 0.15) + [passes] + [None] * 8

    def film_reasons(self):
        return self.handed(self.job(self.r.choices(("small", "middle"), (97, 3))[0])) + [None]

    def film_compare(self):
        a = [self.r.randint(0, 3) for _ in range(self.r.choice((4, 4, 4, 0, 3, 6)))]
        b = [x for x in a] if self.odds(0.5) else [self.r.randint(0, 3) for _ in range(self.r.choice((4, 4, 0, 2, 5)))]
        if b and self.odds(0.5):
            b[self.r.randrange(len(b))] = self.r.choice((0, 1, 500, 65535))
        return [a, b]

    def film_wait(self):
        job = self.job(self.r.choices(("small", "middle", "large"), (96, 3.9, 0.1))[0])
        args = self.handed(job, 0.15)
        del args[2]
        if self.odds(0.7):
            longer = self.r.randint(0, 6)
            args[7] = args[7] + [self.r.choice(args[7] or [1]) for _ in range(longer)]
        return args

    def film_report(self):
        return self.handed(self.some_job()) + [None]

    def film_plan_file(self):
        return self.film_read_job()[:1] + [None]

    def film_verdict_files(self):
        job = self.some_job()
        rows, marks = self.rows(job)
        spoil = self.odds(0.3)
        file = self.spoiled_file(write_job(job), (b"PG", b"LY", b"SZ", b"BW", b"EN")) if spoil else list(write_job(job))
        return [file, self.spoiled_file(plan_file(marks, rows), (b"KP", b"FT", b"EN")) if self.odds(0.5) else list(plan_file(marks, rows))]

    def film_report_file(self):
        return self.film_plan_file()

    def film_reasons_file(self):
        return self.film_plan_file()

    def film_convert_file(self):
        return self.film_read_mixed_job()[:1] + [None]

    def film_read_trace(self):
        r, slots = self.r, self.r.choice((1, 2, 3, 5, 3600, 0, 3601, 1 << 40))
        times = sorted(r.choice((0, 999, 1000, 1999, r.randint(0, 6000), 3599999, 9999999)) for _ in range(r.choice((0, 1, 5, 40))))
        lines = [b"%d" % t if self.odds(0.8) else b"%07d" % t for t in times]
        if self.odds(0.02):
            lines = [b"0"] * r.choice((11184, 11185)) + lines
        if lines and self.odds(0.1):
            i, k = r.randrange(len(lines)), r.randrange(len(lines))
            lines[i], lines[k] = lines[k], lines[i]
        data = bytearray(b"".join(x + b"\n" for x in lines))
        if self.odds(0.2):
            at = r.randrange(len(data) + 1)
            data[at:at + r.randrange(2)] = r.choice((b"", b"\n", b"\r\n", b" ", b"-", b"0", b"00000000", b"a", b"\xff", b"\0"))
        return [list(data), slots, None]

    def film_write_trace(self):
        r = self.r
        forecast = [1500 * r.choice((0, 0, 1, 2, r.randint(0, 12))) for _ in range(r.choice((1, 2, 5, 12, 0, 3600, 3601)))]
        if len(forecast) > 100:
            forecast = [b if self.odds(0.1) else 0 for b in forecast]
        if self.odds(0.15):
            self.spoil(forecast, (1, 1499, 16776000, 16777216, 16777500, (1 << 32) - 1), (1 << 32) - 1)
        if max(forecast, default=0) > 16776000 or len([b for b in forecast if b > 1500 * 1000]) > 1:
            forecast = [min(b, 16777500) for b in forecast]
        return [forecast, None]

    def film_book(self):
        job = self.some_job()
        marks, columns = self.list_args(job)
        return self.handed(job, 0.1) + [marks] + columns

    def film_release(self):
        job = self.some_job()
        rows, _ = self.rows(job)
        if self.odds(0.3):
            rows = rows + [Row(self.r.choice((1, len(job.forecast), 0, len(job.forecast) + 1)), 1, 0, self.r.choice((0, 1, 1 << 24, (1 << 24) - job.forecast[0])))]
        return self.handed(job, 0.1) + self.columns(rows)

    def film_count_marks(self):
        return [list(self.r.randbytes(self.r.choice((0, 1, 7, 8, 9, 16, 500, self.r.randint(0, 70))))), self.r.choice((0, 1, 2, 3, 7, 8, 255)), None]

    def film_count_word(self):
        return [self.r.choice((self.r.getrandbits(64), 0, (1 << 64) - 1, 1 << self.r.randrange(64))), self.r.choice((0, 1, 3, 7, 8, 9, 63, 64, 255))]

    def meter(self):
        """Storage in any state: a meter in order, one with a fault, or any cells; of any length."""
        r = self.r
        kept = r.choice((0, 1, 2, 5, 9, 10, 10))
        slots = sorted(r.sample(range(1, r.choice((40, 65536))), 10))
        samples = [r.choice((1, 3, 6, 1 << 24, r.randint(1, 1 << 24))) for _ in range(10)]
        if self.odds(0.15):
            samples[r.randrange(10)] = 0
        slots[kept:] = [r.randint(0, 65535) for _ in range(10 - kept)]
        samples[kept:] = [r.getrandbits(32) for _ in range(10 - kept)]
        if self.odds(0.2):
            slots[r.randrange(10)] = r.choice((0, slots[r.randrange(10)], 65535))
        if self.odds(0.1):
            samples[r.randrange(10)] = r.choice(((1 << 24) + 1, (1 << 32) - 1))
        if self.odds(0.1):
            kept = r.choice((11, 255, r.randrange(256)))
        three = [slots, samples, [kept]]
        for k, x in enumerate(three):
            if self.odds(0.12):
                extra = r.randint(1, 3)
                three[k] = x[:-1] if self.odds(0.5) else x + [r.randrange(256) for _ in range(extra)]
            elif self.odds(0.02):
                three[k] = []
        return three

    def film_meter_new(self):
        return self.meter()

    def film_meter_take(self):
        three = self.meter()
        kept = three[2][0] if three[2] else 0
        last = three[0][kept - 1] if 0 < kept <= len(three[0]) else 0
        slot = self.r.choice((last, min(65535, last + 1), min(65535, last + 1), self.r.randint(0, 65535), 0, 65535))
        return three + [slot, self.r.choice((0, 1, 5, 1 << 24, (1 << 24) + 1, (1 << 32) - 1, self.r.randint(0, 1 << 24)))]

    def film_meter_forecast(self):
        return self.meter()


# ---- a case run and compared

def expected(name, args):
    try:
        result, lent = globals()[name](*args)
        return result, {k: list(v) for k, v in lent.items()}
    except Refused as r:
        return REFUSED + r.number, {}


def with_room(cases, name, args, lent):
    """Lent slices for what a call writes: mostly enough, one too short by one, or of any length."""
    kinds, r = CALLS[name].split(), cases.r
    places = [k for k, kind in enumerate(kinds) if kind[-1] == "!"]
    lengths = {k: len(lent.get(k, [0] * r.choice((0, 1, 4, 10)))) for k in places}
    how = r.random()
    for k in places:
        if how < 0.5:
            lengths[k] += r.choice((0, 0, 1, 2, 9))
        elif how > 0.95:
            lengths[k] = max(0, lengths[k] + r.choice((-2, -1, 0, 0, 3)))
    if 0.6 < how < 0.85 and places:
        k = r.choice(places)
        lengths[k] = max(0, lengths[k] - 1)
    top = {"B": 8, "H": 16, "I": 32, "Q": 64}
    for k in places:
        wide = top[kinds[k][0]] // 8
        args[k] = list(array(kinds[k][0], r.randbytes(lengths[k] * wide)))
    return args


def settled(name, args, answer, lent):
    """The expected answer with the room that is lent, and each lent slice afterwards."""
    if answer < REFUSED and any(len(args[k]) < len(result) for k, result in lent.items()):
        return REFUSED + 11, {}
    return answer, {k: result + list(args[k][len(result):]) for k, result in lent.items()}


def compare(library, name, args, answer, after):
    faults = []

    def found(got, now):
        """What is expected where the set found is free."""
        nonlocal answer
        if got >= REFUSED:
            return {}
        answer, lent, faults[:] = promised_most(args, now)
        return settled(name, args, answer, lent)[1]

    got, changed = library.run(name, args, found if name == "film_most" and answer < REFUSED else after)
    if got == answer and not changed and not faults:
        return None
    told = f"{name}: expected {said(answer)}, got {said(got)}" + "".join(f"; {fault}" for fault in faults)
    return told + "".join(f"; {where} is {now}, expected {was}" for where, now, was in changed)


def said(answer):
    return f"refusal {answer - REFUSED}" if answer >= REFUSED else str(answer)


WEIGHTS = {"film_read_job": 10, "film_read_mixed_job": 6, "film_write_job": 6, "film_read_plan": 8, "film_write_plan": 5, "film_check": 12,
           "film_check_from": 8, "film_plan": 8, "film_compare": 2, "film_wait": 4, "film_report": 5, "film_read_trace": 5, "film_write_trace": 3,
           "film_book": 6, "film_release": 5, "film_count_marks": 3, "film_count_word": 3, "film_meter_new": 1, "film_meter_take": 8,
           "film_meter_forecast": 6, "film_replan": 6, "film_search": 5, "film_most": 3, "film_reasons": 5, "film_plan_file": 6, "film_verdict_files": 8,
           "film_report_file": 4, "film_reasons_file": 4, "film_convert_file": 5, "film_live": 10}


# Calls whose few answers are counted one by one: verdicts, and counts compared.
SHOWN = ("film_check", "film_check_from", "film_verdict_files", "film_compare")


def run(library, calls, seed, only):
    cases = Cases(seed)
    names = [n for n in library.calls if not only or n in only]
    weights = [WEIGHTS[n] for n in names]
    tally, refusals, differences, begin = Counter(), {n: Counter() for n in names}, 0, time.time()
    while sum(tally.values()) < calls:
        name = cases.r.choices(names, weights)[0]
        args = getattr(cases, name)()
        answer, lent = expected(name, args)
        # One case, several rooms: what is lent is cheap to vary.
        for _ in range(2 if None in args else 1):
            full = with_room(cases, name, list(args), lent)
            want, after = settled(name, full, answer, lent)
            tally[name] += 1
            refusals[name][said(want) if want >= REFUSED else f"answer {want}" if name in SHOWN else "result"] += 1
            told = compare(library, name, full, want, after)
            if told:
                differences += 1
                print(told)
                print(json.dumps([name, full]), flush=True)
                if differences == 5:
                    sys.exit("stopped at the fifth difference")
    for name in names:
        shown = ", ".join(f"{k} {v}" for k, v in sorted(refusals[name].items(), key=lambda x: (x[0].startswith("refusal"), len(x[0]), x[0])))
        print(f"{name} {tally[name]}: {shown}")
    print(f"{sum(tally.values())} calls in {time.time() - begin:.0f} s, seed {seed}: {differences} differences")
    return differences


def replay(library, case):
    if os.path.exists(case):
        with open(case) as f:
            case = f.read()
    name, args = json.loads(case)
    answer, lent = expected(name, args)
    want, after = settled(name, args, answer, lent)
    told = compare(library, name, args, want, after)
    print(told or f"{name}: {'as promised' if name == 'film_most' and want < REFUSED else said(want) + ', as expected'}")
    return bool(told)


def main():
    parser = argparse.ArgumentParser(description=__doc__.split("\n")[0])
    parser.add_argument("--calls", type=int, default=100000)
    parser.add_argument("--seed", type=int, default=1)
    parser.add_argument("--only", default="")
    parser.add_argument("--replay")
    parser.add_argument("--library", help="a shared object built before")
    parser.add_argument("--null", action="store_true")
    args = parser.parse_args()
    library = Library(args.library or build(), args.null)
    sys.exit(bool(replay(library, args.replay) if args.replay else run(library, args.calls, args.seed, [n for n in args.only.split(",") if n])))


if __name__ == "__main__":
    main()
