"""Most pictures (`film_most`) on two kinds of film, each answer held against the reference. Small
films: every set of bases is tried, and up to six chunks the answer has to be exact. Long uneven
films under a limit that binds, with bases and links as they are met: how many answers are exact,
and how long the longest call takes. Run it at the root of the repository, with the Rattle toolchain
and gcc:

    python3 tests/mosts.py                  10,000 small films and 60 long ones, in half a minute
    python3 tests/mosts.py --all            100,000 small films and 500 long ones
    python3 tests/mosts.py --small N --long N --seed N
"""
import argparse
import ctypes
import random
import sys
import time

from compare import REFUSED, build, columns_of3, counts_of, marks_of, most_faults, own_bases, tiny
from reference import Job, Override, Row, bound_any_order, bound_in_order, bounds_fast, plan_over, plan_over_fast

PASSES = 16
# Of the long films at least so many in a hundred have to be exact, and the longest call may take so
# many milliseconds of processor time.
EXACT, LONGEST = 99, 50


class Most:
    """The call with room for the largest job. The slices are the same for every call."""

    def __init__(self, path):
        self.call = ctypes.CDLL(path).film_most
        self.call.restype = ctypes.c_uint64
        self.work = (ctypes.c_uint64 * 251001)()
        self.marks = (ctypes.c_uint8 * 500)()
        self.rows = [(kind * 5599)() for kind in (ctypes.c_uint16, ctypes.c_uint16, ctypes.c_uint8, ctypes.c_uint32)]
        self.counts, self.bounds = (ctypes.c_uint16 * 4)(), (ctypes.c_uint16 * 3)()
        self.took = 0

    def __call__(self, job, passes=PASSES):
        """The marks, rows, counts and bounds of a job that is not refused."""
        u16, u8, u32 = ctypes.c_uint16, ctypes.c_uint8, ctypes.c_uint32
        handed = [(job.sizes, u32), *zip(columns_of3(job.overrides), (u16, u8, u32)), (job.forecast, u32)]
        slices = [(kind * len(values))(*values) for values, kind in handed]
        lent = [self.work, self.marks, *self.rows, self.counts, self.bounds]
        args = [u16(x) for x in (job.chunks, job.span, job.delay, job.limit)]
        for x in slices:
            args += [x, ctypes.c_size_t(len(x))]
        args.append(u32(passes))
        for x in lent:
            args += [x, ctypes.c_size_t(len(x))]
        begun = time.thread_time()
        answer = self.call(*args)
        self.took = time.thread_time() - begun
        if answer >= REFUSED:
            sys.exit(f"refused {answer - REFUSED}: {job}")
        rows = [Row(*x) for x in zip(*(column[:answer] for column in self.rows))]
        return list(self.marks[:job.chunks]), rows, list(self.counts), list(self.bounds)


def faults(job, passes, marks, rows, counts, bounds, own, literal):
    """What is wrong with an answer. If literal, the reference is held against its own definitions
    too."""
    kept = [i for i, mark in enumerate(marks, 1) if mark & 1]
    levels, wanted = plan_over_fast(job, kept)
    if literal:
        assert (levels, wanted) == plan_over(job, kept) and bounds_fast(job) == (bound_in_order(job), bound_any_order(job)), job
    told = {
        "other rows than those of the plan over its set": rows != wanted or marks != marks_of(levels) or counts != counts_of(levels),
        "the bound in any order is not the one defined": bounds[1] != bounds_fast(job)[1],
        "it says exact and is not, or the other way round": bounds[2] != (len(kept) == bounds[0]),
    }
    return most_faults(job, passes, kept, marks, rows, bounds[0], own) + [fault for fault, broken in told.items() if broken]


def stop(job, found):
    sys.exit(f"{'; '.join(found)}\n{job}")


# ---- small films

def small_film(r):
    """Mostly on a poor link with gaps and under a tight limit: there the plan skips too much."""
    chunks, span, delay = r.choice((1, 2, 3, 4, 5, 6, 6, 7, 8, 8)), r.choice((1, 1, 2)), r.randint(1, 4)
    top, layers = r.choice((3, 5, 9)), r.choice((1, 1, 2))
    sizes = [r.randint(1, top) for _ in range(layers)]
    overrides = [Override(i, n, z) for i in range(2, chunks + 1) for n in range(layers) for z in [r.randint(1, top)] if z != sizes[n]]
    held = r.choice((2, 2, 3, 3, r.randint(0, chunks + 1)))
    slots, rich, gaps = (chunks - 1) * span + delay, r.choice((top // 2, top, 2 * top)), r.choice((0, 0.3, 0.5, 0.7))
    forecast = [0 if r.random() < gaps else r.randint(1, rich) for _ in range(slots)]
    return Job(chunks, span, delay, span * held, sizes, overrides, forecast)


def small_films(most, films, seed):
    r, exact, more, lower, above, any_tried = random.Random(seed), 0, 0, 0, 0, 0
    for k in range(films):
        job, passes = small_film(r), r.choice((0, 1, 2, PASSES, PASSES, PASSES))
        marks, rows, counts, bounds = most(job, passes)
        own = own_bases(job)
        found = faults(job, passes, marks, rows, counts, bounds, own, k % 20 == 0)
        # The front has room for every set of six chunks.
        if passes == PASSES and job.chunks <= 6 and not bounds[2]:
            found.append("it is not exact")
        if found:
            stop(job, found)
        exact += bounds[2]
        more += counts[0] > len(own)
        lower += bounds[0] < bounds_fast(job)[0]
        above += bounds[1] > bounds[0]
        any_tried += tiny(job)
    print(f"{films} small films: exact {exact}, more bases than the plan {more}, bound lowered {lower}, higher in any order {above}; "
          f"every set tried in playing order, on {any_tried} in any order", flush=True)


# ---- long films

def bases_like(r, kind, chunks):
    """Bases of 40,000 bytes on average: lognormal, two classes, runs of two classes, lognormal and
    wide."""
    mean, calm, sizes = 40000, True, []
    for _ in range(chunks):
        if kind == "lognormal":
            z = mean * r.lognormvariate(-0.125, 0.5)
        elif kind == "classes":
            z = mean * (2.2 if r.random() < 0.25 else 0.6)
        elif kind == "runs":
            calm ^= r.random() < 0.08
            z = mean * (0.6 if calm else 1.9) * r.uniform(0.9, 1.1)
        else:
            z = mean * r.lognormvariate(-0.5, 1)
        sizes.append(min(max(1, int(z)), 1 << 24))
    return sizes


def link_like(r, kind, slots, mean):
    """A forecast of so many bytes a slot: steady, varying, with gaps, like 3G."""
    state, gap, forecast = 1.0, 0, []
    for _ in range(slots):
        if kind == "steady":
            b = mean
        elif kind == "varying":
            state = 0.9 * state + 0.1 * r.lognormvariate(-0.18, 0.6)
            b = mean * state * r.uniform(0.7, 1.3)
        elif kind == "gaps":
            b = 0 if gap else 1.25 * mean
            gap = gap - 1 if gap else r.randint(5, 19) if r.random() < 0.02 else 0
        else:
            state = 0.95 * state + 0.05 * r.lognormvariate(-0.72, 1.2)
            b = 0 if r.random() < 0.15 else 1.2 * mean * state * r.lognormvariate(-0.32, 0.8)
        forecast.append(min(int(b), 1 << 24))
    return forecast


BASES, LINKS = ("lognormal", "classes", "runs", "wide"), ("steady", "varying", "gaps", "3G")


def long_film(r):
    chunks, held = r.choice((100, 150, 500)), r.choice((1, 2, 3, 5, 10, 20, 50, r.randint(1, 50)))
    span, delay = r.choice((1, 2, 6)), r.randint(1, 20)
    bases = bases_like(r, r.choice(BASES), chunks)
    slots = (chunks - 1) * span + delay
    mean = sum(bases) / slots * r.uniform(0.7, 1.2)
    overrides = [Override(i, 0, z) for i, z in enumerate(bases, 1) if i > 1 and z != bases[0]]
    # Some have a layer more.
    sizes = [bases[0]] + [r.randint(5000, 30000)] * (r.random() < 0.3)
    return Job(chunks, span, delay, span * held, sizes, overrides, link_like(r, r.choice(LINKS), slots, mean))


def long_films(most, films, seed):
    r, exact, sums, longest = random.Random(seed), 0, [0] * 4, 0
    for _ in range(films):
        job = long_film(r)
        marks, rows, counts, bounds = most(job)
        took, own = most.took, own_bases(job)
        found = faults(job, PASSES, marks, rows, counts, bounds, own, False)
        if found:
            stop(job, found)
        exact += bounds[2]
        sums = [a + b for a, b in zip(sums, (len(own), counts[0], bounds[0], bounds[1]))]
        if job.chunks == 500:
            longest = max(longest, 1000 * took)
    plan, bases, bound, any_order = (f"{x / max(1, films):.1f}" for x in sums)
    print(f"{films} long films: exact {exact}; bases on average: the plan {plan}, found {bases}, bound {bound}, in any order {any_order}; "
          f"longest call on 500 chunks {longest:.1f} ms", flush=True)
    if 100 * exact < EXACT * films or longest > LONGEST:
        sys.exit(f"wanted: {EXACT} % exact, at most {LONGEST} ms")


def main():
    parser = argparse.ArgumentParser(description=__doc__, formatter_class=argparse.RawDescriptionHelpFormatter)
    parser.add_argument("--all", action="store_true")
    parser.add_argument("--small", type=int)
    parser.add_argument("--long", type=int)
    parser.add_argument("--seed", type=int, default=1)
    parser.add_argument("--library", help="a shared object built before")
    args = parser.parse_args()
    most = Most(args.library or build())
    small, long = (100000, 500) if args.all else (10000, 60)
    small_films(most, small if args.small is None else args.small, args.seed)
    long_films(most, long if args.long is None else args.long, args.seed)


if __name__ == "__main__":
    main()
