"""Most pictures once more, literally: every set of bases, and for each of its chunks every slot in
which it may begin. The lines that the program `test_most` has to print."""
from itertools import combinations, product
from reference import Job, Override, Refused, check_job, due, plan, size
from jobs import JOB_A
from printing import printed_by
from searches import Walk


def most_held(job):
    return job.limit // job.span


def holds(job, begins):
    """Rule 6: at the end of each slot at most H chunks are held; begins says in which slot each
    carried chunk is begun."""
    return all(sum(b <= t < due(job, i) for i, b in begins.items()) <= most_held(job) for t in range(1, len(job.forecast) + 1))


def carries(job, begins):
    """Rules 4 and 5: the bases begun so can be fetched by their due slots, since no stretch of slots
    has more bytes to take than are forecast in it."""
    slots = range(1, len(job.forecast) + 1)
    return all(sum(size(job, i, 0) for i, b in begins.items() if a <= b and due(job, i) <= e) <= sum(job.forecast[a - 1:e])
               for a in slots for e in slots if a <= e)


def can(job, chunks, in_order):
    """Whether some passing list carries just these bases, in playing order or in any order."""
    for slots in product(*(range(1, due(job, i) + 1) for i in chunks)):
        begins = dict(zip(chunks, slots))
        if (not in_order or list(slots) == sorted(slots)) and holds(job, begins) and carries(job, begins):
            return True
    return False


def largest(job, in_order):
    """The sets of most bases that some list carries."""
    for n in range(job.chunks, -1, -1):
        sets = [c for c in combinations(range(1, job.chunks + 1), n) if can(job, c, in_order)]
        if sets:
            return sets


def bound(job):
    """The bound in playing order before any pass: what c bases of the chunks behind i need at least
    of the forecast from its end, if those from H places behind a kept one on fit from its due slot
    on, whichever chunks they are."""
    after = lambda t: sum(job.forecast[t:])
    none, h, c_all = after(0) + 1, most_held(job), job.chunks
    least = {(c_all, c): 0 if c == 0 else none for c in range(c_all + 1)}
    for i in range(c_all - 1, -1, -1):
        d = due(job, i + 1)
        least[i, 0] = 0
        for c in range(1, c_all + 1):
            with_it = size(job, i + 1, 0) + max(after(d), least[i + 1, c - 1])
            behind = least[min(i + h, c_all), max(c - h, 0)] if h else with_it
            least[i, c] = min(least[i + 1, c], with_it if behind <= after(d - 1) else none)
    return max(c for c in range(c_all + 1) if least[0, c] <= after(0))


def forward(job):
    """Each chunk in turn, kept if the set with it can be carried."""
    kept = ()
    for i in range(1, job.chunks + 1):
        if can(job, kept + (i,), True):
            kept += (i,)
    return kept


def own_bases(job):
    """The bases of document 01's plan."""
    return tuple(i for i, mark in enumerate(plan(job)[0], 1) if mark)


def found(job, passes):
    """The set that is found, and the bound: no other set may be as large, so that it is told here."""
    best = largest(job, True)
    if most_held(job) <= 1:
        return forward(job), len(best[0])
    if not passes:
        return own_bases(job), bound(job)
    own = own_bases(job)
    if len(own) == len(best[0]):
        return own, len(own)
    if len(best) > 1:
        raise ValueError(f"{job}: more than one largest set")
    return best[0], len(best[0])


def said(answer, counts, most, most_any, exact):
    return f"{answer}, counts {' '.join(map(str, counts))}, at most {most} and {most_any}{', exact' if exact else ''}"


def tell(text, answer, marks, rows, written=""):
    print(f"{text}: {answer}, marks{''.join(f' {m}' for m in marks)}, list{''.join(' ' + '.'.join(map(str, x)) for x in rows)}{written}")


def given(job, passes):
    """What is answered, the marks and the rows."""
    check_job(job)
    kept, most = found(job, passes)
    levels, rows = walk_of(job).plan(list(kept))
    counts = [sum(k > n for k in levels) for n in range(4)]
    any_order = len(largest(job, False)[0])
    return said(f"rows {len(rows)}", counts, most, any_order, counts[0] == most), [(1 << k) - 1 for k in levels], rows


def walk_of(job):
    """A walk of request 13 that is not walked: only the plan over a set of bases is asked of it."""
    walk = Walk.__new__(Walk)
    walk.job, walk.steps, walk.plans = job, [], {}
    return walk


# ---- films by the line

def lines(name, job):
    print(name)
    for passes in (0, 9):
        tell(f"passes {passes}", *given(job, passes))


def single_jobs():
    lines("job A", JOB_A)
    lines("poor plan", Job(3, 1, 1, 2, [1], [Override(3, 0, 2)], [1, 1, 0]))
    lines("another order helps", Job(2, 1, 2, 1, [1], [Override(2, 0, 3)], [3, 1, 1]))
    lines("bound lowered", Job(4, 1, 2, 2, [1], [Override(2, 0, 3), Override(4, 0, 2)], [3, 0, 1, 0, 0]))
    lines("none held", Job(3, 1, 1, 0, [2], [Override(2, 0, 1)], [1, 1, 2]))
    lines("two layers", Job(3, 1, 1, 2, [1, 1], [Override(3, 0, 3)], [2, 1, 0]))


# ---- the room in the caller's slices, and the order of the refusals

# Job A with a limit of 4: two chunks may be held, so the work slice is used.
ROOMY = JOB_A._replace(limit=4)


def ask(text, job, work, *lent):
    """On slices of 7s of these lengths; four places of each are shown."""
    try:
        answer, marks, rows = given(job, 9)
        if work < 501 * (job.chunks + 1) or lent[0] < job.chunks or any(n < 5599 for n in lent[1:]):
            raise Refused(11)
        tell(text, answer, (marks + [7] * 4)[:4], (rows + [(7,) * 4] * 4)[:4], ", work written" if most_held(job) > 1 else "")
    except Refused as r:
        tell(text, said(f"refused {r.number}", [0] * 4, 0, 0, False), [7] * 4, [(7,) * 4] * 4)


def room():
    print("room")
    for text, *lent in (("just enough", 2004, 3) + (5599,) * 4, ("more than enough", 2505, 4) + (5599,) * 4,
                        ("work short", 2003, 4) + (5599,) * 4, ("a mark short", 2505, 2) + (5599,) * 4,
                        ("a slot short", 2505, 4, 5598, 5599, 5599, 5599), ("a chunk short", 2505, 4, 5599, 5598, 5599, 5599),
                        ("a layer short", 2505, 4, 5599, 5599, 5598, 5599), ("bytes short", 2505, 4, 5599, 5599, 5599, 5598)):
        ask(text, ROOMY, *lent)


def order():
    print("order")
    for text, chunks, layers, uneven, slots in (("5 first", 501, 0, 1, 5), ("then 6", 3, 0, 1, 5), ("then 18", 3, 2, 1, 5),
                                                ("then 7", 3, 2, 0, 5), ("then 11", 3, 2, 0, 6)):
        job = ROOMY._replace(chunks=chunks, sizes=[2, 1][:layers], overrides=[Override(1, 0, 1)][:uneven], forecast=JOB_A.forecast[:slots])
        ask(text, job, *[2] * 6)


# ---- the family

KINDS = (([1], {2: 2}), ([2, 1], {2: 1}), ([1, 1], {3: 2}), ([2], {2: 1, 3: 1}))


def family():
    t = dict.fromkeys(["films", "plan", "found", "any"], 0)
    for limit, delay, span, chunks in product(range(4), (1, 2), (1, 2), (1, 2, 3, 4)):
        slots = (chunks - 1) * span + delay
        if slots > 4:
            continue
        for digits in product(range(3), repeat=slots):
            for sizes, sz in KINDS:
                overrides = [Override(i, 0, b) for i, b in sz.items() if i <= chunks]
                job = Job(chunks, span, delay, limit, sizes, overrides, list(digits[::-1]))
                t["films"] += 1
                t["plan"] += len(own_bases(job))
                t["found"] += len(largest(job, True)[0])
                t["any"] += len(largest(job, False)[0])
    print("family: films {films}, bases of the plans {plan}, found {found}, bounds {found} and {any}, exact {films}, passed {films}".format(**t))


PROGRAMS = {"test_most": lambda: {"stdout": printed_by(single_jobs, room, order, family)}}
