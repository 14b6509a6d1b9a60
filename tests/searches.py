"""Request 13 once more, literally: the walk step by step, each set decided by an exhaustive search
for a passing list in playing order that carries exactly its bases. The lines that the program
`test_search` has to print."""
from itertools import product
from reference import Job, Override, Refused, Row, check_job, due, own_list, size, verdict, moore_hodgson as most_pictures
from jobs import JOB_A
from printing import printed_by


def spread(left, slots, room):
    """Each way to fetch so many bytes in these slots, within the room."""
    if not slots:
        if not left:
            yield []
        return
    t, rest = slots[0], slots[1:]
    for b in range(min(left, room[t]) + 1):
        for ways in spread(left - b, rest, room):
            yield [(t, b)] * (b > 0) + ways


def in_order(job, rows):
    """No chunk is begun in an earlier slot than a carried chunk that plays before it; all begun
    ones here are carried."""
    begun = {}
    for x in rows:
        begun[x.chunk] = min(x.slot, begun.get(x.chunk, x.slot))
    return all(begun[i] <= begun[k] for i in begun for k in begun if i < k)


def some_list(job, levels):
    """Whether some passing list in playing order carries exactly these layers, by trying every
    list."""
    pieces = [(i + 1, n) for i, k in enumerate(levels) for n in range(k)]
    room = {t: b for t, b in enumerate(job.forecast, 1)}

    def place(k, rows):
        if k == len(pieces):
            return verdict(job, rows) == 0 and in_order(job, rows)
        i, n = pieces[k]
        for ways in spread(size(job, i, n), list(range(1, due(job, i) + 1)), room):
            for t, b in ways:
                room[t] -= b
            found = place(k + 1, rows + [Row(t, i, n, b) for t, b in ways])
            for t, b in ways:
                room[t] += b
            if found:
                return True
        return False

    return place(0, [])


class Walk:
    """The fixed walk of a job: for each step the set met, or None for a refused keep."""

    def __init__(self, job):
        self.job, self.steps = job, []
        self.go(job.chunks, [])
        self.plans = {}

    def go(self, i, kept):
        if not i:
            return
        more = [i] + kept
        if some_list(self.job, self.levels(more)):
            self.steps.append(more)
            self.go(i - 1, more)
        else:
            self.steps.append(None)
        self.steps.append(kept)
        self.go(i - 1, kept)

    def levels(self, kept):
        return [int(i in kept) for i in range(1, self.job.chunks + 1)]

    def plan(self, kept):
        """The layers above the bases, in document 01's way, and the own list."""
        if tuple(kept) not in self.plans:
            levels = self.levels(kept)
            for n in range(1, len(self.job.sizes)):
                for i in range(self.job.chunks, 0, -1):
                    if levels[i - 1] == n:
                        tried = levels[:]
                        tried[i - 1] += 1
                        if some_list(self.job, tried):
                            levels = tried
            self.plans[tuple(kept)] = levels, own_list(self.job, levels)
        return self.plans[tuple(kept)]

    def cut(self, budget):
        best = []
        for kept in self.steps[:budget]:
            if kept is not None and len(kept) > len(best):
                best = kept
        ended = len(self.steps) <= budget
        levels, rows = self.plan(best)
        counts = [sum(k > n for k in levels) for n in range(4)]
        marks = [(1 << k) - 1 for k in levels]
        short = 0 if ended else len(most_pictures(self.job)) - len(best)
        return rows, counts, min(budget, len(self.steps)), ended, short, marks

    def budgets(self):
        return [2 ** 32 - 1] + list(range(len(self.steps) + 2))


def said(rows, counts, steps, ended, short):
    return f"{rows}, counts {' '.join(map(str, counts))}, steps {steps}{', ended' if ended else ''}, short {short}"


def tell(text, answer, marks, rows):
    print(f"{text}: {answer}, marks{''.join(f' {m}' for m in marks)}, list{''.join(' ' + '.'.join(map(str, x)) for x in rows)}")


# ---- jobs by the line

def lines(name, job):
    print(name)
    check_job(job)
    walk = Walk(job)
    for budget in walk.budgets():
        rows, *values, marks = walk.cut(budget)
        tell(f"budget {budget}", said(f"rows {len(rows)}", *values), marks, rows)


# ---- the room lent, and the order of the refusals

def ask(text, job, lent):
    """On slices of four 7s, of which so much is lent."""
    try:
        check_job(job)
        walk = Walk(job)
        rows, *values, marks = walk.cut(100)
        if lent[0] < job.chunks or any(n < len(rows) for n in lent[1:]):
            raise Refused(11)
        answer, marks, rows = said(f"rows {len(rows)}", *values), (marks + [7] * 4)[:4], (rows + [(7,) * 4] * 4)[:4]
    except Refused as r:
        answer, marks, rows = said(f"refused {r.number}", [0] * 4, 0, False, 0), [7] * 4, [(7,) * 4] * 4
    tell(text, answer, marks, rows)


def room():
    print("room")
    for text, *lent in (("just enough", 3, 3, 3, 3, 3), ("more than enough", 4, 4, 4, 4, 4), ("a mark short", 2, 4, 4, 4, 4),
                        ("a slot short", 4, 2, 4, 4, 4), ("a chunk short", 4, 4, 2, 4, 4), ("a layer short", 4, 4, 4, 2, 4),
                        ("bytes short", 4, 4, 4, 4, 2)):
        ask(text, JOB_A, lent)


def order():
    print("order")
    for text, chunks, layers, uneven, slots in (("5 first", 501, 0, 1, 5), ("then 6", 3, 0, 1, 5), ("then 18", 3, 2, 1, 5),
                                                ("then 7", 3, 2, 0, 5), ("then 11", 3, 2, 0, 6)):
        job = JOB_A._replace(chunks=chunks, sizes=[2, 1][:layers], overrides=[Override(1, 0, 1)][:uneven], forecast=JOB_A.forecast[:slots])
        ask(text, job, [2] * 5)


# ---- the family

KINDS = (([1], {2: 2}), ([2, 1], {2: 1}), ([1, 1], {3: 2}), ([2], {2: 1, 3: 1}))


def family():
    names = ["jobs", "searches", "ended", "sure", "steps", "bases", "short", "check"]
    t = dict.fromkeys(names, 0)

    def mix(*values):
        for v in values:
            t["check"] = (t["check"] * 31 + v) % 1000003

    for limit, delay, span, chunks in product(range(4), (1, 2), (1, 2), (1, 2, 3)):
        slots = (chunks - 1) * span + delay
        if slots > 4:
            continue
        for digits in product(range(3), repeat=slots):
            for sizes, bases in KINDS:
                overrides = [Override(i, 0, b) for i, b in bases.items() if i <= chunks]
                walk = Walk(Job(chunks, span, delay, limit, sizes, overrides, list(digits[::-1])))
                t["jobs"] += 1
                for budget in walk.budgets():
                    rows, counts, steps, ended, short, marks = walk.cut(budget)
                    mix(*(marks + [0] * 3)[:3])
                    for column in zip(*rows):
                        mix(*column)
                    mix(*counts, steps, int(ended), short)
                    t["searches"] += 1
                    t["ended"] += ended
                    t["sure"] += not ended and not short
                    t["steps"] += steps
                    t["bases"] += counts[0]
                    t["short"] += short
    print("family: jobs {jobs}, searches {searches}, ended {ended}, cut without a shortfall {sure}, steps {steps}, bases {bases}, shortfalls {short}, check {check}".format(**t))


def single_jobs():
    lines("job A", JOB_A)
    lines("uneven", Job(3, 1, 2, 1, [2], [Override(2, 0, 1), Override(3, 0, 3)], [4, 1, 1, 0]))
    lines("four chunks", Job(4, 1, 1, 1, [2, 1], [Override(2, 0, 1), Override(3, 0, 3), Override(4, 0, 3)], [3, 2, 2, 1]))


PROGRAMS = {"test_search": lambda: {"stdout": printed_by(single_jobs, room, order, family)}}
