"""Planning afresh once more. The calls that the program `test_replan` reads and what it has to
print of them, by `reference.py`; and what `test_replan_exhaustive` has to print, each layer decided
by a search over all fetch lists, which takes some minutes."""
import random
from itertools import combinations_with_replacement, product
from reference import (Job, Override, Refused, Row, begun, check_fetched, check_from, due, fits, in_order, layer_sum, marks_given, own_list,
                       plan, replan, settle_afresh, size, verdict)
from jobs import JOB_A, MARKS_A, ROWS_A, columns
from printing import printed_by


def counts(levels):
    return [sum(k > n for k in levels) for n in range(4)]


def marks_of(levels):
    return [(1 << k) - 1 for k in levels]


# ---- single cases: a title, and the call's numbers on one line (crate test_replan, table), and
# what comes of it

CALLS, ANSWERS = [], []


def after(lent, result):
    return list(result) + [9] * (lent - len(result))


def numbers(call, job, p, handed, last, lent):
    """A list is its length and then its numbers."""
    o = list(zip(*job.overrides)) or [(), (), ()]
    lists = [job.sizes, *o, job.forecast], [*handed, last]
    flat = lambda lists: [x for l in lists for x in [len(l), *l]]
    return [call, job.chunks, job.span, job.delay, job.limit, *flat(lists[0]), p, *flat(lists[1]), *lent]


def told(said, four, lent, results):
    """Answer, counts, and every lent byte afterwards; what is lent holds 9s."""
    said = f"{said}, counts {' '.join(map(str, four))}"
    for name, n, result in zip(("marks", "slots", "chunks", "layers", "bytes"), lent, results):
        said += "".join([f", {name}"] + [f" {x}" for x in after(n, result)])
    return said


def tell(text, said, *case):
    CALLS.append(f"{text}:" + "".join(f"{x} " for x in numbers(*case)) + "\n")
    ANSWERS.append(f"{text}: {said}\n")


def ask(text, job, p, handed, onward, lent=(3, 3, 3, 3, 3)):
    """handed is rows, or their four columns."""
    handed, rows = handed if isinstance(handed, tuple) else columns(handed), None
    try:
        levels, rows = replan(job, p, onward, *handed)
        results = [marks_of(levels)] + columns(rows)
        if any(n < len(x) for n, x in zip(lent, results)):
            raise Refused(11)
        said = told(f"rows {len(rows)}", counts(levels), lent, results)
    except Refused as r:
        said = told(f"refused {r.number}", [0] * 4, lent, [[]] * 5)
    tell(text, said, 0, job, p, handed, onward, lent)
    return rows


def check(text, job, p, marks, handed):
    handed = handed if isinstance(handed, tuple) else columns(handed)
    try:
        said = f"verdict {check_from(job, p, marks, *handed)}"
    except Refused as r:
        said = f"refused {r.number}"
    tell(text, said, 1, job, p, handed, marks, ())


def planned(text, job, lent):
    levels, rows = plan(job)
    tell(text, told(f"rows {len(rows)}", counts(levels), lent, [marks_of(levels)] + columns(rows)), 2, job, 1, [[]] * 4, [], lent)
    return rows


def made():
    ask("a chunk before a begun one", Job(2, 1, 2, 2, [1], [], [1, 1, 1]), 2, [(1, 2, 0, 1)], [1, 1])
    uneven = Job(3, 1, 1, 3, [1], [Override(3, 0, 2)], [1, 1, 0])
    planned("bases of 1, 1 and 2 bytes, planned", uneven, (3, 3, 3, 3, 3))
    ask("and made afresh", uneven, 1, [], [1, 1, 0])
    for text, handed, slot in (("nothing fetched", [], 1), ("a base begun and given up", [(1, 1, 0, 1)], 1),
                               ("a base begun and ended", [(1, 1, 0, 1)], 2), ("a base whole before p", [(1, 1, 0, 3)], 1)):
        ask(text, Job(2, 3, 3, 3, [3], [], [3] * 6), 2, handed, [slot, 0, 2, 0, 0])
    for text, limit, k, onward in (
            ("as it was", 2, 2, JOB_A.forecast[1:]), ("the link is gone", 2, 2, [0] * 5), ("a byte a slot", 2, 2, [1] * 5),
            ("3 bytes a slot", 2, 2, [3] * 5), ("3 bytes a slot, limit 6", 6, 2, [3] * 5), ("one row fetched", 2, 1, JOB_A.forecast[1:]),
            ("none fetched", 2, 0, JOB_A.forecast[1:]), ("none fetched, 3 bytes in slot 2", 2, 0, [3, 1, 0, 2, 0])):
        ask(f"A at 2, {text}", JOB_A._replace(limit=limit), 2, ROWS_A[:k], onward, (3, 6, 6, 6, 6))
    for p, k in ((1, 0), (3, 2), (5, 2), (6, 3)):
        assert ask(f"A's plan at {p}", JOB_A, p, ROWS_A[:k], JOB_A.forecast[p - 1:]) == ROWS_A[k:]
    ask("A's plan at 6, a byte more", JOB_A, 6, ROWS_A, [1])
    ask("A at 6, chunk 3 not fetched, 3 bytes in it", JOB_A, 6, ROWS_A[:2], [3])


def film():
    job = Job(5, 2, 3, 4, [3, 2, 1, 2], [Override(2, 0, 4), Override(3, 1, 1), Override(4, 0, 2), Override(4, 3, 1)],
              [1, 0, 4, 0, 0, 3, 0, 3, 6, 6, 4])
    rows = planned("a film of four layers", job, (5,) + (20,) * 4)
    for link, text in ((job.forecast, "afresh"), ([3, 2, 3, 0, 0, 0, 0, 0, 5, 5, 4], "on another link")):
        for p in range(1, 12):
            fetched = [x for x in rows if x.slot < p]
            lent = (5,) + (len(rows) - len(fetched) + 2,) * 4
            new = ask(f"{text} at {p}", job, p, fetched, link[p - 1:], lent)
            assert link != job.forecast or new == [x for x in rows if x.slot >= p]


# ---- handed rows

def on_a(text, p, rows, limit=2, upper=1):
    ask(text, JOB_A._replace(limit=limit, sizes=[2, upper]), p, rows, JOB_A.forecast[p - 1:] if 1 <= p <= 6 else JOB_A.forecast if p == 0 else [])


def rows():
    for p in (0, 7, 65535):
        on_a(f"p {p}", p, [(1, 2, 0, 2)])
    on_a("a row in slot p", 3, [(3, 2, 0, 1)])
    on_a("a row after p", 3, [(5, 3, 0, 2)])
    on_a("a row past the last slot", 6, [(65535, 3, 0, 2)])
    on_a("not before p, and of no chunk", 3, [(3, 9, 9, 0)])
    on_a("slot 0", 3, [(0, 2, 0, 2)])
    on_a("chunk 0", 3, [(1, 0, 0, 2)])
    on_a("chunk 4", 3, [(1, 4, 0, 2)])
    on_a("layer 2", 3, [(1, 2, 2, 1)])
    on_a("layer 255", 3, [(1, 2, 255, 1)])
    on_a("no bytes", 3, [(1, 2, 0, 0)])
    on_a("a short sum", 3, [(1, 2, 0, 1)])
    on_a("a whole base", 3, [(1, 2, 0, 2)])
    on_a("a sum above its size", 3, [(1, 2, 0, 3)])
    on_a("layer 1 whole over no base", 3, [(1, 2, 1, 1)])
    on_a("more than slot 2 carries", 3, [(2, 2, 0, 1)])
    on_a("a late row", 4, [(3, 1, 0, 1)])
    on_a("layer 1 whole over a short base", 3, [(1, 2, 0, 1), (1, 2, 1, 1)])
    on_a("layer 1 short over a short base", 3, [(1, 2, 0, 1), (1, 2, 1, 1)], upper=2)
    on_a("a sum of two rows above its size", 3, [(1, 2, 0, 2), (1, 2, 0, 1)])
    on_a("equal rows, each counts", 3, [(1, 2, 0, 1), (1, 2, 0, 1)])
    on_a("two chunks held", 3, [(1, 2, 0, 1), (1, 3, 0, 1)])
    on_a("two chunks held, limit 4", 3, [(1, 2, 0, 1), (1, 3, 0, 1)], limit=4)
    on_a("the same in the other order", 3, [(1, 3, 0, 1), (1, 2, 0, 1)], limit=4)
    on_a("begun before one that plays before it", 4, [(1, 3, 0, 2), (3, 2, 0, 1)], limit=4)
    on_a("begun after it", 4, [(1, 2, 0, 2), (3, 3, 0, 1)], limit=4)
    on_a("more than 64 bits have of bytes", 3, [(1, 2, 0, 4294967295)] * 2)


def room():
    for text, lent in (("exact room", (3, 3, 3, 3, 3)), ("a mark too few", (2, 3, 3, 3, 3)), ("a slot too few", (3, 2, 3, 3, 3)),
                       ("a chunk too few", (3, 3, 2, 3, 3)), ("a layer too few", (3, 3, 3, 2, 3)), ("bytes too few", (3, 3, 3, 3, 2)),
                       ("nothing lent", (0,) * 5), ("more room", (5, 6, 6, 6, 6))):
        ask(text, JOB_A, 1, [], JOB_A.forecast, lent)


# ---- the order of the refusals, in both calls

def both(text, chunks=3, layers=2, sz=(), slots=6, p=9, slot=9, ends=(1, 1, 1), onward=3, last=0):
    """A row of chunk 9 on a part of job A; ends says how many of the row's other fields are
    handed."""
    job = JOB_A._replace(chunks=chunks, sizes=[2, 1][:layers], overrides=[Override(*o) for o in sz], forecast=JOB_A.forecast[:slots])
    row = ([slot], [9][:ends[0]], [0][:ends[1]], [2][:ends[2]])
    check(f"{text}, checked", job, p, [0, 0, 0], row)
    ask(f"{text}, planned", job, p, row, [0, 1, 0, 2, last, 0][:onward], (0,) * 5)


def order():
    every = dict(sz=[(1, 0, 1)], slots=5, ends=(0, 1, 1), last=16777217)
    both("5 first", chunks=501, layers=0, **every)
    both("then 6", layers=0, **every)
    both("then 18", **every)
    both("then 7", **dict(every, sz=()))
    both("then 8", **dict(every, sz=(), slots=6))
    both("8 for a layer", ends=(1, 0, 1))
    both("8 for bytes", ends=(1, 1, 0))
    check("8 for a mark", JOB_A, 9, [0, 0], [])
    both("then 21 for p", slot=1)
    both("21 for the row", p=2, slot=2)
    both("then 7 of the forecast, a slot too few", p=2, slot=1, onward=4)
    both("a slot too many", p=2, slot=1, onward=6)
    both("bytes out of range", p=2, slot=1, onward=5, last=16777217)
    both("then 22", p=2, slot=1, onward=5, last=16777216)
    ask("then 11", JOB_A, 3, [(1, 2, 0, 2)], JOB_A.forecast[2:], (0,) * 5)


# ---- the second checker call

def second():
    for p in (0, 1, 6, 7, 65535):
        check(f"second call, p {p}", JOB_A, p, [0, 1, 0], [(1, 2, 0, 2)])
    check("a short sum before p", JOB_A, 2, [0, 0, 0], [(1, 2, 0, 1)])
    check("its mark says it is carried", JOB_A, 2, [0, 1, 0], [(1, 2, 0, 1)])
    check("a short sum in slot p", JOB_A, 1, [0, 0, 0], [(1, 2, 0, 1)])
    check("a short sum after p", JOB_A, 2, [0, 0, 0], [(3, 2, 0, 1)])
    check("a sum above its size before p", JOB_A, 2, [0, 1, 0], [(1, 2, 0, 3)])
    check("layer 1 whole over no base", JOB_A, 2, [0, 2, 0], [(1, 2, 1, 1)])
    check("a row before slot 1", JOB_A, 2, [0, 0, 0], [(0, 2, 0, 1)])
    check("begun before p and ended after it", JOB_A, 3, [0, 1, 0], [(1, 2, 0, 1), (3, 2, 0, 1)])
    check("whole before p and a byte more after it", JOB_A, 3, [0, 1, 0], [(1, 2, 0, 2), (3, 2, 0, 1)])
    check("begun before p and no more", JOB_A, 3, [0, 0, 0], [(1, 2, 0, 1)])
    check("all rows before p, at 4", JOB_A, 4, [0, 1, 0], [(1, 2, 0, 1), (3, 2, 0, 1)])
    check("A's plan at 4", JOB_A, 4, MARKS_A, ROWS_A)
    check("with its last row split, at 4", JOB_A, 4, MARKS_A, ROWS_A[:2] + [(3, 3, 0, 1), (5, 3, 0, 1)])
    check("more than a slot carries", JOB_A, 4, [0, 0, 1], [(3, 3, 0, 2)])
    check("a late row", JOB_A, 4, [0, 1, 0], [(5, 2, 0, 2)])
    five = JOB_A._replace(overrides=[Override(2, 0, 5)])
    check("3 bytes of 5, at 2", five, 2, [0, 0, 0], [(1, 2, 0, 3)])
    check("4 with a byte from p on", five, 2, [0, 0, 0], [(1, 2, 0, 3), (3, 2, 0, 1)])
    check("4 with a byte in slot p", five, 3, [0, 0, 0], [(1, 2, 0, 3), (3, 2, 0, 1)])
    check("4 before p", five, 4, [0, 0, 0], [(1, 2, 0, 3), (3, 2, 0, 1)])


# ---- any jobs

def any_jobs():
    """Jobs of up to 6 chunks and 4 layers, on rows of the plan or of other lists, shuffled; then
    the second call on the joined list, and with a row left out."""
    random.seed(12)
    for k in range(1, 101):
        chunks, span, delay = random.randint(2, 6), random.randint(1, 3), random.randint(1, 6)
        sizes = [random.randint(1, 6) for _ in range(random.randint(1, 4))]
        spots = [(i, n, random.randint(1, 6)) for i in range(2, chunks + 1) for n in range(len(sizes)) if k % 2 and random.random() < 0.4]
        sz = [Override(i, n, z) for i, n, z in spots if z != sizes[n]]
        last = (chunks - 1) * span + delay
        link = lambda slots: [random.choice([0, 1, 2, 4, 7]) for _ in range(slots)]
        job, p = Job(chunks, span, delay, random.randint(0, 3 * span), sizes, sz, link(last)), random.randint(1, last)
        own = plan(job)[1] if k % 3 == 0 else own_list(job, [random.randint(0, len(sizes)) for _ in range(chunks)])
        fetched = [x for x in own if x.slot < p]
        random.shuffle(fetched)
        onward = link(last - p + 1)
        new = ask(f"job {k} at {p}", job, p, fetched, onward, (8,) + (24,) * 4)
        if new is None:
            continue
        on = job._replace(forecast=job.forecast[:p - 1] + onward)
        check(f"job {k} joined", on, p, marks_given(job, fetched + new), fetched + new)
        if new:
            less = fetched + new[:-1]
            check(f"job {k} without its last row", on, p, marks_given(job, less), less)


# ---- the family of test_replan_exhaustive

KINDS = [[[1]] * 3, [[2]] * 3, [[1], [2], [1]], [[2], [1], [2]], [[1, 1]] * 3, [[2, 1]] * 3, [[1, 2]] * 3, [[1, 1], [2, 1], [1, 2]]]
MODULUS = 2**31 - 1


def films():
    """The numbered films, without a forecast."""
    for k in range(384):
        chunks, sizes = 2 + k % 2, KINDS[k // 48]
        sz = [Override(i, n, z) for i in range(2, chunks + 1) for n, z in enumerate(sizes[i - 1]) if z != sizes[0][n]]
        job = Job(chunks, 1 + k // 2 % 2, 1 + k // 4 % 3, k // 12 % 4, sizes[0], sz, None)
        if due(job, chunks) <= 4:
            yield k, job


def parts(job):
    return [(i, n) for i in range(1, job.chunks + 1) for n in range(len(job.sizes))]


def fetched_lists(job, p):
    """Each list of bytes before p, at most two a slot, none late and no layer of more than its
    size; with its word."""
    one_slot = [()] + [(a,) for a in parts(job)] + list(combinations_with_replacement(parts(job), 2))

    def more(t, rows, word):
        if t == p:
            yield rows, word
            return
        for took in one_slot:
            now = rows + [Row(t, i, n, 1) for i, n in took]
            if all(t <= due(job, i) and layer_sum(now, i, n) <= size(job, i, n) for i, n in took):
                cells = [0] * (2 - len(took)) + [2 * i + n - 1 for i, n in took]
                yield from more(t + 1, now, word + (cells[0] + 8 * cells[1]) * 64**(t - 1))
    return more(1, [], 0)


def alike(job, rows):
    """What rules and playing order see of a list that keeps rules 4 and 5: the bytes of each layer,
    and the first slots."""
    return tuple(layer_sum(rows, *q) for q in parts(job)), tuple(begun(rows, i) for i in range(1, job.chunks + 1))


def marks_met(job, p, rows):
    """The marks of every list that begins with the rows, passes the second call and is in playing
    order. Lists grow slot by slot, by every number of bytes of every layer; of lists alike one is
    followed. Nothing here knows of need, room or release."""
    lists = {alike(job, rows): rows}
    for t in range(p, due(job, job.chunks) + 1):
        taken = [x for k in range(job.forecast[t - 1] + 1) for x in combinations_with_replacement(parts(job), k)]
        grown = {}
        for old in lists.values():
            for x in taken:
                if all(t <= due(job, i) and layer_sum(old, i, n) + x.count((i, n)) <= size(job, i, n) for i, n in x):
                    new = old + [Row(t, i, n, 1) for i, n in x]
                    grown.setdefault(alike(job, new), new)
        lists = grown
    return {tuple(marks_given(job, x)) for x in lists.values() if verdict(job, x, since=p) == 0 and in_order(job, x)}


def made_afresh(job, p, rows):
    """Levels and rows, each layer settled by the lists met; the fill of theory settles them alike,
    and the whole list passes."""
    met = marks_met(job, p, rows)
    levels = settle_afresh(job, p, rows, lambda tried: tuple(marks_of(tried)) in met)
    new = own_list(job, levels, p, rows)
    assert levels == settle_afresh(job, p, rows, lambda tried: fits(job, tried, p, rows))
    assert verdict(job, rows + new, marks_of(levels), p) == 0
    return levels, new


def checksum(numbers):
    all = 0
    for x in numbers:
        all = (all * 31 + x) % MODULUS
    return all


def digits(numbers):
    return sum(x * 16**k for k, x in enumerate(numbers))


def of_answer(case, said, marks, four, rows):
    lent = [x for row in after(18, rows) for x in ((9, 9, 9, 9) if row == 9 else row)]
    return checksum(case + [said, digits(after(3, marks)), digits(four)] + lent)


def family():
    count = dict.fromkeys("films lists refused plans none_held due_before given_up ended bases uppers rows sum standing".split(), 0)
    for k, film in films():
        last = due(film, film.chunks)
        count["films"] += 1
        if film.limit // film.span < film.chunks or not any(o.layer == 0 for o in film.overrides):
            count["standing"] += last * 3**last
        for p in range(1, last + 1):
            job, known = film._replace(forecast=[2] * (p - 1) + [7] * (last - p + 1)), {}
            for handed, word in fetched_lists(job, p):
                count["lists"] += 1
                try:
                    check_fetched(job, p, handed)
                except Refused as r:
                    count["refused"] += 1
                    count["sum"] += of_answer([k, p, word, 0], 1000 + r.number, [], [0] * 4, [])
                    continue
                for w, onward in enumerate(product(range(3), repeat=last - p + 1)):
                    on = job._replace(forecast=job.forecast[:p - 1] + list(onward[::-1]))
                    key = alike(job, handed), w
                    if key not in known:
                        known[key] = made_afresh(on, p, handed)
                    levels, new = known[key]
                    short = [(i, n) for i, n in parts(job) if 0 < layer_sum(handed, i, n) < size(job, i, n)]
                    count["plans"] += 1
                    count["none_held"] += job.limit < job.span
                    count["due_before"] += due(job, 1) < p
                    count["given_up"] += any(levels[i - 1] <= n for i, n in short)
                    count["ended"] += any(levels[i - 1] > n for i, n in short)
                    count["bases"] += counts(levels)[0]
                    count["uppers"] += counts(levels)[1]
                    count["rows"] += len(new)
                    count["sum"] += of_answer([k, p, word, w], len(new), marks_of(levels), counts(levels), new)
    count["sum"] %= MODULUS
    count["asked"] = count["refused"] + count["plans"]
    print("films; lists of rows fetched; refused by 22: {films} {lists} {refused}".format(**count))
    print("plans made afresh; with H 0, a chunk due before p, a begun layer given up, one ended; bases, layers above, rows from p on; that pass the second call: "
          "{plans} {none_held} {due_before} {given_up} {ended} {bases} {uppers} {rows} {plans}".format(**count))
    print("the same with the rows in another order; checksum over all answers: {asked} {sum}".format(**count))
    print("standing plans, at each p; that go on as they were: {standing} {standing}".format(**count))


def single():
    for group in (made, film, rows, room, order, second, any_jobs):
        group()
    files = {"stdin": "".join(CALLS).encode(), "stdout": "".join(ANSWERS).encode()}
    CALLS.clear()
    ANSWERS.clear()
    return files


PROGRAMS = {"test_replan": single, "test_replan_exhaustive": lambda: {"stdout": printed_by(family)}}
