"""Documents 01 and 02 once more, in plain Python and independent of the proved crates: job and plan
files, the seven rules, the plan, the report, link traces, bookings, plans made afresh, what to ask
for next in a slot of the act, the search, most pictures, the reasons, the wait, counts, the meter.
`cases.py`, `traces.py`, `waits.py`, `bookings.py`, `replans.py` and `lives.py` compute from it what
the test programs have to print; `compare.py` compares it with the library, call by call, and
`mosts.py` most pictures alone."""
from collections import namedtuple
from itertools import combinations, product

Job = namedtuple("Job", "chunks span delay limit sizes overrides forecast")
Override = namedtuple("Override", "chunk layer bytes")
Row = namedtuple("Row", "slot chunk layer bytes")


class Refused(Exception):
    def __init__(self, number):
        self.number = number


def due(job, i):
    return (i - 1) * job.span + job.delay


def size(job, i, n):
    """The bytes of layer n of chunk i: its SZ's, or the layer's own."""
    return next((o.bytes for o in job.overrides if (o.chunk, o.layer) == (i, n)), job.sizes[n])


def check_fields(chunks, span, delay, limit):
    if not (1 <= chunks <= 500 and 1 <= span <= 60 and 1 <= delay <= 3600):
        raise Refused(5)
    if (chunks - 1) * span + delay > 3600:
        raise Refused(5)


def check_overrides(chunks, sizes, overrides):
    """Document 02, request 8: refusal 18."""
    for o in overrides:
        if not (2 <= o.chunk <= chunks and o.layer < len(sizes) and 1 <= o.bytes <= 1 << 24 and o.bytes != sizes[o.layer]):
            raise Refused(18)
    if any(o[:2] >= q[:2] for o, q in zip(overrides, overrides[1:])):
        raise Refused(18)


def check_sizes(sizes):
    if not 1 <= len(sizes) <= 4 or any(not 1 <= z <= 1 << 24 for z in sizes):
        raise Refused(6)


def check_job(job):
    check_fields(job.chunks, job.span, job.delay, job.limit)
    check_sizes(job.sizes)
    check_overrides(job.chunks, job.sizes, job.overrides)
    if any(b > 1 << 24 for b in job.forecast) or len(job.forecast) != due(job, job.chunks):
        raise Refused(7)


def number(body):
    return int.from_bytes(body, "little")


def records(data, bodies):
    """The records of a file, one by one: mark and body."""
    at = 0
    while True:
        mark = data[at:at + 2]
        if len(mark) < 2:
            raise Refused(1)
        if mark not in bodies:
            raise Refused(2)
        body = data[at + 2:at + 2 + bodies[mark]]
        if len(body) < bodies[mark]:
            raise Refused(1)
        at += 2 + bodies[mark]
        if mark == b"EN" and at != len(data):
            yield b"EN", None
        else:
            yield mark, body
        if mark == b"EN":
            return


def read_job(data, mixed=False):
    """A job file in one sequence; a mixed one, as document 01 has it and so without SZ, too if
    mixed."""
    if len(data) > 65536:
        raise Refused(9)
    programme, sizes, overrides, forecast, before = None, [], [], [], None
    bodies = {b"PG": 8, b"LY": 4, b"SZ": 7, b"BW": 6, b"EN": 0}
    if mixed:
        del bodies[b"SZ"]
    for mark, body in records(data, bodies):
        if mark == b"PG" and programme:
            raise Refused(4)
        if mark != b"EN":
            turn = b"PLSB".index(mark[:1])
            out_of_turn = turn < b"PLSB".index(before[0][:1]) if before else mark != b"PG"
            again = before and mark == before[0] == b"BW" and body[2:] == before[1][2:]
            if not mixed and (out_of_turn or again):
                raise Refused(17)
            before = mark, body
        if mark == b"PG":
            programme = [number(body[k:k + 2]) for k in (0, 2, 4, 6)]
            check_fields(*programme)
        elif mark == b"LY":
            if not 1 <= number(body) <= 1 << 24 or len(sizes) == 4:
                raise Refused(6)
            sizes.append(number(body))
        elif mark == b"SZ":
            overrides.append(Override(number(body[:2]), body[2], number(body[3:])))
        elif mark == b"BW":
            count, slot = number(body[:2]), number(body[2:])
            if count == 0 or len(forecast) + count > 3600 or slot > 1 << 24:
                raise Refused(7)
            forecast += [slot] * count
        elif body is None:
            raise Refused(3)
    if not programme:
        raise Refused(4)
    if not sizes:
        raise Refused(6)
    check_overrides(programme[0], sizes, overrides)
    job = Job(*programme, sizes, overrides, forecast)
    if len(forecast) != due(job, job.chunks):
        raise Refused(7)
    return job


def convert(data):
    """What program convert writes for a file of either form."""
    return write_job(read_job(data, mixed=True))


def write_job(job):
    out = pg(job.chunks, job.span, job.delay, job.limit) + b"".join(ly(z) for z in job.sizes) + b"".join(sz(*o) for o in job.overrides)
    k = 0
    while k < len(job.forecast):
        n = k
        while n < len(job.forecast) and job.forecast[n] == job.forecast[k]:
            n += 1
        out += bw(n - k, job.forecast[k])
        k = n
    return out + b"EN"


def read_plan(job, data):
    check_job(job)
    if len(data) > 65536:
        raise Refused(9)
    marks, rows = [], []
    for mark, body in records(data, {b"KP": 3, b"FT": 9, b"EN": 0}):
        if mark == b"KP":
            if rows or number(body[:2]) != len(marks) + 1 or len(marks) == job.chunks:
                raise Refused(8)
            marks.append(body[2])
        elif mark == b"FT":
            rows.append(Row(number(body[:2]), number(body[2:4]), body[4], number(body[5:])))
        elif body is None:
            raise Refused(3)
    if len(marks) != job.chunks:
        raise Refused(8)
    return marks, rows


def pg(c, l, s, limit):
    return b"PG" + b"".join(x.to_bytes(2, "little") for x in (c, l, s, limit))


def ly(size):
    return b"LY" + size.to_bytes(4, "little")


def sz(chunk, layer, size):
    return b"SZ" + chunk.to_bytes(2, "little") + bytes([layer]) + size.to_bytes(4, "little")


def bw(count, size):
    return b"BW" + count.to_bytes(2, "little") + size.to_bytes(4, "little")


def kp(chunk, marks):
    return b"KP" + chunk.to_bytes(2, "little") + bytes([marks])


def ft(slot, chunk, layer, size):
    return b"FT" + slot.to_bytes(2, "little") + chunk.to_bytes(2, "little") + bytes([layer]) + size.to_bytes(4, "little")


def layer_sum(rows, i, n):
    return sum(x.bytes for x in rows if x.chunk == i and x.layer == n)


def carried(job, rows, i, n):
    return layer_sum(rows, i, n) == size(job, i, n)


def marks_given(job, rows):
    return [sum(1 << n for n in range(len(job.sizes)) if carried(job, rows, i, n)) for i in range(1, job.chunks + 1)]


def held(job, rows, t):
    return sum(1 for i in range(1, job.chunks + 1) if due(job, i) > t and any(x.chunk == i and x.slot <= t for x in rows))


def whole_or_none(job, rows, i, n, since):
    """Rule 2 of a layer; document 02, request 12: "its rule 2 allows a short sum whose rows are all
    before p"."""
    got = layer_sum(rows, i, n)
    short = got < size(job, i, n) and all(x.slot < since for x in rows if (x.chunk, x.layer) == (i, n))
    return got in (0, size(job, i, n)) or short


def begun(rows, i):
    """The first slot with a row of chunk i; past every slot if there is none."""
    return min((x.slot for x in rows if x.chunk == i), default=1 << 16)


def in_order(job, rows):
    """Playing order: no chunk is begun in an earlier slot than a carried chunk that plays before
    it."""
    return all(begun(rows, i) <= x.slot for i in range(1, job.chunks + 1) if carried(job, rows, i, 0) for x in rows if x.chunk > i)


def verdict(job, rows, marks=None, since=1):
    """Of the second checker call with p = since; at 1 it is the first: a row before slot 1 breaks
    rule 1."""
    last, layers = due(job, job.chunks), range(len(job.sizes))
    chunks = range(1, job.chunks + 1)
    if any(not (1 <= x.slot <= last and 1 <= x.chunk <= job.chunks and x.layer in layers and x.bytes >= 1) for x in rows):
        return 1
    if any(not whole_or_none(job, rows, i, n, since) for i in chunks for n in layers):
        return 2
    if any(carried(job, rows, i, n) and not carried(job, rows, i, n - 1) for i in chunks for n in layers if n):
        return 3
    if any(sum(x.bytes for x in rows if x.slot == t) > job.forecast[t - 1] for t in range(1, last + 1)):
        return 4
    if any(x.slot > due(job, x.chunk) for x in rows):
        return 5
    if any(held(job, rows, t) > job.limit // job.span for t in range(1, last + 1)):
        return 6
    if marks is not None and list(marks) != marks_given(job, rows):
        return 7
    return 0


def fits(job, levels, since=1, fetched=()):
    """Whether some passing list in playing order that begins with the rows fetched carries exactly
    these layers: the fill of theory, slot by slot. `replans.py` asks every list instead."""
    rows = list(fetched) + own_list(job, levels, since, fetched)
    exactly = marks_given(job, rows) == [(1 << k) - 1 for k in levels]
    return exactly and verdict(job, rows, since=since) == 0 and in_order(job, rows)


def own_list(job, levels, since=1, fetched=()):
    """The rows from a slot on, beside those fetched before it."""
    queue = [[i + 1, n, size(job, i + 1, n) - layer_sum(fetched, i + 1, n)] for i, k in enumerate(levels) for n in range(k)]
    queue = [part for part in queue if part[2] > 0]
    rows, begun = [], [i + 1 for i in range(job.chunks) if any(x.chunk == i + 1 for x in fetched)]
    for t in range(since, due(job, job.chunks) + 1):
        left = job.forecast[t - 1]
        while queue and left:
            i, n, lacking = queue[0]
            now = begun if i in begun else begun + [i]
            if sum(1 for k in now if due(job, k) > t) > job.limit // job.span:
                break
            begun = now
            take = min(left, lacking)
            rows.append(Row(t, i, n, take))
            left -= take
            queue[0][2] -= take
            if not queue[0][2]:
                queue.pop(0)
    return rows


def moore_hodgson(job):
    """Document 02, request 9: the chunks whose bases are kept."""
    kept = []
    for i in range(1, job.chunks + 1):
        kept.append(i)
        while sum(size(job, k, 0) for k in kept) > sum(job.forecast[:due(job, i)]):
            kept.remove(max(kept, key=lambda k: (size(job, k, 0), -k)))
    return kept


def plan(job):
    levels, settled = [0] * job.chunks, 0
    if job.limit // job.span >= job.chunks and any(size(job, i, 0) != job.sizes[0] for i in range(2, job.chunks + 1)):
        levels, settled = [int(i in moore_hodgson(job)) for i in range(1, job.chunks + 1)], 1
    for n in range(settled, len(job.sizes)):
        for i in range(job.chunks, 0, -1):
            if levels[i - 1] == n:
                tried = levels[:]
                tried[i - 1] += 1
                if fits(job, tried):
                    levels = tried
    return levels, own_list(job, levels)


def report(job, planned=None):
    levels, rows = planned or plan(job)
    carried = [sum(x.bytes for x in rows if x.chunk == i) for i in range(1, job.chunks + 1)]
    lines = [f"slots {due(job, job.chunks)} chunks {job.chunks} held {job.limit // job.span}"]
    lines += [f"{i + 1} {levels[i]} {carried[i]}" for i in range(job.chunks)]
    lines.append("layers " + " ".join(str(sum(k > n for k in levels)) for n in range(len(job.sizes))))
    lines.append(f"bytes {sum(carried)} left {sum(job.forecast) - sum(carried)}")
    shown = [carried[i] for i in range(job.chunks) if levels[i]]
    switch, film = sum(abs(a - b) for a, b in zip(shown, shown[1:])), job.chunks * job.span
    lines += [f"switch {switch}", f"rate {switch // film} {switch % film}"]
    return "".join(line + "\n" for line in lines)


def read_trace(data, slots):
    """Document 02, request 4: the forecast that a link trace gives."""
    if not 1 <= slots <= 3600:
        raise Refused(7)
    *lines, rest = data.split(b"\n")
    if rest or any(not 1 <= len(line) <= 7 or line.strip(b"0123456789") for line in lines):
        raise Refused(14)
    times = [int(line) for line in lines]
    if times != sorted(times):
        raise Refused(14)
    forecast = [1500 * sum((j - 1) * 1000 <= t < j * 1000 for t in times) for j in range(1, slots + 1)]
    if max(forecast) > 1 << 24:
        raise Refused(15)
    return forecast


def write_trace(forecast):
    if not 1 <= len(forecast) <= 3600:
        raise Refused(7)
    if any(b > 1 << 24 or b % 1500 for b in forecast):
        raise Refused(15)
    return b"".join(b"%d\n" % (j * 1000) * (b // 1500) for j, b in enumerate(forecast))


# ---- a film's shortest wait, counts of marks, the meter

def wait(chunks, span, limit, sizes, overrides, forecast, skips_none=lambda job: all(plan(job)[0])):
    """Document 02, request 5: the smallest s whose plan skips no base."""
    if not (1 <= chunks <= 500 and 1 <= span <= 60):
        raise Refused(5)
    check_sizes(sizes)
    check_overrides(chunks, sizes, overrides)
    if not 1 <= len(forecast) <= 3600 or any(b > 1 << 24 for b in forecast):
        raise Refused(7)
    for s in range(1, len(forecast) - (chunks - 1) * span + 1):
        if skips_none(Job(chunks, span, s, limit, sizes, overrides, forecast[:(chunks - 1) * span + s])):
            return s
    raise Refused(16)


def count_marks(marks, n):
    return sum(m >> n & 1 for m in marks) if n < 8 else 0


def count_word(word, n):
    return count_marks(word.to_bytes(8, "little"), n)


def four(counts):
    """Four counts of a slice: 0 for those of absent layers."""
    return (list(counts) + [0] * 4)[:4]


def in_range(slot, sample):
    return 1 <= slot <= 65535 and 0 <= sample <= 1 << 24


def kept_in(slots, samples, kept):
    """The samples of a meter, ten cells each and how many are kept."""
    if kept > 10 or any(not in_range(*x) for x in zip(slots[:kept], samples[:kept])) or any(a >= b for a, b in zip(slots[:kept], slots[1:kept])):
        raise Refused(10)
    return list(zip(slots, samples))[:kept]


def meter_take(slots, samples, kept, slot, sample):
    """The meter's cells after a sample."""
    if not in_range(slot, sample):
        raise Refused(10)
    all_kept = kept_in(slots, samples, kept)
    if all_kept and slot <= all_kept[-1][0]:
        raise Refused(13)
    last = (all_kept + [(slot, sample)])[-10:]
    return [x[0] for x in last] + list(slots[len(last):]), [x[1] for x in last] + list(samples[len(last):]), len(last)


def meter_forecast(slots, samples, kept):
    all_kept = [x[1] for x in kept_in(slots, samples, kept)]
    if not all_kept:
        raise Refused(12)
    if 0 in all_kept:
        return 0
    return len(all_kept) * 2**56 // sum(-(-2**56 // b) for b in all_kept)


# ---- the search within a budget, and the reason under each missing layer

def search(job, budget):
    """Document 02, request 13: the layers carried by each chunk, the rows, the steps taken, whether
    the walk ended, the shortfall."""
    table, sums = sizes_by_chunk(job), brought(job)
    best, steps = [], 0

    def taken():
        nonlocal steps
        if steps == budget:
            raise StopIteration
        steps += 1

    def tried(i, kept):
        """Chunk i kept, then skipped, with all that follows from either; kept has the chunks after
        it."""
        nonlocal best
        if i == 0:
            return
        taken()
        if fits_fast(job, [(k, table[k - 1][0]) for k in [i] + kept], sums):
            if len(kept) + 1 > len(best):
                best = [i] + kept
            tried(i - 1, [i] + kept)
        taken()
        tried(i - 1, kept)

    ended = True
    try:
        tried(job.chunks, [])
    except StopIteration:
        ended = False
    levels = settle_fast(job, [int(i in best) for i in range(1, job.chunks + 1)], range(1, len(job.sizes)), table, sums)
    shortfall = 0 if ended else len(moore_hodgson_fast(job, table, sums)) - len(best)
    return levels, own_list_fast(job, levels, table), steps, ended, shortfall


def stretch(job, levels, table):
    """Document 02, request 14: of the slots that need more than they carry those with the smallest
    last slot, then the greatest first slot. Need grows only where a chunk is due, and falls only
    past a slot in which one can begin, so no other slots are tried."""
    kept, most, sums = [i for i, k in enumerate(levels, 1) if k], job.limit // job.span, brought(job)
    begin = [1 if m < most else due(job, kept[m - most]) for m in range(len(kept))]
    need = [sum(table[i - 1][:levels[i - 1]]) for i in kept]
    for m, i in enumerate(kept):
        last = due(job, i)
        for first in sorted(set(begin[:m + 1]), reverse=True):
            asked = sum(b for b, start in zip(need[:m + 1], begin) if start >= first)
            if asked > sums[last] - sums[first - 1]:
                return f"slots {first} to {last} carry {sums[last] - sums[first - 1]}, need {asked}"
    raise AssertionError(job)


def reasons(job, planned=None):
    """A line under each layer of the job that its plan doesn't carry."""
    levels, table = (planned or plan(job))[0], sizes_by_chunk(job)
    by_moore_hodgson = job.limit // job.span >= job.chunks and any(z[0] != job.sizes[0] for z in table)
    text = ""
    for i in range(1, job.chunks + 1):
        for n in range(levels[i - 1], len(job.sizes)):
            if n > levels[i - 1]:
                text += f"chunk {i} layer {n}: layer {n - 1} is missing\n"
                continue
            # Settled before it: the layers below of all chunks, and this one of later chunks; a
            # base of request 9 is against all bases kept.
            later = range(1, job.chunks + 1) if by_moore_hodgson and n == 0 else range(i + 1, job.chunks + 1)
            against = [n + 1 if k == i else min(levels[k - 1], n + 1 if k in later else n) for k in range(1, job.chunks + 1)]
            text += f"chunk {i} layer {n}: {stretch(job, against, table)}\n"
    return text


# ---- most pictures: the two bounds as crates/theory_most/specs/Statement.antt defines them, and what
# small jobs can carry by trying every set

def after(job, t):
    """What is forecast after slot t."""
    return sum(job.forecast[t:])


def largest(test, most):
    """The largest number of 1 to most that passes, 0 if none does."""
    return next((c for c in range(most, 0, -1) if test(c)), 0)


def no_chunks(job):
    """The row of no chunks: no base needs nothing, and more than that needs more than there is."""
    return [0] + [after(job, 0) + 1] * job.chunks


def in_front(job, k, need):
    """The need of chunk k's base in front of bases that need so much."""
    return size(job, k, 0) + max(after(job, due(job, k)), need)


def bound_in_order(job):
    """No passing list in playing order carries more bases. `rows` has the rows of the chunks from
    k + 1 on, from k + 2 on, and so on: a row says of each c what c bases need at least."""
    rows, most, none = [no_chunks(job)], job.limit // job.span, after(job, 0) + 1
    for k in range(job.chunks, 0, -1):
        row = [0]
        for c in range(job.chunks):
            with_it = in_front(job, k, rows[0][c])
            far = rows[most - 1] if 0 < most <= len(rows) else no_chunks(job)
            behind = far[max(0, c + 1 - most)] if most else with_it
            row.append(min(rows[0][c + 1], with_it if behind <= after(job, due(job, k) - 1) else none))
        rows.insert(0, row)
    return largest(lambda c: rows[0][c] <= after(job, 0), job.chunks)


def bound_any_order(job):
    """No passing list, in whatever order it fetches, carries more bases."""
    row, most, none = no_chunks(job), job.limit // job.span, after(job, 0) + 1
    for k in range(job.chunks, 0, -1):
        row = [0] + [min(row[c + 1], in_front(job, k, row[c])) for c in range(job.chunks)]
        cut = most + largest(lambda c: row[c] <= after(job, due(job, k) - 1), job.chunks)
        row = [need if c <= cut else none for c, need in enumerate(row)]
    return largest(lambda c: row[c] <= after(job, 0), job.chunks)


def carried_in_order(job, count):
    """Whether some set of so many bases can be fetched in playing order: every set is tried."""
    table, sums = sizes_by_chunk(job), brought(job)
    return any(fits_fast(job, [(i, table[i - 1][0]) for i in kept], sums) for kept in combinations(range(1, job.chunks + 1), count))


def carried_in_any_order(job, count):
    """Whether some set of so many bases can be fetched in whatever order: every set is tried, and
    every choice of the slots in which its chunks begin. With these fixed, the slots have to carry
    what begins and ends within them, for each stretch of slots."""
    table, sums, most = sizes_by_chunk(job), brought(job), job.limit // job.span

    def asked(begun, first, last):
        return sum(table[i - 1][0] for i, b in begun.items() if first <= b and due(job, i) <= last)

    def room(begun):
        stretches = product(begun.values(), [due(job, i) for i in begun])
        return all(asked(begun, first, last) <= sums[last] - sums[first - 1] for first, last in stretches if first <= last)

    def begin(kept, begun):
        """From the last chunk down, each in every slot up to its due slot."""
        if not kept:
            return True
        *rest, i = kept
        for b in range(due(job, i), 0, -1):
            now = {**begun, i: b}
            held_at = [sum(at <= t < due(job, k) for k, at in now.items()) for t in range(b, due(job, i))]
            if max(held_at, default=0) <= most and room(now) and begin(rest, now):
                return True
        return False

    return any(begin(kept, {}) for kept in combinations(range(1, job.chunks + 1), count))


def plan_over(job, kept):
    """The plan over a set of bases: upper layers and rows in document 01's way."""
    levels = [int(i in kept) for i in range(1, job.chunks + 1)]
    for n in range(1, len(job.sizes)):
        for i in range(job.chunks, 0, -1):
            if levels[i - 1] == n:
                tried = levels[:]
                tried[i - 1] += 1
                if fits(job, tried):
                    levels = tried
    return levels, own_list(job, levels)


# ---- the same for large jobs, where trying every layer by a whole list takes too long

def sizes_by_chunk(job):
    """The bytes of each layer of each chunk, chunk 1 at 0."""
    table = [list(job.sizes) for _ in range(job.chunks)]
    for o in job.overrides:
        table[o.chunk - 1][o.layer] = o.bytes
    return table


def brought(job):
    """What the forecast brings up to each slot."""
    sums = [0]
    for b in job.forecast:
        sums.append(sums[-1] + b)
    return sums


def fits_fast(job, kept, sums):
    """Whether chunks, each with its bytes, can be fetched whole in playing order: each goes on
    where the one before ended, and not before the slot in which the one H places before it is
    due."""
    most, at = job.limit // job.span, 0
    for k, (i, need) in enumerate(kept):
        first = 1 if k < most else due(job, kept[k - most][0])
        at = max(at, sums[first - 1]) + need
        if at > sums[due(job, i)]:
            return False
    return True


def settle_fast(job, levels, layers, table, sums):
    """Layers from the given ones on, each from chunk C down to 1, beside what is settled."""
    for n in layers:
        for i in range(job.chunks, 0, -1):
            if levels[i - 1] == n:
                levels[i - 1] += 1
                if not fits_fast(job, [(k + 1, sum(table[k][:m])) for k, m in enumerate(levels) if m], sums):
                    levels[i - 1] -= 1
    return levels


def moore_hodgson_fast(job, table, sums):
    kept, held_bytes = [], 0
    for i in range(1, job.chunks + 1):
        kept.append(i)
        held_bytes += table[i - 1][0]
        if held_bytes > sums[due(job, i)]:
            k = max(kept, key=lambda k: (table[k - 1][0], -k))
            kept.remove(k)
            held_bytes -= table[k - 1][0]
    return kept


def plan_fast(job):
    table, sums = sizes_by_chunk(job), brought(job)
    levels, settled = [0] * job.chunks, 0
    if job.limit // job.span >= job.chunks and any(z[0] != job.sizes[0] for z in table):
        kept, settled = set(moore_hodgson_fast(job, table, sums)), 1
        levels = [int(i in kept) for i in range(1, job.chunks + 1)]
    levels = settle_fast(job, levels, range(settled, len(job.sizes)), table, sums)
    return levels, own_list_fast(job, levels, table)


def plan_over_fast(job, kept):
    table, sums = sizes_by_chunk(job), brought(job)
    levels = settle_fast(job, [int(i in kept) for i in range(1, job.chunks + 1)], range(1, len(job.sizes)), table, sums)
    return levels, own_list_fast(job, levels, table)


def bounds_fast(job):
    """Both bounds: in playing order, in any order. Rows of the last n chunks have n + 1 needs."""
    sums, most, bases = brought(job), job.limit // job.span, [z[0] for z in sizes_by_chunk(job)]
    every, none = sums[-1], sums[-1] + 1
    rows, any_row = [[0]], [0]
    for k in range(job.chunks, 0, -1):
        base, left, late = bases[k - 1], every - sums[due(job, k)], every - sums[due(job, k) - 1]
        following = rows[-1] + [none]
        row = [0] + [min(without, base + max(left, need)) for without, need in zip(following[1:], following)]
        if most:
            far = rows[-most] if most <= len(rows) else [0]
            allowed = most + largest(lambda c: far[c] <= late, len(far) - 1)
        else:
            allowed = largest(lambda c: row[c] <= late, len(row) - 1)
        rows.append(row[:allowed + 1] + following[allowed + 1:])
        following = any_row + [none]
        any_row = [0] + [min(without, base + max(left, need)) for without, need in zip(following[1:], following)]
        cut = most + largest(lambda c: any_row[c] <= late, len(any_row) - 1)
        any_row = [need if c <= cut else none for c, need in enumerate(any_row)]
    return tuple(largest(lambda c: row[c] <= every, job.chunks) for row in (rows[-1], any_row))


def own_list_fast(job, levels, table):
    """The own list: a chunk waits until fewer than H begun ones are still held at the slot's end,
    or it is due in the slot."""
    most, rows, begun_at = job.limit // job.span, [], []
    parts = [[i + 1, n, table[i][n]] for i, k in enumerate(levels) for n in range(k)][::-1]
    for t, left in enumerate(job.forecast, 1):
        begun_at = [i for i in begun_at if due(job, i) > t]
        while parts and left:
            i, n, lacking = parts[-1]
            if i not in begun_at and due(job, i) > t:
                if len(begun_at) >= most:
                    break
                begun_at.append(i)
            take = min(left, lacking)
            rows.append(Row(t, i, n, take))
            left -= take
            parts[-1][2] -= take
            if lacking == take:
                parts.pop()
    return rows


def verdict_fast(job, rows, marks, since=1):
    last, layers, table = due(job, job.chunks), len(job.sizes), sizes_by_chunk(job)
    if any(not (1 <= x.slot <= last and 1 <= x.chunk <= job.chunks and x.layer < layers and x.bytes >= 1) for x in rows):
        return 1
    got = [[0] * layers for _ in table]
    ends, spent, first = [[0] * layers for _ in table], [0] * (last + 1), {}
    for x in rows:
        got[x.chunk - 1][x.layer] += x.bytes
        ends[x.chunk - 1][x.layer] = max(ends[x.chunk - 1][x.layer], x.slot)
        spent[x.slot] += x.bytes
        first[x.chunk] = min(first.get(x.chunk, last), x.slot)
    for g, z, e in zip(got, table, ends):
        for a, b, slot in zip(g, z, e):
            if a > b or (0 < a < b and slot >= since):
                return 2
    whole = [[a == b for a, b in zip(g, z)] for g, z in zip(got, table)]
    if any(w[n] and not w[n - 1] for w in whole for n in range(1, layers)):
        return 3
    if any(spent[t] > job.forecast[t - 1] for t in range(1, last + 1)):
        return 4
    if any(x.slot > due(job, x.chunk) for x in rows):
        return 5
    change = [0] * (last + 2)
    for i, slot in first.items():
        change[slot] += 1
        change[due(job, i)] -= 1
    now = 0
    for t in range(1, last + 1):
        now += change[t]
        if now > job.limit // job.span:
            return 6
    return 0 if list(marks) == [sum(1 << n for n in range(layers) if w[n]) for w in whole] else 7


def listed(slots, chunks, layers, sizes):
    """The rows that four columns hand over: 8 for a row not handed whole."""
    if not len(slots) == len(chunks) == len(layers) == len(sizes):
        raise Refused(8)
    return [Row(*x) for x in zip(slots, chunks, layers, sizes)]


def book(job, marks, *columns):
    """Document 02, request 11: what booking a list leaves of its job's forecast."""
    check_job(job)
    rows = listed(*columns)
    if len(marks) != job.chunks:
        raise Refused(8)
    if verdict(job, rows, marks):
        raise Refused(19)
    return [has - sum(x.bytes for x in rows if x.slot == t) for t, has in enumerate(job.forecast, 1)]


def release(job, *columns):
    """The job's forecast with a list's bytes added back."""
    check_job(job)
    rows = listed(*columns)
    forecast = [has + sum(x.bytes for x in rows if x.slot == t) for t, has in enumerate(job.forecast, 1)]
    if any(not 1 <= x.slot <= len(forecast) for x in rows) or max(forecast) > 1 << 24:
        raise Refused(20)
    return forecast


def check_slot(job, p):
    if not 1 <= p <= due(job, job.chunks):
        raise Refused(21)


def check_from(job, p, marks, *columns):
    """Document 02, request 12: the second checker call."""
    check_job(job)
    rows = listed(*columns)
    if len(marks) != job.chunks:
        raise Refused(8)
    check_slot(job, p)
    return verdict(job, rows, marks, p)


def check_fetched(job, p, rows):
    """Refusal 22. Rows that are all before p break the second call's rule 2 only where a sum
    exceeds its size."""
    turn = all(begun(rows, y.chunk) <= x.slot for x in rows for y in rows if y.chunk < x.chunk)
    if verdict(job, rows, since=p) or not turn:
        raise Refused(22)


def whole_before(job, rows, i):
    """How many layers of chunk i are whole; by rule 3 the lowest ones."""
    return sum(carried(job, rows, i, n) for n in range(len(job.sizes)))


def settle_afresh(job, p, fetched, can):
    """Layers whole before p are carried; the others of chunks due from p on are settled as in
    document 01, each by `can`."""
    levels = [whole_before(job, fetched, i) for i in range(1, job.chunks + 1)]
    for n in range(len(job.sizes)):
        for i in range(job.chunks, 0, -1):
            if levels[i - 1] == n and due(job, i) >= p:
                tried = levels[:]
                tried[i - 1] += 1
                if can(tried):
                    levels = tried
    return levels


def replan(job, p, onward, *columns):
    """Document 02, request 12: the layers carried by each chunk, and the rows from p on."""
    check_job(job)
    rows = listed(*columns)
    check_slot(job, p)
    if any(x.slot >= p for x in rows):
        raise Refused(21)
    if any(b > 1 << 24 for b in onward) or len(onward) != due(job, job.chunks) - p + 1:
        raise Refused(7)
    job = job._replace(forecast=job.forecast[:p - 1] + list(onward))
    check_fetched(job, p, rows)
    levels = settle_afresh(job, p, rows, lambda tried: fits(job, tried, p, rows))
    return levels, own_list(job, levels, p, rows)


# ---- live: what to ask for next in slot p, from the rows fetched before it and a rate. What stands
# in quotes is the rule, as docs/LIVE.md has it.

Piece = namedtuple("Piece", "chunk layer bytes")


def is_open(job, p, rows, i):
    """The rule: "A chunk is open if it is due in p or later, and either it is begun or no chunk
    after it is"."""
    is_begun = any(x.chunk == i for x in rows)
    return due(job, i) >= p and (is_begun or not any(x.chunk > i for x in rows))


def remaining(job, rows, i, n):
    """A layer's bytes not yet fetched."""
    return size(job, i, n) - layer_sum(rows, i, n)


def missing(job, rows, i):
    """The rule: "the base's bytes not yet fetched"."""
    return remaining(job, rows, i, 0)


def rate_brings(job, p, rate, i):
    return rate * (due(job, i) - p + 1)


def in_time(job, p, rows, rate, i):
    """The rule: "missing(i) ≤ r × (d(i) − p + 1)"."""
    return missing(job, rows, i) <= rate_brings(job, p, rate, i)


def passed_over(job, p, rows, rate):
    """The rule: "Let k be the first open chunk with missing bytes. If k is not in time, let j be
    the first of the next H open chunks that has missing bytes and is in time. If there is one, and
    it would not be in time behind k, the open chunks from k to before j that have missing bytes are
    passed over in this slot. Else none is"."""
    opened = [i for i in range(1, job.chunks + 1) if is_open(job, p, rows, i)]
    lacking = [i for i in opened if missing(job, rows, i) > 0]
    if not lacking or in_time(job, p, rows, rate, lacking[0]):
        return []
    k = lacking[0]
    next_open = [i for i in opened if i > k][:job.limit // job.span]
    could_come = [i for i in next_open if missing(job, rows, i) > 0 and in_time(job, p, rows, rate, i)]
    if not could_come:
        return []
    j = could_come[0]
    if missing(job, rows, k) + missing(job, rows, j) <= rate_brings(job, p, rate, j):
        return []
    return [i for i in lacking if k <= i < j]


def asked(job, p, rows, rate):
    """The rule: "Asked are the open chunks that are not passed over, in playing order, as many as
    rule 6 allows at the end of p beside all that are begun". Rule 6 is asked of the rows with a
    byte of each in slot p."""
    over, chunks, now = passed_over(job, p, rows, rate), [], list(rows)
    for i in range(1, job.chunks + 1):
        if is_open(job, p, rows, i) and i not in over:
            then = now + [Row(p, i, 0, 1)]
            if held(job, then, p) <= job.limit // job.span:
                chunks, now = chunks + [i], then
    return chunks


def asks(job, p, rows, rate):
    """The rule: "for each layer from the base up, for each asked chunk in playing order, the
    layer's bytes not yet fetched"."""
    chunks = asked(job, p, rows, rate)
    pieces = [Piece(i, n, remaining(job, rows, i, n)) for n in range(len(job.sizes)) for i in chunks]
    return [x for x in pieces if x.bytes > 0]


def taken(p, pieces, x):
    """The rows that the first x bytes of the asks make in slot p."""
    rows = []
    for piece in pieces:
        if x > 0:
            rows.append(Row(p, piece.chunk, piece.layer, min(x, piece.bytes)))
            x -= piece.bytes
    return rows


def live(job, p, rate, *columns):
    """The asks, after the checks of planning afresh, in their order. The job's forecast says what
    the slots before p could carry, and is not used from p on."""
    check_job(job)
    rows = listed(*columns)
    check_slot(job, p)
    if any(x.slot >= p for x in rows):
        raise Refused(21)
    check_fetched(job, p, rows)
    return asks(job, p, rows, rate)


def live_fast(job, p, rate, *columns):
    """The same for large jobs, by tables of the rows."""
    check_job(job)
    rows = listed(*columns)
    check_slot(job, p)
    if any(x.slot >= p for x in rows):
        raise Refused(21)
    left, first, most = sizes_by_chunk(job), {}, job.limit // job.span
    for x in rows:
        if 1 <= x.chunk <= job.chunks and x.layer < len(job.sizes):
            left[x.chunk - 1][x.layer] -= x.bytes
        first[x.chunk] = min(first.get(x.chunk, x.slot), x.slot)
    marks = [sum(1 << n for n, bytes in enumerate(z) if bytes == 0) for z in left]
    turns = [first[i] for i in sorted(first)]
    if verdict_fast(job, rows, marks, p) or turns != sorted(turns):
        raise Refused(22)
    last = max(first, default=0)
    opened = [i for i in range(1, job.chunks + 1) if due(job, i) >= p and (i in first or i > last)]
    lacking = [i for i in opened if left[i - 1][0]]
    late = [i for i in lacking if left[i - 1][0] > rate * (due(job, i) - p + 1)]
    over = set()
    if late and late[0] == lacking[0]:
        k = lacking[0]
        near = set(opened[opened.index(k) + 1:][:most])
        j = next((i for i in lacking if i in near and i not in late), None)
        if j and left[k - 1][0] + left[j - 1][0] > rate * (due(job, j) - p + 1):
            over = {i for i in lacking if k <= i < j}
    room, chunks = most - sum(due(job, i) > p for i in first), []
    for i in opened:
        if i not in over:
            fresh = i not in first and due(job, i) > p
            if not fresh or room > 0:
                chunks.append(i)
                room -= fresh
    return [Piece(i, n, left[i - 1][n]) for n in range(len(job.sizes)) for i in chunks if left[i - 1][n]]
