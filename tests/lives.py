"""What to fetch next once more: what the program `test_live` has to print, by `reference.py`, whose
reading of the rule is literal. Every list of a family of small films, in half a minute."""
from itertools import combinations_with_replacement
from reference import Job, Override, Refused, Row, asks, check_fetched, due, layer_sum, size, taken
from printing import printed_by

# Sizes by chunk: equal chunks of one layer, uneven ones, equal chunks of two layers, uneven ones.
KINDS = [[[2]] * 3, [[3]] * 3, [[1], [3], [1]], [[3], [2], [1]], [[2, 1]] * 3, [[1, 2]] * 3, [[3, 1]] * 3, [[1, 1], [3, 1], [2, 1]]]
RATES = (0, 1, 2, 3, (1 << 32) - 1)
MODULUS = 2**31 - 1


def films():
    """The numbered films. Each slot carries 2 bytes."""
    for k in range(384):
        chunks, sizes = 2 + k % 2, KINDS[k // 48]
        sz = [Override(i, n, z) for i in range(2, chunks + 1) for n, z in enumerate(sizes[i - 1]) if z != sizes[0][n]]
        job = Job(chunks, 1 + k // 2 % 2, 1 + k // 4 % 3, k // 12 % 4, sizes[0], sz, None)
        if due(job, chunks) <= 4:
            yield k, job._replace(forecast=[2] * due(job, chunks))


def fetched_lists(job, p):
    """Each list of bytes before p, at most two a slot, none late and no layer of more than its
    size; with its word."""
    parts = [(i, n) for i in range(1, job.chunks + 1) for n in range(len(job.sizes))]
    one_slot = [()] + [(a,) for a in parts] + list(combinations_with_replacement(parts, 2))

    def more(t, rows, word):
        if t == p:
            yield rows, word
            return
        for took in one_slot:
            now = rows + [Row(t, i, n, 1) for i, n in took]
            if all(t <= due(job, i) and layer_sum(now, i, n) <= size(job, i, n) for i, n in took):
                cells = [0] * (2 - len(took)) + [2 * i + n - 1 for i, n in took]
                yield from more(t + 1, now, word + (cells[0] + 8 * cells[1]) * 64**(t - 1))
    return more(1, [], 0)


def checksum(numbers):
    total = 0
    for x in numbers:
        total = (total * 31 + x) % MODULUS
    return total


def of_answer(case, said, pieces):
    """What is lent, room for 7 pieces, holds 9s."""
    lent = list(pieces) + [(9, 9, 9)] * (7 - len(pieces))
    return checksum(case + [said] + [x for piece in lent for x in piece])


def accepted(job, p, rows):
    try:
        check_fetched(job, p, rows)
    except Refused:
        return False
    return True


def family():
    count = dict.fromkeys("films lists refused asks none pieces fewer sum taken accepted".split(), 0)
    for k, job in films():
        last = due(job, job.chunks)
        count["films"] += 1
        for p in range(1, last + 1):
            for rows, word in fetched_lists(job, p):
                count["lists"] += 1
                if not accepted(job, p, rows):
                    count["refused"] += 1
                    count["sum"] += of_answer([k, p, word, RATES[0]], 1022, [])
                    continue
                most = len(asks(job, p, rows, RATES[-1]))
                for rate in RATES:
                    pieces = asks(job, p, rows, rate)
                    count["asks"] += 1
                    count["none"] += not pieces
                    count["pieces"] += len(pieces)
                    count["fewer"] += len(pieces) < most
                    count["sum"] += of_answer([k, p, word, rate], len(pieces), pieces)
                    for x in range(3) if p < last else ():
                        count["taken"] += 1
                        count["accepted"] += accepted(job, p + 1, rows + taken(p, pieces, x))
    count["sum"] %= MODULUS
    count["turned"] = count["refused"] + count["asks"]
    print("films; lists of rows fetched; refused by 22: {films} {lists} {refused}".format(**count))
    print("asks; of nothing; pieces; asks of fewer pieces than at the largest rate: {asks} {none} {pieces} {fewer}".format(**count))
    print("the same with the rows in another order; checksum over all answers: {turned} {sum}".format(**count))
    print("first bytes of the asks as rows; that the next slot accepts: {taken} {accepted}".format(**count))


PROGRAMS = {"test_live": lambda: {"stdout": printed_by(family)}}
