"""Two films on one link once more, by `reference.py`: what the program `test_booking` has to
print."""
from reference import Job, Override, Refused, Row, book, plan, release, verdict
from jobs import JOB_A, MARKS_A, ROWS_A, columns
from printing import printed_by


def answer(call, *args):
    """What a call says, and the forecast afterwards."""
    try:
        return "done", call(*args)
    except Refused as r:
        return f"refused {r.number}", args[0].forecast


def tell(text, said, forecast):
    print(f"{text}: {said}, then {' '.join(map(str, forecast))}")


# ---- two films

MAIN = Job(3, 2, 2, 2, [3, 1], [], None)
SAFETY = Job(6, 1, 1, 2, [1, 1], [Override(3, 1, 2), Override(5, 1, 3)], None)
FIRST = [5, 4, 2, 6, 3, 4]


class Link:
    def __init__(self, forecast):
        self.forecast = forecast

    def act(self, name, film, planned, how):
        """The film's plan on a forecast, then checked, booked or released on the link's."""
        levels, rows = plan(film._replace(forecast=planned))
        marks = [(1 << k) - 1 for k in levels]
        now = film._replace(forecast=self.forecast)
        if how == "checked":
            said = f"verdict {verdict(now, rows, marks)}"
        elif how == "booked":
            said, self.forecast = answer(book, now, marks, *columns(rows))
        else:
            said, self.forecast = answer(release, now, *columns(rows))
        tell(f"{name} of {len(rows)} rows {how}", said, self.forecast)


def together():
    link = Link(FIRST)
    main = ("main film", MAIN, FIRST)
    for how in ("checked", "booked", "checked"):
        link.act(*main, how)
    safety = ("safety film", SAFETY, link.forecast)
    for how in ("checked", "booked", "checked"):
        link.act(*safety, how)
    link.act(*main, "booked")
    link.act(*main, "released")
    link.act(*safety, "released")
    print("the other way round")
    link.act(*safety, "booked")
    link.act(*main, "booked")
    link.act(*safety, "released")
    link.act(*main, "released")


# ---- 19 and 20 on job A

def booked(marks, rows):
    tell(f"{len(rows)} rows of verdict {verdict(JOB_A, [Row(*x) for x in rows], marks)}", *answer(book, JOB_A, marks, *columns(rows)))


def released(text, rows):
    tell(text, *answer(release, JOB_A, *columns(rows)))


def nineteen():
    booked(MARKS_A, ROWS_A)
    booked([0, 0, 0], [])
    booked([0, 0, 0], [(0, 2, 0, 2)])
    booked([0, 0, 0], [(1, 2, 0, 1)])
    booked([0, 2, 0], [(1, 2, 1, 1)])
    booked([0, 0, 1], [(3, 3, 0, 2)])
    booked([0, 1, 0], [(5, 2, 0, 2)])
    booked([0, 3, 1], [(1, 2, 0, 2), (1, 2, 1, 1), (3, 3, 0, 1), (5, 3, 0, 1)])
    booked([0, 3, 3], ROWS_A)


def twenty():
    released("no rows", [])
    released("no rule is asked", [(1, 9, 9, 0), (6, 0, 255, 5)])
    released("a list never booked", ROWS_A + [(6, 1, 0, 5)])
    released("a slot that isn't there after others", ROWS_A + [(7, 1, 0, 5)])
    released("slot 0", [(0, 1, 0, 0)])
    released("slot 7", [(7, 1, 0, 0)])
    released("slot 65535", [(65535, 1, 0, 1)])
    released("16777216 bytes in slot 1", [(1, 1, 0, 16777213)])
    released("a byte more", [(1, 1, 0, 16777214)])
    released("16777216 bytes in slot 2", [(2, 1, 0, 8388608), (1, 1, 0, 1), (2, 1, 0, 8388608)])
    released("a byte more", [(2, 1, 0, 8388608), (1, 1, 0, 1), (2, 1, 0, 8388609)])
    released("more than 32 bits", [(6, 1, 0, 4294967295), (1, 1, 0, 1), (6, 1, 0, 4294967295)])


# ---- the order of the refusals

def both(text, chunks=3, layers=2, sz=(), slots=6, marks=3, ends=(1, 1, 1)):
    """A row in slot 7, for 19 and 20, in a job A of other lengths; ends says how many of the row's
    other fields are handed."""
    job = JOB_A._replace(chunks=chunks, sizes=[2, 1][:layers], overrides=[Override(*o) for o in sz], forecast=JOB_A.forecast[:slots])
    row = [[7], [2][:ends[0]], [0][:ends[1]], [2][:ends[2]]]
    said = [answer(book, job, [0, 1, 0][:marks], *row)[0], answer(release, job, *row)[0]]
    print(f"{text}: {', '.join(said)}")


def order():
    every = dict(sz=[(1, 0, 1)], slots=5, marks=2, ends=(0, 1, 1))
    both("5 first", chunks=501, layers=0, **every)
    both("then 6", layers=0, **every)
    both("then 18", **every)
    both("then 7", **dict(every, sz=()))
    both("then 8", **dict(every, sz=(), slots=6))
    both("8 for a layer", ends=(1, 0, 1))
    both("8 for bytes", ends=(1, 1, 0))
    both("8 for a mark in booking alone", marks=2)
    both("then 19 and 20")


PROGRAMS = {"test_booking": lambda: {"stdout": printed_by(together, nineteen, twenty, order)}}
