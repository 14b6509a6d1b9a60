"""Job A of document 01 with its plan, as every test that uses it takes it."""
from reference import Job, Override, ft, kp

JOB_A = Job(3, 2, 2, 2, [2, 1], [], [3, 0, 1, 0, 2, 0])
MARKS_A = [0, 3, 1]
ROWS_A = [(1, 2, 0, 2), (1, 2, 1, 1), (5, 3, 0, 2)]

# The same film with two SZs.
UNEVEN_A = JOB_A._replace(overrides=[Override(2, 1, 2), Override(3, 0, 1)])


def columns(rows):
    """Rows as the four slices of a call."""
    return [list(c) for c in zip(*rows)] if rows else [[], [], [], []]


def plan_file(marks, rows):
    return b"".join(kp(i + 1, m) for i, m in enumerate(marks)) + b"".join(ft(*row) for row in rows) + b"EN"
