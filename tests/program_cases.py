"""What the programs read and print. `test_programs`: each program's function on jobs that are
refused, uneven, mixed, too long or not there, and verdicts other than 0. The five programs
themselves, on job A, which `film_convert` is handed as a mixed file. By the reading of the papers in
`reference.py` and `reasons.py`."""
from reference import Refused, bw, convert, ly, marks_given, pg, plan, read_job, read_plan, report, verdict, write_job
from jobs import JOB_A, MARKS_A, ROWS_A, UNEVEN_A, plan_file
from printing import cases_page
from reasons import reasons

MIXED = bw(1, 3) + ly(2) + bw(1, 0) + bw(1, 1) + pg(3, 2, 2, 2) + bw(1, 0) + ly(1) + bw(1, 2) + bw(1, 0) + b"EN"

JOBS = [
    ("job_a", "job A", write_job(JOB_A)),
    ("job_uneven", "job A with two SZs", write_job(UNEVEN_A)),
    ("job_mixed", "job A with PG among the others, LY and BW mixed", MIXED),
    ("job_501", "501 chunks", pg(501, 1, 1, 0) + ly(1) + b"EN"),
    ("job_short", "job A without the last byte", write_job(JOB_A)[:-1]),
    ("job_long", "job A and zeros, 65,537 bytes", write_job(JOB_A).ljust(65537, b"\0")),
    ("job_missing", "no such file", None),
]
PLANS = [
    ("plan_a", "A's plan", plan_file(MARKS_A, ROWS_A)),
    ("plan_split", "A's plan with its last row split: rule 6", plan_file(MARKS_A, ROWS_A[:2] + [(3, 3, 0, 1), (5, 3, 0, 1)])),
    ("plan_marks", "A's rows with other marks: rule 7", plan_file([0, 3, 3], ROWS_A)),
    ("plan_short", "A's plan without its last byte", plan_file(MARKS_A, ROWS_A)[:-1]),
    ("plan_long", "A's plan and zeros, 65,537 bytes", plan_file(MARKS_A, ROWS_A).ljust(65537, b"\0")),
    ("plan_missing", "no such file", None),
]
PAIRS = [
    ("job_a", "plan_a"), ("job_a", "plan_split"), ("job_a", "plan_marks"), ("job_uneven", "plan_a"), ("job_a", "plan_short"),
    ("job_a", "plan_long"), ("job_a", "plan_missing"), ("job_501", "plan_short"), ("job_missing", "plan_a"),
]


def or_refused(made):
    try:
        return made()
    except Refused as r:
        return b"refused %d\n" % r.number


def planned(data):
    job = read_job(data)
    _, rows = plan(job)
    return plan_file(marks_given(job, rows), rows)


def judged(job_data, plan_data):
    job = read_job(job_data)
    marks, rows = read_plan(job, plan_data)
    return b"verdict %d\n" % verdict(job, rows, marks)


def printed():
    """What the program writes."""
    out = b""
    for name, _, data in JOBS:
        data = data or b""
        out += name.encode() + b"\n"
        out += b"plan\n" + or_refused(lambda: planned(data))
        out += b"report\n" + or_refused(lambda: report(read_job(data)).encode())
        out += b"reasons\n" + or_refused(lambda: reasons(read_job(data)).encode())
        out += b"convert\n" + or_refused(lambda: convert(data))
    bytes_of = {name: data or b"" for name, _, data in JOBS + PLANS}
    for job, plan_name in PAIRS:
        out += f"{job} {plan_name} ".encode() + or_refused(lambda: judged(bytes_of[job], bytes_of[plan_name]))
    return out


def files():
    made = {f"data/{name}": data for name, _, data in JOBS + PLANS if data is not None}
    made["stdout"] = printed()
    made["CASES.md"] = cases_page("test_programs", "tests/program_cases.py.", ((name, what) for name, what, _ in JOBS + PLANS))
    return made


A_FILE, A_PLAN = write_job(JOB_A), plan_file(MARKS_A, ROWS_A)

# Another mixing than `MIXED`.
A_MIXED = ly(2) + bw(1, 3) + bw(1, 0) + ly(1) + bw(1, 1) + pg(3, 2, 2, 2) + bw(1, 0) + bw(1, 2) + bw(1, 0) + b"EN"

PROGRAMS = {
    "test_programs": files,
    "film_plan": lambda: {"stdin": A_FILE, "stdout": planned(A_FILE)},
    "film_verdict": lambda: {"data/job": A_FILE, "data/plan": A_PLAN, "stdout": judged(A_FILE, A_PLAN)},
    "film_report": lambda: {"stdin": A_FILE, "stdout": report(JOB_A).encode()},
    "film_reasons": lambda: {"stdin": A_FILE, "stdout": reasons(JOB_A).encode()},
    "film_convert": lambda: {"stdin": A_MIXED, "stdout": convert(A_MIXED)},
}
