"""The built programs on case files, damaged, truncated and oversized files, random small jobs and
random mixed files; every output is compared with `reference.py` and `reasons.py`. Run it at the
root of the repository after `rt run` in the folders of `film_plan`, `film_report`, `film_verdict`,
`film_convert` and `film_reasons`: python3 tests/try_programs.py [FOLDER OF THE PROGRAMS]"""
import glob
import os
import random
import subprocess
import sys
import tempfile

from reference import Job, Override, Refused, bw, convert, ly, marks_given, pg, plan, read_job, read_plan, report, verdict, write_job
from jobs import JOB_A, UNEVEN_A, plan_file
from reasons import reasons

# Where rt leaves a program, or a folder that has them all.
BIN = os.path.abspath(sys.argv[1] + "/{0}" if sys.argv[1:] else "crates/{0}/out/{0}")
A, U = write_job(JOB_A), write_job(UNEVEN_A)


def run(program, data=b"", folder=None):
    return subprocess.run([BIN.format(program)], input=data, stdout=subprocess.PIPE, cwd=folder).stdout


def planned(job):
    _, rows = plan(job)
    return plan_file(marks_given(job, rows), rows)


def damaged(data):
    data = bytearray(data)
    for _ in range(random.randint(1, 3)):
        kind = random.random()
        if kind < 0.4 and data:
            data[random.randrange(len(data))] = random.randrange(256)
        elif kind < 0.7:
            data = data[:random.randrange(len(data) + 1)]
        else:
            data += bytes(random.randrange(256) for _ in range(random.randint(0, 5)))
    return bytes(data)


def random_overrides(chunks, sizes):
    spots = [(i, n) for i in range(2, chunks + 1) for n in range(len(sizes)) if random.random() < 0.3]
    return [Override(i, n, z) for i, n in spots for z in [random.randint(1, 9)] if z != sizes[n]]


def random_job(uneven=True):
    """Of uneven chunks in about half the cases, or never."""
    chunks, span, delay = random.randint(1, 6), random.randint(1, 4), random.randint(1, 6)
    sizes = [random.randint(1, 9) for _ in range(random.randint(1, 4))]
    last = (chunks - 1) * span + delay
    overrides = random_overrides(chunks, sizes) if uneven and random.random() < 0.6 else []
    return Job(chunks, span, delay, random.randint(0, 12), sizes, overrides, [random.choice([0, 0, 1, 2, 5, 9]) for _ in range(last)])


def mixed_file(job):
    """A file that says the job, which has no SZ: runs split anywhere, PG anywhere, LYs and BWs
    mixed."""
    layers, runs, k = [ly(z) for z in job.sizes], [], 0
    while k < len(job.forecast):
        n = random.randint(1, 3)
        n = n if job.forecast[k:k + n] == [job.forecast[k]] * n else 1
        runs.append(bw(n, job.forecast[k]))
        k += n
    out = []
    while layers or runs:
        out.append((layers if not runs or layers and random.random() < 0.5 else runs).pop(0))
    out.insert(random.randint(0, len(out)), pg(job.chunks, job.span, job.delay, job.limit))
    return b"".join(out) + b"EN"


def try_convert():
    mixed = [mixed_file(random_job(False)) for _ in range(300)]
    cases = [open(f, "rb").read() for f in sorted(glob.glob("crates/test_files/data/j*"))]
    cases += mixed + [damaged(m) for m in mixed] + [write_job(random_job()) for _ in range(100)]
    cases += [mixed[0][:k] for k in range(len(mixed[0]))] + [bytes(65536), bytes(65537), mixed[0] + bytes(200000), b"\xff" * 1000000]
    refused = 0
    for data in cases:
        try:
            wanted = convert(data)
        except Refused as r:
            wanted = b"refused %d\n" % r.number
            refused += 1
        else:
            assert read_job(wanted) == read_job(data, mixed=True) and run("film_convert", wanted) == wanted, data[:80]
        assert run("film_convert", data) == wanted, data[:80]
    print(len(cases), "inputs of film_convert,", refused, "of them refused")


def try_jobs():
    cases = [open(f, "rb").read() for f in sorted(glob.glob("crates/test_files/data/j*"))]
    cases += [damaged(A) for _ in range(300)] + [damaged(U) for _ in range(300)] + [write_job(random_job()) for _ in range(400)]
    cases += [mixed_file(random_job(False)) for _ in range(100)]
    cases += [bytes(65536), bytes(65537), A + bytes(200000), b"\xff" * 1000000]
    tried = 0
    for data in cases:
        try:
            job = read_job(data)
        except Refused as r:
            wanted = (b"refused %d\n" % r.number,) * 2
        else:
            if job.chunks > 20:
                continue
            wanted = planned(job), report(job).encode()
        assert (run("film_plan", data), run("film_report", data)) == wanted, data[:80]
        tried += 1
    print(tried, "inputs of film_plan and film_report")


def try_reasons():
    cases = [write_job(random_job()) for _ in range(1000)] + [damaged(U) for _ in range(200)] + [bytes(65537)]
    lines = 0
    for data in cases:
        try:
            wanted = reasons(read_job(data)).encode()
        except Refused as r:
            wanted = b"refused %d\n" % r.number
        assert run("film_reasons", data) == wanted, data[:80]
        lines += wanted.count(b"slots")
    print(len(cases), "inputs of film_reasons,", lines, "stretches")


def try_verdicts():
    plans = [open(f, "rb").read() for f in sorted(glob.glob("crates/test_files/data/p*"))] + [bytes(65537), bytes(300000)]
    tried = 0
    with tempfile.TemporaryDirectory() as folder:
        assert run("film_verdict", folder=folder) == b"refused 1\n"
        for job_data in (A, U, b"", b"XX", A + b"\0", bytes(65537)):
            for plan_data in plans:
                for name, data in (("job", job_data), ("plan", plan_data)):
                    with open(f"{folder}/{name}", "wb") as f:
                        f.write(data)
                try:
                    job = read_job(job_data)
                    marks, rows = read_plan(job, plan_data)
                    wanted = b"verdict %d\n" % verdict(job, rows, marks)
                except Refused as r:
                    wanted = b"refused %d\n" % r.number
                assert run("film_verdict", folder=folder) == wanted, (job_data[:80], plan_data[:80])
                tried += 1
    print(tried, "pairs of files of film_verdict")


random.seed(7)
try_jobs()
try_reasons()
try_verdicts()
try_convert()
