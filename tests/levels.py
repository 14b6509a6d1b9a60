"""A program by `rt try`, without any proof: compiled with all that the compiler assumes checked, and
interpreted too where the interpreter knows every function that the program calls. What it writes is
compared with its file stdout. It is evidence on the back end, which no proof covers. The gate has
more of it: rt ci runs each program as LLVM builds it and as Rattle's own compiler does.

rt ends an interpreted run after twenty million steps, and a compiled one after some minutes. A run
that is cut short so is not wrong if all that it wrote until then is what is expected.
Run it at the root of the repository: python3 tests/levels.py PROGRAM.."""
import os
import re
import subprocess
import sys

SECONDS = 300
# rt try's status where no run came to an end.
CUT = 6


def read(path):
    if not os.path.exists(path):
        return b""
    with open(path, "rb") as f:
        return f.read()


def tried(program):
    """Says how the runs ended; whether what was written is right."""
    folder = f"crates/{program}"
    data = sorted(os.listdir(f"{folder}/data")) if os.path.isdir(f"{folder}/data") else []
    words = ["rt", "try", "--seconds", str(SECONDS)] + [word for name in data for word in ("--data", f"{name}=data/{name}")]
    ran = subprocess.run(words, cwd=folder, input=read(f"{folder}/stdin"), stdout=subprocess.PIPE, stderr=subprocess.PIPE)
    said, wanted = ran.stderr.decode(errors="replace"), read(f"{folder}/stdout")
    runners = re.search(r" runners=(\d)", said)
    if ran.stdout == wanted and ran.returncode == int(read(f"{folder}/status") or 0):
        print(f"{program}: as expected, {'interpreted and compiled' if runners and runners[1] == '2' else 'compiled'}")
        return True
    if ran.returncode == CUT and wanted.startswith(ran.stdout):
        print(f"{program}: cut at {len(ran.stdout)} bytes: none came to the end, so the gate's run is the evidence")
        return True
    print(said)
    at = next((k for k, (a, b) in enumerate(zip(ran.stdout, wanted)) if a != b), min(len(ran.stdout), len(wanted)))
    print(f"{program}: NOT as expected: status {ran.returncode}, differs at byte {at} of {len(wanted)}")
    return False


right = [tried(program) for program in sys.argv[1:]]
sys.exit(not all(right))
