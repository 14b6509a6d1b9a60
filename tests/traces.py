"""The case files of the program `test_trace` and what it has to print: for the case files from
`reference.py`, for the other calls from by_hand/test_trace.txt."""
from reference import Refused, read_trace, write_trace
from printing import by_hand, cases_page

# (what the case is, its bytes). All are read for three slots.
CASES = [
    ("the empty trace", b""),
    ("1 to 7 digits, leading zeros", b"1\n02\n003\n0004\n00005\n000006\n0000007\n"),
    ("8 digits", b"00000001\n"),
    ("9 digits", b"000000001\n"),
    ("the largest time", b"9999999\n"),
    ("no line feed at the end", b"1\n2"),
    ("seven digits and no line feed", b"1234567"),
    ("a line feed alone", b"\n"),
    ("an empty line between two", b"1\n\n2\n"),
    ("an empty line at the end", b"1\n\n"),
    ("a carriage return", b"1\r\n2\r\n"),
    ("a space before the digits", b" 1\n"),
    ("a space after the digits", b"1 \n"),
    ("a sign", b"+1\n"),
    ("the byte before 0", b"/\n"),
    ("the byte after 9", b":\n"),
    ("a letter", b"1a\n"),
    ("the byte 255", b"1\n\xff\n"),
    ("the byte 0 for a line feed", b"1\0"),
    ("a falling time", b"1\n2\n1\n"),
    ("a falling time within a slot border", b"1000\n999\n"),
    ("a falling time behind leading zeros", b"10\n0000009\n"),
    ("equal times", b"1500\n1500\n001500\n"),
    ("times at the slots' borders", b"0\n999\n1000\n1999\n2000\n2999\n"),
    ("times past the slots asked for", b"2999\n3000\n3001\n3600000\n9999999\n"),
    ("a slot without lines", b"0\n2000\n2001\n"),
    ("11,184 lines in slot 1", b"0\n" * 11184),
    ("11,184 lines in slot 3", b"2999\n" * 11184),
    ("11,185 lines past the slots asked for", b"3000\n" * 11185),
    ("11,185 lines in slot 1", b"0\n" * 11185),
    ("11,185 lines in slot 3", b"2000\n" * 11185),
    ("a later line with another byte", b"0\n3000\n3x\n"),
    ("a later line of 8 digits", b"0\n3000\n00003001\n"),
    ("a later empty line", b"0\n5000\n\n"),
    ("a later line without its line feed", b"0\n5000"),
    ("a later time that falls", b"0\n5000\n4999\n"),
    ("a later time that falls into slot 1", b"0\n5000\n1\n"),
    ("14 before 15", b"0\n" * 11185 + b"x\n"),
    ("14 before 15, a later line", b"0\n" * 11185 + b"3000\n2999\n"),
]


def line(data):
    try:
        forecast = read_trace(data, 3)
    except Refused as r:
        return f"refused {r.number}, then 9 9 9 9"
    return f"written {len(write_trace(forecast))}, then {' '.join(map(str, forecast))} 9"


def files():
    names = [f"t{k:02d}" for k in range(len(CASES))]
    lines = "".join(f"{name} {line(data)}\n" for name, (_, data) in zip(names, CASES))
    made = {f"data/{name}": data for name, (_, data) in zip(names, CASES)}
    made["stdout"] = lines.encode() + by_hand("test_trace")
    made["CASES.md"] = cases_page("test_trace", "tests/traces.py: traces, read for three slots.", zip(names, (what for what, _ in CASES)))
    return made


PROGRAMS = {"test_trace": files}
