"""What the modules that make expected outputs share."""
import contextlib
import io
import os

HERE = os.path.dirname(os.path.abspath(__file__))


def printed_by(*functions):
    """What the functions print, one after the other."""
    out = io.StringIO()
    with contextlib.redirect_stdout(out):
        for each in functions:
            each()
    return out.getvalue().encode()


def by_hand(program):
    """The lines of a program that nothing computes: they were written from the papers."""
    with open(os.path.join(HERE, "by_hand", f"{program}.txt"), "rb") as f:
        return f.read()


def cases_page(program, made_by, cases):
    """The page that says what each case file is: its name and what the case is."""
    lines = "".join(f"- {name}: {what}\n" for name, what in cases)
    return f"# The case files of {program}\n\nMade by {made_by}\n\n{lines}".encode()
