"""The shortest wait once more: what the program `test_wait` has to print. Its single cases are
written by hand (by_hand/test_wait.txt), its family of films is counted by `reference.py`'s plan for
every s."""
from itertools import product
from reference import Job, plan
from printing import by_hand, printed_by


def family():
    names = ["films", "none_held", "worse", "first", "later", "last", "none_works", "too_short"]
    count = dict.fromkeys(names, 0)
    for slots in range(1, 6):
        for chunks, span, limit, size in product((1, 2, 3), (1, 2), range(4), (1, 2)):
            for forecast in product(range(3), repeat=slots):
                works = []
                for s in range(1, slots - (chunks - 1) * span + 1):
                    last = (chunks - 1) * span + s
                    works.append(all(plan(Job(chunks, span, s, limit, [size], [], list(forecast[:last])))[0]))
                s = works.index(True) + 1 if any(works) else 0
                count["films"] += 1
                count["none_held"] += limit // span == 0
                count["worse"] += s > 0 and not all(works[s:])
                count["first"] += s == 1
                count["later"] += s > 1
                count["last"] += 0 < s == len(works)
                count["none_works"] += s == 0 and len(works) > 0
                count["too_short"] += not works
    print("films {films} with H 0 {none_held} a longer wait worse {worse}".format(**count))
    print("the first s {first} a later one {later} the last within the forecast {last} none works {none_works} too short for s = 1 {too_short}".format(**count))
    print("the same answer by plans {films}".format(**count))


PROGRAMS = {"test_wait": lambda: {"stdout": by_hand("test_wait") + printed_by(family)}}
