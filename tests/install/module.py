"""Tests of the installed Python module: python3 module.py NAME .., a line `NAME: True` for each that holds.

Or prints what is compared: python3 module.py listing FILE, python3 module.py texts.
"""
import sys

import hall

SITE_VOTES = [1000, 0, 5, 0, 0, 0, 0, 0]


def refused(number, call, *words):
    """Whether a call is refused with a number, and says so with its text."""
    try:
        call(*words)
    except hall.Refused as refusal:
        return refusal.number == number and str(refusal).startswith(f"refused {number}: ")
    return False


def raises(fault, call, *words):
    try:
        call(*words)
    except fault:
        return True
    return False


def version():
    return hall.version() == hall.VERSION and hall.LENGTH == len(bytes(hall.Hall(8)))


def delivery():
    """A value is delivered at all recorders; the answers are those of the words."""
    one = hall.Hall(3, founders=0b111)
    done = one.step(hall.SUBMIT, 3, 2**32 - 1)
    steps = one.settle()
    pages = [one.page(r, 1) for r in (1, 2, 3)]
    return (len(done) == hall.WORDS and not any(done) and steps == 15 and one.settle() == 0 and
            all(page["report"] == 2 and page["value"] == 2**32 - 1 and page["label_sender"] == 3 for page in pages))


def answers():
    one = hall.Hall(1)
    for kind, a in ((hall.SUBMIT, 700), (hall.LABEL, 0), (hall.SEND_ENTRY, 0), (hall.PLACE, 1), (hall.RECEIVE, 0),
                    (hall.SAFE, 0), (hall.CONFIRM, 0)):
        one.step(kind, 1, a)
    given = one.step(hall.DELIVER, 1)
    return (given[hall.ANSWER_CASE] == hall.CASE_FROM and given[hall.FROM_SENDER] == 1 and
            given[hall.FROM_VALUE] == 700 and refused(38, one.step, hall.DELIVER, 1))


def margins():
    """Margins are signed; a row of votes is taken, a wrong one refused."""
    built_in, own = hall.Hall(3), hall.Hall(3, 0b100, SITE_VOTES)
    return (built_in.page(1)["margin"] == 0 and built_in.page(2)["margin"] == -4 and
            own.page(3)["margin"] == -995 and refused(41, hall.Hall, 3, 0, [0] * 8) and
            raises(ValueError, hall.Hall, 3, 0, [1, 1, 1]))


def refusals():
    """A refused call changes nothing. A number that is no word is no call."""
    one = hall.Hall(2)
    before = bytes(one)
    return (refused(11, one.step, 12) and refused(12, one.step, hall.LABEL, 3) and refused(12, one.page, 0) and
            refused(16, hall.Hall, 9) and refused(16, hall.Hall, 0) and
            raises(OverflowError, one.step, hall.SUBMIT, 1, 2**32) and raises(OverflowError, one.page, -1) and
            raises(TypeError, one.step, hall.SUBMIT, 1, 1.5) and raises(TypeError, one.step, None) and
            bytes(one) == before and refused(42, hall.Hall(3).settle))


def stored():
    """A hall comes back from its bytes; no other bytes are a hall."""
    one = hall.Hall(3, 0b111)
    one.step(hall.SUBMIT, 2, 5)
    again = hall.Hall.load(bytearray(bytes(one) + b"more"))
    again.settle()
    hall.check(bytes(again))
    return (again.page(3)["order_length"] == 1 and one.page(3)["order_length"] == 0 and
            refused(31, hall.check, bytes(one)[:-1]) and refused(31, hall.Hall.load, bytes(hall.LENGTH)) and
            refused(31, hall.check, b"") and raises(TypeError, hall.check, 5) and
            hall.listing(b"") == "refused 19\n")


def listing(path):
    with open(path, "rb") as file:
        print(hall.listing(file.read()), end="")


def texts():
    """The text of each refusal, under each kind."""
    for number in sorted(number for name, number in vars(hall).items() if name.startswith("REFUSED_")):
        for kind in range(hall.DELIVER + 1):
            print(number, kind, hall.refusal_text(number, kind))


if sys.argv[1] in ("listing", "texts"):
    globals()[sys.argv[1]](*sys.argv[2:])
else:
    for test in sys.argv[1:]:
        print(f"{test}: {globals()[test]()}")
