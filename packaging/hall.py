"""HL3 hall log, over the shared library.

    import hall

    one = hall.Hall(3, founders=0b111)
    one.step(hall.SUBMIT, 1, 700)
    one.settle()
    one.page(1)["order_length"]

Numbers are those of include/hall.h without HALL_ before their names, texts those
of include/hall_names.h; both headers are read where the module is installed, or
under the folder that HALL_PREFIX names in the environment. A refused call raises
Refused and changes nothing. Of one hall, one thread at a time steps or settles.
"""
import ctypes
import operator
import os
import pathlib
import re
import struct

_prefix = pathlib.Path(os.environ.get("HALL_PREFIX") or pathlib.Path(__file__).resolve().parents[2])
_header = (_prefix / "include" / "hall.h").read_text("ascii")
_names = (_prefix / "include" / "hall_names.h").read_text("ascii")

_numbers = {name: int(number) for name, number in
            re.findall(r"^(?:#define|   ) HALL_(\w+) (?:= )?(\d+)", _header, re.MULTILINE)}
globals().update(_numbers)


def _text(parts):
    """The text of strings and limits that stand beside each other in C."""
    found = re.findall(r'"([^"]*)"|HALL_NAMES_TEXT\(HALL_(\w+)\)', parts)
    return "".join(words or str(_numbers[limit]) for words, limit in found)


_reasons = {(_numbers[refusal], _numbers.get(kind, 0)): _text(parts) for refusal, kind, parts in
            re.findall(r'\{HALL_(REFUSED_\w+), (?:HALL_)?(\w+),((?:\s|"[^"]*"|HALL_NAMES_TEXT\(\w+\))+)\}', _names)}


def refusal_text(number, kind=0):
    """Why a call was refused; the kind is that of the action, 0 if it was none."""
    return _reasons.get((number, kind), _reasons[number, 0])


class Refused(Exception):
    """A call that was refused, with the number of the refusal."""

    def __init__(self, number, kind=0):
        super().__init__(f"refused {number}: {refusal_text(number, kind)}")
        self.number = number


_library = ctypes.CDLL(str(_prefix / "lib" / f"libhall.so.{VERSION // 1000000}.{VERSION // 1000 % 1000}"))


def version():
    """The version of the library: major * 1000000 + minor * 1000 + patch."""
    return _library.hall_version()


if version() != VERSION or _library.hall_length() != LENGTH:
    raise ImportError("the header and the library are of two versions")


def _lent(one):
    """A slice as pointer and length, a number as a word of 32 bits."""
    if isinstance(one, (bytes, ctypes.Array)):
        return one, ctypes.c_size_t(len(one))
    if not 0 <= operator.index(one) < 1 << 32:
        raise OverflowError(f"{one} is not a number of 32 bits")
    return (ctypes.c_uint32(one),)


def _call(name, *lent, kind=0):
    number = getattr(_library, name)(*(part for one in lent for part in _lent(one)))
    if number != OK:
        raise Refused(number, kind)


def _ask(name, *lent, kind=0):
    """The words that a call answers."""
    words = ctypes.create_string_buffer(ANSWER_LENGTH)
    _call(name, *lent, words, kind=kind)
    return struct.unpack(f"<{WORDS}I", words.raw)


def check(stored):
    """Refuses bytes that are not a hall's stored form."""
    _call("hall_check", bytes(memoryview(stored)))


def listing(file):
    """The listing of a run file, of one line if the file is refused."""
    text = ctypes.create_string_buffer(MAX_LISTING)
    words = _ask("hall_run_list", bytes(memoryview(file)), ctypes.create_string_buffer(LENGTH), text)
    return text.raw[:words[LISTING_LENGTH]].decode("ascii")


class Hall:
    """A hall; bytes(hall) is its stored form."""

    def __init__(self, n, founders=0, votes=None):
        """Opens a hall of n recorders; founders are a mask, 0 for recorder 1 alone.

        Votes are a row of eight. Without them recorder 1 has 2 and each other one 1.
        """
        row = [2, *(n >= k for k in range(2, RECORDERS + 1))] if votes is None else list(votes)
        if len(row) != RECORDERS:
            raise ValueError(f"a row has {RECORDERS} votes")
        self._bytes = ctypes.create_string_buffer(LENGTH)
        _call("hall_open", self._bytes, n, founders, *row)

    @classmethod
    def load(cls, stored):
        """The hall of a stored form."""
        check(stored)
        hall = cls.__new__(cls)
        hall._bytes = ctypes.create_string_buffer(bytes(memoryview(stored))[:LENGTH], LENGTH)
        return hall

    def __bytes__(self):
        return self._bytes.raw

    def step(self, kind, r=0, a=0, b=0):
        """Performs an action. The words of its answer, ANSWER_CASE first."""
        return _ask("hall_step", self._bytes, kind, r, a, b, kind=kind)

    def settle(self):
        """Settles the hall. How many steps it took."""
        return _ask("hall_settle", self._bytes)[SETTLE_COUNT]

    def page(self, r, place=0):
        """The page of a recorder, with the entry at a place of its order: PAGE_VIEW as "view" and so on."""
        words = _ask("hall_page", self._bytes, r, place)
        page = {name[len("PAGE_"):].lower(): words[i] for name, i in _numbers.items() if name.startswith("PAGE_")}
        page["margin"] -= page["margin"] >> 31 << 32
        return page
