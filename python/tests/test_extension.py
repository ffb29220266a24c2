"""Tests of the extension: columns in each kind of input, printing beside `datetime`, wrong types, tampered configurations,
references, interpreters and threads. An argument is how many calls are drawn. test_readings.py has what texts are read as."""
import array
import collections
import copy
import ctypes
import datetime
import gc
import importlib.util
import inspect
import itertools
import io
import mmap
import pathlib
import random
import sys
import threading
import types
import unittest
import weakref

import speedate
from speedate import _speedate, _types

COUNT = 100_000
CALLS = speedate.__all__
DAY = datetime.date(2020, 2, 29)
KINDS = ["date", "time", "datetime", "datetime_clock", "duration"]
# A good text of each call on columns.
COLUMNS = {
    "datetime_column": "1970-01-01T00:00Z", "datetime_clock_column": "1970-01-01T00:00", "datetime_offset_column": "1970-01-01T00:00Z",
    "date_column": "1970-01-01", "time_column": "00:00", "duration_column": "PT0S"}


# ---- Drawn arguments: each of them as a function of a side, since each side has its own Config ----


def same(value):
    return lambda side: value


def anew(make):
    return lambda side: make()


def configured(*fields):
    return lambda side: side.Config(*fields)


CONFIGS = [*[same(None)] * 16, *(
    configured(unit, offset, overflow, order)
    for unit in ("infer", "s", "ms", "us") for offset in (None, 0, -3600, 86_399)
    for overflow in ("error", "truncate") for order in ("lax", "strict"))]


class Other(str):
    def encode(self, *_):
        raise AssertionError


class Zone(datetime.tzinfo):
    """A zone whose offset depends on the date, or is none, or no offset at all."""

    def __init__(self, offsets):
        self.offsets = offsets

    def utcoffset(self, moment):
        return self.offsets[getattr(moment, "month", 0) % len(self.offsets)]

    def __repr__(self):
        return "Zone"


class Moment(datetime.datetime):
    pass


class Size(datetime.timedelta):
    def __eq__(self, other):
        return False


def drawn_clock(draw):
    second = f":{draw.randrange(61):02}" + draw.choice(["", ".5", ",250", f".{draw.randrange(10**6):06}", ".1234567"])
    zone = f"{draw.choice(['+', '-', chr(0x2212)])}{draw.randrange(25):02}{draw.choice([':', ''])}{draw.randrange(61):02}"
    return f"{draw.randrange(25):02}:{draw.randrange(60):02}" + draw.choice(["", second, second]) + draw.choice(["", "Z", zone, zone])


def drawn_number(draw):
    return draw.choice(["", "-", "+"]) + str(draw.randrange(10 ** draw.randrange(1, 20))) + draw.choice(["", "", ".5", f".{draw.randrange(10**8)}"])


def drawn_duration(draw):
    parts = "".join(f"{draw.randrange(10 ** draw.randrange(1, 11))}{unit}" for unit in "YMWD" if draw.random() < 0.4)
    clock = "".join(f"{draw.randrange(100)}{unit}" for unit in ("H", "M", ".5S") if draw.random() < 0.4)
    return draw.choice(["", "-", "+"]) + draw.choice([f"P{parts}{'T' * bool(clock)}{clock}", f"{draw.randrange(10**9)} days", f"{draw.randrange(30)} day, {drawn_clock(draw)}"])


def drawn_text(draw, name):
    """A text that is mostly one that a call reads, or one but for a character, as one of the types of texts."""
    day = f"{draw.choice([0, draw.randrange(10_000)]):04}-{draw.randrange(1, 13):02}-{draw.randrange(1, 32):02}"
    kinds = {
        "datetime": lambda: day + draw.choice("TTT _") + drawn_clock(draw), "date": lambda: day, "time": lambda: drawn_clock(draw),
        "duration": lambda: drawn_duration(draw), "number": lambda: drawn_number(draw), "": lambda: ""}
    own = next(kind for kind in kinds if name.startswith(kind))
    text = kinds[own if draw.random() < 0.7 else draw.choice(list(kinds))]()
    if draw.random() < 0.2:
        place = draw.randrange(len(text) + 1)
        text = text[:place] + draw.choice("0123456789-:.,+TZ \n\0\u00e9\u2212\ud800\U0001f552") + text[place + draw.randrange(2):]
    if draw.random() < 0.2:
        text += draw.choice([" GET /", " \u00e9\u2212", "\n"])
    data = text.encode("utf-8", "surrogatepass")
    return draw.choice([
        lambda: text, lambda: text, lambda: text, lambda: data, lambda: bytearray(data), lambda: memoryview(data), lambda: Other(text),
        lambda: memoryview(bytearray(data)), lambda: memoryview(b"x".join(data[i:i + 1] for i in range(len(data))))[::2]])()


def drawn_value(draw, name):
    """A value that has a text, mostly."""
    zones = [None, datetime.timezone.utc, Zone([None]), Zone([datetime.timedelta(0), datetime.timedelta(hours=1), None])]
    zone = draw.choice([*zones, *(datetime.timezone(datetime.timedelta(seconds=unit * draw.randrange(-86_399 // unit + 1, 86_399 // unit + 1))) for unit in (1, 60, 900))])
    clock = draw.randrange(24), draw.randrange(60), draw.randrange(60), draw.choice([0, draw.randrange(10**6)]), zone
    day = draw.randrange(1, 10_000), draw.randrange(1, 13), draw.randrange(1, 29)
    size = draw.randrange(-(10**9) + 1, 10**9), draw.randrange(86_400), draw.choice([0, draw.randrange(10**6)])
    return draw.choice([
        lambda: datetime.date(*day), lambda: datetime.time(*clock), lambda: datetime.datetime(*day, *clock), lambda: Moment(*day, *clock),
        lambda: datetime.timedelta(*size), lambda: Size(*size), lambda: datetime.time(*clock, fold=1)])()


def drawn_input(draw, name):
    """What a call parses: a text, or at times an integer."""
    return drawn_text(draw, name) if draw.random() < 0.8 or not name.startswith("date") else drawn_integer(draw, name)


def drawn_integer(draw, name):
    return draw.choice([0, 1, -1, 86_400, 2**32 - 1, 2**32, 2**63 - 1, 2**63, -(2**63), -(2**63) - 1, 10**30, draw.randrange(-(10**12), 10**12), draw.randrange(10**5)])


def joined(texts, end):
    """The lines that texts are."""
    return end.join(bytes(it) if not isinstance(it, str) else str.encode(it, "utf-8", "surrogatepass") for it in texts)


def drawn_column(draw, name):
    """A function that makes a column: an iterator would be used up by the first side."""
    texts = [drawn_text(draw, name) for _ in range(draw.randrange(4))]
    end = draw.choice([b"\n", b"\n", b"\r\n", b"\r"])
    lines = joined(texts, end)
    items = [draw.choice([it] * 9 + [None, float("nan"), drawn_integer(draw, name)]) for it in texts]
    if draw.random() < 0.1:
        lines, items = b"\xef\xbb\xbf" + lines, [f"\ufeff{it}" if type(it) is str else it for it in items]
    return draw.choice([
        lambda: items, lambda: tuple(items), lambda: iter(items), lambda: lines, lambda: bytearray(lines), lambda: memoryview(lines + end),
        lambda: memoryview(b"x".join(lines[i:i + 1] for i in range(len(lines))))[::2], lambda: array.array("b", lines), lambda: io.BytesIO(lines + end),
        lambda: io.StringIO(lines.decode("utf-8", "replace"), newline="")])


def drawn_numbers(draw, name):
    """A function that makes the numbers of a column that is printed."""
    bound = draw.choice([20_000, 3 * 10**6, 86_400 * 10**6, 3 * 10**17, 2**63 - 1])
    numbers = [draw.choice([draw.randrange(bound)] * 9 + [-draw.randrange(bound), -(2**63)]) for _ in range(draw.randrange(5))]
    items = [draw.choice([it] * 30 + [None, float("nan"), 2**63, -(2**63) - 1, 10**30, True, 1.5, "1"]) for it in numbers]
    return draw.choice([
        lambda: numbers, lambda: items, lambda: iter(items), lambda: array.array("q", numbers), lambda: memoryview(array.array("q", numbers)),
        lambda: memoryview(array.array("q", [*numbers, *numbers]))[::2], lambda: array.array("Q", map(abs, numbers)), lambda: array.array("h", [it % 2**15 for it in numbers])])


# What a signature has between its name and the options that all columns have.
OF_COLUMNS = "refused='stop', empty='error', lines=False)"
SIGNATURES = {
    "date": "(value, *, config=None, timestamps=False)", "time": "(value, *, config=None, strict=False)",
    "datetime": "(value, *, config=None, timestamps=False, strict=False, loose=False)", "duration": "(value, *, config=None)",
    "date_front": "(value)", "time_front": "(value, *, config=None)", "datetime_front": "(value, *, config=None, loose=False)",
    "datetime_column": f"(value, *, config=None, timestamps=False, strict=False, loose=False, missing_offset='error', {OF_COLUMNS}",
    **dict.fromkeys(["datetime_clock_column", "datetime_offset_column"], f"(value, *, config=None, timestamps=False, strict=False, loose=False, {OF_COLUMNS}"),
    "date_column": f"(value, *, config=None, timestamps=False, strict=False, {OF_COLUMNS}",
    "time_column": f"(value, *, config=None, strict=False, {OF_COLUMNS}", "duration_column": f"(value, *, config=None, {OF_COLUMNS}",
    "text_column": "(value, *, kind=None)", "text": "(value, *, digits=None)"}


def array_of(numpy, items):
    """An array of objects, whatever these are."""
    made = numpy.empty(len(items), object)
    for place, it in enumerate(items):
        made[place] = it
    return made


def kinds_of_items(items):
    """What makes each kind of input that has items."""
    numpy, pandas = installed("numpy"), installed("pandas")
    yield from (lambda: items, lambda: tuple(items), lambda: iter(items), lambda: (it for it in items), lambda: dict(enumerate(items)).values(), lambda: collections.deque(items))
    if numpy:
        yield lambda: array_of(numpy, items)
    if numpy and pandas:
        yield from (lambda: pandas.Series(array_of(numpy, items), index=range(len(items), 0, -1)), lambda: pandas.Index(array_of(numpy, items)))


def kinds_of_lines(lines):
    """What makes each kind of input that has lines of bytes."""
    spread = memoryview(b"x".join(lines[i:i + 1] for i in range(len(lines))))[::2]
    yield from (
        lambda: lines, lambda: bytearray(lines), lambda: memoryview(lines), lambda: spread,
        lambda: array.array("b", lines), lambda: (ctypes.c_ubyte * len(lines))(*lines), lambda: io.BytesIO(lines), lambda: mapped(lines))


def mapped(lines):
    made = mmap.mmap(-1, len(lines))
    made.write(lines)
    return made


TEXTS = str, bytes, bytearray, memoryview
CHOICES = {"missing_offset": ("error", "utc"), "refused": ("stop", "number", "collect"), "empty": ("error", "nat")}
# The drawn values of a parameter.
DRAWN = {
    **dict.fromkeys(["timestamps", "strict", "loose", "lines"], lambda draw, name: draw.random() < 0.5),
    "missing_offset": lambda draw, name: draw.choice(["error", "utc"]), "refused": lambda draw, name: draw.choice(["stop", "number", "collect"]),
    "empty": lambda draw, name: draw.choice(["error", "nat"]), "kind": lambda draw, name: draw.choice([*KINDS, *KINDS, None]),
    "digits": lambda draw, name: draw.choice([None, 0, 3, 6, 6, 3, 1, 9, -3, "3", True])}
PARAMETERS = {name: list(inspect.signature(getattr(speedate, name)).parameters.values()) for name in CALLS}


def drawn_first(draw, name):
    """What a call gets first."""
    if name.endswith("_column"):  # anew, since a side may use it up
        return anew((drawn_numbers if name == "text_column" else drawn_column)(draw, name))
    return same((drawn_value if name == "text" else drawn_text if name.endswith("_front") else drawn_input)(draw, name))


def drawn_call(draw):
    """A call of a function by its name, as one of a side. What is optional is given sometimes, by position or by name."""
    name, positional, named = draw.choice(CALLS), [], {}
    for place, it in enumerate(PARAMETERS[name]):
        if it.default is not it.empty and draw.random() < 0.5:
            continue
        if it.name == "value":
            value = drawn_first(draw, name)
        else:
            value = draw.choice(CONFIGS) if it.name == "config" else same(DRAWN[it.name](draw, name))
        if it.kind is not it.KEYWORD_ONLY and len(positional) == place and draw.random() < 0.8:
            positional.append(value)
        else:
            named[it.name] = value
    return name, positional, named


def outcome(side, name, positional=(), named={}):
    """What a call answers, told so that both sides tell the same."""
    named = {word: it(side) for word, it in named.items()}
    try:
        value = getattr(side, name)(*(it(side) for it in positional), **named)
        if type(value).__name__ == "Column":
            return "Column", value.kind, value.numbers, list(map(told_error, value.refused))
        return type(value).__name__, repr(value)
    except Exception as error:
        return told_error(error)


def told_error(error):
    found = [getattr(error, name, None) for name in ("text", "start", "end", "expected", "hint")]
    return type(error).__name__, str(error), error.args, dict(vars(error)), found


# ---- Wrong types ----


class Index:
    def __init__(self, number):
        self.number = number

    def __index__(self):
        if self.number is None:
            raise ValueError("no number")
        return self.number


class Iterates:
    def __init__(self, *items):
        self.items = items

    def __iter__(self):
        yield from self.items
        if len(self.items) > 1:
            raise OSError("cut off")


class Nameless(type):
    @property
    def __name__(self):
        raise KeyError("no name")


def released():
    view = memoryview(b"2020-02-29")
    view.release()
    return view


ODD = list(map(same, [
    None, True, False, 0, 1, -1, 2**31, 2**64, -(2**70), 1.5, float("nan"), 3j, "", "1", "utc", "nat", "\ud800", b"", b"1", bytearray(b"1"), [], {}, (), set(),
    object(), object, int, str, type, len, DAY, datetime.date, datetime.time(1), datetime.timedelta(1), datetime.timezone.utc, array.array("d", [1]),
    array.array("B", [50]), array.array("b", [10, 13, 10]), array.array("h", [1]), [5], ["1", None, 5], memoryview(b"12345678").cast("d"), memoryview(b"12345678").cast("B", [2, 2, 2]), memoryview(b"12345678").cast("c"), memoryview(b""),
    Index(5), Index(2**70), Index(None), Iterates("2020-02-29T00:00Z"), Iterates(5), Iterates("2020-02-29T00:00Z", "2020-02-29T00:00Z"), Nameless("N", (), {})(),
    Other("2020-02-29"), type("Bytes", (bytes,), {})(b"12:13"), collections.UserString("1"), Ellipsis, NotImplemented, ValueError("x"), types,
])) + [lambda side: released(), lambda side: side.Config, lambda side: side.Config("ms", 0), lambda side: side, lambda side: side.ParseError, lambda side: io.BytesIO(b"\n")]


def right(name):
    """What a call may get first."""
    return [] if name.endswith("_column") else DAY if name == "text" else "12:13"


def wrong_calls():
    """Each of the objects for each argument of each call, the others right; and the words that no call has."""
    for name in CALLS:
        needed = {"value": same(right(name))}
        for it in PARAMETERS[name]:
            for wrong in ODD:
                yield name, (), {**needed, it.name: wrong}
        yield name, (), {**needed, "other": same(1)}
        yield name, [same("12:13")], {"value": same("12:13")}
        yield name, (), {}


def wrong_argument(name, parameter, it):
    """The error of an argument by its type and its value, or nothing if it may be right, or if its items decide."""
    try:
        if parameter == "config":
            if it is not None and type(it) is not speedate.Config:
                raise _types._wrong("config", it, speedate.Config)
        elif parameter in ("timestamps", "strict", "loose", "lines"):
            if type(it) is not bool:
                raise _types._wrong(parameter, it, bool)
        elif parameter in CHOICES:
            _types._choice(parameter, it, *CHOICES[parameter])
        elif parameter == "digits":
            if it is not None and _types._integer("digits", it, 0, 6) % 3:
                raise ValueError("digits has to be 0 or 3 or 6")
            if it is not None:
                raise TypeError(f"value has to be datetime or time if there are digits, not date")
        elif parameter == "value" and name == "text":
            _types._plain(it)
        elif parameter == "value" and name.endswith("_front"):
            if not isinstance(it, TEXTS):
                raise _types._wrong("value", it, *TEXTS)
        elif parameter == "value" and not name.endswith("_column"):
            if not isinstance(it, TEXTS):
                raise _types._wrong_text(-1, it, "timestamps" in [other.name for other in PARAMETERS[name]])
        elif parameter == "value" and name != "text_column" and not isinstance(it, (bytes, bytearray, memoryview, array.array)):
            iter(_types._items(it)[0])
    except Exception as error:
        return error


# ---- Printing ----


def printed(value, digits=None):
    """The text of a value by what `datetime` prints of it, or nothing if its zone has no offset of whole minutes, or it is not equal
    to itself."""
    if isinstance(value, Size):
        return None
    if isinstance(value, datetime.timedelta):
        size = abs(value)
        days, (minutes, second) = [size.days // 365, size.days % 365], divmod(size.seconds, 60)
        second = f"{second}.{size.microseconds:06}".rstrip("0") if size.microseconds else second
        before, after = ["".join(f"{it}{unit}" for it, unit in zip(some, units) if it) for some, units in ((days, "YD"), ([minutes // 60, minutes % 60, second], "HMS"))]
        return f"{'-' if value.days < 0 else ''}P{before}{'T' if after or not before else ''}{after or '0S' * (not before)}"
    if not isinstance(value, (datetime.time, datetime.datetime)):
        return value.isoformat()
    offset = value.utcoffset()
    if offset is None and value.tzinfo is not None or offset is not None and offset % datetime.timedelta(minutes=1):
        return None
    spans = {0: "seconds", 3: "milliseconds", 6: "microseconds", None: "microseconds" if value.microsecond else "seconds"}
    text = value.isoformat(timespec=spans[digits])
    return text if offset != datetime.timedelta(0) else text[:-6] + "Z"


# The bounds of the numbers of columns, without the year 0.
DAYS = datetime.date(1970, 1, 1).toordinal()
MOMENTS = (1 - DAYS) * 86_400 * 10**6, (datetime.date.max.toordinal() + 1 - DAYS) * 86_400 * 10**6 - 1
BOUNDS = {"date": (1 - DAYS, datetime.date.max.toordinal() - DAYS), "datetime": MOMENTS, "datetime_clock": MOMENTS, "time": (0, 86_400 * 10**6 - 1), "duration": (1 - 2**63, 2**63 - 1)}


def line_of(kind, number):
    """The text of a number of a column."""
    if kind == "date":
        return datetime.date.fromordinal(DAYS + number).isoformat()
    size = datetime.timedelta(microseconds=number)
    moment = datetime.datetime(1970, 1, 1) + size if kind != "duration" else None
    return printed({"time": lambda: moment.time(), "duration": lambda: size}.get(kind, lambda: moment)()) + "Z" * (kind == "datetime")


# ---- References ----


def blocks():
    """How many references there are, or, if only a debug Python tells, how many blocks of memory."""
    gc.collect()
    return sys.gettotalrefcount() if hasattr(sys, "gettotalrefcount") else sys.getallocatedblocks()


def growth(call, times):
    """How much each of some calls leaves, in the best of four rounds, since Python keeps things of its own."""
    rounds = []
    for _ in range(4):
        before = blocks()
        for _ in range(times):
            call()
        rounds.append(blocks() - before)
    return min(rounds) / times


def import_anew():
    """Imports the module once more, and drops it."""
    kept = {name: sys.modules.pop(name) for name in list(sys.modules) if name.partition(".")[0] == "speedate"}
    try:
        importlib.import_module("speedate").date("2020-02-29")
    finally:
        sys.modules.update(kept)


def fail_import(module, **names):
    """Loads the extension where a module that it takes something from has other names."""
    real, spec = sys.modules[module], _speedate.__spec__
    fake = types.ModuleType(module)
    vars(fake).update(vars(real), **names)
    for name in [name for name, value in names.items() if value is None]:
        delattr(fake, name)
    sys.modules[module] = fake
    try:
        made = importlib.util.module_from_spec(spec)
        spec.loader.exec_module(made)
    except ImportError as error:
        return str(error)
    finally:
        sys.modules[module] = real


def error_of(call, *given, **named):
    try:
        call(*given, **named)
    except speedate.ParseError as error:
        return error.with_traceback(None)


# ---- Interpreters ----

INTERPRETER = """
import speedate, datetime
assert speedate.datetime("2020-02-29T12:13Z").tzinfo is datetime.timezone.utc
assert speedate.datetime("2020-02-29T12:13+05:53").utcoffset().seconds == 353 * 60
assert list(speedate.datetime_column(b"1970-01-01T00:00:01Z")) == [1000000]
try:
    speedate.time("24:00")
except speedate.ParseError as error:
    assert (error.code, error.start) == ("out_of_range_hour", 0)
"""


def installed(*names):
    """The first module of some that is there, or `None`."""
    for name in names:
        try:
            return importlib.import_module(name)
        except ImportError:
            pass


def run_interpreter(module, own_lock):
    """What an interpreter that is made, and closed at once, says of a program."""
    if module.__name__ == "_interpreters":
        number = module.create("isolated" if own_lock else "legacy")
    else:
        number = module.create(**({"isolated": own_lock} if sys.version_info >= (3, 9) else {}))
    try:
        return module.run_string(number, INTERPRETER)
    finally:
        module.destroy(number)


def in_threads(call, count=8):
    failed = []

    def run():
        try:
            call()
        except BaseException as error:
            failed.append(error)
    threads = [threading.Thread(target=run) for _ in range(count)]
    for it in threads:
        it.start()
    for it in threads:
        it.join()
    return failed


class Extension(unittest.TestCase):
    maxDiff = None

    def test_printing(self):
        draw, refused = random.Random(COUNT), 0
        for _ in range(COUNT // 4):
            value, digits = drawn_value(draw, "text"), draw.choice([None, None, 0, 3, 6])
            digits = digits if isinstance(value, (datetime.time, datetime.datetime)) else None
            wanted = printed(value, digits)
            refused += wanted is None
            if wanted is None:
                with self.assertRaises(ValueError):
                    speedate.text(value, digits=digits)
            else:
                self.assertEqual(speedate.text(value, digits=digits), wanted)
        self.assertTrue(COUNT // 40 < refused < COUNT // 8, refused)

    def test_printed_columns(self):
        draw = random.Random(COUNT)
        for kind, (least, most) in BOUNDS.items():
            read = getattr(speedate, f"{kind}_column")
            numbers = [least, most, 0, *(draw.randrange(least, most + 1) for _ in range(COUNT // 50)), *(draw.randrange(-10**6, 10**6) % most for _ in range(COUNT // 50))]
            wanted = "".join(f"{line_of(kind, it)}\n" for it in numbers).encode()
            column = array.array("q", numbers)
            for it in (numbers, tuple(numbers), iter(numbers), column, memoryview(column), memoryview(array.array("q", [it for it in numbers for _ in "12"]))[::2], speedate.Column(kind, column)):
                self.assertEqual(speedate.text_column(it, kind=kind), wanted)
            for it in (wanted, wanted.splitlines(), io.BytesIO(wanted)):
                self.assertEqual(list(read(it)), numbers)
            self.assertEqual(speedate.text_column([-(2**63), None], kind=kind), b"\n\n")
            for it in (least - 1 - 366 * {"date": 1, "time": 0}.get(kind, 86_400 * 10**6), most + 1, 2**63, -(2**63) - 1):
                with self.assertRaises((speedate.ParseError, OverflowError)):
                    speedate.text_column([0, it], kind=kind)

    def test_drawn_columns(self):
        """Columns of many texts and lines have the same numbers and errors in each kind of input."""
        draw, numbers = random.Random(COUNT), collections.Counter()
        for name in [*COLUMNS] * 4:
            texts = [drawn_text(draw, name) for _ in range(min(COUNT // 10, 2_000))]
            options = {it.name: same(DRAWN[it.name](draw, name)) for it in PARAMETERS[name] if it.name in DRAWN and it.name not in ("strict", "loose", "refused")}
            if draw.random() < 0.5:
                options["config"] = configured("infer", None, draw.choice(["error", "truncate"]), draw.choice(["lax", "strict"]))
            lines = joined(texts, draw.choice([b"\n", b"\r\n"]))
            for refused in ("number", "collect"):
                for kinds in (kinds_of_items(texts), kinds_of_lines(lines)):
                    first, *others = [(name, [anew(make)], {**options, "refused": same(refused)}) for make in kinds]
                    wanted = outcome(speedate, *first)
                    for call in others:
                        self.assertTrue(outcome(speedate, *call) == wanted, (name, type(call[1][0](speedate))))
            numbers[name] += sum(it != -(2**63) for it in getattr(speedate, name)(texts, refused="number"))
        for name in COLUMNS:
            self.assertGreater(numbers[name], 4 * min(COUNT // 10, 2_000) // 20, name)

    def test_wrong_types(self):
        for name in CALLS:
            for it in PARAMETERS[name]:
                for make in ODD:
                    wrong = make(speedate)
                    with self.subTest(name, **{it.name: wrong}):
                        wanted = wrong_argument(name, it.name, wrong)
                        if wanted is not None:
                            told = outcome(speedate, name, (), {"value": same(right(name)), it.name: same(wrong)})
                            self.assertEqual(told[:2], (type(wanted).__name__, str(wanted)))
            for positional, named in ((), {"value": same(right(name)), "other": same(1)}), ([same("12:13")], {"value": same("12:13")}), ((), {}):
                self.assertEqual(outcome(speedate, name, positional, named)[0], "TypeError")

    def test_drawn_wrong_types(self):
        draw = random.Random(1)
        for _ in range(COUNT // 5):
            name = draw.choice(CALLS)
            values = [draw.choice(ODD) for _ in range(draw.randrange(4))]
            named = {it.name: draw.choice(ODD) for it in PARAMETERS[name] if draw.random() < 0.4}
            try:
                getattr(speedate, name)(*(it(speedate) for it in values), **{word: it(speedate) for word, it in named.items()})
            except (ArithmeticError, LookupError, OSError, TypeError, ValueError):
                pass

    def test_tampered_config(self):
        numbers = [None, 5, "x" * 8, b"", b"x" * 7, b"x" * 9, bytearray(8), type("Bytes", (bytes,), {})(8), [1]]
        for name in (name for name in CALLS if any(it.name == "config" for it in PARAMETERS[name])):
            for it in numbers:
                config = speedate.Config()
                object.__setattr__(config, "_numbers", it)
                with self.subTest(name, it=it), self.assertRaisesRegex(TypeError, "config is not as Config made it"):
                    getattr(speedate, name)(right(name), config=config)
            config = speedate.Config()
            for byte in range(8):
                object.__setattr__(config, "_numbers", bytes(0xFF if it == byte else 0 for it in range(8)))
                try:
                    getattr(speedate, name)(right(name), config=config)
                except speedate.ParseError as error:
                    self.assertNotEqual(error.code, "ok")
                except ValueError as error:
                    self.assertEqual(str(error), "the library refuses an argument: config_out_of_range")
                except TypeError as error:
                    self.assertIn("which is not read here", str(error))
            if name in COLUMNS:
                options = {"timestamps": True} if name == "date_column" else {}
                object.__setattr__(config, "_numbers", bytes([0] * 6 + [0xFF, 0]))
                for refused in ("stop", "number", "collect"):
                    for texts in ([COLUMNS[name]], COLUMNS[name].encode(), b"\n"):
                        with self.assertRaisesRegex(ValueError, "^the library refuses an argument: config_out_of_range$"):
                            getattr(speedate, name)(texts, config=config, refused=refused, **options)
            object.__delattr__(config, "_numbers")
            with self.assertRaises(AttributeError):
                getattr(speedate, name)(right(name), config=config)

    def test_functions(self):
        for name in CALLS:
            call = getattr(speedate, name)
            self.assertIs(copy.deepcopy(call), call)
            self.assertEqual((call.__module__, call.__qualname__, call.__name__), ("speedate", name, name))
            self.assertEqual(str(inspect.signature(call)), SIGNATURES[name])

    def test_references(self):
        text, odd, config = "2020-02-29T12:13:14.5+05:53", "2020-02-29T12:13\u221200:30", speedate.Config()
        watched = [text, odd, config, None, True, datetime.timezone.utc, speedate.Config, speedate.ParseError, DAY]
        calls = [(name, positional, named) for name, positional, named in wrong_calls()]
        calls += [drawn_call(random.Random(seed)) for seed in range(1500)]
        calls += [("datetime", [same(it)], {"config": same(config)}) for it in (text, odd, odd.encode(), bytearray(odd.encode()))]
        for name, positional, named in calls:
            positional, named = [it(speedate) for it in positional], {word: it(speedate) for word, it in named.items()}
            call = getattr(speedate, name)

            def once():
                try:
                    for it in getattr(call(*positional, **named), "refused", ()):
                        it.start
                except Exception as error:
                    getattr(error, "start", None)

            def grown():
                before = [sys.getrefcount(it) for it in [*watched, *positional, *named.values()]]
                for _ in range(20):
                    once()
                after = [sys.getrefcount(it) for it in [*watched, *positional, *named.values()]]
                return [more - fewer for more, fewer in zip(after, before) if abs(more - fewer) >= 20]
            once()
            # Python 3.10 gives up references of its own to None, now and then and of any call.
            self.assertFalse(all(grown() for _ in range(4)), (name, positional, named))

        def each():
            for name, positional, named in calls:
                outcome(speedate, name, positional, named)
        self.assertLess(growth(each, 20), len(calls) / 200)

    def test_kept_text(self):
        """A place is that of the text that was refused, whatever becomes of it, and the text goes with its error."""
        for make in (bytearray, lambda it: memoryview(bytearray(it)), memoryview, lambda it: memoryview(it + b"x")[:-1]):
            text, config = make(b"12:13:60"), speedate.Config(overflow_behavior="truncate")
            error = error_of(speedate.time, text, config=config)
            if isinstance(text, bytearray):
                text[:] = b"12:60" * 1_000
            else:
                if not text.readonly:
                    text[0] = 120
                text.release()
            self.assertEqual((error.start, copy.copy(error).start), (6, 6))
        for kind in (str, bytes):
            text = type("Text", (kind,), {})("12:13:60" if kind is str else b"12:13:60")
            text.error = error_of(speedate.time, text)
            self.assertEqual(text.error.start, 6)
            gone = weakref.ref(text.error)
            del text
            gc.collect()
            self.assertIsNone(gone())

    def test_found_once(self):
        """One call finds the start, the end, what was expected and the hint, when the first of them is read."""
        module, called = sys.modules["speedate._speedate"], []
        found = module._found
        try:
            module._found = lambda *given: called.append(given) or found(*given)
            for names in itertools.permutations(("start", "end", "expected", "hint")):
                for make in (lambda: error_of(speedate.time, "12:13:60"), lambda: error_of(speedate.date_column, ["x"]),
                             lambda: speedate.date_column(["x"], refused="collect").refused[0], lambda: error_of(speedate.date, 1, timestamps=True)):
                    error = make()
                    self.assertEqual(called, [])
                    told = [getattr(error, name) for name in names]
                    again = copy.deepcopy(error)
                    self.assertEqual([getattr(again, name) for name in names], told)
                    self.assertEqual(told, [getattr(error, name) for name in names])
                    self.assertEqual(len(called), 1)
                    called.clear()
        finally:
            module._found = found

    def test_tampered_error(self):
        for slot in ("_source", "_call"):
            for it in (None, *range(-1, 8_300), 2**31, 2**70, "", "12:13", speedate.Config("ms", 0), 1.5, b"x", [], memoryview(b"12345678").cast("d")):
                for call in (speedate.time, lambda text: speedate.date("1x", config=speedate.Config("ms"), timestamps=True)):
                    error = error_of(call, "12:13:60")
                    setattr(error, slot, it)
                    for read in (lambda: error.start, lambda: copy.copy(error).start):
                        try:
                            self.assertIsInstance(read(), int)
                        except (OverflowError, TypeError, ValueError):
                            pass
        error = error_of(speedate.time, "x")
        for name in ("start", "end", "expected", "text", "hint"):
            with self.assertRaises(AttributeError):
                setattr(error, name, 5)
        del error._source
        with self.assertRaises(AttributeError):
            error.start

    def test_tampered_refused(self):
        for given in ((0, 0, "x", 257), (43, 0, "x", 257), (102, 0, "x", 257), (255, 0, "x", 257), (-1, 0, "x", 257), (1, -1, "x", 257), (1, 0, 5, 257), (1, 0, "x", 2**30), (1, 2**70, "x", 1)):
            try:
                error = _speedate._refusal(*given)
                self.assertIs(type(error), speedate.ParseError)
                error.start
            except (OverflowError, TypeError, ValueError):
                pass
        with self.assertRaises(IndexError):
            speedate.date_column(["x"], refused="collect").refused[1]

    def test_references_of_columns(self):
        # Python keeps the small integers, so an index has to be a large one.
        for name, text in COLUMNS.items():
            self.check_references_of_column(name, text)

    def check_references_of_column(self, name, text):
        texts = [text] * 1_000 + [""] * 3
        lines, long = "\n".join(texts).encode(), f"{text}\n".encode() * (40_000 if name == "datetime_column" else 10_000) + b"\n\n"
        sources = [lambda: texts, lambda: iter(texts), lambda: lines, lambda: bytearray(lines), lambda: memoryview(lines), lambda: array.array("B", lines),
                   lambda: io.BytesIO(lines), lambda: memoryview(lines)[::2], lambda: [*texts, 5], lambda: {}, lambda: long, lambda: [None] * 1_000]
        for make in sources:
            for refused in ("stop", "number", "collect"):
                once = lambda: outcome(speedate, name, [anew(make)], {"refused": same(refused), "lines": same(True)})
                self.assertLess(growth(once, 20), 0.5, (make(), refused))

    def test_imports(self):
        # What is left behind by an import that leaks are all its zones, errors and functions.
        self.assertLess(growth(import_anew, 20), 20)
        failing = [("datetime", {"datetime_CAPI": None}), *(("speedate._types", it) for it in ({"Config": None}, {"_items": None}, {"ParseError": KeyError}, {"ParseError": 5}, {"ParseError": ValueError}))]
        for module, names in failing:
            with self.subTest(module, names=names):
                self.assertRegex(fail_import(module, **names), "^speedate needs|^speedate.ParseError is no ValueError|^speedate.ParseError has no slot _source")
                self.assertLess(growth(lambda: fail_import(module, **names), 20), 20)
        with self.assertRaises(ValueError):
            fail_import("datetime", datetime_CAPI=5)

    def test_interpreters(self):
        module = installed("_interpreters", "_xxsubinterpreters")
        if module is None:
            self.skipTest("this Python has no module of interpreters")
        for own_lock in (False, True):
            for _ in range(3):
                try:
                    told = run_interpreter(module, own_lock)
                except Exception as error:
                    told = error
                if told is not None and own_lock and sys.version_info < (3, 13):
                    self.assertRegex(str(told), "ImportError|ModuleNotFoundError|does not support loading in subinterpreters")
                else:
                    self.assertIsNone(told)
        if sys.version_info >= (3, 13):
            self.assertEqual(in_threads(lambda: [run_interpreter(module, True) for _ in range(3)], 4), [])

    def test_threads(self):
        draw = random.Random(2)
        calls = [drawn_call(draw) for _ in range(500)]
        wanted = [outcome(speedate, *it) for it in calls]

        def run():
            for _ in range(5):
                assert [outcome(speedate, *it) for it in calls] == wanted
        self.assertEqual(in_threads(run), [])


if __name__ == "__main__":
    if sys.argv[1:] and sys.argv[1].isdigit():
        COUNT = int(sys.argv.pop(1))
    unittest.main()
