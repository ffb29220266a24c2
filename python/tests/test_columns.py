"""Tests of columns: whatever has lines or texts, what is missing, which texts are refused, blocks, interrupts, threads and memory."""
import array
import ctypes
import datetime
import decimal
import functools
import gc
import gzip
import importlib
import io
import itertools
import mmap
import os
import pathlib
import pickle
import random
import signal
import subprocess
import sys
import tempfile
import threading
import time
import unittest
import unittest.mock
import warnings
import weakref

import speedate

NAT = -(2**63)
LINES, NUMBERS = b"1970-01-01T00:00:01Z\nnever\r\n1970-01-01T00:00:02.5Z\r\n", [1_000_000, NAT, 2_500_000]
SECOND = "1970-01-01T00:00:01Z"
# A line without offset, with nine digits, a date alone, and what is no UTF-8.
MIXED = b"2020-02-29T12:13\n2020-02-29T12:13:14.123456789Z\n2020-02-29\n\xff\n1970-01-01T00:00:00,5+00:00"


def installed(name):
    try:
        return importlib.import_module(name)
    except ImportError:
        return None


numpy, pandas, pyarrow = map(installed, ("numpy", "pandas", "pyarrow"))


def column(texts, **options):
    return speedate.datetime_column(texts, **{"refused": "number", **options}).tolist()


def collected(texts, read=speedate.datetime_column, **options):
    """The numbers of a column, and the errors of its texts."""
    made = read(texts, refused="collect", **options)
    return made.tolist(), list(made.refused)


def spread(data):
    """The bytes in memory with gaps."""
    room = bytearray(2 * len(data))
    room[::2] = data
    return memoryview(bytes(room))[::2]


def forms(texts, end):
    """The lines of texts in each kind of input that has lines."""
    whole = end.join([*texts, ""])
    data = whole.encode()
    yield from (data, data[:-len(end)], bytearray(data), memoryview(bytearray(data)), array.array("b", data), spread(data), io.BytesIO(data), io.StringIO(whole, newline=""))


def rows(texts):
    """The texts in each kind of input that has items."""
    yield from (texts, tuple(texts), iter(texts))
    if numpy:
        yield from (numpy.array(texts), numpy.array(texts, "S"))


class Exporter:
    """What has bytes in Python 3.12 and later."""

    def __buffer__(self, flags):
        return memoryview(LINES)


class Liar(bytes):
    def __buffer__(self, flags):
        return memoryview(b"24:00")

    def __iter__(self):
        raise AssertionError

    __len__ = __getitem__ = __bytes__ = decode = __iter__


class LiarToo(bytearray):
    __buffer__, __iter__ = Liar.__buffer__, Liar.__iter__
    __len__ = __getitem__ = __iter__


class Reads:
    """A file, as far as it has lines."""

    def __init__(self, *lines):
        self.lines = lines

    def __iter__(self):
        return iter(self.lines)

    def __enter__(self):
        return self

    def __exit__(self, *_):
        pass

    readline = None


class Sources(unittest.TestCase):
    def test_bytes(self):
        mapped = mmap.mmap(-1, len(LINES))
        mapped.write(LINES)
        sources = [
            LINES, bytearray(LINES), memoryview(LINES), memoryview(bytearray(LINES)), memoryview(bytearray(LINES)).toreadonly(), mapped, spread(LINES),
            memoryview(LINES).cast("c"), memoryview(LINES).cast("b"), memoryview(LINES + b"\n" * (-len(LINES) % 2)).cast("B", [2, (len(LINES) + 1) // 2]),
            array.array("B", LINES), array.array("b", LINES), (ctypes.c_char * len(LINES))(*LINES), (ctypes.c_ubyte * len(LINES))(*LINES),
            (ctypes.c_byte * len(LINES))(*LINES), io.BytesIO(LINES).getbuffer()]
        sources += [Exporter()] if sys.version_info >= (3, 12) else []
        sources += [pyarrow.py_buffer(LINES)] if pyarrow else []
        if numpy:
            whole = numpy.frombuffer(LINES, "u1")
            sources += [whole, whole.astype("i1"), whole.copy(), numpy.repeat(whole, 2)[::2], numpy.asfortranarray(whole.copy())]
        for it in sources:
            with self.subTest(type(it), it=it):
                self.assertEqual(column(it)[:3], NUMBERS)
        for kind in (Liar, LiarToo):
            self.assertEqual(column(kind(LINES)), NUMBERS)
            self.assertEqual(speedate.time(kind(b"12:13")).hour, 12)
            self.assertEqual(column([kind(b"1970-01-01T00:00Z")]), [0])
        mapped.close()
        with self.assertRaises(ValueError):
            column(mapped)

    def test_files(self):
        with tempfile.TemporaryDirectory() as folder:
            path = pathlib.Path(folder, "moments.txt")
            path.write_bytes(LINES)
            makers = [
                lambda: open(path), lambda: open(path, newline=""), lambda: open(path, newline="\n"), lambda: open(path, "rb"), lambda: open(path, "rb", 0),
                lambda: io.BytesIO(LINES), lambda: io.StringIO(LINES.decode(), newline=""), lambda: gzip.open(io.BytesIO(gzip.compress(LINES))),
                lambda: Reads(*LINES.splitlines(True)), lambda: Reads(*map(bytearray, LINES.splitlines(True)))]
            for number, make in enumerate(makers):
                with self.subTest(number), make() as file:
                    self.assertEqual(column(file), NUMBERS)
            with open(path, "rb") as file, mmap.mmap(file.fileno(), 0, access=mmap.ACCESS_READ) as mapped:
                self.assertEqual(column(mapped), NUMBERS)
                self.assertEqual(column(memoryview(mapped)), NUMBERS)
            with open(path) as file:
                self.assertEqual(file.readline(), f"{SECOND}\n")
                self.assertEqual(column(file), NUMBERS[1:])
            with open(path, "rb") as file:
                self.assertEqual([str(it) for it in collected(file)[1]], ["too_short in text 1 at 5: expected a date-time: YYYY-MM-DDTHH:MM or YYYY-MM-DDTHH:MM:SS: b'never'"])
        self.assertEqual(column(Reads(f"{SECOND}\n", None, f"{SECOND}\n\n", f"{SECOND}\r")), [1_000_000, NAT, NAT, 1_000_000])
        with self.assertRaisesRegex(TypeError, "^text 1 has to be str or bytes or bytearray or memoryview, not list$"):
            column(Reads(SECOND, []))

    @unittest.skipUnless(numpy, "NumPy is not installed")
    def test_numpy(self):
        moments = numpy.asarray(speedate.datetime_column(
            ["2020-02-29T12:13:14.5Z", "never", "0000-01-01T00:00Z", "9999-12-31T23:59:59.999999Z"], refused="number"))
        self.assertEqual(moments.astype(str).tolist(), ["2020-02-29T12:13:14.500000", "NaT", "0000-01-01T00:00:00.000000", "9999-12-31T23:59:59.999999"])
        for kind in ("U", "S", "U40", "S40", object):
            self.assertEqual(column(numpy.array([SECOND, "", SECOND], dtype=kind)), [1_000_000, NAT, 1_000_000])
        self.assertEqual(column(numpy.array(["\u2212" * 3, SECOND.replace("Z", "\u221200:00")])), [NAT, 1_000_000])
        self.assertEqual(column(numpy.array([SECOND, None, numpy.nan, numpy.float64("nan")], dtype=object)), [1_000_000, NAT, NAT, NAT])
        # What pandas.isna says is missing, of each type.
        missing = [numpy.float32("nan"), numpy.float16("nan"), numpy.datetime64("NaT"), numpy.timedelta64("NaT"), decimal.Decimal("nan"), *([pandas.NA, pandas.NaT] if pandas else [])]
        for options in ({}, {"timestamps": True}):
            self.assertEqual(column([*missing, SECOND], **options), [NAT] * len(missing) + [1_000_000])
        if pandas:
            self.assertEqual([it for it in missing if not pandas.isna(it)], [])

    @unittest.skipUnless(pandas, "pandas is not installed")
    def test_durations_of_pandas(self):
        """Its texts have no years. Below zero they have a sign within, and are refused."""
        for it in (0, 1, 86_399, 400 * 86_400, 10**9):
            self.assertEqual(speedate.duration(pandas.Timedelta(it, "s").isoformat()), datetime.timedelta(seconds=it))
        for it in (-1, -86_401, -(10**9)):
            with self.assertRaisesRegex(speedate.ParseError, "^duration_invalid_number at "):
                speedate.duration(pandas.Timedelta(it, "s").isoformat())
        self.assertEqual(pandas.Timedelta(-1, "s").isoformat(), "P-1DT23H59M59S")

    @unittest.skipUnless(numpy, "NumPy is not installed")
    def test_timestamps_of_numpy(self):
        days, unix = numpy.arange(-40_000, 40_000), speedate.Config("s", 0)
        seconds = days * 86_400
        whole = [seconds, seconds.astype(">i8"), numpy.repeat(seconds, 2)[::2], seconds.tolist(), iter(seconds)]
        for it in [*whole, *([pandas.Series(seconds, index=-days), pandas.Index(seconds)] if pandas else [])]:
            read = speedate.datetime_column(it, config=unix, timestamps=True)
            self.assertEqual(numpy.asarray(read).tolist(), seconds.astype("datetime64[s]").tolist())
        self.assertEqual(speedate.date_column(seconds, config=speedate.Config("s"), timestamps=True).tolist(), days.tolist())
        for wrong, kind in ((numpy.array([True]), "bool_?"), (numpy.zeros(2), "float64"), (days.astype("M8[D]"), "datetime64")):
            with self.assertRaisesRegex(TypeError, f"^text 0 has to be .*, not {kind}(: .* makes integers of floats, .*|: it is parsed already)?$"):
                column(wrong, config=unix, timestamps=True)
        for it in (numpy.float64(1), numpy.float32(1), 1.0):
            with self.assertRaisesRegex(TypeError, r"not float\d*: in pandas astype\(\"Int64\"\) makes integers of floats, which timestamps=True reads$"):
                column([SECOND, it])

    @unittest.skipUnless(pandas, "pandas is not installed")
    def test_integers(self):
        """Integers among texts are one thing in lists, arrays and Series: timestamps, or errors of their rows."""
        mixed, unix = [SECOND, 20_200_229, None, 2**64, 5, "x"], speedate.Config("s", 0)
        names, hint = ["too_short", "invalid_char_date_sep", "too_short", "too_short"], "it is an integer, which is a timestamp only with timestamps=True"
        for make in (list, iter, lambda it: numpy.array(it, "O"), lambda it: pandas.Series(it, index=range(len(it), 0, -1)), pandas.Index):
            told, errors = collected(make(mixed))
            self.assertEqual(told, [1_000_000, *[NAT] * 5])
            self.assertEqual([(it.index, it.code, it.hint) for it in errors], list(zip((1, 3, 4, 5), names, [hint] * 3 + [None])))
            self.assertEqual([it.text for it in errors], [str(mixed[it.index]) for it in errors])
            told, errors = collected(make(["x", 10**5000]))
            self.assertEqual(told, [NAT] * 2)
            self.assertEqual((errors[1].text, errors[1].hint), (hex(10**5000), hint))
            self.assertEqual(column(make(mixed), config=unix, timestamps=True), [1_000_000, 20_200_229_000_000, NAT, NAT, 5_000_000, NAT])
        # A column of integers is the same in each form. Those of one byte in memory are texts, so a Series of them is refused.
        for kind in ("i2", "u4", "i8", "u8"):
            numbers = numpy.array([5, 20_000], kind)
            for it in (numbers, numbers.tolist(), pandas.Series(numbers), pandas.Series(numbers).astype("Int64")):
                told, errors = collected(it)
                self.assertEqual(told, [NAT] * 2)
                self.assertEqual([(it.text, it.code, it.start) for it in errors], [("5", "too_short", 1), ("20000", "too_short", 5)])
                self.assertEqual(column(it, config=unix, timestamps=True), [5_000_000, 20_000_000_000])
        for kind in ("int8", "uint8"):
            for it in (pandas.Series([1, 2], dtype=kind), *([pandas.Index([1, 2], dtype=kind)] if pandas.Index([1], dtype=kind).dtype == kind else [])):
                with self.assertRaisesRegex(TypeError, r"^value has integers of one byte, which are texts in memory: astype\(\"int64\"\) makes "):
                    column(it, config=unix, timestamps=True)
        # A file with an empty cell has floats, of which Int64 makes integers.
        frame = pandas.read_csv(io.StringIO("a,b\n1,5\n,6\n"))
        with self.assertRaisesRegex(TypeError, 'astype\\("Int64"\\)'):
            column(frame["a"], config=unix, timestamps=True)
        self.assertEqual(column(frame["a"].astype("Int64"), config=unix, timestamps=True), [1_000_000, NAT])

    @unittest.skipUnless(pandas and not hasattr(sys, "gettotalrefcount"), "there is no pandas, or a debug Python, which its objects stop")
    def test_pandas(self):
        texts = ["1677-09-22T00:00Z", "2020-02-29T12:13:14.5+01:00", "2262-04-11T23:47:16Z"]
        series = pandas.Series(speedate.datetime_column(texts))
        self.assertEqual(series.tolist(), [pandas.Timestamp(it).tz_convert(None) for it in texts])
        self.assertEqual(series.dt.tz_localize("UTC").tolist(), [pandas.Timestamp(it).tz_convert("UTC") for it in texts])
        if int(pandas.__version__.partition(".")[0]) < 2:
            with self.assertRaises(ValueError):
                pandas.Series(speedate.datetime_column(["2262-04-12T00:00Z"]))
        for missing in (None, float("nan"), pandas.NA, pandas.NaT):
            texts = pandas.Series([SECOND, missing, SECOND], dtype=object)
            for options in ({"refused": "stop"}, {"refused": "number"}, {"strict": True}, {"missing_offset": "utc"}, {"timestamps": True}):
                self.assertEqual(column(texts, **options), [1_000_000, NAT, 1_000_000])
            told, errors = collected(texts)
            self.assertEqual(told, [1_000_000, NAT, 1_000_000])
            self.assertEqual(errors, [])
        self.assertEqual(column(pandas.Series([SECOND, None, SECOND], dtype="string")), [1_000_000, NAT, 1_000_000])
        self.assertEqual(column(pandas.Series([None, float("nan")])), [NAT, NAT])
        self.assertEqual(column(pandas.Series([None], dtype="datetime64[ns]")), [NAT])
        # It is read from its array, over which an iteration takes less time.
        with unittest.mock.patch.object(pandas.Series, "__iter__", side_effect=AssertionError):
            self.assertEqual(column(pandas.Series([SECOND, None], index=[5, 3])), [1_000_000, NAT])
        self.assertEqual(column(pandas.Index([SECOND])), [1_000_000])
        refused = speedate.datetime_column(["x", SECOND, "1970-01-01"], refused="collect").refused
        self.assertEqual(pandas.DataFrame({"index": refused.indices, "code": refused.codes}).values.tolist(), [[0, "too_short"], [2, "invalid_char_date_time_sep"]])
        frame = pandas.read_csv(io.StringIO(f"name,moment\na,{SECOND}\nb,\n"))
        self.assertEqual(column(frame["moment"]), [1_000_000, NAT])
        self.assertEqual(column(frame["moment"].astype("category")), [1_000_000, NAT])
        with self.assertRaisesRegex(TypeError, "^value has to be one column, not DataFrame: pass its values, or one of its columns$"):
            column(frame)
        with self.assertRaisesRegex(TypeError, "^NaT has no text$"):
            speedate.text(pandas.NaT)
        with self.assertRaisesRegex(TypeError, "^text 1 has to be .*, not Timestamp: it is parsed already$"):
            column(pandas.Series([SECOND, pandas.Timestamp(0)], dtype=object))


class Blocks(unittest.TestCase):
    """Columns of more lines than are read at a time, and of longer ones."""

    def columns(self):
        """A call, texts that it reads, more than are read at a time, and the number of each."""
        yield speedate.datetime_column, [f"1970-01-01T{it // 3600 % 24:02}:{it // 60 % 60:02}:{it % 60:02}Z" for it in range(70_000)], [it % 86_400 * 1_000_000 for it in range(70_000)]
        days = [datetime.date(year, month, day) for year in range(1970, 2170) for month in range(1, 13) for day in range(1, 29)]
        yield speedate.date_column, list(map(str, days)), [(it - datetime.date(1970, 1, 1)).days for it in days]
        yield speedate.duration_column, [f"PT{it}.{it % 10}S" for it in range(70_000)], [it * 1_000_000 + it % 10 * 100_000 for it in range(70_000)]

    def test_many(self):
        for read, texts, numbers in self.columns():
            for it in (*rows(texts), *forms(texts, "\n"), *forms(texts, "\r\n")):
                self.assertTrue(read(it).tolist() == numbers, (read, type(it)))
            self.assertTrue(collected(texts, read) == (numbers, []))
            last = len(texts) - 1
            for index in (1_000, 32_767, 32_768, last):
                wrong = [*texts[:index], "-", *texts[index + 1:]]
                for it in (*rows(wrong), *forms(wrong, "\n")):
                    with self.assertRaisesRegex(speedate.ParseError, f"^too_short in text {index} at ") as caught:
                        read(it)
                    self.assertEqual(caught.exception.index, index)
            bad = {0, 5, 32_767, 32_768, last}
            wrong = ["-" if it in bad else text for it, text in enumerate(texts)]
            wanted = [NAT if it in bad else number for it, number in enumerate(numbers)]
            for it in (*rows(wrong), *forms(wrong, "\r\n")):
                told, errors = collected(it, read)
                self.assertTrue(told == wanted, (read, type(it)))
                self.assertEqual([it.index for it in errors], sorted(bad))
            for it in (wrong, *forms(wrong, "\n")):
                self.assertTrue(read(it, refused="number").tolist() == wanted, (read, type(it)))

    def test_long_lines(self):
        for size in (1, 262_142, 262_143, 262_144, 262_145, 600_000):
            texts = [SECOND, "x" * size, SECOND, "", "y" * size]
            for it in (texts, *forms(texts, "\n")):
                self.assertEqual(column(it), [1_000_000, NAT, 1_000_000, NAT, NAT])
        text = SECOND[:-1] + "." + "1" * 600_000 + "Z"
        for it in forms([SECOND, text], "\r\n"):
            self.assertEqual(column(it, config=speedate.Config(overflow_behavior="truncate")), [1_000_000, 1_111_111])

    def test_odd_iterables(self):
        class Grows(list):
            def __iter__(self):
                yield SECOND
                raise OSError("cut off")

        with self.assertRaisesRegex(OSError, "^cut off$"):
            column(Grows())
        texts = [SECOND]
        texts.append(type("Text", (str,), {"__del__": lambda self: texts.extend([SECOND] * 3)})(SECOND))
        self.assertEqual(column(texts), [1_000_000] * 2)


class Units(unittest.TestCase):
    """What other programs make of a column."""

    def made(self):
        """A column of each kind with 1,000 of its units and one that is missing, and what it is in NumPy."""
        for read, text, unit in (
                (speedate.date_column, "1972-09-27", "M8[D]"), (speedate.datetime_column, "1970-01-01T00:00:00.001Z", "M8[us]"),
                (speedate.datetime_clock_column, "1970-01-01T00:00:00.001", "M8[us]"), (speedate.time_column, "00:00:00.001", "m8[us]"),
                (speedate.duration_column, "PT0.001S", "m8[us]"), (speedate.datetime_offset_column, "1970-01-01T00:00+00:16", "m8[s]")):
            yield read([text, None]), unit, 960 if unit == "m8[s]" else 1_000

    def test_pickle(self):
        for column, *_ in self.made():
            self.assertEqual(pickle.loads(pickle.dumps(column)), column)
        texts = ["x", SECOND, b"y", memoryview(b"z"), bytearray(b"24:00"), 5, "1970-01-01T00:00"]
        for column in (speedate.datetime_column(texts, refused="collect"), speedate.datetime_column(MIXED, refused="collect")):
            again = pickle.loads(pickle.dumps(column))
            self.assertEqual((again, list(map(str, again.refused)), again.refused.indices), (column, list(map(str, column.refused)), column.refused.indices))

    def test_slices(self):
        """A part of a column is the column of that part of its texts."""
        texts = ["x", SECOND, None, "1970-01-01", b"y", "PT1S", SECOND, 5, ""]
        for read in (speedate.datetime_column, speedate.date_column, speedate.duration_column):
            for place in itertools.starmap(slice, itertools.product((None, -9, -3, 0, 2, 9), (None, -2, 0, 5, 12), (None, -3, -1, 2))):
                part, wanted = read(texts, refused="collect")[place], read(texts[place], refused="collect")
                self.assertEqual((part, part.refused.indices, list(map(str, part.refused))), (wanted, wanted.refused.indices, list(map(str, wanted.refused))), place)

    @unittest.skipUnless(numpy, "NumPy is not installed")
    def test_numpy(self):
        for column, unit, number in self.made():
            times = numpy.asarray(column)
            self.assertEqual((times.dtype, times.view("i8").tolist(), numpy.isnat(times).tolist()), (numpy.dtype(unit), [number, NAT], [False, True]))
            self.assertTrue(numpy.shares_memory(times, numpy.frombuffer(column.numbers, "i8")))
            with self.assertRaises(ValueError):
                times[0] = times[0]
            copied = numpy.array(column)
            copied[0] = "NaT"
            self.assertEqual((column.tolist(), memoryview(column.numbers).tolist()), ([number, NAT], [number, NAT]))
            self.assertEqual(numpy.asarray(column, "M8[ns]" if unit[0] == "M" else "m8[ms]").dtype.kind, unit[0])
            self.assertEqual(speedate.text_column(times, kind=column.kind) if unit != "m8[s]" else b"", speedate.text_column(column) if unit != "m8[s]" else b"")
            with self.assertRaises(ValueError):
                column.__array__("M8[ns]", copy=False)
        self.assertEqual(numpy.asarray(speedate.date_column([])).shape, (0,))

    @unittest.skipUnless(pandas and not hasattr(sys, "gettotalrefcount"), "there is no pandas, or a debug Python, which its objects stop")
    def test_pandas(self):
        """NaT stays NaT, and no call writes into the column."""
        for column, unit, number in self.made():
            wanted = [pandas.Timestamp(number, unit=unit[3:-1]) if unit[0] == "M" else pandas.Timedelta(number, unit=unit[3:-1]), pandas.NaT]
            frame = pandas.DataFrame({"a": [1, 2]})
            frame["b"] = column
            made = [pandas.Series(column), column.series(), column[:].series(), pandas.Series(column[::-1])[::-1], pandas.DataFrame(column)[0], frame.assign(m=column)["m"], frame["b"], pandas.DataFrame({"m": column})["m"], pandas.Series(column, index=[5, 3])]
            if unit[0] == "M":
                made += [pandas.Series(pandas.to_datetime(column)), pandas.Series(pandas.to_datetime(column, utc=True)).dt.tz_convert(None)]
            else:
                made += [pandas.Series(pandas.to_timedelta(column))]
            for it in made:
                self.assertEqual((it.tolist(), it.dtype.kind), (wanted, unit[0]))
            self.assertEqual(column.tolist(), [number, NAT])
        for unit in ("us", "ns"):
            try:
                told = pandas.to_datetime(column, unit=unit, utc=True)
            except (TypeError, ValueError):
                continue
            self.assertIs(told[1], pandas.NaT)
        self.assertEqual(column.tolist(), [960, NAT])

    @unittest.skipUnless(pandas and not hasattr(sys, "gettotalrefcount"), "there is no pandas, or a debug Python, which its objects stop")
    def test_series(self):
        """The rows of a column are those of the Series that it was read from."""
        texts, second = [SECOND, "x", None, SECOND], pandas.Timestamp(SECOND).tz_convert(None)
        levels = pandas.MultiIndex.from_product([["a", "b"], [1, 2]])
        for index in ([5, 3, 5, 1], list("dcba"), levels, pandas.date_range("2026-11-01", periods=4), pandas.RangeIndex(8, 0, -2)):
            for name in ("moment", None, ("a", 1)):
                for kind in ("object", "string", "category"):
                    read = pandas.Series(texts, index, name=name, dtype=kind)
                    column = speedate.datetime_column(read, refused="collect")
                    wanted = pandas.Series([second, pandas.NaT, pandas.NaT, second], index, name=name, dtype=numpy.asarray(pandas.Series(column)).dtype)
                    for told in (column, pickle.loads(pickle.dumps(column)), column[:], speedate.datetime_column(read, refused="number")):
                        pandas.testing.assert_series_equal(told.series(), wanted)
                    for place in (slice(1, None), slice(None, None, -2), slice(9, None)):
                        pandas.testing.assert_series_equal(column[place].series(), wanted.iloc[place])
        frame = pandas.DataFrame({"moment": texts})[1:][::-1]
        frame["told"] = speedate.datetime_column(frame["moment"], refused="number").series()
        self.assertEqual(frame["told"].tolist(), [second, pandas.NaT, pandas.NaT])
        unix = {"timestamps": True, "config": speedate.Config("s", 0)}
        for it in (pandas.Series([1, 2], [4, 3], name="n"), pandas.Series([1, 2], [4, 3], name="n", dtype="Int64")):
            told = speedate.datetime_column(it, **unix).series()
            self.assertEqual((told.index.tolist(), told.name, told.dt.second.tolist()), ([4, 3], "n", [1, 2]))
        # What has no labels gives none.
        for it in (texts, tuple(texts), iter(texts), numpy.array([*map(str, texts)]), pandas.Index(texts, name="moment"), frame["moment"].tolist(), LINES):
            told = speedate.datetime_column(it, refused="number").series()
            self.assertEqual((told.index.tolist(), told.name), ([*range(len(told))], None))
        kept = sys.getrefcount(read.index)
        for _ in range(100):
            speedate.datetime_column(read, refused="number")
        self.assertLess(sys.getrefcount(read.index) - kept, 50)
        # It has its own memory.
        column = speedate.duration_column(pandas.Series(["PT1S"]))
        told = column.series()
        told[0] = pandas.NaT
        self.assertEqual((column.tolist(), told.tolist()), ([1_000_000], [pandas.NaT]))

    @unittest.skipUnless(numpy, "NumPy is not installed")
    def test_masked(self):
        mask = [False, True, False]
        for items, options in (([SECOND, SECOND, SECOND], {}), ([b"1970-01-01T00:00:01Z"] * 3, {}), ([1, 1, 1], {"timestamps": True, "config": speedate.Config("s", 0)}), (numpy.array([SECOND] * 3, "O"), {})):
            self.assertEqual(column(numpy.ma.array(items, mask=mask), **options), [1_000_000, NAT, 1_000_000])
            self.assertEqual(column(numpy.ma.array(items), **options), [1_000_000] * 3)
        self.assertEqual(speedate.text_column(numpy.ma.array([1, 2, 3], mask=mask), kind="date"), b"1970-01-02\n\n1970-01-04\n")

    @unittest.skipUnless(pandas and not hasattr(sys, "gettotalrefcount"), "there is no pandas, or a debug Python, which its objects stop")
    def test_errors_with_cures(self):
        texts = numpy.array([[SECOND, SECOND], [SECOND, SECOND]])
        for wrong in (texts, texts.astype("O"), numpy.ma.array(texts), numpy.zeros((1, 2), "i8"), texts[:1]):
            with self.assertRaisesRegex(TypeError, r"^value has to be one column, not an array of 2 dimensions: pass values\[:, 0\], or values.ravel\(\)$"):
                column(wrong)
        for wrong in (numpy.array(SECOND), numpy.array(5), texts.reshape(1, 2, 2)):
            with self.assertRaisesRegex(TypeError, r"^value has to be one column, not an array of [03] dimensions: pass values.ravel\(\)$"):
                column(wrong)
        self.assertEqual(column(texts[:, 0]) + column(texts.ravel()) + column(numpy.array(SECOND).ravel()), [1_000_000] * 7)
        moments = pandas.Series(pandas.to_datetime([SECOND]))
        for wrong in (moments, moments.dt.tz_convert(None), pandas.Index(moments), moments.dt.tz_convert(None).to_numpy()):
            with self.assertRaisesRegex(TypeError, "^text 0 has to be .*, not (Timestamp|datetime64): it is parsed already$"):
                column(wrong)
        for wrong in (moments, pandas.Index(moments), moments.dt.tz_convert(None)):
            with self.assertRaisesRegex(TypeError, r"^value has to be of datetime64\[us\], not datetime64\[ns(, UTC)?\]: (.*) makes it so$") as caught:
                speedate.text_column(wrong, kind="datetime")
            cured = eval(f"wrong{str(caught.exception).split(': ')[1].replace(' makes it so', '')}")
            self.assertEqual(speedate.text_column(cured, kind="datetime"), b"1970-01-01T00:00:01Z\n")

    @unittest.skipUnless(numpy, "NumPy is not installed")
    def test_texts_of_numpy(self):
        """An array of texts takes no longer than its list, though an iteration over it makes an object of NumPy for each."""
        for array_of in (numpy.array([SECOND] * 200_000), numpy.array([SECOND.encode()] * 200_000)):
            took = {}
            for name, read in [("array", lambda: column(array_of)), ("list", lambda: column(array_of.tolist()))] * 5:
                before = time.process_time()
                read()
                took[name] = min(took.get(name, 9), time.process_time() - before)
            self.assertLess(took["array"], 1.3 * took["list"], took)


class Refusals(unittest.TestCase):
    """What a column tells of the texts that it refuses."""

    def test_written_later(self):
        data = bytearray(b"1970-01-01T00:00Z\n24:00\n")
        for source in (data, [data[18:23]], [memoryview(data)[18:23]]):
            errors = collected(source)[1]
            data[18:23] = b"12:13"
            self.assertEqual((errors[0].text, errors[0].start), (b"24:00", 5))
            data[18:23] = b"24:00"
        del source

    def test_unit(self):
        """The digits that a unit does not have."""
        error = collected(["1.0000000"], config=speedate.Config("us"), timestamps=True)[1][0]
        self.assertEqual((error.code, error.start, error.end), ("microsecond_fraction_too_long", 2, 9))

    def test_end_of_the_program(self):
        """What an item raises as it is compared means that it is not missing, unless it is to end the program."""
        for error, wanted in ((ValueError, TypeError), (KeyboardInterrupt, KeyboardInterrupt), (SystemExit, SystemExit)):
            def fail(*_):
                raise error

            for compared in (fail, lambda *_: type("Truth", (), {"__bool__": fail})()):
                item = type("Item", (), {"__ne__": compared})()
                for call in (speedate.datetime_column, functools.partial(speedate.text_column, kind="date")):
                    with self.assertRaises(wanted):
                        call([item])

    def test_kept_item(self):
        class Text(str):
            pass

        text = Text("24:00")
        text.refused = speedate.datetime_column([text], refused="collect").refused
        gone = weakref.ref(text)
        self.assertIs(text.refused[0].text, text)
        del text
        gc.collect()
        self.assertIsNone(gone())

    def test_many(self):
        """The arrays beside the errors, over blocks and rows."""
        texts = ["" if it % 3 == 0 else "x" * (it % 40) if it % 3 == 1 else SECOND for it in range(70_000)]
        for make in (list, lambda it: "\n".join([*it, ""]).encode(), lambda it: bytearray("\r\n".join([*it, ""]).encode())):
            for options in ({}, {"empty": "nat"}):
                made = speedate.datetime_column(make(texts), refused="collect", **options)
                self.assertTrue(made.tolist() == column(make(texts), **options))
                empty = [] if options else range(0, 70_000, 3)
                wanted = sorted([*empty, *(it for it in range(1, 70_000, 3) if it % 40 or not options)])
                self.assertTrue(made.refused.indices.tolist() == wanted and made.refused.codes == [it.code for it in made.refused])
                self.assertTrue([(it.index, it.text) for it in made.refused] == [(it, texts[it] if make is list else texts[it].encode()) for it in wanted])
                refused = made.refused
                self.assertEqual((len(refused), refused[-1].index, len(refused[1:3])), (len(wanted), wanted[-1], 2))

    def test_empty_is_raised_past(self):
        lines = b"\n" * 70_000 + b"x\n"
        for it in (lines, bytearray(lines), io.BytesIO(lines), lines.decode().split("\n")):
            with self.assertRaisesRegex(speedate.ParseError, "^too_short in text 70000 at "):
                column(it, refused="stop", empty="nat")
        self.assertTrue(column(lines[:-2], refused="stop", empty="nat") == [NAT] * 70_000)
        for read in (speedate.date_column, speedate.duration_column):
            self.assertTrue(read(lines[:-2], empty="nat").tolist() == [NAT] * 70_000)

    def test_lines(self):
        with tempfile.TemporaryDirectory() as folder:
            path = pathlib.Path(folder, "moments.txt")
            path.write_bytes(LINES)
            for make in (list, tuple, lambda it: itertools.islice(it, 3), lambda it: (one for one in it)):
                for mode, options in (("r", {}), ("r", {"newline": ""}), ("rb", {})):
                    with open(path, mode, **options) as file:
                        self.assertEqual(column(make(file), lines=True), NUMBERS)
                    with open(path, mode, **options) as file:
                        told, errors = collected(make(file))
                        self.assertEqual(told, [NAT] * 3)
                    self.assertEqual([it.hint for it in errors], ["it has a line ending, which lines=True drops", None, "it has a line ending, which lines=True drops"])
            with open(path, "w+") as file:
                file.write(f"{SECOND}\n")
                self.assertEqual(column(file), [])
                file.seek(0)
                self.assertEqual(column(file), [1_000_000])
        self.assertEqual(column(LINES, lines=True), NUMBERS)

    def test_byte_order_mark(self):
        lines = b"\xef\xbb\xbf" + LINES
        for it in (lines, io.BytesIO(lines), io.StringIO(lines.decode(), newline="")):
            told, errors = collected(it)
            self.assertEqual(told, [NAT, NAT, 2_500_000])
            cure = ", which the encoding utf-8-sig drops" if isinstance(it, io.StringIO) else ": skip its three bytes"
            self.assertEqual([(it.code, it.hint) for it in errors], [("invalid_char_year", f"it begins with a byte order mark{cure}"), ("too_short", None)])
        mapped = mmap.mmap(-1, len(lines))
        mapped.write(lines)
        for it in (lines, bytearray(lines), mapped):
            self.assertEqual(column(memoryview(it)[3:]), NUMBERS)
        file = io.BytesIO(lines)
        file.read(3)
        self.assertEqual(column(file), NUMBERS)
        self.assertEqual(column(io.TextIOWrapper(io.BytesIO(lines), encoding="utf-8-sig")), NUMBERS)

    @unittest.skipUnless(numpy, "NumPy is not installed")
    def test_truth_values_of_numpy(self):
        with warnings.catch_warnings():
            warnings.simplefilter("ignore")
            for call in (lambda it: speedate.date(it, timestamps=True), lambda it: speedate.datetime(it, timestamps=True), lambda it: speedate.Config(timestamp_offset=it)):
                with self.assertRaisesRegex(TypeError, "has to be int, not bool_?$"):
                    call(numpy.True_)
                call(numpy.int64(0))


class Fronts(unittest.TestCase):
    def test_long_text(self):
        """No more of a text than its front is encoded, and nothing of that stays in the text."""
        for read, front in ((speedate.date_front, "2020-02-29"), (speedate.time_front, "12:13"), (speedate.datetime_front, "2020-02-29T12:13\u221201:00")):
            for wrong in (front, front[:-1] + "x"):
                text = wrong + " \u00e9" * 100_000
                before, wanted = sys.getsizeof(text), front_of(read, wrong + " \u00e9" * 10)
                self.assertEqual(front_of(read, text), wanted)
                self.assertEqual(sys.getsizeof(text), before)

    def test_every_size(self):
        """Fronts that end near what is looked at, beside those of the whole text."""
        cut = speedate.Config(overflow_behavior="truncate")
        for size in [*range(150, 300), *range(1_900, 2_100)]:
            for end in ("Z", "+01:00", "\u221201:00", "+1", "+01:60", "x"):
                for after in ("\u00e9", "\u00e9" * 100, " \u00e9" * 2_000):
                    text = f"2020-02-29T12:13:14.{'1' * size}{end}{after}"
                    told, size = front_of(speedate.datetime_front, text, config=cut)
                    self.assertEqual((told, len(text[:size].encode())), front_of(speedate.datetime_front, text.encode(), config=cut))
        self.assertEqual(front_of(speedate.datetime_front, "2020-02-29T12:13:14." + "1" * 300 + "\u00e9"), ("second_fraction_too_long", 26))


def front_of(read, text, **config):
    """The value at the front of a text and its size, or its error and the place."""
    try:
        return read(text, **config)
    except speedate.ParseError as error:
        return error.code, error.start


# The calls that read columns of the kinds that are printed, the bounds of their numbers, and the value of a number.
EPOCH = datetime.datetime(1970, 1, 1)
PRINTED = {
    "date": (speedate.date_column, -719_528, 2_932_896, lambda it: datetime.date(1970, 1, 1) + datetime.timedelta(it)),
    "time": (speedate.time_column, 0, 86_399_999_999, lambda it: (EPOCH + datetime.timedelta(microseconds=it)).time()),
    "datetime": (speedate.datetime_column, -62_167_219_200_000_000, 253_402_300_799_999_999, lambda it: (EPOCH + datetime.timedelta(microseconds=it)).replace(tzinfo=datetime.timezone.utc)),
    "datetime_clock": (speedate.datetime_clock_column, -62_167_219_200_000_000, 253_402_300_799_999_999, lambda it: EPOCH + datetime.timedelta(microseconds=it)),
    "duration": (speedate.duration_column, 1 - 2**63, 2**63 - 1, lambda it: datetime.timedelta(microseconds=it))}


# Where a number gets wider than a type, and those beside it.
EDGES = [sign * (2**bits + more) for bits in (7, 8, 15, 16, 31, 32, 53, 63, 64) for more in (-1, 0, 1) for sign in (-1, 1)]
EDGES += [sign * (10**30 + more) for more in (-1, 0, 1) for sign in (-1, 1)]


def refusal_of(kind, number):
    """The name of the fault of a number that has no text in a column of a kind, or None."""
    _, least, most, _ = PRINTED[kind]
    if number == NAT or least <= number <= most:
        return None
    if abs(number) >= (2**31 if kind == "date" else 2**63):
        return "number_too_large"
    return "time_too_large" if kind == "time" else "date_too_large" if number > 0 else "date_too_small"


def sources_of(number):
    """Columns whose last item is the number, in each type that has it: most of these are from 1 to 64 bits wide."""
    class Index:
        def __index__(self):
            return number

    sources = [[0, number], (0, number), [0, Index()]]
    sources += [array.array(code, [0, number]) for code in "hilqHILQ" if fits(number, array.array(code).itemsize * 8, code.isupper())]
    for bits in (8, 16, 32, 64):
        for unsigned in (False, True):
            if numpy and fits(number, bits, unsigned):
                whole = numpy.array([0, number], f"{'u' if unsigned else 'i'}{bits // 8}")
                # Columns of bytes are texts.
                sources += [whole] * (bits > 8) + [whole.astype(whole.dtype.newbyteorder(">")), whole.astype(object), [0, whole[1]]]
                if pandas:
                    name = f"{'UInt' if unsigned else 'Int'}{bits}"
                    sources += [pandas.Series(whole)] * (bits > 8) + [pandas.Series(whole, dtype=name), pandas.Series([None, number], dtype=name)]
    if pandas:
        sources.append(pandas.Series([0, number], dtype=object))
    return [it for it in sources if not (isinstance(it, numpy.ndarray if numpy else ()) and it.dtype.itemsize == 1)]


def fits(number, bits, unsigned):
    return 0 <= number < 2**bits if unsigned else -(2 ** (bits - 1)) <= number < 2 ** (bits - 1)


class Printed(unittest.TestCase):
    """Columns that are printed, beside the call that reads them and the texts of single values."""

    def test_inverse(self):
        draw = random.Random(1)
        for kind, (read, least, most, value) in PRINTED.items():
            numbers = [least, most, NAT, 0, *(draw.choice([NAT, draw.randrange(least, most + 1), draw.randrange(2_000)]) for _ in range(70_000))]
            for count in (0, 1, 4, 32_767, 32_768, 32_769, 70_004):
                lines = speedate.text_column(array.array("q", numbers[:count]), kind=kind)
                self.assertIs(type(lines), bytes)
                self.assertTrue(read(lines, empty="nat").tolist() == numbers[:count], (kind, count))
            for line, number in zip(lines.decode().split("\n"), numbers[:20_000]):
                # Python lacks the year 0.
                if not (number != NAT and least < 0 and kind != "duration" and number < least + 366 * (1 if kind == "date" else 86_400_000_000)):
                    self.assertEqual(line, "" if number == NAT else speedate.text(value(number)))
            for number in (least - 1, most + 1, 2**63 - 1, 1 - 2**63, 2**64, -(2**64)):
                if refusal_of(kind, number):
                    self.check_refused(kind, [0] * 5 + [number] + [0], number)

    def check_refused(self, kind, numbers, number):
        with self.assertRaises(speedate.ParseError) as caught:
            speedate.text_column(numbers, kind=kind)
        self.assertEqual((caught.exception.index, caught.exception.code), (5, refusal_of(kind, number)))
        with self.assertRaisesRegex(speedate.ParseError, "^[a-z_]*_too_(large|small) in text 40000 at 0: expected "):
            speedate.text_column(itertools.chain([0] * 40_000, [number]), kind=kind)

    def test_wide_numbers(self):
        for kind, (*_, value) in PRINTED.items():
            for number in EDGES:
                refusal = refusal_of(kind, number)
                for numbers in sources_of(number):
                    if refusal is None:
                        line = speedate.text_column(numbers, kind=kind).split(b"\n")[1]
                        self.assertEqual(line.decode(), "" if number == NAT else speedate.text(value(number)), (kind, numbers))
                        continue
                    with self.assertRaises(speedate.ParseError) as caught:
                        speedate.text_column(numbers, kind=kind)
                    self.assertEqual((caught.exception.code, caught.exception.index), (refusal, 1), (kind, numbers))

    def test_wide_timestamps(self):
        unit = speedate.Config("us", 0)
        for read in (speedate.datetime_column, speedate.datetime_clock_column, speedate.datetime_offset_column, speedate.date_column):
            read = functools.partial(read, timestamps=True, config=unit)
            for number in EDGES:
                if abs(number) < 2**62:
                    refusal = None if read.func is not speedate.date_column else "date_not_exact"
                else:
                    refusal = "number_too_large" if not fits(number, 64, False) else "date_too_large" if number > 0 else "date_too_small"
                wanted = NAT if refusal else 0 if read.func is speedate.datetime_offset_column else number
                for numbers in sources_of(number):
                    told, errors = collected(numbers, read)
                    self.assertEqual(told[1], wanted, numbers)
                    if refusal is None:
                        self.assertEqual(errors, [])
                        continue
                    self.assertEqual([(it.code, it.index, it.text, it.start, it.end) for it in errors], [(refusal, 1, str(number), 0, len(str(number)))], numbers)
                    with self.assertRaisesRegex(speedate.ParseError, f"^{refusal} in text 1 at 0: expected "):
                        read(numbers)

    def test_sources(self):
        for kind, (read, *_) in PRINTED.items():
            numbers = [5, NAT, 1_000]
            wanted = speedate.text_column(numbers, kind=kind)
            self.assertEqual(wanted.count(b"\n"), 3)
            missing = [None, float("nan"), decimal.Decimal("nan"), *([pandas.NA, pandas.NaT] if pandas else [])]
            sources = [array.array("q", numbers), tuple(numbers), iter(numbers), memoryview(array.array("q", [5, 0, NAT, 0, 1_000, 0]))[::2], read(wanted, empty="nat"), *([5, it, 1_000] for it in missing)]
            if numpy:
                unit = {"date": "M8[D]", "time": "m8[us]", "duration": "m8[us]"}.get(kind, "M8[us]")
                whole = numpy.array(numbers)
                sources += [whole, whole.astype(">i8"), numpy.repeat(whole, 2)[::2], whole.view(unit), numpy.repeat(whole.view(unit), 2)[::2], whole.astype(object)]
                self.assertEqual(speedate.text_column(numpy.array([5, 100], "i1"), kind=kind), speedate.text_column([5, 100], kind=kind))
                for wrong in ("M8[ns]", "m8[s]", "M8[D]" if unit != "M8[D]" else "M8[us]"):
                    with self.assertRaisesRegex(TypeError, r"^value has to be of \w+64\[\w+\], not \w+64\[\w+\]: astype\(.* makes it so$"):
                        speedate.text_column(whole.view(wrong), kind=kind)
            if pandas:
                sources += [pandas.Series(numbers, index=[3, 2, 1]), pandas.Index(numbers), pandas.Series([5, None, 1_000], dtype="Int64")]
            for it in sources:
                self.assertEqual(speedate.text_column(it, kind=kind), wanted, (kind, it))
        if pandas and int(pandas.__version__.partition(".")[0]) >= 1:
            moments = pandas.Series(pandas.to_datetime(["2020-02-29T12:13:14.5Z", None]))
            self.assertEqual(speedate.text_column(moments.dt.tz_convert(None).to_numpy("datetime64[us]"), kind="datetime"), b"2020-02-29T12:13:14.500000Z\n\n")
        for wrong, words in ((5, "'int' object is not iterable"), ("5", "an iterable of integers, not str"), (b"5", "not bytes"), ({}, "one column, not dict"), ([1.5], "number 0 has to be int, not float"), ([0, "1"], "number 1 has to be int, not str"), ([True], "not bool")):
            with self.assertRaisesRegex(TypeError, words):
                speedate.text_column(wrong, kind="date")


class Interpreter(unittest.TestCase):
    def sources(self, count):
        yield f"{SECOND}\n".encode() * count
        yield bytearray(f"{SECOND}\n".encode() * count)
        yield [SECOND] * count
        yield itertools.repeat(SECOND, count)

    def test_interrupt(self):
        class Interrupt(Exception):
            pass

        def interrupt(*_):
            raise Interrupt

        gc.collect()  # what other tests left behind could hear the signal
        before = signal.signal(signal.SIGALRM, interrupt)
        try:
            moments = [(speedate.datetime_column, it) for it in self.sources(2_000_000)]
            for read, it in (*moments, (speedate.date_column, b"1970-01-02\n" * 6_000_000), (speedate.duration_column, b"PT1S\n" * 6_000_000), *((speedate.text_column, it) for it in ([5] * 4_000_000, array.array("q", [5] * 4_000_000)))):
                told = []
                with self.assertRaises(Interrupt):
                    signal.setitimer(signal.ITIMER_REAL, 0.005)
                    # A column that has heard nothing is in the list before the interpreter hears it.
                    told.extend(map(functools.partial(read, kind="datetime") if read is speedate.text_column else read, [it]))
                    time.sleep(1)
                self.assertEqual(len(told), 0, type(it))
        finally:
            signal.setitimer(signal.ITIMER_REAL, 0)
            signal.signal(signal.SIGALRM, before)

    def test_other_threads(self):
        # The last one is a single line, which is read at once.
        long, cut = b"1970-01-01T00:00:01." + b"0" * 64_000_000 + b"Z", speedate.Config(overflow_behavior="truncate")
        for it in (*self.sources(2_000_000), long):
            state, told = [], []

            def run():
                state.append("begun")
                told.append(speedate.datetime_column(it, config=cut))
                state.append("done")

            thread, count = threading.Thread(target=run), 0
            before = sys.getswitchinterval()
            sys.setswitchinterval(1e-5)
            try:
                thread.start()
                while len(state) < 2:
                    count += len(state)
                    time.sleep(0)
                thread.join()
            finally:
                sys.setswitchinterval(before)
            self.assertEqual(set(told[0]), {1_000_000})
            self.assertGreater(count, 20, type(it))

    def test_turns(self):
        """How long another thread waits at most while a column holds the lock, in time of the processors: other programs take none."""
        if sys.flags.dev_mode:
            self.skipTest("memory that is checked takes its own time")

        def run(call, took, done):
            before = time.process_time()
            call()
            took.append(time.process_time() - before)
            done.append(True)

        def longest_wait(call):
            took, done, longest = [], [], 0
            thread, last = threading.Thread(target=run, args=[call, took, done]), time.process_time()
            thread.start()
            while not done:
                now = time.process_time()
                longest, last = max(longest, now - last), now
            thread.join()
            return longest, took[0]

        texts, numbers, unix, read = [SECOND] * 2_000_000, array.array("q", range(8_000_000)), speedate.Config("s", 0), speedate.datetime_column
        for call in (
                lambda: read(texts), lambda: read(numbers, config=unix, timestamps=True), lambda: read(b"x\n" * 4_000_000, refused="collect"),
                lambda: speedate.text_column(numbers, kind="datetime")):
            waits = []
            # Other programs may have the processors for a while.
            while len(waits) < 8 and not any(wait < min(took / 3, max(0.06, took / 8)) for wait, took in waits):
                waits.append(longest_wait(call))
            self.assertLess(len(waits), 8, waits)

    def test_two_columns(self):
        lines = b"".join(b"1970-01-01T00:00:%02dZ\n" % (it % 60) for it in range(100_000))
        data, told = bytearray(lines), [None] * 4

        def run(place):
            told[place] = speedate.datetime_column(lines if place % 2 else data)

        threads = [threading.Thread(target=run, args=[it]) for it in range(4)]
        for it in threads:
            it.start()
        for it in threads:
            it.join()
        wanted = [it % 60 * 1_000_000 for it in range(100_000)]
        self.assertTrue(all(it.tolist() == wanted for it in told))
        data.clear()  # no call has kept its memory

    def test_locked_memory(self):
        data = bytearray(LINES)

        class Clears:
            def __iter__(self):
                data.clear()
                yield SECOND

        self.assertEqual(column(Clears()), [1_000_000])
        self.assertEqual(column(data), [])

    @unittest.skipUnless(sys.platform == "linux", "it reads the peak of Linux")
    def test_memory(self):
        call = f"""
import resource, speedate, sys
texts = [b"{SECOND}\\n" * 4_000_000, bytearray(b"{SECOND}\\n" * 4_000_000), ["{SECOND}"] * 4_000_000][int(sys.argv[1])]
speedate.datetime_column(b"{SECOND}\\n" * 100_000)
before = resource.getrusage(resource.RUSAGE_SELF).ru_maxrss
column = speedate.datetime_column(texts)
print((resource.getrusage(resource.RUSAGE_SELF).ru_maxrss - before) * 1024 / 32_000_000)
"""
        if os.environ.get("LD_PRELOAD"):
            self.skipTest("the address sanitizer keeps what is freed")
        for kind in range(3):
            run = subprocess.run([sys.executable, "-c", call, str(kind)], stdout=subprocess.PIPE, check=True, universal_newlines=True)
            self.assertLess(float(run.stdout), 1.3)

    def test_no_memory(self):
        testcapi = installed("_testcapi")
        if not hasattr(testcapi, "set_nomemory"):
            self.skipTest("this Python has no _testcapi")
        texts = [SECOND, bytearray(SECOND, "utf-8"), SECOND.replace("Z", "\u221200:00"), "\ud800", None, "x"]
        read, listed = speedate.datetime_column, lambda make: lambda: functools.partial(speedate.datetime_column, make(), refused="collect")
        others = [functools.partial(call, lines, refused="number") for call, lines in ((speedate.date_column, b"1970-01-01\nx"), (speedate.duration_column, b"PT0S\nx"))]
        makers = [
            *(lambda it=it: it for it in others),
            *map(listed, [lambda: texts, lambda: iter(texts), lambda: LINES, lambda: bytearray(LINES * 3), lambda: spread(LINES), lambda: io.BytesIO(LINES)]),
            lambda: functools.partial(read, LINES), lambda: functools.partial(read, [5], refused="number"), lambda: functools.partial(speedate.Config, "s", 0),
            lambda: functools.partial(speedate.text_column, [5, None] * 50_000, kind="duration"), lambda: functools.partial(speedate.text_column, array.array("q", [5, 2**40]), kind="date"),
            lambda: functools.partial(speedate.time, "24:00"), lambda: functools.partial(speedate.time, type("Text", (str,), {})("12:13"))]
        for make in makers:
            failed = 0
            for at in range(-1, 150):
                call = make()
                if at >= 0:
                    testcapi.set_nomemory(at, at + 1)
                # A partial object calls without a frame, of which Python may lose the error.
                try:
                    call()
                except MemoryError:
                    failed += 1
                except (TypeError, ValueError):
                    pass
                finally:
                    testcapi.remove_mem_hooks()
            self.assertGreater(failed, 0)


if __name__ == "__main__":
    unittest.main()
