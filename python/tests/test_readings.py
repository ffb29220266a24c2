"""Tests of the parsers and the columns with the rows of the second reading of the grammar: test_readings.py ROWS. tests/rows.py
describes the rows."""
import array
import collections
import datetime
import pathlib
import re
import sys
import unittest

import speedate
from speedate import _speedate

ROOT = pathlib.Path(__file__).resolve().parents[2]
sys.path.insert(0, str(ROOT / "tests"))
from second_reading import days_of

Row = collections.namedtuple("Row", "kind forms config text code numbers start end printed line")
CHOICES = [("timestamp_unit", ("infer", "s", "ms", "us")), ("overflow_behavior", ("error", "truncate")), ("iso_order", ("lax", "strict"))]
MISSING, EPOCH = -(2**63), days_of(1970, 1, 1)


def row_of(line):
    kind, forms, config, text, code, numbers, printed, start, end = line.split("\t")
    data = text.encode().decode("unicode_escape").encode("latin-1")
    return Row(kind, forms.split(), tuple(map(int, config.split())), data, code, list(map(int, numbers.split())), int(start), int(end), printed, line)


def config_of(numbers, form):
    """The configuration of a row, as far as a call reads it in a form."""
    offset, has_offset, *choices = numbers
    fields = {name: names[it] for (name, names), it in zip(CHOICES, choices)}
    if form != "or_timestamp":
        del fields["timestamp_unit"]
    elif has_offset:
        fields["timestamp_offset"] = offset
    return speedate.Config(**fields)


def options_of(row, form):
    options = {"config": config_of(row.config, form)} if (row.kind, form) != ("date", "front") else {}
    return {**options, **{"or_timestamp": {"timestamps": True}, "strict": {"strict": True}, "loose": {"loose": True}, "loose_front": {"loose": True}}.get(form, {})}


def value_of(kind, numbers):
    """The value of the numbers of a row, or the error of one that Python lacks."""
    if kind == "duration":
        negative, *sizes = numbers
        is_lacking = negative and sizes[0] == 999_999_999 and any(sizes[1:])
        return "duration_too_small" if is_lacking else datetime.timedelta(*sizes) * (-1 if negative else 1)
    if kind != "time" and numbers[0] == 0:
        return "year_zero"
    if kind == "date":
        return datetime.date(*numbers)
    *clock, has_offset, microsecond, offset = numbers
    zone = datetime.timezone(datetime.timedelta(seconds=offset)) if has_offset else None
    return (datetime.datetime if kind == "datetime" else datetime.time)(*clock, microsecond, zone)


def counted(text, row):
    """Where the value or the part of a row begins and ends in a text: in a str in characters, and within none."""
    if not isinstance(text, str):
        return row.start, row.end
    return sum(len(text[:it].encode()) <= row.start for it in range(1, len(text) + 1)), len(row.text[:row.end].decode())


def integer_of(row, form):
    """The integer that a timestamp is, if its digits are printed as the text."""
    if form == "or_timestamp" and re.fullmatch(b"0|-?[1-9][0-9]{0,17}", row.text):
        return int(row.text)


def texts_of(row, form):
    yield from (row.text, bytearray(row.text), memoryview(row.text))
    if integer_of(row, form) is not None:
        yield integer_of(row, form)
    try:
        yield row.text.decode()
    except UnicodeDecodeError:
        pass


def phrases():
    """What was expected, by the code and by the kind of the call, where C has a row for it."""
    names = _speedate._names()
    for line in (ROOT / "c/tests/rows.txt").read_text("utf-8").splitlines():
        call, *fields = line.split("|")
        if call == "code_expected" and fields[2] == "ok":
            yield (names[int(fields[0])], int(fields[1])), fields[3]


EXPECTED = dict(phrases())
KINDS = {"date": (1, 2, 1, 1), "time": (3, 3, 4, 3), "datetime": (5, 6, 7, 5), "duration": (8,) * 4}  # by their forms, as C numbers both


def told(call, kind, form):
    """What a call answers, told so that values of other types differ."""
    try:
        return repr(call())
    except speedate.ParseError as error:
        kind = KINDS[kind][{"or_timestamp": 1, "strict": 2}.get(form, 0)]
        assert error.expected == EXPECTED.get((error.code, kind), error.expected), (error, kind)
        return error.code, error.start, error.end


def clock_of(clock):
    return ((60 * clock[0] + clock[1]) * 60 + clock[2]) * 10**6 + clock[4]


def number_of(column, row, form):
    """The number of an accepted row in a column, or the code, the start and the end of its error there."""
    if row.kind == "date":
        return days_of(*row.numbers) - EPOCH
    if row.kind == "time":
        return clock_of(row.numbers)
    if row.kind == "duration":
        negative, days, seconds, microseconds = row.numbers
        size = (86_400 * days + seconds) * 10**6 + microseconds
        return ("number_too_large", 0, row.end) if size >= 2**63 else -size if negative else size
    date, clock = row.numbers[:3], row.numbers[3:]
    has_offset, offset = clock[3], clock[5]
    if not has_offset and column in ("datetime_column", "datetime_offset_column"):
        return "tz_required", row.end, row.end
    if column == "datetime_offset_column":
        return offset
    return (days_of(*date) - EPOCH) * 86_400 * 10**6 + clock_of(clock) - (0 if column == "datetime_clock_column" else offset * 10**6)


# The columns of each kind, with what is given beside the options of a row.
COLUMNS = {"date": [("date_column", {})], "time": [("time_column", {})], "duration": [("duration_column", {})], "datetime": [
    ("datetime_column", {}), ("datetime_column utc", {"missing_offset": "utc"}), ("datetime_clock_column", {}), ("datetime_offset_column", {})]}
ROWS = []


class Readings(unittest.TestCase):
    maxDiff = None

    def test_parsers(self):
        for row in ROWS:
            for form in row.forms:
                call, options = getattr(speedate, row.kind + "_front" * form.endswith("front")), options_of(row, form)
                if row.kind == "date":
                    options.pop("strict", None)  # only its columns have it
                value = value_of(row.kind, row.numbers) if row.code == "ok" else row.code
                # Python prints no offset with seconds.
                if not isinstance(value, str) and (row.kind in ("date", "duration") or row.numbers[-1] % 60 == 0):
                    self.assertEqual(speedate.text(value), row.printed.replace("-PT0S", "PT0S"))
                for text in texts_of(row, form):
                    start, end = counted(text, row)
                    wanted = (value, start, end) if isinstance(value, str) else repr((value, end) if form.endswith("front") else value)
                    self.assertEqual(told(lambda: call(text, **options), row.kind, form), wanted, (row.line, form, type(text)))

    def test_columns(self):
        groups = collections.defaultdict(list)
        for row in ROWS:
            for form in row.forms:
                if not form.endswith("front"):
                    groups[row.kind, form, row.config].append(row)
        for (kind, form, config), rows in groups.items():
            are_lines = [row for row in rows if b"\n" not in row.text and not row.text.endswith(b"\r")]
            integers = [row for row in rows if integer_of(row, form) is not None]
            for column, more in COLUMNS[kind]:
                options = {**options_of(rows[0], form), **more, "refused": "collect"}
                for of, texts in (
                        (rows, [row.text for row in rows]), (are_lines, b"".join(row.text + b"\n" for row in are_lines)),
                        (integers, [integer_of(row, form) for row in integers]), (integers, array.array("q", [integer_of(row, form) for row in integers]))):
                    answers = [number_of(column, row, form) if row.code == "ok" else (row.code, row.start, row.end) for row in of]
                    read = getattr(speedate, column.split()[0])(texts, **options)
                    refused = {it.index: (it.code, it.start, it.end) for it in read.refused}
                    for index, (row, answer, number) in enumerate(zip(of, answers, read)):
                        self.assertEqual(refused.get(index, number), answer, (column, type(texts), row.line, form))
                        self.assertEqual(number == MISSING, index in refused)
                    self.assertEqual(len(read), len(of))


if __name__ == "__main__":
    ROWS += map(row_of, pathlib.Path(sys.argv.pop(1)).read_text().splitlines())
    unittest.main()
