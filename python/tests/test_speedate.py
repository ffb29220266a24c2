"""Tests of the module that is installed: its docstrings and names, the rows below and those of C, and texts that `datetime` reads too."""
import array
import collections.abc
import copy
import datetime
import decimal
import doctest
import functools
import importlib.metadata
import importlib.util
import inspect
import pathlib
import pickle
import pydoc
import random
import subprocess
import sys
import types
import unittest

import speedate
from speedate import _speedate

# An expression, and its value or its error.
ROWS = r"""
date("0001-01-01") -> datetime.date(1, 1, 1)
date("20200229") -> ParseError: too_short
date("86400000", config=Config("ms", 3600), timestamps=True) -> datetime.date(1970, 1, 2)
date("2020-02-2\ud800") -> ParseError: invalid_char_day
date("\ufeff2020-02-29"), datetime_front("\ufeff2020-02-29T12:13") -> ParseError: invalid_char_year: it begins with a byte order mark, which the encoding utf-8-sig drops
date_front(b"\xef\xbb\xbf2020-02-29 x") -> ParseError: invalid_char_year: it begins with a byte order mark: skip its three bytes
date("\ufeff2020-02-30") -> ParseError: invalid_char_year
speedate.datetime("\ufeff1", timestamps=True) -> ParseError: too_short: it begins with a byte order mark, which the encoding utf-8-sig drops
date("\ud800" * 4) -> ParseError: invalid_char_year
date(subclass(str)("\ud800" * 4)) -> ParseError: invalid_char_year
date("2020-02-29", config=Config(timestamp_unit="s")) -> TypeError: config has a timestamp_unit, which is not read here: date and datetime do with timestamps=True
time("12:13:14.5\u221200:30") -> datetime.time(12, 13, 14, 500000, tzinfo=datetime.timezone(datetime.timedelta(days=-1, seconds=84600)))
time(bytearray(b"12:13")) -> datetime.time(12, 13)
time(memoryview(b"3x1x:x2x1")[::-2]) -> datetime.time(12, 13)
time("12:13\0") -> ParseError: invalid_char_tz_sign
time(subclass(str, encode=None)("12:13")) -> datetime.time(12, 13)
time(subclass(bytes, __len__=lambda self: 1 << 40)(b"12:13")) -> datetime.time(12, 13)
subclass(Config) -> TypeError: Config has no subclasses
time("12:13", config=Config(timestamp_offset=0)) -> TypeError: config has a timestamp_offset, which is not read here: date and datetime do with timestamps=True
speedate.datetime("1.0", config=Config("us", -3600, "truncate"), timestamps=True) -> datetime.datetime(1970, 1, 1, 0, 0, 0, 1, tzinfo=datetime.timezone(datetime.timedelta(days=-1, seconds=82800)))
speedate.datetime("9999-12-31T23:59:59.999999Z") -> datetime.datetime(9999, 12, 31, 23, 59, 59, 999999, tzinfo=datetime.timezone.utc)
speedate.datetime("0000-01-01T00:00") -> ParseError: year_zero
speedate.datetime("2020-01-01T00:00+01:00").tzinfo is time("12:13+0100").tzinfo -> True
duration("-P999999999D") == datetime.timedelta.min -> True
duration("P999999999DT23:59:59".replace("DT", " d ").replace("P", "")) -> datetime.timedelta(days=999999999, seconds=86399)
time_front("12:13\u221200:30 \u00e9") == (time("12:13-00:30"), 11) -> True
time_front("12:13\u221200:30 \u00e9".encode()) == (time("12:13-00:30"), 13) -> True
date_front("0000-01-01 x") -> ParseError: year_zero
date(1582934400, timestamps=True), date(numbers(-86400), timestamps=True), date(0, timestamps=True) -> (datetime.date(2020, 2, 29), datetime.date(1969, 12, 31), datetime.date(1970, 1, 1))
speedate.datetime(1793520000, config=Config("s", 0), timestamps=True), speedate.datetime(-1, config=Config("us"), timestamps=True) -> (datetime.datetime(2026, 11, 1, 8, 0, tzinfo=datetime.timezone.utc), datetime.datetime(1969, 12, 31, 23, 59, 59, 999999))
date(1, timestamps=True) -> ParseError: date_not_exact
date(2**63 - 1, timestamps=True) -> ParseError: date_too_large
date(2**63, timestamps=True) -> ParseError: number_too_large
whole(date, 1, timestamps=True), whole(date, numbers(-2**63 - 1), timestamps=True) -> (('1', 'a date, or a timestamp at midnight'), ('-9223372036854775809', 'a number that fits 64 bits'))
whole(speedate.datetime, 2**62, timestamps=True), whole(speedate.datetime, -62167219200, config=Config("s"), timestamps=True) -> (('4611686018427387904', 'a date in the years 0000 to 9999'), ('-62167219200', 'a year from 0001 to 9999'))
refusal(speedate.datetime, 10**4000, timestamps=True)[0] == str(10**4000) -> True
date(20200229) -> TypeError: value has to be str or bytes or bytearray or memoryview, not int: timestamps=True reads integers
speedate.datetime(numbers(1)), -> TypeError: value has to be str or bytes or bytearray or memoryview, not numbers: timestamps=True reads integers
time(1) -> TypeError: value has to be str or bytes or bytearray or memoryview, not int
date(datetime.date(2020, 2, 29)) -> TypeError: value has to be str or bytes or bytearray or memoryview, not date: it is parsed already
date(True, timestamps=True) -> TypeError: value has to be int, not bool
date(1.0, timestamps=True) -> TypeError: value has to be str or bytes or bytearray or memoryview, not float
speedate.datetime("1", timestamps=True, strict=True) -> ValueError: strict and timestamps exclude each other
speedate.datetime("1", strict=True, loose=True) -> ValueError: strict and loose exclude each other
speedate.datetime(1, timestamps=True, loose=True) -> ValueError: loose and timestamps exclude each other
speedate.datetime("2020-02-29 12:13 UTC", loose=1) -> TypeError: loose has to be bool, not int
speedate.datetime("2020-02-29 12:13 UTC") -> ParseError: invalid_char_tz_sign
speedate.datetime("2020-02-29 12:13 UTC", loose=True), speedate.datetime(b"2020-02-29 12:13:14.1234567-05", loose=True, config=Config(overflow_behavior="truncate")) == speedate.datetime("2020-02-29 12:13:14.123456-05:00") -> (datetime.datetime(2020, 2, 29, 12, 13, tzinfo=datetime.timezone.utc), True)
datetime_front("2020-02-29 12:13 -0500 \u00e9", loose=True) == (speedate.datetime("2020-02-29 12:13-05:00"), 22), datetime_front("2020-02-29 12:13" + 300 * "\u00e9", loose=True) -> (True, (datetime.datetime(2020, 2, 29, 12, 13), 16))
datetime_front("2020-02-29 12:13:14." + 232 * "5" + " UTC" + 300 * "\u00e9", loose=True, config=Config(overflow_behavior="truncate"))[1] -> 256
datetime_front("2020-02-29 12:13Zx" + 300 * "\u00e9", loose=True) -> ParseError: extra_characters
speedate.datetime("2020-02-29T12:13", None) -> TypeError: datetime() takes at most 1 positional arguments but 2 were given
date("2020-02-29", strict=True) -> TypeError: date() got an unexpected keyword argument 'strict'
text_column(date_column(["2020-01-01"]), kind="datetime") -> ValueError: the column is of kind date, not datetime
text_column(date_column(["2020-01-01", None])), text_column(date_column(["2020-01-01"]), kind="date") -> (b'2020-01-01\n\n', b'2020-01-01\n')
text_column([18262]) -> TypeError: value has to be a Column, not list, unless there is a kind
text_column(datetime_offset_column(["1970-01-01T00:00Z"])) -> ValueError: text_column cannot print offsets, only date or time or datetime or datetime_clock or duration
text_column([0], kind="datetime_offset") -> ValueError: text_column cannot print offsets, only date or time or datetime or datetime_clock or duration
text_column([0], kind="dates") -> ValueError: kind has to be date or time or datetime or datetime_clock or duration: did you mean date?
whole(text_column, [0, 10**30], kind="duration"), whole(text_column, [86400000000], kind="time") -> (('1000000000000000000000000000000', 'a number that fits 64 bits, or 32 if it counts days'), ('86400000000', 'a time within the day: 00:00:00 to 23:59:59.999999'))
whole(text_column, array.array("q", [0, 0, 2932897]), kind="date"), whole(text_column, array.array("Q", [2**63]), kind="time") -> (('2932897', 'a date in the years 0000 to 9999'), ('9223372036854775808', 'a number that fits 64 bits, or 32 if it counts days'))
date_column(["1970-01-02"] * 12) -> Column('date', [1, 1, 1, 1, 1, 1, 1, 1, 1, 1, .. 2 more])
date_column(["1970-01-02"]) == date_column(["1970-01-02"]), date_column([]) == time_column([]), date_column(["1970-01-02"]) == [1], date_column([]) != date_column(["1970-01-02"]) -> (True, False, False, True)
len(date_column(["1970-01-02"])), date_column(["1970-01-02"])[0], [*date_column(["1970-01-02", None])], date_column(["1970-01-02"]).numbers -> (1, 1, [1, -9223372036854775808], array('q', [1]))
hash(date_column([])) -> TypeError: unhashable type: 'Column'
isinstance(date_column([]), collections.abc.Sequence), isinstance(date_column([]).refused, collections.abc.Sequence) -> (True, True)
date_column(["1970-01-02", "1970-01-03"]).index(2), date_column(["1970-01-02"] * 2).count(1), [*reversed(date_column(["1970-01-02", None]))], 5 in date_column([]) -> (1, 2, [-9223372036854775808, 1], False)
str(checked(ParseError("too_short", b"12", 2, 2, "a time", 5, "a hint"))) -> "too_short in text 5 at 2: expected a time: b'12' (a hint)"
date_column(date_column(["1970-01-02", None]), refused="collect").refused.codes, hasattr(date_column([]), "dtype") == (importlib.util.find_spec("numpy") is not None) -> (['too_short', 'invalid_char_year'], True)
date_column(["x"], refused="collect").refused, len(date_column(["x"], refused="number").refused) -> (<1 refused texts>, 0)
speedate.datetime("2020-01-01T00:00Z").tzinfo is datetime.timezone.utc -> True
datetime_column([]) -> Column('datetime', [])
datetime_column(b"") -> Column('datetime', [])
datetime_column(b"1970-01-01T00:00Z\r\r") -> ParseError: extra_characters in text 0
datetime_column(b"1970-01-01T00:00Z\r\r\n") -> ParseError: extra_characters in text 0
datetime_column(b"1970-01-01T00:00Z\n\r\n") -> ParseError: too_short in text 1
datetime_column(["1970-01-01T00:00Z\n"]) -> ParseError: extra_characters in text 0: it has a line ending, which lines=True drops
datetime_column(["1970-01-01T00:00Z\n", "1970-01-01T00:00:01Z\r\n", b"1970-01-01T00:00:02Z\r"], lines=True) -> Column('datetime', [0, 1000000, 2000000])
datetime_column(["1970-01-01T00:00\n"]) -> ParseError: invalid_char_tz_sign in text 0
datetime_column(["1970-01-01T00:00\n"], missing_offset="utc") -> ParseError: invalid_char_tz_sign in text 0: it has a line ending, which lines=True drops
faulted(["1654646404\n", "1970-01-01T00:00\n"], functools.partial(datetime_column, config=Config("s", 3600), timestamps=True)) -> (2, ['invalid_char_date_sep in text 0: it has a line ending, which lines=True drops', 'invalid_char_tz_sign in text 1'])
faulted(["1654646404\n"], functools.partial(datetime_column, timestamps=True)) -> (1, ['invalid_char_date_sep in text 0'])
datetime_column([], lines=1) -> TypeError: lines has to be bool, not int
datetime_column(["\ufeff1970-01-01T00:00Z"]) -> ParseError: invalid_char_year in text 0: it begins with a byte order mark, which the encoding utf-8-sig drops
datetime_column(b"\xef\xbb\xbf1970-01-01T00:00Z\n1970-01-01T00:00Z\n") -> ParseError: invalid_char_year in text 0: it begins with a byte order mark: skip its three bytes
datetime_column(["\ufeff1970-01-01T00:00Z\n"]) -> ParseError: invalid_char_year in text 0: it begins with a byte order mark, which the encoding utf-8-sig drops; it has a line ending, which lines=True drops
datetime_column(["\ufeff1970-01-01T00:00Z\n"], lines=True) -> ParseError: invalid_char_year in text 0: it begins with a byte order mark, which the encoding utf-8-sig drops
datetime_column(["\ufeff1970-01-01"]) -> ParseError: invalid_char_year in text 0
datetime_column(["", b"", None, "1970-01-01T00:00Z"], empty="nat") -> Column('datetime', [-9223372036854775808, -9223372036854775808, -9223372036854775808, 0])
datetime_column(b"\n\r\n1970-01-01T00:00Z\n\n", empty="nat") -> Column('datetime', [-9223372036854775808, -9223372036854775808, 0, -9223372036854775808])
datetime_column(b"\n \n", empty="nat") -> ParseError: too_short in text 1
datetime_column([], empty="NaT") -> ValueError: empty has to be error or nat: did you mean nat?
datetime_column([], empty="coerce") -> ValueError: empty has to be error or nat: did you mean nat?
datetime_column([], empty="") -> ValueError: empty has to be error or nat
datetime_column([], errors="coerce") -> TypeError: datetime_column() got an unexpected keyword argument 'errors': the word is refused, and refused='number' does what errors='coerce' does in pandas
speedate.datetime("", errors="coerce") -> TypeError: datetime() got an unexpected keyword argument 'errors'
datetime_column(bytearray(b"1970-01-01T00:00:00.000001Z\n1969-12-31T23:59:59Z")) -> Column('datetime', [1, -1000000])
datetime_column(memoryview(b"1970-01-01T00:00Z\n\n"), refused="number") -> Column('datetime', [0, -9223372036854775808])
datetime_column(it for it in ["0000-01-01T00:00Z", b"9999-12-31T23:59:59.999999-23:59"]) -> Column('datetime', [-62167219200000000, 253402387139999999])
datetime_column("1970-01-01T00:00Z") -> TypeError: value has to be an iterable of texts, a file, or bytes, not str
datetime_column({"moment": ["1970-01-01T00:00Z"]}, refused="number") -> TypeError: value has to be one column, not dict: pass its values, or one of its columns
datetime_column({"1970-01-01T00:00Z"}, refused="number") -> TypeError: value has to be one column, not set: its items have no order
text_column(frozenset([1]), kind="date") -> TypeError: value has to be one column, not frozenset: its items have no order
datetime_column(types.MappingProxyType({})) -> TypeError: value has to be one column, not mappingproxy: pass its values, or one of its columns
datetime_column({"b": "1970-01-01T00:00Z"}.values()), datetime_column({"1970-01-01T00:00Z": 1}.keys()) -> (Column('datetime', [0]), Column('datetime', [0]))
datetime_column(memoryview(b"12345678").cast("d")) -> TypeError: text 0 has to be str or bytes or bytearray or memoryview, not float: in pandas astype("Int64") makes integers of floats, which timestamps=True reads
datetime_column(["1970-01-01T00:00Z", 5], refused="number"), time_column([5, "00:00"], refused="number") -> (Column('datetime', [0, -9223372036854775808]), Column('time', [-9223372036854775808, 0]))
datetime_column(["1970-01-01T00:00Z", memoryview(b"12345678").cast("d")]) -> TypeError: text 1 has to be a memoryview of bytes, not of format d
datetime_column(["", 1.5], refused="number") -> TypeError: text 1 has to be str or bytes or bytearray or memoryview, not float: in pandas astype("Int64") makes integers of floats, which timestamps=True reads
time_column([1.5]), duration_column([1.5]) -> TypeError: text 0 has to be str or bytes or bytearray or memoryview, not float
datetime_column([None, "1970-01-01T00:00Z", float("nan"), subclass(float)("nan")]) -> Column('datetime', [-9223372036854775808, 0, -9223372036854775808, -9223372036854775808])
datetime_column([None], strict=True), datetime_column([None], timestamps=True, missing_offset="utc", refused="number") -> (Column('datetime', [-9223372036854775808]), Column('datetime', [-9223372036854775808]))
faulted([None, "1970-01-01T00:00Z", "", "1970-01-01T00:00", None]) -> (5, ['too_short in text 2', 'tz_required in text 3'])
faulted(b"\n1970-01-01T00:00Z\r\n1970-01-01\n") -> (3, ['too_short in text 0', 'invalid_char_date_time_sep in text 2'])
faulted(["1970-01-01T00:00Z"]) -> (1, [])
faulted(["x", 5, numbers(20200229)]) -> (3, ['too_short in text 0', 'too_short in text 1: it is an integer, which is a timestamp only with timestamps=True', 'too_short in text 2: it is an integer, which is a timestamp only with timestamps=True'])
faulted([5], time_column), faulted([-5], duration_column) -> ((1, ['too_short in text 0: it is an integer, not a text']), (1, ['duration_invalid_days in text 0: it is an integer, not a text']))
refusal(date_column, [20200229]), refusal(date_column, [numbers(10**30)]), refusal(time_column, [20200229]) -> (('20200229', 8), ('1000000000000000000000000000000', 4), ('20200229', 2))
listed(["x", 5, None, 2**70]), listed(range(2), duration_column) -> (([0, 1, 3], ['too_short', 'too_short', 'invalid_char_date_sep'], [1, 1, 4]), ([0, 1], ['duration_invalid_days', 'duration_invalid_days'], [1, 1]))
datetime_column([True], refused="number") -> TypeError: text 0 has to be str or bytes or bytearray or memoryview, not bool
date_column([numbers("x")]) -> TypeError: text 0 has to be str or bytes or bytearray or memoryview, not numbers
datetime_column([], refused=[]) -> TypeError: refused has to be str, not list
datetime_column(["1970-01-01T00:00:01"]) -> ParseError: tz_required in text 0
datetime_column(["1970-01-01T00:00:01"], missing_offset="utc") -> Column('datetime', [1000000])
datetime_column(["1970-01-01T00:00:01"], missing_offset="utc", strict=True) -> ParseError: tz_required in text 0
datetime_column(["1", "1.5"], config=Config(timestamp_offset=0), timestamps=True) -> Column('datetime', [1000000, 1500000])
datetime_column(["1"], config=Config("us", 3600), timestamps=True) -> Column('datetime', [-3599999999])
datetime_column(["1"], config=Config(timestamp_offset=0)) -> TypeError: config has a timestamp_offset, which is not read here: date and datetime do with timestamps=True
datetime_column([], strict=True, timestamps=True) -> ValueError: strict and timestamps exclude each other
datetime_column([], strict=True, loose=True), -> ValueError: strict and loose exclude each other
datetime_column(["1970-01-01 00:00:01 UTC", "1970-01-01 00:00 AM"], loose=True, refused="number"), datetime_column(b"1970-01-01 00:00:01+00\n1970-01-01 00:00\n", loose=True, missing_offset="utc") -> (Column('datetime', [1000000, -9223372036854775808]), Column('datetime', [1000000, 0]))
datetime_clock_column(["1970-01-01 00:00:01 -0500"], loose=True), datetime_offset_column(["1970-01-01 00:00:01 -0500"], loose=True) -> (Column('datetime_clock', [1000000]), Column('datetime_offset', [-18000]))
datetime_column([], missing_offset="UTC") -> ValueError: missing_offset has to be error or utc: did you mean utc?
datetime_column([], refused="raise") -> ValueError: refused has to be stop or number or collect: did you mean stop?
datetime_column([], refused="coerce") -> ValueError: refused has to be stop or number or collect: did you mean number?
datetime_column([], refused="Collected" + "x" * 10**6) -> ValueError: refused has to be stop or number or collect
datetime_column([], refused=subclass(str, lower=None, __getitem__=None)("Collected")) -> ValueError: refused has to be stop or number or collect: did you mean collect?
date_column([]), duration_column(b"") -> (Column('date', []), Column('duration', []))
date_column(["1970-01-02", b"0000-01-01", None, "9999-12-31"]) -> Column('date', [1, -719528, -9223372036854775808, 2932896])
date_column(b"1970-01-02\n1970-01-01\r") -> Column('date', [1, 0])
date_column(["1970-01-02\n"]) -> ParseError: extra_characters in text 0: it has a line ending, which lines=True drops
date_column(["1970-01-02\n", ""], lines=True, empty="nat"), date_column(b"1970-01-02\n\n", empty="nat") -> (Column('date', [1, -9223372036854775808]), Column('date', [1, -9223372036854775808]))
date_column(["86400"]) -> ParseError: too_short in text 0
date_column(["86400", "1970-01-03"], timestamps=True), date_column(b"86400\n1970-01-03", timestamps=True) -> (Column('date', [1, 2]), Column('date', [1, 2]))
date_column(["86400000"], config=Config("ms"), timestamps=True), date_column(b"86400000", config=Config("ms"), timestamps=True) -> (Column('date', [1]), Column('date', [1]))
date_column([], config=Config("ms")) -> TypeError: config has a timestamp_unit, which is not read here: date and datetime do with timestamps=True
date_column(["1970-01-02"], strict=True), date_column(b"1970-01-02\n86400", strict=True, refused="number"), listed(["86400"], functools.partial(date_column, strict=True)) -> (Column('date', [1]), Column('date', [1, -9223372036854775808]), ([0], ['too_short'], [5]))
date_column([], strict=True, timestamps=True) -> ValueError: strict and timestamps exclude each other
date_column("1970-01-02") -> TypeError: value has to be an iterable of texts, a file, or bytes, not str
datetime_column([1654646404, "1970-01-01T00:00:01Z", None, numbers(2)], config=Config(timestamp_offset=0), timestamps=True) -> Column('datetime', [1654646404000000, 1000000, -9223372036854775808, 2000000])
datetime_column(array.array("q", [0, -1, 1500000]), config=Config("us", 0), timestamps=True) -> Column('datetime', [0, -1, 1500000])
datetime_column(array.array("q", [0, 3600]), config=Config("s", 3600), timestamps=True), datetime_column(range(2), timestamps=True, missing_offset="utc") -> (Column('datetime', [-3600000000, 0]), Column('datetime', [0, 1000000]))
[datetime_column(array.array(it, [1, 20000]), timestamps=True, missing_offset="utc") for it in "hilqHILQ"] == [Column("datetime", array.array("q", [1000000, 20000000000]))] * 8 -> True
datetime_column(memoryview(array.array("q", [1, 2, 3]))[::2], timestamps=True, missing_offset="utc") -> Column('datetime', [1000000, 3000000])
datetime_column(array.array("q", [20000000000, 20000000001]), timestamps=True, missing_offset="utc") -> Column('datetime', [20000000000000000, 20000000001000])
datetime_column(array.array("q", [1]), timestamps=True), datetime_column([1], timestamps=True) -> ParseError: tz_required in text 0
datetime_column(array.array("q", [0, 253402300800000, -(2**63)]), timestamps=True, missing_offset="utc", refused="number") -> Column('datetime', [0, -9223372036854775808, -9223372036854775808])
date_column(array.array("q", [0, 86400, -86400]), timestamps=True), date_column([172800], timestamps=True) -> (Column('date', [0, 1, -1]), Column('date', [2]))
date_column(array.array("q", [0, 1]), timestamps=True) -> ParseError: date_not_exact in text 1
refusal(date_column, [1], timestamps=True), expected(date_column, [1], timestamps=True) -> (('1', 0), 'a date, or a timestamp at midnight')
numbered(date_column, [0, 1, 86400, 2**60]), numbered(datetime_column, [0, 2**60]) -> ((4, [1, 3], ['date_not_exact', 'date_too_large']), (2, [0, 1], ['tz_required', 'date_too_large']))
datetime_column([True], timestamps=True) -> TypeError: text 0 has to be int, not bool
datetime_column([1, 2**63], timestamps=True, missing_offset="utc") -> ParseError: number_too_large in text 1
datetime_column(array.array("Q", [1, 2**63]), timestamps=True, missing_offset="utc") -> ParseError: number_too_large in text 1
date_column([-(2**63) - 1, 10**5000, numbers(-10**30), numbers(86400), 5.5 - 5.5 + float("nan")], timestamps=True, refused="number") -> Column('date', [-9223372036854775808, -9223372036854775808, -9223372036854775808, 1, -9223372036854775808])
date_column([-(2**63) - 1], timestamps=True), date_column([numbers(10**30)], config=Config("us"), timestamps=True) -> ParseError: number_too_large in text 0
datetime_clock_column([numbers(10**30)], config=Config("us"), timestamps=True) -> ParseError: number_too_large in text 0
text_column([10**30], kind="duration"), text_column([0, -(2**63) - 1], kind="time") -> ParseError: number_too_large in text 0
text_column([2**31], kind="date") -> ParseError: number_too_large in text 0
date_column([decimal.Decimal("nan"), None], refused="stop") -> Column('date', [-9223372036854775808, -9223372036854775808])
date_column([decimal.Decimal("1")]) -> TypeError: text 0 has to be str or bytes or bytearray or memoryview, not Decimal
datetime_column([1.5], timestamps=True) -> TypeError: text 0 has to be str or bytes or bytearray or memoryview, not float: in pandas astype("Int64") makes integers of floats, which timestamps=True reads
datetime_column([1]) -> ParseError: too_short in text 0: it is an integer, which is a timestamp only with timestamps=True
datetime_column(array.array("q", [1])) -> ParseError: too_short in text 0: it is an integer, which is a timestamp only with timestamps=True
len(datetime_column(array.array("q", [1]) * 100000, timestamps=True, missing_offset="utc")) -> 100000
datetime_clock_column([]), time_column(b""), datetime_offset_column(b"") -> (Column('datetime_clock', []), Column('time', []), Column('datetime_offset', []))
datetime_clock_column(["1970-01-01T01:00+01:00", b"1970-01-01 00:00:00.000001", None]), datetime_clock_column(b"1970-01-01T01:00+01:00\r\n1969-12-31T23:59:59.999999-23:59") -> (Column('datetime_clock', [3600000000, 1, -9223372036854775808]), Column('datetime_clock', [3600000000, -1]))
datetime_clock_column(["0000-01-01T00:00+23:59", "9999-12-31T23:59:59.999999-23:59"]) -> Column('datetime_clock', [-62167219200000000, 253402300799999999])
datetime_clock_column(["1970-01-01T00:00\n"]) -> ParseError: invalid_char_tz_sign in text 0: it has a line ending, which lines=True drops
datetime_clock_column(["1970-01-01T00:00\n", ""], lines=True, empty="nat"), datetime_clock_column(b"1970-01-01T00:00\n\n", empty="nat") -> (Column('datetime_clock', [0, -9223372036854775808]), Column('datetime_clock', [0, -9223372036854775808]))
datetime_clock_column(["1970-01-01T00:00:01"], strict=True) -> ParseError: tz_required in text 0
datetime_clock_column(["1970-01-01T00:00:01.1234567-01:00"], config=Config(overflow_behavior="truncate"), strict=True) -> Column('datetime_clock', [1123456])
datetime_clock_column(["1", "1.5"]), datetime_clock_column([], missing_offset="utc") -> ParseError: too_short in text 0
datetime_clock_column([], missing_offset="utc") -> TypeError: datetime_clock_column() got an unexpected keyword argument 'missing_offset'
datetime_clock_column(["1", "1.5", 2], config=Config(timestamp_offset=3600), timestamps=True), datetime_clock_column(b"1\n1.5", timestamps=True) -> (Column('datetime_clock', [1000000, 1500000, 2000000]), Column('datetime_clock', [1000000, 1500000]))
datetime_clock_column(array.array("q", [0, -1, 1500000]), config=Config("us", -3600), timestamps=True), datetime_clock_column(range(2), timestamps=True) -> (Column('datetime_clock', [0, -1, 1500000]), Column('datetime_clock', [0, 1000000]))
datetime_clock_column([253402300800], config=Config("s", 3600), timestamps=True) -> ParseError: date_too_large in text 0
datetime_clock_column([], config=Config("ms")) -> TypeError: config has a timestamp_unit, which is not read here: date and datetime do with timestamps=True
datetime_offset_column(["1970-01-01T01:00+01:00", b"1970-01-01T00:00Z", None, "1970-01-01T00:00-2359"]), datetime_offset_column(b"1970-01-01T01:00+01:00\n1970-01-01T00:00z") -> (Column('datetime_offset', [3600, 0, -9223372036854775808, -86340]), Column('datetime_offset', [3600, 0]))
datetime_offset_column(["1970-01-01T00:00"]), datetime_offset_column(b"1970-01-01T00:00") -> ParseError: tz_required in text 0
datetime_offset_column(["1", 2, "1970-01-01T00:00-00:01"], config=Config("ms", 5400), timestamps=True), datetime_offset_column(array.array("i", [1]), config=Config("s", -1), timestamps=True) -> (Column('datetime_offset', [5400, 5400, -60]), Column('datetime_offset', [-1]))
datetime_offset_column([1], timestamps=True), datetime_offset_column(["1"], timestamps=True) -> ParseError: tz_required in text 0
datetime_offset_column([2**60], timestamps=True) -> ParseError: date_too_large in text 0
time_column(["12:13:14.5", b"12:13:14.5+01:00", None, "23:59:59.999999Z"]), time_column(b"12:13:14.5\r\n00:00\n") -> (Column('time', [43994500000, 43994500000, -9223372036854775808, 86399999999]), Column('time', [43994500000, 0]))
time_column(["00:00:01.1234567", "x"], config=Config(overflow_behavior="truncate"), refused="number"), time_column(b"00:00:01.1234567\nx", config=Config(overflow_behavior="truncate"), refused="number") -> (Column('time', [1123456, -9223372036854775808]), Column('time', [1123456, -9223372036854775808]))
time_column(["00:00:01Z", "00:00Z"], strict=True, refused="number"), time_column(b"00:00:01Z\n00:00:01\n", strict=True, refused="number") -> (Column('time', [1000000, -9223372036854775808]), Column('time', [1000000, -9223372036854775808]))
time_column([], timestamps=True) -> TypeError: time_column() got an unexpected keyword argument 'timestamps'
time_column([1]) -> ParseError: too_short in text 0: it is an integer, not a text
time_column([], config=Config(timestamp_offset=0)) -> TypeError: config has a timestamp_offset, which is not read here: date and datetime do with timestamps=True
listed(b"1970-01-01T00:00:00.5\n1970-01-01", datetime_offset_column) -> ([0, 1], ['tz_required', 'invalid_char_date_time_sep'], [21, 10])
expected(time_column, ["1:30"]), expected(datetime_clock_column, ["x"], timestamps=True) -> ('a time: HH:MM or HH:MM:SS', 'a date-time, as YYYY-MM-DDTHH:MM:SS, or a number')
duration_column(["PT1.5S", "-00:01:00", "1 day", "-PT0S"]) -> Column('duration', [1500000, -60000000, 86400000000, 0])
duration_column(["P106751991DT4H54.775807S"]) -> Column('duration', [9223372036854775807])
duration_column(["-P106751991DT4H54.775808S"]) -> ParseError: number_too_large in text 0
duration_column(["PT0S\n"]) -> ParseError: duration_invalid_number in text 0: it has a line ending, which lines=True drops
duration_column(["PT1S\n", ""], lines=True, empty="nat"), duration_column(b"PT1S\n\n", empty="nat") -> (Column('duration', [1000000, -9223372036854775808]), Column('duration', [1000000, -9223372036854775808]))
duration_column([text(datetime.timedelta(seconds=-1)), str(datetime.timedelta(seconds=-1))]) -> Column('duration', [-1000000, -172799000000])
duration_column(b"P1D1Y\nPT1S", config=Config(iso_order="strict"), refused="number") -> Column('duration', [-9223372036854775808, 1000000])
duration_column(["PT0.1234567S", "00:00:00.1234567"], config=Config(overflow_behavior="truncate")) -> Column('duration', [123457, 123456])
duration_column([], timestamps=True) -> TypeError: duration_column() got an unexpected keyword argument 'timestamps'
faulted(b"PT1S\n\nP106751992D\nx", duration_column) -> (4, ['too_short in text 1', 'number_too_large in text 2', 'duration_invalid_number in text 3'])
Config(timestamp_offset=86_400) -> ValueError: timestamp_offset has to be from -86399 to 86399
Config(iso_order="loose") -> ValueError: iso_order has to be lax or strict
Config(timestamp_offset=numbers(3600)).timestamp_offset -> 3600
Config("ms") -> Config(timestamp_unit='ms', timestamp_offset=None, overflow_behavior='error', iso_order='lax')
Config() == pickle.loads(pickle.dumps(Config())) != Config("s") -> True
Config("s", 0, "truncate", "strict") == copy.deepcopy(Config("s", 0, "truncate", "strict")) -> True
len({Config(), Config(timestamp_offset=0), Config("s"), Config("infer", None)}) -> 3
Config() == 5 -> False
Config().__reduce__() -> (<class 'speedate.Config'>, ('infer', None, 'error', 'lax'))
pickle.loads(pickle.dumps(Config()).replace(b"error", b"trunc")) -> ValueError: overflow_behavior has to be error or truncate: did you mean truncate?
setattr(Config(), "timestamp_unit", "s") -> AttributeError: timestamp_unit cannot be changed: a Config stays as it was made
setattr(Config(), "_numbers", bytes(8)) -> AttributeError: _numbers cannot be changed: a Config stays as it was made
setattr(Config(), "other", 1) -> AttributeError: other cannot be changed: a Config stays as it was made
delattr(Config(), "timestamp_unit") -> AttributeError: timestamp_unit cannot be changed: a Config stays as it was made
vars(Config()) -> TypeError: vars() argument must have __dict__ attribute
place(time, "00:0\u00e9\u00e9"), place(time_front, "00:0\u00e9\u00e9".encode()) -> (3, 3)
place(time, "12:13:14\U0001f552"), place(time, "12:13:14Z\U0001f552") -> (8, 9)
place(time, "\u00e9\u00e9:\u00e9\u00e9"), place(time, "\u00e9"), place(time, "\u00e9".encode()), place(time, "") -> (0, 1, 2, 0)
place(date, "\ud800"), place(date, "202\ud800-01-01"), place(date, "2020-02-2\ud800"), place(date, "2020-02-29\ud800") -> (1, 0, 8, 10)
place(date, subclass(str, encode=None)("2020-02-2\ud800")), place(date, subclass(bytes)(b"2020-01/01")) -> (8, 7)
place(date, b"\xff" * 10), place(date, b"2020-1\xc3\xa901"), place(date, b"\xff"), place(date, b"2020-01-01\xff") -> (0, 5, 1, 10)
place(date, "20200229"), place(date, "20200229", timestamps=True), place(date, "86400", config=Config("ms"), timestamps=True) -> (8, 0, 0)
place(time, memoryview(b"2x1x.x2x1")[::-2]), place(time, memoryview(bytearray(b"12:13:60"))) -> (2, 6)
place(date_column, ["x"]), place(date_column, b"1970-01-01\n2020-02-30"), place(date_column, ["2020-1\u00e901"]), place(date_column, ["2020-1\u00e901".encode()]) -> (1, 8, 5, 5)
place(duration_column, ["P1D1Q"]), place(duration_column, b"P106751992D"), place(duration_column, ["P1D1Y"], config=Config(iso_order="strict")) -> (4, 0, 4)
refusal(date, "2020-02-30"), refusal(date, bytearray(b"2020-02-30")), refusal(date, memoryview(b"2020-02-30")) -> (('2020-02-30', 8), (b'2020-02-30', 8), (b'2020-02-30', 8))
refusal(date, "0000-01-01"), refusal(speedate.datetime, b"0000-01-01T00:00"), refusal(date_front, memoryview(b"0000-01-01 x")) -> (('0000-01-01', 0), (b'0000-01-01T00:00', 0), (b'0000-01-01 x', 0))
whole(date, "0000-01-01"), whole(speedate.datetime, b"0000-01-01T00:00"), whole(date_front, "0000-01-01 \u00e9"), whole(duration, "-P999999999DT1S") -> (('0000-01-01', 'a year from 0001 to 9999'), (b'0000-01-01T00:00', 'a year from 0001 to 9999'), ('0000-01-01', 'a year from 0001 to 9999'), ('-P999999999DT1S', 'a duration of at least -999999999 days'))
whole(date, "-62167219200", config=Config("s"), timestamps=True), whole(datetime_front, "0000-01-01T00:00\u221201:00 " + "\u00e9" * 300)[0] == "0000-01-01T00:00\u221201:00" -> (('-62167219200', 'a year from 0001 to 9999'), True)
refusal(date_column, ["1970-01-01", "x"]), refusal(date_column, b"1970-01-01\nx\r\n"), refusal(date_column, ["x\r\n"], lines=True) -> (('x', 1), (b'x', 1), ('x', 1))
refusal(date_column, [bytearray(b"x")]), refusal(duration_column, ["PT1S", "P106751992D"]), refusal(date_column, bytearray(b"y")) -> ((b'x', 1), ('P106751992D', 0), (b'y', 1))
listed(["x", "1970-01-01T00:00", None, "1970-01-01T00:00Z", b"2020-02-30T00:00Z"]) -> ([0, 1, 4], ['too_short', 'tz_required', 'out_of_range_day'], [1, 16, 8])
listed(b"x\n1970-01-01T00:00\n1970-01-01T00:00Z\n\n2020-02-30T00:00Z") -> ([0, 1, 3, 4], ['too_short', 'tz_required', 'too_short', 'out_of_range_day'], [1, 16, 0, 8])
listed(b"PT1S\nP106751992D\nP1D1Q\n", duration_column), listed(["1970-01-01"], date_column) -> (([1, 2], ['number_too_large', 'duration_invalid_date_unit'], [0, 4]), ([], [], []))
expected(date, "2020-13-01"), expected(date, "2020-2-9"), expected(date, "2020-2-9", timestamps=True) -> ('month, 01 to 12', 'a date: YYYY-MM-DD', 'a date, YYYY-MM-DD, or a whole number')
expected(time, "1:30"), expected(time, b"12:00 PM"), expected(time_front, "1:30") -> ('a time: HH:MM or HH:MM:SS', 'after the clock at most an offset: Z or +01:00', 'a time: HH:MM or HH:MM:SS')
expected(time, "12:13", strict=True), expected(speedate.datetime, "2020-02-29 12:13:14Z", strict=True), expected(speedate.datetime, "2020-02-29x12:13") -> ('a colon, as in HH:MM:SS', 'T or t, then a time', 'T, t, _ or a space, then a time')
expected(duration, "1 day, 24:00"), expected(date_front, "x"), expected(datetime_front, "x") -> ('hours: up to 23 after days, or 10 digits up to 2,400,000,000', 'a date: YYYY-MM-DD', 'a date-time: YYYY-MM-DDTHH:MM or YYYY-MM-DDTHH:MM:SS')
expected(speedate.datetime, "x"), expected(speedate.datetime, "x", timestamps=True), expected(speedate.datetime, "x", strict=True) -> ('a date-time: YYYY-MM-DDTHH:MM or YYYY-MM-DDTHH:MM:SS', 'a date-time, as YYYY-MM-DDTHH:MM:SS, or a number', 'a date-time with an offset, as YYYY-MM-DDTHH:MM:SSZ')
expected(datetime_column, ["1970-01-01T00:00"]), expected(date_column, ["x"], timestamps=True), expected(duration_column, ["P106751992D"]) -> ('an offset: Z or +01:00', 'a date, YYYY-MM-DD, or a whole number', 'a duration of less than 2^63 microseconds')
text(datetime.timedelta(days=400)) -> 'P1Y35D'
datetime_column(["13000000000", "20200229121314"], timestamps=True, missing_offset="utc") -> Column('datetime', [13000000000000000, 20200229121314000])
part(date, "202\u00e9-01-01"), part(date, "202\u00e9-01-01".encode()), part(date, "2020\U0001f4c5") -> ((0, 4), (0, 5), (5, 5))
part(time, "12:13:14\U0001f552"), part(time, "12:13\u221201:60"), part(time, "12:13:14\u221201:00".encode(), strict=True) -> ((8, 9), (9, 11), (8, 11))
part(time_front, "12:13:14." + "5" * 1000 + "Z \u00e9"), part(time_front, b"12:13:14." + b"5" * 1000) -> ((15, 1009), (15, 1009))
part(datetime_column, ["1970-01-01T00:00"]), part(date_column, ["2020-1\u00e901"]), part(duration_column, b"P106751992D") -> ((16, 16), (5, 7), (0, 11))
text(datetime.datetime.max) -> '9999-12-31T23:59:59.999999'
text(datetime.datetime(2020, 10, 25, 2, tzinfo=Zone())) -> '2020-10-25T02:00:00+02:00'
text(datetime.datetime(2020, 10, 25, 2, tzinfo=Zone(), fold=1)) -> '2020-10-25T02:00:00+01:00'
text(datetime.time(12, tzinfo=Zone())) -> ValueError: the zone Berlin has no offset at 12:00:00
text(datetime.time(12, tzinfo=offset(seconds=90))) -> ValueError: the offset 0:01:30 is not whole minutes
text(datetime.time(12, tzinfo=offset(minutes=1, microseconds=1))) -> ValueError: the offset 0:01:00.000001 is not whole minutes
text(datetime.time(12, tzinfo=offset(hours=-23, minutes=-59))) -> '12:00:00-23:59'
text(time("12:13:14.999999Z"), digits=0), text(time("12:13"), digits=3), text(time("12:13"), digits=None) -> ('12:13:14Z', '12:13:00.000', '12:13:00')
text(subclass(datetime.datetime)(2020, 10, 25, 2, tzinfo=Zone()), digits=6) -> '2020-10-25T02:00:00.000000+02:00'
text(date("2020-02-29"), digits=3) -> TypeError: value has to be datetime or time if there are digits, not date
text(duration("PT1S"), digits=0) -> TypeError: value has to be datetime or time if there are digits, not timedelta
text(time("12:13"), digits=1) -> ValueError: digits has to be 0 or 3 or 6
text(time("12:13"), digits=9) -> ValueError: digits has to be from 0 to 6
text(datetime.timedelta.min) -> '-P2739726Y9D'
text(datetime.timedelta.max) -> 'P2739726Y9DT23H59M59.999999S'
text(subclass(datetime.datetime)(2020, 10, 25, 2, tzinfo=Zone(), fold=1)) -> '2020-10-25T02:00:00+01:00'
text(types.SimpleNamespace(NaT=5)) -> TypeError: value has to be datetime or date or time or timedelta, not SimpleNamespace
text(subclass(datetime.datetime, __eq__=lambda *_: False)(2020, 2, 29)) -> ValueError: the Other is not equal to datetime.datetime(2020, 2, 29, 0, 0): it may have nanoseconds
__version__ == importlib.metadata.version("speedate") -> True
"""


class Zone(datetime.tzinfo):
    """A zone whose offset depends on the date, as of zoneinfo."""

    def utcoffset(self, moment):
        return moment and datetime.timedelta(hours=2 - moment.fold)

    def __str__(self):
        return "Berlin"


def offset(**size):
    return datetime.timezone(datetime.timedelta(**size))


def short(error):
    """What a row has of an error: its code, its index in a column, and its hint."""
    return error.code + ("" if error.index is None else f" in text {error.index}") + (f": {error.hint}" if error.hint else "")


def faulted(texts, read=speedate.datetime_column):
    """How many texts a column has, and the errors of them, whose places are NaT."""
    column = read(texts, refused="collect")
    assert column == read(texts, refused="number") and len(read(texts, refused="number").refused) == 0
    assert all(type(it) is speedate.ParseError and checked(it) is it and column[it.index] == -(2**63) for it in column.refused)
    return len(column), [short(it) for it in column.refused]


def told(error):
    return [error.args, error.code, error.text, error.start, error.end, error.expected, error.index, error.hint, str(error), vars(error)]


def checked(error):
    """The error, whose copies have all that it has. The bytes of a text that is a memoryview are copied."""
    for it in (copy.copy(error), copy.deepcopy(error), pickle.loads(pickle.dumps(error)), pickle.loads(pickle.dumps(copy.copy(error)))):
        assert told(it) == told(error) and type(it) is type(error), told(it)
    assert 0 <= error.start <= error.end <= len(error.text)
    return error


def error_of(call, *given, **named):
    """The error that a call raises."""
    try:
        call(*given, **named)
    except speedate.ParseError as error:
        return checked(error)


def reading(read):
    """A call that refuses a text, of whose error this is read."""
    return lambda call, *given, **named: read(error_of(call, *given, **named))


# The text and the start of the part; the part that is wrong, and what was expected; the start alone; the part; and what was expected.
refusal = reading(lambda error: (error.text, error.start))
whole = reading(lambda error: (error.text[error.start:error.end], error.expected))
place = reading(lambda error: error.start)
part = reading(lambda error: (error.start, error.end))
expected = reading(lambda error: error.expected)


def listed(texts, read=speedate.datetime_column):
    """The indices, the codes and the places of the errors of a column."""
    refused = read(texts, refused="collect").refused
    assert refused.codes == [it.code for it in refused] and refused.indices.tolist() == [it.index for it in refused]
    assert [str(it) for it in refused[::-1]] == [str(it) for it in refused][::-1]
    return refused.indices.tolist(), refused.codes, [it.start for it in refused]


def numbered(read, timestamps):
    """How many numbers a column of timestamps has, and the errors of them, from a list, from memory and from texts alike."""
    told, row = [], array.array("q", timestamps)
    for it in (timestamps, row, [str(it) for it in timestamps]):
        refused = read(it, timestamps=True, refused="collect").refused
        told.append((len(it), [error.index for error in refused], [str(error) for error in refused], refused.codes))
    assert told[0] == told[1] == told[2], told
    return told[0][0], told[0][1], told[0][3]


class numbers:
    """A number that is no `int`, as those of NumPy."""

    def __init__(self, number):
        self.number = number

    def __index__(self):
        return self.number


def subclass(kind, **members):
    return type("Other", (kind,), members)


CALLS = [getattr(speedate, name) for name in (*speedate.__all__, "Config")]


def drawn(draw):
    """A date, a time or a date-time, at times with another character at one place."""
    day = f"{draw.randrange(1, 10_000):04}-{draw.randrange(1, 13):02}-{draw.randrange(1, 32):02}"
    second = f":{draw.randrange(61):02}" + draw.choice(["", ".5", ",250", f".{draw.randrange(10**6):06}", ".1234567"])
    clock = f"{draw.randrange(25):02}:{draw.randrange(60):02}" + draw.choice(["", second, second])
    zone = draw.choice(["", "Z", f"{draw.choice('+-')}{draw.randrange(25):02}{draw.choice([':', ''])}{draw.randrange(61):02}"])
    text = draw.choice([day, clock + zone, day + draw.choice("T _") + clock + zone])
    place = draw.randrange(4 * len(text))
    return text[:place] + draw.choice("0123456789-:.,+TZ") + text[place + 1:] if place < len(text) else text


ROOT = pathlib.Path(__file__).resolve().parents[2]


def answer(call):
    try:
        return repr(call())
    except Exception as error:
        return f"{type(error).__name__}: {short(error) if isinstance(error, speedate.ParseError) else error}"


# The names of all codes, and the fields of a configuration.
CODES = {it for it in _speedate._names() if it not in ("ok", "unknown code", "year_zero", "duration_too_small")}
FIELDS = "timestamp_offset", "has_timestamp_offset", "timestamp_unit", "overflow_behavior", "iso_order"
CHOICES = {"timestamp_unit": ("infer", "s", "ms", "us"), "overflow_behavior": ("error", "truncate"), "iso_order": ("lax", "strict")}


def value_of(field):
    """The value of the numbers that C has of it: a date, a time, a date-time or a duration."""
    numbers = list(map(int, field.split(" ")))
    if len(numbers) == 4:
        negative, *sizes = numbers
        if not all(it < end for it, end in zip(sizes, (10**9, 86_400, 10**6))):
            raise ValueError(field)
        return datetime.timedelta(*sizes) * (1, -1)[negative]
    if len(numbers) == 3:
        return datetime.date(*numbers)
    *clock, has_offset, microsecond, seconds = numbers
    zone = (None, offset(seconds=seconds))[has_offset]
    return (datetime.datetime if len(numbers) == 9 else datetime.time)(*clock, microsecond, zone)


def config_of(field, *names):
    """The configuration of C's numbers, as far as a call reads it. It fails if a number has no meaning."""
    numbers = dict(zip(FIELDS, map(int, "0 0 0 0 0".split() if field == "default" else field.split(" "))))
    fields = {name: choices[numbers[name]] for name, choices in CHOICES.items()}
    fields["timestamp_offset"] = (None, numbers["timestamp_offset"])[numbers["has_timestamp_offset"]]
    speedate.Config(**fields)
    return speedate.Config(**{name: fields[name] for name in names})


def call_of(name, fields):
    """The call here that is one of C, with its arguments, or nothing."""
    config = "timestamp_unit", "timestamp_offset"
    if name == "date_from_timestamp" and fields[1] == "1":
        return lambda: speedate.date(int(fields[0]), config=config_of(fields[2], *config), timestamps=True)
    if name == "datetime_from_timestamp" and fields[1] == "0":
        return lambda: speedate.datetime(int(fields[0]), config=config_of(fields[2], *config), timestamps=True)
    if name.endswith("_to_text"):
        value = value_of(fields[0])
        return lambda: speedate.text(value)
    if name == "code_name" and _speedate._names()[int(fields[0])] in {"ok", *CODES}:
        return lambda: _speedate._names()[int(fields[0])]


class Speedate(unittest.TestCase):
    def test_rows(self):
        names = {**vars(speedate), **globals()}
        for row in ROWS.strip().splitlines():
            expression, _, wanted = row.partition(" -> ")
            with self.subTest(expression):
                self.assertEqual(answer(lambda: eval(expression, names)), wanted)

    def test_rows_of_c(self):
        ran, left = collections.Counter(), collections.Counter()
        for row in (ROOT / "c/tests/rows.txt").read_text("utf-8").split("\n"):
            name, *fields = row.split("|")
            codes = [place for place, it in enumerate(fields) if it == "ok" or it in CODES]
            if not name or name[0] == "#" or not codes:
                continue
            (place, *_), wanted = codes, fields[codes[0]]
            try:
                call = call_of(name, fields[:place])
            except (IndexError, OverflowError, ValueError):
                call = None  # no value, and no configuration, has such numbers
            if call is None:
                left[name] += 1
                continue
            with self.subTest(row):
                self.check_row(name, call, wanted, *fields[place + 1:])
                ran[name] += 1
        self.assertGreater(sum(ran.values()), 30, (ran, left))

    def check_row(self, name, call, wanted, written=None):
        try:
            told = call()
        except speedate.ParseError as error:
            if error.code in CODES:
                return self.assertEqual(error.code, wanted)
            return self.assertRegex(f"{error.code} {written}", "year_zero 0 |duration_too_small 1 999999999 ")
        except (IndexError, TypeError, ValueError) as error:
            # A configuration or a number that has no meaning, or an offset that has no text.
            return self.assertRegex(f"{wanted} {error!r}", "config_out_of_range|value_out_of_range|whole minutes")
        self.assertEqual(wanted, "ok")
        if name.startswith("code_") or name.endswith("_to_text"):
            self.assertEqual(told, written)
        else:
            self.assertEqual(repr(told), repr(value_of(written)))

    def test_messages(self):
        """What `str` and `message()` say of an error, of texts that are long or that a terminal may not show as they are."""
        broken = {"__getitem__": None, "__len__": None, "__repr__": None, "__str__": None, "decode": None, "encode": None}
        for call, quoted, line, carets in (
                (lambda: speedate.datetime("2020-02-29T12:60Z"), " at 14: expected {}: '2020-02-29T12:60Z'", "2020-02-29T12:60Z", " " * 14 + "^^"),
                (lambda: speedate.date(b"2020-02-2\x1b[2J"), " at 8: expected {}: b'2020-02-2\\x1b[2J'", "2020-02-2\\x1b[2J", " " * 8 + "^^^^^"),
                (lambda: speedate.date("2020-01-01\u00e9\ud800\u202e"), " at 10: expected {}: '2020-01-01\u00e9\\ud800\\u202e'", "2020-01-01\\xe9\\ud800\\u202e", " " * 10 + "^" * 16),
                (lambda: speedate.date(""), " at 0: expected {}: ''", "", "^"),
                (lambda: speedate.date("2020-02-29" + "9" * 60), " at 10: expected {}: '2020-02-29" + "9" * 50 + "'..", "2020-02-29" + "9" * 50 + "..", " " * 10 + "^" * 50),
                (lambda: speedate.duration("P" + "1D" * 50 + "x" * 50), " at 101: expected {}: ..'" + "1D" * 15 + "x" * 30 + "'..", ".." + "1D" * 15 + "x" * 30 + "..", " " * 32 + "^"),
                (lambda: speedate.duration("P" + "1D" * 50 + "1"), " at 102: expected {}: ..'" + "D1" * 30 + "'", ".." + "D1" * 30, " " * 62 + "^"),
                (lambda: speedate.date_column(["1970-01-01", subclass(str, **broken)("x")]), " in text 1 at 1: expected {}: 'x'", "x", " ^"),
                (lambda: speedate.date_column([subclass(bytes, **broken)(b"x")]), " in text 0 at 1: expected {}: b'x'", "x", " ^"),
                (lambda: speedate.date("0000-01-01"), " at 0: expected {}: '0000-01-01'", "0000-01-01", "^" * 10),
                (lambda: speedate.duration_column(["P106751992D"]), " in text 0 at 0: expected {}: 'P106751992D'", "P106751992D", "^" * 11),
                (lambda: speedate.date(1, timestamps=True), " at 0: expected {}: '1'", "1", "^")):
            with self.assertRaises(speedate.ParseError) as caught:
                call()
            error = caught.exception
            with self.subTest(error.code):
                first = f"{error.code}{quoted.partition('{}')[0]}{error.expected}"
                self.assertEqual(str(error), error.code + quoted.format(error.expected))
                self.assertEqual(error.message().split("\n"), [first, f"    {line}", f"    {carets}"])
                index = "" if error.index is None else f", index={error.index}"
                self.assertEqual(repr(error), f"ParseError('{error.code}', text={quoted.partition('{}: ')[2]}, start={error.start}, end={error.end}{index})")
                self.assertEqual((str(copy.copy(error)), copy.copy(error).message()), (str(error), error.message()))

    def test_long_texts(self):
        """A copy has what is around the part of a long text, and finds the part there."""
        for text, start in (("P" + "1D" * 50_000 + "x" * 50_000, 100_001), ("2020-02-29" + "9" * 100_000, 10), ("P" + "1D" * 50_000 + "1", 100_002), ("x" * 4_096, 0), ("x" * 4_097, 0)):
            call = speedate.date if text[0] == "2" else speedate.duration
            for it in (text, text.encode()):
                with self.assertRaises(speedate.ParseError) as caught:
                    call(it)
                error = caught.exception
                self.assertEqual((error.text, error.start), (it, start))
                for again in (copy.copy(error), pickle.loads(pickle.dumps(copy.deepcopy(error)))):
                    self.assertEqual(len(again.text), min(len(it), 4_096))
                    self.assertTrue(it[error.start:error.end].startswith(again.text[again.start:again.end]))
                    self.assertEqual((again.start == again.end, again.expected), (error.start == error.end, error.expected))
                    self.assertLess(len(pickle.dumps(again)), 5_000)

    def test_docstrings(self):
        self.assertEqual([it.__name__ for it in CALLS if ">>> " not in it.__doc__], [])
        self.assertEqual(doctest.testmod(speedate).failed, 0)

    def test_names(self):
        functions = [name for name, it in vars(_speedate).items() if inspect.isbuiltin(it) and not name.startswith("_")]
        self.assertEqual((speedate.__all__, len(functions)), (sorted(functions), 15))
        self.assertEqual({next(iter(inspect.signature(getattr(speedate, it)).parameters)) for it in functions}, {"value"})
        # No other name is public, and a module that was imported before keeps its name.
        self.assertEqual({name for name in vars(speedate) if not name.startswith("_")}, {*functions, "Column", "Config", "ParseError", "Refused"})
        page = pydoc.render_doc(speedate, renderer=pydoc.plaintext)
        self.assertNotIn("CLASSES", page)
        self.assertEqual([name for name in functions if f"\n    {name}(" not in page], [])

    def test_loaded_again(self):
        before = {name: getattr(speedate, name) for name in (*speedate.__all__, "Column", "Config", "ParseError", "Refused")}
        kept = dict(sys.modules)
        types_of = sys.modules["speedate._types"]
        try:
            for again in (
                    lambda: importlib.reload(speedate), lambda: importlib.reload(types_of), lambda: importlib.reload(_speedate),
                    lambda: sys.modules.pop("speedate._types"), lambda: sys.modules.pop("speedate")):
                again()
                package = importlib.import_module("speedate")
                self.assertEqual([name for name, it in before.items() if getattr(package, name) is not it], [])
                with self.assertRaises(before["ParseError"]):
                    package.time("24:00", config=before["Config"](overflow_behavior="truncate"))
                self.assertEqual(pickle.loads(pickle.dumps(package.Config("s"))), before["Config"]("s"))
        finally:
            sys.modules.update(kept)

    def test_import(self):
        call = "import sys; before = set(sys.modules); import speedate; print(*sorted({it.split('.')[0] for it in set(sys.modules) - before}))"
        run = subprocess.run([sys.executable, "-I", "-S", "-c", f"import sys; sys.path[:0] = {sys.path!r}; {call}"], stdout=subprocess.PIPE, check=True, universal_newlines=True)
        self.assertEqual(set(run.stdout.split()) & {"dataclasses", "enum", "functools", "inspect", "re", "typing"}, set())

    def test_beside_datetime(self):
        draw, config, both = random.Random(1), speedate.Config(overflow_behavior="truncate"), 0
        kinds = ((datetime.date, speedate.date), (datetime.time, speedate.time), (datetime.datetime, speedate.datetime))
        for text in (drawn(draw) for _ in range(30_000)):
            for kind, read in kinds:
                try:
                    wanted, value = kind.fromisoformat(text), read(text, config=config)
                except ValueError:
                    continue
                both += 1
                self.assertEqual(repr(value), repr(wanted), text)
        self.assertGreater(both, 10_000)


if __name__ == "__main__":
    unittest.main()
