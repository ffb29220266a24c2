"""Parses dates, times of day, date-times and durations into the types of the module `datetime`, and prints these.

    >>> import speedate
    >>> speedate.datetime("2020-02-29T12:13:14.5+01:00")
    datetime.datetime(2020, 2, 29, 12, 13, 14, 500000, tzinfo=datetime.timezone(datetime.timedelta(seconds=3600)))
    >>> speedate.text(speedate.duration("1 day, 10:20"))
    'P1DT10H20M'
    >>> speedate.date("2021-02-29")
    Traceback (most recent call last):
    speedate.ParseError: out_of_range_day at 8: expected a day that the month has: '2021-02-29'

- One text: `date`, `time`, `datetime`, `duration`
- The front of a text, whatever follows: `date_front`, `time_front`, `datetime_front`
- Many texts: `date_column`, `time_column`, `datetime_column`, `datetime_clock_column`, `datetime_offset_column`,
  `duration_column`
- Printing: `text`, `text_column`
- Classes: `Config`, `ParseError`, and the results `Column` and `Refused`, each with its own `help`

A text is a `str`, or UTF-8 in `bytes`, a `bytearray` or a `memoryview`. GRAMMAR.md, in the folder of this
module, says which are accepted, and why any other is refused. A value with an offset is aware, one without is naive,
and Python refuses to compare the two. The first parameter of each call is `value`; the others are keywords.

What is refused raises a `ParseError`, which is a `ValueError`. An argument that is out of range is a plain `ValueError`, one
of a wrong type a `TypeError`. So is a `Config` with a unit or an offset of timestamps in a call that parses none: `date`,
`datetime` and their columns parse timestamps only with `timestamps=True`.
"""
from ._speedate import (
    Column as Column, Config as Config, ParseError as ParseError, Refused as Refused, __version__ as __version__, date,
    date_column, date_front, datetime, datetime_clock_column, datetime_column, datetime_front, datetime_offset_column, duration,
    duration_column, text, text_column, time, time_column, time_front)

# The calls, which help(speedate) shows first. The `as` of the other names says to type checkers that they are public.
__all__ = [
    "date", "date_column", "date_front", "datetime", "datetime_clock_column", "datetime_column", "datetime_front",
    "datetime_offset_column", "duration", "duration_column", "text", "text_column", "time", "time_column", "time_front"]

for _call in map(globals().get, __all__):
    _call.__module__ = __name__
del _call
