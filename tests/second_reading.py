"""The second reading of docs/GRAMMAR.md, which shares nothing with the crates: dates, times, date-times and timestamps.

Each function takes the bytes of a text, gives what it reads and where that ends, or raises an error with its place. Durations
are in second_durations.py, and answers.py has the answer to a text of any kind.
"""
import collections
import fractions
import math
import re

DAY = 86_400 * 10**6  # in microseconds
YEAR_DAYS, MONTHS = 365, [31, 28, 31, 30, 31, 30, 31, 31, 30, 31, 30, 31]
MINUS = b"\xe2\x88\x92"  # U+2212

# A clock with the digits of its fraction, as they stand in the text.
Clock = collections.namedtuple("Clock", "hour minute second digits")


class Refused(Exception):
    """A text that is not a value: the error, by its name in GRAMMAR, and its place."""

    def __init__(self, error, place):
        super().__init__(error)
        self.error, self.place = error, place


def require(is_met, error, place):
    """A row of a table."""
    if not is_met:
        raise Refused(error, place)


def are_digits(text, at, count):
    part = text[at:at + count]
    return len(part) == count and part.isdigit()


def run_of_digits(text, at):
    return re.match(rb"[0-9]*", text[at:])[0]


# ---- The calendar ----


def is_leap(year):
    return year % 4 == 0 and (year % 100 != 0 or year % 400 == 0)


def month_length(year, month):
    return 29 if month == 2 and is_leap(year) else MONTHS[month - 1]


def days_before(year):
    """The days from 0000-01-01 to the first of a year."""
    return YEAR_DAYS * year + (year + 3) // 4 - (year + 99) // 100 + (year + 399) // 400


def days_of(year, month, day):
    """The days from 0000-01-01 to a date."""
    return days_before(year) + sum(month_length(year, it) for it in range(1, month)) + day - 1


def date_of(days):
    """The date that many days after 0000-01-01."""
    year = days // 366
    while days_before(year + 1) <= days:
        year += 1
    days -= days_before(year)
    month = 1
    while days >= month_length(year, month):
        days -= month_length(year, month)
        month += 1
    return year, month, days + 1


EPOCH = days_before(1970) * DAY


# ---- Dates and times ----


def date_front(text):
    """The year, the month and the day of the date at the front, which has ten bytes."""
    require(len(text) >= 10, "too_short", len(text))
    require(are_digits(text, 0, 4), "invalid_char_year", 0)
    require(text[4:5] == b"-", "invalid_char_date_sep", 4)
    require(are_digits(text, 5, 2), "invalid_char_month", 5)
    require(text[7:8] == b"-", "invalid_char_date_sep", 7)
    require(are_digits(text, 8, 2), "invalid_char_day", 8)
    year, month, day = int(text[:4]), int(text[5:7]), int(text[8:10])
    require(1 <= month <= 12, "out_of_range_month", 5)
    require(1 <= day <= month_length(year, month), "out_of_range_day", 8)
    return year, month, day


def clock_front(text, at, truncates):
    """The clock at a place, and its end."""
    require(len(text) >= at + 5, "too_short", len(text))
    require(are_digits(text, at, 2), "invalid_char_hour", at)
    require(text[at + 2:at + 3] == b":", "invalid_char_time_sep", at + 2)
    require(are_digits(text, at + 3, 2), "invalid_char_minute", at + 3)
    hour, minute = int(text[at:at + 2]), int(text[at + 3:at + 5])
    require(hour <= 23, "out_of_range_hour", at)
    require(minute <= 59, "out_of_range_minute", at + 3)
    if text[at + 5:at + 6] != b":":
        return Clock(hour, minute, 0, b""), at + 5
    require(are_digits(text, at + 6, 2), "invalid_char_second", at + 6)
    second = int(text[at + 6:at + 8])
    require(second <= 59, "out_of_range_second", at + 6)
    if text[at + 8:at + 9] not in (b".", b","):
        return Clock(hour, minute, second, b""), at + 8
    digits = run_of_digits(text, at + 9)
    require(digits, "second_fraction_missing", at + 9)
    require(len(digits) <= 6 or truncates, "second_fraction_too_long", at + 15)
    return Clock(hour, minute, second, digits), at + 9 + len(digits)


def sign_size(text, at):
    """How many bytes the sign of an offset has, 0 if there is none."""
    return 1 if text[at:at + 1] in (b"+", b"-") else 3 if text[at:at + 3] == MINUS else 0


def offset_front(text, at):
    """The seconds of the offset at a place and its end; if there is none, None and the place."""
    if text[at:at + 1] in (b"Z", b"z"):
        return 0, at + 1
    if sign_size(text, at) == 0:
        return None, at
    hour_at = at + sign_size(text, at)
    minute_at = hour_at + 2 + (text[hour_at + 2:hour_at + 3] == b":")
    require(are_digits(text, hour_at, 2), "invalid_char_tz_hour", hour_at)
    require(are_digits(text, minute_at, 2), "invalid_char_tz_minute", minute_at)
    hour, minute = int(text[hour_at:hour_at + 2]), int(text[minute_at:minute_at + 2])
    require(minute <= 59, "out_of_range_tz_minute", minute_at)
    require(hour <= 23, "out_of_range_tz", hour_at)
    return (60 * hour + minute) * (60 if text[at:at + 1] == b"+" else -60), minute_at + 2


def time_front(text, at, truncates, offset=offset_front):
    """The clock and the offset at a place, and the end. `offset` reads what follows the clock."""
    clock, end = clock_front(text, at, truncates)
    seconds, end = offset(text, end)
    return clock, seconds, end


def separator(text):
    require(text[10:11] in (b"T", b"t", b" ", b"_"), "invalid_char_date_time_sep", 10)


def date_time_front(text, truncates, offset=offset_front):
    date = date_front(text)
    separator(text)
    return date, *time_front(text, 11, truncates, offset)


def require_end(text, end, seconds):
    """Nothing follows a value that has an offset of so many seconds, or None."""
    require(end == len(text), "invalid_char_tz_sign" if seconds is None else "extra_characters", end)


def require_strict(text, at, seconds):
    """The table of RFC 3339 alone, for a whole text whose time begins at a place."""
    if at:
        require(text[10:11] in (b"T", b"t"), "invalid_char_date_time_sep", 10)
    require(text[at + 5:at + 6] == b":", "invalid_char_time_sep", at + 5)
    require(text[at + 8:at + 9] != b",", "invalid_char_tz_sign", at + 8)
    require(seconds is not None, "tz_required", len(text))
    sign = at + 8 + len(re.match(rb"(?:\.[0-9]+)?", text[at + 8:])[0])
    require(sign_size(text, sign) != 3, "invalid_char_tz_sign", sign)
    require(sign_size(text, sign) == 0 or text[sign + 3:sign + 4] == b":", "invalid_char_tz_minute", sign + 3)


# ---- Date-times of logs ----


def is_boundary(text, at):
    """Whether a value can end at a place."""
    return re.match(rb"[A-Za-z0-9]|(?:[.:+-]|\xe2\x88\x92)[0-9]", text[at:]) is None


def is_half_day(text, at):
    """Whether AM or PM stands at a place."""
    return text[at:at + 2] in (b"AM", b"PM", b"am", b"pm") and is_boundary(text, at + 2)


def loose_offset(text, at):
    """The same as offset_front, for the form Loose: an offset may be whole hours, and may come after a blank."""
    if sign := sign_size(text, at):
        digits = re.match(rb"([0-9]{2})(:?[0-9]{2})?", text[at + sign:])
        if digits is None:
            return None, at
        if digits[2] is not None:
            return offset_front(text, at)
        require(int(digits[1]) <= 23, "out_of_range_tz", at + sign)
        return int(digits[1]) * (3600 if text[at:at + 1] == b"+" else -3600), at + sign + 2
    if text[at:at + 1] != b" ":
        return offset_front(text, at)
    require(not is_half_day(text, at + 1), "extra_characters", at + 1)
    zone = re.match(rb"(?:UTC|GMT|([+-])(0[0-9]|1[0-4]):?(00|15|30|45))", text[at + 1:])
    if zone is None or not is_boundary(text, at + 1 + zone.end()):
        return None, at
    seconds = 3600 * int(zone[2]) + 60 * int(zone[3]) if zone[1] else 0
    return -seconds if zone[1] == b"-" else seconds, at + 1 + zone.end()


# ---- Timestamps ----

# The microseconds of a unit and how many decimals it may have, by the unit's name.
Unit = collections.namedtuple("Unit", "microseconds decimals name")
SECOND, MILLISECOND, MICROSECOND = Unit(10**6, 6, "second"), Unit(1000, 3, "millisecond"), Unit(1, 0, "microsecond")
UNITS = [None, SECOND, MILLISECOND, MICROSECOND]  # None is to be inferred


def number_of(text):
    """A whole number that fits 64 bits, or a decimal, as a fraction and its digits after the point, or None."""
    found = re.fullmatch(rb"([+-]?)([0-9]*)(?:(\.)([0-9]*))?", text)
    if found is None or not found[2] and not found[4]:
        return None
    digits = found[4] or b""
    number = fractions.Fraction(int(found[2] + digits), 10 ** len(digits)) * (-1 if found[1] == b"-" else 1)
    return (number, digits, found[3] is not None) if found[3] or -(2**63) <= number < 2**63 else None


def timestamp(text, unit, truncates, is_date):
    """The microseconds from 0000-01-01 of a text that is a timestamp, or None."""
    found = number_of(text)
    if found is None or is_date and found[2]:
        return None
    number, digits, _ = found
    by = unit or (SECOND if abs(number) <= 20_000_000_000 else MILLISECOND)
    require(truncates or len(digits) <= by.decimals, f"{by.name}_fraction_too_long", text.find(b".") + 1 + by.decimals)
    require(unit or number != -(2**63), "date_too_small", 0)
    clock = math.floor(number * by.microseconds + fractions.Fraction(1, 2)) + EPOCH
    require(clock >= 0, "date_too_small", 0)
    require(clock < days_before(10_000) * DAY, "date_too_large", 0)
    require(not is_date or clock % DAY == 0, "date_not_exact", 0)
    return clock
