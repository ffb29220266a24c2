"""The second reading of docs/GRAMMAR.md: durations."""
import collections
import fractions
import math
import re

from second_reading import Refused, are_digits, require, run_of_digits

LIMIT, MOST_DAYS = 2**32 - 1, 999_999_999
# The seconds of the designators before and after the T, in their order.
BEFORE_T = {b"Y": 365 * 86_400, b"M": 30 * 86_400, b"W": 7 * 86_400, b"D": 86_400}
AFTER_T = {b"H": 3600, b"M": 60, b"S": 1}

# The days, the seconds and the microseconds up to an item, and the place of the item.
Sum = collections.namedtuple("Sum", "place days seconds microseconds")


def all_seconds(it):
    return it.seconds + it.microseconds // 10**6


def all_days(it):
    return it.days + all_seconds(it) // 86_400


def in_normal_form(sums):
    """The days, the seconds and the microseconds of the last of some sums. A limit is broken at the first sum above it."""
    def require_at_most(limit, total, error):
        if total(sums[-1]) > limit:
            raise Refused(error, next(it.place for it in sums if total(it) > limit))
    require_at_most(LIMIT, all_seconds, "duration_value_too_large")
    require_at_most(LIMIT, all_days, "duration_value_too_large")
    require_at_most(MOST_DAYS, all_days, "duration_days_too_large")
    return all_days(sums[-1]), all_seconds(sums[-1]) % 86_400, sums[-1].microseconds % 10**6


def iso_form(text, at, is_ordered):
    """The numbers of what follows the P."""
    units, has_mark, last, sums = BEFORE_T, False, -1, [Sum(at, 0, 0, 0)]
    while at < len(text):
        if text[at:at + 1] == b"T":
            require(units is BEFORE_T, "duration_t_repeated", at)
            units, last, at = AFTER_T, -1, at + 1
            continue
        digits = run_of_digits(text, at)
        require(digits, "duration_invalid_number", at)
        require(int(digits) <= LIMIT, "duration_value_too_large", at)
        require(not has_mark, "duration_invalid_fraction", at)
        fraction = re.match(rb"(?:[.,]([0-9]*))?", text[at + len(digits):])
        unit_at = at + len(digits) + fraction.end()
        unit, has_mark = text[unit_at:unit_at + 1], fraction[1] is not None
        require(unit in units, "duration_invalid_date_unit" if units is BEFORE_T else "duration_invalid_time_unit", unit_at)
        order = list(units).index(unit)
        require(not is_ordered or order > last, "duration_unit_order", unit_at)
        whole = int(digits) * units[unit]
        part = fractions.Fraction(int(fraction[1] or b"0"), 10 ** len(fraction[1] or b"")) * units[unit]
        days = sums[-1].days + (whole // 86_400 if units is BEFORE_T else 0) + math.floor(part) // 86_400
        seconds = sums[-1].seconds + (0 if units is BEFORE_T else whole) + math.floor(part) % 86_400
        rounded = math.floor(part % 1 * 10**6 + fractions.Fraction(1, 2))
        require(days <= LIMIT and seconds <= LIMIT, "duration_value_too_large", at)
        sums.append(Sum(at, days, seconds, sums[-1].microseconds + rounded))
        last, at = order, unit_at + 1
    require(len(sums) > 1, "too_short", len(text))
    return in_normal_form(sums)


def clock_form(text, at, truncates):
    """The hours, and the seconds and the microseconds after these, of the clock that is the rest of a text."""
    colon = text.find(b":", at)
    require(colon >= 0, "invalid_char_hour", at + len(run_of_digits(text, at)))
    hours = text[at:colon]
    require(len(hours) <= 10, "duration_hour_value_too_large", at)
    require(are_digits(hours, 0, len(hours)) or not hours, "invalid_char_hour", at)
    require(int(hours or b"0") <= 2_400_000_000, "duration_hour_value_too_large", at)
    require(truncates or len(text) - colon <= 13, "second_fraction_too_long", colon + 13)
    require(len(text) - colon >= 3, "too_short", len(text))
    require(are_digits(text, colon + 1, 2), "invalid_char_minute", colon + 1)
    minute, second, digits, end = int(text[colon + 1:colon + 3]), 0, b"", colon + 3
    require(minute <= 59, "out_of_range_minute", colon + 1)
    if text[end:end + 1] == b":":
        require(are_digits(text, colon + 4, 2), "invalid_char_second", colon + 4)
        second, end = int(text[colon + 4:colon + 6]), colon + 6
        require(second <= 59, "out_of_range_second", colon + 4)
        if text[end:end + 1] in (b".", b","):
            digits = run_of_digits(text, colon + 7)
            require(digits, "second_fraction_missing", colon + 7)
            end = colon + 7 + len(digits)
    require(end == len(text), "extra_characters", end)
    return int(hours or b"0"), 60 * minute + second, int(digits[:6].ljust(6, b"0"))


def day_form(text, start, truncates):
    """The numbers of days, and of a clock after them."""
    digits = run_of_digits(text, start)
    require(digits, "duration_invalid_number", start)
    require(int(digits) <= LIMIT, "duration_value_too_large", start)
    at = start + len(digits)
    at += text[at:at + 1] == b" "
    require(text[at:at + 1] in (b"d", b"D"), "duration_invalid_days", at)
    at += 1
    if text[at:at + 1] in (b"a", b"A"):
        word = re.match(rb"ays?|AYS?", text[at:])
        require(word, "duration_invalid_days", at)
        at += word.end()
    at += text[at:at + 1] == b","
    at += text[at:at + 1] == b" "
    hours, seconds, microseconds = 0, 0, 0
    if at < len(text):
        require(len(text) - at >= 5, "too_short", len(text))
        hours, seconds, microseconds = clock_form(text, at, truncates)
        require(hours < 24, "duration_hour_value_too_large", at)
    return in_normal_form([Sum(start, int(digits), 3600 * hours + seconds, microseconds)])


def duration(text, truncates, is_ordered):
    """The sign, the days, the seconds and the microseconds of a duration."""
    start = 1 if text[:1] in (b"+", b"-") else 0
    require(start < len(text), "too_short", len(text))
    if text[start:start + 1] == b"P":
        numbers = iso_form(text, start + 1, is_ordered)
    elif len(text) - start < 5 or re.search(b"[dD]", text):
        numbers = day_form(text, start, truncates)
    else:
        hours, seconds, microseconds = clock_form(text, start, truncates)
        numbers = in_normal_form([Sum(start, hours // 24, hours % 24 * 3600 + seconds, microseconds)])
    return int(text[:1] == b"-"), *numbers
