"""The answer of the second reading to a text of any kind, in each form: the code, the value, and where it or the wrong part is."""
import collections
import functools
import pathlib
import re

import second_durations
import second_reading as reading

ROOT = pathlib.Path(__file__).resolve().parent.parent
# The forms of each kind, by their names in c/speedate.h.
FORMS = {
    "date": ["text", "or_timestamp", "strict", "front"], "time": ["text", "strict", "front"],
    "datetime": ["text", "or_timestamp", "strict", "front", "loose", "loose_front"], "duration": ["text"]}
# The numbers of a configuration, in the order of c/speedate.h.
Config = collections.namedtuple("Config", "offset has_offset unit truncates is_ordered", defaults=[0] * 5)
# The value is its numbers in the order of c/speedate.h, or none if the text is refused.
Answer = collections.namedtuple("Answer", "code value start end")


@functools.lru_cache(maxsize=None)
def parts():
    """The part of each error: the third column of its row in GRAMMAR."""
    rows = re.findall(r'^\| <a id="fault-[a-z_]*"></a>`([a-z_]*)` \| .* \| ([a-z0-9]+) \| [^|]* \|$', (ROOT / "docs/GRAMMAR.md").read_text(), re.M)
    return dict(rows)


def end_of_part(error, text, start):
    """Where the part of an error ends that begins at a place."""
    part = parts()[error]
    if part == "missing":
        return start
    if part == "rest":
        return len(text)
    if part == "digits" and (digits := reading.run_of_digits(text, start)):
        return start + len(digits)
    if part == "hours" and 1 <= text[start:].find(b":") <= 10:
        return text.find(b":", start)
    size = int(part) if part.isdigit() else 1
    end = min(start + size, len(text))
    return end + re.match(rb"[\x80-\xbf]{0,3}", text[end:]).end()


def time_numbers(clock, offset):
    has_offset = offset is not None
    return clock.hour, clock.minute, clock.second, int(has_offset), int(clock.digits[:6].ljust(6, b"0")), offset or 0


def moment_numbers(microseconds, config):
    """The numbers of the date-time of a timestamp."""
    second, microsecond = divmod(microseconds % reading.DAY, 10**6)
    has_offset, offset = int(config.has_offset), config.offset if config.has_offset else 0
    return *reading.date_of(microseconds // reading.DAY), second // 3600, second // 60 % 60, second % 60, has_offset, microsecond, offset


def date_value(form, config, text):
    if form == "or_timestamp":
        found = reading.timestamp(text, reading.UNITS[config.unit], False, True)
        if found is not None:
            return reading.date_of(found // reading.DAY), len(text)
    date = reading.date_front(text)
    if form != "front":
        reading.require(len(text) == 10, "extra_characters", 10)
    return date, 10


def time_value(form, config, text):
    clock, offset, end = reading.time_front(text, 0, config.truncates)
    if form != "front":
        reading.require_end(text, end, offset)
    if form == "strict":
        reading.require_strict(text, 0, offset)
    return time_numbers(clock, offset), end


def date_time_value(form, config, text):
    if form == "or_timestamp":
        found = reading.timestamp(text, reading.UNITS[config.unit], config.truncates, False)
        if found is not None:
            return moment_numbers(found, config), len(text)
    of_offset = reading.loose_offset if form.startswith("loose") else reading.offset_front
    date, clock, offset, end = reading.date_time_front(text, config.truncates, of_offset)
    if form == "loose_front" and not reading.is_boundary(text, end) or not form.endswith("front"):
        reading.require_end(text, end, offset)
    if form == "strict":
        reading.require_strict(text, 11, offset)
    return (*date, *time_numbers(clock, offset)), end


def duration_value(form, config, text):
    return second_durations.duration(text, config.truncates, config.is_ordered), len(text)


# ---- Printing ----


def offset_text(has_offset, offset):
    minutes = abs(offset) // 60
    return "" if not has_offset else "Z" if offset == 0 else f"{'-' if offset < 0 else '+'}{minutes // 60:02}:{minutes % 60:02}"


def time_text(hour, minute, second, has_offset, microsecond, offset):
    return f"{hour:02}:{minute:02}:{second:02}{f'.{microsecond:06}' if microsecond else ''}{offset_text(has_offset, offset)}"


def duration_text(negative, days, seconds, microseconds):
    second = f"{seconds % 60}.{microseconds:06}".rstrip("0") if microseconds else seconds % 60
    before, after = [(days // 365, "Y"), (days % 365, "D")], [(seconds // 3600, "H"), (seconds // 60 % 60, "M"), (second, "S")]
    before, after = ["".join(f"{it}{unit}" for it, unit in some if it) for some in (before, after)]
    return f"{'-' if negative else ''}P{before}{'T' if after or not before else ''}{after or '0S' * (not before)}"


def printed(kind, value):
    """The text of a value by its numbers."""
    if kind == "duration":
        return duration_text(*value)
    date = "{:04}-{:02}-{:02}".format(*value[:3])
    return date if kind == "date" else time_text(*value) if kind == "time" else f"{date}T{time_text(*value[3:])}"


VALUES = {"date": date_value, "time": time_value, "datetime": date_time_value, "duration": duration_value}


def answer(kind, form, config, text):
    try:
        value, end = VALUES[kind](form, config, text)
        return Answer("ok", value, 0, end)
    except reading.Refused as it:
        return Answer(it.error, (), it.place, end_of_part(it.error, text, it.place))
