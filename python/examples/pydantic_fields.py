"""Fields of pydantic, 1 or 2, that speedate parses. Their errors say what was expected, and which part of the text is wrong.

    >>> Payment(day="2020-02-29", wait="PT90M")
    Payment(day=datetime.date(2020, 2, 29), wait=datetime.timedelta(seconds=5400))
    >>> for day, wait in ("2021-02-29", "1 day, 24:00"), ("0000-01-01", "-P999999999DT1S"):
    ...     for it in errors_of(day, wait):
    ...         print(it["loc"][0], it["type"].split(".")[-1], it["ctx"]["start"], it["ctx"]["end"])
    ...         print("   ", it["msg"])
    day out_of_range_day 8 10
        expected a day that the month has, not '29'
    wait duration_hour_value_too_large 7 9
        expected hours: up to 23 after days, or 10 digits up to 2,400,000,000, not '24'
    day year_zero 0 10
        expected a year from 0001 to 9999, not '0000-01-01'
    wait duration_too_small 0 15
        expected a duration of at least -999999999 days, not '-P999999999DT1S'

    No text is too long for a message, or has characters that are not shown as they are. Numbers are refused too.

    >>> for day in "2020-02-29" + "9" * 1000, "2020-02-29\\x1b[2J", "{d}0-02-29", "", b"202\\xff-02-29", 20200229:
    ...     print(errors_of(day, "P1D")[0]["msg"])
    expected nothing more, not '999999999999999999999999999999..'
    expected nothing more, not '\\x1b[2J'
    expected four digits of the year, not '{d}0'
    expected a date: YYYY-MM-DD
    expected four digits of the year, not '202\\xff'
    expected a text
"""
import datetime

import pydantic
import speedate
from pydantic import BaseModel, ValidationError

LONGEST = 30


def message_of(error):
    """What a form shows. A text of a stranger is cut and escaped."""
    part = ascii(error.text[error.start:error.end][:LONGEST]).lstrip("b")
    if error.start == error.end:
        return f"expected {error.expected}"
    if error.end - error.start > LONGEST:
        part = f"{part[:-1]}..{part[-1]}"
    return f"expected {error.expected}, not {part}"


if pydantic.VERSION.startswith("1."):

    def new_error(name, message, **context):
        kind = type(name, (pydantic.PydanticValueError,), {"code": name, "msg_template": "{message}"})
        return kind(message=message, **context)

    def with_validator(kind, validate):
        return type(kind.__name__, (kind,), {"__get_validators__": classmethod(lambda cls: iter([validate]))})

else:
    from typing import Annotated

    from pydantic_core import PydanticCustomError

    def new_error(name, message, **context):
        return PydanticCustomError(name, "{message}", {"message": message, **context})

    def with_validator(kind, validate):
        return Annotated[kind, pydantic.BeforeValidator(validate)]


def field(kind, call):
    """The type of a field: a value of a kind, or a text that a call parses, and nothing else."""

    def validate(value):
        if type(value) is kind:
            return value
        if not isinstance(value, (str, bytes)):
            raise new_error("no_text", "expected a text")
        try:
            return call(value)
        except speedate.ParseError as error:
            raise new_error(error.code, message_of(error), start=error.start, end=error.end) from error

    return with_validator(kind, validate)


class Payment(BaseModel):
    day: field(datetime.date, speedate.date)
    wait: field(datetime.timedelta, speedate.duration)


def errors_of(day, wait):
    try:
        Payment(day=day, wait=wait)
    except ValidationError as error:
        return error.errors()
