"""Uses of the module, for test_stubs.py: a type checker finds the error that a line names, and no other. Nothing runs this."""
import array
import datetime
import io
import mmap
from typing import Dict, Iterator, List, Sequence, Union

import speedate

texts: List[str] = []
lacking: List[Union[str, bytes, int, None]] = []
row: Dict[str, str] = {}
floats: List[float] = []
mixed: List[Union[str, float]] = []


def generated() -> Iterator[str]:
    yield ""


# What is right.
day: datetime.date = speedate.date("2020-02-29")
moment: datetime.datetime = speedate.datetime(b"1", config=speedate.Config("s", 0), timestamps=True)
moment = speedate.datetime(1, timestamps=True)
moment = speedate.datetime_front("2020-02-29 12:13 UTC", loose=True)[0]
front, size = speedate.time_front(memoryview(b"12:13 lunch"))
printed: str = speedate.text(front) + speedate.text(day) + speedate.text(moment - moment)
column: speedate.Column = speedate.datetime_column(texts, refused="collect", missing_offset="utc")
column = speedate.datetime_column(lacking, timestamps=True, refused="number")
column = speedate.date_column(generated(), empty="nat")
column = speedate.date_column(io.StringIO())
column = speedate.duration_column(io.BytesIO(), refused="stop")
column = speedate.date_column([float("nan"), "2020-02-29"], strict=True)
column = speedate.time_column(mixed)
column = speedate.time_column(value=floats)
numbers: Sequence[int] = column
errors: Sequence[speedate.ParseError] = column.refused
column = speedate.time_column(row.values(), strict=True)
column = speedate.time_column({"": 1}.keys(), lines=True)
column = speedate.datetime_clock_column(mmap.mmap(-1, 1))
column = speedate.datetime_offset_column(array.array("q"), timestamps=True)
column = speedate.datetime_offset_column(texts, loose=True)
column = speedate.datetime_clock_column(texts, loose=True)
column = speedate.datetime_column(texts, loose=True)
lines: bytes = speedate.text_column(column) + speedate.text_column([1, None, float("nan")], kind="duration")
total: int = sum(column) + column[0] + len(column[1:].refused) + len(column.numbers)
shown: List[str] = [f"{it.message()} {it.text[it.start:it.end]!r} {len(it.text)} {it.expected.title()}" for it in column.refused] + column.refused.codes
error: speedate.ParseError = speedate.ParseError("too_short", b"", 0, 0, "a date: YYYY-MM-DD")

# What is refused as it runs.
speedate.date(20200229)  # call-overload
speedate.date("2020-02-29", timestamps="s")  # call-overload
speedate.date("2020-02-29", None)  # call-overload
speedate.time("12:13", timestamps=True)  # call-arg
speedate.time("12:13", loose=True)  # call-arg
speedate.time(1)  # arg-type
speedate.time()  # call-arg
speedate.datetime(1, timestamps=True, strict=True)  # call-overload
speedate.datetime(1, timestamps=True, loose=True)  # call-overload
speedate.duration("P1D", config={"iso_order": "strict"})  # arg-type
speedate.Config("minutes")  # arg-type
speedate.Config(timestamp_offset="+01:00")  # arg-type
speedate.Config().iso_order = "strict"  # misc
speedate.text("2020-02-29")  # call-overload
speedate.text(None)  # call-overload
speedate.date(1.5, timestamps=True)  # call-overload
column = speedate.datetime_column("1970-01-01T00:00Z")  # assignment
column = speedate.date_column(row)  # assignment
column = speedate.date_column({""})  # assignment
print(speedate.duration_column({}).tolist())  # attr-defined
column = speedate.datetime_column([day])  # list-item
column = speedate.datetime_column(5)  # call-overload
column = speedate.duration_column(texts, strict=True)  # call-overload
column = speedate.date_column(texts=texts)  # call-overload
column = speedate.datetime_clock_column(texts, missing_offset="utc")  # call-overload
column = speedate.datetime_column(texts, refused="coerce")  # call-overload
column = speedate.datetime_column(texts, errors="coerce")  # call-overload
column = speedate.datetime_column(texts, lines=1)  # call-overload
speedate.text(datetime.date(2020, 2, 29), digits=3)  # call-overload
speedate.text(datetime.time(12), digits=2)  # call-overload
lines = speedate.text_column(b"1", kind="date")  # assignment
lines = speedate.text_column("1", kind="date")  # assignment
lines = speedate.text_column(column, kind="dates")  # call-overload
lines = speedate.text_column([1])  # call-overload
speedate.ParseError("too_short")  # call-arg
error.start = 5  # misc
error.expected + 5  # operator
column.refused[0].code + 5  # operator


class Strict(speedate.Config):  # misc
    pass
