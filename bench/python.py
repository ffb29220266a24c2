"""usage: python.py [ROUNDS]

Times calls of the module and of others. Install the wheel of bin/build_python, and run python3 bench/python.py.

Each row has 1,024 drawn texts, or their values. All calls of a row run in turns, and the lowest of ROUNDS rounds, by default
300, counts for each, in nanoseconds for each text. After each other call is the ratio to it: below 1, this module is faster.
Columns have a million texts, and a CSV 300,000 rows. `ciso8601`, `pydantic`, `numpy` and `pandas` have rows if they are
installed; for pydantic it is the call that a field makes. Run it on a quiet machine, more than once, and compare ratios.
"""
import csv
import datetime
import itertools
import pathlib
import random
import sys
import tempfile
import time

import speedate

COUNT = 1024
draw = random.Random(1)


def installed(name):
    try:
        return __import__(name)
    except ImportError:
        return None


ciso8601, numpy, pandas, pydantic = map(installed, ("ciso8601", "numpy", "pandas", "pydantic"))


def validator(kind):
    """The call with which a field of pydantic 2 or 1 parses a text."""
    if hasattr(pydantic, "TypeAdapter"):
        return pydantic.TypeAdapter(kind).validator.validate_python
    fields = {datetime.datetime: "parse_datetime", datetime.date: "parse_date", datetime.time: "parse_time", datetime.timedelta: "parse_duration"}
    return getattr(__import__("pydantic.datetime_parse", fromlist=["*"]), fields[kind]) if pydantic else None


def date():
    return f"{draw.randrange(1, 10_000):04}-{draw.randrange(1, 13):02}-{draw.randrange(1, 29):02}"


def clock(fraction=""):
    return f"{draw.randrange(24):02}:{draw.randrange(60):02}:{draw.randrange(60):02}{fraction}"


def milliseconds():
    return f"{date()}T{clock(f'.{draw.randrange(1000):03}')}"


def quarters():
    return f"{date()}T{clock()}{draw.choice('+-')}{draw.randrange(1, 15):02}:{draw.choice(['00', '15', '30', '45'])}"


def odd():
    return f"{date()}T{clock()}{draw.choice('+-')}{draw.randrange(15):02}:{draw.choice(['07', '13', '53'])}"


def mixed():
    return draw.choice([lambda: f"{date()}T{clock()}", lambda: f"{date()}T{clock()}Z", milliseconds, quarters, odd])()


def duration():
    return draw.choice([f"P{draw.randrange(1, 400)}DT{draw.randrange(24)}H{draw.randrange(60)}M", f"{draw.randrange(1, 99)} days, {clock()}", f"-PT{draw.randrange(60)}S"])


def refused(read):
    """A call that has to fail."""
    def call(text):
        try:
            read(text)
        except ValueError:
            return
        raise AssertionError(text)
    return read and call


def drawn(kind):
    return [kind() for _ in range(COUNT)]


def read_rows():
    moment, ciso, of = datetime.datetime.fromisoformat, ciso8601 and ciso8601.parse_datetime, validator
    kinds = {
        "Z": lambda: f"{date()}T{clock()}Z", "naive": lambda: f"{date()}T{clock()}", "milliseconds": milliseconds,
        "quarter hours": quarters, "mixed": mixed, "odd offset": odd}
    for name, kind in kinds.items():
        yield f"datetime, {name}", drawn(kind), [speedate.datetime, moment, ciso, of(datetime.datetime)]
    yield "date", drawn(date), [speedate.date, datetime.date.fromisoformat, None, of(datetime.date)]
    yield "time", drawn(clock), [speedate.time, datetime.time.fromisoformat, None, of(datetime.time)]
    yield "duration", drawn(duration), [speedate.duration, None, None, of(datetime.timedelta)]
    yield "datetime_front", [f"{it} GET /" for it in drawn(mixed)], [speedate.datetime_front, None, None, None]
    yield "datetime, refused", [it[:5] + "13" + it[7:] for it in drawn(mixed)], list(map(refused, [speedate.datetime, moment, ciso, of(datetime.datetime)]))


def text_rows():
    text = speedate.text
    kinds = {"naive": lambda: f"{date()}T{clock()}", "Z": lambda: f"{date()}T{clock()}Z", "quarter hours": quarters, "mixed": mixed}
    for name, kind in kinds.items():
        yield f"text of a date-time, {name}", [speedate.datetime(it) for it in drawn(kind)], [text, datetime.datetime.isoformat, None, None]
    yield "text of a date", [speedate.date(it) for it in drawn(date)], [text, datetime.date.isoformat, None, None]
    for name, kind in {"naive": clock, "quarter hours": lambda: quarters()[11:]}.items():
        yield f"text of a time, {name}", [speedate.time(it) for it in drawn(kind)], [text, datetime.time.isoformat, None, None]
    yield "text of a duration", [speedate.duration(it) for it in drawn(duration)], [text, str, None, None]


def times(calls, inputs, rounds):
    """The lowest time of each call, in nanoseconds for each input. The calls run in turns."""
    lowest = [float("inf")] * len(calls)
    for _ in range(rounds):
        for place, call in enumerate(calls):
            if call:
                start = time.perf_counter_ns()
                for it in inputs:
                    call(it)
                lowest[place] = min(lowest[place], time.perf_counter_ns() - start)
    return [it / len(inputs) for it in lowest]


def show(name, numbers):
    cells = (f"{it:9.0f} ({numbers[0] / it:4.2f})" if it < float("inf") else " " * 16 for it in numbers[1:])
    print(f"{name:32}{numbers[0]:7.0f}{''.join(cells)}", flush=True)


def head(first, *others):
    print(f"\n{'':32}{first:>7}{''.join(f'{it:>9}' + ' ' * 7 for it in others)}")


def instant(zone):
    """A date-time in the years that pandas can store."""
    return f"{draw.randrange(1700, 2200)}{date()[4:]}T{clock()}{zone()}"


def milliseconds_of(calls, rounds):
    return [it / 1e6 for it in times(calls, [None], rounds)]


def column_rows():
    """A million texts. NumPy has no offsets."""
    read = speedate.datetime_column
    zones = {"Z": lambda: "Z", "no offset": lambda: "", "mixed": lambda: draw.choice(["Z", "+01:00", "-05:30"])}
    for name, zone in zones.items():
        texts = [instant(zone) for _ in range(1_000_000)]
        lines = "\n".join(texts).encode()
        calls = [lambda _: read(lines, missing_offset="utc"), lambda _: read(texts, missing_offset="utc"), pandas and (lambda _: pandas.to_datetime(texts, utc=True)),
                 (lambda _: numpy.array(texts, "datetime64[us]")) if numpy and name == "no offset" else None]
        yield f"a million texts, {name}", milliseconds_of(calls, 5)
    days, sizes = [date() for _ in range(1_000_000)], [duration() for _ in range(1_000_000)]
    for name, read, texts in (("dates", speedate.date_column, days), ("durations", speedate.duration_column, sizes)):
        lines = "\n".join(texts).encode()
        calls = [lambda _: read(lines), lambda _: read(texts), None, (lambda _: numpy.array(texts, "datetime64[D]")) if numpy and texts is days else None]
        yield f"a million {name}", milliseconds_of(calls, 5)


def csv_rows(folder):
    """A CSV of 300,000 rows, whose second column has date-times with `Z`."""
    path = pathlib.Path(folder, "rows.csv")
    path.write_text("".join(["number,moment,amount\n", *(f"{it},{instant(lambda: 'Z')},{draw.random():.3f}\n" for it in range(300_000))]))

    def texts(file):
        return (row[1] for row in itertools.islice(csv.reader(file), 1, None))

    def here(_):
        with open(path, newline="") as file:
            return speedate.datetime_column(texts(file))

    def by_datetime(_):
        with open(path, newline="") as file:
            return [datetime.datetime.fromisoformat(it) for it in texts(file)]

    def frame(_):
        table = pandas.read_csv(path, dtype=str, keep_default_na=False)
        column = speedate.datetime_column(table["moment"], empty="nat")
        return column.series().dt.tz_localize("UTC")

    def to_datetime(_):
        return pandas.to_datetime(pandas.read_csv(path)["moment"], utc=True)

    def parse_dates(_):
        return pandas.read_csv(path, parse_dates=["moment"])
    yield "csv.reader", milliseconds_of([here, by_datetime], 5)
    if pandas:
        yield "pandas.read_csv", milliseconds_of([frame, None, to_datetime, parse_dates], 3)


def main(rounds=300):
    head("here", "datetime", "ciso8601", "pydantic")
    for name, inputs, calls in itertools.chain(read_rows(), text_rows()):
        show(name, times(calls, inputs, int(rounds)))
    head("lines", "list", "pandas", "NumPy")
    for name, numbers in column_rows():
        show(f"{name}, ms", numbers)
    head("here", "datetime", "to_datetime", "parse_dates")
    with tempfile.TemporaryDirectory() as folder:
        for name, numbers in csv_rows(folder):
            show(f"a CSV by {name}, ms", numbers)


if __name__ == "__main__":
    if sys.argv[1:] == ["--help"]:
        print(__doc__, end="")
    else:
        main(*sys.argv[1:])
