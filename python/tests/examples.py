"""Runs the blocks of a document that have no prompt, and the rows of its tables: python3 examples.py DOCUMENT, in a folder
with what they read.

What reads a frame of pandas runs on one that is sorted, on one that is filtered and on the partitions of Dask too, and on a
file with each word that pandas takes for a missing value. A block whose modules are not there is left out, and a line says
so. So is the table of what other calls do with some cells, for another version of pandas than the one that it names.
"""
import datetime
import functools
import pathlib
import re
import shutil
import sys
import tempfile
import types
import warnings

import speedate

# Of a block that has the word: what stands before it, a value after it, and what this is.
CASES = {
    "frame": ("import pandas", "True", "True"),
    "pandas": ("import pandas", "True", "True"),
    "column.series()": (
        "import pandas", "frame['moment'].tolist()",
        "[pandas.Timestamp('2026-11-01T08:00Z'), pandas.NaT, pandas.Timestamp('2026-11-02T08:30Z')]"),
    "moments = numpy.array(column)": (
        "import numpy; frame = pandas.DataFrame({'moment': ['1677-09-21T00:12:43Z', '2026-11-01T08:00Z', '9999-12-31T00:00Z']}, [5, 3, 1]); column = speedate.datetime_column(frame['moment'])",
        "frame['moment'].tolist()", "[pandas.NaT, pandas.Timestamp('2026-11-01T08:00Z'), pandas.NaT]"),
    "ArgumentTypeError": (
        "import argparse, sys; from __main__ import why; parser = argparse.ArgumentParser(); parser.error = sys.exit",
        "parser.parse_args(['--day', '2020-02-29']).day, why(parser.parse_args, ['--day', '2021-02-29'])",
        "datetime.date(2020, 2, 29), \"argument --day: out_of_range_day at 8: expected a day that the month has: '2021-02-29'\""),
    "create_function": (
        "import sqlite3; connection = sqlite3.connect(':memory:'); connection.execute(\"CREATE TABLE payments AS SELECT '2020-02-29T12:13Z' AS moment UNION ALL SELECT NULL UNION ALL SELECT 'never'\")",
        "rows", "[(1, None), (3, \"too_short at 5: expected a date-time: YYYY-MM-DDTHH:MM or YYYY-MM-DDTHH:MM:SS: 'never'\")]"),
    "lines = speedate.text_column": (
        "frame = pandas.DataFrame({'moment': pandas.to_datetime(['2020-02-29T12:13:14.5Z', None])})", "lines", "b'2020-02-29T12:13:14.500000Z\\n\\n'"),
    "copied": (
        "import pandas; pathlib.Path('copied.csv').write_text('moment,name\\n2026-11-01 08:00:00+00,x\\n,x\\n2026-11-01 03:00:00.5-05,x\\n1999-12-31 23:00:00+05:30,x\\n')",
        "[str(it) for it in copied['moment']]", "['2026-11-01 08:00:00+00:00', 'NaT', '2026-11-01 08:00:00.500000+00:00', '1999-12-31 17:30:00+00:00']"),
    "rows = []": (
        "pathlib.Path('payments.csv').write_text(pathlib.Path('payments.csv').read_text() + 'x,29.2.2020\\nx,2020-02-29T00:00Z\\nx,never\\n')",
        "rows", "[3, 5]"),
    "csv.DictReader": ("import csv; file = pathlib.Path('payments.csv'); file.write_text('\\ufeff' + ''.join(file.open().readlines()[:4]))", "list(column)", "[1793520000000000, -2**63, 1793608200000000]"),
    "multiprocessing": (
        "import functools, multiprocessing", "[(it.tolist(), [error.text for error in it.refused]) for it in columns]",
        "[(it.tolist(), [error.text for error in it.refused]) for it in map(read, [chunk['moment'] for chunk in pandas.read_csv('payments.csv', dtype=str, keep_default_na=False, chunksize=100_000)])]"),
    "opens": (
        "import numpy; opens = ['2026-11-27T09:00:00+05:30', '2026-11-27T08:30:00.5Z', None, '2026-11-27T10:00']",
        "[str(it) for it in moments]", "['2026-11-27T03:30:00.000000', '2026-11-27T08:30:00.500000', 'NaT', 'NaT']"),
    "mmap": ("import mmap", "[it for it in column if it > 0]", "[1000000, 2000000]"),
    "BaseModel": ("from pydantic_fields import *", "Payment(day='2020-02-29', wait='PT90M').wait", "datetime.timedelta(seconds=5400)"),
}


# Accepted, and for pandas before 2 out of its range.
WIDE = ["9999-12-31T00:00Z", "1500-01-01T00:00Z"]


def moved(frame, block):
    """A frame after a block that reads it from a file."""
    import pandas

    names = {}
    exec("import datetime, numpy, speedate", names)
    names["pandas"] = types.SimpleNamespace(**{**vars(pandas), "read_csv": lambda *_, **named: frame.copy()})
    exec(block, names)
    check_refused(frame, names["refused"], [None, "", *WIDE, *frame["moment"][names["frame"]["moment"].notna()]])
    return names["frame"]


def check_refused(frame, refused, accepted):
    """The rows of a frame that are refused have their labels."""
    wanted = frame["moment"][~frame["moment"].isin(accepted)]
    assert refused.index.tolist() == wanted.index.tolist() and refused["text"].tolist() == wanted.tolist(), (refused, wanted)
    parts = [(text, text[place:end]) for text, place, end in zip(refused["text"], refused["start"], refused["end"])]
    assert all(part == "30" for text, part in parts if text.startswith("2021-02-30")), parts


def frames(wide):
    """The frames that a block runs on, each with a function that gives what it is after that. Some have a wide range of years."""
    import pandas

    texts = [f"{1700 + it * 7 % 500}-0{it % 9 + 1}-1{it % 10}T{it % 24:02}:00{('Z', '+01:00', '-05:30')[it % 3]}" for it in range(500)]
    cells = {7: None, 8: "2021-02-30T00:00Z", 9: "", **(dict(zip((10, 11), WIDE)) if wide else {})}
    frame = pandas.DataFrame({"number": range(500), "moment": [cells.get(it % 50, text) for it, text in enumerate(texts)]})
    yield "sorted", frame.sort_values("moment"), moved
    yield "filtered", frame[frame["number"] % 3 == 1], moved
    yield "with an index of texts", frame.set_index(pandas.Index([f"row {it % 7}" for it in range(500)])), moved
    try:
        import dask
        import dask.dataframe
    except ImportError as error:
        return print(f"not tried: a frame of Dask, since there is no {error.name}")
    yield "partitioned", frame, partly


def partly(frame, block):
    """A frame of which Dask runs a block on four partitions."""
    import dask
    import dask.dataframe
    import pandas

    wanted = frame.assign(moment=pandas.to_datetime(frame["moment"], utc=True, errors="coerce"))
    with dask.config.set(scheduler="synchronous"):
        return dask.dataframe.from_pandas(frame, npartitions=4).map_partitions(functools.partial(moved, block=block), meta=wanted.head(0)).compute()


def check_frames(block, wide=False):
    import pandas

    for name, frame, run in frames(wide):
        told, wanted = run(frame, block)["moment"], pandas.to_datetime(frame["moment"], utc=True, errors="coerce")
        assert told.index.tolist() == wanted.index.tolist(), f"a frame that is {name} has other rows after\n{block}"
        wrong = sum(here is not there and here != there for here, there in zip(told, wanted))
        assert wrong == 0, f"a frame that is {name} has {wrong} wrong moments after\n{block}"


def check_missing_words(block):
    """No cell of a file is missing but an empty one, whatever pandas takes its word for."""
    from pandas._libs.parsers import STR_NA_VALUES

    words = sorted(STR_NA_VALUES)
    names, folder = {}, pathlib.Path(tempfile.mkdtemp())
    (folder / "payments.csv").write_text("name,moment\n" + "".join(f"x,{it}\n" for it in [*words, "2026-11-01T08:00:00Z"]))
    exec("import numpy, pandas, speedate", names)
    exec(block.replace('"payments.csv"', repr(str(folder / "payments.csv"))), names)
    shutil.rmtree(folder)
    assert "" in words and names["refused"]["text"].tolist() == [it for it in words if it], names["refused"]
    assert len(words) == 18, words


def way(call):
    """What a call does with a column, in a word of the table: the last cell of the column says it."""
    import pandas

    try:
        told = call()
    except (TypeError, ValueError):
        return "error"
    if getattr(told, "dtype", None) == object:
        return "objects"
    if isinstance(told, speedate.Column):
        return "NaT" if told[-1] == -(2**63) else "accepted"
    last = list(told)[-1]
    if last is pandas.NaT:
        return "NaT"
    return {(2020, 2, 29): "29 February", (2020, 1, 2): "2 January"}.get((last.year, last.month, last.day), "accepted")


def check_ways(text):
    """The table of what other calls do with some cells."""
    header, rows = re.search(r"^\| Cells (\|.*)\n.*\n((?:\|.*\n)+)", text, re.M).groups()
    calls, version = re.findall(r"`(.*?)`", header), re.search(r"by pandas ([\d.]+)", text)[1]
    try:
        import pandas
    except ImportError:
        return print("not tried: the table of other calls, since there is no pandas")
    if pandas.__version__ != version or not sys.version_info >= (3, 11):
        return print(f"not tried: the table of other calls, which is of pandas {version} and Python 3.11")
    for row in rows.splitlines():
        cells, *wanted = row.strip("| ").split(" | ")
        column = [None if it == "a null" else it.strip("`") for it in cells.split(", ")]
        with tempfile.TemporaryDirectory() as folder, warnings.catch_warnings():
            warnings.simplefilter("ignore")
            path = f"{folder}/payments.csv"
            pandas.DataFrame({"moment": column}).to_csv(path, index=False)
            texts = pandas.read_csv(path, dtype=str, keep_default_na=False)["moment"]
            given = {"texts": texts.where(texts != "", None), "pandas": pandas, "datetime": datetime, **vars(speedate)}
            given["datetime"] = datetime
            told = [way(lambda: read_by(it.replace("payments.csv", path), given)) for it in calls]
        assert told == wanted, f"{row} has to be {told}"


def rows_of(text, head):
    """The cells of each row of the table that begins with a head."""
    table = re.search(rf"^\| {head} \|.*\n.*\n((?:\|.*\n)+)", text, re.M)[1]
    return [[cell.strip() for cell in row[1:-1].split("|")] for row in table.splitlines()]


def what_becomes(item, **named):
    """What a column does with an item, in a word of the table."""
    try:
        [number] = speedate.datetime_column([item], **named)
    except speedate.ParseError as error:
        return f"`{error.code}`"
    except TypeError:
        return "`TypeError`"
    return "NaT" if number == -(2**63) else "accepted"


def check_items(text):
    """The table of what is missing and what is refused."""
    given, count = {"pandas": sys.modules.get("pandas"), "speedate": speedate, "what_becomes": what_becomes}, 0
    for items, alone, options, then in rows_of(text, "Item"):
        for item in re.findall("`(.*?)`", items):
            if "pandas" in item and not given["pandas"]:
                print(f"not tried: {item}, since there is no pandas")
                continue
            told = [eval(f"what_becomes({item})", given), eval(f"what_becomes({item}, {options.strip('`')})", given) if options else ""]
            assert told == [alone, then], f"{item} is {told}"
            count += 1
    assert count > 10, count


def check_mended(document):
    """The table of what other programs print: each text is refused, and the line makes the moment of it."""
    for printer, text, line in rows_of(document, "Printed by"):
        text, wanted = text.strip("`"), datetime.datetime(2026, 11, 1, 0 if "midnight" in printer else 8, tzinfo=datetime.timezone.utc)
        assert what_becomes(text).startswith("`") and speedate.datetime(eval(line.strip("`"), {"text": text, "re": re})) == wanted, printer


def why(call, *given):
    """What a program says as it ends."""
    try:
        call(*given)
    except SystemExit as error:
        return str(error)


def read_by(call, given):
    told = eval(call, given)
    return told["moment"] if hasattr(told, "columns") else told


sys.path.append(str(pathlib.Path(__file__).resolve().parents[1] / "examples"))
text = pathlib.Path(sys.argv[1]).read_text(encoding="utf-8")
for block in re.findall(r"^```python\n((?!>>>).*?)^```$", text, re.M | re.S):
    names = {}
    exec("import datetime, pathlib, speedate", names)
    cases = [case for word, case in CASES.items() if word in block]
    try:
        for before, _, _ in cases:
            exec(before, names)
    except ImportError as error:
        print(f"not tried: a block of {sys.argv[1]}, since there is no {error.name}")
        continue
    assert cases, f"nothing is known of\n{block}"
    exec(block, names)
    for _, value, wanted in cases:
        assert eval(value, names) == eval(wanted, names), f"{value} is {eval(value, names)} after\n{block}"
    if "refused = " in block:
        csv = block
        check_frames(block)
        check_missing_words(block)
    if "moments = numpy.array(column)" in block:
        check_frames(csv.rpartition("frame[")[0] + block, wide=True)
check_ways(text)
check_items(text)
check_mended(text)
