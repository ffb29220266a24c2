"""The classes of speedate, and what is rare in its calls.

They are outside of the package, so that a package that is loaded once more has the classes that the extension raises and takes.
"""
import array
import datetime
import math
import operator
import struct
import sys
from collections.abc import Mapping, Sequence
from itertools import chain, repeat


class ParseError(ValueError):
    """Why a text has no value, or a number no text.

    - `code`: the name of the error, which GRAMMAR.md lists. Two are of values that Python lacks: `year_zero` and
      `duration_too_small`.
    - `text`: what was refused: a `str`, otherwise its bytes; the digits of a number.
    - `start` and `end`: `text[start:end]` is wrong. They are equal if something is missing there.
    - `expected`: what was expected there, a phrase for people.
    - `index`: the position of the text in a column, and `None` in other calls. It is not a label of pandas:
      `frame.iloc[error.index]` is the row.
    - `hint`: `None`, or what mends the text: a byte order mark, a line ending, or an integer among texts.

    `str()` is one line of printable characters, with 60 characters of the text, and `repr()` has these too. `message()` has
    lines for a terminal.
    A copy, as after pickling, has at most 4,096 characters of the text, and counts its `start` and `end` in these.

    >>> for text in ("2021-02-29", "0000-01-01"):
    ...     try:
    ...         date(text)
    ...     except ParseError as error:
    ...         error.code, error.text[error.start:error.end], error.expected
    ('out_of_range_day', '29', 'a day that the month has')
    ('year_zero', '0000-01-01', 'a year from 0001 to 9999')
    """

    __module__ = "speedate"
    # The text, and a number for the call that refused it. In the place of the number are the start, the end, the phrase and the
    # hint, once they are found.
    __slots__ = "_source", "_call", "__weakref__"
    code: str
    index = None

    def __init__(self, code, text, start, end, expected, index=None, hint=None):
        super().__init__(code)
        self.code, self._source, self._call = code, text, (start, end, expected, hint)
        if index is not None:
            self.index = index

    @property
    def text(self):
        return self._source.tobytes() if isinstance(self._source, memoryview) else self._source

    start = property(lambda self: self._part()[0])
    end = property(lambda self: self._part()[1])
    expected = property(lambda self: self._part()[2])
    hint = property(lambda self: self._part()[3])

    def _part(self):
        """The start, the end, what was expected and the hint, which are found once."""
        if not isinstance(self._call, tuple):
            from ._speedate import _found

            self._call = _found(self._source, self._call)
        return self._call

    def _told(self):
        return f"{self.code}{'' if self.index is None else f' in text {self.index}'} at {self.start}: expected {self.expected}"

    def __str__(self):
        piece, _, before, after = _piece(self.text, self.start)
        return f"{self._told()}: {before}{piece!r}{after}{'' if self.hint is None else f' ({self.hint})'}"

    def message(self):
        """What `str` says, on lines: the text has its own, and below it a line of carets marks the part that is wrong.

        Of a long text it has 60 characters, and those that a terminal may not show as one are escaped.

        >>> try:
        ...     datetime("2020-02-29T12:60Z")
        ... except ParseError as error:
        ...     print(error.message())
        out_of_range_minute at 14: expected minute, 00 to 59
            2020-02-29T12:60Z
                          ^^
        """
        return "\n".join([self._told(), *_marked(self.text, self.start, self.end), *([] if self.hint is None else [self.hint])])

    def __repr__(self):
        piece, _, before, after = _piece(self.text, self.start)
        index = "" if self.index is None else f", index={self.index}"
        return f"{type(self).__name__}({self.code!r}, text={before}{piece!r}{after}, start={self.start}, end={self.end}{index})"

    def __reduce__(self):
        text, (start, end, expected, hint) = _plain_text(self.text), self._part()
        first = max(0, min(start - _KEPT // 2, len(text) - _KEPT))
        kept = text[first:first + _KEPT]
        return type(self), (self.code, kept, start - first, min(end - first, len(kept)), expected, self.index, hint), vars(self)


_KEPT = 4096  # characters of a text in a copy of an error, or bytes


def _plain_text(text):
    """The text, of which no method is called that a subclass may have."""
    return (str if isinstance(text, str) else bytes).__getitem__(text, slice(None))


_SHOWN = 60  # characters of a text, or bytes


def _piece(text, place):
    """What is shown of a text, around a place, where it begins, and the marks of what is cut off before and after it."""
    text = _plain_text(text)
    start = max(0, min(place - _SHOWN // 2, len(text) - _SHOWN))
    return text[start:start + _SHOWN], start, ".." * (start > 0), ".." * (len(text) > start + _SHOWN)


def _escaped(text):
    """A text, or bytes, in characters that a terminal shows in a column each."""
    return (text if isinstance(text, str) else text.decode("latin-1")).encode("unicode_escape").decode("ascii")


def _marked(text, place, end):
    """The line of a text, and one with carets below the part from a place to an end."""
    piece, start, before, after = _piece(text, place)
    left, part = _escaped(piece[:place - start]), _escaped(piece[place - start:max(0, end - start)])
    return [f"    {before}{_escaped(piece)}{after}", " " * (4 + len(before) + len(left)) + "^" * max(1, len(part))]


class Refused(Sequence):
    """The errors of a column, in order: a sequence of `ParseError`. Each is made when it is read.

    - `indices`: the positions of the texts in the column, an `array.array("q")`
    - `codes`: the names of the errors, a list
    """

    __module__ = "speedate"
    __slots__ = "indices", "_codes", "_texts", "_call"

    def __init__(self, indices, codes, texts, call):
        self.indices, self._codes, self._texts, self._call = indices, codes, texts, call

    def __len__(self):
        return len(self._texts)

    def __getitem__(self, place):
        from ._speedate import _refusal

        if isinstance(place, slice):
            return [self[it] for it in range(len(self))[place]]
        return _refusal(self._codes[place], self.indices[place], self._texts[place], self._call)

    def __iter__(self):
        from ._speedate import _refusal

        return map(_refusal, self._codes, self.indices, self._texts, repeat(self._call))

    def _among(self, places):
        """The errors of the texts at a range of places, where each has its position in this range."""
        rows = [it for it, index in enumerate(self.indices) if index in places][::1 if places.step > 0 else -1]
        indices = array.array("q", [places.index(self.indices[it]) for it in rows])
        return Refused(indices, array.array("B", [self._codes[it] for it in rows]), [self._texts[it] for it in rows], self._call)

    @property
    def codes(self):
        from ._speedate import _names

        names = _names()
        return [names[it & 127] for it in self._codes]

    def __reduce__(self):
        texts = [it.tobytes() if isinstance(it, memoryview) else it for it in self._texts]
        return type(self), (self.indices, self._codes, texts, self._call)

    def __repr__(self):
        return f"<{len(self)} refused texts>"


_NONE_REFUSED = Refused(array.array("q"), array.array("B"), [], 0)


class Column(Sequence):
    """The numbers of the texts of a column, in the unit of its `kind`. -2**63 stands for a text that is missing or refused.

    - `kind`: `date` (days from 1970-01-01), `datetime` and `datetime_clock` (microseconds from 1970-01-01T00:00), `time`
      (microseconds from midnight), `duration` (microseconds) or `datetime_offset` (seconds)
    - `numbers`: the numbers, an `array.array("q")`, whose memory other programs can read
    - `refused`: the errors of the texts that were refused, if the call was asked to collect them

    `numpy.asarray(column)` has the numbers as `datetime64` or `timedelta64`, with NaT, without a copy. `series()` is a Series of
    pandas, whose rows are those of the Series that was read.
    A slice is a `Column` too. It has a copy of its numbers, and the errors of its texts, which count from its first text.

    >>> column = date_column(["1970-01-02", "never"], refused="collect")
    >>> column, column.refused.indices, column.refused.codes
    (Column('date', [1, -9223372036854775808]), array('q', [1]), ['too_short'])
    >>> print(*column.refused)
    too_short in text 1 at 5: expected a date: YYYY-MM-DD: 'never'
    """

    __module__ = "speedate"
    # The last is the index and the name of a Series that had the texts.
    __slots__ = "kind", "numbers", "refused", "_labels"

    def __init__(self, kind, numbers, refused=None):
        self.kind, self.numbers, self.refused = kind, numbers, refused or _NONE_REFUSED

    def __len__(self):
        return len(self.numbers)

    def __getitem__(self, place):
        if type(place) is not slice:
            return self.numbers[place]
        part = type(self)(self.kind, self.numbers[place], self.refused._among(range(len(self))[place]))
        if hasattr(self, "_labels"):
            index, name = self._labels
            part._labels = index[place], name
        return part

    def __iter__(self):
        return iter(self.numbers)

    def __eq__(self, other):
        return (self.kind, self.numbers) == (other.kind, other.numbers) if type(other) is type(self) else NotImplemented

    __hash__ = None

    @property
    def dtype(self):
        """What the numbers are in NumPy, if that is there."""
        try:
            import numpy
        except ImportError:
            raise AttributeError("there is no NumPy") from None
        return numpy.dtype(_UNITS[self.kind])

    # pandas.DataFrame treats a Sequence that has a dtype as an array.
    ndim = property(lambda self: 1)
    shape = property(lambda self: (len(self),))

    def reshape(self, shape):
        """What `numpy.reshape` makes of the numbers."""
        return self.__array__().reshape(shape)

    def tolist(self):
        """The numbers, as a list."""
        return self.numbers.tolist()

    def series(self):
        """A Series of pandas that can be changed. It has the index and the name of the Series that the texts were read from."""
        import pandas

        index, name = getattr(self, "_labels", (None, None))
        return pandas.Series(self, index, name=name, copy=True)

    def __array__(self, dtype=None, copy=None):
        import numpy

        # pandas 1.5 writes into the times that it is given.
        times = numpy.frombuffer(memoryview(self.numbers).toreadonly(), self.dtype)
        if copy is False and dtype not in (None, times.dtype):
            raise ValueError(f"a column of {times.dtype} has {dtype} only in a copy")
        return times.astype(times.dtype if dtype is None else dtype, copy=bool(copy))

    def __repr__(self):
        rest = f", .. {len(self) - 10} more" if len(self) > 10 else ""
        return f"{type(self).__name__}({self.kind!r}, [{', '.join(map(str, self.numbers[:10]))}{rest}])"


_UNITS = {"date": "datetime64[D]", "datetime": "datetime64[us]", "datetime_clock": "datetime64[us]", "time": "timedelta64[us]",
          "duration": "timedelta64[us]", "datetime_offset": "timedelta64[s]"}


def _wrong(name, value, *kinds):
    return TypeError(f"{name} has to be {' or '.join(kind.__name__ for kind in kinds)}, not {type(value).__name__}")


def _integer(name, value, low, high):
    # The truth values of NumPy have an index in some of its versions.
    if isinstance(value, (bool, getattr(sys.modules.get("numpy"), "bool_", bool))) or not hasattr(value, "__index__"):
        raise _wrong(name, value, int)
    number = operator.index(value)
    if not low <= number <= high:
        raise ValueError(f"{name} has to be from {low} to {high}")
    return number


def _whole(name, index, value):
    """An integer of any size, in a column if its index is not negative."""
    return _integer(name if index < 0 else f"{name} {index}", value, -math.inf, math.inf)


def _wrong_text(index, item, can_read_timestamps):
    """The error of what is no text, in a column if its index is not negative, and what mends it."""
    cure = ""
    if index < 0 and can_read_timestamps and type(item) is not bool and hasattr(item, "__index__"):
        cure = ": timestamps=True reads integers"
    elif index >= 0 and can_read_timestamps and (isinstance(item, float) or type(item).__name__.startswith("float")):
        cure = ': in pandas astype("Int64") makes integers of floats, which timestamps=True reads'
    elif isinstance(item, (datetime.date, datetime.time, datetime.timedelta)) or type(item).__name__ in ("datetime64", "timedelta64"):
        cure = ": it is parsed already"
    return TypeError(f"{_wrong('value' if index < 0 else f'text {index}', item, str, bytes, bytearray, memoryview)}{cure}")


def _digits(index, item, can_read_timestamps):
    """The text of an integer."""
    try:
        number = _integer("text", item, -math.inf, math.inf)
    except TypeError:
        raise _wrong_text(index, item, can_read_timestamps) from None
    try:
        return str(number)
    except ValueError:  # Python prints no more than 4,300 decimal digits.
        return hex(number)


# The choices that pandas has other words for.
_WORDS_OF_PANDAS = {"raise": ("stop", "error"), "coerce": ("number", "nat")}


def _choice(name, value, *choices):
    """The number of a choice."""
    if not isinstance(value, str):
        raise _wrong(name, value, str)
    if value not in choices:
        from difflib import get_close_matches

        word = _plain_text(value)[:_SHOWN].lower()
        near = [it for it in choices if it in _WORDS_OF_PANDAS.get(word, ())] or get_close_matches(word, choices, 1)
        raise ValueError(f"{name} has to be {' or '.join(choices)}{f': did you mean {near[0]}?' if near else ''}")
    return choices.index(value)


class Config:
    """How texts and timestamps are parsed. It cannot be changed.

    - `timestamp_unit`: the unit of timestamps, `s`, `ms` or `us`. With `infer`, the default, they are seconds up to
      20,000,000,000 in absolute value, and milliseconds above.
    - `timestamp_offset`: the offset that the value of a timestamp gets, in seconds, less than 24 hours either way. It
      is attached, and shifts nothing: for Unix time it is 0. With `None`, the default, a timestamp's value is naive.
    - `overflow_behavior`: digits past the microsecond are refused with `error`, the default. With `truncate` they are
      dropped, and a decimal timestamp is rounded to the nearest microsecond.
    - `iso_order`: the components of an ISO 8601 duration come in any order with `lax`, the default. With `strict` they
      come in the order of the standard, each at most once.

    >>> time("12:13:14.123456789", config=Config(overflow_behavior="truncate"))
    datetime.time(12, 13, 14, 123456)
    """

    __module__ = "speedate"
    __slots__ = __match_args__ = "timestamp_unit", "timestamp_offset", "overflow_behavior", "iso_order"
    __slots__ += ("_numbers",)

    def __init_subclass__(cls):
        raise TypeError("Config has no subclasses")

    def __new__(cls, timestamp_unit="infer", timestamp_offset=None, overflow_behavior="error", iso_order="lax"):
        config = super().__new__(cls)
        offset = None if timestamp_offset is None else _integer("timestamp_offset", timestamp_offset, -86_399, 86_399)
        numbers = struct.pack(
            "=iBBBB",  # a SpeedateConfig
            offset or 0,
            offset is not None,
            _choice("timestamp_unit", timestamp_unit, "infer", "s", "ms", "us"),
            _choice("overflow_behavior", overflow_behavior, "error", "truncate"),
            _choice("iso_order", iso_order, "lax", "strict"))
        for name, value in zip(Config.__slots__, (timestamp_unit, offset, overflow_behavior, iso_order, numbers)):
            object.__setattr__(config, name, value)
        return config

    def __setattr__(self, name, value):
        raise AttributeError(f"{name} cannot be changed: a Config stays as it was made")

    def __delattr__(self, name):
        self.__setattr__(name, None)

    def __eq__(self, other):
        return self._numbers == other._numbers if type(other) is type(self) else NotImplemented

    def __hash__(self):
        return hash(self._numbers)

    def __repr__(self):
        fields = (f"{name}={getattr(self, name)!r}" for name in self.__match_args__)
        return f"{type(self).__name__}({', '.join(fields)})"

    def __reduce__(self):
        return type(self), tuple(getattr(self, name) for name in self.__match_args__)


_DAY, _CLOCK = ("year", "month", "day"), ("hour", "minute", "second", "microsecond", "tzinfo", "fold")
_FIELDS = {datetime.datetime: _DAY + _CLOCK, datetime.date: _DAY, datetime.time: _CLOCK,
           datetime.timedelta: ("days", "seconds", "microseconds")}


def _plain(value):
    """The value of the base class that a value of a subclass is equal to."""
    if value is not None and any(value is it for it in _missing()):
        raise TypeError(f"{value} has no text")
    for kind, names in _FIELDS.items():
        if issubclass(type(value), kind):
            plain = kind(**{name: getattr(value, name) for name in names})
            if not plain == value:
                raise ValueError(f"the {type(value).__name__} is not equal to {plain!r}: it may have nanoseconds")
            return plain
    raise _wrong("value", value, *_FIELDS)


def _missing():
    """What stands for a missing value in pandas, if that is loaded."""
    pandas = sys.modules.get("pandas")
    return getattr(pandas, "NA", None), getattr(pandas, "NaT", None)


def _is_of_pandas(values, *kinds):
    pandas = sys.modules.get("pandas")
    return isinstance(values, tuple(getattr(pandas, it, ()) for it in kinds or ("Series", "Index")))


def _turn():
    """CPython lets another thread run when a function begins, if that has waited long enough."""


def _checked(values):
    """What iterates over the items of one column. What is masked is missing."""
    if isinstance(values, Mapping) or hasattr(values, "columns"):
        raise TypeError(f"value has to be one column, not {type(values).__name__}: pass its values, or one of its columns")
    if isinstance(values, (set, frozenset)):
        raise TypeError(f"value has to be one column, not {type(values).__name__}: its items have no order")
    values = values.to_numpy() if _is_of_pandas(values) and values.dtype.kind in "Oiu" else values
    of_numpy = getattr(values, "dtype", None)
    if getattr(of_numpy, "itemsize", 0) > 1 and getattr(values, "ndim", 1) != 1:
        cure = "values[:, 0], or " * (values.ndim == 2)
        raise TypeError(f"value has to be one column, not an array of {values.ndim} dimensions: pass {cure}values.ravel()")
    return values.tolist() if hasattr(values, "filled") else values


def _items(texts):
    """What iterates over texts, or has bytes or integers in memory, whether the items are lines of a file, and the index and the
    name of a Series."""
    if isinstance(texts, str):
        raise TypeError(f"value has to be an iterable of texts, a file, or bytes, not {type(texts).__name__}")
    values = _checked(texts)
    kind = getattr(getattr(values, "dtype", None), "kind", "")
    if values is not texts and kind in ("i", "u") and values.dtype.itemsize == 1:
        raise TypeError(f'value has integers of one byte, which are texts in memory: astype("int64") makes integers of a {type(texts).__name__} of {values.dtype}')
    if kind in ("S", "U"):
        return chain.from_iterable(_lists(values)), False, None
    labels = (texts.index, texts.name) if _is_of_pandas(texts, "Series") else None
    return values, hasattr(texts, "readline"), labels


def _lists(values):
    """Lists of the items of an array of NumPy: an iteration over it would make an object of NumPy for each, which takes longer."""
    for place in range(0, len(values), 1024):
        yield values[place:place + 1024].tolist()


_PRINTED = "date", "time", "datetime", "datetime_clock", "duration"


def _numbers_of(numbers, kind):
    """The integers that a column is printed from, and the place of its kind."""
    from ._speedate import Column

    if kind is None:
        if not isinstance(numbers, Column):
            raise TypeError(f"value has to be a Column, not {type(numbers).__name__}, unless there is a kind")
        kind = numbers.kind
    if isinstance(kind, str) and kind == "datetime_offset":
        raise ValueError(f"text_column cannot print offsets, only {' or '.join(_PRINTED)}")
    place = _choice("kind", kind, *_PRINTED)
    if isinstance(numbers, Column):
        if kind != numbers.kind:
            raise ValueError(f"the column is of kind {numbers.kind}, not {kind}")
        return numbers.numbers, place
    if isinstance(numbers, (str, bytes, bytearray)):
        raise TypeError(f"value has to be an iterable of integers, not {type(numbers).__name__}")
    values = _checked(numbers)
    of_numpy, unit = getattr(values, "dtype", None), _UNITS[kind]
    if getattr(of_numpy, "kind", "") not in ("m", "M"):
        return values, place
    if of_numpy == unit:
        return values.to_numpy().view("int64") if _is_of_pandas(values) else values.view("int64"), place
    zone = f"{'.dt' * hasattr(values, 'dt')}.tz_convert(None)" if hasattr(of_numpy, "tz") else ""
    cure = f'{zone}.to_numpy("{unit}")' if _is_of_pandas(values) else f'astype("{unit}")'
    raise TypeError(f"value has to be of {unit}, not {of_numpy}: {cure} makes it so")
