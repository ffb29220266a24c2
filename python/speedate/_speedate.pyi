import array
import ctypes
import datetime as _datetime
import mmap
from typing import Any, FrozenSet, Iterable, List, Literal, Mapping, Optional, Set, SupportsIndex, Tuple, Union, overload

from ._types import Column as Column, Config as Config, ParseError as ParseError, Refused as Refused

__version__: str

_Text = Union[str, bytes, bytearray, memoryview]
_Bytes = Union[bytes, bytearray, memoryview, mmap.mmap, array.array[int], ctypes.Array[Any]]
# A float may be NaN, which is missing.
_Texts = Union[Iterable[Union[_Text, SupportsIndex, float, None]], _Bytes]
# What iterates over texts and is no column: the overload for it has no result, so that its use is an error.
_NoColumn = Union[str, Mapping[Any, Any], Set[Any], FrozenSet[Any]]
_MissingOffset = Literal["error", "utc"]
_Refused = Literal["stop", "number", "collect"]
_Empty = Literal["error", "nat"]
_Kind = Literal["date", "time", "datetime", "datetime_clock", "duration"]

@overload
def date(value: SupportsIndex, *, config: Optional[Config] = None, timestamps: Literal[True]) -> _datetime.date: ...
@overload
def date(value: _Text, *, config: Optional[Config] = None, timestamps: bool = False) -> _datetime.date: ...
def time(value: _Text, *, config: Optional[Config] = None, strict: bool = False) -> _datetime.time: ...
@overload
def datetime(
    value: SupportsIndex, *, config: Optional[Config] = None, timestamps: Literal[True], strict: Literal[False] = False,
    loose: Literal[False] = False
) -> _datetime.datetime: ...
@overload
def datetime(
    value: _Text, *, config: Optional[Config] = None, timestamps: bool = False, strict: bool = False,
    loose: bool = False
) -> _datetime.datetime: ...
def duration(value: _Text, *, config: Optional[Config] = None) -> _datetime.timedelta: ...
def date_front(value: _Text) -> Tuple[_datetime.date, int]: ...
def time_front(value: _Text, *, config: Optional[Config] = None) -> Tuple[_datetime.time, int]: ...
def datetime_front(
    value: _Text, *, config: Optional[Config] = None, loose: bool = False
) -> Tuple[_datetime.datetime, int]: ...
@overload
def datetime_column(  # type: ignore
    value: _NoColumn, *, config: Optional[Config] = None, timestamps: bool = False, strict: bool = False,
    loose: bool = False, missing_offset: _MissingOffset = "error", refused: _Refused = "stop", empty: _Empty = "error",
    lines: bool = False
) -> None: ...
@overload
def datetime_column(
    value: _Texts, *, config: Optional[Config] = None, timestamps: bool = False, strict: bool = False,
    loose: bool = False, missing_offset: _MissingOffset = "error", refused: _Refused = "stop", empty: _Empty = "error",
    lines: bool = False
) -> Column: ...
@overload
def datetime_clock_column(  # type: ignore
    value: _NoColumn, *, config: Optional[Config] = None, timestamps: bool = False, strict: bool = False,
    loose: bool = False, refused: _Refused = "stop", empty: _Empty = "error", lines: bool = False
) -> None: ...
@overload
def datetime_clock_column(
    value: _Texts, *, config: Optional[Config] = None, timestamps: bool = False, strict: bool = False,
    loose: bool = False, refused: _Refused = "stop", empty: _Empty = "error", lines: bool = False
) -> Column: ...
@overload
def datetime_offset_column(  # type: ignore
    value: _NoColumn, *, config: Optional[Config] = None, timestamps: bool = False, strict: bool = False,
    loose: bool = False, refused: _Refused = "stop", empty: _Empty = "error", lines: bool = False
) -> None: ...
@overload
def datetime_offset_column(
    value: _Texts, *, config: Optional[Config] = None, timestamps: bool = False, strict: bool = False,
    loose: bool = False, refused: _Refused = "stop", empty: _Empty = "error", lines: bool = False
) -> Column: ...
@overload
def date_column(  # type: ignore
    value: _NoColumn, *, config: Optional[Config] = None, timestamps: bool = False, strict: bool = False,
    refused: _Refused = "stop", empty: _Empty = "error", lines: bool = False
) -> None: ...
@overload
def date_column(
    value: _Texts, *, config: Optional[Config] = None, timestamps: bool = False, strict: bool = False,
    refused: _Refused = "stop", empty: _Empty = "error", lines: bool = False
) -> Column: ...
@overload
def time_column(  # type: ignore
    value: _NoColumn, *, config: Optional[Config] = None, strict: bool = False,
    refused: _Refused = "stop", empty: _Empty = "error", lines: bool = False
) -> None: ...
@overload
def time_column(
    value: _Texts, *, config: Optional[Config] = None, strict: bool = False,
    refused: _Refused = "stop", empty: _Empty = "error", lines: bool = False
) -> Column: ...
@overload
def duration_column(  # type: ignore
    value: _NoColumn, *, config: Optional[Config] = None, refused: _Refused = "stop", empty: _Empty = "error", lines: bool = False
) -> None: ...
@overload
def duration_column(
    value: _Texts, *, config: Optional[Config] = None, refused: _Refused = "stop", empty: _Empty = "error", lines: bool = False
) -> Column: ...
@overload
def text_column(value: Union[_NoColumn, bytes, bytearray], *, kind: _Kind) -> None: ...  # type: ignore
@overload
def text_column(value: Iterable[Union[SupportsIndex, float, None]], *, kind: _Kind) -> bytes: ...
@overload
def text_column(value: Column, *, kind: Optional[_Kind] = None) -> bytes: ...
@overload
def text(value: Union[_datetime.date, _datetime.time, _datetime.timedelta], *, digits: None = None) -> str: ...
@overload
def text(value: Union[_datetime.datetime, _datetime.time], *, digits: Optional[Literal[0, 3, 6]] = None) -> str: ...
def _names() -> List[str]: ...
def _found(source: _Text, call: int) -> Tuple[int, int, str, Optional[str]]: ...
def _refusal(code: int, index: int, source: _Text, call: int) -> ParseError: ...
