"""Date-times as Arrow has texts, with no package but speedate: offsets into the bytes of all texts, and a bit for each that is not null.

    >>> offsets, data = array.array("i", [0, 20, 20, 36, 53]), b"1970-01-01T00:00:01Z29/02/2020 12:001970-01-01T00:00Z"
    >>> column = moments_of(offsets, data, b"\\x0d", "collect")
    >>> column.tolist() == [1_000_000, NOT_A_TIME, NOT_A_TIME, 0], validity_of(column)
    (True, b'\\t')
    >>> print(*column.refused)
    invalid_char_year in text 2 at 0: expected four digits of the year: b'29/02/2020 12:00'

The bytes may be in a `memoryview` or an `mmap` too. The memory of the numbers can be read without a copy:

    >>> memoryview(column.numbers).nbytes, memoryview(column.numbers)[0]
    (32, 1000000)

PyArrow gives the buffers of a column of the type `string` that is no slice, by `valid, offsets, data = texts.buffers()`. It takes
the numbers by `pyarrow.Array.from_buffers(pyarrow.timestamp("us", "UTC"), len(column), [pyarrow.py_buffer(validity_of(column)),
pyarrow.py_buffer(column.numbers)])`. Neither was tried with PyArrow.
"""
import array

import speedate

NOT_A_TIME = -(2**63)


def texts_of(offsets, data, valid):
    """The texts of a column: text i is data[offsets[i]:offsets[i + 1]], and null if bit i of `valid` is 0."""
    offsets, data = memoryview(offsets).cast("B").cast("i"), memoryview(data)
    for i in range(len(offsets) - 1):
        is_null = valid is not None and not valid[i // 8] >> i % 8 & 1
        yield None if is_null else data[offsets[i] : offsets[i + 1]]


def moments_of(offsets, data, valid=None, refused="stop"):
    """The column of the texts, with NOT_A_TIME for a null, and for a refused text if the first one does not end the column."""
    return speedate.datetime_column(texts_of(offsets, data, valid), refused=refused)


def validity_of(numbers):
    """A bit for each number that is a moment, as Arrow has it."""
    bits = bytearray((len(numbers) + 7) // 8)
    for i, number in enumerate(numbers):
        bits[i // 8] |= (number != NOT_A_TIME) << i % 8
    return bytes(bits)
