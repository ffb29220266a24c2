/* The set-up of the module: the objects that it holds, its errors, and its functions with their documentation. */
#include "extension.h"

#include <structmember.h>

#define MARK_WORDS "it begins with a byte order mark, which the encoding utf-8-sig drops"
#define MARK_OF_BYTES_WORDS "it begins with a byte order mark: skip its three bytes"
#define LINE_END_WORDS "it has a line ending, which lines=True drops"
static const char *const hint_words[ALL_HINTS] = {
    [BYTE_ORDER_MARK] = MARK_WORDS,
    [BYTE_ORDER_MARK | OF_BYTES] = MARK_OF_BYTES_WORDS,
    [LINE_END] = LINE_END_WORDS,
    [LINE_END | OF_BYTES] = LINE_END_WORDS,
    [BYTE_ORDER_MARK | LINE_END] = MARK_WORDS "; " LINE_END_WORDS,
    [BYTE_ORDER_MARK | LINE_END | OF_BYTES] = MARK_OF_BYTES_WORDS "; " LINE_END_WORDS,
    [INTEGER_OR_TIMESTAMP] = "it is an integer, which is a timestamp only with timestamps=True",
    [NO_TIMESTAMP] = "it is an integer, not a text",
};

const char *const slot_names[SLOTS] = {"_source", "_call"};

static const struct {
    const char *module, *name;
} imports[] = {
    [DATETIME] = {"datetime", "datetime_CAPI"},
    [ARRAY] = {"array", "array"},
    [CONFIG] = {"speedate._types", "Config"},
    [PARSE_ERROR] = {"speedate._types", "ParseError"},
    [COLUMN] = {"speedate._types", "Column"},
    [REFUSED] = {"speedate._types", "Refused"},
    [INTEGER] = {"speedate._types", "_integer"},
    [CHOICE] = {"speedate._types", "_choice"},
    [PLAIN] = {"speedate._types", "_plain"},
    [MISSING] = {"speedate._types", "_missing"},
    [ITEMS] = {"speedate._types", "_items"},
    [TURN] = {"speedate._types", "_turn"},
    [WHOLE] = {"speedate._types", "_whole"},
    [DIGITS] = {"speedate._types", "_digits"},
    [WRONG_TEXT] = {"speedate._types", "_wrong_text"},
    [NUMBERS_OF] = {"speedate._types", "_numbers_of"},
};

/* ---- Errors ---- */

int wrong_type(const char *name, const char *kinds, PyObject *value) {
    PyObject *type = PyObject_GetAttrString((PyObject *)Py_TYPE(value), "__name__");
    if (type) {
        PyErr_Format(PyExc_TypeError, "%s has to be %s, not %S", name, kinds, type);
        Py_DECREF(type);
    }
    return -1;
}

/* A ParseError without a call of its __init__, which would take longer than all the rest. It finds its part when it is asked
 * for it. Its index is negative if it is of no column. A flag of the code says that the text is of an integer. */
PyObject *new_error(const State *state, int code, Py_ssize_t index, PyObject *source, int call) {
    if (code & INTEGER_FLAG)
        return new_error(state, code & ~INTEGER_FLAG, index, source, call | OF_INTEGER);
    if (code < 0 || code >= ALL_CODES || !state->held[ATTRIBUTES + code])
        return raise_mistake(code);
    PyTypeObject *type = (PyTypeObject *)state->held[PARSE_ERROR], *base = (PyTypeObject *)PyExc_ValueError;
    PyObject *error = base->tp_new(type, state->held[ARGUMENTS + code], NULL);
    PyObject *attributes = error ? PyDict_Copy(state->held[ATTRIBUTES + code]) : NULL;
    PyObject *place = attributes && index >= 0 ? PyLong_FromSsize_t(index) : NULL;
    PyObject *number = attributes ? PyLong_FromLong(call) : NULL;
    PyObject *kept[SLOTS] = {[SOURCE] = source, [CALL_NUMBER] = number};
    if (!number || (index >= 0 && (!place || PyDict_SetItem(attributes, state->held[INDEX], place) < 0))) {
        Py_XDECREF(attributes);
        Py_CLEAR(error);
    } else {
        ((PyBaseExceptionObject *)error)->dict = attributes;
        for (int i = 0; i < SLOTS; i++) {
            Py_INCREF(kept[i]);
            *(PyObject **)((char *)error + state->offsets[i]) = kept[i];
        }
    }
    Py_XDECREF(number);
    Py_XDECREF(place);
    return error;
}

PyObject *raise_error(PyObject *error) {
    if (error) {
        PyErr_SetObject((PyObject *)Py_TYPE(error), error);
        Py_DECREF(error);
    }
    return NULL;
}

/* Raises what the library says of something else than a text. */
PyObject *raise_mistake(int code) {
    return PyErr_Format(PyExc_ValueError, "the library refuses an argument: %s", speedate_code_string(code));
}

/* ---- The module ---- */

static PyObject *call_names(PyObject *module, PyObject *none) {
    (void)none;
    PyObject *names = ((State *)PyModule_GetState(module))->held[NAMES];
    Py_INCREF(names);
    return names;
}

static int hold(State *state, int place, PyObject *object) {
    state->held[place] = object;
    return !object ? -1 : 0;
}

static int hold_imports(State *state) {
    for (int i = 0; i < (int)(sizeof imports / sizeof imports[0]); i++) {
        PyObject *module = PyImport_ImportModule(imports[i].module);
        if (!module)
            return -1;
        int status = hold(state, i, PyObject_GetAttrString(module, imports[i].name));
        Py_DECREF(module);
        if (status < 0) {
            /* So it is where datetime is the one that is written in Python. */
            if (PyErr_ExceptionMatches(PyExc_AttributeError))
                PyErr_Format(PyExc_ImportError, "speedate needs %s.%s", imports[i].module, imports[i].name);
            return -1;
        }
    }
    state->datetime = PyCapsule_GetPointer(state->held[DATETIME], PyDateTime_CAPSULE_NAME);
    if (!state->datetime)
        return -1;
    if (PyExceptionClass_Check(state->held[PARSE_ERROR]) &&
        PyType_IsSubtype((PyTypeObject *)state->held[PARSE_ERROR], (PyTypeObject *)PyExc_ValueError))
        return 0;
    PyErr_SetString(PyExc_ImportError, "speedate.ParseError is no ValueError");
    return -1;
}

/* Where in a ParseError a slot lies, or a negative number. */
static Py_ssize_t find_slot(PyTypeObject *error, const char *name) {
    Py_ssize_t offset = -1;
    PyObject *slot = PyObject_GetAttrString((PyObject *)error, name);
    if (slot && Py_TYPE(slot) == &PyMemberDescr_Type) {
        PyMemberDescrObject *member = (PyMemberDescrObject *)slot;
        if (member->d_member->type == T_OBJECT_EX && PyType_IsSubtype(error, PyDescr_TYPE(member)))
            offset = member->d_member->offset;
    }
    Py_XDECREF(slot);
    if (offset < 0)
        PyErr_Format(PyExc_ImportError, "speedate.ParseError has no slot %s", name);
    return offset;
}

static int find_slots(State *state) {
    for (int i = 0; i < SLOTS; i++)
        if ((state->offsets[i] = find_slot((PyTypeObject *)state->held[PARSE_ERROR], slot_names[i])) < 0)
            return -1;
    return 0;
}

static const char *name_of(int code) {
    return code == YEAR_ZERO ? "year_zero" : code == DURATION_TOO_SMALL ? "duration_too_small" : speedate_code_string(code);
}

/* What the errors of a code have, if it says something of a text. */
static int hold_code(State *state, int code) {
    PyObject *name = PyUnicode_InternFromString(name_of(code));
    if (!name || PyList_Append(state->held[NAMES], name) < 0)
        return Py_XDECREF(name), -1;
    bool is_of_text = code > LAST_OF_TEXTS ? code >= YEAR_ZERO
                      : code != SPEEDATE_OK && strcmp(name_of(code), name_of(-1)) != 0;
    int status = !is_of_text ? 0
                 : hold(state, ARGUMENTS + code, PyTuple_Pack(1, name)) < 0
                     ? -1
                     : hold(state, ATTRIBUTES + code, Py_BuildValue("{sO}", "code", name));
    Py_DECREF(name);
    return status;
}

/* Gives the package the classes, so that it has these even if it, or _types.py, is loaded once more. */
static int give_classes(PyObject *module, const State *state) {
    for (int i = CONFIG; i <= REFUSED; i++)
        if (PyObject_SetAttrString(module, imports[i].name, state->held[i]) < 0)
            return -1;
    return 0;
}

#define TEXT_OF(number) #number
#define VERSION_OF(major, minor, patch) TEXT_OF(major) "." TEXT_OF(minor) "." TEXT_OF(patch)

static int start(PyObject *module) {
    State *state = PyModule_GetState(module);
    if (hold_imports(state) < 0 || find_slots(state) < 0 || give_classes(module, state) < 0 ||
        hold(state, NUMBERS, PyUnicode_InternFromString("_numbers")) < 0 ||
        hold(state, INDEX, PyUnicode_InternFromString("index")) < 0 ||
        hold(state, UTCOFFSET, PyUnicode_InternFromString("utcoffset")) < 0 ||
        hold(state, FROMBYTES, PyUnicode_InternFromString("frombytes")) < 0 || hold(state, NAMES, PyList_New(0)) < 0 ||
        PyModule_AddStringConstant(module, "__version__",
                                   VERSION_OF(SPEEDATE_VERSION_MAJOR, SPEEDATE_VERSION_MINOR, SPEEDATE_VERSION_PATCH)) < 0)
        return -1;
    for (int i = 0; i < ALL_HINTS; i++)
        if (hint_words[i] && hold(state, HINTS + i, PyUnicode_InternFromString(hint_words[i])) < 0)
            return -1;
    for (int code = 0; code < ALL_CODES; code++)
        if (hold_code(state, code) < 0)
            return -1;
    for (int i = -QUARTERS; i <= QUARTERS; i++)
        if (hold(state, ZONES + QUARTERS + i, new_zone(state, i * QUARTER)) < 0)
            return -1;
    return 0;
}

static int traverse(PyObject *module, visitproc visit, void *arg) {
    State *state = PyModule_GetState(module);
    for (int i = 0; state && i < ALL; i++)
        Py_VISIT(state->held[i]);
    return 0;
}

/* The state lives as long as its module, so that a call finds it even while garbage is collected: there is no m_clear.
 * The cycles over the package end with the dicts of the modules. */
static void release(void *module) {
    State *state = PyModule_GetState(module);
    for (int i = 0; state && i < ALL; i++)
        Py_CLEAR(state->held[i]);
}

#define METHOD(name, parameters, documentation) \
    {#name, (PyCFunction)(void (*)(void))call_##name, METH_FASTCALL | METH_KEYWORDS, \
     #name parameters "\n--\n\n" documentation}

#define NUMPY(kind) "`numpy.asarray(column)` is `" kind "`.\n"

static PyMethodDef methods[] = {
    METHOD(date, "(value, *, config=None, timestamps=False)",
           "Parses a date. With `timestamps=True` also a timestamp, which may be an integer, if it is a midnight.\n\n"
           ">>> date(\"2020-02-29\")\n"
           "datetime.date(2020, 2, 29)\n"
           ">>> date(\"1582934400\", timestamps=True), date(1582934400, timestamps=True)\n"
           "(datetime.date(2020, 2, 29), datetime.date(2020, 2, 29))\n"),
    METHOD(time, "(value, *, config=None, strict=False)",
           "Parses a time of day. With `strict=True` those of RFC 3339 and no others.\n\n"
           ">>> time(\"12:13:14,5Z\")\n"
           "datetime.time(12, 13, 14, 500000, tzinfo=datetime.timezone.utc)\n"
           ">>> time(\"12:13+01:00\", strict=True)\n"
           "Traceback (most recent call last):\n"
           "speedate.ParseError: invalid_char_time_sep at 5: expected a colon, as in HH:MM:SS: '12:13+01:00'\n"),
    METHOD(datetime, "(value, *, config=None, timestamps=False, strict=False, loose=False)",
           "Parses a date-time. With `strict=True` those of RFC 3339 and no others. With `loose=True` the offset may also be a zone\n"
           "as programs print it: `+01`, or after one space `UTC`, `GMT`, `+01:00` or `+0100`.\n\n"
           "With `timestamps=True` it also parses a timestamp, which may be an integer, or a text with a fraction: `20200229` is\n"
           "one. If the configuration names no unit, numbers up to 20,000,000,000 are seconds and larger ones milliseconds.\n"
           "Without `timestamp_offset` the value is naive.\n\n"
           ">>> datetime(\"2020-02-29 12:13\")\n"
           "datetime.datetime(2020, 2, 29, 12, 13)\n"
           ">>> datetime(\"2020-02-29 12:13:14 UTC\", loose=True)\n"
           "datetime.datetime(2020, 2, 29, 12, 13, 14, tzinfo=datetime.timezone.utc)\n"
           ">>> datetime(\"1654646404.25\", config=Config(timestamp_offset=0), timestamps=True)\n"
           "datetime.datetime(2022, 6, 8, 0, 0, 4, 250000, tzinfo=datetime.timezone.utc)\n"),
    METHOD(duration, "(value, *, config=None)",
           "Parses a duration. A year is 365 days, a month 30; `-PT0S` is `timedelta(0)`.\n\n"
           "Its sign covers the whole text, but in `str()` of a timedelta only the days: print it with `text`.\n\n"
           ">>> duration(\"-1 day, 23:59:59\")\n"
           "datetime.timedelta(days=-2, seconds=1)\n"),
    METHOD(date_front, "(value)",
           "The date at the front of a text, and its size: of a `str` in characters, otherwise in bytes. What follows the size\n"
           "is yours to read.\n\n"
           ">>> date_front(\"2020-02-29 opening balance\")\n"
           "(datetime.date(2020, 2, 29), 10)\n"),
    METHOD(time_front, "(value, *, config=None)",
           "The time at the front of a text, and its size as `date_front` counts it.\n\n"
           ">>> time_front(\"12:13 lunch\")\n"
           "(datetime.time(12, 13), 5)\n"),
    METHOD(datetime_front, "(value, *, config=None, loose=False)",
           "The date-time at the front of a text, and its size as `date_front` counts it.\n\n"
           "What follows the size is yours to read. An offset after a space is part of the value only with `loose=True`, which\n"
           "is as in `datetime`. Then a letter or a digit after the value is refused.\n\n"
           ">>> datetime_front(\"2026-11-01 08:00:00 -0500\")\n"
           "(datetime.datetime(2026, 11, 1, 8, 0), 19)\n"
           ">>> datetime_front(\"2026-11-01 08:00:00 GMT [42]\", loose=True)\n"
           "(datetime.datetime(2026, 11, 1, 8, 0, tzinfo=datetime.timezone.utc), 23)\n"),
    METHOD(datetime_column,
           "(value, *, config=None, timestamps=False, strict=False, loose=False, missing_offset='error', refused='stop', "
           "empty='error', lines=False)",
           "The microseconds from 1970-01-01T00:00Z to each date-time.\n\n"
           "`value` is an iterable of texts, each as `datetime` parses it; or a file, or bytes in memory, such as `bytes` and an\n"
           "`mmap`, of which each line is a text. A file is read from its current position: call `seek(0)` after writing. A line\n"
           "feed ends a line; the last line may lack it. A carriage return at the end of a line is dropped. With `lines=True`\n"
           "the items of an iterable, such as `list(file)`, are lines too. A `str`, a mapping, a set and a DataFrame are a\n"
           "`TypeError`: pass one column.\n\n"
           "`timestamps`, `strict` and `loose` are as in `datetime`. Name the unit of timestamps, since otherwise 13000000000 is seconds,\n"
           "of the year 2381. An integer that does not fit 64 bits is refused with `number_too_large`. Without `timestamps` an\n"
           "integer is refused as its digits are. Integers of one byte in memory are texts. The year 0 is accepted, although\n"
           "`datetime` has no such value.\n\n"
           "Texts and timestamps without an offset fail with `tz_required`, or count as UTC with `missing_offset=\"utc\"`. A\n"
           "timestamp has the offset of the configuration: for Unix time it is `Config(timestamp_offset=0)`.\n\n"
           "The first text that is refused raises its `ParseError`, whose `index` is its position in the column: in pandas its\n"
           "row is `frame.iloc[error.index]`, whatever the labels are. With `refused=\"number\"` each such text gives the smallest\n"
           "number, which is NaT in NumPy, and with `refused=\"collect\"` the errors are in `column.refused` too. What\n"
           "`pandas.isna` calls missing, and what an array of NumPy masks, is NaT and not refused, and so is an empty text with\n"
           "`empty=\"nat\"`.\n\n"
           ">>> datetime_column([\"1970-01-01T00:00:01Z\", \"1970-01-01T01:00+01:00\"])\n"
           "Column('datetime', [1000000, 0])\n"
           ">>> datetime_column([\"1970-01-01 01:00:01+01\", \"1970-01-01 00:00:00 UTC\"], loose=True)\n"
           "Column('datetime', [1000000, 0])\n"
           ">>> column = datetime_column(b\"1970-01-01 00:00\\nnever\\n\", missing_offset=\"utc\", refused=\"collect\")\n"
           ">>> column, column.refused[0].code, column.refused[0].text\n"
           "(Column('datetime', [0, -9223372036854775808]), 'too_short', b'never')\n\n"
           NUMPY("datetime64[us]")),
    METHOD(datetime_clock_column,
           "(value, *, config=None, timestamps=False, strict=False, loose=False, refused='stop', empty='error', lines=False)",
           "The microseconds from 1970-01-01T00:00 that the clock of each date-time shows.\n\n"
           "The arguments mean what they do in `datetime_column`. The clock is read whatever the offset is, which\n"
           "`datetime_offset_column` reads. A timestamp shows the clock of UTC.\n\n"
           ">>> datetime_clock_column([\"1970-01-01T00:00:01\", \"1970-01-01T01:00+01:00\"])\n"
           "Column('datetime_clock', [1000000, 3600000000])\n\n"
           NUMPY("datetime64[us]")),
    METHOD(datetime_offset_column,
           "(value, *, config=None, timestamps=False, strict=False, loose=False, refused='stop', empty='error', lines=False)",
           "The seconds of the offset of each date-time, positive east of UTC.\n\n"
           "The arguments mean what they do in `datetime_column`. A date-time without an offset fails with `tz_required`. A\n"
           "timestamp has the offset of the configuration.\n\n"
           ">>> datetime_offset_column([\"1970-01-01T00:00:01Z\", \"1970-01-01T01:00+01:00\"])\n"
           "Column('datetime_offset', [0, 3600])\n\n"
           NUMPY("timedelta64[s]")),
    METHOD(date_column, "(value, *, config=None, timestamps=False, strict=False, refused='stop', empty='error', lines=False)",
           "The days from 1970-01-01 to each date.\n\n"
           "The arguments mean what they do in `datetime_column`, and each text is parsed as by `date`. With `strict=True` it\n"
           "is the same. The year 0 is accepted, although `date` has no such value.\n\n"
           ">>> date_column(b\"1970-01-02\\n1969-12-31\\n\")\n"
           "Column('date', [1, -1])\n\n"
           NUMPY("datetime64[D]")),
    METHOD(time_column, "(value, *, config=None, strict=False, refused='stop', empty='error', lines=False)",
           "The microseconds after midnight that the clock of each time shows, whatever the offset is.\n\n"
           "The arguments mean what they do in `datetime_column`, and each text is parsed as by `time`.\n\n"
           ">>> time_column([\"12:13:14.5\", None, \"12:13:14.5+01:00\"])\n"
           "Column('time', [43994500000, -9223372036854775808, 43994500000])\n\n"
           NUMPY("timedelta64[us]")),
    METHOD(duration_column, "(value, *, config=None, refused='stop', empty='error', lines=False)",
           "The microseconds of each duration, with its sign.\n\n"
           "The arguments mean what they do in `datetime_column`, and each text is parsed as by `duration`. One of 2**63\n"
           "microseconds or more, over 106,751,991 days, is refused with `number_too_large`.\n\n"
           ">>> duration_column(b\"PT1.5S\\n-00:01:00\\n\")\n"
           "Column('duration', [1500000, -60000000])\n"
           ">>> duration_column([\"P106751992D\"])\n"
           "Traceback (most recent call last):\n"
           "speedate.ParseError: number_too_large in text 0 at 0: expected a duration of less than 2^63 microseconds: 'P106751992D'\n\n"
           NUMPY("timedelta64[us]")),
    METHOD(text, "(value, *, digits=None)",
           "The one text of a value. With `digits`, which is 0, 3 or 6, a time or a date-time has just as many digits after the\n"
           "second, rounded down. A year is 365 days, a month 30: 400 days are `P1Y35D`, which other readers may refuse.\n\n"
           "It refuses with a `ValueError` an offset that is not whole minutes, a time in a zone whose offset depends on the\n"
           "date, and a value of a subclass that says more than its base class, such as nanoseconds.\n\n"
           ">>> text(datetime(\"2020-02-29 12:13Z\")), text(date(\"2020-02-29\")), text(time(\"12:13:14.5\"), digits=3)\n"
           "('2020-02-29T12:13:00Z', '2020-02-29', '12:13:14.500')\n"
           ">>> text(duration(\"-1 day, 10:20\"))\n"
           "'-P1DT10H20M'\n"),
    METHOD(text_column, "(value, *, kind=None)",
           "The lines of a column, as `bytes`: the inverse of the call that reads such lines.\n\n"
           "`value` is a `Column`; or, if `kind` says what they count, an iterable of integers, or an array of NumPy or a column\n"
           "of pandas with integers or with times in the unit of that kind. It is `date`, `time`, `datetime`, `datetime_clock` or\n"
           "`duration`; one that a `Column` is not of is a `ValueError`, and so are offsets. What `pandas.isna` calls missing, and\n"
           "-2**63, is an empty line, which the other call reads with `empty=\"nat\"`. A number that has no text raises a\n"
           "`ParseError` with its `index`: `number_too_large` if it does not fit 64 bits, or 32 for days.\n\n"
           ">>> text_column(date_column([\"1970-01-02\", None]))\n"
           "b'1970-01-02\\n\\n'\n"
           ">>> text_column([1_500_000, -1], kind=\"datetime\")\n"
           "b'1970-01-01T00:00:01.500000Z\\n1969-12-31T23:59:59.999999Z\\n'\n"
           ">>> text_column([86_400_000_000], kind=\"time\")\n"
           "Traceback (most recent call last):\n"
           "speedate.ParseError: time_too_large in text 0 at 0: expected a time within the day: 00:00:00 to 23:59:59.999999: '86400000000'\n"),
    {"_names", call_names, METH_NOARGS, "_names()\n--\n\nThe name of each code."},
    {"_found", call_found, METH_VARARGS,
     "_found(source, call)\n--\n\nThe start and the end of a part, what was expected, and the hint, from what a ParseError keeps."},
    {"_refusal", call_refusal, METH_VARARGS, "_refusal(code, index, source, call)\n--\n\nAn error of a column."},
    {NULL, NULL, 0, NULL},
};

static PyModuleDef_Slot slots[] = {
    {Py_mod_exec, start},
#if PY_VERSION_HEX >= 0x030D0000
    /* Before, datetime has no functions for C in an interpreter with a lock of its own. */
    {Py_mod_multiple_interpreters, Py_MOD_PER_INTERPRETER_GIL_SUPPORTED},
#endif
    {0, NULL},
};

static struct PyModuleDef definition = {
    PyModuleDef_HEAD_INIT,
    .m_name = "speedate._speedate",
    .m_doc = "The calls of speedate.",
    .m_size = sizeof(State),
    .m_methods = methods,
    .m_slots = slots,
    .m_traverse = traverse,
    .m_free = release,
};

PyMODINIT_FUNC PyInit__speedate(void) {
    return PyModuleDef_Init(&definition);
}
