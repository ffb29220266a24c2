/* Printing: the text of a value. */
#include "extension.h"

/* ---- Printing ---- */

/* A printed text, and room for any. */
typedef struct {
    char bytes[64];
    size_t length;
} Printed;

static PyObject *text_of(int code, const Printed *printed) {
    PyObject *text = code == SPEEDATE_OK ? PyUnicode_New((Py_ssize_t)printed->length, 127) : raise_mistake(code);
    if (text)
        memcpy(PyUnicode_1BYTE_DATA(text), printed->bytes, printed->length);
    return text;
}

#define ROOM printed.bytes, sizeof printed.bytes, &printed.length

/* The text that a call prints of a value, of one with a second with just as many digits of it unless these are SHORTEST. */
#define SHORTEST SPEEDATE_DIGITS_AUTO
#define PRINTED(call, ...) \
    Printed printed; \
    int code = call(__VA_ARGS__, ROOM); \
    return text_of(code, &printed)

static int take_size(PyObject *size, SpeedateTime *time) {
    int seconds = PyDateTime_DELTA_GET_DAYS(size) * 86400 + PyDateTime_DELTA_GET_SECONDS(size);
    if (seconds % 60 != 0 || PyDateTime_DELTA_GET_MICROSECONDS(size) != 0)
        return PyErr_Format(PyExc_ValueError, "the offset %S is not whole minutes", size), -1;
    time->has_offset = 1;
    time->offset = seconds;
    return 0;
}

/* What the zone of a value tells. One of datetime's own has a single offset, which it is asked for without a detour. */
static PyObject *utcoffset(const State *state, PyObject *value, PyObject *zone) {
    bool fixed = Py_TYPE(zone) == Py_TYPE(state->datetime->TimeZone_UTC);
    return PyObject_CallMethodObjArgs(fixed ? zone : value, state->held[UTCOFFSET], fixed ? Py_None : NULL, NULL);
}

/* Takes the offset of a time or a date-time, which its zone may tell by a call of Python. */
static int take_offset(const State *state, PyObject *value, PyObject *zone, SpeedateTime *time) {
    int status = -1;
    time->has_offset = zone == state->datetime->TimeZone_UTC;
    time->offset = 0;
    if (zone == Py_None || time->has_offset)
        return 0;
    PyObject *size = utcoffset(state, value, zone);
    if (!size)
        return -1;
    if (size == Py_None)
        PyErr_Format(PyExc_ValueError, "the zone %S has no offset at %S", zone, value);
    else
        status = take_size(size, time);
    Py_DECREF(size);
    return status;
}

static SpeedateDate date_of(PyObject *value) {
    return (SpeedateDate){PyDateTime_GET_YEAR(value), PyDateTime_GET_MONTH(value), PyDateTime_GET_DAY(value)};
}

static PyObject *no_digits(PyObject *value) {
    return wrong_type("value", "datetime or time if there are digits", value), NULL;
}

static PyObject *print_date(const State *state, PyObject *value, int digits) {
    (void)state;
    if (digits != SHORTEST)
        return no_digits(value);
    PRINTED(speedate_date_to_text, date_of(value));
}

static PyObject *print_time(const State *state, PyObject *value, int digits) {
    PyDateTime_Time *it = (PyDateTime_Time *)value;
    SpeedateTime time = {.hour = PyDateTime_TIME_GET_HOUR(it),
                         .minute = PyDateTime_TIME_GET_MINUTE(it),
                         .second = PyDateTime_TIME_GET_SECOND(it),
                         .microsecond = PyDateTime_TIME_GET_MICROSECOND(it)};
    if (take_offset(state, value, it->hastzinfo ? it->tzinfo : Py_None, &time) < 0)
        return NULL;
    PRINTED(speedate_time_to_text, time, digits);
}

static PyObject *print_datetime(const State *state, PyObject *value, int digits) {
    PyDateTime_DateTime *it = (PyDateTime_DateTime *)value;
    SpeedateDateTime moment = {date_of(value),
                               {.hour = PyDateTime_DATE_GET_HOUR(it),
                                .minute = PyDateTime_DATE_GET_MINUTE(it),
                                .second = PyDateTime_DATE_GET_SECOND(it),
                                .microsecond = PyDateTime_DATE_GET_MICROSECOND(it)}};
    if (take_offset(state, value, it->hastzinfo ? it->tzinfo : Py_None, &moment.time) < 0)
        return NULL;
    PRINTED(speedate_datetime_to_text, moment, digits);
}

static PyObject *print_duration(const State *state, PyObject *value, int digits) {
    (void)state;
    if (digits != SHORTEST)
        return no_digits(value);
    SpeedateDuration it = {.negative = PyDateTime_DELTA_GET_DAYS(value) < 0};
    PyObject *size = PyNumber_Absolute(value);
    if (!size)
        return NULL;
    it.day = (uint32_t)PyDateTime_DELTA_GET_DAYS(size);
    it.second = (uint32_t)PyDateTime_DELTA_GET_SECONDS(size);
    it.microsecond = (uint32_t)PyDateTime_DELTA_GET_MICROSECONDS(size);
    Py_DECREF(size);
    PRINTED(speedate_duration_to_text, it);
}

typedef PyObject *Print(const State *state, PyObject *value, int digits);

/* How values of a type are printed, or NULL: those of a subclass may say more. */
static Print *print_of(const State *state, const PyTypeObject *type) {
    const PyDateTime_CAPI *api = state->datetime;
    return type == api->DateTimeType ? print_datetime
           : type == api->DateType   ? print_date
           : type == api->TimeType   ? print_time
           : type == api->DeltaType  ? print_duration
                                     : NULL;
}

/* Takes how many digits of a second are printed, or SHORTEST for None. */
static int take_digits(const State *state, PyObject *value, int *digits) {
    int64_t number = SHORTEST;
    if (value != Py_None && take_integer(state, "digits", value, 0, 6, &number) < 0)
        return -1;
    if (number != SHORTEST && number % 3 != 0)
        return PyErr_SetString(PyExc_ValueError, "digits has to be 0 or 3 or 6"), -1;
    *digits = (int)number;
    return 0;
}

PyObject *call_text(GIVEN) {
    static const Signature signature = {"text", {"value", "digits"}, 1};
    const State *state = PyModule_GetState(module);
    PyObject *bound[2] = {NULL}, *text = NULL;
    int digits;
    if (bind(&signature, arguments, count, keywords, bound) < 0 || take_digits(state, bound[1], &digits) < 0)
        return NULL;
    Print *print = print_of(state, Py_TYPE(bound[0]));
    if (print)
        return print(state, bound[0], digits);
    PyObject *plain = PyObject_CallFunctionObjArgs(state->held[PLAIN], bound[0], NULL);
    if (!plain)
        return NULL;
    if ((print = print_of(state, Py_TYPE(plain))))
        text = print(state, plain, digits);
    else
        wrong_type("value", "datetime or date or time or timedelta", plain);
    Py_DECREF(plain);
    return text;
}

/* ---- Columns ---- */

#define LINE_SIZE SPEEDATE_DATETIME_TEXT_SIZE /* the most bytes of a line of a column, with its end */

/* How the library prints numbers as lines. It may change the numbers. */
typedef int PrintLines(int64_t *numbers, size_t count, char *lines, size_t size, SpeedateProgress *progress);

#define PRINT_LINES(name, call, flags) \
    static int name(int64_t *numbers, size_t count, char *lines, size_t size, SpeedateProgress *progress) { \
        return call(numbers, count, flags, lines, size, progress); \
    }
PRINT_LINES(print_times, speedate_time_print_column, 0)
PRINT_LINES(print_datetimes, speedate_datetime_print_column, 0)
PRINT_LINES(print_clocks, speedate_datetime_print_column, SPEEDATE_CLOCK)
PRINT_LINES(print_durations, speedate_duration_print_column, 0)

/* Days have 64 bits in NumPy, and 32 in C, which all of these fit. They move forward in their places. */
static int print_dates(int64_t *numbers, size_t count, char *lines, size_t size, SpeedateProgress *progress) {
    for (size_t i = 0; i < count; i++) {
        int32_t day = numbers[i] == NOT_A_TIME ? INT32_MIN : (int32_t)numbers[i];
        memcpy((char *)numbers + i * sizeof day, &day, sizeof day);
    }
    return speedate_date_print_column((const int32_t *)numbers, count, 0, lines, size, progress);
}

/* The kinds of columns that can be printed, in the order of _PRINTED in _types.py, and the largest number that C can take.
 * The smallest is its opposite, since one less stands for a refused line. */
static const struct {
    PrintLines *print;
    int64_t largest;
} kinds[] = {
    {print_dates, INT32_MAX},  {print_times, INT64_MAX},     {print_datetimes, INT64_MAX},
    {print_clocks, INT64_MAX}, {print_durations, INT64_MAX},
};

/* A column that is printed: its lines so far, with room after them, and the numbers of the next ones. */
typedef struct {
    const State *state;
    PrintLines *print;
    int64_t largest;
    PyObject *missing; /* what pandas has for a missing item, once that was asked for */
    PyObject *lines;
    Py_ssize_t used;   /* bytes of the lines */
    Py_ssize_t before; /* how many numbers are printed */
    int64_t *numbers;
    size_t count; /* of them */
} PrintedColumn;

/* Makes room for the lines of the numbers. */
static int make_room(PrintedColumn *column) {
    Py_ssize_t size = PyBytes_GET_SIZE(column->lines), needed = column->used + (Py_ssize_t)column->count * LINE_SIZE;
    if (needed <= size)
        return 0;
    return _PyBytes_Resize(&column->lines, needed > 2 * size ? needed : 2 * size);
}

/* Raises the ParseError of a number that has no text, as its class makes it: it does not find its part in a text. */
static int refuse_number(const PrintedColumn *column, int code, Py_ssize_t index, PyObject *integer) {
    const State *state = column->state;
    bool is_too_large = code == SPEEDATE_NUMBER_TOO_LARGE;
    PyObject *words = is_too_large ? PyUnicode_FromString("a number that fits 64 bits, or 32 if it counts days")
                                   : expected_of(code, SPEEDATE_KIND_NONE);
    PyObject *digits = words && integer ? call_on_item(state, DIGITS, index, integer, DURATION) : NULL;
    if (digits)
        raise_error(PyObject_CallFunction(state->held[PARSE_ERROR], "sOinOn", speedate_code_string(code), digits, 0,
                                          PyUnicode_GET_LENGTH(digits), words, index));
    Py_XDECREF(words);
    Py_XDECREF(digits);
    Py_XDECREF(integer);
    return -1;
}

/* Prints the numbers. Signals are heard. */
static int print_numbers(PrintedColumn *column) {
    SpeedateProgress progress = {0, 0, SPEEDATE_OK, SPEEDATE_PART_NONE};
    if (make_room(column) < 0)
        return -1;
    char *lines = PyBytes_AS_STRING(column->lines);
    size_t room = (size_t)(PyBytes_GET_SIZE(column->lines) - column->used);
    int code = column->print(column->numbers, column->count, lines + column->used, room, &progress);
    if (code == SPEEDATE_OK)
        code = progress.error;
    if (code != SPEEDATE_OK) {
        int32_t day;
        memcpy(&day, (char *)column->numbers + progress.lines * sizeof day, sizeof day);
        int64_t number = column->print == print_dates ? day : column->numbers[progress.lines];
        return refuse_number(column, code, column->before + (Py_ssize_t)progress.lines, PyLong_FromLongLong(number));
    }
    column->used += (Py_ssize_t)progress.bytes;
    column->before += (Py_ssize_t)column->count;
    column->count = 0;
    return PyErr_CheckSignals();
}

/* Prints the numbers before an item that failed, of which one may have no text: the first error is raised. */
static int fail_after_numbers(PrintedColumn *column) {
    PyObject *type, *value, *traceback;
    PyErr_Fetch(&type, &value, &traceback);
    if (print_numbers(column) == 0) {
        PyErr_Restore(type, value, traceback);
        return -1;
    }
    Py_XDECREF(type);
    Py_XDECREF(value);
    Py_XDECREF(traceback);
    return -1;
}

/* Puts a number after those before it. It is no object if it lies in memory. */
static int put_number(PrintedColumn *column, Whole whole, PyObject *item) {
    bool is_taken = whole.number == NOT_A_TIME || (-column->largest <= whole.number && whole.number <= column->largest);
    if (!whole.fits || !is_taken) {
        refuse_number(column, SPEEDATE_NUMBER_TOO_LARGE, column->before + (Py_ssize_t)column->count,
                      new_integer(item, whole));
        return fail_after_numbers(column);
    }
    column->numbers[column->count++] = whole.number;
    if (column->count % TURN_ITEMS == 0 && give_turn(column->state) < 0)
        return -1;
    return column->count < BLOCK ? 0 : print_numbers(column);
}

static int put_item(PrintedColumn *column, PyObject *item) {
    Whole number = {NOT_A_TIME, true};
    int missing = PyLong_CheckExact(item) ? 0 : is_missing(column->state, &column->missing, item);
    Py_ssize_t index = column->before + (Py_ssize_t)column->count;
    if (missing < 0 || (!missing && take_whole(column->state, "number", index, item, &number) < 0))
        return fail_after_numbers(column);
    return put_number(column, number, missing ? NULL : item);
}

static int put_items(PrintedColumn *column, PyObject *items) {
    PyObject *item, *iterator = PyObject_GetIter(items);
    if (!iterator)
        return -1;
    int status = 0;
    while (status == 0 && (item = PyIter_Next(iterator)) != NULL) {
        status = put_item(column, item);
        Py_DECREF(item);
    }
    Py_DECREF(iterator);
    return status == 0 && PyErr_Occurred() ? fail_after_numbers(column) : status;
}

static int put_memory(PrintedColumn *column, const Py_buffer *buffer) {
    int status = 0;
    size_t count = (size_t)(buffer->len / buffer->itemsize);
    for (size_t i = 0; status == 0 && i < count; i++)
        status = put_number(column, whole_at(buffer, i), NULL);
    return status;
}

static int put_numbers(PrintedColumn *column, PyObject *numbers) {
    PyObject *view;
    if (view_memory(numbers, has_integers, &view) < 0)
        return -1;
    int status = view ? put_memory(column, PyMemoryView_GET_BUFFER(view)) : put_items(column, numbers);
    Py_XDECREF(view);
    return status < 0 || print_numbers(column) < 0 ? -1 : 0;
}

/* The lines of the numbers, if they could be made. */
static PyObject *lines_of(PrintedColumn *column, PyObject *numbers) {
    column->numbers = PyMem_Malloc(BLOCK * sizeof *column->numbers);
    column->lines = PyBytes_FromStringAndSize(NULL, 0);
    if (!column->numbers)
        PyErr_NoMemory();
    if (!column->numbers || !column->lines || put_numbers(column, numbers) < 0)
        Py_CLEAR(column->lines);
    else
        _PyBytes_Resize(&column->lines, column->used);
    PyMem_Free(column->numbers);
    Py_XDECREF(column->missing);
    return column->lines;
}

PyObject *call_text_column(GIVEN) {
    static const Signature signature = {"text_column", {"value", "kind"}, 1};
    PrintedColumn column = {.state = PyModule_GetState(module)};
    PyObject *bound[2] = {NULL}, *lines = NULL, *numbers;
    int kind;
    if (bind(&signature, arguments, count, keywords, bound) < 0)
        return NULL;
    PyObject *pair = PyObject_CallFunctionObjArgs(column.state->held[NUMBERS_OF], bound[0], bound[1] ? bound[1] : Py_None, NULL);
    if (pair && PyArg_ParseTuple(pair, "Oi", &numbers, &kind)) {
        column.print = kinds[kind].print;
        column.largest = kinds[kind].largest;
        lines = lines_of(&column, numbers);
    }
    Py_XDECREF(pair);
    return lines;
}

/* The linker puts the library behind this file, which comes last. So its functions keep their places in lines of the cache, and
 * their speed, whatever the extension has before them. */
__asm__(".text\n.balign 64\n");
