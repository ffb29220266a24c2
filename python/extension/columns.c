/* Columns: the numbers of many texts, the errors among them, and turns of other threads. */
#include "extension.h"

#include <math.h>

/* ---- Columns ---- */

#define BLOCK_BYTES 262144 /* of memory that may change, at a time */
#define LONG_BYTES 65536   /* of lines, from which on other threads run meanwhile */
#define REFUSED_LINES 256  /* at a time */
#define ROWS 1024          /* of a table of errors, at a time */

/* How the library reads lines into numbers. */
typedef int ReadLines(const Text *text, SpeedateConfig config, SpeedateColumnConfig column, int64_t *numbers,
                      size_t room, SpeedateProgress *progress);

#define READ_LINES(name, call, number) \
    static int name(const Text *text, SpeedateConfig config, SpeedateColumnConfig column, number *numbers, \
                    size_t room, SpeedateProgress *progress) { \
        return call(BYTES, config, column, numbers, room, NULL, 0, progress); \
    }
READ_LINES(read_datetimes, speedate_datetime_lines, int64_t)
READ_LINES(read_clocks, speedate_datetime_clock_column, int64_t)
READ_LINES(read_times, speedate_time_lines, int64_t)
READ_LINES(read_durations, speedate_duration_lines, int64_t)

/* Days and offsets have 32 bits in C, and 64 in NumPy. They are written to the later half of their places, and move
 * forward. */
#define READ_SHORT_LINES(name, call) \
    READ_LINES(name##_of_32_bits, call, int32_t) \
    static int name(const Text *text, SpeedateConfig config, SpeedateColumnConfig column, int64_t *numbers, \
                    size_t room, SpeedateProgress *progress) { \
        int32_t *short_numbers = (int32_t *)numbers + room; \
        int code = name##_of_32_bits(text, config, column, short_numbers, room, progress); \
        if (code == SPEEDATE_OK) \
            move_forward(numbers, short_numbers, progress->lines); \
        return code; \
    }

static void move_forward(int64_t *numbers, const int32_t *short_numbers, size_t count) {
    int32_t number;
    for (size_t i = 0; i < count; i++) {
        memcpy(&number, (const char *)short_numbers + i * sizeof number, sizeof number);
        numbers[i] = number == INT32_MIN ? NOT_A_TIME : number;
    }
}
READ_SHORT_LINES(read_dates, speedate_date_lines)
READ_SHORT_LINES(read_offsets, speedate_datetime_offset_lines)

/* How the texts of a column become numbers: lines at once, and a text of a list by its value. */
typedef struct ColumnReader ColumnReader;
typedef int NumberOf(const ColumnReader *reader, const Value *value, int64_t *number);
typedef int OfTimestamp(const ColumnReader *reader, int64_t timestamp, int64_t *number);
struct ColumnReader {
    ReadLines *read;
    NumberOf *number_of;
    OfTimestamp *of_timestamp; /* NULL if integers are no timestamps */
    int parser; /* of a text of a list */
    SpeedateConfig config;
    SpeedateColumnConfig lines;
    int empty_is_nat;
    bool items_are_lines;
};

static int number_of_datetime(const ColumnReader *reader, const Value *value, int64_t *number) {
    if (!value->datetime.time.has_offset && !reader->lines.assumes_utc)
        return SPEEDATE_TZ_REQUIRED;
    return speedate_datetime_unix_microseconds(value->datetime, number);
}

static int number_of_clock(const ColumnReader *reader, const Value *value, int64_t *number) {
    (void)reader;
    SpeedateDateTime moment = value->datetime;
    moment.time.has_offset = 0; /* it counts as UTC then */
    moment.time.offset = 0;
    return speedate_datetime_unix_microseconds(moment, number);
}

static int number_of_offset(const ColumnReader *reader, const Value *value, int64_t *number) {
    (void)reader;
    if (!value->datetime.time.has_offset)
        return SPEEDATE_TZ_REQUIRED;
    *number = value->datetime.time.offset;
    return SPEEDATE_OK;
}

static int number_of_date(const ColumnReader *reader, const Value *value, int64_t *number) {
    (void)reader;
    int32_t days;
    int code = speedate_date_days_between((SpeedateDate){1970, 1, 1}, value->date, &days);
    if (code == SPEEDATE_OK)
        *number = days;
    return code;
}

static int number_of_time(const ColumnReader *reader, const Value *value, int64_t *number) {
    Value moment = {.datetime = {{1970, 1, 1}, value->time}};
    return number_of_clock(reader, &moment, number);
}

static int number_of_duration(const ColumnReader *reader, const Value *value, int64_t *number) {
    (void)reader;
    return speedate_duration_microseconds(value->duration, number);
}

/* The number of a text, or its code, with NOT_A_TIME. */
static inline int read_number(const ColumnReader *reader, const Text *text, int64_t *number) {
    Value value;
    int code = parsers[reader->parser].parse(text, reader->config, &value, NULL);
    if (code == SPEEDATE_OK)
        code = reader->number_of(reader, &value, number);
    if (code != SPEEDATE_OK)
        *number = NOT_A_TIME;
    return code;
}

/* The numbers of timestamps. */

static int datetime_of_timestamp(const ColumnReader *reader, int64_t timestamp, int64_t *number) {
    int code = speedate_datetime_timestamp_microseconds(timestamp, reader->config, number);
    bool lacks_offset = !reader->config.has_timestamp_offset && !reader->lines.assumes_utc;
    return code == SPEEDATE_OK && lacks_offset ? SPEEDATE_TZ_REQUIRED : code;
}

/* A clock shows a timestamp as UTC does, whatever its offset. */
static int clock_of_timestamp(const ColumnReader *reader, int64_t timestamp, int64_t *number) {
    SpeedateConfig config = reader->config;
    config.timestamp_offset = config.has_timestamp_offset = 0;
    return speedate_datetime_timestamp_microseconds(timestamp, config, number);
}

static int offset_of_timestamp(const ColumnReader *reader, int64_t timestamp, int64_t *number) {
    Value value;
    int code = speedate_datetime_of_timestamp(timestamp, 0, reader->config, &value.datetime);
    return code == SPEEDATE_OK ? reader->number_of(reader, &value, number) : code;
}

static int date_of_timestamp(const ColumnReader *reader, int64_t timestamp, int64_t *number) {
    Value value;
    int code = speedate_date_from_timestamp(timestamp, true, reader->config, &value.date);
    return code == SPEEDATE_OK ? reader->number_of(reader, &value, number) : code;
}

/* What becomes of texts that are refused, in the order of the choices. */
enum { STOP, NUMBER, COLLECT };

/* The index and the code of each text that is refused, in arrays and in the rows that are being filled, and the texts. */
enum { INDICES, CODES, TABLE };
static const char *const table_types[TABLE] = {[INDICES] = "q", [CODES] = "B"};
typedef struct {
    PyObject *arrays[TABLE], *texts;
    size_t count; /* of the rows */
    int64_t indices[ROWS];
    uint8_t codes[ROWS];
} Table;

/* A column: the numbers so far, in an array and in the block that is being filled. */
typedef struct {
    const State *state;
    ColumnReader reader;
    int refused;
    Table *table;      /* of what is collected */
    PyObject *missing; /* what pandas has for a missing text, once that was asked for */
    PyObject *labels;  /* of a Series of pandas, or None */
    PyObject *array;
    int64_t *numbers;
    size_t room, count; /* of the block */
    Py_ssize_t before;  /* how many numbers the array has */
    bool keeps_lock;    /* while the next lines are read */
    bool are_lines;     /* the items that are read */
} Column;

static Py_ssize_t next_index(const Column *column) {
    return column->before + (Py_ssize_t)column->count;
}

static int start_block(Column *column, size_t texts) {
    column->room = texts < 1 ? 1 : texts < BLOCK ? texts : BLOCK;
    column->numbers = PyMem_Malloc(column->room * sizeof *column->numbers);
    return column->numbers ? 0 : (PyErr_NoMemory(), -1);
}

/* Adds what lies in memory to an array. */
static int add_to_array(const State *state, PyObject *array, void *memory, size_t size) {
    PyObject *view = PyMemoryView_FromMemory(memory, (Py_ssize_t)size, PyBUF_READ), *none = NULL;
    if (view) {
        none = PyObject_CallMethodObjArgs(array, state->held[FROMBYTES], view, NULL);
        Py_DECREF(view);
    }
    Py_XDECREF(none);
    return none ? 0 : -1;
}

/* Moves the numbers of the block to the array. Signals are heard. */
static int end_block(Column *column) {
    size_t count = column->count;
    if (add_to_array(column->state, column->array, column->numbers, count * sizeof *column->numbers) < 0)
        return -1;
    column->before += (Py_ssize_t)count;
    column->count = 0;
    return PyErr_CheckSignals();
}

/* Hands the lock to another thread, if one has waited for it as long as CPython has a thread wait. CPython does so when a
 * function of Python begins. To release the lock here for a moment would not do: before that time a waiting thread only
 * begins to wait anew. */
int give_turn(const State *state) {
    PyObject *none = PyObject_CallObject(state->held[TURN], NULL);
    Py_XDECREF(none);
    return none ? 0 : -1;
}

/* Goes on to the next item. */
static int end_item(Column *column) {
    if (++column->count % TURN_ITEMS == 0 && give_turn(column->state) < 0)
        return -1;
    return column->count < column->room ? 0 : end_block(column);
}

/* ---- Texts of columns that are refused ---- */

static int start_table(Column *column) {
    if (!(column->table = PyMem_Calloc(1, sizeof *column->table)))
        return PyErr_NoMemory(), -1;
    for (int i = 0; i < TABLE; i++)
        if (!(column->table->arrays[i] = PyObject_CallFunction(column->state->held[ARRAY], "s", table_types[i])))
            return -1;
    return (column->table->texts = PyList_New(0)) ? 0 : -1;
}

static void drop_table(Table *table) {
    for (int i = 0; table && i < TABLE; i++)
        Py_XDECREF(table->arrays[i]);
    if (table)
        Py_XDECREF(table->texts);
    PyMem_Free(table);
}

/* Moves the rows to the arrays. */
static int end_rows(const State *state, Table *table) {
    size_t count = table->count;
    table->count = 0;
    return add_to_array(state, table->arrays[INDICES], table->indices, count * sizeof *table->indices) < 0 ||
                   add_to_array(state, table->arrays[CODES], table->codes, count) < 0
               ? -1
               : 0;
}

static int add_row(Column *column, int code, Py_ssize_t index, PyObject *source) {
    Table *table = column->table;
    if (PyList_Append(table->texts, source) < 0)
        return -1;
    table->indices[table->count] = index;
    table->codes[table->count] = (uint8_t)code;
    return ++table->count < ROWS ? 0 : end_rows(column->state, table);
}

/* What an error keeps of an item, of which a part may have been read, or of a line, which is none: a new reference. */
static PyObject *kept_text(PyObject *item, const Text *text, size_t cut) {
    if (!item || (cut > 0 && !PyUnicode_Check(item)))
        return PyBytes_FromStringAndSize(text->bytes, (Py_ssize_t)text->size);
    if (cut > 0)
        return PyUnicode_Substring(item, 0, PyUnicode_GET_LENGTH(item) - (Py_ssize_t)cut);
    PyObject *source = source_of(item, text);
    Py_INCREF(source);
    return source;
}

/* The number of this call, in what its errors keep. */
static int number_of_call(const Column *column) {
    const ColumnReader *reader = &column->reader;
    bool needs_offset = !reader->lines.assumes_utc && reader->number_of != number_of_clock;
    return call_number(reader->parser, reader->config) + OF_COLUMN + (needs_offset ? 0 : ASSUMES_UTC) +
           (column->are_lines ? OF_LINE : 0) + (reader->config.has_timestamp_offset ? HAS_OFFSET : 0);
}

static int raise_refusal(Column *column, int code, Py_ssize_t index, PyObject *source) {
    return raise_error(new_error(column->state, code, index, source, number_of_call(column))), -1;
}

/* Ends the column at a text that is refused, or goes on. It takes the reference to the text. */
static int refuse(Column *column, int code, Py_ssize_t index, PyObject *source) {
    int status = !source                   ? -1
                 : column->refused == STOP ? raise_refusal(column, code, index, source)
                                           : add_row(column, code, index, source);
    Py_XDECREF(source);
    return status;
}

static int refuse_text(Column *column, int code, Py_ssize_t index, PyObject *item, const Text *text, size_t cut) {
    if ((code & ~INTEGER_FLAG) > LAST_OF_TEXTS)
        return raise_mistake(code & ~INTEGER_FLAG), -1;
    return column->refused == NUMBER ? 0 : refuse(column, code, index, kept_text(item, text, cut));
}

/* The integer of an item, or, if that is no object, of what lies in memory. */
PyObject *new_integer(PyObject *item, Whole whole) {
    return item         ? PyNumber_Index(item)
           : whole.fits ? PyLong_FromLongLong(whole.number)
                        : PyLong_FromUnsignedLongLong((unsigned long long)whole.number);
}

/* The same of an integer that is read as a timestamp. It is no object if it lies in memory. */
static int refuse_timestamp(Column *column, int code, PyObject *item, Whole timestamp) {
    if (code > LAST_OF_TEXTS)
        return raise_mistake(code), -1;
    if (column->refused == NUMBER)
        return 0;
    PyObject *integer = new_integer(item, timestamp);
    Py_ssize_t index = next_index(column);
    PyObject *digits = integer ? call_on_item(column->state, DIGITS, index, integer, column->reader.parser) : NULL;
    Py_XDECREF(integer);
    return refuse(column, code | INTEGER_FLAG, index, digits);
}

/* ---- Lines of columns ---- */

/* A line that is refused, without its end. */
typedef struct {
    int code;
    size_t place; /* in the block */
    Text text;
} Refused;

/* How many lines have been read, and those of them that are refused. */
typedef struct {
    Refused refused[REFUSED_LINES];
    size_t count, lines;
} Read;

/* Reads the next line, which is refused. An empty one may be missing. */
static int read_refused(const Column *column, Text *rest, SpeedateColumnConfig lines, int error, Read *read) {
    const ColumnReader *reader = &column->reader;
    SpeedateProgress progress;
    size_t place = column->count + read->lines;
    lines.goes_on = 1;
    int code = reader->read(rest, reader->config, lines, column->numbers + place, 1, &progress);
    if (code != SPEEDATE_OK)
        return code;
    Text line = {rest->bytes, progress.bytes, NULL};
    cut_line_end(&line);
    if (line.size > 0 || !reader->empty_is_nat)
        read->refused[read->count++] = (Refused){error, place, line};
    rest->bytes += progress.bytes;
    rest->size -= progress.bytes;
    read->lines += progress.lines;
    return SPEEDATE_OK;
}

/* Reads lines into the block, and leaves what follows them in the text. It needs no lock: what has the bytes keeps them
 * as they are. */
static int read_lines(const Column *column, Text *rest, SpeedateColumnConfig lines, Read *read) {
    const ColumnReader *reader = &column->reader;
    SpeedateProgress progress = {0, 0, SPEEDATE_OK, SPEEDATE_PART_NONE};
    size_t most = column->refused == STOP ? 1 : REFUSED_LINES;
    int code;
    /* The library ends at each line that is refused, if anyone wants to know of it. */
    lines.goes_on = column->refused == NUMBER;
    do {
        size_t place = column->count + read->lines;
        code = reader->read(rest, reader->config, lines, column->numbers + place, column->room - place, &progress);
        if (code != SPEEDATE_OK)
            return code;
        rest->bytes += progress.bytes;
        rest->size -= progress.bytes;
        read->lines += progress.lines;
        if (progress.error != SPEEDATE_OK)
            code = read_refused(column, rest, lines, progress.error, read);
    } while (code == SPEEDATE_OK && progress.error != SPEEDATE_OK && read->count < most &&
             column->count + read->lines < column->room);
    return code;
}

/* Reads lines into the block, and leaves in the text what follows them: lines that end, or a last one that does not. */
static int add_some_lines(Column *column, Text *text, bool is_last) {
    SpeedateColumnConfig lines = column->reader.lines;
    Read read;
    read.count = read.lines = 0;
    lines.at_end = is_last;
    PyThreadState *thread = text->size >= LONG_BYTES && !column->keeps_lock ? PyEval_SaveThread() : NULL;
    int code = read_lines(column, text, lines, &read);
    if (thread)
        PyEval_RestoreThread(thread);
    /* Where many lines are refused, little is read at once: to wait for the lock each time would take the column longer. */
    column->keeps_lock = read.count == REFUSED_LINES;
    for (size_t i = 0; i < read.count; i++) {
        const Refused *it = &read.refused[i];
        if (refuse_text(column, it->code, column->before + (Py_ssize_t)it->place, NULL, &it->text, 0) < 0)
            return -1;
    }
    column->count += read.lines;
    if (code != SPEEDATE_OK)
        return raise_mistake(code), -1;
    return column->count < column->room ? 0 : end_block(column);
}

/* Adds the lines that end, and leaves in the text what follows them. */
static int add_ended_lines(Column *column, Text *text) {
    for (size_t size = text->size + 1; text->size > 0 && text->size < size;) {
        size = text->size;
        if (add_some_lines(column, text, false) < 0 || (column->keeps_lock && give_turn(column->state) < 0))
            return -1;
    }
    return 0;
}

static int add_fixed_lines(Column *column, const char *bytes, size_t size) {
    Text text = {bytes, size, NULL};
    if (add_ended_lines(column, &text) < 0)
        return -1;
    return text.size == 0 ? 0 : add_some_lines(column, &text, true);
}

/* Lines in memory that may be written while they are read: a part is copied, and its lines are read there. */
static int add_changing_lines(Column *column, const char *bytes, size_t size) {
    size_t room = size < BLOCK_BYTES ? size : BLOCK_BYTES;
    char *copy = PyMem_Malloc(room);
    int status = copy ? 0 : (PyErr_NoMemory(), -1);
    while (status == 0 && size > room) {
        Text text = {copy, room, NULL};
        memcpy(copy, bytes, room);
        status = add_ended_lines(column, &text);
        bytes += room - text.size;
        size -= room - text.size;
        if (status == 0 && text.size == room) {
            /* The line is longer than the copy. */
            char *larger = PyMem_Realloc(copy, room *= 2);
            copy = larger ? larger : copy;
            status = larger ? 0 : (PyErr_NoMemory(), -1);
        }
    }
    if (status == 0 && size > 0) {
        memcpy(copy, bytes, size);
        status = add_fixed_lines(column, copy, size);
    }
    PyMem_Free(copy);
    return status;
}

static int add_lines(Column *column, const char *text, Py_ssize_t size, bool fixed) {
    column->are_lines = true;
    if (start_block(column, (size_t)size) < 0)
        return -1;
    return (fixed ? add_fixed_lines : add_changing_lines)(column, text, (size_t)size);
}

/* Adds the lines of an object of bytes that has just been made, or not. */
static int add_made(Column *column, PyObject *made) {
    int status = made ? add_lines(column, PyBytes_AS_STRING(made), PyBytes_GET_SIZE(made), true) : -1;
    Py_XDECREF(made);
    return status;
}

static int add_view(Column *column, PyObject *view) {
    const Py_buffer *buffer = PyMemoryView_GET_BUFFER(view);
    if (!PyBuffer_IsContiguous(buffer, 'C'))
        return add_made(column, PyObject_CallMethod(view, "tobytes", NULL));
    return add_lines(column, buffer->buf, buffer->len, is_fixed(buffer));
}

/* Whether a buffer has bytes. ctypes says the order of the bytes of an item too. */
static bool has_bytes(const Py_buffer *buffer) {
    const char *format = buffer->format;
    if (*format != '\0' && strchr("@=<>!", *format))
        format++;
    return buffer->itemsize == 1 && (strcmp(format, "B") == 0 || strcmp(format, "b") == 0 || strcmp(format, "c") == 0);
}

/* Whether a buffer is a row of integers in the order of bytes of this machine, which is how NumPy has them. Those of one
 * byte are texts. */
bool has_integers(const Py_buffer *buffer) {
    const char *format = buffer->format;
    bool is_whole = *format != '\0' && format[1] == '\0' && strchr("hilqHILQ", *format);
    return is_whole && buffer->ndim == 1 && PyBuffer_IsContiguous(buffer, 'C');
}

/* Makes a view of an object that has bytes or integers in memory, and none of any other. */
int view_memory(PyObject *texts, bool (*has)(const Py_buffer *), PyObject **view) {
    *view = PyObject_CheckBuffer(texts) ? PyMemoryView_FromObject(texts) : NULL;
    if (*view && !has(PyMemoryView_GET_BUFFER(*view)))
        Py_CLEAR(*view);
    if (!PyErr_Occurred())
        return 0;
    /* NumPy has no buffer of some types, and iterates over them. */
    bool none = PyErr_ExceptionMatches(PyExc_ValueError) || PyErr_ExceptionMatches(PyExc_BufferError);
    if (none)
        PyErr_Clear();
    return none ? 0 : -1;
}

/* Whether an item is not equal to itself, as NaN of any type is, and NaT. What cannot be asked is, but what is to end the program
 * stays raised. */
static bool differs_from_itself(PyObject *item) {
    PyObject *differs = PyObject_RichCompare(item, item, Py_NE);
    bool told = differs && PyObject_IsTrue(differs) == 1;
    Py_XDECREF(differs);
    if (PyErr_Occurred() && PyErr_ExceptionMatches(PyExc_Exception))
        PyErr_Clear();
    return told;
}

/* Whether an item is missing, as pandas tells. What it has for that is asked for once, and kept. */
int is_missing(const State *state, PyObject **kept, PyObject *item) {
    if (item == Py_None || (PyFloat_Check(item) ? isnan(PyFloat_AS_DOUBLE(item)) : differs_from_itself(item)))
        return 1;
    if (PyErr_Occurred() || (!*kept && !(*kept = PyObject_CallObject(state->held[MISSING], NULL))))
        return -1;
    for (Py_ssize_t i = 0; PyTuple_Check(*kept) && i < PyTuple_GET_SIZE(*kept); i++)
        if (PyTuple_GET_ITEM(*kept, i) == item)
            return 1;
    return 0;
}

/* Takes the integer of an item. */
int take_whole(const State *state, const char *name, Py_ssize_t index, PyObject *item, Whole *out) {
    PyObject *plain = item;
    int overflow;
    Py_INCREF(plain);
    if (!PyLong_CheckExact(item)) {
        Py_DECREF(plain);
        if (!(plain = PyObject_CallFunction(state->held[WHOLE], "snO", name, index, item)))
            return -1;
    }
    out->number = PyLong_AsLongLongAndOverflow(plain, &overflow);
    out->fits = overflow == 0;
    Py_DECREF(plain);
    return PyErr_Occurred() ? -1 : 0;
}

/* The number of a timestamp, or what becomes of it if it is refused. */
static inline int add_timestamp(Column *column, PyObject *item, Whole timestamp, int64_t *number) {
    int code = timestamp.fits ? column->reader.of_timestamp(&column->reader, timestamp.number, number)
                              : SPEEDATE_NUMBER_TOO_LARGE;
    if (code == SPEEDATE_OK)
        return 0;
    *number = NOT_A_TIME;
    return refuse_timestamp(column, code, item, timestamp);
}

/* The same of an object that is an integer, or stands for one. */
static int read_integer(Column *column, PyObject *item, int64_t *number) {
    Whole timestamp;
    if (take_whole(column->state, "text", next_index(column), item, &timestamp) < 0)
        return -1;
    return add_timestamp(column, item, timestamp, number);
}

/* The number of a text, which may be a line with its end. A flag of its code says that it is the digits of an integer. */
static int read_text_item(Column *column, PyObject *item, int flag, int64_t *number) {
    Text text;
    *number = NOT_A_TIME;
    if (take_text(item, next_index(column), &text) < 0)
        return -1;
    size_t size = text.size;
    if (column->are_lines)
        cut_line_end(&text);
    int status = 0;
    if (text.size > 0 || !column->reader.empty_is_nat) {
        int code = read_number(&column->reader, &text, number);
        if (code != SPEEDATE_OK)
            status = refuse_text(column, code | flag, next_index(column), item, &text, size - text.size);
    }
    Py_XDECREF(text.owner);
    return status;
}

/* Refuses an integer where none is a timestamp, as its digits are refused. */
static int refuse_integer(Column *column, PyObject *item, int64_t *number) {
    PyObject *digits = call_on_item(column->state, DIGITS, next_index(column), item, column->reader.parser);
    int status = digits ? read_text_item(column, digits, INTEGER_FLAG, number) : -1;
    Py_XDECREF(digits);
    return status;
}

/* The number of an item. */
static int read_item(Column *column, PyObject *item, int64_t *number) {
    if (is_text(item))
        return read_text_item(column, item, 0, number);
    int missing = PyLong_CheckExact(item) ? 0 : is_missing(column->state, &column->missing, item);
    *number = NOT_A_TIME;
    if (missing != 0)
        return missing < 0 ? -1 : 0;
    if (PyIndex_Check(item))
        return (column->reader.of_timestamp ? read_integer : refuse_integer)(column, item, number);
    return raise_error(call_on_item(column->state, WRONG_TEXT, next_index(column), item, column->reader.parser)), -1;
}

/* An integer of a buffer. */
Whole whole_at(const Py_buffer *buffer, size_t place) {
    const char *at = (const char *)buffer->buf + place * (size_t)buffer->itemsize;
#define WHOLE_OF(letter, type) \
    case letter: { \
        type it; \
        memcpy(&it, at, sizeof it); \
        return (Whole){it, true}; \
    }
#define LARGE_WHOLE_OF(letter, type) \
    case letter: { \
        type it; \
        memcpy(&it, at, sizeof it); \
        return (Whole){(int64_t)it, it <= INT64_MAX}; \
    }
    switch (*buffer->format) {
        WHOLE_OF('h', short)
        WHOLE_OF('i', int)
        WHOLE_OF('l', long)
        WHOLE_OF('q', long long)
        WHOLE_OF('H', unsigned short)
        WHOLE_OF('I', unsigned)
        LARGE_WHOLE_OF('L', unsigned long)
        LARGE_WHOLE_OF('Q', unsigned long long)
    default:
        Py_UNREACHABLE(); /* has_integers takes none */
    }
}

static int add_integers(Column *column, const Py_buffer *buffer) {
    size_t count = (size_t)(buffer->len / buffer->itemsize);
    int status = start_block(column, count);
    for (size_t i = 0; status == 0 && i < count; i++) {
        status = add_timestamp(column, NULL, whole_at(buffer, i), column->numbers + column->count);
        if (status == 0)
            status = end_item(column);
    }
    return status;
}

/* Adds the integers of an object that has them in memory, and tells whether it is one. */
static int add_row_of_integers(Column *column, PyObject *texts, bool *is_one) {
    PyObject *view = NULL;
    *is_one = false;
    if (!column->reader.of_timestamp)
        return 0;
    int status = view_memory(texts, has_integers, &view);
    if ((*is_one = view != NULL))
        status = add_integers(column, PyMemoryView_GET_BUFFER(view));
    Py_XDECREF(view);
    return status;
}

static int add_items(Column *column, PyObject *items, size_t count, bool are_lines) {
    PyObject *item, *iterator = PyObject_GetIter(items);
    int status = iterator ? start_block(column, count) : -1;
    column->are_lines = are_lines || column->reader.items_are_lines;
    while (status == 0 && (item = PyIter_Next(iterator)) != NULL) {
        status = read_item(column, item, column->numbers + column->count);
        if (status == 0)
            status = end_item(column);
        Py_DECREF(item);
    }
    Py_XDECREF(iterator);
    return status < 0 || PyErr_Occurred() ? -1 : 0;
}

/* What is neither a list nor bytes: what else has bytes in memory, or integers, or items. */
static int add_others(Column *column, PyObject *items, bool are_lines) {
    PyObject *view;
    bool is_row;
    if (view_memory(items, has_bytes, &view) < 0)
        return -1;
    if (view) {
        int status = add_view(column, view);
        Py_DECREF(view);
        return status;
    }
    int status = add_row_of_integers(column, items, &is_row);
    return status < 0 || is_row ? status : add_items(column, items, BLOCK, are_lines);
}

/* No method of a subclass of bytes or bytearray is called. */
static int add_texts(Column *column, PyObject *texts) {
    if (PyList_CheckExact(texts) || PyTuple_CheckExact(texts))
        return add_items(column, texts, (size_t)Py_SIZE(texts), false);
    if (PyBytes_Check(texts))
        return add_lines(column, PyBytes_AS_STRING(texts), PyBytes_GET_SIZE(texts), true);
    if (PyByteArray_CheckExact(texts))
        return add_others(column, texts, false);
    if (PyByteArray_Check(texts))
        return add_made(column, PyBytes_FromStringAndSize(PyByteArray_AS_STRING(texts), PyByteArray_GET_SIZE(texts)));
    PyObject *items, *found = PyObject_CallFunctionObjArgs(column->state->held[ITEMS], texts, NULL);
    int are_lines, status = -1;
    if (found && PyArg_ParseTuple(found, "OpO", &items, &are_lines, &column->labels)) {
        Py_INCREF(column->labels);
        status = add_others(column, items, are_lines);
    }
    Py_XDECREF(found);
    return status;
}

/* The Column of what was read. */
static PyObject *new_column(Column *column, const char *kind) {
    Table *table = column->table;
    PyObject *refused = NULL, *made = NULL, *name = PyUnicode_InternFromString(kind);
    if (name && table && end_rows(column->state, table) == 0)
        refused = PyObject_CallFunction(column->state->held[REFUSED], "OOOi", table->arrays[INDICES],
                                        table->arrays[CODES], table->texts, number_of_call(column));
    if (name && (refused || !table))
        made = PyObject_CallFunctionObjArgs(column->state->held[COLUMN], name, column->array, refused, NULL);
    if (made && column->labels && column->labels != Py_None &&
        PyObject_SetAttrString(made, "_labels", column->labels) < 0)
        Py_CLEAR(made);
    Py_XDECREF(refused);
    Py_XDECREF(name);
    return made;
}

static PyObject *column_of(Column *column, PyObject *texts, const char *kind) {
    PyObject *made = NULL;
    column->array = PyObject_CallFunction(column->state->held[ARRAY], "s", "q");
    if (column->array && (column->refused != COLLECT || start_table(column) == 0) && add_texts(column, texts) == 0 &&
        end_block(column) == 0)
        made = new_column(column, kind);
    drop_table(column->table);
    Py_XDECREF(column->array);
    Py_XDECREF(column->missing);
    Py_XDECREF(column->labels);
    PyMem_Free(column->numbers);
    return made;
}

/* A call on columns. The parameters that all have come first, and its parsers in the order of their numbers in C. */
enum { TEXTS, CONFIGURATION, REFUSED_TEXTS, EMPTY, LINES };
#define OTHERS "config", "refused", "empty", "lines"
typedef struct {
    Signature signature;
    ReadLines *read;
    NumberOf *number_of;
    OfTimestamp *of_timestamp;
    int parser[SPEEDATE_LOOSE + 1];
    const char *kind;
} ColumnCall;

/* The argument of a parameter that not all have. */
static PyObject *argument_of(const Signature *signature, const char *name, PyObject **bound) {
    for (int i = 0; signature->parameters[i]; i++)
        if (strcmp(signature->parameters[i], name) == 0)
            return bound[i];
    return NULL;
}

static PyObject *read_column(const ColumnCall *call, GIVEN) {
    Column column = {.state = PyModule_GetState(module)};
    ColumnReader *reader = &column.reader;
    const Signature *signature = &call->signature;
    PyObject *bound[COLUMN_ARGUMENTS] = {NULL};
    int assumes_utc = 0, form;
    if (bind(signature, arguments, count, keywords, bound) < 0 ||
        take_form(argument_of(signature, "timestamps", bound), argument_of(signature, "strict", bound),
                  argument_of(signature, "loose", bound), &form) < 0 ||
        take_choice(column.state, "missing_offset", argument_of(signature, "missing_offset", bound), "error", "utc",
                    NULL, &assumes_utc) < 0 ||
        take_choice(column.state, "refused", bound[REFUSED_TEXTS], "stop", "number", "collect", &column.refused) < 0 ||
        take_choice(column.state, "empty", bound[EMPTY], "error", "nat", NULL, &reader->empty_is_nat) < 0 ||
        take_flag("lines", bound[LINES], &reader->items_are_lines) < 0 ||
        take_config(column.state, bound[CONFIGURATION], form, &reader->config) < 0)
        return NULL;
    reader->parser = call->parser[form];
    reader->lines = (SpeedateColumnConfig){
        .drops_returns = 1, .parser = (uint8_t)parsers[reader->parser].form, .assumes_utc = assumes_utc};
    reader->read = call->read;
    reader->number_of = call->number_of;
    reader->of_timestamp = form == SPEEDATE_OR_TIMESTAMP ? call->of_timestamp : NULL;
    return column_of(&column, bound[TEXTS], call->kind);
}

#define FORMS "timestamps", "strict", "loose"
#define DATETIME_PARSERS {DATETIME_TEXT, DATETIME_OR_TIMESTAMP, DATETIME_STRICT, DATETIME_LOOSE}
CALL(datetime_column, read_column, ColumnCall, {"datetime_column", {"value", OTHERS, FORMS, "missing_offset"}, 1},
     read_datetimes, number_of_datetime, datetime_of_timestamp, DATETIME_PARSERS, "datetime")
CALL(datetime_clock_column, read_column, ColumnCall, {"datetime_clock_column", {"value", OTHERS, FORMS}, 1},
     read_clocks, number_of_clock, clock_of_timestamp, DATETIME_PARSERS, "datetime_clock")
CALL(datetime_offset_column, read_column, ColumnCall, {"datetime_offset_column", {"value", OTHERS, FORMS}, 1},
     read_offsets, number_of_offset, offset_of_timestamp, DATETIME_PARSERS, "datetime_offset")
CALL(date_column, read_column, ColumnCall, {"date_column", {"value", OTHERS, "timestamps", "strict"}, 1},
     read_dates, number_of_date, date_of_timestamp, {DATE, DATE_OR_TIMESTAMP, DATE}, "date")
CALL(time_column, read_column, ColumnCall, {"time_column", {"value", OTHERS, "strict"}, 1},
     read_times, number_of_time, NULL, {TIME, NO_PARSER, TIME_STRICT}, "time")
CALL(duration_column, read_column, ColumnCall, {"duration_column", {"value", OTHERS}, 1},
     read_durations, number_of_duration, NULL, {DURATION, NO_PARSER, NO_PARSER}, "duration")
