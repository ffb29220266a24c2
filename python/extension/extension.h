/* What the files of the extension share: its state, the types of texts and values, and how a call gets its arguments.
 *
 * Objects become the structs of speedate.h, and structs objects. What is read and printed is up to the library, and
 * what is rare is left to _types.py. All state belongs to the module object, so each interpreter has its own. */
#ifndef SPEEDATE_EXTENSION_H
#define SPEEDATE_EXTENSION_H

#define PY_SSIZE_T_CLEAN
#include <Python.h>
#include <datetime.h>
#include <stdbool.h>
#include <string.h>

#include "speedate_packages.h"

/* The pointer of datetime.h, which stays NULL, would be one for all interpreters. */
static PyDateTime_CAPI *PyDateTimeAPI __attribute__((unused));

#pragma GCC visibility push(hidden)

/* ---- State ---- */

#define QUARTER 900 /* seconds */
#define QUARTERS 95 /* below 24 hours, either way */

/* The one thing for which a text is refused, and what mends it. The first three are flags of one hint. */
enum { NO_HINT, BYTE_ORDER_MARK = 1, LINE_END = 2, OF_BYTES = 4, INTEGER_OR_TIMESTAMP = 8, NO_TIMESTAMP, ALL_HINTS };

/* Beside the codes of the library those of values that Python lacks. */
enum { YEAR_ZERO = SPEEDATE_BUFFER_TOO_SMALL + 1, DURATION_TOO_SMALL, ALL_CODES };

/* The places of the objects that are held from the import on. Nothing is added afterwards. */
enum {
    /* what is imported */
    DATETIME, ARRAY, CONFIG, PARSE_ERROR, COLUMN, REFUSED, INTEGER, CHOICE, PLAIN, MISSING, ITEMS, TURN, WHOLE,
    DIGITS, WRONG_TEXT, NUMBERS_OF,
    NUMBERS, INDEX, UTCOFFSET, FROMBYTES,          /* names of attributes */
    NAMES,                                         /* of the codes */
    HINTS,                                         /* the words of each hint */
    ARGUMENTS = HINTS + ALL_HINTS,                 /* of the error of each code */
    ATTRIBUTES = ARGUMENTS + ALL_CODES,            /* the same */
    ZONES = ATTRIBUTES + ALL_CODES,                /* of each offset of quarter hours */
    ALL = ZONES + 2 * QUARTERS + 1
};

/* What a ParseError keeps, so that it can find its part: the text that was refused, and how. They are slots of a class. */
enum { SOURCE, CALL_NUMBER, SLOTS };
extern const char *const slot_names[SLOTS];

typedef struct {
    PyDateTime_CAPI *datetime;
    Py_ssize_t offsets[SLOTS]; /* of these slots in a ParseError */
    PyObject *held[ALL];
} State;

/* ---- Errors: module.c ---- */

#define type_error(...) (PyErr_Format(PyExc_TypeError, __VA_ARGS__), -1)

/* The bytes of a text, and the object that has them, if it has to be kept alive. */
typedef struct {
    const char *bytes;
    size_t size;
    PyObject *owner;
} Text;

int wrong_type(const char *name, const char *kinds, PyObject *value);
PyObject *new_error(const State *state, int code, Py_ssize_t index, PyObject *source, int call);
PyObject *raise_error(PyObject *error);
PyObject *raise_mistake(int code);

/* ---- Arguments: parse.c ---- */

#define COLUMN_ARGUMENTS 9 /* the most that a call has */

/* The parameters of a call in their order. The first is required, and those after `positional` are keywords. */
typedef struct {
    const char *name;
    const char *parameters[COLUMN_ARGUMENTS + 1];
    Py_ssize_t positional;
} Signature;

/* What a call gets: the arguments by position, then those of the keywords. */
#define GIVEN PyObject *module, PyObject *const *arguments, Py_ssize_t count, PyObject *keywords

int bind_keyword(const Signature *signature, PyObject *keyword, PyObject *argument, PyObject **bound);
int lacks_argument(const Signature *signature, int place);

/* Puts each argument at the place of its parameter. The places are NULL before. */
static inline int bind(const Signature *signature, PyObject *const *arguments, Py_ssize_t count, PyObject *keywords,
                       PyObject **bound) {
    for (Py_ssize_t i = 0; i < count && i < signature->positional; i++)
        bound[i] = arguments[i];
    if (count == 1 && !keywords)
        return 0;
    for (Py_ssize_t i = 0; keywords && i < PyTuple_GET_SIZE(keywords); i++)
        if (bind_keyword(signature, PyTuple_GET_ITEM(keywords, i), arguments[count + i], bound) < 0)
            return -1;
    if (count > signature->positional)
        return type_error("%s() takes at most %zd positional arguments but %zd were given", signature->name,
                          signature->positional, count);
    return bound[0] ? 0 : lacks_argument(signature, 0);
}

static inline int give_bytes(const char *bytes, Py_ssize_t size, PyObject *owner, Text *text) {
    *text = (Text){bytes, (size_t)size, owner};
    return 0;
}

static inline bool is_text(PyObject *object) {
    return PyUnicode_Check(object) || PyBytes_Check(object) || PyByteArray_Check(object) || PyMemoryView_Check(object);
}

/* Cuts off what ends a line of a file, as the library does: a line feed, and then a carriage return. */
static inline void cut_line_end(Text *line) {
    for (const char *end = "\n\r"; *end; end++)
        if (line->size > 0 && line->bytes[line->size - 1] == *end)
            line->size--;
}

bool is_fixed(const Py_buffer *buffer);
int take_other_text(PyObject *object, Py_ssize_t index, Text *text);

/* Takes the bytes of a text: its index in a column is negative outside of one. */
static inline int take_text(PyObject *object, Py_ssize_t index, Text *text) {
    if (PyUnicode_CheckExact(object) && PyUnicode_IS_COMPACT_ASCII(object))
        return give_bytes((const char *)PyUnicode_1BYTE_DATA(object), PyUnicode_GET_LENGTH(object), NULL, text);
    if (PyBytes_Check(object))
        return give_bytes(PyBytes_AS_STRING(object), PyBytes_GET_SIZE(object), NULL, text);
    return take_other_text(object, index, text);
}

int take_integer(const State *state, const char *name, PyObject *value, int64_t low, int64_t high, int64_t *out);
int take_flag(const char *name, PyObject *value, bool *out);
int take_choice(const State *state, const char *name, PyObject *value, const char *first, const char *second,
                const char *third, int *out);
int take_form(PyObject *timestamps, PyObject *strict, PyObject *loose, int *out);
int take_config(const State *state, PyObject *config, int form, SpeedateConfig *out);

/* ---- Parsers and their errors: parse.c ---- */

typedef union {
    SpeedateDate date;
    SpeedateTime time;
    SpeedateDateTime datetime;
    SpeedateDuration duration;
} Value;

typedef int Parse(const Text *text, SpeedateConfig config, Value *out, size_t *taken);

#define BYTES text->bytes, text->size

/* The same in a form, and the part for which a text is refused. It takes longer, so it is called for what a first call refused. */
typedef int ParseOrPart(const Text *text, int form, SpeedateConfig config, Value *out, size_t *taken, SpeedatePart *part);

/* The parsers. */
enum {
    NO_PARSER,
    DATE,
    DATE_OR_TIMESTAMP,
    DATE_FRONT,
    TIME,
    TIME_STRICT,
    TIME_FRONT,
    DATETIME_TEXT,
    DATETIME_OR_TIMESTAMP,
    DATETIME_STRICT,
    DATETIME_LOOSE,
    DATETIME_FRONT,
    DATETIME_LOOSE_FRONT,
    DURATION,
    ALL_PARSERS
};
typedef struct {
    Parse *parse;
    ParseOrPart *parse_or_part;
    int form;
    int kind; /* of calls, on which it depends what is expected */
} Parser;
extern const Parser parsers[ALL_PARSERS];

/* What is added to the number of a parser and its configuration, which is less than the first of them. */
enum { OF_COLUMN = 256, ASSUMES_UTC = 512, OF_LINE = 1024, OF_INTEGER = 2048, HAS_OFFSET = 4096 };

#define INTEGER_FLAG 128 /* added to the code of an integer that is refused */

/* What no one can write of a text, and may be kept: a str, or the bytes that were read. */
static inline PyObject *source_of(PyObject *object, const Text *text) {
    return text->owner && !PyUnicode_Check(object) ? text->owner : object;
}

PyObject *new_zone(const State *state, int offset);
int call_number(int parser, SpeedateConfig config);
PyObject *expected_of(int code, int kind);
PyObject *call_on_item(const State *state, int function, Py_ssize_t index, PyObject *item, int parser);

/* ---- Numbers in memory, and items: columns.c ---- */

#define NOT_A_TIME INT64_MIN
#define LAST_OF_TEXTS 99 /* the last code that says something of a text */
#define BLOCK 32768     /* numbers at a time */
#define TURN_ITEMS 1024 /* after which other threads may have their turn */

/* An integer, if it fits 64 bits. */
typedef struct {
    int64_t number;
    bool fits;
} Whole;

bool has_integers(const Py_buffer *buffer);
int view_memory(PyObject *texts, bool (*has)(const Py_buffer *), PyObject **view);
Whole whole_at(const Py_buffer *buffer, size_t place);
PyObject *new_integer(PyObject *item, Whole whole);
int is_missing(const State *state, PyObject **kept, PyObject *item);
int take_whole(const State *state, const char *name, Py_ssize_t index, PyObject *item, Whole *out);
int give_turn(const State *state);

/* ---- Calls ---- */

/* A call that a function reads, by a constant of this type, which begins with its signature. */
#define CALL(name, read, type, ...) \
    PyObject *call_##name(GIVEN) { \
        static const type it = {__VA_ARGS__}; \
        return read(&it, module, arguments, count, keywords); \
    }

#define DECLARE(name) PyObject *call_##name(GIVEN);
DECLARE(date) DECLARE(time) DECLARE(datetime) DECLARE(duration)
DECLARE(date_front) DECLARE(time_front) DECLARE(datetime_front)
DECLARE(datetime_column) DECLARE(datetime_clock_column) DECLARE(datetime_offset_column)
DECLARE(date_column) DECLARE(time_column) DECLARE(duration_column)
DECLARE(text) DECLARE(text_column)
PyObject *call_found(PyObject *module, PyObject *arguments);
PyObject *call_refusal(PyObject *module, PyObject *arguments);

#pragma GCC visibility pop
#endif
