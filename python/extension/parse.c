/* Parsing: what a call is given, the values of texts and integers, and the parts of texts that are refused. */
#include "extension.h"

/* ---- Arguments ---- */

static bool is_name(PyObject *keyword, const char *name) {
    if (!PyUnicode_IS_COMPACT_ASCII(keyword))
        return false;
    const char *bytes = (const char *)PyUnicode_1BYTE_DATA(keyword);
    return bytes[0] == name[0] && strcmp(bytes, name) == 0 && strlen(name) == (size_t)PyUnicode_GET_LENGTH(keyword);
}

/* What is said of the keyword that pandas has for texts that are refused. */
static const char *words_on_errors(const Signature *signature, PyObject *keyword) {
    for (int i = 0; signature->parameters[i]; i++)
        if (strcmp(signature->parameters[i], "refused") == 0 && is_name(keyword, "errors"))
            return ": the word is refused, and refused='number' does what errors='coerce' does in pandas";
    return "";
}

int bind_keyword(const Signature *signature, PyObject *keyword, PyObject *argument, PyObject **bound) {
    for (int i = 0; signature->parameters[i]; i++) {
        if (!is_name(keyword, signature->parameters[i]))
            continue;
        if (bound[i])
            return type_error("%s() got multiple values for argument '%U'", signature->name, keyword);
        bound[i] = argument;
        return 0;
    }
    return type_error("%s() got an unexpected keyword argument '%U'%s", signature->name, keyword,
                      words_on_errors(signature, keyword));
}

int lacks_argument(const Signature *signature, int place) {
    return type_error("%s() missing 1 required positional argument: '%s'", signature->name,
                      signature->parameters[place]);
}

/* Gives the bytes of an object of bytes that has just been made, or not. */
static int give_made(PyObject *made, Text *text) {
    return !made ? -1 : give_bytes(PyBytes_AS_STRING(made), PyBytes_GET_SIZE(made), made, text);
}

/* What is wrong with a memoryview: of a text with its index in a column, or without one, if that is negative. */
static int wrong_format(Py_ssize_t index, PyObject *view) {
    const char *format = PyMemoryView_GET_BUFFER(view)->format;
    return index < 0 ? type_error("value has to be a memoryview of bytes, not of format %s", format)
                     : type_error("text %zd has to be a memoryview of bytes, not of format %s", index, format);
}

/* Whether no one can write the bytes of a view. Other programs, and what holds no lock, may write those of any owner but
 * `bytes`, whatever the view allows. */
bool is_fixed(const Py_buffer *buffer) {
    return buffer->obj && PyBytes_CheckExact(buffer->obj) && PyBuffer_IsContiguous(buffer, 'C');
}

/* Takes the bytes of a memoryview. What has gaps is copied, and what may be written while it is read. */
static int take_memoryview(PyObject *object, Py_ssize_t index, Text *text) {
    PyObject *view = PyMemoryView_FromObject(object);
    if (!view)
        return -1;
    const Py_buffer *buffer = PyMemoryView_GET_BUFFER(view);
    bool bytes = strcmp(buffer->format, "B") == 0;
    if (bytes && is_fixed(buffer))
        return give_bytes(buffer->buf, buffer->len, view, text);
    int status = bytes ? give_made(PyObject_CallMethod(view, "tobytes", NULL), text) : wrong_format(index, view);
    Py_DECREF(view);
    return status;
}

static int take_str(PyObject *object, Text *text) {
    Py_ssize_t size;
    const char *bytes = PyUnicode_AsUTF8AndSize(object, &size);
    if (bytes)
        return give_bytes(bytes, size, NULL, text);
    if (!PyErr_ExceptionMatches(PyExc_UnicodeEncodeError))
        return -1;
    PyErr_Clear();
    return give_made(PyUnicode_AsEncodedString(object, "utf-8", "surrogatepass"), text);
}

/* No method is called that a subclass may have. */
int take_other_text(PyObject *object, Py_ssize_t index, Text *text) {
    if (PyUnicode_Check(object))
        return take_str(object, text);
    if (PyByteArray_Check(object))
        return give_made(PyBytes_FromStringAndSize(PyByteArray_AS_STRING(object), PyByteArray_GET_SIZE(object)), text);
    if (PyMemoryView_Check(object))
        return take_memoryview(object, index, text);
    return wrong_type("value", "str or bytes or bytearray or memoryview", object);
}

/* The functions below leave *out as it is where there is no argument. */

/* Takes an integer. One in its range is taken here, and what else there is by the function of the package. */
int take_integer(const State *state, const char *name, PyObject *value, int64_t low, int64_t high, int64_t *out) {
    int overflow = 0;
    if (!value)
        return 0;
    if (PyLong_CheckExact(value)) {
        *out = PyLong_AsLongLongAndOverflow(value, &overflow);
        if (!overflow && low <= *out && *out <= high)
            return 0;
    }
    PyObject *number = PyObject_CallFunction(state->held[INTEGER], "sOLL", name, value, (long long)low, (long long)high);
    if (!number)
        return -1;
    *out = PyLong_AsLongLong(number);
    Py_DECREF(number);
    return *out == -1 && PyErr_Occurred() ? -1 : 0;
}

int take_flag(const char *name, PyObject *value, bool *out) {
    if (!value)
        return 0;
    if (!PyBool_Check(value))
        return wrong_type(name, "bool", value);
    *out = value == Py_True;
    return 0;
}

/* Takes the number of a choice. The third one is NULL if there are two. */
int take_choice(const State *state, const char *name, PyObject *value, const char *first, const char *second,
                const char *third, int *out) {
    if (!value)
        return 0;
    const char *format = third ? "sOsss" : "sOss";
    PyObject *place = PyObject_CallFunction(state->held[CHOICE], format, name, value, first, second, third);
    if (!place)
        return -1;
    *out = (int)PyLong_AsLong(place);
    Py_DECREF(place);
    return 0;
}

/* Takes which of the forms of C is wanted. A type that lacks one has no such argument. */
int take_form(PyObject *timestamps, PyObject *strict, PyObject *loose, int *out) {
    bool reads_timestamps = false, is_strict = false, is_loose = false;
    if (take_flag("timestamps", timestamps, &reads_timestamps) < 0 || take_flag("strict", strict, &is_strict) < 0 ||
        take_flag("loose", loose, &is_loose) < 0)
        return -1;
    *out = is_strict          ? SPEEDATE_STRICT
           : is_loose         ? SPEEDATE_LOOSE
           : reads_timestamps ? SPEEDATE_OR_TIMESTAMP
                              : SPEEDATE_TEXT;
    if (is_strict + is_loose + reads_timestamps < 2)
        return 0;
    return PyErr_Format(PyExc_ValueError, "%s and %s exclude each other", is_strict ? "strict" : "loose",
                        reads_timestamps ? "timestamps" : "loose"), -1;
}

/* Takes the struct that a Config carries as bytes. */
static int take_numbers(const State *state, PyObject *config, SpeedateConfig *out) {
    PyObject *numbers = PyObject_GetAttr(config, state->held[NUMBERS]);
    if (!numbers)
        return -1;
    bool whole = PyBytes_CheckExact(numbers) && PyBytes_GET_SIZE(numbers) == sizeof *out;
    if (whole)
        memcpy(out, PyBytes_AS_STRING(numbers), sizeof *out);
    Py_DECREF(numbers);
    return whole ? 0 : type_error("config is not as Config made it");
}

int take_config(const State *state, PyObject *config, int form, SpeedateConfig *out) {
    *out = (SpeedateConfig)SPEEDATE_CONFIG_DEFAULT;
    if (!config || config == Py_None)
        return 0;
    if (Py_TYPE(config) != (PyTypeObject *)state->held[CONFIG])
        return wrong_type("config", "Config", config);
    if (take_numbers(state, config, out) < 0)
        return -1;
    const char *unread = form == SPEEDATE_OR_TIMESTAMP           ? NULL
                         : out->timestamp_unit != SPEEDATE_UNIT_INFER ? "timestamp_unit"
                         : out->has_timestamp_offset                  ? "timestamp_offset"
                                                                      : NULL;
    return !unread ? 0
                   : type_error("config has a %s, which is not read here: date and datetime do with timestamps=True",
                                unread);
}

/* Calls a function of the package on what is no text, at its index in a column, or at a negative one. */
PyObject *call_on_item(const State *state, int function, Py_ssize_t index, PyObject *item, int parser) {
    PyObject *can_read_timestamps = parser == TIME || parser == TIME_STRICT || parser == DURATION ? Py_False : Py_True;
    return PyObject_CallFunction(state->held[function], "nOO", index, item, can_read_timestamps);
}

/* ---- Values ---- */

PyObject *new_zone(const State *state, int offset) {
    PyDateTime_CAPI *api = state->datetime;
    PyObject *zone = NULL, *size = api->Delta_FromDelta(0, offset, 0, 1, api->DeltaType);
    if (size) {
        zone = api->TimeZone_FromTimeZone(size, NULL);
        Py_DECREF(size);
    }
    return zone;
}

/* The zone of a time: a new reference. */
static inline PyObject *zone_of(const State *state, const SpeedateTime *time) {
    PyObject *zone = Py_None;
    if (time->has_offset && time->offset % QUARTER != 0)
        return new_zone(state, time->offset);
    if (time->has_offset)
        zone = state->held[ZONES + QUARTERS + time->offset / QUARTER];
    Py_INCREF(zone);
    return zone;
}

/* What makes a value. If Python has no such value, it raises nothing, and writes the code. */

static PyObject *make_date(const State *state, const Value *value, int *code) {
    SpeedateDate it = value->date;
    if (it.year == 0)
        return *code = YEAR_ZERO, NULL;
    return state->datetime->Date_FromDate(it.year, it.month, it.day, state->datetime->DateType);
}

static PyObject *make_time(const State *state, const Value *value, int *code) {
    (void)code;
    PyDateTime_CAPI *api = state->datetime;
    SpeedateTime it = value->time;
    PyObject *made = NULL, *zone = zone_of(state, &it);
    if (zone) {
        made = api->Time_FromTime(it.hour, it.minute, it.second, (int)it.microsecond, zone, api->TimeType);
        Py_DECREF(zone);
    }
    return made;
}

static PyObject *make_datetime(const State *state, const Value *value, int *code) {
    PyDateTime_CAPI *api = state->datetime;
    SpeedateDate day = value->datetime.date;
    SpeedateTime it = value->datetime.time;
    if (day.year == 0)
        return *code = YEAR_ZERO, NULL;
    PyObject *zone = zone_of(state, &it);
    if (!zone)
        return NULL;
    PyObject *made = api->DateTime_FromDateAndTime(day.year, day.month, day.day, it.hour, it.minute, it.second,
                                                   (int)it.microsecond, zone, api->DateTimeType);
    Py_DECREF(zone);
    return made;
}

static PyObject *make_duration(const State *state, const Value *value, int *code) {
    PyDateTime_CAPI *api = state->datetime;
    SpeedateDuration it = value->duration;
    int sign = it.negative ? -1 : 1;
    PyObject *made = api->Delta_FromDelta(sign * (int)it.day, sign * (int)it.second, sign * (int)it.microsecond, 1,
                                          api->DeltaType);
    if (!made && PyErr_ExceptionMatches(PyExc_OverflowError)) {
        PyErr_Clear();
        *code = DURATION_TOO_SMALL;
    }
    return made;
}

/* ---- Reading ---- */

static bool is_front(int form) {
    return form == SPEEDATE_FRONT || form == SPEEDATE_LOOSE_FRONT;
}

/* The parsers of a type with the part. At a front they write the size too. */
#define PARSE_OR_PART(type) \
    static int type##_or_part(const Text *text, int form, SpeedateConfig config, Value *out, size_t *taken, \
                              SpeedatePart *part) { \
        int code = speedate_##type##_parse_or_part(BYTES, form, config, &out->type, part); \
        if (is_front(form) && code == SPEEDATE_OK) \
            *taken = part->end; \
        return code; \
    }
PARSE_OR_PART(date)
PARSE_OR_PART(time)
PARSE_OR_PART(datetime)
PARSE_OR_PART(duration)

#define PARSE(name, call) \
    static int name(const Text *text, SpeedateConfig config, Value *out, size_t *taken) { \
        SpeedatePart part; \
        (void)config, (void)taken, (void)part; \
        return call; \
    }
PARSE(parse_date, speedate_date_parse_text(BYTES, &out->date))
PARSE(parse_date_or_timestamp, speedate_date_parse_or_timestamp(BYTES, config, &out->date))
PARSE(parse_date_front, date_or_part(text, SPEEDATE_FRONT, config, out, taken, &part))
PARSE(parse_time, speedate_time_parse_text(BYTES, config, &out->time))
PARSE(parse_time_strict, speedate_time_parse_strict(BYTES, config, &out->time))
PARSE(parse_time_front, time_or_part(text, SPEEDATE_FRONT, config, out, taken, &part))
PARSE(parse_datetime, speedate_datetime_parse_text(BYTES, config, &out->datetime))
PARSE(parse_datetime_or_timestamp, speedate_datetime_parse_or_timestamp(BYTES, config, &out->datetime))
PARSE(parse_datetime_strict, speedate_datetime_parse_strict(BYTES, config, &out->datetime))
PARSE(parse_datetime_loose, datetime_or_part(text, SPEEDATE_LOOSE, config, out, taken, &part))
PARSE(parse_datetime_front, datetime_or_part(text, SPEEDATE_FRONT, config, out, taken, &part))
PARSE(parse_datetime_loose_front, datetime_or_part(text, SPEEDATE_LOOSE_FRONT, config, out, taken, &part))
PARSE(parse_duration, speedate_duration_parse_text(BYTES, config, &out->duration))

const Parser parsers[ALL_PARSERS] = {
    [NO_PARSER] = {NULL, NULL, SPEEDATE_TEXT, SPEEDATE_KIND_NONE},
    [DATE] = {parse_date, date_or_part, SPEEDATE_TEXT, SPEEDATE_KIND_DATE},
    [DATE_OR_TIMESTAMP] = {parse_date_or_timestamp, date_or_part, SPEEDATE_OR_TIMESTAMP, SPEEDATE_KIND_DATE_OR_TIMESTAMP},
    [DATE_FRONT] = {parse_date_front, date_or_part, SPEEDATE_FRONT, SPEEDATE_KIND_DATE},
    [TIME] = {parse_time, time_or_part, SPEEDATE_TEXT, SPEEDATE_KIND_TIME},
    [TIME_STRICT] = {parse_time_strict, time_or_part, SPEEDATE_STRICT, SPEEDATE_KIND_TIME_STRICT},
    [TIME_FRONT] = {parse_time_front, time_or_part, SPEEDATE_FRONT, SPEEDATE_KIND_TIME},
    [DATETIME_TEXT] = {parse_datetime, datetime_or_part, SPEEDATE_TEXT, SPEEDATE_KIND_DATETIME},
    [DATETIME_OR_TIMESTAMP] = {parse_datetime_or_timestamp, datetime_or_part, SPEEDATE_OR_TIMESTAMP,
                               SPEEDATE_KIND_DATETIME_OR_TIMESTAMP},
    [DATETIME_STRICT] = {parse_datetime_strict, datetime_or_part, SPEEDATE_STRICT, SPEEDATE_KIND_DATETIME_STRICT},
    [DATETIME_LOOSE] = {parse_datetime_loose, datetime_or_part, SPEEDATE_LOOSE, SPEEDATE_KIND_DATETIME},
    [DATETIME_FRONT] = {parse_datetime_front, datetime_or_part, SPEEDATE_FRONT, SPEEDATE_KIND_DATETIME},
    [DATETIME_LOOSE_FRONT] = {parse_datetime_loose_front, datetime_or_part, SPEEDATE_LOOSE_FRONT, SPEEDATE_KIND_DATETIME},
    [DURATION] = {parse_duration, duration_or_part, SPEEDATE_TEXT, SPEEDATE_KIND_DURATION},
};

/* A call that parses a text. Its parameters after the text and the configuration are `timestamps`, `strict` and `loose`, if
 * it has a parser for them. */
typedef struct {
    Signature signature;
    PyObject *(*make)(const State *state, const Value *value, int *code);
    int parser[SPEEDATE_LOOSE + 1]; /* by their forms in C */
    int timestamps, strict, loose;  /* the places of these parameters, or 0 */
    int (*of_timestamp)(int64_t timestamp, SpeedateConfig config, Value *out);
} Reader;

/* One number for a parser and what its errors depend on of a configuration, less than 256, so that Python has it ready. */
int call_number(int parser, SpeedateConfig config) {
    return parser | config.timestamp_unit << 4 | config.overflow_behavior << 6 | config.iso_order << 7;
}

/* Raises the ParseError of a text, or of an integer, whose text is its digits. */
static PyObject *refuse(const State *state, int code, PyObject *object, const Text *text, int parser,
                        SpeedateConfig config) {
    if (code > LAST_OF_TEXTS && code < YEAR_ZERO)
        return raise_mistake(code);
    PyObject *source = text ? source_of(object, text) : call_on_item(state, DIGITS, -1, object, parser);
    int flagged = code | (text ? 0 : INTEGER_FLAG);
    PyObject *error = source ? new_error(state, flagged, -1, source, call_number(parser, config)) : NULL;
    if (!text)
        Py_XDECREF(source);
    return raise_error(error);
}

static int date_of_timestamp(int64_t timestamp, SpeedateConfig config, Value *out) {
    return speedate_date_from_timestamp(timestamp, 1, config, &out->date);
}

static int datetime_of_timestamp(int64_t timestamp, SpeedateConfig config, Value *out) {
    return speedate_datetime_of_timestamp(timestamp, 0, config, &out->datetime);
}

static PyObject *read_integer(const State *state, const Reader *reader, PyObject *integer, SpeedateConfig config) {
    Whole timestamp;
    Value value;
    if (take_whole(state, "value", -1, integer, &timestamp) < 0)
        return NULL;
    int code = timestamp.fits ? reader->of_timestamp(timestamp.number, config, &value) : SPEEDATE_NUMBER_TOO_LARGE;
    PyObject *made = code == SPEEDATE_OK ? reader->make(state, &value, &code) : NULL;
    int parser = reader->parser[SPEEDATE_OR_TIMESTAMP];
    return code == SPEEDATE_OK ? made : refuse(state, code, integer, NULL, parser, config);
}

static inline PyObject *read_text(const Reader *reader, GIVEN) {
    const State *state = PyModule_GetState(module);
    PyObject *bound[5] = {NULL}, *made = NULL;
    int form = SPEEDATE_TEXT;
    SpeedateConfig config;
    Text text;
    Value value;
    if (bind(&reader->signature, arguments, count, keywords, bound) < 0)
        return NULL;
    PyObject *timestamps = reader->timestamps ? bound[reader->timestamps] : NULL;
    PyObject *strict = reader->strict ? bound[reader->strict] : NULL;
    PyObject *loose = reader->loose ? bound[reader->loose] : NULL;
    if ((timestamps || strict || loose) && take_form(timestamps, strict, loose, &form) < 0)
        return NULL;
    int parser = reader->parser[form];
    if (!is_text(bound[0])) {
        if (form != SPEEDATE_OR_TIMESTAMP || !PyIndex_Check(bound[0]))
            return raise_error(call_on_item(state, WRONG_TEXT, -1, bound[0], reader->parser[SPEEDATE_TEXT]));
        if (take_config(state, bound[1], form, &config) < 0)
            return NULL;
        return read_integer(state, reader, bound[0], config);
    }
    if (take_text(bound[0], -1, &text) < 0)
        return NULL;
    if (take_config(state, bound[1], form, &config) == 0) {
        int code = parsers[parser].parse(&text, config, &value, NULL);
        if (code == SPEEDATE_OK)
            made = reader->make(state, &value, &code);
        if (code != SPEEDATE_OK)
            refuse(state, code, bound[0], &text, parser, config);
    }
    Py_XDECREF(text.owner);
    return made;
}

static PyObject *with_size(PyObject *made, Py_ssize_t size) {
    if (!made)
        return NULL;
    PyObject *number = PyLong_FromSsize_t(size), *pair = number ? PyTuple_Pack(2, made, number) : NULL;
    Py_XDECREF(number);
    Py_DECREF(made);
    return pair;
}

#define FRONT 256 /* characters that are looked at of a long text at first */
#define BEYOND 64 /* bytes after a value or a fault, of which none changes it */

/* Takes so many characters of a str, and tells whether these are all that it has. */
static int take_front(PyObject *object, Py_ssize_t size, Text *text, bool *whole) {
    PyObject *front = PyUnicode_Substring(object, 0, size);
    *whole = PyUnicode_GET_LENGTH(object) <= size;
    int status = front ? take_text(front, -1, text) : -1;
    if (status == 0 && !text->owner)
        text->owner = front;
    else
        Py_XDECREF(front);
    return status;
}

/* Whether not all of a text is encoded, if its front alone is read. */
static inline bool is_long(PyObject *object) {
    return PyUnicode_Check(object) && !PyUnicode_IS_COMPACT_ASCII(object) && PyUnicode_GetLength(object) > FRONT;
}

/* Parses the front of a long text. More of it is taken as long as that could change what is found. */
static int parse_long_front(int parser, PyObject *object, SpeedateConfig config, Text *text, Value *value,
                            size_t *taken, int *code) {
    for (Py_ssize_t size = FRONT;; size *= 8) {
        bool whole;
        if (take_front(object, size, text, &whole) < 0)
            return -1;
        SpeedatePart part;
        *code = parsers[parser].parse_or_part(text, parsers[parser].form, config, value, taken, &part);
        if (whole || (*code == SPEEDATE_OK ? *taken : part.end) + BEYOND <= text->size)
            return 0;
        Py_XDECREF(text->owner);
    }
}

/* How much of a text a size in bytes is: of a str in characters, which begin with any byte but 10xxxxxx. */
static Py_ssize_t size_in(PyObject *object, const Text *text, size_t taken) {
    Py_ssize_t size = 0;
    if (!PyUnicode_Check(object))
        return (Py_ssize_t)taken;
    for (size_t i = 0; i < taken; i++)
        size += ((unsigned char)text->bytes[i] & 0xc0) != 0x80;
    return size;
}

static inline PyObject *read_front(const Reader *reader, GIVEN) {
    const State *state = PyModule_GetState(module);
    PyObject *bound[3] = {NULL}, *made = NULL;
    int form = SPEEDATE_TEXT, code;
    SpeedateConfig config;
    Text text;
    Value value;
    size_t taken = 0;
    if (bind(&reader->signature, arguments, count, keywords, bound) < 0)
        return NULL;
    PyObject *loose = reader->loose ? bound[reader->loose] : NULL;
    if (take_form(NULL, NULL, loose, &form) < 0 || take_config(state, bound[1], form, &config) < 0)
        return NULL;
    int parser = reader->parser[form];
    if (is_long(bound[0])) {
        if (parse_long_front(parser, bound[0], config, &text, &value, &taken, &code) < 0)
            return NULL;
    } else {
        if (take_text(bound[0], -1, &text) < 0)
            return NULL;
        code = parsers[parser].parse(&text, config, &value, &taken);
    }
    if (code == SPEEDATE_OK)
        made = reader->make(state, &value, &code);
    if (code != SPEEDATE_OK)
        refuse(state, code, bound[0], &text, parser, config);
    else
        made = with_size(made, size_in(bound[0], &text, taken));
    Py_XDECREF(text.owner);
    return made;
}

CALL(date, read_text, Reader, {"date", {"value", "config", "timestamps"}, 1}, make_date, {DATE, DATE_OR_TIMESTAMP}, 2, 0, 0,
     date_of_timestamp)
CALL(time, read_text, Reader, {"time", {"value", "config", "strict"}, 1}, make_time, {TIME, NO_PARSER, TIME_STRICT}, 0, 2, 0, NULL)
CALL(datetime, read_text, Reader, {"datetime", {"value", "config", "timestamps", "strict", "loose"}, 1}, make_datetime,
     {DATETIME_TEXT, DATETIME_OR_TIMESTAMP, DATETIME_STRICT, DATETIME_LOOSE}, 2, 3, 4, datetime_of_timestamp)
CALL(duration, read_text, Reader, {"duration", {"value", "config"}, 1}, make_duration, {DURATION}, 0, 0, 0, NULL)
CALL(date_front, read_front, Reader, {"date_front", {"value"}, 1}, make_date, {DATE_FRONT}, 0, 0, 0, NULL)
CALL(time_front, read_front, Reader, {"time_front", {"value", "config"}, 1}, make_time, {TIME_FRONT}, 0, 0, 0, NULL)
CALL(datetime_front, read_front, Reader, {"datetime_front", {"value", "config", "loose"}, 1}, make_datetime,
     {DATETIME_FRONT, NO_PARSER, NO_PARSER, DATETIME_LOOSE_FRONT}, 0, 0, 2, NULL)

/* ---- Parts ---- */

/* What the number of a call says. */
typedef struct {
    int parser;
    SpeedateConfig config;
    bool of_column, assumes_utc, of_line, of_integer;
} Call;

static int take_call(int number, Call *call) {
    *call = (Call){number & 15,
                   {.timestamp_unit = number >> 4 & 3,
                    .overflow_behavior = number >> 6 & 1,
                    .iso_order = number >> 7 & 1,
                    .has_timestamp_offset = (number & HAS_OFFSET) != 0},
                   number & OF_COLUMN,
                   number & ASSUMES_UTC,
                   number & OF_LINE,
                   number & OF_INTEGER};
    if (number >= 0 && number < 2 * HAS_OFFSET && call->parser != NO_PARSER && call->parser < ALL_PARSERS)
        return 0;
    return PyErr_Format(PyExc_ValueError, "no call has the number %d", number), -1;
}

static bool reads_datetimes(const Call *call) {
    return DATETIME_TEXT <= call->parser && call->parser <= DATETIME_LOOSE;
}

static bool reads_timestamps(const Call *call) {
    return parsers[call->parser].form == SPEEDATE_OR_TIMESTAMP;
}

static bool is_accepted(const Call *call, const Text *text) {
    Value value;
    size_t taken;
    int64_t number;
    if (parsers[call->parser].parse(text, call->config, &value, &taken) != SPEEDATE_OK)
        return false;
    if (call->of_column && reads_datetimes(call))
        return call->assumes_utc || value.datetime.time.has_offset;
    return !call->of_column || call->parser != DURATION ||
           speedate_duration_microseconds(value.duration, &number) == SPEEDATE_OK;
}

/* The one thing for which a text is refused. A line ending is looked for in an item that may not have one. */
static int hint_of(const Call *call, PyObject *object, const Text *text) {
    if (call->of_integer && !reads_timestamps(call))
        return call->parser == DATE || reads_datetimes(call) ? INTEGER_OR_TIMESTAMP : NO_TIMESTAMP;
    bool has_mark = text->size >= 3 && memcmp(text->bytes, "\xef\xbb\xbf", 3) == 0;
    Text rest = has_mark ? (Text){text->bytes + 3, text->size - 3, NULL} : *text;
    int hint = has_mark ? BYTE_ORDER_MARK : NO_HINT;
    size_t size = rest.size;
    if (call->of_column && !call->of_line)
        cut_line_end(&rest);
    if (rest.size < size)
        hint |= LINE_END;
    return hint == NO_HINT || !is_accepted(call, &rest) ? NO_HINT : PyUnicode_Check(object) ? hint : hint | OF_BYTES;
}

/* What was expected where a call gave a code. */
PyObject *expected_of(int code, int kind) {
    char text[SPEEDATE_CODE_TEXT_SIZE];
    size_t length;
    SpeedatePart part = SPEEDATE_PART_NONE;
    part.kind = kind;
    int failed = speedate_code_expected(code, &part, text, sizeof text, &length);
    return failed == SPEEDATE_OK ? PyUnicode_FromStringAndSize(text, (Py_ssize_t)length) : raise_mistake(failed);
}

/* The part of a text, and what was expected there, from what its parser has answered. */
static PyObject *part_of(const Call *call, const Text *text, int code, const Value *value, size_t taken,
                         SpeedatePart *part) {
    int64_t number;
    if (call->of_integer && reads_timestamps(call) && speedate_int_parse(BYTES, &number) != SPEEDATE_OK) {
        *part = (SpeedatePart){0, text->size, 0};
        return PyUnicode_FromString("a number that fits 64 bits");
    }
    if (code != SPEEDATE_OK)
        return expected_of(code, parsers[call->parser].kind);
    /* It was refused by the column, or by Python. */
    *part = (SpeedatePart){call->of_column && reads_datetimes(call) ? taken : 0, taken, 0};
    if (call->of_column && (reads_datetimes(call) || call->parser == DURATION))
        return expected_of(reads_datetimes(call) ? SPEEDATE_TZ_REQUIRED : SPEEDATE_NUMBER_TOO_LARGE,
                           parsers[call->parser].kind);
    if (!call->of_column && call->parser == DURATION && value->duration.negative)
        return PyUnicode_FromString("a duration of at least -999999999 days");
    if (!call->of_column && value->date.year == 0) /* of a date-time too, which begins with its date */
        return PyUnicode_FromString("a year from 0001 to 9999");
    return PyErr_SetString(PyExc_ValueError, "the text is not refused"), NULL;
}

/* The start and the end of the part, what was expected, and the hint. A place within a character of a str is that of its
 * beginning. */
static PyObject *found_of(const State *state, const Call *call, PyObject *object, const Text *text, PyObject *expected,
                          SpeedatePart part) {
    if (!expected)
        return NULL;
    if (PyUnicode_Check(object))
        while (part.start > 0 && part.start < text->size && ((unsigned char)text->bytes[part.start] & 0xc0) == 0x80)
            part.start--;
    int hint = hint_of(call, object, text);
    return Py_BuildValue("nnNO", size_in(object, text, part.start), size_in(object, text, part.end), expected,
                         hint == NO_HINT ? Py_None : state->held[HINTS + hint]);
}

/* What a ParseError says of a text, from the text and the number of the call. Of a long text the front may be enough. */
PyObject *call_found(PyObject *module, PyObject *arguments) {
    const State *state = PyModule_GetState(module);
    PyObject *object;
    int number;
    Call call;
    if (!PyArg_ParseTuple(arguments, "Oi:_found", &object, &number) || take_call(number, &call) < 0)
        return NULL;
    int parser = call.parser;
    bool front = is_front(parsers[parser].form) && is_long(object);
    bool whole = true;
    for (Py_ssize_t size = FRONT;; size *= 8) {
        Text text;
        Value value;
        SpeedatePart part;
        PyObject *found = NULL;
        if ((front ? take_front(object, size, &text, &whole) : take_text(object, -1, &text)) < 0)
            return NULL;
        size_t taken = text.size;
        int code = parsers[parser].parse_or_part(&text, parsers[parser].form, call.config, &value, &taken, &part);
        bool is_enough = whole || (code == SPEEDATE_OK ? taken : part.end) + BEYOND <= text.size;
        if (is_enough)
            found = found_of(state, &call, object, &text, part_of(&call, &text, code, &value, taken, &part), part);
        Py_XDECREF(text.owner);
        if (is_enough)
            return found;
    }
}

/* The ParseError of a text of a column, from what a Refused has. */
PyObject *call_refusal(PyObject *module, PyObject *arguments) {
    PyObject *source;
    Py_ssize_t index;
    int code, call;
    if (!PyArg_ParseTuple(arguments, "inOi:_refusal", &code, &index, &source, &call))
        return NULL;
    return new_error(PyModule_GetState(module), code, index, source, call);
}
