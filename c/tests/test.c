/* Runs rows, standard input, through every function of speedate.h, and of speedate_packages.h: those of the second reading,
 * which tests/rows.py describes, through the parsers, and those of rows.txt through the rest.
 *
 * A row of rows.txt is a call, some of which have the name of a form too, its arguments, the name of its code and what it writes,
 * with `|` between them. A value is its numbers in the order of its fields, a configuration `default` or its numbers,
 * and a text stands as it is, which for a row of an empty one is an empty field.
 *
 * In the text of a column `\n` stands for a line feed, and `\r` for a carriage return. Its row has the configurations,
 * the room for numbers and, if there is any, for errors, and the text; then the numbers, the errors, how many lines and
 * bytes they are, and the name of the error that ends it. A row of a column of texts has their offsets before the text.
 * A row of a column that is printed has the room for the text, and the numbers; then the text, and the same. A part is
 * its start, its end and its kind.
 *
 * Each text is read from three places: a block of the heap of its very size, the end of a page after which none can
 * be read, and the beginning of one before which none can be; an empty one also from NULL. Each text is printed into
 * a buffer of its very size, at the end of such a page, and is refused by one that is a byte too small, and by none.
 * Each output stands before bytes that no call may touch, and a call that refuses may touch no output but the part
 * of the text. */
#define _DEFAULT_SOURCE
#include "speedate_packages.h"

#include <limits.h>
#include <stdio.h>
#include <stdlib.h>
#include <string.h>
#include <sys/mman.h>
#include <unistd.h>

#define UNTOUCHED 0xA5
#define FIELDS 10
#define ROW_SIZE 2048
/* How many places a column has, most of which no call may touch. */
#define PLACES 12

/* No struct of a value has padding. */
typedef char date_has_no_padding[sizeof(SpeedateDate) == 4 ? 1 : -1];
typedef char time_has_no_padding[sizeof(SpeedateTime) == 12 ? 1 : -1];
typedef char datetime_has_no_padding[sizeof(SpeedateDateTime) == 16 ? 1 : -1];
typedef char duration_has_no_padding[sizeof(SpeedateDuration) == 16 ? 1 : -1];

static char *fields[FIELDS];
static int field;
static char answer[256];
static char *first_page;
static size_t page;

/* ---- What a row says ---- */

static const char *next(void) {
    return field < FIELDS && fields[field] ? fields[field++] : "";
}

static void numbers(long long *out, int count) {
    char *at = (char *)next();
    for (int i = 0; i < count; i++)
        out[i] = strtoll(at, &at, 10);
}

/* The numbers of a list, however many, and how many they are. */
static size_t list(long long *out) {
    char *at = (char *)next(), *end;
    size_t count = 0;
    for (long long it = strtoll(at, &end, 10); end != at && count < PLACES; it = strtoll(at, &end, 10)) {
        out[count++] = it;
        at = end;
    }
    return count;
}

static int32_t offsets[PLACES];
static size_t offset_count;

/* The offsets of texts. */
static void read_offsets(void) {
    long long n[PLACES];
    offset_count = list(n);
    for (size_t i = 0; i < offset_count; i++)
        offsets[i] = (int32_t)n[i];
}

static long long number(void) {
    long long it;
    numbers(&it, 1);
    return it;
}

/* The five numbers of a configuration. Those that are passed stay if it is `default`. */
static void config_numbers(long long *out) {
    if (field < FIELDS && fields[field] && strcmp(fields[field], "default") == 0)
        field++;
    else
        numbers(out, 5);
}

static SpeedateConfig config(void) {
    long long n[5] = SPEEDATE_CONFIG_DEFAULT;
    config_numbers(n);
    SpeedateConfig it = {(int32_t)n[0], (uint8_t)n[1], (uint8_t)n[2], (uint8_t)n[3], (uint8_t)n[4]};
    return it;
}

/* The same, or NULL for the default. */
static const SpeedateConfig *config_or_null(void) {
    static SpeedateConfig it;
    int is_default = strcmp(fields[field], "default") == 0;
    it = config();
    return is_default ? NULL : &it;
}

static SpeedateColumnConfig column_config(void) {
    long long n[5] = {1, 0, 0, 0, 0};
    config_numbers(n);
    SpeedateColumnConfig it = {(uint8_t)n[0], (uint8_t)n[1], (uint8_t)n[2], (uint8_t)n[3], (uint8_t)n[4]};
    return it;
}

static SpeedateDate date_of(const long long *n) {
    SpeedateDate it = {(uint16_t)n[0], (uint8_t)n[1], (uint8_t)n[2]};
    return it;
}

static SpeedateTime time_of(const long long *n) {
    SpeedateTime it = {(uint8_t)n[0], (uint8_t)n[1], (uint8_t)n[2], (uint8_t)n[3], (uint32_t)n[4], (int32_t)n[5]};
    return it;
}

static SpeedateDate date(void) {
    long long n[3];
    numbers(n, 3);
    return date_of(n);
}

static SpeedateTime time_value(void) {
    long long n[6];
    numbers(n, 6);
    return time_of(n);
}

static SpeedateDateTime datetime(void) {
    long long n[9];
    SpeedateDateTime it;
    numbers(n, 9);
    it.date = date_of(n);
    it.time = time_of(n + 3);
    return it;
}

static SpeedateDuration duration(void) {
    long long n[4];
    numbers(n, 4);
    SpeedateDuration it = {(uint32_t)n[0], (uint32_t)n[1], (uint32_t)n[2], (uint32_t)n[3]};
    return it;
}

/* ---- What a call leaves ---- */

static void say(const char *form, long long it) {
    snprintf(answer + strlen(answer), sizeof answer - strlen(answer), form, it);
}

static void say_code(int code) {
    snprintf(answer, sizeof answer, "%s", speedate_code_string(code));
}

static int is_untouched(const void *out, size_t size) {
    for (size_t i = 0; i < size; i++)
        if (((const unsigned char *)out)[i] != UNTOUCHED)
            return 0;
    return 1;
}

/* Whether a call kept the bytes after an output, and the output too if it refused. */
static int is_kept(int code, const void *output, size_t size, size_t with_guard) {
    size_t written = code == SPEEDATE_OK ? size : 0;
    return is_untouched((const char *)output + written, with_guard - written);
}

static int said(int code, int kept) {
    say_code(code);
    if (!kept)
        strcat(answer, " but wrote where it may not");
    if (code == SPEEDATE_OK)
        strcat(answer, "|");
    return code == SPEEDATE_OK;
}

/* Says numbers, with a space between two of them. */
static void say_all(const long long *numbers, size_t count) {
    for (size_t i = 0; i < count; i++)
        say(i ? " %lld" : "%lld", numbers[i]);
}
#define SAY_ALL(...) say_all((const long long[]){__VA_ARGS__}, sizeof((const long long[]){__VA_ARGS__}) / sizeof(long long))

static void say_date(SpeedateDate it) {
    SAY_ALL(it.year, it.month, it.day);
}

static void say_time(SpeedateTime it) {
    SAY_ALL(it.hour, it.minute, it.second, it.has_offset, it.microsecond, it.offset);
}

static void say_datetime(SpeedateDateTime it) {
    say_date(it.date);
    strcat(answer, " ");
    say_time(it.time);
}

static void say_duration(SpeedateDuration it) {
    SAY_ALL(it.negative, it.day, it.second, it.microsecond);
}

static void say_number(long long it) {
    say("%lld", it);
}

static void say_datetime_front(SpeedateDateTimeFront it) {
    say_number(it.microseconds);
    say(":%lld", (long long)it.size);
}

/* Says a text with its line feeds as a row has them. */
static void say_lines(const char *text, size_t size) {
    for (size_t i = 0; i < size; i++)
        if (text[i] == '\n')
            strcat(answer, "\\n");
        else
            strncat(answer, text + i, 1);
    strcat(answer, "|");
}

#define NO_FLAGS UINT_MAX

/* The flags of a configuration, if it has no others than speedate.h. */
static unsigned flags_of(SpeedateColumnConfig it) {
    if (it.at_end > 1 || it.drops_returns > 1 || it.assumes_utc > 1 || it.goes_on > 1)
        return NO_FLAGS;
    return (it.at_end ? SPEEDATE_AT_END : 0u) | (it.drops_returns ? SPEEDATE_DROP_RETURNS : 0u) |
           (it.assumes_utc ? SPEEDATE_ASSUME_UTC : 0u) | (it.goes_on ? SPEEDATE_GO_ON : 0u);
}

static int is_same(SpeedateProgress it, SpeedateProgress other) {
    return it.lines == other.lines && it.bytes == other.bytes && it.error == other.error &&
           it.part.start == other.part.start && it.part.end == other.part.end && it.part.kind == other.part.kind;
}

static void say_part(SpeedatePart it) {
    SAY_ALL((long long)it.start, (long long)it.end, it.kind);
}

static void say_progress(SpeedateProgress it) {
    SAY_ALL((long long)it.lines, (long long)it.bytes);
    strcat(answer, " ");
    strcat(answer, speedate_code_string(it.error));
    if (it.part.kind != SPEEDATE_KIND_NONE) {
        strcat(answer, " ");
        say_part(it.part);
    } else if (it.part.start != 0 || it.part.end != 0) {
        strcat(answer, " with a part");
    }
}

/* ---- The calls ---- */

/* A place for an output, before bytes that no call may touch. */
#define OUTPUT(TYPE, NAME)                                                                                             \
    struct { TYPE output; unsigned char guard[16]; } NAME##_place;                                                     \
    TYPE *NAME = &NAME##_place.output;                                                                                 \
    memset(&NAME##_place, UNTOUCHED, sizeof NAME##_place);

#define IS_KEPT(CODE, NAME) is_kept(CODE, &NAME##_place, sizeof *NAME, sizeof NAME##_place)

/* A call that writes a value of a type. */
#define WRITES(TYPE, SAY, CALL)                                                                                        \
    {                                                                                                                  \
        OUTPUT(TYPE, out)                                                                                              \
        int code = CALL;                                                                                               \
        if (said(code, IS_KEPT(code, out)))                                                                            \
            SAY(*out);                                                                                                 \
        return 1;                                                                                                      \
    }

/* A parser in a form, which ends the name of the call. It answers the part of a text that is refused, and the size of a value
 * at a front. The part of a value ends with it, and without a part the call does the same. */
#define IS_FRONT(FORM) ((FORM) == SPEEDATE_FRONT || (FORM) == SPEEDATE_LOOSE_FRONT)
#define PARSE(TYPE, SAY, NAME, ENDING, FORM, CONFIG)                                                                   \
    if (is_call(#NAME "_parse" #ENDING)) {                                                                             \
        const SpeedateConfig *it = CONFIG;                                                                             \
        OUTPUT(TYPE, out)                                                                                              \
        OUTPUT(TYPE, alone)                                                                                            \
        OUTPUT(SpeedatePart, part)                                                                                     \
        size_t end = 0;                                                                                                \
        int code = speedate_##NAME##_parse(text, size, FORM, it, out, part);                                           \
        if (said(code, IS_KEPT(code, out) && IS_KEPT(SPEEDATE_OK, part)))                                              \
            SAY(*out);                                                                                                 \
        if (code == SPEEDATE_OK && IS_FRONT(FORM))                                                                     \
            say("|%lld", (long long)part->end);                                                                        \
        if (!SPEEDATE_IS_FAULT(code)) {                                                                                \
            size_t wanted = code != SPEEDATE_OK ? 0 : IS_FRONT(FORM) ? part->end : size;                               \
            if (part->start != 0 || part->end != wanted || wanted > size || part->kind != SPEEDATE_KIND_NONE)          \
                strcat(answer, " with another part");                                                                  \
        } else {                                                                                                       \
            strcat(answer, "|");                                                                                       \
            say_part(*part);                                                                                           \
            if (speedate_code_part_end(code, text, size, part->start, &end) != SPEEDATE_OK || end != part->end)        \
                strcat(answer, " with another end");                                                                   \
        }                                                                                                              \
        if (speedate_##NAME##_parse(text, size, FORM, it, alone, NULL) != code ||                                      \
            memcmp(&alone_place, &out_place, sizeof out_place) != 0)                                                   \
            strcat(answer, " and something else without a part");                                                      \
        return 1;                                                                                                      \
    }

/* Calls that read a column, with errors if there is room for them. Without room there is no address either. If the
 * row's flags are flags and it has as much room for errors as for numbers, the call of speedate.h does the same. */
#define LINES(TYPE, SAY, NAME, CALL, PUBLIC) COLUMN_OF(TYPE, SAY, NAME, CALL, , PUBLIC)
/* The same of texts at offsets, which are the row's last argument but one. */
#define TEXTS(TYPE, NAME)                                                                                              \
    COLUMN_OF(TYPE, say_number, NAME##_texts, NAME##_texts, OFFSETS,                                                   \
              offset_count == room + 1                                                                                 \
                  ? speedate_##NAME##_column(text, size, offsets, by.parser, &it, flags, again, places, room, &far)    \
                  : -1)
#define COLUMN(TYPE, NAME)                                                                                             \
    LINES(TYPE, say_number, NAME##_column, NAME##_lines,                                                               \
          speedate_##NAME##_column(text, size, NULL, by.parser, &it, flags, again, places, room, &far))
#define OFFSETS_OF(NAME)                                                                                               \
    LINES(int32_t, say_number, NAME##_offset_column, NAME##_offset_lines,                                              \
          speedate_##NAME##_offset_column(text, size, by.parser, &it, flags, again, places, room, &far))
#define OFFSETS offset_count ? offsets : NULL, offset_count,
#define COLUMN_OF(TYPE, SAY, NAME, CALL, BETWEEN, PUBLIC)                                                              \
    if (is_call(#NAME)) {                                                                                              \
        SpeedateConfig it = config();                                                                                  \
        SpeedateColumnConfig by = column_config();                                                                     \
        long long rooms[2];                                                                                            \
        numbers(rooms, 2);                                                                                             \
        size_t room = (size_t)rooms[0], error_room = (size_t)rooms[1];                                                 \
        if (sizeof #BETWEEN > 1)                                                                                       \
            read_offsets();                                                                                            \
        TYPE out[PLACES], again[PLACES];                                                                               \
        uint8_t errors[PLACES], errors_again[PLACES], *places = error_room ? errors_again : NULL;                      \
        SpeedateProgress far;                                                                                          \
        unsigned flags = flags_of(by);                                                                                 \
        (void)places;                                                                                                  \
        OUTPUT(SpeedateProgress, progress)                                                                             \
        memset(out, UNTOUCHED, sizeof out);                                                                            \
        memset(errors, UNTOUCHED, sizeof errors);                                                                      \
        memset(again, UNTOUCHED, sizeof again);                                                                        \
        memset(errors_again, UNTOUCHED, sizeof errors_again);                                                          \
        int code = speedate_##CALL(text, size, BETWEEN it, by, room ? out : NULL, room, error_room ? errors : NULL,    \
                                   error_room, progress);                                                              \
        size_t lines = code == SPEEDATE_OK ? progress->lines : 0, written = error_room ? lines : 0;                    \
        int kept = lines <= room && is_untouched(out + lines, sizeof out - lines * sizeof *out);                       \
        kept = kept && written <= error_room && is_untouched(errors + written, sizeof errors - written);               \
        if (said(code, kept && IS_KEPT(code, progress))) {                                                             \
            LIST(SAY, out, lines)                                                                                      \
            if (error_room)                                                                                            \
                LIST(say_number, errors, lines)                                                                        \
            say_progress(*progress);                                                                                   \
        }                                                                                                              \
        int public = flags == NO_FLAGS || (error_room && error_room != room) ? -1 : PUBLIC;                            \
        if (public >= 0 && (public != code || memcmp(out, again, sizeof out) != 0 ||                                   \
                            memcmp(errors, errors_again, sizeof errors) != 0 ||                                        \
                            (code == SPEEDATE_OK && !is_same(far, *progress))))                                        \
            strcat(answer, " and something else by flags");                                                            \
        return 1;                                                                                                      \
    }

/* Calls that print a column: into so many bytes, which end with a page. Without numbers or room there is no address. */
#define PRINT_COLUMN(TYPE, NAME, CALL, FLAGS)                                                                          \
    if (is_call(#NAME)) {                                                                                              \
        size_t room = (size_t)number(), count;                                                                         \
        long long numbers_in[PLACES];                                                                                  \
        TYPE in[PLACES];                                                                                               \
        char *buffer = first_page + page - room;                                                                       \
        OUTPUT(SpeedateProgress, progress)                                                                             \
        count = list(numbers_in);                                                                                      \
        for (size_t i = 0; i < count; i++)                                                                             \
            in[i] = (TYPE)numbers_in[i];                                                                               \
        memset(first_page, UNTOUCHED, page);                                                                           \
        int code = speedate_##CALL##_print_column(count ? in : NULL, count, FLAGS, room ? buffer : NULL, room,         \
                                                  progress);                                                           \
        size_t size = progress->bytes;                                                                                 \
        int kept = size <= room && is_untouched(first_page, page - room) && is_untouched(buffer + size, room - size);  \
        if (said(code, kept && IS_KEPT(code, progress))) {                                                             \
            say_lines(buffer, size);                                                                                   \
            say_progress(*progress);                                                                                   \
        }                                                                                                              \
        return 1;                                                                                                      \
    }

#define LIST(SAY, NUMBERS, COUNT)                                                                                      \
    {                                                                                                                  \
        for (size_t i = 0; i < COUNT; i++) {                                                                           \
            strcat(answer, i ? " " : "");                                                                              \
            SAY(NUMBERS[i]);                                                                                           \
        }                                                                                                              \
        strcat(answer, "|");                                                                                           \
    }

/* A call that prints: with room for all, for just the text, and for a byte less. */
#define PRINTS(CALL)                                                                                                   \
    {                                                                                                                  \
        OUTPUT(size_t, length)                                                                                         \
        char *buffer = first_page;                                                                                     \
        size_t size = page;                                                                                            \
        memset(buffer, UNTOUCHED, page);                                                                               \
        int code = CALL;                                                                                               \
        if (said(code, IS_KEPT(code, length) && (code == SPEEDATE_OK || is_untouched(buffer, page)))) {                \
            strcat(answer, buffer);                                                                                    \
            if (strlen(buffer) != *length || !is_untouched(buffer + *length + 1, page - *length - 1))                  \
                strcat(answer, " with another length");                                                                \
            size = *length + 1;                                                                                        \
            buffer = first_page + page - size;                                                                         \
            memset(first_page, UNTOUCHED, page);                                                                       \
            if ((CALL) != SPEEDATE_OK || strlen(buffer) != *length || !is_untouched(first_page, page - size))          \
                strcat(answer, " but not into its own size");                                                          \
            size = *length;                                                                                            \
            buffer = first_page + page - size;                                                                         \
            memset(first_page, UNTOUCHED, page);                                                                       \
            *length = page;                                                                                            \
            if ((CALL) != SPEEDATE_BUFFER_TOO_SMALL || *length != page || !is_untouched(first_page, page))             \
                strcat(answer, " and into a byte less");                                                               \
            size = 0;                                                                                                  \
            buffer = NULL;                                                                                             \
            if ((CALL) != SPEEDATE_BUFFER_TOO_SMALL || *length != page)                                                \
                strcat(answer, " and into no buffer");                                                                 \
            if (!IS_KEPT(SPEEDATE_OK, length))                                                                         \
                strcat(answer, " and after the length");                                                               \
        }                                                                                                              \
        return 1;                                                                                                      \
    }

static int is_code(const char *it) {
    for (int code = 0; code <= SPEEDATE_BUFFER_TOO_SMALL; code++)
        if (strcmp(it, speedate_code_string(code)) == 0)
            return 1;
    return 0;
}

static int is_call(const char *name) {
    return strcmp(fields[0], name) == 0;
}

#define VALUE(TYPE, SAY, NAME, ARGUMENT, READ)                                                                         \
    if (is_call(#NAME)) {                                                                                              \
        ARGUMENT it = READ();                                                                                          \
        WRITES(TYPE, SAY, speedate_##NAME(it, out))                                                                    \
    }

#define TWO_VALUES(TYPE, SAY, NAME, FIRST, READ_FIRST, SECOND, READ_SECOND)                                            \
    if (is_call(#NAME)) {                                                                                              \
        FIRST first = READ_FIRST();                                                                                    \
        SECOND second = READ_SECOND();                                                                                 \
        WRITES(TYPE, SAY, speedate_##NAME(first, second, out))                                                         \
    }

#define THREE_VALUES(TYPE, SAY, NAME, FIRST, READ_FIRST, SECOND, READ_SECOND, THIRD, READ_THIRD)                       \
    if (is_call(#NAME)) {                                                                                              \
        FIRST first = READ_FIRST();                                                                                    \
        SECOND second = READ_SECOND();                                                                                 \
        THIRD third = READ_THIRD();                                                                                    \
        WRITES(TYPE, SAY, speedate_##NAME(first, second, third, out))                                                  \
    }

#define CHECK(NAME, TYPE, READ)                                                                                        \
    if (is_call(#NAME)) {                                                                                              \
        TYPE it = READ();                                                                                              \
        say_code(speedate_##NAME(it));                                                                                 \
        return 1;                                                                                                      \
    }

#define PRINT(NAME, TYPE, READ)                                                                                        \
    if (is_call(#NAME)) {                                                                                              \
        TYPE it = READ();                                                                                              \
        PRINTS(speedate_##NAME(it, buffer, size, length))                                                              \
    }

#define PRINT_DIGITS(NAME, CALL, TYPE, READ, DIGITS)                                                                   \
    if (is_call(#NAME)) {                                                                                              \
        TYPE it = READ();                                                                                              \
        int digits = DIGITS;                                                                                           \
        PRINTS(speedate_##CALL(it, digits, buffer, size, length))                                                      \
    }

/* Calls of a text: the text is the row's last argument. */
static int run_text(const char *text, size_t size) {
    field = 1;
    if (is_call("code_part_end")) {
        int of = (int)number();
        size_t place = (size_t)number();
        WRITES(size_t, say_number, speedate_code_part_end(of, text, size, place, out))
    }
    if (is_call("int_parse"))
        WRITES(int64_t, say_number, speedate_int_parse(text, size, out))
    PARSE(SpeedateDate, say_date, date, , SPEEDATE_OR_TIMESTAMP, config_or_null())
    PARSE(SpeedateDate, say_date, date, _text, SPEEDATE_TEXT, config_or_null())
    PARSE(SpeedateDate, say_date, date, _strict, SPEEDATE_STRICT, config_or_null())
    PARSE(SpeedateDate, say_date, date, _front, SPEEDATE_FRONT, config_or_null())
    PARSE(SpeedateTime, say_time, time, , SPEEDATE_TEXT, config_or_null())
    PARSE(SpeedateTime, say_time, time, _strict, SPEEDATE_STRICT, config_or_null())
    PARSE(SpeedateTime, say_time, time, _front, SPEEDATE_FRONT, config_or_null())
    PARSE(SpeedateDateTime, say_datetime, datetime, , SPEEDATE_OR_TIMESTAMP, config_or_null())
    PARSE(SpeedateDateTime, say_datetime, datetime, _text, SPEEDATE_TEXT, config_or_null())
    PARSE(SpeedateDateTime, say_datetime, datetime, _strict, SPEEDATE_STRICT, config_or_null())
    PARSE(SpeedateDateTime, say_datetime, datetime, _loose, SPEEDATE_LOOSE, config_or_null())
    PARSE(SpeedateDateTime, say_datetime, datetime, _front, SPEEDATE_FRONT, config_or_null())
    PARSE(SpeedateDateTime, say_datetime, datetime, _loose_front, SPEEDATE_LOOSE_FRONT, config_or_null())
    PARSE(SpeedateDuration, say_duration, duration, , SPEEDATE_TEXT, config_or_null())
    COLUMN(int32_t, date)
    COLUMN(int64_t, time)
    COLUMN(int64_t, datetime)
    COLUMN(int64_t, duration)
    LINES(int64_t, say_number, datetime_clock_column, datetime_clock_column,
          speedate_datetime_column(text, size, NULL, by.parser, &it, flags | SPEEDATE_CLOCK, again, places, room, &far))
    LINES(SpeedateDateTimeFront, say_datetime_front, datetime_front_column, datetime_front_lines,
          speedate_datetime_front_column(text, size, by.parser, &it, flags, again, places, room, &far))
    OFFSETS_OF(datetime)
    OFFSETS_OF(time)
    TEXTS(int32_t, date)
    TEXTS(int64_t, time)
    TEXTS(int64_t, datetime)
    TEXTS(int64_t, duration)
    return 0;
}

/* Calls of values. */
static int run_value(void) {
    field = 1;
    if (is_call("version")) {
        strcpy(answer, speedate_version() == SPEEDATE_VERSION_NUMBER ? "ok" : "another one");
        return 1;
    }
    PRINT(code_name, int, (int)number)
    PRINT(code_documentation, int, (int)number)
    if (is_call("code_expected")) {
        int of = (int)number();
        SpeedatePart part = {SIZE_MAX, 1, (int32_t)number()};
        PRINTS(speedate_code_expected(of, &part, buffer, size, length))
    }
    CHECK(date_check, SpeedateDate, date)
    PRINT(date_to_text, SpeedateDate, date)
    TWO_VALUES(int32_t, say_number, date_compare, SpeedateDate, date, SpeedateDate, date)
    THREE_VALUES(SpeedateDate, say_date, date_from_timestamp, int64_t, number, uint8_t, (uint8_t)number, SpeedateConfig,
                 config)
    VALUE(int64_t, say_number, date_timestamp, SpeedateDate, date)
    VALUE(int64_t, say_number, date_timestamp_ms, SpeedateDate, date)
    VALUE(int32_t, say_number, date_days, SpeedateDate, date)
    VALUE(SpeedateDate, say_date, date_from_days, int32_t, (int32_t)number)
    VALUE(uint16_t, say_number, date_ordinal_day, SpeedateDate, date)
    TWO_VALUES(SpeedateDate, say_date, date_add_days, SpeedateDate, date, int32_t, (int32_t)number)
    TWO_VALUES(int32_t, say_number, date_days_between, SpeedateDate, date, SpeedateDate, date)
    CHECK(time_check, SpeedateTime, time_value)
    PRINT_DIGITS(time_to_text, time_to_text, SpeedateTime, time_value, SPEEDATE_DIGITS_AUTO)
    PRINT_DIGITS(time_to_text_with_digits, time_to_text, SpeedateTime, time_value, (int)number())
    TWO_VALUES(int32_t, say_number, time_compare, SpeedateTime, time_value, SpeedateTime, time_value)
    THREE_VALUES(SpeedateTime, say_time, time_from_timestamp, uint32_t, (uint32_t)number, uint32_t, (uint32_t)number,
                 SpeedateConfig, config)
    VALUE(uint32_t, say_number, time_total_seconds, SpeedateTime, time_value)
    VALUE(uint32_t, say_number, time_total_ms, SpeedateTime, time_value)
    TWO_VALUES(SpeedateTime, say_time, time_in_timezone, SpeedateTime, time_value, int32_t, (int32_t)number)
    CHECK(datetime_check, SpeedateDateTime, datetime)
    PRINT_DIGITS(datetime_to_text, datetime_to_text, SpeedateDateTime, datetime, SPEEDATE_DIGITS_AUTO)
    PRINT_DIGITS(datetime_to_text_with_digits, datetime_to_text, SpeedateDateTime, datetime, (int)number())
    TWO_VALUES(int32_t, say_number, datetime_compare, SpeedateDateTime, datetime, SpeedateDateTime, datetime)
    THREE_VALUES(SpeedateDateTime, say_datetime, datetime_from_timestamp, int64_t, number, uint32_t, (uint32_t)number,
                 const SpeedateConfig *, config_or_null)
    TWO_VALUES(int64_t, say_number, datetime_timestamp_microseconds, int64_t, number, SpeedateConfig, config)
    VALUE(int64_t, say_number, datetime_clock_seconds, SpeedateDateTime, datetime)
    VALUE(int64_t, say_number, datetime_clock_milliseconds, SpeedateDateTime, datetime)
    VALUE(int64_t, say_number, datetime_unix_seconds, SpeedateDateTime, datetime)
    VALUE(int64_t, say_number, datetime_unix_milliseconds, SpeedateDateTime, datetime)
    VALUE(int64_t, say_number, datetime_unix_microseconds, SpeedateDateTime, datetime)
    VALUE(SpeedateDateTime, say_datetime, datetime_from_unix_microseconds, int64_t, number)
    TWO_VALUES(SpeedateDateTime, say_datetime, datetime_in_timezone, SpeedateDateTime, datetime, int32_t, (int32_t)number)
    VALUE(SpeedateDuration, say_duration, duration_normalize, SpeedateDuration, duration)
    CHECK(duration_check, SpeedateDuration, duration)
    PRINT(duration_to_text, SpeedateDuration, duration)
    TWO_VALUES(int32_t, say_number, duration_compare, SpeedateDuration, duration, SpeedateDuration, duration)
    VALUE(int64_t, say_number, duration_signed_total_seconds, SpeedateDuration, duration)
    VALUE(int64_t, say_number, duration_signed_total_ms, SpeedateDuration, duration)
    VALUE(int32_t, say_number, duration_signed_microseconds, SpeedateDuration, duration)
    if (is_call("duration_signed_total_microseconds"))
        WRITES(int64_t, say_number, speedate_duration_microseconds(duration(), out))
    if (is_call("duration_sum")) {
        SpeedateDuration durations[FIELDS];
        size_t count = 0;
        while (field < FIELDS && fields[field] && !is_code(fields[field]))
            durations[count++] = duration();
        WRITES(SpeedateDuration, say_duration, speedate_duration_sum(count ? durations : NULL, count, out))
    }
    PRINT_COLUMN(int32_t, date_print_column, date, 0)
    PRINT_COLUMN(int64_t, time_print_column, time, 0)
    PRINT_COLUMN(int64_t, datetime_print_column, datetime, 0)
    PRINT_COLUMN(int64_t, datetime_clock_print_column, datetime, SPEEDATE_CLOCK)
    PRINT_COLUMN(int64_t, duration_print_column, duration, 0)
    if (is_call("duration_from_signed_microseconds"))
        WRITES(SpeedateDuration, say_duration, speedate_duration_from_microseconds((int64_t)number(), out))
    VALUE(SpeedateDuration, say_duration, duration_negate, SpeedateDuration, duration)
    TWO_VALUES(SpeedateDuration, say_duration, duration_between, SpeedateDateTime, datetime, SpeedateDateTime, datetime)
    if (is_call("duration_after")) {
        SpeedateDuration by = duration();
        WRITES(SpeedateDateTime, say_datetime, speedate_datetime_add(datetime(), by, out))
    }
    TWO_VALUES(SpeedateDateTime, say_datetime, duration_before, SpeedateDuration, duration, SpeedateDateTime, datetime)
    TWO_VALUES(SpeedateDuration, say_duration, duration_between_dates, SpeedateDate, date, SpeedateDate, date)
    TWO_VALUES(SpeedateDate, say_date, duration_after_date, SpeedateDuration, duration, SpeedateDate, date)
    TWO_VALUES(SpeedateDate, say_date, duration_before_date, SpeedateDuration, duration, SpeedateDate, date)
    return 0;
}

/* ---- The table ---- */

static int failures;
#define FAIL(...) (fprintf(stderr, __VA_ARGS__), failures++)

static void compare(const char *row, const char *wanted) {
    if (strcmp(answer, wanted) != 0)
        FAIL("%s\n    answered %s\n", row, answer);
}

/* Cuts a row at its marks, and counts its fields. */
static int cut(char *row, int at_mark) {
    int count = 0;
    memset(fields, 0, sizeof fields);
    for (char *at = row; count < FIELDS; count++) {
        char *mark = strchr(at, at_mark);
        fields[count] = at;
        if (!mark)
            return count + 1;
        *mark = 0;
        at = mark + 1;
    }
    return count;
}

/* A code has a name, which is its string too, a documentation text, and what is expected, by calls of each kind,
 * except of success, for which there is room. Another number has none, and a string of its own. */
static void try_code(int code) {
    char name[SPEEDATE_CODE_TEXT_SIZE], text[SPEEDATE_CODE_TEXT_SIZE];
    size_t length = 0;
    int is_one = (code >= SPEEDATE_OK && code <= SPEEDATE_LAST_FAULT) ||
                 (code >= SPEEDATE_NUMBER_TOO_LARGE && code <= SPEEDATE_NO_SUCH_DATE) ||
                 (code >= SPEEDATE_VALUE_OUT_OF_RANGE && code <= SPEEDATE_BUFFER_TOO_SMALL);
    int wanted = is_one ? SPEEDATE_OK : SPEEDATE_VALUE_OUT_OF_RANGE;
    const char *string = speedate_code_string(code);
    strcpy(name, "unknown code");
    if (speedate_code_name(code, name, sizeof name, &length) != wanted || !string || strcmp(string, name) != 0 ||
        speedate_code_documentation(code, text, sizeof text, &length) != wanted)
        FAIL("the code %d is named by mistake, or not at all\n", code);
    if (code == SPEEDATE_OK)
        wanted = SPEEDATE_VALUE_OUT_OF_RANGE;
    SpeedatePart part = SPEEDATE_PART_NONE;
    for (; part.kind <= SPEEDATE_KIND_DURATION; part.kind++)
        if (speedate_code_expected(code, &part, text, sizeof text, &length) != wanted)
            FAIL("calls of the kind %d expect something by mistake, or nothing, with the code %d\n", (int)part.kind, code);
    if (is_one && SPEEDATE_IS_FAULT(code) != (code != SPEEDATE_OK && code < SPEEDATE_VALUE_OUT_OF_RANGE))
        FAIL("the code %d is a fault by mistake, or none\n", code);
}

/* A form that a type lacks, and a number that is none, are out of range, and so are flags: nothing is written but no
 * part. */
#define IS_REFUSED(CALL) ((CALL) == SPEEDATE_CONFIG_OUT_OF_RANGE)
#define TRY_FORMS(TYPE, NAME, HAS)                                                                                     \
    for (int form = -1; form <= 258; form++) {                                                                         \
        TYPE value;                                                                                                    \
        SpeedatePart part = {1, 1, 1};                                                                                 \
        memset(&value, UNTOUCHED, sizeof value);                                                                       \
        if (form >= 0 && form < 6 && HAS[form] != ' ')                                                                 \
            continue;                                                                                                  \
        if (!IS_REFUSED(speedate_##NAME##_parse("", 0, form, NULL, &value, &part)) ||                                  \
            !IS_REFUSED(speedate_##NAME##_parse("", 0, form, NULL, &value, NULL)) ||                                   \
            !is_untouched(&value, sizeof value) || part.start || part.end || part.kind)                                \
            FAIL("speedate_" #NAME "_parse takes the form %d\n", form);                                                \
    }
#define TRY_FLAGS(TYPE, NAME, FORMS, KNOWN)                                                                            \
    for (int form = -1; form <= 258; form++)                                                                           \
        for (unsigned flags = 0; flags <= 32; flags++) {                                                               \
            const int32_t offset = 0;                                                                                  \
            SpeedateProgress progress;                                                                                 \
            TYPE out = 0;                                                                                              \
            char text[1];                                                                                              \
            int is_form = form >= 0 && form < 4 && FORMS[form] != ' ', is_known = flags <= 15;                         \
            if (IS_REFUSED(speedate_##NAME##_column("", 0, NULL, form, NULL, flags, &out, NULL, 0, &progress)) ==      \
                    (is_form && flags <= KNOWN) ||                                                                     \
                IS_REFUSED(speedate_##NAME##_column("", 0, &offset, form, NULL, flags, &out, NULL, 0, &progress)) ==   \
                    (is_form && is_known) ||                                                                           \
                IS_REFUSED(speedate_##NAME##_print_column(&out, 0, flags, text, 1, &progress)) ==                      \
                    (flags == 0 || flags == (KNOWN & SPEEDATE_CLOCK)))                                                 \
                FAIL("a column of " #NAME "s answers otherwise to the form %d and the flags %u\n", form, flags);       \
        }

static void try_forms(void) {
    TRY_FORMS(SpeedateDate, date, "tos f ")
    TRY_FORMS(SpeedateTime, time, "t s f ")
    TRY_FORMS(SpeedateDateTime, datetime, "toslfL")
    TRY_FORMS(SpeedateDuration, duration, "t     ")
    TRY_FLAGS(int32_t, date, "tos ", 15u)
    TRY_FLAGS(int64_t, time, "t s ", 15u)
    TRY_FLAGS(int64_t, datetime, "tosl", 31u)
    TRY_FLAGS(int64_t, duration, "t   ", 15u)
}

/* Puts the bytes of line ends into the text of a column, where they are written as two letters each. */
static void put_line_ends(char *text) {
    char *to = text;
    for (char *from = text; *from; from++) {
        int is_one = from[0] == '\\' && (from[1] == 'n' || from[1] == 'r');
        *to++ = !is_one ? *from : from[1] == 'n' ? '\n' : '\r';
        from += is_one;
    }
    *to = 0;
}

/* Tries a call of a text, which it gets from each of the places, and whether there is such a call. */
static int try_text(const char *row, const char *text, size_t size, const char *wanted) {
    char *block = malloc(size ? size : 1);
    char *places[] = {block, first_page, first_page + page - size, NULL};
    int is_there = 1;
    for (int i = 0; i < 4 && is_there; i++) {
        if (places[i])
            memcpy(places[i], text, size);
        if (places[i] || size == 0) {
            is_there = run_text(places[i], size);
            if (is_there)
                compare(row, wanted);
        }
    }
    free(block);
    return is_there;
}

static void run(const char *row) {
    char copy[ROW_SIZE], wanted[ROW_SIZE] = "";
    int arguments = 1;
    snprintf(copy, sizeof copy, "%s", row);
    int count = cut(copy, '|');
    while (arguments < count && !is_code(fields[arguments]))
        arguments++;
    for (int i = arguments; i < count; i++) {
        strcat(wanted, i > arguments ? "|" : "");
        strcat(wanted, fields[i]);
    }
    char *text = fields[arguments - 1];
    if (strstr(fields[0], "_column") || strstr(fields[0], "_texts"))
        put_line_ends(text);
    if (!try_text(row, text, strlen(text), wanted)) {
        if (arguments == count || !run_value())
            snprintf(answer, sizeof answer, "nothing: there is no such call, or no such code");
        compare(row, wanted);
    }
}

/* Puts the bytes of a text in place that are written as \xHH, and counts them all. */
static size_t unescaped(char *text) {
    char *to = text;
    for (char *from = text; *from; to++)
        if (*from == '\\') {
            char digits[3] = {from[2], from[3], 0};
            *to = (char)strtol(digits, NULL, 16);
            from += 4;
        } else {
            *to = *from++;
        }
    return (size_t)(to - text);
}

/* A row of the second reading, in each of its forms, as calls with the endings of PARSE, and the printed value. */
static void run_reading(const char *row) {
    /* A form, by its number, the ending of a call that reads dates or date-times in it, and how much later its kind is. */
    static const struct { const char *name, *ending; int later; } forms[] = {
        {"text", "_text", 0}, {"or_timestamp", "", 1}, {"strict", "_strict", 2}, {"loose", "_loose", 0},
        {"front", "_front", 0}, {"loose_front", "_loose_front", 0}};
    static const struct { const char *name; int kind, strict; } types[] = {
        {"date", SPEEDATE_KIND_DATE, 0}, {"time", SPEEDATE_KIND_TIME, 1}, {"datetime", SPEEDATE_KIND_DATETIME, 2},
        {"duration", SPEEDATE_KIND_DURATION, 0}};
    char copy[ROW_SIZE], call[32], wanted[ROW_SIZE], *parts[9], *form;
    snprintf(copy, sizeof copy, "%s", row);
    if (cut(copy, '\t') != 9) {
        FAIL("no row: %s\n", row);
        return;
    }
    memcpy(parts, fields, sizeof parts);
    size_t size = unescaped(parts[3]);
    int type = 0, tried = 0;
    while (type < 3 && strcmp(types[type].name, parts[0]) != 0)
        type++;
    for (form = strtok(parts[1], " "); form; form = strtok(NULL, " "))
        for (int i = 0; i < 6; i++)
            if (strcmp(forms[i].name, form) == 0) {
                int kind = types[type].kind + (forms[i].later == 2 ? types[type].strict : forms[i].later);
                snprintf(call, sizeof call, "%s_parse%s", parts[0], type % 2 && i == 0 ? "" : forms[i].ending);
                if (strcmp(parts[4], "ok") != 0)
                    snprintf(wanted, sizeof wanted, "%s|%s %s %d", parts[4], parts[7], parts[8], kind);
                else if (IS_FRONT(i))
                    snprintf(wanted, sizeof wanted, "ok|%s|%s", parts[5], parts[8]);
                else
                    snprintf(wanted, sizeof wanted, "ok|%s", parts[5]);
                fields[0] = call;
                fields[1] = strcmp(parts[2], "0 0 0 0 0") == 0 ? "default" : parts[2];
                tried += try_text(row, parts[3], size, wanted);
            }
    if (!tried)
        FAIL("no form: %s\n", row);
    if (strcmp(parts[4], "ok") == 0) {
        snprintf(call, sizeof call, "%s_to_text", parts[0]);
        snprintf(wanted, sizeof wanted, "ok|%s", parts[6]);
        fields[1] = parts[5];
        if (run_value())
            compare(row, wanted);
    }
}

int main(void) {
    char row[ROW_SIZE];
    int rows = 0;
    page = (size_t)sysconf(_SC_PAGESIZE);
    char *pages = mmap(NULL, 3 * page, PROT_NONE, MAP_PRIVATE | MAP_ANONYMOUS, -1, 0);
    if (pages == MAP_FAILED || mprotect(pages + page, page, PROT_READ | PROT_WRITE) != 0) {
        perror("pages");
        return 1;
    }
    first_page = pages + page;
    for (int code = -2; code < 200; code++)
        try_code(code);
    try_forms();
    try_code(INT_MIN);
    try_code(INT_MAX);
    while (fgets(row, sizeof row, stdin)) {
        row[strcspn(row, "\n")] = 0;
        if (row[0] == 0 || row[0] == '#')
            continue;
        rows++;
        (strchr(row, '\t') ? run_reading : run)(row);
    }
    printf("%d rows, %d failures\n", rows, failures);
    return failures != 0 || rows == 0;
}
