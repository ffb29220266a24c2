/* A loadable extension of SQLite, with two functions of a text:
 *
 *     speedate(text)     its date-time in one form: 2026-11-22T23:30:00+01:00 for '2026-11-22 23:30+0100'
 *     speedate_us(text)  its microseconds since 1970-01-01T00:00:00 in UTC, by which rows can be sorted
 *
 * NULL gives NULL. A text that is refused ends the statement, with what is wrong, where, and what was expected there. A
 * number is refused too, so that 20200229 is no second of 1970: for a column of timestamps use SPEEDATE_OR_TIMESTAMP.
 *
 *     cc -shared -fPIC sqlite.c $(pkg-config --cflags --libs speedate) -o speedate.so
 *     sqlite3 :memory: '.load ./speedate' "SELECT speedate_us('2026-11-22T22:30:00Z')"
 */
#include "speedate.h"

#include <sqlite3ext.h>
SQLITE_EXTENSION_INIT1

static void refuse(sqlite3_context *context, int code, SpeedatePart part) {
    char wanted[SPEEDATE_CODE_TEXT_SIZE] = "";
    size_t length;
    int known = speedate_code_expected(code, &part, wanted, sizeof wanted, &length) == SPEEDATE_OK;
    char *message = sqlite3_mprintf("%s at byte %llu: expected %s", speedate_code_string(code),
                                    (unsigned long long)part.start, known ? wanted : "another text");
    if (message)
        sqlite3_result_error(context, message, -1);
    else
        sqlite3_result_error_nomem(context);
    sqlite3_free(message);
}

/* Whether the argument is a date-time. If it is not, the result says why. */
static int parse(sqlite3_context *context, sqlite3_value *argument, SpeedateDateTime *value) {
    int is_null = sqlite3_value_type(argument) == SQLITE_NULL;
    const char *text = (const char *)sqlite3_value_text(argument);
    size_t size = (size_t)sqlite3_value_bytes(argument);
    SpeedatePart part;
    int code;
    if (!text) {
        if (!is_null) /* NULL is the result if there is no other */
            sqlite3_result_error_nomem(context);
        return 0;
    }
    code = speedate_datetime_parse(text, size, SPEEDATE_TEXT, NULL, value, &part);
    if (code != SPEEDATE_OK)
        refuse(context, code, part);
    return code == SPEEDATE_OK;
}

static void print(sqlite3_context *context, int count, sqlite3_value **arguments) {
    SpeedateDateTime value;
    char text[SPEEDATE_DATETIME_TEXT_SIZE];
    size_t length;
    (void)count;
    if (parse(context, arguments[0], &value) &&
        speedate_datetime_to_text(value, SPEEDATE_DIGITS_AUTO, text, sizeof text, &length) == SPEEDATE_OK)
        sqlite3_result_text(context, text, (int)length, SQLITE_TRANSIENT);
}

static void count_microseconds(sqlite3_context *context, int count, sqlite3_value **arguments) {
    SpeedateDateTime value;
    int64_t microseconds;
    (void)count;
    if (parse(context, arguments[0], &value) &&
        speedate_datetime_unix_microseconds(value, &microseconds) == SPEEDATE_OK)
        sqlite3_result_int64(context, microseconds);
}

/* SQLite looks for this name in speedate.so. */
int sqlite3_speedate_init(sqlite3 *database, char **error, const sqlite3_api_routines *api);
int sqlite3_speedate_init(sqlite3 *database, char **error, const sqlite3_api_routines *api) {
    const int flags = SQLITE_UTF8 | SQLITE_DETERMINISTIC | SQLITE_INNOCUOUS;
    int status;
    SQLITE_EXTENSION_INIT2(api);
    (void)error;
    status = sqlite3_create_function(database, "speedate", 1, flags, NULL, print, NULL, NULL);
    if (status == SQLITE_OK)
        status = sqlite3_create_function(database, "speedate_us", 1, flags, NULL, count_microseconds, NULL, NULL);
    return status;
}
