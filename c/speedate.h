/* SPDX-License-Identifier: MIT
 * Copyright (c) 2022 Samuel Colvin
 * Copyright (c) 2026 the speedate for Rattle authors */
/* speedate.h: exact dates, times of day, date-times and durations, parsed from texts and printed.
 *
 * What holds for every call:
 *
 * - It returns a code: 0 (SPEEDATE_OK) on success, otherwise the SpeedateCode that says why it fails. A call that fails
 *   writes nothing, except that a parser always writes *part. Only speedate_version and speedate_code_string return
 *   something else.
 * - If several things are wrong, SPEEDATE_CONFIG_OUT_OF_RANGE comes first, then SPEEDATE_VALUE_OUT_OF_RANGE. A value
 *   that is out of range fails with SPEEDATE_VALUE_OUT_OF_RANGE, unless the call says otherwise.
 * - A text is passed as an address and a size in bytes. It may hold any bytes, and needs no zero byte at its end. If
 *   the size is 0, the address may be NULL. That holds for arrays too. A size is never -1: for a string pass strlen.
 * - A text is printed into a buffer of yours, with a zero byte after it, and its length without that byte is written to
 *   *length. A buffer of the size that is named beside the type is always large enough; no call returns the size that
 *   a text needs. Bytes after the zero byte keep their values.
 * - `config`, `offsets`, `errors` and the `part` of a parser may be NULL. `out`, `length`, `progress` and the `part` of
 *   speedate_code_expected may not. What a call writes does not overlap what it reads, but values are passed by value,
 *   so `out` may point to the variable that is passed: speedate_datetime_in_timezone(value, 0, &value).
 * - No call allocates memory, reads or sets errno, or keeps anything for the next one. Any thread may make any call at
 *   any time, and so may a signal handler.
 *
 * GRAMMAR.md lists the texts and their faults, and C.md shows how to build the library and to call it. Both are
 * installed in share/doc/speedate, and are in docs/ of the repository.
 */
#ifndef SPEEDATE_H
#define SPEEDATE_H

#include <stddef.h>
#include <stdint.h>

#ifdef __cplusplus
extern "C" {
#endif

/* Comes before each call that returns a code, so that a compiler warns if the code is not used: a call that fails may
 * leave its variable unwritten. Define it as nothing before the #include to switch these warnings off. */
#ifndef SPEEDATE_NODISCARD
#if (defined(__cplusplus) && __cplusplus >= 201703L) || (defined(__STDC_VERSION__) && __STDC_VERSION__ >= 202311L)
#define SPEEDATE_NODISCARD [[nodiscard]]
#elif defined(__GNUC__)
#define SPEEDATE_NODISCARD __attribute__((warn_unused_result))
#else
#define SPEEDATE_NODISCARD
#endif
#endif

/* The version of this header. Within a major version no name, struct, number of a code or accepted text changes or goes
 * away; a later minor version may add calls and codes. So a program runs with any library that has the major version of
 * its header, and the same minor version or a later one. */
#define SPEEDATE_VERSION_MAJOR 1
#define SPEEDATE_VERSION_MINOR 0
#define SPEEDATE_VERSION_PATCH 0

/* The version as one number, which can be compared: 1002003 for 1.2.3. */
#define SPEEDATE_VERSION_NUMBER                                                                                        \
    (SPEEDATE_VERSION_MAJOR * 1000000 + SPEEDATE_VERSION_MINOR * 1000 + SPEEDATE_VERSION_PATCH)

/* The SPEEDATE_VERSION_NUMBER of the library that is called. It returns the number itself, not a code. */
int speedate_version(void);

/* ---- Codes ---- */

/* What a call returns. A number never changes its meaning; later minor versions may add numbers. */
enum SpeedateCode {
    /* Success. */
    SPEEDATE_OK = 0,

    /* 1 to 99: faults of a text or of a number, which any input may have. Errors of the library have the numbers from 1
     * on. `Strict` is the form SPEEDATE_STRICT. */

    /* The text ends too early. */
    SPEEDATE_TOO_SHORT = 1,
    /* Something follows a complete value. */
    SPEEDATE_EXTRA_CHARACTERS = 2,
    /* The date is not followed by `T`, `t`, `_` or a space, or, if strict, by `T` or `t`. */
    SPEEDATE_INVALID_CHAR_DATE_TIME_SEP = 3,
    /* Year, month and day are not separated by `-`. */
    SPEEDATE_INVALID_CHAR_DATE_SEP = 4,
    /* A timestamp that is parsed as a date is not a midnight. */
    SPEEDATE_DATE_NOT_EXACT = 5,
    /* The year is not four digits. */
    SPEEDATE_INVALID_CHAR_YEAR = 6,
    /* The month is not two digits. */
    SPEEDATE_INVALID_CHAR_MONTH = 7,
    /* The day is not two digits. */
    SPEEDATE_INVALID_CHAR_DAY = 8,
    /* Hour and minute are not separated by `:`, or, if strict, the second is missing. */
    SPEEDATE_INVALID_CHAR_TIME_SEP = 9,
    /* The hour is not two digits, or, in the clock of a duration, no `:` follows the hours or they are not digits. */
    SPEEDATE_INVALID_CHAR_HOUR = 10,
    /* The minute is not two digits. */
    SPEEDATE_INVALID_CHAR_MINUTE = 11,
    /* The second is not two digits. */
    SPEEDATE_INVALID_CHAR_SECOND = 12,
    /* No call of this header returns it. */
    SPEEDATE_INVALID_CHAR_SECOND_FRACTION = 13,
    /* What follows a time does not begin an offset, or, if strict, the decimal mark is a comma or the sign of the
     * offset is U+2212. */
    SPEEDATE_INVALID_CHAR_TZ_SIGN = 14,
    /* The hour of an offset is not two digits. */
    SPEEDATE_INVALID_CHAR_TZ_HOUR = 15,
    /* The minute of an offset is not two digits, or, if strict, no `:` comes before it. */
    SPEEDATE_INVALID_CHAR_TZ_MINUTE = 16,
    /* The minute of an offset is over 59. */
    SPEEDATE_OUT_OF_RANGE_TZ_MINUTE = 17,
    /* An offset is 24 hours or more. */
    SPEEDATE_OUT_OF_RANGE_TZ = 18,
    /* A value without an offset cannot be moved to another offset, or, if strict or in a column, the text lacks an
     * offset. */
    SPEEDATE_TZ_REQUIRED = 19,
    /* No call of this header returns it. In the library it means that a clock shows a time before 1970. */
    SPEEDATE_SYSTEM_TIME_ERROR = 20,
    /* The month is not 1 to 12. */
    SPEEDATE_OUT_OF_RANGE_MONTH = 21,
    /* The month does not have this day. */
    SPEEDATE_OUT_OF_RANGE_DAY = 22,
    /* The hour is over 23. */
    SPEEDATE_OUT_OF_RANGE_HOUR = 23,
    /* The minute is over 59. */
    SPEEDATE_OUT_OF_RANGE_MINUTE = 24,
    /* The second is over 59. */
    SPEEDATE_OUT_OF_RANGE_SECOND = 25,
    /* A fraction of a second has more than six digits, or more than twelve bytes follow the first `:` in the clock of a
     * duration, which the configuration refuses. */
    SPEEDATE_SECOND_FRACTION_TOO_LONG = 26,
    /* No digit follows the decimal mark after a second. */
    SPEEDATE_SECOND_FRACTION_MISSING = 27,
    /* A fraction of a millisecond has more than three digits, which the configuration refuses. */
    SPEEDATE_MILLISECOND_FRACTION_TOO_LONG = 28,
    /* A number of a duration does not begin with a digit. */
    SPEEDATE_DURATION_INVALID_NUMBER = 29,
    /* A duration has a second `T`. */
    SPEEDATE_DURATION_T_REPEATED = 30,
    /* A component follows one that has a fraction. */
    SPEEDATE_DURATION_INVALID_FRACTION = 31,
    /* A component after `T` lacks a designator of hours, minutes or seconds. */
    SPEEDATE_DURATION_INVALID_TIME_UNIT = 32,
    /* A component before `T` lacks a designator of years, months, weeks or days. */
    SPEEDATE_DURATION_INVALID_DATE_UNIT = 33,
    /* The days of a duration are not followed by a form of `day`. */
    SPEEDATE_DURATION_INVALID_DAYS = 34,
    /* A number or a sum of a duration is over 4,294,967,295; from a _check call, the flag, the second or the
     * microsecond is out of range. */
    SPEEDATE_DURATION_VALUE_TOO_LARGE = 35,
    /* The hours of a clock in a duration are over 2,400,000,000, more than ten bytes come before its first `:`, or,
     * after days, the hours are over 23. */
    SPEEDATE_DURATION_HOUR_VALUE_TOO_LARGE = 36,
    /* A duration has more than 999,999,999 days. */
    SPEEDATE_DURATION_DAYS_TOO_LARGE = 37,
    /* The date of a timestamp, or one that a duration or an offset moves, is before the year 0000. */
    SPEEDATE_DATE_TOO_SMALL = 38,
    /* The date of a timestamp, or one that a duration or an offset moves, is after the year 9999; from a _check call,
     * the year is over 9999. */
    SPEEDATE_DATE_TOO_LARGE = 39,
    /* A time of day falls on another day, or a sum that leads to it is too large; from a _check call, the microsecond
     * is over 999,999. */
    SPEEDATE_TIME_TOO_LARGE = 40,
    /* A component of a duration is out of order or repeated, which the configuration refuses. */
    SPEEDATE_DURATION_UNIT_ORDER = 41,
    /* A timestamp in microseconds has a digit after its point, which the configuration refuses. */
    SPEEDATE_MICROSECOND_FRACTION_TOO_LONG = 42,

    /* The next three are not errors of a text in the library. */

    /* A duration is 2^63 microseconds or more. */
    SPEEDATE_NUMBER_TOO_LARGE = 97,
    /* No call of this header returns it. */
    SPEEDATE_INVALID_INTEGER = 98,
    /* No date from 0000-01-01 to 9999-12-31 is that many days from 1970-01-01. */
    SPEEDATE_NO_SUCH_DATE = 99,

    /* From 101 on: mistakes of the caller. */

    /* A value that was passed is out of range, such as month 13, a flag of 2, or a number that is not a code. */
    SPEEDATE_VALUE_OUT_OF_RANGE = 101,
    /* A field of the configuration or a flag is out of range, or the type does not have the form. */
    SPEEDATE_CONFIG_OUT_OF_RANGE = 102,
    /* The buffer is too small for the text and its zero byte. */
    SPEEDATE_BUFFER_TOO_SMALL = 103
};

/* Calls return int. A switch over a cast to this type is checked by -Wswitch. */
typedef enum SpeedateCode SpeedateCode;

/* The number of the last error of the library. A later minor version may add errors, with the numbers after it. */
#define SPEEDATE_LAST_FAULT 42

/* Whether a code is a fault of a text or of a number: true for SPEEDATE_TOO_SHORT, false for SPEEDATE_OK and for
 * mistakes of the caller. */
#define SPEEDATE_IS_FAULT(code) ((code) >= 1 && (code) <= 99)

/* The name of a code, a constant: "too_short" for 1, "ok" for 0, and "unknown code", never NULL, for a number that is
 * not a code. */
const char *speedate_code_string(int code);

/* The part of a text for which it is refused: the bytes from `start` on that come before `end`. */
typedef struct SpeedatePart {
    size_t start; /* where the part begins, or would begin if it is missing: at most the size of the text */
    size_t end;   /* where it ends: `start` if it is missing */
    int32_t kind; /* what a refused text was read as, as SPEEDATE_KIND_DATE; SPEEDATE_KIND_NONE if accepted */
} SpeedatePart;

/* No part: SpeedatePart part = SPEEDATE_PART_NONE; */
#define SPEEDATE_PART_NONE {0, 0, SPEEDATE_KIND_NONE}

/* What a text was read as, on which it depends what was expected. */
#define SPEEDATE_KIND_NONE 0
#define SPEEDATE_KIND_DATE 1
#define SPEEDATE_KIND_DATE_OR_TIMESTAMP 2
#define SPEEDATE_KIND_TIME 3
#define SPEEDATE_KIND_TIME_STRICT 4
#define SPEEDATE_KIND_DATETIME 5
#define SPEEDATE_KIND_DATETIME_OR_TIMESTAMP 6
#define SPEEDATE_KIND_DATETIME_STRICT 7
#define SPEEDATE_KIND_DURATION 8

/* Room for a text of a code, with its zero byte. */
#define SPEEDATE_CODE_TEXT_SIZE 64

/* Prints what was expected, a phrase for people, by the code that a call returned and the part that it wrote: "month,
 * 01 to 12" for 21. Only the kind of *part matters: for the code of a line in `errors` of a column fill it in, and for
 * a call without a text it is SPEEDATE_PART_NONE. It fails with SPEEDATE_VALUE_OUT_OF_RANGE for 0, a number that is not
 * a code, and one that is not a kind. */
SPEEDATE_NODISCARD int speedate_code_expected(int code, const SpeedatePart *part, char *buffer, size_t size,
                                              size_t *length);

/* ---- Configurations ---- */

/* How texts and timestamps are parsed. A call with NULL uses the default, which has 0 in each field. A field that a
 * call does not use has to be in range too, except timestamp_offset if has_timestamp_offset is 0. The struct gets no
 * further field: what a later minor version adds is a further value of a field, or a bit of one. A library fails
 * with SPEEDATE_CONFIG_OUT_OF_RANGE if it does not know a value, and reads all other values as earlier versions do. */
typedef struct SpeedateConfig {
    /* The offset from UTC, in seconds, that the value of a timestamp gets: less than 24 hours in either direction. For
     * Unix time set has_timestamp_offset to 1 and this to 0. Any other offset is attached and shifts nothing, so the
     * instant is another one. A text that is not a timestamp never gets the offset; assign to time.has_offset and
     * time.offset instead. */
    int32_t timestamp_offset;
    /* 1 if the value of a timestamp gets that offset, 0 if it gets none. */
    uint8_t has_timestamp_offset;
    /* The unit of timestamps, in texts too: SPEEDATE_UNIT_INFER, _SECOND, _MILLISECOND or _MICROSECOND. */
    uint8_t timestamp_unit;
    /* What happens to digits past the microsecond in times, date-times, clocks of durations (00:00:01.5) and decimal
     * timestamps: SPEEDATE_OVERFLOW_ERROR or _TRUNCATE. An ISO 8601 duration is rounded to the nearest microsecond
     * under both. */
    uint8_t overflow_behavior;
    /* The order of the components of an ISO 8601 duration: SPEEDATE_ORDER_LAX or _STRICT. */
    uint8_t iso_order;
} SpeedateConfig;

/* The default, to change it: SpeedateConfig config = SPEEDATE_CONFIG_DEFAULT; */
#define SPEEDATE_CONFIG_DEFAULT {0, 0, 0, 0, 0}

/* Seconds if the timestamp without its sign is at most 20,000,000,000, otherwise milliseconds. */
#define SPEEDATE_UNIT_INFER 0
#define SPEEDATE_UNIT_SECOND 1
#define SPEEDATE_UNIT_MILLISECOND 2
#define SPEEDATE_UNIT_MICROSECOND 3

/* The text is refused. */
#define SPEEDATE_OVERFLOW_ERROR 0
/* The digits are dropped, and a timestamp is rounded to the nearest microsecond. */
#define SPEEDATE_OVERFLOW_TRUNCATE 1

/* Components may come in any order on their side of the T, and more than once. */
#define SPEEDATE_ORDER_LAX 0
/* Each component may come once, in this order: years, months, weeks, days, and after the T hours, minutes, seconds. */
#define SPEEDATE_ORDER_STRICT 1

/* ---- Values ---- */

/* No struct of a value has padding, and a call writes 0 into a field without a meaning. So two values that calls have
 * written are equal if and only if memcmp finds their bytes equal. A struct that you fill in may differ: an offset
 * without its flag is ignored. */

/* A day of the Gregorian calendar, which is carried back to the year 0. */
typedef struct SpeedateDate {
    uint16_t year; /* 0 to 9999 */
    uint8_t month; /* 1 to 12 */
    uint8_t day;   /* 1 to the length of the month */
} SpeedateDate;

/* A time of day, with an offset from UTC or without one. */
typedef struct SpeedateTime {
    uint8_t hour;         /* 0 to 23 */
    uint8_t minute;       /* 0 to 59 */
    uint8_t second;       /* 0 to 59 */
    uint8_t has_offset;   /* 1 if there is an offset, otherwise 0 */
    uint32_t microsecond; /* 0 to 999,999 */
    int32_t offset;       /* in seconds, positive east of UTC: -86,399 to 86,399; ignored without the flag */
} SpeedateTime;

/* A date and a time of day, as a clock at the offset shows them. */
typedef struct SpeedateDateTime {
    SpeedateDate date;
    SpeedateTime time;
} SpeedateDateTime;

/* A length of time. Zero may be negative too. */
typedef struct SpeedateDuration {
    uint32_t negative;    /* 1 if it is negative, otherwise 0 */
    uint32_t day;         /* 0 to 999,999,999, each of 86,400 seconds */
    uint32_t second;      /* 0 to 86,399 */
    uint32_t microsecond; /* 0 to 999,999 */
} SpeedateDuration;

/* Room for each text with its zero byte: 2020-02-29, 12:13:14.500000+01:30, 2020-02-29T12:13:14.500000+01:30,
 * -P2739725Y364DT23H59M59.999999S. */
#define SPEEDATE_DATE_TEXT_SIZE 11
#define SPEEDATE_TIME_TEXT_SIZE 22
#define SPEEDATE_DATETIME_TEXT_SIZE 33
#define SPEEDATE_DURATION_TEXT_SIZE 32

/* ---- Parsers ---- */

/* The form: how a parser reads a text. A form that a type lacks fails with SPEEDATE_CONFIG_OUT_OF_RANGE. */

/* The whole text is a value, and no number is a timestamp. All types have it. */
#define SPEEDATE_TEXT 0
/* The same, or a timestamp in the unit of the configuration: "1582934400", and for
 * date-times "1582978394.5". Every whole number is one, "20200229" too. For dates, where it has to be a midnight, and
 * date-times, to which it gives the offset of the configuration. */
#define SPEEDATE_OR_TIMESTAMP 1
/* RFC 3339 and nothing else. It also refuses a second 60. For dates, where it is the same as SPEEDATE_TEXT, times and
 * date-times. */
#define SPEEDATE_STRICT 2
/* The same as SPEEDATE_TEXT, but the offset may also be a zone as programs print it: "+01", or after one space "UTC",
 * "GMT", "+01:00" or "+0100", as in "2026-11-01 08:00:00 -0500". For date-times. */
#define SPEEDATE_LOOSE 3
/* The text begins with a value, and part->end says where that ends. What follows is up to you: "2026-11-01 08:00:00
 * -0500" is read without an offset, and ends at 19. It is never a timestamp. For dates, times and date-times. */
#define SPEEDATE_FRONT 4
/* The text begins with a date-time as SPEEDATE_LOOSE reads it, and part->end says where that ends: a line of a log. A
 * letter or a digit after the date-time is refused, and so is a digit after a `.`, `:`, `+` or `-` there. For
 * date-times. */
#define SPEEDATE_LOOSE_FRONT 5

/* Each parser writes the value to *out, and to *part, which may be NULL:
 *
 * - if the text is refused, the part for which it is, which a form underlines: bytes 5 to 7 of "2020-13-01";
 * - if it is accepted, 0 and the size of the value, which with SPEEDATE_FRONT and SPEEDATE_LOOSE_FRONT is where it ends;
 * - for SPEEDATE_CONFIG_OUT_OF_RANGE SPEEDATE_PART_NONE.
 *
 *     SpeedateDate date;
 *     int code = speedate_date_parse("2020-02-29", 10, SPEEDATE_TEXT, NULL, &date, NULL);
 */

/* Parses a date: "2020-02-29". */
SPEEDATE_NODISCARD int speedate_date_parse(const char *text, size_t size, int form, const SpeedateConfig *config,
                                           SpeedateDate *out, SpeedatePart *part);

/* Parses a time: "12:13:14.5+01:00". */
SPEEDATE_NODISCARD int speedate_time_parse(const char *text, size_t size, int form, const SpeedateConfig *config,
                                           SpeedateTime *out, SpeedatePart *part);

/* Parses a date-time: "2020-02-29T12:13:14.5+01:00". For texts with nanoseconds set SPEEDATE_OVERFLOW_TRUNCATE. */
SPEEDATE_NODISCARD int speedate_datetime_parse(const char *text, size_t size, int form, const SpeedateConfig *config,
                                               SpeedateDateTime *out, SpeedatePart *part);

/* Parses a duration: "P1Y2DT3H4M5.5S" (ISO 8601), "-00:01:30.5" (a clock) or "2 days, 10:20" (days and a clock). A year
 * is 365 days and a month 30; no call adds calendar months. */
SPEEDATE_NODISCARD int speedate_duration_parse(const char *text, size_t size, int form, const SpeedateConfig *config,
                                               SpeedateDuration *out, SpeedatePart *part);

/* ---- Values that you fill in ---- */

/* SPEEDATE_OK if the numbers are a date; otherwise the first of SPEEDATE_DATE_TOO_LARGE, SPEEDATE_OUT_OF_RANGE_MONTH
 * and SPEEDATE_OUT_OF_RANGE_DAY that applies. */
SPEEDATE_NODISCARD int speedate_date_check(SpeedateDate date);

/* SPEEDATE_OK if the numbers are a time; otherwise the first of SPEEDATE_OUT_OF_RANGE_HOUR,
 * SPEEDATE_OUT_OF_RANGE_MINUTE, SPEEDATE_OUT_OF_RANGE_SECOND, SPEEDATE_TIME_TOO_LARGE (the microsecond) and
 * SPEEDATE_OUT_OF_RANGE_TZ (the offset or its flag) that applies. */
SPEEDATE_NODISCARD int speedate_time_check(SpeedateTime time);

/* SPEEDATE_OK if the numbers are a date-time; otherwise the code for the date, or, if the date is in range, for the
 * time. */
SPEEDATE_NODISCARD int speedate_datetime_check(SpeedateDateTime value);

/* SPEEDATE_OK if the numbers are a duration. Otherwise the first field that is out of range decides:
 * SPEEDATE_DURATION_DAYS_TOO_LARGE for the days, SPEEDATE_DURATION_VALUE_TOO_LARGE for any other. */
SPEEDATE_NODISCARD int speedate_duration_check(SpeedateDuration duration);

/* ---- Printing ---- */

/* Prints a date: "2020-02-29". The text parses as the date. */
SPEEDATE_NODISCARD int speedate_date_to_text(SpeedateDate date, char *buffer, size_t size, size_t *length);

/* How many digits after the second are printed, rounded down: 0, 3, 6, or this, for six, and none if they are 0. Any
 * other number fails with SPEEDATE_VALUE_OUT_OF_RANGE. */
#define SPEEDATE_DIGITS_AUTO (-1)

/* Prints a time: "12:13:14.500000+01:30", "12:13:14Z". With SPEEDATE_DIGITS_AUTO the text parses as the time if the
 * offset is absent or whole minutes; the seconds of any other offset are not printed. */
SPEEDATE_NODISCARD int speedate_time_to_text(SpeedateTime time, int digits, char *buffer, size_t size, size_t *length);

/* Prints a date-time: "2020-02-29T12:13:14.500000+01:30". What is said of times holds here too. */
SPEEDATE_NODISCARD int speedate_datetime_to_text(SpeedateDateTime value, int digits, char *buffer, size_t size,
                                                 size_t *length);

/* Prints a duration: "PT1H30M". The text parses as the duration. */
SPEEDATE_NODISCARD int speedate_duration_to_text(SpeedateDuration duration, char *buffer, size_t size, size_t *length);

/* ---- Dates and days ---- */

/* The days from 1970-01-01 to a date, as columns count: 1 for 1970-01-02, -1 for 1969-12-31. Dates have the order of
 * their days, days between two dates are the difference, and so on. */
SPEEDATE_NODISCARD int speedate_date_days(SpeedateDate date, int32_t *out);

/* The date that many days from 1970-01-01. It fails with SPEEDATE_NO_SUCH_DATE outside the years 0000 to 9999. */
SPEEDATE_NODISCARD int speedate_date_from_days(int32_t days, SpeedateDate *out);

/* ---- Date-times ---- */

/* Unix time: the microseconds since 1970-01-01T00:00:00 in UTC, by which date-times are sorted. A date-time without an
 * offset is taken to be in UTC. */
SPEEDATE_NODISCARD int speedate_datetime_unix_microseconds(SpeedateDateTime value, int64_t *out);

/* The date-time in UTC of such a number: 1970-01-01T00:00:01.500000Z for 1500000. It fails with
 * SPEEDATE_DATE_TOO_SMALL before the year 0000, and SPEEDATE_DATE_TOO_LARGE after the year 9999. */
SPEEDATE_NODISCARD int speedate_datetime_from_unix_microseconds(int64_t microseconds, SpeedateDateTime *out);

/* The date-time `microsecond` microseconds after a timestamp in the unit of the configuration, with the offset of
 * the configuration: 1970-01-01T00:00:01.000002 for 1 second and 2 microseconds. With the default configuration the
 * timestamp 1500000 is in seconds, and the date-time has no offset. It fails with SPEEDATE_TIME_TOO_LARGE if
 * `microsecond` and the microseconds of the timestamp beyond its seconds are together over 4,294,967,295, or the
 * second does not fit 64 bits, SPEEDATE_DATE_TOO_SMALL before the year 0000, and SPEEDATE_DATE_TOO_LARGE after the
 * year 9999. */
SPEEDATE_NODISCARD int speedate_datetime_from_timestamp(int64_t timestamp, uint32_t microsecond,
                                                        const SpeedateConfig *config, SpeedateDateTime *out);

/* The date-time at the same instant, as a clock at another offset, in seconds, shows it. It fails with
 * SPEEDATE_OUT_OF_RANGE_TZ if the offset is 24 hours or more, SPEEDATE_TZ_REQUIRED if the date-time has none, and
 * SPEEDATE_DATE_TOO_SMALL or SPEEDATE_DATE_TOO_LARGE if that clock shows a date outside the years 0000 to 9999. */
SPEEDATE_NODISCARD int speedate_datetime_in_timezone(SpeedateDateTime value, int32_t offset, SpeedateDateTime *out);

/* The date-time a duration later, or earlier if the duration is negative; the offset stays. It fails with
 * SPEEDATE_DATE_TOO_SMALL or SPEEDATE_DATE_TOO_LARGE if the date is outside the years 0000 to 9999. */
SPEEDATE_NODISCARD int speedate_datetime_add(SpeedateDateTime value, SpeedateDuration duration, SpeedateDateTime *out);

/* ---- Durations ---- */

/* The duration from one date-time to another, by their instants. A date-time without an offset is taken to be in UTC.
 * The duration is negative if `later` is the earlier one. */
SPEEDATE_NODISCARD int speedate_duration_between(SpeedateDateTime earlier, SpeedateDateTime later,
                                                 SpeedateDuration *out);

/* Brings days, seconds and microseconds of any size into their ranges: 2 days, 101 seconds and 123 microseconds for 1,
 * 86,500 and 1,000,123. It fails with SPEEDATE_VALUE_OUT_OF_RANGE only if `negative` is over 1, with
 * SPEEDATE_DURATION_VALUE_TOO_LARGE if a sum is over 4,294,967,295, and SPEEDATE_DURATION_DAYS_TOO_LARGE if the days
 * are over 999,999,999. */
SPEEDATE_NODISCARD int speedate_duration_normalize(SpeedateDuration numbers, SpeedateDuration *out);

/* All microseconds of a duration, with its sign: -1500000 for -PT1.5S. It fails with SPEEDATE_NUMBER_TOO_LARGE if they
 * are 2^63 or more without the sign, which is over 106,751,991 days. */
SPEEDATE_NODISCARD int speedate_duration_microseconds(SpeedateDuration duration, int64_t *out);

/* The duration of a number of microseconds with a sign: -PT1.5S for -1500000. Each number of 64 bits is one. */
SPEEDATE_NODISCARD int speedate_duration_from_microseconds(int64_t microseconds, SpeedateDuration *out);

/* The sum of `count` durations, each with its sign: PT1H30M of PT2H and -PT30M, and PT0S of none. It is exact, and its
 * zero is positive. It fails with SPEEDATE_DURATION_DAYS_TOO_LARGE if the sum has more than 999,999,999 days. */
SPEEDATE_NODISCARD int speedate_duration_sum(const SpeedateDuration *durations, size_t count, SpeedateDuration *out);

/* ---- Columns ---- */

/* A column is the numbers of texts: microseconds since 1970-01-01T00:00:00 in UTC for date-times, days since 1970-01-01
 * for dates, microseconds after midnight, whatever the offset, for times, and microseconds with a sign for durations.
 *
 * The texts are the lines of one text, if `offsets` is NULL. A line is ended by a line feed, or, with
 * SPEEDATE_AT_END, by the end of the text. An empty line is a line. "Columns" in GRAMMAR.md has the rules.
 *
 * Otherwise they are parts of it, as in a string array of Arrow: the text i begins at offsets[i] and ends at
 * offsets[i + 1], so there are `room` texts and room + 1 offsets. A text needs no line feed, and a line feed is part of
 * it. An offset that is negative, less than the one before it, or over `size` fails with SPEEDATE_VALUE_OUT_OF_RANGE.
 */

/* Flags of columns; 0 is none. A flag that a call does not know fails with SPEEDATE_CONFIG_OUT_OF_RANGE. */

/* The end of the text ends its last line. Without it more text may follow: the bytes after the last line feed are left
 * for a further call, so that half a line is never read as a whole one. */
#define SPEEDATE_AT_END 0x01
/* A carriage return at the end of a line is dropped, as files of Windows have one. Otherwise the line is refused. */
#define SPEEDATE_DROP_RETURNS 0x02
/* A date-time without an offset is taken to be in UTC. Otherwise it is refused, with SPEEDATE_TZ_REQUIRED. */
#define SPEEDATE_ASSUME_UTC 0x04
/* A text that is refused gets the smallest number, INT64_MIN or INT32_MIN, and the column goes on. Otherwise it ends
 * the column. No other text has this number, and INT64_MIN is NaT in NumPy. */
#define SPEEDATE_GO_ON 0x08
/* Date-times are read and printed as their clocks show them: microseconds since 1970-01-01T00:00:00 on the same clock,
 * whatever the offset. Only for lines of speedate_datetime_column, and speedate_datetime_print_column. */
#define SPEEDATE_CLOCK 0x10

/* How far a column has come that is read, or printed. */
typedef struct SpeedateProgress {
    size_t lines;  /* how many texts have a number in the column */
    size_t bytes;  /* where the next line begins; of texts at offsets, the offset at which the last of them ends */
    int32_t error; /* the code of the next text, if it is refused and ends the column; otherwise SPEEDATE_OK */
    SpeedatePart part; /* the part of that text, from its beginning on; otherwise SPEEDATE_PART_NONE */
} SpeedateProgress;

/* Each call below reads texts in order, at most `room`, writes the number of each to its place in `out`, and writes to
 * *progress how far it came. Places without a text stay as they are. A text that is refused does not make a call fail.
 * If progress->error is SPEEDATE_OK and there is room left, the bytes after progress->bytes have no whole line.
 *
 * If a text ends the column, progress->part is the part that the error is about, as a parser writes it. A missing
 * offset is missing at the end of the value. A duration that is too large is the whole text.
 *
 * `errors` is NULL, or has `room` places too. Then the code of each text goes to its place there, 0 if it is accepted,
 * and the column goes on as with SPEEDATE_GO_ON.
 *
 * `form` is SPEEDATE_TEXT, _OR_TIMESTAMP, _STRICT or _LOOSE, where a parser of the type has it. */

/* 1 and -1 from "1970-01-02\n1969-12-31\n". */
SPEEDATE_NODISCARD int speedate_date_column(const char *text, size_t size, const int32_t *offsets, int form,
                                            const SpeedateConfig *config, unsigned flags, int32_t *out,
                                            uint8_t *errors, size_t room, SpeedateProgress *progress);

/* 43994500000 and 0 from "12:13:14.5\n00:00+01:00\n". They are 0 to 86399999999. */
SPEEDATE_NODISCARD int speedate_time_column(const char *text, size_t size, const int32_t *offsets, int form,
                                            const SpeedateConfig *config, unsigned flags, int64_t *out,
                                            uint8_t *errors, size_t room, SpeedateProgress *progress);

/* 1000000 and 0 from "1970-01-01T00:00:01Z\n1970-01-01T01:00+01:00\n". */
SPEEDATE_NODISCARD int speedate_datetime_column(const char *text, size_t size, const int32_t *offsets, int form,
                                                const SpeedateConfig *config, unsigned flags, int64_t *out,
                                                uint8_t *errors, size_t room, SpeedateProgress *progress);

/* 1500000 and -60000000 from "PT1.5S\n-00:01:00\n". A duration of 2^63 microseconds or more, which is over 106,751,991
 * days, is refused with SPEEDATE_NUMBER_TOO_LARGE. */
SPEEDATE_NODISCARD int speedate_duration_column(const char *text, size_t size, const int32_t *offsets, int form,
                                                const SpeedateConfig *config, unsigned flags, int64_t *out,
                                                uint8_t *errors, size_t room, SpeedateProgress *progress);

/* The date-time at the front of a line. */
typedef struct SpeedateDateTimeFront {
    int64_t microseconds; /* since 1970-01-01T00:00:00 in UTC; INT64_MIN if the line is refused */
    size_t size;          /* how many bytes of the line it takes; 0 if the line is refused */
} SpeedateDateTimeFront;

/* The date-times at the front of lines: 1000000 and 20 from "1970-01-01T00:00:01Z GET /\n". With
 * SPEEDATE_TEXT they are read as by SPEEDATE_FRONT, and with SPEEDATE_LOOSE as by SPEEDATE_LOOSE_FRONT. */
SPEEDATE_NODISCARD int speedate_datetime_front_column(const char *text, size_t size, int form,
                                                      const SpeedateConfig *config, unsigned flags,
                                                      SpeedateDateTimeFront *out, uint8_t *errors, size_t room,
                                                      SpeedateProgress *progress);

/* Offsets in seconds: 0 and 3600 from "1970-01-01T00:00:01Z\n1970-01-01T01:00+01:00\n". A date-time without an offset
 * is refused with SPEEDATE_TZ_REQUIRED, whatever the flags. A timestamp has the offset of the configuration. */
SPEEDATE_NODISCARD int speedate_datetime_offset_column(const char *text, size_t size, int form,
                                                       const SpeedateConfig *config, unsigned flags, int32_t *out,
                                                       uint8_t *errors, size_t room, SpeedateProgress *progress);

/* The same of times: 0 and 3600 from "12:13Z\n12:13+01:00\n". */
SPEEDATE_NODISCARD int speedate_time_offset_column(const char *text, size_t size, int form,
                                                   const SpeedateConfig *config, unsigned flags, int32_t *out,
                                                   uint8_t *errors, size_t room, SpeedateProgress *progress);

/* ---- Columns in print ---- */

/* Each call below prints `count` numbers as lines, in order, each with a line feed, as many as there is room for, and
 * writes to *progress how many they are, and how many bytes they take; the bytes after these stay as they are, and no
 * zero byte is written. The smallest number, which a column has of a refused line, is an empty line. A number without a
 * line ends the text, and progress->error is its code; progress->part is none. If progress->error is SPEEDATE_OK and
 * progress->lines is below `count`, the next line does not fit: empty the buffer, and go on with that number. 33 bytes
 * are room for any line. `flags` is 0, or SPEEDATE_CLOCK.
 *
 * The column of the same name reads the lines back as the numbers. */

/* Days as dates: "1970-01-02\n1969-12-31\n" for 1 and -1. A date outside the years 0000 to 9999 has no line:
 * SPEEDATE_DATE_TOO_SMALL or SPEEDATE_DATE_TOO_LARGE. */
SPEEDATE_NODISCARD int speedate_date_print_column(const int32_t *days, size_t count, unsigned flags, char *buffer,
                                                  size_t size, SpeedateProgress *progress);

/* Microseconds after midnight as times: "12:13:14.500000\n" for 43994500000. A number that is not 0 to 86399999999 has
 * no line: SPEEDATE_TIME_TOO_LARGE. */
SPEEDATE_NODISCARD int speedate_time_print_column(const int64_t *microseconds, size_t count, unsigned flags,
                                                  char *buffer, size_t size, SpeedateProgress *progress);

/* Microseconds as date-times: "1970-01-01T00:00:01Z\n" for 1000000, and with SPEEDATE_CLOCK "1970-01-01T00:00:01\n".
 * Errors are those of dates. */
SPEEDATE_NODISCARD int speedate_datetime_print_column(const int64_t *microseconds, size_t count, unsigned flags,
                                                      char *buffer, size_t size, SpeedateProgress *progress);

/* Microseconds as durations: "-PT1.5S\n" for -1500000. Each number has a line. */
SPEEDATE_NODISCARD int speedate_duration_print_column(const int64_t *microseconds, size_t count, unsigned flags,
                                                      char *buffer, size_t size, SpeedateProgress *progress);

#ifdef __cplusplus
}
#endif

#endif
