/* SPDX-License-Identifier: MIT
 * Copyright (c) 2022 Samuel Colvin
 * Copyright (c) 2026 the speedate for Rattle authors */
/* speedate_packages.h: the functions of the static library that the packages of this repository call beside those of
 * speedate.h, and c/speedate.c for it. Any of them can change or go in any version: it is not installed, and the shared
 * library does not export them. crates/speedate_c says what each does, and proves it. */
#ifndef SPEEDATE_PACKAGES_H
#define SPEEDATE_PACKAGES_H

#include "speedate.h"

#ifdef __cplusplus
extern "C" {
#endif

/* How a column is read: the flags, each 0 or 1, and the form, which is 0 for types with one. */
typedef struct SpeedateColumnConfig {
    uint8_t at_end;
    uint8_t drops_returns;
    uint8_t parser;
    uint8_t assumes_utc;
    uint8_t goes_on;
} SpeedateColumnConfig;

SPEEDATE_NODISCARD int speedate_code_name(int code, char *buffer, size_t size, size_t *length);
SPEEDATE_NODISCARD int speedate_code_documentation(int code, char *buffer, size_t size, size_t *length);
SPEEDATE_NODISCARD int speedate_code_part_end(int code, const char *text, size_t size, size_t place, size_t *end);
SPEEDATE_NODISCARD int speedate_int_parse(const char *text, size_t size, int64_t *out);

/* Parsers without a part. */
SPEEDATE_NODISCARD int speedate_date_parse_text(const char *text, size_t size, SpeedateDate *out);
SPEEDATE_NODISCARD int speedate_date_parse_or_timestamp(const char *text, size_t size, SpeedateConfig config,
                                                        SpeedateDate *out);
SPEEDATE_NODISCARD int speedate_time_parse_text(const char *text, size_t size, SpeedateConfig config,
                                                SpeedateTime *out);
SPEEDATE_NODISCARD int speedate_time_parse_strict(const char *text, size_t size, SpeedateConfig config,
                                                  SpeedateTime *out);
SPEEDATE_NODISCARD int speedate_datetime_parse_text(const char *text, size_t size, SpeedateConfig config,
                                                    SpeedateDateTime *out);
SPEEDATE_NODISCARD int speedate_datetime_parse_or_timestamp(const char *text, size_t size, SpeedateConfig config,
                                                            SpeedateDateTime *out);
SPEEDATE_NODISCARD int speedate_datetime_parse_strict(const char *text, size_t size, SpeedateConfig config,
                                                      SpeedateDateTime *out);
SPEEDATE_NODISCARD int speedate_duration_parse_text(const char *text, size_t size, SpeedateConfig config,
                                                    SpeedateDuration *out);

/* Parsers with one, in a form. */
SPEEDATE_NODISCARD int speedate_date_parse_or_part(const char *text, size_t size, int form, SpeedateConfig config,
                                                   SpeedateDate *out, SpeedatePart *part);
SPEEDATE_NODISCARD int speedate_time_parse_or_part(const char *text, size_t size, int form, SpeedateConfig config,
                                                   SpeedateTime *out, SpeedatePart *part);
SPEEDATE_NODISCARD int speedate_datetime_parse_or_part(const char *text, size_t size, int form, SpeedateConfig config,
                                                       SpeedateDateTime *out, SpeedatePart *part);
SPEEDATE_NODISCARD int speedate_duration_parse_or_part(const char *text, size_t size, int form, SpeedateConfig config,
                                                       SpeedateDuration *out, SpeedatePart *part);

SPEEDATE_NODISCARD int speedate_date_compare(SpeedateDate first, SpeedateDate second, int32_t *out);
SPEEDATE_NODISCARD int speedate_date_from_timestamp(int64_t timestamp, uint8_t require_exact, SpeedateConfig config,
                                                    SpeedateDate *out);
SPEEDATE_NODISCARD int speedate_date_timestamp(SpeedateDate date, int64_t *out);
SPEEDATE_NODISCARD int speedate_date_timestamp_ms(SpeedateDate date, int64_t *out);
SPEEDATE_NODISCARD int speedate_date_ordinal_day(SpeedateDate date, uint16_t *out);
SPEEDATE_NODISCARD int speedate_date_add_days(SpeedateDate date, int32_t days, SpeedateDate *out);
SPEEDATE_NODISCARD int speedate_date_days_between(SpeedateDate earlier, SpeedateDate later, int32_t *out);

SPEEDATE_NODISCARD int speedate_time_compare(SpeedateTime first, SpeedateTime second, int32_t *out);
SPEEDATE_NODISCARD int speedate_time_from_timestamp(uint32_t second, uint32_t microsecond, SpeedateConfig config,
                                                    SpeedateTime *out);
SPEEDATE_NODISCARD int speedate_time_total_seconds(SpeedateTime time, uint32_t *out);
SPEEDATE_NODISCARD int speedate_time_total_ms(SpeedateTime time, uint32_t *out);
SPEEDATE_NODISCARD int speedate_time_in_timezone(SpeedateTime time, int32_t offset, SpeedateTime *out);

SPEEDATE_NODISCARD int speedate_datetime_compare(SpeedateDateTime first, SpeedateDateTime second, int32_t *out);
SPEEDATE_NODISCARD int speedate_datetime_of_timestamp(int64_t timestamp, uint32_t microsecond, SpeedateConfig config,
                                                      SpeedateDateTime *out);
SPEEDATE_NODISCARD int speedate_datetime_timestamp_microseconds(int64_t timestamp, SpeedateConfig config, int64_t *out);
SPEEDATE_NODISCARD int speedate_datetime_unix_seconds(SpeedateDateTime value, int64_t *out);
SPEEDATE_NODISCARD int speedate_datetime_unix_milliseconds(SpeedateDateTime value, int64_t *out);
SPEEDATE_NODISCARD int speedate_datetime_clock_seconds(SpeedateDateTime value, int64_t *out);
SPEEDATE_NODISCARD int speedate_datetime_clock_milliseconds(SpeedateDateTime value, int64_t *out);

SPEEDATE_NODISCARD int speedate_duration_compare(SpeedateDuration first, SpeedateDuration second, int32_t *out);
SPEEDATE_NODISCARD int speedate_duration_signed_total_seconds(SpeedateDuration duration, int64_t *out);
SPEEDATE_NODISCARD int speedate_duration_signed_total_ms(SpeedateDuration duration, int64_t *out);
SPEEDATE_NODISCARD int speedate_duration_signed_microseconds(SpeedateDuration duration, int32_t *out);
SPEEDATE_NODISCARD int speedate_duration_negate(SpeedateDuration duration, SpeedateDuration *out);
SPEEDATE_NODISCARD int speedate_duration_before(SpeedateDuration duration, SpeedateDateTime start,
                                                SpeedateDateTime *out);
SPEEDATE_NODISCARD int speedate_duration_between_dates(SpeedateDate earlier, SpeedateDate later, SpeedateDuration *out);
SPEEDATE_NODISCARD int speedate_duration_after_date(SpeedateDuration duration, SpeedateDate start, SpeedateDate *out);
SPEEDATE_NODISCARD int speedate_duration_before_date(SpeedateDuration duration, SpeedateDate start, SpeedateDate *out);

/* Columns of lines, and of texts at `count` offsets. `errors` may be NULL, with an error_room of 0. */
SPEEDATE_NODISCARD int speedate_date_lines(const char *text, size_t size, SpeedateConfig config,
                                           SpeedateColumnConfig column, int32_t *out, size_t room, uint8_t *errors,
                                           size_t error_room, SpeedateProgress *progress);
SPEEDATE_NODISCARD int speedate_date_texts(const char *bytes, size_t size, const int32_t *offsets, size_t count,
                                           SpeedateConfig config, SpeedateColumnConfig column, int32_t *out,
                                           size_t room, uint8_t *errors, size_t error_room, SpeedateProgress *progress);
SPEEDATE_NODISCARD int speedate_time_lines(const char *text, size_t size, SpeedateConfig config,
                                           SpeedateColumnConfig column, int64_t *out, size_t room, uint8_t *errors,
                                           size_t error_room, SpeedateProgress *progress);
SPEEDATE_NODISCARD int speedate_time_texts(const char *bytes, size_t size, const int32_t *offsets, size_t count,
                                           SpeedateConfig config, SpeedateColumnConfig column, int64_t *out,
                                           size_t room, uint8_t *errors, size_t error_room, SpeedateProgress *progress);
SPEEDATE_NODISCARD int speedate_datetime_lines(const char *text, size_t size, SpeedateConfig config,
                                               SpeedateColumnConfig column, int64_t *out, size_t room, uint8_t *errors,
                                               size_t error_room, SpeedateProgress *progress);
SPEEDATE_NODISCARD int speedate_datetime_texts(const char *bytes, size_t size, const int32_t *offsets, size_t count,
                                               SpeedateConfig config, SpeedateColumnConfig column, int64_t *out,
                                               size_t room, uint8_t *errors, size_t error_room,
                                               SpeedateProgress *progress);
SPEEDATE_NODISCARD int speedate_duration_lines(const char *text, size_t size, SpeedateConfig config,
                                               SpeedateColumnConfig column, int64_t *out, size_t room, uint8_t *errors,
                                               size_t error_room, SpeedateProgress *progress);
SPEEDATE_NODISCARD int speedate_duration_texts(const char *bytes, size_t size, const int32_t *offsets, size_t count,
                                               SpeedateConfig config, SpeedateColumnConfig column, int64_t *out,
                                               size_t room, uint8_t *errors, size_t error_room,
                                               SpeedateProgress *progress);
SPEEDATE_NODISCARD int speedate_datetime_front_lines(const char *text, size_t size, SpeedateConfig config,
                                                     SpeedateColumnConfig column, SpeedateDateTimeFront *out,
                                                     size_t room, uint8_t *errors, size_t error_room,
                                                     SpeedateProgress *progress);
SPEEDATE_NODISCARD int speedate_datetime_clock_column(const char *text, size_t size, SpeedateConfig config,
                                                      SpeedateColumnConfig column, int64_t *out, size_t room,
                                                      uint8_t *errors, size_t error_room, SpeedateProgress *progress);
SPEEDATE_NODISCARD int speedate_datetime_offset_lines(const char *text, size_t size, SpeedateConfig config,
                                                      SpeedateColumnConfig column, int32_t *out, size_t room,
                                                      uint8_t *errors, size_t error_room, SpeedateProgress *progress);
SPEEDATE_NODISCARD int speedate_time_offset_lines(const char *text, size_t size, SpeedateConfig config,
                                                  SpeedateColumnConfig column, int32_t *out, size_t room,
                                                  uint8_t *errors, size_t error_room, SpeedateProgress *progress);

#ifdef __cplusplus
}
#endif

#endif
