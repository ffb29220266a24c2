/* SPDX-License-Identifier: MIT
 * Copyright (c) 2022 Samuel Colvin
 * Copyright (c) 2026 the speedate for Rattle authors */
/* The functions of speedate.h that accept NULL, or return an address, which functions of crates/speedate_c cannot: each
 * passes its arguments on to one of them. */
#include "speedate_packages.h"

static SpeedateConfig chosen(const SpeedateConfig *config) {
    const SpeedateConfig standard = SPEEDATE_CONFIG_DEFAULT;
    return config ? *config : standard;
}

/* Without a part the parser of the form is faster, if there is one. The calls are the last step of each way, so that none
 * needs a frame. */
#define PARSE(NAME, TYPE, ALONE)                                                                                       \
    static int NAME##_alone(const char *text, size_t size, int form, SpeedateConfig config, TYPE *out) {               \
        SpeedatePart part;                                                                                             \
        return speedate_##NAME##_parse_or_part(text, size, form, config, out, &part);                                  \
    }                                                                                                                  \
    int speedate_##NAME##_parse(const char *text, size_t size, int form, const SpeedateConfig *config, TYPE *out,      \
                                SpeedatePart *part) {                                                                  \
        if (part)                                                                                                      \
            return speedate_##NAME##_parse_or_part(text, size, form, chosen(config), out, part);                       \
        switch (form) { ALONE }                                                                                        \
        return NAME##_alone(text, size, form, chosen(config), out);                                                    \
    }
#define BY(FORM, PARSER)                                                                                               \
    case FORM:                                                                                                         \
        return PARSER(text, size, chosen(config), out);

/* The parser of dates in texts has no configuration, which may be out of range. */
PARSE(date, SpeedateDate,
      case SPEEDATE_TEXT:
      case SPEEDATE_STRICT:
          if (!config)
              return speedate_date_parse_text(text, size, out);
          break;
      BY(SPEEDATE_OR_TIMESTAMP, speedate_date_parse_or_timestamp))
PARSE(time, SpeedateTime, BY(SPEEDATE_TEXT, speedate_time_parse_text) BY(SPEEDATE_STRICT, speedate_time_parse_strict))
PARSE(datetime, SpeedateDateTime,
      BY(SPEEDATE_TEXT, speedate_datetime_parse_text) BY(SPEEDATE_OR_TIMESTAMP, speedate_datetime_parse_or_timestamp)
      BY(SPEEDATE_STRICT, speedate_datetime_parse_strict))
PARSE(duration, SpeedateDuration, BY(SPEEDATE_TEXT, speedate_duration_parse_text))

int speedate_datetime_from_timestamp(int64_t timestamp, uint32_t microsecond, const SpeedateConfig *config,
                                     SpeedateDateTime *out) {
    return speedate_datetime_of_timestamp(timestamp, microsecond, chosen(config), out);
}

/* The form and the flags of a column. Those that it does not have become values that are out of range. */
static SpeedateColumnConfig column_of(int form, unsigned flags) {
    const unsigned known = SPEEDATE_AT_END | SPEEDATE_DROP_RETURNS | SPEEDATE_ASSUME_UTC | SPEEDATE_GO_ON;
    SpeedateColumnConfig column;
    column.at_end = (flags & SPEEDATE_AT_END) != 0;
    column.drops_returns = (flags & SPEEDATE_DROP_RETURNS) != 0;
    column.parser = form < 0 || form > UINT8_MAX ? UINT8_MAX : (uint8_t)form;
    column.assumes_utc = (flags & SPEEDATE_ASSUME_UTC) != 0;
    column.goes_on = flags & ~known ? UINT8_MAX : (flags & SPEEDATE_GO_ON) != 0;
    return column;
}

/* What follows the column in a call: without `errors` there is no room for them. */
#define OUTPUTS out, room, errors, errors ? room : 0, progress
#define COLUMN(NAME, NUMBER, FORM, CLOCK)                                                                              \
    int speedate_##NAME##_column(const char *text, size_t size, const int32_t *offsets, int form,                      \
                                 const SpeedateConfig *config, unsigned flags, NUMBER *out, uint8_t *errors,           \
                                 size_t room, SpeedateProgress *progress) {                                            \
        if (offsets)                                                                                                   \
            return speedate_##NAME##_texts(text, size, offsets, room + 1, chosen(config), column_of(FORM, flags),      \
                                           OUTPUTS);                                                                   \
        CLOCK                                                                                                          \
        return speedate_##NAME##_lines(text, size, chosen(config), column_of(FORM, flags), OUTPUTS);                   \
    }
#define READ_CLOCKS                                                                                                    \
    if (flags & SPEEDATE_CLOCK)                                                                                        \
        return speedate_datetime_clock_column(text, size, chosen(config), column_of(form, flags & ~SPEEDATE_CLOCK),    \
                                              OUTPUTS);

COLUMN(date, int32_t, form, )
COLUMN(time, int64_t, form, )
COLUMN(datetime, int64_t, form, READ_CLOCKS)
COLUMN(duration, int64_t, form == SPEEDATE_TEXT ? SPEEDATE_TEXT : -1, )

#define OFFSET_COLUMN(NAME)                                                                                            \
    int speedate_##NAME##_offset_column(const char *text, size_t size, int form, const SpeedateConfig *config,         \
                                        unsigned flags, int32_t *out, uint8_t *errors, size_t room,                    \
                                        SpeedateProgress *progress) {                                                  \
        return speedate_##NAME##_offset_lines(text, size, chosen(config), column_of(form, flags), OUTPUTS);            \
    }
OFFSET_COLUMN(time)
OFFSET_COLUMN(datetime)

int speedate_datetime_front_column(const char *text, size_t size, int form, const SpeedateConfig *config,
                                   unsigned flags, SpeedateDateTimeFront *out, uint8_t *errors, size_t room,
                                   SpeedateProgress *progress) {
    return speedate_datetime_front_lines(text, size, chosen(config), column_of(form, flags), OUTPUTS);
}

const char *speedate_code_string(int code) {
    static const char *const faults[SPEEDATE_LAST_FAULT + 1] = {
        "ok", "too_short", "extra_characters", "invalid_char_date_time_sep", "invalid_char_date_sep", "date_not_exact",
        "invalid_char_year", "invalid_char_month", "invalid_char_day", "invalid_char_time_sep", "invalid_char_hour",
        "invalid_char_minute", "invalid_char_second", "invalid_char_second_fraction", "invalid_char_tz_sign",
        "invalid_char_tz_hour", "invalid_char_tz_minute", "out_of_range_tz_minute", "out_of_range_tz", "tz_required",
        "system_time_error", "out_of_range_month", "out_of_range_day", "out_of_range_hour", "out_of_range_minute",
        "out_of_range_second", "second_fraction_too_long", "second_fraction_missing", "millisecond_fraction_too_long",
        "duration_invalid_number", "duration_t_repeated", "duration_invalid_fraction", "duration_invalid_time_unit",
        "duration_invalid_date_unit", "duration_invalid_days", "duration_value_too_large",
        "duration_hour_value_too_large", "duration_days_too_large", "date_too_small", "date_too_large",
        "time_too_large", "duration_unit_order", "microsecond_fraction_too_long"};
    static const char *const others[] = {"number_too_large", "invalid_integer", "no_such_date"};
    static const char *const mistakes[] = {"value_out_of_range", "config_out_of_range", "buffer_too_small"};
    if (code >= SPEEDATE_OK && code <= SPEEDATE_LAST_FAULT)
        return faults[code];
    if (code >= SPEEDATE_NUMBER_TOO_LARGE && code <= SPEEDATE_NO_SUCH_DATE)
        return others[code - SPEEDATE_NUMBER_TOO_LARGE];
    if (code >= SPEEDATE_VALUE_OUT_OF_RANGE && code <= SPEEDATE_BUFFER_TOO_SMALL)
        return mistakes[code - SPEEDATE_VALUE_OUT_OF_RANGE];
    return "unknown code";
}
