/* SPDX-License-Identifier: MIT
 * Copyright (c) 2022 Samuel Colvin
 * Copyright (c) 2026 the speedate for Rattle authors */
/* speedate.hpp: the calls of speedate.h for C++17 and later, as values, results and chrono.
 *
 * speedate.h says what each call does, and which codes it returns: Date::parse here is speedate_date_parse there, and
 * so on. Here is what C++ adds:
 *
 * - A Date, Time, DateTime or Duration is always in range. `of` makes one of numbers, and refuses those that are not.
 * - A call that can refuse returns a Result, which has a value or an Error. A call that cannot returns its value.
 * - A text is a std::string_view, and what is printed a std::string. Nothing else allocates memory.
 * - No call throws but Result::value, where there are exceptions, and what std::string throws.
 * - Values have std::hash, and std::formatter where the library of C++ has it: std::format("{:>12} {:.3}", date, time).
 *
 * It translates, and computes nothing of dates: link libspeedate as a program in C does.
 */
#ifndef SPEEDATE_HPP
#define SPEEDATE_HPP

#if __cplusplus < 201703L && !(defined(_MSVC_LANG) && _MSVC_LANG >= 201703L)
#error "speedate.hpp needs C++17 or later; speedate.h needs C++98"
#endif

#include "speedate.h"

#include <algorithm>
#include <chrono>
#include <cstddef>
#include <cstdint>
#include <cstdlib>
#include <cstring>
#include <functional>
#include <initializer_list>
#include <iterator>
#include <limits>
#include <optional>
#include <ostream>
#include <ratio>
#include <stdexcept>
#include <string>
#include <string_view>
#include <tuple>
#include <type_traits>
#include <utility>
#if __cplusplus >= 202002L
#include <compare>
#include <version>
#ifdef __cpp_lib_format
#include <format>
#endif
/* Libraries that have the calendar of C++20 say so only once they have its time zones too. */
#if (defined(__cpp_lib_chrono) && __cpp_lib_chrono >= 201907L) ||                                                      \
    (defined(_GLIBCXX_RELEASE) && _GLIBCXX_RELEASE >= 11) || (defined(_LIBCPP_VERSION) && _LIBCPP_VERSION >= 8000)
#define SPEEDATE_HAS_CALENDAR
#endif
#endif

namespace speedate {

/* ---- Errors and results ---- */

/* Why a call refuses: a code of speedate.h other than SPEEDATE_OK, and the part of the text that a parser refuses. */
class Error {
  public:
    /* For a code that a column has written for a line, the part has just the kind: {0, 0, SPEEDATE_KIND_DATE}. */
    explicit Error(int code, SpeedatePart part = SPEEDATE_PART_NONE) noexcept : code_(code), part_(part) {}

    /* A number of SpeedateCode: error.code() == SPEEDATE_OUT_OF_RANGE_DAY. */
    int code() const noexcept { return code_; }

    /* "out_of_range_day". It is "unknown code" for a code that the library does not know. */
    const char *name() const noexcept { return speedate_code_string(code_); }

    /* Where the part of the text begins, and where it ends: 8 and 10 for "2021-02-29". */
    std::size_t start() const noexcept { return part_.start; }
    std::size_t end() const noexcept { return part_.end; }
    const SpeedatePart &part() const noexcept { return part_; }

    /* What was expected there: "a day that the month has". */
    std::string expected() const {
        char text[SPEEDATE_CODE_TEXT_SIZE];
        std::size_t length;
        const int code = speedate_code_expected(code_, &part_, text, sizeof text, &length);
        return code == SPEEDATE_OK ? std::string(text, length) : "unknown code or kind";
    }

    /* Errors are equal if their codes are. */
    friend bool operator==(const Error &first, const Error &second) noexcept { return first.code_ == second.code_; }
    friend bool operator!=(const Error &first, const Error &second) noexcept { return first.code_ != second.code_; }
    friend std::ostream &operator<<(std::ostream &to, const Error &error) { return to << error.name(); }

  private:
    int code_;
    SpeedatePart part_;
};

/* What Result::value throws if there is none. */
class Failure : public std::runtime_error {
  public:
    explicit Failure(const Error &error) : std::runtime_error(error.name()), error_(error) {}
    Error error() const noexcept { return error_; }

  private:
    Error error_;
};

/* A value, or the error for which there is none: if (auto date = Date::parse(text)) use(*date); else log(date.error());
 */
template <class T> class [[nodiscard]] Result {
  public:
    Result(const T &value, std::size_t size = 0) : value_(value), size_(size) {}
    Result(const Error &error) noexcept : error_(error) {}

    bool has_value() const noexcept { return value_.has_value(); }
    explicit operator bool() const noexcept { return has_value(); }

    /* The value. As with a std::optional, call these only if there is one. */
    const T &operator*() const noexcept { return *value_; }
    const T *operator->() const noexcept { return &*value_; }

    /* The value. If there is none it throws a Failure, or, compiled without exceptions, ends the program. */
    const T &value() const {
        if (!value_) {
#ifdef __cpp_exceptions
            throw Failure(error_);
#else
            std::abort();
#endif
        }
        return *value_;
    }

    T value_or(const T &other) const { return value_ ? *value_ : other; }

    /* How many bytes of the text the value takes, if a parser returned it: with Form::Front it ends there. */
    std::size_t size() const noexcept { return size_; }

    /* The error. Call it only if the value is missing. */
    const Error &error() const noexcept { return error_; }

  private:
    std::optional<T> value_;
    std::size_t size_ = 0;
    Error error_{SPEEDATE_OK};
};

/* ---- Configurations ---- */

/* The unit of timestamps: SPEEDATE_UNIT_INFER and so on. */
enum class Unit : std::uint8_t {
    Infer = SPEEDATE_UNIT_INFER,
    Second = SPEEDATE_UNIT_SECOND,
    Millisecond = SPEEDATE_UNIT_MILLISECOND,
    Microsecond = SPEEDATE_UNIT_MICROSECOND
};

/* What happens to digits past the microsecond: SPEEDATE_OVERFLOW_ERROR and so on. */
enum class Overflow : std::uint8_t { Error = SPEEDATE_OVERFLOW_ERROR, Truncate = SPEEDATE_OVERFLOW_TRUNCATE };

/* The order of the components of an ISO 8601 duration: SPEEDATE_ORDER_LAX and so on. */
enum class Order : std::uint8_t { Lax = SPEEDATE_ORDER_LAX, Strict = SPEEDATE_ORDER_STRICT };

/* How a text is read: SPEEDATE_TEXT and so on. A form that a type lacks is SPEEDATE_CONFIG_OUT_OF_RANGE. */
enum class Form {
    Text = SPEEDATE_TEXT,
    OrTimestamp = SPEEDATE_OR_TIMESTAMP,
    Strict = SPEEDATE_STRICT,
    Loose = SPEEDATE_LOOSE,
    Front = SPEEDATE_FRONT,
    LooseFront = SPEEDATE_LOOSE_FRONT
};

/* How many digits of a second to_text prints, rounded down: with Auto six, or none if they are 0. */
enum class FractionDigits { Auto = SPEEDATE_DIGITS_AUTO, Zero = 0, Three = 3, Six = 6 };

/* How texts and timestamps are parsed, as SpeedateConfig says. Config() is the default. */
struct Config {
    std::optional<std::int32_t> timestamp_offset = std::nullopt;
    Unit timestamp_unit = Unit::Infer;
    Overflow overflow = Overflow::Error;
    Order iso_order = Order::Lax;

    SpeedateConfig c() const noexcept {
        SpeedateConfig to = SPEEDATE_CONFIG_DEFAULT;
        to.timestamp_offset = timestamp_offset.value_or(0);
        to.has_timestamp_offset = timestamp_offset.has_value();
        to.timestamp_unit = static_cast<std::uint8_t>(timestamp_unit);
        to.overflow_behavior = static_cast<std::uint8_t>(overflow);
        to.iso_order = static_cast<std::uint8_t>(iso_order);
        return to;
    }
};

/* How a column is read: the form, the configuration, and the flags of speedate.h. ColumnConfig() is the default,
 * which reads the last line too. */
struct ColumnConfig {
    Form form = Form::Text;
    Config config = {};
    bool at_end = true;
    bool drop_returns = false;
    bool assume_utc = false;
    bool go_on = false;
    bool clock = false;

    unsigned flags() const noexcept {
        return (at_end ? SPEEDATE_AT_END : 0u) | (drop_returns ? SPEEDATE_DROP_RETURNS : 0u) |
               (assume_utc ? SPEEDATE_ASSUME_UTC : 0u) | (go_on ? SPEEDATE_GO_ON : 0u) | (clock ? SPEEDATE_CLOCK : 0u);
    }
};

/* ---- What the calls below have in common ---- */

namespace detail {

/* Ends the program if a call refuses that cannot, since its values are in range: then the library is another one. */
inline void must(int code) noexcept {
    if (code != SPEEDATE_OK)
        std::abort();
}

/* Makes a value of numbers in range: only this may. */
struct Make {
    template <class T, class C> static T value(const C &numbers) { return T(numbers); }
};

/* The value of numbers, unless the call that checks them refuses them. */
template <class T, class C> Result<T> checked(int (*check)(C), const C &numbers) {
    const int code = check(numbers);
    if (code != SPEEDATE_OK)
        return Error(code);
    return Make::value<T>(numbers);
}

/* The value that a call writes, in its type of C++. */
template <class T, class C, class Call> Result<T> written(Call call) {
    C out;
    const int code = call(&out);
    if (code != SPEEDATE_OK)
        return Error(code);
    return Make::value<T>(out);
}

/* The value that a parser writes, and its size, or the part that it refuses. */
template <class T, class C, class Call>
Result<T> parsed(Call call, std::string_view text, Form form, const Config &config) {
    C out;
    SpeedatePart part;
    const SpeedateConfig of = config.c();
    const int code = call(text.data(), text.size(), static_cast<int>(form), &of, &out, &part);
    if (code != SPEEDATE_OK)
        return Error(code, part);
    return Result<T>(Make::value<T>(out), part.end);
}

/* The value of a call that cannot refuse, of one argument or two. */
template <class C, class T> T sure(int (*call)(C, T *), C value) noexcept {
    T out;
    must(call(value, &out));
    return out;
}
template <class C, class T> T sure(int (*call)(C, C, T *), C first, C second) noexcept {
    T out;
    must(call(first, second, &out));
    return out;
}

/* An integer of any type, none of which wraps: one that does not fit 64 bits with a sign is the nearest that does,
 * and no field may have that. */
class Whole {
  public:
    template <class Integer, std::enable_if_t<std::is_integral_v<Integer>, int> = 0>
    constexpr Whole(Integer number) noexcept : number_(held(number)) {}

    constexpr bool is_negative() const noexcept { return number_ < 0; }
    template <class C> constexpr bool fits() const noexcept {
        using Limits = std::numeric_limits<C>;
        return std::int64_t{Limits::min()} <= number_ && number_ <= std::int64_t{Limits::max()};
    }
    /* The number in a type of C, or the greatest one of that type, which no field may have, if it does not fit. */
    template <class C> constexpr C in() const noexcept {
        return fits<C>() ? static_cast<C>(number_) : std::numeric_limits<C>::max();
    }

  private:
    template <class Integer> static constexpr std::int64_t held(Integer number) noexcept {
        if constexpr (sizeof(Integer) > 8 || (sizeof(Integer) == 8 && !std::is_signed_v<Integer>))
            if (number > static_cast<Integer>(INT64_MAX))
                return INT64_MAX;
        if constexpr (sizeof(Integer) > 8 && std::is_signed_v<Integer>)
            if (number < static_cast<Integer>(INT64_MIN))
                return INT64_MIN;
        return static_cast<std::int64_t>(number);
    }

    std::int64_t number_;
};

/* Only bool is a flag of a call: neither {} nor a number is one. */
template <class Flag> using IfBool = std::enable_if_t<std::is_same_v<Flag, bool>, int>;

template <std::size_t Size, class Call, class... Of> std::string text(Call call, Of... of) {
    char text[Size];
    std::size_t length;
    must(call(of..., text, sizeof text, &length));
    return std::string(text, length);
}

/* Equality, and the order of a type that has one. A struct of C that calls have written has one form for each value. */
template <class T> struct Equal {
    friend bool operator==(const T &first, const T &second) noexcept {
        return std::memcmp(&first.c(), &second.c(), sizeof first.c()) == 0;
    }
    friend bool operator!=(const T &first, const T &second) noexcept { return !(first == second); }
};

template <class T> struct Ordered : Equal<T> {
#if defined(__cpp_impl_three_way_comparison) && defined(__cpp_lib_three_way_comparison)
    friend std::strong_ordering operator<=>(const T &first, const T &second) noexcept {
        return compare(first, second) <=> 0;
    }
#else
    friend bool operator<(const T &first, const T &second) noexcept { return compare(first, second) < 0; }
    friend bool operator>(const T &first, const T &second) noexcept { return compare(first, second) > 0; }
    friend bool operator<=(const T &first, const T &second) noexcept { return compare(first, second) <= 0; }
    friend bool operator>=(const T &first, const T &second) noexcept { return compare(first, second) >= 0; }
#endif
};

} // namespace detail

/* ---- Dates ---- */

/* A day of the Gregorian calendar, from 0000-01-01 to 9999-12-31. Dates are ordered. */
class Date : public detail::Ordered<Date> {
  public:
    /* The date of its numbers, or SPEEDATE_DATE_TOO_SMALL, SPEEDATE_DATE_TOO_LARGE, SPEEDATE_OUT_OF_RANGE_MONTH or
     * SPEEDATE_OUT_OF_RANGE_DAY. */
    static Result<Date> of(detail::Whole year, detail::Whole month, detail::Whole day) {
        if (year.is_negative())
            return Error(SPEEDATE_DATE_TOO_SMALL);
        return of(SpeedateDate{year.in<std::uint16_t>(), month.in<std::uint8_t>(), day.in<std::uint8_t>()});
    }
    static Result<Date> of(SpeedateDate date) { return detail::checked<Date>(speedate_date_check, date); }

    std::uint16_t year() const noexcept { return c_.year; }
    std::uint8_t month() const noexcept { return c_.month; }
    std::uint8_t day() const noexcept { return c_.day; }
    const SpeedateDate &c() const noexcept { return c_; }

    static Result<Date> parse(std::string_view text, Form form = Form::Text, const Config &config = {}) {
        return detail::parsed<Date, SpeedateDate>(speedate_date_parse, text, form, config);
    }
    std::string to_text() const { return detail::text<SPEEDATE_DATE_TEXT_SIZE>(speedate_date_to_text, c_); }

    /* The days since 1970-01-01, and the date of such a number. */
    std::int32_t days() const noexcept { return detail::sure(speedate_date_days, c_); }
    static Result<Date> from_days(std::int32_t days) {
        return detail::written<Date, SpeedateDate>([&](auto *out) { return speedate_date_from_days(days, out); });
    }

    /* Negative if the first is the earlier one, 0 if they are equal, otherwise positive. */
    friend int compare(const Date &first, const Date &second) noexcept { return first.days() - second.days(); }
    friend std::ostream &operator<<(std::ostream &to, const Date &date) { return to << date.to_text(); }

#ifdef SPEEDATE_HAS_CALENDAR
    /* The date of a calendar date of chrono. One that is not in the calendar is refused as its numbers are, and a year
     * before 0000 with SPEEDATE_DATE_TOO_SMALL. */
    static Result<Date> of(std::chrono::year_month_day date) {
        return of(static_cast<int>(date.year()), static_cast<unsigned>(date.month()),
                  static_cast<unsigned>(date.day()));
    }
    std::chrono::year_month_day year_month_day() const noexcept {
        return std::chrono::year(year()) / std::chrono::month(month()) / std::chrono::day(day());
    }
    /* The date of a day of chrono, or SPEEDATE_NO_SUCH_DATE outside the years 0000 to 9999. */
    template <class Day, std::enable_if_t<std::is_same_v<Day, std::chrono::sys_days>, int> = 0>
    static Result<Date> of(Day day) {
        return from_days(detail::Whole(day.time_since_epoch().count()).in<std::int32_t>());
    }
    std::chrono::sys_days sys_days() const noexcept { return std::chrono::sys_days(std::chrono::days(days())); }
#endif

  private:
    friend struct detail::Make;
    friend class DateTime;
    explicit Date(SpeedateDate date) noexcept : c_(date) {}

    SpeedateDate c_;
};

/* ---- Times ---- */

/* A time of day, with an offset from UTC or without one. `==` compares clocks and offsets. */
class Time : public detail::Equal<Time> {
  public:
    /* The time of its numbers, or SPEEDATE_OUT_OF_RANGE_HOUR, _MINUTE or _SECOND, SPEEDATE_TIME_TOO_LARGE for the
     * microsecond, or SPEEDATE_OUT_OF_RANGE_TZ. */
    static Result<Time> of(detail::Whole hour, detail::Whole minute, detail::Whole second = 0,
                           detail::Whole microsecond = 0, std::optional<detail::Whole> offset = std::nullopt) {
        return of(SpeedateTime{hour.in<std::uint8_t>(), minute.in<std::uint8_t>(), second.in<std::uint8_t>(),
                               offset.has_value(), microsecond.in<std::uint32_t>(),
                               offset.value_or(0).in<std::int32_t>()});
    }
    static Result<Time> of(SpeedateTime time) {
        if (!time.has_offset)
            time.offset = 0;
        return detail::checked<Time>(speedate_time_check, time);
    }

    std::uint8_t hour() const noexcept { return c_.hour; }
    std::uint8_t minute() const noexcept { return c_.minute; }
    std::uint8_t second() const noexcept { return c_.second; }
    std::uint32_t microsecond() const noexcept { return c_.microsecond; }
    /* In seconds, positive east of UTC. */
    std::optional<std::int32_t> offset() const noexcept {
        return c_.has_offset ? std::optional<std::int32_t>(c_.offset) : std::nullopt;
    }
    const SpeedateTime &c() const noexcept { return c_; }

    static Result<Time> parse(std::string_view text, Form form = Form::Text, const Config &config = {}) {
        return detail::parsed<Time, SpeedateTime>(speedate_time_parse, text, form, config);
    }
    std::string to_text(FractionDigits digits = FractionDigits::Auto) const {
        return detail::text<SPEEDATE_TIME_TEXT_SIZE>(speedate_time_to_text, c_, static_cast<int>(digits));
    }
    friend std::ostream &operator<<(std::ostream &to, const Time &time) { return to << time.to_text(); }

  private:
    friend struct detail::Make;
    friend class DateTime;
    explicit Time(SpeedateTime time) noexcept : c_(time) {}

    SpeedateTime c_;
};

/* ---- Durations ---- */

class DateTime;

/* A length of time, with a sign, which zero may have too. Durations are ordered; negative zero is smaller than zero. */
class Duration : public detail::Ordered<Duration> {
  public:
    /* The duration of its numbers, or SPEEDATE_DURATION_DAYS_TOO_LARGE or SPEEDATE_DURATION_VALUE_TOO_LARGE. */
    template <class Flag, detail::IfBool<Flag> = 0>
    static Result<Duration> of(Flag negative, detail::Whole day, detail::Whole second = 0,
                               detail::Whole microsecond = 0) {
        return of(SpeedateDuration{negative, day.in<std::uint32_t>(), second.in<std::uint32_t>(),
                                   microsecond.in<std::uint32_t>()});
    }
    static Result<Duration> of(SpeedateDuration duration) {
        return detail::checked<Duration>(speedate_duration_check, duration);
    }
    /* The duration of numbers that are brought into their ranges, as speedate_duration_normalize says. */
    template <class Flag, detail::IfBool<Flag> = 0>
    static Result<Duration> normalized(Flag negative, detail::Whole day, detail::Whole second = 0,
                                       detail::Whole microsecond = 0) {
        for (const detail::Whole number : {day, second, microsecond})
            if (!number.fits<std::uint32_t>())
                return Error(SPEEDATE_DURATION_VALUE_TOO_LARGE);
        return normalized(SpeedateDuration{negative, day.in<std::uint32_t>(), second.in<std::uint32_t>(),
                                           microsecond.in<std::uint32_t>()});
    }
    static Result<Duration> normalized(SpeedateDuration numbers) {
        return from_c([&](auto *out) { return speedate_duration_normalize(numbers, out); });
    }
    /* The duration of a number of microseconds with a sign. */
    static Duration of(std::chrono::microseconds length) noexcept {
        return Duration(detail::sure(speedate_duration_from_microseconds, std::int64_t{length.count()}));
    }

    bool negative() const noexcept { return c_.negative; }
    std::uint32_t day() const noexcept { return c_.day; }
    std::uint32_t second() const noexcept { return c_.second; }
    std::uint32_t microsecond() const noexcept { return c_.microsecond; }
    const SpeedateDuration &c() const noexcept { return c_; }

    static Result<Duration> parse(std::string_view text, Form form = Form::Text, const Config &config = {}) {
        return detail::parsed<Duration, SpeedateDuration>(speedate_duration_parse, text, form, config);
    }
    std::string to_text() const { return detail::text<SPEEDATE_DURATION_TEXT_SIZE>(speedate_duration_to_text, c_); }
    /* All microseconds, or SPEEDATE_NUMBER_TOO_LARGE, over 106,751,991 days. */
    Result<std::chrono::microseconds> microseconds() const {
        return detail::written<std::chrono::microseconds, std::int64_t>(
            [&](auto *out) { return speedate_duration_microseconds(c_, out); });
    }
    /* The sum of the durations of a container where they are contiguous, or SPEEDATE_DURATION_DAYS_TOO_LARGE. */
    template <class Durations = std::initializer_list<Duration>>
    static Result<Duration> sum(const Durations &durations) {
        static_assert(std::is_standard_layout_v<Duration> && sizeof(Duration) == sizeof(SpeedateDuration));
        const Duration *const first = std::data(durations);
        return from_c([&](auto *out) {
            return speedate_duration_sum(reinterpret_cast<const SpeedateDuration *>(first), std::size(durations), out);
        });
    }
    friend Result<Duration> operator+(const Duration &first, const Duration &second) { return sum({first, second}); }
    friend Result<Duration> operator-(const Duration &first, const Duration &second) { return first + -second; }
    Duration operator-() const noexcept {
        return Duration(SpeedateDuration{!c_.negative, c_.day, c_.second, c_.microsecond});
    }

    /* The duration from one date-time to another, which is negative if `later` is the earlier one. */
    static Duration between(const DateTime &earlier, const DateTime &later) noexcept;

    /* Negative if the first is the smaller one, 0 if they are equal, otherwise positive. */
    friend int compare(const Duration &first, const Duration &second) noexcept {
        const SpeedateDuration &one = first.c_, &other = second.c_;
        if (one.negative != other.negative)
            return one.negative ? -1 : 1;
        const auto sizes = [](const SpeedateDuration &it) { return std::tie(it.day, it.second, it.microsecond); };
        const int order = sizes(one) < sizes(other) ? -1 : sizes(other) < sizes(one) ? 1 : 0;
        return one.negative ? -order : order;
    }
    friend std::ostream &operator<<(std::ostream &to, const Duration &duration) { return to << duration.to_text(); }

  private:
    friend struct detail::Make;
    explicit Duration(SpeedateDuration duration) noexcept : c_(duration) {}
    template <class Call> static Result<Duration> from_c(Call call) {
        return detail::written<Duration, SpeedateDuration>(call);
    }

    SpeedateDuration c_;
};

/* ---- Date-times ---- */

/* A moment of std::chrono. C++20 calls it std::chrono::sys_time<std::chrono::microseconds>. */
using SysTime = std::chrono::time_point<std::chrono::system_clock, std::chrono::microseconds>;

/* A date and a time of day. `==` compares clocks and offsets; sort by unix_microseconds(). */
class DateTime : public detail::Equal<DateTime> {
  public:
    DateTime(const Date &date, const Time &time) noexcept : c_{date.c(), time.c()} {}
    static Result<DateTime> of(SpeedateDateTime value) {
        if (!value.time.has_offset)
            value.time.offset = 0;
        return detail::checked<DateTime>(speedate_datetime_check, value);
    }

    Date date() const noexcept { return Date(c_.date); }
    Time time() const noexcept { return Time(c_.time); }
    const SpeedateDateTime &c() const noexcept { return c_; }

    static Result<DateTime> parse(std::string_view text, Form form = Form::Text, const Config &config = {}) {
        return detail::parsed<DateTime, SpeedateDateTime>(speedate_datetime_parse, text, form, config);
    }
    std::string to_text(FractionDigits digits = FractionDigits::Auto) const {
        return detail::text<SPEEDATE_DATETIME_TEXT_SIZE>(speedate_datetime_to_text, c_, static_cast<int>(digits));
    }

    /* The date-time of a number of microseconds of Unix time, in UTC. */
    static Result<DateTime> from_unix_microseconds(std::int64_t microseconds) {
        return from_c([&](auto *out) { return speedate_datetime_from_unix_microseconds(microseconds, out); });
    }
    static Result<DateTime> from_timestamp(std::int64_t timestamp, std::uint32_t microsecond = 0,
                                           const Config &config = {}) {
        const SpeedateConfig of = config.c();
        return from_c([&](auto *out) { return speedate_datetime_from_timestamp(timestamp, microsecond, &of, out); });
    }
    /* Unix time. */
    std::int64_t unix_microseconds() const noexcept { return detail::sure(speedate_datetime_unix_microseconds, c_); }
    Result<DateTime> in_timezone(std::int32_t offset) const {
        return from_c([&](auto *out) { return speedate_datetime_in_timezone(c_, offset, out); });
    }

    /* The date-time a duration later, and earlier. A duration of chrono is one that converts to microseconds. */
    friend Result<DateTime> operator+(const DateTime &value, const Duration &duration) {
        return from_c([&](auto *out) { return speedate_datetime_add(value.c_, duration.c(), out); });
    }
    friend Result<DateTime> operator-(const DateTime &value, const Duration &duration) { return value + -duration; }
    friend Result<DateTime> operator+(const DateTime &value, std::chrono::microseconds length) {
        return value + Duration::of(length);
    }
    friend Result<DateTime> operator-(const DateTime &value, std::chrono::microseconds length) {
        return value - Duration::of(length);
    }
    /* The duration from `start` to `end`, as Duration::between(start, end). */
    friend Duration operator-(const DateTime &end, const DateTime &start) noexcept {
        return Duration::between(start, end);
    }

    /* The moment of a date-time. One without an offset is taken to be in UTC. */
    SysTime sys_time() const noexcept { return SysTime(std::chrono::microseconds(unix_microseconds())); }
    /* The date-time of a moment, such as std::chrono::system_clock::now(), in UTC; digits past the microsecond are
     * rounded down. It fails with SPEEDATE_DATE_TOO_SMALL or SPEEDATE_DATE_TOO_LARGE outside the years 0000 to 9999. */
    template <class Number, class Period>
    static Result<DateTime>
    of(std::chrono::time_point<std::chrono::system_clock, std::chrono::duration<Number, Period>> moment) {
        constexpr bool in_seconds = std::ratio_equal_v<Period, std::ratio<1>>;
        constexpr bool in_milliseconds = std::ratio_equal_v<Period, std::milli>;
        static_assert(std::is_integral_v<Number> && std::is_signed_v<Number>, "a moment has a whole number with a sign");
        static_assert(in_seconds || in_milliseconds || std::ratio_less_equal_v<Period, std::micro>,
                      "a moment in any other unit has to be cast to seconds first");
        if constexpr (in_seconds || in_milliseconds) {
            Config config;
            config.timestamp_offset = 0;
            config.timestamp_unit = in_seconds ? Unit::Second : Unit::Millisecond;
            return from_timestamp(moment.time_since_epoch().count(), 0, config);
        } else {
            return from_unix_microseconds(
                std::chrono::floor<std::chrono::microseconds>(moment).time_since_epoch().count());
        }
    }

    friend std::ostream &operator<<(std::ostream &to, const DateTime &value) { return to << value.to_text(); }

  private:
    friend struct detail::Make;
    explicit DateTime(SpeedateDateTime value) noexcept : c_(value) {}
    template <class Call> static Result<DateTime> from_c(Call call) {
        return detail::written<DateTime, SpeedateDateTime>(call);
    }

    SpeedateDateTime c_;
};

inline Duration Duration::between(const DateTime &earlier, const DateTime &later) noexcept {
    return Duration(detail::sure(speedate_duration_between, earlier.c(), later.c()));
}

/* ---- Columns ---- */

/* How far a column has come: how many lines have a number in it, how many bytes they take, and the error of the next
 * line, if that is refused and ends the column, with the part of the line that it is about. */
struct Progress {
    explicit Progress(const SpeedateProgress &from)
        : lines(from.lines), bytes(from.bytes),
          error(from.error == SPEEDATE_OK ? std::nullopt : std::optional<Error>(Error(from.error, from.part))) {}

    std::size_t lines;
    std::size_t bytes;
    std::optional<Error> error;
};

/* What a column reads: the lines of a text, or parts of it, each of which begins at its offset and ends at the next
 * one, as in a string array of Arrow: Texts(bytes, offsets). The offsets are a container of std::int32_t, which
 * stays as it is. */
class Texts {
  public:
    template <class Text, std::enable_if_t<std::is_convertible_v<const Text &, std::string_view>, int> = 0>
    Texts(const Text &lines) noexcept : bytes_(lines) {}
    template <class Offsets = std::initializer_list<std::int32_t>>
    Texts(std::string_view bytes, const Offsets &offsets) noexcept
        : bytes_(bytes), offsets_(std::data(offsets)), count_(std::size(offsets)) {
        if (count_ == 0)
            offsets_ = &none;
    }

    std::string_view bytes() const noexcept { return bytes_; }
    const std::int32_t *offsets() const noexcept { return offsets_; }
    /* How many texts there are, at most. */
    std::size_t most() const noexcept { return !offsets_ ? SIZE_MAX : count_ == 0 ? 0 : count_ - 1; }

  private:
    static constexpr std::int32_t none = 0;
    std::string_view bytes_;
    const std::int32_t *offsets_ = nullptr;
    std::size_t count_ = 0;
};

namespace detail {

/* A call on columns, of which each below is one: date_column(text, out), or date_column(text, out, errors). */
template <class Number> class Column {
  public:
    using Call = int (*)(const char *, std::size_t, const std::int32_t *, int, const SpeedateConfig *, unsigned,
                         Number *, std::uint8_t *, std::size_t, SpeedateProgress *);
    explicit constexpr Column(Call call) noexcept : call_(call) {}

    template <class Numbers>
    Result<Progress> operator()(const Texts &texts, Numbers &&out, const ColumnConfig &column = {}) const {
        return read(texts, std::data(out), nullptr, std::size(out), column);
    }
    template <class Numbers, class Codes, class = decltype(std::data(std::declval<Codes &>()))>
    Result<Progress> operator()(const Texts &texts, Numbers &&out, Codes &&errors,
                                const ColumnConfig &column = {}) const {
        return read(texts, std::data(out), std::data(errors), std::min(std::size(out), std::size(errors)), column);
    }

  private:
    Result<Progress> read(const Texts &texts, Number *out, std::uint8_t *errors, std::size_t room,
                          const ColumnConfig &column) const {
        const SpeedateConfig config = column.config.c();
        return written<Progress, SpeedateProgress>([&](auto *progress) {
            return call_(texts.bytes().data(), texts.bytes().size(), texts.offsets(), static_cast<int>(column.form),
                         &config, column.flags(), out, errors, std::min(room, texts.most()), progress);
        });
    }

    Call call_;
};

/* Columns of lines have no other texts. */
inline int front_column(const char *text, std::size_t size, const std::int32_t *offsets, int form,
                        const SpeedateConfig *config, unsigned flags, SpeedateDateTimeFront *out, std::uint8_t *errors,
                        std::size_t room, SpeedateProgress *progress) {
    if (offsets)
        return SPEEDATE_CONFIG_OUT_OF_RANGE;
    return speedate_datetime_front_column(text, size, form, config, flags, out, errors, room, progress);
}

template <auto Call>
int offset_column(const char *text, std::size_t size, const std::int32_t *offsets, int form,
                  const SpeedateConfig *config, unsigned flags, std::int32_t *out, std::uint8_t *errors,
                  std::size_t room, SpeedateProgress *progress) {
    if (offsets)
        return SPEEDATE_CONFIG_OUT_OF_RANGE;
    return Call(text, size, form, config, flags, out, errors, room, progress);
}

/* A call that prints a column, of which each below is one: date_print_column(days, buffer). */
template <class Number> class PrintColumn {
  public:
    using Call = int (*)(const Number *, std::size_t, unsigned, char *, std::size_t, SpeedateProgress *);
    explicit constexpr PrintColumn(Call call, unsigned flags = 0) noexcept : call_(call), flags_(flags) {}

    template <class Numbers = std::initializer_list<Number>, class Buffer>
    Progress operator()(const Numbers &numbers, Buffer &&buffer) const {
        SpeedateProgress progress;
        must(call_(std::data(numbers), std::size(numbers), flags_, std::data(buffer), std::size(buffer), &progress));
        return Progress(progress);
    }

  private:
    Call call_;
    unsigned flags_;
};

} // namespace detail

/* Read texts as numbers, as many as there is room for in `out`, an array, a std::vector, a std::span or another
 * container with contiguous numbers: std::int32_t for dates and offsets, SpeedateDateTimeFront at the front of lines,
 * otherwise std::int64_t. With errors, a container of std::uint8_t after `out`, the code of each text is written there.
 * A ColumnConfig may come last. */
inline constexpr detail::Column<std::int32_t> date_column(speedate_date_column);
inline constexpr detail::Column<std::int64_t> time_column(speedate_time_column);
inline constexpr detail::Column<std::int64_t> datetime_column(speedate_datetime_column);
inline constexpr detail::Column<std::int64_t> duration_column(speedate_duration_column);
inline constexpr detail::Column<SpeedateDateTimeFront> datetime_front_column(detail::front_column);
inline constexpr detail::Column<std::int32_t>
    datetime_offset_column(detail::offset_column<speedate_datetime_offset_column>);
inline constexpr detail::Column<std::int32_t> time_offset_column(detail::offset_column<speedate_time_offset_column>);

/* Print the numbers of a container as lines, as many as there is room for in a container of char, as a std::string is.
 * If there is no error, and a number without a line, empty it, and go on with that number. The column of clocks prints
 * date-times without an offset. */
inline constexpr detail::PrintColumn<std::int32_t> date_print_column(speedate_date_print_column);
inline constexpr detail::PrintColumn<std::int64_t> time_print_column(speedate_time_print_column);
inline constexpr detail::PrintColumn<std::int64_t> datetime_print_column(speedate_datetime_print_column);
inline constexpr detail::PrintColumn<std::int64_t> datetime_clock_print_column(speedate_datetime_print_column,
                                                                               SPEEDATE_CLOCK);
inline constexpr detail::PrintColumn<std::int64_t> duration_print_column(speedate_duration_print_column);

/* ---- The version ---- */

/* The SPEEDATE_VERSION_NUMBER of the library that is called. */
inline int version() noexcept { return speedate_version(); }

/* ---- What the library of C++ asks of a type ---- */

namespace detail {

/* Equal values have equal bytes. */
template <class T> struct Hash {
    std::size_t operator()(const T &value) const noexcept {
        return std::hash<std::string_view>()({reinterpret_cast<const char *>(&value.c()), sizeof value.c()});
    }
};

#ifdef __cpp_lib_format
/* Is called where a format is refused, so that it does not compile: a constant cannot call it. */
[[noreturn]] inline void precision_is_not_0_or_3_or_6_digits_of_a_second() {
#ifdef __cpp_exceptions
    throw std::format_error("the precision is not 0, 3 or 6 digits of a second");
#else
    std::abort();
#endif
}

/* The text of a value, with the width, the fill and the alignment of a string. The precision is how many digits of a
 * second are printed, 0, 3 or 6, where to_text has them, written beside a width that is written too. */
template <class T> struct Formatter : std::formatter<std::string_view> {
    using Padded = std::formatter<std::string_view>;
    static constexpr bool has_digits = std::is_invocable_v<decltype(&T::to_text), const T &, FractionDigits>;

    constexpr auto parse(std::format_parse_context &context) {
        const std::string_view all(context.begin(), context.end());
        std::size_t size = 0;
        for (int inside = 0; size < all.size() && (inside > 0 || all[size] != '}'); size++)
            inside += all[size] == '{' ? 1 : all[size] == '}' ? -1 : 0;
        const std::string_view spec = all.substr(0, size);
        /* A point before an alignment is a fill. */
        const bool is_filled = spec.size() > 1 && std::string_view("<>^").find(spec[1]) != spec.npos;
        const std::size_t point = spec.find('.', is_filled);
        if (point == spec.npos)
            return Padded::parse(context);
        const std::string_view padding = spec.substr(0, point), digits = spec.substr(point + 1);
        if (!has_digits || padding.find('{') != spec.npos || (digits != "0" && digits != "3" && digits != "6"))
            precision_is_not_0_or_3_or_6_digits_of_a_second();
        std::format_parse_context rest(padding);
        Padded::parse(rest);
        digits_ = static_cast<FractionDigits>(digits[0] - '0');
        return context.begin() + static_cast<std::ptrdiff_t>(size);
    }

    template <class Context> auto format(const T &value, Context &context) const {
        if constexpr (has_digits)
            return Padded::format(value.to_text(digits_), context);
        else
            return Padded::format(value.to_text(), context);
    }

  private:
    FractionDigits digits_ = FractionDigits::Auto;
};
#endif

} // namespace detail

} // namespace speedate

template <> struct std::hash<speedate::Date> : speedate::detail::Hash<speedate::Date> {};
template <> struct std::hash<speedate::Time> : speedate::detail::Hash<speedate::Time> {};
template <> struct std::hash<speedate::DateTime> : speedate::detail::Hash<speedate::DateTime> {};
template <> struct std::hash<speedate::Duration> : speedate::detail::Hash<speedate::Duration> {};
#ifdef __cpp_lib_format
template <> struct std::formatter<speedate::Date> : speedate::detail::Formatter<speedate::Date> {};
template <> struct std::formatter<speedate::Time> : speedate::detail::Formatter<speedate::Time> {};
template <> struct std::formatter<speedate::DateTime> : speedate::detail::Formatter<speedate::DateTime> {};
template <> struct std::formatter<speedate::Duration> : speedate::detail::Formatter<speedate::Duration> {};
#endif

#endif
