// Tries every call of speedate.hpp: that it is the call of speedate.h that it says, with its arguments in their order. Its
// parsers have the answers of the rows of the second reading, standard input, which tests/rows.py describes.
#include "speedate.hpp"

#include <algorithm>
#include <array>
#include <iostream>
#include <sstream>
#include <unordered_set>
#include <vector>

using namespace speedate;

static int failures = 0;

#define CHECK(condition)                                                                                               \
    do {                                                                                                               \
        if (!(condition)) {                                                                                            \
            std::cerr << __FILE__ << ':' << __LINE__ << ": " << #condition << '\n';                                    \
            failures++;                                                                                                \
        }                                                                                                              \
    } while (0)

// What a result has: the text of its value, or the name of its error.
template <class T> static std::string said(const Result<T> &result) {
    std::ostringstream to;
    if (result)
        to << *result;
    else
        to << result.error();
    return to.str();
}
// The part that a text is refused for, and what it was read as: "none" for any other answer.
template <class T> static std::string part_of(const Result<T> &result) {
    const Error &it = result.error();
    if (result || !SPEEDATE_IS_FAULT(it.code()))
        return it.start() == 0 && it.end() == 0 && it.part().kind == SPEEDATE_KIND_NONE ? "none" : "a part by mistake";
    return std::to_string(it.start()) + " " + std::to_string(it.end()) + " " + std::to_string(it.part().kind);
}

static Date date(const char *text) { return Date::parse(text).value(); }
static Time time_of(const char *text) { return Time::parse(text).value(); }
static DateTime moment(const char *text) { return DateTime::parse(text).value(); }
static Duration length(const char *text) { return Duration::parse(text).value(); }

static Config with(Unit unit, Overflow overflow, Order order, std::optional<std::int32_t> offset = std::nullopt) {
    Config config;
    config.timestamp_offset = offset;
    config.timestamp_unit = unit;
    config.overflow = overflow;
    config.iso_order = order;
    return config;
}

// The numbers of a value as a row has them.
static std::string numbers_of(const SpeedateDate &it) {
    return std::to_string(it.year) + " " + std::to_string(it.month) + " " + std::to_string(it.day);
}
static std::string numbers_of(const SpeedateTime &it) {
    std::ostringstream to;
    to << +it.hour << ' ' << +it.minute << ' ' << +it.second << ' ' << +it.has_offset << ' ' << it.microsecond << ' ' << it.offset;
    return to.str();
}
static std::string numbers_of(const SpeedateDateTime &it) { return numbers_of(it.date) + " " + numbers_of(it.time); }
static std::string numbers_of(const SpeedateDuration &it) {
    std::ostringstream to;
    to << it.negative << ' ' << it.day << ' ' << it.second << ' ' << it.microsecond;
    return to.str();
}
// The last five fields of a row.
template <class T> static std::string fields_of(const Result<T> &result) {
    if (result)
        return "ok\t" + numbers_of(result->c()) + "\t" + result->to_text() + "\t0\t" + std::to_string(result.size());
    const Error &it = result.error();
    return it.name() + std::string("\t\t\t") + std::to_string(it.start()) + "\t" + std::to_string(it.end());
}

static void rows() {
    const std::array<std::pair<std::string, Form>, 6> forms = {
        {{"text", Form::Text}, {"or_timestamp", Form::OrTimestamp}, {"strict", Form::Strict}, {"loose", Form::Loose},
         {"front", Form::Front}, {"loose_front", Form::LooseFront}}};
    int tried = 0;
    for (std::string row, it; std::getline(std::cin, row);) {
        std::istringstream fields(row);
        std::array<std::string, 4> before;
        for (std::string &field : before)
            std::getline(fields, field, '\t');
        std::string text, wanted((std::istreambuf_iterator<char>(fields)), std::istreambuf_iterator<char>());
        for (std::size_t i = 0; i < before[3].size(); i++) {
            const bool is_escaped = before[3][i] == '\\';
            text += is_escaped ? static_cast<char>(std::stoi(before[3].substr(i + 2, 2), nullptr, 16)) : before[3][i];
            i += is_escaped ? 3 : 0;
        }
        std::int32_t offset;
        int has_offset, unit, overflow, order;
        std::istringstream(before[2]) >> offset >> has_offset >> unit >> overflow >> order;
        const Config config = with(static_cast<Unit>(unit), static_cast<Overflow>(overflow), static_cast<Order>(order),
                                   has_offset ? std::optional<std::int32_t>(offset) : std::nullopt);
        for (const auto &[name, form] : forms) {
            if ((" " + before[1] + " ").find(" " + name + " ") == std::string::npos)
                continue;
            const std::string told = before[0] == "date"       ? fields_of(Date::parse(text, form, config))
                                     : before[0] == "time"     ? fields_of(Time::parse(text, form, config))
                                     : before[0] == "datetime" ? fields_of(DateTime::parse(text, form, config))
                                                               : fields_of(Duration::parse(text, form, config));
            tried++;
            if (told != wanted) {
                std::cerr << row << "\n    answered " << told << '\n';
                failures++;
            }
        }
    }
    CHECK(tried > 2000);
}

// No integer wraps on its way into a value: numbers that are wider than a field, and than 64 bits, are refused as others are.
template <class Integer> static void wide_numbers() {
    for (int bits : {31, 32, 53, 63}) {
        if (bits >= std::numeric_limits<Integer>::digits)
            continue;
        for (int more : {-1, 0, 1}) {
            const Integer number = static_cast<Integer>((Integer{1} << bits) + static_cast<Integer>(more));
            CHECK(said(Date::of(number, 1, 1)) == "date_too_large" && said(Date::of(2020, number, 1)) == "out_of_range_month");
            CHECK(said(Date::of(2020, 1, number)) == "out_of_range_day" && said(Time::of(number, 0)) == "out_of_range_hour");
            CHECK(said(Time::of(0, number)) == "out_of_range_minute" && said(Time::of(0, 0, number)) == "out_of_range_second");
            CHECK(said(Time::of(0, 0, 0, number)) == "time_too_large" && said(Time::of(0, 0, 0, 0, number)) == "out_of_range_tz");
            CHECK(said(Duration::of(false, number)) == "duration_days_too_large");
            CHECK(said(Duration::of(true, 0, number)) == "duration_value_too_large");
            CHECK(said(Duration::normalized(false, number)) == (bits > 31 + (more < 0) ? "duration_value_too_large" : "duration_days_too_large"));
            if constexpr (std::is_signed_v<Integer>) {
                CHECK(said(Date::of(-number, 1, 1)) == "date_too_small" && said(Date::of(2020, -number, 1)) == "out_of_range_month");
                CHECK(said(Time::of(-number, 0)) == "out_of_range_hour" && said(Time::of(0, 0, 0, 0, -number)) == "out_of_range_tz");
                CHECK(said(Duration::of(false, -number)) == "duration_days_too_large");
            }
        }
    }
    constexpr Integer most = std::numeric_limits<Integer>::max(), least = std::numeric_limits<Integer>::min();
    CHECK(said(Date::of(most, 1, 1)) == "date_too_large" && said(Duration::of(false, most)) == "duration_days_too_large");
    // As 64 bits with a sign, the second one would be an hour west of UTC.
    CHECK(said(Time::of(0, 0, 0, 0, most)) == "out_of_range_tz" && said(Time::of(0, 0, 0, 0, most - Integer{3599})) == "out_of_range_tz");
    CHECK(said(Date::of(least, 1, 1)) == (std::is_signed_v<Integer> ? "date_too_small" : "0000-01-01"));
}

static void results() {
    const Result<Date> good = Date::parse("2020-02-29"), bad = Date::parse("2021-02-29");
    CHECK(good && good.has_value() && good->day() == 29 && good.value() == *good);
    CHECK(!bad && !bad.has_value() && bad.error() == Error(SPEEDATE_OUT_OF_RANGE_DAY));
    CHECK(bad.error().code() == SPEEDATE_OUT_OF_RANGE_DAY && bad.error() != Error(SPEEDATE_TOO_SHORT));
    CHECK(bad.error().name() == std::string("out_of_range_day") && Error(1000).name() == std::string("unknown code"));
    CHECK(bad.error().start() == 8 && bad.error().end() == 10 && bad.error().expected() == "a day that the month has");
    CHECK(Error(SPEEDATE_OUT_OF_RANGE_MONTH, {0, 0, SPEEDATE_KIND_DATE}).expected() == "month, 01 to 12");
    CHECK(Error(1000).expected() == "unknown code or kind" && good.size() == 10);
    CHECK(Date::parse("", Form::OrTimestamp).error().expected() == "a date, YYYY-MM-DD, or a whole number");
    CHECK(Date::parse("").error().expected() == "a date: YYYY-MM-DD");
    CHECK(bad.value_or(*good) == *good && good.value_or(date("2020-03-01")) == *good);
    bool throws = false;
    try {
        static_cast<void>(bad.value());
    } catch (const Failure &failure) {
        throws = failure.error() == bad.error() && failure.what() == std::string("out_of_range_day");
    }
    CHECK(throws);
    CHECK(version() == SPEEDATE_VERSION_NUMBER && version() / 1000000 == SPEEDATE_VERSION_MAJOR);
}

static void dates() {
    CHECK(said(Date::of(2020, 2, 29)) == "2020-02-29" && said(Date::of(2021, 2, 29)) == "out_of_range_day");
    CHECK(said(Date::of(SpeedateDate{10000, 13, 1})) == "date_too_large");
    CHECK(date("2020-02-29").year() == 2020 && date("2020-02-29").month() == 2 && date("2020-02-29").day() == 29);
    CHECK(part_of(Date::parse("2020-13-01", Form::OrTimestamp)) == "5 7 2" && part_of(Date::parse("86400", Form::OrTimestamp)) == "none");
    CHECK(part_of(Date::parse("x", Form::Text, with(Unit::Infer, Overflow::Error, Order::Lax, 86400))) == "none");
    CHECK(said(Date::of(2020, -1, 1)) == "out_of_range_month" && said(Date::of(2020, 1, -1)) == "out_of_range_day");
    CHECK(date("1970-01-02").days() == 1 && date("1969-12-31").days() == -1 && date("2020-01-01").days() == 18262);
    CHECK(said(Date::from_days(18262)) == "2020-01-01" && said(Date::from_days(-719529)) == "no_such_date");
    const Date early = date("2020-02-29"), late = date("2020-03-01");
    CHECK(early < late && late > early && early <= late && late >= early && early <= early && early >= early);
    CHECK(!(late < early) && !(early > late) && early == early && early != late && !(early == late) &&
          !(early != early));
    CHECK(compare(early, late) < 0 && compare(late, early) > 0 && compare(early, early) == 0);
    std::vector<Date> sorted = {late, early};
    std::sort(sorted.begin(), sorted.end());
    CHECK(sorted[0] == early);
}

static void times() {
    const Time time = time_of("12:13:14.5+01:30");
    CHECK(time == Time::of(12, 13, 14, 500000, 5400).value() && time != Time::of(12, 13, 14, 500000).value());
    CHECK(time.hour() == 12 && time.minute() == 13 && time.second() == 14 && time.microsecond() == 500000);
    CHECK(time.offset() == 5400 && !time_of("12:13").offset());
    CHECK(said(Time::of(12, 60)) == "out_of_range_minute" && said(Time::of(12, 0, 0, 0, 86400)) == "out_of_range_tz");
    CHECK(Time::of(SpeedateTime{12, 13, 0, 0, 0, 7}).value() == time_of("12:13"));
    CHECK(said(Time::parse("12:13", Form::OrTimestamp)) == "config_out_of_range");
    CHECK(part_of(Time::parse("12:13+01:00", Form::Strict)) == "5 6 4");
    CHECK(said(Time::of(0, 0, -1)) == "out_of_range_second" && said(Time::of(0, 0, 0, 0, -60)) == "00:00:00-00:01");
}

static void date_times() {
    const Config unix_time = with(Unit::Second, Overflow::Truncate, Order::Lax, 0);
    const DateTime value = moment("2020-02-29T12:13:14.5+01:30");
    CHECK(value == DateTime(date("2020-02-29"), time_of("12:13:14.5+01:30")) && value.date() == date("2020-02-29"));
    CHECK(value.time() == time_of("12:13:14.5+01:30") && value != moment("2020-02-29T12:13:14.5"));
    CHECK(value.to_text(FractionDigits::Three) == "2020-02-29T12:13:14.500+01:30" &&
          value.to_text(FractionDigits::Zero) == "2020-02-29T12:13:14+01:30" &&
          value.time().to_text(FractionDigits::Six) == "12:13:14.500000+01:30" &&
          time_of("12:13").to_text(FractionDigits::Three) == "12:13:00.000");
    CHECK(DateTime::of(value.c()).value() == value && said(DateTime::of(SpeedateDateTime{})) == "out_of_range_month");
    CHECK(DateTime::of(SpeedateDateTime{{2020, 2, 29}, {12, 13, 0, 0, 0, 7}}).value() == moment("2020-02-29T12:13"));
    CHECK(part_of(DateTime::parse("2026-11-22T12:00:00-ERROR", Form::Front)) == "20 22 5");
    CHECK(said(DateTime::from_timestamp(1, 2)) == "1970-01-01T00:00:01.000002");
    CHECK(said(DateTime::from_timestamp(20000000001, 0, unix_time)) == "2603-10-11T11:33:21Z");
    const DateTime zoned = moment("1970-01-01T01:00:01.5+01:00");
    CHECK(said(DateTime::from_unix_microseconds(1500000)) == "1970-01-01T00:00:01.500000Z" &&
          said(DateTime::from_unix_microseconds(INT64_MIN)) == "date_too_small");
    CHECK(zoned.unix_microseconds() == 1500000 && moment("1970-01-01T00:00:01.5").unix_microseconds() == 1500000);
    CHECK(said(zoned.in_timezone(0)) == "1970-01-01T00:00:01.500000Z" &&
          said(zoned.in_timezone(86400)) == "out_of_range_tz");
    CHECK(zoned.unix_microseconds() == zoned.in_timezone(0)->unix_microseconds() && zoned != zoned.in_timezone(0).value());
}

static void durations() {
    const Duration duration = length("-P1DT2.000003S");
    CHECK(duration == Duration::of(true, 1, 2, 3).value() && duration != Duration::of(false, 1, 2, 3).value());
    CHECK(duration.negative() && duration.day() == 1 && duration.second() == 2 && duration.microsecond() == 3);
    CHECK(said(Duration::normalized(false, 1, 86500, 1000123)) == "P2DT1M41.000123S" &&
          said(Duration::normalized(false, 1000000000)) == "duration_days_too_large");
    CHECK(said(Duration::normalized(false, 0, (std::int64_t{1} << 32) + 5)) == "duration_value_too_large" &&
          said(Duration::normalized(false, 0, -1)) == "duration_value_too_large");
    CHECK(Duration::of(std::chrono::microseconds(-1500000)).to_text() == "-PT1.5S");
    CHECK(Duration::of(duration.c()).value() == duration);
    CHECK(said(Duration::of(SpeedateDuration{0, 0, 86400, 0})) == "duration_value_too_large");
    CHECK(said(Duration::parse("P1D1Y")) == "P1Y1D" && part_of(Duration::parse("P1D1Q")) == "4 5 8");
    CHECK(said(Duration::parse("P1D", Form::Strict)) == "config_out_of_range");
    CHECK(duration.microseconds().value() == std::chrono::microseconds(-86402000003));
    CHECK(length("P999999999D").microseconds().error() == Error(SPEEDATE_NUMBER_TOO_LARGE));
    CHECK(said(Duration::sum({length("PT2H"), length("-PT30M")})) == "PT1H30M" &&
          said(Duration::sum(std::array<Duration, 2>{length("PT2H"), length("-PT30M")})) == "PT1H30M" &&
          said(Duration::sum(std::vector<Duration>())) == "PT0S" &&
          said(Duration::sum(std::vector<Duration>(2, length("P999999999D")))) == "duration_days_too_large");
    CHECK((-duration).to_text() == "P1DT2.000003S");
    const DateTime start = moment("2020-02-29T23:00Z"), end = moment("2020-03-01T00:30Z");
    CHECK(Duration::between(start, end).to_text() == "PT1H30M" &&
          Duration::between(end, start).to_text() == "-PT1H30M");
    CHECK((start + length("PT90M")).value() == end && (end - length("PT90M")).value() == start);
    CHECK(said(end - length("P9999Y")) == "date_too_small");
    CHECK((end - start).to_text() == "PT1H30M" && (start - end).to_text() == "-PT1H30M");
    CHECK((start + std::chrono::minutes(90)).value() == end && (end - std::chrono::minutes(90)).value() == start);
    CHECK(said(start + std::chrono::microseconds(-1)) == "2020-02-29T22:59:59.999999Z" &&
          said(start + std::chrono::microseconds(INT64_MAX)) == "date_too_large");
    CHECK(said(length("PT2H") + length("-PT30M")) == "PT1H30M" && said(length("PT2H") - length("PT30M")) == "PT1H30M" &&
          said(length("P999999999D") + length("P1D")) == "duration_days_too_large");
    const Duration less = length("-PT0S"), more = length("PT0S");
    CHECK(less < more && more > less && less <= more && more >= less && less != more && compare(less, more) < 0);
    const char *const rising[] = {"-P1DT1S", "-P1D", "-PT2S", "-PT1.5S", "-PT1S", "-PT0S", "PT0S", "PT1S", "PT1.5S", "PT2S", "P1D", "P1DT1S"};
    for (const char *const *one = rising; one != std::end(rising); one++)
        for (const char *const *other = rising; other != std::end(rising); other++) {
            CHECK((length(*one) < length(*other)) == (one < other));
            CHECK((compare(length(*one), length(*other)) == 0) == (one == other));
        }
}

// What a column has read: its numbers, `-` for the smallest, with the errors that were written for them; how many bytes they take;
// and the error that ends it.
template <class Numbers>
static std::string listed(const Result<Progress> &read, const Numbers &numbers, const std::uint8_t *errors = nullptr) {
    if (!read)
        return read.error().name();
    std::string text;
    for (std::size_t i = 0; i < read->lines; i++) {
        const auto number = std::data(numbers)[i];
        text += number == std::numeric_limits<std::decay_t<decltype(number)>>::min() ? "-" : std::to_string(number);
        text += errors && errors[i] ? ":" + std::string(speedate_code_string(errors[i])) + " " : " ";
    }
    return text + "at " + std::to_string(read->bytes) + (read->error ? " " + std::string(read->error->name()) : "");
}

static void columns() {
    std::vector<std::int64_t> numbers(3, 7);
    std::array<std::uint8_t, 2> errors = {7, 7};
    std::int32_t days[2] = {7, 7};
    ColumnConfig column, clocks;
    clocks.clock = true;
    const std::string_view moments = "1970-01-01T00:00:01Z\n1970-01-01T01:00+01:00\nago\n";
    const Progress read = datetime_column(moments, numbers).value();
    CHECK(read.lines == 2 && read.bytes == moments.size() - 4 && read.error == Error(SPEEDATE_TOO_SHORT));
    CHECK(read.error->start() == 3 && read.error->end() == 3);
    CHECK(read.error->expected() == "a date-time: YYYY-MM-DDTHH:MM or YYYY-MM-DDTHH:MM:SS");
    CHECK(numbers == std::vector<std::int64_t>({1000000, 0, 7}));
    column.go_on = true;
    CHECK(listed(datetime_column(moments, numbers, column), numbers) == "1000000 0 - at 48");
    column = ColumnConfig();
    column.at_end = false;
    column.drop_returns = true;
    column.form = Form::OrTimestamp;
    CHECK(listed(date_column("86400\r\n1970-01-0", days, column), days) == "1 at 7" && days[1] == 7);
    CHECK(listed(duration_column("PT1.5S\n-00:01:00\n", numbers), numbers) == "1500000 -60000000 at 17");
    CHECK(listed(datetime_column("1970-01-01T00:00:01\n1970-01-01T01:00+01:00", numbers, clocks), numbers) == "1000000 3600000000 at 42");
    CHECK(listed(time_column("12:13:14.5\n00:00+01:00\n", numbers), numbers) == "43994500000 0 at 23");
    column = ColumnConfig();
    column.assume_utc = true;
    CHECK(listed(datetime_column("1970-01-01T00:00:02", numbers, column), numbers) == "2000000 at 19");
    column.form = Form::Strict;
    CHECK(listed(date_column("1970-01-02\n86400", days, column), days) == "1 at 11 too_short");
    CHECK(listed(datetime_offset_column("1970-01-01T01:00+01:00\n", days), days) == "3600 at 23");
    CHECK(listed(datetime_offset_column("1970-01-01T00:00:00Z\n1970-01-01T01:00+01:00\n", days, column), days) == "0 at 21 invalid_char_time_sep");
    CHECK(listed(time_offset_column("12:13-01:00\n12:13", days, column), days) == "at 0 invalid_char_time_sep");
    CHECK(listed(time_offset_column("12:13-01:00\n12:13", days), days) == "-3600 at 12 tz_required");
    CHECK(listed(time_offset_column(Texts("12:13Z", {0, 6}), days), days) == "config_out_of_range");
    const auto with_errors = [&](auto call, const char *text, auto &out, const ColumnConfig &config = {}) {
        errors = {7, 7};
        return listed(call(text, out, errors, config), out, errors.data());
    };
    CHECK(with_errors(datetime_column, "1970-01-01T00:00Z\n24:00\n1970-01-01T00:00Z", numbers) == "0 -:too_short at 24");
    CHECK(datetime_column("x", numbers, std::array<std::uint8_t, 0>()).value().lines == 0);
    CHECK(with_errors(date_column, "1970-01-03\nx", days) == "2 -:too_short at 12");
    CHECK(with_errors(datetime_column, "1970-01-01T00:00:03-01:00\nx", numbers, clocks) == "3000000 -:too_short at 27");
    CHECK(with_errors(datetime_offset_column, "1970-01-01T00:00:03-01:00\n1970-01-01T00:00", days) == "-3600 -:tz_required at 42");
    CHECK(with_errors(time_column, "00:00:04+01:00\n24:00", numbers) == "4000000 -:out_of_range_hour at 20");
    CHECK(with_errors(duration_column, "PT2S\nP999999999D", numbers) == "2000000 -:number_too_large at 16");

    // All calls pass on the configuration, the form and the flags in one function.
    column = ColumnConfig();
    column.config = with(Unit::Microsecond, Overflow::Truncate, Order::Strict);
    column.form = Form::OrTimestamp;
    column.drop_returns = true;
    column.assume_utc = true;
    CHECK(listed(datetime_column("5\r\n", numbers, column), numbers) == "5 at 3");
    CHECK(with_errors(date_column, "172800000000\r\n", days, column) == "2 at 14");
    column.form = Form::Text;
    CHECK(listed(time_column("00:00:00.0000019\r\n", numbers, column), numbers) == "1 at 18");
    CHECK(with_errors(duration_column, "PT4S\r\nPT1S1M", numbers, column) == "4000000 -:duration_unit_order at 12");
}

static void fronts() {
    std::array<SpeedateDateTimeFront, 2> fronts = {};
    std::array<std::uint8_t, 2> errors = {7, 7};
    ColumnConfig column;
    column.assume_utc = true;
    Progress read = datetime_front_column("1970-01-01T00:00:01Z GET /\nx", fronts).value();
    CHECK(read.lines == 1 && fronts[0].microseconds == 1000000 && fronts[0].size == 20);
    CHECK(read.error == Error(SPEEDATE_TOO_SHORT));
    read = datetime_front_column("1970-01-01T00:00 x\nx", fronts, errors, column).value();
    CHECK(read.lines == 2 && fronts[0].size == 16 && fronts[1].size == 0 && errors[1] == SPEEDATE_TOO_SHORT);
    column = ColumnConfig();
    column.form = Form::Loose;
    read = datetime_front_column("1970-01-01 01:00:01 +0100 GET /\n1970-01-01T00:00Zx", fronts, column).value();
    CHECK(read.lines == 1 && fronts[0].microseconds == 1000000 && fronts[0].size == 25);
    CHECK(read.error == Error(SPEEDATE_EXTRA_CHARACTERS));
    column.form = Form::LooseFront;
    CHECK(datetime_front_column("", fronts, column).error() == Error(SPEEDATE_CONFIG_OUT_OF_RANGE));
}

static void columns_of_texts() {
    std::vector<std::int64_t> numbers(3, 7);
    std::array<std::uint8_t, 3> errors = {7, 7, 7};
    std::int32_t days[2] = {7, 7};
    const std::vector<std::int32_t> offsets = {1, 11, 21};
    CHECK(listed(date_column(Texts(">1970-01-021969-12-31", offsets), days), days) == "1 -1 at 21");
    CHECK(listed(date_column(Texts("x1970-01-03", {0, 1, 11}), days, errors), days, errors.data()) == "-:too_short 2 at 11" && errors[2] == 7);
    CHECK(listed(datetime_column(Texts("1970-01-01T00:00:01Zago", {0, 20, 23}), numbers), numbers) == "1000000 at 20 too_short");
    CHECK(numbers == std::vector<std::int64_t>({1000000, 7, 7}));
    CHECK(datetime_column(Texts("x", {0, 1}), numbers, std::array<std::uint8_t, 0>()).value().lines == 0);
    CHECK(listed(time_column(Texts("12:13:14.500:00+01:00", {0, 10, 21}), numbers), numbers) == "43994500000 0 at 21");
    CHECK(listed(duration_column(Texts("PT2SP999999999D", {0, 4, 15}), numbers, errors), numbers, errors.data()) == "2000000 -:number_too_large at 15");
    CHECK(listed(date_column(Texts("", std::vector<std::int32_t>()), days), days) == "at 0");
    CHECK(listed(date_column(Texts("1970-01-02", {10, 0}), days), days) == "value_out_of_range" && days[0] == INT32_MIN);
}

static void columns_in_print() {
    std::string text(40, '-');
    const std::int32_t days[] = {1, -1, INT32_MIN, -719529};
    Progress printed = date_print_column(days, text);
    CHECK(printed.lines == 3 && printed.bytes == 23 && printed.error == Error(SPEEDATE_DATE_TOO_SMALL));
    CHECK(text == "1970-01-02\n1969-12-31\n\n" + std::string(17, '-'));
    CHECK(date_print_column({2932896, 2932897}, text).error == Error(SPEEDATE_DATE_TOO_LARGE));
    std::array<char, 21> line;
    const std::vector<std::int64_t> numbers = {1000000, 0};
    printed = datetime_print_column(numbers, line);
    CHECK(printed.lines == 1 && !printed.error &&
          std::string_view(line.data(), printed.bytes) == "1970-01-01T00:00:01Z\n");
    printed = datetime_clock_print_column(numbers, line);
    CHECK(std::string_view(line.data(), printed.bytes) == "1970-01-01T00:00:01\n");
    printed = time_print_column(numbers, line);
    CHECK(std::string_view(line.data(), printed.bytes) == "00:00:01\n00:00:00\n");
    printed = duration_print_column(numbers, line);
    CHECK(std::string_view(line.data(), printed.bytes) == "PT1S\nPT0S\n");
}

static void chrono() {
    const DateTime value = moment("2020-02-29T12:13:14.5+01:30");
    const SysTime point(std::chrono::microseconds(1582972994500000));
    CHECK(value.sys_time() == point && said(DateTime::of(point)) == "2020-02-29T10:43:14.500000Z");
    CHECK(said(DateTime::of(SysTime(std::chrono::microseconds(INT64_MAX)))) == "date_too_large");
    CHECK(said(DateTime::of(SysTime(std::chrono::microseconds(-1)))) == "1969-12-31T23:59:59.999999Z");
    // Of any unit, as clocks have them, and up to the ends of their numbers.
    using Clock = std::chrono::system_clock;
    const auto at = [](auto since) { return said(DateTime::of(std::chrono::time_point<Clock, decltype(since)>(since))); };
    CHECK(at(std::chrono::seconds(1582972994)) == "2020-02-29T10:43:14Z");
    CHECK(at(std::chrono::milliseconds(1582972994567)) == "2020-02-29T10:43:14.567000Z");
    CHECK(at(std::chrono::nanoseconds(1582972994567891999)) == "2020-02-29T10:43:14.567891Z");
    CHECK(at(std::chrono::nanoseconds(-1)) == "1969-12-31T23:59:59.999999Z");
    CHECK(at(std::chrono::nanoseconds(INT64_MIN)) == "1677-09-21T00:12:43.145224Z");
    CHECK(at(std::chrono::seconds(INT64_MAX)) == "date_too_large");
    CHECK(at(std::chrono::seconds(INT64_MIN)) == "date_too_small");
    CHECK(at(std::chrono::milliseconds(INT64_MAX)) == "date_too_large");
    const auto now = Clock::now();
    CHECK(DateTime::of(now)->sys_time() == std::chrono::floor<std::chrono::microseconds>(now));
#ifdef SPEEDATE_HAS_CALENDAR
    using namespace std::chrono;
    CHECK(date("2020-02-29").year_month_day() == 2020y / February / 29d);
    CHECK(said(Date::of(2020y / February / 29d)) == "2020-02-29" &&
          said(Date::of(2021y / February / 29d)) == "out_of_range_day");
    CHECK(said(Date::of(year(-1) / December / 31d)) == "date_too_small" &&
          said(Date::of(year(10000) / 1 / 1)) == "date_too_large");
    CHECK(sys_days(date("1970-01-02").year_month_day()) == sys_days(days(1)));
    CHECK(date("1970-01-02").sys_days() == sys_days(days(1)) && date("0000-01-01").sys_days() == 0y / January / 1d);
    CHECK(said(Date::of(2020y / February / last)) == "2020-02-29");
    const auto at_day = [](days since) { return said(Date::of(sys_days(since))); };
    CHECK(at_day(days(-1)) == "1969-12-31" && at_day(days(2932896)) == "9999-12-31");
    CHECK(at_day(days(2932897)) == "no_such_date" && at_day(days(-719529)) == "no_such_date");
    CHECK(at_day(days::max()) == "no_such_date" && at_day(days::min()) == "no_such_date");
    const sys_time<microseconds> moment_of_20 = value.sys_time();
    CHECK(DateTime::of(moment_of_20).value() == value.in_timezone(0).value());
#elif __cplusplus >= 202002L
    std::cout << "not tried: year_month_day, since this library of C++ has no calendar\n";
#endif
}

// Whether a call can have a number for its flag: then it would stand for a flag that nobody has named.
template <class Flag, class = void> struct TakesSign : std::false_type {};
template <class Flag>
struct TakesSign<Flag, std::void_t<decltype(Duration::of(std::declval<Flag>(), 2))>> : std::true_type {};
template <class Flag, class = void> struct NormalizesSign : std::false_type {};
template <class Flag>
struct NormalizesSign<Flag, std::void_t<decltype(Duration::normalized(std::declval<Flag>(), 2))>> : std::true_type {};
static_assert(TakesSign<bool>::value && !TakesSign<int>::value && NormalizesSign<bool>::value);
static_assert(!NormalizesSign<int>::value);

static void keys() {
    const std::unordered_set<Date> dates = {date("2020-02-29"), date("2020-03-01"), date("2020-02-29")};
    CHECK(dates.size() == 2 && dates.count(date("2020-03-01")) == 1 && dates.count(date("2020-03-02")) == 0);
    CHECK(std::hash<Time>()(time_of("12:00")) == std::hash<Time>()(Time::of(12, 0).value()));
    CHECK(std::hash<Time>()(time_of("12:00")) != std::hash<Time>()(time_of("12:00Z")));
    CHECK(std::unordered_set<DateTime>({moment("2020-02-29T12:00Z"), moment("2020-02-29T13:00+01:00")}).size() == 2);
    CHECK(std::unordered_set<Duration>({length("PT60M"), length("PT1H"), length("-PT0S"), length("PT0S")}).size() == 3);
#ifdef __cpp_lib_format
    CHECK(std::format("{} {:>6} {:*<11}", date("2020-02-29"), time_of("12:13:14"), length("PT1H")) ==
          "2020-02-29 12:13:14 PT1H*******");
    const DateTime value = moment("2020-02-29T12:13:14.567891+01:30");
    const Time clock = value.time();
    const Date day = value.date();
    const Duration second = length("PT1.5S");
    CHECK(std::format("{:.3} {:.0} {:.6}", value, value, clock) ==
          "2020-02-29T12:13:14.567+01:30 2020-02-29T12:13:14+01:30 12:13:14.567891+01:30");
    CHECK(std::format("{:.3}|{:.>20.3}|{:>19.3}|{:.^16.0}|{:20.3}|{:.<25}", clock, clock, clock, clock, clock, clock) ==
          "12:13:14.567+01:30|..12:13:14.567+01:30| 12:13:14.567+01:30|.12:13:14+01:30.|12:13:14.567+01:30  |12:13:14.567891+01:30....");
    CHECK(std::format("{:{}}|{:.>{}}|{:.<12}", day, 11, second, 8, day) == "2020-02-29 |..PT1.5S|2020-02-29..");
    // What std::vformat refuses, std::format does not compile.
    const auto is_refused = [](std::string_view format, const auto &it) {
        const int digits = 3;
        try {
            return std::vformat(format, std::make_format_args(it, digits)).empty();
        } catch (const std::format_error &) {
            return true;
        }
    };
    for (const char *format : {"{:.1}", "{:.2}", "{:.4}", "{:.7}", "{:.10}", "{:.03}", "{:.}", "{:.3s}", "{:.{}}", "{:{}.3}", "{:x.3}", "{:.3.3}", "{:.<.1}"})
        CHECK(is_refused(format, clock) && is_refused(format, value));
    for (const char *format : {"{:.0}", "{:.3}", "{:.6}", "{:12.3}", "{:.{}}", "{:.>.3}"})
        CHECK(is_refused(format, day) && is_refused(format, second));
#endif
}

int main() {
    rows();
    wide_numbers<int>();
    wide_numbers<unsigned>();
    wide_numbers<std::int64_t>();
    wide_numbers<std::uint64_t>();
    results();
    dates();
    times();
    date_times();
    durations();
    columns();
    fronts();
    columns_of_texts();
    columns_in_print();
    chrono();
    keys();
    return failures != 0;
}
