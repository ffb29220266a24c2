// SPDX-License-Identifier: MIT
// A call throws a SpeedateError if it refuses a text or a value; a TypeError if an argument, a field or an option has
// another type or name, or an option has another value; and a RangeError for a number that an argument cannot be, such as
// an offset of half a second.

/** A day of the Gregorian calendar, carried back to the year 0: `year` 0 to 9999, `month` 1 to 12, `day` 1 to the length of
 * the month. Calls ignore further fields, but not an `hour`: a date-time is not a date. */
export type SpeedateDate = { readonly year: number; readonly month: number; readonly day: number; readonly hour?: never };
/** A time of day: `hour` 0 to 23, `minute` and `second` 0 to 59, `millisecond` and `microsecond` 0 to 999 each, and
 * `offsetSeconds`, the offset from UTC, -86399 to 86399, positive east of it, or null. A date-time is not a time. */
export type SpeedateTime = {
  readonly hour: number; readonly minute: number; readonly second: number;
  readonly millisecond: number; readonly microsecond: number; readonly offsetSeconds: number | null;
  readonly year?: never;
};
/** A date and a time of day, as a clock at the offset shows them. */
export type SpeedateDateTime = {
  readonly year: number; readonly month: number; readonly day: number;
  readonly hour: number; readonly minute: number; readonly second: number;
  readonly millisecond: number; readonly microsecond: number; readonly offsetSeconds: number | null;
};
/** A length of time: `days` of 86400 seconds up to 999999999, `seconds` up to 86399, `milliseconds` and `microseconds` up to
 * 999. If `sign` is -1, they are 0 or negative. Zero may be negative too: `-PT0S` and `PT0S` differ. */
export type SpeedateDuration = {
  readonly sign: 1 | -1; readonly days: number; readonly seconds: number; readonly milliseconds: number; readonly microseconds: number;
};
/** A duration as an argument. A field that is missing is 0, and the sign is then the sign of the amounts: `{ days: 1 }`, `{ seconds: -90 }`.
 * There are no other fields: hours are seconds. */
export type DurationInput = {
  readonly sign?: 1 | -1; readonly days?: number; readonly seconds?: number; readonly milliseconds?: number; readonly microseconds?: number;
};
/** A value of each kind. */
export type SpeedateValue = SpeedateDate | SpeedateTime | SpeedateDateTime | SpeedateDuration;

/** A string, in which a lone surrogate counts as U+FFFD, or bytes of UTF-8. */
export type StringOrBytes = string | Uint8Array;

/** The names of errors. Only `safe` calls and schemas have `invalid_type`, for data that is not a text. */
export type ErrorCode = "invalid_type" | @CODES@;
/** Why a text or a value is refused, and for people what was expected in its place: `month, 01 to 12`. */
type Reason = { readonly code: ErrorCode; readonly expected: string };
/** The wrong part of a text, in units of a string, as `slice` counts, otherwise in bytes: 5 to 7 of `2020-13-01`. If the part is
 * missing, both are where it should begin: the length of a text that is too short. */
type Part = { readonly start: number; readonly end: number };
/** A refused text or value. The message is `expected`, after that word. The error of any entry, in CommonJS too, is an instance of the
 * class of each. */
export class SpeedateError extends RangeError {
  private constructor();
  readonly code: ErrorCode;
  readonly expected: string;
  /** The refused text, or a copy of its bytes: for a front only those that were looked at, for a column the bytes of the line. A value has
   * none. */
  readonly text?: StringOrBytes;
  /** Where the wrong part of `text` starts, and where it ends. */
  readonly start?: number;
  readonly end?: number;
  /** The index, from 0, of a line that is read, or of a number that is printed. */
  readonly index?: number;
  /** The fields but the text, as a plain object. `structuredClone`, `postMessage` and loggers keep them, and of an error only the message. */
  toJSON(): Reason & Partial<Part> & { readonly name: string; readonly message: string; readonly index?: number };
}
/** The result of a `safe` call: the value, or why there is none. It never throws for data: what is neither a string nor a
 * Uint8Array is refused as `invalid_type`, "a string", and so is a text for which there is no memory, "a shorter text". */
export type Answer<Value> = { readonly ok: true; readonly value: Value } | Refusal;
/** A refused text. */
export type Refusal = { readonly ok: false } & Reason & Part;
/** The value at the front of a text, and its size in bytes of UTF-8, and in units of a string: 10 of `2020-02-29 rent`. What follows is
 * the caller's: `2020-02-29 08:00:00 -0500` begins with a date-time that lacks an offset, but not with `loose`. */
export type Front<Value, Text> = { readonly value: Value; readonly size: number } & (Text extends string ? { readonly length: number } : unknown);

/** `infer` is `s` if the timestamp without its sign is at most 20000000000, otherwise `ms`. */
export type TimestampUnit = "infer" | "s" | "ms" | "us";
type TextForm = { form?: "text"; timestampUnit?: undefined };
type StrictForm = { form?: "text" | "strict"; timestampUnit?: undefined };
type TimestampForm = { form: "orTimestamp"; timestampUnit: TimestampUnit };
/** What happens to digits past the microsecond: `error`, the default, refuses the text; `truncate` drops them, and rounds a
 * timestamp to the nearest microsecond. An ISO 8601 duration is rounded under both. */
export type OverflowOptions = { overflow?: "error" | "truncate" };
/** How a date is read: only as a date (`text`, the default), or also as a timestamp of this unit, which is a whole number, 20200229 too,
 * and has to be a midnight. */
export type DateOptions = TextForm | TimestampForm;
/** How a time is read: in any form (`text`, the default), or only by RFC 3339 (`strict`). */
export type TimeOptions = OverflowOptions & Omit<StrictForm, "timestampUnit">;
/** How a date-time is read: in any form but numbers (`text`, the default), also as a timestamp of this unit, any number, whose value
 * is in UTC, or only by RFC 3339 (`strict`). */
export type DateTimeFormOptions = OverflowOptions & ((TextForm & LooseOptions) | ((StrictForm | TimestampForm) & { loose?: false }));
/** Whether the offset may also be a zone as programs print it: `+01`, and after one blank `UTC`, `GMT`, `+01:00` or `+0100`. At the front of a text
 * a letter or a digit after the date-time is then refused, and so is a digit after a `.`, `:`, `+` or `-` there. */
export type LooseOptions = { loose?: boolean };
/** A date-time without an offset is refused with `tz_required` (`error`), or taken to be in UTC (`utc`). By default its
 * `offsetSeconds` is null, and a column refuses it. */
export type MissingOffsetOptions = { missingOffset?: "error" | "utc" };
export type DateTimeOptions = MissingOffsetOptions & DateTimeFormOptions;
/** The order of the components of an ISO 8601 duration: any, and repeated (`lax`, the default), or each once, in order. */
export type DurationOptions = OverflowOptions & { isoOrder?: "lax" | "strict" };
type NoOptions = Record<string, never>;

/** Parses a date: `parseDate("2020-02-29")` is `{ year: 2020, month: 2, day: 29 }`. */
export function parseDate(text: StringOrBytes, options?: DateOptions): SpeedateDate;
/** Parses a time of day: `parseTime("12:13:14.5+01:00")`. */
export function parseTime(text: StringOrBytes, options?: TimeOptions): SpeedateTime;
/** Parses a date-time: `parseDateTime("2020-02-29T12:13:14.5+01:00")`. */
export function parseDateTime(text: StringOrBytes, options?: DateTimeOptions): SpeedateDateTime;
/** Parses a duration: `PT90M`, `-00:01:30.5` or `2 days, 10:20`. A year is 365 days, and a month 30. */
export function parseDuration(text: StringOrBytes, options?: DurationOptions): SpeedateDuration;
/** Parses the date at the front of a text, whatever follows it: `parseDateFront("2020-02-29 rent").length` is 10. It has no options. */
export function parseDateFront<It extends StringOrBytes>(text: It, options?: NoOptions): Front<SpeedateDate, It>;
/** The same of a time: `12:13` of `12:13, noon`. */
export function parseTimeFront<It extends StringOrBytes>(text: It, options?: OverflowOptions): Front<SpeedateTime, It>;
/** The same of a date-time: `2020-02-29T12:13:14Z` of `2020-02-29T12:13:14Z GET /`. */
export function parseDateTimeFront<It extends StringOrBytes>(text: It, options?: OverflowOptions & LooseOptions): Front<SpeedateDateTime, It>;
/** As `parseDate`, but a refusal is returned: `safeParseDate("2021-02-29")` is `{ ok: false, code: "out_of_range_day",
 * expected: "a day that the month has", start: 8, end: 10 }`. */
export function safeParseDate(text: unknown, options?: DateOptions): Answer<SpeedateDate>;
/** As `parseTime`, but a refusal is returned. */
export function safeParseTime(text: unknown, options?: TimeOptions): Answer<SpeedateTime>;
/** As `parseDateTime`, but a refusal is returned. */
export function safeParseDateTime(text: unknown, options?: DateTimeOptions): Answer<SpeedateDateTime>;
/** As `parseDuration`, but a refusal is returned. */
export function safeParseDuration(text: unknown, options?: DurationOptions): Answer<SpeedateDuration>;
/** As `parseDateFront`, but a refusal is returned. */
export function safeParseDateFront<It>(text: It, options?: NoOptions): Answer<Front<SpeedateDate, It>>;
/** As `parseTimeFront`, but a refusal is returned. */
export function safeParseTimeFront<It>(text: It, options?: OverflowOptions): Answer<Front<SpeedateTime, It>>;
/** As `parseDateTimeFront`, but a refusal is returned. */
export function safeParseDateTimeFront<It>(text: It, options?: OverflowOptions & LooseOptions): Answer<Front<SpeedateDateTime, It>>;

/** Why a schema refuses data. The message is `expected`, after that word. */
export type SchemaIssue = { readonly message: string } & Reason & Part;
/** A schema as validators take it, by version 1 of the interface Standard Schema. */
export type Schema<Value> = {
  readonly "~standard": {
    readonly version: 1;
    readonly vendor: "speedate";
    readonly validate: (value: unknown) => { readonly value: Value; readonly issues?: undefined } | { readonly issues: readonly SchemaIssue[] };
    readonly types?: { readonly input: string; readonly output: Value };
  };
};
/** A schema of strings that are texts of a kind, parsed with the options of a single text: `schema("date")`. */
export function schema(kind: "date", options?: DateOptions): Schema<SpeedateDate>;
export function schema(kind: "time", options?: TimeOptions): Schema<SpeedateTime>;
export function schema(kind: "dateTime", options?: DateTimeOptions): Schema<SpeedateDateTime>;
export function schema(kind: "duration", options?: DurationOptions): Schema<SpeedateDuration>;

/** The date-time of a timestamp, in UTC: 1970-01-01T00:00:01.5Z of `dateTimeFromTimestamp(1500, "ms")`. `date_too_small` or `date_too_large`
 * outside the years 0 to 9999. For another offset, see `withOffset`. */
export function dateTimeFromTimestamp(timestamp: number | bigint, unit: TimestampUnit): SpeedateDateTime;
/** The microseconds of Unix time, exactly: `dateTimeFromTimestamp(it, "us")` is the date-time again, in UTC. `tz_required` without an offset. */
export function toUnixMicroseconds(value: SpeedateDateTime): bigint;
/** The Date of a date-time, rounded down to the millisecond: `toDate(parseDateTime("1970-01-01T00:00Z")).getTime()` is 0. `tz_required` without an
 * offset. */
export function toDate(value: SpeedateDateTime): Date;
/** The date-time of a Date, in UTC: `fromDate(new Date(0))`. `date_too_small` or `date_too_large` outside the years 0 to 9999. */
export function fromDate(date: Date): SpeedateDateTime;

/** The date of a date-time, and its time of day with the offset, as its clock shows them. */
export function dateOf(value: SpeedateDateTime): SpeedateDate;
export function timeOf(value: SpeedateDateTime): SpeedateTime;

/** The one text of a value: `PT1H30M` of 90 minutes. With `digits` a time or a date-time has just as many digits after the second,
 * rounded down: `12:13:14.500Z` with 3, as `Date` prints it. A RangeError where an offset is not whole minutes, since it would be
 * parsed as another. */
export function format(value: SpeedateValue | DurationInput, options?: NoOptions): string;
export function format(value: SpeedateTime | SpeedateDateTime, options: { digits?: 0 | 3 | 6 }): string;
/** The order of two values, for `dates.sort(compare)`: -1 if the first is the smaller one, 0 if they are equal, otherwise 1. Times and
 * date-times compare by instant if both have an offset, otherwise as clocks show them, unlike in `until`: sort values that
 * all have one, or that all have none. */
export function compare<Value extends SpeedateValue>(first: Value, second: Value): -1 | 0 | 1;
/** The days from one date to the other, negative if `earlier` is the later one: 366 from 2020-01-01 to 2021-01-01. */
export function daysBetween(earlier: SpeedateDate, later: SpeedateDate): number;
/** The value moved by a duration, at the same offset: 2020-03-01 of 2020-02-29 and `P1D`. `date_not_exact` if a date would move by a
 * part of a day; `date_too_small` or `date_too_large` outside the years 0 to 9999. */
export function add(start: SpeedateDate, duration: DurationInput): SpeedateDate;
export function add(start: SpeedateDateTime, duration: DurationInput): SpeedateDateTime;
export function add(start: SpeedateDate | SpeedateDateTime, duration: DurationInput): SpeedateDate | SpeedateDateTime;
/** The value moved back by a duration, with the errors of `add`: 2020-02-28 of 2020-02-29 and `P1D`. */
export function subtract(start: SpeedateDate, duration: DurationInput): SpeedateDate;
export function subtract(start: SpeedateDateTime, duration: DurationInput): SpeedateDateTime;
export function subtract(start: SpeedateDate | SpeedateDateTime, duration: DurationInput): SpeedateDate | SpeedateDateTime;
/** The duration from one value to the other: `P1D` from 2020-02-29 until 2020-03-01. A date-time without offset is taken to be in UTC, unlike in
 * `compare`: 12:00 without one comes before 12:30+01:00 of the same day, and the duration until that is minus 30 minutes. */
export function until<Value extends SpeedateDate | SpeedateDateTime>(start: Value, end: Value): SpeedateDuration;
/** The duration of a number of microseconds, with its sign: `-PT1.5S` of -1500000. The number has to fit 64 bits. */
export function durationFromMicroseconds(microseconds: number | bigint): SpeedateDuration;
/** The sum of durations, each with its sign: `PT1H30M` of `PT2H` and `-PT30M`, and `PT0S` of none. `duration_days_too_large` if it has
 * over 999999999 days. */
export function sum(durations: readonly DurationInput[]): SpeedateDuration;
/** All microseconds of a duration, with its sign: `-1500000n` of `-PT1.5S`. `number_too_large` from 2 ** 63 on. */
export function totalMicroseconds(duration: DurationInput): bigint;
/** The value at the same instant, as a clock at another offset shows it: 13:00+01:00 of 12:00Z and 3600. It knows no zones. `out_of_range_tz`
 * from 24 hours on; `tz_required` without an offset; `time_too_large` if a time would fall on another day; `date_too_small` or
 * `date_too_large` if a date-time would fall outside the years 0 to 9999. */
export function withOffset(value: SpeedateTime, offsetSeconds: number): SpeedateTime;
export function withOffset(value: SpeedateDateTime, offsetSeconds: number): SpeedateDateTime;
export function withOffset(value: SpeedateTime | SpeedateDateTime, offsetSeconds: number): SpeedateTime | SpeedateDateTime;

/** Hands over the entry's module, `speedate/speedate.wasm` or `speedate/columns.wasm`, as a compiled `WebAssembly.Module`, in an
 * engine that compiles no bytes at run time, and to an entry `bare`: `init(await WebAssembly.compileStreaming(fetch(address)))`. It has to come
 * before all other calls, and changes nothing after one. A TypeError if it is another module. */
export function init(module: object): void;
