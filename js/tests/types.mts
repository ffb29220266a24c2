// What the types allow, and what they refuse.
import assert from "node:assert/strict";
import * as core from "speedate";
import * as speedate from "speedate/columns";
import * as bare from "speedate/bare";
import * as bareColumns from "speedate/columns/bare";
import type { Answer, ErrorCode, Front, LineRefusal, Refusal, Schema, SpeedateDate, SpeedateDateTime, SpeedateDuration, SpeedateTime, SpeedateValue } from "speedate/columns";

// Whether two types are the same one, not only whether one fits the other.
type Same<One, Other> = (<It>() => It extends One ? 1 : 2) extends <It>() => It extends Other ? 1 : 2 ? true : false;
const same = <One, Other>(is: Same<One, Other>, value: One): One => value;
type TimeOrRefusal = { readonly ok: true; readonly value: SpeedateTime } | Refusal;

// What a library that takes schemas by the interface Standard Schema, version 1, expects of one, and what it gives.
type Issue = { readonly message: string; readonly path?: ReadonlyArray<PropertyKey | { readonly key: PropertyKey }> | undefined };
type Result<Output> = { readonly value: Output; readonly issues?: undefined } | { readonly issues: ReadonlyArray<Issue> };
interface StandardSchema<Input = unknown, Output = Input> {
  readonly "~standard": {
    readonly version: 1;
    readonly vendor: string;
    readonly validate: (value: unknown, options?: { readonly libraryOptions?: Record<string, unknown> | undefined } | undefined) => Result<Output> | Promise<Result<Output>>;
    readonly types?: { readonly input: Input; readonly output: Output } | undefined;
  };
}
type OutputOf<It extends StandardSchema> = NonNullable<It["~standard"]["types"]>["output"];
type InputOf<It extends StandardSchema> = NonNullable<It["~standard"]["types"]>["input"];
function validated<It extends StandardSchema>(schema: It, value: unknown): OutputOf<It> {
  const result = schema["~standard"].validate(value);
  if (result instanceof Promise || result.issues) throw new TypeError("no value");
  return result.value;
}

// One use of each export, whose type is written out. The record has all names that the types declare, and no others.
const date: SpeedateDate = { year: 2020, month: 2, day: 29 };
const time: SpeedateTime = { hour: 12, minute: 13, second: 14, millisecond: 500, microsecond: 0, offsetSeconds: 0 };
const moment: SpeedateDateTime = { ...date, ...time, hour: 12, year: 2020 };
const second: SpeedateDuration = { sign: 1, days: 0, seconds: 1, milliseconds: 0, microseconds: 0 };
export const shapes = [
  same<number, SpeedateDate["year" | "month" | "day"]>(true, 0),
  same<number | null, SpeedateTime["offsetSeconds"]>(true, null), same<number, SpeedateTime["hour" | "minute" | "second" | "millisecond" | "microsecond"]>(true, 0),
  same<number | null, SpeedateDateTime["offsetSeconds"]>(true, null), same<number, Exclude<SpeedateDateTime[keyof SpeedateDateTime], null>>(true, 0),
  same<InputOf<Schema<SpeedateDate>>, string>(true, "2020-02-29"),
  same<Refusal["start"], number>(true, 0), same<speedate.SpeedateError["start"], number | undefined>(true, 0),
  same<SpeedateDuration["sign"], 1 | -1>(true, second.sign), same<SpeedateDuration[keyof SpeedateDuration], number>(true, second.days),
];
const bytes = new Uint8Array([49, 50, 58, 49, 51]);
const either = date as SpeedateDate | SpeedateDateTime;
const timed = time as SpeedateTime | SpeedateDateTime;
const any = second as SpeedateValue;
const labelled = { ...date, label: "rent" };
const timestamps = { form: "orTimestamp", timestampUnit: "s" } as const;
const uses: Record<keyof typeof speedate, unknown> = {
  parseDate: same<SpeedateDate, ReturnType<typeof speedate.parseDate>>(true, speedate.parseDate("86400", { form: "orTimestamp", timestampUnit: "s" })),
  parseTime: same<SpeedateTime, ReturnType<typeof speedate.parseTime>>(true, speedate.parseTime(bytes, { form: "text", overflow: "error" })),
  parseDateTime: same<SpeedateDateTime, ReturnType<typeof speedate.parseDateTime>>(true, speedate.parseDateTime("1", { form: "orTimestamp", timestampUnit: "us", missingOffset: "error", loose: undefined })),
  parseDuration: same<SpeedateDuration, ReturnType<typeof speedate.parseDuration>>(true, speedate.parseDuration("PT1S", { isoOrder: "strict", overflow: "truncate" })),
  parseDateFront: same<number, Front<SpeedateDate, string>["length"]>(true, speedate.parseDateFront("2020-02-29 x").length),
  parseTimeFront: same<SpeedateTime, Front<SpeedateTime, Uint8Array>["value"]>(true, speedate.parseTimeFront(bytes).value),
  parseDateTimeFront: same<number, Front<SpeedateDateTime, string>["size"]>(true, speedate.parseDateTimeFront("2020-02-29T12:13", { overflow: "truncate", loose: true }).size),
  safeParseDate: [same<Answer<SpeedateDate>, ReturnType<typeof speedate.safeParseDate>>(true, speedate.safeParseDate("x", timestamps)), speedate.safeParseDate(null)],
  safeParseTime: same<TimeOrRefusal, ReturnType<typeof speedate.safeParseTime>>(true, speedate.safeParseTime("12:13Z", { form: "strict" })),
  safeParseDateTime: same<Answer<SpeedateDateTime>, ReturnType<typeof speedate.safeParseDateTime>>(true, speedate.safeParseDateTime(5, { form: "strict" })),
  safeParseDuration: same<Answer<SpeedateDuration>, ReturnType<typeof speedate.safeParseDuration>>(true, speedate.safeParseDuration({}, { isoOrder: "lax" })),
  safeParseDateFront: ((it: Answer<Front<SpeedateDate, "x">>): ErrorCode | number => (it.ok ? it.value.length : it.code))(speedate.safeParseDateFront("x")),
  safeParseTimeFront: ((it: Answer<Front<SpeedateTime, "x">>): string | number => (it.ok ? it.value.value.hour : it.expected))(speedate.safeParseTimeFront("x", { overflow: "truncate" })),
  safeParseDateTimeFront: ((it: Answer<Front<SpeedateDateTime, undefined>>): number => (it.ok ? it.value.value.hour : it.start))(speedate.safeParseDateTimeFront(undefined, { overflow: "error" })),
  readColumn: [
    same<Int32Array, speedate.Column<Int32Array>["numbers"]>(true, speedate.readColumn("86400", "date", { ...timestamps, refused: "collect", maxRefusals: 1 }).numbers),
    ((it: Float64Array): number => it[0])(speedate.readColumn("1", "dateTime", { ...timestamps, missingOffset: "utc", unit: "ms" }).numbers),
    ((it: Float64Array): number => it.length)(speedate.readColumn(new Uint8Array(0), "dateTime").numbers),
    ((it: BigInt64Array): bigint => it[0])(speedate.readColumn("1970-01-01T00:00:00Z", "dateTime", { form: "strict", unit: "us", refused: "number" }).numbers),
    ((it: Float64Array): number => it[0])(speedate.readColumn("1", "dateTimeClock", { ...timestamps, unit: "ms" }).numbers),
    ((it: BigInt64Array): bigint => it[0])(speedate.readColumn("1970-01-01T00:00:00Z", "dateTimeClock", { form: "strict", unit: "us" }).numbers),
    ((it: Int32Array): number => it[0])(speedate.readColumn("1", "dateTimeOffset", timestamps).numbers),
    ((it: Float64Array): number => it[0])(speedate.readColumn("12:13", "time", { overflow: "truncate", unit: "ms" }).numbers),
    ((it: BigInt64Array): bigint => it[0])(speedate.readColumn("12:13:14Z", "time", { form: "strict", unit: "us" }).numbers),
    ((it: Int32Array): number => it[0])(speedate.readColumn("12:13Z", "timeOffset", { overflow: "error" }).numbers),
    ((it: Float64Array): number => it[0])(speedate.readColumn("PT1S", "duration", { isoOrder: "strict", overflow: "truncate", unit: "ms" }).numbers),
    ((it: BigInt64Array): bigint => it[0])(speedate.readColumn("PT1S", "duration", { unit: "us", refused: "collect" }).numbers),
    ((it: Float64Array): number => it[0])(speedate.readColumn("1970-01-01T00:00 x", "dateTime", { form: "front", missingOffset: "utc", overflow: "truncate" }).numbers),
    ((it: speedate.FrontColumn<BigInt64Array>): number => it.sizes[0])(speedate.readColumn("1970-01-01T00:00Z x", "dateTime", { form: "front", unit: "us" })),
    ((it: speedate.FrontColumn<Float64Array>): number => it.sizes[0])(speedate.readColumn("1970-01-01T00:00 UTC x", "dateTime", { form: "front", loose: true })),
    ((it: Int32Array): number => it[0])(speedate.readColumn("1970-01-01T00:00 UTC", "dateTimeOffset", { form: "text", loose: true }).numbers), speedate.columnReader("dateTimeClock", { form: "strict", loose: false }),
  ],
  columnReader: [
    ((it: Int32Array): number => it[0])(speedate.columnReader("date", { refused: "collect" }).end("1970-01-02").numbers),
    ((it: Float64Array): number => it.length)(speedate.columnReader("dateTime").read(new Uint8Array(0)).numbers),
    ((it: BigInt64Array): bigint => it[0])(speedate.columnReader("dateTime", { unit: "us", overflow: "truncate" }).end("1970-01-01T00:00Z").numbers),
    ((it: speedate.FrontColumn<Float64Array>): number => it.sizes.length)(speedate.columnReader("dateTime", { form: "front" }).read(new Uint8Array(0))),
    ((it: Float64Array): number => it.length)(speedate.columnReader("dateTimeClock").read(new Uint8Array(0)).numbers),
    ((it: Int32Array): number => it[0])(speedate.columnReader("dateTimeOffset").end("1970-01-01T00:00Z").numbers),
    ((it: BigInt64Array): bigint => it[0])(speedate.columnReader("time", { unit: "us" }).end("12:13").numbers),
    ((it: Int32Array): number => it[0])(speedate.columnReader("timeOffset", { form: "strict" }).end("12:13:14Z").numbers),
    same<number, speedate.Column<Float64Array>["refusedCount"]>(true, speedate.columnReader("duration").end("PT1S").refusedCount),
  ],
  printColumn: [
    same<string, ReturnType<typeof speedate.printColumn>>(true, speedate.printColumn(speedate.readColumn("1970-01-02", "date").numbers, "date")),
    speedate.printColumn(new Float64Array(1), "time"), speedate.printColumn(new BigInt64Array(1), "dateTimeClock"),
    speedate.printColumn(speedate.readColumn("1970-01-02T00:00Z", "dateTime").numbers, "dateTime"), speedate.printColumn(speedate.readColumn("PT1S", "duration", { unit: "us" }).numbers, "duration"),
  ],
  sum: same<SpeedateDuration, ReturnType<typeof speedate.sum>>(true, speedate.sum([second, second])),
  totalMicroseconds: same<bigint, ReturnType<typeof speedate.totalMicroseconds>>(true, speedate.totalMicroseconds(second)),
  dateTimeFromTimestamp: same<SpeedateDateTime, ReturnType<typeof speedate.dateTimeFromTimestamp>>(true, speedate.dateTimeFromTimestamp(1n, "infer")),
  toUnixMicroseconds: same<bigint, ReturnType<typeof speedate.toUnixMicroseconds>>(true, speedate.toUnixMicroseconds(moment)),
  dateOf: same<SpeedateDate, ReturnType<typeof speedate.dateOf>>(true, speedate.dateOf(moment)),
  timeOf: same<SpeedateTime, ReturnType<typeof speedate.timeOf>>(true, speedate.timeOf(moment)),
  toDate: same<Date, ReturnType<typeof speedate.toDate>>(true, speedate.toDate(moment)),
  fromDate: same<SpeedateDateTime, ReturnType<typeof speedate.fromDate>>(true, speedate.fromDate(new Date(0))),
  format: [speedate.format(date as SpeedateValue), same<string, ReturnType<typeof speedate.format>>(true, speedate.format(moment, { digits: 3 })), speedate.format(time, { digits: 0 }), speedate.format(labelled)],
  compare: [
    same<-1 | 0 | 1, ReturnType<typeof speedate.compare>>(true, speedate.compare(date, date)), speedate.compare(time, time),
    speedate.compare(moment, moment), speedate.compare(second, second), [date, date].sort(speedate.compare), [moment, moment].sort(speedate.compare),
    [labelled, labelled].sort(speedate.compare), speedate.compare(either, either), [either, either].sort(speedate.compare), speedate.compare(any, any),
  ],
  daysBetween: same<number, ReturnType<typeof speedate.daysBetween>>(true, speedate.daysBetween(date, date)),
  add: [((it: SpeedateDate) => it.day)(speedate.add(date, speedate.parseDuration("P1D"))), ((it: SpeedateDateTime) => it.hour)(speedate.add(moment, { days: 1 })), ((it: SpeedateDate | SpeedateDateTime) => it.day)(speedate.add(either, { days: -1 }))],
  subtract: [((it: SpeedateDate) => it.day)(speedate.subtract(date, speedate.parseDuration("P1D"))), ((it: SpeedateDateTime) => it.hour)(speedate.subtract(moment, second)), ((it: SpeedateDate | SpeedateDateTime) => it.day)(speedate.subtract(either, { days: 1 }))],
  until: [same<SpeedateDuration, ReturnType<typeof speedate.until>>(true, speedate.until(date, date)), speedate.until(moment, moment).sign, speedate.until(either, either).sign],
  durationFromMicroseconds: same<SpeedateDuration, ReturnType<typeof speedate.durationFromMicroseconds>>(true, speedate.durationFromMicroseconds(1n)),
  withOffset: [((it: SpeedateTime) => it.hour)(speedate.withOffset(time, 0)), ((it: SpeedateDateTime) => it.day)(speedate.withOffset(moment, 3600)), ((it: SpeedateTime | SpeedateDateTime) => it.hour)(speedate.withOffset(timed, 3600))],
  schema: [
    same<SpeedateDate, OutputOf<Schema<SpeedateDate>>>(true, validated(speedate.schema("date", timestamps), "86400")),
    same<SpeedateTime, OutputOf<Schema<SpeedateTime>>>(true, validated(speedate.schema("time", { form: "strict" }), "12:13:14Z")),
    same<SpeedateDateTime, OutputOf<Schema<SpeedateDateTime>>>(true, validated(speedate.schema("dateTime", { missingOffset: "utc" }), "2020-02-29T12:13")),
    same<SpeedateDuration, OutputOf<Schema<SpeedateDuration>>>(true, validated(speedate.schema("duration", { overflow: "truncate" }), "PT1S")),
  ],
  init: ((call: (module: object) => void): string => call.name)(speedate.init),
  SpeedateError: ((it: speedate.SpeedateError): [ErrorCode, string, string, speedate.StringOrBytes | undefined, number | undefined, number | undefined, number | undefined] =>
    [it.code, it.message, it.expected, it.text, it.start, it.end, it.index]).length,
};
// An import of CommonJS has a default too.
assert.deepEqual(Object.keys(uses).sort(), Object.keys(speedate).filter((it) => it !== "default").sort());
// The error of both entries is one type.
export const error = (it: core.SpeedateError): speedate.SpeedateError => it;

// What the types refuse, the calls refuse too.
const refused = [
  // @ts-expect-error
  () => ["2020-02-29"].map(speedate.parseDate),
  // @ts-expect-error
  () => speedate.parseDateFront("", { overflow: "truncate" }),
  // @ts-expect-error
  () => speedate.parseDateTime("", { form: "strict", timestampUnit: "s" }),
  // @ts-expect-error
  () => speedate.parseDateTime("", { form: "orTimestamp" }),
  // @ts-expect-error
  () => speedate.parseDate("", { timestampUnit: "s" }),
  // @ts-expect-error
  () => speedate.parseDate("", { form: "strict" }),
  // @ts-expect-error
  () => speedate.parseTime("", { form: "orTimestamp", timestampUnit: "s" }),
  // @ts-expect-error
  () => speedate.parseDateTime("", { form: "front" }),
  // @ts-expect-error
  () => speedate.parseDateTime("", { form: "strict", loose: true }),
  // @ts-expect-error
  () => speedate.parseDateTime("", { loose: 1 }),
  // @ts-expect-error
  () => speedate.parseTimeFront("", { loose: true }),
  // @ts-expect-error
  () => speedate.readColumn("", "time", { loose: true }),
  // @ts-expect-error
  () => speedate.parseDate(null),
  // @ts-expect-error
  () => speedate.parseTime("", { missingOffset: "utc" }),
  // @ts-expect-error
  () => speedate.schema("datetime"),
  // @ts-expect-error
  () => speedate.schema("date", { form: "strict" }),
  // @ts-expect-error
  () => speedate.readColumn("", "date", { missingOffset: "utc" }),
  // @ts-expect-error
  () => speedate.readColumn("", "dateTime", { form: "strict", timestampUnit: "s" }),
  // @ts-expect-error
  () => speedate.readColumn("", "dateTimeClock", { missingOffset: "utc" }),
  // @ts-expect-error
  () => speedate.readColumn("", "dateTimeOffset", { unit: "us" }),
  // @ts-expect-error
  () => speedate.readColumn("", "dateTime", { form: "front", timestampUnit: "s" }),
  // @ts-expect-error
  () => speedate.readColumn("", "time", { form: "front" }),
  // @ts-expect-error
  () => speedate.readColumn("", "time", { unit: "s" }),
  // @ts-expect-error
  () => speedate.readColumn("", "duration", { form: "text" }),
  // @ts-expect-error
  () => speedate.readColumn("", "dateTime", { refused: "raise" }),
  // @ts-expect-error
  () => speedate.readColumn(["2020-02-29T12:13Z"], "dateTime"),
  // @ts-expect-error
  () => speedate.readColumn("", "datetime"),
  // @ts-expect-error
  () => speedate.readColumn(""),
  // @ts-expect-error
  () => speedate.columnReader("date", { refused: true }),
  // @ts-expect-error
  () => [time].map(speedate.format),
  // @ts-expect-error
  () => speedate.format(date, { digits: 3 }),
  // @ts-expect-error
  () => speedate.format(time, { digits: 2 }),
  // @ts-expect-error
  () => speedate.format({ ...date, hour: 1 }),
  // @ts-expect-error
  () => speedate.printColumn(new Int32Array(1), "dateTime"),
  // @ts-expect-error
  () => speedate.printColumn(new BigInt64Array(1), "date"),
  // @ts-expect-error
  () => speedate.printColumn([1, 2], "duration"),
  // @ts-expect-error
  () => speedate.sum(second),
  // @ts-expect-error
  () => speedate.sum([date]),
  // @ts-expect-error
  () => speedate.dateTimeFromTimestamp(0),
  // @ts-expect-error
  () => speedate.daysBetween(date, moment),
  // @ts-expect-error
  () => speedate.compare(date, moment),
  // @ts-expect-error
  () => speedate.compare(moment, time),
  // @ts-expect-error
  () => speedate.until(date, moment),
  // @ts-expect-error
  () => speedate.until(time, time),
  // @ts-expect-error
  () => speedate.withOffset(date, 0),
  // @ts-expect-error
  () => speedate.toDate(date),
  // @ts-expect-error
  () => speedate.add(time, second),
  // @ts-expect-error
  () => speedate.subtract(date, 1),
  // @ts-expect-error
  () => speedate.add(date, { hours: 24 }),
  // @ts-expect-error
  () => speedate.add(date, { days: 1, hours: 24 }),
  // @ts-expect-error
  () => speedate.add(date, date),
];
for (const call of refused) assert.throws(call, TypeError, String(call));

declare const unit: "ms" | "us" | undefined;
export const unions = () => [
  same<Float64Array | BigInt64Array, ReturnType<typeof ofUnion>>(true, ofUnion()),
  speedate.readColumn("", "dateTimeClock", { unit }), speedate.columnReader("time", { unit, maxLineBytes: 100 }).end(), speedate.readColumn("", "duration", { unit }),
  speedate.readColumn("", "dateTime", { form: "front", unit }).sizes,
];
const ofUnion = () => speedate.readColumn("", "dateTime", { unit }).numbers;

export const sameTypes = [same<typeof bare, typeof core>(true, bare), same<typeof bareColumns, typeof speedate>(true, bareColumns)];

// No call returns these.
// @ts-expect-error
export const noInteger: ErrorCode = "invalid_integer";
// @ts-expect-error
export const noFraction: ErrorCode = "invalid_char_second_fraction";
// @ts-expect-error
export const noTime: ErrorCode = "system_time_error";
// @ts-expect-error
export const noSuchDate: ErrorCode = "no_such_date";
// @ts-expect-error
export const noValue: ErrorCode = "value_out_of_range";
export const allOthers: ErrorCode[] = ["too_short", "tz_required", "out_of_range_month", "microsecond_fraction_too_long", "number_too_large"];

export const unsaid = [
  // @ts-expect-error
  () => speedate.parseTimeFront(bytes).length,
  // @ts-expect-error
  () => (speedate.parseDate("2020-02-29").day = 1),
  // @ts-expect-error
  (it: Refusal) => (it.start = 1),
  // @ts-expect-error
  (it: Answer<SpeedateDate>) => it.start,
  // @ts-expect-error
  (it: LineRefusal) => (it.index = 1),
  // @ts-expect-error
  (it: speedate.Column<Int32Array>) => (it.refusedCount = 1),
];
