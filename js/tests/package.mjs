// Wrong arguments, options, values, other realms and prototypes, long texts, places of errors, many calls, CommonJS, how a module is
// found, and the examples of documents: node package.mjs DOCUMENT..
import assert from "node:assert/strict";
import { readFileSync, writeFileSync } from "node:fs";
import { createRequire } from "node:module";
import { dirname } from "node:path";
import { setFlagsFromString } from "node:v8";
import { inspect } from "node:util";
import { runInNewContext } from "node:vm";
import { gzipSync } from "node:zlib";
import * as core from "speedate";
import * as speedate from "speedate/columns";
import { scriptOf } from "./examples.mjs";
import { thrown } from "./helpers.mjs";

const { add, columnReader, dateTimeFromTimestamp, format, fromDate, parseDate, parseDateFront, parseDateTime, parseDuration, parseTime, readColumn, safeParseDate, toDate, toUnixMicroseconds, withOffset } = speedate;
const date = parseDate("2020-02-29");
const time = parseTime("12:13:14.5Z");
const dateTime = parseDateTime("2020-02-29T12:13:14.5Z");
const duration = parseDuration("-P1DT0.001002S");
const readers = Object.keys(speedate).filter((it) => /arse/.test(it));
const moduleOf = (name) => new WebAssembly.Module(readFileSync(`node_modules/speedate/${name}.wasm`));
const wasm = moduleOf("columns");
const documents = process.argv.slice(2);

// ---- Wrong arguments: of each call those that are right, and what is wrong in the place of each ----

const noObject = [null, true, 5, 5n, NaN, "x", Symbol("x"), () => 1];
const noText = [undefined, ...noObject.filter((it) => it !== "x"), {}, ["12:13"], new String("12:13"), new Uint16Array(4), new ArrayBuffer(4)];
const noOptions = [...noObject, [], new Map(), new Date(), { other: 1 }, { [Symbol("x")]: 1 }];
const noValue = [undefined, ...noObject, {}, [], new Date(), { year: 2020, month: 2 }, { ...date, day: "29" }, { ...date, hour: 1 }, { ...time, year: 1 },
  Object.create(date), { ...date, day: Symbol("x") },
  { ...date, day: 29n }, { ...time, second: undefined }, { ...dateTime, offsetSeconds: undefined }, { ...duration, sign: null }];
const noNumber = [undefined, ...noObject.filter((it) => typeof it !== "number"), {}];
const noUnit = [undefined, ...noObject, {}, "S", "", "seconds"];
const ofDate = [date, [...noValue, time, dateTime, duration]];
const ofDuration = [duration, [...noValue, date, time, dateTime]];
const ofDateTime = [dateTime, [...noValue, date, time, duration]];
const ofMove = [[dateTime, [...noValue, time, duration]], ofDuration];
const noKind = [undefined, ...noObject, "datetime", "offset", "toString", ["date"]];
const CALLS = {
  ...Object.fromEntries(readers.map((it) => [it, [["x", it.startsWith("safe") ? [] : noText], [undefined, noOptions]]])),
  dateTimeFromTimestamp: [[0, noNumber.filter((it) => it !== 5n)], ["s", noUnit]], toDate: [ofDateTime], toUnixMicroseconds: [ofDateTime], dateOf: [ofDateTime], timeOf: [ofDateTime], fromDate: [[new Date(0), [undefined, ...noObject, {}, date]]],
  format: [[time, noValue], [undefined, [...noOptions, ...["3", 1, 2, 9, -3, NaN, null, true, 3n].map((digits) => ({ digits }))]]], compare: [ofDate, ofDate], until: [ofDate, ofDate], daysBetween: [ofDate, ofDate],
  durationFromMicroseconds: [[0, noNumber.filter((it) => it !== 5n)]], totalMicroseconds: [ofDuration],
  sum: [[[duration], [undefined, ...noObject, {}, new Set(), ...ofDuration[1].filter((it) => typeof it !== "symbol").map((it) => [duration, it])]]],
  printColumn: [[new Int32Array(1), [undefined, ...noObject, {}, [], [1], ...[Int16Array, Uint32Array, Float64Array, BigInt64Array, Uint8Array].map((it) => new it(1))]],
    ["date", ["time", "dateTime", ...noKind]]],
  add: ofMove, subtract: ofMove, withOffset: [[time, [...noValue, date, duration]], [0, noNumber]],
  readColumn: [["", noText], ["date", noKind], [undefined, noOptions]], columnReader: [["date", noKind], [undefined, noOptions]],
  schema: [["date", noKind], [undefined, noOptions]],
  init: [[wasm, [undefined, ...noObject, {}, moduleOf("speedate"), new WebAssembly.Module(new Uint8Array([0, 97, 115, 109, 1, 0, 0, 0]))]]],
};
assert.deepEqual([...Object.keys(CALLS), "SpeedateError"].sort(), Object.keys(speedate).sort());
for (const [name, places] of Object.entries(CALLS))
  for (const [place, [, wrong]] of places.entries())
    for (const it of wrong)
      assert.throws(() => speedate[name](...places.map(([right], i) => (i === place ? it : right))), TypeError, `${name}, ${place}: ${String(it)}`);

// Data that is not a text is refused.
for (const it of noText) {
  for (const name of readers.filter((it) => it.startsWith("safe"))) assert.deepEqual(speedate[name](it), { ok: false, code: "invalid_type", expected: "a string", start: 0, end: 0 });
  assert.throws(() => columnReader("date").read(it), TypeError);
}

const outside = (name) => (error) => error.constructor === RangeError && error.message.includes(name);
const refused = (code) => (error) => error instanceof speedate.SpeedateError && error.code === code;
const noIntegers = [NaN, Infinity, 0.5];
for (const it of [...noIntegers, 2 ** 31, -(2 ** 31) - 1]) assert.throws(() => withOffset(time, it), outside("offsetSeconds"));
for (const it of [...noIntegers, 2 ** 63, 2n ** 63n, -(2n ** 63n) - 1n]) assert.throws(() => dateTimeFromTimestamp(it, "s"), outside("timestamp"));
assert.throws(() => add(date, parseDuration("PT1H")), refused("date_not_exact"));
assert.equal(toDate(dateTimeFromTimestamp(0, "ms")).getTime(), 0, "a timestamp is in UTC");
for (const it of noIntegers) assert.throws(() => format({ ...date, day: it }), outside("day"));
for (const it of [-1, 256, 2 ** 40]) assert.throws(() => format({ ...date, month: it }), refused("out_of_range_month"));
for (const it of [-1, 1000, 2 ** 40]) for (const name of ["millisecond", "microsecond"])
  assert.throws(() => format({ ...time, [name]: it }), (error) => refused("time_too_large")(error) && error.message === "expected millisecond and microsecond, 0 to 999 each");
for (const it of [{ seconds: 86400 }, { milliseconds: 1000 }, { microseconds: 2 ** 40 }, { sign: 2, days: 0 }])
  assert.throws(() => format(it), (error) => refused("duration_value_too_large")(error) && error.message === "expected sign 1 or -1, seconds up to 86399, milliseconds and microseconds up to 999 each");
for (const it of [86400, -86400, 2 ** 40, -(2 ** 40)]) assert.throws(() => format({ ...time, offsetSeconds: it }), refused("out_of_range_tz"));
assert.throws(() => format({ ...date, year: -1 }), refused("date_too_small"));
assert.throws(() => format({ ...duration, days: 1 }), outside("days"));
// Further fields, what is not enumerable, and a symbol, as MobX adds one, are not looked at. What is missing is named.
const observed = Object.defineProperty({ label: "rent", ...date, [Symbol("mobx administration")]: {} }, "hidden", { value: 1 });
assert.equal(format(observed), "2020-02-29");
for (const it of [date, time, dateTime, duration]) {
  const labelled = { label: "rent", ...it, week: 9 };
  assert.equal(format(labelled), format(it));
  assert.equal(speedate.compare(labelled, it), 0);
  assert.equal(format(Object.fromEntries(Object.entries(it).reverse())), format(it), "fields in another order");
}
const wrongFields = [
  [{ ...date, hour: 1 }, ": it is a date with hour"], [{ ...time, year: 1 }, ": it is a time with year"],
  [{ year: 2020, month: 2 }, ": it is a date without day"], [{ ...time, seconds: 1, second: undefined, hour: undefined, year: 1 }, ": it is a time with year"],
  [{ hour: 1, minute: 2 }, ": it is a time without second, without millisecond, without microsecond, without offsetSeconds"],
  [{ sign: 1, day: 1 }, ": it is a date without year, without month"], [{ days: 1, hours: 2 }, ": it is a duration with hours"], [{ sign: -1 }, ""], [{ x: 1 }, ""], [{}, ""], [5, ""],
];
for (const [it, said] of wrongFields)
  assert.throws(() => format(it), new TypeError(`value has to be a date or time or datetime or duration${said}`));
assert.throws(() => add(date, { hours: 24 }), new TypeError("duration has to be a duration: its fields are sign, days, seconds, milliseconds, microseconds"));
assert.throws(() => speedate.printColumn([1], "date"), new TypeError("numbers has to be an Int32Array"));
assert.throws(() => speedate.printColumn([1], "time"), new TypeError("numbers has to be a Float64Array or a BigInt64Array"));
// A field of a duration may be missing, but not be undefined.
for (const [it, text] of [
  [{ days: 1 }, "P1D"], [{ days: -1 }, "-P1D"], [{ sign: -1, days: 0 }, "-PT0S"], [{ sign: 1, seconds: 90 }, "PT1M30S"], [{ microseconds: -1, seconds: -1 }, "-PT1.000001S"], [{ milliseconds: 5 }, "PT0.005S"],
]) {
  assert.equal(format(it), text);
  assert.deepEqual(add(dateTime, it), add(dateTime, parseDuration(text)));
  assert.deepEqual(speedate.subtract(dateTime, it), speedate.subtract(dateTime, parseDuration(text)));
  assert.equal(speedate.totalMicroseconds(it), speedate.totalMicroseconds(parseDuration(text)));
  assert.deepEqual([speedate.compare(it, parseDuration(text)), format(speedate.sum([it, duration, it]))], [0, format(speedate.sum([parseDuration(text), duration, parseDuration(text)]))]);
}
for (const it of [{ days: 1, seconds: -1 }, { sign: 1, days: -1 }, { sign: -1, seconds: 1 }]) assert.throws(() => format(it), /^RangeError: (days|seconds) has another sign than sign$/);
for (const it of [{ days: undefined }, { days: 1, sign: null }, { days: 1n }, { seconds: "1" }, { days: 1, label: "rent" }]) assert.throws(() => add(date, it), TypeError);
assert.throws(() => speedate.daysBetween(dateTime, date), /^TypeError: earlier has to be a date: it is a date with hour$/);
assert.throws(() => format({ ...time, offsetSeconds: 90 }), outside("offsetSeconds"));
assert.throws(() => fromDate(new Date(NaN)), outside("date has to be a Date that has a time"));
assert.throws(() => toDate({ ...dateTime, offsetSeconds: null }), refused("tz_required"));
for (const call of [format, toDate]) for (const offsetSeconds of [null, 90])
  assert.throws(() => call({ ...dateTime, day: 32, offsetSeconds }), refused("out_of_range_day"), "the range comes first");
assert.throws(() => speedate.compare({ ...date, month: 13 }, { ...date, year: -1 }), refused("out_of_range_month"));
assert.throws(() => speedate.compare({ ...date, year: -1 }, { ...date, month: 13 }), refused("date_too_small"));
assert.throws(() => speedate.compare(date, { ...date, month: 13 }), refused("out_of_range_month"));
assert.throws(() => speedate.compare({ ...duration, days: -(2 ** 32) }, { ...duration, days: 1 }), outside("days"), "an argument that cannot be comes first");
assert.throws(() => add({ ...date, day: 32 }, { ...duration, days: -(2 ** 32) }), refused("duration_days_too_large"));
assert.throws(() => withOffset({ ...time, hour: 24 }, 86400), refused("out_of_range_hour"));
assert.throws(() => add({ ...date, day: 32 }, { ...parseDuration("P999999999D") }), refused("out_of_range_day"));
assert.throws(() => parseTime("12:13\u00e2\u0088\u009208:00"), refused("invalid_char_tz_sign"), "three characters are not the bytes of U+2212");
assert.equal(parseTime("12:13\u221208:00").offsetSeconds, -28800);

// ---- Options: the readers that have each, and values that it has not ----

const OPTIONS = {
  timestampUnit: [/Date(Time)?$/, ["", "S", "us ", 0, 1, true, null, ["s"], {}]],
  overflow: [/Time$|Duration$|TimeFront$/, ["", "Error", 0, 1, false, null, ["error"], {}]],
  isoOrder: [/Duration$/, ["", "Lax", 0, 1, null, ["lax"], {}]],
  form: [/(Date|Time)$/, ["", "Text", "timestamp", "front", true, 0, 1, null, ["text"], {}]],
  missingOffset: [/DateTime$/, ["", "UTC", 0, true, null, ["utc"]]],
  loose: [/DateTime(Front)?$/, ["", "true", 0, 1, null, [true], {}]],
};
for (const name of readers) {
  for (const [option, [has, wrong]] of Object.entries(OPTIONS)) {
    const isNamed = (error) => error instanceof TypeError && error.message.includes(option);
    const besides = option === "timestampUnit" && has.test(name) ? { form: "orTimestamp" } : {};
    for (const it of has.test(name) ? wrong : [true, "s", "error", "text", 0]) assert.throws(() => speedate[name]("x", { ...besides, [option]: it }), isNamed);
    if (name.startsWith("safe")) assert.deepEqual(speedate[name]("x", { [option]: undefined }), speedate[name]("x"));
  }
}
// A form that a kind lacks, a unit without its form, and that form without a unit are wrong options.
const FORMS = { Date: ["text", "orTimestamp"], Time: ["text", "strict"], DateTime: ["text", "orTimestamp", "strict"] };
for (const [kind, forms] of Object.entries(FORMS))
  for (const form of ["text", "orTimestamp", "strict", "front"]) {
    const parse = (options) => speedate[`safeParse${kind}`]("x", options);
    const [right, wrong] = form === "orTimestamp" ? [{ form, timestampUnit: "s" }, { form }] : [{ form }, { form, timestampUnit: "s" }];
    if (forms.includes(form)) assert.equal(parse(right).ok, false);
    else assert.throws(() => parse(right), /^TypeError: form has to be one of text/);
    for (const options of [wrong, { timestampUnit: "s" }]) assert.throws(() => parse(options), TypeError);
    if (kind === "DateTime" && forms.includes(form)) {
      const parts = ["parseDateTime", "dateTime", "dateTimeClock", "dateTimeOffset"].map((it) => (options) => (it === "parseDateTime" ? speedate[it]("2020-02-29T12:13 UTC", options) : readColumn("2020-02-29T12:13 UTC", it, options)));
      for (const part of parts) {
        if (form === "text") assert.ok(part({ ...right, loose: true }) && thrown(() => part({ ...right, loose: false })) instanceof speedate.SpeedateError);
        else assert.throws(() => part({ ...right, loose: true }), new TypeError("loose has to be given with the form text or front"));
      }
    }
  }
assert.throws(() => parseDateTime("2020-02-29T12:13", { loose: 1 }), new TypeError("loose has to be one of true, false"));
const noSizes = ["1", -1, 0.5, NaN, Infinity, 1n, null];
const OF_COLUMNS = { maxLineBytes: noSizes, maxRefusals: noSizes, unit: ["", "s", "MS", 0, null], refused: [true, null, 0, "", "raise", [], {}] };
const OF_DATE_TIMES = ["form", "timestampUnit", "overflow", "loose"];
const columnOptions = {
  date: ["form", "timestampUnit"], dateTime: [...OF_DATE_TIMES, "missingOffset", "unit"], dateTimeClock: [...OF_DATE_TIMES, "unit"], dateTimeOffset: OF_DATE_TIMES,
  time: ["form", "overflow", "unit"], timeOffset: ["form", "overflow"], duration: ["overflow", "isoOrder", "unit"],
};
for (const [kind, its] of Object.entries(columnOptions)) {
  const has = [...its, "refused", "maxRefusals", "maxLineBytes"];
  for (const option of Object.keys({ ...OPTIONS, ...OF_COLUMNS, digits: [] })) {
    const isNamed = (error) => error instanceof TypeError && error.message.includes(option);
    const besides = option === "timestampUnit" && has.includes(option) ? { form: "orTimestamp" } : option === "maxRefusals" ? { refused: "collect" } : {};
    const all = OF_COLUMNS[option] ?? OPTIONS[option]?.[1];
    const wrong = has.includes(option) ? all.filter((it) => it !== "front" || kind !== "dateTime") : [true, "s", "error", 0];
    for (const it of wrong) for (const call of [(options) => readColumn("", kind, options), (options) => columnReader(kind, options)])
      assert.throws(() => call({ ...besides, [option]: it }), isNamed, `${kind}, ${option}`);
    assert.equal(readColumn("", kind, { [option]: undefined }).numbers.length, 0);
  }
}
for (const options of [{ maxRefusals: 1 }, { maxRefusals: 1, refused: "number" }]) assert.throws(() => readColumn("", "date", options), /maxRefusals has to be given with refused: collect/);
assert.throws(() => readColumn("", "dateTime", { form: "front", timestampUnit: "s" }), /timestampUnit/);

// The prototype of options: one that others have is plain, what is inherited is not, and one that was plain is looked at again.
{
  const plain = { overflow: "truncate" };
  for (const it of [plain, Object.assign(Object.create(null), plain), runInNewContext("({ overflow: 'truncate' })"), { ...plain, constructor: undefined }]) assert.equal(parseTime("12:13:14.1234567", it).microsecond, 456);
  class Options { overflow = "truncate"; }
  for (const it of [new Options(), Object.create(plain), Object.assign(Object.create({ form: "strict" }), plain), Object.assign(Object.create(Options.prototype), plain), Object.defineProperty({}, "overflow", { value: "truncate" }), Object.assign(new Map(), plain), Object.assign([], plain)])
    assert.throws(() => parseTime("12:13:14.1234567", it), TypeError);
  assert.throws(() => parseTime("12:13", { constructor: Object }), /constructor is no option/);
}

// ---- A missing offset ----

const both = (text, options) => [text, Buffer.from(text)].map((it) => speedate.safeParseDateTime(it, options));
const UTC = [
  ["2020-02-29T12:13", 0], ["2020-02-29T12:13Z", 0], ["2020-02-29T12:13+01:30", 5400], ["2020-02-29T12:13\u221208:00", -28800],
  ["1", 0, { form: "orTimestamp", timestampUnit: "s" }], ["2020-02-29T12:13:14Z", 0, { form: "strict" }],
  [`2020-02-29T12:13:14.5${"0".repeat(70)}`, 0, { overflow: "truncate" }], [`2020-02-29T12:13:14.5${"0".repeat(2 ** 24)}`, 0, { overflow: "truncate" }],
];
for (const [text, offsetSeconds, options] of UTC) {
  const without = parseDateTime(text, options);
  for (const it of both(text, { ...options, missingOffset: "utc" })) assert.deepEqual(it.value, { ...without, offsetSeconds }, text);
  for (const it of both(text, { ...options, missingOffset: "error" })) {
    if (without.offsetSeconds !== null) assert.deepEqual(it.value, without, text);
    else assert.deepEqual([it.code, it.start], ["tz_required", text.length], text);
  }
  assert.deepEqual(parseDateTime(text, options), without, "nothing is kept of an option");
}
for (const missingOffset of ["utc", "error"]) {
  for (const it of both("2020-02-29T12:60", { missingOffset })) assert.deepEqual([it.code, it.start], ["out_of_range_minute", 14]);
  for (const it of both("2020-02-29T12:13:14", { missingOffset, form: "strict" })) assert.deepEqual([it.code, it.start], ["tz_required", 19]);
}

// ---- Schemas ----

const validate = (it, ...args) => speedate.schema(...args)["~standard"].validate(it);
const SCHEMAS = { date: ["2020-02-29", { form: "orTimestamp", timestampUnit: "s" }], time: ["12:13", { form: "strict" }], dateTime: ["2020-02-29T12:13", { missingOffset: "utc" }], duration: ["P1D1Y", { isoOrder: "strict" }] };
for (const [kind, [text, options]] of Object.entries(SCHEMAS)) {
  const parse = speedate[`safeParse${kind[0].toUpperCase()}${kind.slice(1)}`];
  const { "~standard": standard, ...others } = speedate.schema(kind);
  assert.deepEqual([others, Object.keys(standard), standard.version, standard.vendor], [{}, ["version", "vendor", "validate"], 1, "speedate"]);
  for (const [it, chosen] of [[text], [text, options], ["86400", options], ["x"], [""]]) {
    const { ok, value, code, start, end, expected } = parse(it, chosen);
    const { validate } = speedate.schema(kind, chosen)["~standard"];
    assert.deepEqual(validate(it), ok ? { value } : { issues: [{ message: `expected ${expected}`, code, start, end, expected }] }, `${kind} ${it}`);
  }
  for (const it of [undefined, null, 5, new Date(), Buffer.from(text), new String(text)]) assert.deepEqual(standard.validate(it), { issues: [{ message: "expected a string", code: "invalid_type", expected: "a string", start: 0, end: 0 }] });
  const given = { ...options };
  const schema = speedate.schema(kind, given);
  for (const name of Object.keys(given)) given[name] = "changed";
  assert.deepEqual(schema["~standard"].validate(text), validate(text, kind, options), "the options are those that were given");
}

// ---- Errors, and what is handed out ----

const error = thrown(() => parseDate("x"));
assert.deepEqual({ ...error }, { name: "SpeedateError", code: "too_short", expected: "a date: YYYY-MM-DD", text: "x", start: 1, end: 1 });
// What is expected goes by the call, and by what the options have it read.
for (const [call, text, options, expected] of [
  ["Date", "2020-13-01", undefined, "month, 01 to 12"],
  ["Date", "2020-2-9", { form: "orTimestamp", timestampUnit: "s" }, "a date, YYYY-MM-DD, or a whole number"],
  ["DateFront", "2020-2-9", undefined, "a date: YYYY-MM-DD"],
  ["Time", "1:30", undefined, "a time: HH:MM or HH:MM:SS"],
  ["Time", "12:00 PM", undefined, "after the clock at most an offset: Z or +01:00"],
  ["Time", "12:13", { form: "strict" }, "a colon, as in HH:MM:SS"],
  ["TimeFront", "1:30", undefined, "a time: HH:MM or HH:MM:SS"],
  ["DateTime", "2020-02-29", undefined, "T, t, _ or a space, then a time"],
  ["DateTime", "2020-02-29 12:13:14Z", { form: "strict" }, "T or t, then a time"],
  ["DateTime", "1x", { form: "orTimestamp", timestampUnit: "s" }, "a date-time, as YYYY-MM-DDTHH:MM:SS, or a number"],
  ["DateTime", "2020-02-29T12:13", { missingOffset: "error" }, "an offset: Z or +01:00"],
  ["DateTime", "2020-02-29T12:13 Z", { missingOffset: "error" }, "an offset: Z or +01:00"],
  ["DateTime", "2020-02-29T12:13 Z", { missingOffset: "utc" }, "after the clock at most an offset: Z or +01:00"],
  ["DateTime", "2020-2-9", { missingOffset: "error" }, "a date-time with an offset, as YYYY-MM-DDTHH:MM:SSZ"],
  ["DateTime", "1x", { form: "orTimestamp", timestampUnit: "s", missingOffset: "error" }, "a date-time with an offset, as YYYY-MM-DDTHH:MM:SSZ"],
  ["DateTime", "2020-02-29 12:13:14Z", { form: "strict", missingOffset: "error" }, "T or t, then a time"],
  ["DateTimeFront", "2020-02-29", undefined, "T, t, _ or a space, then a time"],
  ["Duration", "1 day, 24:00", undefined, "hours: up to 23 after days, or 10 digits up to 2,400,000,000"],
]) {
  assert.equal(speedate[`safeParse${call}`](text, options).expected, expected, text);
  assert.equal(thrown(() => speedate[`parse${call}`](text, options)).expected, expected, text);
}
assert.equal(thrown(() => toDate({ ...dateTime, offsetSeconds: null })).expected, "a value that has an offset");
assert.equal(thrown(() => add({ year: 9999, month: 12, day: 31 }, parseDuration("P1D"))).expected, "a date in the years 0000 to 9999");
const inAnyForm = ["a date-time: YYYY-MM-DDTHH:MM or YYYY-MM-DDTHH:MM:SS", "a time: HH:MM or HH:MM:SS"];
const requiringOffset = ["a date-time with an offset, as YYYY-MM-DDTHH:MM:SSZ", "a time with an offset: HH:MM:SSZ or HH:MM:SS+01:00"];
for (const [kind, text, phrase, options] of [
  ["dateTime", "2020-02-29T12:13", requiringOffset[0]], ["dateTimeOffset", "2020-02-29T12:13", requiringOffset[0]], ["timeOffset", "12:13", requiringOffset[1]],
  ["dateTime", undefined, inAnyForm[0], { missingOffset: "utc" }], ["dateTimeClock", undefined, inAnyForm[0]], ["time", undefined, inAnyForm[1]],
]) {
  assert.equal(thrown(() => readColumn("x", kind, options)).expected, phrase);
  if (text) for (const it of [text, `${text} Z`]) assert.equal(thrown(() => readColumn(it, kind)).expected, "an offset: Z or +01:00");
}
assert.deepEqual(thrown(() => readColumn("PT1S\nP106751992D", "duration")).toJSON(), {
  name: "SpeedateError", message: "expected a duration of less than 2^63 microseconds", code: "number_too_large", expected: "a duration of less than 2^63 microseconds", start: 0, end: 11, index: 1,
});
{
  const { refusals } = readColumn("2020-02-29 12:13Z\nx", "dateTime", { form: "strict", refused: "collect" });
  assert.deepEqual(refusals.map((it) => it.expected), ["T or t, then a time", "a date-time with an offset, as YYYY-MM-DDTHH:MM:SSZ"]);
}
for (const it of [inspect(error), inspect(thrown(() => parseTime("12:13\u221201:60")))]) assert.match(it, /^SpeedateError: [^]*text: '[^']+',\n *start: \d+,\n *end: \d+\n}$/, "what a log shows");
assert.equal(String(error), "SpeedateError: expected a date: YYYY-MM-DD");
assert.match(error.stack, /\bparseDate\b/);
for (const [name, it] of Object.entries(speedate)) assert.equal(it.name, name);
for (const make of [() => parseDate("2020-02-29"), () => parseTime("12:13"), () => parseDateTime("2020-02-29T12:13"), () => parseDuration("PT1S"),
  () => parseDateFront("2020-02-29"), () => safeParseDate("2020-02-29"), () => safeParseDate("x")]) {
  const before = structuredClone(make());
  const it = make();
  for (const name of Object.keys(it)) it[name] = "changed";
  assert.deepEqual({ ...make() }, before, "what is handed out is the caller's");
}

// ---- Other realms, prototypes that others have changed, and arrays that are not what they say ----

const elsewhere = (code) => runInNewContext(code);
assert.deepEqual(parseDate("86400", elsewhere("({ form: 'orTimestamp', timestampUnit: 's' })")), parseDate("1970-01-02"));
assert.equal(format(fromDate(elsewhere("new Date(0)"))), "1970-01-01T00:00:00Z");
assert.deepEqual(parseTime(elsewhere("new Uint8Array([49, 50, 58, 49, 51])")), parseTime("12:13"));
assert.equal(format(elsewhere("({ year: 2020, month: 2, day: 29 })")), "2020-02-29");

const polluted = { loose: true, form: "strict", timestampUnit: "s", overflow: "truncate", isoOrder: "strict", missingOffset: "utc", unit: "us", refused: "collect", maxRefusals: 1, index: 5, start: 5, end: 5, text: "x", offsetSeconds: 90, year: -1, hour: 1, kind: 1,
  forms: ["text"], names: ["digits"], other: "day", value: 1, ok: true, digits: 3 };
const unchanged = () => [safeParseDate("86400"), safeParseDate("86400", {}), speedate.safeParseTime("12:13:14.1234567", {}), speedate.safeParseDateTime("2020-02-29 12:13"),
  speedate.safeParseDateTime("2020-02-29T12:13:14.1234567", { overflow: "truncate" }), speedate.safeParseDuration("P1D1Y"), Object.entries(thrown(() => add(date, parseDuration("PT1H")))),
  thrown(() => withOffset(parseTime("12:13"), 0)).code, thrown(() => readColumn("2020-02-29T12:13", "dateTime", {})).code, speedate.schema("date")["~standard"].validate("2020-02-30"),
  readColumn("2020-02-29T12:13Z", "dateTime", {}), readColumn("2020-02-29T12:13Z", "dateTime"), readColumn("2020-02-29", "date", {}), thrown(() => readColumn("86400", "date")).code,
  dateTimeFromTimestamp(1, "s"), format(date), format(dateTime), format(duration), format({ ...date, label: 1 })];
const before = unchanged();
for (const [name, value] of Object.entries(polluted)) Object.prototype[name] = value;
try {
  assert.deepEqual(unchanged(), before);
} finally {
  for (const name of Object.keys(polluted)) delete Object.prototype[name];
}
for (const length of [20, -1, 2 ** 24 + 1, NaN]) {
  class Odd extends Uint8Array {
    get length() {
      return length;
    }
  }
  parseDate("2020-02-29");
  assert.equal(safeParseDate(Odd.from(Buffer.from("2020-02-29"))).value?.day, 29, "the length of an array is its own");
  assert.equal(parseDateFront(Odd.from(Buffer.from("2020-02-29 ".padEnd(100)))).size, 10);
}
const gone = new Uint8Array(2 ** 25);
structuredClone(gone.buffer, { transfer: [gone.buffer] });
assert.throws(() => parseDate(gone));
assert.equal(safeParseDate(gone).code, "too_short", "an array whose bytes were transferred has none");
assert.equal(speedate.safeParseDateFront(gone).code, "too_short");
// No data is thrown for, not even what has no room in the memory of a module.
const huge = new Uint8Array(2 ** 32);
for (const name of readers.filter((it) => !it.endsWith("Front"))) {
  if (name.startsWith("safe")) assert.deepEqual(speedate[name](huge), { ok: false, code: "invalid_type", expected: "a shorter text", start: 0, end: 0 });
  else assert.throws(() => speedate[name](huge), { constructor: RangeError, message: "text has to be shorter" });
}
assert.equal(speedate.safeParseDateFront(huge).code, "invalid_char_year");
assert.deepEqual(parseDate("2020-02-29"), date);

// ---- Values, long texts, and many ----

assert.deepEqual(duration, { sign: -1, days: -1, seconds: 0, milliseconds: -1, microseconds: -2 });
assert.deepEqual(safeParseDate("x"), { ok: false, code: "too_short", expected: "a date: YYYY-MM-DD", start: 1, end: 1 });
assert.deepEqual(fromDate(toDate(dateTime)), dateTime);
for (const text of ["0000-01-01T00:00:00.000001Z", "1969-12-31T23:59:59.999999-23:59", "2020-02-29T12:13:14.5+01:30", "9999-12-31T23:59:59.999999Z"]) {
  const it = parseDateTime(text);
  const micro = toUnixMicroseconds(it);
  assert.deepEqual(dateTimeFromTimestamp(micro, "us"), withOffset(it, 0));
  assert.equal(micro, readColumn(text, "dateTime", { unit: "us" }).numbers[0]);
  const { year, month, day, ...clock } = it;
  assert.deepEqual([speedate.dateOf({ label: 1, ...it }), speedate.timeOf(it)], [{ year, month, day }, clock]);
}
assert.deepEqual(speedate.timeOf(parseDateTime("2020-02-29T12:13")), parseTime("12:13"));
for (const call of [speedate.dateOf, speedate.timeOf, toUnixMicroseconds]) {
  assert.throws(() => call({ ...dateTime, day: 32, offsetSeconds: null }), refused("out_of_range_day"));
  assert.throws(() => call({ ...dateTime, hour: 24 }), refused("out_of_range_hour"));
}
assert.throws(() => toUnixMicroseconds({ ...dateTime, offsetSeconds: null }), refused("tz_required"));
assert.equal(format(speedate.durationFromMicroseconds(-1500000)), "-PT1.5S");
assert.deepEqual([0, 3, 6, undefined].map((digits) => format(dateTime, { digits })), ["14", "14.500", "14.500000", "14.500000"].map((it) => `2020-02-29T12:13:${it}Z`));
assert.equal(format({ ...time, microsecond: 999, offsetSeconds: null }, { digits: 3 }), "12:13:14.500");
for (const it of [date, duration]) assert.throws(() => format(it, { digits: 3 }), /^TypeError: value has to be a time or datetime/);
assert.throws(() => format({ ...dateTime, hour: 24 }, { digits: 3 }), refused("out_of_range_hour"));
assert.equal(format(dateTime, { digits: 3 }), toDate(dateTime).toISOString());
for (const it of [2n ** 63n, -(2n ** 63n) - 1n, 0.5, 2 ** 63]) assert.throws(() => speedate.durationFromMicroseconds(it), RangeError);
// No number wraps on its way into the library, as a BigInt or as a number: it is the one that was given, or it is refused.
for (const edge of [2n ** 31n, 2n ** 32n, 2n ** 53n, 2n ** 63n, 2n ** 64n, 10n ** 30n]) {
  for (const it of [edge - 1n, edge, edge + 1n].flatMap((n) => [n, -n])) {
    const fits = BigInt.asIntN(64, it) === it;
    if (fits && it !== -(2n ** 63n)) assert.equal(speedate.totalMicroseconds(speedate.durationFromMicroseconds(it)), it);
    else if (!fits) assert.throws(() => speedate.durationFromMicroseconds(it), RangeError);
    const moment = () => dateTimeFromTimestamp(it, "us");
    if (it >= -62167219200000000n && it <= 253402300799999999n) {
      assert.equal(toDate(moment()).getTime(), Number((it - (((it % 1000n) + 1000n) % 1000n)) / 1000n));
    } else {
      assert.throws(moment, (error) => (fits ? error.code === (it > 0n ? "date_too_large" : "date_too_small") : error instanceof RangeError));
    }
    if (Number.isSafeInteger(Number(it))) assert.equal(speedate.totalMicroseconds(speedate.durationFromMicroseconds(Number(it))), it);
    if (fits) {
      const printed = () => speedate.printColumn(BigInt64Array.of(it), "duration");
      assert.equal(printed(), it === -(2n ** 63n) ? "\n" : `${format(speedate.durationFromMicroseconds(it))}\n`);
    }
  }
}
for (const it of [2 ** 63, -(2 ** 64), 1e30]) {
  assert.throws(() => speedate.printColumn(Float64Array.of(0, it), "duration"), (error) => error.code === "number_too_large" && error.index === 1);
}
assert.throws(() => speedate.totalMicroseconds(parseDuration("P106751992D")), refused("number_too_large"));
assert.throws(() => speedate.totalMicroseconds({ ...duration, days: -(2 ** 32) }), refused("duration_days_too_large"));
const sumOf = (...texts) => format(speedate.sum(texts.map((it) => parseDuration(it))));
assert.deepEqual([sumOf(), sumOf("-PT0S"), sumOf("PT2H", "-PT30M"), sumOf("-P1D", "PT23H"), sumOf("-PT0.000001S")], ["PT0S", "PT0S", "PT1H30M", "-PT1H", "-PT0.000001S"]);
assert.equal(sumOf("P999999999D", "P999999999D", "-P999999999D", "PT23H59M59.999999S"), sumOf("P999999999DT23H59M59.999999S"), "only the whole sum has to fit");
assert.throws(() => sumOf("P999999999D", "PT23H59M59.999999S", "PT0.000001S"), refused("duration_days_too_large"));
assert.throws(() => speedate.sum([duration, { ...duration, seconds: -86400 }, { ...duration, sign: 2 ** 32 }]), outside("days"));
assert.throws(() => speedate.sum([duration, { ...duration, seconds: -86400 }, { ...duration, days: -(2 ** 32) }]), refused("duration_value_too_large"));
assert.equal(format(speedate.sum([{ ...duration, get days() { return sumOf("PT9S") && -1; } }, duration])), "-P2DT0.002004S", "what a getter calls changes nothing");
for (const count of [2, 2 ** 20, 2 ** 20 + 1]) assert.equal(format(speedate.sum(Array(count).fill(parseDuration("PT1S")))), format(parseDuration(`PT${count}S`)));
const seen = [];
format(new Proxy(dateTime, { get: (it, name) => (seen.push(name), it[name]) }));
assert.deepEqual(seen, Object.keys(dateTime), "each field is looked at once");
assert.equal(speedate.compare({ ...date, get day() { return format(time) && 29; } }, date), 0, "what a getter calls changes nothing");
for (const size of [63, 64, 65, 65000, 66000, 2 ** 24, 2 ** 24 + 1]) {
  const text = `-P3DT0.${"0".repeat(size)}S`;
  for (const it of [text, Buffer.from(text)]) {
    assert.equal(format(parseDuration(it)), "-P3D");
    assert.equal(format(parseDuration("PT1S")), "PT1S");
  }
  assert.deepEqual(parseDateFront(`2020-02-29${"\u2212".repeat(size)}`), { value: date, size: 10, length: 10 });
}

// ---- Where errors start and end: in units of a string, otherwise in bytes ----

/** A reader, a text that it refuses, and where the part starts and ends in a string and in bytes. readings.mjs has more. */
const PARTS = [
  ["Date", "20200229", [8, 8], [8, 8]],
  ["Date", "\u00e9", [1, 1], [2, 2]], ["Date", "\u2212", [1, 1], [3, 3]], ["Date", "\u{1f600}", [2, 2], [4, 4]], ["Date", "\ud83d", [1, 1], [3, 3]], ["Date", "\ud83d\u{1f600}\ude00", [0, 3], [0, 7]],
  ["Date", "202\u00e9-01-01", [0, 4], [0, 5]], ["Date", "2020\u{1f4c5}01-01", [4, 6], [4, 8]], ["Date", "2020\ud83d01-01", [4, 5], [4, 7]], ["Date", "2020-02-29\u{1f600}", [10, 12], [10, 14]],
  ["Date", `2020-01-01${"\u00e9".repeat(70)}`, [10, 80], [10, 150]], ["Date", `2020-01-01${"\u00e9".repeat(2 ** 24)}`, [10, 2 ** 24 + 10], [10, 2 ** 25 + 10]],
  ["Date", `2020-01-01${"x".repeat(2 ** 24)}`, [10, 2 ** 24 + 10], [10, 2 ** 24 + 10]],
  ["Time", "9:30 AM", [0, 1], [0, 1]], ["Time", "12:13\u221208:00\u{1f600}", [11, 13], [13, 17]],
  ["Time", "12:13:14\u{1f552}", [8, 10], [8, 12]],
  ["Time", "\u00e9\u00e9", [2, 2], [4, 4]],
  ["DateTime", "1.00000000Z", [0, 4], [0, 4]],
  ["DateTime", "2020-02-29T12:13:14.1234567\u22121", [28, 29], [30, 31], { overflow: "truncate" }], ["DateTime", "2020-02-29T12:13", [16, 16], [16, 16], { missingOffset: "error" }],
  ["Duration", "\u{1f552}", [0, 2], [0, 4]],
  ["Duration", `00:0${"\u2212".repeat(4)}`, [7, 8], [15, 16]], ["Duration", `00:0${"\u{1f600}".repeat(3)}`, [8, 10], [15, 16]],
  ["TimeFront", "12:13\u22121 opening", [6, 8], [8, 10]],
  ["TimeFront", `12:13:14.${"5".repeat(100)} opening \u00e9`, [15, 109], [15, 109]], ["DateTimeFront", "2020-02-29 opening", [11, 12], [11, 12]],
  ["DateTimeFront", "2020-02-29T12:13\u22121 opening", [17, 19], [19, 21]],
];
for (const [name, text, units, bytes, options] of PARTS) {
  for (const [it, [start, end]] of [[text, units], [Buffer.from(text), bytes]]) {
    const answer = speedate[`safeParse${name}`](it, options);
    assert.deepEqual([answer.start, answer.end], [start, end], text.slice(0, 40));
    assert.ok(Object.hasOwn(answer, "start") && Object.getPrototypeOf(answer) === Object.prototype && new Proxy(answer, {}).start === start, "an answer is a plain object");
    const raised = thrown(() => speedate[`parse${name}`](it, options));
    assert.deepEqual([raised.start, raised.end], [start, end], text.slice(0, 40));
    const seen = typeof it === "string" || !name.endsWith("Front") ? it : it.subarray(0, raised.text.length);
    assert.ok(raised.text.length >= raised.start, text);
    assert.ok(typeof it === "string" ? raised.text === it : Buffer.compare(raised.text, seen) === 0 && raised.text.buffer !== it.buffer, text);
    assert.ok(Object.hasOwn(raised, "start") && new Proxy(raised, {}).start === start && new Proxy(raised, {}).text === raised.text, "what an error has is its own");
  }
}
const options = { overflow: "truncate" };
const [answer, raised] = [speedate.safeParseTime("12:13:14.1234567x", options), thrown(() => parseTime("12:13:14.1234567x", options))];
const fields = { code: "invalid_char_tz_sign", expected: "after the clock at most an offset: Z or +01:00" };
for (const copy of [JSON.parse(JSON.stringify(answer)), structuredClone(answer), { ...answer }]) assert.deepEqual(copy, { ok: false, ...fields, start: 16, end: 17 });
assert.deepEqual({ ...raised }, { name: "SpeedateError", ...fields, text: "12:13:14.1234567x", start: 16, end: 17 });
options.overflow = "error";
safeParseDate("2020-02-29", { get form() { assert.equal(raised.start, 16); } });
assert.equal(parseTime("12:13:14.1234567", { get overflow() { assert.equal(answer.start, 16); return "truncate"; } }).microsecond, 456);
assert.deepEqual([answer.start, raised.start, answer.start], [16, 16, 16], "an error is that by the options that were given");
for (const [call, text, start] of [["Time", "12:13:60", 6], ["TimeFront", `12:13:60${" ".repeat(2 ** 20)}`, 6]]) {
  const changed = Buffer.from(text);
  const both = [speedate[`safeParse${call}`](changed), thrown(() => speedate[`parse${call}`](changed))];
  changed.fill(0);
  assert.deepEqual(both.map((it) => it.start), [start, start], "an error is that of the bytes that were refused");
}
for (const call of [() => add({ ...date, day: 32 }, duration), () => format({ ...date, day: 32 }), () => dateTimeFromTimestamp(2 ** 40, "s"), () => parseDate("x", { other: 1 })])
  for (const name of ["text", "start", "end"]) assert.ok(!(name in thrown(call)), "only a text has a wrong part");
// What crosses to a worker: an error keeps nothing but its message, its plain form all but the text.
for (const [call, wanted] of [
  [() => parseDate("2020-13-01"), { code: "out_of_range_month", expected: "month, 01 to 12", start: 5, end: 7 }],
  [() => readColumn("2020-13-01", "date"), { code: "out_of_range_month", expected: "month, 01 to 12", start: 5, end: 7, index: 0 }],
  [() => format({ ...date, day: 32 }), { code: "out_of_range_day", expected: "a day that the month has" }],
]) {
  const error = thrown(call);
  const all = { name: "SpeedateError", message: error.message, ...wanted };
  for (const it of [error.toJSON(), structuredClone(error.toJSON()), JSON.parse(JSON.stringify(error))]) assert.deepEqual(it, all);
}
const ofLine = thrown(() => readColumn("1970-01-01\n2021-02-2\u2212\r\n", "date"));
assert.deepEqual([ofLine.index, ofLine.code, ofLine.start, ofLine.end, String(ofLine.text)], [1, "invalid_char_day", 8, 12, String(Buffer.from("2021-02-2\u2212").toJSON().data)], "a part of a line is counted in bytes");

setFlagsFromString("--expose-gc");
const collect = runInNewContext("gc");
const held = () => (collect(), process.memoryUsage().rss / 2 ** 20);
const atFirst = held();
let long = Buffer.alloc(2 ** 28, "2020-02-29");
assert.equal(safeParseDate(long).code, "extra_characters");
long = Buffer.alloc(2 ** 25, "2020-02-29");
for (let i = 0; i < 100; i++) assert.equal(safeParseDate(long).code, "extra_characters");
for (let i = 0; i < 1000000; i++) safeParseDate(i % 2 ? "2020-02-29" : "2021-02-29");
assert.ok(held() < atFirst + 200, `${atFirst} megabytes at first, and ${held()} in the end`);

// ---- The entries: CommonJS, a module that is handed over, and engines without WebAssembly ----

const require = createRequire(import.meta.url);
const inPackage = (name) => readFileSync(`node_modules/speedate/${name}`);
const namesOf = (it) => Object.keys(it).sort();
const ONLY_OF_COLUMNS = ["columnReader", "printColumn", "readColumn"];
assert.deepEqual(namesOf(core), namesOf(speedate).filter((it) => !ONLY_OF_COLUMNS.includes(it)));
assert.deepEqual([core.parseDate("2020-02-29"), core.format(core.parseDuration("PT90M"))], [date, "PT1H30M"]);
for (const [name, it] of Object.entries(core)) assert.equal(it.name, name);
assert.equal(require("speedate/package.json").name, "speedate");
// An error is one of each entry's class, and of none that is made from it.
{
  const modules = [core, speedate, require("speedate"), require("speedate/columns"), await import("speedate/bare")];
  for (const { SpeedateError: Thrown } of modules) {
    const made = Object.create(Thrown.prototype);
    for (const { SpeedateError: Class } of modules) assert.ok(made instanceof Class && !(made instanceof class extends Class {}));
  }
  for (const { parseDate, SpeedateError: Class } of modules.slice(0, 4)) {
    for (const it of modules) assert.ok(thrown(() => parseDate("x")) instanceof it.SpeedateError);
    for (const it of [undefined, null, 5, "x", {}, new RangeError(), Class]) assert.ok(!(it instanceof Class));
    class Own extends Class {}
    assert.ok(new Own({ code: "too_short", expected: "a date" }) instanceof Own && thrown(() => parseDate("x")) instanceof RangeError);
  }
}
const copy = (name, file = "speedate.js") => import(`./node_modules/speedate/${file}?${name}`);
const { Module } = WebAssembly;
for (const [path, entry, all] of [["speedate", "speedate", core], ["speedate/columns", "columns", speedate]]) {
  assert.ok(import.meta.resolve(path).endsWith(`/${entry}.node.js`));
  const inCommonJs = require(path);
  assert.ok(require.resolve(path).endsWith(`${entry}.cjs`));
  assert.deepEqual([namesOf(inCommonJs), inCommonJs.parseDate("2020-02-29")], [namesOf(all), date]);
  // The module has the functions that the script calls, and no others.
  const script = readFileSync(require.resolve(path), "utf8");
  const inModule = WebAssembly.Module.exports(moduleOf(entry)).map((it) => it.name).filter((it) => it.startsWith("speedate_"));
  for (const name of inModule) assert.match(script, new RegExp(`["_]${name.replace(/^speedate_/, "")}\\b`), "no function that is not called");
  assert.equal(inModule.some((it) => it.includes("column")), entry === "columns");
  // An entry without the module, so that a bundle that hands it over has it once.
  const bare = await import(`${path}/bare`);
  assert.deepEqual(Object.keys(bare), namesOf(all));
  assert.throws(() => bare.parseDate("2020-02-29"), { constructor: Error, message: "this entry has no module of its own: init comes before all other calls" });
  assert.throws(() => bare.init({}), TypeError);
  bare.init(new Module(readFileSync(require.resolve(`${path === "speedate" ? "speedate/speedate" : path}.wasm`))));
  assert.deepEqual([bare.parseDate("2020-02-29"), bare.format(bare.parseDuration("PT90M"))], [date, "PT1H30M"]);
  // The module that is inside is the file.
  const inside = await copy("inside", `${entry}.js`);
  assert.deepEqual(namesOf(inside), namesOf(all));
  const compiled = [];
  WebAssembly.Module = class { constructor(bytes) { compiled.push(Buffer.from(bytes)); throw new Error("not compiled"); } };
  assert.throws(() => inside.parseDate("2020-02-29"), { message: /^speedate needs WebAssembly/ });
  WebAssembly.Module = Module;
  assert.ok(compiled[0].equals(inPackage(`${entry}.wasm`)));
  assert.deepEqual(inside.parseDate("2020-02-29"), date);
  for (const [kind, isInside] of [["js", true], ["node.js", false], ["cjs", false], ["bare.js", false]])
    assert.equal(/"[^"]{50000}/.test(inPackage(`${entry}.${kind}`)), isInside, `${entry}.${kind} has the module, or has it not`);
}
// The module with columns has the functions of the other one too.
(await copy("more", "speedate.bare.js")).init(wasm);
// A runner of tests, such as Jest, loads a script in a realm of its own.
const file = require.resolve("speedate");
const inRealm = { exports: {} };
for (const globals of [{ TextEncoder }, {}]) {
  // Jest's jsdom has no TextEncoder.
  runInNewContext(`(function (module, require, __dirname) {${readFileSync(file, "utf8")}\n})`, globals)(inRealm, require, dirname(file));
  assert.equal(inRealm.exports.format(inRealm.exports.parseDateTime(Buffer.from("2020-02-29 12:13"), { overflow: "truncate" })), "2020-02-29T12:13:00");
  for (const it of [...PARTS.map(([, text]) => text.slice(0, 99)), "", "\ud83d", "12:13\u221208:00", "12:13Z\u00e9\u2212\u{1f600}", "\udc00\ud800\ud800\udc00x".repeat(50)])
    assert.equal(JSON.stringify(inRealm.exports.safeParseTime(it)), JSON.stringify(speedate.safeParseTime(it)));
}
// A first call that finds no room on the stack leaves nothing half done.
const deep = await copy("deep");
let attempts = 0;
const dig = () => {
  thrown(dig);
  if (attempts++ < 500) thrown(() => deep.compare(date, date));
};
dig();
for (const it of [date, time, dateTime, duration]) assert.equal(deep.format(it), format(it));
const handedOver = await copy("init");
WebAssembly.Module = class { static exports = Module.exports; constructor() { throw new Error("no bytes are compiled here"); } };
assert.throws(() => handedOver.parseDate("2020-02-29"), { message: /^speedate needs WebAssembly/ });
handedOver.init(new Module(inPackage("speedate.wasm")));
assert.deepEqual(handedOver.parseDate("2020-02-29"), date);
WebAssembly.Module = Module;
const { WebAssembly: there } = globalThis;
delete globalThis.WebAssembly;
const without = await copy("without");
assert.throws(() => without.parseDate("2020-02-29"), { constructor: Error, message: /^speedate needs WebAssembly with BigInt and bulk memory \(Node 20/ });
globalThis.WebAssembly = there;

// ---- The documents of the package: each link leads to a place in one of them ----

const documentOf = (name) => readFileSync(`node_modules/speedate/${name || "README.md"}`, "utf8");
const places = (text) => [...text.matchAll(/^#+ (.*)$/gm)].map((it) => it[1].toLowerCase().replace(/[^\w -]/g, "").replaceAll(" ", "-"));
for (const name of ["README.md", "GRAMMAR.md"])
  for (const [, file, place] of documentOf(name).matchAll(/\]\((?!https:)([^)#]*)#?([^)]*)\)/g))
    assert.ok(place === "" ? documentOf(file) : places(documentOf(file || name)).includes(place), `${name}: ${file}#${place}`);

// ---- The sizes that the documents say: in kB of what is loaded for an entry, and gzipped ----

const said = documents.map((it) => readFileSync(it, "utf8")).join("\n");
const sizeOf = (...names) => names.map((it) => inPackage(it)).reduce(([all, gzipped], it) => [all + it.length, gzipped + gzipSync(it, { level: 9 }).length], [0, 0]);
const SIZES = { speedate: ["speedate.js"], "speedate/columns": ["columns.js"], "speedate/bare": ["speedate.bare.js", "speedate.wasm"] };
// Without esbuild the scripts keep their lines.
const isMinified = String(inPackage("speedate.bare.js")).split("\n").length < 20;
for (const [entry, files] of Object.entries(SIZES)) {
  const shown = new RegExp(`^\\| \`${entry}\` \\|.*\\| (\\d+) kB, (\\d+) gzipped \\| (\\d+) kB, (\\d+) gzipped \\|$`, "m").exec(said).slice(1).map(Number);
  for (const [i, size] of sizeOf(...files).entries()) assert.ok(Math.abs(shown[isMinified ? i : i + 2] - size / 1000) < 1, `${entry}: ${size}`);
}

// ---- The examples of the documents, whose results stand after them ----

const fails = (call, name) => assert.throws(call, (error) => (error.code ?? error.name) === name);
Object.assign(globalThis, { equals: assert.deepEqual, fails });
let count = 0;
for (const [i, document] of documents.entries()) {
  const script = scriptOf(readFileSync(document, "utf8"), "js", "");
  const examples = script.match(/^(equals|fails)\(/gm) ?? [];
  assert.ok(examples.length > 1, document);
  count += examples.length;
  writeFileSync(`script${i}.mjs`, script);
  await import(`./script${i}.mjs`);
}
assert.ok(count > 7);
console.log(`${Object.keys(CALLS).length} calls by wrong arguments, long texts, ${count} examples`);
