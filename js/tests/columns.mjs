// Columns beside calls of one line each: drawn lines with all options, columns in print, pieces cut at every byte, lines and columns
// of many sizes, what is refused, and what a reader keeps: node columns.mjs.
import assert from "node:assert/strict";
import { readFileSync } from "node:fs";
import { setTimeout as sleep } from "node:timers/promises";
import { setFlagsFromString } from "node:v8";
import { runInNewContext } from "node:vm";
import {
  columnReader, dateTimeFromTimestamp, daysBetween, durationFromMicroseconds, format, fromDate, parseDate, parseDateTime, printColumn, readColumn, safeParseDate, safeParseDateTime,
  safeParseDateTimeFront, safeParseDuration, safeParseTime, SpeedateError, toDate, withOffset,
} from "speedate/columns";
import { thrown } from "./helpers.mjs";

let drawn = 1;
const below = (most) => (drawn = (drawn * 48271) % 2147483647) % most;
const one = (all) => all[below(all.length)];
const digits = (form) => form.replace(/#/g, () => below(10));

// ---- A column by calls of one line each ----

const EPOCH = parseDate("1970-01-01");
const SMALLEST = -(2 ** 31);
const TOO_FEW_MICROSECONDS = -(2n ** 63n);
/** The lines of a text, without the carriage returns before their ends. */
function linesOf(text) {
  const lines = text.split("\n");
  if (lines.at(-1) === "") lines.pop();
  return lines.map((it) => it.replace(/\r$/, ""));
}

/** What a line has in a column of dates. */
function day(line, options) {
  const { ok, value, ...refusal } = safeParseDate(Buffer.from(line), options);
  return ok ? { number: daysBetween(EPOCH, value) } : { number: SMALLEST, refusal };
}

/** Of a decimal text JavaScript makes the nearest double. */
const inUnit = (microseconds, unit) => (unit === "us" ? microseconds : Number(`${microseconds}e-3`));
const TZ_REQUIRED = safeParseDateTime("2020-02-29T12:13:14", { form: "strict" });
/** The refusal of a line that is accepted where no offset is wanted. */
function lacksOffset(line) {
  const { ok, ...refusal } = TZ_REQUIRED;
  return { ...refusal, start: line.length, end: line.length };
}

/** A refusal of a column that requires an offset, by the call that requires none: its phrase names no text without one. */
function namesOffset({ expected, ...refusal }, safeParse, { form }) {
  if (refusal.code === "too_short") return { ...refusal, expected: safeParse("", { form: "strict" }).expected };
  return { ...refusal, expected: refusal.code === "invalid_char_tz_sign" && form !== "strict" ? TZ_REQUIRED.expected : expected };
}

/** What a line has in a column of date-times. */
function moment(line, { missingOffset, unit, ...options }) {
  const { ok, value, ...refusal } = safeParseDateTime(Buffer.from(line), options);
  const refused = { number: unit === "us" ? TOO_FEW_MICROSECONDS : NaN };
  if (!ok && missingOffset === "utc") return { ...refused, refusal };
  if (!ok) {
    const its = namesOffset(refusal, safeParseDateTime, options);
    assert.deepEqual(safeParseDateTime(Buffer.from(line), { ...options, missingOffset: "error" }), { ok: false, ...its }, line);
    return { ...refused, refusal: its };
  }
  if (value.offsetSeconds === null && missingOffset !== "utc") {
    const refusal = lacksOffset(line);
    assert.deepEqual(safeParseDateTime(line, { ...options, missingOffset: missingOffset ?? "error" }), { ok: false, ...refusal }, line);
    return { ...refused, refusal };
  }
  assert.deepEqual(safeParseDateTime(line, { ...options, missingOffset: missingOffset ?? "error" }).value, { ...value, offsetSeconds: value.offsetSeconds ?? 0 }, line);
  const milliseconds = toDate({ ...value, offsetSeconds: value.offsetSeconds ?? 0 }).getTime();
  return { number: inUnit(BigInt(milliseconds) * 1000n + BigInt(value.microsecond), unit) };
}

/** What a line has in a column of the fronts of lines: what its front has, and the size of that. */
function front(line, { form, ...options }) {
  const bytes = Buffer.from(line);
  const { ok, value } = safeParseDateTimeFront(bytes, { overflow: options.overflow });
  const it = moment(ok ? bytes.subarray(0, value.size).toString() : line, options);
  return { ...it, size: it.refusal ? 0 : value.size };
}

/** What a line has in a column of what clocks show, by the call of its text, and by the date on which the clock stands if it shows none. */
const clockBy = (safeParse, date) => (line, { unit, ...options }) => {
  const { ok, value, ...refusal } = safeParse(Buffer.from(line), options);
  if (!ok) return { number: unit === "us" ? TOO_FEW_MICROSECONDS : NaN, refusal };
  const milliseconds = toDate({ ...date, ...value, offsetSeconds: 0 }).getTime();
  return { number: inUnit(BigInt(milliseconds) * 1000n + BigInt(value.microsecond), unit) };
};

/** What a line has in a column of offsets, by the call of its text. */
const offsetBy = (safeParse) => (line, options) => {
  const { ok, value, ...refusal } = safeParse(Buffer.from(line), options);
  if (!ok) return { number: SMALLEST, refusal: namesOffset(refusal, safeParse, options) };
  if (value.offsetSeconds !== null) return { number: value.offsetSeconds };
  return { number: SMALLEST, refusal: lacksOffset(line) };
};

const TOO_LARGE = { code: "number_too_large", expected: "a duration of less than 2^63 microseconds", start: 0 };
/** What a line has in a column of durations. */
function length(line, { unit, ...options }) {
  const { ok, value, ...refusal } = safeParseDuration(Buffer.from(line), options);
  const refused = { number: unit === "us" ? TOO_FEW_MICROSECONDS : NaN };
  if (!ok) return { ...refused, refusal };
  const seconds = BigInt(value.days) * 86400n + BigInt(value.seconds);
  const microseconds = seconds * 1000000n + BigInt(value.milliseconds * 1000 + value.microseconds);
  if (microseconds >= 2n ** 63n || microseconds <= TOO_FEW_MICROSECONDS) return { ...refused, refusal: { ...TOO_LARGE, end: line.length } };
  return { number: inUnit(microseconds, unit) };
}

const asIntegers = () => Int32Array;
const byUnit = ({ unit }) => (unit === "us" ? BigInt64Array : Float64Array);

/** What a column has to be that collects refusals. */
function expected({ of, Numbers }, text, options) {
  const lines = linesOf(text);
  const its = lines.map((it) => of(it, options));
  const refusals = its.flatMap(({ refusal }, index) => (refusal ? [{ index, text: new Uint8Array(Buffer.from(lines[index])), ...refusal }] : []));
  const sizes = options.form === "front" ? { sizes: Int32Array.from(its, (it) => it.size) } : {};
  return { numbers: Numbers(options).from(its, (it) => it.number), ...sizes, refusedCount: refusals.length, refusals };
}

/** Compares a column, by all ways of refusing, and gives the number of lines that are refused. */
function compareColumn(kind, text, options) {
  const wanted = expected(kind, text, options);
  const { refusals: [first] } = wanted;
  for (const it of [text, Buffer.from(text)]) {
    assert.deepEqual(readColumn(it, kind.kind, { ...options, refused: "collect" }), wanted, text);
    assert.deepEqual(readColumn(it, kind.kind, { ...options, refused: "number" }), { ...wanted, refusals: [] }, text);
    if (first === undefined) assert.deepEqual(readColumn(it, kind.kind, options), wanted, text);
    else {
      const error = thrown(() => readColumn(it, kind.kind, { refused: "stop", ...options }));
      assert.ok(error instanceof SpeedateError, text);
      assert.deepEqual({ ...error, message: error.message }, { name: "SpeedateError", message: `expected ${first.expected}`, ...first }, text);
    }
  }
  return wanted.refusedCount;
}

// ---- Drawn columns ----

const DATES = ["####-0#-1#", "####-1#-2#", "2020-02-29", "2021-02-29", "86400", "-86400000", "20200229", "####-0#-1", "", " 2020-02-29", "\u{1f600}", "\ud83d", "2020-02-29T12:13Z"];
const DATE_TIMES = [
  "####-0#-1#T0#:1#:2#.######Z", "####-1#-2#T1#:2#:3#+0#:##", "####-0#-1# 1#:2#Z", "0000-01-01T00:00:00.000001+23:59", "9999-12-31T23:59:59.999999-23:59",
  "2020-02-29T12:13:14.#######Z", "2020-02-29T12:13:14.5", "1.######", "-###########", "####-0#-1#T0#:1#:2#.######", "1#########",
  "1969-12-31T23:59:59.####Z", "1970-01-01T00:00:00.00####Z", "2255-06-05T23:47:3#.######Z", "1684-07-28T00:12:2#.######Z", "", "x", "2020-02-29", "2020-02-29T12:13\u221201:00",
];
const TIMES = [
  "0#:1#", "1#:2#:3#", "2#:5#:0#.######", "1#:2#:3#.#######Z", "0#:0#:0#,5+0#:##", "1#:2#:3#\u22121#:3#", "1#:2#:3#.######-1#:3#", "2#:##Z", "12:13:14Z", "", "x", "12:13 PM",
];
const DURATIONS = [
  "P1DT2H", "-PT#M", "PT0.######S", "-PT#####.######S", "0#:1#", "-1#:2#:3#.#######", "2 days, 1#:1#", "P1D1Y", "P#Y#M#D", "P10675199#D", "-P106751991DT4H54.77580#S", "P105######DT4H54.77####S", "P999999999D",
  "", "x", "1 day, 24:00", "P1D\u2212",
];
const FRONTS = DATE_TIMES.flatMap((it) => ["", " GET /", "x", "0", " \u{1f600}", ",Z"].map((rest) => it + rest));
const LINE_ENDS = ["\n", "\n", "\n", "\r\n", "\r\r\n", "\n\n", "\r"];
const anyOf = (choices) => Object.fromEntries(Object.entries(choices).map(([name, all]) => [name, one(all)]).filter(([, it]) => it !== undefined));
const OVERFLOW = { overflow: [undefined, "error", "truncate"] };
const STRICT = { form: [undefined, "text", "strict"], ...OVERFLOW };
const UNIT = { unit: [undefined, "ms", "us"] };
const MISSING = { missingOffset: [undefined, "error", "utc"] };
const FRONT = { form: ["front"], ...MISSING, ...OVERFLOW, ...UNIT };
const OR_TIMESTAMP = { form: ["orTimestamp"], timestampUnit: ["infer", "s", "ms", "us"] };
const dateTimeOptions = (more) => anyOf({ ...(below(2) ? STRICT : { ...OR_TIMESTAMP, ...OVERFLOW }), ...more });
const KINDS = [
  { kind: "date", of: day, Numbers: asIntegers, forms: DATES, drawn: () => anyOf(below(2) ? OR_TIMESTAMP : { form: [undefined, "text"] }) },
  { kind: "dateTime", of: moment, Numbers: byUnit, forms: DATE_TIMES, drawn: () => dateTimeOptions({ ...MISSING, ...UNIT }) },
  { kind: "dateTimeClock", of: clockBy(safeParseDateTime, {}), Numbers: byUnit, forms: DATE_TIMES, drawn: () => dateTimeOptions(UNIT) },
  { kind: "dateTimeOffset", of: offsetBy(safeParseDateTime), Numbers: asIntegers, forms: DATE_TIMES, drawn: () => dateTimeOptions({}) },
  { kind: "time", of: clockBy(safeParseTime, EPOCH), Numbers: byUnit, forms: TIMES, drawn: () => anyOf({ ...STRICT, ...UNIT }) },
  { kind: "timeOffset", of: offsetBy(safeParseTime), Numbers: asIntegers, forms: TIMES, drawn: () => anyOf(STRICT) },
  { kind: "dateTime", of: front, Numbers: byUnit, forms: FRONTS, drawn: () => anyOf(FRONT) },
  { kind: "duration", of: length, Numbers: byUnit, forms: DURATIONS, drawn: () => anyOf({ isoOrder: [undefined, "lax", "strict"], ...OVERFLOW, ...UNIT }) },
];
const refusedOnes = KINDS.map(() => 0);
const acceptedOnes = KINDS.map(() => 0);
for (let i = 0; i < 4000; i++) {
  for (const [at, kind] of KINDS.entries()) {
    const options = kind.drawn();
    const some = Array.from({ length: 1 + below(3) }, () => one(kind.forms));
    const text = Array.from({ length: below(8) }, () => digits(one(some)) + one(LINE_ENDS)).join("") + (below(2) ? digits(one(some)) : "");
    const refused = compareColumn(kind, text, options);
    refusedOnes[at] += refused;
    acceptedOnes[at] += linesOf(text).length - refused;
  }
}
for (const it of [...refusedOnes, ...acceptedOnes]) assert.ok(it > 2000, `lines of both sorts are drawn: ${refusedOnes}, ${acceptedOnes}`);
const numbersOf = (text, kind, options) => readColumn(text, kind, options).numbers;
const distinct = (year) => new Set(numbersOf(Array.from({ length: 999 }, (_, i) => `${year}-06-29T12:13:14.5${String(i).padStart(5, "0")}Z`).join("\n"), "dateTime")).size;
assert.deepEqual(["1691", "1692", "1970", "2247", "2248"].map(distinct), [999, 999, 999, 999, 999], "each microsecond has a number of its own");
for (const year of ["1690", "2249"]) assert.ok(distinct(year) < 999);

// ---- The Date of a line: the way that the declarations say is that of a single text ----

const [, way] = /`(toDate\(dateTimeFromTimestamp\([^`]*)`/.exec(readFileSync("node_modules/speedate/columns.d.ts", "utf8"));
const dateOf = new Function("toDate", "dateTimeFromTimestamp", "it", `return ${way}`);
const ENDS = ["0000-01-01T00:00", "0000-12-31T23:59", "1691-06-29T12:13", "1969-12-31T23:59", "1970-01-01T00:00", "2248-06-29T12:13", "9999-01-01T00:00", "9999-12-31T23:59"];
const FRACTIONS = ["00", "00.000001", "00.000999", "00.001", "00.9995", "59.9985", "59.999", "59.9995", "59.999999"];
const lines = ENDS.flatMap((end) => FRACTIONS.flatMap((fraction) => ["Z", "+23:59", "-23:59"].map((offset) => `${end}:${fraction}${offset}`)));
for (const [i, it] of numbersOf(lines.join("\n"), "dateTime", { unit: "us" }).entries()) {
  const of = (call) => thrown(call)?.code ?? call().getTime();
  assert.equal(of(() => dateOf(toDate, dateTimeFromTimestamp, it)), of(() => toDate(withOffset(parseDateTime(lines[i]), 0))), lines[i]);
}

// ---- Columns in print: beside the text of each value, and read again ----

const DAY = 86400000000n;
/** By kind the first and the last number, the errors of those before and after, and the value of a number. */
const PRINTED = {
  date: [-719528, 2932896, "date_too_small", "date_too_large", (it) => { const { year, month, day } = fromDate(new Date(it * 86400000)); return { year, month, day }; }],
  time: [0, DAY - 1n, "time_too_large", "time_too_large", (it) => { const { year, month, day, ...time } = dateTimeFromTimestamp(it, "us"); return { ...time, offsetSeconds: null }; }],
  dateTime: [-719528n * DAY, 2932897n * DAY - 1n, "date_too_small", "date_too_large", (it) => dateTimeFromTimestamp(it, "us")],
  dateTimeClock: [-719528n * DAY, 2932897n * DAY - 1n, "date_too_small", "date_too_large", (it) => ({ ...dateTimeFromTimestamp(it, "us"), offsetSeconds: null })],
  duration: [1n - 2n ** 63n, 2n ** 63n - 1n, "number_too_large", "number_too_large", (it) => durationFromMicroseconds(it)],
};
const isRefused = (it) => it === SMALLEST || it === TOO_FEW_MICROSECONDS || Number.isNaN(it);
for (const [kind, bounds] of Object.entries(PRINTED)) {
  const read = (text, options) => numbersOf(text, kind, { refused: "number", ...options });
  const [least, most] = bounds.slice(0, 2).map(BigInt);
  const [tooSmall, tooLarge, valueOf] = bounds.slice(2);
  const [Exact, options, empty] = kind === "date" ? [Int32Array, {}, SMALLEST] : [BigInt64Array, { unit: "us" }, TOO_FEW_MICROSECONDS];
  const inArray = (it) => (kind === "date" ? Number(it) : BigInt(it));
  const between = () => least + ((most - least) * BigInt(below(2 ** 31 - 1))) / 2147483646n;
  const near = () => [0n, least, most][below(3)] + BigInt(below(2001) - 1000);
  const drawnOnes = Array.from({ length: 10000 }, () => [between, near, near][below(3)]()).map((it) => (it < least ? least : it > most ? most : it));
  const numbers = Exact.from([least, most, 0n, ...drawnOnes].map(inArray));
  numbers[1] = numbers[4100] = empty;
  for (const count of [0, 1, 3, 4095, 4096, 4097, numbers.length]) {
    const column = numbers.subarray(0, count);
    const text = printColumn(column, kind);
    assert.deepEqual(linesOf(text), Array.from(column, (it) => (isRefused(it) ? "" : format(valueOf(it)))));
    assert.deepEqual(read(text, options), column);
    if (kind === "date") continue;
    // The last numbers are rounded up, to one that has no line.
    const milliseconds = read(text).map((it) => (Math.abs(it) < Number(most) / 1000 ? it : NaN));
    assert.deepEqual(read(printColumn(milliseconds, kind)), milliseconds, "the number of milliseconds is printed as a line of this number");
    if (kind !== "duration") assert.equal(printColumn(milliseconds.map((it) => (Math.abs(it) < 2 ** 43 ? it : NaN)), kind), printColumn(column.map((it, i) => (Math.abs(milliseconds[i]) < 2 ** 43 ? it : empty)), kind));
  }
  const others = kind === "duration" ? [] : [Exact.of(inArray(least - 1n)), Exact.of(inArray(most + 1n))];
  if (kind !== "date") others.push(Float64Array.of(-9.3e15), Float64Array.of(9.3e15), Float64Array.of(-Infinity), Float64Array.of(Infinity));
  for (const [i, it] of others.entries()) {
    const isWide = it.constructor === Float64Array;
    const code = isWide ? "number_too_large" : [tooSmall, tooLarge][i];
    const many = new it.constructor(9000);
    for (const at of [0, 1, 4096, 8999]) {
      const error = thrown(() => printColumn(many.with(at, it[0]), kind));
      assert.deepEqual([error.constructor, error.code, error.index, "start" in error], [SpeedateError, code, at, false], kind);
    }
    assert.equal(thrown(() => printColumn(many.with(3, it[0]).with(2, it[0]), kind)).index, 2);
  }
}
// Of two numbers without a line the first one is thrown, also before one that 64 bits do not hold.
for (const numbers of [[-1, Infinity], [Infinity, -1]]) assert.equal(thrown(() => printColumn(Float64Array.of(0, ...numbers), "time")).code, numbers[0] < 0 ? "time_too_large" : "number_too_large");
assert.equal(printColumn(Float64Array.of(1000.0006, 1000.0004, -0.5, -0, NaN, -1000.25), "duration"), "PT1.000001S\nPT1S\n-PT0.0005S\nPT0S\n\n-PT1.00025S\n");
assert.equal(printColumn(runInNewContext("Int32Array.of(1)"), "date"), "1970-01-02\n");
{
  const bytes = new Int32Array(6);
  bytes[3] = 1;
  assert.equal(printColumn(bytes.subarray(2, 5), "date"), "1970-01-01\n1970-01-02\n1970-01-01\n");
  const COUNT = 1000000;
  const start = performance.now();
  const text = printColumn(Float64Array.from({ length: COUNT }, (_, i) => 1577836800000.5 + i * 60000), "dateTime");
  assert.ok(performance.now() - start < 20000);
  assert.deepEqual([text.length, text.slice(-28)], [COUNT * 28, "2021-11-25T10:39:00.000500Z\n"]);
}

// ---- Pieces ----

/** The column of these pieces. A piece is overwritten once it is read. */
function byPieces({ kind }, pieces, options) {
  const reader = columnReader(kind, { ...options, refused: "collect" });
  const parts = pieces.map((it) => {
    const piece = typeof it === "string" ? it : Uint8Array.from(it);
    const part = reader.read(piece);
    if (typeof piece !== "string") piece.fill(120);
    // What other calls leave in the memory is not read as a line.
    safeParseDate("2020-02-29\n2020-02-29\n2020-02-29");
    return part;
  });
  parts.push(reader.end());
  const joined = (name) => parts[0][name].constructor.from(parts.flatMap((it) => Array.from(it[name])));
  const sizes = options.form === "front" ? { sizes: joined("sizes") } : {};
  const refusedCount = parts.reduce((sum, it) => sum + it.refusedCount, 0);
  return { numbers: joined("numbers"), ...sizes, refusedCount, refusals: joined("refusals") };
}

const TEXT = "2020-02-29T12:13:14.5Z\r\n\n2021-02-29T12:13Z\n2020-02-29T12:13\u221201:00\r\n\r\n1970-01-01T00:00:00.000001Z";
const DAYS_TEXT = "2020-02-29\r\n\n2021-02-29\n1969-12-31\n\r\n0000-01-01\n";
const FRONTS_TEXT = "2020-02-29T12:13:14.5Z /\r\n\n2021-02-29\n2020-02-29T12:13\u221201:00 x\r\n1970-01-01 00:00";
const TIMES_TEXT = "12:13:14.5Z\r\n\n24:00\n12:13\u221201:00\r\n\r\n00:00:00.000001+23:59";
for (const [kind, text, options] of [
  [KINDS[0], DAYS_TEXT, {}], [KINDS[1], TEXT, {}], [KINDS[1], `${TEXT}\n`, { unit: "us" }], [KINDS[1], `${TEXT}\r\n`, { overflow: "truncate" }],
  [KINDS[2], TEXT, {}], [KINDS[3], TEXT, {}], [KINDS[4], TIMES_TEXT, { unit: "us" }], [KINDS[5], TIMES_TEXT, {}],
  [KINDS[6], FRONTS_TEXT, { form: "front", missingOffset: "utc" }],
  [KINDS[7], "PT1.5S\r\n\nP999999999D\n-00:01\u2212\r\n1 day", {}],
]) {
  const bytes = Buffer.from(text);
  const whole = expected(kind, text, options);
  for (let i = 0; i <= bytes.length; i++) {
    assert.deepEqual(byPieces(kind, [bytes.subarray(0, i), bytes.subarray(i)], options), whole, `cut at ${i}`);
    for (let j = i; j <= Math.min(i + 3, bytes.length); j++) assert.deepEqual(byPieces(kind, [bytes.subarray(0, i), bytes.subarray(i, j), bytes.subarray(j)], options), whole, `cut at ${i} and ${j}`);
  }
  assert.deepEqual(byPieces(kind, Array.from(bytes, (it) => [it]), options), whole);
  assert.deepEqual(byPieces(kind, Array.from(text), options), whole);
  assert.deepEqual(byPieces(kind, [], options), expected(kind, "", options));
}
{
  const reader = columnReader("date");
  assert.deepEqual(reader.read("1970-01-02\n1970-0").numbers, Int32Array.of(1));
  assert.deepEqual(reader.read("1-03").numbers, Int32Array.of());
  assert.deepEqual(reader.end("\n1970-01-04").numbers, Int32Array.of(2, 3));
  for (const call of [reader.read, reader.end]) assert.throws(() => call("1970-01-02\n"), { name: "TypeError", message: "the column has ended" });
}
{
  const [reader, other] = [columnReader("date"), columnReader("date")];
  assert.deepEqual(reader.read("1970-01-02\n1970-01-03\n19").numbers, Int32Array.of(1, 2));
  assert.deepEqual(other.read("1970-01-0").numbers, Int32Array.of());
  assert.throws(() => reader.read(5), TypeError);
  const error = thrown(() => reader.read("70-01-04\n2021-02-29\n"));
  assert.deepEqual([error.code, error.index], ["out_of_range_day", 3]);
  assert.throws(() => reader.end(), { message: "the column has ended" }, "a column that was refused has ended");
  assert.deepEqual(other.end("9\n1970-01-01").numbers, Int32Array.of(8, 0));
}
{
  const reader = columnReader("dateTime", { refused: "number" });
  const pieces = new Response(TEXT.repeat(10000)).body.getReader();
  const numbers = [];
  for (let it = await pieces.read(); !it.done; it = await pieces.read()) numbers.push(...reader.read(it.value).numbers);
  numbers.push(...reader.end().numbers);
  assert.deepEqual(Float64Array.from(numbers), numbersOf(TEXT.repeat(10000), "dateTime", { refused: "number" }));
}
assert.deepEqual(numbersOf("86400", "date", runInNewContext("({ form: 'orTimestamp', timestampUnit: 's', refused: 'collect' })")), Int32Array.of(1));
class Odd extends Uint8Array {
  get length() { return 5; }
  get buffer() { return new ArrayBuffer(1); }
  get byteOffset() { return 0; }
  slice() { return 5; }
}
assert.deepEqual(numbersOf(Odd.from(Buffer.from("1970-01-02\n")), "date"), Int32Array.of(1));
assert.deepEqual(numbersOf(Buffer.from("x1970-01-02\nx").subarray(1, 12), "date"), Int32Array.of(1));

// ---- Sizes: of columns, of lines, and of blocks that hold a part of a line ----

setFlagsFromString("--expose-gc");
const collect = runInNewContext("gc");
const held = () => (collect(), process.memoryUsage().rss / 2 ** 20);
const atFirst = held();
const FEW = [0, 1, 4095, 4096, 4097, 8191, 8192, 8193, 70000];
for (const count of FEW) {
  assert.deepEqual(numbersOf("1970-01-02\n".repeat(count), "date"), new Int32Array(count).fill(1));
  const { numbers, refusals } = readColumn("\n".repeat(count), "dateTime", { refused: "collect" });
  assert.deepEqual(numbers, new Float64Array(count).fill(NaN));
  assert.deepEqual(refusals.map((it) => it.index), Array.from({ length: count }, (_, i) => i));
  if (count === 0) continue;
  const text = `${"1970-01-02\n".repeat(count)}x\n1970-01-02`;
  assert.equal(thrown(() => numbersOf(text, "date")).index, count);
  assert.deepEqual(readColumn(text, "date", { refused: "collect" }).refusals.map((it) => it.index), [count]);
}
for (const size of [2 ** 16 - 22, 2 ** 16 - 21, 2 ** 16 - 20, 2 ** 17, 2 ** 24 - 20, 2 ** 24 + 1]) {
  const line = `1970-01-01T00:00:01.${"0".repeat(size)}Z\n`;
  const text = `1970-01-01T00:00:01Z\n${line}1970-01-01T00:00:02Z`;
  assert.deepEqual(numbersOf(text, "dateTime", { overflow: "truncate" }), Float64Array.of(1000, 1000, 2000));
  assert.deepEqual(thrown(() => numbersOf(Buffer.from(text), "dateTime")).index, 1);
  const { numbers, refusals: [{ index, text: refused }] } = readColumn(text, "dateTime", { refused: "collect" });
  assert.deepEqual([...numbers, index, Buffer.compare(refused, Buffer.from(line.trimEnd()))], [1000, NaN, 2000, 1, 0]);
  assert.deepEqual(numbersOf("1970-01-01T00:00:03Z", "dateTime"), Float64Array.of(3000));
}
{
  const reader = columnReader("dateTime", { overflow: "truncate" });
  reader.read("1970-01-01T00:00:01.");
  const zeros = Buffer.alloc(1000, "0");
  const start = performance.now();
  for (let i = 0; i < 20000; i++) reader.read(zeros);
  assert.deepEqual(reader.end("Z\n").numbers, Float64Array.of(1000));
  assert.ok(performance.now() - start < 20000, "a line that does not end is not read again for each piece");
  const COUNT = 1000000;
  const text = Array.from({ length: COUNT }, (_, i) => new Date(1577836800000 + i * 60000).toISOString()).join("\n");
  const column = numbersOf(Buffer.from(text), "dateTime");
  assert.equal(column.length, COUNT);
  for (let i = 0; i < COUNT; i++) if (column[i] !== 1577836800000 + i * 60000) assert.fail(`line ${i}`);
  for (let i = 0; i < 3; i++) assert.equal(numbersOf(text, "dateTime", { unit: "us" }).at(-1), BigInt(column.at(-1)) * 1000n);
}
{
  // A string may be cut within a pair: the parts are those of the whole text. Bytes end half a pair.
  const text = "1970-01-01\u{1f600}x\n\u{1f600}\n\ud83d\n\ude00\u{1f600}\n2020-0\u{1f600}\ud83d";
  const refusalsOf = (pieces, cut = pieces.pop()) => {
    const reader = columnReader("date", { refused: "collect" });
    const parts = [...pieces.map((it) => reader.read(it)), reader.end(cut)];
    return [...parts.flatMap((it) => [...it.numbers]), parts.flatMap((it) => it.refusals)];
  };
  const thrownBy = (pieces, first = columnReader("date")) => thrown(() => [...pieces.map((it) => first.read(it)), first.end()]);
  const whole = refusalsOf([text]);
  for (let at = 0; at <= text.length; at++) assert.deepEqual(refusalsOf([text.slice(0, at), "", text.slice(at)]), whole, String(at));
  assert.deepEqual(refusalsOf([...text].flatMap((it) => it.split(""))), whole);
  for (const [pieces, start, end] of [[["1970-01-01\ud83d", "\ude00"], 10, 14], [["1970-01-01\ud83d", Buffer.from("\n")], 10, 13], [["1970-01-01\ud83d"], 10, 13]]) {
    const error = thrownBy(pieces);
    assert.deepEqual([error.start, error.end], [start, end]);
  }
}
{
  // Many small pieces of a line take no more room than the line.
  const reader = columnReader("dateTime", { overflow: "truncate" });
  const before = held();
  reader.read("1970-01-01T00:00:01.");
  const zero = Buffer.from("0");
  for (let i = 0; i < 2000000; i++) reader.read(zero);
  assert.ok(held() < before + 100, `${before} megabytes before, and ${held()} for a line of two`);
  assert.deepEqual(reader.end("Z\n").numbers, Float64Array.of(1000));
}
for (const [maxLineBytes, size, index] of [[20, 20], [20, 21, 0], [0, 0], [0, 1, 0], [2 ** 20, 2 ** 20], [2 ** 20, 2 ** 20 + 1, 0]]) {
  for (const piece of [1, 1000, 2 ** 21]) {
    const reader = columnReader("date", { maxLineBytes, refused: "number" });
    const fed = () => {
      for (let at = 0; at < size; at += piece) reader.read("x".repeat(Math.min(piece, size - at)));
    };
    if (piece === 1 && size > 1000) continue;
    if (index === undefined) fed(), assert.equal(reader.end().numbers.length, Math.min(size, 1));
    else assert.throws(fed, { constructor: RangeError, name: "LineTooLong", index, message: `line 0 has more than ${maxLineBytes} bytes` });
    if (index !== undefined) assert.throws(() => reader.read(""), TypeError);
  }
}
// A byte order mark at the beginning is no part of the first line, and anywhere else it is.
for (const [lines, wanted] of [
  ["\ufeff1970-01-02\n1970-01-03", [1, 2]], ["\ufeff", []], ["\ufeff\n", [SMALLEST]], ["\ufeff\ufeff1970-01-02", [SMALLEST]], ["1970-01-02\n\ufeff1970-01-03", [1, SMALLEST]],
  ["\n\ufeff1970-01-03", [SMALLEST, SMALLEST]], ["\ufefe\n", [SMALLEST]], ["\ufeffx", [SMALLEST]],
]) {
  for (const text of [lines, Buffer.from(lines)])
    for (let i = 0; i <= text.length; i++)
      for (let j = i; j <= text.length; j++) {
        const reader = columnReader("date", { refused: "collect", maxLineBytes: 13 });
        const parts = [reader.read(text.slice(0, i)), reader.read(text.slice(i, j)), reader.read(text.slice(j)), reader.end()];
        assert.deepEqual(parts.flatMap((it) => [...it.numbers]), wanted, JSON.stringify(lines));
        for (const it of parts.flatMap((it) => it.refusals)) assert.ok(it.start <= it.end && it.end <= it.text.length);
        if (lines.endsWith("\n")) assert.equal(parts[3].numbers.length, 0, "the lines that end are those of a piece");
      }
}
assert.deepEqual(((it) => [it.start, it.end, it.text.length])(readColumn("\ufeff2020-13-01", "date", { refused: "collect" }).refusals[0]), [5, 7, 10]);
for (const [text, limits] of [
  // Lines, which of them is too long for each limit, and none for the others. Their ends are not counted.
  ["1970-01-02\r\n1970-01-03 x\n1970-01-04\n", { 10: 1, 11: 1, 12: undefined }], ["1970-01-02\r", { 9: 0, 10: undefined }], ["\r\r\n\n", { 0: 0, 1: undefined }],
  ["x\n\u2212\u2212", { 0: 0, 5: 1, 6: undefined }], ["xx\nx\n\ud83d\ude00\ud83d", { 1: 0, 2: 2, 6: 2, 7: undefined }],
]) {
  for (const [limit, wanted] of Object.entries(limits)) {
    const options = { maxLineBytes: Number(limit), refused: "number" };
    const whole = thrown(() => readColumn(text, "date", options));
    assert.deepEqual([whole?.name, whole?.index], wanted === undefined ? [undefined, undefined] : ["LineTooLong", wanted], `${JSON.stringify(text)}, ${limit}`);
    for (const it of [text, Buffer.from(text)])
      for (let i = 0; i <= it.length; i++)
        for (let j = i; j <= it.length; j++) {
          const reader = columnReader("date", options);
          const raised = thrown(() => [it.slice(0, i), it.slice(i, j), it.slice(j)].map((piece) => reader.read(piece)) && reader.end());
          assert.deepEqual([raised?.message, raised?.index], [whole?.message, whole?.index], `${JSON.stringify(text)}, ${limit}, cut at ${i} and ${j}`);
        }
  }
}
// A line that is refused before the one that is too long comes first.
for (const pieces of [["1970-01-02\nx\n1970-01-03 x\n"], ["1970-01-02\nx", "\n1970-01-03 x"]]) {
  const reader = columnReader("date", { maxLineBytes: 11 });
  assert.deepEqual(((it) => [it.code, it.index])(thrown(() => pieces.map((it) => reader.read(it)))), ["too_short", 1]);
}
{
  const reader = columnReader("date", { maxLineBytes: 10 });
  for (let i = 0; i < 10; i++) assert.equal(reader.read("1970-01-02\n1970-01").numbers.length + reader.read("-02\n").numbers.length, 2);
  assert.throws(() => reader.read("1970-01-02\n1970-01-020"), { name: "LineTooLong", index: 21 });
}
{
  // The room of a long line goes with it, although the reader goes on.
  const reader = columnReader("dateTime", { overflow: "truncate" });
  const before = held();
  reader.read("1970-01-01T00:00:01.");
  for (let i = 0; i < 200; i++) reader.read(Buffer.alloc(2 ** 20, "0"));
  assert.deepEqual([...reader.read("Z\n1970-01-01T00:0").numbers, ...reader.end("0:02Z").numbers], [1000, 2000]);
  for (let i = 0; i < 100 && held() >= before + 100; i++) await sleep(100);
  assert.ok(held() < before + 100, `${before} megabytes before, and ${held()} after a line of 200`);
  assert.throws(() => reader.read(""), TypeError);
}
for (const [maxRefusals, listed] of [[0, []], [1, [1]], [2, [1, 2]], [4, [1, 2, 4, 5]], [9, [1, 2, 4, 5]], [undefined, [1, 2, 4, 5]]]) {
  // What is not listed is refused and counted too.
  const lines = ["1970-01-02", "x", "y", "1970-01-04", "z", "x"];
  const options = { refused: "collect", maxRefusals };
  const reader = columnReader("date", options);
  const parts = [reader.read(lines.slice(0, 2).join("\n") + "\n"), reader.read(lines.slice(2, 5).join("\n")), reader.end(`\n${lines[5]}`)];
  const numbers = parts.flatMap((it) => [...it.numbers]);
  const refusals = parts.flatMap((it) => it.refusals);
  assert.deepEqual([numbers, refusals.map((it) => it.index), parts.map((it) => it.refusedCount)], [[1, SMALLEST, SMALLEST, 3, SMALLEST, SMALLEST], listed, [1, 1, 2]]);
  assert.deepEqual(readColumn(lines.join("\n"), "date", options), { numbers: Int32Array.from(numbers), refusedCount: 4, refusals });
}
{
  const before = held();
  const refusals = [];
  const reader = columnReader("dateTime", { refused: "collect", maxRefusals: 100 });
  let count = 0;
  for (let i = 0; i < 50; i++) {
    const part = reader.read("\n".repeat(100000));
    refusals.push(...part.refusals);
    count += part.refusedCount;
  }
  assert.deepEqual([refusals.length, refusals.at(-1).index, count], [100, 99, 5000000]);
  assert.ok(held() < before + 100, "what is not listed takes no room");
}
assert.equal(thrown(() => readColumn(Buffer.alloc(2 ** 28, "0"), "date")).index, 0);
// What is collected is given back a little later.
for (let i = 0; i < 100 && held() >= atFirst + 200; i++) await sleep(100);
assert.ok(held() < atFirst + 200, `${atFirst} megabytes at first, and ${held()} in the end`);
const sum = (all) => all.reduce((one, other) => one + other);
console.log(`columns: ${sum(acceptedOnes)} drawn lines that are accepted, and ${sum(refusedOnes)} that are refused`);
