// SPDX-License-Identifier: MIT
// The entry `speedate/columns`: all of `speedate`, and columns.
import type { DateOptions, DateTimeFormOptions, DateTimeOptions, DurationOptions, ErrorCode, LooseOptions, MissingOffsetOptions, OverflowOptions, StringOrBytes, TimeOptions } from "./speedate.js";
export * from "./speedate.js";

/** A refused line of a column: its index, from 0, why, its bytes without their end, and where in these the wrong part starts and ends. */
export type LineRefusal = {
  readonly index: number; readonly code: ErrorCode; readonly expected: string;
  readonly text: Uint8Array; readonly start: number; readonly end: number;
};
/** Columns: the number of each line, and how many lines are refused. Only with `refused: "collect"` it has why. */
export type Column<Numbers> = { readonly numbers: Numbers; readonly refusedCount: number; readonly refusals: readonly LineRefusal[] };
/** With the size in bytes of the front of each line, 0 for a refused one. */
export type FrontColumn<Numbers> = Column<Numbers> & { readonly sizes: Int32Array };
/** Reads a column in pieces, which may end anywhere: `read` gives the lines that end in a piece, and keeps the line that does not. `end`
 * gives the lines that are left, also in a last piece. Indices count from the first piece on. Once a call has thrown for a line, or
 * `end` was called, each further call is a TypeError. */
export type ColumnReader<Column> = { read(text: StringOrBytes): Column; end(text?: StringOrBytes): Column };

export type ColumnOptions = {
  /** What happens to a refused line. `stop`, the default: the first one is thrown, as a SpeedateError with its index. `number`: each gets a
   * number that no other line has, NaN or the smallest integer. `collect`: they are listed in `refusals` too. */
  refused?: "stop" | "number" | "collect";
  /** How many refusals are listed at most; any number, if this is left out. Further lines have their number, and are counted. */
  maxRefusals?: number;
  /** How many bytes a line may have without its end; any number, if this is left out. For one more the call throws a RangeError,
   * whose `name` is `LineTooLong`, with the `index` of the line, before the line ends. */
  maxLineBytes?: number;
};
/** In which unit numbers are returned: milliseconds, in a Float64Array, with a fraction for microseconds (`ms`, the default), or
 * microseconds, in a BigInt64Array (`us`). */
export type UnitOptions<Unit> = { unit?: Unit };
export type Unit = "ms" | "us";
/** The numbers of a unit. */
export type NumbersIn<It extends Unit> = It extends "us" ? BigInt64Array : Float64Array;
export type DateColumnOptions = DateOptions & ColumnOptions;
export type DateTimeColumnOptions = DateTimeOptions & ColumnOptions;
export type DateTimePartColumnOptions = DateTimeFormOptions & ColumnOptions;
export type TimeColumnOptions = TimeOptions & ColumnOptions;
export type DurationColumnOptions = DurationOptions & ColumnOptions;
/** The form `front` reads the date-time at the front of each line, whatever follows it, as of a log. */
export type FrontColumnOptions = { form: "front" } & OverflowOptions & MissingOffsetOptions & LooseOptions & ColumnOptions;

/** Reads a column: a text with one value on each line. A line is ended by a line feed, with a carriage return before it or without, or by
 * the end of the text. A byte order mark at the beginning is dropped. `readColumn("1970-01-02\n", "date").numbers` is `Int32Array.of(1)`. The number of a line, by kind:
 *
 * - `date`: the days from 1970-01-01.
 * - `dateTime`: Unix time. A date-time without an offset is refused, unless `missingOffset` is `utc`. The Date of a line, as `toDate` gives
 *   it, is `toDate(dateTimeFromTimestamp(it, "us"))` of its microseconds, if it lies in the years 0 to 9999 in UTC. `new Date(it)`
 *   of its milliseconds is a later one where they are negative and have a fraction.
 * - `dateTimeClock`: the time from 1970-01-01T00:00 that the clock shows, whatever the offset.
 * - `dateTimeOffset`: the seconds of the offset, without which it is refused. With the clock it is the date-time as it was written.
 * - `time`, `timeOffset`: the time after midnight that the clock shows, and the seconds of the offset.
 * - `duration`: the length, with its sign. `number_too_large` from 2 ** 63 microseconds on, over 106,751,991 days. */
export function readColumn(text: StringOrBytes, kind: "date", options?: DateColumnOptions): Column<Int32Array>;
export function readColumn<It extends Unit = "ms">(text: StringOrBytes, kind: "dateTime", options?: DateTimeColumnOptions & UnitOptions<It>): Column<NumbersIn<It>>;
export function readColumn<It extends Unit = "ms">(text: StringOrBytes, kind: "dateTime", options: FrontColumnOptions & UnitOptions<It>): FrontColumn<NumbersIn<It>>;
export function readColumn<It extends Unit = "ms">(text: StringOrBytes, kind: "dateTimeClock", options?: DateTimePartColumnOptions & UnitOptions<It>): Column<NumbersIn<It>>;
export function readColumn(text: StringOrBytes, kind: "dateTimeOffset", options?: DateTimePartColumnOptions): Column<Int32Array>;
export function readColumn<It extends Unit = "ms">(text: StringOrBytes, kind: "time", options?: TimeColumnOptions & UnitOptions<It>): Column<NumbersIn<It>>;
export function readColumn(text: StringOrBytes, kind: "timeOffset", options?: TimeColumnOptions): Column<Int32Array>;
export function readColumn<It extends Unit = "ms">(text: StringOrBytes, kind: "duration", options?: DurationColumnOptions & UnitOptions<It>): Column<NumbersIn<It>>;

/** Reads the column of a kind in pieces, with the options of `readColumn`: `columnReader("date").end("1970-01-02")`. */
export function columnReader(kind: "date", options?: DateColumnOptions): ColumnReader<Column<Int32Array>>;
export function columnReader<It extends Unit = "ms">(kind: "dateTime", options?: DateTimeColumnOptions & UnitOptions<It>): ColumnReader<Column<NumbersIn<It>>>;
export function columnReader<It extends Unit = "ms">(kind: "dateTime", options: FrontColumnOptions & UnitOptions<It>): ColumnReader<FrontColumn<NumbersIn<It>>>;
export function columnReader<It extends Unit = "ms">(kind: "dateTimeClock", options?: DateTimePartColumnOptions & UnitOptions<It>): ColumnReader<Column<NumbersIn<It>>>;
export function columnReader(kind: "dateTimeOffset", options?: DateTimePartColumnOptions): ColumnReader<Column<Int32Array>>;
export function columnReader<It extends Unit = "ms">(kind: "time", options?: TimeColumnOptions & UnitOptions<It>): ColumnReader<Column<NumbersIn<It>>>;
export function columnReader(kind: "timeOffset", options?: TimeColumnOptions): ColumnReader<Column<Int32Array>>;
export function columnReader<It extends Unit = "ms">(kind: "duration", options?: DurationColumnOptions & UnitOptions<It>): ColumnReader<Column<NumbersIn<It>>>;

/** Prints the numbers of a column as lines, each with a line feed: `printColumn(Int32Array.of(1), "date")` is `1970-01-02\n`. `readColumn`
 * with this kind reads the lines back as these numbers. A Float64Array has milliseconds, which are printed to the nearest microsecond,
 * and a BigInt64Array microseconds. The number of a refused line is an empty line. The first number without a line throws a
 * SpeedateError, with its `index`: `time_too_large` outside a day, `date_too_small` or `date_too_large` outside the years 0
 * to 9999, `number_too_large` if 64 bits do not hold its microseconds. */
export function printColumn(numbers: Int32Array, kind: "date"): string;
export function printColumn(numbers: Float64Array | BigInt64Array, kind: "time" | "dateTime" | "dateTimeClock" | "duration"): string;
