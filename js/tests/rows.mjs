// Runs rows of the C functions through the package: node rows.mjs ROWS. A row is a call of C, its arguments, the name of
// its code and what it writes, with `|` between them. The code is that of C's `_check` where C has VALUE_OUT_OF_RANGE; an offset
// with another flag than 0 and 1 is 24 hours, and a sign with another is 2; a timestamp and microseconds are one number, and its
// value is in UTC; Unix time needs an offset. Rows of calls that are not here are counted, as are those of a configuration without
// meaning, and of a time over 64 bits of microseconds. readings.mjs has the parsers.
import assert from "node:assert/strict";
import { readFileSync } from "node:fs";
import * as speedate from "speedate";
import { answered, date, datetime, duration, outcome, time } from "./helpers.mjs";

const { add, compare, format, subtract, toDate, until, withOffset } = speedate;

/** What makes a value of a field, by its kind in C. */
const KINDS = { date, time, datetime, duration };
/** The calls of values by the end of their name in C, where `of` makes a value of the kind that begins the name. */
const CALLS = {
  check: (of, it) => void compare(of(it), of(it)),
  to_text: (of, it) => format(of(it)), to_text_with_digits: (of, it, digits) => format(of(it), { digits: Number(digits) }),
  compare: (of, one, other) => compare(of(one), of(other)),
  from_signed_microseconds: (of, it) => speedate.durationFromMicroseconds(BigInt(it)),
  signed_total_microseconds: (of, it) => speedate.totalMicroseconds(of(it)), sum: (of, ...all) => speedate.sum(all.map(of)),
  days_between: (of, one, other) => speedate.daysBetween(of(one), of(other)),
  in_timezone: (of, it, offset) => withOffset(of(it), Number(offset)),
  unix_seconds: (of, it) => Math.floor(toDate(of(it)) / 1000), unix_milliseconds: (of, it) => toDate(of(it)).getTime(),
  between: (of, one, other) => until(datetime(one), datetime(other)), between_dates: (of, one, other) => until(date(one), date(other)),
  after: (of, it, start) => add(datetime(start), of(it)), after_date: (of, it, start) => add(date(start), of(it)),
  before: (of, it, start) => subtract(datetime(start), of(it)), before_date: (of, it, start) => subtract(date(start), of(it)),
  from_timestamp(of, it, more, config) {
    const unit = ["infer", "s", "ms", "us"][config === "default" ? 0 : config.split(" ")[2]];
    if (more === "0") return speedate.dateTimeFromTimestamp(BigInt(it), unit);
    return speedate.dateTimeFromTimestamp(BigInt(it) * ({ ms: 1000n, us: 1n }[unit] ?? 1000000n) + BigInt(more), "us");
  },
};
/** What no call here can be given, by the call of C and its code. */
const LEFT_OUT = / config_out_of_range|_with_digits value_out_of_range|^(date|time)_from_timestamp|^datetime_from_timestamp time_too_large/;

const rows = readFileSync(process.argv[2] ?? "rows.txt", "utf8").split("\n").filter((it) => it && !it.startsWith("#"));
/** The errors by which `_check` calls refuse values. */
const checked = new Map(rows.map((row) => row.split("|")).filter(([call, , code]) => call.endsWith("_check") && code !== "ok")
  .map(([, value, code]) => [value, code]));
let ran = 0;
const left = {};
for (const row of rows) {
  const [call, ...fields] = row.split("|");
  const [, kind, name] = /^([a-z]+)_?(.*)$/.exec(call);
  const at = fields.findIndex((it) => /^(ok|[a-z]+_[a-z_]+)$/.test(it));
  const [args, [code, written]] = [fields.slice(0, at), fields.slice(at)];
  if (!(kind in KINDS && name in CALLS) || LEFT_OUT.test(`${call} ${code}`)) {
    left[call] = (left[call] ?? 0) + 1;
    continue;
  }
  ran++;
  const hasNoOffset = name.startsWith("unix_") && args[0].split(" ")[6] === "0";
  const { code: told = "ok", value } = outcome(CALLS[name], KINDS[kind], ...args);
  if (code === "value_out_of_range") assert.equal(told, args.map((it) => checked.get(it)).find(Boolean), row);
  else assert.equal(told, hasNoOffset ? "tz_required" : code, row);
  if (told === "ok" && written !== undefined)
    assert.deepEqual(value, call === "datetime_from_timestamp" ? { ...answered(written), offsetSeconds: 0 } : answered(written), row);
}
assert.ok(ran > 140);
console.log(`${ran} rows; not those of ${Object.entries(left).map(([call, count]) => `${call} (${count})`).join(", ")}`);
