// Rows of date-times with zones as programs print them, as lines of columns: node loose.mjs ROWS, where ROWS is tests/loose_rows.txt, of
// which tests/rows.py says what a row has. readings.mjs reads each of them alone.
import assert from "node:assert/strict";
import { readFileSync } from "node:fs";
import * as speedate from "speedate/columns";
import { answered } from "./helpers.mjs";

const rows = readFileSync(process.argv[2], "utf8").split("\n").filter((it) => it).map((row) => {
  const [, forms, config, escaped, code, numbers, , start, end] = row.split("\t");
  const bytes = Buffer.from(escaped.replace(/\\x(..)/g, (_, byte) => String.fromCharCode(parseInt(byte, 16))), "latin1");
  const overflow = ["error", "truncate"][config.split(" ")[3]];
  return { forms: forms.split(" "), overflow, bytes, code, value: code === "ok" ? answered(numbers) : undefined, start: Number(start), end: Number(end) };
});
const clock = (it) => speedate.toUnixMicroseconds({ ...it, offsetSeconds: 0 });
const instant = (it) => clock(it) - BigInt((it.offsetSeconds ?? 0) * 1000000);
let count = 0;
for (const overflow of ["error", "truncate"])
  for (const [form, kind, options, numberOf] of [
    ["loose", "dateTime", { missingOffset: "utc", unit: "us" }, instant], ["loose", "dateTime", { unit: "us" }, (it) => (it.offsetSeconds === null ? undefined : instant(it))],
    ["loose", "dateTimeClock", { unit: "us" }, clock], ["loose", "dateTimeOffset", {}, (it) => it.offsetSeconds ?? undefined],
    ["loose_front", "dateTime", { form: "front", missingOffset: "utc", unit: "us" }, instant],
  ]) {
    const lines = rows.filter((it) => it.overflow === overflow && it.forms.includes(form) && !/[\r\n]/.test(it.bytes));
    const text = Buffer.concat(lines.flatMap((it) => [it.bytes, Buffer.from("\n")]));
    const { numbers, sizes, refusals } = speedate.readColumn(text, kind, { loose: true, overflow, refused: "collect", ...options });
    assert.equal(numbers.length, lines.length);
    const refused = new Map(refusals.map((it) => [it.index, it]));
    for (const [i, { code, value, start, end, bytes }] of lines.entries()) {
      const wanted = value && numberOf(value);
      const { code: found, start: from, end: to } = refused.get(i) ?? {};
      // A column refuses a line without an offset at its end.
      if (value && wanted === undefined) assert.deepEqual([found, from, to], ["tz_required", bytes.length, bytes.length], String(bytes));
      else if (value) assert.deepEqual([numbers[i], found, sizes?.[i]], [wanted, undefined, sizes && end], String(bytes));
      else assert.deepEqual([found, from, to], [code, start, end], String(bytes));
      count++;
    }
  }
assert.ok(count > 1500);
console.log(`${count} lines with zones that programs print`);
