// Runs the rows of the second reading of the grammar, which tests/rows.py describes, through the parsers: node readings.mjs ROWS. A text is
// read as bytes, and as a string if it is UTF-8, by the call that throws and by the safe one, with the options that they have of a
// configuration. The value of a timestamp is in UTC.
import assert from "node:assert/strict";
import { readFileSync } from "node:fs";
import * as speedate from "speedate";
import { answered, outcome, unitsAt } from "./helpers.mjs";

/** The names of kinds here, and the options that a call has in each form. */
const KINDS = {
  date: ["Date", { text: [], or_timestamp: ["form", "timestampUnit"], front: [] }],
  time: ["Time", { text: ["overflow"], strict: ["form", "overflow"], front: ["overflow"] }],
  datetime: ["DateTime", { text: ["overflow"], or_timestamp: ["form", "timestampUnit", "overflow"], strict: ["form", "overflow"], front: ["overflow"], loose: ["overflow", "loose"], loose_front: ["overflow", "loose"] }],
  duration: ["Duration", { text: ["overflow", "isoOrder"] }],
};
const FORMS = { text: "text", or_timestamp: "orTimestamp", strict: "strict" };

const bytesOf = (text) => Uint8Array.from(text.matchAll(/\\x(..)|[^]/g), ([it, digits]) => (digits ? parseInt(digits, 16) : it.charCodeAt()));
/** A string of these bytes, if they are UTF-8. */
function stringOf(bytes) {
  try {
    return new TextDecoder("utf-8", { fatal: true, ignoreBOM: true }).decode(bytes);
  } catch (error) {
    if (error instanceof TypeError) return undefined;
    throw error;
  }
}

let ran = 0;
for (const row of readFileSync(process.argv[2] ?? "readings.txt", "utf8").split("\n").filter(Boolean)) {
  const [kind, forms, config, escaped, code, value, printed, start, end] = row.split("\t");
  const [, , unit, truncates, isOrdered] = config.split(" ").map(Number);
  const bytes = bytesOf(escaped);
  const string = stringOf(bytes);
  // A text of a date-time has a colon.
  const isTimestamp = kind === "datetime" && !bytes.includes(58);
  const inUtc = isTimestamp ? { offsetSeconds: 0 } : {};
  for (const form of forms.split(" ").filter((it) => KINDS[kind][1][it])) {
    const [name, options] = KINDS[kind];
    const all = { form: FORMS[form], timestampUnit: ["infer", "s", "ms", "us"][unit], overflow: ["error", "truncate"][truncates], isoOrder: ["lax", "strict"][isOrdered], loose: true };
    const chosen = Object.fromEntries(options[form].map((it) => [it, all[it]]));
    for (const text of string === undefined ? [bytes] : [bytes, string]) {
      const isFront = form.endsWith("front");
      const call = name + (isFront ? "Front" : "");
      const told = outcome(speedate[`parse${call}`], text, chosen);
      assert.deepEqual(speedate[`safeParse${call}`](text, chosen), told, row);
      const at = (byte) => (text === bytes ? Number(byte) : unitsAt(text, Number(byte)));
      const length = isFront && text !== bytes ? { length: at(end) } : {};
      if (code !== "ok") assert.deepEqual([told.code, told.start, told.end], [code, at(start), at(end)], row);
      else if (isFront) assert.deepEqual(told.value, { value: answered(value), size: Number(end), ...length }, row);
      else assert.deepEqual(told.value, { ...answered(value), ...inUtc }, row);
      if (code === "ok" && !isTimestamp) assert.equal(speedate.format(isFront ? told.value.value : told.value), printed, row);
      ran++;
    }
  }
}
assert.ok(ran > 7000);
console.log(`${ran} answers of the second reading`);
