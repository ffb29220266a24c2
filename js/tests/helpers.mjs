// What several tests need, in Node and in the engines of browsers.
import assert from "node:assert/strict";
import { SpeedateError } from "speedate";

/** What a call throws, if it throws. */
export function thrown(call) {
  try {
    call();
  } catch (error) {
    return error;
  }
}

/** How many units of a string end at a byte of its UTF-8 or before. */
export function unitsAt(text, byte) {
  let [units, bytes] = [0, 0];
  for (const it of text) {
    bytes += Buffer.from(it).length;
    if (bytes <= byte) units += it.length;
  }
  return units;
}

const numbers = (field) => field.split(" ").map(Number);
export const date = (field) => { const [year, month, day] = numbers(field); return { year, month, day }; };
export const time = (field) => {
  const [hour, minute, second, flag, micro, offset] = numbers(field).slice(-6);
  const offsetSeconds = flag === 0 ? null : flag === 1 ? offset : 86400;
  return { hour, minute, second, millisecond: Math.floor(micro / 1000), microsecond: micro % 1000, offsetSeconds };
};
export const datetime = (field) => ({ ...date(field), ...time(field) });
export const duration = (field) => {
  const [negative, ...sizes] = numbers(field);
  const sign = [1, -1][negative] ?? 2;
  const [days, seconds, micro] = sizes.map((it) => it * Math.sign(sign) || 0);
  return { sign, days, seconds, milliseconds: Math.trunc(micro / 1000) || 0, microseconds: micro % 1000 || 0 };
};
/** What C writes as this package answers it: a value is told by how many numbers it has. */
export const answered = (field) => ({ 3: date, 4: duration, 6: time, 9: datetime })[field.split(" ").length]?.(field) ?? field;

/** What a call answers, a number as a text, or its error. */
export function outcome(call, ...args) {
  try {
    const it = call(...args);
    return { ok: true, value: /^(number|bigint)$/.test(typeof it) ? String(it) : it };
  } catch (error) {
    if (!(error instanceof SpeedateError)) throw error;
    const { code, expected, start, end } = error;
    assert.equal(error.message, `expected ${expected}`);
    return { ok: false, code, expected, start, end };
  }
}
