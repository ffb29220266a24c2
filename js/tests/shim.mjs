// Stands in for what rows.mjs, readings.mjs and the examples take of Node, in an engine that has none of it.
const NAMES = ["rows.txt", "readings.txt"];
const files = Object.fromEntries(await Promise.all(NAMES.map(async (it) => [it, await (await fetch(it)).text()])));
export const readFileSync = (name) => files[name];
Object.assign(globalThis, { process: { argv: [] }, Buffer: { from: (text) => new TextEncoder().encode(text) } });

const text = (it) => JSON.stringify(it, (_, it) => (typeof it === "bigint" ? `${it}n` : it));
function ok(holds, ...about) {
  if (!holds) throw new Error(about.map(text).join(" "));
}
export const equals = (one, other, row) => ok(text(one) === text(other), row, one, other);
export function fails(call, name) {
  try {
    call();
  } catch (error) {
    return ok((error.code ?? error.name) === name, error.message, name);
  }
  ok(false, "no", name);
}
export default { ok, equal: equals, deepEqual: equals, match: (one, form, row) => ok(form.test(one), row, one) };
