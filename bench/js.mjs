// Times calls of the package and of the engine, after bin/build_js: node bench/js.mjs [--in ENGINE] [FILE]. ENGINE is chromium,
// firefox-esr or the path of WebKit's MiniBrowser, in place of Node. FILE is another speedate.js, which runs in turns with the one
// of out/js. A row has 1,024 drawn inputs, which each of 100 rounds reads four times. The lowest round counts: nanoseconds for
// each call, and this divided by the time of `new Date(text)`. The last row is a first call, in microseconds.
import { readFileSync } from "node:fs";
import { loadavg } from "node:os";
import { parseArgs } from "node:util";
import { pathToFileURL } from "node:url";
import { open, serve } from "../js/tests/engine.mjs";

/** The rows: a name, and the lowest time of each module. The modules are given by their addresses; this runs in a page too. */
async function measure(addresses) {
  let state = 1;
  const below = (most) => (state = (state * 48271) % 2147483647) % most;
  const draw = (make) => Array.from({ length: 1024 }, make);
  const two = (number) => String(number).padStart(2, "0");
  const date = () => `${1900 + below(200)}-${two(1 + below(12))}-${two(1 + below(28))}`;
  const clock = () => `${two(below(24))}:${two(below(60))}:${two(below(60))}.${100 + below(900)}`;
  const duration = () => `${["", "-"][below(2)]}P${below(400)}DT${below(24)}H${below(60)}M${below(60)}.5S`;
  const forms = { Date: date, Time: () => `${clock()}+01:00`, DateTime: () => `${date()}T${clock()}Z`, Duration: duration };
  const texts = Object.fromEntries(Object.entries(forms).map(([kind, form]) => [kind, draw(form)]));
  const days = draw(() => below(1000));
  const moved = ([first, ...others]) => [...others, first];
  const always = (it) => draw(() => it);

  /** The rows of a module: a name, a call, and its first and second arguments. */
  function rowsOf(speedate) {
    const kinds = Object.keys(texts);
    const values = Object.fromEntries(kinds.map((it) => [it, texts[it].map((text) => speedate[`parse${it}`](text))]));
    const reading = (name, ones, others = []) => [name, speedate[name], ones, others];
    const of = (name, kind, others = []) => [`${name}, ${kind}`, speedate[name], values[kind], others];
    const named = (name, [, ...row]) => [name, ...row];
    const bytes = texts.DateTime.map((it) => new TextEncoder().encode(it));
    const thrown = (call) => (text) => {
      try {
        return call(text);
      } catch (error) {
        return error;
      }
    };
    const lines = (size) => texts.DateTime.map((it) => `${it} `.padEnd(size, "GET /"));
    return [
      ["new Date(text)", (text) => new Date(text), texts.DateTime, []],
      ["toISOString", (it) => it.toISOString(), texts.DateTime.map((it) => new Date(it)), []],
      ...kinds.map((it) => reading(`parse${it}`, texts[it])), reading("safeParseDateTime", texts.DateTime),
      named("parseDateTime, an option", reading("parseDateTime", texts.DateTime, always({ overflow: "truncate" }))),
      named("parseDateTime, bytes", reading("parseDateTime", bytes)), named("safeParseDate, refused", reading("safeParseDate", texts.Time)),
      ["parseDate, thrown", thrown(speedate.parseDate), texts.Time, []],
      named("parseDateTimeFront, 40 units", reading("parseDateTimeFront", lines(40))),
      named("parseDateTimeFront, 1000 units", reading("parseDateTimeFront", lines(1000))),
      reading("dateTimeFromTimestamp", days, always("s")), ...kinds.map((it) => of("format", it)),
      of("toDate", "DateTime"), of("compare", "Date", moved(values.Date)), of("compare", "DateTime", moved(values.DateTime)),
      of("daysBetween", "Date", moved(values.Date)), of("until", "DateTime", moved(values.DateTime)), of("add", "DateTime", values.Duration),
      of("withOffset", "DateTime", days.map((it) => 60 * it)),
    ];
  }

  let last;
  function timed([, call, ones, others]) {
    const start = performance.now();
    for (let pass = 0; pass < 4; pass++) for (let i = 0; i < ones.length; i++) last = call(ones[i], others[i]);
    return ((performance.now() - start) * 1e6) / ones.length / 4;
  }
  async function firstCall(address, round) {
    const { parseDate } = await import(`${address}?${round}`);
    const start = performance.now();
    last = parseDate("2020-02-29");
    return (performance.now() - start) * 1e3;
  }
  const modules = await Promise.all(addresses.map((it) => import(it)));
  const all = modules.map((it) => rowsOf(it).map((row) => ({ row, lowest: Infinity })));
  for (let round = 0; round < 100; round++)
    for (const i of all[0].keys()) for (const runs of all) runs[i].lowest = Math.min(runs[i].lowest, timed(runs[i].row));
  const first = addresses.map(() => Infinity);
  for (let round = 0; round < 10; round++)
    for (const [i, it] of addresses.entries()) first[i] = Math.min(first[i], await firstCall(it, round));
  if (last === undefined) throw new Error("no answer");
  return [...all[0].map(({ row }, i) => [row[0], ...all.map((runs) => runs[i].lowest)]), ["the first call, microseconds", ...first]];
}

const { values: { in: engine }, positionals } = parseArgs({ options: { in: { type: "string" } }, allowPositionals: true });
const files = [new URL("../out/js/speedate.js", import.meta.url), ...positionals.map((it) => pathToFileURL(it))];

async function measureIn(engine) {
  const given = Object.fromEntries(files.map((it, i) => [`${i}.js`, readFileSync(it)]));
  given["bench.html"] = `<!DOCTYPE html><script type="module">
    const told = await (${measure})(${JSON.stringify(files.map((_, i) => `./${i}.js`))}).catch(String);
    fetch("/", { method: "POST", body: JSON.stringify(told) });
  </script>`;
  const { port, next } = await serve(given);
  await open(engine, `http://127.0.0.1:${port}/bench.html`);
  return next(600, engine);
}

const load = loadavg()[0];
const rows = await (engine === undefined ? measure(files.map(String)) : measureIn(engine));
if (!Array.isArray(rows)) throw new Error(rows);
const shown = (it) => it.toFixed(0).padStart(7) + (it / rows[0][1]).toFixed(2).padStart(7);
for (const [name, ...times] of rows) console.log(name.padEnd(30), ...times.map(shown));
console.log(`load ${load} to ${loadavg()[0]}`);
process.exit();
