// Drawn texts, columns and values, for Node and for the engines of browsers, which have to answer alike, and beside Temporal where
// it is.
import * as speedate from "speedate/columns";

/** Forms of texts, by kind and by who reads them: `both` alike, or neither; one of the two alone; `different`: not alike. A `#` is
 * any digit, a `%` one of 0 to 5. */
const FORMS = [
  ["date", "both", "####-##-##", "####-0#-2#"],
  ["date", "Temporal", "####0#1#", "+00####-0#-1#", "####-0#-1#T0#:%#", "####-0#-1#[u-ca=iso8601]"],
  ["time", "both", "##:%#", "##:%#:%#", "##:%#:%#.###", "##:%#:%#,######", "##:%#+0#:%#", "##:%#:%#-1#%#"],
  ["time", "Temporal", "1#", "1#%#", "T1#:%#", "1#:%#:60", "1#:%#:%#.#######", "1#:%#+0#", "1#:%#-0#:%#:%#", "1#:%#[UTC]"],
  ["time", "speedate", "1#:%#Z", "1#:%#z", "1#:%#\u22120#:%#", "1#:%#\u2212%#:##"],
  ["date-time", "both", "####-0#-##T##:%#", "####-1#-2#t##:%#:%#Z", "####-0#-1# ##:%#:%#.###+1#:%#", "####-0#-1# ##:%#:%#,######-0#%#"],
  ["date-time", "Temporal", "####-0#-1#", "####0#1#T1#:%#", "+00####-0#-1#T1#:%#Z", "####-0#-1#T1#%#", "####-0#-1#T1#:%#:60"],
  ["date-time", "Temporal", "####-0#-1#T1#:%#:%#.#######", "####-0#-1#T1#:%#+0#", "####-0#-1#T1#:%#Z[UTC]"],
  ["date-time", "speedate", "####-0#-1#_1#:%#", "####-0#-1#T1#:%#\u22120#:%#"],
  ["duration", "both", "PT##M", "P##DT##H", "-P##W##DT##S", "PT#####H##M##.######S", "+PT#,##H"],
  ["duration", "Temporal", "p#d", "PT9#########S", "P1#########D"],
  ["duration", "speedate", "##:%#", "-##:%#:%#.#", "# day", "# days, 0#:%#", "P#DT", "PT#.S", "P#.#D", "P#.#W", "P#D#Y"],
  ["duration", "different", "P1#Y", "P1#M", "PT1#H1#H", "PT0.######1S"],
];
/** Whether the counts of a form are those of its group. */
const IS_SO = {
  both: ({ here, there, alike }) => alike > 0 && here === alike && there === alike, different: ({ here, alike }) => here > alike,
  Temporal: ({ here, there }) => here === 0 && there > 0, speedate: ({ here, there }) => here > 0 && there === 0,
};

const EPOCH = speedate.parseDate("1970-01-01");
const inMicroseconds = (it) => BigInt(speedate.toDate({ ...it, offsetSeconds: it.offsetSeconds ?? 0 }).getTime()) * 1000n + BigInt(it.microsecond);
/** By kind the kinds of columns, with their options, what each has of a value, and what of a text that is refused. */
const COLUMNS = {
  date: [["date", {}, (it) => speedate.daysBetween(EPOCH, it), -(2 ** 31)]],
  time: [["time", {}, (it) => Number(`${inMicroseconds({ year: 1970, month: 1, day: 1, ...it, offsetSeconds: 0 })}e-3`), NaN]],
  "date-time": [
    ["dateTime", { missingOffset: "utc", unit: "us" }, inMicroseconds, -(2n ** 63n)],
    ["dateTime", { missingOffset: "utc" }, (it) => Number(`${inMicroseconds(it)}e-3`), NaN],
    ["dateTimeClock", { unit: "us" }, (it) => inMicroseconds({ ...it, offsetSeconds: 0 }), -(2n ** 63n)],
  ],
};

/** Whether a column has what its lines have one by one. */
function isAsItsLines([kind, options, numberOf, refused], lines, answers) {
  const { numbers, refusals } = speedate.readColumn(lines.join("\n"), kind, { ...options, refused: "collect" });
  const codes = refusals.map(({ index, code }) => `${index} ${code}`).join();
  return numbers.length === lines.length && answers.every((it, i) => Object.is(numbers[i], it.ok ? numberOf(it.value) : refused)) &&
    codes === answers.flatMap((it, i) => (it.ok ? [] : [`${i} ${it.code}`])).join();
}

const isInstant = (text) => /(Z|[-+\u2212]\d\d(:?\d\d)?)(\[UTC\])?$/i.test(text.slice(10));
const inDays = (it) => it.with({ years: 0, months: 0, weeks: 0, days: it.weeks * 7 + it.days }).round({ largestUnit: "days" });
/** What reads a text, and what Temporal makes of a text, or of the value that was read from it. */
const KINDS = {
  date: [speedate.safeParseDate, (it) => Temporal.PlainDate.from(it)],
  time: [speedate.safeParseTime, (it) => Temporal.PlainTime.from(it)],
  "date-time": [speedate.safeParseDateTime, (it, text) =>
    isInstant(text) ? Temporal.Instant.from(it === text ? it : speedate.format(it)) : Temporal.PlainDateTime.from(it)],
  duration: [speedate.safeParseDuration, (text) => {
    const it = Temporal.Duration.from(text);
    return `${it.years} ${it.months} ${inDays(it)}`;
  }],
};

/** What Temporal makes of it as a text; nothing if it refuses that. */
function taken(from, it, text) {
  try {
    return String(from(it, text));
  } catch (error) {
    if (!(error instanceof RangeError)) throw error;
  }
}

/** What the package makes of a value, and of it and another one. */
function answers(value, other) {
  const more = "sign" in value ? speedate.sum([value]) : "day" in value ? speedate.until(other, value) : 0;
  return [speedate.format(value), speedate.compare(value, other), more];
}

/** Reads 200 texts of each form, also as columns. It gives the forms that are not as their group, or as a column not as one by one,
 * and a number that stands for all answers. */
export function readDrawn() {
  let [state, hash] = [1, 0];
  const below = (most) => (state = (state * 48271) % 2147483647) % most;
  const hasTemporal = typeof Temporal !== "undefined";
  const wrong = [];
  for (const [kind, group, form] of FORMS.flatMap(([kind, group, ...all]) => all.map((it) => [kind, group, it]))) {
    const [read, from] = KINDS[kind];
    const counts = { here: 0, there: 0, alike: 0 };
    const [texts, all] = [[], []];
    let last;
    for (let i = 0; i < 200; i++) {
      const text = form.replace(/[#%]/g, (it) => below(it === "#" ? 10 : 6));
      const it = read(text);
      texts.push(text);
      all.push(it);
      if (it.ok) last ??= it.value;
      for (const unit of JSON.stringify([it, it.ok && answers(it.value, last)])) hash = (hash * 31 + unit.charCodeAt(0)) | 0;
      const other = hasTemporal ? taken(from, text, text) : undefined;
      counts.here += it.ok;
      counts.there += other !== undefined;
      counts.alike += other !== undefined && it.ok && taken(from, it.value, text) === other;
    }
    if (hasTemporal && !IS_SO[group](counts)) wrong.push([kind, form, counts]);
    if (!(COLUMNS[kind] ?? []).every((it) => isAsItsLines(it, texts, all))) wrong.push([kind, form, "column"]);
  }
  return { hash, wrong };
}
