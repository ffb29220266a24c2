// SPDX-License-Identifier: MIT
// Columns, which bin/build_js appends to speedate.js for the entry `speedate/columns`.

NEEDED_CALLS.push("date_lines");
/** A call gets so many lines, and so many bytes, of a column at once. It gets a longer line whole. */
const LINES_AT_ONCE = 2 ** 12;
const BLOCK_SIZE = 2 ** 16;
const LINE_FEED = 10;
const RETURN = 13;
const NUMBER_TOO_LARGE = 97;
/** The addresses of a column, which is read in the place of a text. */
const COLUMN = { config: PLACE.text, progress: PLACE.text + 8, numbers: PLACE.text + 56 };
COLUMN.errors = COLUMN.numbers + 16 * LINES_AT_ONCE;
COLUMN.text = COLUMN.errors + LINES_AT_ONCE;

// ---- Options ----

const UNIT = { ms: 0x40000, us: 0x80000 };
const REFUSED = { stop: 0x100000, number: 0x200000, collect: 0x400000 };
Object.assign(BITS, { unit: choicesOf(UNIT), refused: choicesOf(REFUSED) });

// ---- Columns ----

/** The number of a refused line. */
const SMALLEST = -(2n ** 63n);
/** The microseconds at an address as milliseconds: the nearest double, or NaN for a refused line. */
function millisecondsAt(view, at) {
  const microseconds = view.getInt32(at + 4, true) * 2 ** 32 + view.getUint32(at, true);
  if (Number.isSafeInteger(microseconds)) return microseconds / 1000;
  const exact = view.getBigInt64(at, true);
  const milliseconds = Number(exact / 1000n);
  if (Number.isSafeInteger(milliseconds)) return milliseconds + Number(exact % 1000n) / 1000;
  return exact === SMALLEST ? NaN : Number(`${exact}e-3`);
}

/** How the numbers of a column are returned. A number has as many bytes as in C. */
const INTEGERS = { Numbers: Int32Array, numberAt: (view, at) => view.getInt32(at, true) };
const UNITS_OF_COLUMNS = [
  { Numbers: Float64Array, numberAt: millisecondsAt }, { Numbers: BigInt64Array, numberAt: (view, at) => view.getBigInt64(at, true) },
];
/** How the lines of a column are returned: `take` copies some of them, of which each has `width` bytes, out of the memory, and `join` makes
 * one answer of such parts. `putRefused` puts the number of a refused line there, as C does. */
const asNumbers = (numbers) => ({
  width: numbers.Numbers.BYTES_PER_ELEMENT,
  putRefused: (view, at) => (numbers === INTEGERS ? view.setInt32(at, -(2 ** 31), true) : view.setBigInt64(at, SMALLEST, true)),
  take: (view, lines) => numbersIn(view, lines, numbers),
  join: (parts) => ({ numbers: concatenated(parts, numbers.Numbers) }),
});
/** A front has its number, and then its size in 8 bytes. */
const FRONT_SIZE = 16;
const asFronts = (numbers) => ({
  width: FRONT_SIZE,
  putRefused: (view, at) => {
    view.setBigInt64(at, SMALLEST, true);
    view.setBigInt64(at + 8, 0n, true);
  },
  take: (view, lines) => ({
    numbers: numbersIn(view, lines, numbers, COLUMN.numbers, FRONT_SIZE), sizes: numbersIn(view, lines, INTEGERS, COLUMN.numbers + 8, FRONT_SIZE),
  }),
  join: (parts) => ({ numbers: concatenated(parts.map((it) => it.numbers), numbers.Numbers), sizes: concatenated(parts.map((it) => it.sizes), Int32Array) }),
});

/** The kinds of columns: the call in C, the options, and the kind of the call for a line. */
const IN_UNITS = bitsOf(UNIT);
const PARTS = OPTIONS_OF.dateTime & ~bitsOf(MISSING);
const COLUMNS = {
  date: { call: "date_lines", options: OPTIONS_OF.date, kinds: KINDS.date },
  dateTime: { call: "datetime_lines", options: OPTIONS_OF.dateTime | FORMS.front | IN_UNITS, kinds: KINDS.instant },
  dateTimeClock: { call: "datetime_clock_column", options: PARTS | IN_UNITS, kinds: KINDS.dateTime },
  dateTimeOffset: { call: "datetime_offset_lines", options: PARTS, kinds: KINDS.instant },
  time: { call: "time_lines", options: OPTIONS_OF.time | IN_UNITS, kinds: KINDS.time },
  timeOffset: { call: "time_offset_lines", options: OPTIONS_OF.time, kinds: KINDS.offset },
  duration: { call: "duration_lines", options: OPTIONS_OF.duration | IN_UNITS, kinds: KINDS.duration },
};

/** A column that comes in pieces. The first `size` bytes of `unfinished` are a line that has not ended, and `half` is half a pair that
 * ended a string. */
function newColumn(name, options) {
  choiceOf(name, Object.keys(COLUMNS), "kind");
  const { call, options: its, kinds: usual } = COLUMNS[name];
  const sizes = { maxRefusals: undefined, maxLineBytes: undefined };
  const numbers = numbersOf(options, its | bitsOf(REFUSED), sizes);
  const refused = numbers & bitsOf(REFUSED);
  if (sizes.maxRefusals !== undefined && refused !== REFUSED.collect) throw new TypeError("maxRefusals has to be given with refused: collect");
  start();
  const isFront = (numbers & FORMS.front) !== 0;
  const parser = formOf(numbers);
  const kinds = numbers & MISSING.utc ? KINDS.dateTime : usual;
  const returned = its & IN_UNITS ? UNITS_OF_COLUMNS[numbers & UNIT.us ? 1 : 0] : INTEGERS;
  return {
    call: isFront ? "datetime_front_lines" : call, kind: kinds[parser], ...(isFront ? asFronts : asNumbers)(returned), ...sizes,
    numbers, parser, isStopped: (refused || REFUSED.stop) === REFUSED.stop, isCollected: refused === REFUSED.collect,
    lines: 0, refusedCount: 0, unfinished: new Uint8Array(0), size: 0, half: "", hasBegun: false, hasEnded: false,
  };
}

const BYTE_ORDER_MARK = [0xef, 0xbb, 0xbf];
/** Drops a byte order mark at the beginning of a column, once it is whole. */
function dropMark(column) {
  const { unfinished, size } = column;
  for (let i = 0; i < 3; i++) {
    if (i === size) return;
    if (unfinished[i] !== BYTE_ORDER_MARK[i]) return void (column.hasBegun = true);
  }
  unfinished.copyWithin(0, 3, size);
  column.size -= 3;
  column.hasBegun = true;
}

/** Adds bytes to the unfinished line. The array doubles, so that many small pieces need no more room than a large one. */
function addUnfinished(column, bytes) {
  const size = column.size + bytes.length;
  if (size > column.unfinished.length) {
    const larger = new Uint8Array(Math.max(size, 2 * column.unfinished.length));
    larger.set(column.unfinished.subarray(0, column.size));
    column.unfinished = larger;
  }
  column.unfinished.set(bytes, column.size);
  column.size = size;
}

/** The bytes of a piece. Half a pair at the end of a string waits for the other half. */
function bytesOfPiece(column, text, isEnd) {
  if (typeof text !== "string") {
    if (column.half !== "") addUnfinished(column, encoded(column.half));
    column.half = "";
    return new Uint8Array(bufferOf.call(text), byteOffset.call(text), byteCount.call(text));
  }
  const whole = column.half + text;
  const size = isEnd || !/[\ud800-\udbff]$/.test(whole) ? whole.length : whole.length - 1;
  column.half = whole.slice(size);
  return encoded(whole.slice(0, size));
}

/** Writes the configuration of a column, and returns its address. Returns at the ends of lines are dropped. */
function putColumnConfig({ start, view }, { parser, numbers }, isEnd) {
  view.setUint8(COLUMN.config, isEnd ? 1 : 0);
  view.setUint8(COLUMN.config + 1, 1);
  view.setUint8(COLUMN.config + 2, parser);
  view.setUint8(COLUMN.config + 3, numbers & MISSING.utc ? 1 : 0);
  view.setUint8(COLUMN.config + 4, 0);
  return BigInt(start + COLUMN.config);
}

/** Puts the unfinished bytes into the memory of a library. Returns the library, and where the bytes end. */
function putUnfinished({ unfinished, size }) {
  const needed = COLUMN.text - PLACE.text + size;
  const library = size > MOST_KEPT ? new Library(needed) : kept;
  library.reserve(needed);
  library.bytes.set(unfinished.subarray(0, size), COLUMN.text);
  return { library, end: COLUMN.text + size };
}

/** Reads the lines of the unfinished bytes, and keeps what follows them. Appends arrays of numbers to `parts`, and refused lines to
 * `refusals`. */
function readLines(column, isEnd, parts, refusals) {
  const { library, end } = putUnfinished(column);
  const { start, bytes, view } = library;
  const { maxRefusals = Infinity } = column;
  const config = putConfig(library, column.numbers);
  const columnConfig = putColumnConfig(library, column, isEnd);
  const call = library.calls[`speedate_${column.call}`];
  const [errors, progress] = [BigInt(start + COLUMN.errors), BigInt(start + COLUMN.progress)];
  let [at, lines] = [COLUMN.text, 0];
  const take = () => {
    parts.push(column.take(view, lines));
    column.lines += lines;
    lines = 0;
  };
  for (;;) {
    // With errors each line gets a number, otherwise the first one that is refused ends the call.
    const hasErrors = !column.isStopped && (!column.isCollected || column.refusedCount >= maxRefusals);
    const room = BigInt(LINES_AT_ONCE - lines);
    const out = BigInt(start + COLUMN.numbers + lines * column.width);
    accept(call(BigInt(start + at), BigInt(end - at), config, columnConfig, out, room, hasErrors ? errors : 0n, hasErrors ? room : 0n, progress));
    const count = view.getUint32(COLUMN.progress, true);
    if (hasErrors) for (let i = 0; i < count; i++) if (bytes[COLUMN.errors + i] !== 0) column.refusedCount++;
    at += view.getUint32(COLUMN.progress + 8, true);
    lines += count;
    const error = view.getInt32(COLUMN.progress + 16, true);
    if (error === 0 && lines < LINES_AT_ONCE) break;
    if (lines === LINES_AT_ONCE) take();
    if (error !== 0) {
      const feed = bytes.indexOf(LINE_FEED, at);
      const lineEnd = feed < 0 || feed >= end ? end : feed;
      const { code, expected } = reasonOf(error, column.kind);
      const text = bytes.slice(at, lineEnd > at && bytes[lineEnd - 1] === RETURN ? lineEnd - 1 : lineEnd);
      const part = COLUMN.progress + 24;
      const refusal = { index: column.lines + lines, code, expected, text, start: view.getUint32(part, true), end: view.getUint32(part + 8, true) };
      if (column.isStopped) throw Object.assign(new SpeedateError(refusal, text, refusal), { index: refusal.index });
      refusals.push(refusal);
      column.putRefused(view, COLUMN.numbers + lines * column.width);
      column.refusedCount++;
      at = Math.min(lineEnd + 1, end);
      lines++;
    }
  }
  take();
  // The room of a very long line is freed.
  if (column.unfinished.length > MOST_KEPT) column.unfinished = new Uint8Array(end - at);
  column.unfinished.set(bytes.subarray(at, end));
  column.size = end - at;
}

function numbersIn(view, lines, { Numbers, numberAt }, from = COLUMN.numbers, step = Numbers.BYTES_PER_ELEMENT) {
  const numbers = new Numbers(lines);
  for (let i = 0; i < lines; i++) numbers[i] = numberAt(view, from + i * step);
  return numbers;
}

/** The lines that end in a piece. If this throws, the column has ended. */
function readPiece(column, text, isEnd) {
  if (typeof text !== "string" && !isBytes(text)) throw noText();
  if (column.hasEnded) throw new TypeError("the column has ended");
  column.hasEnded = true;
  const refusedBefore = column.refusedCount;
  const bytes = bytesOfPiece(column, text, isEnd);
  const [parts, refusals] = [[], []];
  for (let from = 0; from < bytes.length; from += BLOCK_SIZE) {
    const before = column.hasBegun ? column.size : 0;
    addUnfinished(column, bytes.subarray(from, from + BLOCK_SIZE));
    if (!column.hasBegun) dropMark(column);
    checkLines(column, false, parts, refusals);
    // Without a line feed no line ends, and what came before is not read once more.
    if (column.unfinished.subarray(before, column.size).includes(LINE_FEED)) readLines(column, false, parts, refusals);
  }
  if (isEnd) {
    checkLines(column, true, parts, refusals);
    readLines(column, true, parts, refusals);
  }
  column.hasEnded = isEnd;
  return { ...column.join(parts), refusedCount: column.refusedCount - refusedBefore, refusals };
}

/** Throws if a line is longer than `maxLineBytes`, wherever its pieces were cut. The lines before it are read first. */
function checkLines(column, isEnd, parts, refusals) {
  const { unfinished, size, maxLineBytes } = column;
  if (maxLineBytes === undefined) return;
  for (let at = 0; at < size; ) {
    const feed = unfinished.indexOf(LINE_FEED, at);
    const hasEnded = feed >= 0 && feed < size;
    const end = hasEnded ? feed : size;
    // A return is not counted where it is dropped, or may be yet.
    const bytes = end - at - (unfinished[end - 1] === RETURN ? 1 : 0);
    if (bytes > maxLineBytes) {
      column.size = at;
      if (at > 0) readLines(column, false, parts, refusals);
      throw Object.assign(new RangeError(`line ${column.lines} has more than ${maxLineBytes} bytes`), { name: "LineTooLong", index: column.lines });
    }
    at = end + 1;
  }
}

function concatenated(parts, Numbers) {
  const all = new Numbers(parts.reduce((sum, it) => sum + it.length, 0));
  let at = 0;
  for (const it of parts) {
    all.set(it, at);
    at += it.length;
  }
  return all;
}

export function readColumn(text, kind, options) {
  return readPiece(newColumn(kind, options), text, true);
}
export function columnReader(kind, options) {
  const column = newColumn(kind, options);
  return { read: (text) => readPiece(column, text, false), end: (text = "") => readPiece(column, text, true) };
}

// ---- Columns in print ----

const PRINTERS = {
  date: "date_print_column", time: "time_print_column", dateTime: "datetime_print_column", dateTimeClock: "datetime_print_column",
  duration: "duration_print_column",
};
/** The flag for date-times as clocks show them. */
const CLOCK = 0x10;
/** The most bytes of a printed line, with its end. */
const LINE_SIZE = 33;

function putDays(view, at, days) {
  view.setInt32(at, days, true);
  return true;
}
function putMicroseconds(view, at, microseconds) {
  view.setBigInt64(at, microseconds, true);
  return BigInt.asIntN(64, microseconds) === microseconds;
}
/** Puts milliseconds as the nearest microsecond into the memory, and NaN as a refused line. Returns whether 64 bits hold it. */
function putMilliseconds(view, at, milliseconds) {
  const whole = Math.trunc(milliseconds);
  const rest = Math.round((milliseconds - whole) * 1000);
  const microseconds = whole * 1000 + rest;
  if (Number.isSafeInteger(microseconds)) return putMicroseconds(view, at, BigInt(microseconds));
  if (Number.isNaN(milliseconds)) return putMicroseconds(view, at, SMALLEST);
  return Number.isFinite(whole) && putMicroseconds(view, at, BigInt(whole) * 1000n + BigInt(rest));
}
const PUT = { Int32Array: putDays, Float64Array: putMilliseconds, BigInt64Array: putMicroseconds };

/** Prints numbers of an array from an index on, at most LINES_AT_ONCE. */
function printLines(numbers, from, { put, call, flags, inC: { BYTES_PER_ELEMENT } }) {
  const { start, bytes, view } = kept;
  const most = Math.min(byteCount.call(numbers) - from, LINES_AT_ONCE);
  let count = 0;
  while (count < most && put(view, COLUMN.numbers + count * BYTES_PER_ELEMENT, numbers[from + count])) count++;
  const [given, room, progress] = [COLUMN.numbers, COLUMN.text, COLUMN.progress].map((place) => BigInt(start + place));
  accept(call(given, BigInt(count), flags, room, BigInt(LINES_AT_ONCE * LINE_SIZE), progress));
  const error = view.getInt32(COLUMN.progress + 16, true) || (count < most ? NUMBER_TOO_LARGE : 0);
  if (error !== 0) throw Object.assign(new SpeedateError(reasonOf(error, NONE)), { index: from + view.getUint32(COLUMN.progress, true) });
  return asciiOf(bytes.subarray(COLUMN.text, COLUMN.text + view.getUint32(COLUMN.progress + 8, true)));
}

/** The text of ASCII bytes. The number of arguments of a function is limited. */
function asciiOf(bytes) {
  let text = "";
  for (let at = 0; at < bytes.length; at += 2 ** 12) text += String.fromCharCode.apply(null, bytes.subarray(at, at + 2 ** 12));
  return text;
}

export function printColumn(numbers, kind) {
  choiceOf(kind, Object.keys(PRINTERS), "kind");
  const type = typeName.call(numbers);
  const types = kind === "date" ? ["Int32Array"] : ["Float64Array", "BigInt64Array"];
  if (!types.includes(type)) throw new TypeError(`numbers has to be ${types.map((it) => `${it.startsWith("I") ? "an" : "a"} ${it}`).join(" or ")}`);
  start();
  kept.reserve(COLUMN.text - PLACE.text + LINES_AT_ONCE * LINE_SIZE);
  const printer = { put: PUT[type], call: calls[`speedate_${PRINTERS[kind]}`], flags: kind === "dateTimeClock" ? CLOCK : 0, inC: kind === "date" ? Int32Array : BigInt64Array };
  let text = "";
  for (let from = 0; from < byteCount.call(numbers); from += LINES_AT_ONCE) text += printLines(numbers, from, printer);
  return text;
}

