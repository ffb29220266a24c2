// SPDX-License-Identifier: MIT
// Exact dates, times of day, date-times and durations. speedate.d.ts says what each call accepts and returns.

/** Functions of speedate.h as a WebAssembly module. Some entries of the package get it from elsewhere. */
const ownModule = () => compiledOf(decoded("@MODULE@"));
/** Calls that a module has to have. */
const NEEDED_CALLS = ["date_parse_or_part"];
const NEEDED = "speedate needs WebAssembly with BigInt and bulk memory (Node 20, Chrome 115, Firefox 90, Safari 15) that a policy allows: a content security policy has to have 'wasm-unsafe-eval'";

/** The addresses of arguments and results, counted from the end of the module's own memory. */
const PLACE = { out: 0, taken: 16, config: 24, defaultConfig: 32, first: 40, second: 56, buffer: 72, part: 136, text: 160 };
const BUFFER_SIZE = BigInt(PLACE.part - PLACE.buffer);
const PAGE_SIZE = 2 ** 16;
/** A larger text gets its own library, so that its memory is freed. */
const MOST_KEPT = 2 ** 24;
const PART = { start: PLACE.part, end: PLACE.part + 8, kind: PLACE.part + 16 };
/** The sizes of the strings that are copied unit by unit, as C takes them. */
const SHORT_SIZES = Array.from({ length: 65 }, (_, size) => BigInt(size));
const SECONDS_IN_DAY = 86400;
/** The bytes of a duration in C. */
const DURATION_SIZE = 16;
const CODE = { tooShort: 1, invalidCharTzSign: 14, tzRequired: 19, durationValueTooLarge: 35, dateTooSmall: 38, timeTooLarge: 40 };
/** What is expected of fields that C has in another form: there a time has microseconds up to 999999. */
const FIELDS_EXPECTED = {
  [CODE.timeTooLarge]: "millisecond and microsecond, 0 to 999 each",
  [CODE.durationValueTooLarge]: "sign 1 or -1, seconds up to 86399, milliseconds and microseconds up to 999 each",
};
/** The codes of what is not a text, and of a text for which there is no memory. C has no such codes. */
const INVALID_TYPE = -1;
const NO_ROOM = -2;
/** The forms of texts, with their numbers in C, which has its own calls for fronts. */
const FORM = { text: 0, orTimestamp: 1, strict: 2, loose: 3, front: 4, looseFront: 5 };
/** C's numbers for the kinds of calls, by the forms of texts. The phrase for what is expected depends on the kind. */
const NONE = 0;
const KINDS = {
  date: [1, 2], time: [3, NONE, 4], dateTime: [5, 6, 7, 5], duration: [8],
  // These two require an offset, and only this package has them. The strict kinds of C require one too.
  offset: [9, NONE, 4], instant: [10, 10, 7, 10],
};
const WITH_OFFSET = { 9: KINDS.time, 10: KINDS.dateTime };

/** Marks the errors of every entry, in CommonJS and as an ES module, so that each of their classes knows them all. */
const IS_ERROR = Symbol.for("speedate.SpeedateError");
export class SpeedateError extends RangeError {
  static [Symbol.hasInstance](it) {
    // A class that someone derives from this one has its own instances.
    return this === SpeedateError ? it?.[IS_ERROR] === true : super[Symbol.hasInstance](it);
  }

  get [IS_ERROR]() {
    return true;
  }

  constructor(reason, text, part) {
    super(`expected ${reason.expected}`);
    fill(this, reason, text, part);
  }

  toJSON() {
    const { text, ...others } = this;
    return { message: this.message, ...others };
  }
}
// Where RangeError is frozen, its name could not be hidden by an assignment.
Object.defineProperty(SpeedateError.prototype, "name", { value: "SpeedateError", writable: true });

/** Gives an error its fields. */
function fill(error, { code, expected }, text, part) {
  error.name = "SpeedateError";
  error.code = code;
  error.expected = expected;
  if (part === undefined) return;
  error.text = text;
  error.start = part.start;
  error.end = part.end;
}

// ---- The module ----

/** The module, the addresses of PLACE, and the library that all calls share, with its functions. */
let compiled, address, kept, calls;

/** An instance of the module, with views of its memory from `start` on. */
class Library {
  constructor(size) {
    const { memory, __heap_base: end, ...functions } = new WebAssembly.Instance(compiled).exports;
    this.memory = memory;
    this.calls = functions;
    this.start = Number(end.value);
    this.reserve(size);
  }

  /** Makes room for a text. If the memory grows, the old views are detached. */
  reserve(size) {
    const missing = this.start + PLACE.text + size - this.memory.buffer.byteLength;
    if (missing > 0) this.memory.grow(Math.ceil(missing / PAGE_SIZE));
    if (this.view?.buffer === this.memory.buffer) return;
    this.bytes = new Uint8Array(this.memory.buffer, this.start);
    this.view = new DataView(this.memory.buffer, this.start);
  }
}

function decoded(text) {
  // bin/build_js writes a bit for each byte, which says whether it has one digit or two, and then the place of each byte among these or those.
  const digits = new Uint8Array(127);
  let count = 0;
  for (let unit = 33; unit < 127; unit++) if (!'"&<\\|'.includes(String.fromCharCode(unit))) digits[unit] = count++;
  const single = count - 2;
  const order = [[], []];
  for (let byte = 0; byte < 256; byte++) order[(parseInt(text[byte >> 2], 16) >> (byte & 3)) & 1].push(byte);
  const bytes = new Uint8Array(text.length);
  let size = 0;
  for (let i = 64; i < text.length; i++) {
    const digit = digits[text.charCodeAt(i)];
    bytes[size++] = digit < single ? order[1][digit] : order[0][(digit - single) * count + digits[text.charCodeAt(++i)]];
  }
  return bytes.subarray(0, size);
}

const mapped = (all, map) => Object.fromEntries(Object.entries(all).map(([name, it]) => [name, map(it)]));

export function init(module) {
  const names = WebAssembly.Module.exports(module).map((it) => it.name);
  if (!NEEDED_CALLS.every((it) => names.includes(`speedate_${it}`))) throw new TypeError("module has to be the .wasm file of this entry, compiled");
  if (kept !== undefined) return;
  compiled = module;
  const library = new Library(SHORT_SIZES.length);
  calls = library.calls;
  for (const kind of ALL_KINDS) kind.calls = mapped(kind.inC, (name) => calls[`speedate_${name}`]);
  address = mapped(PLACE, (place) => BigInt(library.start + place));
  kept = library;
}

function compiledOf(bytes) {
  try {
    return new WebAssembly.Module(bytes);
  } catch (cause) {
    throw new Error(NEEDED, { cause });
  }
}

function start() {
  if (kept === undefined) init(ownModule());
}

/** The names of codes, and what was expected, by the kind of the call and the code. */
const reasons = [];
function told(call, ...numbers) {
  accept(call(...numbers, address.buffer, BUFFER_SIZE, address.taken));
  return printed();
}

const reasonOf = (number, kind) => reasons[kind]?.[number] ?? newReason(number, kind);
/** If an offset is required, the phrase for the call in C may name a text without one. Then another phrase of C is used. */
function newReason(number, kind) {
  const [lax, strict] = WITH_OFFSET[kind] === undefined ? [kind, kind] : [WITH_OFFSET[kind][FORM.text], WITH_OFFSET[kind][FORM.strict]];
  kept.view.setInt32(PART.kind, number === CODE.tooShort ? strict : lax, true);
  const phrase = lax !== kind && number === CODE.invalidCharTzSign ? CODE.tzRequired : number;
  const it = { code: told(calls.speedate_code_name, number), expected: told(calls.speedate_code_expected, phrase, address.part) };
  (reasons[kind] ??= [])[number] = it;
  return it;
}

/** Throws if the code is a refusal. */
function accept(number) {
  if (number !== 0) throw new SpeedateError(reasonOf(number, NONE));
}

/** The size that a call has written. It has 64 bits, but fits 32. */
const takenSize = () => kept.view.getUint32(PLACE.taken, true);

/** The text that a call has printed, which is ASCII. */
function printed() {
  const { bytes } = kept;
  const end = PLACE.buffer + takenSize();
  let text = "";
  let at = PLACE.buffer;
  for (; at + 8 <= end; at += 8) {
    text += String.fromCharCode(
      bytes[at], bytes[at + 1], bytes[at + 2], bytes[at + 3], bytes[at + 4], bytes[at + 5], bytes[at + 6], bytes[at + 7],
    );
  }
  for (; at < end; at++) text += String.fromCharCode(bytes[at]);
  return text;
}

// ---- Texts, numbers and options ----

/** The bytes of a string. Jest's jsdom has no TextEncoder; half a pair becomes U+FFFD without one too. */
let encoder;
function encoded(text) {
  if (typeof TextEncoder !== "undefined") return (encoder ??= new TextEncoder()).encode(text);
  const escaped = encodeURIComponent(text.replace(/\p{Cs}/gu, "\ufffd"));
  const units = escaped.replace(/%(..)/g, (_, byte) => String.fromCharCode(parseInt(byte, 16)));
  return Uint8Array.from(units, (it) => it.charCodeAt(0));
}
const getterOf = (name) => Object.getOwnPropertyDescriptor(Object.getPrototypeOf(Uint8Array.prototype), name).get;
const typeName = getterOf(Symbol.toStringTag);
const byteCount = getterOf("length");
const byteOffset = getterOf("byteOffset");
const bufferOf = getterOf("buffer");

const isBytes = (it) => typeName.call(it) === "Uint8Array";
const noText = () => new TypeError("text has to be a string or a Uint8Array");

/** The number of bytes of the last text. */
let lastSize;

/** Puts a short ASCII string into the shared memory, and returns its size. Returns undefined for another text, or before `init`. */
function putShort(text) {
  if (typeof text !== "string" || text.length >= SHORT_SIZES.length || kept === undefined) return undefined;
  const { bytes } = kept;
  for (let i = 0; i < text.length; i++) {
    const unit = text.charCodeAt(i);
    if (unit > 127) return undefined;
    bytes[PLACE.text + i] = unit;
  }
  lastSize = text.length;
  return SHORT_SIZES[lastSize];
}

/** How much of a text a reader of fronts can look at: 20 bytes, the digits after them, an offset, and what ends it. */
function frontSize(text, size, unitAt) {
  let end = 20;
  while (end < size && unitAt(text, end) >= 48 && unitAt(text, end) <= 57) end++;
  return Math.min(end + 12, size);
}
const stringUnit = (text, at) => text.charCodeAt(at);
const byteAt = (text, at) => text[at];
const frontOf = (text) => (typeof text === "string" && text.length > 32 ? text.slice(0, frontSize(text, text.length, stringUnit)) : text);

/** A library for a large text, if there is memory for one. */
function largeLibrary(size) {
  try {
    return new Library(size);
  } catch (error) {
    if (!(error instanceof RangeError)) throw error;
  }
}

/** Puts a text into the memory, calls C, and returns its code, INVALID_TYPE or NO_ROOM. The results are in the shared memory. */
function read(text, isFront, numbers, call) {
  start();
  const short = putShort(text);
  const form = !isFront ? formOf(numbers) : numbers & LOOSE ? FORM.looseFront : FORM.front;
  if (short !== undefined) return call(kept, short, numbers, form);
  const bytes = typeof text === "string" ? encoded(text) : text;
  if (!isBytes(bytes)) return INVALID_TYPE;
  const whole = byteCount.call(bytes);
  const size = isFront ? frontSize(bytes, whole, byteAt) : whole;
  const library = size > MOST_KEPT ? largeLibrary(size) : kept;
  if (library === undefined) return NO_ROOM;
  library.reserve(size);
  if (size < whole) for (let i = 0; i < size; i++) library.bytes[PLACE.text + i] = bytes[i];
  else if (size > 0) library.bytes.set(bytes, PLACE.text);
  lastSize = whole;
  const code = call(library, size < SHORT_SIZES.length ? SHORT_SIZES[size] : BigInt(size), numbers, form);
  if (code > 0 && size < whole && library.view.getUint32(PART.end, true) === size) library.view.setUint32(PART.end, whole, true);
  if (library !== kept) kept.bytes.set(library.bytes.subarray(0, PLACE.text));
  return code;
}

function integer(value, name) {
  if (typeof value !== "number") throw new TypeError(`${name} has to be a number`);
  if (!Number.isInteger(value)) throw new RangeError(`${name} has to be an integer`);
  return value;
}

function integer32(value, name) {
  if ((integer(value, name) | 0) !== value) throw new RangeError(`${name} has to fit 32 bits`);
  return value;
}

function integer64(value, name) {
  const it = typeof value === "bigint" ? value : BigInt(integer(value, name));
  if (BigInt.asIntN(64, it) !== it) throw new RangeError(`${name} has to fit 64 bits`);
  return it;
}

/** The options of a call are one number, which is 0 without any. Each value has its bits there. From the second byte on they are also those of
 * a configuration in C, where CONFIG_BITS have a meaning. */
const FORMS = { text: 1, orTimestamp: 2, strict: 4, front: 16 };
const LOOSE = 8;
const TIGHT = 0x4000000;
const IN_UNIT = { infer: 0x400, s: 0x500, ms: 0x600, us: 0x700 };
const UNITS = Object.keys(IN_UNIT);
const OVERFLOW = { error: 0x20000, truncate: 0x30000 };
const ISO_ORDER = { lax: 0x2000000, strict: 0x3000000 };
const MISSING = { error: 0x800, utc: 0x1000 };
const DIGITS = { 0: 0x2000, 3: 0x4000, 6: 0x8000 };
const choicesOf = (bits) => new Map(Object.entries(bits));
/** By name, the values of an option with their bits. */
const BITS = {
  __proto__: null, form: choicesOf(FORMS), timestampUnit: choicesOf(IN_UNIT), overflow: choicesOf(OVERFLOW), isoOrder: choicesOf(ISO_ORDER), missingOffset: choicesOf(MISSING),
  digits: new Map([[0, DIGITS[0]], [3, DIGITS[3]], [6, DIGITS[6]]]), loose: new Map([[true, LOOSE], [false, TIGHT]]),
};
const CONFIG_BITS = 0x1010300;
/** No call takes this. */
const WRONG = 0x20000000;
const formOf = (numbers) => 31 - Math.clz32((numbers & 15) | 1);

function choiceOf(value, choices, name) {
  const number = choices.indexOf(value);
  if (number < 0) throw new TypeError(`${name} has to be one of ${choices.join(", ")}`);
  return number;
}

/** Throws unless options are a plain object, also of another realm. */
function requirePlain(it) {
  const parent = typeof it === "object" && it !== null && Object.getPrototypeOf(it);
  if (parent === false || (parent !== null && Object.getPrototypeOf(parent) !== null)) throw new TypeError("options has to be a plain object");
}

const hasOwn = Object.prototype.hasOwnProperty;
/** The last options: mostly a call has the same object as the one before. */
let plain;
/** Checks the options of a call that takes these bits, and returns theirs. Sizes go into an object. This has to be quick, so that an option costs
 * little beside its call: an engine takes longer to find a prototype than for all else here, and longer for a table than to compare strings. */
function numbersOf(options, its, sizes) {
  if (options === undefined) return 0;
  if (options !== plain) {
    if (options === null || options.constructor !== Object) requirePlain(options);
    plain = options;
  }
  let numbers = 0;
  let isEmpty = true;
  for (const name in options) {
    if (!hasOwn.call(options, name)) {
      requirePlain(options);
      continue;
    }
    isEmpty = false;
    const value = options[name];
    if (value === undefined) continue;
    let bits = WRONG;
    if (name === "overflow") bits = value === "truncate" ? OVERFLOW.truncate : WRONG;
    else if (name === "form") bits = value === "strict" ? FORMS.strict : value === "orTimestamp" ? FORMS.orTimestamp : value === "text" ? FORMS.text : WRONG;
    else if (name === "missingOffset") bits = value === "utc" ? MISSING.utc : value === "error" ? MISSING.error : WRONG;
    else if (name === "timestampUnit") bits = value === "s" ? IN_UNIT.s : value === "ms" ? IN_UNIT.ms : WRONG;
    else if (name === "isoOrder") bits = value === "strict" ? ISO_ORDER.strict : WRONG;
    else if (name === "loose") bits = value === true ? LOOSE : WRONG;
    else if (name === "digits") bits = value === 3 ? DIGITS[3] : value === 0 ? DIGITS[0] : WRONG;
    numbers |= (bits & ~its) === 0 ? bits : otherBits(name, value, its, sizes);
  }
  if (isEmpty) requireEmpty(options);
  if (numbers & LOOSE && numbers & (FORMS.orTimestamp | FORMS.strict)) throw new TypeError("loose has to be given with the form text or front");
  if (((numbers >> 1) ^ (numbers >> 10)) & 1) throw new TypeError("timestampUnit has to be given with the form orTimestamp, and with no other");
  return numbers;
}

/** The same of an option that is rare, or wrong. */
function otherBits(name, value, its, sizes) {
  const choices = Array.from(BITS[name] ?? []).filter(([, bits]) => (bits & ~its) === 0);
  if (choices.length > 0) return choices[choiceOf(value, choices.map(([it]) => it), name)][1];
  if (sizes === undefined || !hasOwn.call(sizes, name)) throw new TypeError(`${name} is no option of this call`);
  if (!Number.isInteger(value) || value < 0) throw new TypeError(`${name} has to be an integer, and not negative`);
  sizes[name] = value;
  return 0;
}

function requireEmpty(options) {
  requirePlain(options);
  if (Reflect.ownKeys(options).length > 0) throw new TypeError("a symbol or a hidden property is no option");
}

/** Writes a configuration into the memory of a library, and returns its address. Before it a timestamp has the offset of UTC. */
function putConfig({ view }, numbers) {
  if (numbers === 0) return address.defaultConfig;
  view.setUint32(PLACE.config + 4, (numbers & CONFIG_BITS) | ((numbers >> 1) & 1), true);
  return address.config;
}

// ---- Values ----

const milliOf = (micro) => (micro / 1000) | 0;
const offsetOf = (view, at) => (view.getUint8(at + 3) === 1 ? view.getInt32(at + 8, true) : null);
/** The number that a call has written. */
const int32Out = () => kept.view.getInt32(PLACE.out, true);
/** Microseconds, or a number out of range if one of the two is not 0 to 999. */
const joined = (milli, micro) => (milli >= 0 && milli < 1000 && micro >= 0 && micro < 1000 ? milli * 1000 + micro : -1);

/** The number, if a field of C can hold it, or the largest one, which is out of range too. */
const fitting = (number, largest) => (number >= 0 && number <= largest ? number : largest);
const integerOrNull = (value, name) => (value === null ? null : integer(value, name));

/** A field of a duration with the sign, but without -0, and such a field without it. */
const signed = (size, sign) => size * sign || 0;
function unsigned(value, sign, name) {
  if (sign * integer(value, name) < 0) throw new RangeError(`${name} has another sign than sign`);
  return Math.abs(value);
}

// The kinds of values: the name in C; the names of the calls there, and from `init` on the calls; the fields, and one that a value of
// another kind has; what reads a value out of the memory; what looks at each field of a given value once; and what puts that into the
// memory. Fields are written out, since loops over their names are slower.
const DATE = {
  name: "date",
  calls: undefined,
  inC: {
    check: "date_check", print: "date_to_text", compare: "date_compare",
    until: "duration_between_dates", add: "duration_after_date", subtract: "duration_before_date",
  },
  fields: ["year", "month", "day"],
  other: "hour",
  read: ({ view }) => ({
    year: view.getUint16(PLACE.out, true), month: view.getUint8(PLACE.out + 2), day: view.getUint8(PLACE.out + 3),
  }),
  look: (it) => ({
    kind: DATE, year: integer(it.year, "year"), month: integer(it.month, "month"), day: integer(it.day, "day"), offsetSeconds: null,
  }),
  put(view, at, { year, month, day }) {
    view.setUint16(at, fitting(year, 0xffff), true);
    view.setUint8(at + 2, fitting(month, 0xff));
    view.setUint8(at + 3, fitting(day, 0xff));
  },
};
const TIME = {
  name: "time",
  calls: undefined,
  inC: { check: "time_check", print: "time_to_text", compare: "time_compare", withOffset: "time_in_timezone" },
  fields: ["hour", "minute", "second", "millisecond", "microsecond", "offsetSeconds"],
  other: "year",
  read({ view }) {
    const micro = view.getInt32(PLACE.out + 4, true);
    return {
      hour: view.getUint8(PLACE.out), minute: view.getUint8(PLACE.out + 1), second: view.getUint8(PLACE.out + 2),
      millisecond: milliOf(micro), microsecond: micro % 1000, offsetSeconds: offsetOf(view, PLACE.out),
    };
  },
  look: (it) => ({
    kind: TIME,
    hour: integer(it.hour, "hour"), minute: integer(it.minute, "minute"), second: integer(it.second, "second"),
    millisecond: integer(it.millisecond, "millisecond"), microsecond: integer(it.microsecond, "microsecond"),
    offsetSeconds: integerOrNull(it.offsetSeconds, "offsetSeconds"),
  }),
  put(view, at, { hour, minute, second, millisecond, microsecond, offsetSeconds }) {
    view.setUint8(at, fitting(hour, 0xff));
    view.setUint8(at + 1, fitting(minute, 0xff));
    view.setUint8(at + 2, fitting(second, 0xff));
    view.setUint8(at + 3, offsetSeconds === null ? 0 : 1);
    view.setUint32(at + 4, fitting(joined(millisecond, microsecond), 0xffffffff), true);
    view.setInt32(at + 8, Math.max(-SECONDS_IN_DAY, Math.min(offsetSeconds ?? 0, SECONDS_IN_DAY)), true);
  },
};
const DATE_TIME = {
  name: "datetime",
  calls: undefined,
  inC: {
    check: "datetime_check", print: "datetime_to_text", compare: "datetime_compare",
    until: "duration_between", add: "datetime_add", subtract: "duration_before", withOffset: "datetime_in_timezone",
  },
  fields: [...DATE.fields, ...TIME.fields],
  other: undefined,
  read({ view }) {
    const micro = view.getInt32(PLACE.out + 8, true);
    return {
      year: view.getUint16(PLACE.out, true), month: view.getUint8(PLACE.out + 2), day: view.getUint8(PLACE.out + 3),
      hour: view.getUint8(PLACE.out + 4), minute: view.getUint8(PLACE.out + 5), second: view.getUint8(PLACE.out + 6),
      millisecond: milliOf(micro), microsecond: micro % 1000, offsetSeconds: offsetOf(view, PLACE.out + 4),
    };
  },
  look: (it) => ({
    kind: DATE_TIME,
    year: integer(it.year, "year"), month: integer(it.month, "month"), day: integer(it.day, "day"),
    hour: integer(it.hour, "hour"), minute: integer(it.minute, "minute"), second: integer(it.second, "second"),
    millisecond: integer(it.millisecond, "millisecond"), microsecond: integer(it.microsecond, "microsecond"),
    offsetSeconds: integerOrNull(it.offsetSeconds, "offsetSeconds"),
  }),
  put(view, at, fields) {
    DATE.put(view, at, fields);
    TIME.put(view, at + 4, fields);
  },
};
const DURATION = {
  name: "duration",
  calls: undefined,
  inC: { check: "duration_check", print: "duration_to_text", compare: "duration_compare" },
  fields: ["sign", "days", "seconds", "milliseconds", "microseconds"],
  other: undefined,
  read({ view }) {
    const sign = view.getInt32(PLACE.out, true) === 1 ? -1 : 1;
    const days = signed(view.getInt32(PLACE.out + 4, true), sign);
    const seconds = signed(view.getInt32(PLACE.out + 8, true), sign);
    const micro = view.getInt32(PLACE.out + 12, true);
    const milliseconds = signed(milliOf(micro), sign);
    const microseconds = signed(micro % 1000, sign);
    return { sign, days, seconds, milliseconds, microseconds };
  },
  look(it) {
    const sign = integer(it.sign, "sign");
    const days = unsigned(it.days, sign, "days");
    const seconds = unsigned(it.seconds, sign, "seconds");
    const milliseconds = unsigned(it.milliseconds, sign, "milliseconds");
    const microseconds = unsigned(it.microseconds, sign, "microseconds");
    return { kind: DURATION, sign, days, seconds, milliseconds, microseconds, offsetSeconds: null };
  },
  put(view, at, { sign, days, seconds, milliseconds, microseconds }) {
    view.setUint32(at, sign === 1 ? 0 : sign === -1 ? 1 : 0xffffffff, true);
    view.setUint32(at + 4, fitting(days, 0xffffffff), true);
    view.setUint32(at + 8, fitting(seconds, 0xffffffff), true);
    view.setUint32(at + 12, fitting(joined(milliseconds, microseconds), 0xffffffff), true);
  },
};
const ALL_KINDS = [DATE, TIME, DATE_TIME, DURATION];
const WITH_DATE = [DATE, DATE_TIME];
const HAS_OFFSET = [TIME, DATE_TIME];
const JUST = { date: [DATE], dateTime: [DATE_TIME], duration: [DURATION] };

/** The fields of a given value, with its kind, which is one of these. The names mostly are in order, and no others. */
function given(value, name, kinds) {
  start();
  const names = Object(value) === value ? Object.keys(value) : [];
  for (const kind of kinds) if (areFields(names, kind.fields)) return kind.look(value);
  for (const kind of kinds) if (wrongFields(names, kind).length === 0) return kind.look(kind === DURATION ? wholeDuration(value, names) : value);
  throw new TypeError(`${name} has to be a ${kinds.map((it) => it.name).join(" or ")}${nearestKind(names, kinds)}`);
}

function areFields(names, fields) {
  if (names.length !== fields.length) return false;
  for (let i = 0; i < fields.length; i++) if (names[i] !== fields[i] && !names.includes(fields[i])) return false;
  return true;
}

/** What is wrong with the names for a kind: the fields that are missing, and one of another kind. A duration may lack fields if it has
 * an amount, and no other names, such as hours. */
function wrongFields(names, { fields, other }) {
  const missing = fields.filter((it) => !names.includes(it));
  const isPart = fields === DURATION.fields && missing.length > 0 && names.some((it) => it !== "sign" && fields.includes(it));
  if (isPart) return names.filter((it) => !fields.includes(it)).map((it) => `with ${it}`);
  const wrong = missing.map((it) => `without ${it}`);
  return names.includes(other) ? [...wrong, `with ${other}`] : wrong;
}

/** A duration with all fields. Without a sign it is negative if an amount is. */
function wholeDuration(value, names) {
  if (names.length >= DURATION.fields.length) return value;
  const all = { sign: 1, days: 0, seconds: 0, milliseconds: 0, microseconds: 0, ...value };
  return names.includes("sign") || !DURATION.fields.some((it) => it !== "sign" && all[it] < 0) ? all : { ...all, sign: -1 };
}

/** Says what is wrong for the kind that fits best. */
function nearestKind(names, kinds) {
  const wrongIn = (kind) => wrongFields(names, kind).length + names.filter((it) => !kind.fields.includes(it)).length;
  const nearest = kinds.reduce((best, it) => (wrongIn(it) < wrongIn(best) ? it : best));
  if (nearest.fields.every((it) => !names.includes(it))) return kinds.length > 1 ? "" : `: its fields are ${nearest.fields.join(", ")}`;
  return `: it is a ${nearest.name} ${wrongFields(names, nearest).join(", ")}`;
}

/** Puts a given value into the memory, and returns its address. */
function putFirst(it) {
  it.kind.put(kept.view, PLACE.first, it);
  return address.first;
}
function putSecond(it) {
  it.kind.put(kept.view, PLACE.second, it);
  return address.second;
}

/** Throws if the code is a refusal: for the first of the values that is out of range, or else for the code. */
function acceptOf(number, first, second) {
  if (number === 0) return;
  check(first, address.first);
  if (second !== undefined) check(second, address.second);
  accept(number);
}
function check(it, place) {
  if (WITH_DATE.includes(it.kind) && it.year < 0) accept(CODE.dateTooSmall);
  const number = it.kind.calls.check(place);
  const expected = FIELDS_EXPECTED[number];
  if (expected !== undefined) throw new SpeedateError({ code: reasonOf(number, NONE).code, expected });
  accept(number);
}

// ---- Reading ----

// Each reader has its own function, with a short way for a short string. An engine compiles a function for the calls that it has
// seen there, and here it sees only one.

const bitsOf = (all) => Object.values(all).reduce((one, it) => one | it, 0);
const OPTIONS_OF = {
  date: FORMS.text | FORMS.orTimestamp | bitsOf(IN_UNIT), time: FORMS.text | FORMS.strict | bitsOf(OVERFLOW),
  dateTime: FORMS.text | FORMS.orTimestamp | FORMS.strict | LOOSE | TIGHT | bitsOf(IN_UNIT) | bitsOf(OVERFLOW) | bitsOf(MISSING),
  duration: bitsOf(OVERFLOW) | bitsOf(ISO_ORDER), dateFront: 0, timeFront: bitsOf(OVERFLOW), dateTimeFront: LOOSE | TIGHT | bitsOf(OVERFLOW), format: bitsOf(DIGITS),
};

// Each writes the value, or the part for which the text is refused.
function callDate(library, size, numbers, form = formOf(numbers)) {
  return library.calls.speedate_date_parse_or_part(address.text, size, form, putConfig(library, numbers), address.out, address.part);
}
function callTime(library, size, numbers, form = formOf(numbers)) {
  return library.calls.speedate_time_parse_or_part(address.text, size, form, putConfig(library, numbers), address.out, address.part);
}
function callDateTime(library, size, numbers, form = formOf(numbers)) {
  const code = library.calls.speedate_datetime_parse_or_part(address.text, size, form, putConfig(library, numbers), address.out, address.part);
  const isOffsetMissing = (numbers & (MISSING.error | MISSING.utc)) !== 0 && (code !== 0 || offsetOf(library.view, PLACE.out + 4) === null);
  return isOffsetMissing ? missingOffset(library, size, numbers, code) : code;
}
/** The code of a date-time that is refused, or that lacks an offset: then it gets the offset of UTC, or is refused at its end. */
function missingOffset({ view }, size, numbers, code) {
  const isRefused = (numbers & MISSING.error) !== 0;
  if (isRefused) view.setInt32(PART.kind, KINDS.instant[formOf(numbers)], true);
  if (code !== 0) return code;
  if (isRefused) {
    view.setBigUint64(PART.start, size, true);
    view.setBigUint64(PART.end, size, true);
    return CODE.tzRequired;
  }
  view.setUint8(PLACE.out + 7, 1);
  view.setInt32(PLACE.out + 12, 0, true);
  return 0;
}
const callDuration = (library, size, numbers) =>
  library.calls.speedate_duration_parse_or_part(address.text, size, FORM.text, putConfig(library, numbers), address.out, address.part);

// Options come first, since a getter among them may call this too.
function codeOfDate(text, options) {
  const numbers = numbersOf(options, OPTIONS_OF.date);
  const size = putShort(text);
  return size === undefined ? read(text, false, numbers, callDate) : callDate(kept, size, numbers);
}
function codeOfTime(text, options) {
  const numbers = numbersOf(options, OPTIONS_OF.time);
  const size = putShort(text);
  return size === undefined ? read(text, false, numbers, callTime) : callTime(kept, size, numbers);
}
function codeOfDateTime(text, options) {
  const numbers = numbersOf(options, OPTIONS_OF.dateTime);
  const size = putShort(text);
  return size === undefined ? read(text, false, numbers, callDateTime) : callDateTime(kept, size, numbers);
}
function codeOfDuration(text, options) {
  const numbers = numbersOf(options, OPTIONS_OF.duration);
  const size = putShort(text);
  return size === undefined ? read(text, false, numbers, callDuration) : callDuration(kept, size, numbers);
}
const codeOfDateFront = (text, options) => read(frontOf(text), true, numbersOf(options, OPTIONS_OF.dateFront), callDate);
const codeOfTimeFront = (text, options) => read(frontOf(text), true, numbersOf(options, OPTIONS_OF.timeFront), callTime);
const codeOfDateTimeFront = (text, options) => read(frontOf(text), true, numbersOf(options, OPTIONS_OF.dateTimeFront), callDateTime);

/** The bytes that a reader of fronts looks at. */
const seenOf = (text) => (isBytes(text) ? new Uint8Array(bufferOf.call(text), byteOffset.call(text), frontSize(text, byteCount.call(text), byteAt)) : text);

// The caller may change the bytes before it looks at the error.
const keptText = (text) => (typeof text === "string" ? text : new Uint8Array(text));
const lastReason = (number) => reasonOf(number, kept.view.getInt32(PART.kind, true));

/** The answer for a refused text, of which the call has seen this much. */
function refusal(number, seen, text) {
  if (number < 0) return { ok: false, code: "invalid_type", expected: number === NO_ROOM ? "a shorter text" : "a string", start: 0, end: 0 };
  const { code, expected } = lastReason(number);
  const { start, end } = partOf(seen, text);
  return { ok: false, code, expected, start, end };
}
// An engine takes long for each function that is on the stack when an error is made, and for a constructor of its own. So a call makes
// a RangeError, which then becomes a SpeedateError.
const lastMessage = (number) => `expected ${lastReason(number).expected}`;
function refused(error, number, text, seen = text, whole = seen) {
  Object.setPrototypeOf(error, SpeedateError.prototype);
  fill(error, lastReason(number), keptText(text), partOf(seen, whole));
  return error;
}
const wrongText = (number) => (number === NO_ROOM ? new RangeError("text has to be shorter") : noText());

/** The part for which the last text was refused, in units of a string, otherwise in bytes. A part up to the end of what the call has seen goes to
 * the end of the text. */
function partOf(text, whole = text) {
  const { view } = kept;
  const start = view.getUint32(PART.start, true);
  const end = view.getUint32(PART.end, true);
  if (typeof text !== "string") return { start, end };
  const isAscii = text.length === lastSize;
  return { start: isAscii ? start : unitsBefore(text, start), end: end === lastSize ? whole.length : isAscii ? end : unitsBefore(text, end) };
}

/** The number of units in the whole characters before a byte of a string. The byte may be within a character. */
function unitsBefore(text, size) {
  let units = 0;
  for (let bytes = 0; bytes < size; ) {
    const point = text.codePointAt(units);
    bytes += point < 0x80 ? 1 : point < 0x800 ? 2 : point < 0x10000 ? 3 : 4;
    if (bytes <= size) units += point < 0x10000 ? 1 : 2;
  }
  return units;
}

export function parseDate(text, options) {
  const code = codeOfDate(text, options);
  if (code !== 0) throw code < 0 ? wrongText(code) : refused(new RangeError(lastMessage(code)), code, text);
  return DATE.read(kept);
}
export function parseTime(text, options) {
  const code = codeOfTime(text, options);
  if (code !== 0) throw code < 0 ? wrongText(code) : refused(new RangeError(lastMessage(code)), code, text);
  return TIME.read(kept);
}
export function parseDateTime(text, options) {
  const code = codeOfDateTime(text, options);
  if (code !== 0) throw code < 0 ? wrongText(code) : refused(new RangeError(lastMessage(code)), code, text);
  return DATE_TIME.read(kept);
}
export function parseDuration(text, options) {
  const code = codeOfDuration(text, options);
  if (code !== 0) throw code < 0 ? wrongText(code) : refused(new RangeError(lastMessage(code)), code, text);
  return DURATION.read(kept);
}
export function safeParseDate(text, options) {
  const code = codeOfDate(text, options);
  return code === 0 ? { ok: true, value: DATE.read(kept) } : refusal(code, text);
}
export function safeParseTime(text, options) {
  const code = codeOfTime(text, options);
  return code === 0 ? { ok: true, value: TIME.read(kept) } : refusal(code, text);
}
export function safeParseDateTime(text, options) {
  const code = codeOfDateTime(text, options);
  return code === 0 ? { ok: true, value: DATE_TIME.read(kept) } : refusal(code, text);
}
export function safeParseDuration(text, options) {
  const code = codeOfDuration(text, options);
  return code === 0 ? { ok: true, value: DURATION.read(kept) } : refusal(code, text);
}

function frontAnswer(value, text) {
  const size = kept.view.getUint32(PART.end, true);
  return typeof text === "string" ? { value, size, length: unitsOf(text, size) } : { value, size };
}

/** The number of units of a value at the front of a string. Only U+2212 has more bytes than units. */
function unitsOf(text, size) {
  let units = 0;
  for (let bytes = 0; bytes < size; units++) bytes += text.charCodeAt(units) > 127 ? 3 : 1;
  return units;
}

export function parseDateFront(text, options) {
  const code = codeOfDateFront(text, options);
  if (code !== 0) throw code < 0 ? wrongText(code) : refused(new RangeError(lastMessage(code)), code, seenOf(text), frontOf(text), text);
  return frontAnswer(DATE.read(kept), text);
}
export function parseTimeFront(text, options) {
  const code = codeOfTimeFront(text, options);
  if (code !== 0) throw code < 0 ? wrongText(code) : refused(new RangeError(lastMessage(code)), code, seenOf(text), frontOf(text), text);
  return frontAnswer(TIME.read(kept), text);
}
export function parseDateTimeFront(text, options) {
  const code = codeOfDateTimeFront(text, options);
  if (code !== 0) throw code < 0 ? wrongText(code) : refused(new RangeError(lastMessage(code)), code, seenOf(text), frontOf(text), text);
  return frontAnswer(DATE_TIME.read(kept), text);
}
export function safeParseDateFront(text, options) {
  const code = codeOfDateFront(text, options);
  return code === 0 ? { ok: true, value: frontAnswer(DATE.read(kept), text) } : refusal(code, frontOf(text), text);
}
export function safeParseTimeFront(text, options) {
  const code = codeOfTimeFront(text, options);
  return code === 0 ? { ok: true, value: frontAnswer(TIME.read(kept), text) } : refusal(code, frontOf(text), text);
}
export function safeParseDateTimeFront(text, options) {
  const code = codeOfDateTimeFront(text, options);
  return code === 0 ? { ok: true, value: frontAnswer(DATE_TIME.read(kept), text) } : refusal(code, frontOf(text), text);
}

// ---- Schemas ----

const SCHEMAS = { date: safeParseDate, time: safeParseTime, dateTime: safeParseDateTime, duration: safeParseDuration };

export function schema(kind, options) {
  choiceOf(kind, Object.keys(SCHEMAS), "kind");
  const parse = SCHEMAS[kind];
  // Wrong options throw here, not at the first text.
  numbersOf(options, OPTIONS_OF[kind]);
  const own = options === undefined ? undefined : { ...options };
  const validate = (text) => {
    const answer = parse(typeof text === "string" ? text : undefined, own);
    if (answer.ok) return { value: answer.value };
    const { code, expected, start, end } = answer;
    return { issues: [{ message: `expected ${expected}`, code, expected, start, end }] };
  };
  return { "~standard": { version: 1, vendor: "speedate", validate } };
}

// ---- Timestamps ----

export function dateTimeFromTimestamp(timestamp, unit) {
  choiceOf(unit, UNITS, "unit");
  const number = integer64(timestamp, "timestamp");
  start();
  const config = putConfig(kept, FORMS.orTimestamp | IN_UNIT[unit]);
  accept(calls.speedate_datetime_of_timestamp(number, 0, config, address.out));
  return DATE_TIME.read(kept);
}

/** The milliseconds of Unix time, rounded down. */
function unixMilliseconds(it) {
  acceptOf(calls.speedate_datetime_unix_milliseconds(putFirst(it), address.out), it);
  if (it.offsetSeconds === null) accept(CODE.tzRequired);
  return kept.view.getBigInt64(PLACE.out, true);
}
export function toUnixMicroseconds(value) {
  const it = given(value, "value", JUST.dateTime);
  return unixMilliseconds(it) * 1000n + BigInt(it.microsecond);
}
export function toDate(value) {
  return new Date(Number(unixMilliseconds(given(value, "value", JUST.dateTime))));
}

export function fromDate(date) {
  if (Object.prototype.toString.call(date) !== "[object Date]") throw new TypeError("date has to be a Date");
  const time = Date.prototype.getTime.call(date);
  if (Number.isNaN(time)) throw new RangeError("date has to be a Date that has a time");
  return dateTimeFromTimestamp(time, "ms");
}

// ---- Parts of a date-time ----

function partAs(kind, value) {
  const it = given(value, "value", JUST.dateTime);
  check(it, putFirst(it));
  kind.put(kept.view, PLACE.out, it);
  return kind.read(kept);
}
export function dateOf(value) {
  return partAs(DATE, value);
}
export function timeOf(value) {
  return partAs(TIME, value);
}

// ---- Printing and arithmetic ----

export function format(value, options) {
  const digits = numbersOf(options, OPTIONS_OF.format);
  const it = given(value, "value", digits === 0 ? ALL_KINDS : HAS_OFFSET);
  const { print } = it.kind.calls;
  // C counts -1 as no choice of digits.
  if (HAS_OFFSET.includes(it.kind)) acceptOf(print(putFirst(it), digits === DIGITS[6] ? 6 : digits === DIGITS[3] ? 3 : digits === 0 ? -1 : 0, address.buffer, BUFFER_SIZE, address.taken), it);
  else acceptOf(print(putFirst(it), address.buffer, BUFFER_SIZE, address.taken), it);
  if (it.offsetSeconds % 60) throw new RangeError("offsetSeconds has to be whole minutes in print");
  return printed();
}

export function compare(first, second) {
  const one = given(first, "first", ALL_KINDS);
  const other = given(second, "second", [one.kind]);
  acceptOf(one.kind.calls.compare(putFirst(one), putSecond(other), address.out), one, other);
  return int32Out();
}

export function daysBetween(earlier, later) {
  const one = given(earlier, "earlier", JUST.date);
  const other = given(later, "later", JUST.date);
  acceptOf(calls.speedate_date_days_between(putFirst(one), putSecond(other), address.out), one, other);
  return int32Out();
}

export function add(start, duration) {
  const it = given(start, "start", WITH_DATE);
  const by = given(duration, "duration", JUST.duration);
  const [first, second] = it.kind === DATE ? [by, it] : [it, by];
  acceptOf(it.kind.calls.add(putFirst(first), putSecond(second), address.out), first, second);
  return it.kind.read(kept);
}

export function subtract(start, duration) {
  const it = given(start, "start", WITH_DATE);
  const by = given(duration, "duration", JUST.duration);
  acceptOf(it.kind.calls.subtract(putFirst(by), putSecond(it), address.out), by, it);
  return it.kind.read(kept);
}

export function until(start, end) {
  const one = given(start, "start", WITH_DATE);
  const other = given(end, "end", [one.kind]);
  acceptOf(one.kind.calls.until(putFirst(one), putSecond(other), address.out), one, other);
  return DURATION.read(kept);
}

export function durationFromMicroseconds(microseconds) {
  const number = integer64(microseconds, "microseconds");
  start();
  accept(calls.speedate_duration_from_microseconds(number, address.out));
  return DURATION.read(kept);
}

export function sum(durations) {
  if (!Array.isArray(durations)) throw new TypeError("durations has to be an array");
  const all = Array.from(durations, (it, i) => given(it, `durations[${i}]`, JUST.duration));
  start();
  const size = all.length * DURATION_SIZE;
  const library = size > MOST_KEPT ? new Library(size) : kept;
  library.reserve(size);
  for (const [i, it] of all.entries()) DURATION.put(library.view, PLACE.text + i * DURATION_SIZE, it);
  const code = library.calls.speedate_duration_sum(address.text, BigInt(all.length), address.out);
  if (code !== 0) for (const it of all) check(it, putFirst(it));
  accept(code);
  return DURATION.read(library);
}

export function totalMicroseconds(duration) {
  const it = given(duration, "duration", JUST.duration);
  acceptOf(calls.speedate_duration_microseconds(putFirst(it), address.out), it);
  return kept.view.getBigInt64(PLACE.out, true);
}

export function withOffset(value, offsetSeconds) {
  const it = given(value, "value", HAS_OFFSET);
  const offset = integer32(offsetSeconds, "offsetSeconds");
  acceptOf(it.kind.calls.withOffset(putFirst(it), offset, address.out), it);
  return it.kind.read(kept);
}
