// In an engine the page from disk, narrow and wide, the rows of C, the examples of a document with Temporal, and drawn texts,
// whose answers are those of Node: node browsers.mjs ENGINE ROOT LIBRARY PACKAGE. engine.mjs says what ENGINE is, and
// ROOT is the clone. LIBRARY is the one of C, and PACKAGE a folder that has the package for Python, or they are empty.
import assert from "node:assert/strict";
import { spawnSync } from "node:child_process";
import { readdirSync, readFileSync, writeFileSync } from "node:fs";
import { pathToFileURL } from "node:url";
import * as speedate from "speedate/columns";
import { readDrawn } from "./drawn.mjs";
import { open, serve } from "./engine.mjs";
import { scriptOf } from "./examples.mjs";

const [engine, root, library, folder] = process.argv.slice(2);
const source = (name) => readFileSync(`${root}/${name}`, "utf8");

// ---- What runs in a page, which posts what it finds to a server on the loopback ----

/** What the page to try shows by its address and after each step of a visitor; what is wrong with how it looks and is reached,
 * which should be nothing; the calls that it shows; and the least milliseconds in which it shows what a typed text is: the
 * machine may be busy. */
async function visit({ SAID, MARKED, OFFERED, GUESSED, TABLES, CALLED, TITLES }) {
  const form = document.forms[0];
  const [nav, options, main, status] = ["nav", "details", "main", "[role=status]"].map((it) => document.querySelector(it));
  const sleep = (milliseconds) => new Promise((resolve) => setTimeout(resolve, milliseconds));
  const all = (selector, map) => Array.from(main.querySelectorAll(selector), map);
  const shown = () => [
    ...all("section", (it) => `${it.querySelector("h2").textContent}: ${(it.querySelector("dd:last-child") ?? it.querySelector("p")).textContent}`),
    ...all("#refused details", (it) => `${it.querySelector("b").textContent}: ${it.querySelector("p").textContent}`),
  ].join(", ");
  const type = (it) => {
    const start = performance.now();
    form.text.value = it;
    form.text.dispatchEvent(new Event("input", { bubbles: true }));
    return document.documentElement.scrollWidth <= innerWidth ? performance.now() - start : Infinity;
  };
  const wrong = [];
  const has = (holds, what) => holds || wrong.push(what);
  let changes = 0;
  const { replaceState } = history;
  history.replaceState = (...its) => (changes++, replaceState.apply(history, its));

  const steps = [shown(), main.querySelector("a").getAttribute("href"), form.timestampUnit.disabled];
  steps.push(form.text.value.slice(form.text.selectionStart, form.text.selectionEnd));
  type("PT90M");
  steps.push(shown(), main.querySelector(".others").open, main.querySelector(".others > summary").textContent);
  nav.querySelector('a[href*="timestampUnit"]').click();
  steps.push(shown(), options.querySelector("summary").textContent, form.timestampUnit.disabled);
  form.form.value = "strict";
  type("12:13:14");
  steps.push(shown());
  const typed = "2020-02-29T12:13:14.5+01:30";
  form.reset();
  for (const it of SAID) {
    type(it);
    steps.push(all(".said", (it) => it.textContent).join(" or "));
  }
  const marks = MARKED.map((it) => {
    type(it);
    return all(".why code", (code) => [code.closest("summary, section"), code.querySelector("bdi"), code.querySelector("mark"), code.querySelector(".rest"), code.nextSibling])
      .map(([row, right, wrong, rest, words]) => `${row.firstChild.textContent} ${right?.textContent ?? ""}[${wrong.textContent}]${rest?.textContent ?? ""} ${words.textContent}`);
  });
  const titles = TITLES.map((it) => (type(it), main.querySelector("h2").textContent));
  // A frame from disk is given no focus by WebKit.
  let isFocused;
  main.focus = () => (isFocused = main.hasAttribute("tabindex"));
  const offers = OFFERED.map(([text, fields]) => {
    form.reset();
    isFocused = false;
    for (const [name, value] of Object.entries(fields)) form[name].value = value;
    type(text);
    const offered = all("p > button", (it) => `${it.closest("#refused > div, section").querySelector("b, h2").textContent}: ${it.textContent}`);
    main.querySelector("p > button")?.click();
    return [text, fields, offered, options.querySelector("summary").textContent, (isFocused || offered.length === 0) && shown().replace(/, .*/, "")];
  });
  form.reset();
  for (const it of ["P1Y", "PT1M", "1 day", "PT1H"]) {
    type(it);
    steps.push(all(".note", (it) => it.textContent).join());
  }
  const guesses = GUESSED.map(([text, fields]) => {
    form.reset();
    for (const [name, value] of Object.entries(fields)) form[name].value = value;
    type(text);
    const said = [text, fields, all("h2", (it) => it.textContent).join(), all(".guess button", (it) => it.textContent).join(" or "), all(".note", (it) => it.textContent).join()];
    main.querySelector(".guess button")?.click();
    return [...said, shown().replace(/, .*/, "")];
  });
  form.reset();
  let copied;
  Object.defineProperty(navigator, "clipboard", { value: { writeText: async (it) => (copied = it) } });
  const tableShown = () => [
    main.querySelector("h2").textContent, main.querySelector("section").className, all(".languages button", (it) => (it.getAttribute("aria-pressed") === "true" ? `[${it.textContent}]` : it.textContent)).join(),
    ...all("tbody tr", (row) => Array.from(row.cells, (it) => it.textContent).join(" | ")),
  ];
  const tables = TABLES.map(([text, fields, clicked]) => {
    form.reset();
    for (const [name, value] of Object.entries(fields)) form[name].value = value;
    type(text);
    for (const it of clicked) all("section button", (it) => it).find(({ textContent }) => textContent.startsWith(it)).click();
    all(".copy", (it) => it.click());
    // On a narrow screen a line is above what it is. No word is cut in two.
    const [, line, value] = main.querySelector("tbody tr").cells;
    has((innerWidth < 640) === value.getBoundingClientRect().top >= line.getBoundingClientRect().bottom - 1, `the cells of ${text}`);
    has(getComputedStyle(line).wordBreak === "normal", "whole words");
    return [text, fields, clicked, tableShown(), all("p > button", (it) => it.textContent).join(), copied];
  });
  form.reset();
  const many = Array.from({ length: 10000 }, (_, i) => (i % 1000 ? `2020-02-29T12:13:${10 + (i % 50)}.5+01:00` : `line ${i}`)).join("\n");
  let leastOfMany = Infinity;
  for (let i = 0; i < 16; i++) {
    // The engine itself lays out so long a field for some time.
    form.text.value = many;
    const start = performance.now();
    form.text.dispatchEvent(new Event("input", { bubbles: true }));
    leastOfMany = Math.min(leastOfMany, performance.now() - start);
    await sleep(50);
  }
  const settled = async () => {
    while (main.ariaBusy === "true") await sleep(10);
  };
  await settled();
  const rowsShown = () => [main.querySelector("h2").textContent, main.querySelector("section").className, all("tbody tr", (it) => it).length];
  const press = (name) => all("section button", (it) => it).find((it) => it.textContent.startsWith(name)).click();
  const ofMany = [rowsShown()];
  for (const name of ["Show more", "Only refused", "Only refused"]) press(name), ofMany.push(rowsShown());
  press("Copy as CSV");
  ofMany.push([copied.split("\r\n").length, copied.split("\r\n").at(-2)]);
  // Of very many lines the first come at once, and the page does what else there is to do while it reads the others. Another text ends that.
  const paste = (data) => !form.text.dispatchEvent(new InputEvent("beforeinput", { inputType: "insertFromPaste", data, bubbles: true, cancelable: true }));
  const log = Array.from({ length: 200000 }, (_, i) => (i % 1000 ? `2026-11-22 06:10:${10 + (i % 50)} +0100 GET /${i}` : `line ${i}`)).join("\r\n");
  const ofLog = [];
  const times = { first: Infinity, gap: Infinity };
  for (let i = 0; i < 4; i++) {
    type("2020-02-29");
    form.text.select();
    const start = performance.now();
    const isPasted = paste(log);
    times.first = Math.min(times.first, performance.now() - start);
    has(isPasted && main.ariaBusy === "true" && form.text.value.length < 100000 && /All are read/.test(document.getElementById("rest").textContent), "a long text has no room in the field");
    ofLog.push(rowsShown()[2], rowsShown()[0].replace(/: \d+%$/, ""));
    await sleep(30);
    if (i % 2) {
      type("PT90M");
      const said = shown();
      await sleep(200);
      ofLog.push(said === shown() && main.ariaBusy, document.getElementById("rest").textContent);
      continue;
    }
    press("Dates");
    ofLog.push(main.querySelector(".languages [aria-pressed=true]").textContent);
    press("Date-times at the front");
    let [last, gap] = [performance.now(), 0];
    while (main.ariaBusy === "true") {
      await sleep(0);
      gap = Math.max(gap, performance.now() - last);
      last = performance.now();
    }
    times.gap = Math.min(times.gap, gap);
    ofLog.push(rowsShown(), all(".languages button", (it) => it.textContent).at(-1));
  }
  // What is typed at the end of what the field has leaves the rest, and what takes its place does not.
  form.text.select();
  paste(log);
  await settled();
  form.text.setSelectionRange(0, 0);
  paste("");
  type(`PT1M\n${form.text.value}`);
  await settled();
  ofLog.push(rowsShown()[0]);
  form.text.select();
  paste("");
  type("PT1M");
  ofLog.push(shown().replace(/, .*/, ""));
  const least = Math.min(...Array.from(typed, (_, i) => type(typed.slice(0, i + 1))));
  changes = 0;
  steps.push(main.querySelector(".said").textContent, all(".said span, dd span", (it) => `${it.className} ${it.textContent}`).join("|"));
  // What is typed is in the address only once its button is pressed, and until something else is typed. No browser opens a very long one.
  const link = document.querySelector(".link");
  const hashes = [location.hash];
  const room = 600000 - location.href.replace(/#.*/, "").length - "#text=".length;
  const line = "1".repeat(996);
  for (const more of [1, 0]) {
    copied = undefined;
    // The address has three characters for a line feed.
    type(`${line}\n`.repeat(room / 999) + "1".repeat((room % 999) + more));
    link.click();
    await sleep(0);
    hashes.push(copied?.length ?? 0, location.hash.length > 1, link.textContent);
    has(document.documentElement.scrollWidth <= innerWidth, `${link.textContent} is as wide as its frame`);
  }
  type(typed);
  changes = 0;
  type(typed);
  await sleep(900);
  hashes.push(changes, location.hash);
  link.click();
  await sleep(0);
  hashes.push(location.hash, copied === location.href, link.textContent);
  steps.push(hashes, status.textContent);
  type("12:13");
  steps.push(changes, location.search + location.hash, link.textContent);
  type("2021-02-29");
  await sleep(900);
  steps.push(status.textContent);
  type("");
  await sleep(900);
  steps.push(main.textContent, status.textContent);
  // What a link has may be a carriage return. A key ends a line only where the text has lines.
  const example = nav.appendChild(Object.assign(document.createElement("a"), { href: "#text=2020%0D-02-29" }));
  example.click();
  example.remove();
  steps.push(shown(), main.querySelector("code").textContent, form.text.getBoundingClientRect().height > 50);
  for (const it of ["2020-02-29", "2020-02\n-29"]) {
    type(it);
    const enter = new InputEvent("beforeinput", { inputType: "insertLineBreak", bubbles: true, cancelable: true });
    form.text.dispatchEvent(enter);
    steps.push(enter.defaultPrevented);
  }

  has(document.querySelectorAll("[aria-live], [role=status], [role=alert]").length === 1, "one live line");
  has(document.getElementById(form.text.getAttribute("aria-describedby")).textContent, "a description");
  const follows = (one, other) => one.compareDocumentPosition(other) & Node.DOCUMENT_POSITION_FOLLOWING;
  has(follows(form.text, options) && follows(options, main) && follows(main, nav), "field, options, the answer and then the examples");
  options.open = true;
  const light = (color) => {
    const [red, green, blue] = color.match(/[\d.]+/g).map((it) => (it / 255 <= 0.03928 ? it / 255 / 12.92 : ((it / 255 + 0.055) / 1.055) ** 2.4));
    return 0.2126 * red + 0.7152 * green + 0.0722 * blue;
  };
  /** Whether each mark is seen within its line, and as a line, not as a colour alone. */
  const isMarked = (name) => {
    for (const mark of all("mark", (it) => it)) {
      const { borderBottomWidth, borderBottomColor } = getComputedStyle(mark);
      has(parseFloat(borderBottomWidth) >= 2 && 1.05 / (light(borderBottomColor) + 0.05) >= 3, `${name}: the line of ${mark.textContent}`);
      const { left, right, width, height } = mark.getBoundingClientRect();
      const line = mark.closest(".why, td").getBoundingClientRect();
      has(width >= 8 && height >= 12 && left >= line.left && right <= line.right + 0.5, `${name}: ${mark.textContent} from ${left} to ${right}`);
    }
  };
  /** Whether what each refusal says is seen whole: in a line each, its text and the lines of its reason. */
  const isSaid = (name) => {
    for (const it of all(".why > span:not(.spoken)", (it) => it)) has(it.scrollWidth <= it.clientWidth && it.clientHeight > 0, `${name}: ${it.textContent}`);
    for (const it of all("#refused details", (it) => it)) has(it.getBoundingClientRect().height < (innerWidth < 360 ? 110 : 90), `${name}: a refusal of ${it.getBoundingClientRect().height} points`);
  };
  for (const it of ["x", "2020-02-29".padEnd(300, "x"), `12:13:14.${"1".repeat(300)}x`, "\u200b".repeat(300)]) {
    type(it);
    isMarked(`${it.length} units`);
    isSaid(`${it.length} units`);
  }
  // Characters that go from right to left stand in the order in which they are counted, in the panel and in the rows.
  for (const it of ["2020-02-29 \u05d0\u05d1\u05d2x", "\u05d0\u05d1\u05d2-02-29", "12:13\u05d0\u05d1\u05d2"]) {
    type(it);
    for (const code of all(".why code", (it) => it)) {
      const places = [];
      for (const walk = document.createTreeWalker(code, NodeFilter.SHOW_TEXT); walk.nextNode(); )
        for (let i = 0; i < walk.currentNode.length; i++) {
          const range = document.createRange();
          range.setStart(walk.currentNode, i);
          range.setEnd(walk.currentNode, i + 1);
          places.push(range.getBoundingClientRect().left);
        }
      has(places.every((it, i) => i === 0 || it > places[i - 1]), `${it}: the order of ${code.textContent}`);
    }
  }
  const colorOf = (it) => getComputedStyle(it).color;
  const calls = [];
  for (const [text, fields, other] of CALLED) {
    form.reset();
    for (const [name, value] of Object.entries(fields)) form[name].value = value;
    type(text);
    for (const section of all("section", (it) => it)) {
      for (const button of section.querySelectorAll("[role=group] button")) {
        button.click();
        calls.push([button.textContent, section.querySelector("dd:last-child").textContent, section.querySelector("pre").textContent, text, other]);
      }
    }
  }
  form.reset();
  for (const link of nav.querySelectorAll("a")) {
    link.click();
    const name = link.textContent;
    has(document.documentElement.scrollWidth <= innerWidth, `${name} is as wide as its frame`);
    for (const it of document.querySelectorAll("a, button, summary, input, select")) {
      if (it.closest("#grammar") && it.tagName === "A") continue;
      const { width, height } = it.getBoundingClientRect();
      has(height === 0 || (height >= 24 && width >= 24), `${name}: ${it.textContent || it.name} has ${width} by ${height} points`);
      const { borderTopWidth, borderTopColor } = getComputedStyle(it);
      has(borderTopWidth === "0px" || 1.05 / (light(borderTopColor) + 0.05) >= 3, `${name}: the border of ${it.textContent || it.name}`);
    }
    isMarked(name);
    has(Array.from(nav.querySelectorAll("[aria-current=true]")).join() === link.href, `${name} is marked as the one that is chosen`);
    const [marked, other] = [link, nav.querySelector("a:not([aria-current])")].map((it) => getComputedStyle(it).backgroundColor);
    has(marked !== other, `${name}: the mark is seen`);
    for (const it of all(".date, .time, .offset", (it) => it)) has(colorOf(it) !== colorOf(nav.querySelector("a:not([aria-current])")), `${name}: ${it.textContent} in the colour of a link`);
    for (const it of all("dd", (it) => it)) has(it.scrollWidth <= it.clientWidth, `${name}: ${it.textContent} in one line`);
    for (const section of all("section", (it) => it)) {
      const languages = section.querySelector("[role=group]");
      if (languages === null || section.querySelector("table") !== null) continue;
      const value = section.querySelector("dd:last-child").textContent;
      const [copy] = Array.from(section.querySelectorAll("button")).slice(-1);
      has(copy.textContent === "Copy" && !languages.contains(copy), "a button that copies, and is no language");
      has(getComputedStyle(copy).borderTopWidth !== getComputedStyle(languages.firstChild).borderTopWidth, "a button that looks like no language");
      for (const button of languages.querySelectorAll("button")) {
        button.click();
        has(button.getAttribute("aria-pressed") === "true", "the language that is chosen");
        calls.push([button.textContent, value, section.querySelector("pre").textContent]);
      }
    }
  }
  options.open = false;
  for (const link of nav.querySelectorAll("a")) {
    link.click();
    has(all("section, details", (it) => it.tagName)[0] === "SECTION", `${link.textContent}: what reads it, or is nearest to it, comes first`);
    const { bottom } = main.querySelector(".said, .closest .why").getBoundingClientRect();
    has(bottom < 480, `${link.textContent} is answered at ${bottom} points`);
    isSaid(link.textContent);
  }
  type("12:1x");
  has(nav.querySelector("[aria-current]") === null, "no example is marked if none is chosen");
  // The name of an error leads to its row of the grammar, which is on the page too, and the text stays.
  type("2021-02-29");
  main.querySelector("a").click();
  await sleep(100);
  const row = document.querySelector(":target").closest("tr");
  const { top, bottom: end } = row.getBoundingClientRect();
  steps.push(row.cells[0].textContent, top >= 0 && end <= innerHeight, document.documentElement.scrollWidth > innerWidth, form.text.value);
  report({ width: innerWidth, steps, marks, titles, offers, guesses, tables, ofMany, ofLog, times, wrong, calls, least, leastOfMany });
}
const MONTHS = ["January", "February", "March", "April", "May", "June", "July", "August", "September", "October", "November", "December"];
const WEEKDAYS = ["Monday", "Tuesday", "Wednesday", "Thursday", "Friday", "Saturday", "Sunday"];
const two = (number) => String(number).padStart(2, "0");
/** Texts, and what the page says of each. */
const SAID = {
  // 2026-11-16 was a Monday, and the seventh of each month of 1996 a day that the engine names.
  ...Object.fromEntries(WEEKDAYS.map((name, i) => [`2026-11-${16 + i}`, `${name}, ${16 + i} November 2026`])),
  ...Object.fromEntries(MONTHS.map((name, i) => [`1996-${two(i + 1)}-07`, `${WEEKDAYS[(new Date(Date.UTC(1996, i, 7)).getUTCDay() + 6) % 7]}, 7 ${name} 1996`])),
  "0000-01-01": "Saturday, 1 January 0000", "1969-12-31": "Wednesday, 31 December 1969",
  "12:13:14Z": "12:13:14 UTC", "12:13:14.000001": "12:13:14.000001, no offset or 12 hours 13 minutes 14.000001 seconds",
  "23:30-01:00": "23:30, 1:00 west of UTC: 00:30 UTC on the day after",
  "00:10:05.000001+0130": "00:10:05.000001, 1:30 east of UTC: 22:40:05.000001 UTC on the day before",
  "9999-12-31T23:30-01:00": "Friday, 31 December 9999, 23:30, 1:00 west of UTC: in UTC outside the years 0 to 9999",
  "-P1DT1H1M1.5S": "minus 1 day 1 hour 1 minute 1.5 seconds", "P1Y2M": "425 days", PT0S: "0 seconds", "-PT0.01S": "minus 0.01 seconds", PT1S: "1 second",
};
/** Texts, and the title of what is nearest: a text that is being typed is not wrong. */
const TITLES = {
  2: "Not yet a date", 2020: "Not yet a date", "2020-0": "Not yet a date", "2020-02-2": "Not yet a date", "2020-02-29T1": "Not yet a date-time", "2020-02-29T12:13:14+01:3": "Not yet a date-time",
  "12:13+01:3": "Not yet a time", "2 da": "Not yet a duration", P: "Not yet a duration", PT: "Not yet a duration", P1: "Not yet a duration", PT5: "Not yet a duration",
  20200: "Not a date-time", "2020-1-": "Not a date", "2020-03-3": "Not yet a date", "2020-02-3": "Not one of the four kinds", "2020-13": "Not a date", "2021-02-29": "Not a date",
};
/** Texts, and by kind how the page marks where each is wrong, and says it. */
const MARKED = {
  "20200229": ["Not a date-time 20200229[] at the end: ", "Date 20200229[] at the end: ", "Duration 20200229[] at the end: ", "Time 20[2]00229 at character 3: "],
  "2021-02-29": [
    "Not a date 2021-02-[29] from character 9 on: ", "Date-time 2021-02-[29] from character 9 on: ",
    "Duration 2021[-]02-29 at character 5: ", "Time 20[2]1-02-29 at character 3: ",
  ],
  "2020-13-01": [
    "Not a date 2020-[13]-01 at characters 6 to 7: ", "Date-time 2020-[13]-01 at characters 6 to 7: ",
    "Duration 2020[-]13-01 at character 5: ", "Time 20[2]0-13-01 at character 3: ",
  ],
  "P1D1Q": ["Not a duration P1D1[Q] from character 5 on: ", "Date P1D1Q[] at the end: ", "Time [P]1D1Q at character 1: ", "Date-time P1D1Q[] at the end: "],
  "12:1": ["Not yet a time 12:1[] at the end: ", "Duration 12[:]1 at character 3: ", "Date 12:1[] at the end: ", "Date-time 12:1[] at the end: "],
  "": [],
  "12:13:1": ["Not yet a time 12:13:[1] from character 7 on: ", "Duration 12:13:[1] from character 7 on: ", "Date 12:13:1[] at the end: ", "Date-time 12:13:1[] at the end: "],
  "2020-0": ["Not yet a date 2020-0[] at the end: ", "Date-time 2020-0[] at the end: ", "Duration 2020[-]0 at character 5: ", "Time 20[2]0-0 at character 3: "],
  "2020-02-29T12": [
    "Not yet a date-time 2020-02-29T12[] at the end: ", "Date 2020-02-29[T12] from character 11 on: ",
    "Duration 2020[-]02-29T12 at character 5: ", "Time 20[2]0-02-29T12 at character 3: ",
  ],
  "1 da": ["Not yet a duration 1 d[a] from character 4 on: ", "Date 1 da[] at the end: ", "Time 1 da[] at the end: ", "Date-time 1 da[] at the end: "],
  "12:13\t": ["Not a time 12:13[U+0009] from character 6 on: ", "Duration 12:13[U+0009] from character 6 on: ", "Date 12:13U+0009[] at the end: ", "Date-time 12:13U+0009[] at the end: "],
  "\u200b12:13": ["Not a date U+200B12:13[] at the end: ", "Time [U+200B12]:13 at characters 1 to 3: ", "Date-time U+200B12:13[] at the end: ", "Duration [U+200B12]:13 at characters 1 to 3: "],
  "12:13 \u00a0\ufeff": [
    "Not a time 12:13[ ]U+00A0U+FEFF at character 6: ", "Duration 12:13[ U+00A0U+FEFF] from character 6 on: ",
    "Date [12:1]3 U+00A0U+FEFF at characters 1 to 4: ", "Date-time [12:1]3 U+00A0U+FEFF at characters 1 to 4: ",
  ],
  "\ud83d": ["Not a date U+D83D[] at the end: ", "Time U+D83D[] at the end: ", "Date-time U+D83D[] at the end: ", "Duration [U+D83D] from character 1 on: "],
  "2020-02-29T12:13\u221201:60": [
    "Not a date-time 2020-02-29T12:13\u221201:[60] from character 21 on: ", "Date 2020-02-29[T12:13\u221201:60] from character 11 on: ",
    "Time 20[2]0-02-29T12:13\u221201:60 at character 3: ", "Duration [2020]-02-29T12:13\u221201:60 at characters 1 to 4: ",
  ],
  "12:13:14\u{1f552}": [
    "Not a time 12:13:14[\u{1f552}] from character 9 on: ", "Duration 12:13:14[\u{1f552}] from character 9 on: ",
    "Date [12:1]3:14\u{1f552} at characters 1 to 4: ", "Date-time [12:1]3:14\u{1f552} at characters 1 to 4: ",
  ],
  "00:0\u{1f600}\u{1f600}\u{1f600}": [
    "Not a duration 00:0\u{1f600}\u{1f600}[\u{1f600}] from character 7 on: ", "Time 00:[0\u{1f600}]\u{1f600}\u{1f600} at characters 4 to 5: ",
    "Date [00:0]\u{1f600}\u{1f600}\u{1f600} at characters 1 to 4: ", "Date-time [00:0]\u{1f600}\u{1f600}\u{1f600} at characters 1 to 4: ",
  ],
  "\u{1f552}\u{1f552}": [
    "Not a date \u{1f552}\u{1f552}[] at the end: ", "Time [\u{1f552}]\u{1f552} at character 1: ",
    "Date-time \u{1f552}\u{1f552}[] at the end: ", "Duration [\u{1f552}]\u{1f552} at character 1: ",
  ],
};
/** Texts with options, what the page offers by which they would be read, and after a click the options and what is shown first. */
const OFFERED = [
  ["2020-02-29T12:13:14.123456789Z", {}, ["Not a date-time: six digits are read: drop the others"], "Options, overflow: truncate", "Date-time: 2020-02-29T12:13:14.123456Z"],
  ["20200229", {}, ["Not a date-time: timestamps are not read: allow them"], "Options, form: orTimestamp", "Date-time: 1970-08-22T19:10:29Z"],
  ["2020-02-29T12:13:14", { form: "strict" }, ["Not a date-time: only RFC 3339 is read: allow more"], "Options", "Date-time: 2020-02-29T12:13:14"],
  ["P1D1Y", { isoOrder: "strict" }, ["Not a duration: one order is read: allow any"], "Options", "Duration: P1Y1D"],
  ["1.0000", { form: "orTimestamp", timestampUnit: "ms" }, ["Not a date-time: three digits are read: drop the others"], "Options, form: orTimestamp, timestampUnit: ms, overflow: truncate", "Date-time: 1970-01-01T00:00:00.001000Z"],
  ["1.0", { form: "orTimestamp", timestampUnit: "us" }, ["Not a date-time: whole numbers are read: drop the others"], "Options, form: orTimestamp, timestampUnit: us, overflow: truncate", "Date-time: 1970-01-01T00:00:00.000001Z"],
  ["86400", { form: "strict" }, ["Not a date: timestamps are not read: allow them", "Date-time: timestamps are not read: allow them"], "Options, form: orTimestamp", "Date: 1970-01-02"],
  ["1", { form: "orTimestamp", timestampUnit: "s" }, [], "Options, form: orTimestamp, timestampUnit: s", "Date-time: 1970-01-01T00:00:01Z"],
  ["2021-02-29", {}, [], "Options", "Not a date: out_of_range_day"],
  ["2020-02-29 ", {}, ["Not a date: spaces and line ends around it are not read: drop them"], "Options", "Date: 2020-02-29"],
  ["\n 12:13:14Z\n", { form: "strict" }, ["Not a time: spaces and line ends around it are not read: drop them"], "Options, form: strict", "Time: 12:13:14Z"],
  ["2021-02-29 ", {}, [], "Options", "Not a date: out_of_range_day"],
  ["1582934400000000", {}, ["Not a date: timestamps of microseconds are not read: allow them", "Date-time: timestamps of microseconds are not read: allow them"], "Options, form: orTimestamp, timestampUnit: us", "Date: 2020-02-29"],
  ["2020-02-29T12:13:14Z GET /", {}, ["Not a date-time: a date-time is at its front: drop the rest"], "Options", "Date-time: 2020-02-29T12:13:14Z"],
  ["2026-11-22T12:13:14.123456789Z stdout F x", {}, ["Not a date-time: a date-time is at its front: drop the rest"], "Options", "Date-time: 2026-11-22T12:13:14.123456Z"],
  ["[2026-11-22 10:00:00] x", {}, ["Not a date-time: a date-time is within it: drop the rest"], "Options", "Date-time: 2026-11-22T10:00:00"],
  ['{"time":"2026-11-22T10:00:00.5Z","level":30}', {}, ["Not a date-time: a date-time is within it: drop the rest"], "Options", "Date-time: 2026-11-22T10:00:00.500000Z"],
  ["2020-02-29T12:13", { missingOffset: "error" }, ["Not a date-time: an offset is required: allow none"], "Options", "Date-time: 2020-02-29T12:13:00"],
  ["2026-11-22 06:10:00 +0100", {}, ["Not a date-time: zones as programs print them are not read: allow them"], "Options, loose: true", "Date-time: 2026-11-22T06:10:00+01:00"],
  ["2026-11-22T10:00:00 UTC", {}, ["Not a date-time: zones as programs print them are not read: allow them"], "Options, loose: true", "Date-time: 2026-11-22T10:00:00Z"],
  ["2026-11-22 06:10:00+00", { form: "strict" }, [], "Options, form: strict", "Not yet a date-time: invalid_char_tz_minute"],
  ["2026-11-22 06:10:00 +0100 hello", {}, ["Not a date-time: a date-time is at its front: drop the rest"], "Options, loose: true", "Date-time: 2026-11-22T06:10:00+01:00"],
];
const guessed = (text, date) => [text, {}, "Not one of the four kinds", date, "", `Date: ${date}`];
/** Texts in other forms: the titles, what may be meant, what else is said, and what is shown first after a click. */
const GUESSED = [
  ...MONTHS.flatMap((name, i) => [guessed(`7 ${name.slice(0, 3)} 2026`, `2026-${two(i + 1)}-07`), guessed(`${name.toUpperCase()} 7th, 2026`, `2026-${two(i + 1)}-07`)]),
  ...WEEKDAYS.flatMap((name) => [guessed(`${name.slice(0, 3)}, 29.02.2020`, "2020-02-29"), guessed(`${name} 29 Feb 2020`, "2020-02-29")]),
  ["29.02.2020", {}, "Not one of the four kinds", "2020-02-29", "", "Date: 2020-02-29"],
  ["22 Nov 2026", {}, "Not one of the four kinds", "2026-11-22", "", "Date: 2026-11-22"],
  ["11/22/2026 10:00", {}, "Not one of the four kinds", "2026-11-22T10:00", "", "Date-time: 2026-11-22T10:00:00"],
  ["20200229T121314Z", {}, "Not one of the four kinds", "2020-02-29T12:13:14Z", "", "Date-time: 2020-02-29T12:13:14Z"],
  ["20200229", { form: "orTimestamp" }, "Date-time", "2020-02-29", "The number is read as seconds since 1970.", "Date: 2020-02-29"],
  ["2020-02-30T12:13", {}, "Not a date-time", "", "", "Not a date-time: out_of_range_day"],
  ["November 22nd, 2026", {}, "Not one of the four kinds", "2026-11-22", "", "Date: 2026-11-22"],
  ["01/02/2020", {}, "Not one of the four kinds", "2020-02-01 or 2020-01-02", "", "Date: 2020-02-01"],
  ["2020-2-9 9:05", {}, "Not one of the four kinds", "2020-02-09T09:05", "", "Date-time: 2020-02-09T09:05:00"],
  ["Sat, 29 Feb 2020 12:13:14 GMT", {}, "Not one of the four kinds", "2020-02-29T12:13:14Z", "", "Date-time: 2020-02-29T12:13:14Z"],
  ["Sat Feb 29 2020 12:13:14 GMT+0100 (Central European Standard Time)", {}, "Not one of the four kinds", "2020-02-29T12:13:14+0100", "", "Date-time: 2020-02-29T12:13:14+01:00"],
  ["11/22/2026 12:05 AM", {}, "Not one of the four kinds", "2026-11-22T00:05", "", "Date-time: 2026-11-22T00:05:00"],
  ["11:59pm", {}, "Not one of the four kinds", "23:59", "", "Time: 23:59:00"],
  ["2020\u201302\u201329", {}, "Not one of the four kinds", "2020-02-29", "", "Date: 2020-02-29"],
  ["30.02.2020", {}, "Not one of the four kinds", "", "", "Not one of the four kinds: invalid_char_year"],
  ["1:30", {}, "Not one of the four kinds", "01:30", "", "Time: 01:30:00"],
  ["90m", {}, "Not one of the four kinds", "PT90M", "", "Duration: PT1H30M"],
  ["1h 30min", {}, "Not one of the four kinds", "PT1H30M", "", "Duration: PT1H30M"],
  ["p1d", {}, "Not one of the four kinds", "P1D", "", "Duration: P1D"],
  ["2020-02-29T12:13+01:00[Europe/Berlin]", {}, "Not one of the four kinds", "2020-02-29T12:13+01:00", "", "Date-time: 2020-02-29T12:13:00+01:00"],
  ["never", {}, "Not a date", "", "", "Not a date: too_short"],
];
/** Texts with options, and texts of the same length that the calls which the page shows for them have to refuse, but only with these options. */
const CALLED = [
  ["2020-02-29", {}, "1582934400"], ["12:13:14.123456", {}, "12:13:14.12345x"], ["2020-02-29T12:13Z", {}, "2020-02-29T12:60Z"], ["PT90M", {}, "PT90x"], ["1 day, 12:13", {}, "1 day, 12:60"],
  ...[["infer", "86400"], ["s", "86400"], ["ms", "86400000"], ["us", "86400000000"]].map(([timestampUnit, text]) => [text, { form: "orTimestamp", timestampUnit }, text.replace(/0$/, "x")]),
  ["1.5", { form: "orTimestamp", timestampUnit: "s" }, "1.x"], ["1.1234567", { form: "orTimestamp", timestampUnit: "ms", overflow: "truncate" }, "1.123456x"],
  ["12:13:14.1234567", { overflow: "truncate" }, "12:13:14.123456x"], ["2020-02-29T12:13:14.1234567Z", { overflow: "truncate" }, "2020-02-29T12:13:60.1234567Z"],
  ["1 day, 12:13:14.1234567", { overflow: "truncate" }, "1 day, 12:13:60.1234567"],
  ["12:13:14+01:00", { form: "strict" }, "12:13:14.00000"], ["2020-02-29T12:13:14Z", { form: "strict" }, "2020-02-29 12:13:14Z"],
  ["12:13:14.1234567Z", { form: "strict", overflow: "truncate" }, "12:13:14.12345678"],
  ["2026-11-22 06:10:00 +0100", { loose: "true" }, "2026-11-22 06:60:00 +0100"], ["2026-11-22 06:10:00.1234567 UTC", { loose: "true", overflow: "truncate" }, "2026-11-22 06:60:00.1234567 UTC"],
  ["P1Y1D", { isoOrder: "strict" }, "P1D1Y"], ["2020-02-29T12:13Z", { missingOffset: "utc" }, "2020-02-29T12:60Z"],
];
/** Texts of several lines with options, what is clicked, the table, what is offered, and what is copied. */
const TABLES = [
  ["2020-02-29\n2021-02-29\r\n12:13\n", {}, [], [
    "1 of 3 lines is a date", "closest", "[Dates: 1],Times: 1,Date-times: 0,Durations: 1",
    "1 | 2020-02-29 | 2020-02-29", "2 | 2021-02-29 | expected a day that the month has, from character 9 on", "3 | 12:13 | expected a date: YYYY-MM-DD, at the end",
  ], "", "line,text,value,code,start,end,expected\r\n1,2020-02-29,2020-02-29,,,,\r\n2,2021-02-29,,out_of_range_day,8,10,a day that the month has\r\n3,12:13,,too_short,5,5,a date: YYYY-MM-DD\r\n"],
  ["12:13\n2021-02-29", {}, ["Durations", "Only refused"], [
    "1 of 2 lines is a duration", "partly", "Dates: 0,Times: 1,Date-times: 0,[Durations: 1]", "2 | 2021-02-29 | expected digits of the hours, then a colon, at character 5",
  ], "", "line,text,value,code,start,end,expected\r\n2,2021-02-29,,invalid_char_hour,4,5,\"digits of the hours, then a colon\"\r\n"],
  ["29.02.2020\n\n2 days, \"x\"", {}, [], [
    "0 of 3 lines are dates", "closest", "[Dates: 0],Times: 0,Date-times: 0,Durations: 0",
    "1 | 29.02.2020 | expected four digits of the year, at characters 1 to 4. A guess of this page: 2020-02-29", "2 |  | expected a date: YYYY-MM-DD, at the end",
    "3 | 2 days, \"x\" | expected four digits of the year, at characters 1 to 4",
  ], "", "line,text,value,code,start,end,expected\r\n1,29.02.2020,,invalid_char_year,0,4,four digits of the year\r\n2,,,too_short,0,0,a date: YYYY-MM-DD\r\n3,\"2 days, \"\"x\"\"\",,invalid_char_year,0,4,four digits of the year\r\n"],
  ["2020-02-29T12:13\n2020-02-29T12:13:14.1234567Z", { missingOffset: "error" }, [], [
    "0 of 2 lines are date-times", "closest", "Dates: 0,Times: 0,[Date-times: 0],Durations: 0",
    "1 | 2020-02-29T12:13 | expected an offset: Z or +01:00, at the end", "2 | 2020-02-29T12:13:14.1234567Z | expected at most six digits of a second's fraction, at character 27",
  ], "an offset is required: allow none", "line,text,value,code,start,end,expected\r\n1,2020-02-29T12:13,,tz_required,16,16,an offset: Z or +01:00\r\n2,2020-02-29T12:13:14.1234567Z,,second_fraction_too_long,26,27,at most six digits of a second's fraction\r\n"],
  ["P999999999D\nPT1M\n", {}, [], ["All 2 lines are durations", "", "Dates: 0,Times: 0,Date-times: 0,[Durations: 2]", "1 | P999999999D | P2739726Y9D", "2 | PT1M | PT1M"], "",
    "line,text,value,code,start,end,expected\r\n1,P999999999D,P2739726Y9D,,,,\r\n2,PT1M,PT1M,,,,\r\n"],
  ["2020-02-29T12:13:14Z GET /\n2020-02-29 12:13 x\nGET /", {}, [], [
    "2 of 3 lines begin with a date-time", "partly", "Dates: 0,Times: 0,Date-times: 0,Durations: 0,[Date-times at the front: 2]",
    "1 | 2020-02-29T12:13:14Z GET / | 2020-02-29T12:13:14Z", "2 | 2020-02-29 12:13 x | 2020-02-29T12:13:00", "3 | GET / | expected a date-time: YYYY-MM-DDTHH:MM or YYYY-MM-DDTHH:MM:SS, at the end",
  ], "", "line,text,value,code,start,end,expected\r\n1,2020-02-29T12:13:14Z GET /,2020-02-29T12:13:14Z,,,,\r\n2,2020-02-29 12:13 x,2020-02-29T12:13:00,,,,\r\n3,GET /,,too_short,5,5,a date-time: YYYY-MM-DDTHH:MM or YYYY-MM-DDTHH:MM:SS\r\n"],
  ["2026-11-22 06:10:00 +0100 hello\n2026-11-22 06:10:00+01\n2026-11-22 06:10:00 +0130", {}, [], [
    "All 3 lines begin with a date-time", "", "Dates: 0,Times: 0,Date-times: 0,Durations: 0,[Date-times at the front: 3]",
    "1 | 2026-11-22 06:10:00 +0100 hello | 2026-11-22T06:10:00+01:00", "2 | 2026-11-22 06:10:00+01 | 2026-11-22T06:10:00+01:00", "3 | 2026-11-22 06:10:00 +0130 | 2026-11-22T06:10:00+01:30",
  ], "", "line,text,value,code,start,end,expected\r\n1,2026-11-22 06:10:00 +0100 hello,2026-11-22T06:10:00+01:00,,,,\r\n2,2026-11-22 06:10:00+01,2026-11-22T06:10:00+01:00,,,,\r\n3,2026-11-22 06:10:00 +0130,2026-11-22T06:10:00+01:30,,,,\r\n"],
  ["2020-02-29 rent\n2020-03-01 bread", {}, [], [
    "All 2 lines begin with a date", "", "Dates: 0,Times: 0,Date-times: 0,Durations: 0,[Dates at the front: 2]", "1 | 2020-02-29 rent | 2020-02-29", "2 | 2020-03-01 bread | 2020-03-01",
  ], "", "line,text,value,code,start,end,expected\r\n1,2020-02-29 rent,2020-02-29,,,,\r\n2,2020-03-01 bread,2020-03-01,,,,\r\n"],
];
const BEGUN = [50, "Reading 200,000 lines"];
const READ = [["199,800 of 200,000 lines begin with a date-time", "partly", 50], "Date-times at the front: 199,800"];
const OF_LOG = [
  ...BEGUN, "Dates", ...READ, ...BEGUN, "false", "", ...BEGUN, "Dates", ...READ, ...BEGUN, "false", "",
  "199,800 of 200,001 lines begin with a date-time", "Duration: PT1M",
];
const OF_MANY = [
  ...[50, 1050, 10, 50].map((rows) => ["9,990 of 10,000 lines are date-times", "partly", rows]),
  [10002, "10000,2020-02-29T12:13:59.5+01:00,2020-02-29T12:13:59.500000+01:00,,,,"],
];
const STEPS = [
  "Not a date: out_of_range_day, Date-time: out_of_range_day, Duration: invalid_char_hour, Time: invalid_char_time_sep",
  "#fault-out_of_range_day",
  true,
  "2021-02-29",
  "Duration: PT1H30M, Date: too_short, Time: invalid_char_hour, Date-time: too_short",
  false, "Why is it not a date, a time or a date-time?",
  "Date-time: 2020-02-29T00:00:00.500000Z, Duration: invalid_char_hour, Date: invalid_char_date_sep, Time: invalid_char_time_sep",
  "Options, form: orTimestamp, timestampUnit: s",
  false,
  "Duration: PT12H13M14S, Time: tz_required, Date: too_short, Date-time: too_short",
  ...Object.values(SAID),
  "A year counts as 365 days, a month as 30.", "", "", "",
  "Saturday, 29 February 2020, 12:13:14.5, 1:30 east of UTC: 10:43:14.5 UTC",
  "date Saturday, 29 February 2020|time 12:13:14.5|offset 1:30 east of UTC|date 2020-02-29|time 12:13:14.5|offset +01:30|date 2020-02-29|time 12:13:14.500000|offset +01:30",
  ["", 0, false, "No link: browsers open none over 0.6 MB", 600000, true, "Link copied", 0, "", "#text=2020-02-29T12%3A13%3A14.5%2B01%3A30", true, "Link copied"],
  "Date-time: Saturday, 29 February 2020, 12:13:14.5, 1:30 east of UTC: 10:43:14.5 UTC.",
  2, "", "Copy link",
  "Not a date: expected a day that the month has, from character 9 on.",
  "Type a text, or choose an example.",
  "",
  "Not a date: invalid_char_date_sep, Date-time: invalid_char_date_sep, Duration: invalid_char_hour, Time: invalid_char_time_sep",
  "2020U+000D-02-29",
  true, true, false,
  "out_of_range_day", true, false, "2021-02-29",
];

/** The rows, the examples and the drawn texts. */
async function readAll() {
  Object.assign(globalThis, await import("./shim.mjs"));
  await import("./rows.mjs");
  await import("./readings.mjs");
  if (typeof Temporal !== "undefined") await import("./examples.js");
  const { readDrawn } = await import("./drawn.mjs");
  /** What a page shows in a frame. */
  const shownIn = (src, setUp) =>
    new Promise((resolve) => {
      const frame = Object.assign(document.createElement("iframe"), { onload: () => resolve(frame.contentDocument.querySelector("main").innerText.trim()) });
      setUp(frame);
      frame.src = src;
      document.body.append(frame);
    });
  const without = [await shownIn("without.html", () => {}), await shownIn("page.html", (it) => it.setAttribute("sandbox", "allow-same-origin"))];
  // With its policy the page answers, and can ask for nothing, whatever its scripts do.
  const policy = await new Promise((resolve) => {
    const frame = Object.assign(document.createElement("iframe"), { src: "page.html" });
    const said = () => frame.contentDocument.querySelector(".said")?.textContent;
    frame.onload = () => frame.contentWindow.fetch("asked").then(() => "asked", () => "refused").then((it) => resolve([said(), it]));
    document.body.append(frame);
  });
  document.body.insertAdjacentHTML("beforeend", "<input required><output></output><input><output></output>");
  await import("./form.js");
  const saidOf = (field, text) => {
    field.value = text;
    field.dispatchEvent(new Event("input"));
    return [field.nextElementSibling.innerHTML, field.validationMessage];
  };
  const form = ["2021-02-29", "2020-2-9", "2020-02-29", ""].map((text) => Array.from(document.querySelectorAll("input"), (it) => saidOf(it, text)));
  const bare = await import("./speedate.bare.js");
  bare.init(await WebAssembly.compileStreaming(fetch("speedate.wasm")));
  report({ width: 0, temporal: typeof Temporal, drawn: readDrawn(), without, policy, form, handedOver: bare.format(bare.parseDuration("PT90M")) });
}
/** What the page asks of a server that it was loaded from, while a visitor types: nothing more. */
async function askNothing() {
  const form = document.forms[0];
  const before = await (await fetch("asked")).json();
  for (const it of ["2020-02-29", "secret", "secret\nPT1M", "P1D\n"]) {
    form.text.value = it;
    form.text.dispatchEvent(new Event("input", { bubbles: true }));
    await new Promise((resolve) => setTimeout(resolve, 400));
  }
  document.querySelector("nav a").click();
  document.querySelector("main a, #grammar a").click();
  await new Promise((resolve) => setTimeout(resolve, 1000));
  report({ width: 0, address: location.hash, asked: (await (await fetch("asked")).json()).slice(before.length), before, icon: document.querySelector("link[rel=icon]").href });
}
/** What the page says without WebAssembly, and without scripts. */
const WITHOUT = [
  "Nothing can be parsed here: speedate needs WebAssembly with BigInt and bulk memory (Node 20, Chrome 115, Firefox 90, Safari 15) that a policy allows: a content security policy has to have 'wasm-unsafe-eval'.",
  "This page needs JavaScript, which is switched off here.",
];

/** What the document's form says of each text, at a field that is required and at one that is not. */
const FORM = [
  ["2021-02-<mark>29</mark>: expected a day that the month has", "expected a day that the month has"],
  ["2020-2-9<mark>&nbsp;</mark>: expected a date: YYYY-MM-DD", "expected a date: YYYY-MM-DD"], ["", ""], ["<mark>&nbsp;</mark>: expected a date: YYYY-MM-DD", "expected a date: YYYY-MM-DD"],
].map((it, i, all) => [it, i === all.length - 1 ? ["", ""] : it]);

// ---- The pages, in the engine ----

const files = {
  ...Object.fromEntries(["rows.mjs", "readings.mjs", "helpers.mjs", "shim.mjs", "drawn.mjs"].map((it) => [it, readFileSync(it)])),
  "speedate.js": source("out/js/speedate.js"), "columns.js": source("out/js/columns.js"), "rows.txt": source("c/tests/rows.txt"), "readings.txt": source("tests/rows.txt"),
  "examples.js": scriptOf(source("docs/JAVASCRIPT.md"), "ts", "Temporal"), "form.js": scriptOf(source("docs/JAVASCRIPT.md"), "ts", "createElement"),
  "speedate.bare.js": source("out/js/speedate.bare.js"), "speedate.wasm": readFileSync(`${root}/out/js/speedate.wasm`),
  "page.html": source("out/try.html"), "without.html": source("out/try.html").replace("<title>", "<script>delete globalThis.WebAssembly</script>$&"),
};
const server = await serve(files);
const { port, next } = server;
const reporting = `<script>
  const report = (it) => fetch("http://127.0.0.1:${port}/", { method: "POST", mode: "no-cors", body: JSON.stringify(it) })
    .then(() => parent.postMessage("next", "*"));
  onerror = (it) => report({ error: String(it) });
  onunhandledrejection = ({ reason }) => report({ error: String(reason) });
</script>`;
/** The page without its policy, by which it could report nothing. */
const reportable = source("out/try.html").replace(/<meta http-equiv="content-security-policy"[^>]*>/, "");
files["served.html"] = `${reportable}${reporting}<script type="module">(${askNothing})()</script>`;
files["all.html"] = `<!DOCTYPE html>${reporting}
  <script type="importmap">{ "imports": { "speedate": "./speedate.js", "speedate/columns": "./columns.js", "node:assert/strict": "./shim.mjs", "node:fs": "./shim.mjs" } }</script>
  <script type="module">(${readAll})()</script>`;
writeFileSync("try.html", `${reportable}${reporting}<script type="module">(${visit})(${JSON.stringify({ SAID: Object.keys(SAID), MARKED: Object.keys(MARKED), OFFERED, GUESSED, TABLES, CALLED, TITLES: Object.keys(TITLES) })})</script>`);
writeFileSync("frames.html", `<!DOCTYPE html><body><script>
  const frames = [[320, "try.html#text=2021-02-29"], [360, "try.html#text=2021-02-29"], [1280, "try.html#text=2021-02-29"], [100, "http://127.0.0.1:${port}/all.html"], [100, "http://127.0.0.1:${port}/served.html#text=secret"]];
  const add = ([width, src]) => document.body.append(Object.assign(document.createElement("iframe"), { width, src, height: 800 }));
  onmessage = () => frames.length && add(frames.shift());
  onmessage();
</script>`);
await open(engine, pathToFileURL("frames.html").href);
const reported = async (seconds, what) => {
  const it = await next(seconds, `${engine}, ${what}`);
  assert.ok(!it.error, `${engine}, ${what}: ${it.error}`);
  return it;
};
const visits = [await reported(120, "the page, narrowest"), await reported(120, "the page, narrow"), await reported(120, "the page, wide")];
const all = await reported(240, "the rows and the drawn texts");
const served = await reported(60, "the page, from a server");
assert.deepEqual(served.asked, ["/asked"], "a visitor who types asks for nothing");
assert.match(served.address, /^#(?!text=)/);
assert.equal(served.icon, "data:,", "an icon that is asked for nowhere");
for (const { url, referer } of server.asked)
  assert.ok(!/secret|favicon/.test(url) && !/secret/.test(referer ?? ""), `${url} from ${referer}`);
assert.deepEqual(all.drawn, { ...readDrawn(), wrong: [] });
assert.deepEqual(all.without, WITHOUT);
assert.deepEqual(all.policy, ["Saturday, 29 February 2020", "refused"]);
assert.deepEqual(all.form, FORM);
assert.equal(all.handedOver, "PT1H30M");
for (const [i, width] of [320, 360, 1280].entries()) {
  const { calls, least, leastOfMany, times, ...others } = visits[i];
  assert.deepEqual(others, { width, steps: STEPS, marks: Object.values(MARKED), titles: Object.values(TITLES), offers: OFFERED, guesses: GUESSED, tables: TABLES, ofMany: OF_MANY, ofLog: OF_LOG, wrong: [] });
  assert.ok(least < 16, `what is typed is shown after ${least} milliseconds`);
  assert.ok(leastOfMany < 100, `10,000 lines take ${leastOfMany} milliseconds`);
  assert.ok(times.first < 200 && times.gap < 200, `of 200,000 lines the first are shown after ${times.first} milliseconds, and the page does nothing else for ${times.gap}`);
}

// ---- Each link of the page leads to a place on it, also where the page is alone ----

const page = source("out/try.html");
for (const code of new Set(source("out/js/speedate.d.ts").match(/^export type ErrorCode = (.*);$/m)[1].match(/\w+/g)))
  assert.ok(page.includes(`id="fault-${code}"`) || /^(invalid_type|number_too_large)$/.test(code), code);
const shown = page.slice(page.indexOf("<footer>")).replace(/<(script|code)[^]*?<\/\1>/g, "");
assert.ok(!/[`*]|\]\(|^<p>([-|>]| {4}|\d+\.)/m.test(shown), "the grammar has all of its Markdown as HTML");
for (const [, to, place] of page.replace(/<script[^]*?<\/script>/g, "").matchAll(/href="(?!https:|data:)([^"#]*)#?([^"]*)"/g))
  assert.ok(to === "" && (place.includes("=") || page.includes(`id="${place}"`)), `${to}#${place}`);

// ---- The calls that the page shows: those of JavaScript, Python and C are made, the others have names that are there ----

for (const it of visits) assert.deepEqual(visits[0].calls, it.calls);
/** Where a package has no such option, a comment says so. */
const calls = visits[0].calls.filter(([, , code]) => !/^(\/\/|#) The package/.test(code));
assert.equal(visits[0].calls.length - calls.length, 5);
/** The calls in a language, each with what it has to give: the text of the value, or nothing for another text in the place of its own. */
const of = (language) =>
  calls.filter(([it]) => it === language).flatMap(([, value, code, text, other]) => (other === undefined ? [[code, value]] : [[code, value], [code.replace(text, other), ""]]));
assert.ok(["Rust", "Python", "C", "JavaScript"].every((it) => of(it).length > 2 * CALLED.length));
const answersOf = (language, answers) => assert.deepEqual(of(language).map(([code], i) => [code, answers[i]]), of(language), language);
const inJavaScript = (code) => {
  try {
    return speedate.format(new Function(...Object.keys(speedate), `return ${code}`)(...Object.values(speedate)));
  } catch (error) {
    assert.ok(error instanceof speedate.SpeedateError, code);
    return "";
  }
};
answersOf("JavaScript", of("JavaScript").map(([code]) => inJavaScript(code)));
const run = (command, args, input) => {
  const { status, signal, stdout, stderr } = spawnSync(command, args, { encoding: "utf8", input });
  assert.equal(signal ?? status, 0, stderr);
  return stdout.split("\n");
};
if (library) {
  const print = { Date: "date", Time: "time", DateTime: "datetime", Duration: "duration" };
  const functions = of("C").map(([code], i) => {
    const [, kind] = /^Speedate(\w+) value;$/m.exec(code);
    const digits = kind.endsWith("Time") ? "-1, " : "";
    return `static void call${i}(void) {\n${code}\nchar text[64] = "";\nsize_t length;\nif (code == 0 && speedate_${print[kind]}_to_text(value, ${digits}text, sizeof text, &length) != 0) exit(1);\nputs(text);\n}\n`;
  });
  const main = `int main(void) {\n${functions.map((_, i) => `call${i}();`).join("\n")}\nreturn 0;\n}\n`;
  writeFileSync("calls.c", `#include <stdio.h>\n#include <stdlib.h>\n#include "${root}/c/speedate.h"\n${functions.join("")}${main}`);
  run("cc", ["-Wall", "-Wextra", "-Werror", "calls.c", library, "-o", "calls"]);
  answersOf("C", run("./calls", []));
}
if (folder) {
  const script = "import json, sys\nsys.path.insert(0, sys.argv[1])\nimport speedate\nfor code in json.load(sys.stdin):\n    try:\n        print(speedate.text(eval(code)))\n    except ValueError:\n        print()\n";
  answersOf("Python", run("python3", ["-c", script, folder], JSON.stringify(of("Python").map(([code]) => code))));
}
const inRust = readdirSync(`${root}/rust/src`).map((it) => source(`rust/src/${it}`)).join("");
for (const [code] of of("Rust").filter(([it]) => !it.startsWith("//")))
  for (const [word] of code.replace(/"[^"]*"|\/\/.*|^let \w+|&?\bconfig\b/gm, "").matchAll(/[A-Za-z]\w+/g)) assert.match(inRust, new RegExp(`\\b${word}\\b`), code);
console.log(`${engine}: the page, the rows and the drawn texts${all.temporal === "undefined" ? "" : ", these beside Temporal too"}`);
process.exit();
