// Opens pages in an engine: chromium, firefox-esr, or the path of WebKit's MiniBrowser, which WebKitWebDriver opens. What is
// started here ends with this program, by a signal too, and nothing is waited for without a limit.
import assert from "node:assert/strict";
import { spawn } from "node:child_process";
import { mkdtempSync, rmSync } from "node:fs";
import { createServer } from "node:http";
import { tmpdir } from "node:os";
import { join } from "node:path";
import { text } from "node:stream/consumers";
import { setTimeout as sleep } from "node:timers/promises";

for (const [signal, status] of [["SIGHUP", 129], ["SIGINT", 130], ["SIGTERM", 143]]) process.on(signal, () => process.exit(status));

/** What comes of a promise, which has this many seconds. */
export function within(seconds, what, promise) {
  const late = sleep(1000 * seconds, undefined, { ref: false }).then(() => assert.fail(`${what}: not within ${seconds} seconds`));
  return Promise.race([promise, late]);
}

/** A server on the loopback that gives these files by their names, and at `asked` the addresses that it was asked for; the
 * requests themselves; and `next`, the next thing that a page has posted to it: also one that came before it was asked for.
 * Its pages are isolated, so that their clocks have microseconds. */
export async function serve(files) {
  const posted = [];
  const asked = [];
  let wake;
  const server = createServer(async (request, response) => {
    if (request.method === "POST") posted.push(JSON.parse(await text(request)));
    wake?.();
    asked.push({ url: request.url, referer: request.headers.referer });
    const name = request.url.slice(1).replace(/\?.*/, "");
    const type = name.endsWith("wasm") ? "application/wasm" : `text/${name.endsWith("html") ? "html" : "javascript"};charset=utf-8`;
    response.setHeader("content-type", type);
    response.setHeader("cross-origin-opener-policy", "same-origin");
    response.setHeader("cross-origin-embedder-policy", "require-corp");
    response.end(name === "asked" ? JSON.stringify(asked.map((it) => it.url)) : files[name]);
  });
  await new Promise((resolve) => server.listen(0, "127.0.0.1", resolve));
  const arrival = async () => {
    while (posted.length === 0) await new Promise((resolve) => (wake = resolve));
    return posted.shift();
  };
  return { port: server.address().port, asked, next: (seconds, what) => within(seconds, what, arrival()) };
}

/** Starts a program in a group of its own, which ends with this program. */
function start(command, args, options = {}) {
  const child = spawn(command, args, { detached: true, stdio: "ignore", ...options });
  child.on("error", (error) => assert.fail(`${command}: ${error.message}`));
  process.on("exit", () => {
    try {
      process.kill(-child.pid);
    } catch {
      // It has ended before.
    }
  });
  return child;
}

/** A port that is free now. */
async function freePort() {
  const server = createServer();
  await new Promise((resolve) => server.listen(0, "127.0.0.1", resolve));
  const { port } = server.address();
  await new Promise((resolve) => server.close(resolve));
  return port;
}

/** A session of WebKitWebDriver on a display of its own: `ask` gives what the driver answers, unless it refuses. */
async function drive(browser) {
  const screen = start("Xvfb", ["-displayfd", "3", "-nolisten", "tcp"], { stdio: ["ignore", "ignore", "ignore", "pipe"] });
  const display = await within(60, "the display", new Promise((resolve) => screen.stdio[3].once("data", (it) => resolve(String(it).trim()))));
  const port = await freePort();
  // As root, WebKit wants no sandbox.
  const env = { ...process.env, DISPLAY: `:${display}`, WEBKIT_DISABLE_SANDBOX_THIS_IS_DANGEROUS: "1" };
  start("WebKitWebDriver", [`--port=${port}`], { env });
  const ask = async (path, body) => {
    const response = await fetch(`http://127.0.0.1:${port}${path}`, body && { method: "POST", body: JSON.stringify(body) });
    const { value } = await response.json();
    assert.ok(response.ok, `${path}: ${JSON.stringify(value)}`);
    return value;
  };
  const isReady = async () => {
    while (!(await ask("/status").catch(() => false))) await sleep(100);
  };
  await within(60, "WebKitWebDriver", isReady());
  const alwaysMatch = { "webkitgtk:browserOptions": { binary: browser, args: ["--automation"] } };
  const { sessionId } = await within(60, "the session", ask("/session", { capabilities: { alwaysMatch } }));
  return (path, body) => ask(`/session/${sessionId}${path}`, body);
}

/** Opens a page in an engine, with a profile that goes with this program. */
export async function open(engine, url) {
  const profile = mkdtempSync(join(tmpdir(), "profile"));
  if (engine === "chromium") start(engine, ["--headless", "--no-sandbox", "--disable-gpu", `--user-data-dir=${profile}`, url]);
  else if (engine === "firefox-esr") start(engine, ["--headless", "--no-remote", "--profile", profile, url]);
  else await within(120, url, (await drive(engine))("/url", { url }));
  process.on("exit", () => {
    try {
      rmSync(profile, { recursive: true, force: true, maxRetries: 5 });
    } catch {
      // The engine, which ends now, has still written there.
    }
  });
}
