// SPDX-License-Identifier: MIT
// Tries the demo in a headless Chromium, and the screen of a recording where screen.wasm is there:
// `node --experimental-websocket tests/demo.js [PICTURE]`, which makes the picture too.
import assert from "node:assert/strict";
import { existsSync, writeFileSync } from "node:fs";
import { fileURLToPath } from "node:url";
import { browser, serve } from "./browser.js";

const ATTACK = Buffer.from(
  "build started\n\x1b]0;rm -rf ~\x07\x1b]52;c;cm0gLXJmIH4=\x07\x1b[2J\x1b[31;1merror:\x1b[0m "
    + "<script>document.title='ran'</script> <img src=x onerror=alert(2)>\n"
    + "\x1b]8;;javascript:alert(3)\x1b\\click\x1b]8;;\x1b\\ "
    + '\x1b]8;;https://example.org/?a=1&b="2\x1b\\a link\x1b]8;;\x1b\\ \x1b[c'
    + "\x1b[38;5;208morange\x1b[38;2;0;128;255m blue\x1b[0m\n"
    + "\x1b[32mok\x1b[0m \x1b[4munderlined\x1b[0m \x1b[7mreverse\x1b[0m\n\xff caf\xc3\xa9\n",
  "latin1",
);
const HEAD = '{"version": 2, "width": 80, "height": 24}';
const CAST = Buffer.from(`${HEAD}\n[0.1, "o", "\\u001b[1mbold"]\n[0.2, "i", "x"]\n`);
// A screen that is written again and again, by version 3, whose times are pauses.
const PLAYED = Buffer.from(`{"version": 3, "term": {"cols": 10, "rows": 3}}
[0.1, "o", "50%"]
[0.1, "o", "\\rdone\\u001b]0;t\\u0007"]
[0.1, "i", "x"]
[0.1, "o", "\\u001b[2;3H\\u001b[1;38;5;1mred<b>\\u001b[m\\u001b]8;;https://a.org\\u0007a\\u001b]8;;\\u0007"]
`);
// A build that draws a bar again and again, and asks for more than it shows.
const BUILD = Buffer.from(`{"version": 2, "width": 60, "height": 7}
[0.2, "o", "\\u001b]0;make\\u0007Building\\r\\n[          ]   0%"]
[0.9, "o", "\\r[####      ]  40%"]
[2.1, "o", "\\r[##########] 100%\\r\\n\\u001b]52;c;cm0gLXJmIH4=\\u0007"]
[2.4, "o", "\\u001b[31;1merror:\\u001b[0m <script>alert(1)</script> \\u001b[c"]
[2.6, "o", "\\r\\n\\u001b[32mok\\u001b[0m \\u001b[38;5;208morange\\u001b[38;2;0;128;255m blue\\u001b[0m"]
[2.8, "o", " see \\u001b]8;;https://example.org\\u0007the log\\u001b]8;;\\u0007\\r\\n"]
[3.1, "o", "\\u001b[6;1H\\u001b[7m in 2.9 s \\u001b[m caf\\u00e9"]
`);

const top = fileURLToPath(new URL("..", import.meta.url));
const server = await serve(top);
const it = await browser();
const hasScreen = existsSync(new URL("../screen.wasm", import.meta.url));
let drops = 0;

/* Drops a file on the page, and waits until it is shown. */
async function drop(name, bytes) {
  const text = JSON.stringify(Buffer.from(bytes).toString("base64"));
  await it.run(`{
    const bytes = Uint8Array.from(atob(${text}), (c) => c.charCodeAt(0));
    const data = new DataTransfer();
    data.items.add(new File([bytes], ${JSON.stringify(name)}));
    dispatchEvent(new DragEvent("drop", { dataTransfer: data, bubbles: true, cancelable: true }));
  }`);
  await it.until(`document.documentElement.dataset.done === "${++drops}"`);
  return it.run(`({
    tags: [...new Set([...document.querySelectorAll("#log *")].map((e) => e.tagName))].sort(),
    links: [...document.querySelectorAll("#log a")].map((e) => e.href),
    text: document.getElementById("log").textContent,
    color: getComputedStyle(document.querySelector("#log .es-fg-red") ?? document.body).color,
    lines: document.querySelectorAll("#log .line").length,
    title: document.title,
    state: document.getElementById("state").textContent,
    rows: [...document.querySelectorAll("#account tbody tr")]
      .map((e) => [...e.cells].map((c) => c.textContent)),
  })`);
}

/* The screen as it stands. */
const screen = () => it.run(`({
  isHidden: document.getElementById("player").hidden,
  text: document.getElementById("screen").textContent,
  tags: [...new Set([...document.querySelectorAll("#screen *")].map((e) => e.tagName))].sort(),
  bold: document.querySelector("#screen .es-bold")?.textContent,
  time: document.getElementById("time").textContent,
})`);

/* Drops a recording, whose end is shown; goes back to a time, and plays it from there on. */
async function tryScreen() {
  await drop("played.cast", PLAYED);
  const end = "done      \n  red<b>a \n          \n";
  const found = await screen();
  assert.deepEqual([found.isHidden, found.text, found.time], [false, end, "0.4 of 0.4 s"]);
  assert.deepEqual(found.tags, ["A", "SPAN"]);
  assert.equal(found.bold, "red<b>");
  await it.run(`{
    document.getElementById("at").value = "0.15";
    document.getElementById("at").dispatchEvent(new Event("input"));
  }`);
  assert.equal((await screen()).text, "50%       \n          \n          \n");
  await it.run('document.getElementById("play").click()');
  await it.until(`document.getElementById("screen").textContent === ${JSON.stringify(end)}`);
  await it.until('document.getElementById("play").textContent === "Play"');
  await drop("attack.log", ATTACK);
  assert.equal((await screen()).isHidden, true);
}

try {
  await it.open(`http://127.0.0.1:${server.port}/demo/index.html`);
  await it.until('document.documentElement.dataset.ready === "true"');
  const found = await drop("attack.log", ATTACK);
  assert.deepEqual(found.tags, ["A", "SPAN"]);
  assert.equal(found.links.length, 1);
  assert.ok(found.links[0].startsWith("https://example.org/"));
  const script = "<script>document.title='ran'</script> <img src=x onerror=alert(2)>";
  assert.ok(found.text.includes(script));
  assert.ok(found.text.includes("\ufffd caf\u00e9"));
  assert.equal(found.title, "A log, safe to look at");
  assert.equal(found.lines, 5);
  const row = (what) => found.rows.find((cells) => cells[0].startsWith(what));
  assert.deepEqual(row("OSC 52: set the clipboard")?.slice(1), ["1", "left out", "2"]);
  assert.deepEqual(row("ED: ")?.slice(1), ["1", "left out", "2"]);
  assert.ok(row("OSC 8: begin a link that no page follows"));
  const recording = await drop("a.cast", CAST);
  assert.equal(recording.text, "bold");
  assert.match(recording.state, /a recording of 8 bytes/);
  if (hasScreen) await tryScreen();
  const lines = "\x1b[90m1\x1b[0m line of a log\n".repeat(40_000);
  const long = await drop("long.log", Buffer.from(lines));
  assert.equal(long.lines, 40_000);
  // (a browser notes that a file is not there)
  assert.deepEqual(it.said.filter((text) => hasScreen || !text.includes("screen.wasm")), []);
  const [picture] = process.argv.slice(2);
  if (picture) {
    await drop(...(hasScreen ? ["build.cast", BUILD] : ["attack.log", ATTACK]));
    const { cssContentSize: { width, height } } = await it.call("Page.getLayoutMetrics");
    const clip = { x: 0, y: 0, width, height, scale: 1 };
    const how = { format: "png", captureBeyondViewport: true, clip };
    const { data } = await it.call("Page.captureScreenshot", how);
    writeFileSync(picture, Buffer.from(data, "base64"));
  }
} finally {
  await it.close();
  server.close();
}
