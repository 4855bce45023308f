// SPDX-License-Identifier: MIT
import { HtmlWriter, Parser, strip, toHtml } from "../index.js";
import { Account } from "./account.js";
import { Player } from "./player.js";
import { streamOf } from "./recording.js";
import { callsAt } from "./screen.js";

const CHUNK = 262_144;
// The beginning of a page that is saved: nothing in it is loaded or run.
const HEAD = `<!DOCTYPE html>
<meta charset="utf-8">
<meta http-equiv="Content-Security-Policy"
 content="default-src 'none'; style-src 'unsafe-inline'; base-uri 'none'; form-action 'none'">
<pre>
`;
const at = (id) => document.getElementById(id);
const say = (text) => {
  at("state").textContent = text;
};
const shown = { bytes: new Uint8Array(), html: "" };
let run = 0;

// The one way by which text becomes tags on this page: what HtmlWriter wrote.
const rules = { createHTML: (html) => html };
const policy = globalThis.trustedTypes?.createPolicy("escape-stream", rules);
const trusted = (html) => (policy ? policy.createHTML(html) : html);
// A page without the module of the screen shows a recording as the log of what it wrote.
const calls = await callsAt(new URL("../screen.wasm", import.meta.url));
const player = calls && new Player(calls, trusted);

/* Appends lines of HTML, each an element of its own. */
class Lines {
  #log = at("log");
  #rest = "";
  #count = 0;

  constructor() {
    this.#log.replaceChildren();
  }

  put(html) {
    const lines = (this.#rest + html).split("\n");
    this.#rest = lines.pop();
    const all = document.createDocumentFragment();
    for (const line of lines) all.append(this.#line(`${line}\n`));
    this.#log.append(all);
  }

  end() {
    if (this.#rest !== "") this.#log.append(this.#line(this.#rest));
    this.#rest = "";
  }

  #line(html) {
    const line = document.createElement("span");
    line.className = "line";
    line.id = `L${++this.#count}`;
    line.innerHTML = trusted(html);
    return line;
  }
}

function links(lines) {
  return lines.map((line) => {
    const link = document.createElement("a");
    link.href = `#L${line}`;
    link.textContent = line;
    return link;
  });
}

function listRows(rows) {
  const body = at("account").tBodies[0];
  body.replaceChildren();
  for (const { name, phrase, count, asks, isShown, lines } of rows) {
    const row = body.insertRow();
    if (asks) row.className = "asks";
    row.insertCell().textContent = name === "" ? phrase : `${name}: ${phrase}`;
    row.insertCell().textContent = count.toLocaleString("en");
    row.insertCell().textContent = isShown ? "shown" : "left out";
    row.insertCell().append(...links(lines));
  }
  at("account").hidden = rows.length === 0;
}

/* Whether the page goes on: another stream may have come. */
async function pause(mine) {
  await new Promise((go) => setTimeout(go));
  return mine === run;
}

/* Shows a stream chunk by chunk. Returns its account, or undefined where another stream came. */
async function showChunks(bytes, name, mine) {
  const writer = new HtmlWriter({ perLine: true });
  const parser = new Parser();
  const account = new Account();
  const lines = new Lines();
  const html = [];
  const put = (text) => {
    html.push(text);
    lines.put(text);
  };
  try {
    for (let from = 0; from < bytes.length; from += CHUNK) {
      const chunk = bytes.subarray(from, from + CHUNK);
      put(writer.feed(chunk));
      account.take(parser.actions(chunk));
      say(`${name}: ${Math.floor((100 * from) / bytes.length)} per cent`);
      if (!(await pause(mine))) return undefined;
    }
    put(writer.finish());
    lines.end();
  } finally {
    writer.dispose();
    parser.dispose();
  }
  Object.assign(shown, { bytes, html: html.join("") });
  return account;
}

async function show(file, name) {
  const mine = ++run;
  const { bytes, recording } = streamOf(file);
  player?.open(undefined);
  const account = await showChunks(bytes, name, mine);
  if (account === undefined) return;
  listRows(account.rows());
  player?.open(recording);
  at("plain").checked = false;
  const what = recording ? "a recording" : "a log";
  const [size, count] = [bytes.length, account.line].map((it) => it.toLocaleString("en"));
  say(`${name}: ${what} of ${size} bytes in ${count} lines`);
  document.documentElement.dataset.done = String(mine);
}

const guard = (work) => work.catch((error) => say(String(error)));
const open = async (file) => show(new Uint8Array(await file.arrayBuffer()), file.name);

at("file").addEventListener("change", (event) => {
  if (event.target.files[0]) guard(open(event.target.files[0]));
});
at("paste").addEventListener("input", (event) => {
  guard(show(new TextEncoder().encode(event.target.value), "what was pasted"));
});
addEventListener("dragover", (event) => {
  event.preventDefault();
  document.body.classList.add("over");
});
addEventListener("dragleave", () => document.body.classList.remove("over"));
addEventListener("drop", (event) => {
  event.preventDefault();
  document.body.classList.remove("over");
  const [file] = event.dataTransfer.files;
  if (file) guard(open(file));
});
at("theme").addEventListener("change", (event) => {
  document.documentElement.style.colorScheme = event.target.value;
});
at("plain").addEventListener("change", (event) => {
  const lines = new Lines();
  if (event.target.checked) {
    at("log").textContent = new TextDecoder().decode(strip(shown.bytes));
    return;
  }
  lines.put(shown.html);
  lines.end();
});
at("save").addEventListener("click", () => {
  const link = document.createElement("a");
  const page = [HEAD, toHtml(shown.bytes, { inline: true }), "</pre>\n"];
  link.href = URL.createObjectURL(new Blob(page, { type: "text/html" }));
  link.download = "log.html";
  link.click();
});
document.documentElement.dataset.ready = "true";
