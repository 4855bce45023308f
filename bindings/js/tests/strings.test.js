// SPDX-License-Identifier: MIT
// Control strings by name, beside docs/FUNCTIONS.md.
import assert from "node:assert/strict";
import { readFileSync } from "node:fs";
import { test } from "node:test";
import { controlStringOf, controlStrings, events } from "../index.js";
import { TOP } from "./rows.js";

/** The cells of each row of the page whose sequence begins with this word. */
function pageRows(opener) {
  const page = readFileSync(new URL("docs/FUNCTIONS.md", TOP), "utf8");
  const start = `| \`${opener} `;
  const lines = page.split("\n").filter((it) => it.startsWith(start));
  return lines.map((line) => {
    const [shape, name, phrase] = line.slice(start.length).split(" | ");
    const words = shape.replaceAll("\\|", "|").replaceAll(" ..", "").replaceAll("`", "");
    return { words, row: { name, phrase: phrase.split("; alone:")[0].replaceAll("\\|", "|") } };
  });
}

function check(stream, row, data = "") {
  const [event] = events(stream);
  assert.deepEqual(controlStringOf(event, Buffer.from(data)), row, JSON.stringify(stream));
}

test("each string of the page is found under its name", () => {
  let count = 0;
  for (const [opener, start] of [["OSC", "\x1b]"], ["APC", "\x1b_"]]) {
    for (const { words, row } of pageRows(opener)) {
      const text = start + words.replaceAll(" ", "");
      check(`${text}\x1b\\`, row);
      check(`${text};x\x1b\\`, row);
      count++;
    }
  }
  for (const { words, row } of pageRows("DCS")) {
    const [header, data] = [[], []];
    for (const it of words.split(" ")) (it.length > 1 && !/^\d+$/.test(it) ? data : header).push(it);
    check(`\x1bP${header.join("")}${data.join("")}\x1b\\`, row, data.join(""));
    count++;
  }
  assert.equal(count, controlStrings.length);
  assert.equal(new Set(controlStrings.map((it) => it.name)).size, count);
});

test("other strings and events have no name", () => {
  const streams = ["\x1b]\x07", `\x1b]${"9".repeat(40)};x\x07`, "\x1b]12345\x07", "\x1b]1000000000\x07"];
  for (const stream of [...streams, "52", "\x1b[m", "\x1b__\x1b\\"]) {
    for (const event of events(stream)) assert.equal(controlStringOf(event), null, stream);
  }
  const many = { type: "Dcs", parameters: [], intermediates: "", final: "q", hasMore: true };
  assert.equal(controlStringOf(many), null);
});

test("a number counts, not its digits", () => {
  check("\x1b]00052;c;?\x07", { name: "OSC 52", phrase: "clipboard" });
  check("\x1bP01000p\x1b\\", { name: "tmux control", phrase: "control mode" });
});
