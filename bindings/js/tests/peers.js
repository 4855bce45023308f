// SPDX-License-Identifier: MIT
// Prints of how many streams what others leave holds a control: of their patterns, as they are
// remembered, and of Node's own function. ansi_up and ansi-to-html write HTML: theirs are of the
// text in it. `node tests/peers.js`.
import { stripVTControlCharacters } from "node:util";
import { strip } from "../index.js";
import { streams } from "./rows.js";

const ST = "(?:\\u0007|\\u001B\\u005C|\\u009C)";
const REST = "(?:\\d{1,4}(?:[;:]\\d{0,4})*)?[\\dA-PR-TZcf-nq-uy=><~]";
const OLD_OSC =
  "(?:(?:;[-a-zA-Z\\d\\/#&.:=?%@~_]+)*|[a-zA-Z\\d]+(?:;[-a-zA-Z\\d\\/#&.:=?%@~_]*)*)?\\u0007";
const OLD_REST = "(?:(?:\\d{1,4}(?:;\\d{0,4})*)?[\\dA-PR-TZcf-ntqry=><~])";

export const PEERS = {
  "ansi-regex 5 (strip-ansi 6, jest, chalk 4)": new RegExp(
    `[\\u001B\\u009B][[\\]()#;?]*(?:(?:${OLD_OSC})|${OLD_REST})`,
    "g",
  ),
  "ansi-regex 6.2 (strip-ansi 7)": new RegExp(
    `(?:\\u001B\\][\\s\\S]*?${ST})|[\\u001B\\u009B][[\\]()#;?]*${REST}`,
    "g",
  ),
  "/\\x1b\\[[0-9;]*m/": /\x1b\[[0-9;]*m/g,
  "ansi_up 6": new RegExp(
    "\\x1b\\[[<-?]?[\\d;]*[ -/]?[@-~]|\\x1b\\[[ -~]*[\\0-\\x1f:]"
      + "|\\x1b\\]8;[^\\x07\\x1b]*(?:\\x07|\\x1b\\\\)|\\x1b",
    "g",
  ),
  "ansi-to-html 0.7": new RegExp(
    "\\x08+|\\x1b\\[[012]?K|\\x1b\\[\\(B|\\x1b\\[(?:\\d+(?:;\\d+)*;?)?m|\\x1b\\[\\d?J"
      + "|\\x1b\\[\\d{0,3};\\d{0,3}f|\\x1b\\[?[\\d;]{0,3}",
    "g",
  ),
};

// A control of C0 or C1, or DEL, but for tab, line feed and carriage return.
const ALIVE = /[\0-\x08\x0b\x0c\x0e-\x1f\x7f-\x9f]/;
const STARTS = /[\x1b\x9b\x9d\x90\x98\x9e\x9f]/;

/** How many of the streams hold a control after a function, and how many what starts a sequence. */
export function countAlive(texts, after) {
  const left = texts.map(after);
  return [ALIVE, STARTS].map((it) => left.filter((text) => it.test(text)).length);
}

export const texts = () => streams().map((it) => it.toString());

if (process.argv[1] === new URL(import.meta.url).pathname) {
  const all = texts();
  const print = (name, after) => {
    const [alive, starts] = countAlive(all, after);
    console.log(`${name}: ${alive} of ${all.length} hold a control, ${starts} such a start`);
  };
  print("as they are", (text) => text);
  for (const [name, it] of Object.entries(PEERS)) print(name, (text) => text.replace(it, ""));
  print("node:util stripVTControlCharacters", stripVTControlCharacters);
  print("strip", (text) => strip(text));
}
