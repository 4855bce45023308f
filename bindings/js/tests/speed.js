// SPDX-License-Identifier: MIT
// Prints how many MB a second of the processor's time each call takes, of the best of five runs:
// `node tests/speed.js FILE..`.
import { readFileSync } from "node:fs";
import { stripVTControlCharacters } from "node:util";
import { actions, events, filter, normal, sanitize, strip, toHtml } from "../index.js";

function seconds(work) {
  let best = Infinity;
  for (let round = 0; round < 5; round++) {
    const before = process.cpuUsage();
    work();
    const { user, system } = process.cpuUsage(before);
    best = Math.min(best, (user + system) / 1e6);
  }
  return best;
}

function count(found) {
  let number = 0;
  for (const _ of found) number++;
  return number;
}

for (const name of process.argv.slice(2)) {
  const bytes = readFileSync(name);
  const text = bytes.toString();
  const works = {
    "strip, of a string": () => strip(text),
    "stripVTControlCharacters of node:util": () => stripVTControlCharacters(text),
    "strip, of bytes": () => strip(bytes),
    "the same by node:util": () => Buffer.from(stripVTControlCharacters(bytes.toString())),
    "filter color, of bytes": () => filter(bytes, "color"),
    "sanitize color, of bytes": () => sanitize(bytes, "color", { account: false }),
    "the same with an account": () => sanitize(bytes),
    "toHtml, of bytes": () => toHtml(bytes),
    "normal, of bytes": () => normal(bytes),
    "events": () => count(events(bytes)),
    "actions": () => count(actions(bytes)),
  };
  console.log(`${name}: ${bytes.length} bytes, ${count(events(bytes))} events`);
  for (const [what, work] of Object.entries(works)) {
    const speed = (bytes.length / seconds(work) / 1e6).toFixed(0);
    console.log(`  ${what.padEnd(40)}${speed.padStart(6)}`);
  }
}
