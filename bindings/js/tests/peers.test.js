// SPDX-License-Identifier: MIT
import assert from "node:assert/strict";
import test from "node:test";
import { filter, strip } from "../index.js";
import { PEERS, countAlive, texts } from "./peers.js";

test("no control is alive after strip, and many are after patterns", () => {
  const all = texts();
  assert.deepEqual(countAlive(all, (text) => strip(text)), [0, 0]);
  assert.ok(countAlive(all, (text) => text)[0] > 400);
  for (const [name, pattern] of Object.entries(PEERS)) {
    assert.ok(countAlive(all, (text) => text.replace(pattern, ""))[0] > 100, name);
  }
});

test("what patterns leave of a device control string, and of a clipboard", () => {
  const after = Object.values(PEERS).map((it) => "\x1bP1$r0m\x1b\\x".replace(it, ""));
  assert.ok(after.every((it) => it !== "x"));
  assert.equal(strip("\x1bP1$r0m\x1b\\x"), "x");
  // A sequence that a second pass would find, and one that what is taken out leaves behind.
  const nested = "\x1b\x1b[0m[2J";
  assert.match(nested.replace(PEERS["ansi-regex 6.2 (strip-ansi 7)"], ""), /\x1b\[2J/);
  assert.doesNotMatch(strip(nested), /\x1b/);
  assert.doesNotMatch(filter(nested, "color"), /\x1b\[2J/);
});
