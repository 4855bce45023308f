// SPDX-License-Identifier: MIT
// Memory that is taken is given back, and a refusal of memory leaves the module as it was.
import assert from "node:assert/strict";
import test from "node:test";
import {
  Filter, HtmlWriter, Normaliser, Parser, Sanitizer, actions, sanitize, strip, toHtml,
} from "../index.js";
import { calls } from "../src/wasm.js";

const size = () => calls.memory.buffer.byteLength;

test("objects that were disposed of keep nothing", () => {
  const round = () => {
    const sanitizer = new Sanitizer("text", { rows: 4, show: "escaped" });
    const others = [new Filter("all"), new Normaliser(), new HtmlWriter(), new Parser()];
    for (const it of [sanitizer, ...others]) {
      if (it instanceof Parser) it.actions("\x1b]2;" + "x".repeat(10_000));
      else it.feed("\x1b]2;" + "x".repeat(10_000));
      it.dispose();
    }
  };
  round();
  const before = size();
  for (let i = 0; i < 500; i++) round();
  assert.equal(size(), before);
});

test("streams that were given whole keep nothing", () => {
  const long = "\x1b]0;" + "x".repeat(900_000) + "\x07y";
  const sixel = "\x1bPq" + "~".repeat(200_000) + "\x1b\\";
  const round = () => {
    assert.equal(strip(long), "y");
    assert.equal(toHtml(long), "y");
    assert.equal(sanitize(long).account.leftOut, 900_005);
    assert.equal([...actions(sixel)][0].data.length, 200_000);
  };
  round();
  round();
  const before = size();
  for (let i = 0; i < 10; i++) round();
  assert.equal(size(), before);
});

const ungiven = { skip: globalThis.gc ? false : "node without --expose-gc" };
test("objects that nothing names any more give back what they keep", ungiven, async () => {
  const round = async () => {
    for (let i = 0; i < 50; i++) new Parser({ limit: 1 << 20 });
    globalThis.gc();
    await new Promise((go) => setTimeout(go, 20));
  };
  for (let i = 0; i < 3; i++) await round();
  const before = size();
  for (let i = 0; i < 6; i++) await round();
  assert.equal(size(), before);
});

test("a request that is refused", () => {
  const kept = [];
  assert.throws(() => {
    for (;;) kept.push(new Parser({ limit: 1 << 28 }));
  }, RangeError);
  assert.ok(kept.length > 1);
  for (const it of kept) it.dispose();
  assert.equal(strip("a\x1b[1mb"), "ab");
  new Parser({ limit: 1 << 28 }).dispose();
});
