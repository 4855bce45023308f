// SPDX-License-Identifier: MIT
import assert from "node:assert/strict";
import test from "node:test";
import {
  actionStream, eventStream, filterStream, htmlStream, normalStream, stripStream,
} from "../index.js";

const bytes = (text) => new Uint8Array(Buffer.from(text));

/* Returns the output of a transformer for some chunks. */
async function through(transformer, chunks) {
  const source = new ReadableStream({
    start(to) {
      for (const chunk of chunks) to.enqueue(chunk);
      to.close();
    },
  });
  const found = [];
  for await (const added of source.pipeThrough(transformer)) found.push(added);
  return found;
}

const CHUNKS = ["a\x1b]0;ti", "tle\x07b\x1b[3", "1mc\ud83d", "\ude00"];

test("strings give strings", async () => {
  const text = async (transformer) => (await through(transformer, CHUNKS)).join("");
  assert.equal(await text(filterStream("color")), "ab\x1b[31mc\u{1f600}\x1b[0m");
  assert.equal(await text(stripStream()), "abc\u{1f600}");
  assert.equal(await text(normalStream()), "a\x1b]0;title\x1b\\b\x1b[31mc\u{1f600}");
  assert.match(await text(htmlStream()), /^ab<span[^>]*>c\u{1f600}<\/span>$/u);
});

test("bytes give bytes", async () => {
  const found = await through(filterStream("color"), [bytes("a\x1b[3"), bytes("1mb")]);
  assert.ok(found.every((it) => it instanceof Uint8Array));
  assert.equal(Buffer.concat(found).toString(), "a\x1b[31mb\x1b[0m");
});

test("events and actions", async () => {
  const types = async (transformer) => (await through(transformer, CHUNKS)).map((it) => it.type);
  assert.deepEqual(await types(eventStream()), ["Text", "Osc", "Text", "Csi", "Text", "Text"]);
  const text = "PrintString";
  const wanted = [text, "OperatingSystemCommand", text, "CSI", text, text];
  assert.deepEqual(await types(actionStream()), wanted);
});

test("a chunk that is no stream ends it", async () => {
  await assert.rejects(through(stripStream(), [5]), TypeError);
});
