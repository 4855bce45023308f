// SPDX-License-Identifier: MIT
import assert from "node:assert/strict";
import test from "node:test";
import { Account } from "../demo/account.js";
import { streamOf } from "../demo/recording.js";
import { Parser, actions } from "../index.js";
import { streams } from "./rows.js";

function accountOf(stream) {
  const account = new Account();
  account.take(actions(stream));
  return account;
}

test("requests by their names and lines", () => {
  const stream = "a\n\x1b]52;c;aGk=\x07\x1b[31m\n\x1b[c\x1b[32m\n\x1b[m\x1b]2;t\x1b\\";
  const found = accountOf(stream).rows().map(({ name, phrase, asks, isShown, count, lines }) => {
    return [name, phrase, asks ? "asks" : isShown ? "shown" : "left out", count, lines];
  });
  assert.deepEqual(found, [
    ["OSC 52", "set the clipboard", "asks", 1, [2]],
    ["DA", "device attributes, which a terminal answers", "asks", 1, [3]],
    ["SGR", "select graphic rendition", "shown", 3, [2, 3, 4]],
    ["OSC 2", "set the title", "left out", 1, [4]],
  ]);
});

test("every action has a request, or asks for nothing", () => {
  for (const stream of streams()) {
    for (const row of accountOf(stream).rows()) assert.equal(typeof row.phrase, "string");
  }
});

test("lines are counted also where chunks cut them", () => {
  const parser = new Parser();
  const account = new Account();
  for (const chunk of ["a\n", "\n\x1b[", "J\n"]) account.take(parser.actions(chunk));
  parser.dispose();
  assert.equal(account.line, 4);
  assert.deepEqual(account.rows()[0].lines, [3]);
});

test("recordings, and what is none", () => {
  const bytes = (text) => new TextEncoder().encode(text);
  const text = (file) => new TextDecoder().decode(streamOf(bytes(file)).bytes);
  const head = '{"version": 2, "width": 80}';
  const events = '[0.5, "o", "a\\u001b[1m"]\n[1, "i", "b"]\nno json\n[2, "o", "c"]\n';
  assert.equal(text(`${head}\n${events}`), "a\x1b[1mc");
  assert.equal(text(head), "");
  for (const file of ["", "a log", "{", '{"version": 1}\n', '{"a": 1}\n[0, "o", "x"]\n']) {
    assert.equal(streamOf(bytes(file)).recording, undefined);
    assert.equal(text(file), file);
  }
});

test("the times and the size of a recording", () => {
  const of = (text) => streamOf(new TextEncoder().encode(text)).recording;
  const two = of('{"version": 2, "width": 80, "height": 24}\n[0.5, "o", "a"]\n[9, "o", "b"]\n');
  assert.deepEqual(two.size, { columns: 80, rows: 24 });
  assert.deepEqual(two.outputs, [{ time: 0.5, text: "a" }, { time: 2.5, text: "b" }]);
  const events = '[0.5, "o", "a"]\n[1, "i", "x"]\n[1, "o", "b"]\n[-1, "o", "c"]\n["x", "o", "d"]\n';
  const three = of(`{"version": 3, "term": {"cols": 9, "rows": 2}}\n${events}`);
  assert.deepEqual(three.size, { columns: 9, rows: 2 });
  assert.deepEqual(three.outputs.map((it) => it.time), [0.5, 2.5, 2.5, 2.5]);
  for (const head of ['"width": 80', '"width": 0, "height": 1', '"width": 1001, "height": 9']) {
    assert.equal(of(`{"version": 2, ${head}}\n`).size, undefined, head);
  }
});
