// SPDX-License-Identifier: MIT
import assert from "node:assert/strict";
import { execFileSync } from "node:child_process";
import { readFileSync } from "node:fs";
import test from "node:test";
import { Filter, HtmlWriter, Normaliser, filter, normal, strip, toHtml } from "../index.js";
import { chunks, rows } from "./rows.js";

const POLICIES = { "as-text": "text", "as-color": "color", "as-screen": "screen", "as-all": "all" };
const bytes = (text) => new Uint8Array(Buffer.from(text));
const STREAM = "a\x1b]0;a title\x07 \x1b[1;31mred\x1b[2;5Hcaf\u00e9\x1b]8;;https://x.org\x1b\\link";

/* Returns the text that chunks add, together, and the text that the end adds. */
function fed(it, cut) {
  const found = cut.map((chunk) => Buffer.from(it.feed(chunk)));
  const end = Buffer.from(it.finish());
  it.dispose();
  return [Buffer.concat(found), end];
}

const sizesOf = (stream) => (stream.length > 2000 ? [4096] : [1, 2, 3, 5, 7, 11, 40]);

test("normal forms of the tables", () => {
  let count = 0;
  for (const row of rows()) {
    const stream = row.bytes("stream");
    if (!stream || row.bytes("limit") || row.bytes("as-text")) continue;
    const text = row.bytes("text") ?? stream;
    assert.deepEqual(Buffer.from(normal(stream, { limit: stream.length })), text, row.name);
    for (const size of sizesOf(stream)) {
      const [found, end] = fed(new Normaliser({ limit: stream.length }), chunks(stream, size));
      assert.deepEqual(Buffer.concat([found, end]), text, `${row.name}, ${size}`);
    }
    count++;
  }
  assert.ok(count > 300, `${count} rows`);
});

test("what policies admit of the tables", () => {
  let count = 0;
  for (const row of rows()) {
    const stream = row.bytes("stream");
    let text = row.bytes("as-text");
    if (!stream || !text) continue;
    for (const [word, policy] of Object.entries(POLICIES)) {
      text = row.bytes(word) ?? text;
      for (const size of sizesOf(stream)) {
        const [found, end] = fed(new Filter(policy), chunks(stream, size));
        assert.deepEqual(Buffer.from(filter(stream, policy)), found, `${row.name}, ${word}`);
        assert.deepEqual(Buffer.concat([found, end]), text, `${row.name}, ${word}, ${size}`);
      }
    }
    count++;
  }
  assert.ok(count > 30, `${count} rows`);
});

test("limits of the tables", () => {
  let count = 0;
  for (const row of rows()) {
    const [stream, limit] = [row.bytes("stream"), row.bytes("limit")];
    const text = row.bytes("as-all") ?? row.bytes("text");
    if (!stream || !limit || !text) continue;
    for (const size of sizesOf(stream)) {
      const it = new Filter("all", { limit: Number(limit) });
      assert.deepEqual(Buffer.concat(fed(it, chunks(stream, size))), text, row.name);
    }
    count++;
  }
  assert.ok(count > 10, `${count} rows`);
});

test("strings give strings, and bytes give bytes", () => {
  assert.equal(strip(STREAM), "a redcaf\u00e9link");
  assert.deepEqual(strip(bytes(STREAM)), bytes("a redcaf\u00e9link"));
  const colored = "a \x1b[1;31mredcaf\u00e9\x1b]8;;https://x.org\x1b\\link";
  assert.equal(filter(STREAM, "color"), colored);
  assert.deepEqual(filter(bytes(STREAM), "color"), bytes(colored));
  assert.deepEqual(filter(bytes(STREAM).buffer, "color"), bytes(colored));
  assert.deepEqual(filter(new DataView(bytes(STREAM).buffer), "color"), bytes(colored));
  assert.equal(normal("\x1b]0;t\x07\x1b[m"), "\x1b]0;t\x1b\\\x1b[0m");
  assert.equal(filter(STREAM), strip(STREAM));
  assert.equal(strip(""), "");
  assert.deepEqual(strip(bytes("")), bytes(""));
  const it = new Filter("color");
  assert.equal(it.feed("\x1b[31m"), "\x1b[31m");
  assert.equal(it.finish(), "\x1b[0m");
  assert.deepEqual(it.feed(bytes("\x1b[31m")), bytes("\x1b[31m"));
  assert.deepEqual(it.finish(), bytes("\x1b[0m"));
  it.dispose();
});

test("characters of every length, also where strings cut them", () => {
  const text = "\ufeffa\u00e9\u65e5\u{1f600}\u{10ffff}\ufeff";
  assert.equal(strip(text), text);
  const it = new Filter();
  let found = "";
  for (let at = 0; at < text.length; at++) found += it.feed(text[at]);
  assert.equal(found + it.finish(), text);
  assert.equal(it.feed("\ud83d") + it.feed("b") + it.feed("\ud83d"), "\ufffdb");
  assert.equal(it.finish(), "\ufffd");
  assert.equal(it.feed("\ud83d"), "");
  assert.deepEqual(it.feed(bytes("b")), bytes("\ufffdb"));
  it.dispose();
  for (const length of [32_766, 32_767, 32_768, 32_769, 100_001]) {
    const long = "x".repeat(length) + "\u{1f600}" + "\u65e5".repeat(30_000);
    assert.equal(strip(long), long);
    assert.deepEqual(strip(bytes(long)), bytes(long));
  }
});

test("texts that are longer than their streams", () => {
  const controls = normal(new Uint8Array(1000).fill(0x85));
  assert.equal(Buffer.from(controls).toString(), "\x85".repeat(1000));
  const broken = strip(new Uint8Array(100_000).fill(0xff));
  assert.equal(Buffer.from(broken).toString(), "\ufffd".repeat(100_000));
});

test("HTML", () => {
  assert.equal(toHtml("\x1b[31m<b>&\x1b[0m"), '<span class="es-fg-red">&lt;b&gt;&amp;</span>');
  assert.match(toHtml("\x1b[38;2;1;2;3mx", { inline: true }), /style="color: ?#010203;?"/);
  assert.equal(toHtml("\x1b]8;;javascript:alert(1)\x1b\\x"), "x");
  const link = /^<a href="https:\/\/x.org\/\?a&amp;b"[^>]*>x<\/a>$/;
  assert.match(toHtml("\x1b]8;;https://x.org/?a&b\x1b\\x"), link);
  const page = new HtmlWriter({ perLine: true });
  const text = page.feed("\x1b[1ma\n") + page.feed(bytes("b")) + page.finish();
  assert.match(text, /^<span[^>]*>a<\/span>\n<span[^>]*>b<\/span>$/);
  assert.throws(() => page.feed("c"), TypeError);
  page.dispose();
});

test("the style sheet is that of eschtml", { skip: !process.env.ESCHTML }, () => {
  const own = readFileSync(new URL("../stream.css", import.meta.url), "utf8");
  assert.equal(own, execFileSync(process.env.ESCHTML, ["--style"], { encoding: "utf8" }));
});

test("what is no stream, no policy and no limit", () => {
  for (const wrong of [5, null, undefined, {}, [97]]) {
    for (const call of [strip, normal, toHtml, filter]) assert.throws(() => call(wrong), TypeError);
  }
  for (const wrong of ["none", "", "constructor", 1]) {
    assert.throws(() => filter("a", wrong), TypeError);
  }
  for (const wrong of [-1, 1.5, NaN, 2 ** 40, "1"]) {
    assert.throws(() => filter("a", "text", { limit: wrong }), RangeError);
  }
});

test("what is disposed of", () => {
  for (const make of [() => new Filter(), () => new Normaliser(), () => new HtmlWriter()]) {
    const it = make();
    it.dispose();
    it.dispose();
    assert.throws(() => it.feed("a"), TypeError);
    assert.throws(() => it.finish(), TypeError);
  }
  if (typeof Symbol.dispose === "symbol") {
    const it = new Filter();
    it[Symbol.dispose]();
    assert.throws(() => it.feed("a"), TypeError);
  }
});
