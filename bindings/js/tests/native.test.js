// SPDX-License-Identifier: MIT
// Compares the module with the native archives, through tests/native.c, over the streams of the
// tables, the inputs of the programs and random ones. NATIVE names that program.
import assert from "node:assert/strict";
import { spawnSync } from "node:child_process";
import test from "node:test";
import {
  Filter, HtmlWriter, Normaliser, Parser, Sanitizer, filter, normal, toHtml,
} from "../index.js";
import { chunks, streams } from "./rows.js";

const POLICIES = ["text", "color", "screen", "all"];
const SHORT_ROWS = { rows: 2, columns: 9, show: "escaped" };

/* Returns the text of a stream in chunks. */
function inChunks(taker, stream, size) {
  const found = chunks(stream, size).map((it) => Buffer.from(taker.feed(it)));
  found.push(Buffer.from(taker.finish()));
  taker.dispose();
  return Buffer.concat(found);
}

/* A log in chunks, with the numbers of its account. */
function sanitized(stream, policy, options) {
  const it = new Sanitizer(policy, options);
  const found = chunks(stream, 6).map((chunk) => Buffer.from(it.feed(chunk)));
  found.push(Buffer.from(it.finish()));
  found.push(Buffer.from(Object.values(it.account()).map((count) => ` ${count}`).join("")));
  it.dispose();
  return Buffer.concat(found);
}

const byteOf = (mark) => mark.charCodeAt(0);

/* The entries of a control sequence, as native.c writes them. */
function entriesOf({ prefix, parameters, intermediates }) {
  const marks = [...prefix].map((it) => byteOf(it) - 256);
  parameters.forEach((group, i) => {
    if (i > 0) marks.push(byteOf(";") - 256);
    group.forEach((number, j) => {
      if (j > 0) marks.push(byteOf(":") - 256);
      if (number !== null) marks.push(number === 2 ** 63 ? "9223372036854775807" : number);
    });
  });
  return [...marks, ...[...intermediates].map((it) => byteOf(it) - 256)];
}

/* An event, as native.c writes it. */
function lineOf(it) {
  const line = (...numbers) => Buffer.from(`\n ${numbers.join(" ")} \n`);
  const marks = (event) => [byteOf(event.final), ...[...event.intermediates].map(byteOf)];
  switch (it.type) {
    case "Text": return Buffer.from(it.text);
    case "Data": return it.data;
    case "Control": return line(3, it.byte);
    case "Escape": return line(4, ...marks(it));
    case "Csi": return line(5, byteOf(it.final), ...entriesOf(it));
    case "Osc": return Buffer.concat([Buffer.from("\n 6 "), it.text, Buffer.from("\n")]);
    case "Dcs": return line(7, ...marks(it));
    case "DcsEnd": return line(10);
    case "Apc": return Buffer.concat([Buffer.from("\n 11 "), it.text, Buffer.from("\n")]);
    default: return line(13);
  }
}

function eventsOf(stream) {
  const parser = new Parser();
  const found = chunks(stream, 11).flatMap((it) => parser.events(it).map(lineOf));
  parser.dispose();
  return Buffer.concat(found);
}

/* Each text of a stream, with what it is, in the order of native.c. */
function* textsOf(stream) {
  for (const policy of POLICIES) {
    yield [`filter ${policy}`, filter(stream, policy)];
    yield [`filter ${policy} in chunks`, inChunks(new Filter(policy), stream, 7)];
  }
  for (const policy of POLICIES) {
    yield [`log ${policy}`, sanitized(stream, policy)];
    yield [`log ${policy} shown`, sanitized(stream, policy, SHORT_ROWS)];
  }
  yield ["normal", normal(stream, { limit: stream.length })];
  yield ["normal in chunks", inChunks(new Normaliser(), stream, 3)];
  yield ["html", toHtml(stream)];
  yield ["html by lines", inChunks(new HtmlWriter({ perLine: true, inline: true }), stream, 5)];
  yield ["events", eventsOf(stream)];
}

function framed(stream) {
  const head = Buffer.alloc(4);
  head.writeUInt32LE(stream.length);
  return Buffer.concat([head, stream]);
}

const program = process.env.NATIVE;
test("as the native archives", { skip: program ? false : "NATIVE names no program" }, () => {
  const all = streams();
  const input = Buffer.concat(all.map(framed));
  const { status, stdout } = spawnSync(program, { input, maxBuffer: 1 << 30 });
  assert.equal(status, 0);
  let at = 0;
  let count = 0;
  for (const [i, stream] of all.entries()) {
    for (const [what, text] of textsOf(stream)) {
      const length = stdout.readUInt32LE(at);
      const wanted = stdout.subarray(at + 4, at + 4 + length);
      assert.ok(Buffer.from(text).equals(wanted), `stream ${i}, ${what}`);
      at += 4 + length;
      count++;
    }
  }
  assert.equal(at, stdout.length);
  assert.ok(count > 15000, `${count} comparisons`);
  console.log(`${count} comparisons with the native archives`);
});
