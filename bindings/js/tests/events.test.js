// SPDX-License-Identifier: MIT
import assert from "node:assert/strict";
import { readFileSync } from "node:fs";
import test from "node:test";
import { Parser, events, functionOf } from "../index.js";
import { TOP, chunks, rows } from "./rows.js";

/* The events with each run of text, and of data, as one. */
function joined(found) {
  const all = [];
  for (const it of found) {
    const last = all.at(-1);
    if (it.type === "Text" && last?.type === "Text") last.text += it.text;
    else if (it.type !== "Data") all.push({ ...it });
    else if (last?.type === "Data") last.data = Buffer.concat([last.data, it.data]);
    else all.push({ ...it, data: Buffer.from(it.data) });
  }
  return all;
}

test("each kind of event", () => {
  const stream = "a\x1b]0;t\x07\x1b[?4:3;;7$h\x1b$(B\x1bP1;;2$qm\x1b\\\x1b_x\x1b\\\r\x85";
  const bytes = (text) => new Uint8Array(Buffer.from(text));
  assert.deepEqual([...events(stream)], [
    { type: "Text", text: "a" },
    { type: "Osc", text: bytes("0;t") },
    {
      type: "Csi", prefix: "?", parameters: [[4, 3], [null], [7]], intermediates: "$", final: "h",
      hasMore: false,
    },
    { type: "Escape", intermediates: "$(", final: "B", hasMore: false },
    { type: "Dcs", parameters: [1, null, 2], intermediates: "$", final: "q", hasMore: false },
    { type: "Data", data: bytes("m") },
    { type: "DcsEnd" },
    { type: "Escape", intermediates: "", final: "\\", hasMore: false },
    { type: "Apc", text: bytes("x") },
    { type: "Escape", intermediates: "", final: "\\", hasMore: false },
    { type: "Control", byte: 13 },
    { type: "Control", byte: 0x85 },
  ]);
});

test("numbers of every size", () => {
  const numbers = [0, 1, 2 ** 30 - 1, 2 ** 30, 2 ** 31, 2 ** 32 + 5, 2 ** 53];
  const [found] = events(`\x1b[${numbers.join(";")};99999999999999999999m`);
  assert.deepEqual(found.parameters.flat(), [...numbers, 2 ** 63]);
});

test("more parameters than are kept", () => {
  const [found] = events(`\x1b[${"1;".repeat(300)}m`);
  assert.equal(found.hasMore, true);
  assert.equal(found.parameters.length, 129);
  assert.equal(functionOf(found), null);
});

test("events are the same however a stream is cut", () => {
  let count = 0;
  for (const row of rows()) {
    const stream = row.bytes("stream");
    if (!stream || stream.length > 2000) continue;
    const whole = joined(events(stream));
    for (const size of [1, 2, 3, 5, 7, 11, 40]) {
      assert.deepEqual(joined(events(chunks(stream, size))), whole, `${row.name}, ${size}`);
    }
    count++;
  }
  assert.ok(count > 300, `${count} rows`);
});

test("text of every length, and text that is cut", () => {
  const text = "caf\u00e9 \u65e5\u672c \u{1f600} ";
  const long = text.repeat(9000) + "\x1b[1m" + text;
  const textOf = (found) => joined(found).map((it) => it.text ?? it.final).join("|");
  const wanted = `${text.repeat(9000)}|m|${text}`;
  assert.equal(textOf(events(long)), wanted);
  assert.equal(textOf(events(Buffer.from(long))), wanted);
  assert.equal(textOf(events(chunks(Buffer.from(long), 4093))), wanted);
  assert.equal(textOf(events(Array.from({ length: long.length }, (_, at) => long[at]))), wanted);
  const broken = joined(events(new Uint8Array(100_000).fill(0xff)));
  assert.equal(broken.length, 1);
  assert.equal(broken[0].text, "\ufffd".repeat(100_000));
});

test("many events of a chunk", () => {
  const found = [...events("\x1b[1;2;3;4;5;6;7;8m".repeat(20_000))];
  assert.equal(found.length, 20_000);
  assert.ok(found.every((it) => it.parameters.length === 8));
  assert.equal([...events("\n".repeat(100_000))].length, 100_000);
});

test("the limit of a string", () => {
  const types = (limit) => [...events("\x1b]2;abc\x07x", { limit })].map((it) => it.type);
  assert.deepEqual(types(5), ["Osc", "Text"]);
  assert.deepEqual(types(4), ["Limit", "Text"]);
  assert.deepEqual(types(0), ["Limit", "Text"]);
  assert.throws(() => new Parser({ limit: -1 }), RangeError);
  assert.throws(() => new Parser({ limit: 1.5 }), RangeError);
  assert.throws(() => new Parser({ limit: 2 ** 40 }), RangeError);
});

test("what is no stream", () => {
  for (const wrong of [5, null, undefined, {}]) assert.throws(() => [...events(wrong)], TypeError);
  assert.throws(() => [...events([5])], TypeError);
});

test("whether something is unfinished", () => {
  const parser = new Parser();
  for (const [chunk, isGround] of [["a", true], ["\x1b[", false], ["4:3", false], ["m", true]]) {
    parser.events(chunk);
    assert.equal(parser.isGround, isGround);
  }
  parser.dispose();
  parser.dispose();
  assert.throws(() => parser.events("a"), TypeError);
  assert.throws(() => parser.isGround, TypeError);
});

/* Each row of docs/FUNCTIONS.md: the bytes of its sequence, and its name. */
function* functionRows() {
  const page = readFileSync(new URL("docs/FUNCTIONS.md", TOP), "utf8");
  const row = /^\| `([^`]+)` \| (\S+) \| ([^|]*) \| [^|]* \| (\w+) \|/gm;
  for (const [, spelled, name, phrase, effect] of page.matchAll(row)) {
    yield { spelled, name, phrase, effect };
  }
}

test("functions by the names of their page", () => {
  let count = 0;
  for (const { spelled, name, phrase, effect } of functionRows()) {
    const [first, ...rest] = spelled.split(" ");
    if (first !== "CSI") continue;
    const byteOf = { SP: " ", "\\|": "|", "..": "" };
    const marks = rest.map((it) => byteOf[it] ?? it).join("");
    const lead = /^[<=>?]/.exec(marks)?.[0] ?? "";
    const tail = marks.slice(lead.length);
    const parameters = rest.includes("..") ? ["", "1", "1;1"] : [""];
    const found = parameters.map((it) => functionOf([...events(`\x1b[${lead}${it}${tail}`)][0]));
    const row = found.find((it) => it?.name === name);
    assert.ok(row, `${spelled}: ${found.map((it) => it?.name)}, not ${name}`);
    assert.equal(row.phrase, phrase);
    assert.equal(row.changesScreen, effect === "screen", name);
    count++;
  }
  assert.ok(count > 100, `${count} rows`);
});
