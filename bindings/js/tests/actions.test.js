// SPDX-License-Identifier: MIT
// Compares the actions of streams with the tables, which have those of each.
import assert from "node:assert/strict";
import test from "node:test";
import { Parser, actions, command, functionOf, image, sixel, termcapQuery } from "../index.js";
import { lines } from "./debug.js";
import { chunks, rows, unescaped } from "./rows.js";

// The actions of a row. A line `kept` is a command that is kept as its parts.
function wanted(row) {
  const found = [];
  for (const [word, text] of row.lines) {
    if (word === "action") found.push(text);
    else if (word === "more") found[found.length - 1] += text;
    else if (word === "kept") {
      const parts = unescaped(text).toString("latin1").split(";");
      const listed = parts.map((it) => `[${[...it].map((c) => c.charCodeAt(0)).join(", ")}]`);
      found.push(`OperatingSystemCommand(Unspecified([${listed.join(", ")}]))`);
    }
  }
  const isNamed = (it) => !it.startsWith("Esc(") && !it.startsWith("CSI(");
  const hasData = (it) => /\(File\(ITermFileData \{|^Sixel\(|^KittyImage\(/.test(it);
  const renamed = (it) => (hasData(it) ? it.replaceAll("content: ", "data: ") : it);
  return found.filter(isNamed).map(renamed);
}

test("actions are as in the tables", () => {
  let count = 0;
  for (const row of rows()) {
    const stream = row.bytes("stream");
    const expected = wanted(row);
    if (!stream || row.bytes("limit") || expected.length === 0) continue;
    for (const size of stream.length < 10_000 ? [stream.length, 1, 3] : [stream.length]) {
      const parser = new Parser({ limit: 1 << 24, dataLimit: 1 << 24 });
      const found = chunks(stream, size || 1).flatMap((it) => parser.actions(it));
      parser.dispose();
      assert.deepEqual(found.flatMap(lines), expected, `${row.name}, in chunks of ${size}`);
    }
    count++;
  }
  assert.ok(count > 250, `${count} rows`);
});

test("longer data is passed over", () => {
  const found = [...actions("\x1bPq~~~~\x1b\\\x1bPq~~~\x1b\\", { dataLimit: 3 })];
  assert.deepEqual(found.map((it) => it.type), ["Limit", "Esc", "Sixel", "Esc"]);
});

test("what strings say", () => {
  const bytes = (text) => Buffer.from(text);
  assert.deepEqual(command(bytes("2;a title")), { type: "SetWindowTitle", text: "a title" });
  const link = { params: { id: "1" }, uri: "http://e.com/", implicit: false };
  assert.deepEqual(command(bytes("8;id=1;http://e.com/")), { type: "SetHyperlink", link });
  assert.equal(image(bytes("no image")), null);
  assert.equal(image(bytes("Gs=10,f=24,v=20;AAAA")).transmit.format, "Rgb");
  assert.deepEqual(termcapQuery(bytes("544e;436f")), ["TN", "Co"]);
  const { data, ...found } = sixel([9, 1, 3], bytes('"1;1;3;7#1;2;100;0;50~!3?$-#7'));
  assert.deepEqual(found, {
    pan: 1, pad: 1, pixelWidth: 3, pixelHeight: 7, backgroundIsTransparent: true,
    horizontalGridSize: 3, width: 3, height: 7,
  });
  assert.equal(data.length, 6);
  assert.equal(sixel([], bytes("")).data.length, 0);
  assert.throws(() => command("2;a string"), TypeError);
});

test("a key of a link that objects have", () => {
  const { link } = command(Buffer.from("8;__proto__=1:id=2;http://e.com/"));
  assert.deepEqual(Object.entries(link.params).sort(), [["__proto__", "1"], ["id", "2"]]);
  assert.equal(Object.getPrototypeOf(link.params), Object.prototype);
});

test("actions have the functions of their events", () => {
  const named = (it) => functionOf(it)?.name;
  const found = [...actions("\x1b[2;5H\x1b[?25h\x1b(B\x1b\x37\r\x85\x1b[s\x1b[1;2s")];
  const wanted = ["CUP", "DECSET", "GZD4", "DECSC", "CR", "NEL", "SCOSC", "DECSLRM"];
  assert.deepEqual(found.map(named), wanted);
});
