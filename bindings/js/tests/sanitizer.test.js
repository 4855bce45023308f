// SPDX-License-Identifier: MIT
// The sanitizer: the lines that stay, the sums, the plain text, each option, and the program, where
// ESCFILTER names it.
import assert from "node:assert/strict";
import { spawnSync } from "node:child_process";
import test from "node:test";
import { Sanitizer, sanitize, sanitizerStream } from "../index.js";
import { chunks, streams } from "./rows.js";

const POLICIES = ["text", "color", "screen", "all"];
const FRAMINGS = ["lines", "whole", "lines-reset"];
const bytes = (text) => Buffer.from(text, "latin1");
const HOSTILE = bytes(
  "a\x1b]0;t\x07 \x1b[1;31mred\x1b[2J\r\nb\rc\xe2\x80\xaed\xff\n\x1b]0;cut\nlast\x1b[7m",
);

/* The text and the account of a stream in chunks of so many bytes. */
function inChunks(stream, size, policy, options) {
  const it = new Sanitizer(policy, options);
  const found = chunks(stream, size).map((chunk) => Buffer.from(it.feed(chunk)));
  found.push(Buffer.from(it.finish()));
  const account = it.account();
  it.dispose();
  return { text: Buffer.concat(found), account };
}

const textOf = (stream, policy, options) => {
  return inChunks(Buffer.from(stream), 3, policy, options).text.toString();
};
const sum = ({ length, ...fates }) => Object.values(fates).reduce((all, it) => all + it, 0);

test("a string that nobody ends takes one line", () => {
  const log = "one\n\x1b]two\nthree\nfour\n";
  for (const policy of ["text", "color"]) {
    assert.equal(textOf(log, policy), "one\n\nthree\nfour\n");
    assert.equal(textOf(log, policy, { framing: "whole" }), "one\n");
  }
});

test("any size of chunks gives the same, and the sums are the length", () => {
  const ways = [
    {}, { framing: "whole" }, { framing: "lines-reset" }, { show: "escaped" }, { rows: 8 },
    { rows: 2, columns: 5 },
  ];
  for (const policy of POLICIES) {
    for (const way of ways) {
      const { text, account } = sanitize(HOSTILE, policy, way);
      const whole = { text: Buffer.from(text), account };
      for (let size = 1; size < 20; size++) {
        assert.deepEqual(inChunks(HOSTILE, size, policy, way), whole, `${policy}, ${size}`);
      }
      assert.equal(account.length, HOSTILE.length);
      assert.equal(sum(account), account.length);
    }
  }
  assert.equal(sum(sanitize(HOSTILE, "text", { account: false }).account), 0);
});

test("text is plain", () => {
  for (const stream of streams()) {
    for (const framing of FRAMINGS) {
      const { text } = sanitize(stream, "text", { framing, account: false });
      assert.match(Buffer.from(text).toString(), /^[\t\n\r -~\u{a0}-\u{10ffff}]*$/u);
    }
  }
});

test("each option", () => {
  assert.equal(textOf("\x1b[1mb\nc\x1b[0m\nd"), "\x1b[1mb\x1b[0m\n\x1b[1mc\x1b[0m\nd");
  const reset = textOf("\x1b[1mb\nc", "color", { framing: "lines-reset" });
  assert.equal(reset, "\x1b[1mb\x1b[0m\nc");
  assert.equal(textOf("\x1b[1mb", "color", { deny: ["sgr", "hidden"] }), "b");
  const title = "\x1b]2;t\x1b\\x";
  assert.equal(textOf(title, "text", { allow: ["titles"] }), title);
  const link = "\x1b]8;;http://a\x1b\\x\x1b]8;;\x1b\\";
  assert.equal(textOf(link, "color", { links: ["http", "https"] }), link);
  assert.equal(textOf(link, "color", { links: ["mailto"] }), "x\x1b]8;;\x1b\\");
  const hidden = "a\u202eb";
  assert.equal(textOf(hidden), "a<U+202E>b");
  assert.equal(textOf(hidden, "color", { characters: "keep" }), hidden);
  assert.equal(textOf(hidden, "color", { characters: "drop" }), "ab");
  assert.equal(textOf("a\rb\r\n"), "a^Mb\r\n");
  assert.equal(textOf("a\rb\r\n", "color", { returns: "keep" }), "a\rb\r\n");
  assert.equal(textOf(bytes("a\x9b1mb"), "text", { encoding: "utf-8-c1" }), "ab");
  assert.equal(textOf(bytes("\x80"), "color", { encoding: "windows-1258" }), "\u20ac");
  for (const [encoding, units] of [
    ["utf-16", "\xff\xfea\0=\xd8\0\xde\n"], ["utf-16", "\xfe\xff\0a\xd8=\xde\0\0"],
    ["utf-16le", "a\0=\xd8\0\xde\n"], ["utf-16be", "\0a\xd8=\xde\0\0"],
  ]) {
    assert.equal(textOf(bytes(units), "text", { encoding }), "a\u{1f600}\ufffd");
  }
  assert.equal(textOf("a\x1b]0;t\x07", "color", { show: "plain" }), "a^[]0;t^G");
  assert.equal(textOf("10%\r20%\n", "color", { rows: 8 }), "20%\n");
  assert.equal(textOf("abcdef\x1b[Gx\n", "color", { rows: 8 }), "xbcdef\n");
  assert.equal(textOf("abcdef\x1b[Gx\n", "color", { rows: 8, columns: 4 }), "abcdxf\n");
  assert.equal(textOf("a\x1b]0;long\x07b\n", "color", { limit: 4 }), "ab\n");
});

test("strings give strings, and bytes give bytes", () => {
  assert.equal(sanitize("a\x1b]0;t\x07\u{1f600}").text, "a\u{1f600}");
  assert.deepEqual(sanitize(bytes("a\x1b]0;t\x07")).text, new Uint8Array(bytes("a")));
  const it = new Sanitizer();
  assert.equal(it.feed("\x1b[31ma\ud83d"), "\x1b[31ma");
  assert.equal(it.feed("\ude00"), "\u{1f600}");
  assert.equal(it.finish(), "\x1b[0m");
  it.dispose();
});

test("a transformer tells its account", async () => {
  const told = [];
  const source = new ReadableStream({
    start(to) {
      for (const chunk of ["one\x1b]0;a ti", "tle\ntwo\x1b[3", "1m three\n"]) to.enqueue(chunk);
      to.close();
    },
  });
  const options = { onAccount: (account) => told.push(account) };
  let text = "";
  for await (const added of source.pipeThrough(sanitizerStream("text", options))) text += added;
  assert.equal(text, "one\ntwo three\n");
  const [{ length, passed, swallowed, leftOut }] = told;
  assert.deepEqual([told.length, length, passed, swallowed, leftOut], [1, 30, 13, 12, 5]);
});

test("what is no option, and what has ended", () => {
  const wrong = [
    { allow: ["none"] }, { deny: "sgr" }, { links: ["ftp"] }, { framing: "line" }, { show: true },
    { characters: "join " }, { returns: 1 }, { encoding: "utf-7" },
  ];
  for (const options of wrong) assert.throws(() => sanitize("a", "text", options), TypeError);
  for (const rows of [-1, 1.5, 4097, NaN]) {
    assert.throws(() => sanitize("a", "text", { rows }), RangeError);
  }
  for (const columns of [0, 1.5, 16385, NaN]) {
    assert.throws(() => sanitize("a", "text", { columns }), RangeError);
  }
  assert.throws(() => sanitize("a", "none"), TypeError);
  for (const encoding of ["latin-1", "utf-16le"]) {
    assert.throws(() => sanitize("a", "text", { encoding }), TypeError);
  }
  const it = new Sanitizer();
  it.finish();
  for (const call of [() => it.feed("a"), () => it.finish()]) {
    assert.throws(call, { name: "TypeError", message: /has ended/ });
  }
  assert.equal(it.account().length, 0);
  it.dispose();
  for (const call of [() => it.feed("a"), () => it.finish(), () => it.account()]) {
    assert.throws(call, { name: "TypeError", message: /disposed of/ });
  }
});

// Each choice of options, and the words of the program for it.
const AS_THE_PROGRAM = [
  ["color", {}, []],
  ["text", {}, ["--allow=text"]],
  ["screen", {}, ["--allow=screen"]],
  ["all", { framing: "lines" }, ["--allow=all", "--lines"]],
  ["color", { framing: "lines-reset" }, ["--line-reset"]],
  ["color", { framing: "whole", returns: "show" }, ["--whole", "--returns=show"]],
  [
    "color", { allow: ["titles", "cursor"], deny: ["sgr"] },
    ["--allow=titles,cursor", "--deny=sgr"],
  ],
  ["color", { links: ["https", "mailto"] }, ["--links=https,mailto"]],
  ["color", { characters: "show", returns: "drop" }, ["--unicode=show", "--returns=drop"]],
  ["color", { encoding: "latin-1-c1" }, ["--encoding=latin1", "--c1=obey"]],
  ["color", { encoding: "utf-16" }, ["--encoding=utf-16"]],
  ["color", { encoding: "utf-16be", show: "plain" }, ["--encoding=utf-16be", "--show"]],
  ["color", { show: "reversed" }, ["--show=color"]],
  ["color", { show: "plain", encoding: "latin-1" }, ["--show", "--encoding=latin1"]],
  ["color", { rows: 16 }, ["--collapse=16"]],
  ["color", { rows: 16, columns: 4 }, ["--collapse=16", "--columns=4"]],
  ["text", { rows: 16, show: "escaped" }, ["--allow=text", "--collapse=16", "--show=escaped"]],
  ["color", { limit: 2 }, ["--limit=2"]],
];

const program = process.env.ESCFILTER;
test("as the program", { skip: program ? false : "ESCFILTER names no program" }, () => {
  const more = bytes("\n\x1b]8;;https://a\x07x\x1b]8;;\x07\xe9\x9b1m\x1b[A\x1b[Ky\n");
  const input = Buffer.concat([HOSTILE, more, HOSTILE]);
  for (const [policy, options, words] of AS_THE_PROGRAM) {
    const { status, stdout } = spawnSync(program, words, { input });
    assert.equal(status, 0);
    const text = Buffer.from(sanitize(input, policy, options).text);
    assert.equal(text.toString("latin1"), stdout.toString("latin1"), words.join(" "));
  }
});
