// SPDX-License-Identifier: MIT
// The tables of streams that the proved programs are checked against. docs/DEVELOPING.md has their
// form.
import { readFileSync, readdirSync } from "node:fs";

export const TOP = new URL("../../../", import.meta.url);
const TABLES = new URL("crates/stream_tables/data/", TOP);

/** The bytes that a text writes: `\xNN` is a byte, `\\` is `\`, any other character is itself. */
export function unescaped(text) {
  const one = (_, byte) => (byte ? String.fromCharCode(parseInt(byte, 16)) : "\\");
  const bytes = Buffer.from(text).toString("latin1");
  return Buffer.from(bytes.replace(/\\(?:x([0-9a-f]{2})|\\)/g, one), "latin1");
}

class Row {
  constructor(lines) {
    this.name = lines[0] ?? "";
    this.lines = lines.map((line) => {
      const [, word, times = "1", text] = /^(\S+?)(?:\*(\d+))?(?: +(.*))?$/.exec(line);
      return [word, (text ?? "").repeat(Number(times))];
    });
  }

  /** Returns the bytes of its lines of this word, joined, or undefined if there is none. */
  bytes(word) {
    const found = this.lines.filter(([it]) => it === word);
    return found.length > 0 ? Buffer.concat(found.map(([, text]) => unescaped(text))) : undefined;
  }
}

/** Each row of each table. */
export function* rows() {
  for (const name of readdirSync(TABLES).sort()) {
    for (const block of readFileSync(new URL(name, TABLES), "utf8").split("\n\n")) {
      yield new Row(block.split("\n").filter((it) => it !== "" && !it.startsWith("#")));
    }
  }
}

// Into how many chunks a stream is cut at most: those of the tables that are held whole have up to
// ten million bytes.
const MOST_CHUNKS = 4096;

/** The chunks of a stream, each of so many bytes, or of more where it is long. */
export function chunks(stream, size) {
  const step = Math.max(size, Math.ceil(stream.length / MOST_CHUNKS));
  const found = [];
  for (let at = 0; at < stream.length; at += step) found.push(stream.subarray(at, at + step));
  return found;
}

/** The streams of the tables, the inputs of programs, and random ones: the same at each run. */
export function streams() {
  const found = [];
  for (const row of rows()) if (row.bytes("stream")) found.push(row.bytes("stream"));
  const crates = new URL("crates/", TOP);
  for (const name of readdirSync(crates).sort()) {
    try {
      found.push(readFileSync(new URL(`${name}/stdin`, crates)));
    } catch (error) {
      if (error.code !== "ENOENT" && error.code !== "ENOTDIR") throw error;
    }
  }
  return [...found, ...randomStreams(400)];
}

// The parts of which random streams are made.
const PARTS = [
  "\x1b[", "\x1b]", "\x1bP", "\x1b_", "\x1b\\", "\x07", "\x9b", "\xc2\x9b", "\x9c", ";", ":", "?",
  "8;;https://x.org/", "0;title", "52;c;aGk=", "38;5;", "38;2;1;2;3", "m", "H", "J", "K", "1",
  "31", "99999999999999999999", "text", "\xe2\x82\xac", "\xff", "\n", "\r", "\t", "\x08", "<b>&",
  "Gf=100;AAAA", "q#0;2;0;0;0~", "+q544e", "\x18", "\x1a", "\x1b", "\x00", "\x7f", "133;D;1",
  "9;4;1;50", "4;1;rgb:ff/00/00", "1337;SetMark", "\xf0\x9f\x98\x80", "?25", "4:3",
];

function randomStreams(count) {
  let state = 7n;
  const below = (limit) => {
    state = (state * 6364136223846793005n + 1442695040888963407n) % 2n ** 64n;
    return Number((state >> 33n) % BigInt(limit));
  };
  const byte = () => String.fromCharCode(below(256));
  const part = () => (below(100) < 85 ? PARTS[below(PARTS.length)] : byte());
  const stream = () => Array.from({ length: 1 + below(200) }, part).join("");
  return Array.from({ length: count }, () => Buffer.from(stream(), "latin1"));
}
