// SPDX-License-Identifier: MIT
// A parser of a stream that comes in chunks: its events, and its actions.
import { ActionTaker } from "./actions.js";
import { CHUNK, Chunks, bytesOf, rooms, textOf } from "./chunks.js";
import { Kept, calls, give, limitOf, memory, take } from "./wasm.js";

// The kinds of events, as shims/wasm/events.h lists them with what goes with each.
const TEXT = 1;
const CONTROL = 3;
const ESCAPE = 4;
const CSI = 5;
const OSC = 6;
const DCS = 7;
const DATA = 8;
const DATA_BYTE = 9;
const DCS_END = 10;
const APC = 11;
const LIMIT = 13;

// Where a call leaves its events: so many numbers at first, the records, and the text.
const RECORDS = 16;
const TEXTS = RECORDS + 4 * 16_384;

const SEMICOLON = 0x3b;
const COLON = 0x3a;

/* The intermediates of a word that has them. */
function marksOf(word) {
  const count = (word >> 16) & 0xff;
  if (count === 0) return "";
  const first = String.fromCharCode(word & 0xff);
  return count === 1 ? first : first + String.fromCharCode((word >> 8) & 0xff);
}

const DCS_END_EVENT = Object.freeze({ type: "DcsEnd" });
const LIMIT_EVENT = Object.freeze({ type: "Limit" });

/* The events of a call, one after another. */
class Batch {
  constructor(at, buffer, chunk) {
    const { bytes, words } = memory();
    this.bytes = bytes;
    this.words = words;
    this.buffer = buffer;
    this.chunk = chunk;
    this.at = (at + RECORDS) >> 2;
    this.end = this.at + words[(at >> 2) + 1];
    const length = words[(at >> 2) + 2];
    this.text = length > 0 ? textOf(bytes.subarray(at + TEXTS, at + TEXTS + length)) : "";
    this.from = 0;
  }

  read(found) {
    while (this.at < this.end) {
      const kind = this.words[this.at++];
      if (kind === TEXT) found.push(this.run());
      else if (kind === CSI) found.push(this.sequence());
      else if (kind === CONTROL) found.push({ type: "Control", byte: this.words[this.at++] });
      else found.push(this.other(kind));
    }
  }

  run() {
    const from = this.from;
    this.from += this.words[this.at++];
    return { type: "Text", text: this.text.slice(from, this.from) };
  }

  other(kind) {
    const { words } = this;
    switch (kind) {
      case ESCAPE:
        return this.escape();
      case OSC:
        return { type: "Osc", text: this.string() };
      case APC:
        return { type: "Apc", text: this.string() };
      case DCS:
        return this.device();
      case DATA: {
        const from = this.chunk + words[this.at++];
        return { type: "Data", data: this.bytes.slice(from, from + words[this.at++]) };
      }
      case DATA_BYTE:
        return { type: "Data", data: Uint8Array.of(words[this.at++]) };
      case DCS_END:
        return DCS_END_EVENT;
      case LIMIT:
        return LIMIT_EVENT;
      default:
        throw new Error("escape-stream: something else wrote the memory of the parser");
    }
  }

  /* A text in the upper half of the buffer. */
  string() {
    return this.bytes.slice(this.buffer, this.buffer + this.words[this.at++]);
  }

  escape() {
    const final = String.fromCharCode(this.words[this.at++]);
    const marks = this.words[this.at++];
    return { type: "Escape", intermediates: marksOf(marks), final, hasMore: marks >= 1 << 24 };
  }

  device() {
    const final = String.fromCharCode(this.words[this.at++]);
    const marks = this.words[this.at++];
    const digits = textOf(this.string());
    const parameters = digits === "" ? [] : digits.split(";").map((it) => (it ? Number(it) : null));
    const intermediates = marksOf(marks);
    return { type: "Dcs", parameters, intermediates, final, hasMore: marks >= 1 << 24 };
  }

  /* The number of an entry that is none of less than 31 bits. */
  long() {
    const low = this.words[this.at++];
    return this.words[this.at++] * 2 ** 32 + low;
  }

  sequence() {
    const final = String.fromCharCode(this.words[this.at++]);
    const hasMore = this.words[this.at++] !== 0;
    let left = this.words[this.at++];
    let prefix = "";
    let intermediates = "";
    let number = null;
    let group = [];
    let hasSome = false;
    const parameters = [];
    for (; left > 0; left--) {
      const word = this.words[this.at++];
      if (word < 0x80000000) {
        number = word === 0x40000000 ? this.long() : word;
        hasSome = true;
        continue;
      }
      const byte = word & 0xff;
      if (byte === SEMICOLON || byte === COLON) {
        group.push(number);
        number = null;
        hasSome = true;
        if (byte === SEMICOLON) {
          parameters.push(group);
          group = [];
        }
      } else if (byte >= 0x3c) prefix += String.fromCharCode(byte);
      else intermediates += String.fromCharCode(byte);
    }
    if (hasSome) {
      group.push(number);
      parameters.push(group);
    }
    return { type: "Csi", prefix, parameters, intermediates, final, hasMore };
  }
}

export class Parser extends Kept {
  #at;
  #buffer;
  #size;
  #chunks = new Chunks();
  #taker;

  constructor({ limit, dataLimit } = {}) {
    const size = 2 * limitOf(limit);
    const at = take(calls.events_size());
    let buffer = 0;
    const free = () => {
      give(at);
      give(buffer);
    };
    super("parser", free);
    try {
      buffer = take(size + 16);
    } catch (error) {
      this.dispose();
      throw error;
    }
    calls.begin(at);
    this.#at = at;
    this.#buffer = buffer;
    this.#size = size;
    this.#taker = new ActionTaker(dataLimit);
  }

  events(chunk) {
    this.check();
    const found = [];
    this.#chunks.put(chunk, (length) => this.#take(length, found));
    return found;
  }

  endEvents() {
    this.check();
    const found = [];
    this.#chunks.end((length) => this.#take(length, found));
    return found;
  }

  actions(chunk) {
    return this.#taker.take(this.events(chunk));
  }

  endActions() {
    return this.#taker.take(this.endEvents());
  }

  get isGround() {
    this.check();
    return calls.is_ground(this.#at) !== 0;
  }

  /* The events of a chunk that lies in the room for chunks. */
  #take(length, found) {
    const first = this.#at >> 2;
    const { chunk } = rooms();
    for (let from = 0; ; ) {
      calls.next(this.#at, this.#buffer, this.#size, chunk + from, length - from);
      const batch = new Batch(this.#at, this.#buffer + this.#size / 2, chunk + from);
      batch.read(found);
      const { words } = memory();
      if (words[first + 3] !== 0) return;
      from += words[first];
    }
  }
}

/* The chunks of a stream that is given whole, or in chunks. */
function* chunksOf(stream) {
  const isChunk = typeof stream === "string" || typeof stream?.[Symbol.iterator] !== "function"
    || ArrayBuffer.isView(stream);
  if (!isChunk) {
    yield* stream;
  } else if (typeof stream === "string") {
    for (let at = 0; at < stream.length; at += CHUNK) yield stream.slice(at, at + CHUNK);
  } else {
    const bytes = bytesOf(stream);
    for (let at = 0; at < bytes.length; at += CHUNK) yield bytes.subarray(at, at + CHUNK);
  }
}

export function* events(stream, options) {
  const parser = new Parser(options);
  try {
    for (const chunk of chunksOf(stream)) yield* parser.events(chunk);
    yield* parser.endEvents();
  } finally {
    parser.dispose();
  }
}

export function* actions(stream, options) {
  const parser = new Parser(options);
  try {
    for (const chunk of chunksOf(stream)) yield* parser.actions(chunk);
    yield* parser.endActions();
  } finally {
    parser.dispose();
  }
}
