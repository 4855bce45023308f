// SPDX-License-Identifier: MIT
// Streams as chunks: strings and bytes, and the places in the memory that they go through.
import { memory, take } from "./wasm.js";

/** How many bytes of a stream the library is given at once, and of a text it gives at once. */
export const CHUNK = 32_768;

const encoder = new TextEncoder();
// With ignoreBOM U+FEFF stays, which a stream may begin with as with any other character.
export const decoderOf = () => new TextDecoder("utf-8", { ignoreBOM: true });
const decoder = decoderOf();

/** Returns the text of bytes. */
export const textOf = (bytes) => decoder.decode(bytes);

// A room for chunks and one for texts, of all streams: no call is made during another.
let made;
export function rooms() {
  made ??= { chunk: take(CHUNK), text: take(CHUNK) };
  return made;
}

/** Returns the bytes of what has bytes: no copy. */
export function bytesOf(chunk) {
  if (chunk instanceof Uint8Array) return chunk;
  if (ArrayBuffer.isView(chunk)) {
    return new Uint8Array(chunk.buffer, chunk.byteOffset, chunk.byteLength);
  }
  if (chunk instanceof ArrayBuffer) return new Uint8Array(chunk);
  if (typeof SharedArrayBuffer === "function" && chunk instanceof SharedArrayBuffer) {
    return new Uint8Array(chunk);
  }
  throw new TypeError("escape-stream: a stream is a string, an ArrayBuffer or a view of one");
}

/*
 * Puts a chunk into the room for chunks, as many bytes at once as fit, and calls `act` with how
 * many there are.
 */
function inParts(chunk, act) {
  const at = rooms().chunk;
  if (typeof chunk === "string") {
    for (let rest = chunk; rest.length > 0; ) {
      const room = memory().bytes.subarray(at, at + CHUNK);
      const { read, written } = encoder.encodeInto(rest, room);
      rest = rest.slice(read);
      act(written);
    }
    return;
  }
  const bytes = bytesOf(chunk);
  for (let from = 0; from < bytes.length; from += CHUNK) {
    const part = bytes.subarray(from, from + CHUNK);
    memory().bytes.set(part, at);
    act(part.length);
  }
}

const isHalf = (code) => code >= 0xd800 && code < 0xdc00;

/**
 * The chunks of a stream, in the room for chunks. The halves of a character that lie in two strings
 * are joined, as TextEncoderStream does it.
 */
export class Chunks {
  #half = "";

  /** Puts a chunk into the room, and calls `act` with how many bytes there are; maybe often. */
  put(chunk, act) {
    if (typeof chunk !== "string") {
      this.end(act);
      inParts(chunk, act);
      return;
    }
    const text = this.#half + chunk;
    const rest = isHalf(text.charCodeAt(text.length - 1)) ? 1 : 0;
    this.#half = text.slice(text.length - rest);
    inParts(text.slice(0, text.length - rest), act);
  }

  /** The same of half a character that is left at the end. */
  end(act) {
    const half = this.#half;
    this.#half = "";
    inParts(half, act);
  }
}

/** Bytes in parts that become one. */
export class Bytes {
  #parts = [];

  push(part) {
    this.#parts.push(part.slice());
  }

  all() {
    if (this.#parts.length === 1) return this.#parts[0];
    const all = new Uint8Array(this.#parts.reduce((sum, it) => sum + it.length, 0));
    let at = 0;
    for (const part of this.#parts) {
      all.set(part, at);
      at += part.length;
    }
    return all;
  }
}

/** The same of a text in UTF-8. A character may lie in two parts. */
export class Text {
  #text = "";
  #decoder = decoderOf();

  push(part) {
    this.#text += this.#decoder.decode(part, { stream: true });
  }

  all() {
    return this.#text + this.#decoder.decode();
  }
}
