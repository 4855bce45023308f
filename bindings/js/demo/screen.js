// SPDX-License-Identifier: MIT
// A terminal's screen, over the module of its own that bindings/js/build makes for the demo. It
// knows no page.

// How many bytes the structs of escape_stream_screen.h have, and a chunk that is fed.
const SCREEN = 16;
const STATE = 48;
const CELL = 40;
const CHUNK = 65_536;
const LINK = 4096;
// The looks of a cell, from its byte 30 on, by the numbers of SGR; underlined ones are 4:N.
const LOOKS = [1, 2, 3, 5, 7, 8, 9, 53];
const encoder = new TextEncoder();
const decoder = new TextDecoder();

/** Returns the calls of the module at an address, or undefined where it is not there. */
export async function callsAt(url) {
  const answer = await fetch(url);
  if (!answer.ok) return undefined;
  const { instance } = await WebAssembly.instantiate(await answer.arrayBuffer(), {});
  return instance.exports;
}

/* A colour as parameters of SGR: of 38, 48 or 58. */
function color(what, number) {
  if (number >= 0x2000000) {
    return `;${what}:2::${(number >> 16) & 255}:${(number >> 8) & 255}:${number & 255}`;
  }
  return number >= 0x1000000 ? `;${what}:5:${number & 255}` : "";
}

/** A screen of so many columns and rows. */
export class Screen {
  #calls;
  #at;
  #state;
  #cells;
  #room;

  constructor(calls, columns, rows) {
    this.#calls = calls;
    this.columns = columns;
    this.rows = rows;
    this.#at = this.#take(SCREEN);
    this.#state = this.#take(STATE);
    this.#cells = this.#take(CELL * columns);
    this.#room = this.#take(CHUNK);
    new Uint8Array(calls.memory.buffer, this.#at, SCREEN).fill(0);
    this.#done(calls.screen_begin(this.#at, columns, rows));
  }

  #take(size) {
    const at = this.#calls.take(size) >>> 0;
    if (at === 0) throw new RangeError("a request for memory was refused");
    return at;
  }

  #done(status) {
    if (status !== 0) throw new RangeError("a request for memory was refused");
  }

  /** Takes the next text of the stream. */
  feed(text) {
    const bytes = encoder.encode(text);
    for (let from = 0; from < bytes.length; from += CHUNK) {
      const chunk = bytes.subarray(from, from + CHUNK);
      new Uint8Array(this.#calls.memory.buffer).set(chunk, this.#room);
      this.#done(this.#calls.screen_feed(this.#at, this.#room, chunk.length));
    }
  }

  /** The rows of the screen, each as a stream of characters, renditions and links alone. */
  streams() {
    this.#done(this.#calls.screen_state(this.#at, this.#state));
    const view = new DataView(this.#calls.memory.buffer);
    const at = this.#state;
    const isShown = view.getUint8(at + 41) !== 0;
    const cursor = isShown ? [view.getUint16(at + 36, true), view.getUint16(at + 38, true)] : [];
    const isReversed = view.getUint8(at + 43) !== 0;
    const all = [];
    for (let row = 0; row < this.rows; row++) {
      all.push(this.#stream(row, row === cursor[0] ? cursor[1] : -1, isReversed));
    }
    return all;
  }

  /* A row as such a stream, with the cell of the cursor in reverse video. */
  #stream(row, cursor, isReversed) {
    const count = this.#calls.screen_cells(this.#at, row, this.#cells, this.columns);
    const end = this.#cells + CELL * Math.min(count, this.columns);
    const view = new DataView(this.#calls.memory.buffer.slice(this.#cells, end));
    const runs = [];
    let last;
    for (let at = 0, i = 0; at < view.byteLength; at += CELL, i++) {
      const word = (offset) => view.getUint32(at + offset, true);
      if (view.getUint8(at + 28) === 0 && i > 0) continue;
      const look = this.#look(view, at, (i === cursor) !== isReversed);
      if (look !== last) runs.push(look);
      last = look;
      const marks = [word(4), word(8)].filter((it) => it !== 0);
      runs.push(String.fromCodePoint(word(0) || 0x20, ...marks));
    }
    return `${runs.join("")}\x1b[0m\x1b]8;;\x1b\\`;
  }

  /* The sequences that begin the look of a cell and its link. */
  #look(view, at, isInverse) {
    const parameters = LOOKS.filter((sgr, i) => {
      const is = view.getUint8(at + 30 + i) !== 0;
      return sgr === 7 ? is !== isInverse : is;
    });
    const underline = view.getUint8(at + 29);
    if (underline !== 0) parameters.push(`4:${underline}`);
    const colors = [38, 48, 58].map((it, i) => color(it, view.getUint32(at + 12 + 4 * i, true)));
    const link = this.#link(view.getUint32(at + 24, true));
    return `\x1b[0${parameters.map((it) => `;${it}`).join("")}${colors.join("")}m${link}`;
  }

  #link(number) {
    if (number === 0) return "\x1b]8;;\x1b\\";
    const length = this.#calls.screen_link(this.#at, number, this.#room, LINK);
    if (length > LINK) return "\x1b]8;;\x1b\\";
    const bytes = new Uint8Array(this.#calls.memory.buffer, this.#room, length);
    return `\x1b]8;;${decoder.decode(bytes)}\x1b\\`;
  }

  /** Gives back what it keeps. No call follows. */
  dispose() {
    this.#calls.screen_end(this.#at);
    for (const it of [this.#at, this.#state, this.#cells, this.#room]) this.#calls.give(it);
  }
}
