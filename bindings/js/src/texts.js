// SPDX-License-Identifier: MIT
// Objects that take a stream in chunks and give a text for each: a filter, a page, the normal form;
// a sanitizer is in sanitizer.js.
import { Bytes, CHUNK, Chunks, Text, rooms } from "./chunks.js";
import { Kept, calls, done, give, limitOf, memory, take } from "./wasm.js";

// How many bytes the struct of each has.
const STRUCT = 16;
const POLICIES = { text: 0, color: 1, screen: 2, all: 3 };

export function policyOf(policy) {
  if (Object.hasOwn(POLICIES, policy)) return POLICIES[policy];
  throw new TypeError(`escape-stream: no such policy: ${policy}`);
}

/* The base of those that give text. */
class InChunks extends Kept {
  #name;
  #what;
  #at;
  #chunks = new Chunks();

  constructor(name, what, begin) {
    const at = take(STRUCT);
    memory().bytes.fill(0, at, at + STRUCT);
    const free = () => {
      calls[`${name}_end`](at);
      give(at);
    };
    super(what, free);
    this.#name = name;
    this.#what = what;
    this.#at = at;
    try {
      done(begin(at), what);
    } catch (error) {
      this.dispose();
      throw error;
    }
  }

  /* Where its struct lies. */
  get place() {
    this.check();
    return this.#at;
  }

  /* Takes a chunk, and puts the text that it adds into `to`. */
  put(chunk, to) {
    this.check();
    this.#chunks.put(chunk, (length) => this.#feed(length, to));
  }

  /* Ends the stream, and puts the text that its end adds into `to`. */
  putEnd(to) {
    this.check();
    this.#chunks.end((length) => this.#feed(length, to));
    done(calls[`${this.#name}_finish`](this.#at), this.#what);
    this.#push(to);
  }

  /* Takes a chunk, and returns the text that it adds, as `to` gathers it. */
  fed(chunk, to) {
    this.put(chunk, to);
    return to.all();
  }

  /* The same of the end. */
  finished(to) {
    this.putEnd(to);
    return to.all();
  }

  #feed(length, to) {
    const feed = calls[`${this.#name}_feed`];
    done(feed(this.#at, rooms().chunk, length), this.#what);
    this.#push(to);
  }

  #push(to) {
    const output = calls[`${this.#name}_output`];
    const { text: room } = rooms();
    for (let from = 0; ; ) {
      const count = output(this.#at, from, room, CHUNK);
      if (count === 0) return;
      to.push(memory().bytes.subarray(room, room + count));
      from += count;
    }
  }
}

export const sinkOf = (chunk) => (typeof chunk === "string" ? new Text() : new Bytes());

/* One that gives strings for strings, and bytes for bytes. */
export class AsGiven extends InChunks {
  #isText = false;

  feed(chunk) {
    this.#isText = typeof chunk === "string";
    return this.fed(chunk, sinkOf(chunk));
  }

  /** Ends the stream: what its end adds, as a string after a string. */
  finish() {
    return this.finished(this.#isText ? new Text() : new Bytes());
  }
}

export class Filter extends AsGiven {
  constructor(policy = "text", { limit } = {}) {
    const number = policyOf(policy);
    const most = limitOf(limit);
    super("filter", "filter", (at) => calls.filter_begin(at, number, most));
  }
}

export class Normaliser extends AsGiven {
  constructor({ limit } = {}) {
    const most = limitOf(limit);
    super("normal", "normaliser", (at) => calls.normal_begin(at, most));
  }
}

export class HtmlWriter extends InChunks {
  constructor({ perLine = false, inline = false, limit } = {}) {
    const flags = [perLine ? 1 : 0, inline ? 1 : 0, limitOf(limit)];
    super("html", "page", (at) => calls.html_begin(at, ...flags));
  }

  feed(chunk) {
    return this.fed(chunk, new Text());
  }

  finish() {
    return this.finished(new Text());
  }
}

/* Returns the text of a whole stream, with its end or without. */
function whole(taker, stream, withEnd) {
  try {
    const text = taker.feed(stream);
    return withEnd ? text + taker.finish() : text;
  } finally {
    taker.dispose();
  }
}

export const filter = (stream, policy, options) => whole(new Filter(policy, options), stream);

export const strip = (stream, options) => filter(stream, "text", options);

export const normal = (stream, options) => whole(new Normaliser(options), stream);

export const toHtml = (stream, options) => whole(new HtmlWriter(options), stream, true);
