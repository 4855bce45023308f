// SPDX-License-Identifier: MIT
// The filter of logs with the options of `escfilter`, and the account of every byte.
import { AsGiven, policyOf, sinkOf } from "./texts.js";
import { calls, done, give, limitOf, memory, take } from "./wasm.js";

// Each word's place is its bit.
const GROUPS = `characters layout sgr hidden links controls cursor erase scroll modes charsets
  palette titles clipboard images other`.split(/\s+/);
const SCHEMES = ["http", "https", "mailto"];
// Each word's place is its number; the first is the choice of the policy.
const FRAMINGS = [undefined, "lines", "whole", "lines-reset"];
const CHARACTERS = [undefined, "keep", "join", "show", "drop"];
const RETURNS = [undefined, "keep", "show", "drop"];
const MARKINGS = [undefined, "plain", "escaped", "reversed"];
const ENCODINGS = `utf-8 utf-8-c1 latin-1 latin-1-c1 windows-1250 windows-1251 windows-1252
  windows-1253 windows-1254 windows-1255 windows-1256 windows-1257 windows-1258
  utf-16 utf-16le utf-16be`.split(/\s+/);
const FATES = `passed respelled shown replaced leftOut swallowed overwritten length`.split(" ");
const MOST_ROWS = 4096;
const MOST_COLUMNS = 16384;

function numberOf(words, word, option) {
  const number = words.indexOf(word);
  if (number >= 0) return number;
  throw new TypeError(`escape-stream: the option ${option} is none: ${word}`);
}

function bitsOf(words, given, option) {
  if (!Array.isArray(given)) throw new TypeError(`escape-stream: the option ${option} is no list`);
  return given.reduce((bits, word) => bits | (1 << numberOf(words, word, option)), 0);
}

function within(number, least, most, option) {
  if (Number.isInteger(number) && number >= least && number <= most) return number;
  throw new RangeError(`escape-stream: ${option} is a whole number from ${least} to ${most}`);
}

const isUtf8 = (encoding) => encoding.startsWith("utf-8");

/* The options as struct escape_stream_sanitizer_options has them, in words of 32 bits. */
function wordsOf(policy, options) {
  const { limit, allow = [], deny = [], links = [], framing, characters, returns, show } = options;
  const { encoding = "utf-8", rows = 0, columns = 512, account = true } = options;
  const words = [
    policyOf(policy),
    limitOf(limit),
    0,
    bitsOf(GROUPS, allow, "allow"),
    bitsOf(GROUPS, deny, "deny"),
    bitsOf(SCHEMES, links, "links"),
    numberOf(FRAMINGS, framing, "framing"),
    numberOf(CHARACTERS, characters, "characters"),
    numberOf(RETURNS, returns, "returns"),
    numberOf(ENCODINGS, encoding, "encoding"),
    numberOf(MARKINGS, show, "show"),
    within(rows, 0, MOST_ROWS, "rows"),
    within(columns, 1, MOST_COLUMNS, "columns"),
    account ? 1 : 0,
    0,
  ];
  return [4 + 4 * words.length, ...words];
}

/* Calls `act` with the place of a block of so many bytes, and gives it back. */
function withBlock(size, act) {
  const at = take(size);
  try {
    return act(at);
  } finally {
    give(at);
  }
}

function begin(at, words) {
  return withBlock(4 * words.length, (options) => {
    memory().words.set(words, options >> 2);
    return calls.sanitizer_begin(at, options);
  });
}

export class Sanitizer extends AsGiven {
  #takesStrings;
  #hasEnded = false;

  constructor(policy = "color", options = {}) {
    const words = wordsOf(policy, options);
    super("sanitizer", "sanitizer", (at) => begin(at, words));
    this.#takesStrings = isUtf8(options.encoding ?? "utf-8");
  }

  put(chunk, to) {
    if (typeof chunk === "string" && !this.#takesStrings) {
      throw new TypeError("escape-stream: a string has no encoding but UTF-8");
    }
    this.#checkEnd();
    super.put(chunk, to);
  }

  putEnd(to) {
    this.#checkEnd();
    super.putEnd(to);
    this.#hasEnded = true;
  }

  account() {
    const { place } = this;
    return withBlock(8 * FATES.length, (at) => {
      done(calls.sanitizer_account(place, at), "sanitizer");
      const { data } = memory();
      const count = (i) => Number(data.getBigUint64(at + 8 * i, true));
      return Object.fromEntries(FATES.map((fate, i) => [fate, count(i)]));
    });
  }

  #checkEnd() {
    this.check();
    if (this.#hasEnded) throw new TypeError("escape-stream: the sanitizer has ended");
  }
}

export function sanitize(stream, policy, options) {
  const it = new Sanitizer(policy, options);
  try {
    const to = sinkOf(stream);
    it.put(stream, to);
    it.putEnd(to);
    return { text: to.all(), account: it.account() };
  } finally {
    it.dispose();
  }
}
