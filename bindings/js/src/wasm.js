// SPDX-License-Identifier: MIT
// The module, its memory and its statuses. Nothing but the files of this folder names its calls.

const MISSING = {
  get() {
    throw new Error("escape-stream: call `use` with the module first, or import escape-stream");
  },
};

/** The calls of the module, once it is there. */
export let calls = new Proxy({}, MISSING);
let isThere = false;
let views;

/**
 * Takes the module: its bytes, a response with them, a compiled one, or a promise of one of these.
 */
export async function use(source) {
  const given = await source;
  if (isThere) throw new Error("escape-stream: the module is there");
  const isResponse = typeof Response === "function" && given instanceof Response;
  const module = isResponse ? await given.arrayBuffer() : given;
  try {
    const made = await WebAssembly.instantiate(module, {});
    calls = (made.instance ?? made).exports;
    isThere = true;
  } catch (error) {
    if (!(error instanceof WebAssembly.CompileError)) throw error;
    const oldest = "Chrome 85, Firefox 79, Safari 15 or Node 16 at least";
    throw new Error(`escape-stream wants a newer WebAssembly: ${oldest}`, { cause: error });
  }
}

/** Views of the memory as it now is. One that has grown leaves views of no length behind. */
export function memory() {
  if (views === undefined || views.bytes.length === 0) {
    const { buffer } = calls.memory;
    views = {
      bytes: new Uint8Array(buffer),
      words: new Uint32Array(buffer),
      data: new DataView(buffer),
    };
  }
  return views;
}

/** Returns a block of so many bytes. */
export function take(size) {
  const at = calls.take(size) >>> 0;
  if (at === 0) throw new RangeError("escape-stream: a request for memory was refused");
  return at;
}

export const give = (at) => calls.give(at);

/** Throws what a status says, where the call was not done. */
export function done(status, what) {
  if (status === 0) return;
  if (status === 1) throw new RangeError("escape-stream: a request for memory was refused");
  if (status === 3) throw new TypeError(`escape-stream: the ${what} is disposed of`);
  throw new Error(`escape-stream: status ${status}`);
}

/** How many bytes of a string are kept, where no limit is given. */
export const DEFAULT_LIMIT = 1_048_576;

/** Returns a limit, where the library can take it. */
export function limitOf(limit = DEFAULT_LIMIT) {
  if (Number.isInteger(limit) && limit >= 0 && limit <= 1 << 29) return limit;
  throw new RangeError("escape-stream: a limit is a whole number from 0 to 536870912");
}

// Gives back what an object kept that nothing names any more.
const forgotten = new FinalizationRegistry((free) => free());

/** Keeps blocks of the memory until it is disposed of, or nothing names it any more. */
export class Kept {
  #free;
  #what;

  constructor(what, free) {
    this.#what = what;
    this.#free = free;
    forgotten.register(this, free, this);
  }

  /** Gives back what it keeps. It may be called twice; every other call after it throws. */
  dispose() {
    if (this.#free === undefined) return;
    forgotten.unregister(this);
    this.#free();
    this.#free = undefined;
  }

  /** Throws where it is disposed of. */
  check() {
    if (this.#free === undefined) done(3, this.#what);
  }
}

if (typeof Symbol.dispose === "symbol") {
  Kept.prototype[Symbol.dispose] = Kept.prototype.dispose;
}
