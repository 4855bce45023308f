// SPDX-License-Identifier: MIT
// The calls, with the module that lies beside this file.
import { use } from "./core.js";

export * from "./core.js";

/* The bytes of a file of this folder, in Node, Deno and browsers. */
async function bytesOf(url) {
  const isNode = typeof process === "object" && process.versions?.node !== undefined;
  if (url.protocol === "file:" && isNode) {
    // A bundler leaves this import as it is.
    const name = "node:fs/promises";
    const { readFile } = await import(/* webpackIgnore: true */ /* @vite-ignore */ name);
    return readFile(url);
  }
  const answer = await fetch(url);
  if (!answer.ok) throw new Error(`escape-stream: ${url.href} is not there`);
  return answer;
}

await use(bytesOf(new URL("./escape_stream.wasm", import.meta.url)));
