// SPDX-License-Identifier: MIT
// The module as hosts hand it over: compiled, as bytes, and as a response.
import assert from "node:assert/strict";
import { execFileSync } from "node:child_process";
import { readFile } from "node:fs/promises";
import test from "node:test";
import { Worker } from "node:worker_threads";
import { use } from "../index.js";

const CORE = new URL("../core.js", import.meta.url).href;
const MODULE = new URL("../escape_stream.wasm", import.meta.url);

/* Returns the output of a program that has the calls without the module, and its bytes. */
function said(program) {
  const text = `import { readFile } from "node:fs/promises";
    const { strip, use } = await import(${JSON.stringify(CORE)});
    const bytes = await readFile(new URL(${JSON.stringify(MODULE.href)}));
    ${program}`;
  return execFileSync(process.execPath, ["--input-type=module", "-e", text], { encoding: "utf8" });
}

test("each form of the module", () => {
  const forms = [
    "bytes", "new WebAssembly.Module(bytes)", "new Response(bytes)", "Promise.resolve(bytes)",
  ];
  for (const form of forms) {
    assert.equal(said(`await use(${form}); console.log(strip("a\\x1b[1mb"));`), "ab\n", form);
  }
});

test("no module, and what is none", () => {
  const program = 'try { strip("a"); } catch (error) { console.log(error.message); }';
  assert.match(said(program), /call `use`/);
  const other = 'await use(new Uint8Array(8)).catch((error) => console.log(error.message));';
  assert.match(said(other), /wants a newer WebAssembly/);
});

test("a module is there once", async () => {
  await assert.rejects(use(readFile(MODULE)), /is there/);
});

test("in a worker", async () => {
  const index = new URL("../index.js", import.meta.url).href;
  const text = `const { parentPort } = require("node:worker_threads");
    import(${JSON.stringify(index)}).then((it) => parentPort.postMessage(it.strip("a\\x1b[1mb")));`;
  const worker = new Worker(text, { eval: true });
  assert.equal(await new Promise((go, stop) => worker.on("message", go).on("error", stop)), "ab");
  await worker.terminate();
});
