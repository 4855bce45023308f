// SPDX-License-Identifier: MIT
// Control functions by name.
import { headOf } from "./fields.js";
import { textOf } from "./chunks.js";
import { calls, memory } from "./wasm.js";

// The rows that were asked for before, which are few.
const rows = new Map();
const MOST = 4096;

function textAt(at) {
  const { bytes } = memory();
  return textOf(bytes.subarray(at, bytes.indexOf(0, at)));
}

function rowAt(at) {
  const { bytes } = memory();
  return Object.freeze({
    name: textAt(at),
    phrase: textAt(at + 16),
    changesScreen: bytes[at + 96] !== 0,
    isAnswered: bytes[at + 97] !== 0,
  });
}

/* The row that a call writes, where it writes one; it is kept under a key. */
function row(key, call) {
  let found = rows.get(key);
  if (found === undefined) {
    const at = headOf(98);
    found = call(at) !== 0 ? rowAt(at) : null;
    if (rows.size < MOST) rows.set(key, found);
  }
  return found;
}

const code = (mark) => (mark === "" ? 0 : mark.charCodeAt(0));

/* How many parameters a sequence has, and separators between them. */
function countOf(parameters) {
  const numbers = parameters.flat();
  return numbers.filter((it) => it !== null).length + Math.max(numbers.length - 1, 0);
}

function sequence(prefix, parameters, intermediates, final) {
  if (prefix.length > 1 || intermediates.length > 1) return null;
  const marks = [code(prefix), code(intermediates), code(final)];
  // The count matters from none to two.
  const count = Math.min(countOf(parameters), 2);
  const call = (at) => calls.function(...marks, count, at);
  return row(`[${prefix}${intermediates}${final}${count}`, call);
}

function escape(intermediates, final) {
  if (intermediates.length > 1) return null;
  const marks = [code(intermediates), code(final)];
  return row(`E${intermediates}${final}`, (at) => calls.escape_function(...marks, at));
}

function control(byte) {
  // ECMA-48, 5.3: a C1 control has the function of ESC and the byte 40 (hexadecimal) less.
  if (byte >= 0x80) return byte < 0xa0 ? escape("", String.fromCharCode(byte - 0x40)) : null;
  return row(`C${byte}`, (at) => calls.control_function(byte, at));
}

export function functionOf(it) {
  switch (it.type) {
    case "Csi":
      return it.hasMore ? null : sequence(it.prefix, it.parameters, it.intermediates, it.final);
    case "CSI":
      if (it.parametersTruncated) return null;
      return sequence(it.prefix, it.params, it.intermediates, it.control);
    case "Escape":
      return it.hasMore ? null : escape(it.intermediates, it.final);
    case "Esc":
      return escape(it.intermediate ?? "", it.control);
    case "Control":
      return control(it.byte);
    default:
      return null;
  }
}
