// SPDX-License-Identifier: MIT
// Control strings by name.
import { STRING_ROWS } from "./string_rows.js";

const rows = STRING_ROWS.map(([kind, key, begin, start, name, phrase]) => {
  return { kind, key, begin, start, row: Object.freeze({ name, phrase }) };
});

export const controlStrings = Object.freeze(rows.map((it) => it.row));

// The beginning of a row has no other bytes than ASCII.
const decoder = new TextDecoder("latin1");
const SEMICOLON = 0x3b;
const MOST_DIGITS = 32;
const MOST_NUMBER = 999_999_999;

/* The bytes up to the first `;`, and those after it. */
function cut(text) {
  const at = text.indexOf(SEMICOLON);
  const end = at < 0 ? text.length : at;
  return [text.subarray(0, end), text.subarray(end + 1)];
}

function fits({ begin, start }, only, text) {
  const head = () => decoder.decode(text.subarray(0, start.length + 1));
  switch (begin) {
    case "Part":
      return head() === start || head() === `${start};` || head() === `${start}=`;
    case "Bytes":
      return head().startsWith(start);
    case "Parameter":
      return String(only) === start;
    case "Key":
      return decoder.decode(cut(text)[0]).split(",").includes(start);
    default:
      return true;
  }
}

function find(kind, key, only, text) {
  const found = rows.find((it) => it.kind === kind && it.key === key && fits(it, only, text));
  return found?.row ?? null;
}

function command(text) {
  const [first, rest] = cut(text);
  const digits = decoder.decode(first.subarray(0, MOST_DIGITS));
  if (!/^[0-9]+$/.test(digits)) return find("Letter", text[0], null, text.subarray(1));
  const number = first.length < MOST_DIGITS ? Number(digits) : Infinity;
  return number <= MOST_NUMBER ? find("Osc", number, null, rest) : null;
}

function device({ parameters, intermediates, final }, data) {
  const key = [...intermediates, final].reduce((sum, it) => sum * 256 + it.charCodeAt(0), 1);
  return find("Dcs", key, parameters.length === 1 ? parameters[0] : null, data);
}

export function controlStringOf(it, data = new Uint8Array()) {
  switch (it.type) {
    case "Osc":
      return it.text.length > 0 ? command(it.text) : null;
    case "Apc":
      return it.text.length > 0 ? find("Apc", it.text[0], null, it.text.subarray(1)) : null;
    case "Dcs":
      return it.hasMore ? null : device(it, data);
    default:
      return null;
  }
}
