// SPDX-License-Identifier: MIT
// Recordings of asciinema, versions 2 and 3: what they wrote, and when. It knows no page.

// The largest screen that is played, and the longest pause of one, in seconds.
const MOST = 1000;
const LONGEST_PAUSE = 2;

/* The value of a line, or undefined where it is no JSON. */
function parsed(line) {
  try {
    return JSON.parse(line);
  } catch {
    return undefined;
  }
}

const isOutput = (it) => Array.isArray(it) && it[1] === "o" && typeof it[2] === "string";
const isSize = (it) => Number.isInteger(it) && it >= 1 && it <= MOST;

/* The columns and rows of a recording, or undefined where it names none that are played. */
function sizeOf({ version, width, height, term }) {
  const [columns, rows] = version === 2 ? [width, height] : [term?.cols, term?.rows];
  return isSize(columns) && isSize(rows) ? { columns, rows } : undefined;
}

/* The outputs, each with its time from the beginning on, as it is played. */
function outputsOf(lines, version) {
  const outputs = [];
  let before = 0;
  let time = 0;
  for (const event of lines) {
    if (!Array.isArray(event)) continue;
    const given = Number.isFinite(event[0]) ? event[0] : 0;
    const pause = version === 2 ? given - before : given;
    if (version === 2) before = Math.max(before, given);
    time += Math.min(Math.max(pause, 0), LONGEST_PAUSE);
    if (isOutput(event)) outputs.push({ time, text: event[2] });
  }
  return outputs;
}

/**
 * The stream of a file: of a recording the bytes that it wrote, with its outputs and the size of
 * its screen, and of anything else the file.
 */
export function streamOf(bytes) {
  if (bytes[0] !== 0x7b) return { bytes };
  const text = new TextDecoder().decode(bytes);
  const end = text.indexOf("\n");
  const head = parsed(end < 0 ? text : text.slice(0, end));
  if (head?.version !== 2 && head?.version !== 3) return { bytes };
  const outputs = outputsOf(text.slice(end + 1).split("\n").map(parsed), head.version);
  const output = outputs.map((it) => it.text).join("");
  const recording = { outputs, size: sizeOf(head) };
  return { bytes: new TextEncoder().encode(output), recording };
}
