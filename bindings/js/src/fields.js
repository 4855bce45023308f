// SPDX-License-Identifier: MIT
// The fields of a command or an image, taken one after another. The numbers are those of
// escape_stream.h.
import { textOf } from "./chunks.js";
import { done, give, memory, take } from "./wasm.js";

const NAMES = `TEXT PART DIRECTORY URI IMPLICIT KEY VALUE SELECTION PALETTE_INDEX DYNAMIC_COLOR RED
  GREEN BLUE QUERY PROGRESS_STATE PERCENT APPLICATION CLICK PROMPT_KIND STATUS NAME HIGHLIGHTED
  CELL_HEIGHT CELL_WIDTH SCALE SIZE WIDTH_CELLS WIDTH_PIXELS WIDTH_PERCENT HEIGHT_CELLS
  HEIGHT_PIXELS HEIGHT_PERCENT PRESERVE_ASPECT_RATIO INLINE DO_NOT_MOVE_CURSOR CONTENT VERSION
  LABEL MEDIUM DATA_SIZE DATA_OFFSET FORMAT PIXEL_WIDTH PIXEL_HEIGHT IMAGE_ID IMAGE_NUMBER
  COMPRESSION MORE_DATA_FOLLOWS X Y WIDTH HEIGHT X_OFFSET Y_OFFSET COLUMNS ROWS PLACEMENT_ID
  Z_INDEX UNICODE_PLACEHOLDER BASE_FRAME FRAME_NUMBER DURATION COMPOSITION_MODE BACKGROUND_PIXEL
  TARGET_FRAME SOURCE_FRAME SOURCE_X SOURCE_Y DELETES_DATA FIRST_IMAGE_ID LAST_IMAGE_ID
  VERBOSITY`.split(/\s+/);

const FIELD = 32;
const VALUE_NUMBER = 0;
const VALUE_TEXT = 1;

/* Fields in their order. Each call takes the next one, where it has this name. */
class Fields {
  constructor(rows) {
    this.rows = rows;
    this.at = 0;
  }

  has(name) {
    return this.at < this.rows.length && this.rows[this.at].name === name;
  }

  /** The value of the next field, which has this name. */
  get(name) {
    if (!this.has(name)) throw new Error(`escape-stream: a command has no field ${name}`);
    return this.rows[this.at++].value;
  }

  /** The same, or null where the next field has another name. */
  optional(name) {
    return this.has(name) ? this.get(name) : null;
  }

  flag(name) {
    return this.get(name) !== 0;
  }

  /** A text. */
  text(name) {
    return textOf(this.get(name));
  }

  optionalText(name) {
    return this.has(name) ? this.text(name) : null;
  }

  /** Returns the values that `one` takes, one for each field of this name. */
  all(name, one) {
    const found = [];
    while (this.has(name)) found.push(one(this));
    return found;
  }

  check() {
    if (this.at < this.rows.length) throw new Error("escape-stream: a command has more fields");
  }
}

// Room for what a call writes, which grows where more is needed.
class Room {
  at = 0;
  size = 0;

  of(size) {
    if (size > this.size) {
      this.shrink(0);
      this.at = take(size);
      this.size = size;
    }
    return this.at;
  }

  /* Gives back what is more than so many bytes. */
  shrink(size) {
    if (this.size > size) {
      give(this.at);
      this.size = this.at = 0;
    }
  }
}

const KEPT = 1 << 18;
const input = new Room();
const head = new Room();
const rows = new Room();
const texts = new Room();

/** Puts a text into the memory, and returns where it is. */
export function placed(text) {
  const at = input.of(Math.max(text.length, 16));
  memory().bytes.set(text, at);
  return at;
}

/** Gives back the room that much text took. */
export function shrink() {
  for (const room of [input, rows, texts]) room.shrink(KEPT);
}

/** Where a call writes a value of so many bytes: zero at first. */
export function headOf(size) {
  const at = head.of(128);
  memory().bytes.fill(0, at, at + size);
  return at;
}

/** Room for so many bytes of rows, which need not be zero. */
export const rowsOf = (size) => rows.of(Math.max(size, 16));

const low = (at) => memory().words[at >> 2];

/* The fields in the rows. */
function fieldsIn(rowsAt, count, textsAt) {
  const { bytes, words, data } = memory();
  const found = [];
  for (let at = rowsAt; at < rowsAt + count * FIELD; at += FIELD) {
    const word = at >> 2;
    const kind = words[word + 1];
    let value;
    if (kind === VALUE_NUMBER) {
      value = Number(data.getBigInt64(at + 8, true));
    } else if (kind === VALUE_TEXT) {
      const from = textsAt + words[word + 4];
      value = bytes.slice(from, from + words[word + 6]);
    } else {
      value = Number(data.getBigUint64(at + 24, true));
    }
    found.push({ name: NAMES[words[word]], value });
  }
  return found;
}

/**
 * The value of a text: what a call says of it, made by `value` of its kind and its fields. The call
 * writes a struct that begins with the kind, where `isNamed`, and counts fields and bytes.
 */
export function read(call, text, isNamed, value) {
  const at = placed(text);
  const out = headOf(24);
  const counts = out + (isNamed ? 8 : 0);
  let fieldRoom = 8;
  let textRoom = Math.max(text.length, 16);
  for (;;) {
    const rowsAt = rowsOf(fieldRoom * FIELD);
    const textsAt = texts.of(textRoom);
    done(call(at, text.length, out, rowsAt, fieldRoom, textsAt, textRoom));
    const [count, length] = [low(counts), low(counts + 8)];
    if (count <= fieldRoom && length <= textRoom) {
      const fields = new Fields(fieldsIn(rowsAt, count, textsAt));
      const found = value(isNamed ? low(out) : 0, fields);
      fields.check();
      shrink();
      return found;
    }
    fieldRoom = Math.max(count, fieldRoom);
    textRoom = Math.max(length, textRoom);
  }
}
