// SPDX-License-Identifier: MIT
// Images of kitty's graphics protocol, sixel images and termcap queries as plain objects, under the
// names of termwiz.
import { headOf, placed, read, rowsOf, shrink } from "./fields.js";
import { bytesOf, textOf } from "./chunks.js";
import { calls, done, give, memory, take } from "./wasm.js";

const VERBOSITIES = ["Verbose", "OnlyErrors", "Quiet"];
const FORMATS = { 24: "Rgb", 32: "Rgba", 100: "Png" };
const COMPRESSIONS = ["None", "Deflate"];
const MODES = ["AlphaBlending", "Overwrite"];
const MEDIA = ["Direct", "DirectBin", "File", "TemporaryFile", "SharedMem"];

const verbosity = (f) => ({ verbosity: VERBOSITIES[f.get("VERBOSITY")] });

/* Returns the content, by its medium. */
function content(f) {
  const bytes = f.get("CONTENT");
  const type = MEDIA[f.get("MEDIUM")];
  const [dataSize, dataOffset] = [f.optional("DATA_SIZE"), f.optional("DATA_OFFSET")];
  if (type === "Direct") return { type, text: textOf(bytes) };
  if (type === "DirectBin") return { type, data: bytes };
  const place = type === "SharedMem" ? { name: textOf(bytes) } : { path: textOf(bytes) };
  return { type, ...place, dataSize, dataOffset };
}

function transmit(f) {
  const data = content(f);
  const format = f.has("FORMAT") ? FORMATS[f.get("FORMAT")] : null;
  return {
    format,
    data,
    width: f.optional("PIXEL_WIDTH"),
    height: f.optional("PIXEL_HEIGHT"),
    imageId: f.optional("IMAGE_ID"),
    imageNumber: f.optional("IMAGE_NUMBER"),
    compression: COMPRESSIONS[f.get("COMPRESSION")],
    moreDataFollows: f.flag("MORE_DATA_FOLLOWS"),
  };
}

const placement = (f) => ({
  x: f.optional("X"),
  y: f.optional("Y"),
  w: f.optional("WIDTH"),
  h: f.optional("HEIGHT"),
  xOffset: f.optional("X_OFFSET"),
  yOffset: f.optional("Y_OFFSET"),
  columns: f.optional("COLUMNS"),
  rows: f.optional("ROWS"),
  placementId: f.optional("PLACEMENT_ID"),
  doNotMoveCursor: f.flag("DO_NOT_MOVE_CURSOR"),
  zIndex: f.optional("Z_INDEX"),
  unicodePlaceholder: f.flag("UNICODE_PLACEHOLDER"),
});

const frame = (f) => ({
  x: f.optional("X"),
  y: f.optional("Y"),
  baseFrame: f.optional("BASE_FRAME"),
  frameNumber: f.optional("FRAME_NUMBER"),
  durationMs: f.optional("DURATION"),
  compositionMode: MODES[f.get("COMPOSITION_MODE")],
  backgroundPixel: f.optional("BACKGROUND_PIXEL"),
});

const composed = (f) => ({
  imageId: f.optional("IMAGE_ID"),
  imageNumber: f.optional("IMAGE_NUMBER"),
  targetFrame: f.optional("TARGET_FRAME"),
  sourceFrame: f.optional("SOURCE_FRAME"),
  x: f.optional("X"),
  y: f.optional("Y"),
  w: f.optional("WIDTH"),
  h: f.optional("HEIGHT"),
  srcX: f.optional("SOURCE_X"),
  srcY: f.optional("SOURCE_Y"),
  compositionMode: MODES[f.get("COMPOSITION_MODE")],
});

const displayed = (f) => ({
  imageId: f.optional("IMAGE_ID"),
  imageNumber: f.optional("IMAGE_NUMBER"),
  placement: placement(f),
});

// A deletion, whose fields are these.
const deletion = (type, more) => (f) => {
  const what = { type, ...more?.(f), delete: f.flag("DELETES_DATA") };
  return { type: "Delete", what, ...verbosity(f) };
};

const byId = (f) => ({ imageId: f.get("IMAGE_ID"), placementId: f.optional("PLACEMENT_ID") });
const byNumber = (f) => {
  return { imageNumber: f.get("IMAGE_NUMBER"), placementId: f.optional("PLACEMENT_ID") };
};
const range = (f) => ({ first: f.get("FIRST_IMAGE_ID"), last: f.get("LAST_IMAGE_ID") });
const atXY = (f) => ({ x: f.get("X"), y: f.get("Y") });

// Each kind, by its number.
const IMAGES = [
  () => null,
  (f) => ({ type: "TransmitData", transmit: transmit(f), ...verbosity(f) }),
  (f) => ({
    type: "TransmitDataAndDisplay",
    transmit: transmit(f),
    placement: placement(f),
    ...verbosity(f),
  }),
  (f) => ({ type: "Display", ...displayed(f), ...verbosity(f) }),
  (f) => ({ type: "Query", transmit: transmit(f) }),
  (f) => ({ type: "TransmitFrame", transmit: transmit(f), frame: frame(f), ...verbosity(f) }),
  (f) => ({ type: "ComposeFrame", frame: composed(f), ...verbosity(f) }),
  deletion("All"),
  deletion("ByImageId", byId),
  deletion("ByImageNumber", byNumber),
  deletion("AtCursorPosition"),
  deletion("AnimationFrames"),
  deletion("DeleteAt", atXY),
  deletion("DeleteAtZ", (f) => ({ ...atXY(f), z: f.get("Z_INDEX") })),
  deletion("DeleteColumn", (f) => ({ x: f.get("X") })),
  deletion("DeleteRow", (f) => ({ y: f.get("Y") })),
  deletion("DeleteZ", (f) => ({ z: f.get("Z_INDEX") })),
  deletion("ByImageIdRange", range),
];

export function image(text) {
  return read(calls.read_kitty, bytesOf(text), true, (kind, fields) => IMAGES[kind](fields));
}

export function termcapQuery(data) {
  const names = (_, f) => f.all("NAME", () => f.text("NAME"));
  return read(calls.read_tcap, bytesOf(data), false, names);
}

const ITEM = 20;

/* The item of a sixel image at a place. */
function itemAt({ bytes, words, data }, at) {
  const pixels = bytes[at + 12];
  const colorNumber = data.getUint16(at + 8, true);
  switch (words[at >> 2]) {
    case 0:
      return { type: "Data", data: pixels };
    case 1:
      return { type: "Repeat", repeatCount: words[(at >> 2) + 1], data: pixels };
    case 2: {
      const [red, green, blue] = bytes.subarray(at + 13, at + 16);
      return { type: "DefineColorMapRGB", colorNumber, rgb: { red, green, blue } };
    }
    case 3: {
      const hueAngle = data.getUint16(at + 10, true);
      const [lightness, saturation] = bytes.subarray(at + 16, at + 18);
      return { type: "DefineColorMapHSL", colorNumber, hueAngle, saturation, lightness };
    }
    case 4:
      return { type: "SelectColorMapEntry", colorNumber };
    case 5:
      return { type: "CarriageReturn" };
    default:
      return { type: "NewLine" };
  }
}

function itemsAt(at, count) {
  const views = memory();
  const items = new Array(count);
  for (let i = 0; i < count; i++) items[i] = itemAt(views, at + i * ITEM);
  return items;
}

/* The image in the struct at a place, but for its items. */
function sixelAt(at) {
  const { bytes, words, data } = memory();
  const number = (from) => Number(data.getBigInt64(at + from, true));
  const word = (from) => words[(at + from) >> 2];
  return {
    pan: number(0),
    pad: number(8),
    pixelWidth: bytes[at + 41] ? word(24) : null,
    pixelHeight: bytes[at + 42] ? word(28) : null,
    backgroundIsTransparent: bytes[at + 43] !== 0,
    horizontalGridSize: bytes[at + 40] ? number(16) : null,
    width: word(32),
    height: word(36),
  };
}

const LAST = 2n ** 63n - 1n;
// For how many items there is room at first: a longer image needs a second call.
const FEW = 1 << 14;

export function sixel(parameters, data) {
  const bytes = bytesOf(data);
  const numbers = take(8 * parameters.length + 8);
  try {
    parameters.forEach((it, i) => {
      const number = BigInt(it ?? 0);
      memory().data.setBigInt64(numbers + 8 * i, number > LAST ? LAST : number, true);
    });
    const at = placed(bytes);
    const out = headOf(56);
    for (let room = Math.min(bytes.length, FEW); ; ) {
      const rows = rowsOf(ITEM * room);
      const given = [numbers, parameters.length, at, bytes.length];
      done(calls.read_sixel(...given, out, rows, room));
      const count = memory().words[(out + 48) >> 2];
      if (count <= room) return { ...sixelAt(out), data: itemsAt(rows, count) };
      room = count;
    }
  } finally {
    give(numbers);
    shrink();
  }
}
