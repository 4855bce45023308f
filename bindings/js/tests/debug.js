// SPDX-License-Identifier: MIT
// Actions as the tables write them: in the form of Rust's Debug.

const snake = (name) => name.replace(/[A-Z]/g, (it) => `_${it.toLowerCase()}`);
const some = (value, print) => (value === null ? "None" : `Some(${print(value)})`);
const list = (items, print) => `[${items.map(print).join(", ")}]`;
// The greatest numbers of 64 bits, with a sign and without, are rounded to the next double.
const number = (it) => String(it === 2 ** 63 || it === 2 ** 64 ? BigInt(it) - 1n : BigInt(it));
const word = (it) => it;

const ESCAPES = { "\\": "\\\\", "\n": "\\n", "\r": "\\r", "\t": "\\t", "\0": "\\0" };

/* A character within quotes. What Rust does not print as it is has its number. */
function quoted(c, quote) {
  if (c === quote) return `\\${c}`;
  if (c in ESCAPES) return ESCAPES[c];
  const isHidden = /[\p{C}\p{Zl}\p{Zp}\p{Zs}\p{Grapheme_Extend}]/u.test(c) && c !== " ";
  return isHidden ? `\\u{${c.codePointAt(0).toString(16)}}` : c;
}

const text = (it) => `"${[...it].map((c) => quoted(c, '"')).join("")}"`;
const bytes = (it) => list([...it], number);

/* A struct: its fields in order, with how each is printed. */
const struct = (name, value, fields) => {
  const said = Object.entries(fields).map(([it, print]) => `${snake(it)}: ${print(value[it])}`);
  return said.length > 0 ? `${name} { ${said.join(", ")} }` : name;
};
const optional = (print) => (it) => some(it, print);

const pairs = (it) => {
  const keys = Object.keys(it).sort((a, b) => Buffer.compare(Buffer.from(a), Buffer.from(b)));
  return `{${keys.map((key) => `${text(key)}: ${text(it[key])}`).join(", ")}}`;
};
const color = (it) => {
  if (it.type === "Query") return "Query";
  const parts = { red: number, green: number, blue: number };
  return `Color(${struct("Color16", it, parts)})`;
};
const pair = (it) => struct("ChangeColorPair", it, { paletteIndex: number, color });
const link = (it) => struct("Hyperlink", it, { params: pairs, uri: text, implicit: word });
const selection = (it) => `Selection(${it})`;
const percent = (it) => ("percent" in it ? `${it.type}(${it.percent})` : it.type);

const dimension = (it) => ("count" in it ? `${it.type}(${number(it.count)})` : it.type);
const file = (it) => struct("ITermFileData", it, {
  name: optional(text), size: optional(number), width: dimension, height: dimension,
  preserveAspectRatio: word, inline: word, doNotMoveCursor: word, data: bytes,
});
const operation = (it) => {
  const value = it.type === "Set" ? it.version : some(it.label, text);
  return `${it.type}(${value})`;
};

function iterm(it) {
  switch (it.type) {
    case "CurrentDir": return `CurrentDir(${text(it.path)})`;
    case "SetProfile":
    case "CopyToClipboard":
    case "ReportVariable": return `${it.type}(${text(it.name)})`;
    case "HighlightCursorLine": return `HighlightCursorLine(${it.on})`;
    case "ReportCellSize":
      return struct(it.type, it, {
        heightPixels: number, widthPixels: number, scale: optional(number),
      });
    case "Copy":
    case "SetBadgeFormat": return `${it.type}(${text(it.text)})`;
    case "SetUserVar": return struct("SetUserVar", it, { name: text, value: text });
    case "File": return `File(${file(it.file)})`;
    case "UnicodeVersion": return `UnicodeVersion(${operation(it.operation)})`;
    default: return it.type;
  }
}

function prompt(it) {
  if (it.type === "StartPrompt") return `StartPrompt(${it.kind})`;
  const fields = {};
  if ("status" in it) fields.status = number;
  if ("aid" in it) fields.aid = optional(text);
  if ("cl" in it) fields.cl = optional(word);
  return struct(it.type, it, fields);
}

function command(it) {
  switch (it.type) {
    case "SetHyperlink": return some(it.link, link);
    case "ClearSelection":
    case "QuerySelection": return selection(it.selection);
    case "SetSelection": return `${selection(it.selection)}, ${text(it.text)}`;
    case "ITermProprietary": return iterm(it.command);
    case "FinalTermSemanticPrompt": return prompt(it.prompt);
    case "ChangeColorNumber": return list(it.pairs, pair);
    case "ChangeDynamicColors": return `${it.number}, ${list(it.colors, color)}`;
    case "ResetDynamicColor": return it.number;
    case "CurrentWorkingDirectory": return text(it.path);
    case "ResetColors": return list(it.indices, number);
    case "RxvtExtension": return list(it.parts, text);
    case "ConEmuProgress": return percent(it.progress);
    case "Unspecified": return list(it.parts, bytes);
    default: return text(it.text);
  }
}

const known = (it, names, print) => {
  return Object.fromEntries(names.filter((name) => name in it).map((name) => [name, print]));
};

function content(it) {
  if (it.type === "Direct") return `Direct(${Buffer.byteLength(it.text)} bytes of data)`;
  if (it.type === "DirectBin") return `DirectBin(${it.data.length} bytes of data)`;
  const place = known(it, ["path", "name"], text);
  const sizes = { dataOffset: optional(number), dataSize: optional(number) };
  return struct(it.type, it, { ...place, ...sizes });
}

const transmit = (it) => struct("KittyImageTransmit", it, {
  format: optional(word), data: content, width: optional(number), height: optional(number),
  imageId: optional(number), imageNumber: optional(number), compression: word,
  moreDataFollows: word,
});
const placement = (it) => {
  const numbers = ["x", "y", "w", "h", "xOffset", "yOffset", "columns", "rows", "placementId"];
  return struct("KittyImagePlacement", it, {
    ...known(it, numbers, optional(number)), doNotMoveCursor: word, zIndex: optional(number),
    unicodePlaceholder: word,
  });
};
const frame = (it) => {
  if ("targetFrame" in it) {
    const numbers = [
      "imageId", "imageNumber", "targetFrame", "sourceFrame", "x", "y", "w", "h", "srcX", "srcY",
    ];
    return struct("KittyImageFrameCompose", it, {
      ...known(it, numbers, optional(number)), compositionMode: word,
    });
  }
  const numbers = ["x", "y", "baseFrame", "frameNumber", "durationMs"];
  return struct("KittyImageFrame", it, {
    ...known(it, numbers, optional(number)), compositionMode: word,
    backgroundPixel: optional(number),
  });
};
const deletion = (it) => struct(it.type, it, {
  ...known(it, ["imageId", "imageNumber"], number), ...known(it, ["placementId"], optional(number)),
  ...known(it, ["x", "y", "z", "first", "last"], number), delete: word,
});
const image = (it) => struct(it.type, it, {
  ...known(it, ["transmit"], transmit), ...known(it, ["imageId", "imageNumber"], optional(number)),
  ...known(it, ["placement"], placement), ...known(it, ["frame"], frame),
  ...known(it, ["what"], deletion),
  ...known(it, ["verbosity"], word),
});

const rgb = (it) => struct("RgbColor", it, { red: number, green: number, blue: number });
function item(it) {
  switch (it.type) {
    case "Data": return `Data(${it.data})`;
    case "Repeat": return struct("Repeat", it, { repeatCount: number, data: number });
    case "DefineColorMapRGB": return struct(it.type, it, { colorNumber: number, rgb });
    case "DefineColorMapHSL":
      return struct(it.type, it, {
        colorNumber: number, hueAngle: number, saturation: number, lightness: number,
      });
    case "SelectColorMapEntry": return `SelectColorMapEntry(${it.colorNumber})`;
    default: return it.type;
  }
}
const sixel = (it) => struct("Sixel", it, {
  pan: number, pad: number, pixelWidth: optional(number), pixelHeight: optional(number),
  backgroundIsTransparent: word, horizontalGridSize: optional(number),
  data: (data) => list(data, item),
});

const hex = (byte) => `0x${byte.charCodeAt(0).toString(16)}`;
const marked = (byte) => `'${quoted(byte, "'")}' ${hex(byte)}`;
const marks = (it) => `[${[...it].map((byte) => `${marked(byte)}, `).join("")}]`;

const header = (it) => {
  const params = `params: ${list(it.params, number)}, intermediates: ${marks(it.intermediates)}`;
  return `${params}, byte: ${marked(it.byte)}`;
};

function modes(it) {
  switch (it.type) {
    case "Enter": {
      const more = `ignored_extra_intermediates=${it.ignoredExtraIntermediates}`;
      return [`Enter(EnterDeviceControlMode(${header(it)}, ${more}))`];
    }
    case "Data": return [...it.data].map((byte) => `Data(${marked(String.fromCharCode(byte))})`);
    case "Exit": return ["Exit"];
    default: {
      // Termwiz prints no bracket after these.
      const data = marks(Buffer.from(it.data).toString("latin1")).slice(0, -1);
      return [`ShortDeviceControl(ShortDeviceControl(${header(it)}, data=${data}))`];
    }
  }
}

/** The lines of an action: one, but for each character and each byte of data. */
export function lines(it) {
  switch (it.type) {
    case "PrintString": return [...it.text].map((c) => `Print('${quoted(c, "'")}')`);
    case "Control": return [`Control(${it.code})`];
    case "DeviceControl": return modes(it.mode).map((mode) => `DeviceControl(${mode})`);
    case "OperatingSystemCommand": {
      const said = command(it.command);
      return [`OperatingSystemCommand(${it.command.type}${said === undefined ? "" : `(${said})`})`];
    }
    case "Sixel": return [`Sixel(${sixel(it)})`];
    case "XtGetTcap": return [`XtGetTcap(${list(it.names, text)})`];
    case "KittyImage": return [`KittyImage(${image(it.image)})`];
    default: return [];
  }
}
