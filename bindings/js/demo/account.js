// SPDX-License-Identifier: MIT
// The requests of a stream to a terminal: each by its name, how often it comes, and in which
// lines. It knows no page.
import { functionOf } from "../index.js";

// How many lines are kept of a request.
const LINES = 8;

// The name of an operating system command: its number, and its description in words.
const COMMANDS = {
  SetIconNameAndWindowTitle: ["OSC 0", "set the title and the icon name"],
  SetWindowTitle: ["OSC 2", "set the title"],
  SetWindowTitleSun: ["OSC l", "set the title"],
  SetIconName: ["OSC 1", "set the icon name"],
  SetIconNameSun: ["OSC L", "set the icon name"],
  SetHyperlink: ["OSC 8", "begin or end a link"],
  ClearSelection: ["OSC 52", "clear the clipboard"],
  QuerySelection: ["OSC 52", "read the clipboard"],
  SetSelection: ["OSC 52", "set the clipboard"],
  SystemNotification: ["OSC 9", "show a notification"],
  ITermProprietary: ["OSC 1337", "iTerm2"],
  FinalTermSemanticPrompt: ["OSC 133", "mark a prompt"],
  ChangeColorNumber: ["OSC 4", "change or ask for colours of the palette"],
  ChangeDynamicColors: ["OSC 10 to 19", "change or ask for colours"],
  ResetDynamicColor: ["OSC 110 to 119", "reset a colour"],
  CurrentWorkingDirectory: ["OSC 7", "tell the directory"],
  ResetColors: ["OSC 104", "reset colours of the palette"],
  RxvtExtension: ["OSC 777", "rxvt"],
  ConEmuProgress: ["OSC 9;4", "show progress"],
  Unspecified: ["OSC", "unknown"],
};

// Requests that change more than the screen, or have a terminal send something: they stand out.
const ASKS = new Set(`ClearSelection QuerySelection SetSelection SystemNotification
  RxvtExtension`.split(/\s+/));
const COLORS = new Set(["ChangeColorNumber", "ChangeDynamicColors"]);
const OTHERS = {
  Sixel: ["DCS q", "show a sixel image"],
  XtGetTcap: ["XTGETTCAP", "ask for capabilities"],
  KittyImage: ["APC G", "show or send an image"],
  Limit: ["", "a string that is too long"],
};

const isAsked = (it) => it.type === "Query" || it.color?.type === "Query";
const isSafe = (uri) => /^(?:https?|mailto):/i.test(uri);

function command(it) {
  const [name, phrase] = COMMANDS[it.type];
  const answered = COLORS.has(it.type) && (it.pairs ?? it.colors).some(isAsked);
  if (it.type === "ITermProprietary") {
    return { name, phrase: `${phrase}: ${it.command.type}`, asks: it.command.type !== "SetMark" };
  }
  if (it.type === "SetHyperlink" && it.link !== null && !isSafe(it.link.uri)) {
    return { name, phrase: "begin a link that no page follows", asks: true };
  }
  return { name, phrase, asks: ASKS.has(it.type) || answered, isShown: it.type === "SetHyperlink" };
}

const SHOWN = new Set(["SGR", "LF", "HT", "CR"]);

function sequence(it) {
  const row = functionOf(it);
  if (row === null) return { name: it.type, phrase: "unknown", asks: false };
  const phrase = row.isAnswered ? `${row.phrase}, which a terminal answers` : row.phrase;
  return { name: row.name, phrase, asks: row.isAnswered, isShown: SHOWN.has(row.name) };
}

function device(mode) {
  if (mode.type === "ShortDeviceControl") {
    return { name: "DECRQSS", phrase: "ask for a setting", asks: true };
  }
  const phrase = `device control string ${mode.intermediates ?? ""}${mode.byte ?? ""}`;
  return mode.type === "Enter" ? { name: "DCS", phrase, asks: false } : undefined;
}

/**
 * The request of an action, or undefined if it asks for nothing: its name, its description in
 * words, whether it stands out, and whether a page shows it.
 */
export function requestOf(action) {
  switch (action.type) {
    case "PrintString":
      return undefined;
    case "OperatingSystemCommand":
      return command(action.command);
    case "DeviceControl":
      return device(action.mode);
    case "CSI":
    case "Esc":
    case "Control":
      return sequence(action);
    default: {
      const [name, phrase] = OTHERS[action.type];
      return { name, phrase, asks: action.type === "XtGetTcap" };
    }
  }
}

// The end of a string: part of it, and no request.
const isTerminator = (it) => it.type === "Esc" && it.control === "\\" && it.intermediate === null;

/** The requests of a stream, in the order in which they come first. */
export class Account {
  #rows = new Map();
  line = 1;

  /** Takes the next actions of the stream. */
  take(actions) {
    for (const action of actions) {
      if (action.type === "Control" && action.code === "LineFeed") this.line++;
      else if (!isTerminator(action)) this.#note(requestOf(action));
    }
  }

  #note(request) {
    if (request === undefined) return;
    const key = `${request.name} ${request.phrase}`;
    let row = this.#rows.get(key);
    if (row === undefined) {
      row = { isShown: false, ...request, count: 0, lines: [] };
      this.#rows.set(key, row);
    }
    row.count++;
    if (row.lines.length < LINES && row.lines.at(-1) !== this.line) row.lines.push(this.line);
  }

  /** The rows, those that stand out first. */
  rows() {
    const order = (a, b) => Number(b.asks) - Number(a.asks) || b.count - a.count;
    return [...this.#rows.values()].sort(order);
  }
}
