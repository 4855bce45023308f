// SPDX-License-Identifier: MIT
// Operating system commands as plain objects, under the names of termwiz.
import { read } from "./fields.js";
import { bytesOf } from "./chunks.js";
import { calls } from "./wasm.js";

const DYNAMIC_COLORS = `TextForegroundColor TextBackgroundColor TextCursorColor MouseForegroundColor
  MouseBackgroundColor TektronixForegroundColor TektronixBackgroundColor HighlightBackgroundColor
  TektronixCursorColor HighlightForegroundColor`.split(/\s+/);
const PROGRESS = ["None", "SetPercentage", "SetError", "SetIndeterminate", "Paused"];
const CLICKS = ["Line", "MultipleLine", "ConservativeVertical", "SmartVertical"];
const PROMPTS = ["Initial", "RightSide", "Continuation", "Secondary"];

const withText = (type) => (f) => ({ type, text: f.text("TEXT") });
const selection = (f) => f.get("SELECTION");
const dynamicColor = (f) => DYNAMIC_COLORS[f.get("DYNAMIC_COLOR") - 10];

function link(f) {
  if (!f.has("URI")) return null;
  const uri = f.text("URI");
  const implicit = f.flag("IMPLICIT");
  const params = f.all("KEY", () => [f.text("KEY"), f.text("VALUE")]);
  return { params: Object.fromEntries(params), uri, implicit };
}

function color(f) {
  if (f.has("QUERY")) {
    f.get("QUERY");
    return { type: "Query" };
  }
  return { type: "Color", red: f.get("RED"), green: f.get("GREEN"), blue: f.get("BLUE") };
}

function colors(f) {
  const found = [];
  while (f.has("RED") || f.has("QUERY")) found.push(color(f));
  return found;
}

const pair = (f) => ({ paletteIndex: f.get("PALETTE_INDEX"), color: color(f) });

function progress(f) {
  const type = PROGRESS[f.get("PROGRESS_STATE")];
  return f.has("PERCENT") ? { type, percent: f.get("PERCENT") } : { type };
}

const iterm = (type, more) => (f) => {
  return { type: "ITermProprietary", command: { type, ...more?.(f) } };
};

const prompt = (type, more) => (f) => {
  return { type: "FinalTermSemanticPrompt", prompt: { type, ...more?.(f) } };
};

const aid = (f) => ({ aid: f.optionalText("APPLICATION") });

const aidAndClick = (f) => {
  return { ...aid(f), cl: f.has("CLICK") ? CLICKS[f.get("CLICK")] : null };
};

function dimension(f, name) {
  for (const [unit, type] of [["CELLS", "Cells"], ["PIXELS", "Pixels"], ["PERCENT", "Percent"]]) {
    if (f.has(`${name}_${unit}`)) return { type, count: f.get(`${name}_${unit}`) };
  }
  return { type: "Automatic" };
}

function file(f) {
  return {
    name: f.optionalText("NAME"),
    size: f.optional("SIZE"),
    width: dimension(f, "WIDTH"),
    height: dimension(f, "HEIGHT"),
    preserveAspectRatio: f.flag("PRESERVE_ASPECT_RATIO"),
    inline: f.flag("INLINE"),
    doNotMoveCursor: f.flag("DO_NOT_MOVE_CURSOR"),
    data: f.get("CONTENT"),
  };
}

const cellSize = (f) => ({
  heightPixels: f.get("CELL_HEIGHT"),
  widthPixels: f.get("CELL_WIDTH"),
  scale: f.optional("SCALE"),
});

const version = (type, more) => {
  return iterm("UnicodeVersion", (f) => ({ operation: { type, ...more(f) } }));
};
const label = (f) => ({ label: f.optionalText("LABEL") });
const named = (f) => ({ name: f.text("NAME") });
const path = (f) => ({ path: f.text("DIRECTORY") });

// Each kind, by its number.
const COMMANDS = [
  (f) => ({ type: "Unspecified", parts: f.all("PART", () => f.get("PART")) }),
  withText("SetIconNameAndWindowTitle"),
  withText("SetWindowTitle"),
  withText("SetWindowTitleSun"),
  withText("SetIconName"),
  withText("SetIconNameSun"),
  (f) => ({ type: "SetHyperlink", link: link(f) }),
  (f) => ({ type: "ClearSelection", selection: selection(f) }),
  (f) => ({ type: "QuerySelection", selection: selection(f) }),
  (f) => ({ type: "SetSelection", selection: selection(f), text: f.text("TEXT") }),
  withText("SystemNotification"),
  (f) => ({ type: "ChangeColorNumber", pairs: f.all("PALETTE_INDEX", pair) }),
  (f) => ({ type: "ChangeDynamicColors", number: dynamicColor(f), colors: colors(f) }),
  (f) => ({ type: "ResetDynamicColor", number: dynamicColor(f) }),
  (f) => ({ type: "CurrentWorkingDirectory", ...path(f) }),
  (f) => ({ type: "ResetColors", indices: f.all("PALETTE_INDEX", () => f.get("PALETTE_INDEX")) }),
  (f) => ({ type: "RxvtExtension", parts: f.all("PART", () => f.text("PART")) }),
  (f) => ({ type: "ConEmuProgress", progress: progress(f) }),
  prompt("FreshLine"),
  prompt("FreshLineAndStartPrompt", aidAndClick),
  prompt("MarkEndOfCommandWithFreshLine", aidAndClick),
  prompt("StartPrompt", (f) => ({ kind: PROMPTS[f.get("PROMPT_KIND")] })),
  prompt("MarkEndOfPromptAndStartOfInputUntilNextMarker"),
  prompt("MarkEndOfPromptAndStartOfInputUntilEndOfLine"),
  prompt("MarkEndOfInputAndStartOfOutput", aid),
  prompt("CommandStatus", (f) => ({ status: f.get("STATUS"), ...aid(f) })),
  iterm("SetMark"),
  iterm("StealFocus"),
  iterm("ClearScrollback"),
  iterm("CurrentDir", path),
  iterm("SetProfile", named),
  iterm("CopyToClipboard", named),
  iterm("EndCopy"),
  iterm("HighlightCursorLine", (f) => ({ on: f.flag("HIGHLIGHTED") })),
  iterm("RequestCellSize"),
  iterm("ReportCellSize", cellSize),
  iterm("Copy", (f) => ({ text: f.text("TEXT") })),
  iterm("ReportVariable", named),
  iterm("SetUserVar", (f) => ({ ...named(f), value: f.text("VALUE") })),
  iterm("SetBadgeFormat", (f) => ({ text: f.text("TEXT") })),
  iterm("File", (f) => ({ file: file(f) })),
  version("Set", (f) => ({ version: f.get("VERSION") })),
  version("Push", label),
  version("Pop", label),
];

export function command(text) {
  return read(calls.read_osc, bytesOf(text), true, (kind, fields) => COMMANDS[kind](fields));
}
