// SPDX-License-Identifier: MIT

declare global {
  // As @types/node has it, for a `lib` without esnext.disposable.
  interface SymbolConstructor {
    readonly dispose: unique symbol;
  }
}

/** Bytes of a stream. */
export type Bytes = ArrayBufferLike | ArrayBufferView;
/** A chunk of a stream: bytes, or a string, which is taken as its UTF-8. */
export type Chunk = string | Bytes;

/**
 * The actions that pass a filter. Each policy admits all that the one before it does: `text`
 * characters but DEL, tabs and line ends; `color` renditions and hyperlinks; `screen` a list of
 * functions that are known to change the screen alone; `all` whatever can be written by itself, so
 * it protects from broken input alone.
 */
export type Policy = "text" | "color" | "screen" | "all";

export interface Limit {
  /**
   * The number of bytes that are kept of a string, such as a title; a longer one is passed over.
   * 1,048,576 if it is left out.
   */
  limit?: number;
}

export interface HtmlOptions extends Limit {
  /** Closes the tags that are open before each line feed, and opens them again after it. */
  perLine?: boolean;
  /** Writes looks as styles in the tags, and not as the classes of stream.css. */
  inline?: boolean;
}

export interface ParserOptions extends Limit {
  /** How many bytes the data of a string may have that becomes one action. 67,108,864 else. */
  dataLimit?: number;
}

/**
 * A group of actions. `text` passes the first two, `color` the first five, `screen` all up to
 * `palette`, and `all` all.
 */
export type Group =
  | "characters"
  /** Tab, line feed and carriage return. */
  | "layout"
  /** Renditions, but those of `hidden`. */
  | "sgr"
  /** Renditions with one that conceals text (SGR 8). */
  | "hidden"
  | "links"
  /** Bell, backspace, line tabulation and form feed. */
  | "controls"
  | "cursor"
  | "erase"
  | "scroll"
  | "modes"
  | "charsets"
  | "palette"
  | "titles"
  | "clipboard"
  | "images"
  /** Anything else, queries too. */
  | "other";
/**
 * How bytes are read. One of 80 to 9F alone is replaced by U+FFFD, and with `-c1` a control. By
 * `utf-16` a byte order mark says the order of bytes, and without one the lower comes first.
 */
export type Encoding =
  | "utf-8"
  | "utf-8-c1"
  | "latin-1"
  | "latin-1-c1"
  | `windows-125${0 | 1 | 2 | 3 | 4 | 5 | 6 | 7 | 8}`
  | "utf-16"
  | "utf-16le"
  | "utf-16be";

/** How a log is sanitized, as the options of `escfilter` say it: if one is left out, as there. */
export interface SanitizerOptions extends Limit {
  /** Groups that pass besides those of the policy. */
  allow?: readonly Group[];
  /** Groups that do not pass, whatever the others say. */
  deny?: readonly Group[];
  /** The schemes of the links that pass; any if none is named. The text of other links stays. */
  links?: readonly ("http" | "https" | "mailto")[];
  /**
   * The extent of a stream of its own: each line, as by `text` and `color` without `rows`, or the
   * whole, as by `screen` and `all`, and with `rows`. A string that nobody ends takes the rest of
   * it. By `lines-reset` no rendition goes on over a line feed.
   */
  framing?: "lines" | "whole" | "lines-reset";
  /**
   * The output for characters that hide or reorder text: themselves, themselves if they belong to
   * the character before them and else their number as `<U+202E>`, their number, or nothing. By
   * `text` and `color` it is `join`, and else `keep`.
   */
  characters?: "keep" | "join" | "show" | "drop";
  /**
   * The output for carriage returns within a line: themselves, `^M`, or nothing. By `text` and
   * `color` without `rows` it is `show`, and else, and always by `whole`, `keep`.
   */
  returns?: "keep" | "show" | "drop";
  /** `utf-8` if it is left out; strings have no other but `utf-8-c1`. */
  encoding?: Encoding;
  /**
   * Shows sequences that do not pass in their place, as `^[]0;title^G`: as other text, with its `^`
   * and `<` shown too, so that all can be read back, or in reverse video, if that passes.
   */
  show?: "plain" | "escaped" | "reversed";
  /**
   * Writes text that is written again, as of a progress bar, as a terminal leaves it: how many
   * rows may be written again, up to 4096. The account is of the text before that.
   */
  rows?: number;
  /**
   * With `rows`, how many columns these have, from 1 to 16384: a longer line goes on in the next
   * row. If this is left out, they have 512.
   */
  columns?: number;
  /** Whether an account is kept, which costs time and memory: it is if this is left out. */
  account?: boolean;
}

/** The fates of the bytes of a stream: how many had each, in UTF-8 if its encoding is another. */
export interface Account {
  /** They are in the text as they came. */
  readonly passed: number;
  /** They are in the text in another spelling. */
  readonly respelled: number;
  /** They are in the text as visible characters. */
  readonly shown: number;
  /** U+FFFD is in the text for them. */
  readonly replaced: number;
  /** They mean something that does not pass. */
  readonly leftOut: number;
  /** They mean nothing, as those of a string that nobody ended. */
  readonly swallowed: number;
  /** Other text took their place. */
  readonly overwritten: number;
  /** How many there are: the sum of these. */
  readonly length: number;
}

/** The number of bytes that are kept of a string, if no limit is given. */
export const DEFAULT_LIMIT: number;

/** Returns the actions of a stream that a policy admits, and no others: `text` if none is named. */
export function filter(stream: string, policy?: Policy, options?: Limit): string;
export function filter(stream: Bytes, policy?: Policy, options?: Limit): Uint8Array;

/** Returns the characters, tabs and line ends of a stream. */
export function strip(stream: string, options?: Limit): string;
export function strip(stream: Bytes, options?: Limit): Uint8Array;

/** Returns the output of `escfilter` for a log, and its account; the policy is `color` else. */
export function sanitize(
  stream: string,
  policy?: Policy,
  options?: SanitizerOptions,
): { text: string; account: Account };
export function sanitize(
  stream: Bytes,
  policy?: Policy,
  options?: SanitizerOptions,
): { text: Uint8Array; account: Account };

/** Returns the normal form of a stream. It is no protection: for that there is `filter`. */
export function normal(stream: string, options?: Limit): string;
export function normal(stream: Bytes, options?: Limit): Uint8Array;

/**
 * Returns a stream as HTML: spans, links to http, https and mailto, and characters. It goes into a
 * `pre`, with stream.css, or without it if it is `inline`.
 */
export function toHtml(stream: Chunk, options?: HtmlOptions): string;

/** An object that keeps memory of the module until it is disposed of or nothing names it. */
declare class Kept {
  /** Gives back its memory. It may be called twice; every other call after it throws. */
  dispose(): void;
  [Symbol.dispose](): void;
}

/** A filter of a stream that comes in chunks: the text of `filter` for the whole, as it comes. */
export class Filter extends Kept {
  constructor(policy?: Policy, options?: Limit);
  /** Takes the next chunk of the stream, and returns the text that it adds. */
  feed(chunk: string): string;
  feed(chunk: Bytes): Uint8Array;
  feed(chunk: Chunk): string | Uint8Array;
  /**
   * Ends the stream, and begins the next. Returns the text that takes back the changes that the
   * stream left at a terminal, as a colour: a string, if the last chunk was one.
   */
  finish(): string | Uint8Array;
}

/**
 * The filter of a log that comes in chunks: the output of the program `escfilter`, and the account
 * of every byte. If each line is a stream of its own, as by `text` and `color`, a string that
 * nobody ends takes the rest of its line, and no line after it.
 */
export class Sanitizer extends Kept {
  constructor(policy?: Policy, options?: SanitizerOptions);
  /** Takes the next chunk of the log, and returns the text that it adds. */
  feed(chunk: string): string;
  feed(chunk: Bytes): Uint8Array;
  feed(chunk: Chunk): string | Uint8Array;
  /**
   * Ends the log, and returns the text that its end adds: a string, if the last chunk was one. No
   * chunk follows.
   */
  finish(): string | Uint8Array;
  /**
   * The fates of the bytes of the lines that have ended, or of the parts of a stream that is one;
   * and of all, once the log has ended. The sums then add up to its length. Zeros if no account is
   * kept.
   */
  account(): Account;
}

/** The normal form of a stream that comes in chunks. */
export class Normaliser extends Kept {
  constructor(options?: Limit);
  /** Takes the next chunk of the stream, and returns the text that it adds. */
  feed(chunk: string): string;
  feed(chunk: Bytes): Uint8Array;
  feed(chunk: Chunk): string | Uint8Array;
  /** Ends the stream, and begins the next. */
  finish(): string | Uint8Array;
}

/** HTML of a stream that comes in chunks. */
export class HtmlWriter extends Kept {
  constructor(options?: HtmlOptions);
  /** Takes the next chunk of the stream, and returns the text that it adds. */
  feed(chunk: Chunk): string;
  /** Ends the stream, and returns the text that closes the open tags. No chunk follows. */
  finish(): string;
}

/** A character run, without controls. U+FFFD stands for bytes that are no UTF-8. */
export interface TextEvent {
  type: "Text";
  text: string;
}
/** A control character of C0, or of C1 (80 to 9F, hexadecimal). */
export interface ControlEvent {
  type: "Control";
  byte: number;
}
export interface EscapeEvent {
  type: "Escape";
  /** The first two. */
  intermediates: string;
  final: string;
  /** Whether more intermediates came. */
  hasMore: boolean;
}
export interface CsiEvent {
  type: "Csi";
  /** One of `<` `=` `>` `?`, or nothing. */
  prefix: string;
  /**
   * The parameters between `;`, each the numbers between its colons; null is one that is left out.
   * Numbers end at 2**63 - 1, and those above 2**53 are rounded.
   */
  parameters: (number | null)[][];
  intermediates: string;
  final: string;
  /** Whether there are more than 256 parameters, separators and intermediates. */
  hasMore: boolean;
}
/** An operating system command: all bytes between its opener and its end. */
export interface OscEvent {
  type: "Osc";
  text: Uint8Array;
}
/** A device control string begins. Its data follow, and then its end. */
export interface DcsEvent {
  type: "Dcs";
  parameters: (number | null)[];
  /** The first two, a private prefix among them. */
  intermediates: string;
  final: string;
  hasMore: boolean;
}
/** A run of the data of the device control string that began last. */
export interface DataEvent {
  type: "Data";
  data: Uint8Array;
}
export interface DcsEndEvent {
  type: "DcsEnd";
}
/** An application program command. */
export interface ApcEvent {
  type: "Apc";
  text: Uint8Array;
}
/** A string ended that was longer than the limit: its event is left out. */
export interface LimitEvent {
  type: "Limit";
}

export type Event =
  | TextEvent
  | ControlEvent
  | EscapeEvent
  | CsiEvent
  | OscEvent
  | DcsEvent
  | DataEvent
  | DcsEndEvent
  | ApcEvent
  | LimitEvent;

/** A parser of a stream that comes in chunks. Of one stream take the events or the actions. */
export class Parser extends Kept {
  constructor(options?: ParserOptions);
  /**
   * Takes the next chunk of the stream, and returns the events that it adds. However a stream is
   * cut, they are the same, but that a run of text or of data may come in several.
   */
  events(chunk: Chunk): Event[];
  /** The events of half a character that strings left, at the end of a stream of strings. */
  endEvents(): Event[];
  /** Takes the next chunk of the stream, and returns the actions that it adds. */
  actions(chunk: Chunk): Action[];
  endActions(): Action[];
  /** Whether no character, sequence or string of the stream so far is unfinished. */
  readonly isGround: boolean;
}

/** Yields the events of a stream, or of its chunks. A sequence cut by its end adds nothing. */
export function events(stream: Chunk | Iterable<Chunk>, options?: ParserOptions): Generator<Event>;
/** Yields the actions of a stream, or of its chunks. */
export function actions(
  stream: Chunk | Iterable<Chunk>,
  options?: ParserOptions,
): Generator<Action>;

type Out<P> = P extends string ? string : Uint8Array;
/** The same as transformers, for `pipeThrough`: strings of strings, and bytes of bytes. */
export function filterStream<P extends Chunk = Uint8Array>(
  policy?: Policy,
  options?: Limit,
): TransformStream<P, Out<P>>;
export function sanitizerStream<P extends Chunk = Uint8Array>(
  policy?: Policy,
  options?: Omit<SanitizerOptions, "account"> & {
    /** Is called with the account of the log, once it has ended. It is kept for this alone. */
    onAccount?: (account: Account) => void;
  },
): TransformStream<P, Out<P>>;
export function stripStream<P extends Chunk = Uint8Array>(
  options?: Limit,
): TransformStream<P, Out<P>>;
export function normalStream<P extends Chunk = Uint8Array>(
  options?: Limit,
): TransformStream<P, Out<P>>;
export function htmlStream(options?: HtmlOptions): TransformStream<Chunk, string>;
/** A chunk an event. */
export function eventStream(options?: ParserOptions): TransformStream<Chunk, Event>;
/** A chunk an action. */
export function actionStream(options?: ParserOptions): TransformStream<Chunk, Action>;

/** A row of docs/FUNCTIONS.md. */
export interface FunctionRow {
  /** Its name, as the standards abbreviate it, such as `CUP`. */
  readonly name: string;
  /** Its effect in words, such as `cursor position`. */
  readonly phrase: string;
  /** Whether it changes the screen alone, with whatever parameters. */
  readonly changesScreen: boolean;
  /** Whether a terminal answers it, with some of its parameters or with all. */
  readonly isAnswered: boolean;
}
/** Returns the function of a sequence or a control, or null if it has no name. */
export function functionOf(it: Event | Action): FunctionRow | null;

/** A row of the tables of strings in docs/FUNCTIONS.md. */
export interface StringRow {
  /** Its name, which no other has, such as `OSC 52`, `OSC 133;A` or `DECRQSS`. */
  readonly name: string;
  /** Its effect in words, such as `clipboard`. */
  readonly phrase: string;
}
/** Each string that has a name, in the order of the page. */
export const controlStrings: readonly StringRow[];
/**
 * Returns the row of an operating system command, a device control string or an application program
 * command, or null if it has no name. The data of a device control string come in later events; a
 * few are told apart by their first 9 bytes, `data`, and have no name without these.
 */
export function controlStringOf(it: Event, data?: Uint8Array): StringRow | null;

/** The request of a part of a stream, under the names of termwiz. */
export type Action =
  | { type: "PrintString"; text: string }
  /** `code` is the name of the control, such as `LineFeed`. */
  | { type: "Control"; code: string; byte: number }
  | { type: "DeviceControl"; mode: DeviceControlMode }
  | { type: "OperatingSystemCommand"; command: OperatingSystemCommand }
  | {
      type: "CSI";
      prefix: string;
      params: (number | null)[][];
      intermediates: string;
      control: string;
      parametersTruncated: boolean;
    }
  | { type: "Esc"; intermediate: string | null; control: string }
  | ({ type: "Sixel" } & Sixel)
  | { type: "XtGetTcap"; names: string[] }
  | { type: "KittyImage"; image: KittyImage }
  | LimitEvent;

export type DeviceControlMode =
  | {
      type: "Enter";
      byte: string;
      params: number[];
      intermediates: string;
      ignoredExtraIntermediates: boolean;
    }
  | { type: "Exit" }
  | { type: "Data"; data: Uint8Array }
  | {
      type: "ShortDeviceControl";
      params: number[];
      intermediates: string;
      byte: string;
      data: Uint8Array;
    };

export interface Hyperlink {
  params: Record<string, string>;
  uri: string;
  implicit: boolean;
}
/** Red, green and blue from 0 to 65535, or the question which they are. */
export type ColorOrQuery =
  | { type: "Color"; red: number; green: number; blue: number }
  | { type: "Query" };
export type DynamicColorNumber =
  | "TextForegroundColor"
  | "TextBackgroundColor"
  | "TextCursorColor"
  | "MouseForegroundColor"
  | "MouseBackgroundColor"
  | "TektronixForegroundColor"
  | "TektronixBackgroundColor"
  | "HighlightBackgroundColor"
  | "TektronixCursorColor"
  | "HighlightForegroundColor";
export type Progress =
  | { type: "None" | "SetIndeterminate" | "Paused" }
  | { type: "SetPercentage" | "SetError"; percent: number };

export type OperatingSystemCommand =
  | {
      type:
        | "SetIconNameAndWindowTitle"
        | "SetWindowTitle"
        | "SetWindowTitleSun"
        | "SetIconName"
        | "SetIconNameSun"
        | "SystemNotification";
      text: string;
    }
  | { type: "SetHyperlink"; link: Hyperlink | null }
  /** The selections are a sum: 2 clipboard, 4 primary, 8 select, 16 to 8192 cut buffers. */
  | { type: "ClearSelection" | "QuerySelection"; selection: number }
  | { type: "SetSelection"; selection: number; text: string }
  | { type: "ITermProprietary"; command: ITermProprietary }
  | { type: "FinalTermSemanticPrompt"; prompt: FinalTermSemanticPrompt }
  | { type: "ChangeColorNumber"; pairs: { paletteIndex: number; color: ColorOrQuery }[] }
  | { type: "ChangeDynamicColors"; number: DynamicColorNumber; colors: ColorOrQuery[] }
  | { type: "ResetDynamicColor"; number: DynamicColorNumber }
  | { type: "CurrentWorkingDirectory"; path: string }
  | { type: "ResetColors"; indices: number[] }
  | { type: "RxvtExtension"; parts: string[] }
  | { type: "ConEmuProgress"; progress: Progress }
  | { type: "Unspecified"; parts: Uint8Array[] };

export type FinalTermClick = "Line" | "MultipleLine" | "ConservativeVertical" | "SmartVertical";
export type FinalTermSemanticPrompt =
  | {
      type:
        | "FreshLine"
        | "MarkEndOfPromptAndStartOfInputUntilNextMarker"
        | "MarkEndOfPromptAndStartOfInputUntilEndOfLine";
    }
  | {
      type: "FreshLineAndStartPrompt" | "MarkEndOfCommandWithFreshLine";
      aid: string | null;
      cl: FinalTermClick | null;
    }
  | { type: "StartPrompt"; kind: "Initial" | "RightSide" | "Continuation" | "Secondary" }
  | { type: "MarkEndOfInputAndStartOfOutput"; aid: string | null }
  | { type: "CommandStatus"; status: number; aid: string | null };

export type ITermDimension =
  | { type: "Automatic" }
  | { type: "Cells" | "Pixels" | "Percent"; count: number };
export interface ITermFileData {
  name: string | null;
  size: number | null;
  width: ITermDimension;
  height: ITermDimension;
  preserveAspectRatio: boolean;
  inline: boolean;
  doNotMoveCursor: boolean;
  data: Uint8Array;
}
export type ITermProprietary =
  | { type: "SetMark" | "StealFocus" | "ClearScrollback" | "EndCopy" | "RequestCellSize" }
  | { type: "CurrentDir"; path: string }
  | { type: "SetProfile" | "CopyToClipboard" | "ReportVariable"; name: string }
  | { type: "HighlightCursorLine"; on: boolean }
  /** In tenths of a pixel. */
  | { type: "ReportCellSize"; heightPixels: number; widthPixels: number; scale: number | null }
  | { type: "Copy" | "SetBadgeFormat"; text: string }
  | { type: "SetUserVar"; name: string; value: string }
  | { type: "File"; file: ITermFileData }
  | {
      type: "UnicodeVersion";
      operation: { type: "Set"; version: number } | { type: "Push" | "Pop"; label: string | null };
    };

export type KittyImageVerbosity = "Verbose" | "OnlyErrors" | "Quiet";
export type KittyImageData =
  /** In base64, as it came. */
  | { type: "Direct"; text: string }
  | { type: "DirectBin"; data: Uint8Array }
  | {
      type: "File" | "TemporaryFile";
      path: string;
      dataSize: number | null;
      dataOffset: number | null;
    }
  | { type: "SharedMem"; name: string; dataSize: number | null; dataOffset: number | null };
export interface KittyImageTransmit {
  format: "Rgb" | "Rgba" | "Png" | null;
  data: KittyImageData;
  width: number | null;
  height: number | null;
  imageId: number | null;
  imageNumber: number | null;
  compression: "None" | "Deflate";
  moreDataFollows: boolean;
}
export interface KittyImagePlacement {
  x: number | null;
  y: number | null;
  w: number | null;
  h: number | null;
  xOffset: number | null;
  yOffset: number | null;
  columns: number | null;
  rows: number | null;
  placementId: number | null;
  doNotMoveCursor: boolean;
  zIndex: number | null;
  unicodePlaceholder: boolean;
}
export type KittyFrameCompositionMode = "AlphaBlending" | "Overwrite";
export interface KittyImageFrame {
  x: number | null;
  y: number | null;
  baseFrame: number | null;
  frameNumber: number | null;
  durationMs: number | null;
  compositionMode: KittyFrameCompositionMode;
  backgroundPixel: number | null;
}
export interface KittyImageFrameCompose {
  imageId: number | null;
  imageNumber: number | null;
  targetFrame: number | null;
  sourceFrame: number | null;
  x: number | null;
  y: number | null;
  w: number | null;
  h: number | null;
  srcX: number | null;
  srcY: number | null;
  compositionMode: KittyFrameCompositionMode;
}
export type KittyImageDelete = { delete: boolean } & (
  | { type: "All" | "AtCursorPosition" | "AnimationFrames" }
  | { type: "ByImageId"; imageId: number; placementId: number | null }
  | { type: "ByImageNumber"; imageNumber: number; placementId: number | null }
  | { type: "DeleteAt"; x: number; y: number }
  | { type: "DeleteAtZ"; x: number; y: number; z: number }
  | { type: "DeleteColumn"; x: number }
  | { type: "DeleteRow"; y: number }
  | { type: "DeleteZ"; z: number }
  | { type: "ByImageIdRange"; first: number; last: number }
);
export type KittyImage =
  | { type: "TransmitData"; transmit: KittyImageTransmit; verbosity: KittyImageVerbosity }
  | {
      type: "TransmitDataAndDisplay";
      transmit: KittyImageTransmit;
      placement: KittyImagePlacement;
      verbosity: KittyImageVerbosity;
    }
  | {
      type: "Display";
      imageId: number | null;
      imageNumber: number | null;
      placement: KittyImagePlacement;
      verbosity: KittyImageVerbosity;
    }
  | { type: "Delete"; what: KittyImageDelete; verbosity: KittyImageVerbosity }
  | { type: "Query"; transmit: KittyImageTransmit }
  | {
      type: "TransmitFrame";
      transmit: KittyImageTransmit;
      frame: KittyImageFrame;
      verbosity: KittyImageVerbosity;
    }
  | { type: "ComposeFrame"; frame: KittyImageFrameCompose; verbosity: KittyImageVerbosity };

export type SixelData =
  /** Six pixels, one above the other, as bits: the top one the lowest. */
  | { type: "Data"; data: number }
  | { type: "Repeat"; repeatCount: number; data: number }
  | {
      type: "DefineColorMapRGB";
      colorNumber: number;
      rgb: { red: number; green: number; blue: number };
    }
  | {
      type: "DefineColorMapHSL";
      colorNumber: number;
      hueAngle: number;
      saturation: number;
      lightness: number;
    }
  | { type: "SelectColorMapEntry"; colorNumber: number }
  | { type: "CarriageReturn" | "NewLine" };
export interface Sixel {
  /** A pixel is so many units high, and `pad` wide. */
  pan: number;
  pad: number;
  /** As raster attributes say. */
  pixelWidth: number | null;
  pixelHeight: number | null;
  backgroundIsTransparent: boolean;
  horizontalGridSize: number | null;
  /** The sizes of the raster attributes, if they have both, and else those of the drawn pixels. */
  width: number;
  height: number;
  data: SixelData[];
}

/** Returns the command of the text of an operating system command, that of an event `Osc`. */
export function command(text: Bytes): OperatingSystemCommand;
/** Returns the image of the text of an event `Apc`, or null if it is no image. */
export function image(text: Bytes): KittyImage | null;
/** Returns the sixel image of the parameters and the data of a device control string with `q`. */
export function sixel(parameters: (number | null)[], data: Bytes): Sixel;
/** Returns the names that the data of a device control string with `+q` ask for. */
export function termcapQuery(data: Bytes): string[];

type Module = BufferSource | Response | WebAssembly.Module;
/**
 * Takes the module, of `escape-stream/core`, which does not load it by itself: its bytes, a
 * response with them, or the module that the host compiled. `escape-stream` has called it.
 */
export function use(source: Module | PromiseLike<Module>): Promise<void>;
