// SPDX-License-Identifier: MIT
// A stream as actions: its events, with what each string says, under the names of termwiz.
import { command } from "./commands.js";
import { image, sixel, termcapQuery } from "./images.js";
import { Bytes } from "./chunks.js";

const C0 = `Null StartOfHeading StartOfText EndOfText EndOfTransmission Enquiry Acknowledge Bell
  Backspace HorizontalTab LineFeed VerticalTab FormFeed CarriageReturn ShiftOut ShiftIn
  DataLinkEscape DeviceControlOne DeviceControlTwo DeviceControlThree DeviceControlFour
  NegativeAcknowledge SynchronousIdle EndOfTransmissionBlock Cancel EndOfMedium Substitute Escape
  FileSeparator GroupSeparator RecordSeparator UnitSeparator`.split(/\s+/);
// From 80 (hexadecimal) on; three have no name.
const C1 = `- - BPH NBH IND NEL SSA ESA HTS HTJ VTS PLD PLU RI SS2 SS3 DCS PU1 PU2 STS CCH MW SPA
  EPA SOS - SCI CSI ST OSC PM APC`.split(/\s+/);

/* The name of a control, or undefined. */
function codeOf(byte) {
  const code = byte < 0x80 ? C0[byte] : C1[byte - 0x80];
  return code === "-" ? undefined : code;
}

// How many bytes the data of an image may have, where nothing else is said.
const DEFAULT_DATA_LIMIT = 1 << 26;

const WHOLE = ["", "+", "$"];
const isWhole = (it) => it.final === "q" && WHOLE.includes(it.intermediates) && !it.hasMore;

const enter = ({ final, parameters, intermediates, hasMore }) => ({
  type: "Enter",
  byte: final,
  params: parameters.map((it) => it ?? 0),
  intermediates,
  ignoredExtraIntermediates: hasMore,
});

/* The action of a device control string that is given whole. */
function deviceOf(header, data) {
  const { final: byte, intermediates } = header;
  const params = header.parameters.map((it) => it ?? 0);
  if (intermediates === "+") return { type: "XtGetTcap", names: termcapQuery(data) };
  if (intermediates === "") return { type: "Sixel", ...sixel(params, data) };
  const mode = { type: "ShortDeviceControl", params, intermediates, byte, data };
  return { type: "DeviceControl", mode };
}

const device = (mode) => ({ type: "DeviceControl", mode });

/** Makes actions of the events of a stream, in their order. */
export class ActionTaker {
  #limit;
  #header = null;
  #data;
  #length;

  constructor(dataLimit = DEFAULT_DATA_LIMIT) {
    this.#limit = dataLimit;
  }

  take(events) {
    const found = [];
    for (const event of events) this.#one(event, found);
    return found;
  }

  #one(event, found) {
    switch (event.type) {
      case "Text":
        found.push({ type: "PrintString", text: event.text });
        return;
      case "Control": {
        const code = codeOf(event.byte);
        if (code) found.push({ type: "Control", code, byte: event.byte });
        return;
      }
      case "Csi":
        found.push({
          type: "CSI",
          prefix: event.prefix,
          params: event.parameters,
          intermediates: event.intermediates,
          control: event.final,
          parametersTruncated: event.hasMore,
        });
        return;
      case "Escape": {
        const { intermediates, hasMore, final } = event;
        const intermediate = intermediates.length === 1 && !hasMore ? intermediates : null;
        found.push({ type: "Esc", intermediate, control: final });
        return;
      }
      default:
        this.#string(event, found);
    }
  }

  #string(event, found) {
    switch (event.type) {
      case "Osc":
        found.push({ type: "OperatingSystemCommand", command: command(event.text) });
        return;
      case "Apc": {
        const it = image(event.text);
        if (it) found.push({ type: "KittyImage", image: it });
        return;
      }
      case "Dcs":
        this.#header = isWhole(event) ? event : null;
        this.#data = new Bytes();
        this.#length = 0;
        if (!this.#header) found.push(device(enter(event)));
        return;
      case "Data":
        this.#push(event.data, found);
        return;
      case "DcsEnd":
        found.push(this.#end());
        return;
      default:
        found.push(event);
    }
  }

  #push(data, found) {
    if (!this.#header) {
      found.push(device({ type: "Data", data }));
      return;
    }
    this.#length += data.length;
    if (this.#length <= this.#limit) this.#data.push(data);
  }

  #end() {
    const header = this.#header;
    if (!header) return device({ type: "Exit" });
    const data = this.#data.all();
    this.#header = null;
    this.#data = undefined;
    return this.#length <= this.#limit ? deviceOf(header, data) : { type: "Limit" };
  }
}
