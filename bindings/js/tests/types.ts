// SPDX-License-Identifier: MIT
// The calls that a program in TypeScript may write: it is compiled, and not run.
import {
  Filter, HtmlWriter, Parser, Sanitizer, actions, command, controlStringOf, events, filter,
  filterStream, functionOf, htmlStream, image, normal, sanitize, sanitizerStream, sixel, strip,
  termcapQuery, toHtml,
} from "../index.js";
import type { Account, Action, Event, Policy, SanitizerOptions } from "../index.js";

const policies: Policy[] = ["text", "color", "screen", "all"];
const text: string = strip("a") + filter("a", policies[1]) + normal("a", { limit: 10 });
const bytes: Uint8Array = filter(new Uint8Array(3), "color", { limit: 10 });
const page: string = toHtml(bytes, { perLine: true, inline: true });

// @ts-expect-error There is no such policy.
filter("a", "none");
const screen = { rows: 4, columns: 80 };
const options: SanitizerOptions = { allow: ["titles"], encoding: "windows-1252", ...screen };
const log: string = sanitize("a", "text", options).text;
const safe: Uint8Array = sanitize(bytes, "color").text;
const account: Account = sanitize(safe).account;
// @ts-expect-error There is no such group.
sanitize("a", "text", { deny: ["colour"] });
// @ts-expect-error Bytes give bytes.
const wrong: string = strip(bytes);

export function names(stream: string | Uint8Array): string[] {
  const found: string[] = [text, page, wrong];
  for (const event of events(stream)) {
    if (event.type === "Csi") found.push(event.final, String(event.parameters[0]?.[0] ?? 1));
    const row = functionOf(event) ?? controlStringOf(event);
    if (row !== null) found.push(row.name, row.phrase);
  }
  return found;
}

export function titles(stream: Iterable<Uint8Array>): string[] {
  const found: string[] = [];
  for (const action of actions(stream, { dataLimit: 10 })) {
    if (action.type !== "OperatingSystemCommand") continue;
    const { command: it } = action;
    if (it.type === "SetWindowTitle") found.push(it.text);
    else if (it.type === "SetHyperlink") found.push(it.link?.uri ?? "");
    else if (it.type === "ITermProprietary" && it.command.type === "File") {
      found.push(it.command.file.name ?? "");
    }
  }
  return found;
}

export async function streams(response: Response): Promise<void> {
  const onAccount = (it: Account) => console.log(it.leftOut);
  const kept = response.body!.pipeThrough(sanitizerStream("color", { onAccount }));
  const page = kept.pipeThrough(filterStream("color")).pipeThrough(htmlStream());
  await page.pipeTo(new WritableStream<string>());
}

const parser = new Parser({ limit: 1 << 16 });
const all: (Event | Action)[] = [...parser.events("a"), ...parser.actions(bytes)];
parser.dispose();
const keep = new Filter("color");
const more: string | Uint8Array = keep.feed("a") + keep.feed("b") + String(keep.finish());
keep[Symbol.dispose]();
new HtmlWriter().dispose();
const sanitizer = new Sanitizer("screen", options);
const part: string = sanitizer.feed("a") + String(sanitizer.finish());
const read = [command(bytes), image(bytes)?.type, sixel([1, null], bytes).data];
export const values = [all, more, read, termcapQuery(bytes)[0]];
export const logs = [log, account.passed + sanitizer.account().leftOut, part];
