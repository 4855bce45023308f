// SPDX-License-Identifier: MIT
// The calls without the module, for hosts that hand it over compiled: call `use` with it first.
export { command } from "./src/commands.js";
export { functionOf } from "./src/functions.js";
export { image, sixel, termcapQuery } from "./src/images.js";
export { Parser, actions, events } from "./src/parser.js";
export { Sanitizer, sanitize } from "./src/sanitizer.js";
export { controlStringOf, controlStrings } from "./src/strings.js";
export {
  actionStream,
  eventStream,
  filterStream,
  htmlStream,
  normalStream,
  sanitizerStream,
  stripStream,
} from "./src/streams.js";
export { Filter, HtmlWriter, Normaliser, filter, normal, strip, toHtml } from "./src/texts.js";
export { DEFAULT_LIMIT, use } from "./src/wasm.js";
