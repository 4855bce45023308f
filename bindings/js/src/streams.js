// SPDX-License-Identifier: MIT
// The same as transformers of streams, for `pipeThrough`.
import { Parser } from "./parser.js";
import { Sanitizer } from "./sanitizer.js";
import { Filter, HtmlWriter, Normaliser } from "./texts.js";

/*
 * A stream over what `make` returns: `take` gives what the next chunk adds, and `end` what the end
 * adds.
 */
function over(make, take, end) {
  let it;
  return new TransformStream({
    start() {
      it = make();
    },
    transform(chunk, to) {
      for (const added of take(it, chunk)) to.enqueue(added);
    },
    flush(to) {
      for (const added of end(it)) to.enqueue(added);
      it.dispose();
    },
    cancel() {
      it.dispose();
    },
  });
}

const some = (added) => (added.length > 0 ? [added] : []);

const texts = (make) => {
  const take = (it, chunk) => some(it.feed(chunk));
  return over(make, take, (it) => some(it.finish()));
};

export const filterStream = (policy, options) => texts(() => new Filter(policy, options));

export const sanitizerStream = (policy, { onAccount, ...options } = {}) => {
  const make = () => new Sanitizer(policy, { ...options, account: onAccount !== undefined });
  const end = (it) => {
    const added = some(it.finish());
    onAccount?.(it.account());
    return added;
  };
  return over(make, (it, chunk) => some(it.feed(chunk)), end);
};

export const stripStream = (options) => filterStream("text", options);

export const normalStream = (options) => texts(() => new Normaliser(options));

export const htmlStream = (options) => texts(() => new HtmlWriter(options));

export const eventStream = (options) => {
  const make = () => new Parser(options);
  return over(make, (it, chunk) => it.events(chunk), (it) => it.endEvents());
};

export const actionStream = (options) => {
  const make = () => new Parser(options);
  return over(make, (it, chunk) => it.actions(chunk), (it) => it.endActions());
};
