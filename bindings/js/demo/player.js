// SPDX-License-Identifier: MIT
// Plays a recording: what a terminal of its size shows, at each time.
import { toHtml } from "../index.js";
import { Screen } from "./screen.js";

const at = (id) => document.getElementById(id);

/** Plays recordings in the page's player; `trusted` makes the HTML of toHtml such as may be set. */
export class Player {
  #calls;
  #trusted;
  #outputs = [];
  #size;
  #screen;
  #next = 0;
  #lines = [];
  #timer;

  constructor(calls, trusted) {
    this.#calls = calls;
    this.#trusted = trusted;
    at("at").addEventListener("input", () => {
      this.#stop();
      this.#show(Number(at("at").value));
    });
    at("play").addEventListener("click", () => {
      if (this.#timer === undefined) this.#play();
      else this.#stop();
    });
  }

  /** Shows the end of a recording, or hides the player where there is none that is played. */
  open(recording) {
    this.#stop();
    at("player").hidden = recording?.size === undefined;
    this.#outputs = recording?.outputs ?? [];
    this.#size = recording?.size;
    this.#restart();
    if (this.#size === undefined) return;
    at("at").max = String(this.#end);
    this.#show(this.#end);
  }

  get #end() {
    return this.#outputs.at(-1)?.time ?? 0;
  }

  /* A blank screen. */
  #restart() {
    this.#screen?.dispose();
    this.#screen = undefined;
    this.#next = 0;
    this.#lines = [];
    at("screen").replaceChildren();
    if (this.#size === undefined) return;
    const { columns, rows } = this.#size;
    this.#screen = new Screen(this.#calls, columns, rows);
    for (let i = 0; i < rows; i++) {
      const line = document.createElement("span");
      line.className = "line";
      at("screen").append(line);
    }
  }

  /* Shows the screen at a time; one that is past is played from the beginning on. */
  #show(time) {
    const isPast = this.#next > 0 && this.#outputs[this.#next - 1].time > time;
    if (isPast) this.#restart();
    const first = this.#next;
    while (this.#next < this.#outputs.length && this.#outputs[this.#next].time <= time) {
      this.#next++;
    }
    this.#screen.feed(this.#outputs.slice(first, this.#next).map((it) => it.text).join(""));
    this.#screen.streams().forEach((stream, i) => this.#put(i, stream));
    at("at").value = String(time);
    at("time").textContent = `${time.toFixed(1)} of ${this.#end.toFixed(1)} s`;
  }

  #put(i, stream) {
    if (this.#lines[i] === stream) return;
    this.#lines[i] = stream;
    at("screen").children[i].innerHTML = this.#trusted(`${toHtml(stream)}\n`);
  }

  #play() {
    const from = Number(at("at").value) >= this.#end ? 0 : Number(at("at").value);
    const begun = performance.now();
    at("play").textContent = "Pause";
    this.#timer = setInterval(() => {
      const time = Math.min(from + (performance.now() - begun) / 1000, this.#end);
      this.#show(time);
      if (time >= this.#end) this.#stop();
    }, 33);
  }

  #stop() {
    clearInterval(this.#timer);
    this.#timer = undefined;
    at("play").textContent = "Play";
  }
}
