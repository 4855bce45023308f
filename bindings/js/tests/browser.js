// SPDX-License-Identifier: MIT
// A file server, and a headless Chromium that is driven over its debugging port.
import { spawn } from "node:child_process";
import { mkdtemp, readFile, rm } from "node:fs/promises";
import { createServer } from "node:http";
import { tmpdir } from "node:os";
import { extname, join, normalize } from "node:path";

const TYPES = {
  ".html": "text/html", ".js": "text/javascript", ".css": "text/css", ".wasm": "application/wasm",
};

/** Serves the files of a folder. */
export async function serve(folder) {
  const server = createServer(async (request, answer) => {
    const path = normalize(decodeURIComponent(new URL(request.url, "http://x").pathname));
    try {
      const body = await readFile(join(folder, path));
      answer.writeHead(200, { "content-type": TYPES[extname(path)] ?? "application/octet-stream" });
      answer.end(body);
    } catch {
      answer.writeHead(404).end();
    }
  });
  await new Promise((go) => server.listen(0, "127.0.0.1", go));
  return { port: server.address().port, close: () => server.close() };
}

const FLAGS = [
  "--headless", "--no-sandbox", "--disable-gpu", "--remote-debugging-port=0",
  "--window-size=1100,900",
];

/* The address of the debugging port, which the browser prints. */
function addressOf(child) {
  return new Promise((go, stop) => {
    let text = "";
    child.stderr.on("data", (it) => {
      text += it;
      const found = /DevTools listening on (ws:\S+)/.exec(text);
      if (found) go(found[1]);
    });
    child.on("error", stop);
    child.on("exit", () => stop(new Error(text)));
  });
}

const SAID = /consoleAPICalled|exceptionThrown|entryAdded/;

/* The calls of a page over its socket; `said` has what it wrote to its console. */
async function connected(port) {
  const pages = await (await fetch(`http://127.0.0.1:${port}/json`)).json();
  const socket = new WebSocket(pages.find((it) => it.type === "page").webSocketDebuggerUrl);
  await new Promise((go) => socket.addEventListener("open", go));
  const due = new Map();
  const said = [];
  socket.addEventListener("message", (event) => {
    const { id, method, params, result, error } = JSON.parse(event.data);
    if (id) due.get(id)(error, result);
    else if (SAID.test(method)) said.push(JSON.stringify(params));
  });
  const call = (method, params = {}) => new Promise((go, stop) => {
    const id = due.size + 1;
    due.set(id, (error, result) => (error ? stop(new Error(JSON.stringify(error))) : go(result)));
    socket.send(JSON.stringify({ id, method, params }));
  });
  for (const it of ["Runtime", "Log", "Page"]) await call(`${it}.enable`);
  return { call, said, socket };
}

/** Starts a browser. */
export async function browser() {
  const profile = await mkdtemp(join(tmpdir(), "chromium-"));
  const words = [...FLAGS, `--user-data-dir=${profile}`, "about:blank"];
  const child = spawn("chromium", words, { stdio: ["ignore", "ignore", "pipe"] });
  const { call, said, socket } = await connected(new URL(await addressOf(child)).port);
  const run = async (expression) => {
    const words = { expression, awaitPromise: true, returnByValue: true };
    const { result, exceptionDetails } = await call("Runtime.evaluate", words);
    if (exceptionDetails) throw new Error(JSON.stringify(exceptionDetails));
    return result.value;
  };
  return {
    call,
    said,
    run,
    open: (url) => call("Page.navigate", { url }),
    async until(expression) {
      for (let i = 0; i < 600; i++) {
        if (await run(expression)) return;
        await new Promise((go) => setTimeout(go, 100));
      }
      throw new Error(`never true: ${expression}`);
    },
    async close() {
      socket.close();
      const gone = new Promise((go) => child.on("exit", go));
      child.kill();
      await gone;
      await rm(profile, { recursive: true, force: true, maxRetries: 5 });
    },
  };
}
