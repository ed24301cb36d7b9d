// The page's side of a run: a worker that does one run after another, and is ended where the reader wishes.
import { joined } from "./host.mjs";
import { MODULES } from "./modules.mjs";

// More bytes than these are not kept: the run is ended.
const MOST = 1 << 28;

export async function loadModule(program = "sancus") {
  const url = new URL(`../release/${program}.wasm`, import.meta.url);
  const answer = await fetch(url);
  if (!answer.ok) throw new Error(`${url} could not be read (${answer.status}): web/build.sh makes it`);
  const bytes = await answer.arrayBuffer();
  await compare(program, bytes);
  return WebAssembly.compile(bytes);
}

// Refuses a module that is not the one of modules.mjs. (A page that is served without https, and not by this machine,
// gets no hashes from the browser.)
async function compare(program, bytes) {
  if (!globalThis.crypto?.subtle) return;
  const digest = new Uint8Array(await crypto.subtle.digest("SHA-256", bytes));
  const found = [...digest].map((byte) => byte.toString(16).padStart(2, "0")).join("");
  if (found === MODULES[program].sha256) return;
  throw new Error(`release/${program}.wasm has another SHA-256 than web/modules.mjs tells: ${found}`);
}

// The cycle that the last whole line of a piece begins with, or null.
function cycleOf(bytes) {
  const stop = bytes.lastIndexOf(10);
  const start = bytes.lastIndexOf(10, stop - 1) + 1;
  const found = /^(\d+) /.exec(new TextDecoder().decode(bytes.subarray(start, Math.min(stop, start + 24))));
  return found ? Number(found[1]) : null;
}

export class Runner {
  #module;
  #worker = null;
  #stop = null;
  // The run before, since a worker does one at a time.
  #before = Promise.resolve();

  constructor(module) {
    this.#module = module;
  }

  // {status, out, err}, with `ended: true` where it was ended (`full: true` by its size), or with `trap`, the
  // engine's word. `progress` is told the number of lines so far, and the cycle of
  // the last one.
  run(words, files, progress = () => {}) {
    this.#before = this.#before.then(() => this.#start(words, files, progress));
    return this.#before;
  }

  #start(words, files, progress) {
    this.#worker ??= new Worker(new URL("worker.mjs", import.meta.url), { type: "module" });
    const pieces = { 1: [], 2: [] };
    let lines = 0;
    let bytes = 0;
    const worker = this.#worker;
    return new Promise((resolve) => {
      const finish = (how) => {
        this.#stop = null;
        resolve({ out: joined(pieces[1]), err: new TextDecoder().decode(joined(pieces[2])), ...how });
      };
      this.#stop = (more) => finish({ status: null, ended: true, ...more });
      worker.onerror = (event) => finish({ status: null, trap: event.message || "the worker could not be started" });
      worker.onmessage = ({ data }) => {
        if (!data.bytes) return finish(data.trap ? { status: null, trap: data.trap } : { status: data.status });
        pieces[data.stream].push(data.bytes);
        for (const byte of data.bytes) lines += byte === 10;
        progress(lines, data.stream === 1 ? cycleOf(data.bytes) : null);
        bytes += data.bytes.length;
        if (bytes > MOST) this.end({ full: true });
      };
      worker.postMessage({ module: this.#module, words, files });
    });
  }

  // Ends the run that is under way.
  end(more = {}) {
    this.#worker?.terminate();
    this.#worker = null;
    this.#stop?.(more);
  }
}
