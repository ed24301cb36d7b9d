#!/usr/bin/env node
// The sizes of the modules, the first one's speed beside the native program, one after the other in one run, and the
// Bench in a headless Chromium: from a cold load to the first answer.
//     web/measure.mjs PROGRAM [CHROMIUM] > bench/results/web.txt
import { spawnSync } from "node:child_process";
import { readFileSync } from "node:fs";
import { cpus, loadavg } from "node:os";
import { fileURLToPath } from "node:url";
import { gzipSync } from "node:zlib";
import { collect } from "./host.mjs";
import { Chromium } from "./check/chromium.mjs";
import { Native } from "./check/native.mjs";
import { coldLoad, serve } from "./check/visit.mjs";
import { MODULES } from "./modules.mjs";

const top = fileURLToPath(new URL("../", import.meta.url));
const RUNS = 3;
const row = (at, bytes) => `at ${at} ${bytes.padEnd(32, "0")}\n`;
const HEAD = `sancus-image 1\nkey ${"0".repeat(32)}\nhandler 0000\n`;
const image = (code) => `${HEAD}${row("0200", code)}${row("fff0", `${"0".repeat(28)}0002`)}end\n`;
// Two nested loops of a decrement and a jump, for ever; a byte sent every seven cycles.
const BUSY = image("3640ffff1683fe23fb3f");
const SENDER = image("f2402a007100fc3f");
const LINES = [
  ["10^7 cycles of two loops", "image busy.img - 10000000"],
  ["10^6 cycles, a line each 7", "image sender.img - 1000000"],
  ["a drawn workload, twice 200,000 cycles", "make 1"],
  ["a C object, linked and run", "run examples/c/layout.toml - 400 examples/c/meter.o"],
  ["a module's text, judged", "balance examples/channel/module_0.img 1 examples/channel/arms.txt"],
];
const images = { "busy.img": BUSY, "sender.img": SENDER };
const files = new Map(Object.entries(images).map(([name, text]) => [name, new TextEncoder().encode(text)]));
for (const name of LINES.flatMap(([, line]) => line.split(" ")).filter((word) => word.startsWith("examples/"))) {
  files.set(name, new Uint8Array(readFileSync(top + name)));
}

async function least(act) {
  let best = Infinity;
  for (let run = 0; run < RUNS; run++) {
    const begun = performance.now();
    await act();
    best = Math.min(best, performance.now() - begun);
  }
  return best;
}

const program = process.argv[2];
const bytes = readFileSync(`${top}release/sancus.wasm`);
const module = await WebAssembly.compile(bytes);
const native = new Native(program);
for (const [name, bytes] of files) native.put(name, bytes);
const commit = spawnSync("git", ["-C", top, "rev-parse", "--short", "HEAD"]).stdout.toString().trim();
const machine = `${cpus()[0].model}, ${cpus().length} processors, load ${loadavg()[0].toFixed(1)}`;
console.log(`${new Date().toISOString().slice(0, 16)}Z, commit ${commit}, ${machine}, node ${process.version}`);
for (const name of Object.keys(MODULES)) {
  const content = readFileSync(`${top}release/${name}.wasm`);
  console.log(`release/${name}.wasm: ${content.length} bytes, ${gzipSync(content, { level: 9 }).length} with gzip`);
}
console.log(`\nleast of ${RUNS} runs, ms${" ".repeat(22)}  module  native   ratio`);
for (const [what, line] of LINES) {
  const words = line.split(" ");
  const ours = await least(() => collect(module, words, files));
  const theirs = await least(() => native.run(words));
  const numbers = [ours.toFixed(0), theirs.toFixed(0), (ours / theirs).toFixed(1)];
  console.log(what.padEnd(42) + numbers.map((it) => it.padStart(8)).join(""));
}
native.close();

if (process.argv[3]) {
  const { url, stop } = await serve();
  const browser = await Chromium.start(process.argv[3]);
  const loads = [];
  for (let run = 0; run < RUNS; run++) loads.push(await coldLoad(browser, url));
  const { product } = await browser.send("Browser.getVersion", {}, null);
  await browser.close();
  stop();
  const times = loads.map(({ time }) => time.toFixed(0)).join(", ");
  console.log(`\nBench in ${product} from 127.0.0.1, without a cache: first answer after ${times} ms`);
  const sent = Math.max(...loads.map((it) => it.sent));
  console.log(`sent for it, the second program included: ${sent} bytes, as web/serve packs them`);
}
