// All cases, made images and the examples of the Bench in Node: each module beside its program.
//     node web/check/lines.mjs PROGRAM LAB IMAGES
import { existsSync, readFileSync } from "node:fs";
import { fileURLToPath } from "node:url";
import { actionsOf, fieldsOf, fileOf, panesOf } from "../actions.mjs";
import { commandsOf } from "../command.mjs";
import { collect } from "../host.mjs";
import { casesOf, filesOf } from "./cases.mjs";
import { check, end, skip } from "./count.mjs";
import { made } from "./made.mjs";
import { isSame, Native } from "./native.mjs";

const top = fileURLToPath(new URL("../../", import.meta.url));
const [program, lab, images] = process.argv.slice(2);
const native = new Native(program);
const pairs = {};
for (const [name, path] of [["sancus", program], ["sancus-lab", lab]]) {
  const file = `${top}release/${name}.wasm`;
  if (existsSync(file)) pairs[name] = { path, module: await WebAssembly.compile(readFileSync(file)) };
}

// Runs a command by the module and natively, keeps what it writes, and gives what the native program wrote.
async function both({ program: name = "sancus", words, to }, files) {
  const ours = await collect(pairs[name].module, words, files);
  const theirs = native.run(words, pairs[name].path);
  check(`${name} ${words.join(" ")}: status ${ours.status}, natively ${theirs.status} ${theirs.err}`, isSame(ours, theirs));
  if (to) {
    files.set(to, new Uint8Array(ours.out));
    native.put(to, theirs.out);
  }
  return theirs;
}

async function pagesLines(name) {
  const files = filesOf(top);
  for (const [file, bytes] of files) native.put(file, bytes);
  const { cases } = casesOf(top, name);
  for (const one of cases) await both(one, files);
  return cases.length;
}

async function madeImages(count) {
  for (let seed = 1; seed <= count; seed++) {
    const { files, lines } = made(seed);
    for (const name in files) native.put(name, files[name]);
    for (const line of lines) await both({ words: line.split(" ") }, new Map(Object.entries(files)));
    if (seed % 100 === 0) process.stderr.write(`${seed} of ${count} images\n`);
  }
}

// Each button of each example of the Bench that serves there.
async function examples() {
  const all = JSON.parse(readFileSync(`${top}web/examples.json`, "utf8"));
  const text = (bytes) => new TextDecoder().decode(bytes);
  for (const example of all) {
    const files = filesOf(top);
    const challenge = async (path) => text(native.run(["challenge", path], program).out);
    const panes = await panesOf(example, async (path) => text(files.get(path)), challenge);
    for (const pane of panes.filter(({ name }) => !name.endsWith(".o"))) {
      const bytes = new TextEncoder().encode(pane.text);
      files.set(fileOf(pane), bytes);
      native.put(fileOf(pane), bytes);
    }
    const known = new Set();
    for (const { steps, command } of actionsOf({ panes, fields: fieldsOf(example) }).filter((it) => it.command)) {
      for (const line of [...steps, command].filter((it) => !known.has(it))) {
        known.add(line);
        const [one] = commandsOf(line);
        if (pairs[one.program] && one.words[0] !== "unroll") await both(one, files);
      }
    }
  }
  check("the list of examples is filled", all.length >= 53);
  return all.length;
}

const counts = [await pagesLines("sancus"), Number(images), await examples()];
await madeImages(counts[1]);
if (pairs["sancus-lab"]) console.log(`${await pagesLines("sancus-lab")} lines of sancus-lab`);
else skip("the lines of sancus-lab: release/sancus-lab.wasm is not there (web/build.sh --lab makes it)");
native.close();
console.log(`${counts[0]} lines of the pages and refusals, ${counts[1]} made images, ${counts[2]} examples`);
end();
