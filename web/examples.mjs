#!/usr/bin/env node
// The examples that the Bench offers, from the commands on the pages of examples/asm, stops and attacks, and the tasks
// in web/tasks.txt:
//     web/examples.mjs > web/examples.json
import { readdirSync, readFileSync } from "node:fs";
import { basename } from "node:path";
import { fileURLToPath } from "node:url";
import { commandsOf } from "./command.mjs";

const top = fileURLToPath(new URL("../", import.meta.url));
const folders = ["asm", "stops", ...readdirSync(`${top}examples/attacks`).sort().map((name) => `attacks/${name}`)];
const base = (name) => basename(name).replace(/\.\w+$/, "");
// Sources that stand beside the one that an example is about.
const BESIDE = ["module", "pressed", "expected"];
const isSame = (one, other) => JSON.stringify(one) === JSON.stringify(other);

function commandsOfPage(folder) {
  const page = readFileSync(`${top}examples/${folder}/README.md`, "utf8").replace(/\\\n {4}/g, " ");
  const lines = [...page.matchAll(/^ {4}\.\/sancus (.*)$/gm)].map((match) => match[1].replace(/\|.*/, ""));
  return lines.flatMap(commandsOf);
}

// The runs of a page: what is linked by which layout, and how long it runs on which schedule.
function runsOf(folder) {
  const [sources, images, challenges, all, runs] = [new Map(), new Map(), new Map(), [], []];
  const linked = (layout, objects) => ({ layout, sources: objects.map((name) => sources.get(name) ?? name) });
  for (const { words: [command, ...words], to } of commandsOfPage(folder)) {
    const run = ({ layout, sources }, schedule, more) =>
      runs.push({ layout, sources, ...(challenges.has(schedule) ? { challenges: challenges.get(schedule) }
        : schedule === "-" ? {} : { schedule }), ...more });
    if (command === "asm") sources.set(to, words[0]);
    if (command === "challenge") challenges.set(to, words[0]);
    if (command === "link") all.push(images.set(to, linked(words[0], words.slice(1))).get(to));
    if (command === "run") run(linked(words[0], words.slice(3)), words[1], { cycles: words[2] });
    if (command === "image") run(images.get(words[0]), words[1], { cycles: words[2] });
    if (command === "monitor") run(images.get(words[0]), words[1], { cycles: "100", script: words[2] });
    if (command === "balance") images.get(words[0]).arms = words[2];
  }
  const armsOf = (run) => all.find((it) => it.arms && isSame(it.sources, run.sources))?.arms;
  return runs.map((run) => ({ ...run, ...(armsOf(run) ? { arms: armsOf(run) } : {}) }));
}

// Runs that differ in the last source alone are one example with two secrets.
function merged(runs) {
  const found = [];
  for (const run of runs) {
    const rest = (it) => [it.layout, it.schedule, it.challenges, it.script, it.sources.length, it.sources.slice(0, -1)];
    const like = found.find((it) => isSame(rest(it), rest(run))
      && (run.sources.length > 1 || isSame(it.sources, run.sources)));
    if (!like) found.push(run);
    else if (!isSame(like.sources, run.sources)) like.other ??= run.sources.at(-1);
  }
  return found;
}

function nameOf(folder, { sources, schedule, challenges }) {
  const ofFolder = sources.filter((it) => it.startsWith(`examples/${folder}/`));
  const own = ofFolder.map(base).filter((it) => !BESIDE.includes(it));
  return `${basename(folder)}: ${[...own, ...[schedule, challenges].filter((it) => it).map(base)].join(", ")}`;
}

const lines = readFileSync(`${top}web/tasks.txt`, "utf8").trimEnd().split("\n");
const tasks = new Map(lines.map((line) => line.split(" | ")));
const ofFolder = (folder) => merged(runsOf(folder)).map((run) => ({ name: nameOf(folder, run), ...run }));
const examples = folders.flatMap(ofFolder);
const lacking = examples.filter(({ name }) => !tasks.has(name)).map(({ name }) => name);
const unused = [...tasks.keys()].filter((name) => !examples.some((it) => it.name === name));
for (const name of lacking) console.error(`no task in web/tasks.txt: ${name}`);
for (const name of unused) console.error(`a task without an example: ${name}`);
console.log(`[\n${examples.map((it) => JSON.stringify({ ...it, task: tasks.get(it.name) })).join(",\n")}\n]`);
process.exitCode = lacking.length + unused.length && 1;
