// The Bench: a prompt for the programs' commands, the files that they read, what they write, and timelines of traces.
import { MAP } from "./actions.mjs";
import { commandsOf } from "./command.mjs";
import { button, element, items, part, showLegend, textOf, traceList } from "./elements.mjs";
import { Files, MOST_BYTES } from "./files.mjs";
import { MODULES } from "./modules.mjs";
import { output } from "./output.mjs";
import { loadModule, Runner } from "./runner.mjs";
import { firstDifference, isTrace, picture, read, readMap } from "./trace.mjs";
import { lookScript, lookTables, View } from "./view.mjs";
import { loadReasons, named, refusedLine, why } from "./why.mjs";
import { Workbench } from "./workbench.mjs";

const COMMANDS = [
  "image examples/interrupts/called.img examples/interrupts/pulse_inside.txt 40",
  "run examples/c/layout.toml - 400 examples/c/meter.o",
  "asm examples/nested/handlers.txt > handlers.o",
  "run examples/nested/layout.toml examples/nested/pulses.txt 160 handlers.o",
  "link examples/c/layout.toml examples/c/meter.o > meter.img",
  "lone meter.img 1 1000 r6=0000 r7=0200 r12=0005",
  "dis examples/first.img 0200 0208",
  "check meter.img 1",
  "balance examples/channel/module_0.img 1 examples/channel/arms.txt",
  "monitor examples/interrupts/called.img examples/interrupts/pulse_inside.txt examples/monitor/script.txt",
  "key examples/attestation/tagger.img 1",
  "challenge examples/attestation/challenges.txt > schedule.txt",
  "image examples/attestation/tagger.img schedule.txt 9500 > trace.txt",
  "vendor examples/attestation/tagger.img 1 4288d2bf49ac628155a630f7dab1d6da"
    + " examples/attestation/challenges.txt trace.txt",
  "make 1",
];
const SCRIPT = "bench/look.txt";
const LOOKED = "bench/look.img";
const MOST_DRAWN = 1 << 22;
// Where the words of a command have the number of cycles.
const CYCLES = { image: 3, run: 3, steps: 3 };
const tried = [];
const runners = {};
let back = 0;
let files;
let workbench;
let traceBefore = null;

// ---- files

async function openFile(name) {
  const bytes = await files.read(name);
  const text = bytes.length > MOST_BYTES ? null : textOf(bytes);
  part("name").value = name;
  part("text").value = text ?? "";
  part("kept").textContent =
    text === null ? `${name} is no text of at most 1,048,576 bytes: ${bytes.length} bytes` : "";
}

function listFiles() {
  part("files").replaceChildren(...items(files.names().map((name) => button(name, () => openFile(name)))));
}

// Each by itself: one that cannot be read or is too large does not keep the others out.
async function addFiles(list) {
  const said = await Promise.all([...list].map(async (file) => {
    try {
      const size = file.size.toLocaleString("en");
      if (file.size > MOST_BYTES) throw new Error(`${size} bytes; at most 1,048,576 are kept`);
      files.put(file.name, new Uint8Array(await file.arrayBuffer()));
      return { added: file.name };
    } catch (error) {
      return { refused: `${file.name} (${error.message})` };
    }
  }));
  listFiles();
  const added = said.flatMap((it) => it.added ?? []);
  const refused = said.flatMap((it) => it.refused ?? []);
  part("kept").textContent = [
    ...(added.length ? [`Added: ${added.join(", ")}`] : []),
    ...(refused.length ? [`Not added: ${refused.join(", ")}`] : []),
  ].join(". ");
  workbench.changed();
}

function keepText(event) {
  event.preventDefault();
  const name = part("name").value.trim();
  try {
    files.put(name, new TextEncoder().encode(part("text").value));
    part("kept").textContent = `Kept as ${name}`;
  } catch (error) {
    part("kept").textContent = error.message;
  }
  listFiles();
  workbench.changed();
}

// The names of modules, from the bench's map, or from the first file that is a map.
async function names() {
  const own = files.names().filter((it) => !it.startsWith("examples/"));
  for (const name of [MAP, ...own].filter((it) => files.has(it))) {
    const text = textOf(await files.read(name));
    if (text?.startsWith("sancus-map 1\n")) return readMap(text);
  }
  return null;
}

// ---- runs

function endingOf(ran, to) {
  if (ran.trap) return element("p", `The module trapped: ${ran.trap}`, "ended bad");
  if (ran.full) return element("p", "The run was ended: it had written too much to keep", "ended bad");
  if (ran.ended) return element("p", "The run was ended", "ended bad");
  const kept = to ? `; ${ran.out.length} bytes kept as ${to}` : "";
  return element("p", `status ${ran.status}${kept}`, ran.status ? "ended bad" : "ended");
}

function comparison(text) {
  const found = traceBefore === null ? null : firstDifference(traceBefore, text);
  const compared = traceBefore !== null;
  traceBefore = text;
  if (!compared) return [];
  const cycle = found?.cycle === null ? "" : `, cycle ${found?.cycle}`;
  return [element("p", found
    ? `The trace before this one differs first in line ${found.line}${cycle}: “${found.a ?? ""}”`
      + ` there, “${found.b ?? ""}” here`
    : "The trace before this one is the same", "ended")];
}

// What shows the machine in a cycle of a run, by the monitor on its image and schedule; null where the run has none.
function lookOf({ program, words }, box) {
  if (program !== "sancus" || !["image", "run"].includes(words[0])) return null;
  return async (cycle) => {
    if (words[0] === "run") {
      const linking = ["link", words[1], ...words.slice(4)];
      files.keep(LOOKED, (await runners.sancus.run(linking, await files.forRun(linking))).out);
    }
    const image = words[0] === "run" ? LOOKED : words[1];
    files.keep(SCRIPT, new TextEncoder().encode(lookScript(cycle, workbench.field("mem"), 64)));
    const asked = ["monitor", image, words[2], SCRIPT];
    const ran = await runners.sancus.run(asked, await files.forRun(asked));
    const written = ran.err || new TextDecoder().decode(ran.out);
    box.replaceChildren(...lookTables(written, textOf(await files.read(image)) ?? ""));
  };
}

async function drawTrace(command, text, box) {
  const machine = element("div");
  const how = { title: "Timeline", names: await names(), width: box.clientWidth };
  const { view: first } = workbench;
  const isFirst = part("runs").querySelectorAll("svg").length === 0;
  const moved = (it) => (workbench.view = it);
  const view = new View(text, how, { look: lookOf(command, machine), moved, view: isFirst ? first : null });
  return [...comparison(text), ...view.elements(), machine];
}

// The sentences of the refusals among some lines.
function sentences(lines, words, map) {
  return lines.filter((line) => line).flatMap((line) => {
    const said = why(line, words);
    const place = named(line, map).split("  ; ")[1];
    return said ? [element("p", `${said}${place ? ` (in ${place})` : ""}`, "why")] : [];
  });
}

async function showRun(command, ran, title) {
  const { words, to } = command;
  const box = element("article", "", "run");
  const map = await names();
  const text = ran.out.length > MOST_DRAWN ? null : textOf(ran.out);
  const told = ["steps", "dis", "check", "balance"].includes(words[0]) ? (line) => named(line, map) : undefined;
  box.append(element("h3", title), ...(to ? [] : output(ran.out, told)));
  if (ran.err) box.append(element("pre", ran.err));
  box.append(endingOf(ran, to));
  const lines = [...ran.err.split("\n"), ...(ran.status && !to ? (text ?? "").split("\n").slice(-3) : [])];
  box.append(...sentences(lines, words, map));
  const refused = refusedLine(ran.err.trimEnd());
  if (refused) workbench.refused(refused, why(ran.err.trimEnd(), words) ?? ran.err);
  part("runs").prepend(box);
  if (text && isTrace(text) && /^end /m.test(text)) box.append(...await drawTrace(command, text, box));
  else if (!text && ran.out.length) box.append(element("p", "No timeline is drawn of more than 4 MiB", "ended"));
}

// Two traces side by side, with their first difference marked.
async function showPair(title, texts) {
  const box = element("article", "", "run");
  const found = firstDifference(...texts);
  const verdict = element("p", found
    ? `The secret shows: the traces differ from line ${found.line} on, “${found.a}” and “${found.b}”.`
    : "Nothing shows: the two traces are equal.", found ? "verdict leaks" : "verdict equal");
  const both = element("div", "", "two");
  box.append(element("h3", title), verdict, both);
  part("runs").prepend(box);
  const map = await names();
  both.append(...texts.map((text, at) => {
    const one = element("section");
    const place = element("div", "", "picture");
    one.append(place, traceList(["First secret", "Second secret"][at], text, found?.line));
    const how = { title: ["First secret", "Second secret"][at], names: map, first: found?.cycle ?? null };
    place.innerHTML = picture(read(text), { ...how, width: Math.max(both.clientWidth / 2 - 20, 280) });
    return one;
  }));
}

function busy(is) {
  part("end").disabled = !is;
  part("go").disabled = is;
  workbench.busy(is);
}

// What a command gave, with its output kept where it says so.
async function execute({ program, words, to }) {
  if (!runners[program]) throw new Error(`${program} is not here: its module is not in release/`);
  const content = await files.forRun(words);
  const begun = performance.now();
  const seconds = () => `${((performance.now() - begun) / 1000).toFixed(2)} s`;
  const shown = (number) => number.toLocaleString("en");
  let told = "0 lines so far";
  const last = CYCLES[words[0]] && Number(words[CYCLES[words[0]]]);
  const progress = (lines, cycle) => {
    told = `${shown(lines)} lines so far${cycle === null || !last ? "" : `, cycle ${shown(cycle)} of ${shown(last)}`}`;
  };
  const tell = () => {
    part("state").textContent = `Running: ${told}, ${seconds()}`;
  };
  const clock = setInterval(tell, 200);
  busy(true);
  const ran = await runners[program].run(words, content, progress);
  clearInterval(clock);
  busy(false);
  part("state").textContent = `Done in ${seconds()}`;
  const name = to ?? (words[0] === "map" && ran.status === 0 ? MAP : null);
  if (name && !ran.trap && !ran.ended) {
    files.keep(name, ran.out);
    listFiles();
  }
  return ran;
}

const titleOf = ({ program, words, to }) => `${program} ${words.join(" ")}${to ? ` > ${to}` : ""}`;

// Does commands one after another until one does not end well; of the `quiet` first ones only a fault is shown.
async function runLine(line, quiet = 0) {
  const commands = commandsOf(line);
  const fault = commands.find((it) => it.fault)?.fault;
  if (fault) return void (part("state").textContent = fault);
  for (const [at, command] of commands.entries()) {
    const ran = await execute(command);
    if (at >= quiet || ran.status !== 0) await showRun(command, ran, titleOf(command));
    if (ran.status !== 0) return false;
  }
  return true;
}

// A button of the bench: what its files have to become first, and its command.
async function runAction({ name, steps, command }) {
  const all = [...steps, command];
  workbench.command = all.join(" && ");
  const isPair = name === "Two secrets";
  const done = await runLine(all.join(" && "), isPair ? all.length : steps.length);
  if (done && isPair) {
    const traces = ["bench/first.trace", "bench/second.trace"];
    showPair(`sancus ${command}`, await Promise.all(traces.map(async (it) => textOf(await files.read(it)))));
  }
}

const told = (act) => act.catch((error) => (part("state").textContent = error.message));

function submit(event) {
  event.preventDefault();
  const line = part("line").value.trim();
  if (!line || part("go").disabled) return;
  tried.push(line);
  back = 0;
  part("line").value = "";
  workbench.command = line;
  told(runLine(line));
}

// The arrows go through the lines before.
function recall(event) {
  const step = { ArrowUp: 1, ArrowDown: -1 }[event.key];
  if (!step) return;
  event.preventDefault();
  back = Math.min(Math.max(back + step, 0), tried.length);
  part("line").value = back ? tried.at(-back) : "";
}

function listen() {
  part("prompt").onsubmit = submit;
  part("line").onkeydown = recall;
  part("end").onclick = () => Object.values(runners).forEach((it) => it.end());
  part("editor").onsubmit = keepText;
  part("chosen").onchange = () => addFiles(part("chosen").files);
  part("text").addEventListener("beforeinput", (event) => {
    const more = event.data ?? event.dataTransfer?.getData("text/plain") ?? "";
    if (part("text").value.length + more.length <= MOST_BYTES) return;
    event.preventDefault();
    part("kept").textContent = "Nothing was put in: a text has at most 1,048,576 bytes";
  });
  addEventListener("dragover", (event) => {
    event.preventDefault();
    document.body.classList.add("drop");
  });
  addEventListener("dragleave", () => document.body.classList.remove("drop"));
  addEventListener("drop", (event) => {
    event.preventDefault();
    document.body.classList.remove("drop");
    addFiles(event.dataTransfer.files);
  });
}

function showModules() {
  part("modules").replaceChildren(...Object.entries(MODULES).map(([name, { size, sha256, version }]) => {
    const told = `${name} ${version}: release/${name}.wasm, ${size.toLocaleString("en")} bytes, SHA-256 ${sha256}`;
    return element("li", told);
  }));
}

// The second program, once the page answers: it is not waited for.
async function startLab() {
  if (!MODULES["sancus-lab"]) return workbench.lab([]);
  runners["sancus-lab"] = new Runner(await loadModule("sancus-lab"));
  const ran = await runners["sancus-lab"].run(["--help"], new Map());
  const help = new TextDecoder().decode(ran.out);
  workbench.lab([...help.matchAll(/^ {2}([a-z]+) {2,}/gm)].map((match) => match[1]));
}

async function start() {
  const [listed, module] = await Promise.all([Files.listed(), loadModule(), loadReasons()]);
  [files, runners.sancus] = [listed, new Runner(module)];
  workbench = new Workbench(files, { act: (action) => told(runAction(action)), listFiles, runner: runners.sancus });
  await workbench.start();
  listFiles();
  part("commands").replaceChildren(...items(COMMANDS.map((line) => button(line, () => {
    part("line").value = line;
    part("line").focus();
  }))));
  showLegend(part("legend"));
  showModules();
  listen();
  part("note").remove();
  part("line").focus({ preventScroll: true });
  document.body.dataset.ready = "yes";
  await startLab();
  document.body.dataset.lab = "yes";
}

start().catch((error) => {
  (part("note") ?? part("state")).textContent = `The machine could not be started: ${error.message}`;
});
