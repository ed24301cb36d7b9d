// Two secrets: the images of examples/channel, an interrupt at the cycle of the slider, and what an observer sees.
import { Files } from "./files.mjs";
import { loadModule, Runner } from "./runner.mjs";
import { element, part, showLegend, traceList } from "./elements.mjs";
import { firstDifference, picture, read } from "./trace.mjs";

const KINDS = ["plain", "module"];
const SECRETS = [0, 1];
const CYCLES = 60;
const image = (kind, secret) => `examples/channel/${kind}_${secret}.img`;
const files = new Files(KINDS.flatMap((kind) => SECRETS.map((secret) => image(kind, secret))));
// What was run already: traces of both secrets by kind and cycle.
const known = new Map();
let runner;

async function output(words, more = []) {
  const ran = await runner.run(words, new Map([...await files.forRun(words), ...more]));
  if (ran.status !== 0) throw new Error(ran.trap ?? ran.err);
  return new TextDecoder().decode(ran.out);
}

async function traces(kind, cycle) {
  const key = `${kind} ${cycle}`;
  if (!known.has(key)) {
    const schedule = [["pulse", new TextEncoder().encode(`${cycle} line 0 up\n`)]];
    const both = [];
    for (const secret of SECRETS) {
      both.push(await output(["image", image(kind, secret), "pulse", String(CYCLES)], schedule));
    }
    known.set(key, both);
  }
  return known.get(key);
}

function showTraces(kind, both, found) {
  const lists = both.map((text, secret) => traceList(`Trace of secret ${secret}`, text, found?.line));
  part(`${kind}-traces`).replaceChildren(...lists);
}

function show(kind, cycle, both) {
  const found = firstDifference(...both);
  const verdict = part(`${kind}-verdict`);
  verdict.className = found ? "verdict leaks" : "verdict equal";
  verdict.textContent = found
    ? `The secret shows: the traces differ from line ${found.line} on, “${found.a}” and “${found.b}”.`
    : "Nothing shows: the two traces are equal.";
  for (const secret of SECRETS) {
    const place = part(`${kind}-${secret}`);
    const how = { title: `Secret ${secret}`, width: place.clientWidth, first: found?.cycle ?? null };
    place.innerHTML = picture(read(both[secret]), how);
  }
  showTraces(kind, both, found);
  for (const cell of part(`${kind}-cells`).children) {
    cell.setAttribute("aria-pressed", cell.dataset.cycle === String(cycle));
  }
}

async function update() {
  const cycle = Number(part("cycle").value);
  part("chosen").textContent = cycle;
  for (const kind of KINDS) {
    const both = await traces(kind, cycle);
    if (Number(part("cycle").value) === cycle) show(kind, cycle, both);
  }
}

// A cell for each cycle, which tells whether an interrupt there shows the secret.
async function fillCells(kind) {
  const { min, max } = part("cycle");
  for (let cycle = Number(min); cycle <= Number(max); cycle++) {
    const leaks = firstDifference(...await traces(kind, cycle)) !== null;
    const cell = element("button", leaks ? "≠" : "=", leaks ? "leaks" : "equal");
    cell.type = "button";
    cell.dataset.cycle = cycle;
    cell.setAttribute("aria-label", `Cycle ${cycle}: the traces ${leaks ? "differ" : "are equal"}`);
    cell.onclick = () => {
      part("cycle").value = cycle;
      update();
    };
    part(`${kind}-cells`).append(cell);
  }
}

async function start() {
  runner = new Runner(await loadModule());
  await update();
  part("cycle").oninput = update;
  part("note").remove();
  showLegend(part("legend"));
  part("code").textContent = await output(["dis", image("module", 0), "0300", "0326"]);
  for (const kind of KINDS) await fillCells(kind);
  await update();
  addEventListener("resize", update);
  document.body.dataset.ready = "yes";
}

start().catch((error) => {
  part("note").textContent = `The machine could not be started: ${error.message}`;
});
