// The workbench of the Bench in a headless Chromium: its buttons, links, bounds and keys. What is wanted stands on the
// examples' pages, or comes from the native programs.
//     node web/check/workbench.mjs CHROMIUM PROGRAM LAB [FOLDER]
import { existsSync, readFileSync, writeFileSync } from "node:fs";
import { cpus, loadavg } from "node:os";
import { join } from "node:path";
import { fileURLToPath } from "node:url";
import { accessFaults } from "./access.mjs";
import { filesOf } from "./cases.mjs";
import { Chromium } from "./chromium.mjs";
import { contrastFaults } from "./contrast.mjs";
import { check, end, same } from "./count.mjs";
import { Native } from "./native.mjs";
import { coldLoad, count, finished, runLine, serve, text } from "./visit.mjs";

const top = fileURLToPath(new URL("../../", import.meta.url));
const [chromium, program, lab, folder] = process.argv.slice(2);
const hasLab = existsSync(`${top}release/sancus-lab.wasm`);
const PLAIN = "latency: keypad, return, pulse_plain";
const MODULE = "latency: keypad, return, pulse_module";
const BUDGET = 1.5e6;
// A byte each 7 cycles: a line in each of them.
const SENDER = "section .text code\nglobal main\nlabel main\nmov.b #0x002a, &0x0071\njmp main\n";
const browser = await Chromium.start(chromium);
const { url, stop } = await serve();
const native = new Native(program);
for (const [name, bytes] of filesOf(top)) native.put(name, bytes);

const value = (expression) => browser.value(expression);
const run = (selector = "") => text(`.run:first-child ${selector}`);
const pane = (role) => `document.querySelector(".pane.${role} textarea")`;
const picture = async (name) => folder && writeFileSync(join(folder, `workbench_${name}.png`), await browser.picture());

async function open(page = "web/bench.html") {
  await browser.send("Page.navigate", { url: "about:blank" });
  await browser.open(url + page);
  await browser.until("document.body.dataset.lab === 'yes'");
}

async function choose(name) {
  await value(`{
    const list = document.getElementById("example");
    list.selectedIndex = [...list.options].findIndex((it) => it.text === ${JSON.stringify(name)});
    list.dispatchEvent(new Event("change"));
  }`);
  const { task } = JSON.parse(readFileSync(`${top}web/examples.json`, "utf8")).find((it) => it.name === name);
  await browser.until(`${text("#task")} === ${JSON.stringify(task)}`);
}

async function press(name, waits = true) {
  const before = await value(count(".run"));
  await value(`[...document.querySelectorAll("#actions button")].find((it) => it.textContent === ${JSON.stringify(name)}).click()`);
  if (waits) await finished(browser, before);
}

async function put(role, content) {
  await value(`{ const it = ${pane(role)}; it.value = ${JSON.stringify(content)}; it.dispatchEvent(new Event("input")); }`);
}

// The page as it stands, narrow and wide, in both schemes of colours.
async function looks(what) {
  for (const [width, scheme] of [[360, "dark"], [360, "light"], [1240, "dark"], [1240, "light"]]) {
    await browser.look(width, scheme);
    check(`${what} fits, ${width} ${scheme}`, await value("document.documentElement.scrollWidth <= innerWidth"));
    same(`${what} has contrast, ${width} ${scheme}`, await value(`(${contrastFaults})()`), []);
  }
}

async function buttons() {
  same("the list of examples", await value(count("#example option")), 53);
  await choose("stops: read_data");
  await press("Assemble");
  check("Assemble", /asm bench\/module.txt > bench\/module.o/.test(await value(run("h3"))) && await value(run(".ended")) !== "");
  await press("Link");
  check("Link", /status 0; \d+ bytes kept as bench\/bench.img/.test(await value(run(".ended"))));
  await press("Run");
  same("Run stops as the page says", await value(run("pre")), "0 stop ReadData pc 0200 addr 0a24 module 1\nend 0 stopped\n");
  check("the stop has its sentence", /it reads 0a24, data of module 1, from elsewhere/.test(await value(run(".why"))));
  await choose(PLAIN);
  await press("Two secrets");
  check("plain code shows the secret", /The secret shows.*“20 irq 1” and “17 irq 1”/.test(await value(run(".verdict"))));
  same("two timelines side by side, the difference in each", await value(count(".run:first-child svg .first")), 2);
  same("and in both traces", await value(count(".run:first-child .differs")), 2);
  await looks("two secrets");
  await picture("two_secrets");
  await choose(MODULE);
  await press("Two secrets");
  same("a module shows nothing", await value(run(".verdict")), "Nothing shows: the two traces are equal.");
  await press("Check");
  same("Check says yes by its certificates", await value(run("pre")), "yes\n");
  await put("arms", "");
  await press("Check");
  check("and no without them", /^no 0854 SecretBranch 0000/.test(await value(run("pre"))));
  check("with its sentence", /a conditional jump on flags that depend on a secret/.test(await value(run(".why"))));
  await press("Disassemble");
  check("Disassemble", /^0200: 4031 0600 mov #0x0600, r1/.test(await value(run("pre"))));
  await choose("borders: interrupted, pulse");
  await press("Script");
  check("Script plays as the page says", /^0a26: 0000$/m.test(await value(run("pre"))) && await value(run(".ended")) === "status 3");
}

async function labButtons() {
  const names = await value('[...document.querySelectorAll("#actions button")].map((it) => it.textContent).join()');
  if (!hasLab) {
    check("no button of the lab without its module", !/Sweep|Steps|Map|Released/.test(names));
    return check("a sentence says so", /its module is not in release/.test(await value(text("#lab"))));
  }
  check(`the lab's buttons are there: ${names}`, /Steps,Map,Sweep,Released/.test(names));
  check("unroll is there where the program has it",
    /Unroll/.test(names) === / unroll /.test(native.run(["--help"], lab).out.toString()));
  await choose(PLAIN);
  await value(`for (const [name, it] of [["from", 17], ["to", 17]]) {
    const input = [...document.querySelectorAll("#fields label")].find((label) => label.textContent.trim() === name + " cycle").firstElementChild;
    input.value = it;
    input.dispatchEvent(new Event("input"));
  }`);
  await press("Sweep");
  check(`Sweep finds the pulse of the page: ${await value(run("pre"))}`,
    /^pulse 17 begins 9 6 .* line 1\n1 20 irq 1\n2 17 irq 1\nend 0 same 1 different\n$/.test(await value(run("pre"))));
  await picture("sweep");
  await press("Map");
  check("Map", /^sancus-map 1\nmodule 1 m 0800 /.test(await value(run("pre"))));
  await press("Steps");
  check("Steps has the map's names", /^0 0 0200: 4031 0600 mov #0x0600, r1 {2}; main$/m.test(await value(run("pre"))));
  await picture("steps");
  await press("Released");
  same("Released", await value(run("pre")), "yes\n");
}

async function refusals() {
  await choose("asm: blink");
  await put("source", "section .text code\nglobal main\nlabel main\nmove r1, r2\n");
  await press("Run");
  same("the refused line is marked", await value(text(".pane.source .marked")), "4\n");
  check("and told beside it", /^Line 4: .*has none of a source's forms/.test(await value(text(".pane.source .said"))));
  same("and to who cannot see it", await value(`${pane("source")}.getAttribute("aria-invalid")`), "true");
  await looks("a refusal");
  await picture("refused");
  await put("source", "section .text code\n");
  same("the mark goes with the next change", await value(count(".marked")), 0);
  await choose(PLAIN);
  await put("schedule", "17 line 0 up\n12 line 0 down\n");
  await press("Run");
  same("a schedule's line too", await value(text(".pane.schedule .marked")), "2\n");
}

async function bounds() {
  await choose("asm: blink");
  await value(`${pane("source")}.focus()`);
  const before = await value(`${pane("source")}.value`);
  await browser.type("x".repeat(1048577));
  same("more than 1 MiB is not put in", await value(`${pane("source")}.value`), before);
  check("and told", /at most 1,048,576 bytes/.test(await value(text(".pane.source .said"))));
  await value(`{
    const dataTransfer = new DataTransfer();
    const bad = new File(["x"], "bad.txt");
    bad.arrayBuffer = () => Promise.reject(new Error("cannot be read"));
    const files = [new File([new Uint8Array(50000000)], "large.txt"), bad, new File(["y"], "__proto__"), new File(["z"], "good.txt")];
    const event = new DragEvent("drop", { dataTransfer });
    Object.defineProperty(event, "dataTransfer", { value: { files } });
    dispatchEvent(event);
  }`);
  await browser.until(`/Added: __proto__, good.txt/.test(${text("#kept")})`);
  check("one that cannot be read or is too large leaves the others",
    /Not added: large.txt \(50,000,000 bytes; at most 1,048,576 are kept\), bad.txt \(cannot be read\)/.test(await value(text("#kept"))));
  await finished(browser, await runLine(browser, "image __proto__ - 4"));
  check("a file named __proto__ is read", /sancus: bad file __proto__: /.test(await value(run())));
}

async function millions() {
  await choose("asm: blink");
  await put("source", SENDER);
  await put("layout", (await value(`${pane("layout")}.value`)).replace('"start"', '"main"'));
  await value('{ const it = document.querySelector("#fields input"); it.value = 7000000; it.dispatchEvent(new Event("input")); }');
  await press("Run");
  const begun = Date.now();
  same("the first lines of a million", (await value(run("pre"))).split("\n")[0], "0 out 2a");
  check("the page answers at once", Date.now() - begun < 500);
  check("how many there are is told", /of 1,000,00\d, 1,000 at a time/.test(await value(run("form"))));
  await value(`{ const form = document.querySelector(".run:first-child form"); form.querySelector("input").value = 999999999; form.requestSubmit(); }`);
  check("the last of them", /^end 7000000 /.test(await value(run("pre"))));
  const ended = value(count(".run"));
  await press("Run", false);
  await browser.until("!document.getElementById('end').disabled");
  await value("document.getElementById('end').click()");
  await finished(browser, await ended);
  check("a run is stopped in its middle", /The run was ended/.test(await value(run())));
}

async function links() {
  await choose(MODULE);
  await put("schedule", "63 line 0 up\n64 line 0 down\n");
  await press("Run");
  const trace = await value(run("pre"));
  await value("document.querySelector('.run:first-child .picture').focus()");
  for (const key of ["ArrowRight", "+", "+"]) await browser.press(key);
  const view = await value("[...document.querySelectorAll('.run:first-child form input')].map((it) => it.value).join()");
  await value("document.getElementById('share').click()");
  await browser.until(`/is now a link to this bench/.test(${text("#shared")})`);
  const link = await value("location.href");
  await value("localStorage.clear()");
  await open(link.slice(url.length));
  same("a link has the texts", await value(`${pane("schedule")}.value`), "63 line 0 up\n64 line 0 down\n");
  check("and the command", /&& image bench\/bench.img bench\/schedule.txt 160$/.test(await value("document.getElementById('line').value")));
  await press("Run");
  same("and gives the same trace", await value(run("pre")), trace);
  same("in the same view", await value("[...document.querySelectorAll('.run:first-child form input')].map((it) => it.value).join()"), view);
  await open("web/bench.html#bench=xxxx");
  check("a damaged link is told", /The bench could not be opened/.test(await value(text("#shared"))));
}

async function keeping() {
  await choose("stops: illegal");
  await put("schedule", "7 line 1 up\n");
  await browser.until("localStorage.getItem('sancus-bench')?.includes('7 line 1 up')");
  await open();
  same("the browser keeps the last bench", await value(`${pane("schedule")}.value`), "7 line 1 up\n");
  await value("document.getElementById('forget').click()");
  same("until it is to forget it", await value("localStorage.length"), 0);
  await open();
  same("then the first example is there", await value(`${pane("schedule")}.value`), "");
  await value(`{
    const bench = { version: 1, panes: [{ role: "layout", name: "layout.toml", text: "x" }, { role: "source", name: "__proto__", text: "y" }],
      fields: { cycles: "9", id: "1", line: "0", from: "0", to: "1", start: "0200", end: "0204", mem: "0200" }, files: [["a", "eA=="]],
      command: "", view: null, example: -1 };
    const files = new DataTransfer();
    files.items.add(new File([JSON.stringify(bench)], "b.json"));
    document.getElementById("import").files = files.files;
    document.getElementById("import").dispatchEvent(new Event("change"));
  }`);
  await browser.until(`${text("#shared")} === "Imported: b.json"`);
  same("an imported bench", await value(`${pane("source")}.value`), "y");
  check("with its files", /^(.*\b)?a\b/m.test(await value("[...document.querySelectorAll('#files button')].map((it) => it.textContent).join('\\n')")));
}

async function moving() {
  await open();
  await finished(browser, await runLine(browser, "image examples/interrupts/called.img examples/interrupts/pulse_inside.txt 40"));
  await browser.until(`${count(".run svg")} === 1`);
  const form = ".run:first-child form input";
  const window = () => value(`[...document.querySelectorAll(${JSON.stringify(form)})].map((it) => it.value).join()`);
  await value("document.querySelector('.run .picture').focus()");
  for (let step = 0; step < 13; step++) await browser.press("ArrowRight");
  same("the cycle by arrows", await value(run(".told")), "Cycle 13: padding; module 1 is put away | 13 hide 1 vector 1");
  await browser.press("+");
  same("plus zooms about the cycle", await window(), "7,27");
  await browser.press("PageDown");
  same("Page Down pans", await window(), "17,37");
  await browser.press("Home");
  same("Home shows all", await window(), "0,40");
  await browser.press("Enter");
  await browser.until(`${count(".run .machine")} === 1`);
  const cells = "[...document.querySelectorAll('.run .machine tr')].map((it) => [...it.cells].map((cell) => cell.textContent).join(' ')";
  check("the memory by its owners", (await value(`${cells}).join()`)).includes("0300 to 0305 module 1, text"));
  for (let step = 0; step < 22; step++) await browser.press("ArrowRight");
  await browser.press("Enter");
  await browser.until(`${text(".run .machine")}.includes("R00214")`);
  check("the registers after the module was left", (await value(`${cells}).join()`)).includes("R1 0600"));
  same("memory in rows of 16 bytes", (await value(run(".machine pre"))).split("\n").map((row) => row.slice(0, 6)),
    ["0200: ", "0210: ", "0220: ", "0230: "]);
  await looks("the machine in a cycle");
  await picture("machine");
  await value("document.querySelector('.run .picture').scrollIntoView({ block: 'center' })");
  const box = await value("(({ left, top, width }) => ({ left, top, width }))(document.querySelector('.run .picture').getBoundingClientRect())");
  const mouse = (type, x, more = {}) => browser.send("Input.dispatchMouseEvent", { type, x: box.left + x, y: box.top + 60, ...more });
  await mouse("mouseMoved", box.width / 2);
  check("the cycle under the pointer", /^Cycle \d+: /.test(await value(run(".told"))) && !/^Cycle 35/.test(await value(run(".told"))));
  await mouse("mouseWheel", box.width / 2, { deltaX: 0, deltaY: -100 });
  await browser.until(`[...document.querySelectorAll(${JSON.stringify(form)})].map((it) => it.value).join() !== "0,40"`);
  const before = await window();
  await mouse("mousePressed", box.width / 2, { button: "left", buttons: 1, clickCount: 1 });
  await mouse("mouseMoved", box.width / 2 - 100, { button: "left", buttons: 1 });
  await mouse("mouseReleased", box.width / 2 - 100, { button: "left" });
  check("the wheel zooms and a drag pans", await window() !== before);
}

async function keyboard() {
  await open();
  await value("document.querySelector('.skip').focus()");
  check("the link that skips is seen when it has the focus", await value("document.querySelector('.skip').getBoundingClientRect().left >= 0"));
  const seen = [];
  for (let step = 0; step < 60; step++) {
    await browser.press("Tab");
    seen.push(await value("document.activeElement.id || document.activeElement.textContent || document.activeElement.tagName"));
  }
  for (const wanted of ["example", "share", "Assemble", "Run", "line", "go"]) check(`Tab comes to ${wanted}`, seen.includes(wanted));
  check(`in the order of the page: ${seen.join("|").slice(0, 300)}`,
    seen.indexOf("example") < seen.indexOf("Assemble") && seen.indexOf("Assemble") < seen.indexOf("line"));
  for (const page of ["bench", "index"]) {
    await browser.open(`${url}web/${page}.html`);
    for (const [rule, faults] of Object.entries(await value(`(${accessFaults})()`))) same(`${page}: ${rule}`, faults, []);
  }
}

// docs/LESSON.md, step by step: its blocks are what is typed and what is shown.
async function lesson() {
  const page = readFileSync(`${top}docs/LESSON.md`, "utf8");
  const blocks = [...page.matchAll(/(?:^ {4}.*\n)+/gm)].map(([block]) => block.replace(/^ {4}/gm, ""));
  same("the lesson's blocks", blocks.length, 9);
  const [first, pulse, interrupted, leak, inside, equal, hidden, yes, no] = blocks;
  const pressed = async (name, part, wanted) => {
    await press(name);
    same(`the lesson: ${name}`, (await value(run(part))).trimEnd(), wanted.trimEnd());
  };
  await open();
  await choose(PLAIN);
  await put("schedule", "");
  await pressed("Run", "pre", first);
  await pressed("Two secrets", ".verdict", equal);
  await put("schedule", pulse);
  await pressed("Run", "pre", interrupted);
  await pressed("Two secrets", ".verdict", leak);
  await put("schedule", inside);
  await pressed("Two secrets", ".verdict", equal);
  await pressed("Run", "pre", hidden);
  await pressed("Check", "pre", yes);
  await put("arms", "");
  await pressed("Check", "pre", no);
  const there = await value('[...document.querySelectorAll("button")].map((it) => it.textContent)');
  const told = new Set([...page.matchAll(/\*\*([A-Z][^*]*)\*\*/g)].map((match) => match[1].replace(/\s+/g, " ")));
  for (const name of told) if (name !== "Sweep" || hasLab) check(`the lesson's button ${name}`, there.includes(name));
}

// Without its server, which is stopped here.
async function offline() {
  await open();
  await value("document.getElementById('offline').click()");
  await browser.until(`${text("#shared")} === "This browser has an offline copy of this page"`);
  stop();
  await open();
  await choose("stops: read_data");
  await press("Run");
  same("the offline copy runs", await value(run("pre")), "0 stop ReadData pc 0200 addr 0a24 module 1\nend 0 stopped\n");
  await value("document.getElementById('forget').click()");
  await browser.until(`/keeps nothing/.test(${text("#shared")})`);
  same("and is forgotten", await value("caches.keys()"), []);
}

// A cold load, from nothing to the first answer.
async function budget() {
  const loads = [];
  for (let tries = 0; tries < 5; tries++) loads.push(await coldLoad(browser, url));
  // (the least of them, since other work may hold up one; where more runs than there are processors, all take longer)
  const time = Math.min(...loads.map((it) => it.time));
  const crowd = Math.max(1, loadavg()[0] / cpus().length);
  check(`the first answer within a second: ${time} ms, ${crowd.toFixed(1)} processes a processor`, time < 1000 * crowd);
  const sent = Math.max(...loads.map((it) => it.sent));
  check(`at most 1.5 MB are sent: ${sent} bytes`, sent > 0 && sent <= BUDGET);
  const refused = await value(`(async () => {
    const { loadModule } = await import("/web/runner.mjs");
    const { fetch } = globalThis;
    globalThis.fetch = async (url) => new Response(new Uint8Array([...new Uint8Array(await (await fetch(url)).arrayBuffer()), 0]));
    return loadModule().then(() => "taken", (error) => error.message).finally(() => (globalThis.fetch = fetch));
  })()`);
  check(`a module with a byte more is refused: ${refused}`, /^release\/sancus.wasm has another SHA-256/.test(refused));
  const told = await value(text("#modules"));
  check("the module's hash is shown", told.includes(readFileSync(`${top}release/SHA256SUMS`, "utf8").match(/(\w+) {2}sancus\.wasm/)[1]));
}

try {
  await open();
  for (const part of [buttons, labButtons, refusals, bounds, millions, links, keeping, moving, keyboard, lesson, budget]) {
    await part().catch((error) => check(`${part.name}: ${error.message}; ${browser.faults.join("; ")}`, false));
  }
  check(`no complaint: ${browser.faults.join("; ")}`, browser.faults.length === 0);
  await offline();
} catch (error) {
  check(`${error.message}; the page complains: ${browser.faults.join("; ")}`, false);
}
await browser.close();
stop();
native.close();
end();
