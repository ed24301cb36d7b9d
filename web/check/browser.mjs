// The pages in a headless Chromium: what a reader does, by the keyboard alone, and all cases by the page's own
// runner.
//     node web/check/browser.mjs CHROMIUM PROGRAM [FOLDER]
// Pictures of both pages (wide, dark, narrow) go into FOLDER where it is named.
import { execFileSync, spawn } from "node:child_process";
import { mkdtempSync, rmSync, writeFileSync } from "node:fs";
import { tmpdir } from "node:os";
import { join } from "node:path";
import { fileURLToPath } from "node:url";
import { casesOf, filesOf } from "./cases.mjs";
import { Chromium } from "./chromium.mjs";
import { contrastFaults } from "./contrast.mjs";
import { check, end } from "./count.mjs";
import { isSame, Native } from "./native.mjs";
import { count, finished, inPage, runLine, serve, text } from "./visit.mjs";

const top = fileURLToPath(new URL("../../", import.meta.url));
const [chromium, program, folder] = process.argv.slice(2);
const NESTED = "run examples/nested/layout.toml examples/nested/pulses.txt 160 handlers.o";
const CALLED = "image examples/interrupts/called.img examples/interrupts/pulse_inside.txt 40";
// A byte is sent every seven cycles, for ever.
const SENDER = `sancus-image 1
key ${"0".repeat(32)}
handler 0000
at 0200 f2402a007100fc3f${"0".repeat(16)}
at fff0 ${"0".repeat(28)}0002
end
`;
const LOOKS = [
  ["light", 1240, "light"], ["dark", 1240, "dark"], ["narrow", 360, "light"], ["narrow_dark", 360, "dark"],
];

async function twoSecrets(browser, url) {
  const begun = Date.now();
  await browser.open(`${url}web/index.html`);
  check("Two secrets within ten seconds", Date.now() - begun < 10000);
  const verdict = await browser.value(text("#plain-verdict"));
  check("plain code shows the secret at first", /The secret shows.*17 irq 1.*19 irq 1/.test(verdict));
  check("the module shows nothing", /traces are equal/.test(await browser.value(text("#module-verdict"))));
  check("four timelines", await browser.value(count(".picture svg")) === 4);
  check("the line that differs is marked", await browser.value(count("#plain-traces .differs")) === 2);
  check("plain code leaks at two cycles", await browser.value(count("#plain-cells .leaks")) === 2);
  check("the module at none of them", await browser.value(count("#module-cells .leaks")) === 0);
  check("eighteen cycles are shown", await browser.value(count("#module-cells .equal")) === 18);
  await browser.value("document.getElementById('cycle').focus()");
  await browser.press("ArrowLeft");
  await browser.until(`${text("#chosen")} === "16" && /traces are equal/.test(${text("#plain-verdict")})`);
  check("the slider by an arrow", true);
  check("the code is shown", /0306: 2404 jeq 0x0310/.test(await browser.value(text("#code"))));
}

async function bench(browser, url, native) {
  await browser.open(`${url}web/bench.html`);
  check("the prompt has the focus", await browser.value("document.activeElement.id") === "line");
  await finished(browser, await runLine(browser, CALLED));
  const wanted = native.run(CALLED.split(" "));
  check("a run that was typed", await browser.value(text(".run pre")) === wanted.out.toString());
  await browser.until(`${count(".run svg")} === 1`);
  check("its timeline is there", await browser.value(count(".run svg rect.padding")) === 1);
  await finished(browser, await runLine(browser, "image examples/interrupts/called.img - 40"));
  await browser.until(`/differs first in line 2, cycle 13/.test(${text(".run .ended + .ended")})`);
  check("the first difference from the run before", true);
  await finished(browser, await runLine(browser, "no such command"));
  check("wrong words: the program's line", await browser.value(text(".run pre")) === "sancus: usage\n");
  check("wrong words: the status", await browser.value(text(".run .ended")) === "status 2");
  await runLine(browser, "image a > b c");
  await browser.until(`/One name must follow/.test(${text("#state")})`);
  check("a > without one name is told", true);
  await browser.value("document.getElementById('line').focus()");
  await browser.press("ArrowUp");
  check("the line before comes back", await browser.value("document.getElementById('line').value") === "image a > b c");
  await browser.value("document.getElementById('line').value = ''");
  await finished(browser, await runLine(browser, "asm examples/nested/handlers.txt > handlers.o"));
  await finished(browser, await runLine(browser, NESTED));
  await browser.until(`${count(".run:first-child svg")} === 1`);
  check("a file that was kept serves", /106 resume 1/.test(await browser.value(text(".run pre"))));
}

async function endButton(browser) {
  await browser.value("document.getElementById('name').focus()");
  await browser.type("sender.img");
  await browser.value("document.getElementById('text').focus()");
  await browser.type(SENDER);
  await browser.press("Tab");
  await browser.press("Enter");
  await browser.until(`/Kept as sender.img/.test(${text("#kept")})`);
  check("a file that was typed is kept", true);
  const before = await runLine(browser, "image sender.img - 1000000000");
  await browser.until(`/Running: [1-9][0-9,]* lines so far/.test(${text("#state")})`);
  check("the lines so far are told", true);
  await browser.until(`/, cycle [1-9][0-9,]* of 1,000,000,000, /.test(${text("#state")})`);
  check("and the cycle", true);
  await browser.press("Tab");
  check("the end button comes after the prompt", await browser.value("document.activeElement.id") === "end");
  await browser.press("Enter");
  await finished(browser, before);
  check("the run was ended", /The run was ended/.test(await browser.value(text(".run"))));
  await finished(browser, await runLine(browser, "image examples/first.img - 4"));
  check("a run after it", /^end 4 outside 0206/.test(await browser.value(text(".run pre"))));
}

async function droppedMap(browser) {
  await browser.value(`{
    const dataTransfer = new DataTransfer();
    dataTransfer.items.add(new File(["sancus-map 1\\nmodule 1 meter 0300 0306 0400 0402\\nend\\n"], "called.map"));
    dispatchEvent(new DragEvent("drop", { dataTransfer }));
  }`);
  await browser.until(`${text("#kept")} === "Added: called.map"`);
  await finished(browser, await runLine(browser, `${CALLED} > first.trace && ${CALLED}`));
  await browser.until(`/1 meter/.test(${text(".run svg")})`);
  check("a map that was dropped names the module", true);
  await browser.until(`${text(".run .ended + .ended")} === "The trace before this one is the same"`);
  check("two commands in a line", true);
}

async function allCases(browser, native) {
  const files = filesOf(top);
  const coded = {};
  for (const [name, bytes] of files) coded[name] = Buffer.from(bytes).toString("base64");
  const { cases } = casesOf(top);
  const found = await browser.value(`(${inPage})(${JSON.stringify(cases)}, ${JSON.stringify(coded)})`);
  cases.forEach(({ words, to }, at) => {
    const theirs = native.run(words);
    if (to) native.put(to, theirs.out);
    const ours = { ...found[at], out: Buffer.from(found[at].out, "base64") };
    check(`in the browser: sancus ${words.join(" ")}`, isSame(ours, theirs));
  });
}

// The folder of web/folder.sh, by another server, below another address.
async function inFolder(browser) {
  const room = mkdtempSync(join(tmpdir(), "sancus-folder-"));
  execFileSync(`${top}web/folder.sh`, [join(room, "class")]);
  const server = spawn("python3", ["-u", "-m", "http.server", "--bind", "127.0.0.1", "-d", room, "0"], { stdio: ["ignore", "pipe", "ignore"] });
  const told = await new Promise((resolve) => server.stdout.once("data", (it) => resolve(it.toString())));
  const place = `http://127.0.0.1:${/port (\d+)/.exec(told)[1]}/`;
  await browser.open(`${place}class/web/bench.html`);
  await finished(browser, await runLine(browser, "image examples/first.img - 4"));
  check("a folder on any server", /^end 4 outside 0206/.test(await browser.value(text(".run pre"))));
  server.kill();
  rmSync(room, { recursive: true });
  return place;
}

async function looks(browser, url) {
  for (const page of ["index", "bench"]) {
    for (const [name, width, scheme] of LOOKS) {
      await browser.look(width, scheme);
      await browser.open(`${url}web/${page}.html`);
      if (page === "bench") {
        await finished(browser, await runLine(browser, CALLED));
        await browser.until(`${count(".run svg")} === 1`);
      }
      check(`${page} fits, ${name}`, await browser.value("document.documentElement.scrollWidth <= innerWidth"));
      const faults = await browser.value(`(${contrastFaults})()`);
      check(`${page} has contrast, ${name}: ${faults.join("; ")}`, faults.length === 0);
      if (folder) writeFileSync(join(folder, `${page}_${name}.png`), await browser.picture());
    }
  }
}

const { url, stop } = await serve();
const native = new Native(program);
for (const [name, bytes] of filesOf(top)) native.put(name, bytes);
const browser = await Chromium.start(chromium);
try {
  await twoSecrets(browser, url);
  await bench(browser, url, native);
  await endButton(browser);
  await droppedMap(browser);
  await allCases(browser, native);
  await looks(browser, url);
  const place = await inFolder(browser);
  check(`no complaint: ${browser.faults.join("; ")}`, browser.faults.length === 0);
  const elsewhere = browser.asked.filter((it) => ![url, place, "data:", "about:"].some((own) => it.startsWith(own)));
  check(`nothing is asked of elsewhere: ${elsewhere.join(" ")}`, elsewhere.length === 0);
} catch (error) {
  check(`${error.message}; the page complains: ${browser.faults.join("; ")}`, false);
}
await browser.close();
stop();
native.close();
end();
