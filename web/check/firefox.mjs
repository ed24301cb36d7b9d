// The pages in a headless Firefox, over its own protocol (Marionette): both pages start, all cases by the page's own
// runner, and a run on the Bench.
//     node web/check/firefox.mjs FIREFOX PROGRAM
import { spawn } from "node:child_process";
import { mkdtempSync, rmSync, writeFileSync } from "node:fs";
import { connect } from "node:net";
import { tmpdir } from "node:os";
import { join } from "node:path";
import { fileURLToPath } from "node:url";
import { casesOf, filesOf } from "./cases.mjs";
import { check, end } from "./count.mjs";
import { isSame, Native } from "./native.mjs";
import { count, inPage, serve, text } from "./visit.mjs";

const top = fileURLToPath(new URL("../../", import.meta.url));
const [firefox, program] = process.argv.slice(2);
const PORT = 20000 + (process.pid % 20000);
const pause = (time) => new Promise((resolve) => setTimeout(resolve, time));

class Firefox {
  #socket;
  #held = Buffer.alloc(0);
  #waiting = new Map();
  #number = 0;
  #process;
  #profile = mkdtempSync(join(tmpdir(), "sancus-firefox-"));

  async start(name) {
    writeFileSync(join(this.#profile, "user.js"), `user_pref("marionette.port", ${PORT});\n`);
    const words = ["--headless", "--marionette", "--no-remote", "--profile", this.#profile];
    this.#process = spawn(name, words, { stdio: "ignore", env: { ...process.env, HOME: this.#profile } });
    for (let tries = 0; tries < 300 && !this.#socket; tries++) {
      await pause(100);
      this.#socket = await new Promise((resolve) => {
        const socket = connect(PORT, "127.0.0.1", () => resolve(socket)).on("error", () => resolve(null));
      });
    }
    if (!this.#socket) throw new Error("Firefox does not answer");
    this.#socket.on("data", (bytes) => this.#take(bytes));
    await this.send("WebDriver:NewSession", { capabilities: {} });
    await this.send("WebDriver:SetTimeouts", { script: 300000, pageLoad: 60000 });
  }

  // A message is its length, a colon and a text; an answer is [1, number, error, result].
  #take(bytes) {
    this.#held = Buffer.concat([this.#held, bytes]);
    for (let colon = this.#held.indexOf(58); colon > 0; colon = this.#held.indexOf(58)) {
      const stop = colon + 1 + Number(this.#held.subarray(0, colon));
      if (this.#held.length < stop) return;
      const message = JSON.parse(this.#held.subarray(colon + 1, stop));
      this.#held = this.#held.subarray(stop);
      // (the first one greets)
      const [, id, error, result] = Array.isArray(message) ? message : [];
      const { resolve, reject } = this.#waiting.get(id) ?? {};
      if (error) reject?.(new Error(error.message));
      else resolve?.(result);
    }
  }

  send(name, parameters) {
    const text = JSON.stringify([0, ++this.#number, name, parameters]);
    const answer = new Promise((resolve, reject) => this.#waiting.set(this.#number, { resolve, reject }));
    this.#socket.write(`${Buffer.byteLength(text)}:${text}`);
    return answer;
  }

  async value(expression) {
    const script = `const done = arguments[0]; Promise.resolve(${expression}).then((it) => done({ it }), (e) => done({ e: String(e) }));`;
    const { value } = await this.send("WebDriver:ExecuteAsyncScript", { script, args: [] });
    if (value.e) throw new Error(value.e);
    return value.it;
  }

  async until(expression) {
    for (let tries = 0; tries < 600; tries++, await pause(50)) if (await this.value(expression)) return;
    throw new Error(`not in 30 s: ${expression}`);
  }

  async close() {
    const ended = new Promise((resolve) => this.#process.once("exit", resolve));
    await this.send("Marionette:Quit", { flags: ["eForceQuit"] }).catch(() => {});
    await Promise.race([ended, pause(5000).then(() => this.#process.kill("SIGKILL"))]);
    rmSync(this.#profile, { recursive: true, force: true, maxRetries: 5, retryDelay: 200 });
  }
}

async function pages(browser, url, native) {
  for (const page of ["index", "bench"]) {
    await browser.send("WebDriver:Navigate", { url: `${url}web/${page}.html` });
    await browser.until("document.body?.dataset.ready === 'yes'");
    check(`${page} starts`, await browser.value(count("#note")) === 0);
  }
  await browser.value("document.querySelector('#actions button:not([disabled])').click()");
  await browser.until(`${count(".run")} === 1`);
  check("a button of the Bench", /kept as bench\/blink.o/.test(await browser.value(text(".run"))));
  const files = Object.fromEntries([...filesOf(top)].map(([name, bytes]) => [name, Buffer.from(bytes).toString("base64")]));
  const { cases } = casesOf(top);
  const found = await browser.value(`(${inPage})(${JSON.stringify(cases)}, ${JSON.stringify(files)})`);
  cases.forEach(({ words, to }, at) => {
    const theirs = native.run(words);
    if (to) native.put(to, theirs.out);
    check(`in Firefox: sancus ${words.join(" ")}`, isSame({ ...found[at], out: Buffer.from(found[at].out, "base64") }, theirs));
  });
}

const { url, stop } = await serve();
const native = new Native(program);
for (const [name, bytes] of filesOf(top)) native.put(name, bytes);
const browser = new Firefox();
try {
  await browser.start(firefox);
  await pages(browser, url, native);
} catch (error) {
  check(error.message, false);
}
await browser.close();
stop();
native.close();
end();
