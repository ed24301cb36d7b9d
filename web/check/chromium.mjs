// A headless Chromium over the pipe of its own protocol: pages, keys, pictures.
import { spawn } from "node:child_process";
import { mkdtempSync, rmSync } from "node:fs";
import { tmpdir } from "node:os";
import { join } from "node:path";

const FLAGS = [
  "--headless=new", "--no-sandbox", "--disable-gpu", "--disable-dev-shm-usage", "--no-first-run",
  "--remote-debugging-pipe",
];
const KEYS = {
  Enter: { key: "Enter", code: "Enter", windowsVirtualKeyCode: 13, text: "\r" },
  Tab: { key: "Tab", code: "Tab", windowsVirtualKeyCode: 9 },
  ArrowLeft: { key: "ArrowLeft", code: "ArrowLeft", windowsVirtualKeyCode: 37 },
  ArrowRight: { key: "ArrowRight", code: "ArrowRight", windowsVirtualKeyCode: 39 },
  ArrowUp: { key: "ArrowUp", code: "ArrowUp", windowsVirtualKeyCode: 38 },
  "+": { key: "+", text: "+" },
  "-": { key: "-", text: "-" },
  PageDown: { key: "PageDown", code: "PageDown", windowsVirtualKeyCode: 34 },
  Home: { key: "Home", code: "Home", windowsVirtualKeyCode: 36 },
};
const faultOf = (details) => details.exception?.description ?? details.text;
const pause = (time) => new Promise((resolve) => setTimeout(resolve, time));

export class Chromium {
  #waiting = new Map();
  #number = 0;
  #session;
  #process;
  #profile = mkdtempSync(join(tmpdir(), "sancus-chromium-"));
  // What the page complained of, the addresses that it asked for, and the bytes that were sent.
  faults = [];
  asked = [];
  sent = 0;

  static async start(program) {
    const browser = new Chromium();
    browser.#process = spawn(program, [...FLAGS, `--user-data-dir=${browser.#profile}`, "about:blank"], {
      stdio: ["ignore", "ignore", "ignore", "pipe", "pipe"],
    });
    browser.#listen(browser.#process.stdio[4]);
    const { targetInfos } = await browser.send("Target.getTargets", {}, null);
    const { targetId } = targetInfos.find((it) => it.type === "page");
    browser.#session = (await browser.send("Target.attachToTarget", { targetId, flatten: true }, null)).sessionId;
    for (const domain of ["Page", "Runtime", "Log", "Network"]) await browser.send(`${domain}.enable`);
    await browser.send("Emulation.setFocusEmulationEnabled", { enabled: true });
    return browser;
  }

  #listen(pipe) {
    let held = "";
    pipe.setEncoding("utf8");
    pipe.on("data", (text) => {
      const parts = (held + text).split("\0");
      held = parts.pop();
      for (const part of parts) this.#take(JSON.parse(part));
    });
  }

  #take(message) {
    if (message.id) {
      const { resolve, reject } = this.#waiting.get(message.id);
      this.#waiting.delete(message.id);
      return message.error ? reject(new Error(message.error.message)) : resolve(message.result);
    }
    const { method, params } = message;
    if (method === "Runtime.exceptionThrown") this.faults.push(faultOf(params.exceptionDetails));
    if (method === "Log.entryAdded" && params.entry.level === "error") this.faults.push(params.entry.text);
    if (method === "Network.requestWillBeSent") this.asked.push(params.request.url);
    if (method === "Network.loadingFinished") this.sent += params.encodedDataLength;
  }

  send(method, params = {}, session = this.#session) {
    const id = ++this.#number;
    const message = { id, method, params, ...(session ? { sessionId: session } : {}) };
    this.#process.stdio[3].write(`${JSON.stringify(message)}\0`);
    return new Promise((resolve, reject) => this.#waiting.set(id, { resolve, reject }));
  }

  // The value of an expression in the page; a promise is awaited.
  async value(expression) {
    const asked = { expression, awaitPromise: true, returnByValue: true };
    const { result, exceptionDetails } = await this.send("Runtime.evaluate", asked);
    if (exceptionDetails) throw new Error(faultOf(exceptionDetails));
    return result.value;
  }

  async until(expression, seconds = 30) {
    for (const end = Date.now() + seconds * 1000; Date.now() < end; await pause(50)) {
      if (await this.value(expression)) return;
    }
    throw new Error(`not in ${seconds} s: ${expression}`);
  }

  async open(url) {
    await this.send("Page.navigate", { url });
    await this.until("document.body?.dataset.ready === 'yes'");
  }

  async press(name) {
    await this.send("Input.dispatchKeyEvent", { type: "keyDown", ...KEYS[name] });
    await this.send("Input.dispatchKeyEvent", { type: "keyUp", ...KEYS[name] });
  }

  type(text) {
    return this.send("Input.insertText", { text });
  }

  // The window's width and the scheme of colours.
  async look(width, scheme) {
    const metrics = { width, height: 900, deviceScaleFactor: 1, mobile: width < 500 };
    await this.send("Emulation.setDeviceMetricsOverride", metrics);
    await this.send("Emulation.setEmulatedMedia", { features: [{ name: "prefers-color-scheme", value: scheme }] });
    await pause(200);
  }

  async picture() {
    const { data } = await this.send("Page.captureScreenshot", { format: "png", captureBeyondViewport: true });
    return Buffer.from(data, "base64");
  }

  async close() {
    const ended = new Promise((resolve) => this.#process.once("exit", resolve));
    await this.send("Browser.close", {}, null).catch(() => {});
    await ended;
    rmSync(this.#profile, { recursive: true, force: true, maxRetries: 5, retryDelay: 200 });
  }
}
