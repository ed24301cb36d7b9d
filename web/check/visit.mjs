// What the scripts that open the pages share.
import { spawn } from "node:child_process";
import { fileURLToPath } from "node:url";

// web/serve on a free port: {url, stop}.
export async function serve() {
  const program = fileURLToPath(new URL("../serve", import.meta.url));
  const server = spawn(program, ["0"], { stdio: ["ignore", "pipe", "inherit"] });
  const told = await new Promise((resolve) => server.stdout.once("data", (it) => resolve(it.toString())));
  return { url: told.replace(/web\/index\.html\s*$/, ""), stop: () => server.kill() };
}

export const text = (selector) => `(document.querySelector(${JSON.stringify(selector)})?.textContent ?? "")`;
export const count = (selector) => `document.querySelectorAll(${JSON.stringify(selector)}).length`;

export async function runLine(browser, line) {
  const before = await browser.value(count(".run"));
  await browser.value("document.getElementById('line').focus()");
  await browser.type(line);
  await browser.press("Enter");
  return before;
}

export async function finished(browser, before) {
  await browser.until(`${count(".run")} > ${before} && !document.getElementById("go").disabled`);
}

// In the page: the cases one after another, by its own module and worker.
export const inPage = async (cases, files) => {
  const { loadModule, Runner } = await import("/web/runner.mjs");
  const runner = new Runner(await loadModule());
  const bytes = (coded) => Uint8Array.from(atob(coded), (sign) => sign.charCodeAt(0));
  const content = new Map(Object.entries(files).map(([name, coded]) => [name, bytes(coded)]));
  const found = [];
  for (const { words, to } of cases) {
    const ran = await runner.run(words, content);
    if (to) content.set(to, ran.out);
    const out = btoa(Array.from(ran.out, (byte) => String.fromCharCode(byte)).join(""));
    found.push({ status: ran.status, err: ran.err, out });
  }
  return found;
};

// The Bench in a browser without a cache: the time of the first answer, and what was sent till then and in all.
export async function coldLoad(browser, url) {
  await browser.send("Network.clearBrowserCache");
  await browser.send("Network.setCacheDisabled", { cacheDisabled: true });
  await browser.send("Page.navigate", { url: "about:blank" });
  browser.sent = 0;
  const begun = performance.now();
  await browser.open(`${url}web/bench.html`);
  await finished(browser, await runLine(browser, "image examples/first.img - 4"));
  const time = performance.now() - begun;
  await browser.until("document.body.dataset.lab === 'yes'");
  return { time, sent: browser.sent };
}
