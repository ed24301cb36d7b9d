// web/serve: what it gives out, to whom, and what it says of a port. The requests are written as they are, since fetch
// would mend them.
import { spawn, spawnSync } from "node:child_process";
import { copyFileSync, mkdirSync, mkdtempSync, readFileSync, rmSync, symlinkSync, writeFileSync } from "node:fs";
import { connect } from "node:net";
import { tmpdir } from "node:os";
import { join } from "node:path";
import { fileURLToPath } from "node:url";
import { check, end, same } from "./count.mjs";

const top = fileURLToPath(new URL("../../", import.meta.url));

// A server that was started, and how it answers a path.
async function start(program) {
  const server = spawn(program, ["0"], { stdio: ["ignore", "pipe", "inherit"] });
  const url = await new Promise((resolve) => server.stdout.once("data", (it) => resolve(it.toString().trimEnd())));
  const [, port] = /^http:\/\/127\.0\.0\.1:(\d+)\/web\/index\.html$/.exec(url) ?? [];
  const answer = (path, host = `127.0.0.1:${port}`, more = "") => new Promise((resolve, reject) => {
    const socket = connect(Number(port), "127.0.0.1");
    let text = "";
    socket.setEncoding("latin1").on("data", (it) => (text += it)).on("end", () => resolve(text)).on("error", reject);
    socket.write(`GET ${path} HTTP/1.1\r\nHost: ${host}\r\n${more}Connection: close\r\n\r\n`);
  });
  const status = async (...asked) => Number((await answer(...asked)).split(" ")[1]);
  return { url, port, answer, status, stop: () => server.kill() };
}

const { url, port, answer, status, stop } = await start(`${top}web/serve`);
check(`the address is told: ${url}`, port > 0);
const page = await answer("/web/bench.html");
check("a page is given out", page.startsWith("HTTP/1.1 200 ") && page.endsWith(readFileSync(`${top}web/bench.html`, "latin1")));
check("its kind is told, and not to be guessed", /^Content-Type: text\/html\r$/m.test(page) && /^X-Content-Type-Options: nosniff\r$/m.test(page));
const policy = /^Content-Security-Policy: (.*)\r$/m.exec(page)?.[1] ?? "";
check(`the policy lets nothing in line: ${policy}`, policy.includes("default-src 'none'") && !policy.includes("unsafe-inline"));
for (const file of readFileSync(`${top}web/files.txt`, "utf8").trimEnd().split("\n")) {
  same(`/${file}`, await status(`/${file}`), 200);
}
const OTHERS = ["/.git/config", "/.git/HEAD", "/web/serve", "/web/", "/HANDLES", "/README.md", "/web/../README.md", "//etc/passwd",
  "/web/%2e%2e/README.md", "/../../etc/passwd", "/examples/", "/web/bench.html/", "/web/bench.html%00", "//[", "/%ff"];
for (const path of OTHERS) same(path, await status(path), 404);
same("localhost is this machine", await status("/web/index.html", `localhost:${port}`), 200);
for (const host of [`evil.example:${port}`, "127.0.0.1", `127.0.0.1:${port}.evil.example`, "", "127.0.0.1:1"]) {
  same(`the host '${host}'`, await status("/web/index.html", host), 421);
}
check("gzip where it is asked for", /^Content-Encoding: gzip\r$/m.test(await answer("/web/bench.mjs", undefined, "Accept-Encoding: gzip\r\n")));

// A listed file that is a link leads nowhere: tried in a folder of its own.
const room = mkdtempSync(join(tmpdir(), "sancus-serve-"));
mkdirSync(join(room, "web"));
copyFileSync(`${top}web/serve`, join(room, "web/serve"));
writeFileSync(join(room, "web/files.txt"), "web/linked.html\nweb/none.html\nweb/own.html\n");
writeFileSync(join(room, "web/own.html"), "own");
symlinkSync("/etc/passwd", join(room, "web/linked.html"));
const small = await start(join(room, "web/serve"));
rmSync(join(room, "web/files.txt"));
const lacking = spawnSync(join(room, "web/serve"), ["0"], { timeout: 5000 });
same("without its list", [lacking.status, lacking.stderr.toString()],
  [1, "serve: web/files.txt cannot be read: No such file or directory\n"]);
same("a listed file", await small.status("/web/own.html"), 200);
same("a link", await small.status("/web/linked.html"), 404);
same("a listed file that is not there", await small.status("/web/none.html"), 404);
small.stop();
rmSync(room, { recursive: true });
const said = (...words) => {
  const { status: ended, stdout, stderr } = spawnSync(`${top}web/serve`, words, { timeout: 5000 });
  return [ended, stdout.toString(), stderr.toString()];
};
same("a taken port", said(port), [1, "", `serve: port ${port} is taken: web/serve PORT takes another\n`]);
const USAGE = [1, "", "serve: usage: web/serve [PORT], with a PORT from 0 to 65535\n"];
for (const words of [["99999"], ["-1"], ["x"], ["80", "81"], ["٣"]]) same(`web/serve ${words.join(" ")}`, said(...words), USAGE);
stop();
end();
