// The parts of the Bench that need no browser; what is wanted is written by hand, or told by tools/why.
import { spawnSync } from "node:child_process";
import { createHash } from "node:crypto";
import { readFileSync } from "node:fs";
import { fileURLToPath } from "node:url";
import { actionsOf, fieldsOf } from "../actions.mjs";
import { commandsOf } from "../command.mjs";
import { Files } from "../files.mjs";
import { MODULES } from "../modules.mjs";
import { checked, fragmentOf, ofFragment } from "../share.mjs";
import { readMap } from "../trace.mjs";
import { lookScript, ownersOf } from "../view.mjs";
import { named, refusedLine, useReasons, why } from "../why.mjs";
import { check, end, same, thrown } from "./count.mjs";

const top = fileURLToPath(new URL("../../", import.meta.url));

async function filesByName() {
  const files = new Files(["examples/first.img"]);
  const bytes = new Uint8Array([7]);
  for (const name of ["__proto__", "constructor", "./a/../b"]) files.put(name, bytes);
  same("odd names are names", files.names(), ["__proto__", "b", "constructor", "examples/first.img"]);
  check("and have their bytes", await files.read("__proto__") === bytes);
  check("they are the reader's own", files.own().length === 3);
  check("1 MiB is kept", await thrown(() => files.put("c", new Uint8Array(1048576))) === null);
  const refused = await thrown(() => files.put("d", new Uint8Array(1048577)));
  same("a byte more is not", refused, "d has 1,048,577 bytes; at most 1,048,576 are kept");
  check("and leaves no file", !files.has("d"));
  same("no name", await thrown(() => files.put("..", bytes)), "A file needs a name");
}

function buttons() {
  const pane = (role, name, text) => ({ role, name, text });
  const panes = [
    pane("source", "my program.txt", "a"), pane("source", "examples/x/lock.o", ""), pane("source", "zero.txt", "b"),
    pane("other", "one.txt", ""), pane("layout", "layout.toml", "c"), pane("schedule", "schedule.txt", ""),
    pane("script", "script.txt", "regs"), pane("arms", "arms.txt", ""), pane("terms", "terms.txt", ""),
  ];
  const fields = fieldsOf({ cycles: "60" });
  const action = (list, wanted) => actionsOf({ panes: list, fields }).find(({ name }) => name === wanted);
  const line = ({ steps, command }) => [...steps, command].join(" && ");
  const assembled = "asm bench/my_program.txt > bench/my_program.o && asm bench/zero.txt > bench/zero.o";
  const objects = "bench/my_program.o examples/x/lock.o";
  const linked = `${assembled} && link bench/layout.toml ${objects} bench/zero.o > bench/bench.img`;
  same("Assemble", line(action(panes, "Assemble")), assembled);
  same("Run", line(action(panes, "Run")), `${linked} && image bench/bench.img - 60`);
  same("Check", action(panes, "Check").command, "check bench/bench.img 1");
  same("Script", action(panes, "Script").command, "monitor bench/bench.img - bench/script.txt");
  same("no second secret, no sweep", action(panes, "Sweep").command, null);
  const full = panes.map((it) => (it.role === "other" || it.role === "arms" || it.role === "schedule" ? { ...it, text: "d" } : it));
  const second = `${linked} && asm bench/one.txt > bench/one.o && link bench/layout.toml ${objects} bench/one.o > bench/other.img`;
  same("Sweep", line(action(full, "Sweep")),
    `${second} && sancus-lab sweep bench/bench.img bench/other.img 0 0 40 60`);
  same("Check with certificates", action(full, "Check").command, "balance bench/bench.img 1 bench/arms.txt");
  same("Two secrets", line(action(full, "Two secrets")), `${second} && image bench/bench.img bench/schedule.txt 60`
    + " > bench/first.trace && image bench/other.img bench/schedule.txt 60 > bench/second.trace");
  same("the other program", commandsOf("./sancus-lab map a b")[0].program, "sancus-lab");
}

async function links() {
  const bench = {
    version: 1, panes: [{ role: "layout", name: "layout.toml", text: "version = 1\n" }], fields: fieldsOf({}), command: "make 1",
    files: [["__proto__", "Bw=="]], view: { from: 1, to: 9, cursor: 3 }, example: -1,
  };
  const fragment = await fragmentOf(bench);
  same("a link is opened to the same bench", await ofFragment(fragment), bench);
  same("no fragment, no bench", await ofFragment(""), null);
  check("a cut link is refused", await thrown(() => ofFragment(fragment.slice(0, -9))) !== null);
  check("a bench without a layout is refused", await thrown(() => checked(JSON.stringify({ ...bench, panes: [] }))) !== null);
  check("a field that is no text is refused",
    await thrown(() => checked(JSON.stringify({ ...bench, fields: { ...bench.fields, id: 1 } }))) !== null);
  let seed = 1;
  const noise = Array.from({ length: 40000 }, () => (seed = (seed * 48271) % 2147483647).toString(36)).join("");
  const refused = await thrown(() => fragmentOf({ ...bench, command: noise }));
  check(`more than 32 KiB is told: ${refused}`, /^This bench takes [\d,]+ bytes, and at most 32,768 go into a link/.test(refused));
  const bomb = await fragmentOf({ ...bench, command: " ".repeat(9000000) });
  same("a link to more than 8 MiB is refused", await thrown(() => ofFragment(bomb)), "it is larger than any bench");
}

// [words, line]: a refusal of each kind.
const REFUSED = [
  ["asm a.txt", "sancus: bad file a.txt: Line 3"], ["asm a.txt", "sancus: bad file a.txt: Far 9 600"],
  ["image a - 4", "sancus: bad file a: Table 2 Overlap 1"], ["image a - 4", "sancus: bad file a: Twice 512"],
  ["link l a.o", "sancus: bad file l: Overlap 0 3"], ["link l a.o", "sancus: bad file l: MissingKey 1 vendor"],
  ["link l a.o b.o", "sancus: link Region Text 300 256"], ["link l a.o b.o", "sancus: link NoVector 15 name main"],
  ["image a - 4", "0 stop ReadData pc 0200 addr 0a24 module 1"], ["check a 1", "no 0854 SecretBranch 0000"],
  ["check a 1", "no 0854 SecretAtExit 000c"], ["balance a 1 b", "no 0854 ArmTime 0001"], ["x", "sancus: usage"],
  ["monitor a - b", "refused NoMark 3"], ["sweep", "sancus-lab: cannot read a b"],
];

function sentences() {
  useReasons(JSON.parse(readFileSync(`${top}web/reasons.json`, "utf8")));
  for (const [words, line] of REFUSED) {
    const told = spawnSync(`${top}tools/why`, words.split(" "), { input: `${line}\n` }).stdout.toString().trimEnd();
    check(`tools/why has a sentence for ${line}`, told !== line);
    same(line, why(line, words.split(" ")), told);
  }
  same("what is no refusal", why("12 irq 1", ["image"]), null);
  same("the line of a refusal", refusedLine("sancus: bad file bench/a.txt: NoLabel 12"), { file: "bench/a.txt", line: 12 });
  same("a refusal of no line", refusedLine("sancus: bad file a: Digit 12"), null);
  const map = readMap("sancus-map 1\npart 0200 0220 0 0 1 .text\nsymbol 0200 0 global 0 main\nsymbol 0208 0 local 0 done\nend\n");
  same("a name for an address", named("4 0 020c: 3fff jmp 0x020c", map), "4 0 020c: 3fff jmp 0x020c  ; done+4");
  same("a name for a verdict", named("no 0200 SecretBranch 0000", map), "no 0200 SecretBranch 0000  ; main");
  same("no name outside of all parts", named("4 0 0220: 3fff jmp 0x0220", map), "4 0 0220: 3fff jmp 0x0220");
}

function machine() {
  const owners = ownersOf("sancus-image 1\nmodule 0007 0300 0306 0400 0402\nend\n");
  same("who owns which addresses", owners.map(({ from, to, owner }) => `${from}-${to} ${owner}`), [
    "0-512 devices", "512-768 outside", "768-774 module 1, text", "774-1024 outside", "1024-1026 module 1, data",
    "1026-65536 outside",
  ]);
  same("a look into a cycle", lookScript(7, "0200", 4), "mark\ngo 7\nregs\nmem 0200 4\nback 0\ngo 6\nregs\n");
  same("a look into the first", lookScript(0, "0200", 4), "mark\nregs\nmem 0200 4\n");
}

function modules() {
  check("web/modules.mjs has the machine's module", "sancus" in MODULES);
  for (const [name, { size, sha256, version }] of Object.entries(MODULES)) {
    const bytes = readFileSync(`${top}release/${name}.wasm`);
    same(`size of ${name}.wasm`, size, bytes.length);
    same(`SHA-256 of ${name}.wasm`, sha256, createHash("sha256").update(bytes).digest("hex"));
    check(`version of ${name}`, readFileSync(`${top}release/RELEASE`, "utf8").startsWith(`version ${version}\n`));
  }
}

await filesByName();
buttons();
await links();
sentences();
machine();
modules();
end();
