#!/usr/bin/env node
// The timeline of a trace as a picture, or the first difference of two traces.
//     web/draw.mjs TRACE [MAP] > FILE.svg
//     web/draw.mjs --difference TRACE TRACE
// MAP is a file that begins with `sancus-map 1`; it gives names to the modules. The status is 1 where two traces
// differ.
import { readFileSync } from "node:fs";
import { firstDifference, readMap, svg } from "./trace.mjs";

const USAGE = "usage: web/draw.mjs TRACE [MAP] > FILE.svg, or web/draw.mjs --difference TRACE TRACE";
const text = (file) => readFileSync(file, "utf8");

function difference(one, other) {
  const found = firstDifference(text(one), text(other));
  if (!found) return 0;
  console.log(`line ${found.line}, cycle ${found.cycle ?? "-"}\n- ${found.a ?? ""}\n+ ${found.b ?? ""}`);
  return 1;
}

function main(words) {
  if (words[0] === "--difference" && words.length === 3) return difference(words[1], words[2]);
  if (words.length < 1 || words.length > 2 || words[0].startsWith("--")) throw new Error(USAGE);
  const names = words[1] ? readMap(text(words[1])) : null;
  process.stdout.write(svg(text(words[0]), { title: words[0], names, legend: true }));
  return 0;
}

try {
  process.exitCode = main(process.argv.slice(2));
} catch (error) {
  console.error(`draw.mjs: ${error.message}`);
  process.exitCode = 2;
}
