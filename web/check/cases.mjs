// Command lines that both the program and the module run: those of the pages of the examples, and some that are
// refused.
import { readdirSync, readFileSync } from "node:fs";
import { join } from "node:path";
import { commandsOf } from "../command.mjs";

// What no prompt takes: more of the shell. What follows a | is another program's.
const SHELL = /[$<*;'"`]/;
const ownPart = (line) => line.replace(/\|.*/, "");

function pages(top) {
  const found = ["README.md"];
  const visit = (folder) => {
    const entries = readdirSync(join(top, folder), { withFileTypes: true });
    for (const entry of entries.sort((a, b) => (a.name < b.name ? -1 : 1))) {
      const name = `${folder}/${entry.name}`;
      if (entry.isDirectory()) visit(name);
      else if (entry.name === "README.md") found.push(name);
    }
  };
  visit("examples");
  return found;
}

// The lines of a page that begin with ./NAME in an indented block, each joined with the lines that a backslash leads to.
function linesOf(page, name) {
  const joined = page.replace(/\\\n {4}/g, " ");
  return [...joined.matchAll(/^ {4}\.\/(sancus|sancus-lab) (.*)$/gm)].filter((match) => match[1] === name || name === "both")
    .map((match) => `./${match[1]} ${match[2]}`);
}

// {cases, skipped}: the cases are {words, to, program}, in an order in which each file is made before it is read; for
// sancus-lab, those of sancus between its own, whose files it reads.
export function casesOf(top, name = "sancus") {
  const which = name === "sancus" ? name : "both";
  const lines = pages(top).flatMap((page) => linesOf(readFileSync(join(top, page), "utf8"), which)).map(ownPart);
  const plain = lines.filter((line) => !SHELL.test(line));
  const refused = readFileSync(join(top, "web/check/refused.txt"), "utf8").split("\n").slice(0, -1);
  return {
    cases: [...plain, ...(name === "sancus" ? refused : [])].flatMap(commandsOf),
    skipped: lines.length - plain.length,
  };
}

// The examples' files, a Map by name.
export function filesOf(top) {
  const names = readFileSync(join(top, "web/files.txt"), "utf8").split("\n").filter((name) => name.startsWith("examples/"));
  return new Map(names.map((name) => [name, new Uint8Array(readFileSync(join(top, name)))]));
}
