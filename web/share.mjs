// A bench as a text: for a link's fragment, for the browser's own storage, for a file.
import { FIELDS } from "./actions.mjs";

const KEY = "sancus-bench";
const MOST_LINK = 32768;
const MOST_TEXT = 1 << 23;
const ROLES = ["source", "other", "layout", "schedule", "script", "arms", "terms"];
const VIEW = ["from", "to", "cursor"];

async function through(stream, bytes, most = Infinity) {
  const pieces = [];
  let length = 0;
  const reader = new Blob([bytes]).stream().pipeThrough(stream).getReader();
  for (let { value, done } = await reader.read(); !done; { value, done } = await reader.read()) {
    length += value.length;
    if (length > most) throw new Error("it is larger than any bench");
    pieces.push(value);
  }
  return new Uint8Array(await new Blob(pieces).arrayBuffer());
}

const coded = (bytes) => btoa(Array.from(bytes, (byte) => String.fromCharCode(byte)).join(""));
const decoded = (text) => Uint8Array.from(atob(text), (sign) => sign.charCodeAt(0));

// The fragment of a link to a bench.
export async function fragmentOf(bench) {
  const bytes = await through(new CompressionStream("deflate-raw"), new TextEncoder().encode(JSON.stringify(bench)));
  const text = coded(bytes).replace(/\+/g, "-").replace(/\//g, "_").replace(/=+$/, "");
  if (text.length > MOST_LINK) {
    const sizes = `${text.length.toLocaleString("en")} bytes, and at most 32,768 go into a link`;
    throw new Error(`This bench takes ${sizes}: export it as a file`);
  }
  return `#bench=${text}`;
}

// The bench of a fragment, or null where it has none.
export async function ofFragment(fragment) {
  if (!fragment.startsWith("#bench=")) return null;
  if (fragment.length > MOST_LINK + 7) throw new Error("the link is longer than any bench");
  const bytes = decoded(fragment.slice(7).replace(/-/g, "+").replace(/_/g, "/"));
  return checked(new TextDecoder().decode(await through(new DecompressionStream("deflate-raw"), bytes, MOST_TEXT)));
}

// A bench from its text; whatever is no bench is refused.
export function checked(text) {
  const bench = JSON.parse(text);
  const isText = (it) => typeof it === "string";
  const isPane = (it) => ROLES.includes(it?.role) && isText(it.name) && isText(it.text);
  const isFile = (it) => Array.isArray(it) && it.length === 2 && it.every(isText);
  const holds = bench?.version === 1 && Array.isArray(bench.panes) && bench.panes.every(isPane)
    && Object.keys(FIELDS).every((name) => isText(bench.fields?.[name]))
    && Array.isArray(bench.files) && bench.files.every(isFile)
    && isText(bench.command) && (bench.view === null || VIEW.every((name) => Number.isInteger(bench.view?.[name])))
    && bench.panes.filter(({ role }) => role === "layout").length === 1;
  if (!holds) throw new Error("it is no bench of this version");
  return bench;
}

export const kept = {
  save: (bench) => localStorage.setItem(KEY, JSON.stringify(bench)),
  load: () => (localStorage.getItem(KEY) === null ? null : checked(localStorage.getItem(KEY))),
  forget: () => localStorage.removeItem(KEY),
};

export const filesAsText = (files) => files.map(([name, bytes]) => [name, coded(bytes)]);
export const filesOfText = (files) => files.map(([name, text]) => [name, decoded(text)]);

// Hands a text to the reader as a file.
export function download(name, text) {
  const link = document.createElement("a");
  link.href = URL.createObjectURL(new Blob([text], { type: "application/json" }));
  link.download = name;
  link.click();
  URL.revokeObjectURL(link.href);
}
