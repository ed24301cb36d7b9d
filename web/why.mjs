// What a refusal means, in the sentences of tools/why, and names of a map for addresses.
const FIELD = /\b[A-Z]+\b/g;
// The faults whose first number is a line's.
const OF_LINES = ["Line", "NotRising", "Place", "Twice", "TooMany", "Large", "NoLabel", "Far", "Number"];
let tables = null;

export async function loadReasons(url = new URL("reasons.json", import.meta.url)) {
  tables = await (await fetch(url)).json();
}

export const useReasons = (found) => (tables = found);

// The sentence of the form that a text has, with the form's fields and what `more` makes of them, or null.
function told(text, more, ...lists) {
  for (const [form, sentence] of lists.flatMap(Object.entries)) {
    const pattern = form.replace(FIELD, (name) => `(?<${name}>${name === "NAME" ? ".+" : "[^ ]+"})`);
    const found = new RegExp(`^${pattern}$`).exec(text);
    if (!found) continue;
    const all = { ...found.groups, ...more(found.groups ?? {}) };
    return sentence.replace(/\{(\w+)\}/g, (_, name) => all[name] ?? name);
  }
  return null;
}

function regionOf(number) {
  const kind = ["text", "data"][number % 2];
  return number < 2 ? `its ${kind}` : `the ${kind} of its module ${Math.floor(number / 2) - 1} (counted from 0)`;
}

const ofFile = ({ A, B, ADDRESS, PLACE }) => ({
  REGION_A: regionOf(Number(A)),
  REGION_B: regionOf(Number(B)),
  HEX: Number(ADDRESS ?? 0).toString(16).padStart(4, "0"),
  WHERE: PLACE === "-" ? "at its top" : `in its module ${PLACE} (counted from 0)`,
});

function ofLine({ VALUE = "0" }) {
  const number = parseInt(VALUE.slice(0, 4), 16);
  return { NUMBER: number, WHICH: number === 1 ? "the arm of the jump" : "the other arm" };
}

const ofLink = (objects, name) => ({ OBJECT, EARLIER, SECTION, TABLE, ENTRY, NEED, ROOM }) => ({
  NAME: name,
  PATH: objects[OBJECT] ?? `object ${OBJECT}`,
  EARLIER_PATH: objects[EARLIER] ?? `object ${EARLIER}`,
  SECTION_NAME: `number ${SECTION}`,
  FIELD: `${objects[OBJECT] ?? `object ${OBJECT}`}: relocation ${ENTRY} of section ${TABLE}`,
  MORE: NEED - ROOM,
});

// The sentence of a line of a run on these words, or null where it is no refusal.
export function why(line, words) {
  const [, program, rest] = /^(sancus|sancus-lab): (.*)$/.exec(line) ?? [];
  if (!program) return told(line, ofLine, tables.lines);
  const [, name, fault] = /^bad file (.*): ([A-Z].*)$/.exec(rest) ?? [];
  if (name) {
    const lists = words[0] === "asm" ? [tables.sources, tables.files] : [tables.files, tables.sources];
    const said = told(fault, ofFile, ...lists);
    return said && `${name}: ${said}`;
  }
  const [, link, symbol] = /^link (.*?)(?: name (.*))?$/.exec(rest) ?? [];
  if (link) return told(link, ofLink(words.filter((word) => word.endsWith(".o")), symbol), tables.links);
  return told(rest, () => ({}), tables.words);
}

// The line that a refusal is about, {file, line}, or null.
export function refusedLine(line) {
  const found = /^sancus(?:-lab)?: bad file (.*): (\w+) (\d+)/.exec(line);
  return found && OF_LINES.includes(found[2]) ? { file: found[1], line: Number(found[3]) } : null;
}

// A line with the map's name behind the address that it begins with or names: of `steps`, `dis`, verdicts and stops.
export function named(line, map) {
  const place = /^(?:\d+ \d+ )?([0-9a-f]{4}): |\bpc ([0-9a-f]{4})|^no ([0-9a-f]{4})/.exec(line);
  const name = place && map?.nameAt(parseInt(place[1] ?? place[2] ?? place[3], 16));
  return name ? `${line}  ; ${name}` : line;
}
