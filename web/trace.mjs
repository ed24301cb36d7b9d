// Outside traces as timelines: for the pages and for draw.mjs. Whatever is drawn is told by the trace's lines, and by
// three fixed times of the machine: 6 cycles from an `irq` to its handler, 12 from a `hide`, 5 for RETI.
const FORMS = {
  resume: /^(\d+) resume (\d+)$/,
  close: /^(\d+) close (\d+)$/,
  handler: /^(\d+) handler pc ([0-9a-f]{4})$/,
  leave: /^(\d+) leave (\d+) pc ([0-9a-f]{4})$/,
  hide: /^(\d+) hide (\d+) vector (\d+)$/,
  irq: /^(\d+) irq (\d+)$/,
  enter: /^(\d+) enter (\d+) from (\d+)$/,
  reti: /^(\d+) reti$/,
  protect: /^(\d+) protect (\d+)$/,
  out: /^(\d+) out ([0-9a-f]{2})$/,
  stop: /^(\d+) stop (\w+) pc ([0-9a-f]{4}) addr ([0-9a-f]{4}) module (\d+)$/,
  end: /^end (\d+) (outside(?: [0-9a-f]{4}){16}|inside \d+|stopped)$/,
};
const ACCEPTANCE = 6;
const PADDING = 12;
const RETURN = 5;

function readLine(text) {
  for (const [kind, form] of Object.entries(FORMS)) {
    const match = form.exec(text);
    if (match) return { kind, cycle: Number(match[1]), args: match.slice(2), text };
  }
  return null;
}

// The lines of a trace as {kind, cycle, args, text}. A trace that was cut off may lack its end line.
export function read(text) {
  const lines = [];
  for (const line of text.split("\n")) {
    if (line === "" && lines.length) continue;
    const event = readLine(line);
    if (!event) throw new Error(`not a line of a trace: ${line}`);
    lines.push(event);
  }
  return lines;
}

// Whether a text begins as a trace.
export const isTrace = (text) => readLine(text.slice(0, text.indexOf("\n"))) !== null;

// Reads a trace's lines, and keeps what passes between them.
class Timeline {
  found = [];
  // The interrupts that no return was told of: the module that was put away by each, or 0, and since when.
  #frames = [];
  #lane = 0;
  #kind = "outside";
  #since = 0;
  #last;

  constructor(last) {
    this.#last = last;
  }

  #finish(cycle) {
    if (cycle > this.#since) this.found.push({ lane: this.#lane, from: this.#since, to: cycle, kind: this.#kind });
    this.#since = Math.max(cycle, this.#since);
  }

  #change(cycle, lane, kind) {
    if (lane === this.#lane && kind === this.#kind) return;
    this.#finish(Math.min(cycle, this.#last));
    [this.#lane, this.#kind] = [lane, kind];
  }

  #leave(cycle) {
    this.#change(cycle, 0, this.#frames.length ? "open" : "outside");
  }

  #interrupt(cycle, module, kind, length) {
    this.#frames.push({ module, from: cycle });
    this.#change(cycle, 0, kind);
    this.#change(cycle + length, 0, "open");
  }

  #held({ module, from }, to) {
    if (module) this.found.push({ lane: module, from, to, kind: "held" });
  }

  take({ kind, cycle, args }) {
    if (kind === "enter") this.#change(cycle, Number(args[0]), "active");
    if (kind === "leave" || kind === "close") this.#leave(cycle);
    if (kind === "hide") this.#interrupt(cycle, Number(args[0]), "padding", PADDING);
    if (kind === "irq") this.#interrupt(cycle, 0, "accept", ACCEPTANCE);
    if (kind === "resume") {
      this.#held(this.#frames.pop() ?? {}, cycle);
      this.#change(cycle, Number(args[0]), "active");
    }
    if (kind === "reti") {
      this.#frames.pop();
      this.#leave(cycle + RETURN);
    }
  }

  end() {
    this.#finish(this.#last);
    for (const frame of this.#frames) this.#held(frame, this.#last);
  }
}

// Spans {lane, from, to, kind}: lane 0 is the outside, a module's lane its id. Kinds: `outside`; `open`, outside
// after an interrupt of which no return was told; `accept`; `padding`; `active`, a module; `held`, a module whose
// registers are put away.
export function spans(lines) {
  const timeline = new Timeline(lines.at(-1)?.cycle ?? 0);
  for (const line of lines) timeline.take(line);
  timeline.end();
  return timeline.found;
}

// The first line in which two traces differ, {line, cycle, a, b}, with null where a text has no such line; null where
// the texts are equal.
export function firstDifference(one, other) {
  const a = one.split("\n");
  const b = other.split("\n");
  for (let at = 0; at < Math.max(a.length, b.length); at++) {
    if (a[at] === b[at]) continue;
    const cycles = [a[at], b[at]].map((line) => readLine(line ?? "")?.cycle).filter((cycle) => cycle !== undefined);
    return { line: at + 1, cycle: cycles.length ? Math.min(...cycles) : null, a: a[at] ?? null, b: b[at] ?? null };
  }
  return null;
}

// The names of a map: lines `module ID NAME ..`, `entry AAAA ID K NAME`, `part START END ..` and `symbol AAAA ID KIND
// OBJECT NAME`, after a first line `sancus-map 1`. `nameAt` gives the symbol at or before an address of its part.
export function readMap(text) {
  const lines = text.split("\n");
  if (lines[0] !== "sancus-map 1") throw new Error("not a map: its first line is not `sancus-map 1`");
  const names = { modules: new Map(), places: new Map(), nameAt };
  const [parts, symbols] = [[], []];
  function nameAt(address) {
    const [start] = parts.find(([from, to]) => from <= address && address < to) ?? [];
    const near = symbols.filter(([at]) => at >= start && at <= address).sort((a, b) => a[0] - b[0]).at(-1);
    return near && near[1] + (near[0] === address ? "" : `+${address - near[0]}`);
  }
  for (const line of lines.slice(1)) {
    const words = line.split(" ");
    if (words[0] === "module") names.modules.set(Number(words[1]), words[2]);
    if (words[0] === "entry") names.places.set(words[1], words[4]);
    if (words[0] === "part") parts.push([parseInt(words[1], 16), parseInt(words[2], 16)]);
    if (words[0] === "symbol") symbols.push([parseInt(words[1], 16), words[5]]);
  }
  return names;
}

// ---- the picture

const TELLS = {
  outside: "outside",
  open: "outside, an interrupt not yet returned from",
  accept: "an interrupt is accepted: 6 cycles",
  padding: "padding: 12 cycles",
  active: "a module is active",
  held: "a module is put away",
};
export const STYLE = `
.t{font:12px sans-serif;color:#1b1f24;background:#fff}.t text{fill:currentColor}.t .axis{stroke:#8a929b;stroke-width:1}
.t .outside{fill:#7d8792}.t .open{fill:#b45f06}.t .accept{fill:#c0392b}
.t .padding{fill:#c3c9d0}.t .active{fill:#1f5fa8}.t .held{fill:#9dbfe4}
.t .padding,.t .held{stroke:#6b747e;stroke-width:.8}.t .cursor{stroke:currentColor;stroke-dasharray:3 2}
.t .mark{stroke:#c0392b;stroke-width:1.5}.t .stop{stroke:currentColor;stroke-width:2}.t .first{fill:#ffe08a}
@media (prefers-color-scheme:dark){.t{color:#e4e7eb;background:#15181c}
.t .outside{fill:#8b95a1}.t .open{fill:#e59b3c}.t .accept{fill:#ff7b6b}
.t .padding{fill:#4a525b}.t .active{fill:#5b9fe6}.t .held{fill:#2c4c6e}
.t .padding,.t .held{stroke:#98a2ad}.t .mark{stroke:#ff7b6b}.t .first{fill:#6b5710}}`;
const ROW = 30;
const BAR = 20;
const TOP = 44;
const MOST = 4000;
const ENTITIES = { "&": "&amp;", "<": "&lt;", ">": "&gt;", '"': "&quot;" };
const escape = (text) => String(text).replace(/[&<>"]/g, (sign) => ENTITIES[sign]);

// A round step of the axis, for about so many of them.
function stepOf(cycles, steps) {
  const least = Math.max(cycles / steps, 1);
  const ten = 10 ** Math.floor(Math.log10(least));
  return [1, 2, 5, 10].map((it) => it * ten).find((it) => it >= least);
}

class Picture {
  constructor(lines, options) {
    const { title = "", names = null, width = 900, from = 0, to = null, first = null, legend = false } = options;
    this.hasLegend = legend;
    this.hasStyle = options.style ?? true;
    this.cursor = options.cursor ?? null;
    const all = spans(lines);
    this.names = names;
    this.title = title;
    this.first = first;
    this.from = from;
    this.to = Math.max(to ?? lines.at(-1)?.cycle ?? 0, from + 1);
    this.lines = lines.filter((line) => line.cycle >= from && line.cycle <= this.to);
    this.spans = all.filter((span) => span.from < this.to && span.to > from);
    this.lanes = [...new Set([0, ...all.map((span) => span.lane)])].sort((a, b) => a - b);
    this.left = Math.max(...this.lanes.map((lane) => this.laneName(lane).length), 8) * 7 + 14;
    this.right = Math.max(width - 16, this.left + 40);
    this.width = width;
    this.sent = lines.some((line) => line.kind === "out");
    this.height = TOP + (this.lanes.length + this.sent) * ROW + 24;
  }

  laneName(lane) {
    if (lane === 0) return "outside";
    const name = this.names?.modules.get(lane);
    return name ? `${lane} ${name}` : `module ${lane}`;
  }

  x(cycle) {
    const part = (Math.min(Math.max(cycle, this.from), this.to) - this.from) / (this.to - this.from);
    return Number((this.left + (this.right - this.left) * part).toFixed(1));
  }

  // The cycle at a place of the picture.
  cycleAt(x) {
    const part = (x - this.left) / (this.right - this.left);
    return Math.floor(Math.min(Math.max(this.from + (this.to - this.from) * part, this.from), this.to));
  }

  y(lane) {
    return TOP + this.lanes.indexOf(lane) * ROW;
  }

  laneTexts() {
    const name = (text, y) => `<text x="6" y="${y + 15}">${escape(text)}</text>`;
    const rows = this.lanes.map((lane) => name(this.laneName(lane), this.y(lane)));
    return this.sent ? [...rows, name("sent", TOP + this.lanes.length * ROW)] : rows;
  }

  bar({ lane, from, to, kind }) {
    const x = this.x(from);
    const wide = Math.max(this.x(to) - x, 0.8).toFixed(1);
    const [y, high] = kind === "held" ? [this.y(lane) + 7, BAR - 14] : [this.y(lane), BAR];
    const tip = `<title>${TELLS[kind]}, ${from} to ${to}</title>`;
    return `<rect class="${kind}" x="${x}" y="${y}" width="${wide}" height="${high}">${tip}</rect>`;
  }

  // What a mark is called: the interrupt's vector, the byte, the rule.
  static label({ kind, args }) {
    return { hide: `v${args[1]}`, irq: `v${args[0]}`, out: args[0], stop: args[0] }[kind] ?? kind;
  }

  tip({ text }) {
    const place = /\bpc ([0-9a-f]{4})/.exec(text)?.[1];
    const name = place && this.names?.places.get(place);
    return escape(name ? `${text} (${name})` : text);
  }

  // Marks of one row, with as many labels as there is room for.
  marks(kinds, y, top, bottom) {
    let free = -Infinity;
    return this.lines.filter((line) => kinds.includes(line.kind)).map((line) => {
      const x = this.x(line.cycle);
      const label = escape(Picture.label(line));
      const half = label.length * 3.6;
      const at = Math.min(Math.max(x, half), this.width - half);
      const text = at - half < free ? "" : `<text x="${at}" y="${y}" text-anchor="middle">${label}</text>`;
      if (text) free = at + half + 4;
      const sort = line.kind === "stop" ? "stop" : "mark";
      const mark = `<line class="${sort}" x1="${x}" x2="${x}" y1="${top}" y2="${bottom}"/>`;
      return `<g><title>${this.tip(line)}</title>${mark}${text}</g>`;
    });
  }

  axis() {
    const y = this.height - 22;
    const step = stepOf(this.to - this.from, Math.max((this.right - this.left) / 60, 2));
    const parts = [`<line class="axis" x1="${this.left}" x2="${this.right}" y1="${y}" y2="${y}"/>`];
    for (let cycle = Math.ceil(this.from / step) * step; cycle <= this.to; cycle += step) {
      const x = this.x(cycle);
      parts.push(`<line class="axis" x1="${x}" x2="${x}" y1="${y}" y2="${y + 4}"/>`);
      parts.push(`<text x="${x}" y="${y + 17}" text-anchor="middle">${cycle}</text>`);
    }
    return parts;
  }

  // What the kinds of this picture mean, a line each below it.
  legend() {
    const kinds = Object.keys(TELLS).filter((kind) => this.spans.some((span) => span.kind === kind));
    const top = this.height + 8;
    this.height = top + kinds.length * 18;
    return kinds.map((kind, at) => {
      const y = top + at * 18;
      const key = `<rect class="${kind}" x="6" y="${y}" width="14" height="12"/>`;
      return `${key}<text x="26" y="${y + 11}">${TELLS[kind]}</text>`;
    });
  }

  // Where two traces differ first.
  difference() {
    if (this.first === null || this.first < this.from || this.first > this.to) return [];
    const x = this.x(this.first) - 4;
    return [`<rect class="first" x="${x}" y="${TOP - 6}" width="8" height="${this.height - TOP - 16}"/>`];
  }

  cursorLine() {
    if (this.cursor === null || this.cursor < this.from || this.cursor > this.to) return [];
    const x = this.x(this.cursor);
    return [`<line class="cursor" x1="${x}" x2="${x}" y1="${TOP - 8}" y2="${this.height - 22}"/>`];
  }

  toString() {
    const bottom = TOP + this.lanes.length * ROW;
    const body = this.spans.length + this.lines.length > MOST
      ? [`<text x="6" y="${TOP + 15}">${this.lines.length} lines: choose fewer cycles</text>`]
      : [
        ...this.difference(),
        ...this.laneTexts(),
        ...this.spans.map((span) => this.bar(span)),
        ...this.marks(["hide", "irq", "protect", "close", "stop"], TOP - 8, TOP - 4, bottom - 6),
        ...(this.sent ? this.marks(["out"], bottom + 24, bottom, bottom + 10) : []),
        ...this.axis(),
        ...this.cursorLine(),
        ...(this.hasLegend ? this.legend() : []),
      ];
    return [
      `<svg xmlns="http://www.w3.org/2000/svg" class="t" role="img" aria-label="${escape(this.title || "Timeline")}"`
        + ` width="${this.width}" height="${this.height}" viewBox="0 0 ${this.width} ${this.height}">`,
      ...(this.hasStyle ? [`<style>${STYLE}</style>`] : []),
      `<text x="6" y="16" font-weight="bold">${escape(this.title)}</text>`,
      ...body,
      "</svg>",
      "",
    ].join("\n");
  }
}

// The timeline of a trace, of the lines of its cycles `from` to `to`, with the cycle `first` marked.
export function svg(text, options = {}) {
  return String(new Picture(read(text), options));
}

// The same for lines that were read, and for a page, which has the styles already.
export const picture = (lines, options) => new Picture(lines, { ...options, style: false });

export const LEGEND = Object.entries(TELLS);
