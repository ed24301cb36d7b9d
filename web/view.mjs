// A timeline that the reader moves through: by mouse and by keys, with the machine in the cycle that is pointed at.
import { button, element, number } from "./elements.mjs";
import { picture, read } from "./trace.mjs";

const HELP = "Timeline. Arrows move the cycle, plus and minus zoom, Page Up and Page Down pan, Home shows all,"
  + " Enter looks into the machine";
const WHERE = {
  outside: "code outside runs", open: "code outside runs, and an interrupt is not yet returned from",
  accept: "an interrupt is accepted", padding: "padding", active: "is active", held: "is put away",
};

export class View {
  #lines;
  #how;
  #look;
  #moved;
  #drawn;
  #last;
  cursor = 0;

  // `look(cycle)` shows the machine in a cycle; where it is null there is no such button. `moved` is told each view,
  // and `view` is the first.
  constructor(text, how, { look = null, moved = () => {}, view = null }) {
    [this.#lines, this.#how, this.#look, this.#moved] = [read(text), how, look, moved];
    this.#last = Math.max(this.#lines.at(-1).cycle, 1);
    this.box = element("div", "", "picture");
    Object.assign(this.box, { tabIndex: 0, ariaLabel: HELP, role: "group" });
    this.told = element("p", "", "told");
    this.told.setAttribute("role", "status");
    this.cursor = Math.min(view?.cursor ?? 0, this.#last);
    [this.fromLabel, this.from] = number("Cycles from", view?.from ?? 0);
    [this.toLabel, this.to] = number("to", view?.to ?? this.#last);
    this.form = element("form");
    this.form.onsubmit = (event) => {
      event.preventDefault();
      this.draw();
    };
    const looks = look ? [button("Look into the machine in this cycle", () => look(this.cursor))] : [];
    this.form.append(this.fromLabel, this.toLabel, element("button", "Draw"), button("Zoom in", () => this.zoom(0.5)),
      button("Zoom out", () => this.zoom(2)), button("Whole", () => this.window(0, this.#last)), ...looks);
    this.#listen();
    this.draw();
  }

  elements() {
    return [this.box, this.told, this.form];
  }

  draw() {
    const [from, to] = [Number(this.from.value), Number(this.to.value)];
    this.#drawn = picture(this.#lines, { ...this.#how, from, to, cursor: this.cursor });
    this.box.innerHTML = this.#drawn;
    this.#moved({ from, to, cursor: this.cursor });
  }

  window(from, to) {
    const wide = Math.min(Math.max(Math.round(to - from), 1), this.#last);
    this.from.value = Math.min(Math.max(Math.round(from), 0), this.#last - wide);
    this.to.value = Number(this.from.value) + wide;
    this.draw();
  }

  zoom(by, at = this.cursor) {
    const [from, to] = [Number(this.from.value), Number(this.to.value)];
    const middle = Math.min(Math.max(at, from), to);
    this.window(middle - (middle - from) * by, middle + (to - middle) * by);
  }

  pan(by) {
    const [from, to] = [Number(this.from.value), Number(this.to.value)];
    this.window(from + (to - from) * by, to + (to - from) * by);
  }

  // Moves to a cycle and says what is there.
  point(cycle) {
    this.cursor = Math.min(Math.max(cycle, 0), this.#last);
    if (this.cursor < Number(this.from.value)) this.pan(-0.5);
    if (this.cursor > Number(this.to.value)) this.pan(0.5);
    this.draw();
    const here = this.#drawn.spans.filter(({ from, to }) => from <= this.cursor && this.cursor < to);
    const said = here.map(({ lane, kind }) => (lane ? `${this.#drawn.laneName(lane)} ` : "") + WHERE[kind]);
    const lines = this.#drawn.lines.filter(({ cycle }) => cycle === this.cursor).map(({ text }) => text);
    this.told.textContent = [`Cycle ${this.cursor}: ${said.join("; ")}`, ...lines].join(" | ");
  }

  #listen() {
    const step = (by) => () => this.point(this.cursor + by);
    const keys = {
      ArrowLeft: step(-1), ArrowRight: step(1), "+": () => this.zoom(0.5), "-": () => this.zoom(2),
      PageUp: () => this.pan(-0.5), PageDown: () => this.pan(0.5), Home: () => this.window(0, this.#last),
      Enter: () => this.#look?.(this.cursor),
    };
    this.box.onkeydown = (event) => {
      if (!keys[event.key] || event.ctrlKey || event.altKey) return;
      event.preventDefault();
      keys[event.key]();
    };
    const left = () => this.box.getBoundingClientRect().left - this.box.scrollLeft;
    const cycle = (event) => this.#drawn.cycleAt(event.clientX - left());
    let held = null;
    this.box.onpointerdown = ({ clientX: x }) => {
      held = { x, from: Number(this.from.value), to: Number(this.to.value) };
    };
    this.box.onpointermove = (event) => {
      if (!held || !event.buttons) return this.point(cycle(event));
      const by = (held.x - event.clientX) * (held.to - held.from) / (this.#drawn.right - this.#drawn.left);
      this.window(held.from + by, held.to + by);
    };
    addEventListener("pointerup", () => (held = null));
    // The wheel zooms where the timeline has the focus, and else scrolls the page.
    this.box.addEventListener("wheel", (event) => {
      if (document.activeElement !== this.box) return;
      event.preventDefault();
      this.zoom(event.deltaY < 0 ? 0.5 : 2, cycle(event));
    }, { passive: false });
  }
}

// ---- the machine in one cycle, by the monitor

// The script that looks at a cycle and, going back, at the one before.
export const lookScript = (cycle, from, count) => [
  "mark", ...(cycle ? [`go ${cycle}`] : []), "regs", `mem ${from} ${count}`,
  ...(cycle ? ["back 0", ...(cycle > 1 ? [`go ${cycle - 1}`] : []), "regs"] : []), "",
].join("\n");

// The owners of an image's memory, {from, to, owner}, in rising address.
export function ownersOf(image) {
  const found = [{ from: 0, to: 0x200, owner: "devices" }];
  [...image.matchAll(/^module \w+ (\w+) (\w+) (\w+) (\w+)$/gm)].forEach(([, ...words], at) => {
    const [text, textEnd, data, dataEnd] = words.map((it) => parseInt(it, 16));
    found.push({ from: text, to: textEnd, owner: `module ${at + 1}, text` });
    found.push({ from: data, to: dataEnd, owner: `module ${at + 1}, data` });
  });
  found.sort((a, b) => a.from - b.from);
  const all = [];
  for (const it of [...found, { from: 0x10000 }]) {
    const free = all.at(-1)?.to ?? 0;
    if (it.from > free) all.push({ from: free, to: it.from, owner: "outside" });
    if (it.owner) all.push(it);
  }
  return all;
}

const hex = (value) => value.toString(16).padStart(4, "0");

function table(head, rows) {
  const made = element("table");
  const line = (cells, kind) => {
    const row = element("tr");
    row.append(...cells.map((it) => element(kind, it)));
    return row;
  };
  made.append(line(head, "th"), ...rows.map(({ cells, marked }) => {
    const row = line(cells, "td");
    if (marked) row.className = "differs";
    return row;
  }));
  return made;
}

// A line of the monitor's memory in rows of 16 bytes.
function rowsOf(line) {
  const [, start, bytes] = /^([0-9a-f]{4}): (\w+)$/.exec(line) ?? [];
  if (!bytes) return line;
  return bytes.match(/.{1,32}/g).map((row, at) => `${hex(parseInt(start, 16) + 16 * at)}: ${row}`).join("\n");
}

// What the monitor wrote for lookScript, with the registers that changed since the cycle before marked.
export function lookTables(written, image) {
  const [now, before] = written.split("\n").filter((line) => line.startsWith("regs ")).map((line) => line.split(" "));
  const isSeen = now?.[2] === "outside";
  const registers = isSeen ? now.slice(3).map((value, at) => ({
    cells: [`R${at}`, value], marked: before?.[2] === "outside" && before[at + 3] !== value,
  })) : [];
  const owners = ownersOf(image).map(({ from, to, owner }) => ({
    cells: [`${hex(from)} to ${hex(to - 1)}`, owner],
    marked: isSeen && from <= parseInt(now[3], 16) && parseInt(now[3], 16) < to,
  }));
  const ofMemory = written.split("\n").filter((line) => /^([0-9a-f]{4}: |refused |sancus: )/.test(line));
  const memory = ofMemory.map(rowsOf).join("\n");
  const said = isSeen ? "Marked: the registers that changed in the last cycle, and where the program counter is."
    : `${now?.slice(2).join(" ") ?? "The machine stopped before"}: its registers are not for the outside.`;
  const box = element("div", "", "machine");
  box.append(table(["Register", "Value"], registers), table(["Addresses", "Owner"], owners), element("pre", memory));
  return [element("p", said), box];
}
