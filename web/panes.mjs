// The texts of the Bench: a field with line numbers for each.
import { MOST_BYTES } from "./files.mjs";
import { element } from "./elements.mjs";

const TITLES = {
  source: "Source", other: "Instead of the last source, for the second secret", layout: "Layout", schedule: "Schedule",
  script: "Script of the monitor", arms: "Certificates", terms: "Terms",
};
const MOST_NUMBERS = 20000;

class Pane {
  constructor({ role, name, text }, changed) {
    this.role = role;
    this.name = name;
    this.box = element("div", "", `pane ${role}`);
    this.gutter = element("pre", "", "gutter");
    this.gutter.setAttribute("aria-hidden", "true");
    this.area = element("textarea");
    Object.assign(this.area, { spellcheck: false, wrap: "off", value: text });
    this.area.rows = Math.min(Math.max(text.split("\n").length + 1, 3), role === "source" ? 14 : 8);
    this.said = element("p", "", "said");
    this.said.setAttribute("role", "status");
    const label = element("label", `${TITLES[role]}: ${name}`);
    const lines = element("div", "", "lines");
    lines.append(this.gutter, this.area);
    label.append(lines);
    this.box.append(label, this.said);
    this.area.onscroll = () => (this.gutter.scrollTop = this.area.scrollTop);
    this.area.addEventListener("beforeinput", (event) => this.#bound(event));
    this.area.oninput = () => {
      this.clear();
      changed();
    };
    this.#number();
  }

  // More than a command reads is refused before it is laid out.
  #bound(event) {
    const more = event.data ?? event.dataTransfer?.getData("text/plain") ?? "";
    if (this.area.value.length + more.length <= MOST_BYTES) return;
    event.preventDefault();
    this.said.textContent = "Nothing was put in: a text has at most 1,048,576 bytes";
  }

  #number(marked = 0) {
    const count = Math.min(this.area.value.split("\n").length, MOST_NUMBERS);
    const numbers = Array.from({ length: count }, (_, at) => at + 1);
    const text = (list) => list.map((it) => `${it}\n`).join("");
    if (!marked) return void (this.gutter.textContent = text(numbers));
    const mark = element("span", `${marked}\n`, "marked");
    this.gutter.replaceChildren(text(numbers.slice(0, marked - 1)), mark, text(numbers.slice(marked)));
  }

  clear() {
    this.said.textContent = "";
    this.area.removeAttribute("aria-invalid");
    this.#number();
  }

  // Marks a line that was refused, with what is said of it.
  mark(line, why) {
    this.#number(line);
    this.area.setAttribute("aria-invalid", "true");
    this.said.textContent = `Line ${line}: ${why}`;
    this.area.scrollTop = (line - 4) * parseFloat(getComputedStyle(this.area).lineHeight);
    this.gutter.scrollTop = this.area.scrollTop;
  }
}

export class Panes {
  #host;
  #panes = [];
  #changed;

  constructor(host, changed) {
    this.#host = host;
    this.#changed = changed;
  }

  set(list) {
    this.#panes = list.map((it) => new Pane(it, this.#changed));
    this.#host.replaceChildren(...this.#panes.filter(({ name }) => !name.endsWith(".o")).map(({ box }) => box));
  }

  list() {
    return this.#panes.map(({ role, name, area }) => ({ role, name, text: area.value }));
  }

  clear() {
    for (const pane of this.#panes) pane.clear();
  }

  mark(at, line, why) {
    this.#panes[at]?.mark(line, why);
  }
}
