// Small parts of the pages.
import { LEGEND, STYLE } from "./trace.mjs";

export const part = (id) => document.getElementById(id);

export function element(tag, text = "", className = "") {
  const made = document.createElement(tag);
  made.textContent = text;
  made.className = className;
  return made;
}

export function button(text, act) {
  const made = element("button", text);
  made.type = "button";
  made.onclick = act;
  return made;
}

export const items = (contents) => contents.map((it) => {
  const item = element("li");
  item.append(it);
  return item;
});

// A field with its label: [label, input].
export function field(label, value, more = {}) {
  const made = Object.assign(element("input"), { value, ...more });
  const whole = element("label", `${label} `);
  whole.append(made);
  return [whole, made];
}

export const number = (label, value) => field(label, value, { type: "number", min: 0 });

// Bytes as a text, or null where they are none.
export function textOf(bytes) {
  try {
    const text = new TextDecoder("utf-8", { fatal: true }).decode(bytes);
    return text.includes("\0") ? null : text;
  } catch {
    return null;
  }
}

// A trace as a list of lines, the first that differs marked.
export function traceList(title, text, differs) {
  const box = element("div");
  const list = element("pre");
  list.tabIndex = 0;
  list.setAttribute("aria-label", title);
  text.trimEnd().split("\n").forEach((line, at) => {
    list.append(element("span", line, at + 1 === differs ? "differs" : ""));
  });
  box.append(element("h3", title), list);
  return box;
}

// What the colours of timelines mean; their looks go into a sheet, since the pages take no style from a text.
export function showLegend(list) {
  const sheet = new CSSStyleSheet();
  sheet.replaceSync(STYLE);
  document.adoptedStyleSheets = [...document.adoptedStyleSheets, sheet];
  list.replaceChildren(...LEGEND.map(([kind, text]) => {
    const item = element("li", text);
    item.prepend(element("span", "", `key ${kind}`));
    return item;
  }));
}
