// What a run wrote, as a window of lines that goes over all of them: only the lines in it are made into a text.
import { button, element, number, textOf } from "./elements.mjs";

const LINES = 1000;
const SAMPLE = 1 << 16;

// Where each line begins, of which there may be millions.
function lineStarts(bytes) {
  const starts = [0];
  const next = (from) => bytes.indexOf(10, from) + 1;
  for (let at = next(0); at > 0 && at < bytes.length; at = next(at)) starts.push(at);
  return starts;
}

// The elements for some bytes; `told` changes a line for the reader.
export function output(bytes, told = (line) => line) {
  if (!bytes.length) return [];
  if (textOf(bytes.subarray(0, SAMPLE)) === null) {
    return [element("p", `${bytes.length} bytes, not shown here: keep them by > NAME`, "ended")];
  }
  const starts = lineStarts(bytes);
  const list = element("pre");
  list.tabIndex = 0;
  const show = (first) => {
    const end = starts[first + LINES] ?? bytes.length;
    const text = new TextDecoder().decode(bytes.subarray(starts[first], end));
    list.textContent = text.split("\n").map(told).join("\n");
  };
  show(0);
  if (starts.length <= LINES) return [list];
  return [list, windowForm(starts.length, show)];
}

function windowForm(count, show) {
  const form = element("form");
  const [label, first] = number("Lines from", 1);
  const go = (line) => {
    first.value = Math.max(1, Math.min(line, count));
    show(first.value - 1);
  };
  const step = (by) => () => go(Number(first.value) + by);
  form.onsubmit = (event) => {
    event.preventDefault();
    go(Number(first.value));
  };
  const all = element("span", `of ${count.toLocaleString("en")}, ${LINES.toLocaleString("en")} at a time`);
  const buttons = [button("Lines before", step(-LINES)), button("Lines after", step(LINES))];
  form.append(label, all, element("button", "Show"), ...buttons);
  return form;
}
