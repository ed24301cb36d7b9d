// Timelines of traces whose spans are worked out by hand, and what no trace tells.
import { commandsOf } from "../command.mjs";
import { end, same } from "./count.mjs";
import { firstDifference, isTrace, read, readMap, spans, svg } from "../trace.mjs";

const shown = ({ lane, from, to, kind }) => `${lane} ${kind} ${from}-${to}`;
const drawn = (lines) => spans(read(lines.join("\n"))).map(shown);
const END = "end 40 outside 0214 0600 0008 0000 0000 0000 0000 0214 0000 0000 0000 0000 0000 0000 0000 0000";
const INSIDE = [
  "12 enter 1 from 0", "13 hide 1 vector 1", "25 handler pc 0500", "30 resume 1", "33 leave 1 pc 0214", END,
];

same("nothing happens", drawn([END]), ["0 outside 0-40"]);
same("a pulse inside", drawn(INSIDE), [
  "0 outside 0-12", "1 active 12-13", "0 padding 13-25", "1 held 13-30", "0 open 25-30", "1 active 30-33",
  "0 outside 33-40",
]);
same("a pulse outside", drawn(["12 irq 1", "18 reti", "23 enter 1 from 0", "27 leave 1 pc 0214", END]), [
  "0 outside 0-12", "0 accept 12-18", "0 open 18-23", "1 active 23-27", "0 outside 27-40",
]);
same("a handler that does not return stays open", drawn(["12 irq 1", END]), [
  "0 outside 0-12", "0 accept 12-18", "0 open 18-40",
]);
same("an interrupt in the handler of a module", drawn([
  "1 enter 1 from 0", "2 hide 1 vector 1", "14 handler pc 0500", "20 irq 2", "26 reti", "36 resume 1",
  "end 40 inside 1",
]), [
  "0 outside 0-1", "1 active 1-2", "0 padding 2-14", "0 open 14-20", "0 accept 20-26", "1 held 2-36", "0 open 26-36",
  "1 active 36-40",
]);
same("the end within padding", drawn(["1 enter 1 from 0", "2 hide 1 vector 1", "end 8 outside" + " 0000".repeat(16)]), [
  "0 outside 0-1", "1 active 1-2", "0 padding 2-8", "1 held 2-8",
]);
same("a return without an interrupt", drawn(["3 reti", END]), ["0 outside 0-40"]);
same("from module to module", drawn(["1 enter 1 from 0", "5 leave 1 pc 0400", "5 enter 2 from 1", "9 close 2", END]), [
  "0 outside 0-1", "1 active 1-5", "2 active 5-9", "0 outside 9-40",
]);
same("a stop", drawn(["5 stop ReadData pc 0302 addr 0400 module 1", "end 5 stopped"]), ["0 outside 0-5"]);
same("equal texts", firstDifference("a\n", "a\n"), null);
const FOUND = { line: 2, cycle: 7, a: "9 reti", b: "7 reti" };
same("the first difference", firstDifference("1 irq 1\n9 reti\n", "1 irq 1\n7 reti\n"), FOUND);
same("a text that ends before", firstDifference("1 irq 1\n", "1 irq 1\n7 reti\n"), { ...FOUND, a: "" });
same("a script's text is no trace", isTrace("mark 0 at 0\n12 enter 1 from 0\n"), false);
same("a line of another form is refused", (() => {
  try {
    return read("12 enters 1 from 0\n");
  } catch (error) {
    return error.message;
  }
})(), "not a line of a trace: 12 enters 1 from 0");
const map = readMap("sancus-map 1\nmodule 1 meter 0900 0a00 0a00 0b00\nentry 0500 1 0 read\nend\n");
const picture = svg(INSIDE.join("\n"), { title: "<a & b>", names: map, first: 13 });
same("names of the map", [/>1 meter</.test(picture), /handler|0500/.test(picture)], [true, false]);
same("a title is no markup", picture.includes("&lt;a &amp; b&gt;") && !picture.includes("<a &"), true);
same("the difference is marked", /class="first"/.test(picture), true);
const cut = svg(INSIDE.join("\n"), { from: 12, to: 14 });
same("a window of cycles", cut.match(/<rect class="(?:active|padding|open)"/g).length, 2);
const WORDS = { words: ["asm", "a.txt"], to: "b.o", fault: null, program: "sancus" };
const NOTHING = { words: [], to: null, fault: null, program: "sancus" };
same("a line of the prompt", commandsOf("  ./sancus asm a.txt >b.o "), [WORDS]);
same("two commands", commandsOf("asm a.txt > b.o && ./sancus asm a.txt > b.o"), [WORDS, WORDS]);
same("no word at all", commandsOf(""), [NOTHING]);
same("two names", commandsOf("image a > b c")[0].fault !== null, true);
same("another program", commandsOf("image a - 4 | grep b")[0].fault !== null, true);
end();
