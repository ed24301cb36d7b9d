// Lines of the prompt, as the examples' pages show them: commands between `&&`, each with `sancus` before it where it
// is typed, and with `> NAME` at its end. `sancus-lab` before it names the other program.
function commandOf(line) {
  const words = line.replace(/>/g, " > ").split(/\s+/).filter((word) => word);
  const program = /^(?:\.\/)?(sancus(?:-lab)?)$/.exec(words[0])?.[1];
  if (program) words.shift();
  const more = { program: program ?? "sancus" };
  const refused = (fault) => ({ words, to: null, fault, ...more });
  if (words.includes("|")) return refused("The prompt has no other program: leave out what follows |");
  const at = words.indexOf(">");
  if (at < 0) return { words, to: null, fault: null, ...more };
  if (words.length !== at + 2) return refused("One name must follow >, at the end of a command");
  return { words: words.slice(0, at), to: words[at + 1], fault: null, ...more };
}

// Each as {words, to, fault, program}.
export const commandsOf = (line) => line.split("&&").map(commandOf);
