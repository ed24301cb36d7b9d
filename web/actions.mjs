// The buttons of the Bench as command lines, as the prompt takes them.
const FOLDER = "bench/";
// The map of what is linked, until a text is changed.
export const MAP = `${FOLDER}bench.map`;
const plain = (name) => name.replace(/[^\w.-]+/g, "_");
const object = (name) => (name.endsWith(".o") ? name : `${FOLDER}${plain(name).replace(/\.\w+$/, "")}.o`);

// The name under which a pane's text stands among the files.
export const fileOf = ({ name }) => FOLDER + plain(name);

const ALWAYS = ["schedule", "script", "arms", "terms"];
const lastOf = (path) => path.split("/").at(-1);

// The texts of an example of web/examples.json. `read` gives the text of a file, and `challenge` the schedule that a
// vendor's challenges make.
export async function panesOf(example, read, challenge) {
  const isObject = (path) => path.endsWith(".o");
  const source = async (path) => ({
    role: "source", name: isObject(path) ? path : lastOf(path), text: isObject(path) ? "" : await read(path),
  });
  const one = async (role, name) => ({ role, name, text: example[role] ? await read(example[role]) : "" });
  const panes = await Promise.all([
    ...example.sources.map(source),
    one("other", example.other ? lastOf(example.other) : "other.txt"), one("layout", "layout.toml"),
    ...ALWAYS.map((role) => one(role, `${role}.txt`)),
  ]);
  if (example.challenges) panes.find(({ role }) => role === "schedule").text = await challenge(example.challenges);
  return panes;
}

// The fields of the Bench: label and first value.
export const FIELDS = {
  cycles: ["Cycles", "100"], id: ["Module", "1"], line: ["Sweep line", "0"], from: ["from cycle", "0"],
  to: ["to cycle", "40"], start: ["Disassemble from", "0200"], end: ["to", "0220"],
  mem: ["Look at memory from", "0200"],
};

export const fieldsOf = (example) =>
  Object.fromEntries(Object.entries(FIELDS).map(([name, [, value]]) => [name, example[name] ?? value]));

// [name, the steps before it, its own command]. `panes` are {role, name, text}; a source whose name ends in .o is an
// object among the files, and the pane `other` stands in place of the last source for the second secret.
export function actionsOf({ panes, fields }) {
  const of = (role) => panes.filter((pane) => pane.role === role);
  const filled = (role) => (of(role)[0]?.text ? fileOf(of(role)[0]) : "-");
  const [sources, others] = [of("source"), of("other").filter(({ text }) => text)];
  const layout = fileOf(of("layout")[0]);
  const assembled = (list) => list.filter(({ name }) => !name.endsWith(".o"))
    .map((pane) => `asm ${fileOf(pane)} > ${object(pane.name)}`);
  const objects = sources.map(({ name }) => object(name));
  const link = (list, image) => `link ${layout} ${list.join(" ")} > ${FOLDER}${image}`;
  const first = assembled(sources);
  const linked = [...first, link(objects, "bench.img")];
  const second = [...linked, ...assembled(others),
    link([...objects.slice(0, -1), ...others.map(({ name }) => object(name))], "other.img")];
  const image = `${FOLDER}bench.img`;
  const { cycles, id, line, from, to } = fields;
  const arms = filled("arms");
  const run = (which) => `image ${FOLDER}${which}.img ${filled("schedule")} ${cycles}`;
  return [
    ["Assemble", first.slice(0, -1), first.at(-1) ?? null],
    ["Link", first, linked.at(-1)],
    ["Run", linked, run("bench")],
    ["Two secrets", [...second, `${run("bench")} > ${FOLDER}first.trace`],
      others.length ? `${run("other")} > ${FOLDER}second.trace` : null],
    ["Check", linked, arms === "-" ? `check ${image} ${id}` : `balance ${image} ${id} ${arms}`],
    ["Script", linked, filled("script") === "-" ? null : `monitor ${image} ${filled("schedule")} ${filled("script")}`],
    ["Disassemble", linked, `dis ${image} ${fields.start} ${fields.end}`],
    ["Steps", linked, `sancus-lab steps ${image} ${filled("schedule")} ${cycles}`],
    ["Map", first, `sancus-lab map ${layout} ${objects.join(" ")}`],
    ["Sweep", second,
      others.length ? `sancus-lab sweep ${image} ${FOLDER}other.img ${line} ${from} ${to} ${cycles}` : null],
    ["Released", linked, `sancus-lab released ${image} ${id} ${FOLDER}terms.txt ${arms}`],
    ["Unroll", linked, `sancus-lab unroll ${image} ${id} ${filled("terms")}${arms === "-" ? "" : ` ${arms}`}`],
  ].map(([name, steps, command]) => {
    const lab = command?.startsWith("sancus-lab ") ?? name === "Sweep";
    return { name, steps, command, lab };
  });
}
