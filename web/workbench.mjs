// The part of the Bench with the texts, the examples and the buttons.
import { actionsOf, FIELDS, fieldsOf, fileOf, MAP, panesOf } from "./actions.mjs";
import { button, element, field, part } from "./elements.mjs";
import { Panes } from "./panes.mjs";
import { checked, download, filesAsText, filesOfText, fragmentOf, kept, ofFragment } from "./share.mjs";

const PAUSE = 400;

export class Workbench {
  #files;
  #act;
  #listFiles;
  #runner;
  #panes = new Panes(part("panes"), () => this.changed());
  #inputs = {};
  #examples = [];
  #commands = null;
  #busy = false;
  #saving = null;
  command = "";
  // What the newest timeline shows, {from, to, cursor}, or what a link says that the first is to show.
  view = null;

  constructor(files, { act, listFiles, runner }) {
    [this.#files, this.#act, this.#listFiles, this.#runner] = [files, act, listFiles, runner];
  }

  async start() {
    this.#examples = await (await fetch(new URL("examples.json", import.meta.url))).json();
    part("example").replaceChildren(...this.#examples.map(({ name }) => element("option", name)));
    part("example").onchange = () => this.#example(part("example").selectedIndex);
    part("fields").replaceChildren(...Object.entries(FIELDS).map(([name, [label, value]]) => {
      const [whole, input] = field(label, value, { autocomplete: "off" });
      this.#inputs[name] = input;
      input.oninput = () => this.changed();
      return whole;
    }));
    part("share").onclick = () => this.#told(this.#share());
    part("export").onclick = () => download("bench.json", JSON.stringify(this.state()));
    part("import").onchange = () => this.#told(this.#import());
    part("forget").onclick = () => this.#told(this.#forget());
    part("offline").onclick = () => this.#told(this.#keepOffline());
    addEventListener("hashchange", () => this.#told(this.#open()));
    await this.#open();
  }

  async #open() {
    try {
      const [linked, own] = [await ofFragment(location.hash), kept.load()];
      if (linked) return this.set(linked);
      if (own) return this.set({ ...own, command: "", view: null });
    } catch (error) {
      part("shared").textContent = `The bench could not be opened: ${error.message}`;
    }
    await this.#example(0);
  }

  #told(act) {
    return act.catch((error) => (part("shared").textContent = error.message));
  }

  // The schedule that a vendor's challenges make.
  async #challenge(path) {
    const words = ["challenge", path];
    return new TextDecoder().decode((await this.#runner.run(words, await this.#files.forRun(words))).out);
  }

  async #example(at) {
    const it = this.#examples[at];
    for (const path of it.sources.filter((name) => name.endsWith(".o"))) await this.#files.read(path);
    const read = async (path) => new TextDecoder().decode(await this.#files.read(path));
    const panes = await panesOf(it, read, (path) => this.#challenge(path));
    this.set({ panes, fields: fieldsOf(it), files: [], command: "", view: null, example: at });
  }

  set(bench) {
    this.#files.drop("bench/");
    this.#panes.set(bench.panes);
    for (const [name, value] of Object.entries(bench.fields)) this.#inputs[name].value = value;
    for (const [name, bytes] of filesOfText(bench.files)) this.#files.put(name, bytes);
    this.command = bench.command;
    this.view = bench.view;
    part("line").value = bench.command;
    part("example").selectedIndex = bench.example ?? -1;
    part("task").textContent = this.#examples[bench.example]?.task ?? "";
    this.changed();
    this.#listFiles();
  }

  field(name) {
    return this.#inputs[name].value;
  }

  state() {
    const fields = Object.fromEntries(Object.entries(this.#inputs).map(([name, { value }]) => [name, value]));
    const { selectedIndex: example } = part("example");
    const files = filesAsText(this.#files.own());
    return { version: 1, panes: this.#panes.list(), fields, files, command: this.command, view: this.view, example };
  }

  // The texts go among the files, the buttons get their commands, and the browser keeps the bench.
  changed() {
    const state = this.state();
    this.#files.drop(MAP);
    for (const pane of state.panes) {
      if (!pane.name.endsWith(".o")) this.#files.keep(fileOf(pane), new TextEncoder().encode(pane.text));
    }
    this.#showActions(state);
    clearTimeout(this.#saving);
    this.#saving = setTimeout(() => this.#save(state), PAUSE);
  }

  #save(state) {
    try {
      kept.save(state);
    } catch (error) {
      part("shared").textContent = `This browser does not keep the bench: ${error.message}`;
    }
  }

  #showActions(state) {
    const isHere = ({ name, lab }) => !lab || this.#commands?.includes(name.toLowerCase());
    part("actions").replaceChildren(...actionsOf(state).filter(isHere).map((action) => {
      const made = button(action.name, () => {
        this.#panes.clear();
        this.#act(action);
      });
      made.disabled = this.#busy || action.command === null;
      const item = element("li");
      item.append(made, element("code", action.command ?? "its text is empty"));
      return item;
    }));
  }

  busy(is) {
    this.#busy = is;
    for (const { children: [made, { textContent }] } of part("actions").children) {
      made.disabled = is || textContent === "its text is empty";
    }
  }

  // The commands of sancus-lab, of which there are none where its module is not here.
  lab(commands) {
    this.#commands = commands;
    this.#showActions(this.state());
    part("lab").textContent = commands.length ? ""
      : "The commands of sancus-lab (Steps, Map, Sweep, Released) are not shown: its module is not in release/.";
  }

  refused({ file, line }, sentence) {
    const at = this.#panes.list().findIndex((pane) => fileOf(pane) === file);
    if (at >= 0) this.#panes.mark(at, line, sentence);
  }

  async #share() {
    const fragment = await fragmentOf(this.state());
    history.replaceState(null, "", fragment);
    part("shared").textContent = "The address of this page is now a link to this bench";
    await navigator.clipboard?.writeText(location.href).then(
      () => (part("shared").textContent += ", and was copied"), () => {});
  }

  async #import() {
    const [file] = part("import").files;
    part("import").value = "";
    if (!file) return;
    this.set(checked(await file.text()));
    part("shared").textContent = `Imported: ${file.name}`;
  }

  // A worker of the browser keeps all files, of which it says so once it is active.
  async #keepOffline() {
    if (!navigator.serviceWorker) throw new Error("Only a page that is served by https, or by this machine, is kept");
    part("shared").textContent = "The files of this page are being kept";
    await navigator.serviceWorker.register(new URL("offline.mjs", import.meta.url));
    await navigator.serviceWorker.ready;
    part("shared").textContent = "This browser has an offline copy of this page";
  }

  async #forget() {
    clearTimeout(this.#saving);
    kept.forget();
    for (const it of await navigator.serviceWorker?.getRegistrations() ?? []) await it.unregister();
    await globalThis.caches?.delete("sancus");
    part("shared").textContent = "This browser keeps nothing of the bench until it is changed again";
  }
}
