// The page's files by name: those of the examples, which are fetched when a command first names them, and those that
// the reader adds.
import { plainName } from "./host.mjs";

// The programs read no more than this of a file.
export const MOST_BYTES = 1 << 20;

export class Files {
  // Content by name: null for a file that was not fetched yet.
  #content = new Map();
  #top;
  // The names of those that the reader put here.
  #own = new Set();

  constructor(names, top = new URL("../", import.meta.url)) {
    this.#top = top;
    for (const name of names) this.#content.set(name, null);
  }

  static async listed() {
    const answer = await fetch(new URL("files.txt", import.meta.url));
    return new Files((await answer.text()).split("\n").filter((name) => name.startsWith("examples/")));
  }

  names() {
    return [...this.#content.keys()].sort();
  }

  has(name) {
    return this.#content.has(name);
  }

  put(name, bytes) {
    const plain = plainName(name);
    if (!plain) throw new Error("A file needs a name");
    if (bytes.length > MOST_BYTES) {
      throw new Error(`${plain} has ${bytes.length.toLocaleString("en")} bytes; at most 1,048,576 are kept`);
    }
    this.#content.set(plain, bytes);
    this.#own.add(plain);
  }

  // Leaves out all whose names begin so.
  drop(start) {
    for (const name of this.#content.keys()) if (name.startsWith(start)) this.#content.delete(name);
  }

  own() {
    return [...this.#own].map((name) => [name, this.#content.get(name)]);
  }

  // What a command wrote, which may be larger than what a command reads.
  keep(name, bytes) {
    this.#content.set(plainName(name), bytes);
  }

  async read(name) {
    if (this.#content.get(name) === null) {
      const answer = await fetch(new URL(name, this.#top));
      if (!answer.ok) throw new Error(`${name} could not be fetched (${answer.status})`);
      this.#content.set(name, new Uint8Array(await answer.arrayBuffer()));
    }
    return this.#content.get(name);
  }

  // All files for a run on these words: those that it can open are fetched.
  async forRun(words) {
    for (const name of words.map(plainName)) if (this.has(name)) await this.read(name);
    return this.#content;
  }
}
