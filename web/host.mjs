// What the program's module asks of its host: its words, files by name, two streams. One instance is one run, as one
// process natively.
const STREAMS = [1, 2];

// A name as the files have it: `./` and `..` as a system would take them.
export function plainName(name) {
  const parts = [];
  for (const part of name.split("/")) {
    if (part === "..") parts.pop();
    else if (part !== "." && part !== "") parts.push(part);
  }
  return parts.join("/");
}

const isFolder = (files, name) => name !== "" && [...files.keys()].some((file) => file.startsWith(`${name}/`));

// The four calls of one instance, over files (a Map from names to bytes); `put(stream, bytes)` takes what is written.
class Host {
  #words;
  #files;
  #put;
  #opened = [];
  memory = null;

  constructor(words, files, put) {
    this.#words = ["sancus", ...words].map((word) => new TextEncoder().encode(word));
    this.#files = files;
    this.#put = put;
  }

  #bytes(at, count) {
    return new Uint8Array(this.memory.buffer, at >>> 0, Number(count));
  }

  // A folder is opened, and not read.
  open(at, length) {
    const name = plainName(new TextDecoder().decode(this.#bytes(at, length)));
    if (this.#files.has(name)) return this.#opened.push(this.#files.get(name)) + 2;
    return isFolder(this.#files, name) ? this.#opened.push(null) + 2 : -1;
  }

  pread(file, at, count, from) {
    const content = this.#opened[file - 3];
    if (!content) return -1n;
    const part = content.subarray(Number(from), Number(from + count));
    this.#bytes(at, part.length).set(part);
    return BigInt(part.length);
  }

  write(stream, at, count) {
    if (!STREAMS.includes(stream)) return -1n;
    this.#put(stream, this.#bytes(at, count).slice());
    return count;
  }

  arg(number, at, room) {
    const word = this.#words[Number(number)];
    if (!word) return -1n;
    if (word.length > Number(room)) return -2n;
    this.#bytes(at, word.length).set(word);
    return BigInt(word.length);
  }
}

// Runs the compiled module on words and files, and returns its status.
export async function run(module, words, files, put) {
  const host = new Host(words, files, put);
  const calls = ["open", "pread", "write", "arg"].map((name) => [name, host[name].bind(host)]);
  const instance = await WebAssembly.instantiate(module, { host: Object.fromEntries(calls) });
  host.memory = instance.exports.memory;
  return instance.exports.run();
}

// The pieces, joined.
export function joined(pieces) {
  const whole = new Uint8Array(pieces.reduce((sum, piece) => sum + piece.length, 0));
  let at = 0;
  for (const piece of pieces) {
    whole.set(piece, at);
    at += piece.length;
  }
  return whole;
}

// One run, and what it wrote: {status, out, err} with out as bytes and err as text.
export async function collect(module, words, files) {
  const pieces = { 1: [], 2: [] };
  const status = await run(module, words, files, (stream, piece) => pieces[stream].push(piece));
  return { status, out: joined(pieces[1]), err: new TextDecoder().decode(joined(pieces[2])) };
}
