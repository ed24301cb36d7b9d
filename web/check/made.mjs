// An image, one bent at some places, a schedule and certificates from a seed, and the command lines that they are
// tried with.

// Numbers below a bound, from a seed (xorshift).
function numbers(seed) {
  let state = (seed * 0x9e3779b1) >>> 0 || 1;
  return (bound) => {
    state ^= state << 13;
    state ^= state >>> 17;
    state ^= state << 5;
    return (state >>> 0) % bound;
  };
}

const hex = (number, digits) => number.toString(16).padStart(digits, "0");
const TEXT = 0x0300;
const DATA = 0x0500;

// A word of code: mostly an operation on registers from R8 on, sometimes a jump ahead by a few words, rarely any word.
function code(below) {
  const kind = below(40);
  const register = 8 + below(8);
  if (kind < 24) return ((4 + below(12)) << 12) | ((8 + below(8)) << 8) | (below(2) << 6) | register;
  if (kind < 30) return 0x1000 | (below(4) << 7) | register;
  if (kind < 34) return 0x2000 | (below(8) << 10) | below(3);
  if (kind < 39) return 0x4303;
  return below(65536);
}

function memory(below) {
  const bytes = new Uint8Array(65536);
  const put = (at, word) => {
    bytes[at] = word & 255;
    bytes[at + 1] = word >> 8;
  };
  const all = (at, words) => words.forEach((word, step) => put(at + 2 * step, word));
  const some = (count) => Array.from({ length: count }, () => code(below));
  // The outside: a stack, line 0 may interrupt, GIE, some code, a call of the module, some code, and a jump to
  // itself.
  all(0x0200, [0x4031, 0x0a00, 0x43d2, 0x0040, 0xd232, ...some(below(6)), 0x4037, 0x0240, 0x4030, TEXT]);
  all(0x0240, [...some(below(4)), 0x40f2, below(256), 0x0071, 0x3fff]);
  // The module: its data, a few words, and the way back.
  all(TEXT, [0x4216, DATA, ...some(below(12)), 0x4306, 0x4700]);
  all(DATA, [below(65536), below(65536), below(65536)]);
  // The handler: a few words, the line is taken back, RETI.
  all(0x0600, [...some(below(3)), 0x43c2, 0x0040, 0x1300]);
  for (let vector = 0xffe0; vector < 0xfffe; vector += 2) put(vector, 0x0600);
  put(0xfffe, 0x0200);
  return bytes;
}

function image(below) {
  const bytes = memory(below);
  const rows = [];
  for (let at = 0x0200; at < 65536; at += 16) {
    const row = Buffer.from(bytes.subarray(at, at + 16)).toString("hex");
    if (/[^0]/.test(row)) rows.push(`at ${hex(at, 4)} ${row}`);
  }
  const key = Array.from({ length: 16 }, () => hex(below(256), 2)).join("");
  const module = below(8) ? [`module ${hex(below(65536), 4)} ${hex(TEXT, 4)} 0340 ${hex(DATA, 4)} 0508`] : [];
  return ["sancus-image 1", `key ${key}`, "handler 0900", ...module, ...rows, "end", ""].join("\n");
}

function schedule(below) {
  const cycles = Array.from({ length: below(8) }, () => below(80)).sort((a, b) => a - b);
  const line = () => (below(3) ? 0 : below(4));
  const what = () => [`line ${line()} up`, `line ${line()} down`, `serial ${hex(below(256), 2)}`][below(3)];
  // Line 0 goes up about when the module is called.
  const first = 10 + below(25);
  const lines = [`${first} line 0 up\n`, ...cycles.map((cycle) => `${first + cycle} ${what()}\n`)];
  return below(4) ? lines.join("") : lines.slice(1).join("");
}

function bent(below, text) {
  const bytes = new TextEncoder().encode(text);
  for (let count = below(3); count >= 0; count--) {
    bytes[below(bytes.length)] = "0123456789abcdef \n".charCodeAt(below(18));
  }
  return bytes;
}

export function made(seed) {
  const below = numbers(seed);
  const text = image(below);
  const encode = (it) => new TextEncoder().encode(it);
  return {
    files: {
      "made.img": encode(text),
      "bent.img": bent(below, text),
      "made.txt": encode(schedule(below)),
      arms: encode("0304 0318 6\n"),
    },
    lines: [
      "image made.img made.txt 2000", "image bent.img made.txt 500", "lone made.img 1 300 r7=0240",
      "check made.img 1", "balance made.img 1 arms",
    ],
  };
}
