// The native program on files that are given by name.
import { spawnSync } from "node:child_process";
import { mkdirSync, mkdtempSync, rmSync, writeFileSync } from "node:fs";
import { tmpdir } from "node:os";
import { dirname, join } from "node:path";

export class Native {
  constructor(program) {
    this.program = program;
    this.room = mkdtempSync(join(tmpdir(), "sancus-web-"));
  }

  put(name, bytes) {
    const file = join(this.room, name);
    mkdirSync(dirname(file), { recursive: true });
    writeFileSync(file, bytes);
  }

  run(words, program = this.program) {
    const ran = spawnSync(program, words, { cwd: this.room, maxBuffer: 1 << 28 });
    if (ran.error) throw ran.error;
    return { status: ran.status, out: ran.stdout, err: ran.stderr.toString() };
  }

  close() {
    rmSync(this.room, { recursive: true });
  }
}

// Whether two runs ended alike and wrote the same bytes.
export const isSame = (one, other) =>
  one.status === other.status && one.err === other.err && Buffer.compare(one.out, other.out) === 0;
