// node host/wasm/run.mjs PROGRAM: runs a program compiled for wasm32 by tools/compile-for, with this standard input and output.
import { readFileSync, readSync, writeSync } from "node:fs";

const compiled = new WebAssembly.Module(readFileSync(process.argv[2]));
const bytes = (at, length) => new Uint8Array(instance.exports.memory.buffer, at, length);

function read(to, room) {
  let got = 0;
  while (got < room) {
    try {
      const more = readSync(0, bytes(to + got, room - got));
      if (more === 0) break;
      got += more;
    } catch (error) {
      if (error.code === "EOF") break;
      if (error.code !== "EAGAIN") throw error;
    }
  }
  return got;
}

const write = (from, count) => {
  for (let done = 0; done < count; ) done += writeSync(1, bytes(from + done, count - done));
};
const instance = new WebAssembly.Instance(compiled, { env: { read, write } });
process.exitCode = instance.exports.start();
