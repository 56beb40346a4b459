// node host/wasm/check.mjs LIBRARY FOLDER: the library as a WebAssembly module, called from JavaScript, on every input of the conformance folder but those
// of the page form; as conformance/check, with one start for all of them. It shows a caller's side: the module imports nothing, a length is a BigInt, and
// what is lent stands in the module's memory, behind __heap_base. Each pool is followed by guard bytes, and no byte but the pool's may change under a meld.
import { readdirSync, readFileSync } from "node:fs";

const [library, folder] = process.argv.slice(2);
const compiled = new WebAssembly.Module(readFileSync(library));
if (WebAssembly.Module.imports(compiled).length > 0) throw new Error("the module imports something");
const { exports } = new WebAssembly.Instance(compiled, {});
const { memory, emuparasol_create, emuparasol_cut, emuparasol_meld } = exports;

const MOST_N = 1000, GUARD = 64;
const numbers = exports.__heap_base.value; // room for what is written beside the pool: looks, and the next place
const pool = numbers + 64 + 1; // bytes may stand anywhere
const log = pool + 64 + 64 * MOST_N + GUARD;
memory.grow(64);
const view = () => new DataView(memory.buffer);

// The lines of the program for one input.
function lines(input) {
  const n = input.length < 8 ? 0 : input.readUInt32BE(0), z = input.length < 8 ? 0 : input.readUInt32BE(4);
  const length = n > MOST_N ? 0 : 64 + 64 * n;
  const all = new Uint8Array(memory.buffer);
  all.fill(0xa5, pool, log);
  const created = emuparasol_create(pool, BigInt(length), n, z);
  if (created !== 0) return [`${created}`];
  const records = input.subarray(8), size = BigInt(records.length), said = [];
  all.set(records, log);
  let place = 0n, answer;
  for (;;) {
    answer = emuparasol_cut(log, size, place, numbers + 8);
    const next = view().getBigUint64(numbers + 8, true);
    if (answer !== 0 || next === place) break;
    const melded = emuparasol_meld(pool, BigInt(length), log + Number(place), next - place, numbers);
    said.push(`${said.length + 1} ${melded} ${view().getUint32(numbers, true)}`);
    place = next;
  }
  if (all.subarray(pool + length, log).some((byte) => byte !== 0xa5)) throw new Error("a byte behind the pool was written");
  if (Buffer.compare(Buffer.from(all.subarray(log, log + records.length)), records) !== 0) throw new Error("the log was written");
  return [...said, answer === 0 ? "end" : `${answer}`]; // 10 where the log is torn, 11 at an impossible length
}

let right = 0, wrong = 0;
const names = readdirSync(folder);
for (const name of names.filter((name) => name.endsWith(".input") && !names.includes(name.replace(".input", ".parts")))) {
  const said = lines(readFileSync(`${folder}/${name}`)).join("\n") + "\n";
  if (said === readFileSync(`${folder}/${name.replace(".input", ".expected")}`, "utf8")) right++;
  else {
    wrong++;
    console.log(`${name} differs`);
  }
}
console.log(`${right} right, ${wrong} wrong`);
process.exitCode = wrong > 0 || right === 0 ? 1 : 0;
