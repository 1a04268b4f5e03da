// Asks a module made of cases/mask.ll in which places two texts of 32 bytes differ.
//
//     node page_mask.mjs MODULE PLACES.. > MASKS
//
// PLACES are numbers below 32 with commas between them, or `-` for none: the second text differs from the first in these. A line
// for each has the mask.
import fs from "node:fs";

const [path, ...asked] = process.argv.slice(2);
const { exports: of } = (await WebAssembly.instantiate(fs.readFileSync(path), {})).instance;
const left = of.room(32n), right = of.room(32n);
for (const word of asked) {
  const places = word === "-" ? [] : word.split(",").map(Number), bytes = new Uint8Array(of.memory.buffer);
  for (let at = 0; at < 32; at++) {
    bytes[Number(left) + at] = at;
    bytes[Number(right) + at] = places.includes(at) ? at ^ 1 : at;
  }
  console.log(of.mask(left, right) >>> 0);
}
