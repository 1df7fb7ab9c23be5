// What the calls take in WebAssembly, and in the archive, in turns: node tests/cross/speed.mjs ROUND.wasm ARCHIVE-PROGRAM
import { readFileSync } from "node:fs";
import { spawnSync } from "node:child_process";

const [, , module, program] = process.argv, TURNS = 5, ROUNDS = 60, CALLS = 13;
const calls = { clock_time_get: (id, precision, at) => (new DataView(exports.memory.buffer).setBigUint64(at, process.hrtime.bigint(), true), 0) };
const wasi = new Proxy(calls, { get: (all, name) => all[name] ?? (() => { throw new Error(name); }) });
const { exports } = new WebAssembly.Instance(new WebAssembly.Module(readFileSync(module)), { wasi_snapshot_preview1: wasi });
const least = exports.malloc(8 * CALLS);
new Float64Array(exports.memory.buffer, least, CALLS).fill(0);
const archive = new Map();
for (let turn = 0; turn < TURNS; turn++) {
  for (let i = 0; i < ROUNDS; i++) exports.wasm(least);
  for (const [, name, time] of spawnSync(program).stdout.toString().matchAll(/^\|(.*)\|([0-9]+)\|$/gm))
    archive.set(name, Math.min(archive.get(name) ?? Infinity, Number(time)));
}
console.log("|call|archive|WebAssembly|");
const times = new Float64Array(exports.memory.buffer, least, CALLS);
[...archive].forEach(([name, time], i) => console.log(`|${name}|${time}|${times[i].toFixed(0)} (${(times[i] / time).toFixed(2)})|`));
