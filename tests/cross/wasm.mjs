// Runs the test program of WebAssembly, which imports a function to print with, and prints what it says; before that holds
// the module of the calls against their names: node tests/cross/wasm.mjs PROGRAM.wasm CALLS.wasm NAMES
import { readFileSync } from "node:fs";

const [program, calls, names] = process.argv.slice(2).map((name) => readFileSync(name));
const module = new WebAssembly.Module(calls);
const exported = WebAssembly.Module.exports(module).filter((one) => one.kind === "function").map((one) => one.name).sort();
if (WebAssembly.Module.imports(module).length !== 0 || exported.join("\n") + "\n" !== names.toString()) {
  console.log("the module of the calls imports something, or exports other names: " + exported.join(" "));
  process.exit(1);
}

let memory;
const text = [];
const say = (at) => {
  const bytes = new Uint8Array(memory.buffer);
  text.push(Buffer.from(bytes.slice(at, bytes.indexOf(0, at))));
};
const { exports } = new WebAssembly.Instance(new WebAssembly.Module(program), { port: { say } });
memory = exports.memory;
process.exitCode = exports.__main_void();
process.stdout.write(Buffer.concat(text));
