// Runs functions of a module: node run_module.mjs MODULE CALLS. CALLS is JSON, a list of lists of a function's name and
// its arguments: an argument that is a text is the value of that global, and a list the result of that call. What is
// imported are functions that give 0. Prints a line for each call of such a function, its name and arguments, and one
// for each result. A call `store` of an address and a number writes four bytes of the memory.
import { readFile } from "node:fs/promises";

const [file, calls] = process.argv.slice(2);
const module = await WebAssembly.compile(await readFile(file));
const imports = {};
for (const { module: from, name } of WebAssembly.Module.imports(module)) {
    imports[from] ??= {};
    imports[from][name] = (...given) => (console.log(name, ...given.map(String)), 0);
}
const { exports } = await WebAssembly.instantiate(module, imports);

function valueOf(given) {
    if (Array.isArray(given)) return exports[given[0]](...given.slice(1).map(valueOf));
    return typeof given === "string" ? exports[given].value : given;
}

for (const call of JSON.parse(calls)) {
    if (call[0] === "store") new DataView(exports.memory.buffer).setUint32(valueOf(call[1]), call[2], true);
    else console.log("=", String(valueOf(call)));
}
