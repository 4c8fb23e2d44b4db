// Runs a program of WASI in Node: node run.mjs MODULE [ARGUMENT..]. Where the module exports its constructors and its
// destructors, they are called before and after the program.
import { readFile } from "node:fs/promises";
import { WASI } from "node:wasi";

const [file, ...rest] = process.argv.slice(2);
const wasi = new WASI({ version: "preview1", args: [file, ...rest], env: {}, returnOnExit: true });
const module = await WebAssembly.compile(await readFile(file));
const { exports } = await WebAssembly.instantiate(module, { wasi_snapshot_preview1: wasi.wasiImport });

function _start() {
    exports.__wasm_call_ctors?.();
    exports._start();
    exports.__wasm_call_dtors?.();
}

process.exitCode = wasi.start({ exports: { memory: exports.memory, _start } });
