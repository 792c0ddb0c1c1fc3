// Runs a WebAssembly program with WASI: node wasi.mjs PROGRAM WORD..
//
// It sees the whole machine's files, the words, the environment and the standard streams; its status is this one's.
import fs from "node:fs";
import { WASI } from "node:wasi";

const [program, ...words] = process.argv.slice(2);
const isFolder = (it) => it.isDirectory() || it.isSymbolicLink();
const folders = fs
  .readdirSync("/", { withFileTypes: true })
  .filter(isFolder)
  .map((it) => `/${it.name}`)
  .filter((it) => fs.statSync(it, { throwIfNoEntry: false })?.isDirectory());
const wasi = new WASI({
  version: "preview1",
  args: [program, ...words],
  env: process.env,
  // (Node finds no absolute path below "/" itself)
  preopens: Object.fromEntries([".", ...folders].map((it) => [it, it])),
  returnOnExit: true,
});
const module = new WebAssembly.Module(fs.readFileSync(program));
process.exitCode = wasi.start(new WebAssembly.Instance(module, wasi.getImportObject()));
