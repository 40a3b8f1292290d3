// Runs replay modules in this engine: node replays.js NAME=FILE.. It prints a line for each: its name, and `ended` or
// `trapped`, or what is wrong with it.
"use strict";
const fs = require("fs");

/** @param {Uint8Array} bytes */
function outcome(bytes) {
  if (!WebAssembly.validate(bytes)) return "is not valid";
  const module = new WebAssembly.Module(bytes);
  if (WebAssembly.Module.imports(module).length !== 0) return "has imports";
  const start = new WebAssembly.Instance(module).exports._start;
  if (typeof start !== "function") return "exports no _start";
  try {
    start();
    return "ended";
  } catch (error) {
    return error instanceof WebAssembly.RuntimeError ? "trapped" : String(error);
  }
}

for (const word of process.argv.slice(2)) {
  const place = word.indexOf("=");
  let found;
  try {
    found = outcome(fs.readFileSync(word.slice(place + 1)));
  } catch (error) {
    found = String(error);
  }
  console.log(`${word.slice(0, place)} ${found}`);
}
