/** A program of Node.js that runs a module with a host file: `host(context)` gives `imports` and `main(exports)`. */
import fs from 'node:fs';
import { pathToFileURL } from 'node:url';
import { functionOfHost } from './host_function.mjs';

const { module: file, words, host: hostFile, folders, environment } = JSON.parse(process.argv[2]);

const found = await import(pathToFileURL(hostFile).href);
const host = found.host ?? found.default?.host;
if (typeof host !== 'function') throw new Error(`${hostFile} exports no function host(context)`);
const module = await WebAssembly.compile(fs.readFileSync(file));
/** @type {any} */
const context = { module, file, words, folders, environment, hostFunction: functionOfHost, instance: undefined };
const { imports, main } = await host(context) ?? {};
context.instance = await WebAssembly.instantiate(module, imports ?? {});
await main?.(context.instance.exports);
