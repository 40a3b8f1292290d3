// The program of features.wasm.
import fs from 'node:fs';

const bytes = fs.readFileSync(new URL('features.wasm', import.meta.url));
const imports = { host: { print: (object, number) => console.log(object, number) } };
const { module, instance } = await WebAssembly.instantiate(bytes, imports);
const { sum, digits, down, put, swap, applied, memory } = instance.exports;
if (!(instance instanceof WebAssembly.Instance) || WebAssembly.Module.exports(module).length !== 7) throw new Error('another interface');
console.log('sum', sum(64, 8));
new Int32Array(memory.buffer)[16] = 100;
console.log('sum', sum(64, 8), 'digits', digits(987654), 'down', down(1000, 1));
put(1, { name: 'an object' });
swap();
console.log('applied', applied(7), applied(9));
put(2, 'a text');
