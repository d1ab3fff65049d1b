// The engines as WebAssembly, as a program: node tests/engines.mjs MODULE show|many [ENGINE]
// MODULE is what js/build makes with `--features engines`. They take the standard input as `fibs show` does, or as
// rust/tests/engines/many.rs says.
import { readFileSync, writeSync } from 'node:fs';

const [module, word, engine = 'show'] = process.argv.slice(2);
const { instance: { exports: wasm } } = await WebAssembly.instantiate(readFileSync(module));

const taken = readFileSync(0);
const input = word === 'many' ? taken : Buffer.concat([Buffer.from(`${taken.length}\n`), taken]);
const at = wasm.input(input.length);
new Uint8Array(wasm.memory.buffer, at, input.length).set(input);
wasm.many(['show', 'plays', 'replay'].indexOf(engine));
const found = Buffer.from(wasm.memory.buffer, wasm.output(), wasm.output_len()).toString('utf8');
let answers = Buffer.from(found, 'latin1');
if (word !== 'many') {
  const head = answers.indexOf('\n');
  process.exitCode = parseInt(answers.toString('latin1', 0, head), 10);
  answers = answers.subarray(head + 1);
}
for (let from = 0; from < answers.length;) from += writeSync(1, answers, from);
