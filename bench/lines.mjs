// The lines of a file, read by the package for JavaScript, in pieces of 64 KiB: node bench/lines.mjs FILE..
// Prints for each file how many lines it has, and how many seconds of a processor they took.
import { readFileSync } from 'node:fs';
import { Lines } from '../js/index.js';

for (const file of process.argv.slice(2)) {
  const data = readFileSync(file);
  const lines = new Lines();
  const began = process.cpuUsage();
  let count = 0;
  for (let at = 0; at < data.length; at += 65536) {
    for (const line of lines.feed(data.subarray(at, at + 65536))) count += line ? 1 : 0;
  }
  const { user, system } = process.cpuUsage(began);
  console.log(`${file}: ${count} lines, ${((user + system) / 1e6).toFixed(2)} s`);
  lines.close();
}
