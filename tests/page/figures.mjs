// What the page costs: figures.mjs CHROMIUM [BOARDS [LINES]]. It prints how many bytes are fetched for it, how long it
// takes to start, to draw a board, and to hear a flood of lines, and what is then left of it. No figure fails.
//
// A board is drawn when its line was read, the picture changed and its layout computed: what the page does before the
// browser paints. The times are those of this machine, and of the package as js/build made it.

import { gzipSync } from 'node:zlib';
import { Page, logIn, relay } from './browser.mjs';
import { boardOf, player, teller } from './teller.mjs';

const [chromium, boards = '300', lines = '10000'] = process.argv.slice(2);

let seed = 7;
const random = (below) => {
  seed = (seed * 1103515245 + 12345) % 2147483648;
  return Math.floor((seed / 2147483648) * below);
};

/** A board somewhere in a game; mostly the user is to move, after doubles too. */
const someBoard = (n) => {
  const [own, other] = [{}, {}];
  for (let left = 15; left > 0; left -= 1) {
    const place = 1 + random(24);
    own[place] = (own[place] ?? 0) + 1;
  }
  for (let left = 15; left > 0;) {
    const place = 1 + random(24);
    if (own[25 - place]) continue;
    other[place] = (other[place] ?? 0) + 1;
    left -= 1;
  }
  const dice = [1 + random(6), 1 + random(6)];
  const fields = n % 4 === 0 ? [-1, 0, 0, ...dice, 1, 1, 1, 0] : [1, ...dice, 0, 0, 1, 1, 1, 0];
  return boardOf('eve', own, other, fields);
};

/** A line of a flood, none like the one before. */
const someLine = (n) => [`13 player${n % 300} what I say is number ${n}`, `12 eve and this is ${n} of them`,
  player(`player${n % 300}`, '-', `${1400 + (n % 400)}.25`, n), `a text of the server, the line ${n}`,
  `7 player${n % 300} player${n % 300} logs in.`][n % 5];

/** Runs on the page before its scripts: notes when it has started, what each piece of the server takes, and how long
 * nothing else could be done. */
const watch = () => {
  const noted = { started: null, pieces: [], longest: 0 };
  window.noted = noted;
  new MutationObserver((_, observer) => {
    if (!document.querySelector('.place')) return;
    noted.started = performance.now();
    observer.disconnect();
  }).observe(document, { childList: true, subtree: true });
  const add = WebSocket.prototype.addEventListener;
  WebSocket.prototype.addEventListener = function timed(type, hear) {
    add.call(this, type, type !== 'message' ? hear : (event) => {
      const begun = performance.now();
      hear(event);
      document.body.getBoundingClientRect();
      noted.pieces.push(performance.now() - begun);
    });
  };
  let last = performance.now();
  setInterval(() => {
    const now = performance.now();
    noted.longest = Math.max(noted.longest, now - last);
    last = now;
  }, 5);
};

const middle = (list) => list[Math.floor(list.length / 2)];
const sorted = (list) => [...list].sort((a, b) => a - b);
const shown = (number) => (number < 10 ? number.toFixed(1) : number.toFixed(0));

const told = await teller();
const way = await relay(told.port);
const page = await Page.open(chromium);
await page.call('Page.addScriptToEvaluateOnNewDocument', { source: `(${watch})()` });

/** The bytes that the page fetches. */
const sizes = async () => {
  const files = [...new Set(page.requests.filter((url) => url.startsWith('http')))];
  const bodies = await Promise.all(files.map(async (url) => Buffer.from(await (await fetch(url)).arrayBuffer())));
  const sum = (list) => list.reduce((all, one) => all + one, 0);
  const packed = sum(bodies.map((body) => gzipSync(body, { level: 9 }).length));
  const wasm = bodies.find((_, n) => files[n].endsWith('/module.js'));
  console.log(`bytes fetched: ${sum(bodies.map((body) => body.length))} in ${files.length} files, `
    + `of them the module ${wasm.length}`);
  console.log(`the same by gzip: ${packed}, of them the module ${gzipSync(wasm, { level: 9 }).length}`);
};

const starts = [];
for (let n = 0; n < 7; n += 1) {
  await page.call('Page.navigate', { url: 'about:blank' });
  await page.go(way.line);
  starts.push(await page.ask('window.noted.started'));
}
await sizes();
console.log(`started: ${shown(middle(sorted(starts)))} ms, at most ${shown(Math.max(...starts))}`);

await logIn(page, way.line, 'ann');
await page.ask('window.noted.pieces.length = 0');
for (let n = 0; n < Number(boards); n += 1) {
  told.say(someBoard(n));
  await page.until(`window.noted.pieces.length > ${n}`);
}
const drawn = sorted(await page.ask('window.noted.pieces'));
const most = drawn[Math.floor(drawn.length * 0.9)];
console.log(`a board drawn: ${shown(middle(drawn))} ms, nine of ten within ${shown(most)}, at most `
  + `${shown(drawn.at(-1))}, of ${drawn.length}`);

told.say(boardOf('eve', { 24: 2, 13: 5, 8: 3, 6: 5 }, { 24: 2, 13: 5, 8: 3, 6: 5 }, [1, 6, 2, 0, 0, 1, 1, 1, 0]));
await page.until('document.querySelectorAll(".place.source").length === 4');
await page.ask('Object.assign(window.noted, { pieces: [], longest: 0 })');
const begun = performance.now();
told.say(...Array.from({ length: Number(lines) }, (_, n) => someLine(n)), '12 eve that was all');
await page.until('document.querySelector("#said").textContent.includes("that was all")');
const took = performance.now() - begun;
const { longest, pieces } = await page.ask('window.noted');
console.log(`${lines} lines: heard in ${shown(took)} ms, in ${pieces.length} pieces; a click waits `
  + `${shown(longest)} ms at most`);
await page.click('[data-place="24"]');
await page.until('document.querySelectorAll(".place.target").length > 0');
const kept = await page.ask('document.querySelector("#said").childElementCount');
console.log(`after it a click picks a checker, and the talk keeps ${kept} rows`);
console.log(page.errors.length ? page.errors : 'no error of a script');
await page.end();
await way.end();
told.end();
process.exit(0);
