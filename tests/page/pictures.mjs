// Makes the pictures of docs/page: pictures.mjs CHROMIUM [FOLDER [FORMAT]]. FORMAT is webp, or png to look at.

import { join } from 'node:path';
import { Page, ROOT, logIn, relay } from './browser.mjs';
import { boardOf, player, teller } from './teller.mjs';

const [chromium, folder = join(ROOT, 'docs', 'page'), format = 'webp'] = process.argv.slice(2);

const OWN = { 24: 1, 22: 1, 13: 4, 8: 3, 6: 5, 5: 1 };
const EVE = { 24: 2, 13: 5, 8: 2, 6: 4, 5: 2 };

const ROOM = [player('ann', 'eve', '1627.85', 341), player('eve', 'ann', '1631.20', 512),
  player('bob', '-', '1640.02', 96), player('dan', '-', '1588.71', 1204), player('zoe', '-', '1702.33', 871),
  player('liu', 'kim', '1555.10', 433), player('kim', 'liu', '1493.64', 58), player('max', '-', '1478.90', 12), '6'];

const SAID = ['** Player eve has joined you for a 5 point match.', '12 eve hello, good luck', '16 eve thanks, you too',
  '13 dan anyone for seven points?', '13 zoe in ten minutes', 'eve rolls 3 and 1.',
  boardOf('eve', OWN, { ...EVE, 8: 3, 6: 5, 5: 0 }, [-1, 0, 0, 3, 1, 1, 1, 1, 0]), 'eve moves 17-20 19-20 .'];

/** What is shown at a width: a checker that is picked, or a double that is asked. */
const SHOWN = { 1280: [800, 'turn'], 768: [1024, 'double'], 390: [844, 'turn'] };

const told = await teller();
const way = await relay(told.port);
const page = await Page.open(chromium);
await logIn(page, way.line, 'ann');
told.say(...ROOM, ...SAID);

const show = async (what) => {
  const [turn, double] = [[1, 6, 4, 0, 0, 1, 1, 1, 0], [-1, 0, 0, 0, 0, 1, 0, 1, 1]];
  told.say(boardOf('eve', OWN, EVE, what === 'turn' ? turn : double));
  if (what === 'turn') {
    await page.until('document.querySelectorAll(".place.source").length > 2');
    if (!(await page.ask('Boolean(document.querySelector(".place.target"))'))) await page.click('[data-place="24"]');
    await page.until('Boolean(document.querySelector(".place.target"))');
  } else {
    await page.until('document.querySelector(".notice")?.textContent.includes("doubles")');
    await page.settled();
  }
};

for (const [width, [height, what]] of Object.entries(SHOWN)) {
  await page.size(Number(width), height);
  await show(what);
  for (const isDark of [false, true]) {
    await page.size(Number(width), height, isDark);
    // the checkers have come to rest
    await page.ask('new Promise((resolve) => { setTimeout(resolve, 600); })');
    await page.ask('scrollTo(0, 0)');
    const name = `${width}-${isDark ? 'dark' : 'light'}.${format}`;
    await page.shot(join(folder, name), format === 'webp' ? 33 : undefined);
  }
}
console.log(page.errors.length ? page.errors : `6 pictures in ${folder}`);
await page.end();
await way.end();
told.end();
process.exit(page.errors.length ? 1 : 0);
