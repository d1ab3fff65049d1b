// Plays a match on the page as a person does, and counts:
//     play.mjs CHROMIUM BY [WORD=VALUE..] [-- OPTION OF THE SERVER..]
//
// BY is how: clicks, drags, keys (alone, the login too) or touch. Words: length (3 points), cuts (at each Nth decision
// or so the connection is cut, and half of those decisions never leave fibs-page), doubles, resigns (at each Nth turn),
// seconds, seed, width, height, invited (1: the other side invites), bot, shots (a folder for screenshots).
//
// The server must have heard each decision once, as it was made, but for those that never left. The last line is
// `ok: ..` or `WRONG: ..`.

import { Page, logIn, relay, server, sleep } from './browser.mjs';

const KINDS = ['roll', 'double', 'accept', 'reject', 'move', 'resign'];
const [chromium, by, ...rest] = process.argv.slice(2);
const dashes = rest.indexOf('--');
const words = Object.fromEntries((dashes < 0 ? rest : rest.slice(0, dashes)).map((word) => word.split('=')));
const options = dashes < 0 ? ['--bot', 'eve', '--bot-pause', '0'] : rest.slice(dashes + 1);
const { length = '3', bot = 'eve', shots } = words;
const isByKeys = by === 'keys';

let seed = Number(words.seed ?? 1);
const random = () => {
  seed = (seed * 1103515245 + 12345) % 2147483648;
  return seed / 2147483648;
};
const oneOf = (list) => list[Math.floor(random() * list.length)];

const game = await server(...options);
let way = await relay(game.line);
const port = new URL(way.line).port;
const page = await Page.open(chromium, Number(words.width ?? 1280), Number(words.height ?? 800));

/** What a person sees. */
const look = () => page.ask(`(() => {
  const places = (kind) => [...document.querySelectorAll('.place.' + kind)].map((one) => Number(one.dataset.place));
  const buttons = document.querySelectorAll('.notice:first-child button, #buttons button');
  return {
    notice: document.querySelector('.notice p')?.textContent ?? null,
    buttons: [...buttons].filter((one) => !one.disabled).map((one) => one.dataset.word),
    resigns: Boolean(document.querySelector('#resign:not([hidden])')),
    sources: places('source'), targets: places('target'),
    status: document.querySelector('#status').textContent,
    board: document.querySelector('#words').textContent,
  };
})()`);

const touch = (selector) => (by === 'touch' ? page.tap(selector) : page.click(selector));
let presses = 0;

const press = async (word, key) => {
  presses += 1;
  if (isByKeys) await page.key(key);
  else await touch(`[data-word=${JSON.stringify(word)}]`);
};

/** What was decided, and of it what never left fibs-page, in order. */
const made = [];
const left = [];
let resumes = 0;

/** The address is the same after a new fibs-page begins, but not its token: the page is given it as by a link. */
const beginAgain = async () => {
  await way.end();
  way = await relay(game.line, port);
  await page.ask(`location.hash = ${JSON.stringify(new URL(way.line).hash)}`);
};

const decide = async (kind, act) => {
  const before = await look();
  const isCut = words.cuts && made.length > 3 && random() < 1 / Number(words.cuts);
  const isStopped = isCut && random() < 0.5;
  if (isStopped) await way.stop();
  await act();
  made.push(kind);
  if (isStopped) left.push(kind);
  if (isCut) {
    await sleep(isStopped ? 60 : 0);
    await beginAgain();
    await page.until('document.querySelector(".notice.bad")');
    if (shots && resumes === 0) await page.shot(`${shots}/lost.png`);
    resumes += 1;
    await press(await page.ask('document.querySelector(".notice.bad button").dataset.word'), 'Enter');
    await page.until(`!document.querySelector('.notice.bad')
      && !document.querySelector('#notices').textContent.includes('Waiting')`);
    return;
  }
  const said = JSON.stringify([before.status, before.board, before.notice]);
  await page.until(`JSON.stringify([document.querySelector('#status').textContent,
    document.querySelector('#words').textContent, document.querySelector('.notice p')?.textContent ?? null])
    !== ${JSON.stringify(said)}`, 5000).catch(() => {});
};

const typeLine = async (line) => {
  await page.key('t');
  await page.insert(line);
  await page.key('Enter');
  await page.key('Escape');
};

const invite = async () => {
  if (isByKeys) {
    await typeLine(`/invite ${bot} ${length}`);
    return;
  }
  await page.ask(`document.querySelector('#points').value = ${JSON.stringify(length)}`);
  const row = `[...document.querySelectorAll('#players tr')].findIndex((one) => one.textContent.startsWith(
    ${JSON.stringify(bot)}) && one.querySelector('button:not(.link)'))`;
  await page.until(`${row} >= 0`);
  await page.click(`#players tr:nth-child(${await page.ask(row) + 1}) button:not(.link)`);
};

const resign = async () => {
  if (isByKeys) {
    await typeLine('/resign n');
    return;
  }
  await page.ask(`(() => {
    const one = document.querySelector('#resign');
    one.value = 'resign n';
    one.dispatchEvent(new Event('change'));
  })()`);
};

/** A checker of a place is picked, or played to a place that is lit. */
const play = async ({ sources, targets }) => {
  presses += 1;
  const place = oneOf(targets.length ? targets : sources);
  const selector = `.place[data-place="${place}"]`;
  if (isByKeys) {
    await page.keys(place === 25 ? 'b' : place === 0 ? 'o' : String(place));
    await page.key('Enter');
  } else if (by === 'drags' && !targets.length) {
    const [x, y] = await page.middle(selector);
    await page.mouse('mousePressed', [x, y]);
    await page.mouse('mouseMoved', [x + 20, y + 12]);
    const to = oneOf((await look()).targets);
    await page.mouse('mouseMoved', await page.middle(`.place[data-place="${to}"]`));
    await page.mouse('mouseReleased', await page.middle(`.place[data-place="${to}"]`));
  } else {
    await touch(selector);
  }
};

const faults = [];
let [matches, games, turns, rests] = [0, 0, 0, 0];

/** Answers what is asked. Returns whether the match is over. */
const answer = async (now) => {
  const named = (word) => now.buttons.find((one) => one.startsWith(word));
  if (/won the match/.test(now.notice)) {
    matches += 1;
    if (shots) await page.shot(`${shots}/won.png`);
    return true;
  }
  if (/is saved: it is over/.test(now.notice) && resumes) {
    // it ended while the connection was cut
    matches += 1;
    return true;
  }
  if (named('Next game')) {
    games += 1;
    await press('Next game', 'Enter');
  } else if (named('Take')) {
    if (random() < 0.75) await decide('accept', () => press('Take', 'Enter'));
    else await decide('reject', () => press('Pass', 'n'));
  } else if (named('Accept')) {
    if (random() < 0.5) await decide('accept', () => press('Accept', 'Enter'));
    else await decide('reject', () => press('Decline', 'n'));
  } else {
    const word = ['Join', 'Resume with', 'Connect'].map(named).find(Boolean);
    if (word) await press(word, 'Enter');
  }
  await sleep(40);
  return false;
};

const turn = async (now) => {
  const double = now.buttons.find((one) => one.startsWith('Double'));
  if (now.buttons.includes('Roll')) {
    turns += 1;
    if (shots && turns === 6) await page.shot(`${shots}/turn.png`);
    if (words.resigns && turns % Number(words.resigns) === 0 && now.resigns) await decide('resign', resign);
    else if (words.doubles && double && random() < 0.4) await decide('double', () => press(double, 'd'));
    else await decide('roll', () => press('Roll', 'Enter'));
  } else if (now.buttons.includes('Play')) {
    if (random() < 0.1) await press('Undo', 'Escape');
    else await decide('move', () => press('Play', 'Enter'));
  } else if (now.sources.length || now.targets.length) {
    await play(now);
  } else {
    rests += 1;
    await sleep(15);
    return;
  }
  rests = 0;
};

try {
  await logIn(page, way.line, 'ann', isByKeys);
  if (!words.invited) await invite();
  const end = Date.now() + Number(words.seconds ?? 120) * 1000;
  while (Date.now() < end && page.errors.length === 0 && rests < 1500) {
    const now = await look();
    if (now.notice === null) await turn(now);
    else if (await answer(now)) break;
  }
  if (rests >= 1500) faults.push(`it stands still: ${JSON.stringify(await look())}`);
} catch (error) {
  faults.push(String(error.stack));
}

const heard = game.errors.split('\n').filter((line) => line.startsWith('ann < ')).map((line) => line.slice(6))
  .map((line) => line.split(' ')[0]).filter((word) => KINDS.includes(word));
const count = (list, kind) => list.filter((one) => one === kind).length;
for (const kind of KINDS) {
  const [done, sent, lost] = [made, heard, left].map((list) => count(list, kind));
  if (sent > done - lost) faults.push(`${kind} was heard ${sent} times, of ${done} made and ${lost} never sent`);
}
// at most the last decision before a cut is missing
const missing = made.length - left.length - heard.length;
if (missing > resumes) faults.push(`${made.length} made, ${heard.length} heard`);
faults.push(...page.errors);
const outside = page.requests.filter((url) => !/^(?:http|ws):\/\/127\.0\.0\.1:|^(?:data|blob|about):/.test(url));
if (outside.length) faults.push(`requests leave the machine: ${outside}`);
if (isByKeys && page.presses) faults.push(`${page.presses} events of the mouse`);
if (matches === 0) faults.push('no match ended');
const told = `${matches} match, ${games} more games, ${made.length} decisions made, ${heard.length} heard, `
  + `${left.length} never sent, ${resumes} resumed, ${presses} pressed`;
console.log(faults.length ? `WRONG: ${told}: ${faults.join('\n')}` : `ok: ${told}`);
await page.end();
await way.end();
await game.end();
process.exit(faults.length ? 1 : 0);
