// What the page says and asks when something happens: scenes.mjs CHROMIUM [SHOTS [SCENE]]. A line for each that is
// right or wrong, and last 'N passed, M failed'. SHOTS is a folder for pictures, SCENE the name of one scene.

import { existsSync, mkdtempSync, readFileSync, rmSync } from 'node:fs';
import { connect } from 'node:net';
import { tmpdir } from 'node:os';
import { join } from 'node:path';
import { wrongOf } from './access.mjs';
import { Page, logIn, relay, server, sleep } from './browser.mjs';

const [chromium, shots, only] = process.argv.slice(2);
let [passed, failed] = [0, 0];

const check = (what, isRight) => {
  console.log(`${isRight ? 'ok     ' : 'FAILED '} ${what}`);
  if (isRight) passed += 1;
  else failed += 1;
};

const text = (page, selector) => page.ask(`document.querySelector(${JSON.stringify(selector)})?.innerText ?? ''`);
const has = (selector) => `Boolean(document.querySelector(${JSON.stringify(selector)}))`;
const shot = (page, name) => (shots ? page.shot(`${shots}/${name}.png`) : null);
const button = (word) => `[data-word=${JSON.stringify(word)}]:enabled`;

/** Says a line, as a person types it. */
const say = async (page, line) => {
  await page.click('#text');
  await page.insert(line);
  await page.key('Enter');
};

/** Waits until something is so. */
const until = async (what, isSo) => {
  for (const end = Date.now() + 30000; !isSo();) {
    if (Date.now() > end) throw new Error(`never: ${what}`);
    await sleep(10);
  }
};

/** Waits until the server has heard a line. */
const heard = (game, line) => until(line, () => game.errors.includes(line));

/** Waits for a file that is saved, and reads it. */
const saved = async (file) => {
  await until(file, () => existsSync(file));
  return readFileSync(file, 'latin1');
};

const checkAccess = async (page, where, ...size) => {
  const wrong = await wrongOf(page, ...size);
  check(`${where} can be used by all ${wrong.join('; ')}`, wrong.length === 0);
};

/** Runs on the page: presses Enter as soon as an offer to resign is asked, and says whether it then still is. */
const enterAtOnce = () => new Promise((resolve) => {
  const isAsked = () => document.querySelector('[data-word="Decline"]') !== null;
  new MutationObserver((_, observer) => {
    if (!isAsked()) return;
    observer.disconnect();
    document.body.dispatchEvent(new KeyboardEvent('keydown', { key: 'Enter', bubbles: true }));
    resolve(isAsked());
  }).observe(document.body, { childList: true, subtree: true });
});

/** Plays a whole turn by clicks, from the roll on: each time the first place that is lit. */
const playTurn = async (page) => {
  const ways = [button('Play'), '.place.target', '.place.source', '.rolls:not([hidden])'];
  for (let found = null; found !== ways[0];) {
    await page.until(`${JSON.stringify(ways)}.some((one) => document.querySelector(one))`);
    found = await page.ask(`${JSON.stringify(ways)}.find((one) => document.querySelector(one)) ?? null`);
    await page.click(found);
    await sleep(60);
  }
};

/** The match that bob has left is listed, and ann resumes it. */
const resumeSaved = async (ann, bob) => {
  await ann.click(button('Close'));
  await ann.click('#list');
  await ann.until('document.querySelector("#saved").textContent.includes("0-0")');
  check('a saved match is listed', (await text(ann, '#saved')).replace(/\s+/g, ' ').trim() === 'bob to 5 0-0 Resume');
  await checkAccess(ann, 'the list of saved matches');
  await ann.click('#saved button');
  await bob.until(has(button('Join')));
  await bob.click(button('Join'));
  await bob.until(has(button('Roll')));
  await ann.until(`!${has('#saved tr')}`);
  check('a click resumes it', (await text(ann, '#other .name')) === 'bob');
};

/** Saves the session and its match, and shows the session again. */
const saveAndReplay = async (page) => {
  const folder = mkdtempSync(join(tmpdir(), 'saved-'));
  await page.saves(folder);
  await page.click('#matches');
  const match = await saved(join(folder, 'bob-1.mat'));
  check('a match file has the match', /^ 5 point match\r?\n/m.test(match) && /ann : 0 +bob : 0/.test(match));
  await page.click('#save');
  const log = await saved(join(folder, 'fibs.log'));
  check('a saved session has no password', log.includes('\n>> roll\n') && !log.includes('secret'));
  await page.choose('#file', join(folder, 'fibs.log'));
  await page.until(`!document.querySelector('#replay').hidden`);
  rmSync(join(folder, 'bob-1.mat'));
  await page.click('#next');
  await checkAccess(page, 'a replay');
  const boards = Number(await page.ask('document.querySelector("#slider").max'));
  check('a saved session is shown, board by board', boards > 5 && (await text(page, '#place')).startsWith('2 of'));
  await page.click('#matches');
  check('its match is saved too', (await saved(join(folder, 'bob-1.mat'))) === match);
  await page.click('#live');
  check('then the game goes on', (await text(page, '#status')).startsWith("The opponent's turn."));
  rmSync(folder, { recursive: true });
};

/** One who watches. */
const watching = async () => {
  const game = await server('--bot', 'eve', '--bot-pause', '0');
  const way = await relay(game.line);
  const bob = connect(Number(game.line), '127.0.0.1');
  bob.on('data', () => {});
  bob.write('login test 1008 bob secret\r\nset boardstyle 3\r\ninvite eve 3\r\n');
  await heard(game, 'eve < join bob');
  const page = await Page.open(chromium, 390, 844);
  await page.go(way.line);
  await checkAccess(page, 'the form of the login', 390, 844);
  await logIn(page, way.line, 'ann');
  await page.click('#ready');
  await page.until(`document.querySelector('#players').textContent.includes('Watch')`);
  await page.click('#players button:not(.link)');
  await page.until('document.querySelector("#status").textContent.startsWith("You watch")');
  const checkers = await page.ask('document.querySelectorAll(".checker:not([style*=none])").length');
  check('a board that one watches has its checkers', checkers === 30);
  const labels = await page.ask('[...document.querySelectorAll(".place")].map((one) => one.ariaLabel).join()');
  check('its places have the names of those who play', /of bob.*of eve|of eve.*of bob/.test(labels)
    && !labels.includes('yours'));
  check('one decides nothing there', (await text(page, '#buttons')) === 'Stop watching');
  await shot(page, 'watching');
  await page.click(button('Stop watching'));
  await page.until(`document.querySelector('#status').textContent.startsWith('Invite a player')`);
  check('one stops watching', page.errors.length === 0);
  bob.destroy();
  await page.end();
  await way.end();
  await game.end();
};

/** Two players against each other. */
const twoPlayers = async () => {
  const game = await server('--seed', '5', '--dice', '31,42');
  let way = await relay(game.line);
  const [ann, bob] = await Promise.all([Page.open(chromium), Page.open(chromium, 768, 1024)]);
  await logIn(ann, way.line, 'ann');
  await logIn(bob, way.line, 'bob');
  await ann.until(`[...document.querySelectorAll('#players tr')].some((one) => one.textContent.startsWith('bob'))`);
  await ann.ask('document.querySelector("#points").value = "5"');
  // the press of a click is on a button, and its release too, though others come in between
  const at = await ann.middle('#players tr:nth-child(1) button:not(.link)');
  await ann.mouse('mousePressed', at);
  const eve = connect(Number(game.line), '127.0.0.1');
  eve.on('data', () => {});
  eve.write('login test 1008 eve secret\r\n');
  await ann.until('document.querySelector("#players").textContent.includes("eve")');
  await ann.mouse('mouseReleased', at);
  await bob.until(has(button('Join')));
  const invitation = await text(bob, '.notice p');
  check('an invitation says who invites, to how much', /^ann .*invites you to 5 points\.$/.test(invitation));
  await bob.click(button('Join'));
  await ann.until(has('.place.source'));

  await say(bob, 'hello & <b>welcome</b>');
  await ann.until('document.querySelector("#said").textContent.includes("<b>welcome</b>")');
  check('what others say never becomes markup', !(await ann.ask(has('#said p b b'))));

  await playTurn(ann);
  await bob.until(has(button('Roll')));
  const arrows = await bob.ask('document.querySelectorAll(".arrows path").length');
  check('the last play of the opponent is shown by arrows', arrows === 2);
  await shot(bob, 'last-move');
  await playTurn(bob);
  await ann.until(has(button('Roll')));

  const isStillAsked = bob.ask(`(${enterAtOnce})()`);
  await ann.ask(`(() => {
    const one = document.querySelector('#resign');
    one.value = 'resign g';
    one.dispatchEvent(new Event('change'));
  })()`);
  await bob.until(has(button('Decline')));
  check('an offer to resign says what it is worth', (await text(bob, '.notice p')).includes('win 2 points'));
  check('Enter at once does not accept it', await isStillAsked);
  await shot(bob, 'resignation');
  await bob.click(button('Decline'));
  await ann.until(has(button('Roll')));
  await ann.click(button('Roll'));
  await ann.until(`${has('.place.source')} || document.querySelector('#status').textContent.includes('opponent')`);
  check('after an offer that was declined one rolls', true);
  await playTurn(ann);
  await bob.until(has(button('Double to 2')));
  await bob.click(button('Double to 2'));
  await ann.until(has(button('Take')));
  await shot(ann, 'double');
  check('one does not double twice', !(await bob.ask(has('[data-word^=Double]'))));
  await ann.click(button('Take'));
  await bob.until(has(button('Roll')));
  check('who has doubled may not again', !(await bob.ask(has('[data-word^=Double]'))));

  await way.end();
  await ann.until(has('.notice.bad'));
  await bob.until(has('.notice.bad'));
  await shot(ann, 'lost');
  await ann.ask('document.querySelector(".notice.bad").dataset.old = ""');
  await ann.click('.notice.bad button');
  await ann.until(has('.notice.bad:not([data-old])'));
  check('a click does not help while fibs-page is away', true);
  way = await relay(game.line, new URL(way.line).port);
  for (const page of [ann, bob]) {
    await page.ask(`location.hash = ${JSON.stringify(new URL(way.line).hash)}`);
    await page.click('.notice.bad button');
    await page.until('document.querySelector("#state").textContent.includes("logged in")');
  }
  await bob.until(has(button('Roll')));
  check('one click each resumes the match', true);
  await checkAccess(bob, 'the game', 768, 1024);
  await say(bob, '/leave');
  await ann.until('document.querySelector(".notice p")?.innerText === "bob has left: the match is saved."');
  check('it is said who has left', true);
  await resumeSaved(ann, bob);
  await saveAndReplay(ann);
  check('no error of a script', ann.errors.length + bob.errors.length === 0);
  eve.destroy();
  for (const page of [ann, bob]) await page.end();
  await way.end();
  await game.end();
};

/** What else may be met at a server. */
const alone = async () => {
  const game = await server('--bot', 'eve', '--bot', 'dan', '--account', 'ann:secret', '--account', 'zoe:secret',
    '--set', 'zoe:automove=1');
  const way = await relay(game.line);
  const page = await Page.open(chromium);
  const tryLogin = async (name, password) => {
    await page.ask(`document.querySelector('#name').value = ${JSON.stringify(name)};
      document.querySelector('#password').value = ${JSON.stringify(password)};
      document.querySelector('#login').requestSubmit()`);
  };
  await page.go(way.line);
  await tryLogin('an n', 'secret');
  await page.until('document.querySelector("#why").textContent.length > 0');
  check('a name that can be none is refused', (await text(page, '#why')).startsWith("This can't be a name"));
  await tryLogin('ann', 'wrong');
  await page.until('document.querySelector("#why").textContent.startsWith("The server does not know")');
  check('a wrong password asks again', await page.ask('document.activeElement.id === "password"'));
  await tryLogin('zoe', 'secret');
  await page.until(has('.notice.bad'));
  check('automove is said, with what to do', (await text(page, '.notice')).includes('logged in with automove on'));
  await page.click('.notice.bad button');
  await until('zoe logs in again', () => game.errors.split('zoe = logs in').length > 2);
  await page.until(`document.querySelector('#state').textContent.includes('logged in')
    && !document.querySelector('.notice')`);
  check('one click turns it off', game.errors.includes('zoe < toggle automove'));
  await checkAccess(page, 'the page before a game');
  await game.end();
  await page.until(has('.notice.bad'));
  check('the end of the server is said', /server has ended|connection .* broke/.test(await text(page, '.notice p')));
  await page.click('.notice.bad button');
  await page.until('document.querySelector(".notice p")?.textContent.startsWith("There is no connection to")');
  check('no server is said', true);
  check('no error of a script', page.errors.length === 0);
  await page.end();
  await way.end();
};

for (const scene of [twoPlayers, alone, watching].filter(({ name }) => name === (only ?? name))) {
  try {
    await scene();
  } catch (error) {
    check(`${scene.name}: ${error.stack.slice(0, 1500)}`, false);
  }
}
console.log(`${passed} passed, ${failed} failed`);
process.exit(failed ? 1 : 0);
