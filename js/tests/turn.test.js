// A turn step by step: what may follow is what the rules of backgammon allow, by worked positions, and by a plain
// search on random boards; and what is said of a play is in the player's own numbers.

import assert from 'node:assert/strict';
import test from 'node:test';
import { inOwn, plays, read, turn } from '../index.js';

const [BAR, OFF] = [25, 0];

/** A board on which the user is to move: the checkers of each side by its own places, in a direction and a colour. */
const lineOf = (own, other, dice, direction = -1, colour = 1) => {
  const places = Array(26).fill(0);
  const place = (at) => (direction < 0 ? at : 25 - at);
  for (let at = 1; at <= BAR; at += 1) {
    places[place(at)] += colour * (own[at] ?? 0);
    places[place(25 - at)] -= colour * (other[at] ?? 0);
  }
  const off = [own, other].map((side) => 15 - Object.entries(side).reduce((sum, [at, n]) => sum + (at > 0 ? n : 0), 0));
  return ['board:You:bob:3:0:0', ...places, colour, ...dice, 0, 0, 1, 1, 1, 0, colour, direction,
    ...(direction < 0 ? [0, 25] : [25, 0]), ...off, own[BAR] ?? 0, other[BAR] ?? 0, 0, 0, 0, 0].join(':');
};

const said = ({ from, to, hits }) => `${from === BAR ? 'bar' : from}/${to === OFF ? 'off' : to}${hits ? '*' : ''}`;

const stepOf = (text) => {
  const [from, to] = text.replace('*', '').split('/').map((end) => ({ bar: BAR, off: OFF })[end] ?? Number(end));
  return { from, to };
};

const stepsOf = (text) => text.split(' ').filter(Boolean).map(stepOf);

// The user's checkers, the opponent's by his own places, the dice; steps, and what may follow them: by the rules.
const WORKED = [
  ['either die can be played and not both: the larger', { 24: 1 }, { 12: 2 }, [6, 5], { '': '24/18', '24/18': '' }],
  ['both have to be played: the smaller first', { 24: 1 }, { 7: 2 }, [6, 5], { '': '24/19', '24/19': '19/13' }],
  ['a hit in one order alone', { 24: 1 }, { 7: 1, 23: 2 }, [6, 5], {
    '': '24/19 24/18*', '24/18': '18/13', '24/19': '19/13' }],
  ['a checker on the bar enters first', { 25: 1, 8: 1 }, {}, [2, 1], { '': 'bar/24 bar/23', 'bar/24': '24/22 8/6' }],
  ['one of two enters', { 25: 2, 6: 13 }, { 1: 2 }, [3, 1], { '': 'bar/22', 'bar/22': '' }],
  ['the highest goes off by either larger die', { 3: 1, 2: 1 }, { 12: 2 }, [6, 5], {
    '': '3/off 3/off', '3/off': '2/off' }],
  ['not off by one die if both can be played', { 2: 1 }, { 1: 2 }, [2, 1], { '': '2/1', '2/1': '1/off' }],
  ['not the lower one while a checker is higher', { 6: 1, 2: 1 }, { 1: 2 }, [5, 4], {
    '': '6/2 6/1', '6/2': '2/off', '6/1': '2/off' }],
  ['three of four', { 20: 1 }, { 17: 2 }, [3, 3], {
    '': '20/17', '20/17': '17/14', '20/17 17/14': '14/11', '20/17 17/14 14/11': '' }],
];

test('what may follow is what the rules allow', () => {
  for (const [what, own, other, dice, rows] of WORKED) {
    for (const [direction, colour] of [[-1, 1], [-1, -1], [1, 1], [1, -1]]) {
      const line = lineOf(own, other, dice, direction, colour);
      for (const [steps, wanted] of Object.entries(rows)) {
        const found = turn(line, stepsOf(steps));
        assert.equal(found.next.map(said).join(' '), wanted, `${what}: after '${steps}'`);
        assert.equal(found.command === null, wanted !== '', `${what}: after '${steps}'`);
      }
    }
  }
});

const opening = lineOf({ 24: 2, 13: 5, 8: 3, 6: 5 }, { 24: 2, 13: 5, 8: 3, 6: 5 }, [6, 2]);

test('a turn has the checkers, the dice that are left, and the command of the list', () => {
  const begun = turn(opening, []);
  assert.deepEqual([begun.checkers, begun.dice, begun.command], [read(opening).checkers, [2, 6], null]);
  assert.deepEqual(begun.next[0], { from: 24, to: 22, die: 2, hits: false });
  const half = turn(opening, [{ from: 24, to: 18, die: 6 }]);
  assert.deepEqual([half.dice, half.command], [[2], null]);
  const whole = turn(opening, stepsOf('24/18 18/16'));
  assert.deepEqual([whole.dice, whole.next, whole.command], [[], [], 'move 24-22 22-16']);
  assert.deepEqual([whole.checkers[0][24], whole.checkers[0][16]], [1, 1]);
  const hit = turn(lineOf({ 24: 1 }, { 7: 1, 23: 2 }, [6, 5]), stepsOf('24/18 18/13'));
  assert.deepEqual([hit.checkers[1][7], hit.checkers[1][BAR]], [0, 1]);
  assert.deepEqual(turn(lineOf({ 20: 1 }, { 17: 2 }, [3, 3]), []).dice, [3, 3, 3, 3]);
  // one die or the other
  const home = lineOf({ 3: 1, 2: 1 }, { 12: 2 }, [6, 5]);
  assert.deepEqual([undefined, 5, 6].map((die) => turn(home, [{ from: 3, to: 0, die }]).dice), [[6], [6], [5]]);
});

test('what goes on to no legal play is refused', () => {
  for (const steps of ['24/19', '24/18 24/18', '24/22 22/20', '24/16', '24/24', '6/8', '24/18 18/16 6/4', 'bar/24']) {
    assert.throws(() => turn(opening, stepsOf(steps)), { name: 'IllegalPlay' }, steps);
  }
  for (const step of [{ from: 24, to: 18, die: 2 }, { from: 24, to: 18, die: 1.5 }, { from: 24, to: -1 },
    { from: 999, to: 1 }, {}, { from: '24', to: null }]) {
    assert.throws(() => turn(opening, [step]), { name: 'IllegalPlay' }, JSON.stringify(step));
  }
  for (const [line, name] of [[opening.replace(':1:6:2:0:0:', ':1:0:0:0:0:'), 'WrongKind'],
    [opening.replace(':1:6:2:0:0:', ':-1:0:0:6:2:'), 'NotYours'], [opening.replace('You', 'ann'), 'NotYou'],
    [lineOf({ 25: 1 }, { 6: 2, 5: 2, 4: 2, 3: 2, 2: 2, 1: 2 }, [6, 2]), 'NotYours'], ['board:x', 'Missing']]) {
    assert.throws(() => turn(line, []), { name }, line);
  }
});

test('the steps of a command are in own numbers', () => {
  const up = lineOf({ 24: 2, 13: 5, 8: 3, 6: 5 }, {}, [6, 2], 1, -1);
  assert.deepEqual(inOwn(opening, 'move 24-22 24-18'), [{ from: 24, to: 22 }, { from: 24, to: 18 }]);
  assert.deepEqual(inOwn(up, plays(up)[0]), [{ from: 24, to: 22 }, { from: 24, to: 18 }]);
  assert.equal(plays(up)[0], 'move 1-3 1-7');
  assert.deepEqual(inOwn(up, 'move bar-4 22-off'), [{ from: 25, to: 21 }, { from: 3, to: 0 }]);
  assert.deepEqual(inOwn(opening, 'roll'), []);
  assert.throws(() => inOwn(opening, 'dance'), { name: 'NotADecision' });
});

// -- a plain search by the rules, on random boards --

/** The position after a step. */
const after = ([own, other], { from, to }) => {
  const [mine, theirs] = [[...own], [...other]];
  mine[from] -= 1;
  mine[to] += 1;
  if (to !== OFF && theirs[25 - to] === 1) {
    theirs[25 - to] = 0;
    theirs[BAR] += 1;
  }
  return [mine, theirs];
};

const without = (dice, die) => dice.filter((_, at) => at !== dice.indexOf(die));

/** Each step of one checker by one die. */
const single = ([own, other], dice) => {
  const found = [];
  const hindmost = own.findLastIndex((count) => count > 0);
  for (let from = BAR; from > OFF; from -= 1) {
    for (const die of [...new Set(dice)]) {
      const to = Math.max(from - die, OFF);
      const isAway = to > OFF ? other[25 - to] < 2 : hindmost <= 6 && (from === die || from === hindmost);
      if (own[from] > 0 && (from === BAR || own[BAR] === 0) && isAway) {
        found.push({ from, to, die, hits: to > OFF && other[25 - to] === 1 });
      }
    }
  }
  return found;
};

/** How many dice can be played. */
const longest = (position, dice) => Math.max(0, ...single(position, dice).map((step) => (
  1 + longest(after(position, step), without(dice, step.die)))));

/** The steps that go on to a play of so many further steps; the first and only one by the larger die if that can be. */
const following = (position, dice, left) => {
  const found = single(position, dice).filter((step) => (
    1 + longest(after(position, step), without(dice, step.die)) === left));
  const larger = found.filter((step) => step.die === Math.max(...dice));
  if (left > 1 || new Set(dice).size < 2 || dice.length > 2 || larger.length === 0) return found;
  return found.filter((step) => larger.some(({ from, to }) => from === step.from && to === step.to));
};

let seed = 5;
const random = (below) => {
  seed = (seed * 1103515245 + 12345) % 2147483648;
  return Math.floor((seed / 2147483648) * below);
};

/** A board on which the user is to move: anywhere, or all at home; in either direction and colour. */
const someBoard = () => {
  const isRace = random(3) === 0;
  const [own, other] = [Array(26).fill(0), Array(26).fill(0)];
  for (let n = isRace ? random(14) : 0; n < 15; n += 1) own[isRace ? 1 + random(6) : 1 + random(25)] += 1;
  for (let n = isRace ? random(10) : 0; n < 15;) {
    const at = isRace ? 1 + random(6) : 1 + random(24);
    if (own[25 - at] === 0) {
      other[at] += 1;
      n += 1;
    }
  }
  const dice = [1 + random(6), 1 + random(6)];
  return { own, other, dice, line: lineOf(own, other, dice, random(2) ? 1 : -1, random(2) ? 1 : -1) };
};

/** How many states are looked at on one board: after doubles there may be some thousands. */
const MOST_STATES = 60;

/** Looks at what each order of the steps that are offered leads to. */
const explore = (line, start, dice, listed) => {
  const most = longest(start, dice);
  const [seen, reached] = [new Set(), new Set()];
  const look = (steps, position, left) => {
    const key = `${position}:${left}`;
    if (seen.has(key) || seen.size >= MOST_STATES) return;
    seen.add(key);
    const [found, what] = [turn(line, steps), `${line} after ${steps.map(said)}`];
    const byPlace = (one, other) => other.from - one.from || one.die - other.die;
    const wanted = steps.length === most ? [] : following(position, left, most - steps.length).sort(byPlace);
    assert.deepEqual(found.next, wanted, what);
    assert.deepEqual([found.checkers, [...found.dice].sort()], [position, [...left].sort()], what);
    assert.equal(found.command, steps.length === most ? listed.get(String(position)) : null, what);
    if (found.command !== null) reached.add(found.command);
    for (const step of found.next) look([...steps, step], after(position, step), without(left, step.die));
  };
  look([], start, dice);
  return { reached, isWhole: seen.size < MOST_STATES };
};

test('each order of steps that reaches a listed play is offered, and nothing else', () => {
  let [boards, ways, whole] = [0, 0, 0];
  while (boards < 300) {
    const { own, other, dice, line } = someBoard();
    const board = read(line);
    if (board.phase !== 'Move') continue;
    boards += 1;
    const start = board.checkers;
    assert.deepEqual([start[0].slice(1), start[1].slice(1)], [own.slice(1), other.slice(1)]);
    const commands = plays(line);
    const listed = new Map(commands.map((command) => [String(inOwn(line, command).reduce(after, start)), command]));
    assert.equal(listed.size, commands.length, line);
    const found = explore(line, start, dice[0] === dice[1] ? Array(4).fill(dice[0]) : dice, listed);
    if (found.isWhole) {
      assert.deepEqual([...found.reached].sort(), commands.sort(), line);
      whole += 1;
    }
    ways += found.reached.size;
  }
  assert.ok(ways > 2000 && whole > 200, `${ways} ${whole}`);
});
