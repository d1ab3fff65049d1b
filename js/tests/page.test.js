// What the page makes of the steps that the package allows.

import assert from 'node:assert/strict';
import test from 'node:test';
import { read } from '../index.js';
import { Turn, otherSaid, said } from '../page/game.js';
import { Match } from '../page/match.js';

/** A board on which the user has these checkers, the opponent two on his first place, and these dice. */
const lineOf = (own, dice) => {
  const places = Array.from({ length: 26 }, (_, place) => own[place] ?? (place === 24 ? -2 : 0));
  const off = 15 - Object.values(own).reduce((sum, count) => sum + count, 0);
  return `board:You:bob:3:0:0:${places.join(':')}:1:${dice.join(':')}:0:0:1:1:1:0:1:-1:0:25:${off}:13:0:0:0:0:0:0`;
};

const opening = 'board:You:bob:3:0:1:0:-2:0:0:0:0:5:0:3:0:0:0:-5:5:0:0:0:-3:0:-5:0:0:0:0:2:0:1:6:2:0:0:1:1:1:0:1:-1:0:25'
  + ':0:0:0:0:2:0:0:0';

const goals = (turn, from) => [...turn.targets(from)].map(([to, way]) => `${to}:${way.length}`).sort();

test('a checker that is picked goes by several dice at once', () => {
  const turn = new Turn(opening);
  assert.deepEqual(goals(turn, 24), ['16:2', '18:1', '22:1']);
  turn.take(turn.targets(24).get(16));
  assert.equal(turn.now.command, 'move 24-22 22-16');
  assert.equal(turn.now.next.length, 0);
  turn.undo();
  assert.deepEqual([turn.steps.length, turn.now.command], [1, null]);
  assert.deepEqual(goals(new Turn(lineOf({ 13: 2 }, [2, 2])), 13), ['11:1', '5:4', '7:3', '9:2']);
});

test('it does so only if one arrangement follows', () => {
  // by way of 11 a blot is hit, by way of 9 none
  const blot = lineOf({ 13: 2 }, [4, 2]).split(':');
  [blot[6 + 11], blot[6 + 24]] = [-1, -1];
  assert.deepEqual(goals(new Turn(blot.join(':')), 13), ['11:1', '9:1']);
});

test('a second click plays the larger die', () => {
  assert.equal(new Turn(opening).stepFrom(24).die, 6);
  assert.equal(new Turn(opening).stepFrom(3), undefined);
});

test('places are said in the numbers of the user', () => {
  assert.equal(said([{ from: 25, to: 22 }, { from: 3, to: 0 }]), 'bar/22 3/off');
  assert.equal(otherSaid([[25, 22], [3, 0]]), 'bar/3 22/off');
});

test('a match knows what is asked, and forgets it', () => {
  const match = new Match();
  match.learn({ event: 'invited', name: 'eve', length: null }, null);
  assert.deepEqual([...match.invitations], [['eve', 'unlimited']]);
  match.learn({ event: 'joined', name: 'eve', length: null }, null);
  assert.deepEqual([match.opponent, match.invitations.size], ['eve', 0]);
  match.learn({ event: 'offeredToResign', who: 'opponent', points: 1 }, null);
  match.learn({ event: 'declined', who: 'player' }, null);
  assert.equal(match.offer, null);
  match.learn({ event: 'refused', text: '** You can\'t double' }, 'double');
  assert.equal(match.declined, 'double');
  match.see(read(opening), false);
  assert.equal(match.declined, null);
  match.resume('eve');
  assert.equal(match.learn({ event: 'notPlaying' }, null), 'invite eve');
  assert.equal(match.learn({ event: 'invitedToResume', name: 'eve' }, null), 'join eve');
  match.learn({ event: 'nothingSaved', name: 'eve' }, null);
  assert.deepEqual([match.resumes, match.over.event], [null, 'nothingSaved']);
  // a game that ended while one was away leaves the next one to be joined, by a board or a text
  match.learn({ event: 'resumed', name: 'eve' }, null);
  const over = read(opening.replace(/:3:0:1:/, ':3:1:1:'));
  match.see({ ...over, phase: 'Over', matchOver: false }, false);
  match.learn({ event: 'nextGame' }, null);
  assert.deepEqual(match.next, {});
  match.see(read(opening), false);
  assert.equal(match.next, null);
  // the answer to what was typed asks nothing
  match.over = null;
  match.learn({ event: 'nothingSaved', name: 'eve' }, null);
  assert.equal(match.over, null);
});
