// What a board says beside its fields; and the rows of saved matches.

import assert from 'node:assert/strict';
import test from 'node:test';
import { read, savedMatch, words } from '../index.js';

const board = 'board:You:bob:1:0:0:0:-2:0:0:0:0:5:0:3:0:0:0:-5:5:0:0:0:-3:0:-5:0:0:0:0:2:0:1:6:2:0:0:1:1:1:0:1:-1:0:25'
  + ':0:0:0:0:2:0:0:0';

test('a board that is watched is as its player sees it', () => {
  const own = read(board);
  const watched = read(board.replace('You', 'ann'));
  assert.deepEqual(watched, { ...own, line: watched.line, player: 'ann', isOthers: true, noPosition: 'NotYou' });
  const tooMany = board.replace(':5:0:3:', ':6:0:3:');
  for (const [line, noPosition] of [[tooMany, 'TooManyOwn'], [tooMany.replace('You', 'ann'), 'NotYou']]) {
    const found = read(line);
    assert.deepEqual([found.noPosition, found.phase, found.checkers, found.pips], [noPosition, null, null, null]);
  }
});

test('a board says whose the cube is, and whether the game is that of the Crawford rule', () => {
  const cube = ':1:1:1:0:1:-1:';
  for (const [to, owner] of [[cube, 'middle'], [':2:1:0:0:1:-1:', 'player'], [':2:0:1:0:1:-1:', 'opponent'],
    [':1:0:0:0:1:-1:', 'nobody'], [':1:1:1:1:1:-1:', 'middle'], [':2:0:0:1:1:-1:', 'opponent']]) {
    assert.equal(read(board.replace(cube, to)).cubeOwner, owner, to);
  }
  const crawford = (length, own, other, flags) => (
    read(board.replace(':1:0:0:', `:${length}:${own}:${other}:`).replace(cube, flags)).crawford);
  for (const [scores, isCrawford] of [[[3, 2, 1], true], [[3, 0, 2], true], [[3, 2, 2], false], [[3, 1, 1], false],
    [[1, 0, 0], false], [[9999, 9998, 0], false]]) {
    assert.equal(crawford(...scores, ':1:0:0:0:1:-1:'), isCrawford, String(scores));
  }
  // after it the one who is behind may double
  assert.deepEqual([':1:0:1:0:1:-1:', ':1:0:0:1:1:-1:', ':2:0:0:0:1:-1:'].map((flags) => crawford(3, 2, 1, flags)),
    [false, false, false]);
});

test('a board is told in words, in own numbers', () => {
  const told = ['Your turn, to move.', 'Your dice 6 and 2.', 'Score 0 to 0, match to 1.', 'Cube 1, in the middle.',
    'You go down, from 24 to 1.', 'You, 167 pips: 2 on 24, 5 on 13, 3 on 8, 5 on 6, none off.',
    'bob, 167 pips: 2 on 1, 5 on 12, 3 on 17, 5 on 19, none off.', 'Held against you: 19, 17, 12, 1.',
    "Blots: yours none; bob's none."];
  assert.deepEqual(words(board), told);
  // the same for one who goes from 1 to 24, who plays X
  assert.deepEqual(words(board.replace(':1:6:2:', ':-1:6:2:').replace(':0:1:-1:0:25:', ':0:-1:1:25:0:')), told);
  const watched = words(board.replace('You', 'ann'));
  assert.deepEqual([watched.length, watched[0], watched[1]], [10, 'ann against bob.', 'ann to move.']);
  assert.throws(() => words('board:x'), { name: 'Missing' });
  assert.throws(() => words(board.replace(':5:0:3:', ':6:0:3:')), { name: 'TooManyOwn' });
});

test('a row of the saved matches is read', () => {
  for (const [text, wanted] of [
    [' *bob                 5                2 -  3', { name: 'bob', length: 5, score: [2, 3], isThere: true }],
    ['**bob                 5                2 -  3', { name: 'bob', length: 5, score: [2, 3], isThere: true }],
    ['  bob                 5                2 -  3', { name: 'bob', length: 5, score: [2, 3], isThere: false }],
    ['bob unlimited 12 - 0', { name: 'bob', length: null, score: [12, 0], isThere: false }],
    ['bob 9999 12 - 0', { name: 'bob', length: null, score: [12, 0], isThere: false }],
    ['  opponent          matchlength   score (your points first)', null], ['no saved games.', null], ['', null],
    ['bob 5 2 - 3 4', null], ['bob 5 2 3', null], ['bob 5 2 + 3', null], ['b:b 5 2 - 3', null], ['** 5 2 - 3', null],
    ['bob 5 02 - 3', null], ['bob 5 -2 - 3', null], ['bob 99999999999 2 - 3', null],
  ]) {
    assert.deepEqual(savedMatch(text), wanted, text);
  }
});
