// Match files of a session that is worked out by hand. tests/javascript compares those of whole matches with what
// scripts/fibs-mat makes.

import assert from 'node:assert/strict';
import test from 'node:test';
import { MatchFiles } from '../index.js';

/** The boards of a game to 3 points: ann has rolled 6 and 3; she has played 24/18 13/10; and after a roll of 4 and 2
 * eve has played 13/9 8/6. */
const begun = 'board:You:eve:3:0:0:0:-2:0:0:0:0:5:0:3:0:0:0:-5:5:0:0:0:-3:0:-5:0:0:0:0:2:0:1:6:3:0:0:1:1:1:0:1:-1:0:25'
  + ':0:0:0:0:2:0:0:0';
const played = 'board:You:eve:3:0:0:0:-2:0:0:0:0:5:0:3:0:1:0:-5:4:0:0:0:-3:1:-5:0:0:0:0:1:0:-1:0:0:0:0:1:1:1:0:1:-1:0'
  + ':25:0:0:0:0:0:0:0:0';
const answered = 'board:You:eve:3:0:0:0:-2:0:0:0:0:5:0:3:0:1:0:-4:4:0:0:-1:-2:1:-6:0:0:0:0:1:0:1:0:0:0:0:1:1:1:0:1:-1:0'
  + ':25:0:0:0:0:0:0:0:0';
/** Eve doubles; ann has taken; of a board that a cube of ann's at 2 is on; the score is 0 to 2. */
const doubled = played.replace(':1:1:1:0:1:-1:', ':1:1:1:1:1:-1:');
const taken = (board) => board.replace(':1:1:1:0:1:-1:', ':2:1:0:0:1:-1:');
const later = (board) => board.replace(':3:0:0:', ':3:0:2:');
const rolled = (board) => board.replace(':-1:0:0:0:0:', ':-1:0:0:4:2:');

const heard = (lines, name = 'ann') => {
  const made = new MatchFiles(name);
  for (const line of lines) made.hear(line);
  return made;
};

const GAME = ['1 ann 1041253132 localhost', '** Player eve has joined you for a 3 point match.', begun,
  'You move 24-18 13-10.', played, 'eve doubles. Type \'accept\' or \'reject\'.', doubled, taken(played),
  'eve rolls 4 and 2.', rolled(taken(played)), taken(answered), 'eve wins the game and gets 2 points. Sorry.',
  later(taken(answered)).replace(':1:0:0:0:0:2:', ':0:0:0:0:0:2:')];

// a connection that was lost hides ann's play, and eve's roll and play
const SECOND = [later(begun), '1 ann 1041253132 localhost', later(answered)];

const WANTED = [
  ' 3 point match', '',
  ' Game 1',
  ' ann : 0                        eve : 0',
  '  1) 63: 24/18 13/10              Doubles => 2',
  '  2)  Takes                      42: 13/9 8/6',
  '                                  Wins 2 points', '',
  ' Game 2',
  ' ann : 0                        eve : 2',
  '  1) 63: 24/18 13/10             42: 13/9 8/6', '', ''];

test('a session becomes a file for each match', () => {
  const made = heard([...GAME, ...SECOND], 'nobody');
  assert.deepEqual(made.files, [{ opponent: 'eve', text: WANTED.join('\n') }]);
  // an unlimited match with bob begins, and that with eve goes on
  const withBob = begun.replace(':eve:3:', ':bob:9999:');
  for (const line of [withBob, later(answered)]) made.hear(line);
  assert.deepEqual(made.files.map(({ opponent }) => opponent), ['eve', 'bob']);
  assert.deepEqual(made.files[1].text.split('\n'), [' 0 point match', '', ' Game 1',
    ' ann : 0                        bob : 0', '', '']);
  made.close();
  assert.throws(() => made.hear(begun), { name: 'Closed' });
});

test('what is not of the own game is left out', () => {
  const watched = [played, answered].map((board) => board.replace('You', 'joe'));
  assert.deepEqual(heard(['7 bob bob logs in.', 'hello', '>> roll', ...watched, 'joe doubles.']).files, []);
  // of a game whose beginning is missing nothing is told
  const late = 'board:You:eve:3:0:0:0:5:5:5:0:0:0:0:0:0:0:0:0:0:0:0:0:0:0:-5:-5:-5:0:0:0:0:0:0:1:0:0:0:0:1:1:1:0:1:-1'
    + ':0:25:0:0:0:0:0:0:0:0';
  assert.deepEqual(heard([late, 'eve wins the game and gets 1 point. Sorry.']).files, []);
  const lines = [...GAME.slice(0, 5), ...watched, ...GAME.slice(5)];
  assert.equal(heard(lines).files[0].text, `${WANTED.slice(0, 8).join('\n')}\n`);
});

test('a double that is not answered is given up', () => {
  const won = played.replace(':3:0:0:', ':3:0:1:').replace(':-1:0:0:0:0:', ':0:0:0:0:0:');
  const [file] = heard([begun, played, 'eve doubles. Type \'accept\' or \'reject\'.', doubled,
    'eve wins the game and gets 1 point. Sorry.', won]).files;
  assert.deepEqual(file.text.split('\n').slice(4, 8), [
    '  1) 63: 24/18 13/10              Doubles => 2', `  2)  Drops${' '.repeat(22)}`,
    '                                  Wins 1 point', '']);
});
