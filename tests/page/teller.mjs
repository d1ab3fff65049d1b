// A server that says what a test gives it, line by line, and lines that it may say.

import { createServer } from 'node:net';

/** What a server says to a player of this name who has logged in. */
export const greeting = (name) => [`1 ${name} 1041253132 localhost`,
  `2 ${name} 1 1 0 0 0 0 1 1 341 0 1 0 1 1627.85 0 0 3 0 0 UTC`, '3', 'Good luck.', '4'];

/** A player in its list: the opponent is `-` if there is none. */
export const player = (name, opponent, rating, experience) => (
  `5 ${name} ${opponent} - ${opponent === '-' ? 1 : 0} 0 ${rating} ${experience} 0 1041253132 host - -`);

/** A board: each side's checkers by its own numbers, 25 is the bar; `fields` are those of the turn: who is to act (1 is
 * the user), the dice of both, the cube, who may double, whether a double is offered. */
export const boardOf = (opponent, own, other, fields, score = [2, 1]) => {
  const places = Array.from({ length: 26 }, (_, place) => (own[place] ?? 0) - (other[25 - place] ?? 0));
  const off = [own, other].map((side) => 15 - Object.values(side).reduce((sum, count) => sum + count, 0));
  return ['board:You', opponent, 5, ...score, ...places, ...fields, 1, -1, 0, 25, ...off, own[25] ?? 0, other[25] ?? 0,
    0, 0, 0, 0].join(':');
};

/** Listens at a free port. `say(...lines)` says lines to the one who is connected. */
export const teller = () => new Promise((ready) => {
  let there = null;
  const server = createServer((socket) => {
    there = socket;
    socket.on('error', () => {});
    socket.write('login: ');
    socket.once('data', (data) => made.say('', ...greeting(String(data).split(' ')[3])));
  });
  const made = {
    get port() { return server.address().port; },
    say: (...lines) => there.write(Buffer.from(lines.map((line) => `${line}\r\n`).join(''), 'latin1')),
    end: () => { there?.destroy(); server.close(); },
  };
  server.listen(0, '127.0.0.1', () => ready(made));
});
