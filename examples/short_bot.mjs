#!/usr/bin/env node
// Plays a match of three points by its first legal plays, over lost connections too, and leaves:
// short_bot.mjs HOST PORT NAME OPPONENT, with the password as the first line of standard input.
//
// It compares no text of the server: `Events` says what has happened.

import { connect } from 'node:net';
import { createInterface } from 'node:readline';
import { Client, Events, plays } from 'fibs';

class Bot {
  constructor(name, password, opponent) {
    this.client = new Client(name, password);
    this.events = new Events();
    this.opponent = opponent;
    this.isOver = false;
  }

  /** What is to be sent after a line. */
  * answers({ text, cut, reading }) {
    // without points: a match that was saved goes on
    if (reading.message === 'ownInfo') yield this.client.plain(`invite ${this.opponent}`);
    for (const happened of cut ? [] : this.events.hear(text)) {
      console.log(JSON.stringify(happened));
      if (happened.event === 'nothingSaved') {
        // a match that had begun is over then, and its end was not seen
        this.isOver = this.events.opponent !== '';
        if (!this.isOver) yield this.client.plain(`invite ${this.opponent} 3`);
      } else if (happened.event === 'offeredToResign' && happened.who === 'opponent') {
        yield this.client.ownLine('accept');
      } else if (happened.event === 'nextGame') {
        yield this.client.plain('join');
      } else if (happened.event === 'matchOver') {
        this.isOver = true;
      }
    }
    const command = reading.kind === 'board' && !this.isOver ? this.decision(reading) : null;
    if (command) yield this.client.decide(command);
  }

  /** What is decided at a board; null if nothing is. A server shows some boards twice: then a decision may wait. */
  decision({ line, phase, isOthers }) {
    if (isOthers || this.client.waiting) return null;
    return phase === 'Move' ? plays(line)[0] : { RollOrDouble: 'roll', AnswerDouble: 'accept' }[phase] ?? null;
  }

  /** One connection, up to its end. */
  async converse(host, port) {
    const server = connect(port, host, () => server.write(this.client.open(), 'latin1'));
    this.events.open();
    // whatever ends it, it is over
    const ended = new Promise((resolve) => server.on('error', () => {}).on('close', resolve));
    server.on('data', (piece) => {
      if (this.events.hearBytes(piece).length > 0) throw new Error('the server refuses the login');
      for (const heard of this.client.feed(piece)) {
        server.write(heard.send, 'latin1');
        for (const line of this.answers(heard)) server.write(line, 'latin1');
      }
      if (this.isOver) server.end(this.client.plain('bye'), 'latin1');
    });
    await ended;
  }
}

const [host, port, name, opponent] = process.argv.slice(2);
const [password] = await new Promise((resolve) => createInterface(process.stdin).on('line', (...it) => resolve(it)));
const bot = new Bot(name, password, opponent);
for (let count = 0; count < 1000 && !bot.isOver; count += 1) {
  await bot.converse(host, Number(port));
  // what waited is decided anew on the board that comes
  if (!bot.isOver) console.log('lost', JSON.stringify(bot.client.lose()));
}
process.exit(bot.isOver ? 0 : 1);
