import assert from 'node:assert/strict';
import test from 'node:test';
import v8 from 'node:v8';
import vm from 'node:vm';
import {
  Client, Directory, Events, FibsError, Lines, MatchFiles, after, differs, inOwn, plays, read, refusal, savedMatch,
  turn, turned, words,
} from '../index.js';

const board = 'board:You:bob:1:0:0:0:-2:0:0:0:0:5:0:3:0:0:0:-5:5:0:0:0:-3:0:-5:0:0:0:0:2:0:1:6:2:0:0:1:1:1:0:1:-1:0:25'
  + ':0:0:0:0:2:0:0:0';
const noDice = board.replace(':1:6:2:0:0:', ':1:0:0:0:0:');
const welcome = '1 ann 1041253132 localhost\r\n2 ann 1 1 0 0 0 0 1 1 55 0 1 0 1 3457.85 0 0 unlimited 0 0 UTC\r\n';

const hear = (client, piece) => [...client.feed(piece)];

test('a board has its plays', () => {
  const found = plays(board);
  assert.equal(found.length, 14);
  assert.equal(found[0], 'move 24-22 24-18');
  assert.throws(() => plays('board:x'), { name: 'Missing' });
  assert.throws(() => plays(board.replace('You', 'ann')), { name: 'NotYou' });
});

test('a board is read by name', () => {
  const { checkers, pips, off, ...found } = read(board);
  assert.deepEqual(found, {
    kind: 'board', line: board, player: 'You', opponent: 'bob', length: 1, score: [0, 0], colour: 1, direction: -1,
    turn: 'player', dice: [6, 2], opponentDice: null, cube: 1, mayDouble: true, opponentMayDouble: true,
    wasDoubled: false, cubeOwner: 'middle', crawford: false, matchOver: false, isOthers: false, phase: 'Move',
    noPosition: null,
  });
  assert.deepEqual([pips, off], [[167, 167], [0, 0]]);
  assert.deepEqual(checkers.map((side) => [side[24], side[13], side[8], side[6]]), [[2, 5, 3, 5], [2, 5, 3, 5]]);
  assert.deepEqual(checkers.map((side) => side.reduce((sum, count) => sum + count)), [15, 15]);
});

test('a line is read, whatever its bytes', () => {
  assert.deepEqual(read('12 bob hi \xe9"\\'), {
    kind: 'message', number: 12, message: 'says', name: 'bob', text: 'hi \xe9"\\',
  });
  assert.deepEqual(read('7'), { kind: 'malformed', number: 7, field: 1, fault: 'Missing' });
  assert.deepEqual(read(Uint8Array.of(0, 34, 92, 255)), { kind: 'text', text: '\0"\\\xff' });
  assert.throws(() => read('\u{1f3b2}'), { name: 'NotBytes' });
});

test('each message has its fields', () => {
  const lines = ['1 ann 1041253132 here', '2 ann 1 1 0 0 0 0 1 1 55 0 1 0 1 3457.85 0 0 none 0 0 UTC', '3', '4',
    '5 eve - bob 1 0 1500.05 10 3 1041253132 host - e@x', '6', '7 eve logs in', '8 eve drops', '9 eve 12 so', '10 eve',
    '11 eve', '12 eve a', '13 eve b', '14 eve c', '15 eve d', '16 eve e', '17 f', '18 g', '19 h'];
  const found = lines.map(read);
  assert.deepEqual(found.map((message) => message.number), lines.map((_, at) => at + 1));
  assert.equal(new Set(found.map((message) => message.message)).size, 19);
  assert.equal(found[1].rating, 3457.85);
  assert.equal(found[1].redoubles, 'none');
  assert.deepEqual(found[4], {
    kind: 'message', number: 5, message: 'whoInfo', name: 'eve', opponent: null, watching: 'bob', hostname: 'host',
    client: null, email: 'e@x', ready: true, away: false, experience: 10, idle: 3, login: 1041253132, rating: 1500.05,
    ratingHundredths: 150005,
  });
  assert.deepEqual([found[8].sender, found[8].time, found[8].text], ['eve', 12, 'so']);
});

test('however a stream is cut, it gives the same lines', () => {
  const stream = `login: > ${board}\r\n12 bob hi\xff\xfb\x01!\r\n12 bob ${'a'.repeat(20000)}\nrest`;
  const whole = new Lines();
  const wanted = [...whole.feed(stream)];
  assert.deepEqual(wanted.map((line) => [line.reading.kind, line.cut, line.text.length]),
    [['board', false, board.length], ['message', false, 10], ['text', true, 16384]]);
  assert.equal(wanted[1].text, '12 bob hi!');
  const lines = new Lines();
  assert.deepEqual([...stream].flatMap((byte) => [...lines.feed(byte)]), wanted);
  assert.equal(lines.unfinished, 'rest');
  lines.reset();
  assert.equal(lines.unfinished, '');
});

test('a directory has who was listed', () => {
  const directory = new Directory();
  directory.note('5 eve - - 1 0 1500.00 10 0 1041253132 host - -');
  directory.note('5 bob - - 1 0 1600.00 10 0 1041253132 host - -');
  directory.note('8 bob leaves');
  directory.note('hello');
  assert.deepEqual(directory.players.map((player) => player.name), ['eve']);
  const { rating, ratingHundredths, opponent, client } = directory.get('eve');
  assert.deepEqual([rating, ratingHundredths, opponent, client], [1500, 150000, null, null]);
  assert.equal(directory.get('bob'), null);
  directory.clear();
  assert.deepEqual(directory.players, []);
});

test('lines say what has happened', () => {
  const events = new Events();
  const rows = [
    ['1 ann 1041253132 localhost', [{ event: 'loggedIn', name: 'ann' }]],
    ['** Player eve has joined you for a 3 point match.', [{ event: 'joined', name: 'eve', length: 3 }]],
    ['** Player eve has joined you for a 3 point match.', []],
    [noDice.replace(':bob:1:', ':eve:3:'), []],
    ['You roll 6 and 2.', [{ event: 'rolled', who: 'player', dice: [6, 2] }]],
    ['You roll 6 and 2.', []],
    ['You want to resign. eve will win 2 points.',
      [{ event: 'offeredToResign', who: 'player', points: 2, worth: 'gammon' }]],
    ['eve rejects. The game continues.', [{ event: 'declined', who: 'opponent' }]],
    ["** You can't roll now.", [{ event: 'refused', text: "** You can't roll now." }]],
    ['eve wins the game and gets 3 points. Sorry.',
      [{ event: 'gameOver', who: 'opponent', points: 3, worth: 'backgammon' }]],
    ['eve wins the 3 point match 3-0 .', [{ event: 'matchOver', who: 'opponent', length: 3, score: [0, 3] }]],
    ['bob wants to play an unlimited match with you.', [{ event: 'invited', name: 'bob', length: null }]],
    ['hello', []],
  ];
  for (const [line, wanted] of rows) assert.deepEqual(events.hear(line), wanted, line);
  assert.equal(events.opponent, 'eve');
  events.close();
  assert.throws(() => events.hear('hello'), { name: 'Closed' });
});

test('a server that asks for the login once more has refused it', () => {
  const events = new Events();
  const refused = [{ event: 'loginRefused' }];
  assert.deepEqual(events.hearBytes('Welcome to FIBS.\r\nlogin: '), []);
  assert.deepEqual(events.hearBytes(Buffer.from('\r\nlogin: ')), refused);
  assert.deepEqual(events.hearBytes(''), []);
  events.open();
  assert.deepEqual(events.hearBytes('login: '), []);
  const long = `\n${'a'.repeat(200000)}\nlogin: `;
  assert.deepEqual(events.hearBytes(long), refused);
  for (const end of ['1 ann 1041253132 localhost', '\nlogin: ']) assert.deepEqual(events.hearBytes(end), []);
  events.close();
  assert.throws(() => events.open(), { name: 'Closed' });
});

test('a client plays', () => {
  const client = new Client('ann', 'secret');
  assert.equal(client.open(), 'login fibs_client 1008 ann secret\r\n');
  assert.throws(() => client.open(), { name: 'AlreadyOpen' });
  const stream = `login: ${welcome}5 eve - - 1 0 1500.00 10 0 1041253132 host - -\r\n${noDice}\r\n> `;
  const heard = [...stream].flatMap((byte) => [...client.feed(byte)]);
  assert.deepEqual(heard.map((line) => line.send), ['set boardstyle 3\r\n', 'board\r\n', '', '']);
  assert.equal(client.shown.phase, 'RollOrDouble');
  assert.deepEqual(client.players.map((player) => player.name), ['eve']);
  assert.equal(client.unfinished, '> ');
  assert.equal(client.decide('roll'), 'roll\r\n');
  assert.deepEqual(client.waiting, { command: 'roll', board: noDice });
  assert.throws(() => client.decide('roll'), { name: 'Waiting' });
  const [shown] = client.feed(board + '\r\n');
  assert.equal(shown.confirmed.command, 'roll');
  assert.throws(() => client.decide('move 5'), { name: 'NotADecision' });
  assert.throws(() => client.decide('move 24-1'), { name: 'IllegalPlay' });
  assert.equal(client.decide(plays(client.shown.line)[0]), 'move 24-22 24-18\r\n');
  assert.equal(client.plain('say good luck'), 'say good luck\r\n');
  assert.equal(client.lose().command, 'move 24-22 24-18');
  assert.equal(client.lose(), null);
  assert.throws(() => client.plain('who'), { name: 'Offline' });
});

test('a line of one\'s own never decides, whether a decision waits or not', () => {
  const client = new Client('ann', 'secret');
  assert.deepEqual([client.state, client.ready], ['offline', false]);
  assert.throws(() => client.ownLine('leave'), { name: 'Offline' });
  client.open();
  assert.deepEqual([client.state, client.ready], ['login', false]);
  hear(client, welcome + noDice + '\r\n');
  assert.deepEqual([client.state, client.ready], ['ready', true]);
  assert.deepEqual([client.refusal('roll'), client.refusal('accept')], [null, 'WrongKind']);
  assert.throws(() => client.refusal('dance'), { name: 'NotADecision' });
  client.decide('roll');
  assert.equal(client.refusal('roll'), 'Waiting');
  for (const line of ['roll', 'r', 'ROLL', ' roll', 'move 24-18', 'm 24 18', 'double', 'resign n', 'who']) {
    assert.throws(() => client.ownLine(line), { name: 'Taken' }, line);
  }
  for (const line of ['leave', 'watch bob', 'accept', 'reject']) assert.equal(client.ownLine(line), `${line}\r\n`);
  assert.equal(client.unguardedLine('roll'), 'roll\r\n');
  assert.throws(() => client.ownLine('a\nroll'), { name: 'BadText' });
  hear(client, noDice.replace(':1:1:1:0:1:-1:', ':1:1:1:1:1:-1:') + '\r\n');
  assert.equal(client.shown.phase, 'AnswerDouble');
  for (const line of ['accept', 'Rej']) assert.throws(() => client.ownLine(line), { name: 'Taken' }, line);
});

test('the rules are those of the other languages', () => {
  assert.deepEqual([refusal(board, 'move 24-22 24-18'), refusal(board, 'move 24-18'), refusal(board, 'roll')],
    [null, 'IllegalPlay', 'WrongKind']);
  const next = after(board, 'move 24-22 24-18');
  assert.deepEqual([next.pips, next.dice, next.turn], [[159, 167], null, 'opponent']);
  assert.deepEqual(after(noDice, 'roll', [6, 2]).dice, [6, 2]);
  assert.throws(() => after(board, 'roll', [6, 2]), { name: 'NoEffect' });
  assert.deepEqual([differs(board, next.line), differs(board, board)], [true, false]);
  assert.deepEqual([turned(board).opponentDice, turned(turned(board).line).dice], [[6, 2], [6, 2]]);
  assert.equal(read(board.replace(':1:6:2:0:0:', ':0:0:0:0:0:')).matchOver, true);
});

test('a refusal has a name and a sentence', () => {
  const client = new Client('ann', 'secret');
  assert.throws(() => client.decide('roll'), { name: 'Offline', message: 'no connection is open' });
  assert.throws(() => read('\u{1f3b2}'), { name: 'NotBytes', message: /above 255/ });
});

test('a standing order rolls', () => {
  const client = new Client('ann', 'secret');
  client.open();
  hear(client, welcome);
  client.orderRoll();
  assert.equal(client.ordered, true);
  assert.throws(() => client.orderRoll(), { name: 'AlreadyOrdered' });
  const [heard] = client.feed(noDice.replace(':1:1:1:0:1:-1:', ':1:0:1:0:1:-1:') + '\r\n');
  assert.deepEqual([heard.rolled, heard.send], [true, 'roll\r\n']);
  client.withdrawRoll();
  assert.equal(client.ordered, false);
});

test('a name or a password that is not valid makes no client', () => {
  for (const [name, password, why] of [
    ['a:b', 'secret', 'BadName'], ['', 'secret', 'BadName'], ['ann', 'a\r\nb', 'BadText'],
    ['an', 'n'.repeat(20000), 'TooLong'], ['a\u{1f3b2}', 'secret', 'NotBytes'],
  ]) {
    assert.throws(() => new Client(name, password), (error) => error instanceof FibsError && error.name === why, why);
  }
  for (const words of [[], ['ann'], ['ann', undefined], ['ann', null], ['ann', 5], [undefined, 'secret']]) {
    assert.throws(() => new Client(...words), TypeError, String(words));
  }
  const login = new TextEncoder().encode('annsecret');
  const client = new Client(login.subarray(0, 3), login.slice(3).buffer);
  assert.equal(client.open(), 'login fibs_client 1008 ann secret\r\n');
});

// what is no string, no buffer and no view
const WRONG = [undefined, null, 5, 5n, true, {}, [], [104, 10], Symbol('a'), () => 'a', new Blob(['a\n']),
  { length: 2 }, { [Symbol.toStringTag]: 'ArrayBuffer' }, new String('a\n')];

test('what is no string and no buffer is a TypeError, wherever it is given', () => {
  const [lines, directory, client] = [new Lines(), new Directory(), new Client('ann', 'secret')];
  const [events, files] = [new Events(), new MatchFiles('ann')];
  client.open();
  const calls = { read, plays, words, savedMatch, turn: (it) => turn(it, []), inOwn: (it) => inOwn(board, it),
    files: (it) => files.hear(it), named: (it) => new MatchFiles(it), feed: (it) => lines.feed(it),
    note: (it) => directory.note(it),
    get: (it) => directory.get(it), hear: (it) => client.feed(it), decide: (it) => client.decide(it),
    plain: (it) => client.plain(it), event: (it) => events.hear(it), bytes: (it) => events.hearBytes(it) };
  for (const [name, call] of Object.entries(calls)) {
    for (const wrong of WRONG) assert.throws(() => call(wrong), TypeError, `${name}: ${String(wrong)}`);
  }
  // nothing is lost, and nothing was read
  assert.deepEqual([[...lines.feed('a\n')].length, lines.unfinished, client.unfinished], [1, '', '']);
});

test('a buffer and each view of one are their bytes', () => {
  const bytes = new TextEncoder().encode('..12 bob hi\r\n\n....');
  const buffer = new ArrayBuffer(16);
  new Uint8Array(buffer).set(bytes.subarray(2, 18));
  const shared = new SharedArrayBuffer(16);
  new Uint8Array(shared).set(new Uint8Array(buffer));
  const texts = ['12 bob hi', ''];
  for (const [what, given] of Object.entries({
    buffer, shared, view: new DataView(buffer), bytes: bytes.subarray(2, 18), signed: new Int8Array(buffer),
    words: new Uint16Array(buffer), doubles: new Float64Array(buffer), big: new BigInt64Array(buffer),
    node: Buffer.from(buffer), other: vm.runInNewContext(`new Uint8Array([${new Uint8Array(buffer)}]).buffer`),
  })) {
    assert.deepEqual([...new Lines().feed(given)].map((line) => line.text), texts, what);
  }
  assert.deepEqual([...new Lines().feed(new Uint16Array([0x0a68]))].map((line) => line.text), ['h']);
  const gone = new ArrayBuffer(4);
  structuredClone(gone, { transfer: [gone] });
  assert.throws(() => new Lines().feed(gone), TypeError);
});

test('a line is read when it is taken, and what is not taken comes first in the next feed', () => {
  const lines = new Lines();
  for (const line of lines.feed('12 a b\n12 c d\n12 e f\nhal')) {
    assert.deepEqual([line.text, lines.unfinished], ['12 a b', '']);
    break;
  }
  const piece = Buffer.from('f\n');
  const found = lines.feed(piece);
  // what was fed is not the caller's buffer
  piece.fill(0);
  assert.deepEqual([...found].map((line) => line.text), ['12 c d', '12 e f', 'half']);
  const order = [];
  for (const line of lines.feed('1\n2\n3\n')) {
    order.push(line.text);
    if (line.text === '1') for (const inner of lines.feed('4\n')) order.push(inner.text);
  }
  assert.deepEqual(order, ['1', '2', '3', '4']);
});

test('a decision is judged on the board that was taken last', () => {
  const client = new Client('ann', 'secret');
  client.open();
  hear(client, welcome);
  const decided = [];
  // two boards in one piece
  for (const { reading, confirmed, send } of client.feed(`${noDice}\r\n${board}\r\n`)) {
    assert.deepEqual([client.shown.line, send], [reading.line, '']);
    if (reading.phase === 'RollOrDouble') decided.push(client.decide('roll'));
    else decided.push(confirmed.command, client.decide(plays(reading.line)[0]));
  }
  assert.deepEqual(decided, ['roll\r\n', 'roll', 'move 24-22 24-18\r\n']);
});

test('without a connection all bytes are dropped at once', () => {
  const client = new Client('ann', 'secret');
  const dropped = client.feed(welcome);
  client.open();
  assert.deepEqual([...dropped], []);
  const left = client.feed(`${welcome}login: `);
  assert.equal(left.next().value.send, 'set boardstyle 3\r\n');
  client.lose();
  client.open();
  assert.deepEqual([[...left], client.unfinished], [[], '']);
  assert.deepEqual(hear(client, welcome).map((line) => line.send), ['set boardstyle 3\r\n', 'board\r\n']);
});

test('an input that is longer than a line is refused, but a piece may have any length', () => {
  const long = 'a'.repeat(16385);
  const client = new Client('ann', 'secret');
  client.open();
  for (const call of [read, plays, (it) => client.decide(it), (it) => client.plain(`say ${it}`)]) {
    assert.throws(() => call(long), { name: 'TooLong' });
  }
  assert.equal(read(long.slice(1)).kind, 'text');
  const [cut] = new Lines().feed(`${long.repeat(100)}\n`);
  assert.deepEqual([cut.cut, cut.text.length], [true, 16384]);
});

test('a long text is read as quickly as its bytes, and many short lines take a bounded memory', () => {
  const lines = new Lines();
  const took = (piece) => {
    const began = process.cpuUsage().user;
    assert.equal([...lines.feed(piece)].length, 0);
    return process.cpuUsage().user - began;
  };
  const text = '\xe9'.repeat(4e6);
  const [bytes, string] = [took(Buffer.from(text, 'latin1')), took(text)];
  assert.ok(string < 1.5 * bytes + 2e5, `${bytes} ${string}`);
  assert.equal(lines.unfinished.length, 16384);
  lines.reset();
  const client = new Client('ann', 'secret');
  client.open();
  for (const reader of [lines, client]) {
    const [{ heapUsed }, many] = [process.memoryUsage(), Buffer.alloc(3e5, 'ab\n')];
    let count = 0;
    let most = 0;
    for (const line of reader.feed(many)) {
      count += line.text.length / 2;
      if (count % 20000 === 0) most = Math.max(most, process.memoryUsage().heapUsed - heapUsed);
    }
    assert.equal(count, 100000);
    assert.ok(most < 40e6, `${most}`);
  }
});

test('clients that are dropped give their memory back', async () => {
  v8.setFlagsFromString('--expose-gc');
  const gc = vm.runInNewContext('gc');
  const size = async () => {
    for (let n = 0; n < 4; n += 1) {
      await new Promise((resolve) => { setImmediate(resolve); });
      gc();
    }
    return process.memoryUsage().external;
  };
  const before = await size();
  for (let n = 0; n < 3000; n += 1) new Client('ann', 'secret').open();
  const after = await size();
  assert.ok(after < before + 10e6, `${before} ${after}`);
});

test('what is closed is refused', () => {
  const lines = new Lines();
  lines.close();
  lines.close();
  assert.throws(() => lines.feed('a\n'), { name: 'Closed' });
});
