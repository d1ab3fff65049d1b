// The page: what the user decides, and what is sent. table.js shows it, match.js knows what has happened.

import { Client, Events, FibsError, inOwn, refusal, words } from '../index.js';
import { connectionOf } from './connection.js';
import { BAR, OFF, Turn, otherSaid, placeWord, said } from './game.js';
import { Match } from './match.js';
import { People } from './people.js';
import { Replay, saveFile, saveMatches } from './session.js';
import { announce, at, beginTable, clickOf, showTable, sound } from './table.js';
import { Talk } from './talk.js';

/** The client alone has the password, to log in again by one click. */
let [client, events, connection, name, match] = [null, null, null, null, new Match()];
/** A lost connection: why, what may have reached the server or not, and with whom the match is resumed. */
let lost = null;
/** What plays for the user at the server: `automove`, `greedy`; and whether it is being mended. */
let [servers, isMending] = [[], false];
/** A board of others that is watched, and the last one of the user's own. */
let [watched, last] = [null, null];
/** The turn that is being played, the line of the board that is shown, the place that is picked, and what was typed. */
let [turn, drawn, picked, typed] = [null, null, null, ''];
/** What was heard and sent, but never the login: as `fibs-play --log` keeps it, and `fibs-mat` reads it. */
const log = [];

/** Whether the login was answered on this connection. */
const isIn = () => client?.ready ?? false;

const isWaiting = () => Boolean(client?.waiting) && !match.declined;

/** A decision in the user's numbers: the server's may run the other way. */
const ownSaid = ({ command: sent, board }) => said(inOwn(board, sent)) || sent;

// ---- The server -----------------------------------------------------------------------------------------------------

const send = (text) => {
  connection.send(text);
  log.push(...text.split('\r\n').filter(Boolean).map((line) => `>> ${line}`));
};

/** What the client gives is sent. If it refuses, a row says why. Returns whether it was sent. */
const command = (give) => {
  try {
    if (connection) send(give());
    return connection !== null;
  } catch (error) {
    if (!(error instanceof FibsError)) throw error;
    talk.put('', `not sent: ${error.message}`, 'refused');
    return false;
  } finally {
    show();
  }
};

/** A line that decides nothing. */
const tell = (line) => command(() => {
  try {
    return client.plain(line);
  } catch (error) {
    if (error.name !== 'NotPlain') throw error;
    return client.ownLine(line);
  }
});

/** Whether the user may decide this now. What the server has refused or declined by a text he may decide once more. */
const may = (word) => {
  if (!isIn() || watched || match.offer || match.isOffered || !client.shown) return false;
  return (match.declined ? refusal(client.shown.line, word) : client.refusal(word)) === null;
};

/** A decision, or the answer to an offer to resign, of which the client does not know. */
const decide = (word) => command(() => {
  if (match.offer && /^(?:accept|reject)$/.test(word)) {
    match.offer = null;
    return client.ownLine(word);
  }
  if (!match.declined || !may(word)) return client.decide(word);
  match.declined = null;
  return client.unguardedLine(word);
});

/** What was typed after a slash, or to people. */
const say = (line) => {
  if (!isIn()) return false;
  if (/^(?:roll|double|accept|reject|resign|move)\b/.test(line)) return decide(line);
  talk.put('', `> ${line}`, 'come me');
  return tell(line);
};

const invite = (who, length) => tell(`invite ${who}${length === null ? '' : ` ${length}`}`);

const hearBoard = (board) => {
  watched = board.isOthers ? board : null;
  if (watched) return;
  lost = null;
  match.see(board, client.waiting !== null);
};

const learn = (found) => {
  people.learn(found, match.opponent);
  if (found.event === 'nothingSaved') last = null;
  if (found.event === 'joined') match.rating = people.get(name)?.rating;
  const next = match.learn(found, client.waiting?.command ?? null);
  if (next) tell(next);
};

/** What a line says is said in the talk; a play of the opponent's in the user's numbers. */
const sayLine = (reading, happened) => {
  const played = happened.find(({ event, who }) => event === 'played' && who === 'opponent');
  if (reading.kind !== 'text' || !played) talk.hear(reading);
  else talk.put('', `${events.opponent} plays ${otherSaid(played.steps)}`, 'text');
};

const hearOwn = (own) => {
  servers = ['automove', 'greedy'].filter((word) => own[word]);
  document.activeElement?.blur();
  if (at('auto').checked && !client.ordered) client.orderRoll();
};

const hear = (piece) => {
  let isList = false;
  for (const { text, cut, reading, rolled, send: due } of client.feed(piece)) {
    if (reading.message === 'ownInfo') hearOwn(reading);
    if (due) send(due);
    log.push(text);
    const happened = cut ? [] : events.hear(text);
    sayLine(reading, happened);
    if (rolled) talk.put('', 'rolled, as you have asked for', 'come');
    happened.forEach(learn);
    if (reading.kind === 'board') hearBoard(reading);
    if (reading.kind === 'text') people.hear(text);
    isList ||= reading.message === 'whoInfo' || reading.message === 'whoInfoEnd';
  }
  if (isList) people.note(client.players, name);
  if (events.hearBytes(piece).some(({ event }) => event === 'loginRefused')) {
    lost = null;
    closed('The server does not know this name and password.');
    at('password').focus();
  }
  show();
};

/** The connection has ended, or ends. */
function closed(why) {
  const [here, isKnown, waiting, isAgain] = [connection, isIn() || lost, client.lose(), isMending];
  [connection, servers, isMending, watched] = [null, [], false, null];
  here?.end();
  at('why').textContent = why;
  if (isKnown) {
    const opponent = match.over?.event === 'matchOver' ? null : match.opponent;
    lost = { why, command: waiting ? ownSaid(waiting) : lost?.command ?? null, opponent };
  }
  match.lose();
  if (isAgain) connect();
  show();
}

function connect() {
  const here = connectionOf({
    // a login is never sent where it can be read
    opened: () => here === connection && here.send(client.open()),
    heard: (bytes) => here === connection && hear(bytes),
    closed: (why) => here === connection && closed(why),
  });
  connection = here;
  events.open();
  show();
}

/** Turns off what plays at the server for the user, and logs in again, since it holds for boards that are shown. */
const mend = () => {
  isMending = true;
  for (const word of servers) tell(`toggle ${word}`);
  tell('bye');
};

const logIn = () => {
  client?.close();
  client = null;
  try {
    client = new Client(at('name').value, at('password').value);
  } catch (error) {
    if (!(error instanceof FibsError)) throw error;
    at('why').textContent = `This can't be a name and a password: ${error.message}`;
    return;
  }
  events?.close();
  [events, name, match, lost, last] = [new Events(), at('name').value, new Match(), null, null];
  [at('password').value, at('why').textContent] = ['', ''];
  people.note([], name);
  replay.close();
  connect();
};

const logOut = () => {
  tell('bye');
  client.lose();
  [lost, match] = [null, new Match()];
  closed('');
};

// ---- Picking checkers -----------------------------------------------------------------------------------------------

const canPick = () => turn !== null && !replay.frame && !isWaiting();

/** Plays from one place to another. Returns whether that is legal. */
const go = (from, to) => {
  const way = turn.targets(from).get(to);
  if (way) turn.take(way);
  picked = null;
  return Boolean(way);
};

/** A place is picked: to play from it, or what is picked to it; the same once more plays the larger die. */
const pick = (place) => {
  if (!canPick()) return;
  const step = turn.stepFrom(place);
  if (picked === place && step) go(place, step.to);
  else if (picked === null || !go(picked, place)) picked = step ? place : null;
  show();
};

/** A drag begins (`to` is null: whether it may), or ends. */
const drag = (from, to) => {
  if (!canPick() || !turn.stepFrom(from)) return false;
  if (to === null) picked = from;
  else go(from, to);
  show();
  return true;
};

/** What was typed: a place that is picked or played to, or steps, as 24/18 6/5. */
const enter = () => {
  const numbers = (typed.match(/\d+|[bo]/g) ?? []).map((word) => ({ b: BAR, o: OFF })[word] ?? Number(word));
  typed = '';
  if (numbers.length === 1 && canPick()) {
    const before = turn.steps.length;
    pick(numbers[0]);
    const isNone = picked === null && turn.steps.length === before;
    if (isNone) announce(`There is nothing to play with ${placeWord(numbers[0])}.`);
  }
  for (; numbers.length > 1 && canPick(); numbers.splice(0, 2)) {
    const [from, to] = numbers;
    if (go(from, to)) continue;
    announce(`${said([{ from, to }])} is not legal here.`);
    break;
  }
  show();
};

// ---- What is asked, and what may be done ----------------------------------------------------------------------------

const points = (n) => `${n} point${n === 1 ? '' : 's'}`;
const won = (who) => `${who === 'player' ? 'You' : match.opponent} won`;

const ask = (text, ...answers) => ({ text, answers });
const yes = (word, act) => ({ word, key: 'Enter', main: true, act });
const no = (word, act) => ({ word, key: 'n', act });

/** Changes what is known of the match, and then says a line, if there is one. */
const then = (change, line) => () => {
  Object.assign(match, change);
  if (line) tell(line);
  else show();
};

const askedAfterMatch = ({ event, who, length, score, name: other }) => {
  const { opponent, rating } = match;
  const close = no('Close', then({ over: null }));
  if (event === 'left') {
    return ask(`${who === 'player' ? 'You have left' : `${opponent} has left`}: the match is saved.`,
      yes(`Resume with ${opponent}`, then({ over: null }, `invite ${opponent}`)), close);
  }
  if (event === 'nothingSaved') return ask(`No match with ${other} is saved: it is over, or was never begun.`, close);
  const now = people.get(name)?.rating;
  const change = rating && now ? ` Your rating: ${rating.toFixed(2)} → ${now.toFixed(2)}.` : '';
  return ask(`${won(who)} the match to ${length}, ${score[0]}-${score[1]}.${change}`,
    yes(`Again with ${opponent}`, () => invite(opponent, length)), close);
};

const invitation = ([who, length]) => {
  const one = people.get(who);
  const rated = one ? ` (${one.rating.toFixed(0)}, experience ${one.experience})` : '';
  const wish = length === null ? 'wants to resume your saved match'
    : `invites you to ${length === 'unlimited' ? 'an unlimited match' : points(length)}`;
  const reply = (line) => () => { match.invitations.delete(who); tell(line); };
  return ask(`${who}${rated} ${wish}.`,
    yes('Join', reply(`join ${who}`)), no('No', reply(`tell ${who} not now, thank you`)));
};

/** What is asked about a game. */
function* askedInGame(board) {
  if (match.offer) {
    yield ask(`${match.opponent} offers to resign: you would win ${points(match.offer.points)}.`,
      yes('Accept', () => decide('accept')), no('Decline', () => decide('reject')));
  }
  if (board?.phase === 'AnswerDouble' && may('accept') && !match.over) {
    const pass = `pass, and you lose ${points(board.cube)}`;
    yield ask(`${board.opponent} doubles. Take, and the game is for ${board.cube * 2}; ${pass}.`,
      yes('Take', () => decide('accept')), no('Pass', () => decide('reject')));
  }
  if (match.next) {
    const { who, points: n } = match.next;
    const how = who ? `${won(who)} the game, ${points(n)}` : 'The game is over';
    yield ask(`${how}. The score is ${board?.score.join('-')}.`,
      yes('Next game', then({ next: null }, 'join')), no('Leave, and save', then({ next: null }, 'leave')));
  } else if (match.over && match.over.event !== 'gameOver') yield askedAfterMatch(match.over);
}

/** What is asked beside the turn itself, each with its answers. */
function* asked() {
  if (replay.frame) return;
  if (lost && !connection) {
    const unknown = lost.command ? ` “${lost.command}” may have arrived or not: the next board shows it.` : '';
    const { why, opponent } = lost;
    const word = opponent ? `Connect and resume with ${opponent}` : 'Connect again';
    const resume = () => { if (opponent) match.resume(opponent); connect(); };
    yield { ...ask(`${why}${unknown}`, yes(word, resume)), kind: 'bad' };
  }
  if (!isIn()) return;
  if (servers.length && !isMending) {
    const text = `You logged in with ${servers.join(' and ')} on: you could decide nothing.`;
    yield { ...ask(text, yes('Turn it off and log in again', mend)), kind: 'bad' };
  }
  if (match.resumes) {
    const letBe = () => { last = null; then({ resumes: null })(); };
    yield ask(`Waiting for ${match.resumes} to resume the match.`, no('Let it be', letBe));
  }
  yield* askedInGame(client.shown);
  for (const one of match.invitations) yield invitation(one);
}

/** What may be done on the board. */
function* offered() {
  const board = client?.shown;
  if (replay.frame || !isIn()) return;
  if (watched) yield { word: 'Stop watching', key: 'Escape', act: () => { watched = null; tell('unwatch'); } };
  if (watched || !board || isWaiting() || match.next || match.over) return;
  if (may('roll')) yield yes('Roll', () => decide('roll'));
  if (may('double') && match.declined !== 'double') {
    yield { word: `Double to ${board.cube * 2}`, key: 'd', act: () => decide('double') };
  }
  if (turn && !match.offer && !match.isOffered) {
    const undo = () => { turn.undo(); picked = null; show(); };
    yield { word: 'Undo', key: 'Escape', off: turn.steps.length === 0, act: undo };
    yield { ...yes('Play', () => decide(turn.now.command)), off: !turn.now.command };
  }
}

// ---- Showing --------------------------------------------------------------------------------------------------------

const status = (board) => {
  if (replay.frame) return replay.frame.text;
  if (!isIn()) return '';
  if (watched) return `You watch ${board.player} and ${board.opponent}.`;
  if (isWaiting()) return `Sent, and not shown yet: ${ownSaid(client.waiting)}`;
  if (match.isOffered) return 'You have offered to resign.';
  if (!board?.checkers) return match.resumes ? '' : 'Invite a player, or wait for an invitation.';
  if (match.over || match.next || match.offer) return '';
  const before = match.moved.length && board.turn === 'player' ? [`${board.opponent}: ${otherSaid(match.moved)}.`] : [];
  return [...before, ...words(board.line).slice(0, board.dice ? 2 : 1), said(turn?.steps ?? [])].join(' ').trim();
};

/** Another board is shown. */
const begin = (board) => {
  [drawn, picked, typed] = [board?.line, null, ''];
  const phase = !replay.frame && isIn() && !board?.isOthers ? board?.phase : null;
  turn = phase === 'Move' ? new Turn(board.line) : null;
  if (phase === 'Move' || phase === 'RollOrDouble') sound();
};

function show() {
  last = client?.shown ?? last;
  // of a session, of others, or of one's own game, after a loss too
  const board = replay.frame?.board ?? watched ?? (isIn() || lost ? last : null);
  if (board?.line !== drawn) begin(board);
  const [notices, isReplay, isActive] = [[...asked()], Boolean(replay.frame), canPick()];
  const targets = isActive && picked !== null ? [...turn.targets(picked)] : [];
  const isTurn = board?.turn === 'player';
  showTable({
    board, notices, picked, typed, isReplay, isIn: isIn(),
    targets: new Map(targets.map(([to, way]) => [to, way.length === 1])),
    position: turn?.now.checkers ?? board?.checkers,
    isWaiting: isWaiting() && !isReplay,
    sources: new Set(isActive ? turn.now.next.map((step) => step.from) : []),
    dice: turn?.now.dice ?? (board?.dice ? [...board.dice, ...board.dice] : []),
    moved: isReplay ? replay.frame.moved : isTurn && !turn?.steps.length ? match.moved : [],
    rolled: !isReplay && isTurn ? match.rolled : null,
    can: notices.length ? [] : [...offered()],
    canResign: !isReplay && !notices.length && !isWaiting() && may('resign n'),
    status: status(board),
    state: isIn() ? `${name}, logged in` : connection ? 'connecting ..' : 'not connected',
    needsLogin: !isReplay && !isIn() && !lost && !connection,
    seats: [people.get(isReplay ? board?.player : name), people.get(board?.opponent)],
    canSave: log.length > 0, canSaveMatches: isReplay || log.length > 0,
  });
}

/** What a key does that no button has; nothing if a button has it. */
const keyAct = ({ key, target }) => {
  const by = { ArrowLeft: -1, ArrowRight: 1 }[key];
  if (replay.frame && by) return () => replay.turn(by);
  if ((typed ? /^[0-9bo/ -]$/ : /^[0-9bo]$/).test(key) && canPick()) return () => { typed += key; show(); };
  if (key === 'Backspace' && typed) return () => { typed = typed.slice(0, -1); show(); };
  if (key === 'Escape' && (typed || picked !== null)) return () => { [typed, picked] = ['', null]; show(); };
  if (key === 't') return () => at('text').focus();
  if (key === 'Enter' && !typed && target.dataset?.place) return () => pick(Number(target.dataset.place));
  return key === 'Enter' && typed ? enter : clickOf(key);
};

document.addEventListener('keydown', (event) => {
  const { key, target } = event;
  if (event.ctrlKey || event.metaKey || event.altKey) return;
  if (target.closest?.('input:not([type=checkbox]), select, textarea')) {
    if (key === 'Escape') target.blur();
    return;
  }
  if (key === 'Enter' && !typed && target.closest?.('button, summary, label')) return;
  const act = keyAct(event);
  if (!act) return;
  event.preventDefault();
  act();
});

const talk = new Talk(say);
const people = new People({
  invite, talkTo: (who) => talk.to(who), list: () => tell('show saved'),
  watch: (who) => tell(`watch ${who}`) && tell('board'),
});
const replay = new Replay(() => show());

const does = (id, type, act) => at(id).addEventListener(type, (event) => { event.preventDefault(); act(at(id)); });
does('login', 'submit', logIn);
does('bye', 'click', logOut);
does('resign', 'change', (list) => { decide(list.value); list.value = ''; });
does('auto', 'change', ({ checked }) => {
  if (isIn()) command(() => (checked ? client.orderRoll() : client.withdrawRoll()));
});
does('save', 'click', () => saveFile('fibs.log', `${log.join('\n')}\n`));
does('matches', 'click', () => {
  if (!saveMatches(name ?? 'You', replay.frame ? replay.lines : log)) announce('There is no match to save.');
});

beginTable({ pick, drag, roll: () => may('roll') && decide('roll') });
show();
