// What the page shows around the board: seats, what is asked, buttons, words. It is made anew only if it says something
// else, so that the focus stays and nothing is read twice.

import { words } from '../index.js';
import { BoardView } from './board.js';
import { placeWord } from './game.js';

export const at = (id) => document.getElementById(id);

/** An element with these properties, and what is in it. */
export const element = (name, properties = {}, ...within) => {
  const made = Object.assign(document.createElement(name), properties);
  made.append(...within);
  return made;
};

/** What does its work once a frame, however often it is asked for, so that a flood does not hold the page up. */
export const onceAFrame = (work) => {
  let isDue = false;
  return () => {
    if (!isDue) requestAnimationFrame(() => { isDue = false; work(); });
    isDue = true;
  };
};

/** Says something to those who hear the page. */
export const announce = (text) => { at('live-words').textContent = text; };

/** How long a notice takes no answer, in milliseconds. */
const FRESH = 500;

/** A short tone, if the user wants it. */
export const sound = () => {
  if (!at('sound').checked) return;
  const audio = new AudioContext();
  const [tone, volume] = [new OscillatorNode(audio, { frequency: 660 }), new GainNode(audio, { gain: 0.08 })];
  tone.connect(volume).connect(audio.destination);
  tone.start();
  tone.stop(audio.currentTime + 0.12);
  tone.addEventListener('ended', () => audio.close());
};

const buttonOf = ({ word, key, main, off, act }) => {
  const button = element('button', { textContent: word, disabled: Boolean(off), className: main ? 'main' : '' });
  Object.assign(button.dataset, { word, key });
  button.setAttribute('aria-keyshortcuts', key);
  button.onclick = () => { button.blur(); act(); };
  return button;
};

/** A notice. For a time it takes no answer: a click or a key was meant for something else. */
const noticeOf = ({ text, answers, kind = '' }) => element('div', { className: `notice ${kind}`, role: 'alert' },
  element('p', { textContent: text }),
  ...answers.map((one) => buttonOf({ ...one, act: () => at('notices').className === 'fresh' || one.act() })));

/** What a key does that a button has, of the first notice or of the board; nothing if none has it. */
export const clickOf = (key) => {
  const buttons = document.querySelectorAll('.notice:first-child button, #buttons button:enabled');
  const button = [...buttons].find((one) => one.dataset.key === key);
  return button && (() => button.click());
};

const saidBy = new Map();

/** Makes what is within an element anew if it says something else. Returns whether it then says anything. */
const fill = (id, items, make) => {
  const said = JSON.stringify(items);
  if (saidBy.get(id) === said) return false;
  saidBy.set(id, said);
  at(id).replaceChildren(...items.map(make));
  return items.length > 0;
};

/** The seat of a player: name, rating, experience, pips and their difference, score. */
const seat = (id, name, one, board, n) => {
  const parts = [[`dot ${id}`, ''], ['name', name ?? '']];
  if (one) parts.push(['rating', `${one.rating.toFixed(0)} · ${one.experience}`]);
  if (board?.pips) {
    const [own, other] = [board.pips[n], board.pips[1 - n]];
    parts.push(['pips', `${own} pips${own > other ? ` (${own - other} behind)` : ''}`]);
    parts.push(['score', board.length === null ? board.score[n] : `${board.score[n]} / ${board.length}`]);
  }
  at(id).replaceChildren(...parts.map(([className, textContent]) => element('span', { className, textContent })));
  at(id).classList.toggle('turn', board?.turn === (n === 0 ? 'player' : 'opponent'));
};

let view = null;
let spoken = '';

/** Tells those who hear the page what is new. */
const speak = ({ board, notices, status, picked, targets }, rows) => {
  const goals = [...targets.keys()].map(placeWord).join(', ');
  const ways = picked === null ? '' : `${placeWord(picked)} may go to ${goals}.`;
  const isOwn = board && board.phase !== 'OpponentActs' && picked === null;
  const news = [...notices.map(({ text }) => text), status, ways, ...(isOwn ? rows : [])].filter(Boolean).join(' ');
  if (news !== spoken) announce(news);
  spoken = news;
};

/** Shows all. */
export const showTable = (now) => {
  const { board, notices, can, seats } = now;
  view.draw({ ...now, canRoll: can.some(({ word }) => word === 'Roll') });
  at('board').classList.toggle('waiting', now.isWaiting);
  seat('own', board?.player === 'You' ? seats[0]?.name ?? 'You' : board?.player, seats[0], board, 0);
  seat('other', board?.opponent, seats[1], board, 1);
  for (const id of ['state', 'status', 'typed']) at(id).textContent = now[id];
  at('state').className = now.isIn ? 'on' : '';
  document.body.classList.toggle('playing', Boolean(board));
  const isHidden = { bye: !now.isIn, login: !now.needsLogin, replay: !now.isReplay, resign: !now.canResign };
  for (const [id, is] of Object.entries(isHidden)) at(id).hidden = is;
  at('save').disabled = !now.canSave;
  at('matches').disabled = !now.canSaveMatches;
  if (fill('notices', notices, noticeOf)) {
    at('notices').className = 'fresh';
    setTimeout(() => { at('notices').className = ''; }, FRESH);
  }
  fill('buttons', can, buttonOf);
  const isPlayed = board && now.isIn && !now.isReplay;
  const turn = notices.length || can.length ? 'Your turn' : board?.opponent;
  document.title = isPlayed ? `${turn}, ${board.score.join('-')}` : 'Backgammon on FIBS';
  const rows = board?.checkers ? words(board.line) : ['No board.'];
  fill('words', rows, (row) => element('p', { textContent: row }));
  speak(now, rows);
};

/** Makes the board. What a click on it does: `pick(place)`, `drag(from, to)`, `roll()`. */
export const beginTable = (does) => { view = new BoardView(at('board'), does); };
