// The players who can be invited, nearest in rating first, and the matches that are saved.

import { savedMatch } from '../index.js';
import { at, element, onceAFrame } from './table.js';

/** How many rows are drawn. */
const DRAWN = 200;

/** How far another's rating is from one's own, if only those near it are wanted. */
const NEAR = 150;

const rowOf = (...cells) => element('tr', {}, ...cells.map((cell) => (
  cell instanceof Node ? cell : element('td', { textContent: cell, className: 'n' }))));

/** Shows rows. One that says the same as before stays where it is, with the focus or a press of the mouse on it. */
const showRows = (id, rows) => {
  const list = at(id);
  const before = new Map([...list.children].map((row) => [row.innerHTML, row]));
  const wanted = rows.map((row) => before.get(row.innerHTML) ?? row);
  const kept = new Set(wanted);
  for (const row of before.values()) if (!kept.has(row)) row.remove();
  wanted.forEach((row, n) => {
    if (list.children[n] !== row) list.insertBefore(row, list.children[n] ?? null);
  });
};

export class People {
  #players = [];
  /** By the opponent's name: what a list has said of the match, or nothing. */
  #saved = new Map();
  #me = null;
  #does;
  #draw = onceAFrame(() => this.#drawAll());

  /** What a click does: `invite(name, points)`, `talkTo(name)`, `watch(name)`, `list()` the saved matches. */
  constructor(does) {
    this.#does = does;
    for (const id of ['filter', 'ready', 'near']) at(id).addEventListener('input', this.#draw);
    at('list').addEventListener('click', () => { this.#saved.clear(); does.list(); });
  }

  /** The package lists all players at each call, so it is asked after a list and not after each line of it. */
  note(players, me) {
    if (me !== this.#me) this.#saved.clear();
    [this.#players, this.#me] = [players, me];
    this.#draw();
  }

  /** Takes a text: a row of the list of saved matches. */
  hear(text) {
    const found = savedMatch(text);
    if (found) this.#save(found.name, found);
  }

  /** Takes what has happened in a match with this opponent: it is saved, or is saved no more. */
  learn({ event, name }, opponent) {
    if (event === 'left') this.#save(opponent, {});
    if (event === 'invitedToResume') this.#save(name, this.#saved.get(name) ?? {});
    if (event === 'nothingSaved' || event === 'resumed') this.#save(name, null);
  }

  #save(name, match) {
    if (match) this.#saved.set(name, match);
    else this.#saved.delete(name);
    this.#draw();
  }

  get(name) { return this.#players.find((one) => one.name === name) ?? null; }

  #drawAll() {
    const word = at('filter').value.toLowerCase();
    const own = this.get(this.#me)?.rating ?? 1500;
    const away = ({ rating }) => Math.abs(rating - own);
    const others = this.#players.filter((one) => one.name !== this.#me);
    const wanted = others.filter((one) => one.name.toLowerCase().includes(word)
      && (!at('ready').checked || (one.ready && one.opponent === null))
      && (!at('near').checked || away(one) <= NEAR))
      .sort((a, b) => this.#saved.has(b.name) - this.#saved.has(a.name) || away(a) - away(b));
    at('count').textContent = `${wanted.length} of ${others.length}`;
    showRows('players', wanted.slice(0, DRAWN).map((one) => this.#row(one)));
    showRows('saved', [...this.#saved].map((one) => this.#savedRow(one)));
  }

  #row(one) {
    const { name } = one;
    const isSaved = this.#saved.has(name);
    const button = (textContent, title, onclick, className = '') => (
      element('button', { textContent, title, onclick, className }));
    const talk = button(name, `Talk to ${name}`, () => this.#does.talkTo(name), 'link');
    const notes = [one.away && ' away', isSaved && element('small', { textContent: ' saved match' })].filter(Boolean);
    let last = '';
    if (one.opponent !== null) last = button('Watch', `Watch ${name} and ${one.opponent}`, () => this.#does.watch(name));
    else if (one.ready && isSaved) last = this.#resumeButton(name);
    else if (one.ready) last = button('Invite', `Invite ${name}`, () => this.#does.invite(name, at('points').value));
    return rowOf(element('td', {}, talk, ...notes), one.rating.toFixed(0), one.experience, element('td', {}, last));
  }

  #resumeButton(name, disabled = false) {
    const onclick = () => this.#does.invite(name, null);
    return element('button', { textContent: 'Resume', title: `Resume with ${name}`, disabled, onclick });
  }

  #savedRow([name, { length, score, isThere }]) {
    const button = this.#resumeButton(name, !this.get(name) && !isThere);
    const points = length === undefined ? '' : length === null ? 'unlimited' : `to ${length}`;
    return rowOf(element('td', { textContent: name }), points, score?.join('-') ?? '', element('td', {}, button));
  }
}
