// A saved session, board by board; and what is saved: the session that goes on, and a file of each match.

import { Events, Lines, MatchFiles } from '../index.js';
import { bytesOf } from './connection.js';
import { at, element } from './table.js';

/** Saves a text, whose characters are bytes, as a file of the browser's. */
export const saveFile = (name, text) => {
  const href = URL.createObjectURL(new Blob([bytesOf(text)], { type: 'application/octet-stream' }));
  element('a', { href, download: name }).click();
  setTimeout(() => URL.revokeObjectURL(href), 1000);
};

/** Saves a file of each match in lines that were heard. Returns how many there are. */
export const saveMatches = (name, lines) => {
  const match = new MatchFiles(name);
  for (const line of lines) match.hear(line);
  const { files } = match;
  files.forEach(({ opponent, text }, n) => saveFile(`${opponent}-${n + 1}.mat`, text));
  return files.length;
};

/** The lines of a session, and its boards, each with the texts before it and the opponent's play that led to it. */
export const framesOf = (bytes) => {
  const [stream, events] = [new Lines(), new Events()];
  const [lines, frames] = [[], []];
  let [texts, moved] = [[], []];
  for (const { text, cut, reading } of stream.feed(bytes)) {
    lines.push(text);
    const happened = cut ? [] : events.hear(text);
    const played = happened.find(({ event, who }) => event === 'played' && who === 'opponent');
    if (played) moved = played.steps;
    if (happened.length && reading.kind === 'text') texts.push(reading.text);
    if (reading.kind !== 'board' || !reading.checkers || reading.line === frames.at(-1)?.board.line) continue;
    frames.push({ board: reading, text: texts.slice(-2).join(' '), moved });
    [texts, moved] = [[], []];
  }
  return { lines, frames };
};

/** A saved session that is shown; the slider says which of its boards. */
export class Replay {
  lines = [];
  #frames = [];
  #show;

  constructor(show) {
    this.#show = show;
    at('file').addEventListener('change', () => this.#open());
    at('slider').addEventListener('input', () => this.turn(0));
    at('before').addEventListener('click', () => this.turn(-1));
    at('next').addEventListener('click', () => this.turn(1));
    at('live').addEventListener('click', () => this.close());
  }

  /** The board that is shown, with what led to it; null if no session is. */
  get frame() { return this.#frames[at('slider').value] ?? null; }

  async #open() {
    const [file] = at('file').files;
    if (!file) return;
    const { lines, frames } = framesOf(new Uint8Array(await file.arrayBuffer()));
    at('why').textContent = frames.length ? '' : 'There is no board in this file.';
    if (!frames.length) return;
    [this.lines, this.#frames] = [lines, frames];
    Object.assign(at('slider'), { max: frames.length - 1, value: 0 });
    this.turn(0);
  }

  turn(by) {
    at('slider').valueAsNumber += by;
    at('place').textContent = `${at('slider').valueAsNumber + 1} of ${this.#frames.length}`;
    this.#show();
  }

  close() {
    this.#frames = [];
    at('file').value = '';
    this.#show();
  }
}
