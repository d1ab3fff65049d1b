// What was said, by whom and to whom, and the texts of the server.

import { bytesOf } from './connection.js';
import { at, element, onceAFrame } from './table.js';

/** By message: whose words they are, of which kind they are, and what is said if the message has no text. */
const HEARD = {
  says: ['NAME', 'here'], shouts: ['NAME (all)', 'talk'], kibitzes: ['NAME (table)', 'here'],
  whispers: ['NAME (watching)', 'here'], messageReceived: ['NAME, by message', 'here'],
  youSay: ['you to NAME', 'here me'], youShout: ['you (all)', 'talk me'], youKibitz: ['you (table)', 'here me'],
  youWhisper: ['you (watching)', 'here me'], login: ['', 'come'], logout: ['', 'come'],
  messageDelivered: ['', 'text', 'message delivered to NAME'], messageSaved: ['', 'text', 'message saved for NAME'],
};

/** How many rows are kept. */
const KEPT = 600;

/** Bytes of a server as a text: UTF-8 if they are, else each byte a character. */
const decoder = new TextDecoder('utf-8', { fatal: true });
const shownText = (text) => {
  try {
    return decoder.decode(bytesOf(text));
  } catch {
    return text;
  }
};

/** To whom one talks: the command, and the name if it is one person. */
const chosen = () => at('to').value.split(' ');

export class Talk {
  #gagged = new Set();
  #rows = [];
  #draw = onceAFrame(() => this.#drawRows());

  constructor(send) {
    at('line').addEventListener('submit', (event) => {
      event.preventDefault();
      const text = at('text').value.trim();
      if (text && send(text.startsWith('/') ? text.slice(1) : `${at('to').value} ${text}`)) at('text').value = '';
    });
    at('gag').addEventListener('click', () => this.#gag(chosen()[1]));
    at('to').addEventListener('change', () => this.#nameGag());
  }

  /** A further person to talk to, who is then chosen. */
  to(name) {
    at('to').value = `tell ${name}`;
    if (!at('to').value) at('to').add(new Option(name, `tell ${name}`, true, true));
    this.#nameGag();
    at('text').focus();
  }

  /** Hides what a person says, or shows it again. */
  #gag(name) {
    if (!this.#gagged.delete(name)) this.#gagged.add(name);
    this.put('', `what ${name} says is ${this.#gagged.has(name) ? 'hidden' : 'shown again'}`, 'come');
    this.#nameGag();
  }

  #nameGag() {
    const [, name] = chosen();
    at('gag').hidden = !name;
    at('gag').textContent = this.#gagged.has(name) ? 'Ungag' : 'Gag';
  }

  /** Adds a row. */
  put(who, text, kind) {
    this.#rows.push([who, text, kind]);
    if (this.#rows.length > KEPT) this.#rows.shift();
    this.#draw();
  }

  #drawRows() {
    const box = at('said');
    const isEnd = box.scrollHeight - box.scrollTop - box.clientHeight < 40;
    box.append(...this.#rows.map(([who, text, className]) => (
      element('p', { className }, ...(who ? [element('b', { textContent: who }), ' '] : []), shownText(text)))));
    this.#rows = [];
    while (box.childElementCount > KEPT) box.firstChild.remove();
    if (isEnd) box.scrollTop = box.scrollHeight;
  }

  /** What a line says, if it is talk or a text. */
  hear(reading) {
    const name = reading.name ?? reading.sender;
    const [who, kind, told] = (reading.kind === 'text' ? ['', 'text'] : HEARD[reading.message]) ?? [];
    const named = (words) => words.replace('NAME', () => name);
    const text = told ? named(told) : reading.text;
    if (kind && text.trim() && !this.#gagged.has(name)) this.put(named(who), text, kind);
  }
}
