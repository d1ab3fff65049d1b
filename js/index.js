// A client library for FIBS, the First Internet Backgammon Server: docs/JAVASCRIPT.md; the types are in index.d.ts.
//
// A text is a string whose characters are bytes, 0 to 255, since a line of the server may have any bytes. What is given
// is such a string, or bytes: an ArrayBuffer or a view of one. Anything else is a TypeError.

import { code } from './dist/module.js';

const compiled = new WebAssembly.Module(Uint8Array.from(atob(code), (character) => character.charCodeAt(0)));

/** The longest line that is kept whole, and the longest command, name or board that is taken. */
const LIMIT = 16384;

/** How many bytes of a piece are given to the module at once. */
const PORTION = 1 << 16;

/** How many objects live in one instance of the module. */
const LIVING = 64;

// The calls of objects: js/wasm/src/lib.rs.
const [GIVE, NEXT, UNFINISHED] = [0, 1, 2];
const [RESET] = [3];
const [NOTE, GET, PLAYERS, CLEAR] = [0, 1, 2, 3];
const [HEAR, OPPONENT, HEAR_BYTES, BEGIN] = [0, 1, 2, 3];
const [FILES] = [1];
const [OPEN, DECIDE, PLAIN, ORDER, WITHDRAW, LOSE, SHOWN] = [3, 4, 5, 6, 7, 8, 9];
const [WAITING, ORDERED, LISTED, OWN_LINE, UNGUARDED, REFUSAL, STATE] = [10, 11, 12, 13, 14, 15, 16];

/** A refusal, or what is wrong with an input: `name` says which, `message` in a sentence. */
class FibsError extends Error {
  constructor(name, message) {
    super(message);
    this.name = name;
  }
}

/** What reads the length of a buffer of any page, and of nothing else. */
const lengths = [ArrayBuffer, globalThis.SharedArrayBuffer].filter(Boolean)
  .map(({ prototype }) => Object.getOwnPropertyDescriptor(prototype, 'byteLength').get);

const isBuffer = (input) => lengths.some((length) => {
  try {
    length.call(input);
    return true;
  } catch {
    return false;
  }
});

/** An input as a text of bytes, or as a Uint8Array. */
const checked = (input) => {
  if (typeof input === 'string') {
    if (/[^\0-\xff]/.test(input)) throw new FibsError('NotBytes', 'a character is no byte: its number is above 255');
    return input;
  }
  if (ArrayBuffer.isView(input)) return new Uint8Array(input.buffer, input.byteOffset, input.byteLength);
  if (isBuffer(input)) return new Uint8Array(input);
  throw new TypeError(`a string or a buffer is wanted, not ${input === null ? 'null' : typeof input}`);
};

/** An input that is one line, a command or a name. */
const short = (input) => {
  const text = checked(input);
  if (text.length > LIMIT) throw new FibsError('TooLong', `a line, a command or a name has at most ${LIMIT} bytes`);
  return text;
};

/** The same as a text. */
const asText = (input) => {
  const text = short(input);
  return typeof text === 'string' ? text : String.fromCharCode(...text);
};

const ascii = new TextDecoder();

/** An instance of the module, with the memory of its objects. */
class Instance {
  #wasm = new WebAssembly.Instance(compiled).exports;
  living = 0;

  /** Writes an input, or a part of it. A call may give the memory a new buffer: a view of it is made after the call. */
  #give(text, from, to) {
    const at = this.#wasm.input(to - from);
    const room = new Uint8Array(this.#wasm.memory.buffer, at, to - from);
    if (typeof text === 'string') {
      for (let n = 0; n < room.length; n += 1) room[n] = text.charCodeAt(from + n);
    } else {
      room.set(text.subarray(from, to));
    }
  }

  /** What a call answers to an input. A refusal is thrown. */
  ask(name, words, text = '', from = 0, to = text.length) {
    this.#give(text, from, to);
    const made = this.#wasm[name](...words);
    const found = JSON.parse(ascii.decode(new Uint8Array(this.#wasm.memory.buffer, this.#wasm.output(),
      this.#wasm.output_len())));
    if (found?.refused) throw new FibsError(found.refused, found.says);
    return made ?? found;
  }

  free(id) {
    this.#wasm.free(id);
    this.living -= 1;
  }
}

let instance = new Instance();

/** What a line says. */
const read = (line) => instance.ask('read', [], short(line));

/** The legal plays of a board, as commands. */
const plays = (line) => instance.ask('plays', [], short(line));

/** The texts of two inputs, as the module takes them. */
const both = (line, other) => `${asText(line)}\n${asText(other)}`;

/** Why a board does not allow a decision; null if it does. */
const refusal = (line, command) => instance.ask('refusal', [], both(line, command));

/** A die; of what is none, one that no server throws. */
const die = (number) => (Number.isInteger(number) && number >= 0 && number < 256 ? number : 0);

/** The board after the server carried out a decision; a roll throws the dice. */
const after = (line, command, dice = [0, 0]) => (
  instance.ask('after', [die(dice[0]), die(dice[1])], both(line, command)));

/** The board with the sides exchanged. */
const turned = (line) => instance.ask('turned', [], short(line));

/** Whether two boards differ in what the game is. */
const differs = (line, other) => instance.ask('differs', [], both(line, other));

/** What may be played on a board after these steps, and what they have led to. */
const turn = (line, steps) => instance.ask('turn', [], both(line, Array.from(steps, ({ from, to, die: by }) => (
  `${from}/${to}/${by ?? ''}`)).join(' ')));

/** The steps of a command, in the player's own numbers. */
const inOwn = (line, command) => instance.ask('in_own', [], both(line, command));

/** A board in words, a fact a row. */
const words = (line) => instance.ask('words', [], short(line));

/** A row of the list of saved matches; null if the text is no such row. */
const savedMatch = (text) => instance.ask('saved_match', [], short(text));

/** Of what is no longer named: an instance with no object that is named goes, and its memory with it. */
const forgotten = new FinalizationRegistry(({ place, id }) => place.deref()?.free(id));

/** Something that an instance keeps, until it is closed or nothing names it. */
class Kept {
  #instance;
  #id;

  constructor(make, words, text) {
    if (instance.living >= LIVING) instance = new Instance();
    this.#instance = instance;
    this.#id = instance.ask(make, words, text);
    instance.living += 1;
    forgotten.register(this, { place: new WeakRef(instance), id: this.#id }, this);
  }

  /** What is answered to a call and its input. */
  call(what, input = '', from = 0, to = input.length) {
    return this.#instance.ask('call', [this.#id, what], input, from, to);
  }

  close() {
    if (this.#id === 0) return;
    forgotten.unregister(this);
    this.#instance.free(this.#id);
    this.#id = 0;
  }
}

/** The pieces of a stream that were fed and not read yet. */
class Pieces {
  #kept;
  #pieces = [];
  #at = 0;

  constructor(kept) {
    this.#kept = kept;
  }

  /** Adds a piece that is checked. */
  add(text) {
    // a caller may use his buffer for the next piece
    if (text.length > 0) this.#pieces.push(typeof text === 'string' ? text : text.slice());
  }

  clear() {
    this.#pieces = [];
    this.#at = 0;
  }

  /** What is found next in what was fed; nothing if no further line ends. */
  next() {
    for (;;) {
      const found = this.#kept.call(NEXT);
      if (found !== null) return found;
      const [piece] = this.#pieces;
      if (piece === undefined) return undefined;
      const to = Math.min(this.#at + PORTION, piece.length);
      this.#kept.call(GIVE, piece, this.#at, to);
      this.#at = to;
      if (to === piece.length) {
        this.#pieces.shift();
        this.#at = 0;
      }
    }
  }
}

/** The lines of a stream that comes in pieces. */
class Lines {
  #kept = new Kept('new_lines', []);
  #pieces = new Pieces(this.#kept);
  // some lines are read at once: a line changes nothing but what is unfinished after it, which is nothing
  #found = [];
  #taken = 0;

  feed(piece) {
    const text = checked(piece);
    this.#kept.call(UNFINISHED);
    this.#pieces.add(text);
    return this.#lines();
  }

  *#lines() {
    for (;;) {
      if (this.#taken === this.#found.length) {
        [this.#found, this.#taken] = [this.#pieces.next(), 0];
        if (this.#found === undefined) {
          this.#found = [];
          return;
        }
      }
      this.#taken += 1;
      yield this.#found[this.#taken - 1];
    }
  }

  get unfinished() {
    const found = this.#kept.call(UNFINISHED);
    return this.#taken < this.#found.length ? '' : found;
  }

  reset() {
    this.#kept.call(RESET);
    this.#pieces.clear();
    [this.#found, this.#taken] = [[], 0];
  }

  close() { this.#kept.close(); }
}

/** The players that the server listed. */
class Directory {
  #kept = new Kept('new_directory', []);

  note(line) { this.#kept.call(NOTE, short(line)); }
  get(name) { return this.#kept.call(GET, short(name)); }
  get players() { return this.#kept.call(PLAYERS); }
  clear() { this.#kept.call(CLEAR); }
  close() { this.#kept.close(); }
}

/** What lines say has happened. */
class Events {
  #kept = new Kept('new_events', []);

  hear(line) { return this.#kept.call(HEAR, short(line)); }

  hearBytes(piece) {
    const [text, found] = [checked(piece), []];
    for (let at = 0; at < text.length; at += PORTION) {
      found.push(...this.#kept.call(HEAR_BYTES, text, at, Math.min(at + PORTION, text.length)));
    }
    return found;
  }

  open() { this.#kept.call(BEGIN); }
  get opponent() { return this.#kept.call(OPPONENT); }
  close() { this.#kept.close(); }
}

/** Match files of the lines of a session. */
class MatchFiles {
  #kept;

  constructor(name) { this.#kept = new Kept('new_match_files', [], short(name)); }

  hear(line) { this.#kept.call(HEAR, short(line)); }
  get files() { return this.#kept.call(FILES); }
  close() { this.#kept.close(); }
}

/** A client: it is given what comes, and says what is to be sent. */
class Client {
  #kept;
  #pieces;
  #isOpen = false;

  constructor(name, password) {
    const [first, second] = [name, password].map(asText);
    this.#kept = new Kept('new_client', [first.length], first + second);
    this.#pieces = new Pieces(this.#kept);
  }

  open() {
    const sent = this.#kept.call(OPEN);
    this.#isOpen = true;
    return sent;
  }

  feed(piece) {
    const text = checked(piece);
    this.#kept.call(UNFINISHED);
    // without a connection all bytes are dropped
    if (this.#isOpen) this.#pieces.add(text);
    return this.#lines();
  }

  *#lines() {
    for (let heard = this.#pieces.next(); heard !== undefined; heard = this.#pieces.next()) yield heard;
  }

  lose() {
    const lost = this.#kept.call(LOSE);
    this.#isOpen = false;
    this.#pieces.clear();
    return lost;
  }

  decide(command) { return this.#kept.call(DECIDE, short(command)); }
  plain(command) { return this.#kept.call(PLAIN, short(command)); }
  ownLine(line) { return this.#kept.call(OWN_LINE, short(line)); }
  unguardedLine(line) { return this.#kept.call(UNGUARDED, short(line)); }
  refusal(command) { return this.#kept.call(REFUSAL, short(command)); }
  get state() { return this.#kept.call(STATE); }
  get ready() { return ['ready', 'serverPlays'].includes(this.state); }
  orderRoll() { this.#kept.call(ORDER); }
  withdrawRoll() { this.#kept.call(WITHDRAW); }
  get shown() { return this.#kept.call(SHOWN); }
  get waiting() { return this.#kept.call(WAITING); }
  get ordered() { return this.#kept.call(ORDERED); }
  get unfinished() { return this.#kept.call(UNFINISHED); }
  get players() { return this.#kept.call(LISTED); }
  close() { this.#kept.close(); }
}

export {
  Client, Directory, Events, FibsError, Lines, MatchFiles, after, differs, inOwn, plays, read, refusal, savedMatch,
  turn, turned, words,
};
