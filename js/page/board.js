// Draws on the board of index.html, and says which place was clicked or where a checker was dragged.

import { BAR, OFF, placeWord } from './game.js';

const POINT = 46;
const RADIUS = 21;
const LEFT = 12;
const MIDDLE = LEFT + 6 * POINT;      // the bar begins
const RIGHT = MIDDLE + 54;            // the right half begins
const TRAY = RIGHT + 6 * POINT + 8;
const TOP = 22;
const BOTTOM = 518;
const HALF = (TOP + BOTTOM) / 2;
const HEIGHT = 540;

const shape = (name, attributes = {}, ...within) => {
  const made = document.createElementNS('http://www.w3.org/2000/svg', name);
  for (const [key, value] of Object.entries(attributes)) made.setAttribute(key, value);
  made.append(...within);
  return made;
};

const rect = (x, y, width, height, rx = 0, more = {}) => shape('rect', { x, y, width, height, rx, ...more });

/** The middle of a place in the player's numbers: 1 is at the lower right. */
const middle = (place) => {
  const column = place > 12 ? place - 13 : 12 - place;
  return (column < 6 ? LEFT + column * POINT : RIGHT + (column - 6) * POINT) + POINT / 2;
};

/** The triangle of a place. */
const triangle = (place, kind) => {
  const x = middle(place);
  const [edge, tip] = place > 12 ? [TOP, TOP + 212] : [BOTTOM, BOTTOM - 212];
  return shape('polygon', { class: kind, points: `${x - 22},${edge} ${x + 22},${edge} ${x},${tip}` });
};

/** Where a checker lies: the n-th of so many on a place. A side's own numbers. */
const spot = (side, place, n, count) => {
  const isOwn = side === 'own';
  if (place === OFF) return [TRAY + 27, isOwn ? BOTTOM - 10 - n * 14.5 : TOP + 10 + n * 14.5];
  if (place === BAR) {
    const apart = Math.min(2 * RADIUS, 120 / Math.max(count - 1, 1));
    return [MIDDLE + 27, isOwn ? HALF - 52 - n * apart : HALF + 52 + n * apart];
  }
  const here = isOwn ? place : 25 - place;
  const apart = Math.min(2 * RADIUS + 0.5, 178 / Math.max(count - 1, 1));
  return [middle(here), here > 12 ? TOP + RADIUS + 1 + n * apart : BOTTOM - RADIUS - 1 - n * apart];
};

const PIPS = { 1: [4], 2: [0, 8], 3: [0, 4, 8], 4: [0, 2, 6, 8], 5: [0, 2, 4, 6, 8], 6: [0, 2, 3, 5, 6, 8] };

/** A die of a side, at this place. */
const die = (x, value, kind) => shape('g', { class: `die ${kind}`, transform: `translate(${x} ${HALF})` },
  rect(-20, -20, 40, 40, 7),
  ...PIPS[value].map((at) => shape('circle', { cx: ((at % 3) - 1) * 11, cy: (Math.floor(at / 3) - 1) * 11, r: 3.9 })));

/** A cube that is offered, and not answered yet. */
const isOffered = (board) => board.wasDoubled && board.phase !== 'Over';

/** What the cube shows: 64 for 1 as on a real one, Cr in the Crawford game, what is offered while a double is open. */
const cubeFace = (board) => {
  if (isOffered(board)) return board.cube * 2;
  if (board.crawford) return 'Cr';
  return board.cube > 1 ? board.cube : board.cubeOwner === 'nobody' ? 1 : 64;
};

/** Where a place is clicked. */
const area = (place) => {
  const more = { class: 'place', 'data-place': place };
  if (place === BAR) return rect(MIDDLE, TOP, 54, HALF - TOP - 26, 0, more);
  if (place === OFF) return rect(TRAY - 4, HALF + 8, 62, BOTTOM - HALF - 8, 0, more);
  return rect(middle(place) - 23, place > 12 ? TOP : HALF + 14, 46, HALF - TOP - 14, 0, more);
};

/** A checker that lies nowhere. */
const checker = () => ({ place: null, made: shape('g', {}, shape('circle', { r: RADIUS, class: 'rim' }),
  shape('circle', { r: 14, class: 'ring' }), rect(-23, -6.5, 46, 13, 3)) });

export class BoardView {
  #areas = Array.from({ length: 26 }, (_, place) => area(place));
  #checkers = { other: Array.from({ length: 15 }, checker), own: Array.from({ length: 15 }, checker) };

  constructor(svg, { pick, drag, roll }) {
    this.svg = svg;
    for (const name of ['points', 'lit', 'stones', 'counts', 'arrows', 'over', 'places', 'rolls']) {
      this[name] = svg.querySelector(`.${name}`);
    }
    for (let place = 1; place <= 24; place += 1) {
      const number = { x: middle(place), y: place > 12 ? 16 : HEIGHT - 6, class: 'number', 'aria-hidden': 'true' };
      this.points.append(triangle(place, place % 2 ? 'odd' : 'even'), shape('text', number, place));
    }
    this.stones.append(...Object.values(this.#checkers).flat().map(({ made }) => made));
    this.places.append(...this.#areas);
    this.rolls.addEventListener('click', roll);
    this.#listen(pick, drag);
  }

  /** A click on a place, or a drag from one to another. */
  #listen(pick, drag) {
    const placeAt = ({ clientX, clientY }) => {
      const under = document.elementsFromPoint(clientX, clientY);
      return this.#areas.findIndex((one) => under.includes(one));
    };
    // what a screen reader does is a click without a pointer
    this.svg.addEventListener('click', ({ detail, target }) => {
      if (detail === 0 && target.dataset?.place) pick(Number(target.dataset.place));
    });
    let held = null;
    this.svg.addEventListener('pointerdown', (event) => {
      const place = placeAt(event);
      if (place >= 0 && event.button === 0) held = { place, x: event.clientX, y: event.clientY, stone: null };
    });
    window.addEventListener('pointermove', ({ clientX, clientY }) => {
      if (!held || (!held.stone && Math.hypot(clientX - held.x, clientY - held.y) < 8)) return;
      if (!held.stone && !drag(held.place, null)) { held = null; return; }
      held.stone ??= this.stones.appendChild(this.#checkers.own.findLast(({ place }) => place === held.place).made);
      held.stone.classList.add('held');
      const { x, y } = new DOMPoint(clientX, clientY).matrixTransform(this.svg.getScreenCTM().inverse());
      held.stone.style.transform = `translate(${x}px, ${y}px)`;
    });
    const drop = (event) => {
      const isUp = event.type === 'pointerup';
      const [was, to] = [held, held && isUp ? placeAt(event) : -1];
      held = null;
      was?.stone?.classList.remove('held');
      if (was?.stone) drag(was.place, to);
      else if (was && isUp) pick(was.place);
    };
    window.addEventListener('pointerup', drop);
    window.addEventListener('pointercancel', drop);
  }

  /** Lays the checkers of a side: those that stay stay, the others go the short way. */
  #lay(side, counts) {
    const wanted = [...counts];
    const laid = counts.map(() => []);
    const free = this.#checkers[side].filter((stone) => {
      if (stone.place === null || !wanted[stone.place]) return true;
      wanted[stone.place] -= 1;
      laid[stone.place].push(stone);
      return false;
    }).sort((a, b) => b.place - a.place);
    for (let place = BAR; place >= OFF; place -= 1) laid[place].push(...free.splice(0, wanted[place]));
    for (const stone of free) { stone.place = null; stone.made.style.display = 'none'; }
    laid.forEach((here, place) => here.forEach((stone, n) => {
      const [x, y] = spot(side, place, n, here.length);
      stone.place = place;
      stone.made.style.display = '';
      stone.made.style.transform = `translate(${x}px, ${y}px)`;
      stone.made.setAttribute('class', `checker ${side}${place === OFF ? ' off' : ''}`);
      if (here.length > 5 && n === here.length - 1 && place !== OFF) {
        this.counts.append(shape('text', { x, y: y + 6, class: `count ${side}` }, here.length));
      }
    }));
    return laid;
  }

  /** Draws: `board` with the position shown, what may be picked, what the opponent has played last. */
  draw({ board, position, sources, targets, picked, dice, moved, rolled, canRoll }) {
    for (const group of [this.counts, this.lit, this.arrows, this.over]) group.replaceChildren();
    this.rolls.toggleAttribute('hidden', !canRoll);
    const [own, other] = position ?? [Array(26).fill(0), Array(26).fill(0)];
    const laid = this.#lay('own', own);
    this.#lay('other', other);
    this.#areas.forEach((made, place) => {
      made.classList.toggle('source', sources.has(place));
      made.classList.toggle('target', targets.has(place));
      const theirs = place === BAR || place === OFF ? 0 : other[25 - place];
      const mine = board?.isOthers ? board.player : 'yours';
      const count = own[place] ? `${own[place]} of ${mine}` : theirs ? `${theirs} of ${board.opponent}` : 'empty';
      const isLive = sources.has(place) || targets.has(place);
      made.setAttribute('role', isLive ? 'button' : 'img');
      made.setAttribute('tabindex', isLive ? 0 : -1);
      const may = `${sources.has(place) ? ', may move' : ''}${targets.has(place) ? ', may be reached' : ''}`;
      made.setAttribute('aria-label', `${placeWord(place)}: ${count}${may}`);
    });
    for (const place of sources) laid[place].at(-1)?.made.classList.add(place === picked ? 'selected' : 'free');
    for (const [place, isFirst] of targets) {
      const goal = isFirst ? 'goal' : 'goal far';
      this.lit.append(place === OFF ? rect(TRAY, HALF + 8, 54, BOTTOM - HALF - 8, 3, { class: goal })
        : triangle(place, goal));
    }
    for (const step of moved) {
      const [[x, y], [u, v]] = step.map((place) => spot('other', place, 2, 5));
      const bend = y === v ? Math.sign(HALF - y) * Math.min(60, Math.abs(x - u) / 2) : 0;
      const d = `M${x} ${y}Q${(x + u) / 2} ${(y + v) / 2 + bend} ${u} ${v}`;
      this.arrows.append(shape('path', { d, 'marker-end': 'url(#tip)' }));
    }
    if (board) this.#rest(board, dice, rolled);
  }

  /** The dice and the cube. Of the user's dice those that are not left are used. */
  #rest(board, dice, rolled) {
    const show = (values, x, kind, isUsed = () => false) => this.over.append(...values.map((value, n) => (
      die(x + (n - (values.length - 1) / 2) * 50, value, `${kind}${isUsed(value, n) ? ' used' : ''}`))));
    const [mine, theirs] = [RIGHT + 3 * POINT, LEFT + 3 * POINT];
    const [first, second] = board.dice ?? [];
    const all = first === second ? Array(4).fill(first) : board.dice;
    const times = (list, value) => list.filter((one) => one === value).length;
    if (first) show(all, mine, 'own', (value, n) => times(all.slice(0, n), value) >= times(dice, value));
    if (board.opponentDice) show(board.opponentDice, theirs, 'other');
    else if (rolled && !board.wasDoubled) show(rolled, theirs, 'other', () => true);
    // a cube that is offered lies before him who answers
    const y = { player: BOTTOM - 26, opponent: TOP + 26 }[board.cubeOwner] ?? HALF;
    const lies = isOffered(board) ? [board.phase === 'AnswerDouble' ? mine : theirs, HALF] : [MIDDLE + 27, y];
    const kind = isOffered(board) ? 'open' : board.cubeOwner;
    this.over.append(shape('g', { class: `cube ${kind}`, transform: `translate(${lies})` },
      rect(-20, -20, 40, 40, 5), shape('text', { y: 8, 'aria-hidden': 'true' }, cubeFace(board))));
  }
}
