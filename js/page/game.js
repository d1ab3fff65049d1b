// A turn: the steps that the player has picked, and where a checker may go. Which are legal the package knows. All
// places are in the player's own numbers: 24 to 1, the bar is 25, off is 0.

import { turn } from '../index.js';

export const BAR = 25;
export const OFF = 0;

/** A place as a player says it. */
export const placeWord = (place) => (place === BAR ? 'bar' : place === OFF ? 'off' : String(place));

/** Steps as a player says them. */
export const said = (steps) => steps.map(({ from, to }) => `${placeWord(from)}/${placeWord(to)}`).join(' ');

/** The opponent's steps, which are in his numbers, in the user's: the bar and off are his. */
export const otherSaid = (steps) => said(steps.map(([from, to]) => (
  { from: from === BAR ? BAR : 25 - from, to: to === OFF ? OFF : 25 - to })));

/** The turn on a board of the phase Move: the steps that were played, and what may follow (`now`). */
export class Turn {
  steps = [];

  constructor(line) { Object.assign(this, { line, now: turn(line, []) }); }
  #go(steps) { Object.assign(this, { steps, now: turn(this.line, steps) }); }

  /** The step of a place by the larger die, if there is a legal one. */
  stepFrom(place) { return this.now.next.findLast(({ from }) => from === place); }

  /** Where a checker may go: the place, and the steps that lead there. A place with two ways that differ has the first
   * step alone. */
  targets(from) {
    const found = new Map();
    const follow = (next, place, path) => {
      for (const step of next.filter((one) => one.from === place)) {
        const way = [...path, step];
        const then = turn(this.line, [...this.steps, ...way]);
        const key = String(then.checkers);
        const old = found.get(step.to);
        if (!old || old.way.length > way.length) found.set(step.to, { way, key, differs: false });
        else if (old.way.length === way.length && old.key !== key) old.differs = true;
        if (step.to !== OFF) follow(then.next, step.to, way);
      }
    };
    follow(this.now.next, from, []);
    return new Map([...found].filter(([, { way, differs }]) => way.length === 1 || !differs)
      .map(([to, { way }]) => [to, way]));
  }

  take(way) { this.#go([...this.steps, ...way]); }
  undo() { this.#go(this.steps.slice(0, -1)); }
}
