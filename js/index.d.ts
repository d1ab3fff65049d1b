/** Bytes: a string whose characters are bytes, 0 to 255, or the bytes themselves. Anything else is a TypeError. */
export type Bytes = string | ArrayBufferView | ArrayBufferLike;

export type Fault = 'Missing' | 'Extra' | 'NotANumber' | 'OutOfRange' | 'BadName';
export type Phase = 'Over' | 'AnswerDouble' | 'OpponentActs' | 'RollOrDouble' | 'Move' | 'Passing';
export type Side = 'player' | 'opponent';
type Pair = [number, number];

/** A board. Of a pair the first is the player's, the second the opponent's. */
export interface Board {
  kind: 'board';
  /** The line that says it. */
  line: string;
  player: string;
  opponent: string;
  /** Points of the match; null if it is unlimited. */
  length: number | null;
  score: Pair;
  /** 1 plays O, -1 plays X. */
  colour: 1 | -1;
  /** -1 goes from 24 to 1, 1 from 1 to 24. */
  direction: 1 | -1;
  /** Null if the game is over. */
  turn: Side | null;
  dice: Pair | null;
  opponentDice: Pair | null;
  cube: number;
  mayDouble: boolean;
  opponentMayDouble: boolean;
  wasDoubled: boolean;
  /** Who may double next; a side that has just redoubled keeps the cube until that is answered. */
  cubeOwner: Side | 'middle' | 'nobody';
  /** Whether the game is that of the Crawford rule, in which nobody doubles. */
  crawford: boolean;
  /** Whether the game is over, and the match with it. */
  matchOver: boolean;
  /** How many checkers each side has borne off. */
  off: Pair;
  /** Whether it is a board of a game that the user watches: then the phase, the checkers and the pips are those that
   * its player sees. */
  isOthers: boolean;
  /** Null if a side has too many checkers. */
  phase: Phase | null;
  /** Why the board has no position on which the user plays: that of others has none. */
  noPosition: 'NotYou' | 'TooManyOwn' | 'TooManyOther' | null;
  /** Each side's checkers in its own numbers: those borne off, the places 1 to 24, the bar. Null as the phase is. */
  checkers: [number[], number[]] | null;
  /** How many pips each side has to go. Null as the phase is. */
  pips: Pair | null;
}

export interface OwnInfo {
  message: 'ownInfo'; number: 2;
  name: string; redoubles: string; timezone: string; experience: number; rating: number; ratingHundredths: number;
  allowpip: boolean; autoboard: boolean; autodouble: boolean; automove: boolean; away: boolean; bell: boolean;
  crawford: boolean; double: boolean; greedy: boolean; moreboards: boolean; moves: boolean; notify: boolean;
  ratings: boolean; ready: boolean; report: boolean; silent: boolean;
}

/** A player. An opponent, one who is watched, a client or an email that is not there is null. */
export interface Player {
  name: string; opponent: string | null; watching: string | null; ready: boolean; away: boolean;
  rating: number; ratingHundredths: number; experience: number; idle: number; login: number;
  hostname: string; client: string | null; email: string | null;
}

/** A message of the server. A number above 2^53 is the nearest that JavaScript has. */
export type Message = { kind: 'message' } & (
  | { message: 'welcome'; number: 1; name: string; lastLogin: number; lastHost: string }
  | OwnInfo
  | { message: 'motdBegin'; number: 3 }
  | { message: 'motdEnd'; number: 4 }
  | { message: 'whoInfo'; number: 5 } & Player
  | { message: 'whoInfoEnd'; number: 6 }
  | { message: 'login'; number: 7; name: string; text: string }
  | { message: 'logout'; number: 8; name: string; text: string }
  | { message: 'messageReceived'; number: 9; sender: string; time: number; text: string }
  | { message: 'messageDelivered'; number: 10; name: string }
  | { message: 'messageSaved'; number: 11; name: string }
  | { message: 'says'; number: 12; name: string; text: string }
  | { message: 'shouts'; number: 13; name: string; text: string }
  | { message: 'whispers'; number: 14; name: string; text: string }
  | { message: 'kibitzes'; number: 15; name: string; text: string }
  | { message: 'youSay'; number: 16; name: string; text: string }
  | { message: 'youShout'; number: 17; text: string }
  | { message: 'youWhisper'; number: 18; text: string }
  | { message: 'youKibitz'; number: 19; text: string }
);

/** What a line says. */
export type Reading =
  | Board
  | Message
  | { kind: 'text'; text: string }
  | { kind: 'malformed'; number: number; field: number; fault: Fault };

/** A line of a stream: at most 16,384 bytes; `cut` if it had more. */
export interface Line { text: string; cut: boolean; reading: Reading }

/** A decision that waits, and the line of the board on which it was made. */
export interface Outstanding { command: string; board: string }

/** Why a board does not allow a decision. */
export type Disallowed = 'NotYours' | 'WrongKind' | 'IllegalPlay';

/** Why a client refuses. */
export type Refusal = Disallowed | 'AlreadyOpen' | 'Offline' | 'NotReady' | 'ServerPlays' | 'NoBoard' | 'Waiting'
  | 'NotOn' | 'AlreadyOrdered' | 'NotOrdered';

/** A line that a client has heard. */
export interface Heard extends Line {
  /** The decision that the line, a board, confirms. */
  confirmed: Outstanding | null;
  /** Whether the standing order to roll has rolled. */
  rolled: boolean;
  /** What is to be sent now, with its line ends; often nothing. */
  send: string;
}

/** A refusal, or what is wrong with an input: `name` says which, `message` in a sentence. */
export class FibsError extends Error {
  name: Refusal | Fault | 'NotYou' | 'TooManyOwn' | 'TooManyOther' | 'BadText' | 'TooLong' | 'NotBytes' | 'Full'
    | 'Memory' | 'NotADecision' | 'NotPlain' | 'Taken' | 'NoEffect' | 'Closed';
}

/** What a line says. */
export function read(line: Bytes): Reading;

/** The legal plays of a board, as commands, the greatest first. */
export function plays(line: Bytes): string[];

/** Why a board does not allow a decision, as `roll` or `move 8-5 6-5`; null if it does. */
export function refusal(line: Bytes, command: Bytes): Disallowed | null;

/** A step of a checker, in the player's own numbers: 25 is the bar, 0 is off. */
export interface Step { from: number; to: number; die: number; hits: boolean }

/** What may be played on a board of the phase `Move` after some steps. */
export interface Turn {
  /** Each side's checkers in its own numbers after the steps, as `checkers` of a board. */
  checkers: [number[], number[]];
  /** The dice that are left: after a roll of doubles up to four. */
  dice: number[];
  /** The steps that may follow, each of which goes on to a legal play; none if the play is whole. A checker that either
   * die bears off is there with each, the smaller first. */
  next: Step[];
  /** The play of `plays` that leads to the same arrangement; null if more has to be played. */
  command: string | null;
}

/** What may be played on a board after these steps. A step without a die takes the smallest that it can be taken by.
 * Steps that go on to no legal play are refused (`IllegalPlay`), and so is a board of another phase (`NotYours`,
 * `WrongKind`). */
export function turn(board: Bytes, steps: { from: number; to: number; die?: number }[]): Turn;

/** The steps of a command `move 8-5 6-5` in the player's own numbers. Another decision has none. */
export function inOwn(board: Bytes, command: Bytes): { from: number; to: number }[];

/** A board in words, a fact a row, in the player's own numbers: what a terminal tells of it. */
export function words(board: Bytes): string[];

/** A row of the answer to `show saved`: the opponent, the length of the match, which is null if it is unlimited, the
 * points of the user and of the opponent, and whether the opponent is logged in. Null if the text is no such row. */
export function savedMatch(text: Bytes):
  { name: string; length: number | null; score: Pair; isThere: boolean } | null;

/** The board after the server carried out a decision; a roll throws the dice. A play need not be legal. */
export function after(line: Bytes, command: Bytes, dice?: Pair): Board;

/** The same board with the sides exchanged, as if the user were the opponent: its plays are the opponent's. */
export function turned(line: Bytes): Board;

/** Whether two boards differ in what the game is: then the other one ends the waiting of a decision on the first. */
export function differs(line: Bytes, other: Bytes): boolean;

/** The lines of a stream that comes in pieces. */
export class Lines {
  /** The lines that end in a piece, each read when it is taken. Those that are left come first in the next call. */
  feed(piece: Bytes): IterableIterator<Line>;
  /** What follows the last line end. */
  get unfinished(): string;
  /** Forgets it. */
  reset(): void;
  close(): void;
}

/** The players that the server listed. */
export class Directory {
  /** Notes a line of the server; one that says nothing of a player changes nothing. */
  note(line: Bytes): void;
  get(name: Bytes): Player | null;
  get players(): Player[];
  clear(): void;
  close(): void;
}

type Worth = 'single' | 'gammon' | 'backgammon' | null;

/** What has happened. The places of steps are in the numbers of the one who plays: 25 is the bar, 0 is off. */
export type Event =
  | { event: 'loggedIn' | 'invitedToResume' | 'resumed' | 'gameBegun' | 'nothingSaved'; name: string }
  /** `length` is null if the match is unlimited. */
  | { event: 'invited' | 'joined'; name: string; length: number | null }
  | { event: 'rolled'; who: Side; dice: Pair }
  | { event: 'played'; who: Side; steps: Pair[] }
  | { event: 'cannotMove' | 'doubled' | 'rejected' | 'declined' | 'left'; who: Side }
  | { event: 'accepted'; who: Side; offer: 'double' | 'resignation' }
  /** `worth` is null if no board of the game is known, or the points are not one, two or three times its cube. */
  | { event: 'offeredToResign' | 'gameOver'; who: Side; points: number; worth: Worth }
  /** The score of the player, and of the opponent. */
  | { event: 'matchOver'; who: Side; length: number; score: Pair }
  /** The server has refused the login: it asks for it once more. */
  | { event: 'loginRefused' }
  | { event: 'nextGame' | 'notPlaying' }
  | { event: 'ratingChanged'; who: Side; rating: number; ratingHundredths: number; experience: number }
  | { event: 'refused'; text: string };

/** What lines say has happened. Boards decide before texts, and nothing is told twice for a line that comes again. */
export class Events {
  /** What a line says; hear each once, in order, over connections too, but none that was cut. */
  hear(line: Bytes): Event[];
  /** What no line says: that the login was refused. Give it each piece as it comes: the question has to be its end. */
  hearBytes(piece: Bytes): Event[];
  /** A connection is opened, on which the server asks for the login anew. The first one need not be told. */
  open(): void;
  /** The opponent of the match that is played, or was last; empty if none is known. */
  get opponent(): string;
  close(): void;
}

/** Match files of a session, in the format of Jellyfish, which GNU Backgammon imports. */
export class MatchFiles {
  /** The user's name, which the greeting of the server replaces. */
  constructor(name: Bytes);
  /** Hears a line; hear each once, in order, over connections too, but none that was cut. */
  hear(line: Bytes): void;
  /** A file for each match that can be told, in the order in which they began. */
  get files(): { opponent: string; text: string }[];
  close(): void;
}

/** A client: it is given what comes, and says what is to be sent, as it is. It opens no connection. */
export class Client {
  constructor(name: Bytes, password: Bytes);
  /** A connection was made: the login. */
  open(): string;
  /** The lines that end in a piece, and what is to be sent after each. A line is heard when it is taken; those that are
   * left come first in the next call. Without a connection all bytes are dropped. */
  feed(piece: Bytes): IterableIterator<Heard>;
  /** A decision, as `roll` or `move 8-5 6-5`. It then waits. */
  decide(command: Bytes): string;
  /** Another command, as `say hello`. */
  plain(command: Bytes): string;
  /** A line of your own: `leave`, `watch bob`, `accept` or `reject` as the answer to an offer to resign. The client
   * does not know of it. A line that it would take itself, or that decides in the game, is refused (`Taken`). */
  ownLine(line: Bytes): string;
  /** Any line: for a decision that waits since the server refused it by a text, and that the user makes once more. What
   * the client promises of decisions does not hold of it. */
  unguardedLine(line: Bytes): string;
  /** Why `decide` would refuse the command now; null if it would take it. */
  refusal(command: Bytes): Refusal | null;
  /** The state of the connection. While it is `login` the server may take what is sent for a name or a password. */
  get state(): 'offline' | 'login' | 'ready' | 'serverPlays';
  /** Whether the login is answered. */
  get ready(): boolean;
  /** From now on it rolls by itself on a board on which the player may not double. */
  orderRoll(): void;
  withdrawRoll(): void;
  /** The connection was lost: the decision that still waited. It is never sent again by itself. */
  lose(): Outstanding | null;
  /** The board that was shown last on this connection. */
  get shown(): Board | null;
  get waiting(): Outstanding | null;
  get ordered(): boolean;
  get unfinished(): string;
  /** The players that the server listed on this connection. */
  get players(): Player[];
  close(): void;
}
