// What is known of the user's match, and of what he is asked: events tell it, and a board ends what an event began.

/** What a game leaves behind when another one begins: the opponent's last play, in his numbers, and his dice; his offer
 * to resign, and whether the user has made one; what waits on though a text declined it; and if it goes on unseen. */
const NO_GAME = { moved: [], rolled: null, offer: null, isOffered: false, declined: null, isResumed: false };

export class Match {
  /** The opponent, who is null before the first match, and with whom a match is to be resumed. */
  opponent = null;
  resumes = null;
  /** A game is over, and the next one may begin. The match is over, or one has left it. */
  next = null;
  over = null;
  /** Who invites: to how many points, `unlimited`, or null to resume. */
  invitations = new Map();

  constructor() { Object.assign(this, NO_GAME); }

  /** A connection was lost: what was asked there is asked no more. */
  lose() {
    Object.assign(this, NO_GAME, { next: null, resumes: null });
    this.invitations.clear();
  }

  /** The user asks for the match with this player again. */
  resume(name) {
    Object.assign(this, NO_GAME, { next: null, over: null, resumes: name });
  }

  #begin(name, isResumed) {
    this.lose();
    Object.assign(this, { opponent: name, over: null, isResumed });
  }

  /** A board of the user's own game came. `isWaiting`: a decision still waits for another board. */
  see(board, isWaiting) {
    const endedUnseen = this.isResumed && board.phase === 'Over' && !board.matchOver;
    Object.assign(this, { opponent: board.opponent, resumes: null, isResumed: false }, endedUnseen && { next: {} });
    if (!isWaiting) this.declined = null;
    if (isWaiting || board.phase === 'Over') return;
    this.next = null;
    if (this.over?.event === 'gameOver') this.over = null;
  }

  /** Takes what has happened. `waiting`: the command that waits, if one does. Returns a command that follows from what
   * the user has asked for, or null. */
  learn(found, waiting) {
    const isOpponent = found.who === 'opponent';
    switch (found.event) {
      case 'offeredToResign': Object.assign(this, isOpponent ? { offer: found } : { isOffered: true }); break;
      case 'declined':
        Object.assign(this, isOpponent ? { isOffered: false, declined: waiting } : { offer: null });
        break;
      case 'refused': this.declined = waiting; break;
      case 'invited': this.invitations.set(found.name, found.length ?? 'unlimited'); break;
      case 'invitedToResume':
        if (this.resumes === found.name) return `join ${found.name}`;
        this.invitations.set(found.name, null);
        break;
      case 'joined': case 'resumed': case 'gameBegun': this.#begin(found.name, found.event === 'resumed'); break;
      case 'played': if (isOpponent) this.moved = found.steps; break;
      case 'rolled': if (isOpponent) Object.assign(this, { rolled: found.dice, moved: [] }); break;
      case 'cannotMove': if (isOpponent) this.moved = []; break;
      case 'gameOver': case 'matchOver': case 'left': Object.assign(this, NO_GAME, { next: null, over: found }); break;
      case 'nextGame': Object.assign(this, { next: this.over ?? this.next ?? {}, over: null }); break;
      case 'nothingSaved': if (this.resumes) Object.assign(this, NO_GAME, { resumes: null, over: found }); break;
      case 'notPlaying': if (this.resumes) return `invite ${this.resumes}`; break;
      default:
    }
    return null;
  }
}
