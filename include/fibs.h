/* The FIBS library for C and C++: lines, messages, boards, the rules, a client, what has happened, and the players that
 * the server listed.
 *
 * It opens no socket and draws no screen. Bytes of the server go in, and bytes for the server come out:
 *
 *     fibs_client client = NULL;
 *     static fibs_wire wire;                              // what is to be sent, ready with its line ends
 *     static char line[FIBS_MAX_LINE], piece[4096];
 *     fibs_heard heard;
 *     fibs_outstanding waited;
 *     ssize_t got;
 *
 *     fibs_status status = fibs_client_new(&client, name, strlen(name), password, strlen(password));
 *     if (status == FIBS_STATUS_DONE) {
 *         status = fibs_client_open(&client, &wire);      // there is a connection: the login
 *         send(server, wire.bytes, wire.len, 0);
 *     }
 *     while (status == FIBS_STATUS_DONE && (got = recv(server, piece, sizeof piece, 0)) > 0) {
 *         for (size_t at = 0; at < (size_t)got; at += heard.used) {
 *             status = fibs_client_feed(&client, piece + at, (size_t)got - at, line, sizeof line, &heard, &wire);
 *             if (status != FIBS_STATUS_DONE) {
 *                 break;
 *             }
 *             send(server, wire.bytes, wire.len, 0);      // often nothing: wire.len is 0
 *             if (heard.ended && heard.kind.kind == FIBS_KIND_BOARD) {
 *                 fibs_decision roll = { FIBS_DECISION_ROLL, 0, { { 0, 0 } } };
 *                 fibs_client_decide(&client, &roll, &wire);
 *                 send(server, wire.bytes, wire.len, 0);  // nothing if the client refused
 *             }
 *         }
 *     }
 *     fibs_client_lose(&client, &waited);                 // waited.decision: what the loss left open, never sent again
 *     fibs_client_free(&client);                          // client is NULL again
 *
 * examples/bot.c is a complete client of this kind. docs/C.md says what is proved, and what a new version may change.
 * Both are installed in share/doc/fibs.
 *
 * Handles
 * - fibs_lines, fibs_client, fibs_events and fibs_directory are opaque pointers. A handle begins as NULL, which holds
 *   nothing; `new` makes it hold something, `free` gives the memory back and makes the handle NULL.
 * - A function takes the address of a handle, and that address is not null. For a handle that is NULL `free` does
 *   nothing, and each other call but `new` answers FIBS_STATUS_NO_HANDLE, or a reason that its comment lists before it.
 * - An assignment copies the pointer and not what it points to: two handles then refer to one thing. After `free` of
 *   one the other must not be used. What is proved does not cover copies.
 * - Calls for different handles may run in different threads at the same time; calls for one handle run one at a time.
 *   Even a call that only asks takes the value out of the handle while it runs, so no handle is `const`. Functions
 *   without a handle may run anywhere and at any time, but not in a signal handler.
 *
 * Texts and rooms
 * - A text is a pointer and how many bytes it has. It needs no zero at its end. NULL with the length 0 is the empty
 *   text.
 * - `room` counts the bytes that a call may write, `count` the records; NULL with 0 is no room.
 * - What follows the bytes of a text, of a board's name or of a wire, and the rows and plays that are told, is as it
 *   was. What follows those of a fibs_name, and the steps of a decision that is told, is zeros.
 * - Every other pointer is not null. Each is valid for what its length, its room or its type says, and what a call
 *   writes through one pointer does not overlap what another pointer of that call points to.
 *
 * Statuses
 * - A call answers FIBS_STATUS_DONE, or the first reason against it, in the order in which its comment lists them.
 * - After any other status nothing was changed, and nothing was written but what the comment says.
 * - FIBS_STATUS_SHORT: the room is too short. The call wrote no byte of it. It says how much is needed, but for
 *   fibs_lines_feed and fibs_client_feed, which always need FIBS_MAX_LINE.
 * - FIBS_STATUS_MEMORY: memory ran out. Only `new`, fibs_plays, fibs_listed_play, fibs_words, fibs_events_hear and
 *   fibs_directory_note take memory.
 * - Each function returns, whatever bytes it is given, and reads and writes nothing else. Flags are 0 or 1.
 */
#ifndef FIBS_H
#define FIBS_H

#include <stddef.h>
#include <stdint.h>

#ifdef __cplusplus
extern "C" {
#endif

/* ---- Version ---- */

/* The version of this header. While the first number is 0, you have to build your program again when the second one
 * changes; the shared library's name has both. When only the third one changes, faults were mended and nothing else. */
#define FIBS_VERSION "0.4.0"
#define FIBS_VERSION_MAJOR 0
#define FIBS_VERSION_MINOR 4
#define FIBS_VERSION_PATCH 0

/* The version of the library, as FIBS_VERSION has it. */
const char *fibs_version(void);

/* ---- The greatest lengths ---- */

#define FIBS_MAX_LINE 16384      /* bytes of a line; a longer line is cut: only its first bytes are kept */
#define FIBS_MAX_BOARD 329       /* bytes of a board's line, as fibs_print_board writes it */
#define FIBS_MAX_COMMAND 512     /* bytes of a command, as fibs_decision_text writes it */
#define FIBS_MAX_WIRE 1542       /* bytes that one call hands out for the server */
#define FIBS_MAX_NAME 64         /* bytes of a name, and of a password */
#define FIBS_MAX_STATUS_NAME 14  /* bytes of the name of a status */
#define FIBS_MAX_STEPS 4         /* steps of a move */
#define FIBS_MAX_PLAYS 3060      /* plays of a board */
#define FIBS_MAX_NEXT 50         /* steps that may follow in a turn */
#define FIBS_MAX_PLAYERS 4096    /* players of a directory */
#define FIBS_MAX_EVENTS 7        /* events of one line */

/* FIBS_MAX_LINE, as the library has it. */
size_t fibs_max_line(void);

/* ---- Statuses ---- */

/* What a call answers: one of FIBS_STATUS_.. A status is a family's hundred plus the number of a refusal or a fault. */
typedef uint32_t fibs_status;

enum {
    FIBS_STATUS_DONE = 0,

    /* a client refuses */
    FIBS_STATUS_ALREADY_OPEN = 1,     /* a connection is open */
    FIBS_STATUS_OFFLINE = 2,          /* no connection is open */
    FIBS_STATUS_NOT_READY = 3,        /* the server has not sent message 1 or not message 2 on this connection */
    FIBS_STATUS_SERVER_PLAYS = 4,     /* the latest message 2 says that the server moves or bears off by itself */
    FIBS_STATUS_NO_BOARD = 5,         /* no board on which the user plays was shown on this connection */
    FIBS_STATUS_WAITING = 6,          /* a decision was sent, and no board that differs was shown since */
    FIBS_STATUS_NOT_YOURS = 7,        /* the player does not decide on this board */
    FIBS_STATUS_WRONG_KIND = 8,       /* the board's phase has no such decision, or the cube forbids it */
    FIBS_STATUS_ILLEGAL_PLAY = 9,     /* the move is not legal */
    FIBS_STATUS_NOT_ON = 10,          /* what the command turns off is not on, or the command was already sent */
    FIBS_STATUS_ALREADY_ORDERED = 11, /* there is a standing order to roll already */
    FIBS_STATUS_NOT_ORDERED = 12,     /* there is no standing order */

    /* 100 plus: what is wrong with a login or a plain command */
    FIBS_STATUS_BAD_NAME = 101,       /* a name has 1 to 64 bytes from 33 to 126, none of them a colon */
    FIBS_STATUS_BAD_TEXT = 102,       /* the text is empty, or has a byte outside 32 to 126 (a password: 33 to 126) */
    FIBS_STATUS_TOO_LONG = 103,       /* the text has more than 400 bytes, the password more than 64 */

    /* 200 plus: why a board has no position */
    FIBS_STATUS_NOT_YOU = 201,        /* the player is not `You`: the board is that of a watched game */
    FIBS_STATUS_TOO_MANY_OWN = 202,   /* the player has more than 15 checkers */
    FIBS_STATUS_TOO_MANY_OTHER = 203, /* the opponent has more than 15 checkers */

    /* 300 plus: what is wrong with a field of a line, one of FIBS_FAULT_.. */
    FIBS_STATUS_FIELD_MISSING = 301,
    FIBS_STATUS_FIELD_EXTRA = 302,
    FIBS_STATUS_FIELD_NOT_A_NUMBER = 303,
    FIBS_STATUS_FIELD_OUT_OF_RANGE = 304,
    FIBS_STATUS_FIELD_BAD_NAME = 305, /* a name, a word or a tail is not valid, or the first field is not `board` */

    /* 400 plus: why a directory took no note; other calls answer 401 too */
    FIBS_STATUS_MEMORY = 401,         /* memory ran out */
    FIBS_STATUS_FULL = 402,           /* the name is new, and the directory has FIBS_MAX_PLAYERS already */

    /* 500 plus: what this library itself answers */
    FIBS_STATUS_NO_HANDLE = 501,      /* the handle holds nothing */
    FIBS_STATUS_HELD = 502,           /* the handle already holds something, and keeps it */
    FIBS_STATUS_SHORT = 503,          /* the room is too short */
    FIBS_STATUS_NO_DECISION = 504,    /* not a decision: an unknown kind, or a move of more than FIBS_MAX_STEPS steps or
                                         of a step that does not go from 1 to 25 to a place 0 to 24 */
    FIBS_STATUS_NO_COMMAND = 505,     /* the text is not a command */
    FIBS_STATUS_NO_FIELD = 506,       /* there is no field of this number */
    FIBS_STATUS_NOTHING_WAITS = 507,  /* no decision waits */
    FIBS_STATUS_NO_PLAYER = 508,      /* the directory has no such player */
    FIBS_STATUS_NO_STATUS = 509,      /* there is no status of this number */
    FIBS_STATUS_NO_EFFECT = 510,      /* the server does not carry the decision out on the board */
    FIBS_STATUS_NO_DIRECTION = 511,   /* the direction is neither -1 nor 1 */
    FIBS_STATUS_TAKEN = 512           /* the client takes the line itself: fibs_client_decide, fibs_client_plain or a
                                         standing order; or the line decides in the game */
};

/* The name of a status, such as `NotYours`, with a zero at its end; the empty text if there is no such status. */
const char *fibs_status_name(fibs_status status);

/* The same, copied, without a zero: at most FIBS_MAX_STATUS_NAME bytes. *len is its length. NO_STATUS; SHORT, and *len
 * is set. */
fibs_status fibs_status_text(fibs_status status, char *text, size_t room, size_t *len);

/* ---- Lines ---- */

/* A reader of one stream, which gives its lines however its bytes are cut. */
typedef struct fibs_lines_held *fibs_lines;

typedef struct fibs_fed {
    size_t used;               /* how many bytes of the piece were read: up to and with the first line end, or all */
    size_t len;                /* how many bytes the line has; 0 if no line ended */
    uint8_t ended;             /* whether a line ended */
    uint8_t cut;               /* whether the line had more than FIBS_MAX_LINE bytes */
} fibs_fed;

/* Makes a reader of a stream of which nothing has come. HELD; MEMORY. */
fibs_status fibs_lines_new(fibs_lines *lines);

/* Gives the reader's memory back, and makes the handle NULL. */
void fibs_lines_free(fibs_lines *lines);

/* Reads a piece up to and with the next line end, and copies the line that ends there, if one does, into text. The text
 * has no line end, no telnet commands, and no prompts at its start. Call it again with the rest of the piece, until
 * nothing is left. SHORT if room is below FIBS_MAX_LINE; NO_HANDLE. */
fibs_status fibs_lines_feed(fibs_lines *lines, const char *piece, size_t len, char *text, size_t room, fibs_fed *fed);

/* Forgets what has come: the next byte is the first of a new stream. NO_HANDLE. */
fibs_status fibs_lines_reset(fibs_lines *lines);

/* How many bytes follow the last line end, at most FIBS_MAX_LINE. NO_HANDLE. */
fibs_status fibs_lines_held(fibs_lines *lines, size_t *len);

/* These bytes, without telnet commands: at most FIBS_MAX_LINE. *len is their number. They have a prompt of the server,
 * since no line end follows that. At the end of a file they are a last line without its end: if fibs_lines_held is not
 * 0, feed a `\n`, which gives it as a line. If it is still not 0, the file ended within a telnet command, to which the
 * `\n` went: feed another one. NO_HANDLE; SHORT, and *len is set. */
fibs_status fibs_lines_unfinished(fibs_lines *lines, char *text, size_t room, size_t *len);

/* ---- What a line says ---- */

/* The kind of a line. */
enum { FIBS_KIND_TEXT = 0, FIBS_KIND_MESSAGE = 1, FIBS_KIND_BOARD = 2, FIBS_KIND_MALFORMED = 3 };

/* What is wrong with the first wrong field of a malformed line. */
enum {
    FIBS_FAULT_NONE = 0, FIBS_FAULT_MISSING = 1, FIBS_FAULT_EXTRA = 2, FIBS_FAULT_NOT_A_NUMBER = 3,
    FIBS_FAULT_OUT_OF_RANGE = 4, FIBS_FAULT_BAD_NAME = 5
};

typedef struct fibs_kind {
    size_t field;              /* the first wrong field of a malformed line, counted from 1; else 0 */
    uint8_t kind;              /* one of FIBS_KIND_.. */
    uint8_t number;            /* the number of a message, 1 to 19, also of a malformed one; else 0 */
    uint8_t fault;             /* one of FIBS_FAULT_.. */
} fibs_kind;

/* The name of a kind, `text`, `message`, `board` or `malformed`; the empty text if there is no such kind. */
const char *fibs_kind_name(uint8_t kind);

/* The name of a fault, such as `OutOfRange`; the empty text if there is no such fault. */
const char *fibs_fault_name(uint8_t fault);

/* A line among those of fibs_read_lines. */
typedef struct fibs_line {
    size_t start;              /* where its bytes begin in the text */
    size_t len;                /* how many they are */
    fibs_kind kind;            /* what the line is; a line that was cut is a text */
    uint8_t cut;               /* whether it had more than FIBS_MAX_LINE bytes */
} fibs_line;

typedef struct fibs_told {
    size_t used;               /* how many bytes of the piece were read */
    size_t lines;              /* how many lines ended */
    size_t bytes;              /* how many bytes these have in the text */
} fibs_told;

/* Reads the lines of a piece, many in one call. It writes their texts one after another into text, and what each is
 * into rows, of which there are count. It stops at the end of the piece, when the rows are full, or when less than
 * FIBS_MAX_LINE bytes of the room are left. Call it again with the rest of the piece, until nothing is left; each call
 * begins text and rows again, and reads something if there is something. SHORT if room is below FIBS_MAX_LINE or count
 * is 0: told->used is then 0, told->bytes and told->lines are the room and the count that are needed; NO_HANDLE. */
fibs_status fibs_read_lines(fibs_lines *lines, const char *piece, size_t len, char *text, size_t room,
                            fibs_line *rows, size_t count, fibs_told *told);

/* What a line is. The line is without its line end, and was not cut. */
fibs_kind fibs_read(const char *line, size_t len);

/* The 53 fields of a board without the first, which is `board`. */
typedef struct fibs_board {
    size_t player_len;         /* at most FIBS_MAX_NAME, as is the opponent's */
    size_t opponent_len;
    char player[64];
    char opponent[64];
    int32_t number[50];        /* fields 4 to 53, by FIBS_BOARD_.. */
} fibs_board;

/* The places of a board's numbers: field n is number[n - 4]. */
enum {
    FIBS_BOARD_LENGTH = 0,                 /* of the match in points; 9999 if it is unlimited */
    FIBS_BOARD_SCORE = 1,                  /* the player's points */
    FIBS_BOARD_OPPONENT_SCORE = 2,
    FIBS_BOARD_PLACES = 3,                 /* place p, 0 to 25, is FIBS_BOARD_PLACES + p: O's checkers, or minus X's */
    FIBS_BOARD_TURN = 29,                  /* -1 X, 1 O, 0 the game is over */
    FIBS_BOARD_DICE = 30,                  /* the player's two dice, 0 if he has not rolled */
    FIBS_BOARD_OPPONENT_DICE = 32,         /* the opponent's two */
    FIBS_BOARD_CUBE = 34,
    FIBS_BOARD_MAY_DOUBLE = 35,            /* 0 or 1, as the next two */
    FIBS_BOARD_OPPONENT_MAY_DOUBLE = 36,
    FIBS_BOARD_WAS_DOUBLED = 37,           /* the opponent has just doubled */
    FIBS_BOARD_COLOUR = 38,                /* the player's: -1 X, 1 O */
    FIBS_BOARD_DIRECTION = 39,             /* -1 he plays from 24 to 1, 1 from 1 to 24 */
    FIBS_BOARD_HOME = 40,                  /* the place at which the player bears off, 0 or 25 */
    FIBS_BOARD_BAR = 41,                   /* the place of the player's bar, 0 or 25 */
    FIBS_BOARD_OFF = 42,                   /* how many checkers the player has borne off */
    FIBS_BOARD_OPPONENT_OFF = 43,
    FIBS_BOARD_ON_BAR = 44,                /* how many checkers the player has on the bar */
    FIBS_BOARD_OPPONENT_ON_BAR = 45,
    FIBS_BOARD_CAN_MOVE = 46,              /* how many checkers the player can move */
    FIBS_BOARD_FORCED_MOVE = 47,
    FIBS_BOARD_DID_CRAWFORD = 48,
    FIBS_BOARD_REDOUBLES = 49,
    FIBS_BOARD_NUMBERS = 50                /* how many numbers there are */
};

/* The fields of a line's board. FIELD_MISSING to FIELD_BAD_NAME if the line says no board: *field is then the first
 * wrong field, counted from 1, which is `board`; else it is 0. */
fibs_status fibs_read_board(const char *line, size_t len, fibs_board *board, size_t *field);

/* The one line that says the board of a line: canonical decimals, no spaces at its end, at most FIBS_MAX_BOARD bytes.
 * *printed is its length. FIELD_MISSING to FIELD_BAD_NAME if the line says no board; SHORT, and *printed is set. */
fibs_status fibs_print_board(const char *line, size_t len, char *text, size_t room, size_t *printed);

/* The line of a board, at most FIBS_MAX_BOARD bytes: of one that a call gave, or of your own. *printed is its length.
 * FIELD_MISSING to FIELD_BAD_NAME if its names and numbers are not those of a board; SHORT, and *printed is set. */
fibs_status fibs_board_line(const fibs_board *board, char *text, size_t room, size_t *printed);

/* The kinds of fields. */
enum {
    FIBS_FIELD_NAME = 1, FIBS_FIELD_WORD = 2, FIBS_FIELD_TAIL = 3, FIBS_FIELD_FLAG = 4, FIBS_FIELD_NUMBER = 5,
    FIBS_FIELD_RATING = 6, FIBS_FIELD_TEXT = 7
};

/* The name of a kind of fields, `name`, `word`, `tail`, `flag`, `number`, `rating` or `text`; the empty text if there
 * is no such kind. */
const char *fibs_field_name(uint8_t kind);

typedef struct fibs_field {
    size_t len;                /* how many bytes a name, a word, a tail or a text has; else 0 */
    uint64_t number;           /* the flag, the number, or the rating in hundredths; else 0 */
    uint8_t kind;              /* one of FIBS_FIELD_.. */
} fibs_field;

/* A field of a message, counted from 1 after the message's number (docs/FORMATS.md lists them). Its bytes are copied
 * into text. NO_FIELD if the line is no message, or the message has no such field; SHORT, and *field is set. */
fibs_status fibs_read_field(const char *line, size_t len, size_t number, fibs_field *field, char *text, size_t room);

/* ---- The rules ---- */

/* The calls of this part take a board's line: the one that came, or that of fibs_client_shown_line, fibs_effect,
 * fibs_turned or fibs_board_line. fibs_read_board gives the fields of a line. */

/* A step of one checker, in the player's own numbering, in which he goes down: from a place 1 to 24 or the bar, 25, to
 * a place 1 to 24 or off, 0. Place p of the board has the number p in it if FIBS_BOARD_DIRECTION is -1, else 25 - p. */
typedef struct fibs_step { uint8_t source, target; } fibs_step;

/* The kinds of decisions. */
enum {
    FIBS_DECISION_NONE = 0, FIBS_DECISION_ROLL = 1, FIBS_DECISION_DOUBLE = 2, FIBS_DECISION_ACCEPT = 3,
    FIBS_DECISION_REJECT = 4, FIBS_DECISION_MOVE = 5, FIBS_DECISION_RESIGN_NORMAL = 6,
    FIBS_DECISION_RESIGN_GAMMON = 7, FIBS_DECISION_RESIGN_BACKGAMMON = 8
};

/* What a player decides. */
typedef struct fibs_decision {
    uint8_t kind;              /* one of FIBS_DECISION_.. */
    uint8_t count;             /* how many steps a move has, at most FIBS_MAX_STEPS. For every other kind a call ignores
                                  it, and writes 0 */
    fibs_step steps[4];        /* the steps; those after count are ignored */
} fibs_decision;

/* The name of a kind of decision, such as `Roll`; the empty text if there is no such kind. */
const char *fibs_decision_name(uint8_t kind);

/* The phases of a board. */
enum {
    FIBS_PHASE_OVER = 1, FIBS_PHASE_ANSWER_DOUBLE = 2, FIBS_PHASE_OPPONENT_ACTS = 3, FIBS_PHASE_ROLL_OR_DOUBLE = 4,
    FIBS_PHASE_MOVE = 5, FIBS_PHASE_PASSING = 6
};

/* The name of a phase, such as `RollOrDouble`; the empty text if there is no such phase. */
const char *fibs_phase_name(uint8_t phase);

/* The phase of a board line, one of FIBS_PHASE_.. FIELD_MISSING to FIELD_BAD_NAME if the line is no board; NOT_YOU,
 * TOO_MANY_OWN, TOO_MANY_OTHER if the board has no position. */
fibs_status fibs_phase(const char *line, size_t len, uint8_t *phase);

/* DONE if the player may decide so on a board line. NO_DECISION; those of fibs_phase; NOT_YOURS, WRONG_KIND,
 * ILLEGAL_PLAY. */
fibs_status fibs_allows(const char *line, size_t len, const fibs_decision *decision);

/* The plays of a board line, each as a decision to move: for each arrangement of checkers that a legal play reaches the
 * greatest such play, the greatest first; none if the player does not move. *found is how many there are, at most
 * FIBS_MAX_PLAYS; plays has room for count. Those of fibs_phase; MEMORY; SHORT, and *found is set. */
fibs_status fibs_plays(const char *line, size_t len, fibs_decision *plays, size_t count, size_t *found);

/* The steps that may follow in a turn. */
typedef struct fibs_next {
    size_t count;              /* how many there are: none if the move is whole */
    fibs_step steps[50];       /* from the highest place down, from one place by the smaller die first; those after
                                  count are zeros */
} fibs_next;

/* A turn step by step: the steps each of which goes on to a legal move, after those of a decision to move that were
 * made; with the count 0 none was made yet. NO_DECISION if it is no move; those of fibs_phase; NOT_YOURS, WRONG_KIND,
 * ILLEGAL_PLAY if no legal move begins with the steps made. */
fibs_status fibs_next_steps(const char *line, size_t len, const fibs_decision *made, fibs_next *next);

/* The play of fibs_plays that leads to the same board as the steps that were made, which are a legal move.
 * NO_DECISION if it is no move; those of fibs_phase; NOT_YOURS, WRONG_KIND, ILLEGAL_PLAY if more has to be played;
 * MEMORY. */
fibs_status fibs_listed_play(const char *line, size_t len, const fibs_decision *made, fibs_decision *play);

/* The line of the board after the server carried out a decision on the board of a line, at most FIBS_MAX_BOARD bytes;
 * after a move with the checkers moved and hit, and the dice taken away. *printed is its length. A roll throws the dice
 * first and second; for every other decision they are ignored. Of a move nothing is asked but the turn, dice, no double
 * to answer, a checker at each source and no two opponents at each target: fibs_allows says what is legal. NO_DECISION;
 * those of fibs_phase; NO_EFFECT; SHORT, and *printed is set. */
fibs_status fibs_effect(const char *line, size_t len, const fibs_decision *decision, uint8_t first, uint8_t second,
                        char *text, size_t room, size_t *printed);

/* The line of the board of a line with the sides exchanged, as if the user were the opponent, at most FIBS_MAX_BOARD
 * bytes: its plays are the opponent's. *printed is its length. The names stay. What a board does not tell of the
 * opponent is 0: whether he was doubled, how many checkers he can move, and a forced move. FIELD_MISSING to
 * FIELD_BAD_NAME if the line says no board; SHORT, and *printed is set. */
fibs_status fibs_turned(const char *line, size_t len, char *text, size_t room, size_t *printed);

/* Whether the boards of two lines differ in what the game is (docs/FORMATS.md: fields 3 to 6, 8 to 31, 33 to 43, 46 and
 * 47): a board that differs ends the waiting of a decision. FIELD_MISSING to FIELD_BAD_NAME if one of the lines says no
 * board. */
fibs_status fibs_differs(const char *line, size_t len, const char *other, size_t other_len, uint8_t *differ);

/* Whether the board of a line says that the match is over: the game is over, and a side has the points that it is to,
 * or it is to one point. A server shows the board of the end of a game with the new score. FIELD_MISSING to
 * FIELD_BAD_NAME if the line says no board. */
fibs_status fibs_match_over(const char *line, size_t len, uint8_t *over);

/* Who may double next. */
enum { FIBS_OWNER_NOBODY = 0, FIBS_OWNER_PLAYER = 1, FIBS_OWNER_OPPONENT = 2, FIBS_OWNER_BOTH = 3 };

/* Who may double next on the board of a line, one of FIBS_OWNER_..; a side that has just doubled with a cube of its own
 * keeps it until that is answered. FIELD_MISSING to FIELD_BAD_NAME if the line says no board. */
fibs_status fibs_cube_owner(const char *line, size_t len, uint8_t *owner);

/* Whether the board of a line is of a game of the Crawford rule, in which nobody doubles: one side alone has one point to
 * go, neither side may double, and the cube was not turned. FIELD_MISSING to FIELD_BAD_NAME if the line says no board. */
fibs_status fibs_crawford(const char *line, size_t len, uint8_t *crawford);

/* The board of a line in words, a fact a row, each with a `\n`: as the program tells it at a terminal, in the player's
 * own numbers. Of a game that is watched the first row has the names of both. *size is how many bytes that are. Those
 * of fibs_phase; MEMORY; SHORT, and *size is set. */
fibs_status fibs_words(const char *line, size_t len, char *text, size_t room, size_t *size);

/* The command of a decision, such as `move 24-18`, without a line end, at most FIBS_MAX_COMMAND bytes. *len is its
 * length. direction is number[FIBS_BOARD_DIRECTION] of the board on which it is made. NO_DECISION; NO_DIRECTION; SHORT,
 * and *len is set. */
fibs_status fibs_decision_text(const fibs_decision *decision, int32_t direction, char *text, size_t room, size_t *len);

/* The decision whose command the text is, to the byte. NO_DIRECTION; NO_COMMAND. */
fibs_status fibs_read_decision(const char *text, size_t len, int32_t direction, fibs_decision *decision);

/* ---- The client ---- */

/* A client, for one connection after another. Of the one that is open it keeps what was heard, and the decision that
 * waits; of an earlier one nothing. */
typedef struct fibs_client_held *fibs_client;

/* What you have to send at once, unchanged: some commands, each with CR LF. It is empty if a call answers another
 * status than DONE. The next call overwrites it: if your socket does not take all of it (one that does not block), copy
 * the rest into a queue of your own. */
typedef struct fibs_wire {
    size_t len;                /* at most FIBS_MAX_WIRE */
    char bytes[1542];
} fibs_wire;

/* A decision, and the board on which it was made. If the decision is of the kind NONE, the board was not written. */
typedef struct fibs_outstanding {
    fibs_board board;
    fibs_decision decision;
} fibs_outstanding;

typedef struct fibs_heard {
    size_t used;               /* how many bytes of the piece were read: up to and with the first line end, or all */
    size_t len;                /* how many bytes the line has; 0 if no line ended, as are all below */
    fibs_kind kind;            /* what the line is */
    uint8_t ended;             /* whether a line ended */
    uint8_t cut;               /* whether the line had more than FIBS_MAX_LINE bytes */
    fibs_decision confirmed;   /* the decision that waited, if the line confirms it; else of the kind NONE */
    uint8_t rolled;            /* whether a standing order rolls at the line: the roll is in the wire, and waits */
} fibs_heard;

/* Makes a client that never had a connection. HELD; BAD_NAME, TOO_LONG, BAD_TEXT; MEMORY. */
fibs_status fibs_client_new(fibs_client *client, const char *name, size_t name_len, const char *password,
                            size_t password_len);

/* Gives the client's memory back, and makes the handle NULL. */
void fibs_client_free(fibs_client *client);

/* There is a connection: hands out the login. NO_HANDLE; ALREADY_OPEN. */
fibs_status fibs_client_open(fibs_client *client, fibs_wire *wire);

/* Hears a piece up to and with the next line end; copies the line that ends there, if one does, into text, and hands
 * out the commands that answer it. Call it again with the rest of the piece, until nothing is left. Without a
 * connection all bytes are dropped. SHORT if room is below FIBS_MAX_LINE; NO_HANDLE. */
fibs_status fibs_client_feed(fibs_client *client, const char *piece, size_t len, char *text, size_t room,
                             fibs_heard *heard, fibs_wire *wire);

/* DONE if the server has sent messages 1 and 2 on the open connection. Before that it may take what is sent for a name
 * or a password: send nothing but the login. NO_HANDLE; OFFLINE, NOT_READY. */
fibs_status fibs_client_ready(fibs_client *client);

/* What follows the last line end of the connection, without telnet commands: at most FIBS_MAX_LINE bytes. *len is their
 * number. A server that refuses a login sends no message: it asks again. So if nothing comes for some seconds after the
 * login, these bytes end in `login: ` and fibs_client_ready answers NOT_READY, it was refused. NO_HANDLE; SHORT, and
 * *len is set. */
fibs_status fibs_client_unfinished(fibs_client *client, char *text, size_t room, size_t *len);

/* The user decides: hands out the command, and the decision waits from then on. NO_DECISION; NO_HANDLE; OFFLINE to
 * ILLEGAL_PLAY. */
fibs_status fibs_client_decide(fibs_client *client, const fibs_decision *decision, fibs_wire *wire);

/* Hands out a command that decides nothing in the game, by its text: `who`, `tell bob hi`, `toggle automove` and so on
 * (docs/FORMATS.md). It is handed out before the login is answered too: wait for fibs_client_ready. NO_COMMAND;
 * NO_HANDLE; OFFLINE, NOT_ON; BAD_NAME, TOO_LONG, BAD_TEXT. */
fibs_status fibs_client_plain(fibs_client *client, const char *text, size_t len, fibs_wire *wire);

/* Hands out a line of your own with its line end, for what the client has no command for: `leave`, `watch bob`, `who
 * ready`, `accept` or `reject` as the answer to an offer to resign. The client does not know of it, and is as it was.
 * It refuses a line that it would take itself, and each line that decides in the game, also while a decision waits: one
 * that begins with `roll`, `move`, `double`, `redouble` or `resign`, with a shorter form of these words in any letters,
 * or with a space; and an answer, if the board that is shown has a double to be answered. TOO_LONG, BAD_TEXT;
 * NO_HANDLE; OFFLINE, TAKEN. */
fibs_status fibs_client_own_line(fibs_client *client, const char *line, size_t len, fibs_wire *wire);

/* The same of any line, also of one that decides: for a decision that waits since the server refused it by a text, and
 * that the user makes once more. What the client promises, that no decision is sent twice, does not hold of such a line:
 * the client does not know of it. TOO_LONG, BAD_TEXT; NO_HANDLE; OFFLINE. */
fibs_status fibs_client_unguarded_line(fibs_client *client, const char *line, size_t len, fibs_wire *wire);

/* Gives a standing order for this connection: at each new board on which the user is to roll and may not double the
 * client rolls by itself. NO_HANDLE; OFFLINE, ALREADY_ORDERED. */
fibs_status fibs_client_order_roll(fibs_client *client);

/* Withdraws it. A roll that it sent goes on waiting. NO_HANDLE; OFFLINE, NOT_ORDERED. */
fibs_status fibs_client_withdraw_roll(fibs_client *client);

/* Whether there is a standing order on the open connection. NO_HANDLE. */
fibs_status fibs_client_ordered(fibs_client *client, uint8_t *ordered);

/* The connection ended: nothing of it is kept. Gives the decision that waited, or one of the kind NONE. The client
 * never sends it again by itself. NO_HANDLE. */
fibs_status fibs_client_lose(fibs_client *client, fibs_outstanding *waited);

/* The board that was shown last on this connection. NO_HANDLE; NO_BOARD. */
fibs_status fibs_client_shown(fibs_client *client, fibs_board *board);

/* The line of that board, at most FIBS_MAX_BOARD bytes. *len is its length. NO_HANDLE; NO_BOARD; SHORT, and *len is
 * set. */
fibs_status fibs_client_shown_line(fibs_client *client, char *text, size_t room, size_t *len);

/* The decision that waits, with its board. NO_HANDLE; NOTHING_WAITS. */
fibs_status fibs_client_waiting(fibs_client *client, fibs_outstanding *waiting);

/* ---- What has happened ---- */

/* What the lines of a client or of a saved session say has happened, as values: so no program compares a text of the
 * server. Boards decide before texts, and what comes again says nothing new. */
typedef struct fibs_events_held *fibs_events;

/* The kinds of events, with the members of fibs_event that they have beside `kind`. */
enum {
    FIBS_EVENT_NONE = 0,
    FIBS_EVENT_LOGGED_IN = 1,             /* the server has greeted the user. name: the user */
    FIBS_EVENT_INVITED = 2,               /* to a new match. name: who invites; length */
    FIBS_EVENT_INVITED_TO_RESUME = 3,     /* to a match that was saved. name: who invites */
    FIBS_EVENT_JOINED = 4,                /* a match begins. name: the opponent; length */
    FIBS_EVENT_RESUMED = 5,               /* a match goes on that was saved. name: the opponent */
    FIBS_EVENT_GAME_BEGUN = 6,            /* name: the opponent */
    FIBS_EVENT_ROLLED = 7,                /* who, dice */
    FIBS_EVENT_PLAYED = 8,                /* who; play: a move, in the numbering of who has played */
    FIBS_EVENT_CANNOT_MOVE = 9,           /* a side has rolled, and can't move. who */
    FIBS_EVENT_DOUBLED = 10,              /* a side offers a double. who */
    FIBS_EVENT_ACCEPTED = 11,             /* a side has accepted the offer of the other. who, offer */
    FIBS_EVENT_REJECTED = 12,             /* a side has rejected a double, which ends the game. who */
    FIBS_EVENT_OFFERED_TO_RESIGN = 13,    /* who, points, worth */
    FIBS_EVENT_DECLINED = 14,             /* a side has declined that the other resigns. who */
    FIBS_EVENT_GAME_OVER = 15,            /* who: the winner; points, worth */
    FIBS_EVENT_NEXT_GAME = 16,            /* the next game of the match waits for `join` */
    FIBS_EVENT_MATCH_OVER = 17,           /* who: the winner; length, score */
    FIBS_EVENT_LEFT = 18,                 /* the match was left, and is saved. who has left it */
    FIBS_EVENT_NOT_PLAYING = 19,          /* the user plays in no match */
    FIBS_EVENT_RATING_CHANGED = 20,       /* who, rating_hundredths, experience */
    FIBS_EVENT_NOTHING_SAVED = 21,        /* no match was saved. name: with whom */
    FIBS_EVENT_REFUSED = 22,              /* the server has refused a decision: the line says why */
    FIBS_EVENT_LOGIN_REFUSED = 23         /* the server asks for the login once more: fibs_events_hear_bytes */
};

/* The name of a kind of events, such as `cannot_move`, as `fibs show --json --events` prints it; of FIBS_EVENT_NONE
 * `none`; the empty text if there is no such kind. */
const char *fibs_event_name(uint8_t kind);

/* The sides, the offers, and what a game is worth, as events have them. */
enum { FIBS_SIDE_NONE = 0, FIBS_SIDE_PLAYER = 1, FIBS_SIDE_OPPONENT = 2 };
enum { FIBS_OFFER_NONE = 0, FIBS_OFFER_DOUBLE = 1, FIBS_OFFER_RESIGNATION = 2 };
enum { FIBS_WORTH_UNKNOWN = 0, FIBS_WORTH_SINGLE = 1, FIBS_WORTH_GAMMON = 2, FIBS_WORTH_BACKGAMMON = 3 };

typedef struct fibs_name {
    size_t len;                /* at most FIBS_MAX_NAME; 0 if there is none. What follows so many bytes is zeros */
    char bytes[64];
} fibs_name;

/* Something that has happened. What an event of its kind does not have is 0. */
typedef struct fibs_event {
    uint64_t experience;       /* points of the matches that the side has played */
    fibs_name name;
    uint32_t points;           /* offered, or won */
    uint32_t length;           /* how many points a match is to; 9999 if it is unlimited */
    uint32_t score[2];         /* the points of the user, and of the opponent */
    uint32_t rating_hundredths;
    fibs_decision play;        /* of the kind MOVE, with at least one step; else of the kind NONE */
    uint8_t kind;              /* one of FIBS_EVENT_.. */
    uint8_t who;               /* one of FIBS_SIDE_.. */
    uint8_t worth;             /* one of FIBS_WORTH_..: UNKNOWN if no board has shown the cube, or the
                                * points are not one, two or three times its number */
    uint8_t offer;             /* one of FIBS_OFFER_.. */
    uint8_t dice[2];
} fibs_event;

typedef struct fibs_happened {
    size_t count;              /* how many events there are: at most FIBS_MAX_EVENTS, often none */
    fibs_event events[7];      /* in the order in which they happened; those after count are of the kind NONE */
} fibs_happened;

/* Makes events of a stream of which nothing was heard. HELD; MEMORY. */
fibs_status fibs_events_new(fibs_events *events);

/* Gives the memory back, and makes the handle NULL. */
void fibs_events_free(fibs_events *events);

/* Hears a line, and gives what has happened by it. Hear each line once, in order, over connections too, since a match
 * goes on after one is lost; leave out lines that were cut. NO_HANDLE; MEMORY. */
fibs_status fibs_events_hear(fibs_events *events, const char *line, size_t len, fibs_happened *happened);

/* Hears bytes of a connection as they come; their lines go to fibs_events_hear besides. Gives what
 * no line says: LOGIN_REFUSED, if the bytes so far end with the question for the login, which has come again before the
 * server has greeted the user; once of each. NO_HANDLE. */
fibs_status fibs_events_hear_bytes(fibs_events *events, const char *bytes, size_t len, fibs_happened *happened);

/* A connection is opened, on which the server asks for the login anew. The first one need not be told. NO_HANDLE. */
fibs_status fibs_events_open(fibs_events *events);

/* The opponent of the match that is played, or was played last: at most FIBS_MAX_NAME bytes, 0 if none is known.
 * NO_HANDLE; SHORT, and *len is set. */
fibs_status fibs_events_opponent(fibs_events *events, char *text, size_t room, size_t *len);

/* ---- Saved matches ---- */

/* A row of the answer to `show saved`. */
typedef struct fibs_saved {
    fibs_name name;            /* the opponent. If the text is no such row, name.len and all else are 0 */
    uint32_t length;           /* how many points the match is to; 9999 if it is unlimited */
    uint32_t score[2];         /* the points of the user, and of the opponent */
    uint8_t there;             /* 1 if the opponent is logged in */
} fibs_saved;

/* What a text says, such as ` *bob   5   2 -  3`, if it is such a row. */
void fibs_saved_match(const char *text, size_t len, fibs_saved *saved);

/* ---- The players that the server listed ---- */

/* The players of messages 5 and 8: each as the latest message 5 has him, in the order in which they were first listed,
 * or first listed again after a message 8. At most FIBS_MAX_PLAYERS. */
typedef struct fibs_directory_held *fibs_directory;

/* Makes a directory of no messages. HELD; MEMORY. */
fibs_status fibs_directory_new(fibs_directory *directory);

/* Gives the directory's memory back, and makes the handle NULL. */
void fibs_directory_free(fibs_directory *directory);

/* Takes note of a line that was not cut: message 5 sets the player of its name, message 8 takes him out, and every
 * other line changes nothing. NO_HANDLE; FULL; MEMORY. */
fibs_status fibs_directory_note(fibs_directory *directory, const char *line, size_t len);

/* How many players there are. NO_HANDLE. */
fibs_status fibs_directory_len(fibs_directory *directory, size_t *len);

/* Forgets all players. NO_HANDLE. */
fibs_status fibs_directory_clear(fibs_directory *directory);

/* A field of the player at a place, counted from 0: the fields are those of message 5, counted from 1 to 12. Its bytes
 * are copied into text. NO_HANDLE; NO_PLAYER; NO_FIELD; SHORT, and *field is set. */
fibs_status fibs_directory_field(fibs_directory *directory, size_t place, size_t number, fibs_field *field, char *text,
                                 size_t room);

/* The same for the player of a name. */
fibs_status fibs_directory_field_of(fibs_directory *directory, const char *name, size_t name_len, size_t number,
                                    fibs_field *field, char *text, size_t room);

/* A text of a player: so many bytes of the room, from a start. */
typedef struct fibs_part {
    size_t start;
    size_t len;
} fibs_part;

/* What message 5 says of a player. `-` stands for a name, a client or an email that is not there. */
typedef struct fibs_player {
    fibs_part name;
    fibs_part opponent;        /* whom he plays */
    fibs_part watching;        /* whom he watches */
    fibs_part hostname;        /* where he logged in from */
    fibs_part client;          /* the program that he uses */
    fibs_part email;
    uint64_t experience;       /* points of the matches that he played */
    uint64_t idle;             /* seconds since he last typed */
    uint64_t login;            /* when he logged in, in seconds since 1970 */
    uint32_t rating_hundredths;
    uint8_t ready;             /* ready to play */
    uint8_t away;
} fibs_player;

/* The player of a name. The bytes of his texts are copied into text, one after another; *len is how many they are.
 * NO_HANDLE; NO_PLAYER; SHORT, and *len is set. */
fibs_status fibs_directory_player(fibs_directory *directory, const char *name, size_t name_len, fibs_player *player,
                                  char *text, size_t room, size_t *len);

#ifdef __cplusplus
}
#endif
#endif
