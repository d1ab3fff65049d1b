/* What a call writes: each out-parameter is filled with a pattern, each status of each function is got, and then just
 * those are other than the pattern that the header names. Texts and rooms of NULL and 0 are used if they serve.
 */
#include "outs.h"

#include <stdbool.h>
#include <stddef.h>
#include <stdio.h>

static int passed, failed;

static void check(bool holds, const char *what) {
    if (holds) {
        passed++;
    } else {
        printf("FAILED %s\n", what);
        failed++;
    }
}

/* A call has answered so and written just these; then all are filled again. */
static void is(const char *what, fibs_status wanted, fibs_status got, unsigned members) {
    unsigned found = written();
    if (wanted != got || found != members) {
        printf("FAILED %s: %s and %x, but %s and %x were wanted\n", what, fibs_status_name(got), found,
               fibs_status_name(wanted), members);
        failed++;
    } else {
        passed++;
    }
    fill();
}

/* The same for a call that hands out for the server: if it is refused the wire is empty, and its bytes stay. */
static void sends(const char *what, fibs_status wanted, fibs_status got, unsigned members) {
    bool is_empty = out.wire.len == 0 && memcmp(out.wire.bytes, pattern.wire.bytes, sizeof out.wire.bytes) == 0;
    check(out.wire.len <= FIBS_MAX_WIRE && (got == FIBS_STATUS_DONE || is_empty), what);
    size_t len = out.wire.len;
    check(len <= FIBS_MAX_WIRE
          && memcmp(out.wire.bytes + len, pattern.wire.bytes + len, FIBS_MAX_WIRE - len) == 0,
          "what follows the commands is as it was");
    is(what, wanted, got, members | WIRE);
}

#define S(name) FIBS_STATUS_##name
#define T(text) text, strlen(text)

static const char board[] =
    "board:You:someplayer:3:0:1:0:-2:0:0:0:0:5:0:3:0:0:0:-5:5:0:0:0:-3:0:-5:0:0:0:0:2:0:1:6:2:0:0:1:1:1:0:1:-1:0:"
    "25:0:0:0:0:2:0:0:0";
static const char to_roll[] =
    "board:You:someplayer:3:0:1:0:-2:0:0:0:0:5:0:3:0:0:0:-5:5:0:0:0:-3:0:-5:0:0:0:0:2:0:1:0:0:0:0:1:1:1:0:1:-1:0:"
    "25:0:0:0:0:2:0:0:0";
static const char theirs[] =
    "board:You:someplayer:3:0:1:0:-2:0:0:0:0:5:0:3:0:0:0:-5:5:0:0:0:-3:0:-5:0:0:0:0:2:0:-1:0:0:6:2:1:1:1:0:1:-1:"
    "0:25:0:0:0:0:2:0:0:0";
/* the same with the sides exchanged */
static const char turned[] =
    "board:You:someplayer:3:1:0:0:-2:0:0:0:0:5:0:3:0:0:0:-5:5:0:0:0:-3:0:-5:0:0:0:0:2:0:-1:6:2:0:0:1:1:1:0:-1:1:"
    "25:0:0:0:0:0:0:0:0:0";
/* after 24-18 13-11 the opponent has rolled 4 and 1 */
static const char theirs_moved[] =
    "board:You:someplayer:3:0:1:0:-2:0:0:0:0:5:0:3:0:0:1:-5:4:0:0:0:-3:1:-5:0:0:0:0:1:0:-1:0:0:4:1:1:1:1:0:1:-1:"
    "0:25:0:0:0:0:0:0:0:0";
static const char watched[] =
    "board:bob:someplayer:3:0:1:0:-2:0:0:0:0:5:0:3:0:0:0:-5:5:0:0:0:-3:0:-5:0:0:0:0:2:0:1:6:2:0:0:1:1:1:0:1:-1:0:"
    "25:0:0:0:0:2:0:0:0";
static const char too_many[] =
    "board:You:someplayer:3:0:1:0:15:15:0:0:0:5:0:3:0:0:0:-5:5:0:0:0:-3:0:-5:0:0:0:0:2:0:1:6:2:0:0:1:1:1:0:1:-1:"
    "0:25:0:0:0:0:2:0:0:0";
static const char too_many_theirs[] =
    "board:You:someplayer:3:0:1:0:-15:-15:0:0:0:5:0:3:0:0:0:-5:5:0:0:0:-3:0:-5:0:0:0:0:2:0:1:6:2:0:0:1:1:1:0:1:"
    "-1:0:25:0:0:0:0:2:0:0:0";
static const char ready[] = "1 myself 1041253132 192.168.1.308\n"
    "2 myself 1 1 0 0 0 0 1 1 2396 0 1 0 1 3457.85 0 0 0 0 0 Australia/Melbourne\n";
static const char ready_automove[] = "1 myself 1041253132 192.168.1.308\n"
    "2 myself 1 1 0 1 0 0 1 1 2396 0 1 0 1 3457.85 0 0 0 0 0 Australia/Melbourne\n";
static const char player[] = "5 someplayer mgnu_advanced - 0 0 1912.15 827 8 1040515752 192.168.143.5 3DFiBs -";

static const fibs_decision roll = { FIBS_DECISION_ROLL, 0, { { 0, 0 } } };
static const fibs_decision none = { FIBS_DECISION_NONE, 0, { { 0, 0 } } };
static const fibs_decision no_step = { FIBS_DECISION_MOVE, 0, { { 0, 0 } } };
static const fibs_decision illegal = { FIBS_DECISION_MOVE, 1, { { 24, 23 } } };

static void check_names(void) {
    is("a status's name", S(DONE), fibs_status_text(S(HELD), out.text, sizeof out.text, &out.size), TEXT | SIZE);
    is("no room for it", S(SHORT), fibs_status_text(S(HELD), out.text, 3, &out.size), SIZE);
    is("no room at all", S(SHORT), fibs_status_text(S(HELD), NULL, 0, &out.size), SIZE);
    is("no status", S(NO_STATUS), fibs_status_text(99, out.text, sizeof out.text, &out.size), NOTHING);
}

static void check_lines(void) {
    fibs_lines lines = NULL;
    for (int round = 0; round < 2; round++) {
        is("feed of none", S(NO_HANDLE), fibs_lines_feed(&lines, T("a\n"), out.text, sizeof out.text, &out.fed),
           NOTHING);
        is("many of none", S(NO_HANDLE),
           fibs_read_lines(&lines, T("a\n"), out.text, sizeof out.text, out.rows, 3, &out.told), NOTHING);
        is("reset of none", S(NO_HANDLE), fibs_lines_reset(&lines), NOTHING);
        is("held of none", S(NO_HANDLE), fibs_lines_held(&lines, &out.size), NOTHING);
        is("unfinished of none", S(NO_HANDLE), fibs_lines_unfinished(&lines, out.text, sizeof out.text, &out.size),
           NOTHING);
        is("new", S(DONE), fibs_lines_new(&lines), NOTHING);
        fibs_lines held = lines;
        is("new of one", S(HELD), fibs_lines_new(&lines), NOTHING);
        check(lines != NULL && lines == held, "it stays");
        is("no room for a line", S(SHORT),
           fibs_lines_feed(&lines, T("a\n"), out.text, FIBS_MAX_LINE - 1, &out.fed), NOTHING);
        is("no room", S(SHORT), fibs_lines_feed(&lines, T("a\n"), NULL, 0, &out.fed), NOTHING);
        is("no room for many", S(SHORT),
           fibs_read_lines(&lines, T("a\n"), out.text, FIBS_MAX_LINE - 1, out.rows, 3, &out.told), TOLD);
        is("no rows", S(SHORT), fibs_read_lines(&lines, T("a\n"), out.text, sizeof out.text, NULL, 0, &out.told), TOLD);
        is("no piece", S(DONE), fibs_lines_feed(&lines, NULL, 0, out.text, sizeof out.text, &out.fed), FED);
        is("no piece for many", S(DONE),
           fibs_read_lines(&lines, NULL, 0, out.text, sizeof out.text, out.rows, 3, &out.told), TOLD);
        is("half a line", S(DONE), fibs_lines_feed(&lines, T("a"), out.text, sizeof out.text, &out.fed), FED);
        is("half of many", S(DONE),
           fibs_read_lines(&lines, T("b"), out.text, sizeof out.text, out.rows, 3, &out.told), TOLD);
        fibs_lines_feed(&lines, T("c\nd"), out.text, sizeof out.text, &out.fed);
        check(out.fed.used == 2 && out.fed.len == 3 && out.fed.ended == 1 && out.fed.cut == 0, "a line is told");
        check(memcmp(out.text, "abc", 3) == 0 && memcmp(out.text + 3, pattern.text + 3, sizeof out.text - 3) == 0,
              "just its bytes are written");
        fill();
        fibs_read_lines(&lines, T("d\ne\n"), out.text, sizeof out.text, out.rows, 3, &out.told);
        check(out.told.used == 4 && out.told.lines == 2 && out.told.bytes == 2, "two lines are told");
        check(memcmp(out.text, "de", 2) == 0 && memcmp(out.text + 2, pattern.text + 2, sizeof out.text - 2) == 0,
              "just their bytes are written");
        check(memcmp(&out.rows[2], &pattern.rows[2], sizeof out.rows[2]) == 0, "just their rows are written");
        fill();
        is("held", S(DONE), fibs_lines_held(&lines, &out.size), SIZE);
        is("nothing is unfinished", S(DONE), fibs_lines_unfinished(&lines, NULL, 0, &out.size), SIZE);
        fibs_lines_feed(&lines, T("\377\373\1login: "), out.text, sizeof out.text, &out.fed);
        fill();
        is("no room for what is unfinished", S(SHORT), fibs_lines_unfinished(&lines, out.text, 6, &out.size), SIZE);
        fibs_lines_unfinished(&lines, out.text, sizeof out.text, &out.size);
        check(out.size == 7 && memcmp(out.text, "login: ", 7) == 0
              && memcmp(out.text + 7, pattern.text + 7, sizeof out.text - 7) == 0, "just a prompt is written");
        is("what is unfinished", 0, 0, SIZE | TEXT);
        is("reset", S(DONE), fibs_lines_reset(&lines), NOTHING);
        fibs_lines_free(&lines);
        check(lines == NULL, "free makes the handle null");
        fibs_lines_free(&lines);
    }
}

static void check_readings(void) {
    fill();
    check(fibs_read(NULL, 0).kind == FIBS_KIND_TEXT, "the empty line");
    static const struct { const char *line; fibs_status status; size_t field; } wrong[] = {
        { "hello", S(FIELD_BAD_NAME), 1 }, { "", S(FIELD_BAD_NAME), 1 }, { "5 bob", S(FIELD_BAD_NAME), 1 },
        { "board", S(FIELD_MISSING), 2 }, { "board:You", S(FIELD_MISSING), 3 },
        { "board:You:a b", S(FIELD_BAD_NAME), 3 }, { "board:You:bob:3:x", S(FIELD_NOT_A_NUMBER), 5 },
        { "board:You:bob:10000", S(FIELD_OUT_OF_RANGE), 4 }
    };
    for (size_t i = 0; i < sizeof wrong / sizeof wrong[0]; i++) {
        fibs_status status = fibs_read_board(T(wrong[i].line), &out.board, &out.size);
        check(out.size == wrong[i].field, wrong[i].line);
        is(wrong[i].line, wrong[i].status, status, SIZE);
    }
    is("the empty line is no board", S(FIELD_BAD_NAME), fibs_read_board(NULL, 0, &out.board, &out.size), SIZE);
    check(fibs_read_board(T(board), &out.board, &out.size) == S(DONE) && out.size == 0 && out.board.player_len == 3
          && memcmp(out.board.player + 3, pattern.board.player + 3, FIBS_MAX_NAME - 3) == 0,
          "just the bytes of its names are written");
    is("a board", 0, 0, SIZE | BOARD);
    is("half a board is not printed", S(FIELD_MISSING),
       fibs_print_board(T("board:You"), out.text, sizeof out.text, &out.size), NOTHING);
    is("no board is not printed", S(FIELD_BAD_NAME), fibs_print_board(NULL, 0, out.text, sizeof out.text, &out.size),
       NOTHING);
    is("no room for a board", S(SHORT), fibs_print_board(T(board), NULL, 0, &out.size), SIZE);
    is("a board is printed", S(DONE), fibs_print_board(T(board), out.text, sizeof out.text, &out.size), SIZE | TEXT);
    fibs_board told;
    fibs_read_board(T(board), &told, &out.size);
    fill();
    is("no room for the line of a board", S(SHORT), fibs_board_line(&told, NULL, 0, &out.size), SIZE);
    fibs_board_line(&told, out.text, sizeof out.text, &out.size);
    check(out.size == strlen(board) && memcmp(out.text, board, out.size) == 0, "the line of a board");
    is("the line", 0, 0, SIZE | TEXT);
    told.number[FIBS_BOARD_CUBE] = 0;
    is("no cube shows 0", S(FIELD_OUT_OF_RANGE), fibs_board_line(&told, out.text, sizeof out.text, &out.size), NOTHING);
    told.number[FIBS_BOARD_CUBE] = 1;
    told.number[FIBS_BOARD_REDOUBLES] = INT32_MIN;
    is("redoubles of no board", S(FIELD_OUT_OF_RANGE),
       fibs_board_line(&told, out.text, sizeof out.text, &out.size), NOTHING);
    told.number[FIBS_BOARD_REDOUBLES] = 0;
    told.player[1] = ':';
    check(fibs_board_line(&told, out.text, sizeof out.text, &out.size) != S(DONE), "a colon in a name");
    is("of a colon", 0, 0, NOTHING);
    told.player_len = 0;
    is("no name", S(FIELD_BAD_NAME), fibs_board_line(&told, out.text, sizeof out.text, &out.size), NOTHING);
    told.player_len = 65;
    is("a name too long", S(FIELD_BAD_NAME), fibs_board_line(&told, out.text, sizeof out.text, &out.size), NOTHING);
    told.player_len = 3;
    told.opponent_len = SIZE_MAX;
    is("another one", S(FIELD_BAD_NAME), fibs_board_line(&told, out.text, sizeof out.text, &out.size), NOTHING);
    is("no field", S(NO_FIELD), fibs_read_field(T("3"), 1, &out.field, out.text, sizeof out.text), NOTHING);
    is("a field of no message", S(NO_FIELD), fibs_read_field(NULL, 0, 1, &out.field, out.text, sizeof out.text),
       NOTHING);
    is("no room for a field", S(SHORT), fibs_read_field(T(player), 1, &out.field, NULL, 0), FIELD);
    is("a field", S(DONE), fibs_read_field(T(player), 1, &out.field, out.text, sizeof out.text), FIELD | TEXT);
    is("a number", S(DONE), fibs_read_field(T(player), 7, &out.field, NULL, 0), FIELD);
}

static void check_rules(void) {
    static const struct { const char *line; fibs_status status; } lines[] = {
        { "board:You", S(FIELD_MISSING) }, { "hello", S(FIELD_BAD_NAME) }, { watched, S(NOT_YOU) },
        { too_many, S(TOO_MANY_OWN) }, { too_many_theirs, S(TOO_MANY_OTHER) }
    };
    for (size_t i = 0; i < sizeof lines / sizeof lines[0]; i++) {
        is("no phase", lines[i].status, fibs_phase(T(lines[i].line), &out.byte), NOTHING);
        is("no plays", lines[i].status, fibs_plays(T(lines[i].line), out.plays, 32, &out.size), NOTHING);
        is("nothing is allowed", lines[i].status, fibs_allows(T(lines[i].line), &roll), NOTHING);
        is("no next steps", lines[i].status, fibs_next_steps(T(lines[i].line), &no_step, &out.next), NOTHING);
        is("no listed play", lines[i].status, fibs_listed_play(T(lines[i].line), &no_step, &out.decision), NOTHING);
        is("no effect", lines[i].status,
           fibs_effect(T(lines[i].line), &roll, 1, 2, out.text, sizeof out.text, &out.size), NOTHING);
    }
    for (size_t i = 0; i < 2; i++) {
        is("a match of no board", lines[i].status, fibs_match_over(T(lines[i].line), &out.byte), NOTHING);
        is("no difference", lines[i].status, fibs_differs(T(lines[i].line), T(board), &out.byte), NOTHING);
        is("no difference either", lines[i].status, fibs_differs(T(board), T(lines[i].line), &out.byte), NOTHING);
    }
    for (size_t i = 0; i < 2; i++) {
        is("no board is turned", lines[i].status,
           fibs_turned(T(lines[i].line), out.text, sizeof out.text, &out.size), NOTHING);
    }
    is("no room for a turned board", S(SHORT), fibs_turned(T(board), NULL, 0, &out.size), SIZE);
    fibs_turned(T(theirs), out.text, sizeof out.text, &out.size);
    check(out.size == strlen(turned) && memcmp(out.text, turned, out.size) == 0, "a turned board");
    is("the turned board", 0, 0, SIZE | TEXT);
    is("a match", S(DONE), fibs_match_over(T(watched), &out.byte), BYTE);
    is("a difference", S(DONE), fibs_differs(T(board), T(watched), &out.byte), BYTE);
    is("no decision has no effect", S(NO_DECISION),
       fibs_effect(T(board), &none, 1, 2, out.text, sizeof out.text, &out.size), NOTHING);
    is("a roll where dice lie", S(NO_EFFECT),
       fibs_effect(T(board), &roll, 1, 2, out.text, sizeof out.text, &out.size), NOTHING);
    is("a roll of no dice", S(NO_EFFECT),
       fibs_effect(T(to_roll), &roll, 0, 7, out.text, sizeof out.text, &out.size), NOTHING);
    is("no room for a board", S(SHORT), fibs_effect(T(to_roll), &roll, 6, 2, NULL, 0, &out.size), SIZE);
    fibs_effect(T(to_roll), &roll, 6, 2, out.text, sizeof out.text, &out.size);
    check(out.size == strlen(board) && memcmp(out.text, board, out.size) == 0, "the board after a roll");
    is("a roll", 0, 0, SIZE | TEXT);
    for (size_t i = 0; i < sizeof lines / sizeof lines[0]; i++) {
        if (lines[i].line != watched) {
            is("no words", lines[i].status == S(NOT_YOU) ? S(DONE) : lines[i].status,
               fibs_words(T(lines[i].line), out.text, sizeof out.text, &out.size), NOTHING);
        }
        is("who owns no cube", i < 2 ? lines[i].status : S(DONE), fibs_cube_owner(T(lines[i].line), &out.byte),
           i < 2 ? NOTHING : BYTE);
    }
    for (size_t i = 0; i < sizeof lines / sizeof lines[0]; i++) {
        is("Crawford", i < 2 ? lines[i].status : S(DONE), fibs_crawford(T(lines[i].line), &out.byte),
           i < 2 ? NOTHING : BYTE);
    }
    check(fibs_crawford(T(board), &out.byte) == S(DONE) && out.byte == 0, "no game of the Crawford rule");
    check(fibs_cube_owner(T(board), &out.byte) == S(DONE) && out.byte == FIBS_OWNER_BOTH, "a cube in the middle");
    is("no room for words", S(SHORT), fibs_words(T(board), NULL, 0, &out.size), SIZE | BYTE);
    fibs_words(T(board), out.text, sizeof out.text, &out.size);
    check(out.size > 100 && memcmp(out.text, "Your turn, to move.\nYour dice 6 and 2.\n", 39) == 0
          && out.text[out.size - 1] == '\n'
          && memcmp(out.text + out.size, pattern.text + out.size, sizeof out.text - out.size) == 0,
          "just the words are written");
    is("words", 0, 0, TEXT | SIZE);
    fibs_words(T(watched), out.text, sizeof out.text, &out.size);
    check(out.size > 100 && memcmp(out.text, "bob ", 4) == 0, "a board that is watched, in words");
    is("the words of others", 0, 0, TEXT | SIZE);
    is("a phase", S(DONE), fibs_phase(T(board), &out.byte), BYTE);
    is("no room for plays", S(SHORT), fibs_plays(T(board), out.plays, 13, &out.size), SIZE);
    is("no room for plays at all", S(SHORT), fibs_plays(T(board), NULL, 0, &out.size), SIZE);
    is("no plays to make", S(DONE), fibs_plays(T(to_roll), NULL, 0, &out.size), SIZE);
    fibs_plays(T(board), out.plays, 32, &out.size);
    check(out.size == 14 && memcmp(&out.plays[14], &pattern.plays[14], sizeof out.plays[14]) == 0
          && out.plays[13].kind == FIBS_DECISION_MOVE && out.plays[13].count == 2, "just the plays are written");
    is("plays", 0, 0, PLAYS | SIZE);
    is("no decision", S(NO_DECISION), fibs_allows(T(board), &none), NOTHING);
    is("not yours", S(NOT_YOURS), fibs_allows(T(theirs), &roll), NOTHING);
    is("of a wrong kind", S(WRONG_KIND), fibs_allows(T(board), &roll), NOTHING);
    is("illegal", S(ILLEGAL_PLAY), fibs_allows(T(board), &illegal), NOTHING);
    is("no decision's text", S(NO_DECISION), fibs_decision_text(&none, 1, out.text, sizeof out.text, &out.size),
       NOTHING);
    is("no room for a command", S(SHORT), fibs_decision_text(&roll, 1, NULL, 0, &out.size), SIZE);
    is("a command", S(DONE), fibs_decision_text(&roll, 1, out.text, sizeof out.text, &out.size), SIZE | TEXT);
    is("no direction of a command", S(NO_DIRECTION),
       fibs_decision_text(&roll, 0, out.text, sizeof out.text, &out.size), NOTHING);
    is("no direction", S(NO_DIRECTION), fibs_read_decision(T("roll"), 2, &out.decision), NOTHING);
    is("no command", S(NO_COMMAND), fibs_read_decision(T("rol"), 1, &out.decision), NOTHING);
    is("an empty command", S(NO_COMMAND), fibs_read_decision(NULL, 0, 1, &out.decision), NOTHING);
    fibs_read_decision(T("roll"), 1, &out.decision);
    check(out.decision.kind == FIBS_DECISION_ROLL && out.decision.count == 0, "a decision without steps");
    is("a decision", 0, 0, DECISION);
    fibs_read_decision(T("move 24-18"), -1, &out.decision);
    check(out.decision.count == 1 && out.decision.steps[0].source == 24 && out.decision.steps[1].source == 0
          && out.decision.steps[1].target == 0 && out.decision.steps[3].source == 0
          && out.decision.steps[3].target == 0,
          "the steps after the count are zeros");
    is("a move", 0, 0, DECISION);
}

/* The steps that may follow on the board after some, as `24/22 24/18`. */
static const char *next_after(const fibs_decision *made) {
    static char text[FIBS_MAX_NEXT * 6 + 1];
    text[0] = '\0';
    if (fibs_next_steps(T(board), made, &out.next) != S(DONE)) {
        return "refused";
    }
    for (size_t i = 0; i < out.next.count; i++) {
        snprintf(text + strlen(text), sizeof text - strlen(text), "%s%u/%u", i > 0 ? " " : "",
                 out.next.steps[i].source, out.next.steps[i].target);
    }
    for (size_t i = out.next.count; i < FIBS_MAX_NEXT; i++) {
        check(out.next.steps[i].source == 0 && out.next.steps[i].target == 0, "steps after the count are zeros");
    }
    return text;
}

/* A turn step by step. */
static void check_turn(void) {
    fibs_decision made = { FIBS_DECISION_MOVE, 1, { { 24, 18 } } };
    is("no steps to go on from", S(NO_DECISION), fibs_next_steps(T(board), &none, &out.next), NOTHING);
    is("a roll is no step", S(NO_DECISION), fibs_next_steps(T(board), &roll, &out.next), NOTHING);
    is("one rolls first", S(WRONG_KIND), fibs_next_steps(T(to_roll), &no_step, &out.next), NOTHING);
    is("their turn", S(NOT_YOURS), fibs_next_steps(T(theirs), &no_step, &out.next), NOTHING);
    is("a step that no move has", S(ILLEGAL_PLAY), fibs_next_steps(T(board), &illegal, &out.next), NOTHING);
    is("no play of no decision", S(NO_DECISION), fibs_listed_play(T(board), &none, &out.decision), NOTHING);
    is("no play of a roll", S(NO_DECISION), fibs_listed_play(T(board), &roll, &out.decision), NOTHING);
    is("no play before a roll", S(WRONG_KIND), fibs_listed_play(T(to_roll), &no_step, &out.decision), NOTHING);
    is("more is to be played", S(ILLEGAL_PLAY), fibs_listed_play(T(board), &made, &out.decision), NOTHING);
    check(strcmp(next_after(&no_step), "24/22 24/18 13/11 13/7 8/6 8/2 6/4") == 0, "the first steps");
    is("steps", 0, 0, NEXT);
    check(strcmp(next_after(&made), "24/22 18/16 13/11 8/6 6/4") == 0, "the second steps");
    made.count = 2;
    made.steps[1].source = 18;
    made.steps[1].target = 16;
    check(strcmp(next_after(&made), "") == 0, "a whole move");
    fill();
    check(fibs_listed_play(T(board), &made, &out.decision) == S(DONE) && out.decision.count == 2
          && out.decision.steps[0].source == 24 && out.decision.steps[0].target == 22
          && out.decision.steps[1].source == 22 && out.decision.steps[1].target == 16, "the listed play");
    is("a listed play", 0, 0, DECISION);
}

/* Gives the client a text, line by line. */
static void hear(fibs_client *client, const char *lines) {
    static char text[FIBS_MAX_LINE];
    static fibs_wire wire;
    fibs_heard heard = { 0 };
    for (size_t at = 0, len = strlen(lines); at < len; at += heard.used) {
        if (fibs_client_feed(client, lines + at, len - at, text, sizeof text, &heard, &wire) != S(DONE)) {
            check(false, "the client hears");
            return;
        }
    }
}

/* Each call is answered so. */
static void all_refused(fibs_client *client, fibs_status status) {
    sends("decide", status, fibs_client_decide(client, &roll, &out.wire), NOTHING);
}

/* Lines of the user's own: no control byte and no byte of telnet, not too long, and nothing that the client takes. */
static void check_own_lines(fibs_client *client) {
    static char most[402];
    memset(most, 'x', sizeof most);
    static const struct { const char *line; fibs_status status; } lines[] = {
        { "", S(BAD_TEXT) }, { "a\nb", S(BAD_TEXT) }, { "leave\r", S(BAD_TEXT) }, { "\377\373\1", S(BAD_TEXT) },
        { "\177", S(BAD_TEXT) }, { "who", S(TAKEN) }, { "tell bob hi", S(TAKEN) }, { "order roll", S(TAKEN) },
        { "withdraw roll", S(TAKEN) }, { "leave", S(DONE) }, { "who ready", S(DONE) }, { "accept", S(DONE) },
        { "roll", S(TAKEN) }, { "r", S(TAKEN) }, { "ROLL", S(TAKEN) }, { "rolls", S(DONE) }, { "roll 2", S(TAKEN) },
        { " roll", S(TAKEN) }, { " leave", S(TAKEN) }, { "move 24-23", S(TAKEN) }, { "m 24 23", S(TAKEN) },
        { "moves", S(DONE) }, { "double", S(TAKEN) }, { "Doub", S(TAKEN) }, { "redouble", S(TAKEN) },
        { "resign g", S(TAKEN) }, { "res n", S(TAKEN) }, { "rejoin", S(DONE) }, { "dicetest", S(DONE) }
    };
    for (size_t i = 0; i < sizeof lines / sizeof lines[0]; i++) {
        size_t len = strlen(lines[i].line);
        fibs_status status = fibs_client_own_line(client, lines[i].line, len, &out.wire);
        check(status != S(DONE) || (out.wire.len == len + 2 && memcmp(out.wire.bytes, lines[i].line, len) == 0
              && memcmp(out.wire.bytes + len, "\r\n", 2) == 0), "the line is sent as it is");
        sends(lines[i].line, lines[i].status, status, NOTHING);
    }
    sends("a long line", S(DONE), fibs_client_own_line(client, most, 400, &out.wire), NOTHING);
    sends("a line too long", S(TOO_LONG), fibs_client_own_line(client, most, 401, &out.wire), NOTHING);
}

static void check_client(void) {
    fibs_client client = NULL;
    for (int round = 0; round < 2; round++) {
        is("a bad name", S(BAD_NAME), fibs_client_new(&client, NULL, 0, T("x")), NOTHING);
        is("no password", S(BAD_TEXT), fibs_client_new(&client, T("ann"), NULL, 0), NOTHING);
        check(client == NULL, "none was made");
        sends("open of none", S(NO_HANDLE), fibs_client_open(&client, &out.wire), NOTHING);
        sends("feed of none", S(NO_HANDLE),
              fibs_client_feed(&client, T("a\n"), out.text, sizeof out.text, &out.heard, &out.wire), NOTHING);
        all_refused(&client, S(NO_HANDLE));
        sends("plain of none", S(NO_HANDLE), fibs_client_plain(&client, T("who"), &out.wire), NOTHING);
        sends("own line of none", S(NO_HANDLE), fibs_client_own_line(&client, T("leave"), &out.wire), NOTHING);
        sends("unguarded line of none", S(NO_HANDLE),
              fibs_client_unguarded_line(&client, T("leave"), &out.wire), NOTHING);
        sends("no own line", S(BAD_TEXT), fibs_client_own_line(&client, NULL, 0, &out.wire), NOTHING);
        is("order of none", S(NO_HANDLE), fibs_client_order_roll(&client), NOTHING);
        is("withdraw of none", S(NO_HANDLE), fibs_client_withdraw_roll(&client), NOTHING);
        is("ordered of none", S(NO_HANDLE), fibs_client_ordered(&client, &out.byte), NOTHING);
        is("lose of none", S(NO_HANDLE), fibs_client_lose(&client, &out.waited), NOTHING);
        is("shown of none", S(NO_HANDLE), fibs_client_shown(&client, &out.board), NOTHING);
        is("waiting of none", S(NO_HANDLE), fibs_client_waiting(&client, &out.waited), NOTHING);
        is("ready of none", S(NO_HANDLE), fibs_client_ready(&client), NOTHING);
        is("unfinished of none", S(NO_HANDLE),
           fibs_client_unfinished(&client, out.text, sizeof out.text, &out.size), NOTHING);
        is("shown line of none", S(NO_HANDLE),
           fibs_client_shown_line(&client, out.text, sizeof out.text, &out.size), NOTHING);
        is("new", S(DONE), fibs_client_new(&client, T("ann"), T("secret")), NOTHING);
        is("new of one", S(HELD), fibs_client_new(&client, T("ann"), T("secret")), NOTHING);
        all_refused(&client, S(OFFLINE));
        sends("plain offline", S(OFFLINE), fibs_client_plain(&client, T("who"), &out.wire), NOTHING);
        sends("own line offline", S(OFFLINE), fibs_client_own_line(&client, T("leave"), &out.wire), NOTHING);
        sends("unguarded offline", S(OFFLINE), fibs_client_unguarded_line(&client, T("leave"), &out.wire), NOTHING);
        is("order offline", S(OFFLINE), fibs_client_order_roll(&client), NOTHING);
        is("withdraw offline", S(OFFLINE), fibs_client_withdraw_roll(&client), NOTHING);
        is("ordered offline", S(DONE), fibs_client_ordered(&client, &out.byte), BYTE);
        sends("offline all is dropped", S(DONE),
              fibs_client_feed(&client, T("a\n"), out.text, sizeof out.text, &out.heard, &out.wire), HEARD);
        is("nothing shown", S(NO_BOARD), fibs_client_shown(&client, &out.board), NOTHING);
        is("no line shown", S(NO_BOARD),
           fibs_client_shown_line(&client, out.text, sizeof out.text, &out.size), NOTHING);
        is("ready offline", S(OFFLINE), fibs_client_ready(&client), NOTHING);
        is("nothing waits", S(NOTHING_WAITS), fibs_client_waiting(&client, &out.waited), NOTHING);
        sends("open", S(DONE), fibs_client_open(&client, &out.wire), NOTHING);
        sends("open of an open one", S(ALREADY_OPEN), fibs_client_open(&client, &out.wire), NOTHING);
        all_refused(&client, S(NOT_READY));
        is("not ready", S(NOT_READY), fibs_client_ready(&client), NOTHING);
        hear(&client, "\r\nlogin: ");
        fibs_client_unfinished(&client, out.text, sizeof out.text, &out.size);
        check(out.size == 7 && memcmp(out.text, "login: ", 7) == 0, "the login is asked for again");
        is("what is unfinished", 0, 0, SIZE | TEXT);
        is("no room for it", S(SHORT), fibs_client_unfinished(&client, NULL, 0, &out.size), SIZE);
        hear(&client, "\n");
        is("not ordered", S(NOT_ORDERED), fibs_client_withdraw_roll(&client), NOTHING);
        hear(&client, ready_automove);
        all_refused(&client, S(SERVER_PLAYS));
        is("ready", S(DONE), fibs_client_ready(&client), NOTHING);
        sends("toggle", S(DONE), fibs_client_plain(&client, T("toggle automove"), &out.wire), NOTHING);
        sends("toggle again", S(NOT_ON), fibs_client_plain(&client, T("toggle automove"), &out.wire), NOTHING);
        sends("no command", S(NO_COMMAND), fibs_client_plain(&client, NULL, 0, &out.wire), NOTHING);
        sends("a bad name", S(BAD_NAME), fibs_client_plain(&client, T("invite a:b 3"), &out.wire), NOTHING);
        check_own_lines(&client);
        hear(&client, ready);
        all_refused(&client, S(NO_BOARD));
        sends("no decision", S(NO_DECISION), fibs_client_decide(&client, &none, &out.wire), NOTHING);
        hear(&client, theirs);
        hear(&client, "\n");
        all_refused(&client, S(NOT_YOURS));
        hear(&client, board);
        hear(&client, "\n");
        all_refused(&client, S(WRONG_KIND));
        sends("illegal", S(ILLEGAL_PLAY), fibs_client_decide(&client, &illegal, &out.wire), NOTHING);
        sends("no room for a line", S(SHORT),
              fibs_client_feed(&client, T("a\n"), out.text, FIBS_MAX_LINE - 1, &out.heard, &out.wire), NOTHING);
        sends("half a line", S(DONE),
              fibs_client_feed(&client, T("a"), out.text, sizeof out.text, &out.heard, &out.wire), HEARD);
        sends("no piece", S(DONE),
              fibs_client_feed(&client, NULL, 0, out.text, sizeof out.text, &out.heard, &out.wire), HEARD);
        fibs_client_feed(&client, NULL, 0, out.text, sizeof out.text, &out.heard, &out.wire);
        check(out.heard.used == 0 && out.heard.len == 0 && out.heard.ended == 0 && out.heard.cut == 0
              && out.heard.kind.kind == FIBS_KIND_TEXT && out.heard.confirmed.kind == FIBS_DECISION_NONE
              && out.heard.rolled == 0, "nothing is told of half a line");
        fill();
        fibs_client_feed(&client, T("b\n"), out.text, sizeof out.text, &out.heard, &out.wire);
        check(out.heard.used == 2 && out.heard.len == 2 && out.heard.ended == 1 && out.heard.cut == 0
              && out.heard.kind.kind == FIBS_KIND_TEXT && out.heard.confirmed.kind == FIBS_DECISION_NONE
              && out.heard.confirmed.count == 0 && out.heard.rolled == 0 && out.wire.len == 0, "a line is told");
        check(memcmp(out.text, "ab", 2) == 0 && memcmp(out.text + 2, pattern.text + 2, sizeof out.text - 2) == 0,
              "just its bytes are written");
        fill();
        is("shown", S(DONE), fibs_client_shown(&client, &out.board), BOARD);
        is("no room for what is shown", S(SHORT), fibs_client_shown_line(&client, NULL, 0, &out.size), SIZE);
        fibs_client_shown_line(&client, out.text, sizeof out.text, &out.size);
        check(out.size == strlen(board) && memcmp(out.text, board, out.size) == 0, "the line of what is shown");
        is("the line shown", 0, 0, SIZE | TEXT);
        fibs_client_lose(&client, &out.waited);
        check(out.waited.decision.kind == FIBS_DECISION_NONE && out.waited.decision.count == 0
              && memcmp(&out.waited.board, &pattern.waited.board, sizeof out.waited.board) == 0,
              "nothing waited, and no board is written");
        fill();
        sends("open again", S(DONE), fibs_client_open(&client, &out.wire), NOTHING);
        hear(&client, ready);
        hear(&client, to_roll);
        hear(&client, "\n");
        sends("a decision is no own line", S(TAKEN), fibs_client_own_line(&client, T("roll"), &out.wire), NOTHING);
        sends("the answer to an offer", S(DONE), fibs_client_own_line(&client, T("accept"), &out.wire), NOTHING);
        all_refused(&client, S(DONE));
        all_refused(&client, S(WAITING));
        sends("nor while it waits", S(TAKEN), fibs_client_own_line(&client, T("roll"), &out.wire), NOTHING);
        sends("nor another one", S(TAKEN), fibs_client_own_line(&client, T("move 24-23"), &out.wire), NOTHING);
        sends("still the answer", S(DONE), fibs_client_own_line(&client, T("reject"), &out.wire), NOTHING);
        sends("but unguarded", S(DONE), fibs_client_unguarded_line(&client, T("roll"), &out.wire), NOTHING);
        sends("a bad text", S(BAD_TEXT), fibs_client_unguarded_line(&client, T("a\n"), &out.wire), NOTHING);
        is("it waits", S(DONE), fibs_client_waiting(&client, &out.waited), WAITED);
        is("order", S(DONE), fibs_client_order_roll(&client), NOTHING);
        is("order again", S(ALREADY_ORDERED), fibs_client_order_roll(&client), NOTHING);
        is("ordered", S(DONE), fibs_client_ordered(&client, &out.byte), BYTE);
        is("withdraw", S(DONE), fibs_client_withdraw_roll(&client), NOTHING);
        is("lose", S(DONE), fibs_client_lose(&client, &out.waited), WAITED);
        fibs_client_free(&client);
        check(client == NULL, "free makes the handle null");
        fibs_client_free(&client);
    }
}

static void check_directory(void) {
    fibs_directory directory = NULL;
    for (int round = 0; round < 2; round++) {
        is("note of none", S(NO_HANDLE), fibs_directory_note(&directory, T(player)), NOTHING);
        is("len of none", S(NO_HANDLE), fibs_directory_len(&directory, &out.size), NOTHING);
        is("clear of none", S(NO_HANDLE), fibs_directory_clear(&directory), NOTHING);
        is("field of none", S(NO_HANDLE),
           fibs_directory_field(&directory, 0, 1, &out.field, out.text, sizeof out.text), NOTHING);
        is("field of none", S(NO_HANDLE),
           fibs_directory_field_of(&directory, T("bob"), 1, &out.field, out.text, sizeof out.text), NOTHING);
        is("player of none", S(NO_HANDLE),
           fibs_directory_player(&directory, T("bob"), &out.player, out.text, sizeof out.text, &out.size), NOTHING);
        is("new", S(DONE), fibs_directory_new(&directory), NOTHING);
        is("new of one", S(HELD), fibs_directory_new(&directory), NOTHING);
        is("no line", S(DONE), fibs_directory_note(&directory, NULL, 0), NOTHING);
        is("note", S(DONE), fibs_directory_note(&directory, T(player)), NOTHING);
        is("len", S(DONE), fibs_directory_len(&directory, &out.size), SIZE);
        is("no player at a place", S(NO_PLAYER),
           fibs_directory_field(&directory, 1, 1, &out.field, out.text, sizeof out.text), NOTHING);
        is("no player of a name", S(NO_PLAYER),
           fibs_directory_field_of(&directory, NULL, 0, 1, &out.field, out.text, sizeof out.text), NOTHING);
        is("no field", S(NO_FIELD),
           fibs_directory_field(&directory, 0, 13, &out.field, out.text, sizeof out.text), NOTHING);
        is("no field", S(NO_FIELD),
           fibs_directory_field_of(&directory, T("someplayer"), 0, &out.field, out.text, sizeof out.text), NOTHING);
        is("no room", S(SHORT), fibs_directory_field(&directory, 0, 1, &out.field, NULL, 0), FIELD);
        is("no room", S(SHORT), fibs_directory_field_of(&directory, T("someplayer"), 1, &out.field, NULL, 0), FIELD);
        is("a field", S(DONE),
           fibs_directory_field(&directory, 0, 1, &out.field, out.text, sizeof out.text), FIELD | TEXT);
        is("a field", S(DONE),
           fibs_directory_field_of(&directory, T("someplayer"), 6, &out.field, out.text, sizeof out.text), FIELD);
        is("no such player", S(NO_PLAYER),
           fibs_directory_player(&directory, T("some"), &out.player, out.text, sizeof out.text, &out.size), NOTHING);
        is("no room for a player", S(SHORT),
           fibs_directory_player(&directory, T("someplayer"), &out.player, out.text, 43, &out.size), SIZE);
        fibs_directory_player(&directory, T("someplayer"), &out.player, out.text, 44, &out.size);
        check(out.size == 44 && memcmp(out.text, "someplayermgnu_advanced-192.168.143.53DFiBs-", 44) == 0
              && memcmp(out.text + 44, pattern.text + 44, sizeof out.text - 44) == 0, "just its texts are written");
        check(out.player.name.start == 0 && out.player.name.len == 10 && out.player.opponent.start == 10
              && out.player.watching.len == 1 && out.player.hostname.start == 24 && out.player.email.len == 1
              && out.player.rating_hundredths == 191215 && out.player.experience == 827 && out.player.idle == 8
              && out.player.login == 1040515752 && out.player.ready == 0 && out.player.away == 0, "its fields");
        is("a player", 0, 0, PLAYER | TEXT | SIZE);
        is("clear", S(DONE), fibs_directory_clear(&directory), NOTHING);
        fibs_directory_free(&directory);
        check(directory == NULL, "free makes the handle null");
        fibs_directory_free(&directory);
    }
}

/* No byte of the rest of an event is that of another one. */
static void check_event(const fibs_event *event) {
    bool is_move = event->kind == FIBS_EVENT_PLAYED;
    check(event->name.len <= FIBS_MAX_NAME, "a name's length");
    for (size_t i = event->name.len; i < FIBS_MAX_NAME; i++) {
        check(event->name.bytes[i] == 0, "what follows a name is zeros");
    }
    check(event->play.kind == (is_move ? FIBS_DECISION_MOVE : FIBS_DECISION_NONE)
          && (event->play.count > 0) == is_move, "the move of an event");
}

static void check_events(void) {
    static const fibs_event nothing;
    fibs_events events = NULL;
    for (int round = 0; round < 2; round++) {
        is("hear of none", S(NO_HANDLE), fibs_events_hear(&events, T(player), &out.happened), NOTHING);
        is("opponent of none", S(NO_HANDLE),
           fibs_events_opponent(&events, out.text, sizeof out.text, &out.size), NOTHING);
        is("new", S(DONE), fibs_events_new(&events), NOTHING);
        is("no opponent", S(DONE), fibs_events_opponent(&events, NULL, 0, &out.size), SIZE);
        is("a text that says nothing", S(DONE), fibs_events_hear(&events, T("hello"), &out.happened), HAPPENED);
        is("the empty line", S(DONE), fibs_events_hear(&events, NULL, 0, &out.happened), HAPPENED);
        fibs_events_hear(&events, T("1 ann 1041253132 localhost"), &out.happened);
        const fibs_event *first = &out.happened.events[0];
        check(out.happened.count == 1 && first->kind == FIBS_EVENT_LOGGED_IN && first->name.len == 3
              && memcmp(first->name.bytes, "ann", 3) == 0 && first->who == FIBS_SIDE_NONE, "a greeting");
        check_event(first);
        for (size_t i = 1; i < FIBS_MAX_EVENTS; i++) {
            check(memcmp(&out.happened.events[i], &nothing, offsetof(fibs_event, dice) + 2) == 0, "no further event");
        }
        is("a greeting", 0, 0, HAPPENED);
        is("new of some", S(HELD), fibs_events_new(&events), NOTHING);
        fibs_events_hear(&events, T("** Player someplayer has joined you for a 3 point match."), &out.happened);
        check(out.happened.count == 1 && first->kind == FIBS_EVENT_JOINED && first->length == 3, "a match");
        fill();
        is("no room for a name", S(SHORT), fibs_events_opponent(&events, out.text, 9, &out.size), SIZE);
        fibs_events_opponent(&events, out.text, 10, &out.size);
        check(out.size == 10 && memcmp(out.text, "someplayer", 10) == 0
              && memcmp(out.text + 10, pattern.text + 10, sizeof out.text - 10) == 0, "just the name is written");
        is("the opponent", 0, 0, TEXT | SIZE);
        fibs_events_hear(&events, T(to_roll), &out.happened);
        check(out.happened.count == 0, "a board that shows no roll");
        fibs_events_hear(&events, T(board), &out.happened);
        check(out.happened.count == 1 && first->kind == FIBS_EVENT_ROLLED && first->who == FIBS_SIDE_PLAYER
              && first->dice[0] == 6 && first->dice[1] == 2 && first->name.len == 0, "a roll");
        check_event(first);
        fibs_events_hear(&events, T(board), &out.happened);
        check(out.happened.count == 0, "it is told once");
        fibs_events_hear(&events, T(theirs_moved), &out.happened);
        check(out.happened.count == 2 && first->kind == FIBS_EVENT_PLAYED && first->who == FIBS_SIDE_PLAYER
              && first->play.count == 2 && first->play.steps[0].source == 24 && first->play.steps[0].target == 18
              && first->play.steps[1].source == 13 && first->play.steps[1].target == 11
              && first[1].kind == FIBS_EVENT_ROLLED && first[1].who == FIBS_SIDE_OPPONENT && first[1].dice[0] == 4,
              "a play, and the answer's roll");
        check_event(first);
        check_event(first + 1);
        fill();
        fibs_events_free(&events);
        check(events == NULL, "free makes the handle null");
        fibs_events_free(&events);
    }
}

/* How many refusals of a login bytes tell that come in pieces of a size. */
static size_t refusals(fibs_events *events, const char *bytes, size_t len, size_t size) {
    size_t count = 0;
    for (size_t at = 0; at < len; at += size) {
        size_t rest = len - at < size ? len - at : size;
        fibs_status status = fibs_events_hear_bytes(events, bytes + at, rest, &out.happened);
        check(out.happened.count == 0 || (out.happened.count == 1
              && out.happened.events[0].kind == FIBS_EVENT_LOGIN_REFUSED), "a refusal");
        check_event(&out.happened.events[0]);
        count += out.happened.count;
        is("bytes", S(DONE), status, HAPPENED);
    }
    return count;
}

static void check_logins(void) {
    static const char asked[] = "Welcome.\r\nlogin: ", again[] = "\r\nlogin: ";
    static const char greeted[] = "1 ann 1041253132 localhost\r\n";
    fibs_events events = NULL;
    is("bytes of none", S(NO_HANDLE), fibs_events_hear_bytes(&events, T(asked), &out.happened), NOTHING);
    is("open of none", S(NO_HANDLE), fibs_events_open(&events), NOTHING);
    is("new", S(DONE), fibs_events_new(&events), NOTHING);
    for (size_t size = 1; size < 20; size++) {
        check(refusals(&events, T(asked), size) == 0, "the first question");
        check(refusals(&events, T(again), size) == 1, "the second one");
        check(refusals(&events, NULL, 0, size) == 0 && refusals(&events, T("guest"), size) == 0, "it is told once");
        check(refusals(&events, T(again), size) == 1, "of each question");
        is("open", S(DONE), fibs_events_open(&events), NOTHING);
        check(refusals(&events, T(asked), size) == 0, "the first question of another connection");
        check(refusals(&events, T(greeted), size) == 0 && refusals(&events, T(asked), size) == 0
              && refusals(&events, T(again), size) == 0, "after the greeting");
        is("open", S(DONE), fibs_events_open(&events), NOTHING);
    }
    is("no bytes", S(DONE), fibs_events_hear_bytes(&events, NULL, 0, &out.happened), HAPPENED);
    fibs_events_hear(&events, T("** Player someplayer has joined you for a 3 point match."), &out.happened);
    fibs_events_hear_bytes(&events, T(asked), &out.happened);
    is("open", S(DONE), fibs_events_open(&events), HAPPENED);
    fibs_events_opponent(&events, out.text, sizeof out.text, &out.size);
    check(out.size == 10 && memcmp(out.text, "someplayer", 10) == 0, "the lines are remembered");
    fill();
    fibs_events_free(&events);
}

static void check_saved(void) {
    static const struct { const char *row, *name; uint32_t length, score[2]; uint8_t there; } rows[] = {
        { " *bob                 5                2 -  3", "bob", 5, { 2, 3 }, 1 },
        { "**carl  unlimited 0 - 12", "carl", 9999, { 0, 12 }, 1 }, { "  eve 7 1 - 0 ", "eve", 7, { 1, 0 }, 0 },
        { "***bob 5 2 - 3", "*bob", 5, { 2, 3 }, 1 }, { "* 5 2 - 3", "", 0, { 0, 0 }, 0 },
        { "bob 5 2 3", "", 0, { 0, 0 }, 0 }, { "bob -5 2 - 3", "", 0, { 0, 0 }, 0 }, { "", "", 0, { 0, 0 }, 0 },
        { "bob 5 2 - 3 4", "", 0, { 0, 0 }, 0 }, { "bob 5 2 + 3", "", 0, { 0, 0 }, 0 },
        { "bob 100000000 2 - 3", "", 0, { 0, 0 }, 0 }, { "b:b 5 2 - 3", "", 0, { 0, 0 }, 0 },
        { "bob 99999999 99999999 - 0", "bob", 99999999, { 99999999, 0 }, 0 },
        { "  opponent          matchlength   score (your points first)", "", 0, { 0, 0 }, 0 },
    };
    for (size_t i = 0; i < sizeof rows / sizeof rows[0]; i++) {
        fibs_saved_match(T(rows[i].row), &out.saved);
        check(out.saved.name.len == strlen(rows[i].name) && out.saved.length == rows[i].length
              && memcmp(out.saved.name.bytes, rows[i].name, out.saved.name.len) == 0
              && memcmp(out.saved.score, rows[i].score, sizeof rows[i].score) == 0
              && out.saved.there == rows[i].there, rows[i].row);
        is(rows[i].row, 0, 0, SAVED);
    }
}

int main(void) {
    fill();
    check_names();
    check_lines();
    check_readings();
    check_rules();
    check_turn();
    check_client();
    check_directory();
    check_events();
    check_logins();
    check_saved();
    printf("%d passed, %d failed\n", passed, failed);
    return failed > 0;
}
