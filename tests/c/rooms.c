/* Bad input of a caller: handles that hold nothing, two in one, lengths of 0, rooms that are too short, records that
 * are none. Each is answered by a status, and what must stay stays.
 */
#include "fibs.h"

#include <stdbool.h>
#include <stdio.h>
#include <stdlib.h>
#include <string.h>

#define S(name) FIBS_STATUS_##name

static int passed, failed;

static void check(bool holds, const char *what) {
    if (holds) {
        passed++;
    } else {
        printf("FAILED %s\n", what);
        failed++;
    }
}

#define TEXT(text) text, strlen(text)

static const char board[] =
    "board:You:someplayer:3:0:1:0:-2:0:0:0:0:5:0:3:0:0:0:-5:5:0:0:0:-3:0:-5:0:0:0:0:2:0:1:6:2:0:0:1:1:1:0:1:-1:0:"
    "25:0:0:0:0:2:0:0:0";

static char text[FIBS_MAX_LINE + 1];
static fibs_wire wire;

static void check_handles(void) {
    fibs_lines lines = NULL;
    fibs_client client = NULL;
    fibs_directory directory = NULL;
    fibs_events events = NULL;
    fibs_happened happened = { 0 };
    fibs_fed fed = { 0 };
    fibs_told told = { 0 };
    fibs_heard heard = { 0 };
    fibs_field field = { 0 };
    fibs_board shown;
    fibs_outstanding waited = { 0 };
    fibs_decision roll = { FIBS_DECISION_ROLL, 0, { { 0, 0 } } };
    fibs_line rows[1];
    uint8_t ordered = 7;
    size_t len = 0;
    for (int round = 0; round < 2; round++) {
        /* zeros first, then what was freed */
        wire.len = 7;
        check(fibs_lines_feed(&lines, TEXT("a\n"), text, sizeof text, &fed) == S(NO_HANDLE), "feed of none");
        check(fibs_read_lines(&lines, TEXT("a\n"), text, sizeof text, rows, 1, &told) == S(NO_HANDLE),
              "lines of none");
        check(fibs_lines_reset(&lines) == S(NO_HANDLE) && fibs_lines_held(&lines, &len) == S(NO_HANDLE),
              "reset, held");
        check(fibs_client_open(&client, &wire) == S(NO_HANDLE) && wire.len == 0, "open of none");
        wire.len = 7;
        check(fibs_client_feed(&client, TEXT("a\n"), text, sizeof text, &heard, &wire) == S(NO_HANDLE)
              && wire.len == 0,
              "feed of no client");
        check(fibs_client_decide(&client, &roll, &wire) == S(NO_HANDLE), "decide of none");
        check(fibs_client_plain(&client, TEXT("who"), &wire) == S(NO_HANDLE), "plain of none");
        check(fibs_client_order_roll(&client) == S(NO_HANDLE) && fibs_client_withdraw_roll(&client) == S(NO_HANDLE)
              && fibs_client_ordered(&client, &ordered) == S(NO_HANDLE), "orders of none");
        check(fibs_client_lose(&client, &waited) == S(NO_HANDLE), "lose of none");
        check(fibs_client_shown(&client, &shown) == S(NO_HANDLE), "shown of none");
        check(fibs_client_waiting(&client, &waited) == S(NO_HANDLE), "waiting of none");
        check(fibs_directory_note(&directory, TEXT("6")) == S(NO_HANDLE), "note of none");
        check(fibs_directory_len(&directory, &len) == S(NO_HANDLE)
              && fibs_directory_clear(&directory) == S(NO_HANDLE),
              "len, clear of none");
        check(fibs_directory_field(&directory, 0, 1, &field, text, sizeof text) == S(NO_HANDLE), "field of none");
        check(fibs_directory_field_of(&directory, TEXT("a"), 1, &field, text, sizeof text) == S(NO_HANDLE),
              "field of none");
        check(fibs_events_hear(&events, TEXT("6"), &happened) == S(NO_HANDLE), "hear of none");
        check(fibs_events_hear_bytes(&events, TEXT("6"), &happened) == S(NO_HANDLE)
              && fibs_events_open(&events) == S(NO_HANDLE), "hear_bytes, open of none");
        check(fibs_events_opponent(&events, text, sizeof text, &len) == S(NO_HANDLE), "opponent of none");
        fibs_lines_free(&lines);
        fibs_client_free(&client);
        fibs_directory_free(&directory);
        fibs_events_free(&events);
        check(fibs_lines_new(&lines) == S(DONE) && fibs_client_new(&client, TEXT("ann"), TEXT("secret")) == S(DONE)
              && fibs_directory_new(&directory) == S(DONE) && fibs_events_new(&events) == S(DONE), "all are made");
        check(fibs_client_open(&client, &wire) == S(DONE) && wire.len == 35
              && memcmp(wire.bytes, "login fibs_client 1008 ann secret\r\n", 35) == 0, "the login");
        /* made twice: the first one stays */
        check(fibs_client_new(&client, TEXT("bob"), TEXT("x")) == S(HELD), "a client is held");
        check(fibs_client_open(&client, &wire) == S(ALREADY_OPEN) && wire.len == 0, "the first client stays");
        check(fibs_client_withdraw_roll(&client) == S(NOT_ORDERED) && fibs_client_order_roll(&client) == S(DONE)
              && fibs_client_order_roll(&client) == S(ALREADY_ORDERED), "an order");
        check(fibs_client_ordered(&client, &ordered) == S(DONE) && ordered == 1
              && fibs_client_withdraw_roll(&client) == S(DONE), "it is in force until it is withdrawn");
        check(fibs_client_ordered(&client, &ordered) == S(DONE) && ordered == 0, "and no longer");
        check(fibs_lines_new(&lines) == S(HELD) && fibs_directory_new(&directory) == S(HELD)
              && fibs_events_new(&events) == S(HELD), "the others are held");
        fibs_lines_free(&lines);
        fibs_lines_free(&lines);
        fibs_client_free(&client);
        fibs_client_free(&client);
        fibs_directory_free(&directory);
        fibs_directory_free(&directory);
        fibs_events_free(&events);
        fibs_events_free(&events);
    }
}

/* A reader that is asked for again goes on with its line. One that is reset begins a stream, also within a command of
 * telnet, of which it holds no byte. */
static void check_readers(void) {
    fibs_lines lines = NULL;
    fibs_fed fed = { 0 };
    check(fibs_lines_new(&lines) == S(DONE)
          && fibs_lines_feed(&lines, TEXT("ab"), text, sizeof text, &fed) == S(DONE) && fed.ended == 0, "half a line");
    check(fibs_lines_new(&lines) == S(HELD)
          && fibs_lines_feed(&lines, TEXT("c\n"), text, sizeof text, &fed) == S(DONE) && fed.ended == 1
          && fed.len == 3 && memcmp(text, "abc", 3) == 0, "the reader that is held goes on");
    check(fibs_lines_feed(&lines, TEXT("\377\373"), text, sizeof text, &fed) == S(DONE)
          && fibs_lines_reset(&lines) == S(DONE), "a reset within a command of telnet");
    check(fibs_lines_feed(&lines, TEXT("a\n"), text, sizeof text, &fed) == S(DONE) && fed.ended == 1
          && fed.len == 1 && text[0] == 'a', "no byte of the next stream is lost");
    fibs_lines_free(&lines);
}

static void check_logins(void) {
    fibs_client client = NULL;
    char wide[66];
    memset(wide, 'x', 65);
    wide[65] = '\0';
    check(fibs_client_new(&client, TEXT("a:b"), TEXT("x")) == S(BAD_NAME), "a name with a colon");
    check(fibs_client_new(&client, "", 0, TEXT("x")) == S(BAD_NAME), "no name");
    check(fibs_client_new(&client, TEXT("ann"), "", 0) == S(BAD_TEXT), "no password");
    check(fibs_client_new(&client, TEXT("ann"), TEXT("a b")) == S(BAD_TEXT), "a password with a space");
    check(fibs_client_new(&client, TEXT("ann"), TEXT(wide)) == S(TOO_LONG), "a password of 65 bytes");
    check(client == NULL, "none was made");
}

static void check_rooms(void) {
    fibs_lines lines = NULL;
    fibs_client client = NULL;
    fibs_fed fed = { 0 };
    fibs_told told = { 0 };
    fibs_heard heard = { 0 };
    fibs_line rows[2];
    size_t len = 0;
    check(fibs_lines_new(&lines) == S(DONE) && fibs_client_new(&client, TEXT("ann"), TEXT("x")) == S(DONE), "made");
    check(fibs_max_line() == FIBS_MAX_LINE, "the limit");
    check(fibs_lines_feed(&lines, TEXT("ab\n"), text, FIBS_MAX_LINE - 1, &fed) == S(SHORT) && fed.used == 0,
          "too short");
    check(fibs_lines_feed(&lines, "", 0, text, sizeof text, &fed) == S(DONE) && fed.used == 0 && !fed.ended,
          "nothing");
    check(fibs_lines_feed(&lines, TEXT("ab\nc"), text, FIBS_MAX_LINE, &fed) == S(DONE) && fed.used == 3
          && fed.len == 2 && fed.ended && !fed.cut && memcmp(text, "ab", 2) == 0, "nothing was lost");
    check(fibs_lines_feed(&lines, TEXT("c"), text, FIBS_MAX_LINE, &fed) == S(DONE) && fed.used == 1 && !fed.ended,
          "half");
    check(fibs_lines_held(&lines, &len) == S(DONE) && len == 1, "one byte is held");
    check(fibs_lines_reset(&lines) == S(DONE) && fibs_lines_held(&lines, &len) == S(DONE) && len == 0,
          "and forgotten");
    static char wide[FIBS_MAX_LINE + 9];
    memset(wide, 'x', sizeof wide);
    check(fibs_lines_feed(&lines, wide, sizeof wide, text, sizeof text, &fed) == S(DONE) && !fed.ended
          && fibs_lines_held(&lines, &len) == S(DONE) && len == FIBS_MAX_LINE, "a full line is held");
    check(fibs_lines_reset(&lines) == S(DONE), "and forgotten too");
    check(fibs_read_lines(&lines, TEXT("a\n3\nb\n"), text, FIBS_MAX_LINE - 1, rows, 2, &told) == S(SHORT)
          && told.used == 0 && told.lines == 1 && told.bytes == FIBS_MAX_LINE, "no room for a line");
    check(fibs_read_lines(&lines, TEXT("a\n3\nb\n"), text, FIBS_MAX_LINE + 1, rows, 0, &told) == S(SHORT)
          && told.used == 0 && told.lines == 1 && told.bytes == FIBS_MAX_LINE, "no rows");
    check(fibs_read_lines(&lines, TEXT("a\n3\nb\n"), text, FIBS_MAX_LINE + 1, rows, 2, &told) == S(DONE)
          && told.used == 4 && told.lines == 2 && told.bytes == 2 && text[0] == 'a' && text[1] == '3'
          && rows[1].start == 1 && rows[1].len == 1 && rows[1].kind.kind == FIBS_KIND_MESSAGE
          && rows[1].kind.number == 3,
          "two rows");
    check(fibs_client_feed(&client, TEXT("ab\n"), text, FIBS_MAX_LINE - 1, &heard, &wire) == S(SHORT)
          && wire.len == 0,
          "too short for a client");
    check(fibs_client_feed(&client, TEXT("ab\n"), text, FIBS_MAX_LINE, &heard, &wire) == S(DONE) && heard.used == 3
          && !heard.ended, "offline all is dropped");
    fibs_lines_free(&lines);
    fibs_client_free(&client);
}

static void check_texts(void) {
    fibs_field field = { 0 };
    fibs_decision decision = { FIBS_DECISION_MOVE, 2, { { 24, 18 }, { 18, 16 } } };
    size_t len = 0;
    text[0] = 'x';
    check(fibs_read_field(TEXT("12 bob hi"), 1, &field, text, 2) == S(SHORT) && field.len == 3 && text[0] == 'x',
          "short");
    check(fibs_read_field(TEXT("12 bob hi"), 1, &field, text, 3) == S(DONE) && memcmp(text, "bob", 3) == 0, "a name");
    check(fibs_read_field(TEXT("12 bob hi"), 0, &field, text, 9) == S(NO_FIELD), "field 0");
    check(fibs_read_field(TEXT("12 bob hi"), 3, &field, text, 9) == S(NO_FIELD), "field 3");
    check(fibs_read_field(TEXT("hello"), 1, &field, text, 9) == S(NO_FIELD), "a text has no fields");
    check(fibs_read_field("", 0, 1, &field, text, 9) == S(NO_FIELD), "nor has the empty line");
    check(fibs_print_board(TEXT("board:You"), text, sizeof text, &len) == S(FIELD_MISSING), "half a board");
    check(fibs_print_board(TEXT("hello"), text, sizeof text, &len) == S(FIELD_BAD_NAME), "no board");
    check(fibs_print_board(TEXT(board), text, 5, &len) == S(SHORT) && len == strlen(board), "room for a board");
    check(fibs_decision_text(&decision, -1, text, 3, &len) == S(SHORT) && len == 16, "room for a command");
    check(fibs_decision_text(&decision, -1, text, 16, &len) == S(DONE) && memcmp(text, "move 24-18 18-16", 16) == 0,
          "down");
    check(fibs_decision_text(&decision, 1, text, sizeof text, &len) == S(DONE) && len == 12
          && memcmp(text, "move 1-7 7-9", 12) == 0, "up");
    check(fibs_read_decision(TEXT("move 1-7 7-9"), 1, &decision) == S(DONE) && decision.kind == FIBS_DECISION_MOVE
          && decision.count == 2 && decision.steps[0].source == 24 && decision.steps[1].target == 16, "and back");
    check(fibs_read_decision(TEXT("move 1-7  7-9"), 1, &decision) == S(NO_COMMAND), "no command");
    static const int32_t no_directions[] = { 0, 2, -2, 25, INT32_MAX, INT32_MIN };
    for (size_t i = 0; i < sizeof no_directions / sizeof no_directions[0]; i++) {
        check(fibs_read_decision(TEXT("roll"), no_directions[i], &decision) == S(NO_DIRECTION)
              && fibs_decision_text(&decision, no_directions[i], text, sizeof text, &len) == S(NO_DIRECTION),
              "no direction");
    }
    check(fibs_read_decision(TEXT("resign g"), 1, &decision) == S(DONE) && decision.kind == FIBS_DECISION_RESIGN_GAMMON,
          "resign");
    check(fibs_decision_text(&decision, 1, text, sizeof text, &len) == S(DONE) && len == 8
          && memcmp(text, "resign g", 8) == 0, "and its command");
}

static void check_rules(void) {
    static fibs_decision plays[64];
    fibs_decision decision = { 0, 0, { { 0, 0 } } };
    uint8_t phase = 0, flag = 7;
    size_t len = 0;
    size_t count = 0;
    check(fibs_phase(TEXT(board), &phase) == S(DONE) && phase == FIBS_PHASE_MOVE, "the phase");
    check(fibs_phase(TEXT("board:ann"), &phase) == S(FIELD_MISSING), "no board has no phase");
    check(fibs_plays(TEXT(board), plays, 1, &count) == S(SHORT) && count > 1 && count <= 64 && plays[0].kind == 0,
          "plays");
    check(fibs_plays(TEXT(board), plays, count, &count) == S(DONE) && plays[count - 1].kind == FIBS_DECISION_MOVE,
          "all plays");
    check(fibs_allows(TEXT(board), &plays[0]) == S(DONE), "the first play");
    check(fibs_effect(TEXT(board), &plays[0], 9, 9, text, sizeof text, &len) == S(DONE) && len <= FIBS_MAX_BOARD
          && fibs_phase(text, len, &phase) == S(DONE) && phase == FIBS_PHASE_OPPONENT_ACTS, "the board after it");
    check(fibs_differs(TEXT(board), text, len, &flag) == S(DONE) && flag == 1, "it differs");
    check(fibs_differs(TEXT(board), TEXT(board), &flag) == S(DONE) && flag == 0, "a board does not differ from itself");
    check(fibs_match_over(TEXT(board), &flag) == S(DONE) && flag == 0, "the match goes on");
    for (unsigned kind = 0; kind < 256; kind++) {
        decision.kind = (uint8_t)kind;
        fibs_status status = fibs_allows(TEXT(board), &decision);
        check(status == (kind == 0 || kind > FIBS_DECISION_RESIGN_BACKGAMMON ? S(NO_DECISION)
                         : kind == FIBS_DECISION_MOVE ? S(ILLEGAL_PLAY)
                         : kind > FIBS_DECISION_MOVE ? S(DONE) : S(WRONG_KIND)),
                         "each kind");
    }
    decision = plays[0];
    decision.count = 5;
    check(fibs_allows(TEXT(board), &decision) == S(NO_DECISION), "five steps");
    decision.count = 255;
    check(fibs_allows(TEXT(board), &decision) == S(NO_DECISION), "255 steps");
    decision = plays[0];
    decision.steps[0].source = 26;
    check(fibs_allows(TEXT(board), &decision) == S(NO_DECISION), "a step from nowhere");
}

static void check_names(void) {
    static const struct { fibs_status status; const char *name; } names[] = {
        { 0, "Done" }, { 1, "AlreadyOpen" }, { 2, "Offline" }, { 3, "NotReady" }, { 4, "ServerPlays" },
        { 5, "NoBoard" },
        { 6, "Waiting" }, { 7, "NotYours" }, { 8, "WrongKind" }, { 9, "IllegalPlay" }, { 10, "NotOn" },
        { 11, "AlreadyOrdered" },
        { 12, "NotOrdered" }, { 101, "BadName" },
        { 102, "BadText" }, { 103, "TooLong" }, { 201, "NotYou" }, { 202, "TooManyOwn" }, { 203, "TooManyOther" },
        { 301, "Missing" }, { 302, "Extra" }, { 303, "NotANumber" }, { 304, "OutOfRange" }, { 305, "BadName" },
        { 401, "Memory" }, { 402, "Full" }, { 501, "NoHandle" }, { 509, "NoStatus" }, { 510, "NoEffect" },
        { 511, "NoDirection" },
    };
    size_t len = 0, known = 0;
    for (size_t i = 0; i < sizeof names / sizeof names[0]; i++) {
        check(fibs_status_text(names[i].status, text, sizeof text, &len) == S(DONE) && len == strlen(names[i].name)
              && memcmp(text, names[i].name, len) == 0, names[i].name);
    }
    for (fibs_status status = 0; status < 70000; status++) {
        bool is_known = fibs_status_text(status, text, sizeof text, &len) == S(DONE);
        const char *name = fibs_status_name(status);
        known += is_known;
        if (is_known ? strlen(name) != len || memcmp(name, text, len) != 0 : name[0] != '\0') {
            check(false, name);
        }
    }
    check(fibs_status_name(UINT32_MAX)[0] == '\0' && fibs_kind_name(4)[0] == '\0' && fibs_phase_name(0)[0] == '\0'
          && fibs_phase_name(7)[0] == '\0' && fibs_decision_name(9)[0] == '\0' && fibs_fault_name(0)[0] == '\0'
          && fibs_fault_name(6)[0] == '\0' && fibs_field_name(0)[0] == '\0' && fibs_field_name(8)[0] == '\0',
          "no names");
    check(strcmp(fibs_fault_name(FIBS_FAULT_OUT_OF_RANGE), "OutOfRange") == 0
          && strcmp(fibs_field_name(FIBS_FIELD_NAME), "name") == 0
          && strcmp(fibs_field_name(FIBS_FIELD_TEXT), "text") == 0, "names of faults and fields");
    check(strcmp(fibs_version(), FIBS_VERSION) == 0, "the version");
    check(known == 38, "as many statuses as the header has");
    check(fibs_status_text(UINT32_MAX, text, sizeof text, &len) == S(NO_STATUS), "no such status");
    check(fibs_status_text(S(DONE), text, 3, &len) == S(SHORT) && len == 4, "room for a name");
}

static void check_players(void) {
    fibs_directory directory = NULL;
    fibs_field field = { 0 };
    char line[64];
    size_t len = 0;
    check(fibs_directory_new(&directory) == S(DONE), "a directory");
    for (int i = 0; i < 4097; i++) {
        int size = sprintf(line, "5 p%d - - 0 1 1500.25 3 2 1 host - -", i);
        fibs_status status = fibs_directory_note(&directory, line, (size_t)size);
        check(status == (i < 4096 ? S(DONE) : S(FULL)), "a player");
    }
    check(fibs_directory_len(&directory, &len) == S(DONE) && len == 4096, "4096 players");
    check(fibs_directory_field(&directory, 7, 6, &field, text, 0) == S(DONE) && field.kind == FIBS_FIELD_RATING
          && field.number == 150025, "a rating");
    check(fibs_directory_field_of(&directory, TEXT("p7"), 10, &field, text, 9) == S(DONE) && field.len == 4
          && field.kind == FIBS_FIELD_WORD && memcmp(text, "host", 4) == 0, "a host");
    check(fibs_directory_field_of(&directory, TEXT("p7"), 12, &field, text, 9) == S(DONE) && field.len == 1
          && field.kind == FIBS_FIELD_TAIL && text[0] == '-', "an address");
    check(fibs_directory_field_of(&directory, TEXT("p7"), 0, &field, text, 9) == S(NO_FIELD), "field 0 of a player");
    check(fibs_directory_field(&directory, 4096, 1, &field, text, 9) == S(NO_PLAYER), "no place");
    check(fibs_directory_field_of(&directory, TEXT("ann"), 1, &field, text, 9) == S(NO_PLAYER), "no player");
    check(fibs_directory_field(&directory, 0, 13, &field, text, 9) == S(NO_FIELD), "no field");
    check(fibs_directory_note(&directory, TEXT("8 p7 p7 logs out.")) == S(DONE), "a logout");
    check(fibs_directory_field_of(&directory, TEXT("p7"), 1, &field, text, 9) == S(NO_PLAYER), "who logged out");
    check(fibs_directory_clear(&directory) == S(DONE) && fibs_directory_len(&directory, &len) == S(DONE)
          && len == 0,
          "cleared");
    fibs_directory_free(&directory);
}

int main(void) {
    check_handles();
    check_readers();
    check_logins();
    check_rooms();
    check_texts();
    check_rules();
    check_names();
    check_players();
    printf("%d passed, %d failed\n", passed, failed);
    return failed > 0;
}
