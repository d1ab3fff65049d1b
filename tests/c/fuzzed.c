/* A target for libFuzzer that drives every function of the library: the input is a list of calls with their arguments.
 *
 * Rooms have the lengths that they are said to have and not a byte more; lines come from the input, or are worked ones,
 * so that a client gets as far as a game. After each call its status is one that the header has, nothing is written
 * that it does not name, and each length is within its bound. At the end it says how many calls there were.
 *
 *     clang -g -O1 -fsanitize=fuzzer,address,undefined -Iinclude -o fuzzed tests/c/fuzzed.c lib/libfibs.a
 *     ./fuzzed -max_total_time=60
 */
#include "outs.h"

#include <stdbool.h>
#include <stdio.h>
#include <stdlib.h>

int LLVMFuzzerTestOneInput(const uint8_t *data, size_t size);

/* Which functions are called, as numbers of the switch at the end: all of them, or, if FAMILY is 1 to 5, those of lines,
 * of what a line says and of the rules, of the client, of the directory, of events. */
#ifndef FAMILY
#define FAMILY 0
#endif
enum { FUNCTIONS = 58 };
static const struct { uint8_t first, count; } families[] = {
    { 0, FUNCTIONS }, { 0, 7 }, { 7, 20 }, { 27, 16 }, { 43, 8 }, { 51, 7 }
};

static unsigned long long calls, calls_of[FUNCTIONS];

__attribute__((destructor)) static void tell_calls(void) {
    unsigned long long least = calls;
    for (size_t i = families[FAMILY].first; i < (size_t)families[FAMILY].first + families[FAMILY].count; i++) {
        least = calls_of[i] < least ? calls_of[i] : least;
    }
    fprintf(stderr, "%llu calls, of each function at least %llu\n", calls, least);
}

static const char *const worked[] = {
    "1 myself 1041253132 192.168.1.308\n",
    "2 myself 1 1 0 0 0 0 1 1 2396 0 1 0 1 3457.85 0 0 0 0 0 Australia/Melbourne\n",
    "2 myself 1 1 0 1 0 0 1 1 2396 1 1 0 1 3457.85 0 0 0 0 0 Australia/Melbourne\n",
    "board:You:someplayer:3:0:1:0:-2:0:0:0:0:5:0:3:0:0:0:-5:5:0:0:0:-3:0:-5:0:0:0:0:2:0:1:6:2:0:0:1:1:1:0:1:-1:0:25:0:0:"
    "0:0:2:0:0:0\n",
    "board:You:someplayer:3:0:1:0:-2:0:0:0:0:5:0:3:0:0:0:-5:5:0:0:0:-3:0:-5:0:0:0:0:2:0:1:0:0:0:0:1:1:0:0:1:-1:0:25:0:0:"
    "0:0:2:0:0:0\n",
    "board:You:someplayer:3:0:1:0:-2:0:0:0:0:5:0:3:0:0:0:-5:5:0:0:0:-3:0:-5:0:0:0:0:2:0:-1:0:0:6:2:1:1:1:0:1:-1:0:25:0:"
    "0:0:0:2:0:0:0\n",
    "5 someplayer mgnu_advanced - 0 0 1912.15 827 8 1040515752 192.168.143.5 3DFiBs -\n",
    "8 someplayer someplayer drops connection.\n", "12 bob hi\n", "login: \n"
};

/* What is left of the input. */
static const uint8_t *left;
static size_t left_len;

static uint8_t one_byte(void) {
    if (left_len == 0) {
        return 0;
    }
    left_len--;
    return *left++;
}

/* A number: small, or one about a bound. */
static size_t number(void) {
    static const size_t bounds[] = {
        0, 1, 3, 64, 128, 329, 512, FIBS_MAX_LINE - 1, FIBS_MAX_LINE, FIBS_MAX_LINE + 1, 3060, 4096, SIZE_MAX
    };
    uint8_t byte = one_byte();
    return byte < 128 ? byte : bounds[byte % (sizeof bounds / sizeof bounds[0])];
}

/* A text of its own length, so that a byte read after it is found; NULL if it is empty. */
struct text { char *bytes; size_t len; };

static struct text some_text(void) {
    struct text text = { NULL, 0 };
    uint8_t choice = one_byte();
    const char *from;
    if (choice < 128) {
        from = worked[choice % (sizeof worked / sizeof worked[0])];
        text.len = strlen(from) - (choice >= 64);
    } else {
        size_t wanted = number();
        text.len = wanted < left_len ? wanted : left_len;
        from = (const char *)left;
        left += text.len;
        left_len -= text.len;
    }
    if (text.len > 0) {
        text.bytes = malloc(text.len);
        if (text.bytes == NULL) {
            abort();
        }
        memcpy(text.bytes, from, text.len);
    }
    return text;
}

/* A room of so many bytes, at most those of a line and eight; NULL if it has none. */
static char *some_room(size_t *room) {
    size_t wanted = number();
    *room = wanted < FIBS_MAX_LINE + 8 ? wanted : FIBS_MAX_LINE + 8;
    char *bytes = *room > 0 ? malloc(*room) : NULL;
    if (*room > 0) {
        memset(bytes, 0xa5, *room);
    }
    return bytes;
}

static void must(bool holds, const char *what) {
    if (!holds) {
        fprintf(stderr, "FAILED %s\n", what);
        abort();
    }
}

static bool is_kept(const char *bytes, size_t from, size_t to) {
    for (size_t i = from; i < to; i++) {
        if ((uint8_t)bytes[i] != 0xa5) {
            return false;
        }
    }
    return true;
}

static void is_kind(const fibs_kind *kind) {
    must(kind->kind <= FIBS_KIND_MALFORMED && kind->number <= 19 && kind->fault <= FIBS_FAULT_BAD_NAME
         && kind->field <= 54 && (kind->kind == FIBS_KIND_MALFORMED) == (kind->fault != FIBS_FAULT_NONE), "a kind");
}

static void is_board(const fibs_board *board) {
    must(board->player_len <= FIBS_MAX_NAME && board->opponent_len <= FIBS_MAX_NAME, "a name's length");
    must(is_kept(board->player, board->player_len, FIBS_MAX_NAME)
         && is_kept(board->opponent, board->opponent_len, FIBS_MAX_NAME), "what follows a name");
}

static void is_decision(const fibs_decision *decision) {
    must(decision->kind <= FIBS_DECISION_RESIGN_BACKGAMMON
         && decision->count <= (decision->kind == FIBS_DECISION_MOVE ? FIBS_MAX_STEPS : 0), "a decision");
    for (size_t i = decision->count; i < FIBS_MAX_STEPS; i++) {
        must(decision->steps[i].source == 0 && decision->steps[i].target == 0, "what follows the steps");
    }
}

static fibs_decision some_decision(void) {
    fibs_decision decision;
    decision.kind = one_byte();
    decision.kind = decision.kind < 200 ? decision.kind % 10 : decision.kind;
    decision.count = one_byte() % 6;
    for (size_t i = 0; i < FIBS_MAX_STEPS; i++) {
        decision.steps[i].source = one_byte() % 27;
        decision.steps[i].target = one_byte() % 27;
    }
    return decision;
}

/* The call answered so, and may have written these of the outs. */
static bool answered(fibs_status status, unsigned may_write) {
    calls++;
    must(fibs_status_name(status)[0] != '\0', "a status");
    must((written() & ~may_write) == 0, "what is written");
    return status == FIBS_STATUS_DONE;
}

static void is_wire(fibs_status status) {
    must(out.wire.len <= FIBS_MAX_WIRE && (status == FIBS_STATUS_DONE || out.wire.len == 0), "a wire");
    must(is_kept(out.wire.bytes, out.wire.len, FIBS_MAX_WIRE), "what follows the commands");
}

static struct handles {
    fibs_lines lines;
    fibs_client client;
    fibs_directory directory;
    fibs_events events;
} held;

/* Bytes were handed out. */
static void is_text(fibs_status status, const char *text, size_t room, size_t most) {
    answered(status, status == FIBS_STATUS_DONE || status == FIBS_STATUS_SHORT ? SIZE : NOTHING);
    must(is_kept(text, status == FIBS_STATUS_DONE ? out.size : 0, room), "a text's room");
    must((written() & SIZE) == 0 || out.size <= most, "a text's length");
}

/* A direction, or any other number. */
static int32_t direction(void) {
    uint8_t byte = one_byte();
    return byte % 4 == 0 ? (int32_t)number() : byte % 2 == 0 ? -1 : 1;
}

static void call_lines(uint8_t which) {
    struct text piece = some_text();
    size_t room, rows;
    char *text = some_room(&room);
    fibs_status status;
    switch (which) {
    case 0:
        answered(fibs_lines_new(&held.lines), NOTHING);
        break;
    case 1:
        fibs_lines_free(&held.lines);
        must(held.lines == NULL, "free");
        break;
    case 2:
        status = fibs_lines_feed(&held.lines, piece.bytes, piece.len, text, room, &out.fed);
        if (answered(status, status == FIBS_STATUS_DONE ? FED : NOTHING)) {
            must(out.fed.used <= piece.len && out.fed.len <= FIBS_MAX_LINE && out.fed.ended <= 1 && out.fed.cut <= 1,
                 "a line fed");
            must(out.fed.ended || (out.fed.used == piece.len && out.fed.len == 0), "no line");
            must(is_kept(text, out.fed.len, room), "the rest of a line's room");
        } else {
            must(is_kept(text, 0, room), "a room");
        }
        break;
    case 3:
        rows = one_byte() % 4;
        status = fibs_read_lines(&held.lines, piece.bytes, piece.len, text, room, rows > 0 ? out.rows : NULL, rows,
                                 &out.told);
        if (answered(status, status == FIBS_STATUS_DONE ? TOLD | ROWS : status == FIBS_STATUS_SHORT ? TOLD : NOTHING)) {
            must(out.told.used <= piece.len && out.told.lines <= rows && out.told.bytes <= room, "lines told");
            must(piece.len == 0 || out.told.used > 0, "something is read");
            for (size_t i = 0; i < out.told.lines; i++) {
                must(out.rows[i].start + out.rows[i].len <= out.told.bytes && out.rows[i].cut <= 1, "a row");
                is_kind(&out.rows[i].kind);
            }
            must(is_kept(text, out.told.bytes, room), "the rest of a text");
        } else {
            must(is_kept(text, 0, room), "a text");
        }
        break;
    case 4:
        answered(fibs_lines_reset(&held.lines), NOTHING);
        break;
    case 5:
        is_text(fibs_lines_unfinished(&held.lines, text, room, &out.size), text, room, FIBS_MAX_LINE);
        break;
    default:
        status = fibs_lines_held(&held.lines, &out.size);
        if (answered(status, status == FIBS_STATUS_DONE ? SIZE : NOTHING)) {
            must(out.size <= FIBS_MAX_LINE, "held");
        }
    }
    free(piece.bytes);
    free(text);
}

/* A field was asked for. */
static void is_field(fibs_status status, const char *text, size_t room) {
    bool is_told = status == FIBS_STATUS_DONE || status == FIBS_STATUS_SHORT;
    answered(status, is_told ? FIELD : NOTHING);
    must(is_kept(text, status == FIBS_STATUS_DONE ? out.field.len : 0, room), "a field's room");
    must(!is_told || (out.field.kind >= FIBS_FIELD_NAME && out.field.kind <= FIBS_FIELD_TEXT), "a field's kind");
}

/* The board of a line, or any bytes; then with some of its numbers changed. */
static fibs_board some_board(struct text line) {
    fibs_board board;
    size_t field;
    memset(&board, one_byte(), sizeof board);
    if (fibs_read_board(line.bytes, line.len, &board, &field) == FIBS_STATUS_DONE) {
        char text[FIBS_MAX_BOARD];
        must(fibs_board_line(&board, text, sizeof text, &field) == FIBS_STATUS_DONE && field <= line.len
             && memcmp(text, line.bytes, field) == 0, "the line of a board that was read");
    }
    for (uint8_t changes = one_byte() % 4; changes > 0; changes--) {
        board.number[one_byte() % FIBS_BOARD_NUMBERS] = (int32_t)(number() * 16777619);
    }
    board.player_len = one_byte() % 8 == 0 ? number() : board.player_len;
    return board;
}

/* A board can be turned, and turned twice it is the same but for what is not told of the opponent. */
static void is_turned(struct text line) {
    char once[FIBS_MAX_BOARD], twice[FIBS_MAX_BOARD];
    size_t len, field;
    fibs_board first, last;
    if (fibs_read_board(line.bytes, line.len, &first, &field) == FIBS_STATUS_DONE) {
        must(fibs_turned(line.bytes, line.len, once, sizeof once, &len) == FIBS_STATUS_DONE
             && fibs_turned(once, len, twice, sizeof twice, &len) == FIBS_STATUS_DONE
             && fibs_read_board(twice, len, &last, &field) == FIBS_STATUS_DONE, "a board that is turned");
        last.number[FIBS_BOARD_WAS_DOUBLED] = first.number[FIBS_BOARD_WAS_DOUBLED];
        last.number[FIBS_BOARD_CAN_MOVE] = first.number[FIBS_BOARD_CAN_MOVE];
        last.number[FIBS_BOARD_FORCED_MOVE] = first.number[FIBS_BOARD_FORCED_MOVE];
        must(memcmp(first.number, last.number, sizeof first.number) == 0, "twice turned");
    }
}

static void call_readings(uint8_t which) {
    struct text line = some_text(), other = some_text();
    size_t room, count;
    char *text = some_room(&room);
    fibs_status status;
    fibs_kind kind;
    fibs_decision decision;
    fibs_board board;
    switch (which) {
    case 0:
        kind = fibs_read(line.bytes, line.len);
        is_kind(&kind);
        answered(FIBS_STATUS_DONE, NOTHING);
        break;
    case 1:
        status = fibs_read_board(line.bytes, line.len, &out.board, &out.size);
        if (answered(status, status == FIBS_STATUS_DONE ? SIZE | BOARD : SIZE)) {
            is_board(&out.board);
        }
        must(out.size <= 54 && (out.size == 0) == (status == FIBS_STATUS_DONE), "the wrong field");
        break;
    case 2:
        is_text(fibs_print_board(line.bytes, line.len, text, room, &out.size), text, room, FIBS_MAX_BOARD);
        break;
    case 3:
        is_field(fibs_read_field(line.bytes, line.len, number(), &out.field, text, room), text, room);
        break;
    case 4:
        status = fibs_phase(line.bytes, line.len, &out.byte);
        if (answered(status, status == FIBS_STATUS_DONE ? BYTE : NOTHING)) {
            must(out.byte >= FIBS_PHASE_OVER && out.byte <= FIBS_PHASE_PASSING, "a phase");
        }
        break;
    case 5:
        decision = some_decision();
        answered(fibs_allows(line.bytes, line.len, &decision), NOTHING);
        break;
    case 6:
        count = one_byte() % 33;
        status = fibs_plays(line.bytes, line.len, count > 0 ? out.plays : NULL, count, &out.size);
        answered(status, status == FIBS_STATUS_DONE ? SIZE | PLAYS : status == FIBS_STATUS_SHORT ? SIZE : NOTHING);
        must((written() & SIZE) == 0 || out.size <= FIBS_MAX_PLAYS, "how many plays");
        for (size_t i = 0; status == FIBS_STATUS_DONE && i < out.size; i++) {
            is_decision(&out.plays[i]);
            must(fibs_allows(line.bytes, line.len, &out.plays[i]) == FIBS_STATUS_DONE, "a play is allowed");
        }
        break;
    case 7:
        decision = some_decision();
        is_text(fibs_decision_text(&decision, direction(), text, room, &out.size), text, room, FIBS_MAX_COMMAND);
        break;
    case 8:
        status = fibs_read_decision(line.bytes, line.len, direction(), &out.decision);
        if (answered(status, status == FIBS_STATUS_DONE ? DECISION : NOTHING)) {
            is_decision(&out.decision);
        }
        break;
    case 9:
        decision = some_decision();
        status = fibs_effect(line.bytes, line.len, &decision, one_byte() % 8, one_byte() % 8, text, room, &out.size);
        is_text(status, text, room, FIBS_MAX_BOARD);
        break;
    case 10:
        status = fibs_differs(line.bytes, line.len, other.bytes, other.len, &out.byte);
        must(!answered(status, status == FIBS_STATUS_DONE ? BYTE : NOTHING) || out.byte <= 1, "they differ or not");
        break;
    case 11:
        board = some_board(line);
        is_text(fibs_board_line(&board, text, room, &out.size), text, room, FIBS_MAX_BOARD);
        break;
    case 12:
        is_text(fibs_turned(line.bytes, line.len, text, room, &out.size), text, room, FIBS_MAX_BOARD);
        is_turned(line);
        break;
    case 13:
        status = fibs_match_over(line.bytes, line.len, &out.byte);
        must(!answered(status, status == FIBS_STATUS_DONE ? BYTE : NOTHING) || out.byte <= 1, "it is over or not");
        break;
    case 14:
        status = fibs_cube_owner(line.bytes, line.len, &out.byte);
        must(!answered(status, status == FIBS_STATUS_DONE ? BYTE : NOTHING) || out.byte <= FIBS_OWNER_BOTH, "an owner");
        break;
    case 15:
        status = fibs_crawford(line.bytes, line.len, &out.byte);
        must(!answered(status, status == FIBS_STATUS_DONE ? BYTE : NOTHING) || out.byte <= 1, "Crawford's or not");
        break;
    case 17:
        decision = some_decision();
        status = fibs_next_steps(line.bytes, line.len, &decision, &out.next);
        must(!answered(status, status == FIBS_STATUS_DONE ? NEXT : NOTHING) || out.next.count <= FIBS_MAX_NEXT,
             "next steps");
        break;
    case 18:
        decision = some_decision();
        status = fibs_listed_play(line.bytes, line.len, &decision, &out.decision);
        if (answered(status, status == FIBS_STATUS_DONE ? DECISION : NOTHING)) {
            is_decision(&out.decision);
        }
        break;
    case 16:
        is_text(fibs_words(line.bytes, line.len, text, room, &out.size), text, room, FIBS_MAX_LINE);
        break;
    default:
        is_text(fibs_status_text((fibs_status)(number() * 4 + one_byte()), text, room, &out.size), text, room,
                FIBS_MAX_STATUS_NAME);
        must(fibs_max_line() == FIBS_MAX_LINE && fibs_version()[0] != '\0' && fibs_kind_name(one_byte()) != NULL
             && fibs_phase_name(one_byte()) != NULL && fibs_decision_name(one_byte()) != NULL
             && fibs_fault_name(one_byte()) != NULL && fibs_field_name(one_byte()) != NULL
             && fibs_event_name(one_byte()) != NULL, "names");
    }
    free(line.bytes);
    free(other.bytes);
    free(text);
}

static void call_client(uint8_t which) {
    struct text piece = some_text(), other = some_text();
    size_t room;
    char *text = some_room(&room);
    fibs_status status;
    fibs_decision decision;
    switch (which) {
    case 0:
        status = one_byte() % 2 ? fibs_client_new(&held.client, "ann", 3, "secret", 6)
                                : fibs_client_new(&held.client, piece.bytes, piece.len, other.bytes, other.len);
        answered(status, NOTHING);
        break;
    case 1:
        if (one_byte() < 16) {
            fibs_client_free(&held.client);
            must(held.client == NULL, "free");
        }
        break;
    case 2:
        status = fibs_client_open(&held.client, &out.wire);
        answered(status, WIRE);
        is_wire(status);
        break;
    case 3:
        decision = some_decision();
        status = fibs_client_decide(&held.client, &decision, &out.wire);
        answered(status, WIRE);
        is_wire(status);
        break;
    case 4:
        status = fibs_client_plain(&held.client, piece.bytes, piece.len, &out.wire);
        answered(status, WIRE);
        is_wire(status);
        break;
    case 5:
        answered(fibs_client_order_roll(&held.client), NOTHING);
        break;
    case 6:
        answered(fibs_client_withdraw_roll(&held.client), NOTHING);
        break;
    case 7:
        status = fibs_client_ordered(&held.client, &out.byte);
        must(!answered(status, status == FIBS_STATUS_DONE ? BYTE : NOTHING) || out.byte <= 1, "ordered");
        break;
    case 8:
        status = fibs_client_lose(&held.client, &out.waited);
        if (answered(status, status == FIBS_STATUS_DONE ? WAITED : NOTHING)) {
            is_decision(&out.waited.decision);
        }
        break;
    case 9:
        status = fibs_client_shown(&held.client, &out.board);
        if (answered(status, status == FIBS_STATUS_DONE ? BOARD : NOTHING)) {
            is_board(&out.board);
        }
        break;
    case 10:
        status = fibs_client_waiting(&held.client, &out.waited);
        if (answered(status, status == FIBS_STATUS_DONE ? WAITED : NOTHING)) {
            is_board(&out.waited.board);
            is_decision(&out.waited.decision);
        }
        break;
    case 11:
        answered(fibs_client_ready(&held.client), NOTHING);
        break;
    case 12:
        is_text(fibs_client_unfinished(&held.client, text, room, &out.size), text, room, FIBS_MAX_LINE);
        break;
    case 13:
        status = fibs_client_own_line(&held.client, piece.bytes, piece.len, &out.wire);
        answered(status, WIRE);
        is_wire(status);
        must(status != FIBS_STATUS_DONE || out.wire.len == piece.len + 2, "an own line");
        status = fibs_client_unguarded_line(&held.client, piece.bytes, piece.len, &out.wire);
        answered(status, WIRE);
        is_wire(status);
        must(status != FIBS_STATUS_DONE || out.wire.len == piece.len + 2, "an unguarded line");
        break;
    case 14:
        is_text(fibs_client_shown_line(&held.client, text, room, &out.size), text, room, FIBS_MAX_BOARD);
        break;
    default:
        room = FIBS_MAX_LINE - 1 + one_byte() % 2;
        free(text);
        text = malloc(room);
        memset(text, 0xa5, room);
        status = fibs_client_feed(&held.client, piece.bytes, piece.len, text, room, &out.heard, &out.wire);
        is_wire(status);
        if (answered(status, status == FIBS_STATUS_DONE ? HEARD | WIRE : WIRE)) {
            must(out.heard.used <= piece.len && out.heard.len <= FIBS_MAX_LINE && out.heard.ended <= 1
                 && out.heard.cut <= 1 && out.heard.rolled <= 1, "a line heard");
            must(out.heard.ended || (out.heard.used == piece.len && out.heard.len == 0), "no line heard");
            is_kind(&out.heard.kind);
            is_decision(&out.heard.confirmed);
            must(is_kept(text, out.heard.len, room), "the rest of a line's room");
        } else {
            must(is_kept(text, 0, room), "a room");
        }
    }
    free(piece.bytes);
    free(other.bytes);
    free(text);
}

/* A player was asked for. */
static void is_player(fibs_status status, const char *text, size_t room) {
    bool is_told = status == FIBS_STATUS_DONE;
    answered(status, is_told ? PLAYER | SIZE : status == FIBS_STATUS_SHORT ? SIZE : NOTHING);
    must(is_kept(text, is_told ? out.size : 0, room), "a player's room");
    must(!is_told || (out.player.email.start + out.player.email.len == out.size && out.player.name.start == 0
                      && out.player.opponent.start == out.player.name.len && out.player.ready <= 1
                      && out.player.away <= 1), "a player's texts");
}

static void call_directory(uint8_t which) {
    struct text line = some_text();
    size_t room;
    char *text = some_room(&room);
    fibs_status status;
    switch (which) {
    case 0:
        answered(fibs_directory_new(&held.directory), NOTHING);
        break;
    case 1:
        if (one_byte() < 16) {
            fibs_directory_free(&held.directory);
            must(held.directory == NULL, "free");
        }
        break;
    case 2:
        answered(fibs_directory_note(&held.directory, line.bytes, line.len), NOTHING);
        break;
    case 3:
        status = fibs_directory_len(&held.directory, &out.size);
        must(!answered(status, status == FIBS_STATUS_DONE ? SIZE : NOTHING) || out.size <= FIBS_MAX_PLAYERS, "len");
        break;
    case 4:
        answered(fibs_directory_clear(&held.directory), NOTHING);
        break;
    case 5:
        is_field(fibs_directory_field(&held.directory, number(), number(), &out.field, text, room), text, room);
        break;
    case 6:
        status = fibs_directory_player(&held.directory, line.bytes, line.len, &out.player, text, room, &out.size);
        is_player(status, text, room);
        break;
    default:
        is_field(fibs_directory_field_of(&held.directory, line.bytes, line.len, number(), &out.field, text, room), text,
                 room);
    }
    free(line.bytes);
    free(text);
}

static void is_event(const fibs_event *event) {
    must(event->kind >= FIBS_EVENT_LOGGED_IN && event->kind <= FIBS_EVENT_LOGIN_REFUSED, "an event's kind");
    must(event->who <= FIBS_SIDE_OPPONENT && event->worth <= FIBS_WORTH_BACKGAMMON
         && event->offer <= FIBS_OFFER_RESIGNATION && event->dice[0] <= 6 && event->dice[1] <= 6
         && event->name.len <= FIBS_MAX_NAME, "an event");
    must((event->kind == FIBS_EVENT_PLAYED) == (event->play.kind == FIBS_DECISION_MOVE && event->play.count > 0),
         "an event's move");
    is_decision(&event->play);
}

static void call_events(uint8_t which) {
    struct text line = some_text();
    size_t room;
    char *text = some_room(&room);
    fibs_status status;
    switch (which) {
    case 0:
        answered(fibs_events_new(&held.events), NOTHING);
        break;
    case 1:
        if (one_byte() < 16) {
            fibs_events_free(&held.events);
            must(held.events == NULL, "free");
        }
        break;
    case 2:
        is_text(fibs_events_opponent(&held.events, text, room, &out.size), text, room, FIBS_MAX_NAME);
        break;
    case 3:
        answered(fibs_events_open(&held.events), NOTHING);
        break;
    case 4:
        status = fibs_events_hear_bytes(&held.events, line.bytes, line.len, &out.happened);
        if (answered(status, status == FIBS_STATUS_DONE ? HAPPENED : NOTHING)) {
            must(out.happened.count == 0 || (out.happened.count == 1
                 && out.happened.events[0].kind == FIBS_EVENT_LOGIN_REFUSED), "what bytes say");
        }
        break;
    case 5:
        fibs_saved_match(line.bytes, line.len, &out.saved);
        answered(FIBS_STATUS_DONE, SAVED);
        must(out.saved.name.len <= FIBS_MAX_NAME && out.saved.there <= 1
             && (out.saved.name.len > 0 || (out.saved.length == 0 && out.saved.there == 0)), "a saved match");
        break;
    default:
        status = fibs_events_hear(&held.events, line.bytes, line.len, &out.happened);
        if (answered(status, status == FIBS_STATUS_DONE ? HAPPENED : NOTHING)) {
            must(out.happened.count <= FIBS_MAX_EVENTS, "how many events");
            for (size_t i = 0; i < out.happened.count; i++) {
                is_event(&out.happened.events[i]);
            }
        }
    }
    free(line.bytes);
    free(text);
}

int LLVMFuzzerTestOneInput(const uint8_t *data, size_t size) {
    left = data;
    left_len = size;
    while (left_len > 0) {
        uint8_t which = (uint8_t)(families[FAMILY].first + one_byte() % families[FAMILY].count);
        calls_of[which]++;
        fill();
        if (which < 7) {
            call_lines(which);
        } else if (which < 27) {
            call_readings(which - 7);
        } else if (which < 43) {
            call_client(which - 27);
        } else if (which < 51) {
            call_directory(which - 43);
        } else {
            call_events(which - 51);
        }
    }
    fibs_lines_free(&held.lines);
    fibs_client_free(&held.client);
    fibs_directory_free(&held.directory);
    fibs_events_free(&held.events);
    return 0;
}
