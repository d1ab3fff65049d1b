/* Prints what each line of standard input is, as `fibs show` does, by the library for C alone: show -1, or
 * show -n [MORE].
 *
 * Lines come by fibs_lines_feed with -1, else by fibs_read_lines, with MORE room than one line needs and few rows, so
 * that a piece takes several calls. Messages are printed from their fields, boards by fibs_print_board, and its text
 * has to be that of the record.
 */
#include "fibs.h"

#include <inttypes.h>
#include <stdbool.h>
#include <stdio.h>
#include <stdlib.h>
#include <string.h>

static const char *const faults[] = { "", "Missing", "Extra", "NotANumber", "OutOfRange", "BadName" };

static void must(bool holds, const char *what) {
    if (!holds) {
        fprintf(stderr, "show: %s\n", what);
        exit(4);
    }
}

static void print_escaped(const char *bytes, size_t len) {
    for (size_t i = 0; i < len; i++) {
        if (bytes[i] >= 32 && bytes[i] <= 126 && bytes[i] != '\\') {
            putchar(bytes[i]);
        } else {
            printf("\\x%02x", (unsigned)(unsigned char)bytes[i]);
        }
    }
}

/* Prints a message from its number and its fields: an empty text is printed as nothing. */
static void print_message(const char *line, size_t len, uint8_t number) {
    static char text[FIBS_MAX_LINE];
    fibs_field field;
    fibs_status status;
    printf("message %d", number);
    for (size_t n = 1; (status = fibs_read_field(line, len, n, &field, text, sizeof text)) == FIBS_STATUS_DONE; n++) {
        switch (field.kind) {
        case FIBS_FIELD_FLAG:
        case FIBS_FIELD_NUMBER:
            printf(" %" PRIu64, field.number);
            break;
        case FIBS_FIELD_RATING:
            printf(" %" PRIu64 ".%02" PRIu64, field.number / 100, field.number % 100);
            break;
        case FIBS_FIELD_TEXT:
            if (field.len == 0) {
                break;
            }
            /* fall through */
        default:
            putchar(' ');
            print_escaped(text, field.len);
            must(field.number == 0, "a field of bytes has a number");
        }
    }
    must(status == FIBS_STATUS_NO_FIELD, "a message's field was refused");
    putchar('\n');
}

static void print_board(const char *line, size_t len) {
    char text[FIBS_MAX_BOARD];
    char again[FIBS_MAX_BOARD + 512];
    size_t printed = 0, wanted = 0;
    fibs_board board;
    size_t field;
    must(fibs_read_board(line, len, &board, &field) == FIBS_STATUS_DONE, "it is not a board");
    must(fibs_print_board(line, len, text, 4, &wanted) == FIBS_STATUS_SHORT, "four bytes are room for a board");
    must(fibs_print_board(line, len, text, wanted, &printed) == FIBS_STATUS_DONE && printed == wanted,
         "a board was not printed");
    int at = sprintf(again, "board:%.*s:%.*s", (int)board.player_len, board.player,
                     (int)board.opponent_len, board.opponent);
    for (int i = 0; i < 50; i++) {
        at += sprintf(again + at, ":%" PRId32, board.number[i]);
    }
    must((size_t)at == printed && memcmp(again, text, printed) == 0, "a board's record is not what is printed");
    fwrite(text, 1, printed, stdout);
    putchar('\n');
}

static void print_line(const char *line, size_t len, const fibs_kind *kind, uint8_t cut) {
    switch (cut ? FIBS_KIND_TEXT : kind->kind) {
    case FIBS_KIND_MESSAGE:
        print_message(line, len, kind->number);
        break;
    case FIBS_KIND_BOARD:
        print_board(line, len);
        break;
    case FIBS_KIND_MALFORMED:
        printf("malformed %d %zu %s\n", kind->number, kind->field, faults[kind->fault]);
        break;
    default:
        fputs(cut ? "cut " : "text ", stdout);
        print_escaped(line, len);
        putchar('\n');
    }
}

/* One line a call. */
static void show_each(fibs_lines *lines, const char *piece, size_t got) {
    static char text[FIBS_MAX_LINE];
    fibs_fed fed = { 0 };
    for (size_t at = 0; at < got; at += fed.used) {
        must(fibs_lines_feed(lines, piece + at, got - at, text, sizeof text, &fed) == FIBS_STATUS_DONE, "feed");
        if (fed.ended) {
            fibs_kind kind = fibs_read(text, fed.len);
            print_line(text, fed.len, &kind, fed.cut);
        }
    }
}

/* Many lines a call. */
static void show_many(fibs_lines *lines, const char *piece, size_t got, char *text, size_t room) {
    static fibs_line rows[7];
    fibs_told told = { 0 };
    for (size_t at = 0; at < got; at += told.used) {
        must(fibs_read_lines(lines, piece + at, got - at, text, room, rows, 7, &told) == FIBS_STATUS_DONE,
             "read_lines");
        must(told.used > 0, "nothing was read");
        for (size_t i = 0; i < told.lines; i++) {
            print_line(text + rows[i].start, rows[i].len, &rows[i].kind, rows[i].cut);
        }
    }
}

int main(int argc, char **argv) {
    static char piece[1000];
    bool each = argc > 1 && strcmp(argv[1], "-1") == 0;
    size_t room = FIBS_MAX_LINE + (argc > 2 ? strtoul(argv[2], NULL, 10) : 2 * FIBS_MAX_LINE);
    char *text = malloc(room);
    fibs_lines lines = NULL;
    size_t got, held = 0;
    must(text != NULL && fibs_lines_new(&lines) == FIBS_STATUS_DONE, "memory");
    while ((got = fread(piece, 1, sizeof piece, stdin)) > 0) {
        if (each) {
            show_each(&lines, piece, got);
        } else {
            show_many(&lines, piece, got, text, room);
        }
    }
    must(fibs_lines_held(&lines, &held) == FIBS_STATUS_DONE, "held");
    if (held > 0) {
        printf("unfinished %zu\n", held);
    }
    fibs_lines_free(&lines);
    free(text);
    return 0;
}
