/* Counts over the lines of standard input, read in portions of 64 KB, as fibs_bench does:
 * c_calls lines|readings|client|many
 */
#include "fibs.h"

#include <stdbool.h>
#include <stdio.h>
#include <string.h>

static char portion[1 << 16], text[1 << 20];
static fibs_line rows[4096];

static size_t count_each(fibs_lines *lines, size_t got, bool is_read) {
    fibs_fed fed = { 0 };
    size_t count = 0;
    for (size_t at = 0; at < got; at += fed.used) {
        fibs_lines_feed(lines, portion + at, got - at, text, FIBS_MAX_LINE, &fed);
        if (fed.ended) {
            uint8_t kind = is_read ? fibs_read(text, fed.len).kind : FIBS_KIND_BOARD;
            count += kind == FIBS_KIND_BOARD || kind == FIBS_KIND_MESSAGE;
        }
    }
    return count;
}

static size_t count_many(fibs_lines *lines, size_t got) {
    fibs_told told = { 0 };
    size_t count = 0;
    for (size_t at = 0; at < got; at += told.used) {
        fibs_read_lines(lines, portion + at, got - at, text, sizeof text, rows, 4096, &told);
        for (size_t i = 0; i < told.lines; i++) {
            count += rows[i].kind.kind == FIBS_KIND_BOARD || rows[i].kind.kind == FIBS_KIND_MESSAGE;
        }
    }
    return count;
}

static size_t count_heard(fibs_client *client, size_t got) {
    static fibs_wire wire;
    fibs_heard heard = { 0 };
    size_t count = 0;
    for (size_t at = 0; at < got; at += heard.used) {
        fibs_client_feed(client, portion + at, got - at, text, FIBS_MAX_LINE, &heard, &wire);
        count += heard.ended;
    }
    return count;
}

int main(int argc, char **argv) {
    const char *what = argc > 1 ? argv[1] : "readings";
    fibs_lines lines = NULL;
    fibs_client client = NULL;
    static fibs_wire wire;
    size_t got, count = 0;
    fibs_lines_new(&lines);
    fibs_client_new(&client, "ann", 3, "secret", 6);
    fibs_client_open(&client, &wire);
    while ((got = fread(portion, 1, sizeof portion, stdin)) > 0) {
        count += strcmp(what, "client") == 0 ? count_heard(&client, got)
                 : strcmp(what, "many") == 0 ? count_many(&lines, got)
                                             : count_each(&lines, got, strcmp(what, "readings") == 0);
    }
    printf("%zu\n", count);
    fibs_client_free(&client);
    fibs_lines_free(&lines);
    return 0;
}
