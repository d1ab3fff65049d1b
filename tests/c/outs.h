/* All that a call of the library may write, filled with a pattern, and which of it was written since. */
#include "fibs.h"

#include <string.h>

/* All that a call may write. */
static struct outs {
    fibs_fed fed;
    fibs_told told;
    fibs_line rows[3];
    fibs_heard heard;
    fibs_wire wire;
    fibs_board board;
    fibs_field field;
    fibs_player player;
    fibs_happened happened;
    fibs_saved saved;
    fibs_next next;
    fibs_decision decision, plays[32];
    fibs_outstanding waited;
    uint8_t byte;
    size_t size;
    char text[FIBS_MAX_LINE + 9];
} out, pattern;

enum {
    NOTHING = 0, FED = 1, TOLD = 2, ROWS = 4, HEARD = 8, WIRE = 16, BOARD = 32, FIELD = 64, DECISION = 128, PLAYS = 256,
    WAITED = 512, BYTE = 1024, SIZE = 2048, TEXT = 4096, PLAYER = 8192, HAPPENED = 16384, SAVED = 32768,
    NEXT = 65536
};

static void fill(void) {
    if (pattern.byte != 0xa5) {
        memset(&pattern, 0xa5, sizeof pattern);
    }
    memcpy(&out, &pattern, sizeof out);
}

/* Which of them are no longer the pattern. */
static unsigned written(void) {
#define AT(member, bit) (memcmp(&out.member, &pattern.member, sizeof out.member) != 0 ? (unsigned)(bit) : 0u)
    return AT(fed, FED) | AT(told, TOLD) | AT(rows, ROWS) | AT(heard, HEARD) | AT(wire, WIRE) | AT(board, BOARD)
           | AT(field, FIELD) | AT(decision, DECISION) | AT(plays, PLAYS) | AT(waited, WAITED) | AT(byte, BYTE)
           | AT(size, SIZE) | AT(text, TEXT) | AT(player, PLAYER)
           | AT(happened, HAPPENED) | AT(saved, SAVED) | AT(next, NEXT);
}
