/* Each allocation refused in turn: a call then answers FIBS_STATUS_MEMORY, and what it was given is as before. */
#include "fibs.h"

#include "refusing.h"

#include <string.h>

#define S(name) FIBS_STATUS_##name

static const char board[] =
    "board:You:someplayer:3:0:1:0:-2:0:0:0:0:5:0:3:0:0:0:-5:5:0:0:0:-3:0:-5:0:0:0:0:2:0:1:6:2:0:0:1:1:1:0:1:-1:0:"
    "25:0:0:0:0:2:0:0:0";
/* after 24-18 13-11 */
static const char after[] =
    "board:You:someplayer:3:0:1:0:-2:0:0:0:0:5:0:3:0:0:1:-5:4:0:0:0:-3:1:-5:0:0:0:0:1:0:-1:0:0:0:0:1:1:1:0:1:-1:0:"
    "25:0:0:0:0:0:0:0:0";
static const char player[] = "5 someplayer mgnu_advanced - 0 0 1912.15 827 8 1040515752 192.168.143.5 3DFiBs -";

/* All calls that take memory, in turn. Whether one was refused. */
static bool run(long number) {
    static fibs_decision plays[FIBS_MAX_PLAYS];
    fibs_lines lines = NULL;
    fibs_client client = NULL;
    fibs_directory directory = NULL;
    fibs_events events = NULL;
    static fibs_happened happened;
    static char text[4096];
    fibs_wire wire = { 0 };
    fibs_decision none = { 0, 0, { { 0, 0 } } }, play = none;
    fibs_decision whole = { FIBS_DECISION_MOVE, 2, { { 24, 18 }, { 18, 16 } } };
    size_t count = 77, len = 77;
    refuse(number);
    plays[0] = none;

    fibs_status made = fibs_lines_new(&lines);
    check(made == (refused ? S(MEMORY) : S(DONE)) && (lines != NULL) == (made == S(DONE)), "fibs_lines_new", number);
    long before = refused;
    made = fibs_client_new(&client, "ann", 3, "secret", 6);
    check(made == (refused > before ? S(MEMORY) : S(DONE)) && (client != NULL) == (made == S(DONE)), "fibs_client_new",
          number);
    before = refused;
    check(fibs_client_open(&client, &wire) == (client != NULL ? S(DONE) : S(NO_HANDLE)) && refused == before,
          "fibs_client_open", number);
    made = fibs_directory_new(&directory);
    check(made == (refused > before ? S(MEMORY) : S(DONE)) && (directory != NULL) == (made == S(DONE)),
          "fibs_directory_new", number);
    if (directory != NULL) {
        before = refused;
        made = fibs_directory_note(&directory, player, strlen(player));
        check(made == (refused > before ? S(MEMORY) : S(DONE)), "fibs_directory_note", number);
        check(fibs_directory_len(&directory, &len) == S(DONE) && len == (made == S(DONE)), "fibs_directory_len",
              number);
    }
    before = refused;
    made = fibs_events_new(&events);
    check(made == (refused > before ? S(MEMORY) : S(DONE)) && (events != NULL) == (made == S(DONE)), "fibs_events_new",
          number);
    /* to find a play, memory is taken: if it is refused the board says the same when it comes again */
    if (events != NULL) {
        check(fibs_events_hear(&events, board, strlen(board), &happened) == S(DONE) && happened.count == 1
              && happened.events[0].kind == FIBS_EVENT_ROLLED, "fibs_events_hear", number);
        before = refused;
        happened.count = 77;
        made = fibs_events_hear(&events, after, strlen(after), &happened);
        check(made == S(DONE) || (made == S(MEMORY) && refused > before && happened.count == 77), "fibs_events_hear",
              number);
        check(made == S(DONE) || fibs_events_hear(&events, after, strlen(after), &happened) == S(DONE),
              "it is heard again", number);
        check(happened.count == 1 && happened.events[0].kind == FIBS_EVENT_PLAYED && happened.events[0].play.count == 2,
              "a play is told", number);
    }
    before = refused;
    made = fibs_plays(board, strlen(board), plays, FIBS_MAX_PLAYS, &count);
    /* if room for all plays at once is refused, it may do with less */
    check(made == S(DONE) || (made == S(MEMORY) && refused > before), "fibs_plays", number);
    check(made == S(DONE) ? count == 14 : count == 77 && plays[0].kind == 0, "fibs_plays writes", number);

    before = refused;
    play.kind = 77;
    made = fibs_listed_play(board, strlen(board), &whole, &play);
    check(made == S(DONE) ? play.kind == FIBS_DECISION_MOVE && play.count == 2
                          : made == S(MEMORY) && refused > before && play.kind == 77, "fibs_listed_play", number);

    before = refused;
    len = 77;
    made = fibs_words(board, strlen(board), text, sizeof text, &len);
    check(made == S(DONE) ? len > 100 && text[0] == 'Y' : made == S(MEMORY) && refused > before && len == 77,
          "fibs_words", number);

    fibs_lines_free(&lines);
    fibs_client_free(&client);
    fibs_directory_free(&directory);
    fibs_directory_free(&directory);
    fibs_events_free(&events);
    check(live == 0, "a leak", number);
    return refused > 0;
}

int main(void) {
    long number = 0;
    while (run(number)) {
        number++;
    }
    printf("%ld allocations refused in turn\n", number);
    printf("%ld passed, %d failed\n", number, failed);
    return failed > 0 || number < 5;
}
