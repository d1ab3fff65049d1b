/* Plays a match of three points by its first legal plays, over lost connections too, and leaves: short_bot HOST PORT
 * NAME OPPONENT < PASSWORD. It compares no text of the server: fibs_events says what has happened. */
#define _POSIX_C_SOURCE 200809L
#include "fibs.h"
#include <netdb.h>
#include <stdio.h>
#include <string.h>
#include <sys/socket.h>
#include <unistd.h>

static fibs_client client;
static fibs_events events;
static fibs_wire wire;
static int server, status = -1; /* status: of the program, once it ends */

/* Says a command, or a line that is none of the client's commands, as an answer to who gives up. */
static void say(const char *form, const char *name) {
    char line[FIBS_MAX_COMMAND];
    size_t len = (size_t)snprintf(line, sizeof line, form, name) % sizeof line;
    if (fibs_client_plain(&client, line, len, &wire)) fibs_client_own_line(&client, line, len, &wire);
    send(server, wire.bytes, wire.len, MSG_NOSIGNAL);
}

static void answer(uint8_t event, const char *opponent) {
    size_t len = 0; /* of the opponent's name: 0 if no match has begun; else one that is not saved has ended unseen */
    fibs_events_opponent(&events, NULL, 0, &len);
    if (event == FIBS_EVENT_NOTHING_SAVED && len == 0) say("invite %s 3", opponent);
    else if (event == FIBS_EVENT_NOTHING_SAVED || event == FIBS_EVENT_MATCH_OVER) { status = 0; say("bye", ""); }
    else if (event == FIBS_EVENT_OFFERED_TO_RESIGN) say("accept", ""); /* the opponent did: this bot never does */
    else if (event == FIBS_EVENT_NEXT_GAME) say("join", "");
}

static void decide(const char *board, size_t len) {
    static fibs_decision plays[FIBS_MAX_PLAYS];
    uint8_t phase;
    if (fibs_phase(board, len, &phase)) return; /* the line is no board, or that of a game that is watched */
    if (phase == FIBS_PHASE_MOVE) fibs_plays(board, len, plays, FIBS_MAX_PLAYS, &len);
    else plays[0].kind = phase == FIBS_PHASE_ROLL_OR_DOUBLE ? FIBS_DECISION_ROLL : FIBS_DECISION_ACCEPT;
    fibs_client_decide(&client, &plays[0], &wire); /* refused if the user is not to decide, or if a decision waits */
    send(server, wire.bytes, wire.len, MSG_NOSIGNAL);
}

static void hear(const char *piece, size_t len, const char *opponent) {
    static char line[FIBS_MAX_LINE];
    fibs_happened happened;
    fibs_heard heard;
    if (fibs_events_hear_bytes(&events, piece, len, &happened) || happened.count > 0) status = 3; /* a refused login */
    for (size_t at = 0; at < len && status < 0; at += heard.used) {
        fibs_client_feed(&client, piece + at, len - at, line, sizeof line, &heard, &wire);
        send(server, wire.bytes, wire.len, MSG_NOSIGNAL);
        if (!heard.ended || heard.cut) continue;
        if (heard.kind.kind == FIBS_KIND_MESSAGE && heard.kind.number == 2) say("invite %s", opponent); /* resumes */
        if (fibs_events_hear(&events, line, heard.len, &happened)) happened.count = 0; /* memory ran out */
        for (size_t i = 0; i < happened.count; i++) answer(happened.events[i].kind, opponent);
        decide(line, heard.len);
    }
}

int main(int argc, char **argv) {
    char piece[4096], secret[FIBS_MAX_NAME + 1] = "";
    struct addrinfo tcp = { .ai_socktype = SOCK_STREAM }, *at;
    fibs_outstanding waited;
    if (argc != 5 || scanf("%64s", secret) != 1 || getaddrinfo(argv[1], argv[2], &tcp, &at) || fibs_events_new(&events)
        || fibs_client_new(&client, argv[3], strlen(argv[3]), secret, strlen(secret))) return 2;
    for (int tries = 0; tries < 1000 && status < 0; tries++) {
        server = socket(at->ai_family, at->ai_socktype, at->ai_protocol);
        connect(server, at->ai_addr, at->ai_addrlen); /* if it fails, so does recv */
        fibs_events_open(&events);
        fibs_client_open(&client, &wire);
        send(server, wire.bytes, wire.len, MSG_NOSIGNAL);
        for (ssize_t got; status < 0 && (got = recv(server, piece, sizeof piece, 0)) > 0;)
            hear(piece, (size_t)got, argv[4]);
        fibs_client_lose(&client, &waited); /* what waited is decided anew on the board that comes */
        close(server);
    }
    freeaddrinfo(at);
    fibs_client_free(&client);
    fibs_events_free(&events);
    return status != 0;
}
