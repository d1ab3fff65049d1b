/* Logs in at a server and plays its first legal play until the match is over: bot HOST PORT NAME [OPPONENT]. The
 * password is the first line of standard input. It invites the opponent to a match of one point; if none is named, it
 * joins who invites it. It accepts each offer to resign. fibs_events says what has happened: it compares no text.
 *
 * It prints each phase, and each command that it sends except the login. If the connection is lost it opens another,
 * and the game goes on as the server has it. The status is 0 if the match was played out, else 4; it is 4 at once if
 * the server refuses the login.
 *
 *     cc -Iinclude -o bot examples/bot.c lib/libfibs.a
 */
#define _POSIX_C_SOURCE 200809L
#include "fibs.h"

#include <errno.h>
#include <netdb.h>
#include <stdbool.h>
#include <stdio.h>
#include <stdlib.h>
#include <string.h>
#include <sys/socket.h>
#include <sys/time.h>
#include <time.h>
#include <unistd.h>

/* How often a connection is opened in vain, one second apart, before it gives up; how long a read waits. */
enum { MOST_TRIES = 10, SECONDS = 5 };

struct bot {
    fibs_client client;
    fibs_events events;
    const char *opponent;
    int server;
    bool has_invited, is_refused, is_over;
};

/* A socket to the server, or -1. */
static int dial(const char *host, const char *port) {
    struct addrinfo hints = { .ai_socktype = SOCK_STREAM }, *found;
    if (getaddrinfo(host, port, &hints, &found) != 0) {
        return -1;
    }
    int server = -1;
    for (struct addrinfo *one = found; one != NULL && server < 0; one = one->ai_next) {
        server = socket(one->ai_family, one->ai_socktype, one->ai_protocol);
        if (server >= 0 && connect(server, one->ai_addr, one->ai_addrlen) != 0) {
            close(server);
            server = -1;
        }
    }
    freeaddrinfo(found);
    const struct timeval longest = { .tv_sec = SECONDS };
    if (server >= 0) {
        setsockopt(server, SOL_SOCKET, SO_RCVTIMEO, &longest, sizeof longest);
    }
    return server;
}

/* Sends what is to be sent, and prints it if it is no login. */
static bool send_wire(const struct bot *bot, const fibs_wire *wire, bool is_login) {
    if (!is_login && wire->len > 0) {
        printf("> %.*s", (int)wire->len, wire->bytes);
        fflush(stdout);
    }
    for (size_t sent = 0; sent < wire->len;) {
        ssize_t more = send(bot->server, wire->bytes + sent, wire->len - sent, MSG_NOSIGNAL);
        if (more < 0 && errno == EINTR) {
            continue;
        }
        if (more <= 0) {
            return false;
        }
        sent += (size_t)more;
    }
    return true;
}

/* Makes a decision, if the client allows it. */
static bool decide(struct bot *bot, const fibs_decision *decision) {
    static fibs_wire wire;
    fibs_status status = fibs_client_decide(&bot->client, decision, &wire);
    if (status != FIBS_STATUS_DONE && status != FIBS_STATUS_WAITING) {
        printf("refused %u %s\n", (unsigned)status, fibs_status_name(status));
    }
    return send_wire(bot, &wire, false);
}

/* Sends a command that decides nothing in the game: two words, the second of a length. */
static bool say(struct bot *bot, const char *word, const char *name, size_t len) {
    static fibs_wire wire;
    char text[FIBS_MAX_COMMAND];
    int size = snprintf(text, sizeof text, "%s %.*s", word, (int)len, name);
    if (size > 0 && (size_t)size < sizeof text) {
        fibs_client_plain(&bot->client, text, (size_t)size, &wire);
        return send_wire(bot, &wire, false);
    }
    return true;
}

/* Sends a line of its own, of which the client does not know. */
static bool send_own(struct bot *bot, const char *line) {
    static fibs_wire wire;
    fibs_client_own_line(&bot->client, line, strlen(line), &wire);
    return send_wire(bot, &wire, false);
}

/* Answers something that has happened. */
static bool answer(struct bot *bot, const fibs_event *event) {
    switch (event->kind) {
    case FIBS_EVENT_OFFERED_TO_RESIGN:
        return event->who != FIBS_SIDE_OPPONENT || send_own(bot, "accept");
    case FIBS_EVENT_INVITED:
    case FIBS_EVENT_INVITED_TO_RESUME:
        return bot->opponent != NULL || say(bot, "join", event->name.bytes, event->name.len);
    default:
        return true;
    }
}

/* Answers all that has happened by a line. */
static bool answer_all(struct bot *bot, const char *line, const fibs_heard *heard) {
    static fibs_happened happened;
    if (heard->cut || fibs_events_hear(&bot->events, line, heard->len, &happened) != FIBS_STATUS_DONE) {
        return true;
    }
    bool goes_on = true;
    for (size_t i = 0; i < happened.count && goes_on; i++) {
        goes_on = answer(bot, &happened.events[i]);
    }
    return goes_on;
}

/* Invites the opponent, as soon as the server knows the bot. */
static bool invite(struct bot *bot) {
    char words[FIBS_MAX_NAME + 3];
    if (bot->opponent == NULL || bot->has_invited || fibs_client_ready(&bot->client) != FIBS_STATUS_DONE) {
        return true;
    }
    bot->has_invited = true;
    int len = snprintf(words, sizeof words, "%s 1", bot->opponent);
    return len < 0 || (size_t)len >= sizeof words || say(bot, "invite", words, (size_t)len);
}

/* Whether the server asks for the login, though one was sent and nothing more comes. */
static bool is_refused(struct bot *bot) {
    char text[FIBS_MAX_LINE];
    size_t len = 0;
    return fibs_client_ready(&bot->client) == FIBS_STATUS_NOT_READY
           && fibs_client_unfinished(&bot->client, text, sizeof text, &len) == FIBS_STATUS_DONE
           && len >= 7 && memcmp(text + len - 7, "login: ", 7) == 0;
}

/* A decision of a kind that has no steps. */
static fibs_decision plain_decision(uint8_t kind) {
    fibs_decision decision = { kind, 0, { { 0, 0 } } };
    return decision;
}

/* The game is over. */
static bool finish(struct bot *bot, const char *line, size_t len) {
    static fibs_wire wire;
    uint8_t over = 0;
    bot->is_over = fibs_match_over(line, len, &over) == FIBS_STATUS_DONE && over == 1;
    const char *command = bot->is_over ? "bye" : "join";
    fibs_client_plain(&bot->client, command, strlen(command), &wire);
    return send_wire(bot, &wire, false);
}

/* Answers a board. */
static bool play(struct bot *bot, const char *line, size_t len) {
    static fibs_decision plays[FIBS_MAX_PLAYS];
    fibs_decision decision;
    size_t count = 0;
    uint8_t phase = 0;
    if (fibs_phase(line, len, &phase) != FIBS_STATUS_DONE) {
        return true; /* the board of a game that is watched */
    }
    printf("%s\n", fibs_phase_name(phase));
    switch (phase) {
    case FIBS_PHASE_OVER:
        return finish(bot, line, len);
    case FIBS_PHASE_ANSWER_DOUBLE:
        decision = plain_decision(FIBS_DECISION_ACCEPT);
        return decide(bot, &decision);
    case FIBS_PHASE_ROLL_OR_DOUBLE:
        decision = plain_decision(FIBS_DECISION_ROLL);
        return decide(bot, &decision);
    case FIBS_PHASE_MOVE:
        if (fibs_plays(line, len, plays, FIBS_MAX_PLAYS, &count) != FIBS_STATUS_DONE || count == 0) {
            return false;
        }
        return decide(bot, &plays[0]);
    default:
        return true;
    }
}

/* Gives the client what came, line by line. */
static bool hear(struct bot *bot, const char *piece, size_t len) {
    static char line[FIBS_MAX_LINE];
    static fibs_wire wire;
    fibs_heard heard = { 0 };
    for (size_t at = 0; at < len && !bot->is_over; at += heard.used) {
        fibs_status status = fibs_client_feed(&bot->client, piece + at, len - at, line, sizeof line, &heard, &wire);
        if (status != FIBS_STATUS_DONE || !send_wire(bot, &wire, false)) {
            return false;
        }
        bool goes_on = !heard.ended
            || (answer_all(bot, line, &heard)
                && (heard.kind.kind == FIBS_KIND_BOARD ? play(bot, line, heard.len)
                    : heard.kind.kind != FIBS_KIND_MESSAGE || invite(bot)));
        if (!goes_on) {
            return false;
        }
    }
    return true;
}

/* Plays on one connection, until it is lost or the match is over. */
static void play_connection(struct bot *bot) {
    static char piece[4096];
    static fibs_wire wire;
    if (fibs_client_open(&bot->client, &wire) != FIBS_STATUS_DONE || !send_wire(bot, &wire, true)) {
        return;
    }
    while (!bot->is_over) {
        ssize_t got = recv(bot->server, piece, sizeof piece, 0);
        if (got < 0 && (errno == EAGAIN || errno == EWOULDBLOCK) && is_refused(bot)) {
            fputs("bot: the server refuses the login\n", stderr);
            bot->is_refused = true;
            return;
        }
        if (got < 0 && (errno == EINTR || errno == EAGAIN || errno == EWOULDBLOCK)) {
            continue;
        }
        if (got <= 0 || !hear(bot, piece, (size_t)got)) {
            return;
        }
    }
}

/* The connection is lost: prints what waited. The server may have it or not, so that it is not sent again. */
static void lose(struct bot *bot) {
    fibs_outstanding waited = { 0 };
    char text[FIBS_MAX_COMMAND];
    size_t len = 0;
    fibs_client_lose(&bot->client, &waited);
    fibs_decision_text(&waited.decision, waited.board.number[FIBS_BOARD_DIRECTION], text, sizeof text, &len);
    printf("lost %.*s\n", (int)len, text);
}

/* Plays until the match is over. */
static bool play_match(struct bot *bot, const char *host, const char *port) {
    const struct timespec second = { .tv_sec = 1 };
    for (int tries = 0; tries < MOST_TRIES && !bot->is_over && !bot->is_refused; tries++) {
        bot->server = dial(host, port);
        if (bot->server >= 0) {
            tries = 0;
            play_connection(bot);
            if (!bot->is_over) {
                lose(bot);
            }
            close(bot->server);
        }
        if (!bot->is_over && !bot->is_refused) {
            nanosleep(&second, NULL);
        }
    }
    return bot->is_over;
}

int main(int argc, char **argv) {
    struct bot bot = { .client = NULL };
    char password[256] = "";
    if (argc != 4 && argc != 5) {
        fputs("bot HOST PORT NAME [OPPONENT] < PASSWORD\n", stderr);
        return 2;
    }
    bot.opponent = argv[4];
    if (fgets(password, sizeof password, stdin) == NULL) {
        password[0] = '\0';
    }
    password[strcspn(password, "\r\n")] = '\0';
    fibs_status status = fibs_client_new(&bot.client, argv[3], strlen(argv[3]), password, strlen(password));
    if (status == FIBS_STATUS_DONE) {
        status = fibs_events_new(&bot.events);
    }
    if (status != FIBS_STATUS_DONE) {
        fprintf(stderr, "bot: %s\n", fibs_status_name(status));
        fibs_client_free(&bot.client);
        return 4;
    }
    bool played = play_match(&bot, argv[1], argv[2]);
    fibs_client_free(&bot.client);
    fibs_events_free(&bot.events);
    return played ? 0 : 4;
}
