/* The texts of the library that end with a zero. A function of Rattle can't return a pointer, so these are in C. They
 * are tables and nothing else; tests/c/rooms.c and tests/c_header.py hold them to the library's own names. */
#include "fibs.h"

static const char *const refusals[] = {
    "Done", "AlreadyOpen", "Offline", "NotReady", "ServerPlays", "NoBoard", "Waiting", "NotYours", "WrongKind",
    "IllegalPlay", "NotOn", "AlreadyOrdered", "NotOrdered"
};
static const char *const login_faults[] = { "", "BadName", "BadText", "TooLong" };
static const char *const position_faults[] = { "", "NotYou", "TooManyOwn", "TooManyOther" };
static const char *const field_faults[] = { "", "Missing", "Extra", "NotANumber", "OutOfRange", "BadName" };
static const char *const directory_faults[] = { "", "Memory", "Full" };
static const char *const own[] = {
    "", "NoHandle", "Held", "Short", "NoDecision", "NoCommand", "NoField", "NothingWaits", "NoPlayer", "NoStatus",
    "NoEffect", "NoDirection", "Taken"
};
static const char *const kinds[] = { "text", "message", "board", "malformed" };
static const char *const fields[] = { "", "name", "word", "tail", "flag", "number", "rating", "text" };
static const char *const phases[] = {
    "", "Over", "AnswerDouble", "OpponentActs", "RollOrDouble", "Move", "Passing"
};
static const char *const decisions[] = {
    "None", "Roll", "Double", "Accept", "Reject", "Move", "ResignNormal", "ResignGammon", "ResignBackgammon"
};
static const char *const events[] = {
    "none", "logged_in", "invited", "invited_to_resume", "joined", "resumed", "game_begun", "rolled", "played",
    "cannot_move", "doubled", "accepted", "rejected", "offered_to_resign", "declined", "game_over", "next_game",
    "match_over", "left", "not_playing", "rating_changed", "nothing_saved", "refused", "login_refused"
};

#define COUNT(table) (sizeof(table) / sizeof(table)[0])

static const struct { const char *const *names; size_t count; } families[] = {
    { refusals, COUNT(refusals) }, { login_faults, COUNT(login_faults) },
    { position_faults, COUNT(position_faults) }, { field_faults, COUNT(field_faults) },
    { directory_faults, COUNT(directory_faults) }, { own, COUNT(own) }
};

/* The name at a place of a table, or the empty text. */
static const char *name_at(const char *const *names, size_t count, size_t place) {
    return place < count ? names[place] : "";
}

const char *fibs_version(void) {
    return FIBS_VERSION;
}

const char *fibs_status_name(fibs_status status) {
    size_t family = status / 100;
    return family < COUNT(families) ? name_at(families[family].names, families[family].count, status % 100) : "";
}

const char *fibs_kind_name(uint8_t kind) {
    return name_at(kinds, COUNT(kinds), kind);
}

const char *fibs_fault_name(uint8_t fault) {
    return name_at(field_faults, COUNT(field_faults), fault);
}

const char *fibs_field_name(uint8_t kind) {
    return name_at(fields, COUNT(fields), kind);
}

const char *fibs_decision_name(uint8_t kind) {
    return name_at(decisions, COUNT(decisions), kind);
}

const char *fibs_phase_name(uint8_t phase) {
    return name_at(phases, COUNT(phases), phase);
}

const char *fibs_event_name(uint8_t kind) {
    return name_at(events, COUNT(events), kind);
}
