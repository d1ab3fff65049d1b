/* What a caller writes of the header, which has to compile as C and as C++ with no cast and no warning. */
#include "fibs.h"

int main(void) {
    fibs_client client = NULL, other = client;
    fibs_decision decision = { FIBS_DECISION_ROLL, 0, { { 0, 0 } } };
    fibs_status status = FIBS_STATUS_DONE;
    fibs_board board;
    size_t len = FIBS_MAX_LINE;
    char text[FIBS_MAX_COMMAND];
    decision.kind = FIBS_DECISION_NONE;
    status = fibs_client_new(&other, "ann", 3, "secret", sizeof "secret" - 1);
    if (status == FIBS_STATUS_DONE && fibs_read("12 bob hi", 9).kind == FIBS_KIND_MESSAGE) {
        status = fibs_decision_text(&decision, -1, text, sizeof text, &len);
    }
    if (fibs_read_board("board", 5, &board, &len) == FIBS_STATUS_DONE && board.number[FIBS_BOARD_TURN] < 0) {
        status = fibs_status_text(FIBS_STATUS_SHORT, text, sizeof text, &len);
    }
    fibs_client_free(&other);
    return FIBS_VERSION_MAJOR == 0 && fibs_status_name(status)[0] == '\0' && fibs_phase_name(FIBS_PHASE_MOVE) == NULL;
}
