// The header from C++: it compiles without a warning, the helpers are there, the one that makes a table fresh among them, and the door keeps
// its C name.
#include "speltmallet.h"

static uint8_t table[SPELTMALLET_TABLE_BYTES];

int32_t tick_from_cpp(uint8_t (&answer)[SPELTMALLET_ANSWER_BYTES]) {
    uint8_t tick[SPELTMALLET_REQUEST_BYTES];
    speltmallet_request(tick, SPELTMALLET_OP_TICK, 0, 0, 0, 0);
    return speltmallet_door(table, sizeof table, tick, sizeof tick, answer, sizeof answer);
}

const char *helpers_from_cpp(uint8_t (&answer)[SPELTMALLET_ANSWER_BYTES]) {
    speltmallet_fresh(table);
    if (speltmallet_running(table) != 0 || speltmallet_value(answer) != 0) {
        return speltmallet_operation_name(SPELTMALLET_OP_TICK);
    }
    return speltmallet_code_name(SPELTMALLET_DONE);
}
