/*
 * The door from C, as the firmware calls it: a fresh table, document 01's example run, the values of answers, the ready word, many ticks
 * at once, a thread's settings, what each sort of refusal leaves alone, and the header's helpers. It prints a line for each check that
 * fails and ends with status 1 if there is one.
 */
#include "speltmallet.h"

#include <stdio.h>
#include <string.h>

static uint8_t table[SPELTMALLET_TABLE_BYTES];
static uint8_t request[SPELTMALLET_REQUEST_BYTES];
static uint8_t answer[SPELTMALLET_ANSWER_BYTES];
static int checks;
static int failures;

static void check(const char *what, long got, long wanted) {
    checks++;
    if (got != wanted) {
        failures++;
        printf("%s: got %ld, wanted %ld\n", what, got, wanted);
    }
}

static void check_text(const char *what, const char *got, const char *wanted) {
    checks++;
    if (strcmp(got, wanted) != 0) {
        failures++;
        printf("%s: got %s, wanted %s\n", what, got, wanted);
    }
}

/* Puts a request whose answer and next running thread are known. */
static void ask(const char *what, uint8_t operation, uint8_t object, uint8_t priority, uint32_t number, uint32_t data, int32_t code,
                uint32_t value, uint8_t running) {
    int32_t returned;
    speltmallet_request(request, operation, object, priority, number, data);
    memset(answer, 0xA5, sizeof answer);
    returned = speltmallet_door(table, sizeof table, request, sizeof request, answer, sizeof answer);
    check(what, returned, code);
    check(what, (int32_t)speltmallet_word(answer + SPELTMALLET_ANSWER_CODE), code);
    check(what, (long)speltmallet_value(answer), (long)value);
    check(what, speltmallet_running(table), running);
}

/* The ready word has these bits. */
static void check_ready_word(const char *what, uint32_t bits) {
    check(what, (long)speltmallet_word(table + SPELTMALLET_KERNEL + SPELTMALLET_KERNEL_READY), (long)bits);
}

/* Document 01's example run, in the order of its records. */
static void example_run(void) {
    ask("0 Create 1", SPELTMALLET_OP_CREATE, 1, 5, 2, 0, SPELTMALLET_DONE, 0, 1);
    ask("1 Create 2", SPELTMALLET_OP_CREATE, 2, 5, 3, 0, SPELTMALLET_DONE, 0, 1);
    ask("2 Tick", SPELTMALLET_OP_TICK, 0, 0, 0, 0, SPELTMALLET_DONE, 0, 1);
    ask("3 Tick", SPELTMALLET_OP_TICK, 0, 0, 0, 0, SPELTMALLET_DONE, 0, 2);
    ask("4 Make 0", SPELTMALLET_OP_MAKE, 0, 0, 0, 0, SPELTMALLET_DONE, 0, 2);
    ask("5 Pend 0", SPELTMALLET_OP_PEND, 0, 0, SPELTMALLET_FOREVER, 0, SPELTMALLET_BLOCKED, 0, 1);
    ask("6 Post 0", SPELTMALLET_OP_POST, 0, 0, 1, 0, SPELTMALLET_DONE, 0, 1);
    ask("7 Pend 0", SPELTMALLET_OP_PEND, 0, 0, 0, 0, SPELTMALLET_BAD_OPERATION, 0, 1);
    ask("8 operation 99", 99, 0, 0, 0, 0, SPELTMALLET_BAD_RECORD, 0, 1);
    ask("9 Outcome 2", SPELTMALLET_OP_OUTCOME, 2, 0, 0, 0, SPELTMALLET_OUTCOME_DONE, 0, 1);
}

/* Mail that goes through: the values of Receive and Outcome. */
static void mail(void) {
    const uint8_t *receiver = table + SPELTMALLET_THREAD(1);
    ask("Receive", SPELTMALLET_OP_RECEIVE, 0, 0, 7, 0, SPELTMALLET_BLOCKED, 0, 2);
    check("wait kind", receiver[SPELTMALLET_THREAD_WAIT_KIND], SPELTMALLET_WAIT_RECEIVE);
    check("counter", (long)speltmallet_word(receiver + SPELTMALLET_THREAD_COUNTER), 7);
    ask("Send to a receiver", SPELTMALLET_OP_SEND, 1, 0, 0, 0x89ABCDEFUL, SPELTMALLET_DONE, 0, 2);
    ask("Outcome 1", SPELTMALLET_OP_OUTCOME, 1, 0, 0, 0, SPELTMALLET_OUTCOME_DONE, 0x89ABCDEFUL, 2);
    ask("Send from interrupt", SPELTMALLET_OP_SEND_FROM_INTERRUPT, 2, 0, 0, 22, SPELTMALLET_DONE, 0, 2);
    ask("Receive mail", SPELTMALLET_OP_RECEIVE, 0, 0, 0, 0, SPELTMALLET_DONE, 22, 2);
}

/* Both threads wait in one line: the value says how many are ahead. */
static void line(void) {
    ask("Pend, first in the line", SPELTMALLET_OP_PEND, 0, 0, SPELTMALLET_FOREVER, 0, SPELTMALLET_BLOCKED, 0, 1);
    ask("Pend, one ahead", SPELTMALLET_OP_PEND, 0, 0, SPELTMALLET_FOREVER, 0, SPELTMALLET_BLOCKED, 1, 0);
    check("place", table[SPELTMALLET_THREAD(1) + SPELTMALLET_THREAD_PLACE], 2);
    check_ready_word("ready word, Init alone", 1);
    ask("Post for both", SPELTMALLET_OP_POST, 0, 0, 2, 0, SPELTMALLET_DONE, 0, 2);
    check_ready_word("ready word, both of priority 5", 1 | 1 << 5);
}

/* Thread 2 waits for 40 ticks, and the firmware sleeps: the ticks that Nearest gives, less one, and then one, wake it. */
static void asleep(void) {
    const uint8_t *sleeper = table + SPELTMALLET_THREAD(2);
    ask("Nearest of none", SPELTMALLET_OP_NEAREST, 0, 0, 0, 0, SPELTMALLET_DONE, 0, 2);
    ask("Delay 40", SPELTMALLET_OP_DELAY, 0, 0, 40, 0, SPELTMALLET_BLOCKED, 0, 1);
    ask("Nearest", SPELTMALLET_OP_NEAREST, 0, 0, 0, 0, SPELTMALLET_DONE, 40, 1);
    ask("Ticks, one less", SPELTMALLET_OP_TICKS, 0, 0, 39, 0, SPELTMALLET_DONE, 0, 1);
    check("ticks left", (long)speltmallet_word(sleeper + SPELTMALLET_THREAD_COUNTER), 1);
    ask("Nearest, one left", SPELTMALLET_OP_NEAREST, 0, 0, 0, 0, SPELTMALLET_DONE, 1, 1);
    ask("Ticks by 1", SPELTMALLET_OP_TICKS, 0, 0, 1, 0, SPELTMALLET_DONE, 0, 1);
    check("woken", sleeper[SPELTMALLET_THREAD_WAIT_KIND], SPELTMALLET_WAIT_NONE);
    /* turns of 2 and 3: 99,995 ticks are whole rounds */
    ask("Ticks, whole rounds", SPELTMALLET_OP_TICKS, 0, 0, SPELTMALLET_MOST_TICKS - 4, 0, SPELTMALLET_DONE, 0, 1);
    ask("Ticks by 2", SPELTMALLET_OP_TICKS, 0, 0, 2, 0, SPELTMALLET_DONE, 0, 2);
}

/* Thread 2 runs with a turn of 3. It gets a turn and a full counter, and then a priority below that of thread 1, and both back. */
static void settings(void) {
    const uint8_t *set = table + SPELTMALLET_THREAD(2);
    ask("Set turn", SPELTMALLET_OP_SET_TURN, 2, 0, 7, 0, SPELTMALLET_DONE, 0, 2);
    check("turn", (long)speltmallet_word(set + SPELTMALLET_THREAD_TURN), 7);
    check("counter, full", (long)speltmallet_word(set + SPELTMALLET_THREAD_COUNTER), 7);
    check("place, kept", set[SPELTMALLET_THREAD_PLACE], 1);
    ask("Set priority, the same", SPELTMALLET_OP_SET_PRIORITY, 2, 5, 0, 0, SPELTMALLET_DONE, 0, 2);
    check("place, kept again", set[SPELTMALLET_THREAD_PLACE], 1);
    ask("Set priority", SPELTMALLET_OP_SET_PRIORITY, 2, 4, 0, 0, SPELTMALLET_DONE, 0, 1);
    check("priority", set[SPELTMALLET_THREAD_PRIORITY], 4);
    check_ready_word("ready word, priorities 4 and 5", 1 | 1 << 4 | 1 << 5);
    ask("Set priority, behind the other", SPELTMALLET_OP_SET_PRIORITY, 2, 5, 0, 0, SPELTMALLET_DONE, 0, 1);
    check("place, the tail", set[SPELTMALLET_THREAD_PLACE], 2);
    ask("Set turn of one that does not run", SPELTMALLET_OP_SET_TURN, 2, 0, 3, 0, SPELTMALLET_DONE, 0, 1);
    ask("Yield", SPELTMALLET_OP_YIELD, 0, 0, 0, 0, SPELTMALLET_DONE, 0, 2);
}

/* A call that must leave the table alone and, where `untouched` says so, the answer area too. */
static void refused(const char *what, size_t table_len, size_t request_len, size_t answer_len, int32_t code, int untouched) {
    uint8_t before[SPELTMALLET_TABLE_BYTES];
    uint8_t unwritten[SPELTMALLET_ANSWER_BYTES];
    memcpy(before, table, sizeof before);
    memset(unwritten, 0xA5, sizeof unwritten);
    memset(answer, 0xA5, sizeof answer);
    check(what, speltmallet_door(table, table_len, request, request_len, answer, answer_len), code);
    check(what, memcmp(table, before, sizeof before), 0);
    if (untouched) {
        check(what, memcmp(answer, unwritten, sizeof unwritten), 0);
    } else {
        check(what, (int32_t)speltmallet_word(answer + SPELTMALLET_ANSWER_CODE), code);
        check(what, (long)speltmallet_value(answer), 0);
    }
}

static void refusals(void) {
    uint8_t *last = table + SPELTMALLET_TABLE_BYTES - 1;
    uint8_t *ready = table + SPELTMALLET_KERNEL + SPELTMALLET_KERNEL_READY;
    speltmallet_request(request, SPELTMALLET_OP_DELETE, 0, 0, 0, 0);
    refused("Delete Init", 600, 12, 8, SPELTMALLET_BAD_OPERATION, 0);
    speltmallet_request(request, SPELTMALLET_OP_CREATE, 3, SPELTMALLET_TOP_PRIORITY + 1, 1, 0);
    refused("priority 32", 600, 12, 8, SPELTMALLET_BAD_PRIORITY, 0);
    speltmallet_request(request, SPELTMALLET_OP_SET_PRIORITY, 1, SPELTMALLET_TOP_PRIORITY + 1, 0, 0);
    refused("Set priority to 32", 600, 12, 8, SPELTMALLET_BAD_PRIORITY, 0);
    speltmallet_request(request, SPELTMALLET_OP_SET_PRIORITY, 0, 5, 0, 0);
    refused("Set priority of Init", 600, 12, 8, SPELTMALLET_BAD_OPERATION, 0);
    speltmallet_request(request, SPELTMALLET_OP_SET_TURN, 1, 0, SPELTMALLET_MOST_TICKS + 1, 0);
    refused("Set turn to 100,000", 600, 12, 8, SPELTMALLET_BAD_TICKS, 0);
    speltmallet_request(request, SPELTMALLET_OP_SET_TURN, 0, 0, 5, 0);
    refused("Set turn of Init", 600, 12, 8, SPELTMALLET_BAD_OPERATION, 0);
    speltmallet_request(request, SPELTMALLET_OP_SET_TURN, 1, 5, 5, 0);
    refused("Set turn with a stale priority", 600, 12, 8, SPELTMALLET_BAD_RECORD, 0);
    speltmallet_request(request, 3, 1, 5, 5, 0);
    refused("operation 3, Set as it was", 600, 12, 8, SPELTMALLET_BAD_RECORD, 0);
    speltmallet_request(request, SPELTMALLET_OP_TICKS, 0, 0, 0, 0);
    refused("Ticks by 0", 600, 12, 8, SPELTMALLET_BAD_TICKS, 0);
    speltmallet_request(request, SPELTMALLET_OP_TICKS, 0, 0, SPELTMALLET_MOST_TICKS + 1, 0);
    refused("Ticks by 100,000", 600, 12, 8, SPELTMALLET_BAD_TICKS, 0);
    speltmallet_request(request, SPELTMALLET_OPERATIONS, 0, 0, 0, 0);
    refused("operation 25", 600, 12, 8, SPELTMALLET_BAD_RECORD, 0);
    speltmallet_request(request, SPELTMALLET_OP_RESUME, SPELTMALLET_THREADS, 0, 0, 0);
    refused("thread 16", 600, 12, 8, SPELTMALLET_BAD_THREAD, 0);
    speltmallet_request(request, SPELTMALLET_OP_RESUME, 1, 0, 0, 0);
    refused("Resume a ready thread", 600, 12, 8, SPELTMALLET_BAD_STATE, 0);
    speltmallet_request(request, SPELTMALLET_OP_DROP, SPELTMALLET_SEMAPHORES, 0, 0, 0);
    refused("semaphore 8", 600, 12, 8, SPELTMALLET_BAD_SEMAPHORE, 0);
    speltmallet_request(request, SPELTMALLET_OP_TICK, 0, 0, 0, 0);
    refused("record of 11 bytes", 600, 11, 8, SPELTMALLET_BAD_RECORD, 0);
    request[SPELTMALLET_REQUEST_ZERO] = 1;
    refused("byte 3 not zero", 600, 12, 8, SPELTMALLET_BAD_RECORD, 0);
    refused("table of 599 bytes", 599, 12, 8, SPELTMALLET_BAD_TABLE, 1);
    refused("area of 7 bytes", 600, 12, 7, SPELTMALLET_BAD_TABLE, 1);
    refused("nothing at all", 0, 0, 0, SPELTMALLET_BAD_TABLE, 1);
    *last = 1;
    refused("unsound table", 600, 12, 8, SPELTMALLET_BAD_TABLE, 1);
    *last = 0;
    ready[0] = 1;
    refused("ready word without a bit", 600, 12, 8, SPELTMALLET_BAD_TABLE, 1);
    ready[0] = 0;
    refused("ready word 0, as in tables saved earlier", 600, 12, 8, SPELTMALLET_BAD_TABLE, 1);
    speltmallet_put_word(ready, 1 | 1 << 5 | (uint32_t)1 << SPELTMALLET_TOP_PRIORITY);
    refused("ready word with another bit", 600, 12, 8, SPELTMALLET_BAD_TABLE, 1);
    speltmallet_put_word(ready, 1 | 1 << 5);
    ask("sound again", SPELTMALLET_OP_LOCK, 0, 0, 0, 0, SPELTMALLET_DONE, 0, 2);
    check("lock count", table[SPELTMALLET_KERNEL + SPELTMALLET_KERNEL_LOCK], 1);
}

/* A fresh table is these bytes: by the function, by its other name, and by the macro where C has designators. */
static void fresh(void) {
#if defined(__STDC_VERSION__) && __STDC_VERSION__ >= 199901L
    static const uint8_t by_macro[SPELTMALLET_TABLE_BYTES] = SPELTMALLET_FRESH;
#endif
    uint8_t by_hand[SPELTMALLET_TABLE_BYTES];
    memset(by_hand, 0, sizeof by_hand);
    by_hand[0] = by_hand[5] = by_hand[7] = by_hand[578] = 1;
    by_hand[8] = by_hand[12] = 10;
#if defined(__STDC_VERSION__) && __STDC_VERSION__ >= 199901L
    check("fresh by the macro", memcmp(by_macro, by_hand, sizeof by_hand), 0);
#endif
    memset(table, 0xA5, sizeof table);
    speltmallet_reset(table);
    check("fresh by reset", memcmp(table, by_hand, sizeof by_hand), 0);
    memset(table, 0xA5, sizeof table);
    speltmallet_fresh(table);
    check("fresh", memcmp(table, by_hand, sizeof by_hand), 0);
    check_ready_word("ready word of a fresh table", 1);
}

/* The helpers, each by what the layout and the names above say. */
static void helpers(void) {
    static const uint8_t bytes[SPELTMALLET_REQUEST_BYTES] = { 15, 7, 31, 0, 0x78, 0x56, 0x34, 0x12, 0xEF, 0xCD, 0xAB, 0x89 };
    memset(request, 0xA5, sizeof request);
    speltmallet_request(request, SPELTMALLET_OP_POST, 7, 31, 0x12345678UL, 0x89ABCDEFUL);
    check("request", memcmp(request, bytes, sizeof bytes), 0);
    check("word", speltmallet_word(bytes + 8) == 0x89ABCDEFUL, 1);
    check("value", speltmallet_value(bytes) == 0x12345678UL, 1);
    memset(table, 0xA5, sizeof table);
    check("running", speltmallet_running(table), 0xA5);
    check_text("code 1", speltmallet_code_name(SPELTMALLET_BLOCKED), "BLOCKED");
    check_text("code 0", speltmallet_code_name(SPELTMALLET_DONE), "DONE");
    check_text("code -1", speltmallet_code_name(SPELTMALLET_BAD_THREAD), "BAD_THREAD");
    check_text("code -2", speltmallet_code_name(SPELTMALLET_BAD_PRIORITY), "BAD_PRIORITY");
    check_text("code -3", speltmallet_code_name(SPELTMALLET_BAD_TICKS), "BAD_TICKS");
    check_text("code -4", speltmallet_code_name(SPELTMALLET_BAD_STATE), "BAD_STATE");
    check_text("code -5", speltmallet_code_name(SPELTMALLET_BAD_OPERATION), "BAD_OPERATION");
    check_text("code -6", speltmallet_code_name(SPELTMALLET_BAD_SEMAPHORE), "BAD_SEMAPHORE");
    check_text("code -7", speltmallet_code_name(SPELTMALLET_BAD_TABLE), "BAD_TABLE");
    check_text("code -8", speltmallet_code_name(SPELTMALLET_BAD_RECORD), "BAD_RECORD");
    check_text("code 2", speltmallet_code_name(2), "no code");
    check_text("code -9", speltmallet_code_name(-9), "no code");
    check_text("operation 0", speltmallet_operation_name(SPELTMALLET_OP_YIELD), "Yield");
    check_text("operation 2", speltmallet_operation_name(SPELTMALLET_OP_DELETE), "Delete");
    check_text("operation 3", speltmallet_operation_name(3), "no operation");
    check_text("operation 4", speltmallet_operation_name(SPELTMALLET_OP_SUSPEND), "Suspend");
    check_text("operation 9", speltmallet_operation_name(SPELTMALLET_OP_SEND_FROM_INTERRUPT), "Send from interrupt");
    check_text("operation 11", speltmallet_operation_name(SPELTMALLET_OP_MAKE), "Make semaphore");
    check_text("operation 16", speltmallet_operation_name(SPELTMALLET_OP_POST_FROM_INTERRUPT), "Post from interrupt");
    check_text("operation 20", speltmallet_operation_name(SPELTMALLET_OP_OUTCOME), "Outcome");
    check_text("operation 21", speltmallet_operation_name(SPELTMALLET_OP_TICKS), "Ticks");
    check_text("operation 22", speltmallet_operation_name(SPELTMALLET_OP_NEAREST), "Nearest");
    check_text("operation 23", speltmallet_operation_name(SPELTMALLET_OP_SET_PRIORITY), "Set priority");
    check_text("operation 24", speltmallet_operation_name(SPELTMALLET_OP_SET_TURN), "Set turn");
    check_text("operation 25", speltmallet_operation_name(SPELTMALLET_OPERATIONS), "no operation");
    check_text("operation 255", speltmallet_operation_name(255), "no operation");
}

int main(void) {
    helpers();
    fresh();
    example_run();
    mail();
    line();
    asleep();
    settings();
    refusals();
    printf("the door from C: %d checks, %d failed\n", checks, failures);
    return failures != 0;
}
