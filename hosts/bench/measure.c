/*
 * Measures calls of the door and of the plain C kernel on the same cases, for x86-64 Linux. Standard input holds the number of the
 * cases (32 bits) and then the cases: the group that it counts for (32 bits), a table and a request. What comes out is a line for
 * each group: its number, then figures for the door and for the plain kernel.
 *
 *   measure stack           the most bytes of stack that a call wrote to, its return address among them, on a painted stack; it fails
 *                           where the two kernels leave different tables or answers
 *   measure steps           instructions a call, and the deepest that the stack pointer went, one instruction at a time
 *   measure alone           the same of the door alone, for calls that take the plain kernel millions
 *   measure time ROUNDS     nanoseconds a call, the best of so many rounds; the two kernels take turns to go first
 */
#define _GNU_SOURCE
#include "speltmallet.h"

#include <signal.h>
#include <stdio.h>
#include <stdlib.h>
#include <string.h>
#include <time.h>

typedef int32_t kernel_door(uint8_t *, size_t, const uint8_t *, size_t, uint8_t *, size_t);
kernel_door plain_door;
kernel_door no_door; /* two instructions: what a call costs that does nothing */

enum { KERNELS = 2, PAINTED = 16384, PAINT = 0x5C };
static kernel_door *const kernels[KERNELS] = {speltmallet_door, plain_door};

struct request_case {
    uint32_t group;
    uint8_t table[SPELTMALLET_TABLE_BYTES];
    uint8_t request[SPELTMALLET_REQUEST_BYTES];
};

static struct request_case *cases;
static uint32_t case_count;
static uint8_t stack[PAINTED] __attribute__((aligned(64)));
static uint8_t work[SPELTMALLET_TABLE_BYTES] __attribute__((aligned(64)));
static uint8_t answer[SPELTMALLET_ANSWER_BYTES];

/*
 * call_on(top, door, table, request, answer) calls a door with its stack at `top`; with step_on the processor traps after each
 * instruction from the call to the switch back. The door keeps rbp, and with it the caller's stack.
 */
void call_on(uint8_t *top, kernel_door *door, uint8_t *table, const uint8_t *request, uint8_t *result);
void step_on(uint8_t *top, kernel_door *door, uint8_t *table, const uint8_t *request, uint8_t *result);
#define ENTER                                                                                                                   \
    "    push %rbp\n    mov %rsp, %rbp\n    mov %rdi, %rsp\n    mov %rsi, %rax\n"                                               \
    "    mov %rdx, %rdi\n    mov $600, %esi\n    mov %rcx, %rdx\n    mov $12, %ecx\n    mov $8, %r9d\n"
#define LEAVE "    mov %rbp, %rsp\n    pop %rbp\n    ret\n"
__asm__(".text\n.globl call_on, step_on, no_door\n"
        "no_door:\n    xor %eax, %eax\n    ret\n"
        "call_on:\n" ENTER "    call *%rax\n" LEAVE
        "step_on:\n" ENTER "    pushfq\n    orq $0x100, (%rsp)\n    popfq\n    call *%rax\n"
        "    pushfq\n    andq $-0x101, (%rsp)\n    popfq\n" LEAVE);

static void fail(const char *what) {
    fprintf(stderr, "measure: %s\n", what);
    exit(2);
}

static void read_cases(void) {
    if (fread(&case_count, sizeof case_count, 1, stdin) != 1) fail("there is no number of cases");
    cases = calloc(case_count, sizeof *cases);
    if (!cases || fread(cases, sizeof *cases, case_count, stdin) != case_count) fail("there are fewer cases than said");
}

/* The number of the cases from `first` on that are of one group. */
static uint32_t group_length(uint32_t first) {
    uint32_t length = 0;
    while (first + length < case_count && cases[first + length].group == cases[first].group) length++;
    return length;
}

/* ---- stack */

static unsigned painted_stack(kernel_door *door, const struct request_case *c) {
    unsigned clean = 0;
    memset(stack, PAINT, sizeof stack);
    memcpy(work, c->table, sizeof work);
    memset(answer, PAINT, sizeof answer);
    call_on(stack + PAINTED, door, work, c->request, answer);
    while (clean < PAINTED && stack[clean] == PAINT) clean++;
    if (clean == 0) fail("the painted stack is too small");
    return PAINTED - clean;
}

/* The two kernels are of the same rules: what each leaves of the table and the answer area after a case is the same. */
static void same_rules(const struct request_case *c, uint8_t tables[KERNELS][sizeof work], uint8_t answers[KERNELS][sizeof answer]) {
    size_t i;
    if (!memcmp(tables[0], tables[1], sizeof work) && !memcmp(answers[0], answers[1], sizeof answer)) return;
    fprintf(stderr, "measure: the door and plain.c leave different bytes after the request");
    for (i = 0; i < sizeof c->request; i++) fprintf(stderr, " %02x", c->request[i]);
    fprintf(stderr, "; answers");
    for (i = 0; i < sizeof answer; i++) fprintf(stderr, " %02x", answers[0][i]);
    fprintf(stderr, " and");
    for (i = 0; i < sizeof answer; i++) fprintf(stderr, " %02x", answers[1][i]);
    fprintf(stderr, "\n");
    exit(2);
}

static void measure_stack(void) {
    static uint8_t tables[KERNELS][sizeof work], answers[KERNELS][sizeof answer];
    uint32_t first, length, i;
    for (first = 0; first < case_count; first += length) {
        unsigned most[KERNELS] = {0, 0};
        int k;
        length = group_length(first);
        for (i = first; i < first + length; i++) {
            for (k = 0; k < KERNELS; k++) {
                unsigned used = painted_stack(kernels[k], &cases[i]);
                if (used > most[k]) most[k] = used;
                memcpy(tables[k], work, sizeof work);
                memcpy(answers[k], answer, sizeof answer);
            }
            same_rules(&cases[i], tables, answers);
        }
        printf("%u %u %u\n", cases[first].group, most[0], most[1]);
    }
}

/* ---- instructions */

enum { SAVED_RSP = 20 }; /* the saved stack pointer in a signal's context, counted in words */
static volatile uint64_t steps;
static volatile uint64_t lowest;

static void on_step(int number, siginfo_t *info, void *context) {
    uint64_t pointer = ((uint64_t *)context)[SAVED_RSP];
    (void)number;
    (void)info;
    steps++;
    if (pointer < lowest) lowest = pointer;
}

static void begin_steps(void) {
    static uint8_t handler_stack[65536];
    stack_t alternative;
    struct sigaction action;
    memset(&alternative, 0, sizeof alternative);
    alternative.ss_sp = handler_stack;
    alternative.ss_size = sizeof handler_stack;
    memset(&action, 0, sizeof action);
    action.sa_sigaction = on_step;
    action.sa_flags = SA_SIGINFO | SA_ONSTACK;
    if (sigaltstack(&alternative, NULL) || sigaction(SIGTRAP, &action, NULL)) fail("there is no handler for single steps");
}

static uint64_t count_steps(kernel_door *door, const struct request_case *c) {
    memcpy(work, c->table, sizeof work);
    steps = 0;
    step_on(stack + PAINTED, door, work, c->request, answer);
    return steps;
}

/* Of so many of the kernels; the figures of the others are 0. */
static void measure_steps(int counted) {
    uint32_t first, length, i;
    uint64_t around;
    begin_steps();
    around = count_steps(no_door, &cases[0]) - 2;
    for (first = 0; first < case_count; first += length) {
        uint64_t sum[KERNELS] = {0, 0}, deepest[KERNELS] = {0, 0};
        int k;
        length = group_length(first);
        for (k = 0; k < counted; k++) {
            lowest = (uint64_t)(stack + PAINTED);
            for (i = first; i < first + length; i++) sum[k] += count_steps(kernels[k], &cases[i]) - around;
            deepest[k] = (uint64_t)(stack + PAINTED) - lowest;
        }
        printf("%u %.1f %.1f %u %u\n", cases[first].group, (double)sum[0] / length, (double)sum[1] / length, (unsigned)deepest[0],
               (unsigned)deepest[1]);
    }
}

/* ---- time */

static double now(void) {
    struct timespec t;
    clock_gettime(CLOCK_MONOTONIC, &t);
    return (double)t.tv_sec * 1e9 + (double)t.tv_nsec;
}

/* Nanoseconds for one call of each case, with the copy of its table. */
static double one_pass(kernel_door *door, uint32_t first, uint32_t length) {
    double began = now();
    uint32_t i;
    for (i = first; i < first + length; i++) {
        memcpy(work, cases[i].table, sizeof work);
        door(work, sizeof work, cases[i].request, SPELTMALLET_REQUEST_BYTES, answer, sizeof answer);
    }
    return now() - began;
}

static void measure_time(int rounds) {
    uint32_t first, length;
    for (first = 0; first < case_count; first += length) {
        double best[KERNELS] = {1e18, 1e18}, nothing = 1e18;
        int round, k;
        length = group_length(first);
        for (round = 0; round < rounds; round++) {
            double took = one_pass(no_door, first, length);
            if (took < nothing) nothing = took;
            for (k = 0; k < KERNELS; k++) {
                int turn = (k + round) % KERNELS;
                took = one_pass(kernels[turn], first, length);
                if (took < best[turn]) best[turn] = took;
            }
        }
        printf("%u %.1f %.1f\n", cases[first].group, (best[0] - nothing) / length, (best[1] - nothing) / length);
    }
}

int main(int count, char **words) {
    read_cases();
    if (count == 2 && !strcmp(words[1], "stack")) measure_stack();
    else if (count == 2 && !strcmp(words[1], "steps")) measure_steps(KERNELS);
    else if (count == 2 && !strcmp(words[1], "alone")) measure_steps(1);
    else if (count == 3 && !strcmp(words[1], "time")) measure_time(atoi(words[2]));
    else fail("accepted are: stack, steps, alone, time ROUNDS");
    return 0;
}
