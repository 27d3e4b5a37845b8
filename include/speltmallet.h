/*
 * Speltmallet, a small real-time kernel for ticket printers: its one door, for C and C++.
 *
 * The kernel's whole state is a table of 600 bytes that the caller keeps and lends. The caller also lends a request record of 12
 * bytes and an answer area of 8 bytes. Wide fields are little-endian, whatever the processor.
 *
 *     uint8_t table[SPELTMALLET_TABLE_BYTES];
 *     uint8_t answer[SPELTMALLET_ANSWER_BYTES];
 *     static const uint8_t tick[SPELTMALLET_REQUEST_BYTES] = { SPELTMALLET_OP_TICK };
 *
 *     speltmallet_fresh(table);
 *     code = speltmallet_door(table, sizeof table, tick, sizeof tick, answer, sizeof answer);
 *     run(speltmallet_running(table));
 *
 * The door takes every table and every request and needs no test before it: a bad one gets its refusal number. docs/FIRMWARE.md
 * goes from here to a running printer.
 */
#ifndef SPELTMALLET_H
#define SPELTMALLET_H

#include <stddef.h>
#include <stdint.h>

#ifdef __cplusplus
extern "C" {
#endif

/* The project's version; the file VERSION has it too. From 0.7.0 on a blocked Send or Pend has a value: how many are ahead. From
 * 0.8.0 on units that Post hands to waiters don't count towards its limit. From 0.9.0 on a table holds the ready word: one that was
 * saved by a version before 0.9.0, or made fresh by its header, gets BAD_TABLE (-7). Make a fresh table, and set the printer up
 * anew. From 0.10.0 on there are Ticks and Nearest, operations 21 and 22, which BAD_RECORD (-8) refused before.
 *
 * From 0.11.0 on Set, operation 3, is gone: it gets BAD_RECORD (-8), and SPELTMALLET_OP_SET is not declared. It is split into Set
 * priority and Set turn, operations 23 and 24, which were refused before. Where one of the two settings changes, ask for that one
 * alone. Where both change, Set turn and then Set priority leave the table that Set left, wherever Set was accepted: that is proved
 * (crates/promises/specs/FormerSet.antt). They are two calls: where the priority is bad, Set turn has changed the turn by then, and
 * a tick may come between them. */
#define SPELTMALLET_VERSION "0.11.0"
#define SPELTMALLET_VERSION_MAJOR 0
#define SPELTMALLET_VERSION_MINOR 11
#define SPELTMALLET_VERSION_PATCH 0

/*
 * Puts one request to the kernel. Gives the code; the answer area holds the code (signed, 32 bits) and the value (32 bits).
 *
 * - BAD_TABLE (-7), the table is unsound or the answer area is not 8 bytes: nothing at all is written, and only the returned
 *   number says so. It is tested before everything else.
 * - Every other refusal (-1 to -6, -8): the table stays byte for byte as it was, and the area holds the code and value 0.
 * - DONE (0) or BLOCKED (1): the table is the next one, and the area holds the code and the value. The value is 0 but for Receive
 *   (the mail), Pend (the units left), Outcome (the parcel) and Nearest (the ticks), where these are done, and for Send and Pend
 *   where they are blocked: how many threads are ahead of the caller in the line that it now waits in, suspended ones among them.
 * - Outcome answers the thread's outcome as its code: 1, 0 and -5 are answers there and no refusals; the refusals are -1, -7, -8.
 *
 * The caller's duties, which the kernel cannot test:
 *
 * - No pointer is null, and each points to as many bytes as its length says, at any alignment; table and answer may be written.
 * - Table, request and answer do not overlap.
 * - One call at a time for a table: an interrupt that makes a request of its own is kept out while a call runs.
 * - Nobody else writes to the table. What the kernel is handed it tests, so that a damaged table is refused (-7), but a change
 *   that leaves the table sound is taken for the kernel's own.
 *
 * What the archive asks of its place, which is an x86-64 processor:
 *
 * - The System V calling convention, with a stack pointer that is a multiple of 16 at the call: 16 bytes at once are stored on the
 *   stack by instructions that fault elsewhere. In C the compiler sees to both; an interrupt's entry in assembler has to.
 * - 232 bytes of stack below the caller's frame, return address and red zone among them. No call takes more, by the instructions of
 *   the archive; it is read off them and not proved (docs/BENCH.md).
 * - The red zone: the archive keeps data in the 128 bytes below its stack pointer. An interrupt that is taken on the same stack
 *   overwrites them. On bare metal give every interrupt that can come during a call a stack of its own (an IST entry), those that
 *   can't be masked among them.
 * - SSE2, switched on, and the registers xmm0 to xmm15, which a call may change as the convention allows. An interrupt that calls
 *   the door saves all of them before and restores them after (fxsave, fxrstor), as it does with the general registers that a call
 *   may change. No instruction of the archive names a register of x87, MMX or AVX.
 * - Nothing to link: it has no undefined symbols. It has no data that can be written, so that calls with different tables may run
 *   at the same time.
 */
int32_t speltmallet_door(uint8_t *table, size_t table_len, const uint8_t *request, size_t request_len, uint8_t *answer,
                         size_t answer_len);

/* Thread 0 of a fresh table, byte by byte: Init in use, place 1, outcome 1, turn 10, counter 10. */
#define SPELTMALLET_FRESH_INIT 1, 0, 0, 0, 0, 1, 0, 1, 10, 0, 0, 0, 10, 0, 0, 0

/* A fresh table: Init as above, and the ready word is 1; all other bytes are zero. It initialises an array, in C only: it reaches
 * the ready word by a designator, which C has from C99 on and C++ has not. In C++, and in plain C89, call speltmallet_fresh, below,
 * which works everywhere. */
#ifndef __cplusplus
#define SPELTMALLET_FRESH { SPELTMALLET_FRESH_INIT, [SPELTMALLET_KERNEL + SPELTMALLET_KERNEL_READY] = 1 }
#endif

/* Lengths in bytes. */
#define SPELTMALLET_TABLE_BYTES 600
#define SPELTMALLET_RECORD_BYTES 24 /* of the table: 16 threads, 8 semaphores, the kernel */
#define SPELTMALLET_REQUEST_BYTES 12
#define SPELTMALLET_ANSWER_BYTES 8

/* Limits. */
#define SPELTMALLET_THREADS 16 /* 0 to 15; thread 0 is Init */
#define SPELTMALLET_SEMAPHORES 8 /* 0 to 7 */
#define SPELTMALLET_TOP_PRIORITY 31 /* 0 to 31; larger outranks smaller */
#define SPELTMALLET_MOST_TICKS 99999L /* turns, delays, time limits and the number of Ticks are 1 to this */
#define SPELTMALLET_FOREVER 100000L /* a wait number of this or more has no time limit; 0 is never wait */
#define SPELTMALLET_MOST_COUNT 99 /* of a semaphore */
#define SPELTMALLET_MOST_LOCK 255 /* nesting */

/* Codes. */
#define SPELTMALLET_BLOCKED 1 /* the caller waits now */
#define SPELTMALLET_DONE 0
#define SPELTMALLET_BAD_THREAD (-1) /* above 15, or free (Create: in use) */
#define SPELTMALLET_BAD_PRIORITY (-2) /* above 31 */
#define SPELTMALLET_BAD_TICKS (-3) /* a turn, a delay or the number of Ticks is 0 or above 99,999 */
#define SPELTMALLET_BAD_STATE (-4) /* Suspend: suspended; Resume: not; Cancel: in no delay; Abort: waits on no semaphore */
#define SPELTMALLET_BAD_OPERATION (-5) /* not now: as each operation says below */
#define SPELTMALLET_BAD_SEMAPHORE (-6) /* above 7, or free (Make: in use) */
#define SPELTMALLET_BAD_TABLE (-7) /* unsound, or the answer area is not 8 bytes */
#define SPELTMALLET_BAD_RECORD (-8) /* not 12 bytes, operation 3 or above 24, byte 3 or an unused field not zero */

/*
 * Operations: the fields that each uses (the others are zero), then its refusals in the order in which they are tested. Before them
 * BAD_TABLE (-7) is tested and then BAD_RECORD (-8), for every operation alike. The first that holds is the answer.
 *
 * The running thread is the caller, except in 9, 16, 19 and 21, which come from interrupts. A call "may not wait" if its wait
 * number is 0, the caller is Init or the lock is on. A thread or semaphore is free where its record is not in use.
 */

/* Yield: no fields, no refusals. */
#define SPELTMALLET_OP_YIELD 0

/* Create: object (thread), priority, number (turn).
 * -2 priority above 31; -3 turn 0 or above 99,999; -1 thread above 15, or in use. */
#define SPELTMALLET_OP_CREATE 1

/* Delete: object (thread).
 * -1 thread above 15, or free; -5 thread is Init, or runs under lock. */
#define SPELTMALLET_OP_DELETE 2

/* No operation has the number 3, which was Set before 0.11.0. */

/* Suspend: object (thread).
 * -1 thread above 15, or free; -4 already suspended; -5 thread is Init, or runs under lock. */
#define SPELTMALLET_OP_SUSPEND 4

/* Resume: object (thread).
 * -1 thread above 15, or free; -4 not suspended. */
#define SPELTMALLET_OP_RESUME 5

/* Delay: number (ticks).
 * -3 delay 0 or above 99,999; -5 caller is Init, or lock is on. */
#define SPELTMALLET_OP_DELAY 6

/* Cancel, which ends a delay: object (thread).
 * -1 thread above 15, or free; -4 not in a delay. */
#define SPELTMALLET_OP_CANCEL 7

/* Send: object (thread), number (wait), data.
 * -1 thread above 15, or free; -5 to oneself, or mailbox full and the caller may not wait.
 * The value is how many waiting senders to that thread are ahead, where it is blocked. */
#define SPELTMALLET_OP_SEND 8

/* Send from interrupt: object (thread), data.
 * -1 thread above 15, or free; -5 lock is on, or mailbox full. */
#define SPELTMALLET_OP_SEND_FROM_INTERRUPT 9

/* Receive: number (wait).
 * -5 mailbox empty and the caller may not wait. */
#define SPELTMALLET_OP_RECEIVE 10

/* Make semaphore: object (semaphore), number (count).
 * -6 semaphore above 7, or in use; -5 count above 99. */
#define SPELTMALLET_OP_MAKE 11

/* Drop semaphore: object (semaphore).
 * -6 semaphore above 7, or free. */
#define SPELTMALLET_OP_DROP 12

/* Pend: object (semaphore), number (wait).
 * -6 semaphore above 7, or free; -5 count 0 and the caller may not wait.
 * The value is the units left where it is done, and how many waiters on that semaphore are ahead where it is blocked. */
#define SPELTMALLET_OP_PEND 13

/* Abort, which ends a wait on a semaphore: object (thread).
 * -1 thread above 15, or free; -4 not waiting on a semaphore. */
#define SPELTMALLET_OP_ABORT 14

/* Post: object (semaphore), number (units).
 * -6 semaphore above 7, or free; -5 number is 0, or the count plus the units left over after the waiters are served is above 99.
 * Each waiter takes one, a suspended one too, so 1 to (99 - count + waiters) units are accepted. A refused Post serves nobody. */
#define SPELTMALLET_OP_POST 15

/* Post from interrupt: object (semaphore), number (units).
 * -6 semaphore above 7, or free; -5 as Post, or lock is on. */
#define SPELTMALLET_OP_POST_FROM_INTERRUPT 16

/* Lock: no fields.
 * -5 lock count is 255. */
#define SPELTMALLET_OP_LOCK 17

/* Unlock: no fields.
 * -5 lock count is 0. */
#define SPELTMALLET_OP_UNLOCK 18

/* Tick, from the timer's interrupt: no fields, no refusals. */
#define SPELTMALLET_OP_TICK 19

/* Outcome: object (thread).
 * -1 thread above 15, or free. The codes 1, 0 and -5 are the outcome, and no refusals. */
#define SPELTMALLET_OP_OUTCOME 20

/* Ticks, from whoever has stopped the timer: number (ticks).
 * -3 number is 0 or above 99,999. Table and answer are those of that many single Ticks: threads are charged and run on in turn, and
 * waits end, between any two of them. Under lock nobody is charged, and waits count down. */
#define SPELTMALLET_OP_TICKS 21

/* Nearest: no fields, no refusals.
 * The value is how many ticks it takes, if only ticks come, until the next timed wait ends, that of a suspended thread too, and 0
 * where no wait is timed. The table stays as it is. While nobody but Init is ready, the timer may be stopped for so many ticks. */
#define SPELTMALLET_OP_NEAREST 22

/* Set priority: object (thread), priority.
 * -2 priority above 31; -1 thread above 15, or free; -5 thread is Init. A ready thread goes to the tail of its new line with a full
 * counter; of any other nothing but the priority changes. The same priority changes nothing. */
#define SPELTMALLET_OP_SET_PRIORITY 23

/* Set turn: object (thread), number (turn).
 * -3 turn 0 or above 99,999; -1 thread above 15, or free; -5 thread is Init. A ready thread takes a full counter, also where the
 * turn is the same or below what was left, and keeps its place; of any other nothing but the turn changes. */
#define SPELTMALLET_OP_SET_TURN 24

#define SPELTMALLET_OPERATIONS 25 /* the numbers of operations are below this */

/* Where the fields of a request stand. */
#define SPELTMALLET_REQUEST_OPERATION 0
#define SPELTMALLET_REQUEST_OBJECT 1
#define SPELTMALLET_REQUEST_PRIORITY 2
#define SPELTMALLET_REQUEST_ZERO 3
#define SPELTMALLET_REQUEST_NUMBER 4 /* 4 bytes */
#define SPELTMALLET_REQUEST_DATA 8 /* 4 bytes */

/* Where the fields of an answer stand. */
#define SPELTMALLET_ANSWER_CODE 0 /* 4 bytes, signed */
#define SPELTMALLET_ANSWER_VALUE 4 /* 4 bytes */

/* Where the records of a table begin. */
#define SPELTMALLET_THREAD(i) (SPELTMALLET_RECORD_BYTES * (i))
#define SPELTMALLET_SEMAPHORE(s) (SPELTMALLET_RECORD_BYTES * (SPELTMALLET_THREADS + (s)))
#define SPELTMALLET_KERNEL SPELTMALLET_SEMAPHORE(SPELTMALLET_SEMAPHORES)

/* Where the fields of a thread's record stand. */
#define SPELTMALLET_THREAD_IN_USE 0
#define SPELTMALLET_THREAD_PRIORITY 1
#define SPELTMALLET_THREAD_SUSPENDED 2
#define SPELTMALLET_THREAD_WAIT_KIND 3
#define SPELTMALLET_THREAD_WAIT_OBJECT 4
#define SPELTMALLET_THREAD_PLACE 5
#define SPELTMALLET_THREAD_MAILBOX_FULL 6
#define SPELTMALLET_THREAD_OUTCOME 7 /* signed */
#define SPELTMALLET_THREAD_TURN 8 /* 4 bytes */
#define SPELTMALLET_THREAD_COUNTER 12 /* 4 bytes */
#define SPELTMALLET_THREAD_MAILBOX_VALUE 16 /* 4 bytes */
#define SPELTMALLET_THREAD_PARCEL 20 /* 4 bytes */

/* Where the fields of a semaphore's record stand. */
#define SPELTMALLET_SEMAPHORE_IN_USE 0
#define SPELTMALLET_SEMAPHORE_COUNT 1

/*
 * Where the fields of the kernel's record stand.
 *
 * Bit p of the ready word, counted from the lowest, is set exactly when a thread of priority p is ready: in use, not suspended, not
 * waiting. Bit 0 is always set, since Init is always ready. The word is the kernel's own, which keeps it in every call and finds by
 * it who runs. Firmware may read it between calls, and never writes it: a table with a wrong bit is unsound and gets BAD_TABLE (-7).
 */
#define SPELTMALLET_KERNEL_RUNNING 0
#define SPELTMALLET_KERNEL_LOCK 1
#define SPELTMALLET_KERNEL_READY 2 /* 4 bytes, the ready word */

/* What a wait kind says. */
#define SPELTMALLET_WAIT_NONE 0
#define SPELTMALLET_WAIT_DELAY 1
#define SPELTMALLET_WAIT_RECEIVE 2
#define SPELTMALLET_WAIT_SEND 3
#define SPELTMALLET_WAIT_SEMAPHORE 4

/* What an outcome says. */
#define SPELTMALLET_OUTCOME_NONE_YET 1
#define SPELTMALLET_OUTCOME_DONE 0
#define SPELTMALLET_OUTCOME_FAILED (-5)

/*
 * Helpers. They are inline and cost nothing where they are not used. A C89 compiler that is not known to have a word for inline
 * gets them as plain static functions, and only where SPELTMALLET_HELPERS is defined before this header.
 */
#if defined(__cplusplus) || (defined(__STDC_VERSION__) && __STDC_VERSION__ >= 199901L)
#define SPELTMALLET_HELPER static inline
#elif defined(__GNUC__)
#define SPELTMALLET_HELPER static __inline__
#elif defined(SPELTMALLET_HELPERS)
#define SPELTMALLET_HELPER static
#endif

#ifdef SPELTMALLET_HELPER

/* Four bytes, the lowest first, as a number. */
SPELTMALLET_HELPER uint32_t speltmallet_word(const uint8_t *at)
{
    return at[0] | (uint32_t)at[1] << 8 | (uint32_t)at[2] << 16 | (uint32_t)at[3] << 24;
}

/* A number as four bytes, the lowest first. */
SPELTMALLET_HELPER void speltmallet_put_word(uint8_t *at, uint32_t word)
{
    at[0] = (uint8_t)(word & 255);
    at[1] = (uint8_t)(word >> 8 & 255);
    at[2] = (uint8_t)(word >> 16 & 255);
    at[3] = (uint8_t)(word >> 24 & 255);
}

/* Fills a request record; a field that the operation does not use is 0. */
SPELTMALLET_HELPER void speltmallet_request(uint8_t request[SPELTMALLET_REQUEST_BYTES], uint8_t operation, uint8_t object,
                                            uint8_t priority, uint32_t number, uint32_t data)
{
    request[SPELTMALLET_REQUEST_OPERATION] = operation;
    request[SPELTMALLET_REQUEST_OBJECT] = object;
    request[SPELTMALLET_REQUEST_PRIORITY] = priority;
    request[SPELTMALLET_REQUEST_ZERO] = 0;
    speltmallet_put_word(request + SPELTMALLET_REQUEST_NUMBER, number);
    speltmallet_put_word(request + SPELTMALLET_REQUEST_DATA, data);
}

/* Makes a table fresh, in C and in C++. Written so, no compiler known here makes a call of memset of the loop, which would need a
 * library. */
SPELTMALLET_HELPER void speltmallet_fresh(uint8_t table[SPELTMALLET_TABLE_BYTES])
{
    static const uint8_t init[] = { SPELTMALLET_FRESH_INIT };
    size_t k;

    for (k = 0; k < SPELTMALLET_TABLE_BYTES; k++)
        table[k] = (uint8_t)(k < sizeof init ? init[k] : k == SPELTMALLET_KERNEL + SPELTMALLET_KERNEL_READY);
}

/* The same, by its name in versions before 0.9.0. */
#define speltmallet_reset speltmallet_fresh

/* The thread that runs now. */
SPELTMALLET_HELPER uint8_t speltmallet_running(const uint8_t table[SPELTMALLET_TABLE_BYTES])
{
    return table[SPELTMALLET_KERNEL + SPELTMALLET_KERNEL_RUNNING];
}

/* The value of an answer. */
SPELTMALLET_HELPER uint32_t speltmallet_value(const uint8_t answer[SPELTMALLET_ANSWER_BYTES])
{
    return speltmallet_word(answer + SPELTMALLET_ANSWER_VALUE);
}

/* The name of a code, as it stands above: "BAD_THREAD". Of Outcome's answers 1 and -5 it gives the name of the number, too. */
SPELTMALLET_HELPER const char *speltmallet_code_name(int32_t code)
{
    static const char *const names[] = { "BLOCKED", "DONE", "BAD_THREAD", "BAD_PRIORITY", "BAD_TICKS", "BAD_STATE", "BAD_OPERATION",
                                         "BAD_SEMAPHORE", "BAD_TABLE", "BAD_RECORD" };

    return code > SPELTMALLET_BLOCKED || code < SPELTMALLET_BAD_RECORD ? "no code" : names[SPELTMALLET_BLOCKED - code];
}

/* The name of an operation: "Post from interrupt". Of 3 and of others that are none it gives "no operation". */
SPELTMALLET_HELPER const char *speltmallet_operation_name(uint8_t operation)
{
    static const char *const names[SPELTMALLET_OPERATIONS] = {
        "Yield", "Create", "Delete", "no operation", "Suspend", "Resume", "Delay", "Cancel", "Send", "Send from interrupt",
        "Receive", "Make semaphore", "Drop semaphore", "Pend", "Abort", "Post", "Post from interrupt", "Lock", "Unlock", "Tick",
        "Outcome", "Ticks", "Nearest", "Set priority", "Set turn"
    };

    return operation < SPELTMALLET_OPERATIONS ? names[operation] : "no operation";
}

#endif

#ifdef __cplusplus
}
#endif

#endif
