/*
 * A two-lane ticket printer over the kernel, simulated: an example to copy, and a recorder of traces.
 *
 * Two lanes of equal rank and turn print raster lines; a cutter that outranks both is woken by its sensor's interrupt, always in the
 * left lane's turn; a feed takes a message for each line that is printed and moves the paper; a timer ticks. The kernel says who runs.
 *
 *     printer REQUESTS [LINES [TICKS]]
 *
 * writes every request to the file REQUESTS (records of 12 bytes, what `./speltmallet trace` replays), what the trace of them has to
 * print to LINES (`-` for nowhere), and how many ticks each thread was charged to standard output. TICKS is how long it prints: 2,400
 * ticks unless it is given, at most 1,000,000.
 */
#include <ctype.h>
#include <stdio.h>
#include <stdlib.h>
#include <string.h>

#include <speltmallet.h>

/* The firmware's threads, by number; thread 0 is the kernel's own Init, which runs when nobody else is ready. */
enum { INIT, LEFT, RIGHT, CUTTER, FEED, THREADS };

static const char *const name[THREADS] = { "init", "left lane", "right lane", "cutter", "feed" };

/* The semaphore that the cutter's sensor posts. */
enum { CUT };

enum {
    LANE_PRIORITY = 5, LANE_TURN = 8, /* the lanes share the processor */
    FEED_PRIORITY = 7, FEED_TURN = 2, /* the feed outranks them, and is quick */
    CUTTER_PRIORITY = 9, CUTTER_TURN = 4, /* the cutter outranks all */
    TICKS_PER_LINE = 5, /* of a lane's own time */
    TICKS_PER_MOVE = 1,
    TICKS_PER_CUT = 3,
    CUT_EVERY = 40, /* ticks between two tickets */
    MOST_TICKS = 1000000 /* of a simulation */
};

/* The printer: the kernel's table, what each thread does, and what is counted. */
struct printer {
    uint8_t table[SPELTMALLET_TABLE_BYTES];
    FILE *requests;
    FILE *lines;
    long asked; /* requests so far */
    long charged[THREADS]; /* ticks */
    long printed[THREADS]; /* raster lines of a lane */
    long work[THREADS]; /* ticks that a thread still needs for what it does */
    long next_cut; /* the tick from which on the sensor waits for the left lane's turn */
};

static void stop(const char *what, const char *about)
{
    fprintf(stderr, "printer: %s%s\n", what, about);
    exit(1);
}

/*
 * The guard around the door, to be filled in: one call at a time for a table. On bare metal the first keeps the processor's flags and
 * forbids interrupts, the second puts the flags back (docs/FIRMWARE.md has both for x86-64). In this simulation no interrupt comes by
 * itself, and there is nothing to do.
 */
typedef unsigned long interrupt_state;

static interrupt_state forbid_interrupts(void)
{
    return 0;
}

static void restore_interrupts(interrupt_state before)
{
    (void)before;
}

/*
 * The context switch, to be filled in: it saves the registers and the stack pointer of `from`, takes up those of `to`, and returns when
 * the kernel says that `from` runs again. From an interrupt it is the last thing before the return. In this simulation the threads have
 * no stacks, and `run` goes on with the running thread.
 */
static void switch_context(int from, int to)
{
    (void)from;
    (void)to;
}

static int running(const struct printer *p)
{
    return speltmallet_running(p->table);
}

/* Keeps what is asked, for `./speltmallet trace`; before the call, so that the last record is there whatever happens in it. */
static void record(struct printer *p, const uint8_t *request)
{
    if (fwrite(request, SPELTMALLET_REQUEST_BYTES, 1, p->requests) != 1)
        stop("the requests can't be written", "");
}

/* Puts one request, and gives its code. The answer area is the call's own: another thread's call does not write over it. */
static int32_t ask(struct printer *p, uint8_t operation, uint8_t object, uint8_t priority, uint32_t number, uint32_t data)
{
    uint8_t request[SPELTMALLET_REQUEST_BYTES];
    uint8_t answer[SPELTMALLET_ANSWER_BYTES];
    interrupt_state before;
    int32_t code;
    int caller;

    speltmallet_request(request, operation, object, priority, number, data);
    before = forbid_interrupts();
    caller = running(p);
    record(p, request);
    code = speltmallet_door(p->table, sizeof p->table, request, sizeof request, answer, sizeof answer);
    if (code == SPELTMALLET_BAD_TABLE)
        stop("the kernel's table is damaged", "");
    if (p->lines != NULL)
        fprintf(p->lines, "%ld %ld %lu %d\n", p->asked, (long)code, (unsigned long)speltmallet_value(answer), running(p));
    p->asked++;
    if (running(p) != caller)
        switch_context(caller, running(p));
    restore_interrupts(before);
    return code;
}

/* A request that this firmware knows to be accepted. */
static void must(struct printer *p, uint8_t operation, uint8_t object, uint8_t priority, uint32_t number, uint32_t data)
{
    int32_t code = ask(p, operation, object, priority, number, data);

    if (code < 0) {
        fprintf(stderr, "printer: the kernel answers %s with %s\n", speltmallet_operation_name(operation), speltmallet_code_name(code));
        exit(1);
    }
}

/* The running thread goes on until it needs a tick of time: it makes the requests that it makes at this point of its work. */
static void run(struct printer *p)
{
    for (;;) {
        int me = running(p);

        if (p->work[me] > 0 || me == INIT)
            return;
        switch (me) {
        case CUTTER: /* a ticket is cut: wait for the sensor */
            if (ask(p, SPELTMALLET_OP_PEND, CUT, 0, SPELTMALLET_FOREVER, 0) != SPELTMALLET_BLOCKED)
                stop("the cutter does not wait", "");
            p->work[CUTTER] = TICKS_PER_CUT;
            break;
        case FEED: /* the paper is moved: wait for the next line, with a time limit after which the motor rests */
            must(p, SPELTMALLET_OP_RECEIVE, 0, 0, 1000, 0);
            p->work[FEED] = TICKS_PER_MOVE;
            break;
        default: /* a lane has a line ready: tell the feed, and begin the next */
            p->printed[me]++;
            must(p, SPELTMALLET_OP_SEND, FEED, 0, SPELTMALLET_FOREVER, (uint32_t)me << 24 | (uint32_t)p->printed[me]);
            p->work[me] = TICKS_PER_LINE;
            break;
        }
    }
}

/* A tick of time: the running thread works, the sensor looks, the timer's interrupt charges. */
static void tick(struct printer *p, long now)
{
    run(p);
    if (now >= p->next_cut && running(p) == LEFT) {
        must(p, SPELTMALLET_OP_POST_FROM_INTERRUPT, CUT, 0, 1, 0); /* the cutter breaks into the left lane's turn */
        p->next_cut = now + CUT_EVERY;
        run(p);
    }
    p->charged[running(p)]++;
    if (p->work[running(p)] > 0)
        p->work[running(p)]--;
    must(p, SPELTMALLET_OP_TICK, 0, 0, 0, 0);
}

static void start(struct printer *p)
{
    speltmallet_fresh(p->table);
    must(p, SPELTMALLET_OP_MAKE, CUT, 0, 0, 0);
    must(p, SPELTMALLET_OP_LOCK, 0, 0, 0, 0); /* nobody runs before all are there */
    must(p, SPELTMALLET_OP_CREATE, LEFT, LANE_PRIORITY, LANE_TURN, 0);
    must(p, SPELTMALLET_OP_CREATE, RIGHT, LANE_PRIORITY, LANE_TURN, 0);
    must(p, SPELTMALLET_OP_CREATE, CUTTER, CUTTER_PRIORITY, CUTTER_TURN, 0);
    must(p, SPELTMALLET_OP_CREATE, FEED, FEED_PRIORITY, FEED_TURN, 0);
    must(p, SPELTMALLET_OP_UNLOCK, 0, 0, 0, 0);
    p->work[LEFT] = TICKS_PER_LINE;
    p->work[RIGHT] = TICKS_PER_LINE;
    p->next_cut = CUT_EVERY / 2;
}

static FILE *opened(const char *path)
{
    FILE *file = fopen(path, "wb");

    if (file == NULL)
        stop("this file can't be written: ", path);
    return file;
}

/* The number of ticks that a word names: digits and nothing else. */
static long ticks_of(const char *word)
{
    char *end;
    unsigned long ticks = strtoul(word, &end, 10);

    if (!isdigit((unsigned char)word[0]) || *end != '\0' || ticks < 1 || ticks > MOST_TICKS)
        stop("TICKS is a number from 1 to 1000000, and not ", word);
    return (long)ticks;
}

int main(int argc, char **argv)
{
    static struct printer p;
    long ticks = 2400, now;
    int i;

    if (argc < 2 || argc > 4)
        stop("usage: printer REQUESTS [LINES [TICKS]]", "");
    if (argc == 4)
        ticks = ticks_of(argv[3]);
    p.requests = opened(argv[1]);
    if (argc > 2 && strcmp(argv[2], "-") != 0)
        p.lines = opened(argv[2]);

    start(&p);
    for (now = 0; now < ticks; now++)
        tick(&p, now);

    for (i = INIT; i < THREADS; i++)
        printf("%d %-10s charged %ld ticks\n", i, name[i], p.charged[i]);
    printf("lines: left %ld, right %ld; requests: %ld\n", p.printed[LEFT], p.printed[RIGHT], p.asked);
    if (fclose(p.requests) != 0 || (p.lines != NULL && fclose(p.lines) != 0))
        stop("the files can't be written to the end", "");
    return 0;
}
