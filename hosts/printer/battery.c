/*
 * A battery-driven ticket printer over the kernel, simulated: an example of a firmware that stops its timer between tickets.
 *
 * The panel's button wakes the panel by an interrupt; the panel sends a ticket to the head; the head prints it, has the motor move the
 * paper, and cools down; the motor's current is switched off after a while without a ticket. In between all threads wait, and Init runs:
 * then the firmware asks Nearest how many ticks it may sleep, stops the timer, sleeps until they are over or the button is pressed, and
 * calls Ticks with the ticks that have passed.
 *
 *     battery WAY REQUESTS LINES TABLES
 *
 * WAY is `asleep`, or `ticking` for the same event by a firmware whose timer wakes it for every tick. Every request goes to the file
 * REQUESTS (records of 12 bytes, what `./speltmallet trace` replays), what the trace of them has to print to LINES, and the table to
 * TABLES, after the tick's number in 4 bytes, each time that the threads have done what was to do. TABLES is the same for both ways.
 * How often the processor was woken goes to standard output.
 */
#include <stdio.h>
#include <stdlib.h>
#include <string.h>

#include <speltmallet.h>

/* The firmware's threads, by number; thread 0 is the kernel's own Init, which runs when nobody else is ready. */
enum { INIT, PANEL, HEAD, MOTOR, THREADS };

/* The semaphores: the button's interrupt posts the one, the head the other. */
enum { BUTTON, PAPER };

enum {
    PANEL_PRIORITY = 9, PANEL_TURN = 2,
    MOTOR_PRIORITY = 7, MOTOR_TURN = 2,
    HEAD_PRIORITY = 5, HEAD_TURN = 8,
    PRINTING = 3, /* ticks of the head's own time for a ticket */
    COOLING = 40, /* ticks in which the head may not print */
    MOVING = 25, /* ticks for which the motor runs, by itself */
    CURRENT = 5000 /* ticks without a ticket after which the motor's current is switched off */
};

/* The ticks at which the button is pressed: all wait; the head cools; the motor's current is off; after a quiet night. The last tick is
 * the end. */
enum { PRESSES = 4 };
static const long pressed[PRESSES + 1] = { 700, 730, 9000, 260000, 270000 };

/* The printer: the kernel's table, what each thread does, and what is counted. */
struct printer {
    uint8_t table[SPELTMALLET_TABLE_BYTES];
    FILE *requests;
    FILE *lines;
    FILE *tables;
    int stops_timer; /* the way of this firmware */
    long now; /* ticks since the start, as the timer counts them */
    int presses; /* of the button, so far */
    long asked; /* requests so far */
    long worked; /* the requests among them that threads made */
    long work[THREADS]; /* ticks that a thread still needs for what it does */
    int step[THREADS]; /* how far a thread is in what it does again and again */
    long timer_wakes; /* how often the timer woke the processor, and how often the button */
    long button_wakes;
};

static void stop(const char *what, const char *about)
{
    fprintf(stderr, "battery: %s%s\n", what, about);
    exit(1);
}

static int running(const struct printer *p)
{
    return speltmallet_running(p->table);
}

/*
 * Puts one request that this firmware knows to be accepted, and gives its value. docs/FIRMWARE.md and printer.c have the guard and the
 * context switch that belong around the call.
 */
static uint32_t ask(struct printer *p, uint8_t operation, uint8_t object, uint8_t priority, uint32_t number, uint32_t data)
{
    uint8_t request[SPELTMALLET_REQUEST_BYTES];
    uint8_t answer[SPELTMALLET_ANSWER_BYTES];
    int32_t code;

    speltmallet_request(request, operation, object, priority, number, data);
    if (fwrite(request, sizeof request, 1, p->requests) != 1)
        stop("the requests can't be written", "");
    code = speltmallet_door(p->table, sizeof p->table, request, sizeof request, answer, sizeof answer);
    if (code < 0) {
        fprintf(stderr, "battery: the kernel answers %s with %s\n", speltmallet_operation_name(operation), speltmallet_code_name(code));
        exit(1);
    }
    fprintf(p->lines, "%ld %ld %lu %d\n", p->asked++, (long)code, (unsigned long)speltmallet_value(answer), running(p));
    return speltmallet_value(answer);
}

/* Whether a thread's last wait ended as it should, and not by its time limit: what Outcome says. */
static int came(struct printer *p, int thread)
{
    return p->table[SPELTMALLET_THREAD(thread) + SPELTMALLET_THREAD_OUTCOME] == SPELTMALLET_OUTCOME_DONE;
}

/* The panel: waits for the button, and sends a ticket to the head, which may be busy. */
static void panel(struct printer *p)
{
    if (p->step[PANEL]++ % 2 == 0)
        ask(p, SPELTMALLET_OP_PEND, BUTTON, 0, SPELTMALLET_FOREVER, 0);
    else
        ask(p, SPELTMALLET_OP_SEND, HEAD, 0, SPELTMALLET_FOREVER, (uint32_t)p->presses);
}

/* The head: waits for a ticket, prints it, has the paper moved, cools down. */
static void head(struct printer *p)
{
    switch (p->step[HEAD]++ % 3) {
    case 0:
        ask(p, SPELTMALLET_OP_RECEIVE, 0, 0, SPELTMALLET_FOREVER, 0);
        p->work[HEAD] = PRINTING;
        break;
    case 1:
        ask(p, SPELTMALLET_OP_POST, PAPER, 0, 1, 0);
        break;
    default:
        ask(p, SPELTMALLET_OP_DELAY, 0, 0, COOLING, 0);
    }
}

/* The motor: waits until the paper is to be moved, and moves it; without a ticket for long its current is off, and it waits on. */
static void motor(struct printer *p)
{
    if (p->step[MOTOR] == 0) {
        ask(p, SPELTMALLET_OP_PEND, PAPER, 0, CURRENT, 0);
        p->step[MOTOR] = 1;
    } else if (came(p, MOTOR)) {
        ask(p, SPELTMALLET_OP_DELAY, 0, 0, MOVING, 0);
        p->step[MOTOR] = 0;
    } else
        ask(p, SPELTMALLET_OP_PEND, PAPER, 0, SPELTMALLET_FOREVER, 0);
}

/* The running thread goes on until it needs a tick of time, and so on, until all wait or one works. */
static void run(struct printer *p)
{
    while (running(p) != INIT && p->work[running(p)] == 0) {
        p->worked++;
        switch (running(p)) {
        case PANEL:
            panel(p);
            break;
        case HEAD:
            head(p);
            break;
        default:
            motor(p);
        }
    }
}

/*
 * The processor sleeps for so many ticks with its timer stopped, or until an interrupt comes, where the number is 0; gives the ticks
 * that have passed. A firmware programs a one-shot timer, sleeps, and reads a counter that runs on (docs/FIRMWARE.md). It does so with
 * interrupts forbidden since before it asked Nearest, and wakes by them all the same: what comes in between is not slept through.
 */
static long slept(struct printer *p, long most)
{
    long to_press = pressed[p->presses] - p->now;

    if (most == 0 || to_press <= most)
        return to_press;
    p->timer_wakes++;
    return most;
}

/* Time passes while all threads wait: as much as nobody needs. Ticks takes 99,999 at the most, and a night is longer. */
static void sleep_on(struct printer *p)
{
    long passed = slept(p, (long)ask(p, SPELTMALLET_OP_NEAREST, 0, 0, 0, 0));

    p->now += passed;
    while (passed > 0) {
        long part = passed < SPELTMALLET_MOST_TICKS ? passed : SPELTMALLET_MOST_TICKS;

        ask(p, SPELTMALLET_OP_TICKS, 0, 0, (uint32_t)part, 0);
        passed -= part;
    }
}

/* A tick of time, with its interrupt: while a thread works, and always where the timer is not stopped. */
static void tick(struct printer *p)
{
    if (p->work[running(p)] > 0)
        p->work[running(p)]--;
    ask(p, SPELTMALLET_OP_TICK, 0, 0, 0, 0);
    p->timer_wakes++;
    p->now++;
}

/* Keeps the table as it is now, behind the number of the tick. */
static void keep(struct printer *p)
{
    uint8_t moment[4];

    speltmallet_put_word(moment, (uint32_t)p->now);
    if (fwrite(moment, sizeof moment, 1, p->tables) != 1 || fwrite(p->table, sizeof p->table, 1, p->tables) != 1)
        stop("the tables can't be written", "");
}

/* Some time passes, the button's interrupt is served where it has come, and the threads do what there is to do. */
static void step(struct printer *p)
{
    long before = p->worked;

    if (p->stops_timer && running(p) == INIT)
        sleep_on(p);
    else
        tick(p);
    if (p->presses < PRESSES && p->now == pressed[p->presses]) {
        p->presses++;
        p->button_wakes++;
        ask(p, SPELTMALLET_OP_POST_FROM_INTERRUPT, BUTTON, 0, 1, 0);
    }
    run(p);
    if (p->worked != before)
        keep(p);
}

static void start(struct printer *p)
{
    speltmallet_fresh(p->table);
    ask(p, SPELTMALLET_OP_MAKE, BUTTON, 0, 0, 0);
    ask(p, SPELTMALLET_OP_MAKE, PAPER, 0, 0, 0);
    ask(p, SPELTMALLET_OP_LOCK, 0, 0, 0, 0); /* nobody runs before all are there */
    ask(p, SPELTMALLET_OP_CREATE, PANEL, PANEL_PRIORITY, PANEL_TURN, 0);
    ask(p, SPELTMALLET_OP_CREATE, HEAD, HEAD_PRIORITY, HEAD_TURN, 0);
    ask(p, SPELTMALLET_OP_CREATE, MOTOR, MOTOR_PRIORITY, MOTOR_TURN, 0);
    ask(p, SPELTMALLET_OP_UNLOCK, 0, 0, 0, 0);
    run(p);
    keep(p);
}

static FILE *opened(const char *path)
{
    FILE *file = fopen(path, "wb");

    if (file == NULL)
        stop("this file can't be written: ", path);
    return file;
}

int main(int argc, char **argv)
{
    static struct printer p;

    if (argc != 5 || (strcmp(argv[1], "asleep") != 0 && strcmp(argv[1], "ticking") != 0))
        stop("usage: battery asleep|ticking REQUESTS LINES TABLES", "");
    p.stops_timer = strcmp(argv[1], "asleep") == 0;
    p.requests = opened(argv[2]);
    p.lines = opened(argv[3]);
    p.tables = opened(argv[4]);

    start(&p);
    while (p.now < pressed[PRESSES])
        step(&p);

    printf("%s: %ld ticks, %d tickets; the timer woke it %ld times, the button %ld times\n", argv[1], p.now, p.presses, p.timer_wakes,
           p.button_wakes);
    if (fclose(p.requests) != 0 || fclose(p.lines) != 0 || fclose(p.tables) != 0)
        stop("the files can't be written to the end", "");
    return 0;
}
