/*
 * The door for a program on another processor: reads calls from standard input and answers them on standard output, all numbers
 * little-endian. A batch is the number of its calls (32 bits) and then the calls; a call is the length of the lent memory, then
 * where table, request and answer begin in it and how long each is (32 bits each, in this order), then the memory itself. Its
 * answer is the returned number (32 bits) and the memory as the door left it.
 */
#include "speltmallet.h"

#include <stdio.h>

enum { LENGTH, TABLE, TABLE_LEN, REQUEST, REQUEST_LEN, ANSWER, ANSWER_LEN, HEAD };

static uint8_t memory[1 << 20];

static int inside(uint32_t begin, uint32_t length, uint32_t all) {
    return begin <= all && length <= all - begin;
}

/* Reads one call, puts it to the door and writes what came of it; 0 where the input is no call. */
static int serve(void) {
    uint32_t head[HEAD];
    int32_t code;
    if (fread(head, sizeof head, 1, stdin) != 1 || head[LENGTH] > sizeof memory) return 0;
    if (fread(memory, 1, head[LENGTH], stdin) != head[LENGTH]) return 0;
    if (!inside(head[TABLE], head[TABLE_LEN], head[LENGTH]) || !inside(head[REQUEST], head[REQUEST_LEN], head[LENGTH]) ||
        !inside(head[ANSWER], head[ANSWER_LEN], head[LENGTH]))
        return 0;
    code = speltmallet_door(memory + head[TABLE], head[TABLE_LEN], memory + head[REQUEST], head[REQUEST_LEN],
                            memory + head[ANSWER], head[ANSWER_LEN]);
    return fwrite(&code, sizeof code, 1, stdout) == 1 && fwrite(memory, 1, head[LENGTH], stdout) == head[LENGTH];
}

int main(void) {
    uint32_t calls;
    while (fread(&calls, sizeof calls, 1, stdin) == 1) {
        for (; calls > 0; calls--) {
            if (!serve()) return 1;
        }
        fflush(stdout);
    }
    return 0;
}
