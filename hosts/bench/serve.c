/* Serves the request records of standard input from a fresh table on and prints nothing: the door's own time for them. */
#include <stdio.h>
#include <stdlib.h>

#include <speltmallet.h>

int main(void)
{
    static uint8_t table[SPELTMALLET_TABLE_BYTES] = SPELTMALLET_FRESH;
    static uint8_t block[1024 * SPELTMALLET_REQUEST_BYTES];
    uint8_t answer[SPELTMALLET_ANSWER_BYTES];
    size_t records, k;

    while ((records = fread(block, SPELTMALLET_REQUEST_BYTES, 1024, stdin)) > 0)
        for (k = 0; k < records; k++)
            speltmallet_door(table, sizeof table, block + k * SPELTMALLET_REQUEST_BYTES, SPELTMALLET_REQUEST_BYTES, answer, sizeof answer);
    return 0;
}
