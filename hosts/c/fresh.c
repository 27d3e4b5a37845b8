/* Writes the header's fresh table to standard output, in C and in C++: by the function, or with BY_MACRO defined by the macro. */
#include "speltmallet.h"

#include <stdio.h>
#ifndef BY_MACRO
#include <string.h>
#endif

int main(void) {
#ifdef BY_MACRO
    static const uint8_t table[SPELTMALLET_TABLE_BYTES] = SPELTMALLET_FRESH;
#else
    static uint8_t table[SPELTMALLET_TABLE_BYTES];
    memset(table, 0xA5, sizeof table);
    speltmallet_fresh(table);
#endif
    return fwrite(table, sizeof table, 1, stdout) != 1;
}
