// Texts and numbers on the console line.
#ifndef TEXT_H
#define TEXT_H

#include "dsmon.h"

static inline void put_text(const char *text) {
    for (; *text != 0; text++)
        ds_put(*text);
}

static inline void put_number(unsigned number) {
    char digits[10];                    // the last digit first
    int count = 0;
    do {
        digits[count++] = '0' + number % 10;
        number /= 10;
    } while (number > 0);
    while (count > 0)
        ds_put(digits[--count]);
}

#endif
