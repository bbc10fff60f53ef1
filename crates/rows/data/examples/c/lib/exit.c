// The end of a program. start.S calls exit with what main returned.
#include "dsmon.h"

#include <stdlib.h>

enum { ABORTED = 134 };                 // what a shell tells of a program that was aborted

// Puts a number.
static void put_number(unsigned number) {
    if (number >= 10)
        put_number(number / 10);
    ds_put('0' + number % 10);
}

// The process ends. A status other than 0 is put, as a line of its own.
void exit(int status) {
    if (status != 0) {
        for (const char *it = "\nexit "; *it != 0; it++)
            ds_put(*it);
        if (status < 0)
            ds_put('-');
        put_number(status < 0 ? -(unsigned)status : (unsigned)status);
        ds_put('\n');
    }
    ds_exit();
}

// The process ends at once.
void abort(void) {
    exit(ABORTED);
}
