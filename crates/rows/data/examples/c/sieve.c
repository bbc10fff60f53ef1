// Puts the primes below 100 and how many there are, by the sieve of Eratosthenes.
#include "text.h"

enum { LIMIT = 100 };

static unsigned char crossed[LIMIT];    // whether a number is crossed out: it is a multiple of a smaller prime

int main(void) {
    unsigned count = 0;
    for (unsigned n = 2; n < LIMIT; n++) {
        if (crossed[n])
            continue;
        count++;
        put_number(n);
        ds_put(' ');
        for (unsigned multiple = n * n; multiple < LIMIT; multiple += n)
            crossed[multiple] = 1;
    }
    put_text("\nprimes: ");
    put_number(count);
    ds_put('\n');
    return 0;
}
