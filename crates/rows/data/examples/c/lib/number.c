// Numbers from texts.
#include <ctype.h>
#include <errno.h>
#include <limits.h>
#include <stdbool.h>
#include <stdlib.h>

int errno;

// A text as it is read: where it goes on, and what was read.
struct reading {
    const char *at;
    unsigned long number;
    bool is_negative, is_too_large;
};

// The value of a digit in the base, or -1.
static int digit(char it, int base) {
    int value = isdigit(it) ? it - '0' : isalpha(it) ? tolower(it) - 'a' + 10 : base;
    return value < base ? value : -1;
}

// Reads the base: 0 is told by the text, and base 16 may begin with 0x. The base, or 0 where there
// is none such.
static int read_base(struct reading *it, int base) {
    bool has_prefix = it->at[0] == '0' && tolower(it->at[1]) == 'x' && digit(it->at[2], 16) >= 0;
    if (base == 0)
        base = has_prefix ? 16 : it->at[0] == '0' ? 8 : 10;
    if (base == 16 && has_prefix)
        it->at += 2;
    return 2 <= base && base <= 36 ? base : 0;
}

// Reads the digits, and whether they make more than the largest number.
static void read_digits(struct reading *it, int base) {
    for (int value; (value = digit(*it->at, base)) >= 0; it->at++) {
        it->is_too_large |= it->number > (ULONG_MAX - value) / base;
        it->number = it->number * base + value;
    }
}

// Reads spaces, a sign and digits, and tells the text's end. Where there are no digits, that is its
// beginning.
static struct reading read_number(const char *text, char **end, int base) {
    struct reading it = {.at = text};
    while (isspace(*it.at))
        it.at++;
    it.is_negative = *it.at == '-';
    if (*it.at == '-' || *it.at == '+')
        it.at++;
    base = read_base(&it, base);
    const char *digits = it.at;
    if (base != 0)
        read_digits(&it, base);
    else
        errno = EINVAL;
    if (end != NULL)
        *end = (char *)(it.at == digits ? text : it.at);
    return it;
}

// The number at the beginning of a text. One that is too far from 0 is the farthest, and errno is
// ERANGE.
long strtol(const char *restrict text, char **restrict end, int base) {
    struct reading it = read_number(text, end, base);
    unsigned long most = it.is_negative ? (unsigned long)LONG_MAX + 1 : LONG_MAX;
    if (it.is_too_large || it.number > most) {
        errno = ERANGE;
        return it.is_negative ? LONG_MIN : LONG_MAX;
    }
    return it.is_negative ? (long)-it.number : (long)it.number;
}

// The same without a sign: a minus goes round, as in -1.
unsigned long strtoul(const char *restrict text, char **restrict end, int base) {
    struct reading it = read_number(text, end, base);
    if (it.is_too_large) {
        errno = ERANGE;
        return ULONG_MAX;
    }
    return it.is_negative ? -it.number : it.number;
}

// The decimal number at the beginning of a text, or 0.
int atoi(const char *text) {
    return atol(text);
}

// The same as a long.
long atol(const char *text) {
    return strtol(text, NULL, 10);
}

// A number without its sign.
int abs(int it) {
    return it < 0 ? -it : it;
}

// A long without its sign.
long labs(long it) {
    return it < 0 ? -it : it;
}
