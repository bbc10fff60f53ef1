// Reads and computes an expression at once, by a function for each kind of part:
//
//     sum = product, then `+ product` or `- product` ..
//     product = factor, then `* factor`, `/ factor` or `% factor` ..
//     factor = `-` factor, `(` sum `)`, or a number
#include "expression.h"

#include <ctype.h>
#include <errno.h>
#include <limits.h>
#include <stdbool.h>
#include <stdlib.h>

static long long sum(struct answer *it);

// Notes what is wrong, if nothing was wrong before.
static long long wrong(struct answer *it, const char *fault) {
    if (it->fault == NULL)
        it->fault = fault;
    return 0;
}

// The next character that is no space, which `at` comes to.
static char next(struct answer *it) {
    while (isspace((unsigned char)*it->at))
        it->at++;
    return *it->at;
}

// A number, in any base of C, up to 2147483647.
static long long number(struct answer *it) {
    char *end;
    errno = 0;
    long value = strtol(it->at, &end, 0);
    if (errno != 0 || value > INT_MAX)
        return wrong(it, "too large a number");
    it->at = end;
    return value;
}

// A factor.
static long long factor(struct answer *it) {
    char first = next(it);
    if (isdigit((unsigned char)first))
        return number(it);
    if (first != '-' && first != '(')
        return wrong(it, "a number is missing");
    it->at++;
    if (first == '-') {
        long long value = factor(it);
        return value == LLONG_MIN ? wrong(it, "too large") : -value;
    }
    long long value = sum(it);
    if (next(it) != ')')
        return wrong(it, "no )");
    it->at++;
    return value;
}

// The quotient or the rest of two numbers.
static long long divided(struct answer *it, char what, long long left, long long right) {
    if (right == 0)
        return wrong(it, "a division by zero");
    if (right == -1 && left == LLONG_MIN)
        return wrong(it, "too large");
    return what == '/' ? left / right : left % right;
}

// A product of factors.
static long long product(struct answer *it) {
    long long value = factor(it);
    for (char what; it->fault == NULL && ((what = next(it)) == '*' || what == '/' || what == '%');) {
        it->at++;
        long long right = factor(it);
        if (it->fault != NULL)
            return 0;
        if (what != '*')
            value = divided(it, what, value, right);
        else if (__builtin_mul_overflow(value, right, &value))
            return wrong(it, "too large");
    }
    return value;
}

// A sum of products.
static long long sum(struct answer *it) {
    long long value = product(it);
    for (char what; it->fault == NULL && ((what = next(it)) == '+' || what == '-');) {
        it->at++;
        long long right = product(it);
        bool is_large = what == '+' ? __builtin_add_overflow(value, right, &value)
                                    : __builtin_sub_overflow(value, right, &value);
        if (is_large)
            return wrong(it, "too large");
    }
    return value;
}

// What a whole text comes to.
struct answer evaluate(const char *text) {
    struct answer it = {.at = text};
    it.value = sum(&it);
    if (it.fault == NULL && next(&it) != 0)
        wrong(&it, "an operation is missing");
    return it;
}
