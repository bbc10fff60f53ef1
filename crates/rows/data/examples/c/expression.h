// Expressions over whole numbers of 64 bits.
#ifndef EXPRESSION_H
#define EXPRESSION_H

// What an expression came to: its value, or what is wrong with it, and where.
struct answer {
    long long value;
    const char *fault;                  // NULL where nothing is wrong
    const char *at;
};

struct answer evaluate(const char *text);

#endif
