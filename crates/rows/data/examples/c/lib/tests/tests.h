// What the tests of the library share. The library's functions have the names `lib_NAME` here, and
// the host's their own.
#ifndef TESTS_H
#define TESTS_H

#include <setjmp.h>
#include <stdbool.h>
#include <stdint.h>
#include <stdio.h>

// Notes a check that fails, with its place and what is looked at.
#define CHECK(condition, ...) \
    do { \
        checks++; \
        if (!(condition) && ++failures < 20) \
            printf("%s:%d: %s; ", __FILE__, __LINE__, #condition), printf(__VA_ARGS__), putchar('\n'); \
    } while (0)

extern unsigned long checks, failures;

uint32_t drawn(uint32_t below);
uint64_t drawn_bits(void);
char *at_edge(const void *bytes, size_t size);

extern char put_text[];
extern size_t put_count;
extern jmp_buf at_exit;
void comes(const char *bytes, size_t size);

void test_memory(void);
void test_strings(void);
void test_characters(void);
void test_numbers(void);
void test_sorting(void);
void test_formats(void);
void test_printing(void);
void test_heap(void);
void test_lines(void);
void test_exit(void);
void test_integers(void);

#endif
