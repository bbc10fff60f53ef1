// printf and snprintf beside the host's: each conversion with its flags, widths, precisions and
// sizes, and formats that are drawn.
#include "tests.h"

#include <limits.h>
#include <stdarg.h>
#include <string.h>

int lib_snprintf(char *, size_t, const char *, ...), lib_vsnprintf(char *, size_t, const char *, va_list), lib_sprintf(char *, const char *, ...);
int lib_printf(const char *, ...), lib_fprintf(FILE *, const char *, ...), lib_puts(const char *), lib_putchar(int), lib_fputs(const char *, FILE *);
int lib_vprintf(const char *, va_list), lib_vfprintf(FILE *, const char *, va_list), lib_fputc(int, FILE *), lib_putc(int, FILE *), lib_fflush(FILE *);
_Noreturn void lib_ds_assertion(const char *, const char *, int);

enum { ROOM = 512 };

// One format with values, in a text of a drawn size. Each value fills a place of its own among the
// arguments, whatever its size.
static void test_format(const char *format, long long a, long long b, long long c) {
    char mine[ROOM], host[ROOM];
    memset(mine, '#', ROOM), memset(host, '#', ROOM);
    int count = lib_snprintf(mine, ROOM, format, a, b, c), wanted = snprintf(host, ROOM, format, a, b, c);
    CHECK(count == wanted && memcmp(mine, host, ROOM) == 0, "\"%s\" %lld %lld %lld: \"%s\", %d, and not \"%s\", %d", format, a, b, c, mine, count, host, wanted);
    size_t size = drawn(24);
    memset(mine, '#', ROOM), memset(host, '#', ROOM);
    lib_snprintf(size == 0 ? NULL : mine, size, format, a, b, c), snprintf(size == 0 ? NULL : host, size, format, a, b, c);
    CHECK(memcmp(mine, host, ROOM) == 0, "\"%s\" in %zu bytes", format, size);
}

static const char *const widths[] = {"", "1", "7", "20", "*"}, *const precisions[] = {"", ".", ".0", ".1", ".9", ".24", ".*"};

// A conversion of these flags, as bits, and with this width and precision.
static void write_format(char *format, unsigned flags, const char *width, const char *precision, const char *rest) {
    char *at = format;
    *at++ = '<', *at++ = '%';
    for (int k = 0; k < 5; k++)
        if (flags >> k & 1)
            *at++ = "-+ #0"[k];
    sprintf(at, "%s%s%s>", width, precision, rest);
}

// One conversion of a number with each of some values.
static void test_number_format(unsigned flags, const char *width, const char *precision, const char *size, char letter) {
    static const long long values[] = {0, 1, -1, 42, 255, 256, -128, 65535, 0x7fffffff, -0x7fffffffLL - 1, 0x80000000, LLONG_MAX, LLONG_MIN, 1234567890123456789};
    char format[32], rest[8];
    snprintf(rest, sizeof rest, "%s%c", size, letter);
    write_format(format, flags, width, precision, rest);
    long long value = drawn(3) == 0 ? (long long)drawn_bits() : values[drawn(14)], number = (long long[]){0, 3, 15, -3, -15}[drawn(5)];
    if (*width != '*' && strcmp(precision, ".*") != 0)
        test_format(format, value, 0, 0);
    else if (*width != '*' || strcmp(precision, ".*") != 0)
        test_format(format, number, value, 0);
    else
        test_format(format, number, (int)drawn(20) - 4, value);
}

// All conversions of numbers.
static void test_number_formats(void) {
    static const char *const sizes[] = {"hh", "h", "", "l", "ll", "j", "z", "t"};
    for (unsigned flags = 0; flags < 32; flags++)
        for (int width = 0; width < 5; width++)
            for (int precision = 0; precision < 7; precision++)
                for (int size = 0; size < 8; size++)
                    for (const char *letter = "diuoxX"; *letter != 0; letter++)
                        for (int k = 0; k < 2; k++)
                            test_number_format(flags, widths[width], precisions[precision], sizes[size], *letter);
}

// Texts, characters and addresses. Only the minus is a flag that C gives them.
static void test_other_formats(void) {
    static const char *const texts[] = {"", "a", "seven..", "a text of more than 24 characters", NULL};
    char format[32];
    for (unsigned flags = 0; flags < 2; flags++)
        for (int width = 0; width < 4; width++) {
            for (int precision = 0; precision < 6; precision++)
                for (int k = 0; k < 5; k++) {
                    write_format(format, flags, widths[width], precisions[precision], "s");
                    test_format(format, (intptr_t)texts[k], 0, 0);
                }
            for (int it = 1; it < 300; it += 7) {
                write_format(format, flags, widths[width], "", "c");
                test_format(format, it, 0, 0);
                write_format(format, flags, widths[width], "", "p");
                test_format(format, it == 1 ? 0 : (long long)drawn_bits(), 0, 0);
            }
        }
    char bytes[] = {'n', 'o', 'n', 'e'};        // a precision is the most that is looked at
    char text[8];
    CHECK(lib_snprintf(text, sizeof text, "%.4s", at_edge(bytes, 4)) == 4 && strcmp(text, "none") == 0, "%s", text);
    test_format("%c%%%c", 0, 'b', 0);
    test_format("", 0, 0, 0);
    test_format("%s and %d%%", (intptr_t)"text", 100, 0);
}

// Reads a conversion of a drawn format, and writes it without what C gives no meaning. Stars get
// their values here. Its letter, or 0.
static char read_piece(const char **at, char *bare, long long *values, int *taken) {
    const char *begin = *at + 1;
    *at = begin + strspn(begin, "-+ #0");
    char width[16] = "", precision[16] = "";
    bool is_left = memchr(begin, '-', *at - begin) != NULL;
    if (**at == '*') {
        int it = values[(*taken)++] = (int)drawn(24) - 8;
        is_left |= it < 0;
        snprintf(width, sizeof width, "%d", it < 0 ? -it : it);
        ++*at;
    } else {
        size_t length = strspn(*at, "0123456789");
        snprintf(width, sizeof width, "%.*s", (int)length, *at);
        *at += length;
    }
    if (**at == '.' && *++*at == '*') {
        int it = values[(*taken)++] = (int)drawn(24) - 8;
        snprintf(precision, sizeof precision, it < 0 ? "" : ".%d", it);
        ++*at;
    } else if ((*at)[-1] == '.') {
        size_t length = strspn(*at, "0123456789");
        snprintf(precision, sizeof precision, ".%.*s", (int)length, *at);
        *at += length;
    }
    const char *size = *at;
    *at += **at == 'h' || **at == 'l' ? 1 + ((*at)[1] == **at) : strspn(*at, "jzt") > 0;
    char letter = **at != 0 && strchr("diuoxXscp%", **at) != NULL ? **at : 0;
    *at += **at != 0;
    char flags[8] = "";
    for (const char *it = "+ #0"; *it != 0 && strchr("diuoxX", letter) != NULL && letter != 0; it++)
        if (memchr(begin, *it, strspn(begin, "-+ #0")) != NULL)
            strncat(flags, it, 1);
    bool has_size = letter != 0 && strchr("diuoxX", letter) != NULL;
    sprintf(bare, "%%%s%s%s%s%.*s%c", is_left ? "-" : "", flags, width, letter == 'c' || letter == 'p' ? "" : precision, has_size ? (int)(*at - size - 1) : 0, size, letter);
    return letter;
}

// What a drawn format has to make: a conversion as the host makes it alone, and all else as it
// stands.
static size_t wanted_of(const char *format, long long *values, char *wanted) {
    size_t length = 0;
    for (int taken = 0; *format != 0;) {
        char bare[64];
        const char *begin = format;
        if (*format != '%') {
            wanted[length++] = *format++;
            continue;
        }
        char letter = read_piece(&format, bare, values, &taken);
        if (letter == '%')
            wanted[length++] = '%';
        else if (letter != 0)
            length += sprintf(wanted + length, bare, values[taken++]);
        else
            for (; begin < format; begin++)
                wanted[length++] = *begin;
    }
    wanted[length] = 0;
    return length;
}

// Formats that are drawn of the characters that mean something, most of them wrong.
static void test_drawn_formats(void) {
    static char wanted[1 << 14], mine[1 << 14];
    for (int k = 0; k < 60000; k++) {
        char format[24];
        size_t length = drawn(16);
        for (size_t at = 0; at < length; at++)
            format[at] = "%%%%-+ #0123..*hljztdiuxXocspnfyk"[drawn(33)];
        format[length] = 0;
        long long values[12];
        for (int at = 0; at < 12; at++)         // each may be asked for as a text
            values[at] = (intptr_t)("sixty four characters" + drawn(22));
        size_t count = wanted_of(format, values, wanted);
        const char *edge = at_edge(format, length + 1);
        int got = lib_snprintf(mine, sizeof mine, edge, values[0], values[1], values[2], values[3], values[4], values[5], values[6], values[7], values[8], values[9], values[10], values[11]);
        CHECK(got == (int)count && strcmp(mine, wanted) == 0, "\"%s\": \"%.80s\", %d, and not \"%.80s\", %zu", format, mine, got, wanted, count);
    }
}

// All formats, and those that are too wide.
void test_formats(void) {
    test_number_formats();
    test_other_formats();
    test_drawn_formats();
    char text[16];
    for (size_t k = 0; k < 3; k++) {
        const char *format = (const char *[]){"%2147483648d", "%.99999999999d", "%1.4294967297d"}[k];
        CHECK(lib_snprintf(text, sizeof text, format, 1) == -1 && snprintf(text, sizeof text, format, 1) == -1, "%s", format);
    }
    CHECK(lib_snprintf(text, sizeof text, "%*d", INT_MIN, 1) == -1, "the least width");
    CHECK(lib_sprintf(text, "%d-%s", 12, "ab") == 5 && strcmp(text, "12-ab") == 0, "%s", text);
}

// Whether this is what was put since it was asked last.
static bool was_put(const char *wanted) {
    bool is_same = put_count == strlen(wanted) && memcmp(put_text, wanted, put_count) == 0;
    put_count = 0;
    return is_same;
}

// The functions that take a list of values.
static void test_lists(const char *wanted, const char *format, ...) {
    char text[32];
    va_list values;
    va_start(values, format);
    CHECK(lib_vsnprintf(text, sizeof text, format, values) == (int)strlen(wanted) && strcmp(text, wanted) == 0, "%s", text);
    va_end(values);
    va_start(values, format);
    CHECK(lib_vprintf(format, values) == (int)strlen(wanted) && was_put(wanted), "%s", wanted);
    va_end(values);
    va_start(values, format);
    CHECK(lib_vfprintf(stdout, format, values) == (int)strlen(wanted) && was_put(wanted), "%s", wanted);
    va_end(values);
}

// What is put on the line.
void test_printing(void) {
    put_count = 0;
    CHECK(lib_printf("%s %d\n", "one", 2) == 6 && was_put("one 2\n"), "printf");
    CHECK(lib_fprintf(stderr, "%5.1x|", 3) == 6 && was_put("    3|"), "fprintf");
    CHECK(lib_printf("%99999999999d", 1) == -1 && was_put(""), "too wide");
    CHECK(lib_puts("text") >= 0 && was_put("text\n"), "puts");
    CHECK(lib_fputs("", stdout) >= 0 && lib_fputs("text", stdout) >= 0 && was_put("text"), "fputs");
    CHECK(lib_putchar('a') == 'a' && lib_putchar(-1) == 255 && lib_putchar(256 + 'b') == 'b' && was_put("a\xff" "b"), "putchar");
    CHECK(lib_fputc('c', stdout) == 'c' && lib_putc('d', stdout) == 'd' && was_put("cd"), "putc");
    CHECK(lib_fflush(stdout) == 0 && was_put(""), "fflush");
    test_lists("7 seven 0x7", "%lld %s %#llx", 7LL, "seven", 7LL);
    if (setjmp(at_exit) == 0)
        lib_ds_assertion("a == b", "file.c", 12);
    CHECK(was_put("file.c:12: assertion `a == b' failed\n\nexit 134\n"), "assert");
}
