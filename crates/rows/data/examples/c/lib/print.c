// Formats on the console line, and in texts.
#include "format.h"

#include <stddef.h>
#include <stdio.h>

// A text that is written, and how many of its bytes are left, with that for the zero byte.
struct text {
    struct ds_sink sink;
    char *at;
    size_t left;
};

// Puts a character on the line.
static void put_on_line(struct ds_sink *sink, char it) {
    (void)sink;
    putchar(it);
}

// Writes a character into a text, as long as the zero byte has room after it.
static void put_in_text(struct ds_sink *sink, char it) {
    struct text *text = (struct text *)sink;
    if (text->left <= 1)
        return;
    *text->at++ = it;
    text->left--;
}

// Puts a format with its values on the line. How many characters that are, or -1.
int vprintf(const char *restrict format, va_list values) {
    struct ds_sink sink = {put_on_line, 0};
    va_list copy;
    va_copy(copy, values);
    ds_format(&sink, format, &copy);
    va_end(copy);
    return sink.count;
}

// The same, on the only line there is.
int vfprintf(FILE *restrict stream, const char *restrict format, va_list values) {
    (void)stream;
    return vprintf(format, values);
}

// Puts a format with the values that follow.
int printf(const char *restrict format, ...) {
    va_list values;
    va_start(values, format);
    int count = vprintf(format, values);
    va_end(values);
    return count;
}

// The same, on the only line there is.
int fprintf(FILE *restrict stream, const char *restrict format, ...) {
    va_list values;
    va_start(values, format);
    int count = vfprintf(stream, format, values);
    va_end(values);
    return count;
}

// Writes at most `size` bytes: a format with its values, as much as fits, and a zero byte. The
// count is that of the whole text.
int vsnprintf(char *restrict to, size_t size, const char *restrict format, va_list values) {
    struct text text = {{put_in_text, 0}, to, size};
    va_list copy;
    va_copy(copy, values);
    ds_format(&text.sink, format, &copy);
    va_end(copy);
    if (size > 0)
        *text.at = 0;
    return text.sink.count;
}

// The same with the values that follow.
int snprintf(char *restrict to, size_t size, const char *restrict format, ...) {
    va_list values;
    va_start(values, format);
    int count = vsnprintf(to, size, format, values);
    va_end(values);
    return count;
}

// The same without a bound: the text has to fit.
int sprintf(char *restrict to, const char *restrict format, ...) {
    va_list values;
    va_start(values, format);
    int count = vsnprintf(to, (size_t)-1, format, values);
    va_end(values);
    return count;
}
