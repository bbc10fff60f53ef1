// A format with its values as characters: the conversions d i u o x X c s p %, with flags, a width,
// a precision and a size. Another conversion, or one that the format's end cuts off, is put as it
// stands; so are `%n` and those of floating point.
#include "format.h"

#include <limits.h>
#include <stdbool.h>
#include <stddef.h>
#include <stdint.h>
#include <string.h>

// A conversion as the format has it. Sizes are in bytes; a precision of -1 is none.
struct conversion {
    bool is_left, has_plus, has_space, is_alternate, has_zeros;
    int width, precision, size;
    bool is_too_large;                  // the width or the precision
};

// A text or a number as it is put: a prefix, such as a sign, zeros, and characters.
struct piece {
    const char *prefix, *text;
    int zeros, length;
};

// Puts a character, and counts it; nothing any more where there are too many.
static void put(struct ds_sink *sink, char it) {
    if (sink->count == INT_MAX)
        sink->count = -1;
    if (sink->count < 0)
        return;
    sink->put(sink, it);
    sink->count++;
}

// Puts a character so often.
static void put_many(struct ds_sink *sink, char it, int count) {
    while (count-- > 0 && sink->count >= 0)
        put(sink, it);
}

// Puts a piece in its width, with blanks or zeros on the one side or the other.
static void put_piece(struct ds_sink *sink, const struct conversion *how, struct piece it) {
    int prefix = strlen(it.prefix), blanks = how->width - prefix - it.length;
    blanks = blanks > it.zeros ? blanks - it.zeros : 0;
    if (!how->is_left)
        put_many(sink, ' ', blanks);
    for (int k = 0; k < prefix; k++)
        put(sink, it.prefix[k]);
    put_many(sink, '0', it.zeros);
    for (int k = 0; k < it.length; k++)
        put(sink, it.text[k]);
    if (how->is_left)
        put_many(sink, ' ', blanks);
}

// Reads a decimal number, or takes it from the values where a star stands.
static int read_number(const char **at, struct conversion *how, va_list *values) {
    if (**at == '*') {
        ++*at;
        return va_arg(*values, int);
    }
    int number = 0;
    for (; '0' <= **at && **at <= '9'; ++*at) {
        how->is_too_large |= number > (INT_MAX - (**at - '0')) / 10;
        number = how->is_too_large ? 0 : number * 10 + (**at - '0');
    }
    return number;
}

// Reads the flags.
static void read_flags(const char **at, struct conversion *how) {
    for (;; ++*at)
        switch (**at) {
        case '-': how->is_left = true; break;
        case '+': how->has_plus = true; break;
        case ' ': how->has_space = true; break;
        case '#': how->is_alternate = true; break;
        case '0': how->has_zeros = true; break;
        default: return;
        }
}

// Reads the size of a number: that of an int where none is told.
static int read_size(const char **at) {
    switch (*(*at)++) {
    case 'h': return **at == 'h' ? ++*at, sizeof(char) : sizeof(short);
    case 'l': return **at == 'l' ? ++*at, sizeof(long long) : sizeof(long);
    case 'j': return sizeof(intmax_t);
    case 'z': return sizeof(size_t);
    case 't': return sizeof(ptrdiff_t);
    default: --*at; return sizeof(int);
    }
}

// Reads a conversion from behind its `%` up to its letter.
static struct conversion read_conversion(const char **at, va_list *values) {
    struct conversion how = {.precision = -1};
    read_flags(at, &how);
    how.width = read_number(at, &how, values);
    if (how.width < 0) {
        how.is_left = true;
        how.is_too_large |= how.width == INT_MIN;
        how.width = how.width == INT_MIN ? 0 : -how.width;
    }
    if (**at == '.') {
        ++*at;
        how.precision = read_number(at, &how, values);
    }
    how.size = read_size(at);
    return how;
}

// The next value as a number of its size. One with a sign is extended.
static unsigned long long next_number(struct conversion how, bool has_sign, va_list *values) {
    unsigned long long it = how.size == sizeof(long long) ? va_arg(*values, unsigned long long)
                          : how.size == sizeof(long)      ? va_arg(*values, unsigned long)
                                                          : va_arg(*values, unsigned);
    int above = CHAR_BIT * (sizeof it - how.size);
    return has_sign ? (unsigned long long)((long long)(it << above) >> above) : it << above >> above;
}

// Writes the digits of a number before `end`, and returns where they begin. 64 bits are divided
// only while it has them.
static char *write_digits(char *end, unsigned long long number, unsigned base, const char *digits) {
    while (number > UINT_MAX) {
        unsigned long long quotient = number / base;
        *--end = digits[number - quotient * base];
        number = quotient;
    }
    for (unsigned low = number; low > 0; low /= base)
        *--end = digits[low % base];
    return end;
}

// Puts a number whose prefix and base are known.
static void put_number(struct ds_sink *sink, struct conversion how, unsigned long long number, unsigned base,
                       const char *prefix, char letter) {
    char digits[22];                    // 64 bits have at most 22 octal digits
    char *end = digits + sizeof digits;
    char *begin = write_digits(end, number, base, letter == 'X' ? "0123456789ABCDEF" : "0123456789abcdef");
    struct piece it = {prefix, begin, 0, end - begin};
    int least = how.precision < 0 ? 1 : how.precision;
    it.zeros = least > it.length ? least - it.length : 0;
    if (base == 8 && how.is_alternate && it.zeros == 0)
        it.zeros = 1;
    int room = how.width - (int)strlen(prefix) - it.length;
    if (how.has_zeros && !how.is_left && how.precision < 0 && it.zeros < room)
        it.zeros = room;
    put_piece(sink, &how, it);
}

// Puts a number with a sign.
static void put_signed(struct ds_sink *sink, struct conversion how, va_list *values) {
    unsigned long long number = next_number(how, true, values);
    bool is_negative = (long long)number < 0;
    const char *prefix = is_negative ? "-" : how.has_plus ? "+" : how.has_space ? " " : "";
    put_number(sink, how, is_negative ? -number : number, 10, prefix, 'd');
}

// Puts a number without a sign, by the letter of its base.
static void put_unsigned(struct ds_sink *sink, struct conversion how, char letter, va_list *values) {
    unsigned long long number = next_number(how, false, values);
    unsigned base = letter == 'u' ? 10 : letter == 'o' ? 8 : 16;
    const char *prefix = base != 16 || !how.is_alternate || number == 0 ? "" : letter == 'X' ? "0X" : "0x";
    put_number(sink, how, number, base, prefix, letter);
}

// Puts a text, of which a precision is the most that is looked at.
static void put_text(struct ds_sink *sink, struct conversion how, const char *text) {
    if (text == NULL)
        text = how.precision < 0 || how.precision >= 6 ? "(null)" : "";
    size_t most = how.precision < 0 ? INT_MAX : how.precision, length = strnlen(text, most);
    put_piece(sink, &how, (struct piece){"", text, 0, length});
}

// Puts an address, in hexadecimal digits.
static void put_pointer(struct ds_sink *sink, struct conversion how, const void *pointer) {
    how.precision = -1;
    how.has_zeros = how.is_alternate = false;
    if (pointer == NULL) {
        put_text(sink, how, "(nil)");
        return;
    }
    put_number(sink, how, (uintptr_t)pointer, 16, "0x", 'x');
}

// Puts one conversion. False where there is none of this letter.
static bool put_conversion(struct ds_sink *sink, struct conversion how, char letter, va_list *values) {
    char it;
    switch (letter) {
    case 'd': case 'i': put_signed(sink, how, values); return true;
    case 'u': case 'o': case 'x': case 'X': put_unsigned(sink, how, letter, values); return true;
    case 's': put_text(sink, how, va_arg(*values, const char *)); return true;
    case 'p': put_pointer(sink, how, va_arg(*values, void *)); return true;
    case 'c': it = va_arg(*values, int); put_piece(sink, &how, (struct piece){"", &it, 0, 1}); return true;
    case '%': put(sink, '%'); return true;
    default: return false;
    }
}

// Puts a format with its values.
void ds_format(struct ds_sink *sink, const char *format, va_list *values) {
    while (*format != 0 && sink->count >= 0) {
        const char *begin = format++;
        if (*begin != '%') {
            put(sink, *begin);
            continue;
        }
        struct conversion how = read_conversion(&format, values);
        if (how.is_too_large) {
            sink->count = -1;
            return;
        }
        if (put_conversion(sink, how, *format, values)) {
            format++;
            continue;
        }
        if (*format != 0)
            format++;
        while (begin < format)
            put(sink, *begin++);
    }
}
