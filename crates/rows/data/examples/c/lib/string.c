// Texts: bytes up to the first zero byte.
#include <string.h>

// The number of bytes before the zero byte.
size_t strlen(const char *text) {
    const char *end = text;
    while (*end != 0)
        end++;
    return end - text;
}

// The length, of at most so many bytes that are looked at.
size_t strnlen(const char *text, size_t most) {
    size_t length = 0;
    while (length < most && text[length] != 0)
        length++;
    return length;
}

// Copies a text with its zero byte.
char *strcpy(char *restrict to, const char *restrict from) {
    memcpy(to, from, strlen(from) + 1);
    return to;
}

// Writes `size` bytes: a text, as much as fits, and zero bytes after it. A text that fills them has
// no zero byte.
char *strncpy(char *restrict to, const char *restrict from, size_t size) {
    size_t length = strnlen(from, size);
    memcpy(to, from, length);
    memset(to + length, 0, size - length);
    return to;
}

// Puts a text behind another.
char *strcat(char *restrict to, const char *restrict from) {
    strcpy(to + strlen(to), from);
    return to;
}

// Puts at most so many bytes of a text behind another, and a zero byte.
char *strncat(char *restrict to, const char *restrict from, size_t most) {
    size_t length = strnlen(from, most);
    char *end = to + strlen(to);
    memcpy(end, from, length);
    end[length] = 0;
    return to;
}

// Less than, equal to or greater than 0, in the order of a dictionary of bytes.
int strcmp(const char *left, const char *right) {
    return strncmp(left, right, (size_t)-1);
}

// The same, of at most so many bytes of each.
int strncmp(const char *left, const char *right, size_t most) {
    for (; most > 0; left++, right++, most--)
        if (*left != *right || *left == 0)
            return (unsigned char)*left - (unsigned char)*right;
    return 0;
}

// The first place of a byte, perhaps of the zero byte, or NULL.
char *strchr(const char *text, int it) {
    for (; *text != (char)it; text++)
        if (*text == 0)
            return NULL;
    return (char *)text;
}

// The last place of a byte, perhaps of the zero byte, or NULL.
char *strrchr(const char *text, int it) {
    for (size_t size = strlen(text) + 1; size > 0; size--)
        if (text[size - 1] == (char)it)
            return (char *)text + size - 1;
    return NULL;
}

// How many bytes at the beginning are of the set.
size_t strspn(const char *text, const char *set) {
    size_t length = 0;
    while (text[length] != 0 && strchr(set, text[length]) != NULL)
        length++;
    return length;
}

// How many bytes at the beginning are not of the set.
size_t strcspn(const char *text, const char *set) {
    size_t length = 0;
    while (text[length] != 0 && strchr(set, text[length]) == NULL)
        length++;
    return length;
}

// The first byte that is of the set, or NULL.
char *strpbrk(const char *text, const char *set) {
    text += strcspn(text, set);
    return *text == 0 ? NULL : (char *)text;
}

// The first place where a text has the other as a part, or NULL.
char *strstr(const char *text, const char *part) {
    size_t length = strlen(part);
    for (; strncmp(text, part, length) != 0; text++)
        if (*text == 0)
            return NULL;
    return (char *)text;
}

// The next part of a text between bytes of the set, or NULL. `rest` has what is left for the next
// call, whose text is NULL.
char *strtok_r(char *restrict text, const char *restrict set, char **restrict rest) {
    char *begin = text != NULL ? text : *rest;
    begin += strspn(begin, set);
    char *end = begin + strcspn(begin, set);
    *rest = *end == 0 ? end : end + 1;
    if (end == begin)
        return NULL;
    if (*end != 0)
        *end = 0;
    return begin;
}

// The same for one text at a time.
char *strtok(char *restrict text, const char *restrict set) {
    static char *rest;
    return strtok_r(text, set, &rest);
}
