// Kinds of characters, in ASCII.
#include <ctype.h>

// A letter or a digit.
int isalnum(int it) {
    return isalpha(it) || isdigit(it);
}

// A letter.
int isalpha(int it) {
    return isupper(it) || islower(it);
}

// A space or a tab.
int isblank(int it) {
    return it == ' ' || it == '\t';
}

// A control character.
int iscntrl(int it) {
    return (0 <= it && it < ' ') || it == 127;
}

// A decimal digit.
int isdigit(int it) {
    return '0' <= it && it <= '9';
}

// A character that leaves a mark.
int isgraph(int it) {
    return ' ' < it && it < 127;
}

// A small letter.
int islower(int it) {
    return 'a' <= it && it <= 'z';
}

// A character that leaves a mark, or the space.
int isprint(int it) {
    return ' ' <= it && it < 127;
}

// A character that leaves a mark, and neither letter nor digit.
int ispunct(int it) {
    return isgraph(it) && !isalnum(it);
}

// A space, tab, line feed, vertical tab, form feed or carriage return.
int isspace(int it) {
    return it == ' ' || ('\t' <= it && it <= '\r');
}

// A capital letter.
int isupper(int it) {
    return 'A' <= it && it <= 'Z';
}

// A hexadecimal digit.
int isxdigit(int it) {
    return isdigit(it) || ('a' <= it && it <= 'f') || ('A' <= it && it <= 'F');
}

// A capital letter as a small one.
int tolower(int it) {
    return isupper(it) ? it - 'A' + 'a' : it;
}

// A small letter as a capital one.
int toupper(int it) {
    return islower(it) ? it - 'a' + 'A' : it;
}
