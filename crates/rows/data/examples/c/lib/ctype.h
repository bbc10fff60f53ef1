// Kinds of characters, in ASCII. They take EOF too, which is of no kind.
#ifndef CTYPE_H
#define CTYPE_H

int isalnum(int it);
int isalpha(int it);
int isblank(int it);
int iscntrl(int it);
int isdigit(int it);
int isgraph(int it);
int islower(int it);
int isprint(int it);
int ispunct(int it);
int isspace(int it);
int isupper(int it);
int isxdigit(int it);
int tolower(int it);
int toupper(int it);

#endif
