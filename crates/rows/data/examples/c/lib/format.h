// What printf and snprintf have in common.
#ifndef FORMAT_H
#define FORMAT_H

#include <stdarg.h>

// Where characters go.
struct ds_sink {
    void (*put)(struct ds_sink *sink, char it);
    int count;                          // how many went there; -1 where that is too large a number
};

void ds_format(struct ds_sink *sink, const char *format, va_list *values);

#endif
