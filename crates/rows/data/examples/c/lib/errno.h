// Why a function failed. Functions set it, and none sets it back to 0.
#ifndef ERRNO_H
#define ERRNO_H

#define ENOMEM 12
#define EINVAL 22
#define ERANGE 34

extern int errno;

#endif
