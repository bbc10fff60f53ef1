// Bytes of a file at a fixed address before `main` begins, as `--data` puts them into pages of a policy: for a program that is compiled for this machine.
// ADDRESS, SIZE and HELD, the name of the file, are given to the compiler.
#define _GNU_SOURCE
#include <fcntl.h>
#include <sys/mman.h>

__attribute__((constructor)) static void place(void) {
    mmap((void *)ADDRESS, SIZE, PROT_READ, MAP_PRIVATE | MAP_FIXED_NOREPLACE, open(HELD, O_RDONLY), 0);
}
