// The monitor's ten calls as functions. docs/monitor.md says what each does, and when it is refused.
#ifndef DSMON_H
#define DSMON_H

enum { DS_PAGE = 4096 };                                // bytes in a page
enum { DS_NONE = -1 };                                  // what ds_get returns where no character waits
enum { DS_READ = 1, DS_WRITE = 2, DS_COPY = 3 };        // how ds_give gives a page

// A call: its number goes to register 2 and its arguments to registers 4 to 7, and register 2 has the answer. Registers
// 26 and 27 are lost. The monitor writes to no page, but another process may run meanwhile and write to a shared one.
static inline int ds_call_0(int number) {
    register int answer __asm__("$2") = number;
    __asm__ volatile("syscall" : "+r"(answer) : : "$26", "$27", "memory");
    return answer;
}

static inline int ds_call_1(int number, unsigned first) {
    register int answer __asm__("$2") = number;
    register unsigned a __asm__("$4") = first;
    __asm__ volatile("syscall" : "+r"(answer) : "r"(a) : "$26", "$27", "memory");
    return answer;
}

static inline int ds_call_4(int number, unsigned first, unsigned second, unsigned third, unsigned fourth) {
    register int answer __asm__("$2") = number;
    register unsigned a __asm__("$4") = first;
    register unsigned b __asm__("$5") = second;
    register unsigned c __asm__("$6") = third;
    register unsigned d __asm__("$7") = fourth;
    __asm__ volatile("syscall" : "+r"(answer) : "r"(a), "r"(b), "r"(c), "r"(d) : "$26", "$27", "memory");
    return answer;
}

// The process ends.
_Noreturn static inline void ds_exit(void) {
    ds_call_0(0);
    __builtin_unreachable();
}

// A character goes to the console line of the process.
static inline void ds_put(char it) {
    ds_call_1(1, it);
}

// The oldest character that waits on the line, or DS_NONE.
static inline int ds_get(void) {
    return ds_call_0(2);
}

// The other processes that are ready run first.
static inline void ds_yield(void) {
    ds_call_0(3);
}

// The time in ticks.
static inline unsigned ds_time(void) {
    return ds_call_0(4);
}

// The number of the process, from 1.
static inline unsigned ds_self(void) {
    return ds_call_0(5);
}

// Process `to` gets the page at `page`, at its own address `at`, in the way that `how` says. 0, or why not.
static inline int ds_give(volatile void *page, unsigned to, unsigned at, int how) {
    return ds_call_4(6, (unsigned)page, to, at, how);
}

// Process `from` loses the page that it has at its own address `at`, and that this process gave to it. 0, or why not.
static inline int ds_take(unsigned from, unsigned at) {
    return ds_call_4(7, from, at, 0, 0);
}

// This process loses its page at `page`. 0, or why not.
static inline int ds_drop(volatile void *page) {
    return ds_call_1(8, (unsigned)page);
}

// The process sleeps until a character waits on its line.
static inline void ds_wait(void) {
    ds_call_0(9);
}

#endif
