// The monitor's calls as the library's tests stand in for them: what is put is kept, and what comes
// is told before.
#ifndef DSMON_H
#define DSMON_H

enum { DS_NONE = -1 };

void ds_put(char it);
int ds_get(void);
void ds_wait(void);
_Noreturn void ds_exit(void);

#endif
