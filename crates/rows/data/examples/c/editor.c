// A line editor. It sleeps until keys come, shows what is typed, and puts each line that is ended once more with its
// number. Backspace takes the last character away, and control U the whole line. An empty line ends the program.
#include "text.h"

enum { MOST = 20, BELL = 7, BACKSPACE = 8, KILL = 21, DELETE = 127 };

static char line[MOST];
static unsigned length;
static unsigned number = 1;

static void take_back(void) {
    length--;
    put_text("\b \b");
}

static void add(char it) {
    if (length == MOST) {
        ds_put(BELL);
        return;
    }
    line[length++] = it;
    ds_put(it);
}

// Puts the line's number and the line, and begins the next one.
static void put_line(void) {
    put_number(number++);
    put_text(": ");
    for (unsigned i = 0; i < length; i++)
        ds_put(line[i]);
    put_text("\n> ");
    length = 0;
}

static int key(void) {
    int it;
    while ((it = ds_get()) == DS_NONE)
        ds_wait();
    return it;
}

int main(void) {
    put_text("> ");
    for (;;) {
        int it = key();
        switch (it) {
        case '\r':
        case '\n':
            ds_put('\n');
            if (length == 0)
                return 0;
            put_line();
            break;
        case BACKSPACE:
        case DELETE:
            if (length > 0)
                take_back();
            break;
        case KILL:
            while (length > 0)
                take_back();
            break;
        default:
            if (it >= ' ')
                add(it);
        }
    }
}
