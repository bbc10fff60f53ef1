// Process 1 of two: it gives its page to the receiver, and sends a text through it.
#include "channel.h"

static union {
    struct channel channel;
    char page[DS_PAGE];                 // nothing else lies on the page that is given
} shared __attribute__((aligned(DS_PAGE)));

static const char text[] = "two processes, one page";

int main(void) {
    volatile struct channel *channel = &shared.channel;
    if (ds_give(&shared, RECEIVER, RECEIVED_AT, DS_WRITE) != 0) {
        ds_put('!');
        return 1;
    }
    for (unsigned i = 0; text[i] != 0; i++) {
        while (channel->written - channel->taken == RING)
            ds_yield();
        channel->ring[channel->written % RING] = text[i];
        channel->written++;
    }
    channel->ended = 1;
    return 0;
}
