// Process 2 of two: it puts what comes through the page that the sender gave to it, in capitals.
#include "channel.h"

static char capital(char it) {
    return 'a' <= it && it <= 'z' ? it - 'a' + 'A' : it;
}

int main(void) {
    volatile struct channel *channel = (volatile struct channel *)RECEIVED_AT;
    for (;;) {
        while (channel->written == channel->taken) {
            if (channel->ended)
                return 0;
            ds_yield();
        }
        ds_put(capital(channel->ring[channel->taken % RING]));
        channel->taken++;
    }
}
