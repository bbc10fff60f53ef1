// A page that two processes share: the sender writes characters into a ring, and the receiver takes them out.
#ifndef CHANNEL_H
#define CHANNEL_H

#include "dsmon.h"

enum { RING = 8, RECEIVER = 2 };        // places in the ring; the number of the process that receives
enum { RECEIVED_AT = 0x00500000 };      // where the receiver has the page

struct channel {
    unsigned written, taken;            // how many characters so far; each is written by one process alone
    unsigned ended;                     // no character comes after those that are written
    char ring[RING];
};

#endif
