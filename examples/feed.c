/* Feeds arrivals to a receiver and prints what it notes of each, then the receiver's counts: `feed` feeds a small list, `feed
 * K` the arrivals of standard input to a receiver for K packets, each a sequence number and a time in microseconds. */

#include <inttypes.h>
#include <stdio.h>
#include <stdlib.h>
#include "krakobran.h"

/* Prints what is noted of an arrival. */
static void print_noted(const krakobran_noted *noted) {
    switch (noted->kind) {
    case KRAKOBRAN_IN_ORDER:
        printf("in order, jump size %" PRIu64 "\n", noted->jump);
        break;
    case KRAKOBRAN_REORDERED_AFTER:
        printf("reordered, extent %" PRIu64 ", late by %" PRIu64 "\n", noted->extent, noted->late);
        break;
    case KRAKOBRAN_REORDERED_BEFORE:
        printf("reordered, extent %" PRIu64 ", stamped %" PRIu64 " before its discontinuity\n", noted->extent, noted->late);
        break;
    case KRAKOBRAN_DUPLICATE:
        printf("duplicate\n");
        break;
    case KRAKOBRAN_BEYOND_AFTER:
        printf("reordered beyond the window, extent over %" PRIu64 ", late by %" PRIu64 " after the oldest kept jump\n",
               noted->extent, noted->late);
        break;
    case KRAKOBRAN_BEYOND_BEFORE:
        printf("reordered beyond the window, extent over %" PRIu64 ", stamped %" PRIu64 " before the oldest kept jump\n",
               noted->extent, noted->late);
        break;
    }
}

/* Prints the counts of a receiver. */
static void print_counts(const krakobran_stream *stream) {
    printf("L %" PRIu32 ", duplicates %" PRIu32 ", in order %" PRIu32 "\n", stream->arrived, stream->duplicates,
           stream->inorder);
    printf("closed runs %" PRIu32 ", sum of squares %" PRIu32 ", open run %" PRIu32 "\n", stream->runs.closed,
           stream->runs.squares, stream->runs.current);
}

/* Feeds one arrival and prints what is noted of it; a refused one changes nothing. A receiver that is full, as it is after
 * KRAKOBRAN_ARRIVALS_MOST arrivals, has its final counts. A fresh one takes this arrival and the next ones, and knows nothing
 * of those before. */
static void feed(krakobran_receiver *receiver, uint64_t number, uint64_t time) {
    krakobran_noted noted;
    uint32_t packet = number <= UINT32_MAX ? (uint32_t)number : 0; /* no packet has 0 or a number over 32 bits */
    uint64_t refusal = krakobran_receiver_step(receiver, packet, time, &noted);
    if (refusal == KRAKOBRAN_STATE_FULL) {
        printf("%" PRIu64 " at %" PRIu64 ": refused %" PRIu64 ", the receiver is full; its counts:\n", number, time, refusal);
        print_counts(&receiver->stream);
        printf("a fresh receiver takes this arrival and the next ones\n");
        krakobran_receiver_fresh(receiver, receiver->stream.sent);
        refusal = krakobran_receiver_step(receiver, packet, time, &noted);
    }
    printf("%" PRIu64 " at %" PRIu64 ": ", number, time);
    if (refusal != KRAKOBRAN_NONE)
        printf("refused %" PRIu64 "\n", refusal);
    else
        print_noted(&noted);
}

int main(int argc, char **argv) {
    static const uint64_t numbers[] = {1, 2, 4, 6, 3, 3, 5, 9};
    static const uint64_t times[] = {10, 20, 40, 50, 70, 80, 45, 90};
    static krakobran_receiver receiver;
    unsigned long sent = argc > 1 ? strtoul(argv[1], NULL, 10) : 6;
    uint64_t refusal = krakobran_receiver_fresh(&receiver, sent <= UINT32_MAX ? (uint32_t)sent : UINT32_MAX);
    if (refusal != KRAKOBRAN_NONE) {
        fprintf(stderr, "refused %" PRIu64 "\n", refusal);
        return 1;
    }
    uint64_t number, time;
    if (argc > 1) {
        while (scanf("%" SCNu64 " %" SCNu64, &number, &time) == 2)
            feed(&receiver, number, time);
    } else {
        for (size_t i = 0; i < sizeof numbers / sizeof numbers[0]; i++)
            feed(&receiver, numbers[i], times[i]);
    }
    print_counts(&receiver.stream);
    return 0;
}
