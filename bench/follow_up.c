/*
 * follow_up [rounds]: times a Follow_Up at a two-step node in the libraries of two commits, with the table by
 * value, side by side.
 */
#include "sample.h"
#include "turns.h"
#include <stddef.h>
#include <stdlib.h>

/* `count` Follow_Ups from one table that holds the record of the Sync. They answer how many were added to. */
typedef uint64_t follow_ups(uint8_t *sync, size_t sync_size, uint8_t *follow_up, size_t follow_up_size,
                            uint8_t *output, size_t room, uint64_t count);
follow_ups one_follow_ups, other_follow_ups;

static uint8_t sync[MESSAGE], follow_up[MESSAGE], output[MESSAGE];

static void messages(void) {
    lay_message(sync, 0x80, 0);
    lay_message(follow_up, 0x80, 8);
}

static uint64_t one(uint64_t calls) {
    return calls - one_follow_ups(sync, MESSAGE, follow_up, MESSAGE, output, MESSAGE, calls);
}

static uint64_t other(uint64_t calls) {
    return calls - other_follow_ups(sync, MESSAGE, follow_up, MESSAGE, output, MESSAGE, calls);
}

static const struct timed rows[] = {{"Follow_Up, table by value", messages, one, other}};

int main(int argc, char **argv) {
    take_turns(rows, 1, argc > 1 ? atoi(argv[1]) : ROUNDS, "one, ns", "other, ns");
    return 0;
}
