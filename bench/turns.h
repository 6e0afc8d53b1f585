/* Times two loops side by side, in one process on one processor. */
#ifndef TURNS_H
#define TURNS_H
#include <stdint.h>

enum { ROUNDS = 201 };

/* A row: what is laid out before each run, and two loops that make so many calls each and answer how many
   of them answered otherwise than they should. */
struct timed {
    const char *name;
    void (*prepare)(void);
    uint64_t (*first)(uint64_t), (*second)(uint64_t);
};

/* Prints for each row the nanoseconds of a call, first and second, and the ratio of the second to the first.
   Each figure is the least of so many rounds, in which the two take turns. A call that answers otherwise
   stops the program. */
void take_turns(const struct timed *rows, int count, int rounds, const char *first, const char *second);

#endif
