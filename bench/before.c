/*
 * before [rounds]: times the calls with PTP stamps of an earlier library, whose names begin with before_, and
 * of this one, side by side.
 */
#include "bunpennant.h"
#include "sample.h"
#include "turns.h"
#include <stdlib.h>

enum { PAIRS = 1024, SECOND = 1000000000 };

uint8_t before_rtm_residence(bool ntp, struct rtm_stamp entry, struct rtm_stamp exit, uint64_t *units);
uint8_t before_rtm_one_step(uint8_t *message, size_t size, bool ntp, struct rtm_stamp entry,
                            struct rtm_stamp exit);
uint8_t before_rtm_two_step(struct rtm_table *table, uint8_t *message, size_t size, uint8_t *output,
                            size_t room, bool ntp, struct rtm_stamp entry, struct rtm_stamp exit);

static struct { struct rtm_stamp entry, exit; } stamps[PAIRS];
static uint8_t sync[MESSAGE], clear[MESSAGE], follow_up[MESSAGE];     /* Sync with S set, and with S clear */
static uint8_t output[MESSAGE];
static struct rtm_table table;
static uint64_t units;

static uint64_t state;

static uint32_t below(uint32_t limit) {
    state = state * UINT64_C(6364136223846793005) + UINT64_C(1442695040888963407);
    return (uint32_t)((state >> 33) % limit);
}

/* Stamps less than a second apart, one pair in so many with a borrow; 0 for none. They are random, and the
   same in every run. */
static void lay_stamps(uint32_t borrows) {
    int i;
    state = 1;
    for (i = 0; i < PAIRS; i++) {
        bool borrow = borrows != 0 && below(borrows) == 0;
        uint32_t less = below(SECOND - 1), more = less + 1 + below(SECOND - 1 - less);
        stamps[i].entry.seconds = below(1000);
        stamps[i].entry.part = borrow ? more : less;
        stamps[i].exit.seconds = stamps[i].entry.seconds + borrow;
        stamps[i].exit.part = borrow ? less : more;
    }
}

static void no_borrow(void) {
    lay_stamps(0);
}

static void always_borrow(void) {
    lay_stamps(1);
}

static void either(void) {
    lay_stamps(2);
}

/* The clock went back by less than a second: refused with 10. */
static void gone_back(void) {
    int i;
    lay_stamps(1);
    for (i = 0; i < PAIRS; i++) stamps[i].exit.seconds = stamps[i].entry.seconds;
}

static void messages(void) {
    either();
    lay_message(sync, 0x80, 0);
    lay_message(clear, 0, 0);
    lay_message(follow_up, 0x80, 8);
    rtm_new(&table);
}

/* A Sync whose record is in this slot, and others of its port identity below it: before each Follow_Up the record
   is put back. */
static int place;
static struct rtm_slot kept;

static void lay_record(int slot) {
    int i;
    messages();
    for (i = 0; i < slot; i++) {
        sync[MESSAGE - 1] = (uint8_t)(100 + i);
        rtm_two_step(&table, sync, MESSAGE, output, sizeof output, RTM_PTP, stamps[0].entry, stamps[0].entry);
    }
    lay_message(sync, 0x80, 0);
    rtm_two_step(&table, sync, MESSAGE, output, sizeof output, RTM_PTP, stamps[0].entry, stamps[0].entry);
    place = slot;
    kept = table.slot[slot];
}

static void first_slot(void) {
    lay_record(0);
}

static void last_slot(void) {
    lay_record(15);
}

/* Loops for the library before and now. They answer how many calls answered otherwise. */

#define STAMPS RTM_PTP, stamps[calls % PAIRS].entry, stamps[calls % PAIRS].exit
#define LOOP(name, wrong_in) \
    static uint64_t before_##name(uint64_t calls) { \
        uint64_t wrong = 0; \
        for (; calls > 0; calls--) wrong += wrong_in(before_rtm); \
        return wrong; \
    } \
    static uint64_t now_##name(uint64_t calls) { \
        uint64_t wrong = 0; \
        for (; calls > 0; calls--) wrong += wrong_in(rtm); \
        return wrong; \
    }

#define RESIDENCE(library) (library##_residence(STAMPS, &units) != 0)
#define REFUSED(library) (library##_residence(STAMPS, &units) != RTM_TOO_LONG_RESIDENCE)
#define ONE_STEP(library) (library##_one_step(clear, MESSAGE, STAMPS) != RTM_UPDATED)
#define PAIR(library) \
    (library##_two_step(&table, sync, MESSAGE, output, sizeof output, STAMPS) != RTM_WAITING) \
    + (library##_two_step(&table, follow_up, MESSAGE, output, sizeof output, STAMPS) != RTM_ADDED)

#define FOLLOW_UP(library) \
    (table.slot[place] = kept, table.number++, \
     library##_two_step(&table, follow_up, MESSAGE, output, sizeof output, STAMPS) != RTM_ADDED)

LOOP(residence, RESIDENCE)
LOOP(refused, REFUSED)
LOOP(one_step, ONE_STEP)
LOOP(pair, PAIR)
LOOP(follow_up, FOLLOW_UP)

static const struct timed rows[] = {
    {"residence, no borrow", no_borrow, before_residence, now_residence},
    {"residence, always a borrow", always_borrow, before_residence, now_residence},
    {"residence, a borrow in half of them", either, before_residence, now_residence},
    {"residence, refused with 10", gone_back, before_refused, now_refused},
    {"one-step", messages, before_one_step, now_one_step},
    {"Sync and Follow_Up", messages, before_pair, now_pair},
    {"Follow_Up, record in the first slot", first_slot, before_follow_up, now_follow_up},
    {"Follow_Up, record in the last slot", last_slot, before_follow_up, now_follow_up},
};

int main(int argc, char **argv) {
    int rounds = argc > 1 ? atoi(argv[1]) : ROUNDS;
    take_turns(rows, sizeof rows / sizeof *rows, rounds, "before, ns", "now, ns");
    return 0;
}
