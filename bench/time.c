/*
 * time [rounds]: times the library and plain C side by side. Both make the same calls on the same octets,
 * which are laid out anew before each run. Both stand in other files, so that the compiler cannot leave a
 * call out.
 */
#include "plain.h"
#include "sample.h"
#include "turns.h"
#include <alloca.h>
#include <stdlib.h>

enum { PACKET = 44, ENTRIES = 51, ENTRY = 20, TICKS = 250, PAGE = 4096 };
enum { IPV4 = 1, IPV6 = 2, IPV4_ENTRY = 8, HOPS = 5, IN_SET = 3, LABEL = 299776 };
enum { ONE_STEP = 1, TWO_STEP = 2, BODY = 17 + MESSAGE, BODIES = 256, FIRST_BODY = 2 + 4 * BODIES };

/* From libby_value.a: `count` pairs at a two-step node, called from Rattle code with the table by value or
   lent. They answer how many pairs went well. */
uint64_t bench_pairs(uint8_t *sync, size_t sync_size, uint8_t *follow_up, size_t follow_up_size,
                     uint8_t *output, size_t room, uint64_t count);
uint64_t bench_pairs_lent(uint8_t *sync, size_t sync_size, uint8_t *follow_up, size_t follow_up_size,
                          uint8_t *output, size_t room, uint64_t count);

/* What the calls are lent. The Follow_Up with a packet, the capture and the old image are first, which puts
   them behind the others in memory: they do not move an output over the end of a page. */
static uint8_t carrying[MESSAGE + PACKET], capture[FIRST_BODY + BODIES * BODY], old_image[RTM_OLD_IMAGE_SIZE];
static struct rtm_report report;
static struct rtm_hop path[RTM_MOST_HOPS];
static struct rtm_pads pads;
static uint8_t sync[MESSAGE], clear[MESSAGE], follow_up[MESSAGE];     /* Sync with S set, and with S clear */
static uint8_t packet[PACKET], output[RTM_LARGEST_MESSAGE], image[RTM_IMAGE_SIZE], list[ENTRIES * ENTRY];
static uint8_t hops[ENTRIES * ENTRY], set[ENTRIES * ENTRY], ttl;
static const struct rtm_stamp entry = {100, 999999000}, leave = {101, 500};
static struct rtm_fields fields;
static struct rtm_joined joined;
static uint64_t units;
static size_t size;
static struct rtm_table library_table, library_full;
static struct plain_table plain_table, plain_full;

/* Other Syncs of the same port identity, in the slots from 0 on. */
static void lay_tables(int others, uint8_t wait) {
    int i;
    rtm_new(&library_table);
    plain_new(&plain_table);
    for (i = 0; i < others; i++) {
        struct plain_record record = {0x0102030405060708, 5, 9, 0, 0, 0};
        struct rtm_slot slot = {0x0102030405060708, 0, 0, 0, 9, 0, 0, 5};
        record.sequence = slot.sequence = (uint16_t)(1000 + i);
        record.wait = slot.wait = wait;
        plain_table.slot[i] = record;
        library_table.slot[i] = slot;
    }
    library_table.number = plain_table.number = (uint8_t)others;
}

/* An entry whose address differs from others of its type in the last octet, as within a network. */
static void lay_entry(uint8_t *at, uint8_t type, uint8_t octets, int number) {
    memset(at, 0, octets);
    at[0] = type;
    at[1] = octets;
    at[4] = 0x20;
    at[octets - 1] = (uint8_t)number;
}

static void lay_messages(void) {
    int i;
    lay_message(sync, 0x80, 0);
    lay_message(clear, 0, 0);
    lay_message(follow_up, 0x80, 8);
    rtm_read(sync, MESSAGE, &fields);
    for (i = 0; i < ENTRIES; i++) lay_entry(list + i * ENTRY, IPV6, ENTRY, i);
}

static void prepare(void) {
    lay_messages();
    lay_tables(0, 0);
}

static void prepare_15(void) {
    lay_messages();
    lay_tables(15, 3);
}

static void prepare_16(void) {
    lay_tables(16, 3);
    rtm_write_image(&library_table, image, sizeof image, &size);
    rtm_image_to_old(image, sizeof image, old_image, sizeof old_image, &size);
}

/* Of the hops only the last is in the set, which goes from egress to ingress: it stands first there. */
static void prepare_last(void) {
    int i;
    for (i = 0; i < ENTRIES; i++) {
        lay_entry(hops + i * ENTRY, IPV6, ENTRY, i);
        lay_entry(set + i * ENTRY, IPV6, ENTRY, i == 0 ? ENTRIES - 1 : ENTRIES + i);
    }
}

/* Every second hop is in the set. */
static void prepare_few(void) {
    int i;
    for (i = 0; i < HOPS; i++) lay_entry(hops + i * IPV4_ENTRY, IPV4, IPV4_ENTRY, i);
    for (i = 0; i < IN_SET; i++) lay_entry(set + i * IPV4_ENTRY, IPV4, IPV4_ENTRY, HOPS - 1 - 2 * i);
}

/* The Follow_Up carries a PTP packet, and what it was written from is the copy. Both pads are 0, so that the
   copy stays one: each call does all its work, and no fresh copy is timed with it. */
static void prepare_correct(void) {
    lay_messages();
    rtm_read(follow_up, MESSAGE, &fields);
    packet[0] = 8;
    packet[1] = 2;
    memcpy(packet + 20, follow_up + 24, 12);
    rtm_write(&fields, packet, PACKET, carrying, sizeof carrying, &size);
}

static void prepare_ticks(void) {
    lay_tables(16, TICKS + 2);
    library_full = library_table;
    plain_full = plain_table;
}

static void put(uint8_t *at, int octets, uint32_t number) {
    while (octets-- > 0) {
        at[octets] = (uint8_t)number;
        number >>= 8;
    }
}

/* A call of a capture, on a message of its own sequence. */
static void lay_body(int place, uint8_t mode, uint8_t flags, uint8_t ptp_type, int sequence) {
    int at = FIRST_BODY + place * BODY;
    uint8_t *body = capture + at;
    put(capture + 2 + 4 * place, 4, (uint32_t)at);
    body[0] = mode;
    put(body + 1, 4, entry.seconds);
    put(body + 5, 4, entry.part);
    put(body + 9, 4, leave.seconds);
    put(body + 13, 4, leave.part + (uint32_t)place);
    lay_message(body + 17, flags, ptp_type);
    put(body + 17 + 34, 2, (uint32_t)sequence);
}

/* As many calls that wait, are added, updated and created. */
static void prepare_capture(void) {
    int i;
    put(capture, 2, BODIES);
    for (i = 0; i < BODIES; i += 4) {
        lay_body(i, TWO_STEP, 0x80, 0, i);
        lay_body(i + 1, TWO_STEP, 0x80, 8, i);
        lay_body(i + 2, ONE_STEP, 0, 0, i + 2);
        lay_body(i + 3, TWO_STEP, 0, 0, i + 3);
    }
}

/* One-step and two-step hops in a random order. */
static void prepare_plan(void) {
    uint32_t i, some = 1;
    for (i = 0; i < RTM_MOST_HOPS; i++) {
        some = some * 1664525 + 1013904223;
        path[i].mode = some >> 31 ? RTM_TWO_STEP : RTM_ONE_STEP;
        path[i].residence = some;
    }
}

/* Loops of one call, for the library and for plain C. They answer how many calls answered otherwise. */

#define LOOP(name, answer, function, ...) \
    static uint64_t library_##name(uint64_t calls) { \
        struct rtm_table *table = &library_table; \
        uint64_t wrong = 0; \
        for ((void)table; calls > 0; calls--) wrong += rtm_##function(__VA_ARGS__) != (answer); \
        return wrong; \
    } \
    static uint64_t own_##name(uint64_t calls) { \
        struct plain_table *table = &plain_table; \
        uint64_t wrong = 0; \
        for ((void)table; calls > 0; calls--) wrong += plain_##function(__VA_ARGS__) != (answer); \
        return wrong; \
    }

LOOP(read, 0, read, sync, MESSAGE, &fields)
LOOP(residence, 0, residence, RTM_PTP, entry, leave, &units)
LOOP(one_step_ptp, RTM_UPDATED, one_step, clear, MESSAGE, RTM_PTP, entry, leave)
LOOP(one_step_ntp, RTM_UPDATED, one_step, clear, MESSAGE, RTM_NTP, entry, leave)
LOOP(join, 0, join, sync, MESSAGE, follow_up, MESSAGE, &joined)
LOOP(correct, 0, correct, sync, MESSAGE, carrying, sizeof carrying, 0, packet, PACKET)
LOOP(write, 0, write, &fields, packet, PACKET, output, sizeof output, &size)
LOOP(write_image, 0, write_image, table, output, sizeof output, &size)
LOOP(load_image, 0, load_image, table, image, sizeof image)
LOOP(image_to_new, 0, image_to_new, old_image, sizeof old_image, output, sizeof output, &size)
LOOP(image_to_old, 0, image_to_old, image, sizeof image, output, sizeof output, &size)
LOOP(address_count, 0, address_count, list, sizeof list, &size)
LOOP(next_ttl, 0, next_ttl, hops, sizeof hops, set, sizeof set, 0, &ttl)
LOOP(write_labels, 0, write_labels, hops, HOPS * IPV4_ENTRY, set, IN_SET * IPV4_ENTRY, 0, LABEL, output,
     sizeof output)
LOOP(replay, 0, replay, capture, sizeof capture, &report)
LOOP(plan, 0, plan, path, RTM_MOST_HOPS, 0, 0, false, &pads)
LOOP(short_plan, 0, plan, path, HOPS, 0, 0, false, &pads)

/* S is cleared again before each call. */
LOOP(created, RTM_CREATED, two_step, table, (clear[20] = 0, clear), MESSAGE, output, sizeof output, RTM_PTP,
     entry, leave)

/* Loops of two calls. */

#define TWO_STEP(function, table, message) \
    function(table, message, MESSAGE, output, sizeof output, RTM_PTP, entry, leave)

static uint64_t library_pair(uint64_t calls) {
    uint64_t wrong = 0;
    for (; calls > 0; calls--) {
        wrong += TWO_STEP(rtm_two_step, &library_table, sync) != RTM_WAITING;
        wrong += TWO_STEP(rtm_two_step, &library_table, follow_up) != RTM_ADDED;
    }
    return wrong;
}

static uint64_t own_pair(uint64_t calls) {
    uint64_t wrong = 0;
    for (; calls > 0; calls--) {
        wrong += TWO_STEP(plain_two_step, &plain_table, sync) != RTM_WAITING;
        wrong += TWO_STEP(plain_two_step, &plain_table, follow_up) != RTM_ADDED;
    }
    return wrong;
}

static uint64_t own_pair_by_sequence(uint64_t calls) {
    uint64_t wrong = 0;
    for (; calls > 0; calls--) {
        wrong += TWO_STEP(plain_two_step_by_sequence, &plain_table, sync) != RTM_WAITING;
        wrong += TWO_STEP(plain_two_step_by_sequence, &plain_table, follow_up) != RTM_ADDED;
    }
    return wrong;
}

/* Ticks that empty no slot: the table is filled again before its waits run out. */

static uint64_t library_tick(uint64_t calls) {
    uint64_t i, wrong = 0;
    for (i = 0; i < calls; i++) {
        if (i % TICKS == 0) library_table = library_full;
        wrong += rtm_tick(&library_table) != 0;
    }
    return wrong;
}

static uint64_t own_tick(uint64_t calls) {
    uint64_t i, wrong = 0;
    for (i = 0; i < calls; i++) {
        if (i % TICKS == 0) plain_table = plain_full;
        wrong += plain_tick(&plain_table) != 0;
    }
    return wrong;
}

/* By value the tables lie on the stack, and a copy over the end of a page takes longer. So the stack is put so
   many octets past the start of a page, wherever it began. */
static uint64_t by_value_at(uintptr_t past, uint64_t calls) {
    uint8_t *here = alloca(16);
    uint8_t *moved = alloca(((uintptr_t)here - past) % PAGE + 16);
    *(volatile uint8_t *)moved = 0;
    return calls - bench_pairs(sync, MESSAGE, follow_up, MESSAGE, output, sizeof output, calls);
}

/* Both places were found by trying every 128th: it is slow from about 128 to 1,024. */
static uint64_t by_value(uint64_t calls) {
    return by_value_at(2048, calls);
}

static uint64_t by_value_across(uint64_t calls) {
    return by_value_at(512, calls);
}

static uint64_t lent_from_rattle(uint64_t calls) {
    return calls - bench_pairs_lent(sync, MESSAGE, follow_up, MESSAGE, output, sizeof output, calls);
}

static const struct timed rows[] = {
    {"read", prepare, own_read, library_read},
    {"residence, PTP stamps", prepare, own_residence, library_residence},
    {"one-step, PTP stamps", prepare, own_one_step_ptp, library_one_step_ptp},
    {"one-step, NTP stamps", prepare, own_one_step_ntp, library_one_step_ntp},
    {"Sync and Follow_Up, empty table", prepare, own_pair, library_pair},
    {"Sync and Follow_Up, 15 waiting", prepare_15, own_pair, library_pair},
    {"  beside C that compares sequences first", prepare_15, own_pair_by_sequence, library_pair},
    {"created", prepare, own_created, library_created},
    {"tick, 16 waiting", prepare_ticks, own_tick, library_tick},
    {"join", prepare, own_join, library_join},
    {"correct, packet of 44", prepare_correct, own_correct, library_correct},
    {"write, packet of 44", prepare, own_write, library_write},
    {"image written, 16 records", prepare_16, own_write_image, library_write_image},
    {"image loaded, 16 records", prepare_16, own_load_image, library_load_image},
    {"image to the new form, 16 records", prepare_16, own_image_to_new, library_image_to_new},
    {"image to the old form, 16 records", prepare_16, own_image_to_old, library_image_to_old},
    {"address list counted, 51 entries", prepare, own_address_count, library_address_count},
    {"next TTL, 51 hops, 51 in RTM_SET", prepare_last, own_next_ttl, library_next_ttl},
    {"label entries, 5 hops, 3 in RTM_SET", prepare_few, own_write_labels, library_write_labels},
    {"capture of 256 calls", prepare_capture, own_replay, library_replay},
    {"plan, 5 hops", prepare_plan, own_short_plan, library_short_plan},
    {"plan, 255 hops", prepare_plan, own_plan, library_plan},
    {"from Rattle: Sync and Follow_Up, lent", prepare, own_pair, lent_from_rattle},
    {"from Rattle: the same, table by value", prepare, own_pair, by_value},
    {"  where a copy crosses a page", prepare, own_pair, by_value_across},
};

int main(int argc, char **argv) {
    int rounds = argc > 1 ? atoi(argv[1]) : ROUNDS;
    take_turns(rows, sizeof rows / sizeof *rows, rounds, "plain C, ns", "library, ns");
    return 0;
}
