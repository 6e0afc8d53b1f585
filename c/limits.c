/*
 * The ends of the interface: how the structs lie in memory, strings of no octets, what a refusal leaves, and
 * what a call may not touch. Exit status 0 if all is as bunpennant.h says.
 */
#include "bunpennant.h"
#include <stdio.h>
#include <string.h>

static int checked, wrong;

#define CHECK(condition) check(condition, #condition, __LINE__)

static void check(bool holds, const char *condition, int line) {
    checked++;
    if (holds) return;
    printf("limits.c:%d: not so: %s\n", line, condition);
    wrong = 1;
}

enum { CANARY = 0xA7 };

/* Whether memory still holds nothing but the octets that were put there before the call. */
static bool as_it_came(const void *memory, size_t size) {
    const uint8_t *at = (const uint8_t *)memory;
    size_t i;
    for (i = 0; i < size; i++) if (at[i] != CANARY) return false;
    return true;
}

#define LAY(place) memset(&(place), CANARY, sizeof(place))
#define STAYED(place) as_it_came(&(place), sizeof(place))
#define SIZE_OF(type) sizeof(struct type)

/* A Sync of 36 octets, S set, of type 3. */
static const uint8_t octets[36] = {
    0x10, 0, 0, 15, 0, 0, 0, 0, 0, 0, 0, 0, 0, 3, 0, 20,
    0, 1, 0, 20, 0x80, 0, 0, 0, 1, 2, 3, 4, 5, 6, 7, 8, 0, 9, 1, 2};
/* Two hops, and a set of the second with other octets in what is reserved. */
static const uint8_t hops[16] = {1, 8, 0, 0, 192, 0, 2, 1, 1, 8, 0, 0, 192, 0, 2, 2};
static const uint8_t set[8] = {1, 8, 0xFF, 0xFF, 192, 0, 2, 2};
enum { LABEL = 16, LAST_LABEL = 1048575 };
/* The record of that Sync, 1,500 ns, as an image of each form. */
static const uint8_t old_image[24] = {
    1, 0, 3, 1, 2, 3, 4, 5, 6, 7, 8, 0, 9, 1, 2, 0, 0, 0, 0, 5, 0xDC, 0, 0, 3};
static const uint8_t new_image[26] = {
    0xFF, 1, 0, 4, 0, 1, 2, 3, 4, 5, 6, 7, 8, 0, 9, 1, 2, 0, 0, 0, 0, 5, 0xDC, 0, 0, 3};
static const struct rtm_stamp entry = {10, 999999000}, leave = {11, 500}, bad = {11, 1000000000};

static uint8_t *message_of(uint8_t *message, uint8_t flags, uint8_t ptp_type) {
    memcpy(message, octets, sizeof octets);
    message[20] = flags;
    message[23] = ptp_type;
    return message;
}

static void layout(void) {
    CHECK(SIZE_OF(rtm_stamp) == 8 && offsetof(struct rtm_stamp, part) == 4);
    CHECK(SIZE_OF(rtm_fields) == 32 && offsetof(struct rtm_fields, pad) == 0);
    CHECK(offsetof(struct rtm_fields, clock) == 8 && offsetof(struct rtm_fields, type) == 16);
    CHECK(offsetof(struct rtm_fields, length) == 18 && offsetof(struct rtm_fields, port) == 20);
    CHECK(offsetof(struct rtm_fields, sequence) == 22 && offsetof(struct rtm_fields, two_step) == 24);
    CHECK(offsetof(struct rtm_fields, ptp_type) == 25 && offsetof(struct rtm_fields, reserved) == 26);
    CHECK(SIZE_OF(rtm_part) == 16 && offsetof(struct rtm_part, length) == 8);
    CHECK(SIZE_OF(rtm_joined) == 32 && offsetof(struct rtm_joined, total) == 0);
    CHECK(offsetof(struct rtm_joined, message) == 8 && offsetof(struct rtm_joined, packet) == 16);
    CHECK(SIZE_OF(rtm_slot) == 24 && offsetof(struct rtm_slot, clock) == 0);
    CHECK(offsetof(struct rtm_slot, wait) == 8 && offsetof(struct rtm_slot, reserved0) == 9);
    CHECK(offsetof(struct rtm_slot, sequence) == 10 && offsetof(struct rtm_slot, port) == 12);
    CHECK(offsetof(struct rtm_slot, kind) == 14 && offsetof(struct rtm_slot, reserved1) == 15);
    CHECK(offsetof(struct rtm_slot, residence) == 16);
    CHECK(SIZE_OF(rtm_table) == 512 && offsetof(struct rtm_table, number) == 0);
    CHECK(offsetof(struct rtm_table, reserved) == 1 && offsetof(struct rtm_table, slot) == 128);
    CHECK(SIZE_OF(rtm_report) == 208 && offsetof(struct rtm_report, updated) == 0);
    CHECK(offsetof(struct rtm_report, passed) == 8 && offsetof(struct rtm_report, created) == 16);
    CHECK(offsetof(struct rtm_report, waiting) == 24 && offsetof(struct rtm_report, added) == 32);
    CHECK(offsetof(struct rtm_report, refused) == 40 && offsetof(struct rtm_report, ranged) == 176);
    CHECK(offsetof(struct rtm_report, least) == 184 && offsetof(struct rtm_report, greatest) == 192);
    CHECK(offsetof(struct rtm_report, sum) == 200);
    CHECK(SIZE_OF(rtm_hop) == 16 && offsetof(struct rtm_hop, residence) == 8);
    CHECK(SIZE_OF(rtm_pads) == 32 && offsetof(struct rtm_pads, follow_up) == 8);
    CHECK(offsetof(struct rtm_pads, two_step) == 16 && offsetof(struct rtm_pads, exists) == 24);
}

/* What each member is, seen from the octets of a message and of a table. */
static void members(void) {
    uint8_t message[36], output[36];
    struct rtm_fields fields;
    struct rtm_table table;
    LAY(fields);
    CHECK(rtm_read(message_of(message, 0x80, 8), 36, &fields) == 0);
    CHECK(fields.pad == 0 && fields.clock == UINT64_C(0x0102030405060708) && fields.type == 3);
    CHECK(fields.length == 20 && fields.port == 9 && fields.sequence == 0x0102);
    CHECK(fields.two_step && fields.ptp_type == 8 && STAYED(fields.reserved));
    memset(&table, 0, sizeof table);
    message_of(message, 0, 1);
    CHECK(rtm_two_step(&table, message, 36, output, 36, RTM_PTP, entry, leave) == RTM_WAITING);
    CHECK(table.number == 1 && table.slot[0].wait == 3 && table.slot[0].kind == 1);
    CHECK(table.slot[0].clock == UINT64_C(0x0102030405060708) && table.slot[0].port == 9);
    CHECK(table.slot[0].sequence == 0x0102 && table.slot[0].residence == 1500 * 65536);
    CHECK(table.slot[0].reserved0 == 0 && table.slot[0].reserved1 == 0);
}

/* NULL for every string, with a length of 0. */
static void no_octets(void) {
    uint8_t message[36], output[64], ttl;
    struct rtm_fields fields;
    struct rtm_joined joined;
    struct rtm_table table;
    struct rtm_part part;
    size_t size = 99;
    rtm_new(&table);
    memset(&fields, 0, sizeof fields);
    CHECK(rtm_read(NULL, 0, &fields) == RTM_TOO_SHORT);
    CHECK(rtm_carried(NULL, 0, &part) == RTM_TOO_SHORT);
    fields.type = 5;
    CHECK(rtm_write(&fields, NULL, 0, NULL, 0, &size) == RTM_OUTPUT_TOO_SMALL && size == 99);
    CHECK(rtm_write(&fields, NULL, 0, output, sizeof output, &size) == 0 && size == 16);
    CHECK(rtm_one_step(NULL, 0, RTM_PTP, entry, leave) == RTM_TOO_SHORT);
    CHECK(rtm_two_step(&table, NULL, 0, NULL, 0, RTM_PTP, entry, leave) == RTM_TOO_SHORT);
    message_of(message, 0, 0);
    CHECK(rtm_two_step(&table, message, 36, NULL, 0, RTM_PTP, entry, leave) == RTM_OUTPUT_TOO_SMALL);
    message_of(message, 0x80, 0);
    CHECK(rtm_two_step(&table, message, 36, NULL, 0, RTM_PTP, entry, leave) == RTM_WAITING);
    CHECK(rtm_write_image(&table, NULL, 0, &size) == RTM_OUTPUT_TOO_SMALL);
    CHECK(rtm_load_image(&table, NULL, 0) == RTM_IMAGE && rtm_waiting(&table) == 1);
    CHECK(rtm_image_to_new(NULL, 0, NULL, 0, &size) == RTM_IMAGE);
    CHECK(rtm_image_to_old(NULL, 0, NULL, 0, &size) == RTM_IMAGE);
    CHECK(rtm_image_to_new(old_image, 24, NULL, 0, &size) == RTM_OUTPUT_TOO_SMALL);
    CHECK(rtm_image_to_old(new_image, 26, NULL, 0, &size) == RTM_OUTPUT_TOO_SMALL && size == 16);
    CHECK(rtm_join(NULL, 0, NULL, 0, &joined) == RTM_TOO_SHORT);
    CHECK(rtm_join(message, 36, NULL, 0, &joined) == RTM_TOO_SHORT);
    CHECK(rtm_correct(NULL, 0, NULL, 0, 0, NULL, 0) == RTM_TOO_SHORT);
    message_of(output, 0x80, 8);
    CHECK(rtm_correct(message, 36, output, 36, 0, NULL, 0) == RTM_NO_PTP_HEADER);
    CHECK(rtm_address_count(NULL, 0, &size) == 0 && size == 0);
    CHECK(rtm_address_entry(NULL, 0, 0, &part) == RTM_NO_ENTRY);
    CHECK(rtm_next_ttl(NULL, 0, NULL, 0, 0, &ttl) == RTM_NO_ENTRY);
    CHECK(rtm_next_ttl(hops, 8, NULL, 0, 0, &ttl) == RTM_NO_TIMING_NODE);
    CHECK(rtm_write_labels(NULL, 0, NULL, 0, 0, LABEL, NULL, 0) == RTM_NO_ENTRY);
    CHECK(rtm_write_labels(hops, 8, NULL, 0, 0, LABEL, NULL, 0) == RTM_NO_TIMING_NODE);
    CHECK(rtm_write_labels(hops, 16, set, 8, 0, LABEL, NULL, 0) == RTM_OUTPUT_TOO_SMALL);
}

/* A refusal leaves the places for an answer, the output, the message and the table as they came. */
static void refusals(void) {
    uint8_t message[36], output[40];
    struct rtm_fields fields, sound;
    struct rtm_joined joined;
    struct rtm_table table;
    struct rtm_part part;
    uint64_t units;
    size_t size;
    LAY(fields), LAY(joined), LAY(table), LAY(part), LAY(units), LAY(size), LAY(output), LAY(message);
    CHECK(rtm_read(message, 36, &fields) == RTM_NOT_RTM && STAYED(fields));
    CHECK(rtm_carried(message, 36, &part) == RTM_NOT_RTM && STAYED(part));
    CHECK(rtm_write(&fields, message, 36, output, 40, &size) == RTM_TYPE && STAYED(output) && STAYED(size));
    CHECK(rtm_read(octets, 36, &sound) == 0);
    CHECK(rtm_write(&sound, message, 36, output, 40, &size) == RTM_OUTPUT_TOO_SMALL);
    CHECK(STAYED(output) && STAYED(size));
    CHECK(rtm_residence(RTM_PTP, entry, bad, &units) == RTM_INVALID_STAMP && STAYED(units));
    CHECK(rtm_residence(RTM_PTP, leave, entry, &units) == RTM_TOO_LONG_RESIDENCE && STAYED(units));
    CHECK(rtm_residence(RTM_NTP, leave, entry, &units) == RTM_TOO_LONG_RESIDENCE && STAYED(units));
    CHECK(rtm_one_step(message, 36, RTM_PTP, entry, leave) == RTM_NOT_RTM && STAYED(message));
    CHECK(rtm_two_step(&table, message, 36, output, 40, RTM_PTP, entry, leave) == RTM_NOT_RTM);
    CHECK(STAYED(table) && STAYED(message) && STAYED(output));
    CHECK(rtm_write_image(&table, output, 40, &size) == RTM_IMAGE && STAYED(output) && STAYED(size));
    CHECK(rtm_load_image(&table, message, 36) == RTM_IMAGE && STAYED(table));
    CHECK(rtm_image_to_new(message, 36, output, 40, &size) == RTM_IMAGE && STAYED(output) && STAYED(size));
    CHECK(rtm_image_to_old(message, 36, output, 40, &size) == RTM_IMAGE && STAYED(output) && STAYED(size));
    CHECK(rtm_join(octets, 36, message, 36, &joined) == RTM_NOT_RTM && STAYED(joined));
    CHECK(rtm_join(octets, 36, octets, 36, &joined) == RTM_NOT_A_PAIR && STAYED(joined));
    CHECK(rtm_correct(octets, 36, message, 36, 0, output, 40) == RTM_NOT_RTM && STAYED(output));
    CHECK(rtm_correct(octets, 36, octets, 36, 0, output, 40) == RTM_NOT_A_PAIR && STAYED(output));
    CHECK(rtm_address_count(message, 36, &size) == RTM_BAD_ENTRY && STAYED(size));
    CHECK(rtm_address_entry(message, 36, 0, &part) == RTM_BAD_ENTRY && STAYED(part));
}

/* Refusals of a two-step node for a message that can be read. */
static void refused_messages(void) {
    uint8_t message[36], before[36], output[36];
    struct rtm_table table;
    LAY(table), LAY(output);
    memcpy(before, message_of(message, 0, 0), sizeof before);
    CHECK(rtm_two_step(&table, message, 36, output, 35, RTM_PTP, entry, leave) == RTM_OUTPUT_TOO_SMALL);
    CHECK(rtm_two_step(&table, message, 36, output, 36, RTM_PTP, entry, bad) == RTM_INVALID_STAMP);
    CHECK(memcmp(message, before, sizeof before) == 0 && STAYED(table) && STAYED(output));
    memcpy(before, message_of(message, 0x80, 0), sizeof before);
    CHECK(rtm_two_step(&table, message, 36, output, 36, RTM_PTP, entry, leave) == RTM_NO_EMPTY_SLOT);
    CHECK(memcmp(message, before, sizeof before) == 0 && STAYED(table) && STAYED(output));
    memcpy(before, message_of(message, 0x80, 8), sizeof before);
    CHECK(rtm_two_step(&table, message, 36, output, 36, RTM_PTP, entry, leave) == RTM_NO_RECORD);
    CHECK(memcmp(message, before, sizeof before) == 0 && STAYED(table) && STAYED(output));
}

/* Refusals for an image that is to be converted, each where those after it apply too. */
static void refused_images(void) {
    uint8_t delay[26], output[40];
    size_t size;
    LAY(output), LAY(size);
    memcpy(delay, new_image, sizeof delay);
    delay[4] = 1;
    CHECK(rtm_image_to_new(new_image, 26, output, 25, &size) == RTM_IMAGE);
    CHECK(rtm_image_to_new(old_image, 23, output, 25, &size) == RTM_IMAGE);
    CHECK(rtm_image_to_new(old_image, 24, output, 25, &size) == RTM_OUTPUT_TOO_SMALL);
    CHECK(rtm_image_to_old(old_image, 24, output, 23, &size) == RTM_IMAGE);
    CHECK(rtm_image_to_old(delay, 25, output, 23, &size) == RTM_IMAGE);
    CHECK(rtm_image_to_old(delay, 26, output, 0, &size) == RTM_DELAY_RECORD);
    CHECK(rtm_image_to_old(delay, 26, output, 40, &size) == RTM_DELAY_RECORD);
    CHECK(rtm_image_to_old(new_image, 26, output, 23, &size) == RTM_OUTPUT_TOO_SMALL);
    delay[4] = 2;
    CHECK(rtm_image_to_old(delay, 26, output, 0, &size) == RTM_IMAGE);
    delay[4] = 1, delay[25] = 4;
    CHECK(rtm_image_to_old(delay, 26, output, 0, &size) == RTM_IMAGE);
    delay[25] = 3, delay[0] = 0xFE;
    CHECK(rtm_image_to_old(delay, 26, output, 0, &size) == RTM_IMAGE);
    CHECK(STAYED(output) && STAYED(size));
}

/* Refusals for a path, each where those after it apply too. */
static void refused_paths(void) {
    static const uint8_t zeros[2][1025] = {{0}};
    uint8_t ttl, output[8];
    LAY(ttl), LAY(output);
    CHECK(rtm_next_ttl(zeros[0], 1025, zeros[1], 1024, 2, &ttl) == RTM_LIST_TOO_LONG);
    CHECK(rtm_next_ttl(zeros[0], 1024, zeros[1], 1025, 2, &ttl) == RTM_BAD_ENTRY);
    CHECK(rtm_next_ttl(hops, 16, zeros[1], 1025, 2, &ttl) == RTM_LIST_TOO_LONG);
    CHECK(rtm_next_ttl(hops, 16, zeros[1], 1024, 2, &ttl) == RTM_BAD_ENTRY);
    CHECK(rtm_next_ttl(hops, 16, set, 8, 2, &ttl) == RTM_NO_ENTRY);
    CHECK(rtm_next_ttl(hops, 16, set, 8, SIZE_MAX, &ttl) == RTM_NO_ENTRY);
    CHECK(rtm_next_ttl(hops, 16, set, 8, 1, &ttl) == RTM_NO_TIMING_NODE && STAYED(ttl));
    CHECK(rtm_write_labels(zeros[0], 1025, set, 7, 2, 0, output, 7) == RTM_LIST_TOO_LONG);
    CHECK(rtm_write_labels(hops, 15, zeros[1], 1025, 2, 0, output, 7) == RTM_BAD_ENTRY);
    CHECK(rtm_write_labels(hops, 16, zeros[1], 1025, 2, 0, output, 7) == RTM_LIST_TOO_LONG);
    CHECK(rtm_write_labels(hops, 16, set, 7, 2, 0, output, 7) == RTM_BAD_ENTRY);
    CHECK(rtm_write_labels(hops, 16, set, 8, 2, 0, output, 7) == RTM_NO_ENTRY);
    CHECK(rtm_write_labels(hops, 16, set, 8, 1, 0, output, 7) == RTM_NO_TIMING_NODE);
    CHECK(rtm_write_labels(hops, 16, set, 8, 0, LABEL - 1, output, 7) == RTM_LABEL);
    CHECK(rtm_write_labels(hops, 16, set, 8, 0, LAST_LABEL + 1, output, 7) == RTM_LABEL);
    CHECK(rtm_write_labels(hops, 16, set, 8, 0, UINT32_MAX, output, 8) == RTM_LABEL);
    CHECK(rtm_write_labels(hops, 16, set, 8, 0, LABEL, output, 7) == RTM_OUTPUT_TOO_SMALL);
    CHECK(STAYED(output));
}

/* Octets beyond what is written, and what is reserved. */
static void beyond(void) {
    uint8_t message[36], output[400];
    struct rtm_fields fields;
    struct rtm_table table;
    size_t size = 0;
    LAY(output), LAY(table), LAY(fields);
    memset(table.slot, 0, sizeof table.slot);
    message_of(message, 0, 0);
    CHECK(rtm_two_step(&table, message, 36, output, sizeof output, RTM_PTP, entry, leave) == RTM_CREATED);
    CHECK(message[20] == 0x80 && as_it_came(output + RTM_CREATED_SIZE, sizeof output - RTM_CREATED_SIZE));
    CHECK(rtm_two_step(&table, message, 36, output, sizeof output, RTM_NTP, entry, leave) == RTM_WAITING);
    CHECK(table.number == 16 && STAYED(table.reserved));
    LAY(output);
    CHECK(rtm_write_image(&table, output, sizeof output, &size) == 0 && size == 26);
    CHECK(as_it_came(output + size, sizeof output - size));
    CHECK(rtm_load_image(&table, output, size) == 0 && table.number == 1 && STAYED(table.reserved));
    CHECK(rtm_tick(&table) == 0 && rtm_tick(&table) == 0 && rtm_tick(&table) == 1);
    CHECK(table.number == 0 && STAYED(table.reserved));
    memcpy(message, "\x10\0\0\x0F\0\0\0\0\0\0\0\0\0\x05\0\0", 16);
    CHECK(rtm_read(message, 16, &fields) == 0 && fields.type == 5 && fields.pad == 0);
    CHECK(STAYED(fields.clock) && STAYED(fields.length) && STAYED(fields.port) && STAYED(fields.sequence));
    CHECK(as_it_came(&fields.two_step, 1) && STAYED(fields.ptp_type) && STAYED(fields.reserved));
    rtm_new(&table);
    CHECK(table.reserved[0] == 0 && table.reserved[126] == 0);
}

/* Label entries of the lowest and the highest label, one of them at an odd address. */
static void labels(void) {
    static const uint8_t lowest[] = {0, 1, 0, 1, 0, 0, 0xD1, 1};
    static const uint8_t highest[] = {0xFF, 0xFF, 0xF0, 1, 0, 0, 0xD1, 1};
    uint8_t ttl[3], output[16];
    LAY(ttl), LAY(output);
    CHECK(rtm_next_ttl(hops, 16, set, 8, 0, ttl + 1) == 0 && ttl[1] == 1);
    CHECK(as_it_came(ttl, 1) && as_it_came(ttl + 2, 1));
    CHECK(rtm_write_labels(hops, 16, set, 8, 0, LABEL, output, RTM_LABELS_SIZE) == 0);
    CHECK(memcmp(output, lowest, sizeof lowest) == 0 && as_it_came(output + 8, 8));
    LAY(output);
    CHECK(rtm_write_labels(hops, 16, set, 8, 0, LAST_LABEL, output + 1, 15) == 0);
    CHECK(memcmp(output + 1, highest, sizeof highest) == 0 && as_it_came(output, 1));
    CHECK(as_it_came(output + 9, 7));
}

static void put(uint8_t *at, size_t count, size_t number) {
    while (count-- > 0) {
        at[count] = (uint8_t)number;
        number >>= 8;
    }
}

/* Images at odd addresses, converted there and back. */
static void converted(void) {
    uint8_t memory[32], output[32];
    size_t size = 0;
    LAY(memory), LAY(output);
    memcpy(memory + 1, old_image, 24);
    CHECK(rtm_image_to_new(memory + 1, 24, output + 1, 31, &size) == 0 && size == 26);
    CHECK(memcmp(output + 1, new_image, 26) == 0 && as_it_came(output, 1) && as_it_came(output + 27, 5));
    LAY(memory);
    CHECK(rtm_image_to_old(output + 1, 26, memory + 1, 31, &size) == 0 && size == 24);
    CHECK(memcmp(memory + 1, old_image, 24) == 0 && as_it_came(memory, 1) && as_it_came(memory + 25, 7));
    CHECK(memcmp(output + 1, new_image, 26) == 0);
}

/* The smallest images of both forms, and what is none. */
static void ends_of_images(void) {
    static const uint8_t none[] = {0xFF, 0}, seventeen[] = {17};
    struct rtm_table table;
    uint8_t output[2];
    size_t size = 0;
    LAY(table);
    CHECK(rtm_load_image(&table, none, 1) == RTM_IMAGE && rtm_load_image(&table, seventeen, 1) == RTM_IMAGE);
    CHECK(rtm_load_image(&table, new_image + 1, 25) == RTM_IMAGE && STAYED(table));
    CHECK(rtm_load_image(&table, old_image, 24) == 0 && table.number == 1 && table.slot[0].kind == 0);
    CHECK(rtm_load_image(&table, none, 2) == 0 && table.number == 0 && table.slot[0].wait == 0);
    CHECK(rtm_write_image(&table, output, 1, &size) == RTM_OUTPUT_TOO_SMALL && size == 0);
    CHECK(rtm_write_image(&table, output, 2, &size) == 0 && size == 2 && memcmp(output, none, 2) == 0);
    CHECK(rtm_image_to_old(none, 2, output, 1, &size) == 0 && size == 1 && output[0] == 0);
    CHECK(rtm_load_image(&table, output, 1) == 0 && table.number == 0);
}

/* A table with 16 records: all of Syncs, or every second of a Delay_Req with the sequence of the Sync before. */
static void fill_table(struct rtm_table *table, bool delays) {
    uint8_t i, message[36];
    rtm_new(table);
    for (i = 0; i < 16; i++) {
        message_of(message, 0x80, delays ? i % 2 : 0);
        put(message + 34, 2, delays ? i / 2 : i);
        CHECK(rtm_two_step(table, message, 36, NULL, 0, RTM_PTP, entry, leave) == RTM_WAITING);
    }
}

static bool same_table(const struct rtm_table *a, const struct rtm_table *b) {
    return memcmp(a, b, sizeof *a) == 0;
}

/* The largest image, with Delay records. Where one becomes a Sync record its identity stands twice. */
static void full_with_delays(void) {
    enum { KIND = 2 + 2 * 16 + 22 };           /* of the second record */
    uint8_t image[400], output[400];
    struct rtm_table table, loaded;
    size_t size;
    LAY(image), LAY(output), LAY(size);
    fill_table(&table, true), rtm_new(&loaded);
    CHECK(rtm_write_image(&table, image, 385, &size) == RTM_OUTPUT_TOO_SMALL && STAYED(image) && STAYED(size));
    CHECK(rtm_write_image(&table, image, 386, &size) == 0 && size == RTM_IMAGE_SIZE);
    CHECK(image[KIND] == 1 && as_it_came(image + 386, 14));
    CHECK(rtm_load_image(&loaded, image, 386) == 0 && same_table(&loaded, &table));
    LAY(size);
    CHECK(rtm_image_to_old(image, 386, output, 400, &size) == RTM_DELAY_RECORD);
    CHECK(rtm_image_to_new(image, 386, output, 400, &size) == RTM_IMAGE);
    image[KIND] = 0, table.slot[1].kind = 0;
    CHECK(rtm_load_image(&loaded, image, 386) == RTM_IMAGE);
    CHECK(rtm_image_to_old(image, 386, output, 400, &size) == RTM_IMAGE);
    CHECK(rtm_write_image(&table, output, 400, &size) == RTM_IMAGE && STAYED(output) && STAYED(size));
}

/* The largest images of both forms, converted there and back. */
static void full_of_syncs(void) {
    uint8_t image[400], old[400], again[400];
    struct rtm_table table, loaded;
    size_t size;
    LAY(image), LAY(old), LAY(again);
    fill_table(&table, false), rtm_new(&loaded);
    CHECK(rtm_write_image(&table, image, 400, &size) == 0 && size == 386 && as_it_came(image + 386, 14));
    LAY(size);
    CHECK(rtm_image_to_old(image, 386, old, 368, &size) == RTM_OUTPUT_TOO_SMALL && STAYED(old) && STAYED(size));
    CHECK(rtm_image_to_old(image, 386, old, 369, &size) == 0 && size == RTM_OLD_IMAGE_SIZE);
    CHECK(as_it_came(old + 369, 31));
    LAY(size);
    CHECK(rtm_image_to_new(old, 369, again, 385, &size) == RTM_OUTPUT_TOO_SMALL);
    CHECK(STAYED(again) && STAYED(size));
    CHECK(rtm_image_to_new(old, 369, again, 400, &size) == 0 && size == 386 && memcmp(again, image, 400) == 0);
    CHECK(rtm_load_image(&loaded, old, 369) == 0 && same_table(&loaded, &table));
    LAY(again);
    CHECK(rtm_write_image(&loaded, again, 400, &size) == 0 && size == 386 && memcmp(again, image, 400) == 0);
}

/* A message with this pad, S set. */
static uint8_t *with_pad(uint8_t *message, uint8_t ptp_type, int64_t pad) {
    message_of(message, 0x80, ptp_type);
    put(message + 4, 8, (size_t)pad);
    return message;
}

static bool has_pad(const uint8_t *message, int64_t pad) {
    struct rtm_fields fields;
    return rtm_read(message, 36, &fields) == 0 && fields.pad == pad;
}

/* A Follow_Up with this pad, for which the longest residence that a table can hold waits. */
static uint8_t follow_up(uint8_t *message, int64_t pad) {
    uint8_t sync[36];
    struct rtm_table table;
    rtm_new(&table);
    rtm_two_step(&table, message_of(sync, 0x80, 0), 36, NULL, 0, RTM_PTP, entry, leave);
    table.slot[0].residence = UINT64_MAX;
    return rtm_two_step(&table, with_pad(message, 8, pad), 36, NULL, 0, RTM_PTP, entry, leave);
}

/* The ends of the pad's range: 11 is joining's and correcting's alone. */
static void ends_of_pads(void) {
    uint8_t message[36], other[36];
    struct rtm_joined joined;
    LAY(joined);
    CHECK(rtm_one_step(with_pad(message, 0, INT64_MIN), 36, RTM_PTP, entry, entry) == RTM_UPDATED);
    CHECK(has_pad(message, INT64_MIN));
    CHECK(rtm_one_step(with_pad(message, 0, INT64_MAX), 36, RTM_PTP, entry, leave) == RTM_UPDATED);
    CHECK(has_pad(message, INT64_MAX));
    CHECK(follow_up(message, INT64_MIN) == RTM_ADDED && has_pad(message, INT64_MAX));
    CHECK(follow_up(message, INT64_MAX) == RTM_ADDED && has_pad(message, INT64_MAX));
    with_pad(message, 0, INT64_MIN);
    CHECK(rtm_join(message, 36, with_pad(other, 8, -1), 36, &joined) == RTM_SUM_OUT_OF_RANGE && STAYED(joined));
    CHECK(rtm_join(message, 36, with_pad(other, 8, 0), 36, &joined) == 0 && joined.total == INT64_MIN);
}

/* A pair, of which one message carries a packet with a PTPv2 header, and a copy of that packet. */
enum { PLACE = 4, PTP_PACKET = PLACE + RTM_PTP_HEADER_SIZE + 3, CORRECTION = PLACE + 8 };
static struct pair {
    uint8_t sync[36 + PTP_PACKET], follow_up[36 + PTP_PACKET], copy[PTP_PACKET];
    size_t sync_size, follow_up_size;
} pair;

/* A packet with a PTPv2 header at PLACE; what is not looked at is E5, and the free halves are not 0. */
static void lay_ptp(uint8_t *packet, uint8_t ptp_type, int64_t field) {
    memset(packet, 0xE5, PTP_PACKET);
    packet[PLACE] = (uint8_t)(0xA0 + ptp_type);
    packet[PLACE + 1] = 0xB2;
    put(packet + CORRECTION, 8, (size_t)field);
    memcpy(packet + PLACE + 20, octets + 24, 12);
}

/* The message of this PTPType carries the packet; the two pads and the packet's field. */
static void lay_pair(uint8_t carrier, int64_t pad, int64_t other, int64_t field) {
    uint8_t *message = carrier == 0 ? pair.sync : pair.follow_up;
    with_pad(pair.sync, 0, pad);
    with_pad(pair.follow_up, 8, other);
    pair.sync_size = pair.follow_up_size = 36;
    *(carrier == 0 ? &pair.sync_size : &pair.follow_up_size) += PTP_PACKET;
    message[15] = 20 + PTP_PACKET;
    lay_ptp(message + 36, carrier, field);
    memcpy(pair.copy, message + 36, PTP_PACKET);
}

static uint8_t correct_at(size_t place, uint8_t *copy, size_t size) {
    return rtm_correct(pair.sync, pair.sync_size, pair.follow_up, pair.follow_up_size, place, copy, size);
}

/* Corrected, and with this field: all other octets are as they came. */
static bool corrects_to(uint8_t carrier, int64_t field) {
    uint8_t expected[PTP_PACKET];
    lay_ptp(expected, carrier, field);
    return correct_at(PLACE, pair.copy, PTP_PACKET) == 0 && memcmp(pair.copy, expected, PTP_PACKET) == 0;
}

/* Refused with this number, and as it came. */
static bool refused_at(size_t place, size_t size, uint8_t number) {
    uint8_t copy[PTP_PACKET + 1], before[PTP_PACKET + 1];
    LAY(copy);
    memcpy(copy, pair.copy, PTP_PACKET);
    memcpy(before, copy, sizeof before);
    return correct_at(place, copy, size) == number && memcmp(copy, before, sizeof before) == 0;
}

/* Correcting: both carriers, the ends of the field, and where a refusal begins. */
static void corrected(void) {
    lay_pair(8, 7, 5, 100);
    CHECK(corrects_to(8, 112));
    lay_pair(0, 7, 5, -100);
    CHECK(corrects_to(0, -88));
    lay_pair(8, INT64_MIN, 0, INT64_MAX);
    CHECK(corrects_to(8, INT64_MAX));
    lay_pair(8, INT64_MAX, -1, INT64_MIN);
    CHECK(corrects_to(8, INT64_MAX));
    lay_pair(0, 1, 0, INT64_MAX - 1);
    CHECK(corrects_to(0, INT64_MAX));
    lay_pair(0, 0, 0, INT64_MIN);
    CHECK(corrects_to(0, INT64_MIN));
    lay_pair(8, 0, -1, INT64_MIN);
    CHECK(refused_at(PLACE, PTP_PACKET, RTM_CORRECTION_OUT_OF_RANGE));
    lay_pair(8, INT64_MIN, -1, 0);
    CHECK(refused_at(PLACE, PTP_PACKET, RTM_SUM_OUT_OF_RANGE));
}

static void uncorrected(void) {
    size_t i;
    lay_pair(8, 7, 5, 100);
    CHECK(refused_at(PLACE, PTP_PACKET - 1, RTM_NOT_A_COPY));
    CHECK(refused_at(PLACE, PTP_PACKET + 1, RTM_NOT_A_COPY));
    for (i = 0; i < PTP_PACKET; i++) {
        pair.copy[i] ^= 1;
        CHECK(refused_at(PLACE, PTP_PACKET, RTM_NOT_A_COPY));
        pair.copy[i] ^= 1;
    }
    CHECK(refused_at(PLACE + 3, PTP_PACKET, RTM_PTP_HEADER_MISMATCH));
    CHECK(refused_at(PLACE + 4, PTP_PACKET, RTM_NO_PTP_HEADER));
    CHECK(refused_at(SIZE_MAX, PTP_PACKET, RTM_NO_PTP_HEADER));
    CHECK(refused_at(SIZE_MAX - RTM_PTP_HEADER_SIZE + 1, PTP_PACKET, RTM_NO_PTP_HEADER));
    /* The bits of the two low halves, the source port and the sequence count, and no other of the header. */
    for (i = 0; i < RTM_PTP_HEADER_SIZE * 8; i++) {
        size_t at = i / 8;
        bool counts = at < 2 ? i % 8 < 4 : at >= 20 && at < 32;
        lay_pair(8, 0, 0, 1);
        pair.follow_up[36 + PLACE + at] ^= (uint8_t)(1 << i % 8);
        memcpy(pair.copy, pair.follow_up + 36, PTP_PACKET);
        CHECK(counts ? refused_at(PLACE, PTP_PACKET, RTM_PTP_HEADER_MISMATCH)
                     : correct_at(PLACE, pair.copy, PTP_PACKET) == 0 &&
                           memcmp(pair.copy, pair.follow_up + 36, PTP_PACKET) == 0);
    }
}

static bool all_zeros(const struct rtm_report *report) {
    struct rtm_report zeros;
    memset(&zeros, 0, sizeof zeros);
    return memcmp(report, &zeros, sizeof zeros) == 0;
}

/* So many ticks. Answers the capture's size. */
static size_t put_ticks(uint8_t *capture, size_t ticks) {
    size_t i, first = 2 + 4 * ticks;
    put(capture, 2, ticks);
    for (i = 0; i < ticks; i++) put(capture + 2 + 4 * i, 4, first + i);
    memset(capture + first, 3, ticks);
    return first + ticks;
}

/* The smallest and the largest captures, and what is beyond them. */
static void ends_of_captures(void) {
    static uint8_t capture[65537];
    struct rtm_report report;
    LAY(report), LAY(capture);
    CHECK(rtm_replay(NULL, 0, &report) == RTM_CAPTURE && STAYED(report));
    put(capture, 2, 0);
    CHECK(rtm_replay(capture, 1, &report) == RTM_CAPTURE && STAYED(report));
    CHECK(rtm_replay(capture, 3, &report) == RTM_CAPTURE && STAYED(report));
    CHECK(rtm_replay(capture, 2, &report) == 0 && all_zeros(&report));
    LAY(report);
    CHECK(rtm_replay(capture, put_ticks(capture, 257), &report) == RTM_CAPTURE && STAYED(report));
    CHECK(rtm_replay(capture, put_ticks(capture, 256), &report) == 0 && all_zeros(&report));
    LAY(report), LAY(capture);
    put(capture, 2, 1), put(capture + 2, 4, 6), put(capture + 6, 1, 2);
    CHECK(rtm_replay(capture, 65537, &report) == RTM_CAPTURE && STAYED(report));
    CHECK(rtm_replay(capture, 65536, &report) == 0 && report.refused[RTM_TOO_LONG] == 1);
    report.refused[RTM_TOO_LONG] = 0;
    CHECK(all_zeros(&report) && as_it_came(capture + 7, sizeof capture - 7));
}

/* Bodies of a capture. The calls are on messages of 36 octets, and on an empty one. */
enum { BODIES = 6 };
static const struct body {
    uint8_t mode, flags, ptp_type, size;
    size_t leave;                /* nanoseconds of the exit stamp; with 500 the residence is 1,500 ns */
} bodies[BODIES] = {
    {2, 0x80, 0, 53, 500},       /* waits */
    {3, 0, 0, 1, 0},
    {2, 0x80, 8, 53, 900},       /* added: 1,500 ns */
    {1, 0, 0, 53, 400},          /* updated: 1,400 ns */
    {2, 0, 0, 53, 700},          /* created: 1,700 ns */
    {1, 0, 0, 17, 500}           /* refused with 1 */
};

static void put_body(uint8_t *at, const struct body *body) {
    at[0] = body->mode;
    put(at + 1, 4, entry.seconds), put(at + 5, 4, entry.part);
    put(at + 9, 4, leave.seconds), put(at + 13, 4, body->leave);
    message_of(at + 17, body->flags, body->ptp_type);
}

/* Answers the capture's size. What a body has too much of, the next one covers. */
static size_t put_bodies(uint8_t *capture) {
    size_t i, at = 2 + 4 * BODIES;
    put(capture, 2, BODIES);
    for (i = 0; i < BODIES; i++) {
        put(capture + 2 + 4 * i, 4, at);
        put_body(capture + at, &bodies[i]);
        at += bodies[i].size;
    }
    return at;
}

/* A capture at an odd address. */
static void captured(void) {
    uint64_t memory[40], before[40];
    uint8_t *capture = (uint8_t *)memory + 1;
    struct rtm_report report;
    size_t size;
    LAY(report), LAY(memory);
    size = put_bodies(capture);
    memcpy(before, memory, sizeof before);
    CHECK(size == 256 && rtm_replay(capture, size, &report) == 0);
    CHECK(memcmp(memory, before, sizeof before) == 0);
    CHECK(report.updated == 1 && report.passed == 0 && report.created == 1);
    CHECK(report.waiting == 1 && report.added == 1 && report.refused[RTM_TOO_SHORT] == 1);
    CHECK(report.ranged == 1 && report.least == 1400 * 65536 && report.greatest == 1700 * 65536);
    CHECK(report.sum == 4600 * 65536);
    LAY(report);
    CHECK(rtm_replay(capture, size - 1, &report) == RTM_CAPTURE && STAYED(report));
    put(capture + 2 + 4 * (BODIES - 1), 4, UINT32_MAX);
    memcpy(before, memory, sizeof before);
    CHECK(rtm_replay(capture, size, &report) == RTM_CAPTURE && STAYED(report));
    CHECK(memcmp(memory, before, sizeof before) == 0);
}

static struct rtm_hop hop_of(uint8_t mode, uint64_t residence) {
    struct rtm_hop hop;
    LAY(hop);
    hop.mode = mode;
    hop.residence = residence;
    return hop;
}

static bool are_pads(const struct rtm_pads *pads, int64_t sync, int64_t follow_up, uint64_t exists) {
    return pads->sync == sync && pads->follow_up == follow_up && pads->two_step == exists &&
           pads->exists == exists;
}

/* The plan of document 01's path, with S clear and with S set. What is reserved in a hop is not looked at. */
static void planned(void) {
    struct rtm_hop path[3], before[3];
    struct rtm_pads pads;
    LAY(pads);
    path[0] = hop_of(RTM_ONE_STEP, 1500 * 65536);
    path[1] = hop_of(RTM_TWO_STEP, 200 * 65536);
    path[2] = hop_of(RTM_TWO_STEP, 50 * 65536);
    memcpy(before, path, sizeof before);
    CHECK(rtm_plan(path, 3, 0, INT64_MAX, false, &pads) == 0 && are_pads(&pads, 98304000, 16384000, 1));
    CHECK(rtm_plan(path, 3, -5, 11, true, &pads) == 0 && are_pads(&pads, 98303995, 16384011, 1));
    CHECK(rtm_plan(path, 1, 7, 9, false, &pads) == 0 && are_pads(&pads, 98304007, 0, 0));
    CHECK(memcmp(path, before, sizeof before) == 0);
    path[1].residence = 0;
    CHECK(rtm_plan(path, 2, 0, 9, false, &pads) == 0 && are_pads(&pads, 98304000, 0, 1));
}

/* No hop and the most of them, the longest residence and the largest pad, and what is beyond them. */
static void ends_of_plans(void) {
    static struct rtm_hop path[RTM_MOST_HOPS + 1];
    const uint64_t limit = 262144000000000;
    struct rtm_pads pads;
    size_t i;
    LAY(pads);
    CHECK(rtm_plan(NULL, 0, 7, 9, false, &pads) == 0 && are_pads(&pads, 7, 0, 0));
    CHECK(rtm_plan(NULL, 0, INT64_MIN, INT64_MAX, true, &pads) == 0);
    CHECK(are_pads(&pads, INT64_MIN, INT64_MAX, 1));
    for (i = 0; i <= RTM_MOST_HOPS; i++) path[i] = hop_of(RTM_TWO_STEP, limit - 1);
    CHECK(rtm_plan(path, RTM_MOST_HOPS, 0, 0, false, &pads) == 0);
    CHECK(are_pads(&pads, 0, 255 * (int64_t)(limit - 1), 1));
    CHECK(rtm_plan(path, 1, 0, INT64_MAX - (int64_t)limit, true, &pads) == 0);
    CHECK(are_pads(&pads, 0, INT64_MAX - 1, 1));
    CHECK(rtm_plan(path, 1, 0, INT64_MAX - (int64_t)limit + 1, true, &pads) == 0);
    CHECK(are_pads(&pads, 0, INT64_MAX, 1));
    LAY(pads);
    path[0] = hop_of(3, limit), path[1] = hop_of(RTM_ONE_STEP, limit);
    CHECK(rtm_plan(path, RTM_MOST_HOPS + 1, 0, 0, false, &pads) == RTM_TOO_MANY_HOPS && STAYED(pads));
    CHECK(rtm_plan(path, RTM_MOST_HOPS, 0, 0, false, &pads) == RTM_MODE && STAYED(pads));
    CHECK(rtm_plan(path + 1, RTM_MOST_HOPS, 0, 0, false, &pads) == RTM_TOO_LONG_RESIDENCE && STAYED(pads));
    path[0] = hop_of(RTM_TWO_STEP, UINT64_MAX), path[1] = hop_of(0, 0);
    CHECK(rtm_plan(path, 2, 0, 0, true, &pads) == RTM_TOO_LONG_RESIDENCE && STAYED(pads));
}

int main(void) {
    layout();
    members();
    no_octets();
    refusals();
    refused_messages();
    refused_images();
    refused_paths();
    beyond();
    labels();
    converted();
    ends_of_images();
    full_with_delays();
    full_of_syncs();
    ends_of_pads();
    corrected();
    uncorrected();
    ends_of_captures();
    captured();
    planned();
    ends_of_plans();
    printf("limits: %d checked\n", checked);
    return wrong;
}
