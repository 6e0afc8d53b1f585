/*
 * The library's rules in plain C, as a router engineer would write them: by pointer, with a table of plain
 * fields. Every function of bunpennant.h has its like here, with the same answers. bench/ compares the
 * library with it and times the two side by side.
 */
#ifndef PLAIN_H
#define PLAIN_H
#include "bunpennant.h"

enum { PLAIN_SLOTS = 16 };

struct plain_record {
    uint64_t clock, residence;
    uint16_t port, sequence;
    uint8_t kind, wait;          /* kind: 0 Sync, 1 Delay; wait: 0 in an empty slot */
};

struct plain_table {
    struct plain_record slot[PLAIN_SLOTS];
    uint8_t number;
};

uint8_t plain_read(const uint8_t *message, size_t size, struct rtm_fields *fields);
uint8_t plain_carried(const uint8_t *message, size_t size, struct rtm_part *packet);
uint8_t plain_write(const struct rtm_fields *fields, const uint8_t *carried, size_t carried_size,
                    uint8_t *output, size_t room, size_t *size);
uint8_t plain_residence(bool ntp, struct rtm_stamp entry, struct rtm_stamp exit, uint64_t *units);
uint8_t plain_one_step(uint8_t *message, size_t size, bool ntp, struct rtm_stamp entry,
                       struct rtm_stamp exit);
uint8_t plain_two_step(struct plain_table *table, uint8_t *message, size_t size, uint8_t *output, size_t room,
                       bool ntp, struct rtm_stamp entry, struct rtm_stamp exit);
/* The same, with a search that compares the sequence first: faster where all records are of one port. */
uint8_t plain_two_step_by_sequence(struct plain_table *table, uint8_t *message, size_t size, uint8_t *output,
                                   size_t room, bool ntp, struct rtm_stamp entry, struct rtm_stamp exit);
void plain_new(struct plain_table *table);
uint8_t plain_tick(struct plain_table *table);
uint8_t plain_waiting(const struct plain_table *table);
uint8_t plain_write_image(const struct plain_table *table, uint8_t *output, size_t room, size_t *size);
uint8_t plain_load_image(struct plain_table *table, const uint8_t *image, size_t size);
uint8_t plain_image_to_new(const uint8_t *image, size_t size, uint8_t *output, size_t room, size_t *written);
uint8_t plain_image_to_old(const uint8_t *image, size_t size, uint8_t *output, size_t room, size_t *written);
uint8_t plain_join(const uint8_t *sync, size_t sync_size, const uint8_t *follow_up, size_t follow_up_size,
                   struct rtm_joined *joined);
uint8_t plain_correct(const uint8_t *sync, size_t sync_size, const uint8_t *follow_up, size_t follow_up_size,
                      size_t place, uint8_t *copy, size_t copy_size);
uint8_t plain_address_count(const uint8_t *list, size_t size, size_t *count);
uint8_t plain_address_entry(const uint8_t *list, size_t size, size_t place, struct rtm_part *entry);
uint8_t plain_next_ttl(const uint8_t *hops, size_t hops_size, const uint8_t *set, size_t set_size,
                       size_t position, uint8_t *ttl);
uint8_t plain_write_labels(const uint8_t *hops, size_t hops_size, const uint8_t *set, size_t set_size,
                           size_t position, uint32_t label, uint8_t *output, size_t room);
uint8_t plain_replay(const uint8_t *capture, size_t size, struct rtm_report *report);
uint8_t plain_plan(const struct rtm_hop *hops, size_t count, int64_t sync_pad, int64_t follow_up_pad,
                   bool two_step, struct rtm_pads *pads);

#endif
