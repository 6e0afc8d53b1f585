/*
 * Random inputs for the comparison: good ones, damaged ones, and those at the ends of each range. What one
 * call does not use is random too.
 */
#ifndef INPUTS_H
#define INPUTS_H
#include "bunpennant.h"

enum { MOST = 4128 };            /* octets of the longest string that is lent: 258 hops of a plan */

/* The places that a call tells something in. */
struct told {
    struct rtm_fields fields;
    struct rtm_part part;
    struct rtm_joined joined;
    struct rtm_report report;
    struct rtm_pads pads;
    uint64_t units;
    size_t size;
    uint8_t ttl;
};

struct input {
    uint8_t first[MOST];         /* a message, Sync, carried packet, image, list or capture; hops, as a list
                                    or as structs */
    uint8_t second[MOST];        /* a Follow_Up; the RTM_SET of hops */
    uint8_t output[MOST];        /* what the output holds before the call; the copy of a packet */
    size_t first_size, second_size, room, place;
    uint32_t label;
    bool null;                   /* hand over NULL for a string of no octets */
    bool ntp;
    struct rtm_stamp entry, exit;
    int64_t sync_pad, follow_up_pad;
    bool two_step;
    struct rtm_table table;
    struct told told;            /* what the places hold before the call; for rtm_write its fields */
};

void inputs_seed(uint64_t seed);
uint64_t inputs_below(uint64_t limit);

void input_for_message(struct input *input);    /* a message, stamps, a table and an output */
void input_for_write(struct input *input);
void input_for_pair(struct input *input);
void input_for_correction(struct input *input); /* a pair, a copy of its packet as the output, and a place */
void input_for_image(struct input *input);      /* an image of either form, and an output for the other */
void input_for_list(struct input *input);
void input_for_path(struct input *input);       /* hops, a set, a position, a label and an output */
void input_for_capture(struct input *input);
void input_for_plan(struct input *input);       /* hops as structs, pads and S */

#endif
