/*
 * paths [number [seed]]: random paths, each planned by rtm_plan and then crossed by node calls, the Sync in the
 * path's order and its Follow_Up in reverse. Pads, S and whether there is a Follow_Up must be as planned.
 * Exit status 0 if they are.
 */
#include "bunpennant.h"
#include <inttypes.h>
#include <stdio.h>
#include <stdlib.h>
#include <string.h>

static uint64_t state = 1;

static uint64_t below(uint64_t limit) {
    state ^= state << 13;
    state ^= state >> 7;
    state ^= state << 17;
    return (state >> 8) % limit;
}

/* A node, with the stamps of the Sync there. */
struct node {
    struct rtm_table table;
    struct rtm_stamp entry, leave;
    bool ntp;
};

static struct rtm_hop hops[RTM_MOST_HOPS];
static struct node nodes[RTM_MOST_HOPS];

static int64_t some_pad(void) {
    static const int64_t ends[] = {0, INT64_MIN, INT64_MAX, INT64_MAX - 1};
    if (below(2) == 0) return ends[below(4)];
    return INT64_MAX - (int64_t)below(UINT64_C(1) << 50);
}

/* A node and the hop that it is. A residence of 0 is as good as any; none is refused. */
static void lay_node(struct node *node, struct rtm_hop *hop) {
    node->ntp = below(2) != 0;
    node->entry.seconds = (uint32_t)below(UINT64_C(1) << 32);
    node->entry.part = (uint32_t)below(1000000000);
    node->leave = node->entry;
    if (below(8) != 0) node->leave.seconds += (uint32_t)below(3);
    if (below(8) != 0) node->leave.part = node->entry.part + (uint32_t)below(1000000000 - node->entry.part);
    rtm_new(&node->table);
    memset(hop, 0, sizeof *hop);
    hop->mode = below(2) != 0 ? RTM_TWO_STEP : RTM_ONE_STEP;
    if (rtm_residence(node->ntp, node->entry, node->leave, &hop->residence) != 0) abort();
}

static void write_message(uint8_t *message, uint8_t ptp_type, int64_t pad, bool two_step) {
    struct rtm_fields fields;
    size_t size;
    memset(&fields, 0, sizeof fields);
    fields.pad = pad;
    fields.type = 3;
    fields.length = 20;
    fields.two_step = two_step;
    fields.ptp_type = ptp_type;
    if (rtm_write(&fields, NULL, 0, message, RTM_CREATED_SIZE, &size) != 0) abort();
}

/* A message at a node. A Follow_Up that is created goes to the output. */
static uint8_t cross(size_t place, uint8_t *message, uint8_t *output) {
    struct node *node = &nodes[place];
    if (hops[place].mode == RTM_ONE_STEP) {
        return rtm_one_step(message, RTM_CREATED_SIZE, node->ntp, node->entry, node->leave);
    }
    return rtm_two_step(&node->table, message, RTM_CREATED_SIZE, output, output == NULL ? 0 : RTM_CREATED_SIZE,
                        node->ntp, node->entry, node->leave);
}

/* What node calls leave over a path of so many nodes. */
static struct rtm_pads crossed(size_t count, int64_t sync_pad, int64_t follow_up_pad, bool two_step) {
    uint8_t sync[RTM_CREATED_SIZE], follow_up[RTM_CREATED_SIZE];
    struct rtm_fields fields = {0};
    struct rtm_pads pads = {0};
    size_t place, first = 0;                 /* the Follow_Up crosses the nodes from the first on */
    write_message(sync, 0, sync_pad, two_step);
    write_message(follow_up, 8, follow_up_pad, true);
    pads.exists = two_step;
    for (place = 0; place < count; place++) {
        uint8_t answer = cross(place, sync, follow_up);
        if (answer < RTM_UPDATED) abort();
        if (answer != RTM_CREATED) continue;
        pads.exists = 1;
        first = place + 1;
    }
    for (place = count; pads.exists && place-- > first;) {
        if (cross(place, follow_up, NULL) < RTM_UPDATED) abort();
    }
    if (rtm_read(sync, sizeof sync, &fields) != 0) abort();
    pads.sync = fields.pad;
    pads.two_step = fields.two_step;
    if (pads.exists && rtm_read(follow_up, sizeof follow_up, &fields) != 0) abort();
    if (pads.exists) pads.follow_up = fields.pad;
    return pads;
}

static bool one_path(void) {
    size_t place, count = below(16) == 0 ? below(RTM_MOST_HOPS + 1) : below(8);
    int64_t sync_pad = some_pad(), follow_up_pad = some_pad();
    bool two_step = below(2) != 0;
    struct rtm_pads planned, found;
    for (place = 0; place < count; place++) lay_node(&nodes[place], &hops[place]);
    if (rtm_plan(hops, count, sync_pad, follow_up_pad, two_step, &planned) != 0) abort();
    found = crossed(count, sync_pad, follow_up_pad, two_step);
    return memcmp(&planned, &found, sizeof found) == 0;
}

int main(int argc, char **argv) {
    long i, paths = argc > 1 ? atol(argv[1]) : 20000;
    if (argc > 2) state = strtoull(argv[2], NULL, 10) | 1;
    for (i = 0; i < paths; i++) {
        if (one_path()) continue;
        printf("paths: number %ld is not as planned\n", i);
        return 1;
    }
    printf("paths: %ld crossed as planned\n", paths);
    return 0;
}
