/*
 * A Sync with S set and its Follow_Up cross a one-step node and a two-step node. Between the two there is a
 * tick, and the two-step node's card is switched over. The egress joins them and corrects the PTP packet that
 * they carry. Exit status 0 if all is as expected.
 */
#include "bunpennant.h"
#include <inttypes.h>
#include <stdio.h>
#include <string.h>

static int wrong;

static void expect(int64_t found, int64_t expected) {
    if (found == expected) return;
    printf("    found %" PRId64 ", expected %" PRId64 "\n", found, expected);
    wrong = 1;
}

static const char *name_of(uint8_t answer) {
    switch (answer) {
    case 0: return "written";
    case RTM_UPDATED: return "updated";
    case RTM_PASSED: return "passed";
    case RTM_CREATED: return "created";
    case RTM_WAITING: return "waiting";
    case RTM_ADDED: return "added";
    default: return "refused";
    }
}

/* Prints what a message says after a call, and what the call answered. */
static void show(const char *where, uint8_t answer, uint8_t expected, const uint8_t *message, size_t size,
                 int64_t nanoseconds) {
    struct rtm_fields fields;
    expect(rtm_read(message, size, &fields), 0);
    printf("%-13s %-10s %-8s pad %" PRId64 " ns\n", where, fields.ptp_type == 0 ? "Sync" : "Follow_Up",
           name_of(answer), fields.pad / 65536);
    expect(answer, expected);
    expect(fields.pad, nanoseconds * 65536);
}

/* Prints the records of a table. */
static void show_table(const char *where, const struct rtm_table *table, int expected) {
    int i;
    printf("%-13s %d waiting", where, rtm_waiting(table));
    for (i = 0; i < 16; i++) {
        const struct rtm_slot *slot = &table->slot[i];
        if (slot->wait == 0) continue;
        printf("; port %016" PRIx64 "-%u, sequence %u: %" PRIu64 " ns, %u ticks left", slot->clock,
               (unsigned)slot->port, (unsigned)slot->sequence, slot->residence / 65536, (unsigned)slot->wait);
    }
    printf("\n");
    expect(rtm_waiting(table), expected);
}

/* The packets: IPv4 and UDP headers, which are zeros here, and a PTP message. */
enum { PTP = 28, PACKET = PTP + 44, CORRECTION = PTP + 8 };

/* A number, big-endian. */
static void put_number(uint8_t *at, uint64_t number, int size) {
    for (; size > 0; size--, number >>= 8) at[size - 1] = (uint8_t)number;
}

static int64_t correction_in(const uint8_t *packet) {
    uint64_t number = 0;
    int i;
    for (i = 0; i < 8; i++) number = number << 8 | packet[CORRECTION + i];
    return (int64_t)number;
}

/* A PTP message of version 2 of the same exchange as an RTM message, with 2 ns in its correctionField. */
static void lay_packet(uint8_t *packet, const struct rtm_fields *fields) {
    memset(packet, 0, PACKET);
    packet[PTP] = fields->ptp_type;
    packet[PTP + 1] = 2;
    put_number(packet + PTP + 2, PACKET - PTP, 2);
    put_number(packet + CORRECTION, 2 * 65536, 8);
    put_number(packet + PTP + 20, fields->clock, 8);
    put_number(packet + PTP + 28, fields->port, 2);
    put_number(packet + PTP + 30, fields->sequence, 2);
}

static size_t write_message(uint8_t *message, size_t room, uint8_t ptp_type) {
    struct rtm_fields fields;
    size_t size = 0;
    uint8_t packet[PACKET];
    memset(&fields, 0, sizeof fields);
    fields.type = 3;
    fields.clock = UINT64_C(0x0001020304050607);
    fields.port = 1;
    fields.sequence = 258;
    fields.length = 20;
    fields.two_step = true;
    fields.ptp_type = ptp_type;
    lay_packet(packet, &fields);
    expect(rtm_write(&fields, packet, sizeof packet, message, room, &size), 0);
    return size;
}

/* Corrects a copy of the packet that a joined pair carries. Its UDP checksum would be made anew here. */
static void correct_packet(const uint8_t *sync, size_t sync_size, const uint8_t *follow_up,
                           size_t follow_up_size, const struct rtm_joined *joined) {
    const uint8_t *shown = (joined->message == RTM_OF_SYNC ? sync : follow_up) + joined->packet.offset;
    const size_t behind = CORRECTION + 8;
    uint8_t copy[PACKET];
    bool same;
    expect((int64_t)joined->packet.length, PACKET);
    if (joined->packet.length != PACKET) return;
    memcpy(copy, shown, PACKET);
    expect(rtm_correct(sync, sync_size, follow_up, follow_up_size, PTP, copy, PACKET), 0);
    same = memcmp(copy, shown, CORRECTION) == 0 && memcmp(copy + behind, shown + behind, PACKET - behind) == 0;
    printf("%-13s correctionField %" PRId64 " ns, was %" PRId64 " ns; %s\n", "  the packet",
           correction_in(copy) / 65536, correction_in(shown) / 65536,
           same ? "all else is as it was" : "more changed");
    expect(correction_in(copy), 1702 * 65536);
    expect(same, true);
}

int main(void) {
    struct rtm_stamp entry_a = {10, 999999000}, exit_a = {11, 500};     /* 1,500 ns in the one-step node */
    struct rtm_stamp entry_b = {20, 0}, exit_b = {20, 200};             /* 200 ns in the two-step node */
    uint8_t sync[128], follow_up[128], output[RTM_CREATED_SIZE];
    uint8_t image[RTM_IMAGE_SIZE], old_image[RTM_OLD_IMAGE_SIZE];
    struct rtm_table active, standby;
    struct rtm_joined joined;
    size_t sync_size, follow_up_size, image_size = 0, old_size = 0;
    uint8_t answer;

    sync_size = write_message(sync, sizeof sync, 0);
    show("ingress", 0, 0, sync, sync_size, 0);
    answer = rtm_one_step(sync, sync_size, RTM_PTP, entry_a, exit_a);
    show("one-step", answer, RTM_UPDATED, sync, sync_size, 1500);
    rtm_new(&active);
    answer = rtm_two_step(&active, sync, sync_size, output, sizeof output, RTM_PTP, entry_b, exit_b);
    show("two-step", answer, RTM_WAITING, sync, sync_size, 1500);
    show_table("  its table", &active, 1);

    answer = rtm_tick(&active);
    printf("%-13s %u records let go\n", "tick", (unsigned)answer);
    expect(answer, 0);
    show_table("  active", &active, 1);
    rtm_new(&standby);
    expect(rtm_write_image(&active, image, sizeof image, &image_size), 0);
    expect(rtm_load_image(&standby, image, image_size), 0);
    /* A card with an earlier release would be handed the old form. */
    expect(rtm_image_to_old(image, image_size, old_image, sizeof old_image, &old_size), 0);
    printf("%-13s image of %zu octets, %zu in the old form\n", "switchover", image_size, old_size);
    show_table("  standby", &standby, 1);

    follow_up_size = write_message(follow_up, sizeof follow_up, 8);
    show("ingress", 0, 0, follow_up, follow_up_size, 0);
    answer = rtm_one_step(follow_up, follow_up_size, RTM_PTP, entry_a, exit_a);
    show("one-step", answer, RTM_PASSED, follow_up, follow_up_size, 0);
    answer = rtm_two_step(&standby, follow_up, follow_up_size, output, sizeof output, RTM_PTP, entry_b,
                          exit_b);
    show("two-step", answer, RTM_ADDED, follow_up, follow_up_size, 200);
    show_table("  its table", &standby, 0);

    memset(&joined, 0, sizeof joined);
    expect(rtm_join(sync, sync_size, follow_up, follow_up_size, &joined), 0);
    printf("%-13s total %" PRId64 " ns; the packet is in the %s, %zu octets from octet %zu on\n", "egress",
           joined.total / 65536, joined.message == RTM_OF_SYNC ? "Sync" : "Follow_Up", joined.packet.length,
           joined.packet.offset);
    expect(joined.total, 1700 * 65536);
    correct_packet(sync, sync_size, follow_up, follow_up_size, &joined);
    return wrong;
}
