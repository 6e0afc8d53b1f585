/*
 * Bunpennant: residence time measurement in MPLS networks (RFC 8169), for C and C++.
 *
 * A node makes one call for each RTM message, with the stamps of its entry and its exit: rtm_one_step or
 * rtm_two_step. A two-step node keeps a table of residences that wait for their message, and calls rtm_tick
 * once a second. At the egress rtm_join gives the total of a Sync and its Follow_Up. rtm_write_labels gives
 * the label entries that take a message to the next timing node of its path. All these are in the archive
 * libbunpennant.a. Three functions have an archive each, so that the others stay as fast as they are. For the
 * egress, rtm_correct adds the total to the correctionField of the packet that the pair carries
 * (libbunpennant_correct.a). For support, rtm_replay runs a capture of node calls again and reports on them
 * (libbunpennant_replay.a). For planners, rtm_plan gives the pads that a path would show before it is built
 * (libbunpennant_plan.a).
 *
 * Answers. A call answers 0, or at a node one of the words RTM_UPDATED to RTM_ADDED. Any other number is
 * that of a refusal, RTM_TOO_SHORT to RTM_CORRECTION_OUT_OF_RANGE: the first that applies, in the order that
 * is given with each function. A refusal leaves everything that the call was lent exactly as it came. rtm_tick
 * and rtm_waiting answer a count and refuse nothing.
 *
 * What the proofs assume of the caller:
 *   - The machine is x86-64 Linux with the System V calling convention.
 *   - A pointer is valid for as many octets as its length or its type says. Until the call returns nothing
 *     else changes these octets, or reads those that the call may write.
 *   - What one call is lent does not overlap.
 *   - Tables, fields, parts, joined pairs, reports, hops, pads and places for a number of 8 octets are
 *     8-aligned, as C aligns them. Messages, packets, outputs, images, lists, captures and the place for a TTL
 *     may lie at any address.
 *   - The arguments ntp and two_step hold 0 or 1, as any bool of C does.
 * NULL with a length of 0 is a message, packet, output, image, list or capture of no octets, or a path of no
 * hops. Nothing is read or written through it. No other pointer may be NULL.
 *
 * What the library promises back: every content of what it is lent is good input. It allocates nothing, has
 * no global variable, takes no lock, and keeps nothing when it returns. Calls on different memory may run
 * at the same time, from any thread. One call uses at most 512 octets of stack, one on an image or on a
 * capture 4,096, and one on an address list 9,216.
 *
 * Words. A residence is the time that a message spends in a node. The scratch pad, or pad, is the sum of
 * residences that a message carries, in units of 1/65,536 ns: nanoseconds times 65,536. A pad of 2^63-1
 * (INT64_MAX) is no time; it says that the correction is too big to be represented. A port identity is a
 * clock identity (8 octets) and a port number (2 octets). S is the two-step flag of the message's sub-TLV.
 */
#ifndef BUNPENNANT_H
#define BUNPENNANT_H
#include <stdbool.h>
#include <stddef.h>
#include <stdint.h>
#ifdef __cplusplus
extern "C" {
#endif

/* What a node did with a message. */
enum {
    RTM_UPDATED = 64,            /* the residence was added to the message's pad */
    RTM_PASSED = 65,             /* nothing changed, and the stamps were not looked at */
    RTM_CREATED = 66,            /* S was set, and a Follow_Up with the residence was written */
    RTM_WAITING = 67,            /* the residence went into the table; the message is as it came */
    RTM_ADDED = 68               /* the residence that waited was added to the pad, and its slot emptied */
};

/* Why a call was refused. */
enum {
    RTM_TOO_SHORT = 1,           /* message under 16 octets */
    RTM_TOO_LONG = 2,            /* message over 2,048 octets, or it would be when written */
    RTM_NOT_RTM = 3,             /* high half of octet 0 not 1, or octets 2 and 3 not 00 0F */
    RTM_VERSION = 4,             /* Version not 0 */
    RTM_LENGTH = 5,              /* Length not the message's size less 16 */
    RTM_TYPE = 6,                /* Type not 1 to 5 */
    RTM_VALUE_SIZE = 7,          /* type 1 with a Value, or types 2 to 4 with under 20 octets of it */
    RTM_SUB_TLV = 8,             /* sub-TLV type not 1, or the length that it states neither 20 nor 16 */
    RTM_INVALID_STAMP = 9,       /* nanoseconds of a PTP stamp over 999,999,999 */
    RTM_TOO_LONG_RESIDENCE = 10, /* residence over 3,999,999,999 ns; NTP, and in a plan: 4 seconds or more */
    RTM_SUM_OUT_OF_RANGE = 11,   /* joining, correcting: the sum of the two pads is below -2^63; never at a node */
    RTM_OUTPUT_TOO_SMALL = 12,   /* what is to be written does not fit the output */
    RTM_ALREADY_WAITING = 13,    /* a record of this kind, port identity and sequence waits */
    RTM_NO_EMPTY_SLOT = 14,      /* all 16 slots of the table hold records */
    RTM_NO_RECORD = 15,          /* no record of its kind, port identity and sequence waits for the message */
    RTM_NOT_FOR_TWO_STEP = 16,   /* two-step node: type 1 or 5, or PTPType 2 or 3 */
    RTM_PTP_TYPE = 17,           /* writing types 2 to 4: PTPType over 15 */
    RTM_NOT_A_PAIR = 18,         /* joining, correcting: not a Sync with S set and its Follow_Up */
    RTM_LIST_TOO_LONG = 19,      /* address list over 1,024 octets */
    RTM_BAD_ENTRY = 20,          /* some entry of the list cut short, of unknown type or of wrong length */
    RTM_NO_ENTRY = 21,           /* place or position not below the number of entries */
    RTM_IMAGE = 22,              /* no image that can be loaded or converted, or a table that gives none */
    RTM_SUB_TLV_LENGTH = 23,     /* writing types 2 to 4: length neither 20 nor 16 */
    RTM_NO_TIMING_NODE = 24,     /* no hop behind the position is in RTM_SET */
    RTM_LABEL = 25,              /* label below 16 or over 1,048,575 */
    RTM_CAPTURE = 26,            /* no capture */
    RTM_DELAY_RECORD = 27,       /* an image with a Delay record, which has no old form */
    RTM_TOO_MANY_HOPS = 28,      /* a plan of over 255 hops */
    RTM_MODE = 29,               /* a hop's mode neither one-step nor two-step */
    RTM_NOT_A_COPY = 30,         /* correcting: copy of another size or other octets than the packet */
    RTM_NO_PTP_HEADER = 31,      /* correcting: a header of 34 octets does not fit at the place */
    RTM_PTP_HEADER_MISMATCH = 32, /* correcting: version not 2, or type, port or sequence not the sub-TLV's */
    RTM_CORRECTION_OUT_OF_RANGE = 33 /* correcting: the new correctionField would be below -2^63 */
};

/* Sizes, in octets. */
enum {
    RTM_LARGEST_MESSAGE = 2048,  /* the largest message */
    RTM_CREATED_SIZE = 36,       /* the Follow_Up that a two-step node creates */
    RTM_IMAGE_SIZE = 386,        /* the largest image of a table: 2 and 24 for each of 16 records */
    RTM_OLD_IMAGE_SIZE = 369,    /* the largest of the old form: 1 and 23 for each of 16 records */
    RTM_LABELS_SIZE = 8,         /* the two label entries */
    RTM_PTP_HEADER_SIZE = 34     /* a PTPv2 header (IEEE 1588) */
};

/*
 * A stamp of RFC 8877, in one of two formats. PTP truncated: part is nanoseconds, at most 999,999,999. NTP
 * 64-bit: part is the fraction, in units of 2^-32 second. The seconds of both wrap from 2^32-1 to 0. The
 * two stamps of a call are of one format, which its argument ntp says: RTM_PTP (false) or RTM_NTP (true).
 */
enum { RTM_PTP = 0, RTM_NTP = 1 };
struct rtm_stamp {
    uint32_t seconds, part;
};

/* What a message says, as it is read or to be written. Types 1 and 5 have but a pad and a type. */
struct rtm_fields {
    int64_t pad;
    uint64_t clock;              /* the port identity's clock identity */
    uint16_t type;               /* 1 no payload; PTP over 2 Ethernet, 3 IPv4, 4 IPv6; 5 NTP */
    uint16_t length;             /* the length that the sub-TLV states, 20 or 16; the octets are the same */
    uint16_t port;               /* the port identity's port number */
    uint16_t sequence;
    bool two_step;               /* S */
    uint8_t ptp_type;            /* PTPType: 0 Sync, 1 Delay_Req, 8 Follow_Up, 9 Delay_Resp; up to 15 */
    uint8_t reserved[6];         /* never looked at, never changed */
};

/* A part of a message or of a list: where it starts, from the first octet, and how many octets it has. */
struct rtm_part {
    size_t offset, length;
};

/* A Sync and its Follow_Up, joined. */
enum { RTM_OF_SYNC = 0, RTM_OF_FOLLOW_UP = 1 };
struct rtm_joined {
    int64_t total;               /* the sum of the pads; 2^63-1: too big */
    uint64_t message;            /* whose packet it is: RTM_OF_SYNC or RTM_OF_FOLLOW_UP */
    struct rtm_part packet;      /* where the packet is in that message */
};

/*
 * The table of a two-step node. Memory of zeros is a new table, and any contents are good input. It may be
 * copied as memory. A slot is empty exactly when its wait is 0; only the others hold records. Of a record's
 * kind only the lowest bit is looked at; the other seven are reserved. Where two records share an identity
 * the lower slot is meant. An operation that fills or empties a slot writes all of it, zeros in what is
 * reserved; an emptied slot is all zeros. Everything else that is reserved is never looked at and never
 * changed.
 */
struct rtm_slot {
    uint64_t clock;
    uint8_t wait;                /* ticks left */
    uint8_t reserved0;
    uint16_t sequence;
    uint16_t port;
    uint8_t kind;                /* 0 Sync (for a Follow_Up), 1 Delay (for a Delay_Resp) */
    uint8_t reserved1;
    uint64_t residence;          /* in pad units */
};
struct rtm_table {
    uint8_t number;              /* of records; over 16 it is read as 16. See rtm_waiting */
    uint8_t reserved[127];
    struct rtm_slot slot[16];
};

/*
 * Reads `message`, of `size` octets. Answers 0 and writes `fields`: pad and type, and for types 2 to 4 also
 * clock, length, port, sequence, two_step and ptp_type, which for types 1 and 5 stay as they came.
 * Refusals: 1 to 8, in this order. A refusal leaves `fields` as it came.
 */
uint8_t rtm_read(const uint8_t *message, size_t size, struct rtm_fields *fields);

/*
 * Finds the packet that `message`, of `size` octets, carries. Answers 0 and writes `packet`: from octet 36
 * on for types 2 to 4, from octet 16 on for types 1 and 5, to the message's end; its length may be 0, and
 * is for type 1. Refusals: 1 to 8, in this order. A refusal leaves `packet` as it came.
 */
uint8_t rtm_carried(const uint8_t *message, size_t size, struct rtm_part *packet);

/*
 * Writes a message at the start of `output`, which has `room` octets: `fields`, and behind them the packet
 * `carried` of `carried_size` octets. For types 1 and 5 the fields of the sub-TLV are not looked at. For S
 * any octet but 0 in two_step counts as true. Answers 0 and writes to `size` how many octets the message
 * has; output beyond them stays. Refusals: 6, 17, 23, 7, 2, 12, in this order. A refusal leaves `output`
 * and `size` as they came.
 */
uint8_t rtm_write(const struct rtm_fields *fields, const uint8_t *carried, size_t carried_size,
                  uint8_t *output, size_t room, size_t *size);

/*
 * Finds the residence between two stamps, `exit` less `entry`, whose seconds may have wrapped; `ntp` says
 * their format. Answers 0 and writes to `units` the residence in pad units; between NTP stamps it is
 * rounded down. Refusals: 9 (PTP), 10, in this order. A clock that went back gives 10. A refusal leaves
 * `units` as it came.
 */
uint8_t rtm_residence(bool ntp, struct rtm_stamp entry, struct rtm_stamp exit, uint64_t *units);

/*
 * Hands `message`, of `size` octets, to a one-step node that it entered at `entry` and leaves at `exit`;
 * `ntp` says the stamps' format. Answers RTM_UPDATED (types 1 and 5, and PTPTypes 0 to 3), when the
 * residence was added to its pad and no other octet changed, or RTM_PASSED (PTPTypes 4 to 15). A sum of
 * 2^63-1 or more is written as 2^63-1, and a pad of 2^63-1 stays so. Refusals: 1 to 8; then, where the
 * message is to be updated, 9, 10. A refusal leaves the message as it came.
 */
uint8_t rtm_one_step(uint8_t *message, size_t size, bool ntp, struct rtm_stamp entry, struct rtm_stamp exit);

/*
 * Hands `message`, of `size` octets, to a two-step node with this `table`, entered at `entry` and left at
 * `exit`; `ntp` says the stamps' format. Stamps are looked at for Sync and Delay_Req only, and `output`, of
 * `room` octets, for a Sync with S clear. Answers
 *   RTM_CREATED  Sync, S clear: S is set, the pad stays, and a Follow_Up of RTM_CREATED_SIZE octets with
 *                the residence as its pad stands at the start of `output`; output beyond it stays;
 *   RTM_WAITING  Sync, S set, and Delay_Req: the residence is in the lowest empty slot, with a wait of 3;
 *   RTM_ADDED    Follow_Up and Delay_Resp: the residence that waited for the message is added to its pad,
 *                as at a one-step node, and its slot is emptied;
 *   RTM_PASSED   PTPTypes 4 to 7 and 10 to 15.
 * Nothing else changes. A Follow_Up is looked for among the Syncs that wait, a Delay_Resp among the
 * Delay_Reqs, by port identity and sequence. Refusals: 1 to 8, 16; then for Sync 9, 10 and 12 (S clear) or
 * 13, 14 (S set), for Delay_Req 9, 10, 13, 14, for Follow_Up and Delay_Resp 15. A refusal leaves table,
 * message and output as they came.
 */
uint8_t rtm_two_step(struct rtm_table *table, uint8_t *message, size_t size, uint8_t *output, size_t room,
                     bool ntp, struct rtm_stamp entry, struct rtm_stamp exit);

/* Makes `table` a new table: writes zeros over all of it. */
void rtm_new(struct rtm_table *table);

/*
 * A tick of `table`, once a second: every wait above 0 is lowered by one, and slots that reach 0 are
 * emptied. Answers how many those are. A record that waits for a message is gone at its third tick.
 */
uint8_t rtm_tick(struct rtm_table *table);

/*
 * How many records wait in `table`, 0 to 16, from the number that it keeps: no slot is looked at. From a
 * new or a loaded table it is the number of records after any calls. In a table that the library did not
 * make it may be any number: it is then written as read, changed by the records added or gone, and held
 * within 0 to 16. No other answer depends on it.
 */
uint8_t rtm_waiting(const struct rtm_table *table);

/*
 * Writes the records of `table` at the start of `output`, which has `room` octets, as an image for the card
 * that takes over. Answers 0 and writes to `size` how many octets the image has, 2 and 24 for each record,
 * at most RTM_IMAGE_SIZE; output beyond them stays. The image is of the new form, which begins with the
 * octet FF and has records of both kinds. Earlier releases write and load the old form alone, which begins
 * with the number of its records, at most 16, and has Sync records only. Refusals: 22 for a record that no
 * call could have left (a wait over 3, a residence of 262,144,000,000,000 units or more, a kind, port
 * identity and sequence that stand twice); then 12. A refusal leaves `output` and `size` as they came.
 */
uint8_t rtm_write_image(const struct rtm_table *table, uint8_t *output, size_t room, size_t *size);

/*
 * Loads `image`, of `size` octets and of either form, into `table`. Answers 0: its records are in the slots
 * from 0 on, in its order, the other slots are zeros, and the number is theirs; what the table held is gone,
 * and the reserved octets in front of the slots stay. Refusals: 22 for any octets that neither
 * rtm_write_image nor rtm_image_to_old writes. A refusal leaves the table as it came.
 */
uint8_t rtm_load_image(struct rtm_table *table, const uint8_t *image, size_t size);

/*
 * Writes an image of the old form, `image` of `size` octets, in the new form at the start of `output`, which
 * has `room` octets: the same records in the same order. Answers 0 and writes to `written` how many octets
 * that has, 2 and 24 for each record, at most RTM_IMAGE_SIZE; output beyond them stays. Refusals: 22 for any
 * octets but an image of the old form that can be loaded, so also for one of the new form; then 12. A
 * refusal leaves `output` and `written` as they came.
 */
uint8_t rtm_image_to_new(const uint8_t *image, size_t size, uint8_t *output, size_t room, size_t *written);

/*
 * Writes an image of the new form, `image` of `size` octets, in the old form at the start of `output`, which
 * has `room` octets, for a card with an earlier release: the same records in the same order. Answers 0 and
 * writes to `written` how many octets that has, 1 and 23 for each record, at most RTM_OLD_IMAGE_SIZE; output
 * beyond them stays. Refusals: 22 for any octets but an image of the new form that can be loaded, so also
 * for one of the old form; 27 where a Delay record is in it; 12; in this order. A refusal leaves `output`
 * and `written` as they came.
 */
uint8_t rtm_image_to_old(const uint8_t *image, size_t size, uint8_t *output, size_t room, size_t *written);

/*
 * Joins a Sync with S set, `sync` of `sync_size` octets, and its Follow_Up, `follow_up` of `follow_up_size`
 * octets, at the egress. Answers 0 and writes `joined`: the total, which is 2^63-1 where either pad is that
 * or the sum is that or more, and the packet, which is the Follow_Up's, or the Sync's where the Follow_Up
 * carries none. Refusals: 1 to 8 of the Sync, 1 to 8 of the Follow_Up; 18 where the two are not a Sync with
 * S set and a Follow_Up of the same Type, port identity and sequence; 11. A refusal leaves `joined` as it
 * came.
 */
uint8_t rtm_join(const uint8_t *sync, size_t sync_size, const uint8_t *follow_up, size_t follow_up_size,
                 struct rtm_joined *joined);

/*
 * Corrects the packet of such a pair, at the egress. `copy`, of `copy_size` octets, is a copy of the packet
 * that rtm_join tells; `place` says from which octet of it on its PTPv2 header stands, RTM_PTP_HEADER_SIZE
 * octets. Answers 0: the total is added to the header's correctionField, octets 8 to 15 of it, where 2^63-1
 * is written if either of the two is that or their sum is that or more; no other octet of the copy changes.
 * The UDP checksum of the packet, where it has one, is then to be made anew by the caller. Refusals: those of
 * rtm_join; 30 for a copy of another size or other octets than the packet; 31 where the header does not fit
 * at the place, which may be any number; 32 for a version other than 2 (low half of octet 1) or a message type
 * (low half of octet 0), source port (20 to 29) or sequence (30, 31) other than in the sub-TLV of the message
 * that carried the packet, the Follow_Up or, where that carries none, the Sync; 33 for a sum below -2^63; in
 * this order. A refusal leaves the copy as it came.
 */
uint8_t rtm_correct(const uint8_t *sync, size_t sync_size, const uint8_t *follow_up, size_t follow_up_size,
                    size_t place, uint8_t *copy, size_t copy_size);

/*
 * Counts the entries of an address list of the RTM_SET TLV, `list` of `size` octets. Answers 0 and writes
 * `count`; a list of no octets has 0 entries. Refusals: 19, 20, in this order. A refusal leaves `count` as
 * it came.
 */
uint8_t rtm_address_count(const uint8_t *list, size_t size, size_t *count);

/*
 * Finds the entry at `place`, counted from 0, in an address list, `list` of `size` octets. Answers 0 and
 * writes `entry`: where the whole entry is in the list. Refusals: 19, 20 (for any entry of the list), 21,
 * in this order. A refusal leaves `entry` as it came.
 */
uint8_t rtm_address_entry(const uint8_t *list, size_t size, size_t place, struct rtm_part *entry);

/*
 * Finds the TTL that takes a packet to the next timing node. `hops`, of `hops_size` octets, is the path's
 * address list from ingress to egress; `set`, of `set_size` octets, is the RTM_SET list, in any order; the
 * packet is at the hop at `position`, counted from 0. Answers 0 and writes to `ttl` the distance to the
 * nearest later hop whose type and address occur in `set`: 1 for the very next hop, at most 127. Reserved
 * octets are not compared. Refusals: 19, 20 of the hops; 19, 20 of the RTM_SET list; 21 for the position;
 * 24 exactly if there is no such hop; in this order. A refusal leaves `ttl` as it came.
 */
uint8_t rtm_next_ttl(const uint8_t *hops, size_t hops_size, const uint8_t *set, size_t set_size,
                     size_t position, uint8_t *ttl);

/*
 * Writes the two label entries (RFC 3032, RFC 5586) for that TTL at the start of `output`, which has `room`
 * octets: `label`, the LSP's, with the TTL that rtm_next_ttl gives, not bottom of stack; then label 13,
 * bottom of stack, TTL 1; both traffic classes 0. Answers 0: RTM_LABELS_SIZE octets are written, of which
 * octet 3 is the TTL; output beyond them stays. Refusals: those of rtm_next_ttl; 25; 12; in this order. A
 * refusal leaves `output` as it came.
 */
uint8_t rtm_write_labels(const uint8_t *hops, size_t hops_size, const uint8_t *set, size_t set_size,
                         size_t position, uint32_t label, uint8_t *output, size_t room);

/*
 * The report on the calls of a capture. Residences are in pad units. Those that count are what a call put on
 * a pad: its own where it was updated or created, and the one that had waited where it was added; the whole
 * of it, also where the pad stays at 2^63-1. What waits counts when, and only if, it is added.
 */
struct rtm_report {
    uint64_t updated;            /* how many calls were answered with each word */
    uint64_t passed;
    uint64_t created;
    uint64_t waiting;
    uint64_t added;
    uint64_t refused[17];        /* refused[n]: how many were refused with number n; 0, 11 and 12 never are */
    uint64_t ranged;             /* 1 where residences count; 0 where none does: least and greatest are then 0 */
    uint64_t least;
    uint64_t greatest;
    uint64_t sum;                /* exact */
};

/*
 * Runs a capture again, from an empty table, with an output of RTM_CREATED_SIZE octets for each call. `capture`
 * of `size` octets, at most 65,536, begins with the number of its bodies in two octets, at most 256, and the
 * offset of each from the capture's start in four, big-endian; the bodies follow back to back to its end. A
 * body is the octet 1 (one-step) or 2 (two-step), the entry stamp and the exit stamp (PTP: seconds and
 * nanoseconds, four octets each, big-endian) and a message of any size, perhaps none; or the octet 3 alone, a
 * tick. Answers 0 and writes every member of `report`. Refusal: 26 for any other octets, before any call is
 * run; it leaves `report` as it came. The capture is not changed. Ticks are not reported.
 */
uint8_t rtm_replay(const uint8_t *capture, size_t size, struct rtm_report *report);

/* A hop of a path that is planned. */
enum { RTM_ONE_STEP = 1, RTM_TWO_STEP = 2, RTM_MOST_HOPS = 255 };
struct rtm_hop {
    uint8_t mode;                /* RTM_ONE_STEP or RTM_TWO_STEP */
    uint8_t reserved[7];         /* never looked at */
    uint64_t residence;          /* of the Sync there, in pad units */
};

/* What the path shows at its end. */
struct rtm_pads {
    int64_t sync;                /* the Sync's pad; 2^63-1: too big */
    int64_t follow_up;           /* the Follow_Up's, likewise; 0 where there is no Follow_Up */
    uint64_t two_step;           /* S of the Sync, 0 or 1 */
    uint64_t exists;             /* 1 where there is a Follow_Up, 0 where there is none */
};

/*
 * Plans a path: `hops` are its `count` nodes in the Sync's order, `sync_pad` is the Sync's pad at the start,
 * `two_step` its S, and `follow_up_pad` the pad of its Follow_Up, which is not looked at where S is clear:
 * then there is no Follow_Up until the first two-step hop creates one, with pad 0. Residences of one-step
 * hops go on the Sync's pad, those of two-step hops on the Follow_Up's; a sum of 2^63-1 or more is 2^63-1.
 * Answers 0 and writes every member of `pads`: what node calls on the two leave over such a path, where none
 * of them is refused. Refusals: 28 for over RTM_MOST_HOPS hops; then for the first bad hop 29 for its mode,
 * 10 for a residence of 262,144,000,000,000 units or more. A refusal leaves `pads` as it came.
 */
uint8_t rtm_plan(const struct rtm_hop *hops, size_t count, int64_t sync_pad, int64_t follow_up_pad,
                 bool two_step, struct rtm_pads *pads);

/* A compiler that lays these out in another way stops here. */
typedef char rtm_size_has_8_octets[sizeof(size_t) == 8 ? 1 : -1];
typedef char rtm_bool_has_1_octet[sizeof(bool) == 1 ? 1 : -1];
typedef char rtm_stamp_has_8_octets[sizeof(struct rtm_stamp) == 8 ? 1 : -1];
typedef char rtm_fields_has_32_octets[sizeof(struct rtm_fields) == 32 ? 1 : -1];
typedef char rtm_part_has_16_octets[sizeof(struct rtm_part) == 16 ? 1 : -1];
typedef char rtm_joined_has_32_octets[sizeof(struct rtm_joined) == 32 ? 1 : -1];
typedef char rtm_slot_has_24_octets[sizeof(struct rtm_slot) == 24 ? 1 : -1];
typedef char rtm_table_has_512_octets[sizeof(struct rtm_table) == 512 ? 1 : -1];
typedef char rtm_report_has_208_octets[sizeof(struct rtm_report) == 208 ? 1 : -1];
typedef char rtm_hop_has_16_octets[sizeof(struct rtm_hop) == 16 ? 1 : -1];
typedef char rtm_pads_has_32_octets[sizeof(struct rtm_pads) == 32 ? 1 : -1];

#ifdef __cplusplus
}
#endif
#endif
