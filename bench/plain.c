/* The library's rules in plain C; see plain.h. */
#define _DEFAULT_SOURCE
#include "plain.h"
#include <endian.h>
#include <string.h>

/* Octets of a message (RFC 8169, 3 and 3.1). */
enum {
    CHANNEL = 2,
    PAD = 4,
    TYPE = 12,
    LENGTH = 14,
    VALUE = 16,
    SUB_TLV_TYPE = 16,
    SUB_TLV_LENGTH = 18,
    FLAGS = 20,
    PTP_TYPE = 23,
    PORT_IDENTITY = 24,
    PORT = 32,
    SEQUENCE = 34,
    CARRIED = 36
};

enum { RTM_CHANNEL = 15, PTP_SUB_TLV = 1, S = 0x80 };
enum { NO_PAYLOAD = 1, ETHERNET = 2, IPV6 = 4, NTP = 5 };
enum { SYNC = 0, DELAY_REQ = 1, PDELAY_RESP = 3, FOLLOW_UP = 8, DELAY_RESP = 9, LAST_PTP_TYPE = 15 };
enum { KIND_SYNC = 0, KIND_DELAY = 1, WAIT = 3 };

#define G_ACH_HEADER UINT32_C(0x1000000F)
#define FOLLOW_UP_FLAGS UINT32_C(0x80000008)
#define SECOND UINT64_C(1000000000)
#define LONGEST UINT64_C(3999999999)              /* residence, in nanoseconds */
#define UNITS_LIMIT UINT64_C(262144000000000)     /* every residence is below it */
#define SIGN (UINT64_C(1) << 63)

static inline uint16_t get16(const uint8_t *at) {
    uint16_t x;
    memcpy(&x, at, sizeof x);
    return be16toh(x);
}

static inline uint32_t get32(const uint8_t *at) {
    uint32_t x;
    memcpy(&x, at, sizeof x);
    return be32toh(x);
}

static inline uint64_t get64(const uint8_t *at) {
    uint64_t x;
    memcpy(&x, at, sizeof x);
    return be64toh(x);
}

static inline void put16(uint8_t *at, uint16_t x) {
    x = htobe16(x);
    memcpy(at, &x, sizeof x);
}

static inline void put32(uint8_t *at, uint32_t x) {
    x = htobe32(x);
    memcpy(at, &x, sizeof x);
}

static inline void put64(uint8_t *at, uint64_t x) {
    x = htobe64(x);
    memcpy(at, &x, sizeof x);
}

/* Reading */

static inline bool is_ptp(uint16_t type) {
    return ETHERNET <= type && type <= IPV6;
}

static inline uint8_t ptp_type(const uint8_t *message) {
    return message[PTP_TYPE] & 0x0F;
}

static inline bool states_length(uint16_t length) {
    return length == 20 || length == 16;
}

/* The header up to its Type, then the Value: 0 or the refusal. */
static inline uint8_t check(const uint8_t *message, size_t size) {
    uint16_t type;
    if (size < VALUE) return RTM_TOO_SHORT;
    if (size > RTM_LARGEST_MESSAGE) return RTM_TOO_LONG;
    if (message[0] >> 4 != 1 || get16(message + CHANNEL) != RTM_CHANNEL) return RTM_NOT_RTM;
    if ((message[0] & 0x0F) != 0) return RTM_VERSION;
    if (get16(message + LENGTH) != size - VALUE) return RTM_LENGTH;
    type = get16(message + TYPE);
    if (type < NO_PAYLOAD || type > NTP) return RTM_TYPE;
    if (type == NTP) return 0;
    if (type == NO_PAYLOAD) return size == VALUE ? 0 : RTM_VALUE_SIZE;
    if (size < CARRIED) return RTM_VALUE_SIZE;
    if (get16(message + SUB_TLV_TYPE) != PTP_SUB_TLV) return RTM_SUB_TLV;
    if (!states_length(get16(message + SUB_TLV_LENGTH))) return RTM_SUB_TLV;
    return 0;
}

uint8_t plain_read(const uint8_t *message, size_t size, struct rtm_fields *fields) {
    uint8_t refusal = check(message, size);
    if (refusal) return refusal;
    fields->pad = (int64_t)get64(message + PAD);
    fields->type = get16(message + TYPE);
    if (!is_ptp(fields->type)) return 0;
    fields->clock = get64(message + PORT_IDENTITY);
    fields->length = get16(message + SUB_TLV_LENGTH);
    fields->port = get16(message + PORT);
    fields->sequence = get16(message + SEQUENCE);
    fields->two_step = (message[FLAGS] & S) != 0;
    fields->ptp_type = ptp_type(message);
    return 0;
}

uint8_t plain_carried(const uint8_t *message, size_t size, struct rtm_part *packet) {
    uint8_t refusal = check(message, size);
    if (refusal) return refusal;
    packet->offset = is_ptp(get16(message + TYPE)) ? CARRIED : VALUE;
    packet->length = size - packet->offset;
    return 0;
}

/* Writing */

static void put_sub_tlv(uint8_t *message, const struct rtm_fields *fields) {
    put16(message + SUB_TLV_TYPE, PTP_SUB_TLV);
    put16(message + SUB_TLV_LENGTH, fields->length);
    put32(message + FLAGS, (fields->two_step ? (uint32_t)S << 24 : 0) | fields->ptp_type);
    put64(message + PORT_IDENTITY, fields->clock);
    put16(message + PORT, fields->port);
    put16(message + SEQUENCE, fields->sequence);
}

uint8_t plain_write(const struct rtm_fields *fields, const uint8_t *carried, size_t carried_size,
                    uint8_t *output, size_t room, size_t *size) {
    bool ptp = is_ptp(fields->type);
    size_t start = ptp ? CARRIED : VALUE;
    if (fields->type < NO_PAYLOAD || fields->type > NTP) return RTM_TYPE;
    if (ptp && fields->ptp_type > LAST_PTP_TYPE) return RTM_PTP_TYPE;
    if (ptp && !states_length(fields->length)) return RTM_SUB_TLV_LENGTH;
    if (fields->type == NO_PAYLOAD && carried_size > 0) return RTM_VALUE_SIZE;
    if (carried_size > RTM_LARGEST_MESSAGE - start) return RTM_TOO_LONG;
    if (room < start + carried_size) return RTM_OUTPUT_TOO_SMALL;
    put32(output, G_ACH_HEADER);
    put64(output + PAD, (uint64_t)fields->pad);
    put16(output + TYPE, fields->type);
    put16(output + LENGTH, (uint16_t)(start - VALUE + carried_size));
    if (ptp) put_sub_tlv(output, fields);
    if (carried_size > 0) memcpy(output + start, carried, carried_size);
    *size = start + carried_size;
    return 0;
}

/* Residence */

static inline uint8_t ptp_units(struct rtm_stamp entry, struct rtm_stamp exit, uint64_t *units) {
    int64_t residence;
    if (entry.part >= SECOND || exit.part >= SECOND) return RTM_INVALID_STAMP;
    residence = (int64_t)((uint64_t)(uint32_t)(exit.seconds - entry.seconds) * SECOND);
    residence += (int64_t)exit.part - (int64_t)entry.part;
    if (residence < 0 || residence > (int64_t)LONGEST) return RTM_TOO_LONG_RESIDENCE;
    *units = (uint64_t)residence << 16;
    return 0;
}

static inline uint64_t ntp_number(struct rtm_stamp stamp) {
    return (uint64_t)stamp.seconds << 32 | stamp.part;
}

static inline uint8_t ntp_units(struct rtm_stamp entry, struct rtm_stamp exit, uint64_t *units) {
    uint64_t difference = ntp_number(exit) - ntp_number(entry);
    if (difference >> 34 != 0) return RTM_TOO_LONG_RESIDENCE;
    *units = difference * SECOND >> 16;
    return 0;
}

static inline uint8_t units_between(bool ntp, struct rtm_stamp entry, struct rtm_stamp exit,
                                    uint64_t *units) {
    return ntp ? ntp_units(entry, exit, units) : ptp_units(entry, exit, units);
}

uint8_t plain_residence(bool ntp, struct rtm_stamp entry, struct rtm_stamp exit, uint64_t *units) {
    return units_between(ntp, entry, exit, units);
}

/* One-step node */

/* Counted from -2^63 a pad is unsigned, and a sum that does not fit is held at the largest. */
static inline void add_to_pad(uint8_t *message, uint64_t units) {
    uint64_t pad = get64(message + PAD) ^ SIGN;
    uint64_t sum = pad + units;
    if (sum < pad) sum = UINT64_MAX;
    put64(message + PAD, sum ^ SIGN);
}

/* It tells the residence that it puts on the pad. */
static inline uint8_t one_step(uint8_t *message, size_t size, bool ntp, struct rtm_stamp entry,
                               struct rtm_stamp exit, uint64_t *units) {
    uint8_t refusal = check(message, size);
    if (refusal) return refusal;
    if (is_ptp(get16(message + TYPE)) && ptp_type(message) > PDELAY_RESP) return RTM_PASSED;
    refusal = units_between(ntp, entry, exit, units);
    if (refusal) return refusal;
    add_to_pad(message, *units);
    return RTM_UPDATED;
}

uint8_t plain_one_step(uint8_t *message, size_t size, bool ntp, struct rtm_stamp entry,
                       struct rtm_stamp exit) {
    uint64_t units;
    return one_step(message, size, ntp, entry, exit, &units);
}

/* The table */

struct identity {
    uint64_t clock;
    uint16_t port, sequence;
    uint8_t kind;
};

static inline struct identity identity_of(const uint8_t *message, uint8_t kind) {
    struct identity identity;
    identity.clock = get64(message + PORT_IDENTITY);
    identity.port = get16(message + PORT);
    identity.sequence = get16(message + SEQUENCE);
    identity.kind = kind;
    return identity;
}

static inline bool is_of(const struct plain_record *slot, const struct identity *identity) {
    return slot->wait != 0 && slot->kind == identity->kind && slot->clock == identity->clock &&
           slot->port == identity->port && slot->sequence == identity->sequence;
}

/* The same test with the field first that tells the records of one port apart. */
static inline bool is_of_by_sequence(const struct plain_record *slot, const struct identity *identity) {
    return slot->sequence == identity->sequence && slot->port == identity->port &&
           slot->clock == identity->clock && slot->kind == identity->kind && slot->wait != 0;
}

enum order { AS_WRITTEN, BY_SEQUENCE };

static inline struct plain_record *find(struct plain_table *table, const struct identity *identity,
                                        enum order order) {
    struct plain_record *slot = table->slot, *end = slot + PLAIN_SLOTS;
    for (; slot < end; slot++) {
        if (order == BY_SEQUENCE ? is_of_by_sequence(slot, identity) : is_of(slot, identity)) return slot;
    }
    return NULL;
}

static inline struct plain_record *empty_slot(struct plain_table *table) {
    struct plain_record *slot = table->slot, *end = slot + PLAIN_SLOTS;
    for (; slot < end; slot++) if (slot->wait == 0) return slot;
    return NULL;
}

static inline uint8_t number_of(const struct plain_table *table) {
    return table->number > PLAIN_SLOTS ? PLAIN_SLOTS : table->number;
}

static inline void one_more(struct plain_table *table) {
    uint8_t number = number_of(table);
    table->number = number < PLAIN_SLOTS ? (uint8_t)(number + 1) : PLAIN_SLOTS;
}

static inline void fewer(struct plain_table *table, uint8_t emptied) {
    uint8_t number = number_of(table);
    if (emptied == 0) return;
    table->number = number > emptied ? (uint8_t)(number - emptied) : 0;
}

static inline uint8_t keep(struct plain_table *table, const struct identity *identity, uint64_t units,
                           enum order order) {
    struct plain_record *slot;
    if (find(table, identity, order)) return RTM_ALREADY_WAITING;
    slot = empty_slot(table);
    if (!slot) return RTM_NO_EMPTY_SLOT;
    slot->clock = identity->clock;
    slot->residence = units;
    slot->port = identity->port;
    slot->sequence = identity->sequence;
    slot->kind = identity->kind;
    slot->wait = WAIT;
    one_more(table);
    return RTM_WAITING;
}

void plain_new(struct plain_table *table) {
    memset(table, 0, sizeof *table);
}

uint8_t plain_tick(struct plain_table *table) {
    uint8_t emptied = 0;
    int i;
    for (i = 0; i < PLAIN_SLOTS; i++) {
        struct plain_record *slot = &table->slot[i];
        if (slot->wait == 0 || --slot->wait > 0) continue;
        memset(slot, 0, sizeof *slot);
        emptied++;
    }
    fewer(table, emptied);
    return emptied;
}

uint8_t plain_waiting(const struct plain_table *table) {
    return number_of(table);
}

/* Two-step node */

static inline uint8_t create(uint8_t *sync, uint64_t units, uint8_t *output, size_t room) {
    if (room < CARRIED) return RTM_OUTPUT_TOO_SMALL;
    put32(output, G_ACH_HEADER);
    put64(output + PAD, units);
    memcpy(output + TYPE, sync + TYPE, LENGTH - TYPE);
    put16(output + LENGTH, CARRIED - VALUE);
    put16(output + SUB_TLV_TYPE, PTP_SUB_TLV);
    memcpy(output + SUB_TLV_LENGTH, sync + SUB_TLV_LENGTH, FLAGS - SUB_TLV_LENGTH);
    put32(output + FLAGS, FOLLOW_UP_FLAGS);
    memcpy(output + PORT_IDENTITY, sync + PORT_IDENTITY, CARRIED - PORT_IDENTITY);
    sync[FLAGS] |= S;
    return RTM_CREATED;
}

static inline uint8_t collect(struct plain_table *table, uint8_t *message, uint8_t kind, enum order order,
                              uint64_t *units) {
    struct identity identity = identity_of(message, kind);
    struct plain_record *slot = find(table, &identity, order);
    if (!slot) return RTM_NO_RECORD;
    *units = slot->residence;
    add_to_pad(message, *units);
    memset(slot, 0, sizeof *slot);
    fewer(table, 1);
    return RTM_ADDED;
}

/* It tells the residence that it puts on a pad or into the table. */
static inline uint8_t two_step(struct plain_table *table, uint8_t *message, size_t size, uint8_t *output,
                               size_t room, bool ntp, struct rtm_stamp entry, struct rtm_stamp exit,
                               enum order order, uint64_t *units) {
    struct identity identity;
    uint8_t kind, refusal = check(message, size);
    if (refusal) return refusal;
    if (!is_ptp(get16(message + TYPE))) return RTM_NOT_FOR_TWO_STEP;
    kind = ptp_type(message);
    if (kind == FOLLOW_UP) return collect(table, message, KIND_SYNC, order, units);
    if (kind == DELAY_RESP) return collect(table, message, KIND_DELAY, order, units);
    if (kind > PDELAY_RESP) return RTM_PASSED;
    if (kind > DELAY_REQ) return RTM_NOT_FOR_TWO_STEP;
    refusal = units_between(ntp, entry, exit, units);
    if (refusal) return refusal;
    if (kind == SYNC && (message[FLAGS] & S) == 0) return create(message, *units, output, room);
    identity = identity_of(message, kind == SYNC ? KIND_SYNC : KIND_DELAY);
    return keep(table, &identity, *units, order);
}

uint8_t plain_two_step(struct plain_table *table, uint8_t *message, size_t size, uint8_t *output, size_t room,
                       bool ntp, struct rtm_stamp entry, struct rtm_stamp exit) {
    uint64_t units;
    return two_step(table, message, size, output, room, ntp, entry, exit, AS_WRITTEN, &units);
}

uint8_t plain_two_step_by_sequence(struct plain_table *table, uint8_t *message, size_t size, uint8_t *output,
                                   size_t room, bool ntp, struct rtm_stamp entry, struct rtm_stamp exit) {
    uint64_t units;
    return two_step(table, message, size, output, room, ntp, entry, exit, BY_SEQUENCE, &units);
}

/* Images: the number of records, their offsets, then the records */

/* The new form has an octet more in front of the image, which leads it, and one in front of each record, its
   kind. */
enum form { OLD_FORM = 0, NEW_FORM = 1 };
enum { LEAD = 0xFF, OFFSET_SIZE = 2, RECORD_SIZE = 21 };
enum { AT_CLOCK = 0, AT_PORT = 8, AT_SEQUENCE = 10, AT_RESIDENCE = 12, AT_WAIT = 20 };

static inline size_t offset_at(enum form form, size_t place) {
    return form + 1 + OFFSET_SIZE * place;
}

static inline size_t record_at(enum form form, size_t records, size_t place) {
    return offset_at(form, records) + (form + RECORD_SIZE) * place;
}

static inline bool same_identity(const struct plain_record *a, const struct plain_record *b) {
    return a->sequence == b->sequence && a->clock == b->clock && a->port == b->port && a->kind == b->kind;
}

/* Whether the record at a place can be loaded behind those before it. */
static inline bool loadable(const struct plain_record *record, size_t place) {
    const struct plain_record *last = &record[place];
    if (last->kind > KIND_DELAY || last->wait < 1 || last->wait > WAIT) return false;
    if (last->residence >= UNITS_LIMIT) return false;
    for (; record < last; record++) if (same_identity(record, last)) return false;
    return true;
}

static inline void put_record(enum form form, uint8_t *at, const struct plain_record *record) {
    if (form == NEW_FORM) *at++ = record->kind;
    put64(at + AT_CLOCK, record->clock);
    put16(at + AT_PORT, record->port);
    put16(at + AT_SEQUENCE, record->sequence);
    put64(at + AT_RESIDENCE, record->residence);
    at[AT_WAIT] = record->wait;
}

static inline void get_record(enum form form, const uint8_t *at, struct plain_record *record) {
    record->kind = form == NEW_FORM ? *at++ : KIND_SYNC;
    record->clock = get64(at + AT_CLOCK);
    record->port = get16(at + AT_PORT);
    record->sequence = get16(at + AT_SEQUENCE);
    record->residence = get64(at + AT_RESIDENCE);
    record->wait = at[AT_WAIT];
}

static inline uint8_t put_image(enum form form, const struct plain_record *record, size_t records,
                                uint8_t *output, size_t room, size_t *size) {
    size_t k;
    if (room < record_at(form, records, records)) return RTM_OUTPUT_TOO_SMALL;
    if (form == NEW_FORM) output[0] = LEAD;
    output[form] = (uint8_t)records;
    for (k = 0; k < records; k++) {
        put16(output + offset_at(form, k), (uint16_t)record_at(form, records, k));
        put_record(form, output + record_at(form, records, k), &record[k]);
    }
    *size = record_at(form, records, records);
    return 0;
}

/* It tells the records, and how many there are. */
static inline uint8_t get_image(enum form form, const uint8_t *image, size_t size,
                                struct plain_record *record, size_t *records) {
    size_t k;
    if (size < record_at(form, 0, 0)) return RTM_IMAGE;
    if (form == NEW_FORM && image[0] != LEAD) return RTM_IMAGE;
    *records = image[form];
    if (*records > PLAIN_SLOTS || size != record_at(form, *records, *records)) return RTM_IMAGE;
    for (k = 0; k < *records; k++) {
        if (get16(image + offset_at(form, k)) != record_at(form, *records, k)) return RTM_IMAGE;
        get_record(form, image + record_at(form, *records, k), &record[k]);
        if (!loadable(record, k)) return RTM_IMAGE;
    }
    return 0;
}

uint8_t plain_write_image(const struct plain_table *table, uint8_t *output, size_t room, size_t *size) {
    struct plain_record record[PLAIN_SLOTS];
    size_t records = 0, k;
    for (k = 0; k < PLAIN_SLOTS; k++) if (table->slot[k].wait != 0) record[records++] = table->slot[k];
    for (k = 0; k < records; k++) if (!loadable(record, k)) return RTM_IMAGE;
    return put_image(NEW_FORM, record, records, output, room, size);
}

uint8_t plain_load_image(struct plain_table *table, const uint8_t *image, size_t size) {
    struct plain_record record[PLAIN_SLOTS] = {{0}};
    bool is_new = size > 0 && image[0] == LEAD;
    size_t records;
    uint8_t refusal = get_image(is_new ? NEW_FORM : OLD_FORM, image, size, record, &records);
    if (refusal) return refusal;
    memcpy(table->slot, record, sizeof record);
    table->number = (uint8_t)records;
    return 0;
}

uint8_t plain_image_to_new(const uint8_t *image, size_t size, uint8_t *output, size_t room, size_t *written) {
    struct plain_record record[PLAIN_SLOTS];
    size_t records;
    uint8_t refusal = get_image(OLD_FORM, image, size, record, &records);
    if (refusal) return refusal;
    return put_image(NEW_FORM, record, records, output, room, written);
}

uint8_t plain_image_to_old(const uint8_t *image, size_t size, uint8_t *output, size_t room, size_t *written) {
    struct plain_record record[PLAIN_SLOTS];
    size_t records, k;
    uint8_t refusal = get_image(NEW_FORM, image, size, record, &records);
    if (refusal) return refusal;
    for (k = 0; k < records; k++) if (record[k].kind == KIND_DELAY) return RTM_DELAY_RECORD;
    return put_image(OLD_FORM, record, records, output, room, written);
}

/* Joining */

static inline bool is_pair(const uint8_t *sync, const uint8_t *follow_up) {
    return is_ptp(get16(sync + TYPE)) && get16(sync + TYPE) == get16(follow_up + TYPE) &&
           ptp_type(sync) == SYNC && (sync[FLAGS] & S) != 0 && ptp_type(follow_up) == FOLLOW_UP &&
           memcmp(sync + PORT_IDENTITY, follow_up + PORT_IDENTITY, CARRIED - PORT_IDENTITY) == 0;
}

static inline uint8_t add_pads(int64_t a, int64_t b, int64_t *sum) {
    if (a == INT64_MAX || b == INT64_MAX || (b > 0 && a > INT64_MAX - b)) {
        *sum = INT64_MAX;
        return 0;
    }
    if (b < 0 && a < INT64_MIN - b) return RTM_SUM_OUT_OF_RANGE;
    *sum = a + b;
    return 0;
}

static inline uint8_t join(const uint8_t *sync, size_t sync_size, const uint8_t *follow_up,
                           size_t follow_up_size, struct rtm_joined *joined) {
    int64_t total;
    bool own = follow_up_size > CARRIED;
    uint8_t refusal = check(sync, sync_size);
    if (refusal) return refusal;
    refusal = check(follow_up, follow_up_size);
    if (refusal) return refusal;
    if (!is_pair(sync, follow_up)) return RTM_NOT_A_PAIR;
    refusal = add_pads((int64_t)get64(sync + PAD), (int64_t)get64(follow_up + PAD), &total);
    if (refusal) return refusal;
    joined->total = total;
    joined->message = own ? RTM_OF_FOLLOW_UP : RTM_OF_SYNC;
    joined->packet.offset = CARRIED;
    joined->packet.length = (own ? follow_up_size : sync_size) - CARRIED;
    return 0;
}

uint8_t plain_join(const uint8_t *sync, size_t sync_size, const uint8_t *follow_up, size_t follow_up_size,
                   struct rtm_joined *joined) {
    return join(sync, sync_size, follow_up, follow_up_size, joined);
}

/* Correcting the packet of a pair */

/* Octets of a PTPv2 header (IEEE 1588, 13.3). The sequence stands behind the source port, as in a message. */
enum { MESSAGE_TYPE = 0, VERSION_PTP = 1, CORRECTION = 8, SOURCE_PORT = 20 };
enum { PTP_V2 = 2 };

/* Whether a header is of version 2 and of the exchange that the message's sub-TLV names. */
static inline bool is_header_of(const uint8_t *message, const uint8_t *header) {
    return (header[VERSION_PTP] & 0x0F) == PTP_V2 && (header[MESSAGE_TYPE] & 0x0F) == ptp_type(message) &&
           memcmp(header + SOURCE_PORT, message + PORT_IDENTITY, CARRIED - PORT_IDENTITY) == 0;
}

uint8_t plain_correct(const uint8_t *sync, size_t sync_size, const uint8_t *follow_up, size_t follow_up_size,
                      size_t place, uint8_t *copy, size_t copy_size) {
    struct rtm_joined joined;
    const uint8_t *carrier;
    uint8_t *header, refusal = join(sync, sync_size, follow_up, follow_up_size, &joined);
    int64_t field;
    if (refusal) return refusal;
    carrier = joined.message == RTM_OF_FOLLOW_UP ? follow_up : sync;
    if (copy_size != joined.packet.length) return RTM_NOT_A_COPY;
    if (copy_size > 0 && memcmp(copy, carrier + CARRIED, copy_size) != 0) return RTM_NOT_A_COPY;
    if (copy_size < RTM_PTP_HEADER_SIZE || place > copy_size - RTM_PTP_HEADER_SIZE) return RTM_NO_PTP_HEADER;
    header = copy + place;
    if (!is_header_of(carrier, header)) return RTM_PTP_HEADER_MISMATCH;
    refusal = add_pads((int64_t)get64(header + CORRECTION), joined.total, &field);
    if (refusal) return RTM_CORRECTION_OUT_OF_RANGE;
    put64(header + CORRECTION, (uint64_t)field);
    return 0;
}

/* The address list of the RTM_SET TLV */

enum { LARGEST_LIST = 1024 };

/* The size of the entry at the start of a rest of the list; 0 for a bad one. */
static inline size_t entry_size(const uint8_t *rest, size_t size) {
    size_t wanted;
    if (size < 2) return 0;
    if (rest[0] == 1) wanted = 8;
    else if (rest[0] == 2) wanted = 20;
    else if (rest[0] == 3) wanted = 12;
    else return 0;
    return rest[1] == wanted && wanted <= size ? wanted : 0;
}

uint8_t plain_address_count(const uint8_t *list, size_t size, size_t *count) {
    size_t at, step, entries = 0;
    if (size > LARGEST_LIST) return RTM_LIST_TOO_LONG;
    for (at = 0; at < size; at += step) {
        step = entry_size(list + at, size - at);
        if (step == 0) return RTM_BAD_ENTRY;
        entries++;
    }
    *count = entries;
    return 0;
}

uint8_t plain_address_entry(const uint8_t *list, size_t size, size_t place, struct rtm_part *entry) {
    size_t count, at = 0;
    uint8_t refusal = plain_address_count(list, size, &count);
    if (refusal) return refusal;
    if (place >= count) return RTM_NO_ENTRY;
    for (; place > 0; place--) at += list[at + 1];
    entry->offset = at;
    entry->length = list[at + 1];
    return 0;
}

/* The next timing node, and the label entries that a message goes there with */

enum { ADDRESS = 4, FIRST_LABEL = 16, LAST_LABEL = 1048575 };
#define GAL_ENTRY UINT32_C(0x0000D101)            /* label 13, bottom of stack, TTL 1 */

/* Of two good entries. The compiler is told how many octets there are, and need not call memcmp. */
static inline bool same_address(const uint8_t *a, const uint8_t *b) {
    if (a[0] != b[0]) return false;
    if (a[0] == 1) return memcmp(a + ADDRESS, b + ADDRESS, 4) == 0;
    if (a[0] == 2) return memcmp(a + ADDRESS, b + ADDRESS, 16) == 0;
    return memcmp(a + ADDRESS, b + ADDRESS, 8) == 0;
}

static inline bool has_address(const uint8_t *list, size_t size, const uint8_t *entry) {
    size_t at;
    for (at = 0; at < size; at += list[at + 1]) if (same_address(list + at, entry)) return true;
    return false;
}

uint8_t plain_next_ttl(const uint8_t *hops, size_t hops_size, const uint8_t *set, size_t set_size,
                       size_t position, uint8_t *ttl) {
    size_t count, in_set, place, at = 0;
    uint8_t distance, refusal = plain_address_count(hops, hops_size, &count);
    if (refusal) return refusal;
    refusal = plain_address_count(set, set_size, &in_set);
    if (refusal) return refusal;
    if (position >= count) return RTM_NO_ENTRY;
    for (place = 0; place <= position; place++) at += hops[at + 1];
    for (distance = 1; at < hops_size; at += hops[at + 1], distance++) {
        if (!has_address(set, set_size, hops + at)) continue;
        *ttl = distance;
        return 0;
    }
    return RTM_NO_TIMING_NODE;
}

uint8_t plain_write_labels(const uint8_t *hops, size_t hops_size, const uint8_t *set, size_t set_size,
                           size_t position, uint32_t label, uint8_t *output, size_t room) {
    uint8_t ttl, refusal = plain_next_ttl(hops, hops_size, set, set_size, position, &ttl);
    if (refusal) return refusal;
    if (label < FIRST_LABEL || label > LAST_LABEL) return RTM_LABEL;
    if (room < RTM_LABELS_SIZE) return RTM_OUTPUT_TOO_SMALL;
    put32(output, label << 12 | ttl);
    put32(output + 4, GAL_ENTRY);
    return 0;
}

/* Captures: the number of bodies, their offsets, then the bodies */

enum { LARGEST_CAPTURE = 65536, MOST_BODIES = 256, COUNT_SIZE = 2, BODY_OFFSET_SIZE = 4 };
enum { ONE_STEP = 1, TWO_STEP = 2, TICK = 3 };
enum { AT_ENTRY = 1, AT_EXIT = 9, AT_MESSAGE = 17 };

/* Where the body at a place ends: where the next one starts, or the capture ends. */
static inline size_t body_end(const uint8_t *capture, size_t size, size_t bodies, size_t place) {
    if (place + 1 == bodies) return size;
    return get32(capture + COUNT_SIZE + BODY_OFFSET_SIZE * (place + 1));
}

static inline bool is_body(const uint8_t *body, size_t size) {
    if (body[0] == TICK) return size == 1;
    return (body[0] == ONE_STEP || body[0] == TWO_STEP) && size >= AT_MESSAGE;
}

static bool is_capture(const uint8_t *capture, size_t size) {
    size_t bodies, place, at, end;
    if (size < COUNT_SIZE || size > LARGEST_CAPTURE) return false;
    bodies = get16(capture);
    at = COUNT_SIZE + BODY_OFFSET_SIZE * bodies;
    if (bodies > MOST_BODIES || size < at) return false;
    if (bodies == 0) return size == at;
    if (get32(capture + COUNT_SIZE) != at) return false;
    for (place = 0; place < bodies; place++, at = end) {
        end = body_end(capture, size, bodies, place);
        if (end <= at || end > size || !is_body(capture + at, end - at)) return false;
    }
    return true;
}

static inline struct rtm_stamp get_stamp(const uint8_t *at) {
    struct rtm_stamp stamp;
    stamp.seconds = get32(at);
    stamp.part = get32(at + 4);
    return stamp;
}

static inline uint8_t run_call(struct plain_table *table, const uint8_t *body, size_t size, uint64_t *units) {
    uint8_t message[RTM_LARGEST_MESSAGE], output[RTM_CREATED_SIZE];
    struct rtm_stamp entry = get_stamp(body + AT_ENTRY), exit = get_stamp(body + AT_EXIT);
    size -= AT_MESSAGE;
    if (size > sizeof message) return RTM_TOO_LONG;
    memcpy(message, body + AT_MESSAGE, size);
    if (body[0] == ONE_STEP) return one_step(message, size, RTM_PTP, entry, exit, units);
    return two_step(table, message, size, output, sizeof output, RTM_PTP, entry, exit, AS_WRITTEN, units);
}

/* Whether the call put a residence on a pad. */
static inline bool is_counted(uint8_t answer) {
    return answer == RTM_UPDATED || answer == RTM_CREATED || answer == RTM_ADDED;
}

static inline void count_residence(struct rtm_report *report, uint64_t units) {
    if (!report->ranged || units < report->least) report->least = units;
    if (units > report->greatest) report->greatest = units;
    report->ranged = 1;
    report->sum += units;
}

static inline void report_answers(struct rtm_report *report, const uint64_t *answers) {
    report->updated = answers[RTM_UPDATED];
    report->passed = answers[RTM_PASSED];
    report->created = answers[RTM_CREATED];
    report->waiting = answers[RTM_WAITING];
    report->added = answers[RTM_ADDED];
    memcpy(report->refused, answers, sizeof report->refused);
}

uint8_t plain_replay(const uint8_t *capture, size_t size, struct rtm_report *report) {
    uint64_t units, answers[RTM_ADDED + 1] = {0};           /* how many of each */
    struct rtm_report found = {0};
    struct plain_table table;
    size_t bodies, place, at, end;
    if (!is_capture(capture, size)) return RTM_CAPTURE;
    plain_new(&table);
    bodies = get16(capture);
    at = COUNT_SIZE + BODY_OFFSET_SIZE * bodies;
    for (place = 0; place < bodies; place++, at = end) {
        uint8_t answer;
        end = body_end(capture, size, bodies, place);
        if (capture[at] == TICK) {
            plain_tick(&table);
            continue;
        }
        answer = run_call(&table, capture + at, end - at, &units);
        answers[answer]++;
        if (is_counted(answer)) count_residence(&found, units);
    }
    report_answers(&found, answers);
    *report = found;
    return 0;
}

/* The plan of a path */

/* A pad and residences. The sum of these fits 63 bits. */
static inline int64_t raised(int64_t pad, uint64_t units) {
    if (pad >= 0 && units >= (uint64_t)(INT64_MAX - pad)) return INT64_MAX;
    return pad + (int64_t)units;
}

uint8_t plain_plan(const struct rtm_hop *hops, size_t count, int64_t sync_pad, int64_t follow_up_pad,
                   bool two_step, struct rtm_pads *pads) {
    uint64_t units[2] = {0};
    bool exists = two_step;
    size_t i;
    if (count > RTM_MOST_HOPS) return RTM_TOO_MANY_HOPS;
    for (i = 0; i < count; i++) {
        if (hops[i].mode != RTM_ONE_STEP && hops[i].mode != RTM_TWO_STEP) return RTM_MODE;
        if (hops[i].residence >= UNITS_LIMIT) return RTM_TOO_LONG_RESIDENCE;
        units[hops[i].mode == RTM_TWO_STEP] += hops[i].residence;
        exists = exists || hops[i].mode == RTM_TWO_STEP;
    }
    pads->sync = raised(sync_pad, units[0]);
    pads->follow_up = raised(two_step ? follow_up_pad : 0, units[1]);
    pads->two_step = pads->exists = exists;
    return 0;
}
