/* Random inputs; see inputs.h. They are laid out here octet by octet, by no function that is compared. */
#include "inputs.h"
#include <string.h>

#define PICK(list) ((list)[inputs_below(sizeof(list) / sizeof *(list))])
#define UNITS_LIMIT UINT64_C(262144000000000)
#define SECOND UINT64_C(1000000000)

static uint64_t state;

void inputs_seed(uint64_t seed) {
    state = seed * UINT64_C(0x9E3779B97F4A7C15) + 1;
    if (state == 0) state = 1;
}

static uint64_t any(void) {
    state ^= state >> 12;
    state ^= state << 25;
    state ^= state >> 27;
    return state * UINT64_C(2685821657736338717);
}

uint64_t inputs_below(uint64_t limit) {
    return (any() >> 11) % limit;
}

static bool once_in(uint64_t times) {
    return inputs_below(times) == 0;
}

static void fill(void *memory, size_t size) {
    uint8_t *at = memory;
    while (size > 0) {
        uint64_t octets = any();
        size_t step = size < sizeof octets ? size : sizeof octets;
        memcpy(at, &octets, step);
        at += step;
        size -= step;
    }
}

static void put(uint8_t *at, size_t octets, uint64_t number) {
    while (octets-- > 0) {
        at[octets] = (uint8_t)number;
        number >>= 8;
    }
}

static uint64_t get(const uint8_t *at, size_t octets) {
    uint64_t number = 0;
    while (octets-- > 0) number = number << 8 | *at++;
    return number;
}

/* Numbers at the ends of their ranges. */

/* In nanoseconds: few, so that a pad can lie just below the largest by one of them. */
static uint64_t some_residence(void) {
    static const uint64_t residences[] = {0, 1, 1500, 3999999999, 4000000000};
    return once_in(2) ? PICK(residences) : inputs_below(4 * SECOND);
}

static uint64_t near(uint64_t number) {
    return number + inputs_below(5) - 2;
}

static uint64_t some_pad(void) {
    static const uint64_t ends[] = {0, UINT64_C(1) << 63, (UINT64_C(1) << 63) - 1};
    if (once_in(3)) return any();
    if (once_in(3)) return (UINT64_C(1) << 63) - 1 - near(some_residence() << 16);
    return once_in(2) ? PICK(ends) : near(PICK(ends));
}

/* A pad, half of the time one whose sum with a number is near an end. */
static uint64_t some_pad_with(uint64_t number) {
    uint64_t end = (UINT64_C(1) << 63) - inputs_below(2);
    return once_in(2) ? near(end - number) : some_pad();
}

static uint64_t some_units(void) {
    static const uint64_t ends[] = {0, UNITS_LIMIT, (UINT64_C(1) << 63) - 1, UINT64_MAX};
    if (once_in(8)) return near(PICK(ends));
    return once_in(16) ? any() : inputs_below(UNITS_LIMIT);
}

static uint32_t some_label(void) {
    static const uint32_t ends[] = {0, 15, 16, 1048575, 1048576, UINT32_MAX};
    if (once_in(4)) return PICK(ends);
    return once_in(16) ? (uint32_t)any() : 16 + (uint32_t)inputs_below(1048560);
}

static uint32_t some_part(void) {
    static const uint32_t ends[] = {0, 999999999, 1000000000, UINT32_MAX};
    return once_in(4) ? PICK(ends) : (uint32_t)inputs_below(SECOND);
}

static struct rtm_stamp ptp_later(struct rtm_stamp entry, uint64_t nanoseconds) {
    uint64_t part = entry.part + nanoseconds;
    struct rtm_stamp exit;
    exit.seconds = entry.seconds + (uint32_t)(part / SECOND);
    exit.part = (uint32_t)(part % SECOND);
    return exit;
}

static struct rtm_stamp ntp_later(struct rtm_stamp entry, uint64_t difference) {
    uint64_t number = ((uint64_t)entry.seconds << 32 | entry.part) + difference;
    struct rtm_stamp exit;
    exit.seconds = (uint32_t)(number >> 32);
    exit.part = (uint32_t)number;
    return exit;
}

static struct rtm_stamp some_entry(bool ntp) {
    static const uint32_t seconds[] = {0, 1, UINT32_MAX - 1, UINT32_MAX};
    struct rtm_stamp entry;
    entry.seconds = once_in(2) ? PICK(seconds) : (uint32_t)any();
    entry.part = ntp ? (uint32_t)any() : some_part();
    return entry;
}

static struct rtm_stamp some_exit(bool ntp, struct rtm_stamp entry) {
    static const uint64_t differences[] = {0, 1, 65536, (UINT64_C(1) << 34) - 1, UINT64_C(1) << 34};
    struct rtm_stamp exit;
    if (once_in(8)) {
        exit.seconds = entry.seconds + (uint32_t)inputs_below(6) - 2;
        exit.part = some_part();
        return exit;
    }
    if (!ntp) return ptp_later(entry, some_residence());
    return ntp_later(entry, once_in(3) ? PICK(differences) : inputs_below(UINT64_C(5) << 32));
}

static void some_stamps(struct input *input) {
    input->ntp = once_in(2);
    input->entry = some_entry(input->ntp);
    input->exit = some_exit(input->ntp, input->entry);
}

/* Identities: 32 of them, so that messages, records and images meet. */

enum { IDENTITIES = 32 };

struct identity {
    uint64_t clock;
    uint16_t port, sequence;
};

static struct identity identity_at(uint64_t place) {
    static const uint16_t sequences[] = {0, 1, 2, 3, 256, 512, 768, UINT16_MAX};
    struct identity identity;
    identity.clock = place & 1 ? UINT64_C(0x0001020304050607) : 0;
    identity.port = place & 2 ? 0x0100 : 0;
    identity.sequence = sequences[place >> 2 & 7];
    return identity;
}

/* The identities and kinds of records one after another, no two of them alike. */
struct series {
    uint64_t start, step;
    enum { SYNCS, MIXED, BY_TWOS } kinds;      /* by twos: a Sync and a Delay record of each identity */
};

static struct series some_series(void) {
    struct series series;
    series.start = inputs_below(IDENTITIES);
    series.step = 2 * inputs_below(IDENTITIES / 2) + 1;
    series.kinds = once_in(2) ? SYNCS : once_in(2) ? MIXED : BY_TWOS;
    return series;
}

static struct identity identity_in(const struct series *series, uint64_t place) {
    if (series->kinds == BY_TWOS) place /= 2;
    return identity_at((series->start + series->step * place) % IDENTITIES);
}

static uint8_t kind_in(const struct series *series, uint64_t place) {
    if (series->kinds == SYNCS) return 0;
    return series->kinds == MIXED ? (uint8_t)inputs_below(2) : (uint8_t)(place % 2);
}

/* Messages. */

static void lay_message(uint8_t *message, size_t size, uint16_t type) {
    static const uint8_t ptp_types[] = {0, 0, 0, 1, 1, 8, 8, 8, 9, 9};
    struct identity identity = identity_at(inputs_below(IDENTITIES));
    put(message, 4, 0x1000000F);
    if (once_in(4)) message[1] = (uint8_t)any();
    put(message + 4, 8, some_pad());
    put(message + 12, 2, type);
    put(message + 14, 2, size - 16);
    if (type == 1 || type == 5) return;
    put(message + 16, 2, 1);
    put(message + 18, 2, once_in(2) ? 20 : 16);
    if (once_in(2)) put(message + 20, 4, 0);
    message[20] = (uint8_t)((message[20] & 0x7F) | (once_in(3) ? 0 : 0x80));
    message[23] = (uint8_t)((message[23] & 0xF0) | (once_in(3) ? inputs_below(16) : PICK(ptp_types)));
    put(message + 24, 8, identity.clock);
    put(message + 32, 2, identity.port);
    put(message + 34, 2, identity.sequence);
}

static size_t some_carried_size(void) {
    static const size_t ends[] = {2012, 2013, 2032, 2033};
    if (once_in(32)) return PICK(ends);
    if (once_in(16)) return inputs_below(2065);
    return once_in(2) ? 0 : inputs_below(45);
}

/* One thing that is wrong, or may be. Answers the size. */
static size_t damage(uint8_t *message, size_t size) {
    switch (inputs_below(9)) {
    case 0: message[inputs_below(36)] = (uint8_t)any(); return size;
    case 1: message[inputs_below(36)] ^= (uint8_t)(1u << inputs_below(8)); return size;
    case 2: put(message + 12, 2, inputs_below(8)); return size;
    case 3: put(message + 16, 2, inputs_below(3)); return size;
    case 4: put(message + 18, 2, 14 + inputs_below(9)); return size;
    case 5: return inputs_below(81);
    case 6: size = 16 + inputs_below(24); put(message + 14, 2, size - 16); return size;
    case 7: message[0] = (uint8_t)(0x10 + inputs_below(17)); return size;
    default: return size + 1;
    }
}

static size_t some_message(uint8_t *message) {
    uint16_t type = once_in(6) ? (uint16_t)(once_in(2) ? 1 : 5) : (uint16_t)(2 + inputs_below(3));
    size_t size = type == 1 ? 16 : (type == 5 ? 16 : 36) + some_carried_size();
    if (once_in(64)) return inputs_below(81);
    lay_message(message, size, type);
    return once_in(3) ? damage(message, size) : size;
}

/* Tables. Records that could be written as an image, or any. */

static void good_record(struct rtm_slot *slot, struct identity identity, uint8_t kind) {
    slot->clock = identity.clock;
    slot->port = identity.port;
    slot->sequence = identity.sequence;
    slot->wait = (uint8_t)(1 + inputs_below(3));
    slot->kind = (uint8_t)((slot->kind & 0xFE) | kind);
    slot->residence = inputs_below(UNITS_LIMIT);
}

static void any_record(struct rtm_slot *slot) {
    good_record(slot, identity_at(inputs_below(IDENTITIES)), once_in(3));
    slot->wait = once_in(4) ? (uint8_t)any() : (uint8_t)inputs_below(4);
    slot->residence = some_units();
}

/* Records in some of the slots; what empty slots hold stays as it was. */
static unsigned good_records(struct rtm_table *table, unsigned records) {
    struct series series = some_series();
    unsigned i, left = records;
    for (i = 0; i < 16; i++) {
        table->slot[i].wait = 0;
        if (inputs_below(16 - i) >= left) continue;
        left--;
        good_record(&table->slot[i], identity_in(&series, left), kind_in(&series, left));
    }
    return records;
}

static void spoil_record(struct rtm_slot *slot, const struct rtm_slot *other) {
    switch (inputs_below(5)) {
    case 0: slot->wait = 4; break;
    case 1: slot->residence = UNITS_LIMIT - inputs_below(2); break;
    case 2: slot->kind ^= 1; break;
    case 3: *slot = *other; break;
    default: *slot = *other; slot->kind ^= 1; break;
    }
}

static void same_wait(struct rtm_table *table, uint8_t wait) {
    unsigned i;
    for (i = 0; i < 16; i++) if (table->slot[i].wait != 0) table->slot[i].wait = wait;
}

static void some_table(struct rtm_table *table) {
    unsigned i, records = 0;
    if (once_in(4)) memset(table, 0, sizeof *table);
    if (once_in(2)) {
        for (i = 0; i < 16; i++) any_record(&table->slot[i]);
    } else {
        records = good_records(table, once_in(4) ? 16 : (unsigned)inputs_below(17));
        if (once_in(2)) same_wait(table, 1);
        if (once_in(4)) spoil_record(&table->slot[inputs_below(16)], &table->slot[inputs_below(16)]);
    }
    table->number = once_in(2) ? (uint8_t)records : once_in(2) ? (uint8_t)any() : (uint8_t)inputs_below(19);
}

static size_t records_in(const struct rtm_table *table) {
    size_t i, records = 0;
    for (i = 0; i < 16; i++) records += table->slot[i].wait != 0;
    return records;
}

static size_t some_room(size_t wanted) {
    if (once_in(2)) return wanted;
    if (once_in(2)) return inputs_below(101);
    return once_in(2) && wanted > 0 ? wanted - 1 : wanted + inputs_below(20);
}

/* Images. The new form has an octet more in front, FF, and one in front of each body, its kind. */

struct image {
    uint8_t *octets;
    size_t more;                 /* 1 in the new form, 0 in the old */
    size_t records;
};

static size_t body_at(const struct image *image, size_t place) {
    return image->more + 1 + 2 * image->records + (image->more + 21) * place;
}

static size_t image_size(size_t more, size_t records) {
    struct image image = {NULL, more, records};
    return body_at(&image, records);
}

static uint8_t *offset_of(const struct image *image, size_t place) {
    return image->octets + image->more + 1 + 2 * place;
}

/* Of the body at a place, from the clock identity on. */
static uint8_t *fields_of(const struct image *image, size_t place) {
    return image->octets + body_at(image, place) + image->more;
}

static void lay_image(const struct image *image) {
    struct series series = some_series();
    size_t k;
    if (image->more == 0) series.kinds = SYNCS;
    image->octets[0] = UINT8_MAX;
    image->octets[image->more] = (uint8_t)image->records;
    for (k = 0; k < image->records; k++) {
        struct identity identity = identity_in(&series, k);
        uint8_t *at = fields_of(image, k);
        put(offset_of(image, k), 2, body_at(image, k));
        if (image->more > 0) at[-1] = kind_in(&series, k);
        put(at, 8, identity.clock);
        put(at + 8, 2, identity.port);
        put(at + 10, 2, identity.sequence);
        put(at + 12, 8, inputs_below(UNITS_LIMIT));
        at[20] = (uint8_t)(1 + inputs_below(3));
    }
}

/* What is of one form: FF one too many, missing or another octet, offsets from behind FF, a kind that is none.
   Answers the size. */
static size_t spoil_form(const struct image *image, size_t size) {
    uint8_t *octets = image->octets;
    size_t k;
    switch (image->more == 0 ? 0 : 1 + inputs_below(4)) {
    case 0: memmove(octets + 1, octets, size); octets[0] = UINT8_MAX; return size + 1;
    case 1: memmove(octets, octets + 1, size - 1); return size - 1;
    case 2: octets[0] = (uint8_t)any(); return size;
    case 3: for (k = 0; k < image->records; k++) put(offset_of(image, k), 2, body_at(image, k) - 1); return size;
    default: fields_of(image, inputs_below(image->records + 1))[-1] = once_in(2) ? 2 : UINT8_MAX; return size;
    }
}

/* One thing that is wrong, or may be. Answers the size. */
static size_t spoil_image(const struct image *image, size_t size) {
    size_t k = inputs_below(image->records + 1), other = inputs_below(image->records + 1);
    uint8_t *at = fields_of(image, k), *from = fields_of(image, other);
    switch (inputs_below(11)) {
    case 0: return size + 1;
    case 1: return size - 1;
    case 2: image->octets[inputs_below(size)] ^= (uint8_t)(1u << inputs_below(8)); return size;
    case 3: at[20] = once_in(2) ? 0 : 4; return size;
    case 4: put(at + 12, 8, UNITS_LIMIT - inputs_below(2)); return size;
    case 5: memmove(at, from, 12); return size;
    case 6: memmove(at - image->more, from - image->more, image->more + 12); return size;
    case 7: image->octets[image->more] = (uint8_t)inputs_below(18); return size;
    case 8: put(offset_of(image, k), 2, body_at(image, other)); return size;
    default: return spoil_form(image, size);
    }
}

/* Inputs. */

static void random_input(struct input *input) {
    fill(input, sizeof *input);
    input->null = once_in(2);
    input->two_step = once_in(2);
    input->first_size = input->second_size = input->place = 0;
    some_stamps(input);
    some_table(&input->table);
    input->room = some_room(once_in(2) ? 36 : image_size(1, records_in(&input->table)));
}

void input_for_message(struct input *input) {
    random_input(input);
    input->first_size = some_message(input->first);
}

void input_for_write(struct input *input) {
    struct rtm_fields *fields = &input->told.fields;
    uint8_t octet = (uint8_t)any();
    random_input(input);
    fields->pad = (int64_t)some_pad();
    fields->type = once_in(8) ? (uint16_t)any() : (uint16_t)inputs_below(7);
    if (!once_in(8)) fields->length = once_in(2) ? 20 : once_in(8) ? (uint16_t)(14 + inputs_below(9)) : 16;
    if (!once_in(8)) fields->ptp_type = (uint8_t)inputs_below(17);
    if (once_in(2)) octet &= 1;
    memcpy(&fields->two_step, &octet, 1);
    input->first_size = some_carried_size();
    input->room = some_room(input->first_size + (fields->type == 1 || fields->type == 5 ? 16 : 36));
}

/* The second message as the Follow_Up of the first, with so many octets behind. */
static void lay_follow_up(struct input *input, size_t carried_size) {
    uint64_t pad = some_pad();
    input->second_size = 36 + carried_size;
    memcpy(input->second, input->first, 36);
    put(input->second + 14, 2, input->second_size - 16);
    put(input->first + 4, 8, pad);
    put(input->second + 4, 8, some_pad_with(pad));
    input->second[20] = (uint8_t)any();
    input->first[20] |= 0x80;
    input->first[23] &= 0xF0;
    input->second[23] = (uint8_t)((input->second[23] & 0xF0) | 8);
}

/* Mostly a pair, with pads whose sum is near an end; else two messages. */
void input_for_pair(struct input *input) {
    input_for_message(input);
    input->second_size = some_message(input->second);
    if (once_in(4) || input->first_size < 36) return;
    lay_follow_up(input, some_carried_size());
    if (once_in(8)) input->first[20] = (uint8_t)any();
    if (once_in(8)) input->first[23] = (uint8_t)any();
    if (once_in(8)) input->second[23] = (uint8_t)any();
    if (once_in(8)) input->second[13] = (uint8_t)(2 + inputs_below(3));
    if (once_in(8)) input->second[24 + inputs_below(12)] ^= (uint8_t)(1u << inputs_below(8));
    if (once_in(8)) input->second_size = damage(input->second, input->second_size);
}

/* Corrections: a PTPv2 header has 34 octets. */

static size_t some_packet_size(void) {
    static const size_t ends[] = {0, 33, 34, 2012};
    if (once_in(8)) return PICK(ends);
    return 34 + inputs_below(once_in(16) ? 1979 : 45);
}

/* The Follow_Up carries a packet, and the Sync perhaps another; or the Sync alone does. */
static void good_pair(struct input *input) {
    size_t size = some_packet_size(), other = once_in(2) ? size : some_carried_size();
    bool own = !once_in(3);
    random_input(input);
    input->first_size = 36 + (own ? other : size);
    lay_message(input->first, input->first_size, (uint16_t)(2 + inputs_below(3)));
    lay_follow_up(input, own ? size : 0);
    if (once_in(2)) put(input->second + 4, 8, some_units());
}

/* The message whose packet is to be corrected. It tells that packet's size. */
static uint8_t *carrier_of(struct input *input, size_t *size) {
    bool own = input->second_size > 36;
    size_t all = own ? input->second_size : input->first_size;
    *size = all > 36 ? all - 36 : 0;
    return own ? input->second : input->first;
}

/* A header in the message's packet, of the exchange that its sub-TLV names. What is not looked at stays. */
static void lay_header(uint8_t *message, size_t place, uint64_t field) {
    uint8_t *header = message + 36 + place;
    header[0] = (uint8_t)((header[0] & 0xF0) | (message[23] & 0x0F));
    header[1] = (uint8_t)((header[1] & 0xF0) | 2);
    put(header + 8, 8, field);
    memcpy(header + 20, message + 24, 12);
}

/* Another version, message type, clock, port or sequence. */
static void damage_header(uint8_t *header) {
    switch (inputs_below(5)) {
    case 0: header[1] ^= (uint8_t)(1u << inputs_below(4)); break;
    case 1: header[0] ^= (uint8_t)(1u << inputs_below(4)); break;
    case 2: header[20 + inputs_below(8)] ^= (uint8_t)(1u << inputs_below(8)); break;
    case 3: header[28 + inputs_below(2)] ^= (uint8_t)(1u << inputs_below(8)); break;
    default: header[30 + inputs_below(2)] ^= (uint8_t)(1u << inputs_below(8)); break;
    }
}

/* One thing that is wrong, or may be: an octet anywhere or at the end, the Sync's packet, the size. */
static void damage_copy(struct input *input) {
    size_t size = input->room;
    switch (inputs_below(6)) {
    case 0: input->output[inputs_below(size + 1)] ^= (uint8_t)(1u << inputs_below(8)); break;
    case 1: input->output[size - inputs_below(size < 4 ? 1 : 4)] ^= (uint8_t)(1u << inputs_below(8)); break;
    case 2: memcpy(input->output, input->first + 36, size); break;
    case 3: input->room = inputs_below(once_in(2) ? 2 : size + 36); break;
    case 4: input->room = size > 0 ? size - 1 : 0; break;
    default: input->room = size + 1; break;
    }
}

/* Where no header is, or none fits; a place and 34 may be past the largest number. */
static size_t another_place(size_t place, size_t size) {
    size_t ends[] = {place + 1, size - 33, size, place + (UINT64_C(1) << 32), SIZE_MAX - inputs_below(40)};
    return PICK(ends);
}

/* Both messages have a header at the place, also where it lies past their end. */
void input_for_correction(struct input *input) {
    uint64_t pads;
    uint8_t *carrier;
    size_t size, place;
    if (once_in(4)) input_for_pair(input);
    else good_pair(input);
    carrier = carrier_of(input, &size);
    place = inputs_below(size < 34 ? 4 : size - 33);
    pads = get(input->first + 4, 8) + get(input->second + 4, 8);
    lay_header(input->first, place, some_pad_with(pads));
    lay_header(input->second, place, some_pad_with(pads));
    if (once_in(6)) damage_header(carrier + 36 + place);
    input->room = size;
    memcpy(input->output, carrier + 36, size);
    if (once_in(6)) damage_copy(input);
    input->place = once_in(8) ? another_place(place, size) : place;
}

void input_for_image(struct input *input) {
    struct image image;
    size_t size;
    random_input(input);
    image.octets = input->first;
    image.more = inputs_below(2);
    image.records = inputs_below(18);       /* 17 are one too many */
    lay_image(&image);
    size = image_size(image.more, image.records);
    input->first_size = once_in(2) ? spoil_image(&image, size) : size;
    input->room = some_room(image_size(1 - image.more, image.records));
}

/* Lists. */

/* What stands before an entry's address; the reserved octets stay random. Answers the entry's size. */
static size_t lay_entry(uint8_t *at, uint8_t type) {
    static const uint8_t sizes[] = {0, 8, 20, 12};
    at[0] = type;
    at[1] = sizes[type];
    return sizes[type];
}

static size_t damage_list(uint8_t *list, size_t size) {
    if (once_in(32)) return 0;
    if (size > 1024 && once_in(2)) size = 1024;
    if (size > 0 && once_in(8)) size -= inputs_below(size < 20 ? size : 20);
    if (once_in(8)) list[inputs_below(size + 1)] = (uint8_t)inputs_below(24);
    return size;
}

void input_for_list(struct input *input) {
    size_t size = 0, wanted = once_in(4) ? 1000 + inputs_below(30) : inputs_below(once_in(2) ? 50 : 1000);
    random_input(input);
    while (size < wanted) {
        uint8_t type = (uint8_t)(1 + inputs_below(3));
        if (wanted > 1020 && once_in(2)) type = 1;
        size += lay_entry(input->first + size, type);
    }
    input->first_size = size = damage_list(input->first, size);
    input->place = once_in(8) ? (size_t)any() : inputs_below(size / 8 + 2);
}

/* Paths. */

enum { MOST_HOPS = 136, STRANGERS = 100 };       /* numbers from MOST_HOPS on are those of no hop */

struct hop {
    uint8_t type, number;
};

/* Adds a hop to a list that is not too long. Its address is its number among octets of FF, so that many begin
   alike, in one type and in different types. */
static void add_hop(uint8_t *list, size_t *size, uint8_t type, uint64_t number) {
    uint8_t *at = list + *size;
    size_t octets;
    if (*size > 1024) return;
    octets = lay_entry(at, type) - 4;
    memset(at + 4, UINT8_MAX, octets);
    at[4 + number % octets] = (uint8_t)number;
    *size += 4 + octets;
}

static void some_hops(struct input *input, struct hop *hop, size_t hops, uint64_t types) {
    size_t i;
    for (i = 0; i < hops; i++) {
        hop[i].type = (uint8_t)(1 + inputs_below(types));
        hop[i].number = (uint8_t)i;
        if (i > 0 && once_in(16)) hop[i] = hop[inputs_below(i)];
        add_hop(input->first, &input->first_size, hop[i].type, hop[i].number);
    }
}

/* From the last hop to the first, but none of those between from and to. Strangers are no hop, or have the
   number of one and another type. */
static void some_set(struct input *input, const struct hop *hop, size_t hops, size_t from, size_t to) {
    size_t *size = &input->second_size, strangers = once_in(4) ? inputs_below(1025) : 0;
    while (*size < strangers) {
        add_hop(input->second, size, (uint8_t)(1 + inputs_below(3)), MOST_HOPS + inputs_below(STRANGERS));
    }
    while (hops-- > 0) {
        bool in = hops == to || ((hops <= from || hops > to) && once_in(2));
        if (in) add_hop(input->second, size, hop[hops].type, hop[hops].number);
        else if (once_in(8)) add_hop(input->second, size, hop[hops].type % 3 + 1, hop[hops].number);
    }
}

/* Many hops of type 1, or fewer of all types, with the next timing node at any distance, or with none. */
void input_for_path(struct input *input) {
    uint64_t types = once_in(4) ? 3 : 1, most = once_in(6) ? 8 : types == 3 ? 64 : 128;
    size_t distance = inputs_below(most), from = inputs_below(most - distance);
    size_t hops = once_in(2) ? most : from + distance + inputs_below(8);
    size_t ends[] = {0, hops - 1, hops, hops + 1, from + 256, from + (UINT64_C(1) << 32), SIZE_MAX};
    struct hop hop[MOST_HOPS];
    random_input(input);
    some_hops(input, hop, hops, types);
    some_set(input, hop, hops, from, from + distance);
    if (once_in(4)) input->first_size = damage_list(input->first, input->first_size);
    if (once_in(4)) input->second_size = damage_list(input->second, input->second_size);
    input->place = once_in(8) ? PICK(ends) : from;
    input->label = some_label();
    input->room = some_room(RTM_LABELS_SIZE);
}

/* Captures. */

/* What the calls of one capture have in common. */
struct captured {
    uint64_t identities;         /* the messages' identities are among so many */
    uint64_t ticks;              /* one body in so many is a tick */
    bool filling;                /* two-step calls, mostly on messages whose residence waits */
};

/* Mostly two that are not refused. */
static void put_stamps(uint8_t *at) {
    struct rtm_stamp entry = some_entry(RTM_PTP), exit = some_exit(RTM_PTP, entry);
    if (!once_in(3)) {
        entry.part %= SECOND;
        exit = ptp_later(entry, inputs_below(4 * SECOND));
    }
    put(at, 4, entry.seconds);
    put(at + 4, 4, entry.part);
    put(at + 8, 4, exit.seconds);
    put(at + 12, 4, exit.part);
}

/* A message that a two-step node has much to do with, short or near the largest, or any. Answers its size. */
static size_t captured_message(uint8_t *message, size_t room, const struct captured *captured) {
    struct identity identity = identity_at(inputs_below(captured->identities));
    uint64_t ptp_type = (captured->filling || once_in(2) ? 0 : 8) + inputs_below(2);
    size_t size = room >= 2049 && once_in(8) ? 2047 + inputs_below(3) : 36;
    if (once_in(6)) return some_message(message);
    lay_message(message, size, (uint16_t)(2 + inputs_below(3)));
    message[23] = (uint8_t)((message[23] & 0xF0) | ptp_type);
    put(message + 24, 8, identity.clock);
    put(message + 32, 2, identity.port);
    put(message + 34, 2, identity.sequence);
    return size;
}

/* A call, with an empty message or cut off at times. Answers its size. */
static size_t lay_call(uint8_t *body, size_t room, const struct captured *captured) {
    size_t size = 17 + captured_message(body + 17, room - 17, captured);
    body[0] = captured->filling || !once_in(4) ? 2 : 1;
    put_stamps(body + 1);
    if (once_in(32)) size = once_in(16) ? 16 : 17;
    return size < room ? size : room;
}

/* At times with an octet too many. Answers its size. */
static size_t lay_tick(uint8_t *body) {
    body[0] = 3;
    return once_in(2048) ? 2 : 1;
}

/* Calls and ticks; but ticks once there is no room for a call, two octets for each later body and 17 behind. */
static size_t lay_capture(uint8_t *capture, size_t bodies, const struct captured *captured) {
    size_t k, at = 2 + 4 * bodies;
    put(capture, 2, bodies);
    for (k = 0; k < bodies; k++) {
        size_t room = MOST - 17 - at - 2 * (bodies - k);
        bool call = room >= 17 + 36 && !once_in(captured->ticks);
        put(capture + 2 + 4 * k, 4, at);
        at += call ? lay_call(capture + at, room, captured) : lay_tick(capture + at);
    }
    return at;
}

/* One thing that is wrong, or may be, in a capture of some bodies. Answers the size. */
static size_t spoil_capture(uint8_t *capture, size_t size, size_t bodies) {
    uint8_t *offset = capture + 2 + 4 * inputs_below(bodies);
    uint8_t *body = capture + get(offset, 4), *last = capture + get(capture + 4 * bodies - 2, 4);
    switch (inputs_below(11)) {
    case 0: put(offset, 4, near(get(offset, 4))); return size;
    case 1: put(offset, 4, UINT32_MAX - inputs_below(3 * MOST)); return size;
    case 2: offset[inputs_below(2)] = (uint8_t)any(); return size;
    case 3: capture[inputs_below(2 + 4 * bodies)] ^= (uint8_t)(1u << inputs_below(8)); return size;
    case 4: put(capture, 2, near(bodies)); return size;
    case 5: body[0] = (uint8_t)inputs_below(5); return size;
    case 6: last[0] = 3; return (size_t)(last - capture) + inputs_below(3);
    case 7: last[0] = 2; return (size_t)(last - capture) + 15 + inputs_below(3);
    case 8: return inputs_below(size);
    case 9: return size - 1;
    default: return size + 1;
    }
}

void input_for_capture(struct input *input) {
    static const size_t ends[] = {0, 1, 255, 256, 257};
    static const uint64_t identities[] = {1, 2, 8}, ticks[] = {2, 8, 64};
    size_t bodies = once_in(8) ? PICK(ends) : 1 + inputs_below(once_in(4) ? 8 : 40);
    struct captured captured;
    captured.identities = PICK(identities);
    captured.ticks = PICK(ticks);
    captured.filling = bodies > 32 && captured.ticks == 64;
    if (captured.filling) captured.identities = IDENTITIES;
    random_input(input);
    input->first_size = lay_capture(input->first, bodies, &captured);
    if (bodies > 0 && once_in(3)) input->first_size = spoil_capture(input->first, input->first_size, bodies);
    else if (once_in(32)) input->first_size = inputs_below(4);
}

/* A hop; its reserved octets are what they were. */
static void lay_hop(uint8_t *at, uint64_t spoilt) {
    static const uint64_t ends[] = {0, UNITS_LIMIT - 1}, bad[] = {UNITS_LIMIT, UNITS_LIMIT + 1, UINT64_MAX};
    struct rtm_hop hop;
    memcpy(&hop, at, sizeof hop);
    hop.mode = (uint8_t)(once_in(2) ? RTM_ONE_STEP : RTM_TWO_STEP);
    hop.residence = once_in(4) ? PICK(ends) : inputs_below(UNITS_LIMIT);
    if (once_in(spoilt)) hop.mode = once_in(2) ? (uint8_t)(3 * inputs_below(2)) : (uint8_t)any();
    if (once_in(spoilt)) hop.residence = PICK(bad);
    memcpy(at, &hop, sizeof hop);
}

void input_for_plan(struct input *input) {
    static const size_t ends[] = {0, 1, 254, 255, 256, 258};
    size_t i, hops = once_in(8) ? PICK(ends) : inputs_below(12);
    uint64_t spoilt = once_in(2) ? UINT64_C(1) << 40 : 1 + 2 * hops;
    random_input(input);
    input->first_size = hops * sizeof(struct rtm_hop);
    for (i = 0; i < hops; i++) lay_hop(input->first + i * sizeof(struct rtm_hop), spoilt);
    input->sync_pad = (int64_t)some_pad();
    input->follow_up_pad = (int64_t)some_pad();
}
