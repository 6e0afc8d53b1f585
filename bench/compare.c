/*
 * compare [inputs [seed]]: calls the library and plain C on the same random inputs, and stops with a report
 * at the first difference. Compared are the answer, everything that was lent, and every octet of the table.
 * Of the library it is also asked that a refusal leaves all as it came, and that output beyond what is
 * written stays. Each string ends where the memory does, so that a call that goes past it is stopped.
 */
#define _DEFAULT_SOURCE
#include "inputs.h"
#include "plain.h"
#include <inttypes.h>
#include <signal.h>
#include <stdio.h>
#include <stdlib.h>
#include <string.h>
#include <sys/mman.h>
#include <unistd.h>

/* What one call is lent, beside its table. */
struct lent {
    uint8_t *first, *second, *output;
    struct told *told;
};

typedef uint8_t library_call(struct lent *to, struct rtm_table *table, const struct input *in);
typedef uint8_t plain_call(struct lent *to, struct plain_table *table, const struct input *in);

#define CALL(name, ...) \
    static uint8_t library_##name(struct lent *to, struct rtm_table *table, const struct input *in) { \
        (void)to, (void)table, (void)in; \
        return rtm_##name(__VA_ARGS__); \
    } \
    static uint8_t own_##name(struct lent *to, struct plain_table *table, const struct input *in) { \
        (void)to, (void)table, (void)in; \
        return plain_##name(__VA_ARGS__); \
    }

CALL(read, to->first, in->first_size, &to->told->fields)
CALL(carried, to->first, in->first_size, &to->told->part)
CALL(residence, in->ntp, in->entry, in->exit, &to->told->units)
CALL(one_step, to->first, in->first_size, in->ntp, in->entry, in->exit)
CALL(two_step, table, to->first, in->first_size, to->output, in->room, in->ntp, in->entry, in->exit)
CALL(tick, table)
CALL(waiting, table)
CALL(write_image, table, to->output, in->room, &to->told->size)
CALL(load_image, table, to->first, in->first_size)
CALL(image_to_new, to->first, in->first_size, to->output, in->room, &to->told->size)
CALL(image_to_old, to->first, in->first_size, to->output, in->room, &to->told->size)
CALL(join, to->first, in->first_size, to->second, in->second_size, &to->told->joined)
CALL(correct, to->first, in->first_size, to->second, in->second_size, in->place, to->output, in->room)
CALL(address_count, to->first, in->first_size, &to->told->size)
CALL(address_entry, to->first, in->first_size, in->place, &to->told->part)
CALL(next_ttl, to->first, in->first_size, to->second, in->second_size, in->place, &to->told->ttl)
CALL(write_labels, to->first, in->first_size, to->second, in->second_size, in->place, in->label, to->output,
     in->room)
CALL(replay, to->first, in->first_size, &to->told->report)
CALL(plan, (const void *)to->first, in->first_size / sizeof(struct rtm_hop), in->sync_pad, in->follow_up_pad,
     in->two_step, &to->told->pads)

static uint8_t library_write(struct lent *to, struct rtm_table *table, const struct input *in) {
    (void)table;
    return rtm_write(&to->told->fields, to->first, in->first_size, to->output, in->room, &to->told->size);
}

/* For the library S is any octet but 0; plain C is handed a bool. */
static uint8_t own_write(struct lent *to, struct plain_table *table, const struct input *in) {
    struct rtm_fields fields = to->told->fields;
    uint8_t octet;
    (void)table;
    memcpy(&octet, &to->told->fields.two_step, 1);
    fields.two_step = octet != 0;
    return plain_write(&fields, to->first, in->first_size, to->output, in->room, &to->told->size);
}

static uint8_t library_new(struct lent *to, struct rtm_table *table, const struct input *in) {
    (void)to, (void)in;
    rtm_new(table);
    return 0;
}

static uint8_t own_new(struct lent *to, struct plain_table *table, const struct input *in) {
    (void)to, (void)in;
    plain_new(table);
    return 0;
}

/* The operations, how often each is taken, and the answers that must come, and no others: 11 from joining and
   correcting alone. */

#define READING "1 2 3 4 5 6 7 8"
#define COUNTS "0 1 2 3 4 5 6 7 8 9 10 11 12 13 14 15 16"
#define REPORTED "64 65 66 67 68 " READING " 9 10 13 14 15 16"      /* the counts of a report that must come */
#define SAME(name) #name, library_##name, own_##name

static const struct operation {
    const char *name;
    library_call *library;
    plain_call *plain;
    void (*input)(struct input *);
    unsigned weight;
    const char *answers;
} operations[] = {
    {SAME(read), input_for_message, 4, "0 " READING},
    {SAME(carried), input_for_message, 4, "0 " READING},
    {SAME(write), input_for_write, 4, "0 6 17 23 7 2 12"},
    {SAME(residence), input_for_message, 4, "0 9 10"},
    {SAME(one_step), input_for_message, 12, "64 65 " READING " 9 10"},
    {SAME(two_step), input_for_message, 32, "65 66 67 68 " READING " 16 9 10 12 13 14 15"},
    {SAME(new), input_for_message, 1, "0"},
    {SAME(tick), input_for_message, 8, COUNTS},
    {SAME(waiting), input_for_message, 2, COUNTS},
    {SAME(write_image), input_for_message, 8, "0 22 12"},
    {SAME(load_image), input_for_image, 8, "0 22"},
    {SAME(image_to_new), input_for_image, 8, "0 22 12"},
    {SAME(image_to_old), input_for_image, 8, "0 22 27 12"},
    {SAME(join), input_for_pair, 12, "0 " READING " 18 11"},
    {SAME(correct), input_for_correction, 12, "0 " READING " 18 11 30 31 32 33"},
    {SAME(address_count), input_for_list, 4, "0 19 20"},
    {SAME(address_entry), input_for_list, 4, "0 19 20 21"},
    {SAME(next_ttl), input_for_path, 13, "0 19 20 21 24"},
    {SAME(write_labels), input_for_path, 8, "0 19 20 21 24 25 12"},
    {SAME(replay), input_for_capture, 6, "0 26"},
    {SAME(plan), input_for_plan, 8, "0 28 29 10"},
};
enum { OPERATIONS = sizeof operations / sizeof *operations, DISTANCES = 127 };

static uint64_t seen[OPERATIONS][256], seen_ttl[256];
static uint64_t seen_reported[256];          /* in how many reports each answer was counted */

/* The input that is being tried, for the report. */
static struct input input;
static const struct operation *operation;
static uint64_t tried, seed;

static void show(const char *name, const void *octets, size_t size) {
    const uint8_t *at = octets;
    size_t i;
    printf("  %-20s", name);
    if (size == 0) printf(" (no octets)");
    for (i = 0; i < size; i++) {
        if (i > 0 && i % 24 == 0) printf("\n%22s", "");
        printf(" %02x", at[i]);
    }
    printf("\n");
}

static void report(const char *what) {
    printf("%s: %s, input %" PRIu64 " of seed %" PRIu64 "\n", operation->name, what, tried, seed);
    show("first", input.first, input.first_size);
    show("second", input.second, input.second_size);
    show("output", input.output, input.room);
    printf("  room %zu, place %zu, label %" PRIu32, input.room, input.place, input.label);
    printf(", %s", input.ntp ? "NTP" : "PTP");
    printf(" stamps %" PRIu32 ".%" PRIu32, input.entry.seconds, input.entry.part);
    printf(" and %" PRIu32 ".%" PRIu32 "\n", input.exit.seconds, input.exit.part);
    printf("  pads %" PRId64 " and %" PRId64 ", S %d\n", input.sync_pad, input.follow_up_pad, input.two_step);
    show("table", &input.table, sizeof input.table);
    show("places", &input.told, sizeof input.told);
}

static void same(const char *what, const void *found, const void *expected, size_t size) {
    if (size == 0 || memcmp(found, expected, size) == 0) return;
    report(what);
    show("library", found, size);
    show("expected", expected, size);
    exit(1);
}

static void same_answer(uint8_t found, uint8_t expected) {
    if (found == expected) return;
    report("answer");
    printf("  library %u, plain C %u\n", (unsigned)found, (unsigned)expected);
    exit(1);
}

static void stopped(int number) {
    (void)number;
    report("went past what it was lent");
    fflush(stdout);
    _exit(1);
}

/* Memory that ends where a page does that cannot be touched. */

struct memory {
    uint8_t *first, *second, *output, *told, *table;
};

static uint8_t *end_of_memory(void) {
    size_t page = (size_t)sysconf(_SC_PAGESIZE), size = (MOST + page - 1) / page * page;
    void *start = mmap(NULL, size + page, PROT_READ | PROT_WRITE, MAP_PRIVATE | MAP_ANONYMOUS, -1, 0);
    if (start == MAP_FAILED || mprotect((uint8_t *)start + size, page, PROT_NONE) != 0) {
        perror("memory");
        exit(2);
    }
    return (uint8_t *)start + size;
}

static struct memory new_memory(void) {
    struct memory memory;
    memory.first = end_of_memory();
    memory.second = end_of_memory();
    memory.output = end_of_memory();
    memory.told = end_of_memory();
    memory.table = end_of_memory();
    return memory;
}

static void *lend(uint8_t *end, const void *octets, size_t size) {
    return memcpy(end - size, octets, size);
}

static struct lent lend_all(const struct memory *memory) {
    struct lent lent;
    lent.first = lend(memory->first, input.first, input.first_size);
    lent.second = lend(memory->second, input.second, input.second_size);
    lent.output = lend(memory->output, input.output, input.room);
    lent.told = lend(memory->told, &input.told, sizeof input.told);
    return lent;
}

static struct lent with_nulls(struct lent lent) {
    if (input.null && input.first_size == 0) lent.first = NULL;
    if (input.null && input.second_size == 0) lent.second = NULL;
    if (input.null && input.room == 0) lent.output = NULL;
    return lent;
}

/* Tables: the library's as plain C holds it, and what the library must hold after plain C's call. */

static void to_plain(const struct rtm_table *table, struct plain_table *plain) {
    int i;
    memset(plain, 0, sizeof *plain);
    plain->number = table->number;
    for (i = 0; i < PLAIN_SLOTS; i++) {
        const struct rtm_slot *from = &table->slot[i];
        struct plain_record *to = &plain->slot[i];
        to->clock = from->clock;
        to->residence = from->residence;
        to->port = from->port;
        to->sequence = from->sequence;
        to->kind = from->kind & 1;
        to->wait = from->wait;
    }
}

/* What is reserved stays, but in a slot that was filled or emptied, or in all of them, it becomes zeros. */
static void expected_table(const struct rtm_table *before, const struct plain_table *plain, bool all,
                           struct rtm_table *after) {
    int i;
    *after = *before;
    after->number = plain->number;
    for (i = 0; i < PLAIN_SLOTS; i++) {
        const struct plain_record *from = &plain->slot[i];
        struct rtm_slot *to = &after->slot[i];
        if (all || (to->wait == 0) != (from->wait == 0)) memset(to, 0, sizeof *to);
        to->clock = from->clock;
        to->residence = from->residence;
        to->port = from->port;
        to->sequence = from->sequence;
        to->kind = (uint8_t)((to->kind & 0xFE) | from->kind);
        to->wait = from->wait;
    }
}

/* One input. */

static bool is_count(void) {
    return operation->library == library_tick || operation->library == library_waiting;
}

static bool is_refusal(uint8_t answer) {
    return !is_count() && answer > 0 && answer < RTM_UPDATED;
}

/* It tells how many octets of the output it wrote. */
static bool tells_size(void) {
    return operation->library == library_write || operation->library == library_write_image ||
           operation->library == library_image_to_new || operation->library == library_image_to_old;
}

/* How many octets of the output the library may have changed; in a copy, up to its correctionField's end. */
static size_t written(uint8_t answer, const struct told *told) {
    if (operation->library == library_two_step) return answer == RTM_CREATED ? RTM_CREATED_SIZE : 0;
    if (operation->library == library_write_labels) return answer == 0 ? RTM_LABELS_SIZE : 0;
    if (operation->library == library_correct) return answer == 0 ? input.place + 16 : 0;
    if (tells_size()) return answer == 0 ? told->size : 0;
    return 0;
}

static void check_refusal(const struct lent *lent, const struct rtm_table *table) {
    same("first after a refusal", lent->first, input.first, input.first_size);
    same("second after a refusal", lent->second, input.second, input.second_size);
    same("output after a refusal", lent->output, input.output, input.room);
    same("places after a refusal", lent->told, &input.told, sizeof input.told);
    same("table after a refusal", table, &input.table, sizeof input.table);
}

static void see_report(const struct rtm_report *report) {
    int i;
    for (i = 0; i <= RTM_NOT_FOR_TWO_STEP; i++) seen_reported[i] += report->refused[i] > 0;
    seen_reported[RTM_UPDATED] += report->updated > 0;
    seen_reported[RTM_PASSED] += report->passed > 0;
    seen_reported[RTM_CREATED] += report->created > 0;
    seen_reported[RTM_WAITING] += report->waiting > 0;
    seen_reported[RTM_ADDED] += report->added > 0;
}

static uint8_t compare(const struct memory *library, const struct memory *plain) {
    struct lent ours = lend_all(library), own = lend_all(plain), handed = with_nulls(ours);
    struct rtm_table *table = lend(library->table, &input.table, sizeof input.table), after;
    struct plain_table plain_table;
    uint8_t answer, wanted;
    size_t start;
    bool all;
    to_plain(&input.table, &plain_table);
    wanted = operation->plain(&own, &plain_table, &input);
    answer = operation->library(&handed, table, &input);
    same_answer(answer, wanted);
    same("first", ours.first, own.first, input.first_size);
    same("second", ours.second, own.second, input.second_size);
    same("output", ours.output, own.output, input.room);
    same("places", ours.told, own.told, sizeof *own.told);
    all = answer == 0 && operation->library == library_load_image;
    expected_table(&input.table, &plain_table, all, &after);
    if (operation->library == library_new) memset(&after, 0, sizeof after);
    same("table", table, &after, sizeof after);
    if (is_refusal(answer)) check_refusal(&ours, table);
    start = written(answer, ours.told);
    if (start > input.room) same("size written", &start, &input.room, sizeof start);
    same("output beyond", ours.output + start, input.output + start, input.room - start);
    if (operation->library == library_next_ttl && answer == 0) seen_ttl[ours.told->ttl]++;
    if (operation->library == library_replay && answer == 0) see_report(&ours.told->report);
    return answer;
}

static unsigned some_operation(void) {
    unsigned i, all = 0;
    uint64_t at;
    for (i = 0; i < OPERATIONS; i++) all += operations[i].weight;
    at = inputs_below(all);
    for (i = 0; at >= operations[i].weight; i++) at -= operations[i].weight;
    return i;
}

static uint64_t others;                      /* how many answers came that no list has */

/* Prints how often each of the answers came that must come. Answers how many did not. */
static int print_answers(const char *name, const char *answers, const uint64_t *came) {
    static const char *const words[] = {"updated", "passed", "created", "waiting", "added"};
    int i, missing = 0;
    for (i = 0; i < 256; i++) others += came[i];
    printf("%-14s", name);
    while (*answers != 0) {
        char *end;
        unsigned long answer = strtoul(answers, &end, 10);
        if (answer >= RTM_UPDATED) printf(" %s", words[answer - RTM_UPDATED]);
        else printf(" %lu", answer);
        printf(":%" PRIu64, came[answer]);
        if (came[answer] == 0) missing++;
        others -= came[answer];
        answers = end;
    }
    printf("\n");
    return missing;
}

/* Prints how many distances to the next timing node came. Answers how many did not. */
static int print_distances(void) {
    int ttl, missing = 0;
    for (ttl = 1; ttl <= DISTANCES; ttl++) missing += seen_ttl[ttl] == 0;
    printf("%-14s %d of %d\n", "distances", DISTANCES - missing, DISTANCES);
    return missing;
}

/* Prints all that came. Answers how many that must come did not. */
static int print_seen(void) {
    int i, missing = 0;
    for (i = 0; i < OPERATIONS; i++) {
        missing += print_answers(operations[i].name, operations[i].answers, seen[i]);
    }
    return missing + print_answers("in reports", REPORTED, seen_reported) + print_distances();
}

int main(int argc, char **argv) {
    uint64_t inputs = argc > 1 ? strtoull(argv[1], NULL, 10) : 100000;
    struct memory library = new_memory(), plain = new_memory();
    int missing;
    seed = argc > 2 ? strtoull(argv[2], NULL, 10) : 1;
    inputs_seed(seed);
    signal(SIGSEGV, stopped);
    for (tried = 1; tried <= inputs; tried++) {
        unsigned i = some_operation();
        operation = &operations[i];
        operation->input(&input);
        seen[i][compare(&library, &plain)]++;
    }
    missing = print_seen();
    printf("library and plain C agree on %" PRIu64 " inputs of seed %" PRIu64 "\n", inputs, seed);
    if (others > 0) {
        printf("%" PRIu64 " answers are in no list\n", others);
        return 1;
    }
    if (missing == 0 || inputs < 100000) return 0;
    printf("%d answers, counts or distances did not come\n", missing);
    return 1;
}
