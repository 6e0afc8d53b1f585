/*
 * stack [inputs [seed]]: how many octets of stack one call of each function uses, its return address
 * included. Calls on random inputs, and on lists of most entries, run on a stack that was painted before; the
 * deepest word that is no longer paint counts.
 */
#define _DEFAULT_SOURCE
#include "inputs.h"
#include <stdio.h>
#include <stdlib.h>
#include <string.h>
#include <ucontext.h>

enum { WORDS = 1 << 13, WORD = 8, INPUTS = 5000, ENTRIES = 128, ENTRY = 8 };
#define PAINT UINT64_C(0xA55AC33C96690FF0)

typedef void function(void);

static struct input input;

/* A call must return here, and not to the caller of the function that makes it. */
#define RETURN_HERE __asm__ volatile("" ::: "memory")

/* A call of any function with the arguments of the one that is named. */
#define CALL(name, ...) \
    static void call_##name(function *any) { \
        (void)((__typeof__(&rtm_##name))any)(__VA_ARGS__); \
        RETURN_HERE; \
    }

CALL(read, input.first, input.first_size, &input.told.fields)
CALL(carried, input.first, input.first_size, &input.told.part)
CALL(write, &input.told.fields, input.first, input.first_size, input.output, input.room, &input.told.size)
CALL(residence, input.ntp, input.entry, input.exit, &input.told.units)
CALL(one_step, input.first, input.first_size, input.ntp, input.entry, input.exit)
CALL(two_step, &input.table, input.first, input.first_size, input.output, input.room, input.ntp, input.entry,
     input.exit)
CALL(new, &input.table)
CALL(tick, &input.table)
CALL(waiting, &input.table)
CALL(write_image, &input.table, input.output, input.room, &input.told.size)
CALL(load_image, &input.table, input.first, input.first_size)
CALL(image_to_new, input.first, input.first_size, input.output, input.room, &input.told.size)
CALL(image_to_old, input.first, input.first_size, input.output, input.room, &input.told.size)
CALL(join, input.first, input.first_size, input.second, input.second_size, &input.told.joined)
CALL(correct, input.first, input.first_size, input.second, input.second_size, input.place, input.output,
     input.room)
CALL(address_count, input.first, input.first_size, &input.told.size)
CALL(address_entry, input.first, input.first_size, input.place, &input.told.part)
CALL(next_ttl, input.first, input.first_size, input.second, input.second_size, input.place, &input.told.ttl)
CALL(write_labels, input.first, input.first_size, input.second, input.second_size, input.place, input.label,
     input.output, input.room)
CALL(replay, input.first, input.first_size, &input.told.report)
CALL(plan, (const void *)input.first, input.first_size / sizeof(struct rtm_hop), input.sync_pad,
     input.follow_up_pad, input.two_step, &input.told.pads)

#define MEASURED(name) #name, call_##name, (function *)rtm_##name

static const struct measured {
    const char *name;
    void (*call)(function *);
    function *library;
    void (*input)(struct input *);
} measured[] = {
    {MEASURED(read), input_for_message},
    {MEASURED(carried), input_for_message},
    {MEASURED(write), input_for_write},
    {MEASURED(residence), input_for_message},
    {MEASURED(one_step), input_for_message},
    {MEASURED(two_step), input_for_message},
    {MEASURED(new), input_for_message},
    {MEASURED(tick), input_for_message},
    {MEASURED(waiting), input_for_message},
    {MEASURED(write_image), input_for_message},
    {MEASURED(load_image), input_for_image},
    {MEASURED(image_to_new), input_for_image},
    {MEASURED(image_to_old), input_for_image},
    {MEASURED(join), input_for_pair},
    {MEASURED(correct), input_for_correction},
    {MEASURED(address_count), input_for_list},
    {MEASURED(address_entry), input_for_list},
    {MEASURED(next_ttl), input_for_path},
    {MEASURED(write_labels), input_for_path},
    {MEASURED(replay), input_for_capture},
    {MEASURED(plan), input_for_plan},
};
enum { FUNCTIONS = sizeof measured / sizeof *measured };

/* The painted stack, and where on it the return address of a call ends. */
static uint64_t stack[WORDS] __attribute__((aligned(64)));
static const uint64_t *top;
static ucontext_t caller, painted;
static const struct measured *now;
static function *called;

/* Its frame begins with the return address and the frame before. */
static __attribute__((noinline)) void mark(void) {
    top = (const uint64_t *)__builtin_frame_address(0) + 2;
}

static __attribute__((noinline)) void nothing(void) {
    __asm__ volatile("");
}

static void on_stack(void) {
    now->call(called);
    RETURN_HERE;
}

static void run(function *it) {
    called = it;
    getcontext(&painted);
    painted.uc_stack.ss_sp = stack;
    painted.uc_stack.ss_size = sizeof stack;
    painted.uc_link = &caller;
    makecontext(&painted, on_stack, 0);
    swapcontext(&caller, &painted);
}

static long used_by(function *it) {
    const uint64_t *deepest = stack;
    int i;
    run(mark);
    for (i = 0; i < WORDS; i++) stack[i] = PAINT;
    run(it);
    while (deepest < top && *deepest == PAINT) deepest++;
    if (deepest == stack) {
        printf("%s: more than %d octets\n", now->name, WORDS * WORD);
        exit(1);
    }
    return (top - deepest) * WORD;
}

static void lay_entry(uint8_t *at, size_t number) {
    static const uint8_t octets[ENTRY] = {1, ENTRY};
    memcpy(at, octets, ENTRY);
    at[ENTRY - 1] = (uint8_t)number;
}

/* Lists of 128 entries. The last of the first stands at the end of the second if it is to be found there, and
   no other does. */
static void longest_lists(size_t place, bool found) {
    size_t i;
    input.first_size = input.second_size = ENTRIES * ENTRY;
    for (i = 0; i < ENTRIES; i++) {
        bool same = found && i == ENTRIES - 1;
        lay_entry(input.first + i * ENTRY, i);
        lay_entry(input.second + i * ENTRY, same ? i : ENTRIES + i);
    }
    input.place = place;
    input.label = 16;
    input.room = RTM_LABELS_SIZE;
}

/* On the longest lists, for every place, and on random inputs. */
static long most_used(long inputs) {
    bool lists = now->input == input_for_list || now->input == input_for_path;
    long i, used, most = 0;
    for (i = lists ? -2 * ENTRIES : 0; i < inputs; i++) {
        now->input(&input);
        if (i < 0) longest_lists((size_t)-i % ENTRIES, i < -ENTRIES);
        used = used_by(now->library);
        if (used > most) most = used;
    }
    return most;
}

int main(int argc, char **argv) {
    long inputs = argc > 1 ? atol(argv[1]) : INPUTS, largest = 0;
    int i;
    inputs_seed(argc > 2 ? strtoull(argv[2], NULL, 10) : 1);
    printf("%-16s %s\n", "function", "stack, octets");
    for (i = 0; i < FUNCTIONS; i++) {
        long most;
        now = &measured[i];
        most = most_used(inputs);
        if (used_by(nothing) != WORD) {
            printf("%s: a call of nothing uses %ld octets\n", now->name, used_by(nothing));
            return 1;
        }
        printf("%-16s %13ld\n", now->name, most);
        if (most > largest) largest = most;
    }
    printf("%-16s %13ld\n", "largest", largest);
    return 0;
}
