/*
 * The stack of a call. Each call runs on a stack of its own, which was filled with a pattern before;
 * afterwards the lowest word that differs tells how deep the call went. No call may go deeper than
 * PD3120_STACK, no read, write, sample, lookup, tick, minute or windows deeper than PD3120_CALL_STACK,
 * no charge deeper than PD3120_CHARGE_STACK, and the deepest of each kind is printed. Here stand the
 * stack and main; the calls stand in stack_calls.c and stack_charge.c.
 *
 * For a build with -O2 and no sanitizer, which would use the stack as well.
 */
#define _XOPEN_SOURCE 700 /* ucontext.h */
#include "stack.h"

#include <stdio.h>
#include <string.h>
#include <ucontext.h>

static int failures;

void check(bool holds, const char *what)
{
    if (!holds) {
        fprintf(stderr, "stack: %s\n", what);
        failures++;
    }
}

/* ---- calls ---- */

static const char *const names[KINDS] = {"power_up", "store",   "read", "write",  "sample", "look_up",
                                         "minute",   "windows", "tick", "output", "charge"};

pd3120_module box;
uint8_t buffer[PD3120_IMAGE_SIZE + 1];
volatile uint64_t answer;
static uint64_t cents;
static struct call call;

static void touch_nothing(void)
{
}

#define KNOWN_BYTES 1000

static void touch_known(void)
{
    volatile uint8_t bytes[KNOWN_BYTES];
    for (size_t i = 0; i < sizeof bytes; i++)
        bytes[i] = 0;
}

/* Volatile, so that the compiler must call what they point to. */
static void (*volatile nothing)(void) = touch_nothing;
static void (*volatile known)(void) = touch_known;

/*
 * Makes the call. What the context functions use of the stack lies above the end of `apart`, and so
 * is never taken for the library's. The last line keeps the frame until the call is over.
 */
static void make(void)
{
    volatile uint8_t apart[1024];
    for (size_t i = 0; i < sizeof apart; i++)
        apart[i] = 0;
    switch (call.kind) {
    case POWER_UP: answer = pd3120_power_up(&box, buffer, call.length); break;
    case STORE: answer = pd3120_store(&box, buffer, call.length); break;
    case READ: answer = pd3120_read(&box, call.swno, buffer, call.length); break;
    case WRITE: answer = pd3120_write(&box, call.swno, buffer, call.length); break;
    case SAMPLE: answer = pd3120_sample(&box, call.channel, call.level, call.amperes); break;
    case LOOK_UP: answer = pd3120_look_up(&box, call.table, call.x); break;
    case MINUTE: answer = pd3120_set_minute(&box, call.minute); break;
    case WINDOWS: answer = pd3120_set_windows(&box, call.channel, call.windows, call.length); break;
    case TICK: pd3120_tick(&box); break;
    case OUTPUT: answer = pd3120_output(&box, call.channel); break;
    case CHARGE:
        answer = pd3120_charge(0, call.later, call.litres_per_pulse, call.tariff.blocks, call.tariff.limits,
                               call.tariff.prices, &cents);
        break;
    case KNOWN: known(); break;
    default: nothing(); break;
    }
    apart[0] = 1;
}

/* ---- the stack that is watched ---- */

#define WORDS 4096
#define PATTERN 0xA5A5A5A5A5A5A5A5u

static _Alignas(16) uint64_t stack[WORDS];
static ucontext_t here, there;

/* Makes a call on the stack, and gives the words that it left as they were. */
static size_t untouched_by(struct call made)
{
    size_t left = 0;

    call = made;
    for (size_t i = 0; i < WORDS; i++)
        stack[i] = PATTERN;
    getcontext(&there);
    there.uc_stack.ss_sp = stack;
    there.uc_stack.ss_size = sizeof stack;
    there.uc_link = &here;
    makecontext(&there, make, 0);
    swapcontext(&here, &there);
    while (left < WORDS && stack[left] == PATTERN)
        left++;
    return left;
}

static size_t start; /* words below the frame of make */
static size_t deepest[KINDS];
static unsigned calls;

/* A call of nothing touches the word of its return address alone. */
static void find_start(void)
{
    untouched_by((struct call){.kind = NOTHING});
    start = untouched_by((struct call){.kind = NOTHING}) + 1;
}

static size_t used(struct call made)
{
    return (start - untouched_by(made)) * sizeof stack[0];
}

void measure(struct call made)
{
    size_t bytes = used(made);
    if (bytes > deepest[made.kind])
        deepest[made.kind] = bytes;
    calls++;
}

/* The bytes that the header gives to a kind of call. */
static size_t bound_of(enum kind kind)
{
    switch (kind) {
    case READ:
    case WRITE:
    case SAMPLE:
    case LOOK_UP:
    case MINUTE:
    case WINDOWS:
    case TICK:
        return PD3120_CALL_STACK;
    case CHARGE:
        return PD3120_CHARGE_STACK;
    default:
        return PD3120_STACK;
    }
}

int main(void)
{
    static const uint8_t functions[] = {0x00, 0x10, 0x20, 0x30, 0x50};

    find_start();
    size_t bytes = used((struct call){.kind = KNOWN});
    check(bytes >= KNOWN_BYTES && bytes < KNOWN_BYTES + 64, "a known use is not found");

    /* Zero memory, twice: at the first call of memcpy a dynamic linker may use the same stack. */
    for (int round = 0; round < 2; round++) {
        memset(&box, 0, sizeof box);
        memset(deepest, 0, sizeof deepest);
        calls = 0;
        every_call();
    }
    for (size_t i = 0; i < sizeof functions; i++) {
        set_up(functions[i]);
        every_call();
        for (int tick = 0; tick < 5; tick++)
            pd3120_tick(&box);
        every_call();
    }
    charges();

    printf("stack: the most bytes that a call took, of %u calls\n", calls);
    for (int kind = 0; kind < KINDS; kind++) {
        size_t bound = bound_of(kind);
        printf("  %-8s %5zu of %zu\n", names[kind], deepest[kind], bound);
        check(deepest[kind] <= bound, "deeper than the header says");
    }
    return failures != 0;
}
