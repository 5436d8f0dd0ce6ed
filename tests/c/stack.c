/*
 * How much stack each call takes: it runs on a stack of its own, painted beforehand, and the lowest
 * byte that has changed tells. The frame of the function that calls is counted too. Every call is
 * made with all lengths up to the longest packet and beyond, accepted and refused, and the deepest
 * counts; two paints, since a byte may be written with the value that it had.
 */
#define _XOPEN_SOURCE 600

#include <string.h>
#include <ucontext.h>

#include "check.h"
#include "trelvox.h"

enum { STACK = 65536, LONGEST = TRELVOX_LONGEST_PACKET + 9 };

static union {
    uint8_t bytes[STACK];
    long double aligned;
} own;
static ucontext_t outside, inside;

/* ---- The calls, and what goes into them ------------------------------------------------------ */

static uint8_t data[LONGEST], buffer[LONGEST];
static uint32_t address, count;
static size_t parts[TRELVOX_PARTS];
static size_t length;
static volatile unsigned result;

static void crc8(void)
{
    result = trelvox_crc8(data, length);
}

static void crc16(void)
{
    result = trelvox_crc16(data, length);
}

static void form_write(void)
{
    result = trelvox_form_write(address, data, length, buffer, sizeof buffer);
}

static void form_read(void)
{
    result = trelvox_form_read(address, count, buffer, length);
}

static void form_write_read(void)
{
    result = trelvox_form_write_read(address, data, length, count, buffer, sizeof buffer);
}

/* Where the limits are good the bytes are a write of this length but for its CRC, else L is 0. */
static void read(void)
{
    result = trelvox_read(data, length, parts);
}

/* Takes as much as no call may. */
static void too_deep(void)
{
    volatile uint8_t bytes[TRELVOX_STACK];
    for (size_t i = 0; i < sizeof bytes; i++)
        bytes[i] = (uint8_t)(i + length);
    result = bytes[length];
}

/* ---- Measuring ------------------------------------------------------------------------------- */

static size_t once(void (*call)(void), int paint)
{
    size_t lowest = 0;
    memset(own.bytes, paint, STACK);
    getcontext(&inside);
    inside.uc_stack.ss_sp = own.bytes;
    inside.uc_stack.ss_size = STACK;
    inside.uc_link = &outside;
    makecontext(&inside, call, 0);
    swapcontext(&outside, &inside);
    while (lowest < STACK && own.bytes[lowest] == paint)
        lowest++;
    return STACK - lowest;
}

/* The most that the call takes, whatever its length, with good and with bad limits. */
static size_t most(void (*call)(void))
{
    size_t deepest = 0;
    for (length = 0; length < LONGEST; length++)
        for (int bad = 0; bad < 2; bad++)
            for (int paint = 0x5A; paint <= 0xA5; paint += 0xA5 - 0x5A) {
                address = bad ? 128 : 0x20;
                count = bad ? 0 : 2;
                data[0] = 0x4B;
                data[2] = (uint8_t)(bad ? 0 : length - 5);
                size_t taken = once(call, paint);
                deepest = taken > deepest ? taken : deepest;
            }
    return deepest;
}

static void check_call(const char *name, void (*call)(void))
{
    size_t taken = most(call);
    check(taken <= TRELVOX_STACK, "%s takes %zu bytes of stack, at most %d", name, taken, TRELVOX_STACK);
}

int main(void)
{
    heading("The most that a call takes, the frame of its caller included");
    check_call("trelvox_crc8", crc8);
    check_call("trelvox_crc16", crc16);
    check_call("trelvox_form_write", form_write);
    check_call("trelvox_form_read", form_read);
    check_call("trelvox_form_write_read", form_write_read);
    check_call("trelvox_read", read);
    check(most(too_deep) > TRELVOX_STACK, "a function that takes more is seen");
    return checks_done();
}
