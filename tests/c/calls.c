/*
 * Calls every function of trelvox.h on good and on bad input (document 01, "Packets", "Numbers
 * returned", "Tried on paper"). After each forming call the whole memory around the buffer is
 * compared: the packet where one was formed, and every other byte as it was before.
 *
 * The packets wanted are put together here from the document's forms; their checksums are written
 * out, so that nothing of the library decides what is right.
 */
#include <stdio.h>
#include <string.h>

#include "check.h"
#include "trelvox.h"

/* ---- Checksums ------------------------------------------------------------------------------- */

static void check_crc8(const char *what, const uint8_t *bytes, size_t length, unsigned wanted)
{
    unsigned got = trelvox_crc8(bytes, length);
    check(got == wanted, "CRC-8 of %s: %02X", what, got);
}

static void check_crc16(const char *what, const uint8_t *bytes, size_t length, unsigned wanted)
{
    unsigned got = trelvox_crc16(bytes, length);
    check(got == wanted, "CRC-16 of %s: %04X", what, got);
}

static const uint8_t digits[] = {'1', '2', '3', '4', '5', '6', '7', '8', '9'};

static void check_crc8_vectors(void)
{
    static const uint8_t id_c[] = {0x02, 0x1C, 0xB8, 0x01, 0x00, 0x00, 0x00, 0xA2};
    static const uint8_t id_a[] = {0x19, 0x01, 0x00, 0x00, 0x00, 0x00, 0x00};
    static const uint8_t id_b[] = {0x19, 0x02, 0x00, 0x00, 0x00, 0x00, 0x00};
    static const uint8_t zeros[7] = {0};

    heading("CRC-8");
    check_crc8("02 1C B8 01 00 00 00 (P1)", id_c, 7, 0xA2);
    check_crc8("19 01 00 00 00 00 00 (P2)", id_a, 7, 0x00);
    check_crc8("19 02 00 00 00 00 00 (P3)", id_b, 7, 0x59);
    check_crc8("seven zeros (P4)", zeros, 7, 0x00);
    check_crc8("02 1C B8 01 00 00 00 A2, an ID whole", id_c, 8, 0x00);
    check_crc8("\"123456789\"", digits, sizeof digits, 0xA1);
    check_crc8("no bytes", digits, 0, 0x00);
    check_crc8("no bytes, NULL", NULL, 0, 0x00);
}

static void check_crc16_vectors(void)
{
    static const uint8_t head_of_p6[] = {0x87, 0x41, 0x02};

    heading("CRC-16");
    check_crc16("\"123456789\"", digits, sizeof digits, 0xBB3D);
    check_crc16("87 41 02 (P6, inverted 47FE)", head_of_p6, sizeof head_of_p6, 0xB801);
    check_crc16("no bytes", digits, 0, 0x0000);
    check_crc16("no bytes, NULL", NULL, 0, 0x0000);
}

/* ---- Forming: one call and the memory around it ---------------------------------------------- */

enum form { WRITE, READ, WRITE_READ };

static const char *const form_names[] = {"write", "read", "write-read"};

struct call {
    enum form form;
    uint32_t address;
    size_t data_length; /* L, not used for a read */
    uint32_t count;     /* R, not used for a write */
};

enum { GUARD = 32, ROOM = 340, MOST_DATA = 300 };

static uint8_t memory[GUARD + ROOM + GUARD];
static uint8_t memory_wanted[sizeof memory];
static uint8_t data[MOST_DATA];

/* The data of every call, and what lies in memory before it: never the same for long. */
static uint8_t data_byte(size_t i)
{
    return (uint8_t)(7 * i + 1);
}

static void fill_memory(void)
{
    for (size_t i = 0; i < sizeof data; i++)
        data[i] = data_byte(i);
    for (size_t i = 0; i < sizeof memory; i++)
        memory_wanted[i] = memory[i] = (uint8_t)(0xC3 ^ (29 * i));
}

static int data_is_unchanged(void)
{
    for (size_t i = 0; i < sizeof data; i++)
        if (data[i] != data_byte(i))
            return 0;
    return 1;
}

static uint8_t form(const struct call *c, uint8_t *buffer, size_t buffer_length)
{
    const uint8_t *lent = c->data_length == 0 ? NULL : data;
    switch (c->form) {
    case WRITE:
        return trelvox_form_write(c->address, lent, c->data_length, buffer, buffer_length);
    case READ:
        return trelvox_form_read(c->address, c->count, buffer, buffer_length);
    default:
        return trelvox_form_write_read(c->address, lent, c->data_length, c->count, buffer,
                                       buffer_length);
    }
}

static size_t packet_length(const struct call *c)
{
    switch (c->form) {
    case WRITE:
        return TRELVOX_WRITE_LENGTH(c->data_length);
    case READ:
        return TRELVOX_READ_LENGTH;
    default:
        return TRELVOX_WRITE_READ_LENGTH(c->data_length);
    }
}

/* Makes the call with a buffer in the middle of memory, or with NULL, and compares all of it. */
static int call_leaves(const struct call *c, uint8_t wanted, int with_null, size_t buffer_length)
{
    uint8_t got = form(c, with_null ? NULL : memory + GUARD, buffer_length);
    int holds = got == wanted && memcmp(memory, memory_wanted, sizeof memory) == 0 &&
                data_is_unchanged();
    return check_quietly(holds, "%s, address %lu, L %lu, R %lu, buffer of %lu%s: %u, wanted %u%s",
                         form_names[c->form], (unsigned long)c->address,
                         (unsigned long)c->data_length, (unsigned long)c->count,
                         (unsigned long)buffer_length, with_null ? " (NULL)" : "", got, wanted,
                         got == wanted ? ", with other bytes in memory than wanted" : "");
}

/* ---- Forming: whole packets written out ------------------------------------------------------ */

static void check_packet(const char *what, const struct call *c, const uint8_t *packet)
{
    size_t length = packet_length(c);
    fill_memory();
    memcpy(memory_wanted + GUARD, packet, length);
    int exactly = call_leaves(c, TRELVOX_DONE, 0, length);
    fill_memory();
    memcpy(memory_wanted + GUARD, packet, length);
    int longer = call_leaves(c, TRELVOX_DONE, 0, ROOM);
    check(exactly && longer, "%s", what);
}

static void check_packets(void)
{
    static const struct call read = {READ, 0x20, 0, 2};
    static const uint8_t read_packet[] = {0x87, 0x41, 0x02, 0xFE, 0x47};
    static const struct call write = {WRITE, 0x20, 3, 0};
    static const uint8_t write_packet[] = {0x4B, 0x40, 0x03, 0x01, 0x08, 0x0F, 0xE7, 0xCB};
    static const struct call write_read = {WRITE_READ, 0x20, 1, 2};
    static const uint8_t write_read_packet[] = {0x2D, 0x40, 0x01, 0x01, 0x02, 0x97, 0xA8};

    heading("Packets, in a buffer just long enough and in one of 340 bytes");
    check_packet("read, address 20h, 2 bytes: 87 41 02 FE 47 (P6)", &read, read_packet);
    check_packet("write, address 20h, 01 08 0F: 4B 40 03 01 08 0F E7 CB", &write, write_packet);
    check_packet("write 01 and read 2, address 20h: 2D 40 01 01 02 97 A8", &write_read,
                 write_read_packet);
}

/* ---- Forming: at and beyond every limit ------------------------------------------------------ */

static const uint32_t addresses[] = {0, 127, 128, 255, 256, 0xFFFFFFFF};
static const uint32_t counts[] = {0, 1, 255, 256, 0xFFFFFFFF};
static const size_t data_lengths[] = {0, 1, 255, 256, 300};

enum { ADDRESSES = 6, COUNTS = 5, DATA_LENGTHS = 5 };

/* The last two bytes of every packet within the limits above. */
static const struct ending {
    struct call call;
    uint8_t low, high;
} endings[] = {
    {{WRITE, 0, 1, 0}, 0x28, 0x4B},          {{WRITE, 0, 255, 0}, 0x6C, 0xC0},
    {{WRITE, 127, 1, 0}, 0x49, 0xBB},        {{WRITE, 127, 255, 0}, 0x04, 0xB4},
    {{READ, 0, 0, 1}, 0x8F, 0x86},           {{READ, 0, 0, 255}, 0x0E, 0x06},
    {{READ, 127, 0, 1}, 0xCF, 0xE6},         {{READ, 127, 0, 255}, 0x4E, 0x66},
    {{WRITE_READ, 0, 1, 1}, 0xC2, 0x69},     {{WRITE_READ, 0, 1, 255}, 0x43, 0xE9},
    {{WRITE_READ, 0, 255, 1}, 0x59, 0xDC},   {{WRITE_READ, 0, 255, 255}, 0xD8, 0x5C},
    {{WRITE_READ, 127, 1, 1}, 0xF3, 0x81},   {{WRITE_READ, 127, 1, 255}, 0x72, 0x01},
    {{WRITE_READ, 127, 255, 1}, 0x2C, 0x32}, {{WRITE_READ, 127, 255, 255}, 0xAD, 0xB2},
};

static const struct ending *ending_of(const struct call *c)
{
    for (size_t i = 0; i < sizeof endings / sizeof endings[0]; i++) {
        const struct call *e = &endings[i].call;
        if (e->form == c->form && e->address == c->address &&
            e->data_length == c->data_length && e->count == c->count)
            return &endings[i];
    }
    return NULL;
}

static void put_packet(const struct call *c, uint8_t *at)
{
    static const uint8_t codes[] = {0x4B, 0x87, 0x2D};
    const struct ending *ending = ending_of(c);
    *at++ = codes[c->form];
    *at++ = (uint8_t)(2 * c->address + (c->form == READ ? 1 : 0));
    if (c->form != READ) {
        *at++ = (uint8_t)c->data_length;
        for (size_t i = 0; i < c->data_length; i++)
            *at++ = data_byte(i);
    }
    if (c->form != WRITE)
        *at++ = (uint8_t)c->count;
    *at++ = ending->low;
    *at++ = ending->high;
}

static int in_limits(const struct call *c)
{
    int data_fits = c->form == READ || (c->data_length >= 1 && c->data_length <= 255);
    int count_fits = c->form == WRITE || (c->count >= 1 && c->count <= 255);
    return c->address <= 127 && data_fits && count_fits;
}

/* How often each number was wanted, for the line printed. */
struct tally {
    unsigned done, out_of_limits, too_short;
    int all_hold;
};

static void try_buffer(const struct call *c, int with_null, size_t buffer_length, struct tally *t)
{
    uint8_t wanted = TRELVOX_DONE;
    fill_memory();
    if (!in_limits(c)) {
        wanted = TRELVOX_OUT_OF_LIMITS;
        t->out_of_limits++;
    } else if (buffer_length < packet_length(c)) {
        wanted = TRELVOX_BUFFER_TOO_SHORT;
        t->too_short++;
    } else {
        put_packet(c, memory_wanted + GUARD);
        t->done++;
    }
    t->all_hold &= call_leaves(c, wanted, with_null, buffer_length);
}

static void try_buffers(const struct call *c, struct tally *t)
{
    size_t enough = packet_length(c);
    try_buffer(c, 0, enough, t);
    try_buffer(c, 0, enough - 1, t);
    try_buffer(c, 0, enough + 1, t);
    try_buffer(c, 0, ROOM, t);
    try_buffer(c, 0, 1, t);
    try_buffer(c, 0, 0, t);
    try_buffer(c, 1, 0, t);
}

static void check_address(enum form form, uint32_t address)
{
    struct tally t = {0, 0, 0, 1};
    for (int l = 0; l < (form == READ ? 1 : DATA_LENGTHS); l++) {
        for (int r = 0; r < (form == WRITE ? 1 : COUNTS); r++) {
            struct call c = {form, address, form == READ ? 0 : data_lengths[l],
                             form == WRITE ? 0 : counts[r]};
            try_buffers(&c, &t);
        }
    }
    check(t.all_hold, "%s, address %lu: %u calls done, %u give 11, %u give 12", form_names[form],
          (unsigned long)address, t.done, t.out_of_limits, t.too_short);
}

static void check_limits(void)
{
    heading("Limits: L of 0, 1, 255, 256, 300; R of 0, 1, 255, 256, 4294967295;\n"
            "buffers just long enough, one shorter, one longer, of 340, 1 and 0 bytes, and NULL");
    for (int f = WRITE; f <= WRITE_READ; f++)
        for (int a = 0; a < ADDRESSES; a++)
            check_address((enum form)f, addresses[a]);
}

/* No data bytes, though the pointer is not NULL. */
static void check_empty_data(void)
{
    fill_memory();
    uint8_t write = trelvox_form_write(0, data, 0, memory + GUARD, ROOM);
    uint8_t write_read = trelvox_form_write_read(0, data, 0, 1, memory + GUARD, ROOM);
    int stays = memcmp(memory, memory_wanted, sizeof memory) == 0;
    check(write == TRELVOX_OUT_OF_LIMITS && write_read == TRELVOX_OUT_OF_LIMITS && stays,
          "L of 0 with data that is not NULL: write gives %u, write-read %u", write, write_read);
}

int main(void)
{
    check_crc8_vectors();
    check_crc16_vectors();
    check_packets();
    check_limits();
    check_empty_data();
    return checks_done();
}
