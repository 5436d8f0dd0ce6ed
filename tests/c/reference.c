#include "reference.h"

/* ---- "Probe identities" and "Packets": the shift registers ----------------------------------- */

/*
 * One bit into a register whose low bit is the last stage. The bit that falls out, added to the one
 * that comes in, goes to the stages of the polynomial: the term t of a register of w bits is bit
 * w - 1 - t.
 */
static unsigned shift_in(unsigned shift_register, unsigned bit, unsigned stages)
{
    unsigned fed_back = (shift_register & 1u) ^ bit;
    shift_register >>= 1;
    return fed_back ? shift_register ^ stages : shift_register;
}

static unsigned shift_in_all(const uint8_t *bytes, size_t length, unsigned stages)
{
    unsigned shift_register = 0;
    for (size_t i = 0; i < length; i++)
        for (unsigned bit = 0; bit < 8; bit++)
            shift_register = shift_in(shift_register, ((unsigned)bytes[i] >> bit) & 1u, stages);
    return shift_register;
}

/* Terms 8, 5, 4, 0. */
uint8_t reference_crc8(const uint8_t *bytes, size_t length)
{
    return (uint8_t)shift_in_all(bytes, length, 1u << (7 - 5) | 1u << (7 - 4) | 1u << (7 - 0));
}

/* Terms 16, 15, 2, 0. */
uint16_t reference_crc16(const uint8_t *bytes, size_t length)
{
    return (uint16_t)shift_in_all(bytes, length,
                                  1u << (15 - 15) | 1u << (15 - 2) | 1u << (15 - 0));
}

/* ---- "Packets": forming ---------------------------------------------------------------------- */

static int count_is_bad(uint64_t count)
{
    return count == 0 || count > 255;
}

/* Puts one byte behind those already there, and counts it. */
static void put(uint8_t *buffer, size_t *place, unsigned byte)
{
    buffer[*place] = (uint8_t)byte;
    *place += 1;
}

static void put_crc(uint8_t *buffer, size_t place)
{
    unsigned inverted = 65535u - reference_crc16(buffer, place);
    put(buffer, &place, inverted % 256);
    put(buffer, &place, inverted / 256);
}

static void put_data(uint8_t *buffer, size_t *place, const uint8_t *data, size_t data_length)
{
    put(buffer, place, (unsigned)data_length);
    for (size_t i = 0; i < data_length; i++)
        put(buffer, place, data[i]);
}

uint8_t reference_form_write(uint32_t address, const uint8_t *data, size_t data_length,
                             uint8_t *buffer, size_t buffer_length)
{
    size_t place = 0;
    if (address > 127 || count_is_bad(data_length))
        return 11;
    if (buffer_length < 3 + data_length + 2)
        return 12;
    put(buffer, &place, 0x4B);
    put(buffer, &place, address * 2);
    put_data(buffer, &place, data, data_length);
    put_crc(buffer, place);
    return 0;
}

uint8_t reference_form_read(uint32_t address, uint32_t count, uint8_t *buffer,
                            size_t buffer_length)
{
    size_t place = 0;
    if (address > 127 || count_is_bad(count))
        return 11;
    if (buffer_length < 3 + 2)
        return 12;
    put(buffer, &place, 0x87);
    put(buffer, &place, address * 2 + 1);
    put(buffer, &place, count);
    put_crc(buffer, place);
    return 0;
}

uint8_t reference_form_write_read(uint32_t address, const uint8_t *data, size_t data_length,
                                  uint32_t count, uint8_t *buffer, size_t buffer_length)
{
    size_t place = 0;
    if (address > 127 || count_is_bad(data_length) || count_is_bad(count))
        return 11;
    if (buffer_length < 3 + data_length + 1 + 2)
        return 12;
    put(buffer, &place, 0x2D);
    put(buffer, &place, address * 2);
    put_data(buffer, &place, data, data_length);
    put(buffer, &place, count);
    put_crc(buffer, place);
    return 0;
}

/* ---- "Packets" and R-1: reading -------------------------------------------------------------- */

static int is_unknown(uint8_t code)
{
    return code != 0x4B && code != 0x87 && code != 0x2D;
}

/* The bytes of a form one after the other: code, address and count, data, R of a 2Dh, CRC. */
static size_t length_wanted(const uint8_t *packet, size_t length)
{
    size_t wanted = 3;
    if (length < 3)
        return 5;
    if (packet[0] != 0x87)
        wanted += packet[2];
    if (packet[0] == 0x2D)
        wanted += 1;
    return wanted + 2;
}

static int crc_is_right(const uint8_t *packet, size_t length)
{
    unsigned sent = packet[length - 2] + 256u * packet[length - 1];
    return sent == 65535u - reference_crc16(packet, length - 2);
}

/*
 * What is wrong with a packet, in the order of R-1; number 0 where nothing is. R of a 2Dh stands
 * last before the CRC.
 */
static struct reference_answer wrong_with(const uint8_t *packet, size_t length)
{
    struct reference_answer unknown = {16, 0}, misfit = {17, length_wanted(packet, length)};
    struct reference_answer no_first = {18, 2}, no_last = {18, length - 3}, bit = {19, 1};
    struct reference_answer crc = {14, 0}, nothing = {0, 0};
    if (length > 0 && is_unknown(packet[0]))
        return unknown;
    if (length != misfit.place)
        return misfit;
    if (packet[2] == 0)
        return no_first;
    if (packet[0] == 0x2D && packet[length - 3] == 0)
        return no_last;
    if ((packet[1] & 1) != (packet[0] == 0x87 ? 1 : 0))
        return bit;
    return crc_is_right(packet, length) ? nothing : crc;
}

struct reference_answer reference_read(const uint8_t *packet, size_t length, size_t parts[5])
{
    struct reference_answer answer = wrong_with(packet, length);
    if (answer.number != 0)
        return answer;
    for (int i = 0; i < 5; i++)
        parts[i] = 0;
    parts[0] = packet[0];
    parts[1] = packet[1] / 2;
    if (packet[0] != 0x87) {
        parts[2] = 3;
        parts[3] = packet[2];
    }
    if (packet[0] != 0x4B)
        parts[4] = packet[length - 3];
    return answer;
}
