#include "baseline.h"

#include <string.h>

static uint16_t table16[256];

void baseline_start(void)
{
    for (unsigned i = 0; i < 256; i++) {
        unsigned crc = i;
        for (int bit = 0; bit < 8; bit++)
            crc = crc & 1 ? (crc >> 1) ^ 0xA001 : crc >> 1;
        table16[i] = (uint16_t)crc;
    }
}

uint8_t baseline_crc8(const uint8_t *bytes, size_t length)
{
    unsigned crc = 0;
    for (size_t i = 0; i < length; i++) {
        unsigned rest = bytes[i];
        for (int bit = 0; bit < 8; bit++) {
            crc = (crc ^ rest) & 1 ? (crc >> 1) ^ 0x8C : crc >> 1;
            rest >>= 1;
        }
    }
    return (uint8_t)crc;
}

uint16_t baseline_crc16(const uint8_t *bytes, size_t length)
{
    unsigned crc = 0;
    for (size_t i = 0; i < length; i++)
        crc = (crc >> 8) ^ table16[(crc ^ bytes[i]) & 0xFF];
    return (uint16_t)crc;
}

/* ---- Packets --------------------------------------------------------------------------------- */

uint8_t baseline_form_write_read(uint32_t address, const uint8_t *data, size_t data_length,
                                 uint32_t count, uint8_t *buffer, size_t buffer_length)
{
    if (address > 127 || data_length - 1 > 254 || count - 1 > 254)
        return 11;
    if (buffer_length < data_length + 6)
        return 12;
    buffer[0] = 0x2D;
    buffer[1] = (uint8_t)(address << 1);
    buffer[2] = (uint8_t)data_length;
    memcpy(buffer + 3, data, data_length);
    buffer[data_length + 3] = (uint8_t)count;
    uint16_t sent = (uint16_t)~baseline_crc16(buffer, data_length + 4);
    buffer[data_length + 4] = (uint8_t)sent;
    buffer[data_length + 5] = (uint8_t)(sent >> 8);
    return 0;
}

/* A number and its place. */
static uint32_t told(uint32_t number, size_t place)
{
    return number | (uint32_t)place << 8;
}

/* What is wrong with the form of a packet; 0 where nothing is. */
static uint32_t wrong_form(const uint8_t *packet, size_t length)
{
    size_t wanted;
    if (length > 0 && packet[0] != 0x4B && packet[0] != 0x87 && packet[0] != 0x2D)
        return told(16, 0);
    if (length < 3)
        return told(17, 5);
    wanted = packet[0] == 0x87 ? 5 : packet[0] == 0x4B ? (size_t)packet[2] + 5 : (size_t)packet[2] + 6;
    if (length != wanted)
        return told(17, wanted);
    if (packet[2] == 0)
        return told(18, 2);
    if (packet[0] == 0x2D && packet[length - 3] == 0)
        return told(18, length - 3);
    if ((packet[1] & 1) != (packet[0] == 0x87))
        return told(19, 1);
    return 0;
}

static void set_parts(const uint8_t *packet, size_t length, size_t *parts)
{
    int has_data = packet[0] != 0x87;
    parts[0] = packet[0];
    parts[1] = packet[1] >> 1;
    parts[2] = has_data ? 3 : 0;
    parts[3] = has_data ? packet[2] : 0;
    parts[4] = packet[0] == 0x4B ? 0 : packet[length - 3];
}

uint32_t baseline_read(const uint8_t *packet, size_t length, size_t *parts)
{
    uint32_t wrong = wrong_form(packet, length);
    if (wrong != 0)
        return wrong;
    uint16_t sent = (uint16_t)(packet[length - 2] | packet[length - 1] << 8);
    uint16_t wanted = (uint16_t)~baseline_crc16(packet, length - 2);
    if (wanted != sent)
        return told(14, 0);
    set_parts(packet, length, parts);
    return 0;
}
