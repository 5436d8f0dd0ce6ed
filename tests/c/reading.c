/*
 * Reads packets, good and damaged (document 01, "Packets", P6 and P7; document 02, R-1, with P8),
 * and reads back what the forming calls formed. After each call the answer, the five parts, the
 * numbers beside them and the packet are compared.
 */
#include <string.h>

#include "check.h"
#include "trelvox.h"

static const size_t BESIDE = 0xA5A5A5A5; /* in the parts before a call, and around them */

/* Whether reading gives this answer and these parts, and leaves the packet and what is beside. */
static int reads_as(const uint8_t *packet, size_t length, unsigned number, size_t place,
                    const size_t *parts)
{
    uint8_t before[600] = {0};
    size_t got[TRELVOX_PARTS + 2];
    for (int i = 0; i < TRELVOX_PARTS + 2; i++)
        got[i] = BESIDE;
    if (length > 0)
        memcpy(before, packet, length);
    uint32_t answer = trelvox_read(packet, length, got + 1);
    if (TRELVOX_NUMBER(answer) != number || TRELVOX_PLACE(answer) != place)
        return 0;
    return memcmp(got + 1, parts, TRELVOX_PARTS * sizeof *parts) == 0 && got[0] == BESIDE &&
           got[TRELVOX_PARTS + 1] == BESIDE && (length == 0 || memcmp(packet, before, length) == 0);
}

/* Whether reading gives this refusal and leaves the parts as they were. */
static int is_refused(const uint8_t *packet, size_t length, unsigned number, size_t place)
{
    size_t parts[TRELVOX_PARTS];
    for (int i = 0; i < TRELVOX_PARTS; i++)
        parts[i] = BESIDE;
    return reads_as(packet, length, number, place, parts);
}

/* ---- Packets written out --------------------------------------------------------------------- */

static const uint8_t read_packet[] = {0x87, 0x41, 0x02, 0xFE, 0x47};
static const uint8_t write_packet[] = {0x4B, 0x40, 0x03, 0x01, 0x08, 0x0F, 0xE7, 0xCB};
static const uint8_t write_read_packet[] = {0x2D, 0x40, 0x01, 0x01, 0x02, 0x97, 0xA8};

static void check_accepted(void)
{
    static const size_t read_parts[TRELVOX_PARTS] = {0x87, 0x20, 0, 0, 2};
    static const size_t write_parts[TRELVOX_PARTS] = {0x4B, 0x20, 3, 3, 0};
    static const size_t write_read_parts[TRELVOX_PARTS] = {0x2D, 0x20, 3, 1, 2};

    heading("Accepted, with no place");
    check(reads_as(read_packet, sizeof read_packet, TRELVOX_DONE, 0, read_parts),
          "87 41 02 FE 47: address 20h, no data, R 2 (P6)");
    check(reads_as(write_packet, sizeof write_packet, TRELVOX_DONE, 0, write_parts),
          "4B 40 03 01 08 0F E7 CB: address 20h, 3 data bytes from 3, no R");
    check(reads_as(write_read_packet, sizeof write_read_packet, TRELVOX_DONE, 0, write_read_parts),
          "2D 40 01 01 02 97 A8: address 20h, 1 data byte from 3, R 2");
}

/* ---- Refused --------------------------------------------------------------------------------- */

static void check_p7_and_p8(void)
{
    uint8_t packet[] = {0x87, 0x41, 0x02, 0xFE, 0x46};
    int all_refused = 1;

    heading("Refused");
    check(is_refused(packet, sizeof packet, TRELVOX_WRONG_CRC, 0),
          "87 41 02 FE 46: 14, no place (P7)");
    packet[2] = 0;
    for (unsigned ending = 0; ending < 65536; ending++) {
        packet[3] = (uint8_t)(ending & 0xFF);
        packet[4] = (uint8_t)(ending >> 8);
        all_refused &= is_refused(packet, sizeof packet, TRELVOX_ZERO_COUNT, 2);
    }
    check(all_refused, "87 41 00 and any two bytes: 18 at 2 (P8)");
}

/* Puts the right checksum behind the bytes, so that only the form can be wrong. */
static int is_refused_with_right_crc(const uint8_t *bytes, size_t length, unsigned number,
                                     size_t place)
{
    uint8_t packet[300];
    uint16_t sent = (uint16_t)(65535 - trelvox_crc16(bytes, length));
    memcpy(packet, bytes, length);
    packet[length] = (uint8_t)(sent & 0xFF);
    packet[length + 1] = (uint8_t)(sent >> 8);
    return is_refused(packet, length + 2, number, place);
}

/* The bytes before the checksum, and the answer. */
struct bad_form {
    const char *what;
    size_t length;
    uint8_t bytes[8];
    unsigned number;
    size_t place;
};

static const struct bad_form bad_forms[] = {
    {"unknown code 78h", 4, {0x78, 0x01, 0x01, 0x05}, 16, 0},
    {"unknown code 00h, and nothing behind it", 1, {0x00}, 16, 0},
    {"unknown code, wrong length, L 0, low address bit 1", 5, {0x4A, 0x41, 0x00, 0x00, 0x00}, 16, 0},
    {"write, one byte too few", 4, {0x4B, 0x40, 0x02, 0x05}, 17, 7},
    {"write, one byte too many", 5, {0x4B, 0x40, 0x01, 0x05, 0x06}, 17, 6},
    {"write, L 255", 4, {0x4B, 0x40, 0xFF, 0x05}, 17, 260},
    {"write, L 0 and a byte", 4, {0x4B, 0x40, 0x00, 0x05}, 17, 5},
    {"write, wrong length and low address bit 1", 4, {0x4B, 0x41, 0x02, 0x05}, 17, 7},
    {"read, one byte too many", 4, {0x87, 0x41, 0x02, 0x03}, 17, 5},
    {"read, R 0, one byte too many", 4, {0x87, 0x41, 0x00, 0x03}, 17, 5},
    {"write-read, one byte too few", 4, {0x2D, 0x40, 0x01, 0x05}, 17, 7},
    {"write-read, one byte too many", 6, {0x2D, 0x40, 0x01, 0x05, 0x02, 0x02}, 17, 7},
    {"write-read, L 255", 4, {0x2D, 0x40, 0xFF, 0x05}, 17, 261},
    {"write-read, L 0, no R", 3, {0x2D, 0x40, 0x00}, 17, 6},
    {"write, L 0", 3, {0x4B, 0x40, 0x00}, 18, 2},
    {"write, L 0 and low address bit 1", 3, {0x4B, 0x41, 0x00}, 18, 2},
    {"read, R 0", 3, {0x87, 0x41, 0x00}, 18, 2},
    {"read, R 0 and low address bit 0", 3, {0x87, 0x40, 0x00}, 18, 2},
    {"write-read, L 0", 4, {0x2D, 0x40, 0x00, 0x02}, 18, 2},
    {"write-read, R 0", 5, {0x2D, 0x40, 0x01, 0x05, 0x00}, 18, 4},
    {"write-read, R 0 behind three bytes", 7, {0x2D, 0x40, 0x03, 0x05, 0x06, 0x07, 0x00}, 18, 6},
    {"write-read, L 0 and R 0", 4, {0x2D, 0x40, 0x00, 0x00}, 18, 2},
    {"write-read, R 0 and low address bit 1", 5, {0x2D, 0x41, 0x01, 0x05, 0x00}, 18, 4},
    {"write, low address bit 1", 4, {0x4B, 0x41, 0x01, 0x05}, 19, 1},
    {"read, low address bit 0", 3, {0x87, 0x40, 0x02}, 19, 1},
    {"write-read, low address bit 1", 5, {0x2D, 0x41, 0x01, 0x05, 0x02}, 19, 1},
};

/* Each with a right CRC and with a wrong one: what is wrong with the form comes before 14. */
static void check_bad_forms(void)
{
    for (size_t i = 0; i < sizeof bad_forms / sizeof bad_forms[0]; i++) {
        const struct bad_form *f = &bad_forms[i];
        uint8_t wrong_crc[10] = {0};
        memcpy(wrong_crc, f->bytes, f->length);
        check(is_refused_with_right_crc(f->bytes, f->length, f->number, f->place) &&
                  is_refused(wrong_crc, f->length + 2, f->number, f->place),
              "%s: %u, place %zu, whatever the CRC", f->what, f->number, f->place);
    }
}

/* The form wants as many bytes as the packet had; before its third byte it wants 5. */
static int is_refused_cut(const uint8_t *packet, size_t whole)
{
    int all_refused = 1;
    for (size_t length = 0; length < whole; length++)
        all_refused &= is_refused(packet, length, TRELVOX_WRONG_LENGTH, length < 3 ? 5 : whole);
    return all_refused;
}

static void check_short(void)
{
    static const uint8_t unknown[] = {0x41, 0x87};

    check(is_refused(NULL, 0, TRELVOX_WRONG_LENGTH, 5), "no bytes, NULL: 17, wanting 5");
    check(is_refused(unknown, 1, TRELVOX_UNKNOWN_CODE, 0) &&
              is_refused(unknown, 2, TRELVOX_UNKNOWN_CODE, 0),
          "41, and 41 87: 16 at 0");
    check(is_refused_cut(write_packet, sizeof write_packet) &&
              is_refused_cut(read_packet, sizeof read_packet) &&
              is_refused_cut(write_read_packet, sizeof write_read_packet),
          "each packet above cut anywhere: 17, wanting what it had, or 5 before the third byte");
}

/* One bit of a good packet turned. */
static void check_turned_bits(void)
{
    uint8_t packet[sizeof write_packet];
    int all_refused = 1;
    for (size_t bit = 0; bit < 8 * sizeof packet; bit++) {
        memcpy(packet, write_packet, sizeof packet);
        packet[bit / 8] ^= (uint8_t)(1u << bit % 8);
        if (bit < 8)
            all_refused &= is_refused(packet, sizeof packet, TRELVOX_UNKNOWN_CODE, 0);
        else if (bit == 8)
            all_refused &= is_refused(packet, sizeof packet, TRELVOX_WRONG_BIT, 1);
        else if (bit >= 16 && bit < 24)
            all_refused &= is_refused(packet, sizeof packet, TRELVOX_WRONG_LENGTH, packet[2] + 5u);
        else
            all_refused &= is_refused(packet, sizeof packet, TRELVOX_WRONG_CRC, 0);
    }
    check(all_refused, "4B 40 03 01 08 0F E7 CB with any one bit turned: 16, 19 or 17, or 14 from "
                       "data on and in the address");
}

/* ---- Round trips ----------------------------------------------------------------------------- */

static uint8_t data[255];
static uint8_t formed[TRELVOX_LONGEST_PACKET];

/* Whether the packet just formed reads as the request, with its data where the parts say. */
static int reads_back(uint8_t code, uint32_t address, size_t data_length, uint32_t count,
                      size_t length)
{
    size_t parts[TRELVOX_PARTS] = {code, address, data_length == 0 ? 0 : 3, data_length, count};
    return reads_as(formed, length, TRELVOX_DONE, 0, parts) &&
           memcmp(formed + parts[TRELVOX_PART_START], data, data_length) == 0;
}

static int write_reads_back(uint32_t address, size_t data_length)
{
    uint8_t number = trelvox_form_write(address, data, data_length, formed, sizeof formed);
    size_t length = TRELVOX_WRITE_LENGTH(data_length);
    return number == TRELVOX_DONE && reads_back(0x4B, address, data_length, 0, length);
}

static int read_reads_back(uint32_t address, uint32_t count)
{
    uint8_t number = trelvox_form_read(address, count, formed, sizeof formed);
    return number == TRELVOX_DONE && reads_back(0x87, address, 0, count, TRELVOX_READ_LENGTH);
}

static int write_read_reads_back(uint32_t address, size_t data_length, uint32_t count)
{
    uint8_t number = trelvox_form_write_read(address, data, data_length, count, formed,
                                             sizeof formed);
    size_t length = TRELVOX_WRITE_READ_LENGTH(data_length);
    return number == TRELVOX_DONE && reads_back(0x2D, address, data_length, count, length);
}

static void check_round_trips(void)
{
    int write = 1, read = 1, write_read = 1;
    for (size_t i = 0; i < sizeof data; i++)
        data[i] = (uint8_t)(11 * i + 3);
    for (uint32_t address = 0; address <= 127; address++) {
        for (uint32_t n = 1; n <= 255; n++) {
            write &= write_reads_back(address, n);
            read &= read_reads_back(address, n);
            write_read &= write_read_reads_back(address, n, 256 - n);
        }
    }
    heading("Read back: every address, with every L and every R");
    check(write, "write: 4Bh, address, L data bytes from 3, no R");
    check(read, "read: 87h, address, no data, R");
    check(write_read, "write-read: 2Dh, address, L data bytes from 3, R of 256 - L");
}

int main(void)
{
    check_accepted();
    check_p7_and_p8();
    check_bad_forms();
    check_short();
    check_turned_bits();
    check_round_trips();
    return checks_done();
}
