/*
 * Trelvox: checksums of the 1-Wire parts, and packets for the DS28E17, formed
 * and read.
 *
 * Link with libtrelvox.a (x86-64). Every call takes every input that keeps the
 * two rules below, and is proved to give what is written here. No call keeps
 * anything from one call to the next, takes memory from a heap or waits, so
 * calls may run at the same time in several threads.
 *
 * Pointers and lengths
 *   - A pointer and the length behind it are one argument: that many bytes,
 *     all of them the caller's to lend. Where the length is 0 the pointer is
 *     not used and may be NULL.
 *   - A buffer must not overlap the data that goes into it, nor the parts of
 *     a packet the packet, and nothing else may write any of them during the
 *     call.
 *   Where one of these rules is broken, nothing is promised.
 *
 * Forming a packet
 *   Each forming call returns one number:
 *
 *     TRELVOX_DONE               the packet lies at the front of the buffer
 *     TRELVOX_OUT_OF_LIMITS      the address is above 127, or a count is not
 *                                1 to 255
 *     TRELVOX_BUFFER_TOO_SHORT   the buffer is shorter than the packet
 *
 *   The limits are looked at first: a call with a bad count and a short
 *   buffer gives TRELVOX_OUT_OF_LIMITS. A refused call changes no byte of the
 *   buffer. A call that is done changes the bytes of the packet alone; those
 *   behind it stay as they were.
 *
 *   An address is the 7-bit address of the I2C peripheral, 0 to 127, without
 *   the read/write bit. The counts are the number of data bytes written, L
 *   below, and the number of bytes to read, R below.
 *
 * Reading a packet
 *   trelvox_read returns one answer, which has a number and a place.
 *   TRELVOX_NUMBER(answer) is one of these, with TRELVOX_PLACE(answer):
 *
 *     TRELVOX_DONE           0   accepted, and the parts are set
 *
 *     TRELVOX_UNKNOWN_CODE  16   the first byte is not 4Bh, 87h or 2Dh
 *                                place: its offset, 0
 *
 *     TRELVOX_WRONG_LENGTH  17   too short or too long for its form
 *                                place: how many bytes are wanted, L + 5 for
 *                                4Bh, 5 for 87h, L + 6 for 2Dh, and 5 where
 *                                the packet ends before its third byte, an
 *                                empty packet included
 *
 *     TRELVOX_ZERO_COUNT    18   a count is 0
 *                                place: its offset, 2 for L and for R of 87h,
 *                                L + 3 for R of 2Dh; where L and R are both 0,
 *                                that of L
 *
 *     TRELVOX_WRONG_BIT     19   the low bit of the address byte is not 1 in
 *                                87h, or not 0 in 4Bh or 2Dh
 *                                place: the offset of that byte, 1
 *
 *     TRELVOX_WRONG_CRC     14   the form is right, and the CRC-16 is wrong
 *
 *   They are looked at in this order, from 16 on, and the first that holds
 *   gives the answer. Offsets count from 0. Where there is no place it is 0,
 *   so the whole answer is 0 for an accepted packet. A refused call changes
 *   none of the parts.
 *
 * Example, the file examples/c/level.c; it prints 2D 40 01 00 02 96 38
 *
 *     // Asks the level sensor at I2C address 20h for two bytes, from its register 00h on.
 *     #include <stdio.h>
 *
 *     #include "trelvox.h"
 *
 *     int main(void)
 *     {
 *         const uint8_t from_register[] = {0x00};
 *         uint8_t packet[TRELVOX_LONGEST_PACKET];
 *
 *         uint8_t number = trelvox_form_write_read(0x20, from_register, sizeof from_register, 2,
 *                                                  packet, sizeof packet);
 *         if (number != TRELVOX_DONE) {
 *             printf("refused with %u\n", (unsigned)number);
 *             return 1;
 *         }
 *
 *         const size_t length = TRELVOX_WRITE_READ_LENGTH(sizeof from_register);
 *         for (size_t i = 0; i < length; i++)
 *             printf("%02X%s", (unsigned)packet[i], i + 1 < length ? " " : "\n");
 *         return 0;
 *     }
 *
 * Example, the file examples/c/wrong.c; beside each packet stands what it prints
 *
 *     // Says in words what is wrong with a packet.
 *     #include <stdio.h>
 *
 *     #include "trelvox.h"
 *
 *     static void tell(const uint8_t *packet, size_t length)
 *     {
 *         size_t parts[TRELVOX_PARTS];
 *         uint32_t answer = trelvox_read(packet, length, parts);
 *         unsigned place = TRELVOX_PLACE(answer);
 *
 *         switch (TRELVOX_NUMBER(answer)) {
 *         case TRELVOX_DONE: printf("sound, for address %02X\n", (unsigned)parts[TRELVOX_PART_ADDRESS]); break;
 *         case TRELVOX_UNKNOWN_CODE: printf("byte %u begins no packet\n", place); break;
 *         case TRELVOX_WRONG_LENGTH: printf("%u bytes are wanted\n", place); break;
 *         case TRELVOX_ZERO_COUNT: printf("byte %u is a count of zero\n", place); break;
 *         case TRELVOX_WRONG_BIT: printf("byte %u has a wrong low bit\n", place); break;
 *         case TRELVOX_WRONG_CRC: printf("the CRC-16 is wrong\n"); break;
 *         }
 *     }
 *
 *     int main(void)
 *     {
 *         static const uint8_t packets[6][5] = {
 *             {0x87, 0x41, 0x02, 0xFE, 0x47}, // sound, for address 20
 *             {0x86, 0x41, 0x02, 0xFE, 0x47}, // byte 0 begins no packet
 *             {0x4B, 0x40, 0x01, 0xFE, 0x47}, // 6 bytes are wanted
 *             {0x87, 0x41, 0x00, 0xFE, 0x47}, // byte 2 is a count of zero
 *             {0x87, 0x40, 0x02, 0xFE, 0x47}, // byte 1 has a wrong low bit
 *             {0x87, 0x41, 0x02, 0xFE, 0x46}, // the CRC-16 is wrong
 *         };
 *
 *         for (int i = 0; i < 6; i++)
 *             tell(packets[i], sizeof packets[i]);
 *         return 0;
 *     }
 */
#ifndef TRELVOX_H
#define TRELVOX_H

#include <stddef.h>
#include <stdint.h>

#ifdef __cplusplus
extern "C" {
#endif

/* The numbers of forming and of reading. */
#define TRELVOX_DONE 0
#define TRELVOX_OUT_OF_LIMITS 11
#define TRELVOX_BUFFER_TOO_SHORT 12
#define TRELVOX_WRONG_CRC 14
#define TRELVOX_UNKNOWN_CODE 16
#define TRELVOX_WRONG_LENGTH 17
#define TRELVOX_ZERO_COUNT 18
#define TRELVOX_WRONG_BIT 19

/* The number and the place of an answer of trelvox_read. */
#define TRELVOX_NUMBER(answer) ((uint32_t)(answer) & 0xFF)
#define TRELVOX_PLACE(answer) ((uint32_t)(answer) >> 8)

/* Where each part of a packet stands among the parts, and how many there are. */
#define TRELVOX_PART_CODE 0
#define TRELVOX_PART_ADDRESS 1
#define TRELVOX_PART_START 2
#define TRELVOX_PART_LENGTH 3
#define TRELVOX_PART_COUNT 4
#define TRELVOX_PARTS 5

/*
 * The CRC-16 of bytes whose last two are the CRC-16 of those before them,
 * inverted, low byte first.
 */
#define TRELVOX_CRC16_SOUND 0xB001

/* A buffer of this many bytes is long enough for every packet. */
#define TRELVOX_LONGEST_PACKET 261

/* No call takes more bytes of stack than this. It is measured, not proved. */
#define TRELVOX_STACK 1024

/* The number of bytes of each kind of packet, its two bytes of CRC included. */
#define TRELVOX_WRITE_LENGTH(data_length) ((size_t)(data_length) + 5)
#define TRELVOX_READ_LENGTH ((size_t)5)
#define TRELVOX_WRITE_READ_LENGTH(data_length) ((size_t)(data_length) + 6)

/*
 * The CRC-8 of the bytes: terms 8, 5, 4, 0, register from zero, low bit first.
 *
 *   bytes, length   any number of bytes; none give 0
 *
 * Of "123456789" it is A1h. The last byte of a probe's ID is the CRC-8 of the
 * seven before it, so a sound ID of eight bytes has the CRC-8 0.
 */
uint8_t trelvox_crc8(const uint8_t *bytes, size_t length);

/*
 * The CRC-16 of the bytes: terms 16, 15, 2, 0, register from zero, low bit
 * first.
 *
 *   bytes, length   any number of bytes; none give 0
 *
 * This is the register itself: of "123456789" it is BB3Dh. A packet carries it
 * inverted (44C2h), low byte first; the forming calls see to that.
 *
 * To check received bytes that end with a CRC-16 in that form, take the CRC-16
 * of all of them, the last two included. It is TRELVOX_CRC16_SOUND exactly
 * where the last two are right.
 */
uint16_t trelvox_crc16(const uint8_t *bytes, size_t length);

/*
 * Forms "write data with stop": 4Bh, address * 2, L, the data, CRC-16.
 *
 *   address                 0 to 127
 *   data, data_length       what is written; data_length is L, 1 to 255
 *   buffer, buffer_length   takes the packet, L + 5 bytes: 6 to 260
 *
 * Returns TRELVOX_DONE, TRELVOX_OUT_OF_LIMITS or TRELVOX_BUFFER_TOO_SHORT.
 */
uint8_t trelvox_form_write(uint32_t address,
                           const uint8_t *data, size_t data_length,
                           uint8_t *buffer, size_t buffer_length);

/*
 * Forms "read data with stop": 87h, address * 2 + 1, R, CRC-16.
 *
 *   address                 0 to 127
 *   count                   how many bytes to read: R, 1 to 255
 *   buffer, buffer_length   takes the packet, 5 bytes
 *
 * Returns TRELVOX_DONE, TRELVOX_OUT_OF_LIMITS or TRELVOX_BUFFER_TOO_SHORT.
 * Address 20h and count 2 give 87 41 02 FE 47.
 */
uint8_t trelvox_form_read(uint32_t address, uint32_t count,
                          uint8_t *buffer, size_t buffer_length);

/*
 * Forms "write, read data with stop": 2Dh, address * 2, L, the data, R,
 * CRC-16.
 *
 *   address                 0 to 127
 *   data, data_length       what is written; data_length is L, 1 to 255
 *   count                   how many bytes to read then: R, 1 to 255
 *   buffer, buffer_length   takes the packet, L + 6 bytes: 7 to 261
 *
 * Returns TRELVOX_DONE, TRELVOX_OUT_OF_LIMITS or TRELVOX_BUFFER_TOO_SHORT.
 */
uint8_t trelvox_form_write_read(uint32_t address,
                                const uint8_t *data, size_t data_length,
                                uint32_t count,
                                uint8_t *buffer, size_t buffer_length);

/*
 * Takes a packet apart, any bytes whatever.
 *
 *   packet, packet_length   the bytes
 *   parts                   takes the five parts of an accepted packet, and
 *                           is not NULL:
 *
 *     parts[TRELVOX_PART_CODE]      4Bh, 87h or 2Dh
 *     parts[TRELVOX_PART_ADDRESS]   0 to 127
 *     parts[TRELVOX_PART_START]     the offset in the packet of the data to be
 *                                   written: 3, and for 87h, which has none, 0
 *     parts[TRELVOX_PART_LENGTH]    how many bytes of data: L, and for 87h 0
 *     parts[TRELVOX_PART_COUNT]     how many bytes to read: R, and for 4Bh 0
 *
 * Returns an answer, of which TRELVOX_NUMBER gives TRELVOX_DONE,
 * TRELVOX_UNKNOWN_CODE, TRELVOX_WRONG_LENGTH, TRELVOX_ZERO_COUNT,
 * TRELVOX_WRONG_BIT or TRELVOX_WRONG_CRC, and TRELVOX_PLACE the place. Where
 * the number is not TRELVOX_DONE the parts stay as they were.
 * 87 41 02 FE 47 gives 0 and the parts 87h, 20h, 0, 0, 2; without its last
 * byte it gives TRELVOX_WRONG_LENGTH with the place 5.
 */
uint32_t trelvox_read(const uint8_t *packet, size_t packet_length,
                      size_t parts[TRELVOX_PARTS]);

#ifdef __cplusplus
}
#endif

#endif
