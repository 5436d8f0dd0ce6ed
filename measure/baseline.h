/*
 * The same checksums and packets in C, for measure/library alone. As in the library, the CRC-8 goes
 * a bit at a time and the CRC-16 a byte at a time from a table of 256 entries. It shares nothing
 * with the library.
 */
#ifndef BASELINE_H
#define BASELINE_H

#include <stddef.h>
#include <stdint.h>

/* Fills the table; call it before anything else. */
void baseline_start(void);

uint8_t baseline_crc8(const uint8_t *bytes, size_t length);
uint16_t baseline_crc16(const uint8_t *bytes, size_t length);

uint8_t baseline_form_write_read(uint32_t address, const uint8_t *data, size_t data_length,
                                 uint32_t count, uint8_t *buffer, size_t buffer_length);

/* As trelvox_read: number and place; the parts are code, address, start of the data, its length, R. */
uint32_t baseline_read(const uint8_t *packet, size_t length, size_t *parts);

#endif
