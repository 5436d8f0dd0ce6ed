/*
 * Checksums and packets once more, written from documents 01 and 02 alone and sharing nothing
 * with the library: one bit at a time, no tables. What the library is compared with.
 */
#ifndef REFERENCE_H
#define REFERENCE_H

#include <stddef.h>
#include <stdint.h>

uint8_t reference_crc8(const uint8_t *bytes, size_t length);
uint16_t reference_crc16(const uint8_t *bytes, size_t length);

uint8_t reference_form_write(uint32_t address, const uint8_t *data, size_t data_length,
                             uint8_t *buffer, size_t buffer_length);
uint8_t reference_form_read(uint32_t address, uint32_t count, uint8_t *buffer,
                            size_t buffer_length);
uint8_t reference_form_write_read(uint32_t address, const uint8_t *data, size_t data_length,
                                  uint32_t count, uint8_t *buffer, size_t buffer_length);

/* A number, and its place; 0 where it has none. */
struct reference_answer {
    uint8_t number;
    size_t place;
};

/* parts: code, address, start of the data, its length, R. A refused packet leaves them. */
struct reference_answer reference_read(const uint8_t *packet, size_t length, size_t parts[5]);

#endif
