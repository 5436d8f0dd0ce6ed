// Asks the level sensor at I2C address 20h for two bytes, from its register 00h on.
#include <stdio.h>

#include "trelvox.h"

int main(void)
{
    const uint8_t from_register[] = {0x00};
    uint8_t packet[TRELVOX_LONGEST_PACKET];

    uint8_t number = trelvox_form_write_read(0x20, from_register, sizeof from_register, 2,
                                             packet, sizeof packet);
    if (number != TRELVOX_DONE) {
        printf("refused with %u\n", (unsigned)number);
        return 1;
    }

    const size_t length = TRELVOX_WRITE_READ_LENGTH(sizeof from_register);
    for (size_t i = 0; i < length; i++)
        printf("%02X%s", (unsigned)packet[i], i + 1 < length ? " " : "\n");
    return 0;
}
