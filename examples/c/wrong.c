// Says in words what is wrong with a packet.
#include <stdio.h>

#include "trelvox.h"

static void tell(const uint8_t *packet, size_t length)
{
    size_t parts[TRELVOX_PARTS];
    uint32_t answer = trelvox_read(packet, length, parts);
    unsigned place = TRELVOX_PLACE(answer);

    switch (TRELVOX_NUMBER(answer)) {
    case TRELVOX_DONE: printf("sound, for address %02X\n", (unsigned)parts[TRELVOX_PART_ADDRESS]); break;
    case TRELVOX_UNKNOWN_CODE: printf("byte %u begins no packet\n", place); break;
    case TRELVOX_WRONG_LENGTH: printf("%u bytes are wanted\n", place); break;
    case TRELVOX_ZERO_COUNT: printf("byte %u is a count of zero\n", place); break;
    case TRELVOX_WRONG_BIT: printf("byte %u has a wrong low bit\n", place); break;
    case TRELVOX_WRONG_CRC: printf("the CRC-16 is wrong\n"); break;
    }
}

int main(void)
{
    static const uint8_t packets[6][5] = {
        {0x87, 0x41, 0x02, 0xFE, 0x47}, // sound, for address 20
        {0x86, 0x41, 0x02, 0xFE, 0x47}, // byte 0 begins no packet
        {0x4B, 0x40, 0x01, 0xFE, 0x47}, // 6 bytes are wanted
        {0x87, 0x41, 0x00, 0xFE, 0x47}, // byte 2 is a count of zero
        {0x87, 0x40, 0x02, 0xFE, 0x47}, // byte 1 has a wrong low bit
        {0x87, 0x41, 0x02, 0xFE, 0x46}, // the CRC-16 is wrong
    };

    for (int i = 0; i < 6; i++)
        tell(packets[i], sizeof packets[i]);
    return 0;
}
