/*
 * Compares the library with the reference: both checksums, forming with arguments in and out of
 * limits, and reading of sound, damaged and random packets, on random input that is always the same
 * for the seed below; then reading of every packet of some shapes. Numbers, places, parts and every
 * byte lent must agree. At the first difference the case is printed and the program ends with 1.
 */
#include <stdio.h>
#include <stdlib.h>
#include <string.h>

#include "reference.h"
#include "trelvox.h"

enum { LONGEST = 600, ROUNDS_OF_LENGTHS = 60, FORMINGS = 120000, READINGS = 120000 };

/* ---- Random numbers: splitmix64 -------------------------------------------------------------- */

static uint64_t random_state = 20482101;

static uint64_t random_number(void)
{
    uint64_t z = random_state += 0x9E3779B97F4A7C15;
    z = (z ^ (z >> 30)) * 0xBF58476D1CE4E5B9;
    z = (z ^ (z >> 27)) * 0x94D049BB133111EB;
    return z ^ (z >> 31);
}

/* From least to most, both included. */
static uint32_t between(uint32_t least, uint32_t most)
{
    return least + (uint32_t)(random_number() % ((uint64_t)most - least + 1));
}

static int one_in(uint32_t n)
{
    return between(1, n) == 1;
}

static void fill(uint8_t *bytes, size_t length)
{
    for (size_t i = 0; i < length; i++)
        bytes[i] = (uint8_t)random_number();
}

/* ---- A difference ---------------------------------------------------------------------------- */

static void print_bytes(const char *what, const uint8_t *bytes, size_t length)
{
    printf("%s, %lu bytes:", what, (unsigned long)length);
    for (size_t i = 0; i < length; i++)
        printf("%s%02X", i % 32 == 0 ? "\n  " : " ", bytes[i]);
    printf("\n");
}

static void end_with_difference(void)
{
    printf("DIFFERENCE\n");
    exit(1);
}

/* ---- Checksums ------------------------------------------------------------------------------- */

static void compare_checksums(const uint8_t *bytes, size_t length)
{
    unsigned ours8 = trelvox_crc8(bytes, length), theirs8 = reference_crc8(bytes, length);
    unsigned ours16 = trelvox_crc16(bytes, length), theirs16 = reference_crc16(bytes, length);
    if (ours8 == theirs8 && ours16 == theirs16)
        return;
    print_bytes("checksums of", bytes, length);
    printf("CRC-8  library %02X, reference %02X\n", ours8, theirs8);
    printf("CRC-16 library %04X, reference %04X\n", ours16, theirs16);
    end_with_difference();
}

/* The header's recipe: TRELVOX_CRC16_SOUND exactly where bytes end with their CRC-16, inverted. */
static void compare_sound(uint8_t *bytes, size_t length)
{
    if (length < 2)
        return;
    uint16_t inverted = (uint16_t)~reference_crc16(bytes, length - 2);
    uint8_t low = (uint8_t)(inverted & 0xFF), high = (uint8_t)(inverted >> 8);
    if (one_in(2)) {
        bytes[length - 2] = low;
        bytes[length - 1] = high;
    }
    int right = bytes[length - 2] == low && bytes[length - 1] == high;
    if ((trelvox_crc16(bytes, length) == TRELVOX_CRC16_SOUND) == right)
        return;
    print_bytes(right ? "said to be damaged" : "said to be sound", bytes, length);
    end_with_difference();
}

/* Every length, at a place of memory that moves, so that no alignment is favoured. */
static unsigned long compare_all_checksums(void)
{
    static uint8_t memory[LONGEST + 16];
    unsigned long cases = 0;
    for (int round = 0; round < ROUNDS_OF_LENGTHS; round++) {
        for (size_t length = 0; length <= LONGEST; length++) {
            uint8_t *bytes = memory + between(0, 15);
            fill(bytes, length);
            compare_checksums(bytes, length);
            compare_sound(bytes, length);
            cases++;
        }
    }
    return cases;
}

/* ---- Numbers returned, counted, so that a comparison that never met one of them is seen ------ */

enum { NUMBERS = 20, FEWEST = 1000 };

static unsigned long returned[NUMBERS];

static void count_number(uint8_t number)
{
    returned[number % NUMBERS]++;
}

static void print_number(unsigned number)
{
    printf("; %lu gave %u", returned[number], number);
    if (returned[number] < FEWEST) {
        printf("\ntoo few: at least %d are wanted\n", FEWEST);
        exit(1);
    }
    returned[number] = 0;
}

/* ---- Forming --------------------------------------------------------------------------------- */

enum form { WRITE, READ, WRITE_READ, FORMS };

struct request {
    enum form form;
    uint32_t address;
    size_t data_length;
    uint32_t count;
    uint8_t data[LONGEST];
};

/* The buffer lies somewhere in memory, with at least GUARD bytes on each side. */
enum { GUARD = 16, ROOM = 700, MEMORY = GUARD + ROOM + GUARD };

/* One time in eight out of limits or at their edge. */
static uint32_t some_number(uint32_t least, uint32_t most)
{
    const uint32_t edges[] = {0, least, most, most + 1, 256, most + 257, 0xFFFFFFFF};
    if (!one_in(8))
        return between(least, most);
    return one_in(4) ? between(0, 0xFFFFFFFF) : edges[between(0, 6)];
}

static void choose_request(struct request *q)
{
    q->form = (enum form)between(0, FORMS - 1);
    q->address = some_number(0, 127);
    q->count = some_number(1, 255);
    q->data_length = some_number(1, 255);
    if (q->data_length > LONGEST)
        q->data_length = between(256, LONGEST);
    fill(q->data, q->data_length);
}

static size_t packet_length(const struct request *q)
{
    if (q->form == READ)
        return 5;
    return q->data_length + (q->form == WRITE ? 5 : 6);
}

static size_t choose_buffer_length(size_t enough)
{
    switch (between(0, 7)) {
    case 0:
        return 0;
    case 1:
        return between(0, ROOM);
    case 2:
        return enough - 1;
    case 3:
        return enough;
    default:
        return enough + between(0, 40);
    }
}

static uint8_t form_ours(const struct request *q, uint8_t *buffer, size_t length)
{
    if (q->form == WRITE)
        return trelvox_form_write(q->address, q->data, q->data_length, buffer, length);
    if (q->form == READ)
        return trelvox_form_read(q->address, q->count, buffer, length);
    return trelvox_form_write_read(q->address, q->data, q->data_length, q->count, buffer, length);
}

static uint8_t form_theirs(const struct request *q, uint8_t *buffer, size_t length)
{
    if (q->form == WRITE)
        return reference_form_write(q->address, q->data, q->data_length, buffer, length);
    if (q->form == READ)
        return reference_form_read(q->address, q->count, buffer, length);
    return reference_form_write_read(q->address, q->data, q->data_length, q->count, buffer, length);
}

static void print_request(const struct request *q, size_t place, size_t length)
{
    static const char *const names[] = {"write", "read", "write-read"};
    printf("%s: address %lu, L %lu, R %lu, buffer of %lu bytes at %lu\n", names[q->form],
           (unsigned long)q->address, (unsigned long)q->data_length, (unsigned long)q->count,
           (unsigned long)length, (unsigned long)place);
    print_bytes("data", q->data, q->data_length);
}

static void compare_forming(const struct request *q)
{
    static uint8_t ours[MEMORY], theirs[MEMORY];
    size_t length = choose_buffer_length(packet_length(q));
    size_t place = between(GUARD, (uint32_t)(MEMORY - GUARD - length));
    fill(ours, MEMORY);
    memcpy(theirs, ours, MEMORY);

    uint8_t our_number = form_ours(q, ours + place, length);
    uint8_t their_number = form_theirs(q, theirs + place, length);
    count_number(their_number);
    if (our_number == their_number && memcmp(ours, theirs, MEMORY) == 0)
        return;
    print_request(q, place, length);
    printf("library %u, reference %u\n", our_number, their_number);
    print_bytes("memory after the library", ours, MEMORY);
    print_bytes("memory after the reference", theirs, MEMORY);
    end_with_difference();
}

static unsigned long compare_all_forming(void)
{
    static struct request request;
    for (int i = 0; i < FORMINGS; i++) {
        choose_request(&request);
        compare_forming(&request);
    }
    return FORMINGS;
}

/* ---- Reading --------------------------------------------------------------------------------- */

enum kind {
    SOUND,
    BIT_TURNED,
    CUT,
    LENGTHENED,
    COUNT_ZERO,
    ADDRESS_BIT,
    ANY_BYTES,
    ANY_BEHIND_CODE,
    KINDS,
    BY_LENGTH = KINDS,
    BY_BYTE,
    BY_HEAD
};

static const char *const kind_names[] = {
    "sound packet", "one bit turned",        "cut",       "lengthened",
    "count of zero", "other low address bit", "any bytes", "any bytes behind a known code",
    "of each length", "one byte changed",     "any first and third byte",
};

struct packet {
    size_t length;
    uint8_t bytes[LONGEST];
};

static void choose_sound(struct packet *p)
{
    static struct request q;
    q.form = (enum form)between(0, FORMS - 1);
    q.address = between(0, 127);
    q.count = between(1, 255);
    q.data_length = one_in(2) ? between(1, 8) : between(1, 255);
    fill(q.data, q.data_length);
    p->length = packet_length(&q);
    form_theirs(&q, p->bytes, p->length);
}

/* Makes the last two bytes right again, so that only the form is wrong. */
static void mend_crc(struct packet *p)
{
    if (p->length < 2)
        return;
    uint16_t inverted = (uint16_t)~reference_crc16(p->bytes, p->length - 2);
    p->bytes[p->length - 2] = (uint8_t)(inverted & 0xFF);
    p->bytes[p->length - 1] = (uint8_t)(inverted >> 8);
}

static void lengthen(struct packet *p)
{
    size_t more = one_in(2) ? 1 : between(1, (uint32_t)(LONGEST - p->length));
    fill(p->bytes + p->length, more);
    p->length += more;
}

/* L or R; of a write-read either. */
static void zero_a_count(struct packet *p)
{
    int has_two_counts = p->bytes[0] == 0x2D;
    p->bytes[has_two_counts && one_in(2) ? p->length - 3 : 2] = 0;
}

/* Often with the length that the bytes themselves ask for. */
static void choose_any_behind_code(struct packet *p)
{
    static const uint8_t codes[] = {0x4B, 0x87, 0x2D};
    p->length = between(3, LONGEST);
    fill(p->bytes, p->length);
    p->bytes[0] = codes[between(0, 2)];
    if (one_in(4))
        return;
    p->length = p->bytes[0] == 0x87 ? 5 : p->bytes[2] + (p->bytes[0] == 0x4B ? 5u : 6u);
}

static void damage(struct packet *p, enum kind kind)
{
    switch (kind) {
    case BIT_TURNED:
        p->bytes[between(0, (uint32_t)p->length - 1)] ^= (uint8_t)(1u << between(0, 7));
        return;
    case CUT:
        p->length = one_in(2) ? p->length - 1 : between(0, (uint32_t)p->length - 1);
        break;
    case LENGTHENED:
        lengthen(p);
        break;
    case COUNT_ZERO:
        zero_a_count(p);
        break;
    case ADDRESS_BIT:
        p->bytes[1] ^= 1;
        break;
    default:
        return;
    }
    if (one_in(2))
        mend_crc(p);
}

static void choose_packet(struct packet *p, enum kind kind)
{
    if (kind == ANY_BYTES) {
        p->length = between(0, LONGEST);
        fill(p->bytes, p->length);
    } else if (kind == ANY_BEHIND_CODE) {
        choose_any_behind_code(p);
        if (one_in(2))
            mend_crc(p);
    } else {
        choose_sound(p);
        damage(p, kind);
    }
}

static void print_parts(const char *who, unsigned number, size_t place, const size_t *parts)
{
    printf("%s %u at %zu, parts", who, number, place);
    for (int i = 0; i < TRELVOX_PARTS; i++)
        printf(" %zu", parts[i]);
    printf("\n");
}

static void print_packet(const struct packet *p, enum kind kind)
{
    printf("%s\n", kind_names[kind]);
    print_bytes("packet", p->bytes, p->length);
}

/* Forming the parts of an accepted packet gives its bytes. */
static void compare_formed_again(const struct packet *p, enum kind kind, const size_t *parts)
{
    static uint8_t again[TRELVOX_LONGEST_PACKET];
    static struct request q;
    size_t code = parts[TRELVOX_PART_CODE];
    q.form = code == 0x4B ? WRITE : code == 0x87 ? READ : WRITE_READ;
    q.address = (uint32_t)parts[TRELVOX_PART_ADDRESS];
    q.data_length = parts[TRELVOX_PART_LENGTH];
    q.count = (uint32_t)parts[TRELVOX_PART_COUNT];
    memcpy(q.data, p->bytes + parts[TRELVOX_PART_START], q.data_length);
    uint8_t number = form_ours(&q, again, sizeof again);
    if (number == 0 && memcmp(again, p->bytes, p->length) == 0)
        return;
    print_packet(p, kind);
    printf("formed again from its parts: %u\n", number);
    print_bytes("buffer", again, p->length);
    end_with_difference();
}

static void compare_reading(const struct packet *p, enum kind kind)
{
    static struct packet before;
    size_t ours[TRELVOX_PARTS], theirs[TRELVOX_PARTS];
    before = *p;
    for (int i = 0; i < TRELVOX_PARTS; i++)
        ours[i] = theirs[i] = (size_t)random_number();

    uint32_t answer = trelvox_read(p->bytes, p->length, ours);
    struct reference_answer told = reference_read(p->bytes, p->length, theirs);
    count_number(told.number);
    if (TRELVOX_NUMBER(answer) != told.number || TRELVOX_PLACE(answer) != told.place ||
        memcmp(ours, theirs, sizeof ours) != 0 || memcmp(before.bytes, p->bytes, LONGEST) != 0) {
        print_packet(&before, kind);
        print_parts("library", TRELVOX_NUMBER(answer), TRELVOX_PLACE(answer), ours);
        print_parts("reference", told.number, told.place, theirs);
        end_with_difference();
    }
    if (told.number == 0)
        compare_formed_again(p, kind, theirs);
}

static unsigned long compare_drawn(void)
{
    static struct packet packet;
    for (int i = 0; i < READINGS; i++) {
        enum kind kind = (enum kind)(i % KINDS);
        choose_packet(&packet, kind);
        compare_reading(&packet, kind);
    }
    return READINGS;
}

/* ---- Reading: every packet of some shapes ---------------------------------------------------- */

enum { EACH_LENGTH = 300, SHORT = 12 };

static const uint8_t first_bytes[] = {0x4B, 0x87, 0x2D, 0x4A};

/* As it is, and then with its checksum right. */
static unsigned long compare_both(struct packet *p, enum kind kind)
{
    compare_reading(p, kind);
    mend_crc(p);
    compare_reading(p, kind);
    return 2;
}

/* So long, with this code and these two counts, and both low address bits. */
static unsigned long compare_counts(size_t length, uint8_t code, uint8_t first, uint8_t last)
{
    static struct packet p;
    unsigned long cases = 0;
    for (unsigned bit = 0; bit < 2; bit++) {
        p.length = length;
        fill(p.bytes, length);
        p.bytes[0] = code;
        p.bytes[1] = (uint8_t)(0x40 + bit);
        p.bytes[2] = first;
        if (length > 5)
            p.bytes[length - 3] = last;
        cases += compare_both(&p, BY_LENGTH);
    }
    return cases;
}

/* Each length with each code, a first count of zero, one that fits 4Bh, one that fits 2Dh and any,
 * and a last count of zero and any. */
static unsigned long compare_lengths(void)
{
    unsigned long cases = 0;
    for (size_t length = 0; length <= EACH_LENGTH; length++)
        for (size_t code = 0; code < sizeof first_bytes; code++) {
            const uint8_t firsts[] = {0, (uint8_t)(length - 5), (uint8_t)(length - 6),
                                      (uint8_t)random_number()};
            for (size_t first = 0; first < sizeof firsts; first++) {
                cases += compare_counts(length, first_bytes[code], firsts[first], 0);
                cases += compare_counts(length, first_bytes[code], firsts[first],
                                        (uint8_t)between(1, 255));
            }
        }
    return cases;
}

/* A short packet of each form with each byte changed into each other. */
static unsigned long compare_bytes(void)
{
    static struct packet sound, p;
    static struct request q = {WRITE, 0x20, 3, 2, {0x01, 0x00, 0xFF}};
    unsigned long cases = 0;
    for (int form = 0; form < FORMS; form++) {
        q.form = (enum form)form;
        sound.length = packet_length(&q);
        form_theirs(&q, sound.bytes, sound.length);
        for (size_t place = 0; place < sound.length; place++)
            for (unsigned byte = 0; byte < 256; byte++) {
                p = sound;
                p.bytes[place] = (uint8_t)byte;
                cases += compare_both(&p, BY_BYTE);
            }
    }
    return cases;
}

/* Each first byte with each third, in packets of each short length. */
static unsigned long compare_heads(void)
{
    static struct packet p;
    unsigned long cases = 0;
    for (size_t length = 0; length <= SHORT; length++)
        for (unsigned head = 0; head < 65536; head++) {
            p.length = length;
            fill(p.bytes, length);
            p.bytes[0] = (uint8_t)(head & 0xFF);
            p.bytes[2] = (uint8_t)(head >> 8);
            compare_reading(&p, BY_HEAD);
            cases++;
        }
    return cases;
}

/* ---- All of it ------------------------------------------------------------------------------- */

static void print_reading(const char *what, unsigned long cases)
{
    static const unsigned numbers[] = {0, 14, 16, 17, 18, 19};
    printf("\nreading: %lu packets, %s", cases, what);
    for (size_t i = 0; i < sizeof numbers / sizeof numbers[0]; i++)
        print_number(numbers[i]);
}

int main(void)
{
    unsigned long cases = compare_all_checksums();
    printf("checksums: %lu slices of 0 to %d bytes\n", cases, LONGEST);

    cases += compare_all_forming();
    printf("forming: %d calls", FORMINGS);
    print_number(0);
    print_number(11);
    print_number(12);

    unsigned long drawn = compare_drawn();
    print_reading("drawn, whole and damaged", drawn);
    unsigned long shaped = compare_lengths();
    shaped += compare_bytes();
    shaped += compare_heads();
    print_reading("each length to 300, each byte of a short one changed, each first and third byte",
                  shaped);
    cases += drawn + shaped;

    printf("\n%lu cases, library and reference agree in all\n", cases);
    return 0;
}
