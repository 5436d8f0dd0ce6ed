/*
 * A plain model of the line in C, for measure/line alone: it does the work of the program speed, slot by slot, with the state in
 * one place and changed where it lies. It shares nothing with the library.
 */
#include <stdint.h>
#include <stdio.h>

enum condition { DEAF, TAKING, SENDING, MATCHING, SEARCHING, SELECTED };

/* Both speeds are 1 for overdrive, 0 for standard. One that reverts goes to standard where its match differs. */
struct probe {
    uint64_t id;
    uint8_t marked, condition, bit, code, overdrive, reverts;
};

static struct probe probes[64];
static unsigned fitted;
static uint8_t overdrive; /* the bridge's speed */

static int bit_of(uint64_t id, unsigned k)
{
    return (int)(id >> k & 1);
}

/* A searching probe keeps bit * 3 + slot in its field bit, up to 191. */
static int sends(const struct probe *p)
{
    if (p->condition == SENDING)
        return bit_of(p->id, p->bit);
    if (p->condition == SEARCHING) {
        if (p->bit % 3 == 0)
            return bit_of(p->id, p->bit / 3);
        if (p->bit % 3 == 1)
            return !bit_of(p->id, p->bit / 3);
    }
    return 1;
}

static void obey(struct probe *p)
{
    p->bit = 0;
    p->reverts = 0;
    switch (p->code) {
    case 0x33: p->condition = SENDING; p->marked = 0; break;
    case 0x55: p->condition = MATCHING; p->marked = 0; break;
    case 0x69: p->condition = MATCHING; p->marked = 0; p->overdrive = p->reverts = 1; break;
    case 0xF0: p->condition = SEARCHING; p->marked = 0; break;
    case 0xCC: p->condition = SELECTED; p->marked = 0; break;
    case 0x3C: p->condition = SELECTED; p->marked = 0; p->overdrive = 1; break;
    case 0xA5: p->condition = p->marked ? SELECTED : DEAF; break;
    default: p->condition = DEAF;
    }
}

static void compare(struct probe *p, unsigned k, unsigned last, int level)
{
    if (bit_of(p->id, k) != level) {
        p->condition = DEAF;
        if (p->reverts)
            p->overdrive = 0;
    } else if (p->bit == last) {
        p->marked = 1;
        p->condition = SELECTED;
    } else {
        p->bit++;
    }
}

static void take(struct probe *p, unsigned speed, int level)
{
    if (p->overdrive != speed)
        return;
    switch (p->condition) {
    case TAKING:
        p->code = (uint8_t)(p->code >> 1 | (level ? 0x80 : 0));
        if (++p->bit == 8)
            obey(p);
        break;
    case SENDING:
        if (++p->bit == 64)
            p->condition = SELECTED;
        break;
    case MATCHING:
        compare(p, p->bit, 63, level);
        break;
    case SEARCHING:
        if (p->bit % 3 == 2)
            compare(p, p->bit / 3, 191, level);
        else
            p->bit++;
        break;
    }
}

/* One copy of the loops, so that the compiler takes the probe's functions into them. */
__attribute__((noinline)) static int slot(int write)
{
    const unsigned speed = overdrive;
    int level = write;
    for (unsigned i = 0; level && i < fitted; i++)
        level = sends(&probes[i]) || probes[i].overdrive != speed;
    for (unsigned i = 0; i < fitted; i++)
        take(&probes[i], speed, level);
    return level;
}

static void write_byte(unsigned byte)
{
    for (int i = 0; i < 8; i++)
        slot((int)(byte >> i & 1));
}

static unsigned read_byte(void)
{
    unsigned byte = 0;
    for (int i = 0; i < 8; i++)
        byte |= (unsigned)slot(1) << i;
    return byte;
}

/* DIR, TSB and SBR as they stand in the status. */
static unsigned triplet(int direction)
{
    int first = slot(1);
    int second = slot(1);
    int bit = first ? 1 : second ? 0 : direction;
    slot(bit);
    return (unsigned)(bit << 7 | second << 6 | first << 5);
}

/* At standard speed it reaches every probe and puts it to that speed. Whether it reached one is the answer. */
static int reset(void)
{
    int presence = 0;
    for (unsigned i = 0; i < fitted; i++) {
        if (overdrive && !probes[i].overdrive)
            continue;
        probes[i].condition = TAKING;
        probes[i].bit = 0;
        probes[i].code = 0;
        probes[i].overdrive = overdrive;
        presence = 1;
    }
    return presence;
}

/* The taps are 8Ch for the CRC-8 and A001h for the CRC-16. */
static unsigned crc(unsigned taps, const uint8_t *bytes, int length)
{
    unsigned r = 0;
    for (int i = 0; i < length; i++)
        for (int k = 0; k < 8; k++) {
            int odd = (int)(r ^ bytes[i] >> k) & 1;
            r = r >> 1 ^ (odd ? taps : 0);
        }
    return r;
}

static void fit(unsigned serial)
{
    uint8_t bytes[7] = {0x19, (uint8_t)serial};
    probes[fitted].id = 0x19 | (uint64_t)serial << 8 | (uint64_t)crc(0x8C, bytes, 7) << 56;
    probes[fitted].condition = DEAF;
    fitted++;
}

static unsigned status = 0x18, readout;

static void reset_line(void)
{
    status = (status & 0xFD) | (reset() ? 0x02 : 0);
}

/* Write Configuration clears RST; 1WS is the speed. */
static void configure(unsigned byte)
{
    status &= 0xEF;
    overdrive = byte >> 3 & 1;
}

static void work(int kind)
{
    reset_line();
    write_byte(kind == 'r' || kind == 'p' ? 0x33 : 0xF0);
    if (kind == 'w' || kind == 'p')
        for (unsigned k = 0; k < 8; k++)
            write_byte(k);
    if (kind == 'r' || kind == 'm')
        for (int k = 0; k < 8; k++)
            readout = read_byte();
    if (kind == 's')
        for (int k = 0; k < 64; k++)
            status = triplet(0) | (status & 0x1F);
}

/* One pass of a search: the ID it ends at, and in *conflict its last conflict, or -1. */
static uint64_t pass(uint64_t previous, int *conflict)
{
    uint64_t id = 0;
    int last = *conflict, next = -1;
    reset_line();
    write_byte(0xF0);
    for (int k = 0; k < 64; k++) {
        unsigned d = k < last ? (unsigned)(previous >> k & 1) : k == last;
        status = triplet((int)d) | (status & 0x1F);
        if (!(status & 0x60) && !(status & 0x80))
            next = k;
        id |= (uint64_t)(status >> 7 & 1) << k;
    }
    *conflict = next;
    return id;
}

static void search(uint8_t *list)
{
    unsigned count = 0;
    uint64_t id = 0;
    int conflict = -1;
    status = 0x18;
    overdrive = 0;
    do {
        id = pass(id, &conflict);
        for (int k = 0; k < 8; k++)
            list[8 * count + k] = (uint8_t)(id >> 8 * k);
        count++;
    } while (conflict >= 0 && count < 64);
}

static void rounds(int kind)
{
    for (int i = 0; i < 100; i++)
        work(kind);
}

/* All probes and the bridge go to overdrive, and behind the rounds the bridge back. */
static void rounds_at_overdrive(int kind)
{
    configure(0xF0);
    reset_line();
    write_byte(0x3C);
    configure(0x78);
    rounds(kind);
    configure(0xF0);
}

/*
 * For each letter of the input 100 rounds of that work, for a capital one at overdrive, and a full search for f; then the status and
 * the read-data byte, and for f before them the CRC-16 of the list.
 */
int main(void)
{
    static uint8_t list[512];
    for (unsigned i = 1; i <= 64; i++)
        fit(i);
    for (int kind = getchar(); kind != EOF; kind = getchar()) {
        if (kind == 'f') {
            search(list);
            printf("%04x ", crc(0xA001, list, 512));
        } else if (kind >= 'A' && kind <= 'Z') {
            rounds_at_overdrive(kind - 'A' + 'a');
        } else {
            rounds(kind);
        }
        printf("%02x %02x\n", status, readout);
    }
    return 0;
}
