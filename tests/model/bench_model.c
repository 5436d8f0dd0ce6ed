/* An independent model of the bench program, written from documents 01 and 02 alone. It shares nothing with
 * the Rattle code: identities are bytes, checksums go bit by bit, scripts are read bit by bit.
 *
 *   bench_model            one script on standard input, its transcript on standard output
 *   bench_model --many     scripts one after the other, each behind its length in four bytes, low byte
 *                          first; transcripts in the same form
 *   bench_model --probes   as --many, with what each script leaves in place of its transcript: the pull-up
 *                          where it is on, and the probes; one that is not of the form leaves neither
 *   bench_model --swaps    as --many, with the same behind the transcript, of a form that the bench does not
 *                          have: of kind 3 one more bit stands before the ID, 0 for a fitting, 1 for a
 *                          withdrawal, which prints as O
 */
#include <stdint.h>
#include <stdio.h>
#include <stdlib.h>
#include <string.h>

enum { SCRIPT_MOST = 4096, PROBES_MOST = 64, LINE_MOST = 16, EVENTS_MOST = (SCRIPT_MOST * 8 - 16) / 2 };

/* ---- probes */

enum condition { DEAF, TAKING, SENDING, MATCHING, SEARCHING, SELECTED };

struct probe {
    uint8_t id[8];
    uint8_t overdrive; /* its speed: 0 standard, 1 overdrive */
    uint8_t marked;
    uint8_t condition;
    uint8_t bit;  /* how many bits of a command, or of the ID, are behind it */
    uint8_t slot; /* of a search bit: 0, 1, 2 */
    uint8_t code; /* the bits of the command so far; once it is whole, the command that is obeyed */
};

static int id_bit(const struct probe *p)
{
    return p->id[p->bit >> 3] >> (p->bit & 7) & 1;
}

/* What the probe puts on the line: 0, or 1 where it sends 1 or nothing. */
static int sent(const struct probe *p)
{
    if (p->condition == SENDING)
        return id_bit(p);
    if (p->condition == SEARCHING && p->slot < 2)
        return id_bit(p) ^ p->slot;
    return 1;
}

static void begin(struct probe *p, enum condition c)
{
    p->condition = c;
    p->bit = 0;
    p->slot = 0;
}

static int clears_mark(uint8_t code)
{
    return code == 0x33 || code == 0x55 || code == 0xF0 || code == 0xCC || code == 0x3C || code == 0x69;
}

static void obey(struct probe *p)
{
    if (clears_mark(p->code))
        p->marked = 0;
    switch (p->code) {
    case 0x33:
        begin(p, SENDING);
        break;
    case 0x55:
        begin(p, MATCHING);
        break;
    case 0xF0:
        begin(p, SEARCHING);
        break;
    case 0xCC:
        begin(p, SELECTED);
        break;
    case 0x3C:
        p->overdrive = 1;
        begin(p, SELECTED);
        break;
    case 0x69:
        p->overdrive = 1;
        begin(p, MATCHING);
        break;
    case 0xA5:
        begin(p, p->marked ? SELECTED : DEAF);
        break;
    default:
        begin(p, DEAF);
    }
}

static int matches_by_69(const struct probe *p)
{
    return p->condition == MATCHING && p->code == 0x69;
}

/* The probe compares the level with its ID's bit; after the last one it is marked and selected. */
static void compare(struct probe *p, int level)
{
    if (level != id_bit(p)) {
        if (matches_by_69(p))
            p->overdrive = 0;
        begin(p, DEAF);
    } else if (p->bit == 63) {
        p->marked = 1;
        begin(p, SELECTED);
    } else {
        p->bit++;
        p->slot = 0;
    }
}

static void take(struct probe *p, int level)
{
    switch (p->condition) {
    case TAKING:
        p->code |= (uint8_t)(level << p->bit);
        if (++p->bit == 8)
            obey(p);
        break;
    case SENDING:
        if (p->bit == 63)
            begin(p, SELECTED);
        else
            p->bit++;
        break;
    case MATCHING:
        compare(p, level);
        break;
    case SEARCHING:
        if (p->slot < 2)
            p->slot++;
        else
            compare(p, level);
        break;
    default:
        break;
    }
}

/* ---- the bridge and its line */

enum pointer { AT_STATUS, AT_DATA, AT_CONFIGURATION };

struct bridge {
    uint8_t dir, tsb, sbr, rst, ppd;
    uint8_t configuration, pointer, data;
    uint8_t pending, parameter; /* the code of the command that waits, or 0 */
    uint8_t pullup;             /* whether the strong pull-up is on */
    int count;
    struct probe probes[PROBES_MOST];
};

/* The bridge's speed: 1WS of the configuration. */
static int at_overdrive(const struct bridge *b)
{
    return b->configuration >> 3 & 1;
}

/* SPU of the configuration: whether the pull-up follows what is written to the line. */
static int strong(const struct bridge *b)
{
    return b->configuration >> 2 & 1;
}

static int reached(const struct bridge *b, const struct probe *p)
{
    return p->overdrive == at_overdrive(b);
}

static int slot(struct bridge *b, int written)
{
    int level = written;
    for (int i = 0; i < b->count && level; i++)
        level = !reached(b, &b->probes[i]) || sent(&b->probes[i]);
    for (int i = 0; i < b->count; i++) {
        if (reached(b, &b->probes[i]))
            take(&b->probes[i], level);
    }
    return level;
}

static void device_reset(struct bridge *b)
{
    b->dir = b->tsb = b->sbr = b->ppd = 0;
    b->rst = 1;
    b->configuration = 0;
    b->pointer = AT_STATUS;
    b->pending = b->pullup = 0;
}

/* It takes SPU with it, else the command that ends it would switch it on again. */
static void end_pullup(struct bridge *b)
{
    if (b->pullup)
        b->configuration &= 11;
    b->pullup = 0;
}

static void triplet(struct bridge *b)
{
    int first = slot(b, 1);
    int second = slot(b, 1);
    int bit = first ? 1 : second ? 0 : b->parameter >> 7;
    slot(b, bit);
    b->sbr = (uint8_t)first;
    b->tsb = (uint8_t)second;
    b->dir = (uint8_t)bit;
}

/* At standard speed it is heard by all, and puts them to that speed. */
static void wire_reset(struct bridge *b)
{
    int presence = 0;
    for (struct probe *p = b->probes; p < b->probes + b->count; p++) {
        if (!at_overdrive(b))
            p->overdrive = 0;
        if (reached(b, p)) {
            begin(p, TAKING);
            p->code = 0;
            presence = 1;
        }
    }
    b->ppd = (uint8_t)presence;
}

static void time_passes(struct bridge *b)
{
    switch (b->pending) {
    case 0xB4:
        wire_reset(b);
        break;
    case 0x87:
        b->sbr = (uint8_t)slot(b, b->parameter >> 7);
        break;
    case 0xA5:
        for (int i = 0; i < 8; i++)
            slot(b, b->parameter >> i & 1);
        break;
    case 0x96:
        b->data = 0;
        for (int i = 0; i < 8; i++)
            b->data |= (uint8_t)(slot(b, 1) << i);
        break;
    case 0x78:
        triplet(b);
        break;
    }
    if (b->pending == 0x87 || b->pending == 0xA5)
        b->pullup = (uint8_t)strong(b);
    b->pending = 0;
}

static unsigned wanted(uint8_t code)
{
    switch (code) {
    case 0xF0:
    case 0xB4:
    case 0x96:
        return 1;
    case 0xE1:
    case 0xD2:
    case 0x87:
    case 0xA5:
    case 0x78:
        return 2;
    default:
        return 0;
    }
}

static unsigned set_pointer(struct bridge *b, uint8_t x)
{
    if (x == 0xF0)
        b->pointer = AT_STATUS;
    else if (x == 0xE1)
        b->pointer = AT_DATA;
    else if (x == 0xC3)
        b->pointer = AT_CONFIGURATION;
    else
        return 8;
    return 0;
}

/* Accepted if the upper nibble is the complement of the lower and bit 1, which has no use here, is 0. */
static unsigned configure(struct bridge *b, uint8_t x)
{
    if ((x >> 4 ^ (x & 15)) != 15 || (x & 2))
        return 8;
    b->configuration = x & 15;
    if (!strong(b))
        b->pullup = 0;
    b->rst = 0;
    b->pointer = AT_CONFIGURATION;
    return 0;
}

static unsigned write_bytes(struct bridge *b, const uint8_t *x, unsigned n)
{
    if (n == 0)
        return 7;
    if (wanted(x[0]) == 0)
        return 5;
    if (b->pending && x[0] != 0xF0 && x[0] != 0xE1)
        return 6;
    if (n != wanted(x[0]))
        return 7;
    switch (x[0]) {
    case 0xF0:
        device_reset(b);
        return 0;
    case 0xE1:
        return set_pointer(b, x[1]);
    case 0xD2:
        return configure(b, x[1]);
    default:
        end_pullup(b);
        b->pending = x[0];
        b->parameter = n == 2 ? x[1] : 0;
        b->pointer = AT_STATUS;
        return 0;
    }
}

static uint8_t read_byte(const struct bridge *b)
{
    if (b->pointer == AT_DATA)
        return b->data;
    if (b->pointer == AT_CONFIGURATION)
        return b->configuration;
    return (uint8_t)(b->dir << 7 | b->tsb << 6 | b->sbr << 5 | b->rst << 4 | 8 | b->ppd << 1 | (b->pending != 0));
}

static uint8_t crc8(const uint8_t *x, int n)
{
    uint8_t r = 0;
    for (int i = 0; i < n; i++) {
        r ^= x[i];
        for (int k = 0; k < 8; k++)
            r = (uint8_t)(r & 1 ? r >> 1 ^ 0x8C : r >> 1);
    }
    return r;
}

/* Where the probe of this ID stands; where none has it, the place behind the last. */
static int place_of(const struct bridge *b, const uint8_t *id)
{
    int i = 0;
    while (i < b->count && memcmp(b->probes[i].id, id, 8) != 0)
        i++;
    return i;
}

static unsigned fit(struct bridge *b, const uint8_t *id)
{
    if (crc8(id, 7) != id[7])
        return 2;
    if (id[0] == 0)
        return 3;
    if (place_of(b, id) < b->count)
        return 4;
    if (b->count == PROBES_MOST)
        return 1;
    struct probe *p = &b->probes[b->count++];
    memset(p, 0, sizeof *p);
    memcpy(p->id, id, 8);
    return 0;
}

/* Those behind the probe move down. */
static unsigned withdraw(struct bridge *b, const uint8_t *id)
{
    int i = place_of(b, id);
    if (i == b->count)
        return 20;
    b->count--;
    memmove(&b->probes[i], &b->probes[i + 1], (size_t)(b->count - i) * sizeof b->probes[0]);
    return 0;
}

/* ---- the script */

struct reader {
    const uint8_t *bytes;
    size_t bits, place;
    int past;  /* a bit behind the end was asked for */
    int swaps; /* the form with withdrawals */
};

static unsigned get(struct reader *r, unsigned n)
{
    unsigned x = 0;
    while (n-- > 0) {
        if (r->place >= r->bits) {
            r->past = 1;
            return 0;
        }
        x = x << 1 | (unsigned)(r->bytes[r->place >> 3] >> (7 - (r->place & 7)) & 1);
        r->place++;
    }
    return x;
}

static void get_bytes(struct reader *r, uint8_t *x, unsigned n)
{
    for (uint8_t *end = x + n; x < end; x++)
        *x = (uint8_t)get(r, 8);
}

/* Whether an event of kind 3 withdraws: the bit before the ID, in the form that has one. */
static unsigned get_withdraws(struct reader *r)
{
    return r->swaps ? get(r, 1) : 0;
}

static struct reader opened(const uint8_t *bytes, size_t n, int swaps)
{
    return (struct reader){.bytes = bytes, .bits = n * 8, .swaps = swaps};
}

static int well_formed(const uint8_t *bytes, size_t n, int swaps)
{
    if (n > SCRIPT_MOST)
        return 0;
    struct reader r = opened(bytes, n, swaps);
    uint8_t x[8];
    for (unsigned left = get(&r, 16); left > 0 && !r.past; left--) {
        unsigned kind = get(&r, 2);
        if (kind == 0) {
            get_bytes(&r, x, get(&r, 2));
        } else if (kind == 3) {
            get_withdraws(&r);
            get_bytes(&r, x, 8);
        }
    }
    if (r.past || r.bits - r.place >= 8)
        return 0;
    return get(&r, (unsigned)(r.bits - r.place)) == 0;
}

/* ---- the transcript */

static char *put_number(char *to, unsigned n)
{
    char digits[8];
    int k = 0;
    do
        digits[k++] = (char)('0' + n % 10);
    while ((n /= 10) > 0);
    while (k > 0)
        *to++ = digits[--k];
    return to;
}

static char *put_byte(char *to, uint8_t x)
{
    *to++ = "0123456789ABCDEF"[x >> 4];
    *to++ = "0123456789ABCDEF"[x & 15];
    return to;
}

static char *put_letter(char *to, char letter)
{
    *to++ = ' ';
    *to++ = letter;
    *to++ = ' ';
    return to;
}

/* Runs one event and prints its letter and its value. */
static char *run(struct reader *r, struct bridge *b, char *to)
{
    uint8_t x[8];
    unsigned n, withdraws;
    switch (get(r, 2)) {
    case 0:
        n = get(r, 2);
        get_bytes(r, x, n);
        return put_number(put_letter(to, 'W'), write_bytes(b, x, n));
    case 1:
        return put_byte(put_letter(to, 'R'), read_byte(b));
    case 2:
        time_passes(b);
        return put_number(put_letter(to, 'T'), 0);
    default:
        withdraws = get_withdraws(r);
        get_bytes(r, x, 8);
        if (withdraws)
            return put_number(put_letter(to, 'O'), withdraw(b, x));
        return put_number(put_letter(to, 'F'), fit(b, x));
    }
}

static size_t transcript(struct bridge *b, const uint8_t *bytes, size_t n, int swaps, char *out)
{
    memset(b, 0, sizeof *b);
    device_reset(b);
    if (!well_formed(bytes, n, swaps)) {
        memcpy(out, "15\n", 3);
        return 3;
    }
    struct reader r = opened(bytes, n, swaps);
    unsigned count = get(&r, 16);
    char *to = out;
    for (unsigned i = 1; i <= count; i++) {
        to = run(&r, b, put_number(to, i));
        *to++ = '\n';
    }
    return (size_t)(to - out);
}

/* ---- the pull-up and the probes as bridge_cases shows them */

static char *put_text(char *to, const char *text)
{
    size_t n = strlen(text);
    memcpy(to, text, n);
    return to + n;
}

static char *put_condition(char *to, const struct probe *p)
{
    static const char *const words[] = {
        [DEAF] = "deaf",
        [TAKING] = "taking a code, bits so far ",
        [SENDING] = "sending bit ",
        [MATCHING] = "matching bit ",
        [SEARCHING] = "searching bit ",
        [SELECTED] = "selected",
    };
    static const char *const slots[] = {", first slot", ", second slot", ", third slot"};
    to = put_text(to, words[p->condition]);
    if (p->condition != DEAF && p->condition != SELECTED)
        to = put_number(to, p->bit);
    if (p->condition == SEARCHING)
        to = put_text(to, slots[p->slot]);
    return matches_by_69(p) ? put_text(to, " by 69") : to;
}

static size_t probes_shown(const struct bridge *b, char *out)
{
    char *to = put_text(out, b->pullup ? "pull-up on\n" : "");
    for (const struct probe *p = b->probes; p < b->probes + b->count; p++) {
        to = put_byte(put_byte(put_text(to, "probe "), p->id[0]), p->id[1]);
        to = put_condition(put_text(to, ": "), p);
        to = put_text(to, p->marked ? ", marked" : "");
        to = put_text(to, p->overdrive ? ", overdrive\n" : "\n");
    }
    return (size_t)(to - out);
}

/* ---- input and output */

static uint8_t script[SCRIPT_MOST + 8]; /* room for some bytes too many */
static char out[EVENTS_MOST * LINE_MOST];
static struct bridge bridge;

static int get_length(size_t *n)
{
    uint8_t x[4];
    if (fread(x, 1, 4, stdin) != 4)
        return 0;
    *n = (size_t)x[0] | (size_t)x[1] << 8 | (size_t)x[2] << 16 | (size_t)x[3] << 24;
    return 1;
}

static void put_length(size_t n)
{
    for (int i = 0; i < 4; i++)
        putchar((int)(n >> 8 * i & 255));
}

static void many(int transcripts, int probes, int swaps)
{
    size_t n;
    while (get_length(&n)) {
        if (n > sizeof script || fread(script, 1, n, stdin) != n)
            exit(1);
        size_t len = transcript(&bridge, script, n, swaps, out);
        if (!transcripts)
            len = 0;
        if (probes)
            len += probes_shown(&bridge, out + len);
        put_length(len);
        fwrite(out, 1, len, stdout);
    }
}

int main(int argc, char **argv)
{
    const char *mode = argc > 1 ? argv[1] : "";
    if (strcmp(mode, "--many") == 0) {
        many(1, 0, 0);
    } else if (strcmp(mode, "--probes") == 0) {
        many(0, 1, 0);
    } else if (strcmp(mode, "--swaps") == 0) {
        many(1, 1, 1);
    } else {
        size_t n = fread(script, 1, sizeof script, stdin);
        fwrite(out, 1, transcript(&bridge, script, n, 0, out), stdout);
    }
    return 0;
}
