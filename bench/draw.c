/* Commands, frames and events drawn by a seeded generator. */
#include "draw.h"

/* xorshift; 0 to n - 1 */
uint32_t upto(struct draw *s, uint32_t n)
{
    s->state ^= s->state << 13;
    s->state ^= s->state >> 17;
    s->state ^= s->state << 5;
    return (s->state >> 3) % n;
}

bool chance(struct draw *s, unsigned in)
{
    return upto(s, in) == 0;
}

static uint32_t any32(struct draw *s)
{
    uint32_t high = upto(s, 0x10000);
    return high << 16 | upto(s, 0x10000);
}

/* Few identifiers, so that filters hit; now and then any, also one that can't be. */
static uint32_t drawn_id(struct draw *s, unsigned flags)
{
    if (chance(s, 24))
        return any32(s);
    if (chance(s, 4))
        return upto(s, flags & EXTENDED ? 0x20000000 : 0x800);
    return (flags & EXTENDED ? 0x12345678 : 0x123) ^ upto(s, 4);
}

static unsigned drawn_code(struct draw *s)
{
    return chance(s, 40) ? upto(s, 256) : chance(s, 4) ? upto(s, 16) : upto(s, 9);
}

static unsigned drawn_flags(struct draw *s)
{
    unsigned flags = chance(s, 2) ? EXTENDED : 0;
    return flags | (chance(s, 5) ? REMOTE : 0) | (chance(s, 5) ? 0 : ACKNOWLEDGED);
}

void drawn_frame(struct draw *s)
{
    unsigned flags = drawn_flags(s);
    uint32_t id = drawn_id(s, flags);
    unsigned code = drawn_code(s);
    uint8_t *r = frame(s->w, flags, id, code, 0x50 + upto(s, 3));
    if (chance(s, 30))
        r[3] = upto(s, 9);
    for (unsigned i = 8 + r[3]; i < 16; i++)
        r[i] = upto(s, 256); /* past the frame's data: must not be seen */
}

void drawn_message(struct draw *s)
{
    unsigned flags = drawn_flags(s);
    uint32_t id = drawn_id(s, flags);
    unsigned code = drawn_code(s);
    unsigned data = chance(s, 5) ? upto(s, 9) : data_bytes(flags, code & 0x0F);
    message(s->w, flags, id, upto(s, 256), code, data);
    uint8_t *r = s->w->record[s->w->records - 1];
    if (chance(s, 8))
        r[4 + 3] ^= 1u << upto(s, 5); /* SRR, IDE and bits that are ignored */
    if (chance(s, 20))
        r[2] = upto(s, 17);
}

void drawn_bytes(struct draw *s)
{
    uint8_t b[16];
    for (unsigned i = 0; i < 16; i++)
        b[i] = upto(s, 256);
    unsigned lent = upto(s, 17);
    spi_lent(s->w, lent, b, upto(s, 17));
}

/* Mostly with the command's own length, and enough lent for its reply. */
void drawn_transfer(struct draw *s, const uint8_t *bytes, unsigned count)
{
    uint8_t b[16] = {0};
    memcpy(b, bytes, count);
    unsigned lent = chance(s, 12) ? upto(s, 17) : 16;
    spi_lent(s->w, lent, b, chance(s, 24) ? upto(s, 17) : count);
}

void drawn_read(struct draw *s)
{
    static const uint8_t reads[] = {
        0x46, 0x48, 0x4A, 0x4C, 0x46, 0x48, 0x4A, 0x4C, 0xEE, 0xEE, 0xEE, 0xEE, /* those that take something off */
        0x42, 0x44, 0xA2, 0xA4, 0xA6, 0xA8, 0xAA, 0xAC, 0xAE, 0xB2, 0xB4, 0xB6, 0xB8, 0xBA, 0xBC, 0xBE, 0xC2, 0xC4,
        0xD2, 0xD4, 0xD6, 0xD8, 0xDA, 0xDC, 0xDE, 0xE2, 0xE4, 0xE6, 0xE8, 0xEA, 0xEC, 0xF8, 0xFA,
        0xDA, 0xDC, 0xDE, 0xE2, 0xDA, 0xDC, 0xDE, 0xE2,
    };
    unsigned from = s->reader ? 0 : 12;
    drawn_transfer(s, &reads[from + upto(s, sizeof reads - from)], 1);
}

void drawn_ctrl1(struct draw *s)
{
    uint8_t v = upto(s, 2) << 4 | (chance(s, 8) ? upto(s, 16) : 0); /* FILTON */
    if (s->sender)
        v |= chance(s, 2) ? 0x80 : 0x40 | upto(s, 2) << 5; /* TXEN, or TX1M with and without OSM */
    SPI(s->w, 0x16, v);
}

void drawn_write(struct draw *s)
{
    static const uint8_t registers[] = {0x18, 0x1A, 0x1C, 0x1E, 0x22, 0x24, 0x26};
    uint8_t b[2] = {registers[upto(s, sizeof registers)], upto(s, 256)};
    if (b[0] == 0x26)
        b[1] %= 160; /* far from bus off, which has its own phase */
    drawn_transfer(s, b, 2);
}

/* A filter or mask near what the frames bring. */
void drawn_filter(struct draw *s, unsigned place)
{
    static const uint8_t wanted[3][6] = {
        {0x91, 0xA8, 0xAC, 0xF0, 0x50, 0x51}, {0x24, 0x60, 0x00, 0x00, 0x51, 0x52}, {0x24, 0x50, 0x00, 0x01, 0x00, 0x00},
    };
    const uint8_t *filter = wanted[upto(s, 3)];
    uint8_t b[7] = {bank_writes[place]};
    for (unsigned i = 0; i < 6; i++)
        b[1 + i] = place < 8 ? filter[i] : chance(s, 4) ? upto(s, 256) : i < 4 || chance(s, 2) ? 0xFF : 0x00;
    drawn_transfer(s, b, 7);
}

void drawn_mode(struct draw *s)
{
    static const uint8_t modes[] = {0x00, 0x00, 0x00, 0x00, 0x20, 0x20, 0x40, 0x60, 0x70, 0x80, 0xE0};
    uint8_t mode = modes[upto(s, sizeof modes)];
    SPI(s->w, 0x14, mode | (chance(s, 12) ? upto(s, 32) : upto(s, 2) << 4 | upto(s, 8))); /* RESET is 08 */
}

void drawn_reset(struct draw *s)
{
    if (chance(s, 2))
        SPI(s->w, 0x56);
    else
        event(s->w, WORK_MR_PIN, 0, 0);
}

void drawn_event(struct draw *s)
{
    static const uint8_t kinds[] = {
        WORK_RECEIVE_ERROR, WORK_DOMINANT, WORK_TRANSMIT_ERROR, WORK_BEGUN, WORK_COMPLETED, WORK_LOST,
        WORK_ELEVEN_RECESSIVE, WORK_QUIET, WORK_ACTIVITY, WORK_TICKS, WORK_TXEN_PIN,
    };
    unsigned kind = kinds[upto(s, sizeof kinds)];
    if (kind == WORK_TICKS)
        ticks(s->w, chance(s, 3) ? any32(s) : upto(s, 300));
    else if (kind == WORK_TXEN_PIN)
        event(s->w, kind, s->sender && chance(s, 2), 0);
    else {
        unsigned bit = upto(s, 5);
        event(s->w, kind, bit, upto(s, 2));
    }
}
