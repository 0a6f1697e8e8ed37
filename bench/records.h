/* One record at the end of a list. */
#ifndef RECORDS_H
#define RECORDS_H

#include "work.h"

#include <stdbool.h>
#include <string.h>

static inline uint8_t *add(struct work *w, unsigned kind)
{
    uint8_t *r = w->record[w->records++];
    memset(r, 0, WORK_RECORD);
    r[0] = kind;
    return r;
}

static inline void little32(uint8_t *p, uint32_t v)
{
    for (int i = 0; i < 4; i++)
        p[i] = v >> 8 * i;
}

static inline void spi_lent(struct work *w, unsigned lent, const void *bytes, unsigned count)
{
    uint8_t *r = add(w, WORK_TRANSFER);
    r[1] = lent;
    r[2] = count;
    memcpy(r + 4, bytes, count);
}

/* A transfer of the bytes named, with a whole reply buffer of 16. */
#define SPI(w, ...) spi_lent(w, 16, (const uint8_t[]){__VA_ARGS__}, sizeof (const uint8_t[]){__VA_ARGS__})

static inline void event(struct work *w, unsigned kind, unsigned a, unsigned b)
{
    uint8_t *r = add(w, kind);
    r[1] = a;
    r[2] = b;
}

static inline void ticks(struct work *w, uint32_t count)
{
    little32(add(w, WORK_TICKS) + 4, count);
}

enum { EXTENDED = 1, REMOTE = 2, ACKNOWLEDGED = 4 };

static inline unsigned data_bytes(unsigned flags, unsigned code)
{
    if (flags & REMOTE)
        return 0;
    return code > 8 ? 8 : code;
}

static inline uint8_t *frame(struct work *w, unsigned flags, uint32_t id, unsigned code, unsigned first)
{
    uint8_t *r = add(w, WORK_FRAME);
    r[1] = flags;
    r[2] = code;
    r[3] = data_bytes(flags, code);
    little32(r + 4, id);
    for (unsigned i = 0; i < r[3]; i++)
        r[8 + i] = first + i;
    return r;
}

/* 0x12: `data` bytes follow the length code. */
static inline void message(struct work *w, unsigned flags, uint32_t id, unsigned tag, unsigned code, unsigned data)
{
    uint8_t b[16] = {0x12, tag};
    unsigned n;
    if (flags & EXTENDED) {
        b[2] = id >> 21;
        b[3] = (id >> 18 & 7) << 5 | 0x18 | (id >> 15 & 7);
        b[4] = id >> 7;
        b[5] = id << 1 | (flags & REMOTE ? 1 : 0);
        n = 6;
    } else {
        b[2] = id >> 3;
        b[3] = id << 5 | (flags & REMOTE ? 0x10 : 0);
        n = 4;
    }
    b[n++] = code;
    for (unsigned i = 0; i < data; i++)
        b[n++] = tag + i;
    spi_lent(w, 16, b, n);
}

static inline void reset_to(struct work *w, unsigned ctrl0, unsigned ctrl1)
{
    SPI(w, 0x56);
    SPI(w, 0x14, ctrl0);
    SPI(w, 0x16, ctrl1);
}

/* Filters 0 to 7, then masks 0 to 7. */
static const uint8_t bank_writes[16] = {0x62, 0x64, 0x66, 0x68, 0x6A, 0x6C, 0x6E, 0x72,
                                        0x74, 0x76, 0x78, 0x7A, 0x7C, 0x7E, 0x82, 0x84};

/* The n-th of the transfers and events that are refused. */
void work_refused_once(struct work *w, unsigned n);

#endif
