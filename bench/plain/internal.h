/* What the host's side and the bus's side of the model share. */
#ifndef HI3110_INTERNAL_H
#define HI3110_INTERNAL_H

#include "hi3110.h"

#include <stdbool.h>
#include <string.h>

/* CTRL0's MODE; each value from 4 up is initialization. */
enum { NORMAL, LOOPBACK, MONITOR, SLEEP, INITIALIZATION };
enum { CTRL0_MODE = 0xE0, CTRL0_WAKEUP = 0x10, CTRL0_RESET = 0x08, CTRL0_BOR = 0x04, MODE_SHIFT = 5 };
enum { CTRL1_TXEN = 0x80, CTRL1_TX1M = 0x40, CTRL1_OSM = 0x20, CTRL1_FILTON = 0x10 };
enum {
    INTF_RXTMP = 0x80, INTF_RXFIFO = 0x40, INTF_TXCPLT = 0x20, INTF_BUSERR = 0x10,
    INTF_MCHG = 0x08, INTF_WAKEUP = 0x04, INTF_F1MESS = 0x02, INTF_F0MESS = 0x01,
};
enum {
    STATF_TXMTY = 0x80, STATF_TXFULL = 0x40, STATF_TXHISF = 0x20, STATF_ERRW = 0x10,
    STATF_ERRP = 0x08, STATF_BUSOFF = 0x04, STATF_RXFMTY = 0x02, STATF_RXFFULL = 0x01,
};
enum { ERR_BUSOFF = 0x80, ERR_TXERRP = 0x40, ERR_RXERRP = 0x20 };

enum { WARNING = 96, PASSIVE = 128, AFTER_PASSIVE = 119, COUNTER_TOP = 255, RECOVERY_GROUPS = 128 };

enum { IDLE, FIRST_OF_FIFO, ORPHANED }; /* transmission */

/* The identifier of a frame as Table 5's bytes 4 to 7. */
#define ID_SRR 0x00100000u
#define ID_IDE 0x00080000u
#define ID_RTR 0x00000001u
#define FILTER_RTR ID_SRR /* Table 4 has RTR in SRR's place, and nothing in RTR's */

static inline uint32_t get32(const uint8_t *p)
{
    return (uint32_t)p[0] << 24 | (uint32_t)p[1] << 16 | (uint32_t)p[2] << 8 | p[3];
}

static inline void put32(uint8_t *p, uint32_t v)
{
    p[0] = v >> 24;
    p[1] = v >> 16;
    p[2] = v >> 8;
    p[3] = v;
}

static inline uint16_t get16(const uint8_t *p)
{
    return p[0] << 8 | p[1];
}

static inline void put16(uint8_t *p, uint16_t v)
{
    p[0] = v >> 8;
    p[1] = v;
}

static inline unsigned data_bytes(unsigned code, bool remote)
{
    if (remote)
        return 0;
    return code > 8 ? 8 : code;
}

/* `frame` is Table 5's bytes 4 to 16; data bytes that the frame doesn't have read as zero. */
static inline void put_frame(uint8_t *frame, uint32_t id, uint8_t code, const uint8_t *data, unsigned length)
{
    put32(frame, id);
    frame[4] = code;
    memset(frame + 5, 0, 8);
    memcpy(frame + 5, data, length);
}

static inline bool enabled(const struct hi3110 *d)
{
    return d->txen_pin || (d->ctrl1 & (CTRL1_TXEN | CTRL1_TX1M));
}

static inline void change_mode(struct hi3110 *d, uint8_t mode)
{
    d->mode = mode;
    d->intf |= INTF_MCHG;
}

void hi3110_reset(struct hi3110 *d);

#endif
