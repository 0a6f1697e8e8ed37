/* The registers, the filters and the masks, as a transfer reads and writes them: `host.c` alone includes this. */
#ifndef HI3110_REGISTERS_H
#define HI3110_REGISTERS_H

#include "internal.h"

static int check_read(size_t count, size_t lent, size_t size)
{
    if (count != 1)
        return HI3110_BAD_LENGTH;
    return lent < size ? HI3110_SHORT_REPLY : HI3110_DONE;
}

static int read_register(uint8_t value, size_t count, uint8_t *reply, size_t lent)
{
    int number = check_read(count, lent, 1);
    if (number == HI3110_DONE)
        reply[0] = value;
    return number;
}

static int write_register(uint8_t *reg, const uint8_t *bytes, size_t count)
{
    if (count != 2)
        return HI3110_BAD_LENGTH;
    *reg = bytes[1];
    return HI3110_DONE;
}

static int write_bit_timing(const struct hi3110 *d, uint8_t *reg, const uint8_t *bytes, size_t count)
{
    if (count == 2 && d->mode != INITIALIZATION)
        return HI3110_NOT_INITIALIZING;
    return write_register(reg, bytes, count);
}

static int write_ctrl0(struct hi3110 *d, const uint8_t *bytes, size_t count)
{
    if (count != 2)
        return HI3110_BAD_LENGTH;
    if (bytes[1] & CTRL0_RESET) {
        hi3110_reset(d);
        d->ctrl0 |= CTRL0_RESET; /* readable until the host clears it */
        return HI3110_DONE;
    }
    uint8_t mode = bytes[1] >> MODE_SHIFT;
    if (mode > INITIALIZATION)
        mode = INITIALIZATION;
    d->ctrl0 = bytes[1];
    if (mode != SLEEP && mode != d->mode) { /* sleep waits for a quiet bus */
        d->transmission = IDLE;
        change_mode(d, mode);
    }
    return HI3110_DONE;
}

/* Op-codes of filters 0 to 7 and then masks 0 to 7 rise by two and skip each x0. */
static unsigned bank_place(unsigned offset)
{
    return offset / 16 * 7 + offset % 16 / 2 - 1;
}

static int read_bank(const struct hi3110 *d, unsigned place, size_t count, uint8_t *reply, size_t lent)
{
    int number = check_read(count, lent, 6);
    if (number == HI3110_DONE) {
        unsigned n = place % HI3110_PLACES;
        bool filter = place < HI3110_PLACES;
        put32(reply, filter ? d->filter_id[n] : d->mask_id[n]);
        put16(reply + 4, filter ? d->filter_data[n] : d->mask_data[n]);
    }
    return number;
}

static int write_bank(struct hi3110 *d, unsigned place, const uint8_t *bytes, size_t count)
{
    if (count != 7)
        return HI3110_BAD_LENGTH;
    if (d->mode != INITIALIZATION)
        return HI3110_NOT_INITIALIZING;
    unsigned n = place % HI3110_PLACES;
    if (place < HI3110_PLACES) {
        d->filter_id[n] = get32(bytes + 1);
        d->filter_data[n] = get16(bytes + 5);
    } else {
        d->mask_id[n] = get32(bytes + 1);
        d->mask_data[n] = get16(bytes + 5);
    }
    return HI3110_DONE;
}

static uint8_t messtat(const struct hi3110 *d)
{
    uint8_t tstat;
    if (d->transmission != IDLE)
        tstat = 3;
    else if (!enabled(d))
        tstat = 0;
    else
        tstat = d->tx_count == 0 ? 1 : 2;
    return d->filhit | d->mtag | tstat;
}

static uint8_t error_register(const struct hi3110 *d)
{
    uint8_t v = d->err;
    if (d->bus_off)
        v |= ERR_BUSOFF;
    else if (d->tec >= PASSIVE)
        v |= ERR_TXERRP;
    if (d->rec >= PASSIVE)
        v |= ERR_RXERRP;
    return v;
}

static uint8_t statf(const struct hi3110 *d)
{
    uint8_t tec = d->bus_off ? 0 : d->tec; /* in bus off the error flags follow REC alone */
    uint8_t v = 0;
    if (d->tx_count == 0)
        v |= STATF_TXMTY;
    if (d->tx_count == HI3110_PLACES)
        v |= STATF_TXFULL;
    if (d->history_count == HI3110_PLACES)
        v |= STATF_TXHISF;
    if ((d->rec >= WARNING && d->rec < PASSIVE) || (tec >= WARNING && tec < PASSIVE))
        v |= STATF_ERRW;
    if (d->rec >= PASSIVE || tec >= PASSIVE)
        v |= STATF_ERRP;
    if (d->bus_off)
        v |= STATF_BUSOFF;
    if (d->rx_count == 0)
        v |= STATF_RXFMTY;
    if (d->rx_count == HI3110_PLACES)
        v |= STATF_RXFFULL;
    return v;
}

#endif
