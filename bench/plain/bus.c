/* The bus's side: frames and the other events. */
#include "internal.h"

/* The lowest filter that matches, or HI3110_PLACES. */
static unsigned lowest_match(const struct hi3110 *d, const uint8_t *frame)
{
    uint32_t id = get32(frame);
    uint16_t data = get16(frame + 5);
    if (id & ID_RTR)
        id |= FILTER_RTR;
    else
        id &= ~FILTER_RTR;
    unsigned n;
    for (n = 0; n < HI3110_PLACES; n++)
        if (((id ^ d->filter_id[n]) & d->mask_id[n] & ~ID_RTR) == 0 &&
            ((data ^ d->filter_data[n]) & d->mask_data[n]) == 0)
            break;
    return n;
}

/* The identifier in Table 5's bytes 4 to 7, with LOST_EXTENDED for an extended one. */
static uint32_t identifier(uint32_t bytes)
{
    uint32_t upper = bytes >> 21;
    return bytes & ID_IDE ? HI3110_LOST_EXTENDED | upper << 18 | (bytes >> 1 & 0x3FFFF) : upper;
}

/* A frame that the mode takes, from the bus or from loopback, already stands in the temporary buffer. */
static int arrive(struct hi3110 *d)
{
    const uint8_t *frame = d->temporary + 2;
    unsigned hit = 0;
    put16(d->temporary, d->time_tag);
    d->temporary_number = ++d->arrivals;
    d->intf |= INTF_RXTMP;
    d->filhit = 0;
    if (d->ctrl1 & CTRL1_FILTON) {
        hit = lowest_match(d, frame);
        if (hit == HI3110_PLACES)
            return HI3110_A4_FILTERED;
        d->filhit = (8 + hit) << 4;
        if (hit == 0)
            d->intf |= INTF_F0MESS;
        else if (hit == 1)
            d->intf |= INTF_F1MESS;
    }
    bool full = d->rx_count == HI3110_PLACES;
    if (!full)
        d->rx_count++;
    unsigned place = (d->rx_head + d->rx_count - 1) % HI3110_PLACES;
    uint8_t *m = d->rx[place];
    if (full)
        d->lost = identifier(get32(m + 3));
    d->rx_number[place] = d->temporary_number;
    m[0] = (frame[1] & ID_IDE >> 16 ? 0x80 : 0) | hit;
    memcpy(m + 1, d->temporary, 15);
    d->intf |= INTF_RXFIFO;
    return full ? HI3110_QUEUED_OVER : HI3110_QUEUED;
}

static void wake_up(struct hi3110 *d)
{
    if (d->mode != SLEEP || !(d->ctrl0 & CTRL0_WAKEUP))
        return;
    d->ctrl0 = (d->ctrl0 & ~CTRL0_MODE) | MONITOR << MODE_SHIFT;
    d->intf |= INTF_WAKEUP;
    change_mode(d, MONITOR);
}

int hi3110_frame(struct hi3110 *d, const struct can_frame_event *f)
{
    if (f->id >> (f->extended ? 29 : 11) || f->code > 15 || f->given != data_bytes(f->code, f->remote))
        return HI3110_IMPOSSIBLE;
    switch (d->mode) {
    case SLEEP:
        wake_up(d);
        return HI3110_A1_MODE;
    case INITIALIZATION:
    case LOOPBACK:
        return HI3110_A1_MODE;
    }
    if (d->bus_off)
        return HI3110_A2_BUS_OFF;
    if (d->mode == MONITOR && !f->acknowledged)
        return HI3110_A3_NOT_ACKNOWLEDGED;
    if (d->arrivals == UINT64_MAX)
        return HI3110_NO_NUMBER;

    uint32_t id;
    if (f->extended)
        id = f->id >> 18 << 21 | ID_SRR | ID_IDE | (f->id & 0x3FFFF) << 1;
    else
        id = f->id << 21;
    if (f->remote)
        id |= ID_RTR;
    put_frame(d->temporary + 2, id, f->code, f->payload, f->given);
    if (d->mode == NORMAL) {
        if (d->rec >= PASSIVE)
            d->rec = AFTER_PASSIVE;
        else if (d->rec > 0)
            d->rec--;
    }
    return arrive(d);
}

static bool counts_errors(const struct hi3110 *d)
{
    return d->mode != MONITOR;
}

static void add_to_rec(struct hi3110 *d, unsigned n)
{
    d->rec = d->rec + n > COUNTER_TOP ? COUNTER_TOP : d->rec + n;
}

static void note_error(struct hi3110 *d, unsigned bit)
{
    d->err |= 1u << bit;
    d->intf |= INTF_BUSERR;
}

static int begin(struct hi3110 *d)
{
    if (d->transmission != IDLE || d->tx_count == 0 || !enabled(d) || d->mode > LOOPBACK || d->bus_off)
        return HI3110_IMPOSSIBLE;
    d->tx_buffer = d->tx[d->tx_head];
    d->transmission = FIRST_OF_FIFO;
    if (d->ctrl1 & CTRL1_OSM)
        d->ctrl1 &= ~CTRL1_TX1M;
    return HI3110_DONE;
}

static int complete(struct hi3110 *d)
{
    if (d->transmission == IDLE)
        return HI3110_IMPOSSIBLE;
    if (d->mode == LOOPBACK && d->arrivals == UINT64_MAX)
        return HI3110_NO_NUMBER;
    if (d->transmission == FIRST_OF_FIFO) {
        d->tx_head = (d->tx_head + 1) % HI3110_PLACES;
        d->tx_count--;
    }
    d->transmission = IDLE;
    d->ctrl1 &= ~CTRL1_TX1M;
    d->intf |= INTF_TXCPLT;
    d->mtag = (d->tx_buffer.tag & 3) << 2;
    if (d->tec > 0)
        d->tec--;
    if (d->history_count < HI3110_PLACES) {
        uint8_t *h = d->history[(d->history_head + d->history_count++) % HI3110_PLACES];
        h[0] = d->tx_buffer.tag;
        put16(h + 1, d->time_tag);
    }
    if (d->mode != LOOPBACK)
        return HI3110_DONE;
    memcpy(d->temporary + 2, d->tx_buffer.frame, 13);
    return arrive(d);
}

static int transmit_error(struct hi3110 *d, unsigned bit, bool counted)
{
    if (d->transmission == IDLE || bit > 4)
        return HI3110_IMPOSSIBLE;
    d->transmission = IDLE;
    note_error(d, bit);
    if (counted) {
        if (d->tec + 8 > COUNTER_TOP) {
            d->tec = COUNTER_TOP;
            d->bus_off = 1;
        } else {
            d->tec += 8;
        }
    }
    return HI3110_DONE;
}

static void eleven_recessive(struct hi3110 *d)
{
    if (!d->bus_off)
        return;
    if (d->recessive_groups < RECOVERY_GROUPS)
        d->recessive_groups++;
    if (d->recessive_groups == RECOVERY_GROUPS && d->ctrl0 & CTRL0_BOR) {
        d->bus_off = 0;
        d->recessive_groups = 0;
        d->rec = d->tec = 0;
    }
}

int hi3110_event(struct hi3110 *d, unsigned kind, unsigned a, unsigned b)
{
    switch (kind) {
    case HI3110_RECEIVE_ERROR:
        if (d->mode >= SLEEP || d->bus_off || a > 4)
            return HI3110_IMPOSSIBLE;
        note_error(d, a);
        if (counts_errors(d))
            add_to_rec(d, 1);
        return HI3110_DONE;
    case HI3110_DOMINANT:
        if (d->mode >= SLEEP || d->bus_off)
            return HI3110_IMPOSSIBLE;
        if (counts_errors(d))
            add_to_rec(d, 8);
        return HI3110_DONE;
    case HI3110_TRANSMIT_ERROR:
        return transmit_error(d, a, b);
    case HI3110_BEGUN:
        return begin(d);
    case HI3110_COMPLETED:
        return complete(d);
    case HI3110_LOST:
        if (d->transmission == IDLE)
            return HI3110_IMPOSSIBLE;
        d->transmission = IDLE;
        return HI3110_DONE;
    case HI3110_ELEVEN_RECESSIVE:
        eleven_recessive(d);
        return HI3110_DONE;
    case HI3110_QUIET:
        if (d->ctrl0 >> MODE_SHIFT == SLEEP && d->mode != SLEEP && d->tx_count == 0 && d->transmission == IDLE)
            change_mode(d, SLEEP);
        return HI3110_DONE;
    case HI3110_ACTIVITY:
        wake_up(d);
        return HI3110_DONE;
    case HI3110_TICKS:
        d->time_tag += a;
        return HI3110_DONE;
    case HI3110_TXEN_PIN:
        d->txen_pin = a != 0;
        return HI3110_DONE;
    case HI3110_MR_PIN:
        hi3110_reset(d);
        return HI3110_DONE;
    default:
        return HI3110_IMPOSSIBLE;
    }
}
