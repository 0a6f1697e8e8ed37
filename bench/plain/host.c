/* The host's side: one SPI transfer. */
#include "registers.h"

enum {
    WRITE_MESSAGE = 0x12, WRITE_CTRL0 = 0x14, WRITE_CTRL1 = 0x16, WRITE_BTR0 = 0x18, WRITE_BTR1 = 0x1A,
    WRITE_INTE = 0x1C, WRITE_STATFE = 0x1E, WRITE_GPINE = 0x22, WRITE_REC = 0x24, WRITE_TEC = 0x26,
    READ_TEMPORARY_TIMED = 0x42, READ_TEMPORARY = 0x44,
    READ_FIFO_TIMED = 0x46, READ_FIFO = 0x48, READ_FIFO_DATA_TIMED = 0x4A, READ_FIFO_DATA = 0x4C,
    ABORT_TRANSMISSION = 0x52, RESET_TX_FIFO = 0x54, MASTER_RESET = 0x56, RESET_TIME_TAG = 0x58, RESET_RX_FIFO = 0x5A,
    READ_CTRL0 = 0xD2, READ_CTRL1 = 0xD4, READ_BTR0 = 0xD6, READ_BTR1 = 0xD8, READ_MESSTAT = 0xDA, READ_ERR = 0xDC,
    READ_INTF = 0xDE, READ_STATF = 0xE2, READ_INTE = 0xE4, READ_STATFE = 0xE6, READ_GPINE = 0xE8,
    READ_REC = 0xEA, READ_TEC = 0xEC, READ_HISTORY = 0xEE, READ_RECESSIVE_COUNT = 0xF8, READ_TIME_TAG = 0xFA,
};

/* Table 2: tag, identifier (2 or 4 bytes), length code, data. Data bytes past the length code are ignored. */
static int write_message(struct hi3110 *d, const uint8_t *bytes, size_t count)
{
    if (count < 5)
        return HI3110_BAD_LENGTH;
    bool extended = bytes[3] & ID_IDE >> 16;
    size_t data = extended ? 7 : 5; /* where the data begins */
    if (count < data || count > data + 8)
        return HI3110_BAD_LENGTH;
    uint32_t id;
    if (extended)
        id = get32(bytes + 2) | ID_SRR;
    else
        id = (uint32_t)bytes[2] << 24 | (uint32_t)(bytes[3] & 0xE0) << 16 | (bytes[3] >> 4 & ID_RTR);
    uint8_t code = bytes[data - 1] & 0x0F;
    unsigned length = data_bytes(code, id & ID_RTR);
    if (count < data + length)
        return HI3110_BAD_LENGTH;
    if (d->tx_count == HI3110_PLACES)
        return HI3110_TX_FULL;
    struct hi3110_message *m = &d->tx[(d->tx_head + d->tx_count++) % HI3110_PLACES];
    m->tag = bytes[1];
    put_frame(m->frame, id, code, bytes + data, length);
    return HI3110_DONE;
}

static int check_fifo_read(const struct hi3110 *d, size_t count, size_t lent, size_t size)
{
    int number = check_read(count, lent, size);
    if (number == HI3110_DONE && d->rx_count == 0)
        return HI3110_NOTHING_THERE;
    return number;
}

static const uint8_t *take_received(struct hi3110 *d)
{
    const uint8_t *m = d->rx[d->rx_head];
    d->rx_head = (d->rx_head + 1) % HI3110_PLACES;
    d->rx_count--;
    return m;
}

static int read_history(struct hi3110 *d, size_t count, uint8_t *reply, size_t lent)
{
    int number = check_read(count, lent, 3);
    if (number != HI3110_DONE)
        return number;
    if (d->history_count == 0)
        return HI3110_NOTHING_THERE;
    memcpy(reply, d->history[d->history_head], 3);
    d->history_head = (d->history_head + 1) % HI3110_PLACES;
    d->history_count--;
    return HI3110_DONE;
}

int hi3110_transfer(struct hi3110 *d, const uint8_t *bytes, size_t count, uint8_t *reply, size_t lent)
{
    const uint8_t *m;
    int number;

    if (count == 0)
        return HI3110_BAD_LENGTH;
    switch (bytes[0]) {
    case WRITE_MESSAGE:
        return write_message(d, bytes, count);
    case WRITE_CTRL0:
        return write_ctrl0(d, bytes, count);
    case WRITE_CTRL1:
        return write_register(&d->ctrl1, bytes, count);
    case WRITE_BTR0:
        return write_bit_timing(d, &d->btr0, bytes, count);
    case WRITE_BTR1:
        return write_bit_timing(d, &d->btr1, bytes, count);
    case WRITE_INTE:
        return write_register(&d->inte, bytes, count);
    case WRITE_STATFE:
        return write_register(&d->statfe, bytes, count);
    case WRITE_GPINE:
        return write_register(&d->gpine, bytes, count);
    case WRITE_REC:
        return write_register(&d->rec, bytes, count);
    case WRITE_TEC:
        if (count == 2 && d->bus_off)
            return HI3110_DONE; /* TEC stands still */
        return write_register(&d->tec, bytes, count);

    case READ_TEMPORARY_TIMED:
        number = check_read(count, lent, 15);
        if (number == HI3110_DONE)
            memcpy(reply, d->temporary, 15);
        return number;
    case READ_TEMPORARY:
        number = check_read(count, lent, 13);
        if (number == HI3110_DONE)
            memcpy(reply, d->temporary + 2, 13);
        return number;
    case READ_FIFO_TIMED:
        number = check_fifo_read(d, count, lent, 16);
        if (number == HI3110_DONE)
            memcpy(reply, take_received(d), 16);
        return number;
    case READ_FIFO:
        number = check_fifo_read(d, count, lent, 14);
        if (number == HI3110_DONE) {
            m = take_received(d);
            reply[0] = m[0];
            memcpy(reply + 1, m + 3, 13);
        }
        return number;
    case READ_FIFO_DATA_TIMED:
        number = check_fifo_read(d, count, lent, 11);
        if (number == HI3110_DONE) {
            m = take_received(d);
            memcpy(reply, m, 3);
            memcpy(reply + 3, m + 8, 8);
        }
        return number;
    case READ_FIFO_DATA:
        number = check_fifo_read(d, count, lent, 9);
        if (number == HI3110_DONE) {
            m = take_received(d);
            reply[0] = m[0];
            memcpy(reply + 1, m + 8, 8);
        }
        return number;

    case ABORT_TRANSMISSION:
        if (count != 1)
            return HI3110_BAD_LENGTH;
        d->ctrl1 &= ~(CTRL1_TXEN | CTRL1_TX1M);
        d->transmission = IDLE;
        return HI3110_DONE;
    case RESET_TX_FIFO:
        if (count != 1)
            return HI3110_BAD_LENGTH;
        d->ctrl1 &= ~(CTRL1_TXEN | CTRL1_TX1M);
        d->tx_count = 0;
        if (d->transmission != IDLE)
            d->transmission = ORPHANED; /* the current message may still complete */
        return HI3110_DONE;
    case MASTER_RESET:
        if (count != 1)
            return HI3110_BAD_LENGTH;
        hi3110_reset(d);
        return HI3110_DONE;
    case RESET_TIME_TAG:
        if (count != 1)
            return HI3110_BAD_LENGTH;
        d->time_tag = 0;
        return HI3110_DONE;
    case RESET_RX_FIFO:
        if (count != 1)
            return HI3110_BAD_LENGTH;
        d->rx_count = 0;
        return HI3110_DONE;

    case 0x62: case 0x64: case 0x66: case 0x68: case 0x6A: case 0x6C: case 0x6E: case 0x72: /* filters */
    case 0x74: case 0x76: case 0x78: case 0x7A: case 0x7C: case 0x7E: case 0x82: case 0x84: /* masks */
        return write_bank(d, bank_place(bytes[0] - 0x60), bytes, count);
    case 0xA2: case 0xA4: case 0xA6: case 0xA8: case 0xAA: case 0xAC: case 0xAE: case 0xB2: /* filters */
    case 0xB4: case 0xB6: case 0xB8: case 0xBA: case 0xBC: case 0xBE: case 0xC2: case 0xC4: /* masks */
        return read_bank(d, bank_place(bytes[0] - 0xA0), count, reply, lent);

    case READ_CTRL0:
        return read_register(d->ctrl0, count, reply, lent);
    case READ_CTRL1:
        return read_register(d->ctrl1, count, reply, lent);
    case READ_BTR0:
        return read_register(d->btr0, count, reply, lent);
    case READ_BTR1:
        return read_register(d->btr1, count, reply, lent);
    case READ_MESSTAT:
        return read_register(messtat(d), count, reply, lent);
    case READ_ERR:
        number = read_register(error_register(d), count, reply, lent);
        if (number == HI3110_DONE)
            d->err = 0;
        return number;
    case READ_INTF:
        number = read_register(d->intf, count, reply, lent);
        if (number == HI3110_DONE)
            d->intf = 0;
        return number;
    case READ_STATF:
        return read_register(statf(d), count, reply, lent);
    case READ_INTE:
        return read_register(d->inte, count, reply, lent);
    case READ_STATFE:
        return read_register(d->statfe, count, reply, lent);
    case READ_GPINE:
        return read_register(d->gpine, count, reply, lent);
    case READ_REC:
        return read_register(d->rec, count, reply, lent);
    case READ_TEC:
        return read_register(d->tec, count, reply, lent);
    case READ_HISTORY:
        return read_history(d, count, reply, lent);
    case READ_RECESSIVE_COUNT:
        return read_register(d->recessive_groups, count, reply, lent);
    case READ_TIME_TAG:
        number = check_read(count, lent, 2);
        if (number == HI3110_DONE)
            put16(reply, d->time_tag);
        return number;
    default:
        return HI3110_NO_COMMAND;
    }
}
