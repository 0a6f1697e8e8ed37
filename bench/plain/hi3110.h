/* A plain C model of the HI-3110's register face: what the host sees by SPI and what the bus does to it.
 * Names are the datasheet's. The state is private to the model; it stands here so that a caller can hold it. */
#ifndef HI3110_H
#define HI3110_H

#include <stddef.h>
#include <stdint.h>

/* Numbers given back by a transfer or an event. A good frame, and a completion in loopback, also say what became
 * of the frame: QUEUED, QUEUED_OVER or one of the reasons A1 to A4. */
enum hi3110_answer {
    HI3110_DONE = 0,
    HI3110_NO_COMMAND = 2,
    HI3110_BAD_LENGTH = 3,
    HI3110_SHORT_REPLY = 4,
    HI3110_NOT_INITIALIZING = 5,
    HI3110_TX_FULL = 6,
    HI3110_NOTHING_THERE = 7,
    HI3110_IMPOSSIBLE = 8,
    HI3110_NO_NUMBER = 12, /* the last arrival number has been given */
    HI3110_QUEUED = 16,
    HI3110_A1_MODE,
    HI3110_A2_BUS_OFF,
    HI3110_A3_NOT_ACKNOWLEDGED,
    HI3110_A4_FILTERED,
    HI3110_QUEUED_OVER = 22, /* the latest message was overwritten: `lost` */
};

#define HI3110_LOST_EXTENDED 0x80000000u

/* Bus events other than a good frame. `a` and `b` are the two particulars of hi3110_event. */
enum hi3110_event_kind {
    HI3110_RECEIVE_ERROR = 2, /* a: ERR bit, 0 to 4 */
    HI3110_DOMINANT,
    HI3110_TRANSMIT_ERROR,    /* a: ERR bit, 0 to 4; b: counted */
    HI3110_BEGUN,
    HI3110_COMPLETED,
    HI3110_LOST,
    HI3110_ELEVEN_RECESSIVE,
    HI3110_QUIET,
    HI3110_ACTIVITY,
    HI3110_TICKS,             /* a: count */
    HI3110_TXEN_PIN,          /* a: level */
    HI3110_MR_PIN,
};

struct can_frame_event {
    uint32_t id;
    uint8_t extended, remote, code;
    uint8_t acknowledged;
    uint8_t given;      /* how many data bytes came */
    uint8_t payload[8];
};

enum { HI3110_PLACES = 8 }; /* of each FIFO, and of the filter bank */

/* A frame is kept as bytes 4 to 16 of Table 5: identifier (4), length code, data (8). */
struct hi3110_message {
    uint8_t tag;
    uint8_t frame[13];
};

struct hi3110 {
    uint8_t rx[HI3110_PLACES][16];           /* Table 5, bytes 1 to 16 */
    uint8_t temporary[15];                   /* Table 5, bytes 2 to 16 */
    uint64_t rx_number[HI3110_PLACES];       /* the arrival numbers of what stands in both */
    uint64_t temporary_number;
    struct hi3110_message tx[HI3110_PLACES];
    struct hi3110_message tx_buffer;         /* the message begun */
    uint8_t history[HI3110_PLACES][3];       /* Table 3 */
    uint8_t rx_head, rx_count;
    uint8_t tx_head, tx_count;
    uint8_t history_head, history_count;
    uint8_t transmission;                    /* none, of the FIFO's first, or of one that 0x54 took out */
    uint8_t mode;                            /* the acting one; CTRL0 may name a sleep that waits */
    uint8_t ctrl0, ctrl1, btr0, btr1;
    uint8_t intf, inte, statfe, gpine;
    uint8_t filhit, mtag;                    /* MESSTAT's, in place */
    uint16_t time_tag;
    uint32_t lost;                           /* the identifier that was overwritten last, and LOST_EXTENDED */

    /* What outlives a reset. */
    uint64_t arrivals;                       /* the last arrival number that was given */
    uint8_t err;                             /* ERR's bits 4 to 0 */
    uint8_t rec, tec;
    uint8_t bus_off, recessive_groups;
    uint8_t txen_pin;
    uint16_t filter_data[HI3110_PLACES], mask_data[HI3110_PLACES]; /* Table 4, bytes 5 and 6 */
    uint32_t filter_id[HI3110_PLACES], mask_id[HI3110_PLACES];     /* Table 4, bytes 1 to 4 */
};

void hi3110_power_up(struct hi3110 *d);

/* One SPI transfer. On HI3110_DONE the reply is at the front of `reply`; a refusal changes nothing. */
int hi3110_transfer(struct hi3110 *d, const uint8_t *bytes, size_t count, uint8_t *reply, size_t lent);

int hi3110_frame(struct hi3110 *d, const struct can_frame_event *f);
int hi3110_event(struct hi3110 *d, unsigned kind, unsigned a, unsigned b);

#endif
