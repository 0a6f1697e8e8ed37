/* Work for the device: lists of records, which both measured programs read from standard input.
 *
 * Input: `rounds` (4 bytes, little-endian), then records of 20 bytes. Byte 0 of a record is its kind:
 *   transfer        [1] bytes lent for the reply, 0 to 16; [2] bytes sent, 0 to 16; [4..20] the bytes
 *   frame           [1] 1 extended, 2 remote, 4 acknowledged; [2] length code; [3] data bytes given, 0 to 8;
 *                   [4..8] identifier, little-endian; [8..16] payload
 *   receive and     [1] ERR bit, 0 to 4: stuff, ack, crc, form, bit
 *   transmit error  [2] 1 when counted
 *   ticks           [4..8] count, little-endian
 *   TXEN pin        [1] level
 * The rest have no particulars. Any other kind is an unknown event.
 *
 * From a fresh device the list is run `rounds` times. Each record has 17 bytes of results, zero at the start: its
 * number, or for a frame taken or refused 16 Queued, 17 to 20 for A1 to A4 and 22 Queued-over-latest; then, of a
 * transfer, the lent reply buffer, and of an event the identifier that was lost, little-endian, with its highest bit
 * set for an extended one, or 0.
 * All results go to standard output after the last round. */
#ifndef WORK_H
#define WORK_H

#include <stddef.h>
#include <stdint.h>

enum { WORK_RECORD = 20, WORK_RESULT = 17, WORK_MOST = 3000 };

enum work_kind {
    WORK_TRANSFER, WORK_FRAME, WORK_RECEIVE_ERROR, WORK_DOMINANT, WORK_TRANSMIT_ERROR, WORK_BEGUN, WORK_COMPLETED,
    WORK_LOST, WORK_ELEVEN_RECESSIVE, WORK_QUIET, WORK_ACTIVITY, WORK_TICKS, WORK_TXEN_PIN, WORK_MR_PIN,
};

struct work {
    size_t records;
    uint8_t record[WORK_MOST][WORK_RECORD];
};

/* One function for each kind of work. Each list sets the device up first, so it can be run again and again. */
void work_bursts(struct work *w);
void work_registers(struct work *w);
void work_transmissions(struct work *w);
void work_filters(struct work *w);
void work_refused(struct work *w);
void work_mixed(struct work *w, uint32_t seed);

#endif
