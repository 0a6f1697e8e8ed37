/* One record drawn, or a few: what `mixed.c` puts its lists together from. */
#ifndef DRAW_H
#define DRAW_H

#include "records.h"

struct draw {
    struct work *w;
    uint32_t state;
    bool reader; /* the host takes messages off, so that the FIFOs empty; else they fill */
    bool sender; /* the host lets messages out */
};

/* 0 to n - 1 */
uint32_t upto(struct draw *s, uint32_t n);
/* once in `in` times */
bool chance(struct draw *s, unsigned in);

void drawn_frame(struct draw *s);
void drawn_message(struct draw *s);
void drawn_bytes(struct draw *s);
void drawn_transfer(struct draw *s, const uint8_t *bytes, unsigned count);
void drawn_read(struct draw *s);
void drawn_ctrl1(struct draw *s);
void drawn_write(struct draw *s);
void drawn_filter(struct draw *s, unsigned place);
void drawn_mode(struct draw *s);
void drawn_reset(struct draw *s);
void drawn_event(struct draw *s);

#endif
