/* Work drawn from all commands and events, seeded. */
#include "draw.h"

/* A message written, enabled and begun; then one of the ways on. */
static void drawn_transmission(struct draw *s)
{
    struct work *w = s->w;
    drawn_message(s);
    if (!s->sender)
        return;
    if (chance(s, 2))
        drawn_ctrl1(s);
    event(w, WORK_BEGUN, 0, 0);
    if (chance(s, 3))
        drawn_read(s);
    switch (upto(s, 8)) {
    case 0:
        SPI(w, 0x52);
        break;
    case 1:
        SPI(w, 0x54); /* what runs goes on alone; a new message must outlive it, and sleep must wait */
        if (chance(s, 3)) {
            SPI(w, 0x14, 0x60);
            event(w, WORK_QUIET, 0, 0);
        } else {
            drawn_message(s);
        }
        break;
    case 2:
        event(w, WORK_LOST, 0, 0);
        event(w, WORK_BEGUN, 0, 0);
        break;
    case 3:
        event(w, WORK_TRANSMIT_ERROR, s->state % 5, upto(s, 2));
        event(w, WORK_BEGUN, 0, 0);
        break;
    case 4:
        drawn_mode(s);
        break;
    }
    event(w, WORK_COMPLETED, 0, 0);
}

static void drawn_sleep(struct draw *s)
{
    SPI(s->w, 0x54);
    event(s->w, WORK_COMPLETED, 0, 0);
    SPI(s->w, 0x14, chance(s, 4) ? 0x60 : 0x70);
    event(s->w, WORK_QUIET, 0, 0);
    drawn_frame(s);
}

/* One of the refused requests. */
static void drawn_refusal(struct draw *s)
{
    size_t at = s->w->records;
    work_refused_once(s->w, upto(s, 60));
    unsigned kept = upto(s, s->w->records - at);
    memmove(s->w->record[at], s->w->record[at + kept], WORK_RECORD);
    s->w->records = at + 1;
}

static void drawn_step(struct draw *s)
{
    unsigned n = upto(s, 100);
    if (n < 32)
        drawn_frame(s);
    else if (n < 58)
        drawn_read(s);
    else if (n < 68)
        drawn_transmission(s);
    else if (n < 78)
        drawn_event(s);
    else if (n < 83)
        drawn_write(s);
    else if (n < 86)
        drawn_filter(s, upto(s, 16));
    else if (n < 89)
        drawn_ctrl1(s);
    else if (n < 93)
        drawn_refusal(s);
    else if (n < 96)
        drawn_mode(s);
    else if (n < 97)
        drawn_bytes(s);
    else if (n < 98)
        drawn_transfer(s, &(uint8_t){0x52 + 2 * upto(s, 5)}, 1); /* the RESET commands of Table 1 */
    else if (n < 99)
        drawn_sleep(s);
    else
        drawn_reset(s);
}

static void drawn_steps(struct draw *s, unsigned steps)
{
    while (steps-- > 0)
        drawn_step(s);
}

static void drawn_phase(struct draw *s)
{
    s->reader = chance(s, 2);
    s->sender = !chance(s, 3);
    if (chance(s, 2))
        drawn_reset(s);
    if (chance(s, 2)) {
        SPI(s->w, 0x14, 0x80);
        for (unsigned place = 0; place < 16; place++)
            drawn_filter(s, place);
    }
    drawn_mode(s);
    drawn_ctrl1(s);
    drawn_steps(s, 60);
}

/* Into bus off, some steps there, and the 128 groups out of it. BOR is set early or late. */
static void drawn_bus_off(struct draw *s)
{
    struct work *w = s->w;
    SPI(w, 0x54);
    event(w, WORK_COMPLETED, 0, 0);
    SPI(w, 0x14, 0x00);
    SPI(w, 0x26, 0xF7 + upto(s, 2));
    SPI(w, 0x16, 0x80);
    SPI(w, 0x12, 0x07, 0x24, 0x60, 0x02, 0xAA, 0x55);
    for (unsigned i = 0; i < 2; i++) {
        event(w, WORK_BEGUN, 0, 0);
        event(w, WORK_TRANSMIT_ERROR, s->state % 5, 1);
        SPI(w, 0xDC);
    }
    drawn_frame(s);
    SPI(w, 0x26, 0x00);
    drawn_steps(s, 40);
    SPI(w, 0x14, chance(s, 2) ? 0x04 : 0x00);
    for (unsigned i = 0; i < 129; i++) {
        event(w, WORK_ELEVEN_RECESSIVE, 0, 0);
        if (i % 32 == 30)
            drawn_read(s);
    }
    SPI(w, 0xF8);
    SPI(w, 0x14, 0x04);
    event(w, WORK_ELEVEN_RECESSIVE, 0, 0);
    SPI(w, 0xDC);
}

void work_mixed(struct work *w, uint32_t seed)
{
    struct draw s = {.w = w, .state = seed * 2654435761u | 1};
    w->records = 0;
    SPI(w, 0x56);
    while (w->records < 1200)
        drawn_phase(&s);
    drawn_bus_off(&s);
    while (w->records < 2500)
        drawn_phase(&s);
    while (w->records < 2900)
        drawn_step(&s); /* fewer than 30 records */
}
