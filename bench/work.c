/* The kinds of work that are the same at each run, one function each. */
#include "records.h"

void work_bursts(struct work *w)
{
    w->records = 0;
    reset_to(w, 0x00, 0x00);
    for (unsigned burst = 0; burst < 120; burst++) {
        for (unsigned i = 0; i < 8; i++) {
            unsigned n = 8 * burst + i;
            unsigned flags = ACKNOWLEDGED | (n % 3 == 1 ? EXTENDED : 0) | (n % 5 == 4 ? REMOTE : 0);
            frame(w, flags, flags & EXTENDED ? 0x12345678 + n : (0x100 + n) & 0x7FF, n % 11, n);
        }
        for (unsigned i = 0; i < 8; i++)
            spi_lent(w, i % 2 ? 14 : 16, "\x48", 1);
    }
}

void work_registers(struct work *w)
{
    static const uint8_t polled[] = {
        0xE2, 0xDE, 0xDC, 0xDA, 0xEA, 0xEC, 0xD2, 0xD4, 0xFA, 0xD6, 0xD8, 0xE4, 0xE6, 0xE8, 0xF8,
        0xA2, 0xB4, 0xAA, 0xBC, 0xB2, 0xC4, /* filters and masks */
        0xE2, 0xDE, 0xDA, 0xFA, 0xD2,
    };
    w->records = 0;
    SPI(w, 0x56);
    SPI(w, 0x62, 0x24, 0x60, 0x00, 0x00, 0xAA, 0x55);
    SPI(w, 0x74, 0xFF, 0xF8, 0x00, 0x00, 0xFF, 0x00);
    SPI(w, 0x14, 0x00);
    for (unsigned turn = 0; turn < 60; turn++) {
        for (size_t i = 0; i < sizeof polled; i++)
            spi_lent(w, 16, &polled[i], 1);
        SPI(w, 0x1C, turn);        /* INTE */
        SPI(w, 0x1E, 3 * turn);    /* STATFE */
        SPI(w, 0x22, 5 * turn);    /* GPINE */
        SPI(w, 0x16, turn & 0x0F); /* CTRL1 */
    }
}

void work_transmissions(struct work *w)
{
    w->records = 0;
    reset_to(w, 0x00, 0x80);
    SPI(w, 0x26, 0x00); /* TEC outlives a reset */
    for (unsigned n = 0; n < 400; n++) {
        unsigned flags = (n % 2 ? EXTENDED : 0) | (n % 16 == 7 ? REMOTE : 0);
        message(w, flags, n % 2 ? 0x12345678 + n : 0x123, n, n % 9, data_bytes(flags, n % 9));
        event(w, WORK_BEGUN, 0, 0);
        if (n % 8 == 3) {
            event(w, WORK_LOST, 0, 0);
            event(w, WORK_BEGUN, 0, 0);
        }
        if (n % 16 == 5) { /* the next 15 completions take TEC down again */
            event(w, WORK_TRANSMIT_ERROR, n / 16 % 5, 1);
            event(w, WORK_BEGUN, 0, 0);
        }
        event(w, WORK_COMPLETED, 0, 0);
        SPI(w, 0xEE);
    }
}

void work_filters(struct work *w)
{
    w->records = 0;
    SPI(w, 0x56);
    for (unsigned n = 0; n < 8; n++) { /* standard identifiers 100, 110 .. 170, data bytes A0 and n */
        SPI(w, bank_writes[n], 0x20 + 2 * n, 0x00, 0x00, 0x00, 0xA0, n);
        SPI(w, bank_writes[8 + n], 0xFF, 0xFF, 0xFF, 0xFE, 0xFF, 0xFF);
    }
    SPI(w, 0x14, 0x00);
    SPI(w, 0x16, 0x10); /* FILTON */
    for (unsigned turn = 0; turn < 120; turn++) {
        static const unsigned hits[3] = {0, 3, 7};
        unsigned hit = hits[turn % 3];
        frame(w, ACKNOWLEDGED, 0x100 + 0x10 * hit, 8, 0xA0)[9] = hit;
        SPI(w, 0x48);
        for (unsigned miss = 0; miss < 6; miss++) { /* one bit off */
            unsigned n = (turn + miss) % 8;
            bool data = miss % 3 == 2;
            uint32_t id = (0x100 + 0x10 * n) ^ (data ? 0 : 1u << (turn + miss) % 4);
            frame(w, ACKNOWLEDGED, id, 2, 0xA0)[9] = data ? n ^ 0x80 : n;
        }
    }
}

void work_refused_once(struct work *w, unsigned n)
{
    static const uint8_t unknown[8] = {0x00, 0x4E, 0xF4, 0xF6, 0x13, 0x60, 0xFF, 0x86};
    spi_lent(w, 16, &unknown[n % 8], 1);
    spi_lent(w, 16, "", 0);
    SPI(w, 0xD2, 0x00);                                     /* a read with a byte too many */
    SPI(w, 0x14);                                           /* writes with bytes missing */
    SPI(w, 0x12, n, 0x24, 0x60, 0x02, 0xAA);
    SPI(w, 0x62, 0x24, 0x60, 0x00);
    spi_lent(w, 0, "\xE2", 1);
    spi_lent(w, 14, "\x42", 1);
    spi_lent(w, 13, "\x48", 1);
    SPI(w, 0x74, 0xFF, 0xF8, 0x00, 0x00, 0xFF, 0x00);       /* not in normal mode */
    SPI(w, 0x18, 0x05);
    SPI(w, 0x48);
    SPI(w, 0x4A);
    SPI(w, 0xEE);
    frame(w, ACKNOWLEDGED, 0x800 + n, 2, n);
    frame(w, ACKNOWLEDGED | EXTENDED, 0x20000000 + n, 2, n);
    frame(w, ACKNOWLEDGED, 0x123, 16, n);
    frame(w, ACKNOWLEDGED, 0x123, 4, n)[3] = 3;
    frame(w, ACKNOWLEDGED | REMOTE, 0x123, 2, n)[3] = 2;
    event(w, WORK_BEGUN, 0, 0);
    event(w, WORK_COMPLETED, 0, 0);
    event(w, WORK_LOST, 0, 0);
    event(w, WORK_TRANSMIT_ERROR, n % 5, 1);
    event(w, 14 + n, 0, 0);                                 /* unknown kinds */
}

void work_refused(struct work *w)
{
    w->records = 0;
    reset_to(w, 0x00, 0x80);
    for (unsigned n = 0; n < 60; n++)
        work_refused_once(w, n);
}
