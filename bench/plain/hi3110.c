/* Power-up and master reset. */
#include "internal.h"

void hi3110_reset(struct hi3110 *d)
{
    memset(d->temporary, 0, sizeof d->temporary);
    d->temporary_number = 0;
    d->rx_head = d->rx_count = 0;
    d->tx_head = d->tx_count = 0;
    d->history_head = d->history_count = 0;
    d->transmission = IDLE;
    d->mode = INITIALIZATION;
    d->ctrl0 = INITIALIZATION << MODE_SHIFT;
    d->ctrl1 = d->btr0 = d->btr1 = 0;
    d->intf = d->inte = d->statfe = d->gpine = 0;
    d->filhit = d->mtag = 0;
    d->time_tag = 0;
}

void hi3110_power_up(struct hi3110 *d)
{
    memset(d, 0, sizeof *d);
    hi3110_reset(d);
}
