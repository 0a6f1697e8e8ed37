/* Runs a list of records (the format is in ../work.h) over the plain model. */
#include "../work.h"
#include "hi3110.h"

#include <stdio.h>
#include <string.h>

static uint8_t input[4 + WORK_MOST * WORK_RECORD + 1];
static uint8_t results[WORK_MOST * WORK_RESULT];

static uint32_t little32(const uint8_t *p)
{
    return p[0] | (uint32_t)p[1] << 8 | (uint32_t)p[2] << 16 | (uint32_t)p[3] << 24;
}

static void put_little32(uint8_t *p, uint32_t v)
{
    for (int i = 0; i < 4; i++)
        p[i] = v >> 8 * i;
}

static int frame(struct hi3110 *d, const uint8_t *r)
{
    struct can_frame_event f = {
        .id = little32(r + 4),
        .extended = r[1] & 1,
        .remote = r[1] >> 1 & 1,
        .acknowledged = r[1] >> 2 & 1,
        .code = r[2],
        .given = r[3],
    };
    memcpy(f.payload, r + 8, 8);
    return hi3110_frame(d, &f);
}

static int event(struct hi3110 *d, const uint8_t *r)
{
    switch (r[0]) {
    case WORK_FRAME:
        return frame(d, r);
    case WORK_TICKS:
        return hi3110_event(d, HI3110_TICKS, little32(r + 4), 0);
    default: /* the other kinds have the model's numbers */
        return hi3110_event(d, r[0], r[1], r[2]);
    }
}

static void run(struct hi3110 *d, const uint8_t *r, uint8_t *result)
{
    if (r[0] == WORK_TRANSFER) {
        result[0] = hi3110_transfer(d, r + 4, r[2], result + 1, r[1]);
    } else {
        result[0] = event(d, r);
        put_little32(result + 1, result[0] == HI3110_QUEUED_OVER ? d->lost : 0);
    }
}

int main(int argc, char **argv)
{
    static struct hi3110 device;
    if (argc == 2 && strcmp(argv[1], "size") == 0) {
        printf("%zu\n", sizeof device);
        return 0;
    }
    size_t length = fread(input, 1, sizeof input, stdin);
    if (length < 4 || length == sizeof input || (length - 4) % WORK_RECORD != 0) {
        fprintf(stderr, "input: rounds in 4 bytes, then at most %d records of %d bytes\n", WORK_MOST, WORK_RECORD);
        return 2;
    }
    uint32_t rounds = little32(input);
    size_t records = (length - 4) / WORK_RECORD;

    hi3110_power_up(&device);
    while (rounds-- > 0)
        for (size_t i = 0; i < records; i++)
            run(&device, input + 4 + WORK_RECORD * i, results + WORK_RESULT * i);
    return fwrite(results, WORK_RESULT, records, stdout) == records ? 0 : 1;
}
