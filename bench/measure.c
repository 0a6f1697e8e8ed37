/* measure PROVED PLAIN [PROVED_SIZE]: the same work to two programs, compared byte for byte and then timed. */
#define _DEFAULT_SOURCE
#include "work.h"

#include <signal.h>
#include <stdio.h>
#include <stdlib.h>
#include <string.h>
#include <sys/resource.h>
#include <sys/wait.h>
#include <time.h>
#include <unistd.h>

enum { RUNS = 21, COMPARED_ROUNDS = 3, COMPARED_SEEDS = 100 };
static const double AIM = 0.07; /* seconds of the plain program */

static void mixed(struct work *w) { work_mixed(w, 1); }

static const struct { const char *name; void (*make)(struct work *w); } kinds[] = {
    {"bursts", work_bursts}, {"registers", work_registers}, {"transmissions", work_transmissions},
    {"filters", work_filters}, {"refused", work_refused}, {"mixed", mixed},
};

static void fail(const char *what)
{
    perror(what);
    exit(2);
}

static void write_all(int to, const void *bytes, size_t count)
{
    for (const char *p = bytes; count > 0;) {
        ssize_t n = write(to, p, count);
        if (n < 0)
            fail("write to the program");
        p += n;
        count -= n;
    }
}

/* Runs `program` on the list; its output goes to `out`. Gives back the CPU seconds of the child. */
static double run(const char *program, const struct work *w, uint32_t rounds, uint8_t *out)
{
    int in[2], from[2];
    if (pipe(in) || pipe(from))
        fail("pipe");
    pid_t child = fork();
    if (child < 0)
        fail("fork");
    if (child == 0) {
        dup2(in[0], 0);
        dup2(from[1], 1);
        close(in[0]), close(in[1]), close(from[0]), close(from[1]);
        signal(SIGPIPE, SIG_DFL);
        execl(program, program, (char *)0);
        perror(program);
        _exit(127);
    }
    close(in[0]), close(from[1]);

    uint8_t head[4] = {rounds, rounds >> 8, rounds >> 16, rounds >> 24};
    write_all(in[1], head, 4);
    write_all(in[1], w->record, w->records * WORK_RECORD);
    close(in[1]);
    size_t wanted = w->records * WORK_RESULT, had = 0;
    uint8_t beyond;
    for (ssize_t n; (n = read(from[0], had < wanted ? out + had : &beyond, had < wanted ? wanted - had : 1)) > 0;)
        had += n;
    close(from[0]);

    int status;
    struct rusage used;
    if (wait4(child, &status, 0, &used) != child)
        fail("wait4");
    if (status != 0 || had != wanted) {
        fprintf(stderr, "%s: status %d, %zu bytes of results and not %zu\n", program, status, had, wanted);
        exit(2);
    }
    return used.ru_utime.tv_sec + used.ru_stime.tv_sec + 1e-6 * (used.ru_utime.tv_usec + used.ru_stime.tv_usec);
}

static void print_bytes(const char *name, const uint8_t *bytes, size_t count)
{
    printf("  %-7s", name);
    for (size_t i = 0; i < count; i++)
        printf(" %02X", bytes[i]);
    putchar('\n');
}

static void compare(const char *kind, const struct work *w, const char *proved, const char *plain)
{
    static uint8_t a[WORK_MOST * WORK_RESULT], b[WORK_MOST * WORK_RESULT];
    for (uint32_t rounds = 1; rounds <= COMPARED_ROUNDS; rounds += COMPARED_ROUNDS - 1) {
        run(proved, w, rounds, a);
        run(plain, w, rounds, b);
        for (size_t i = 0; i < w->records; i++)
            if (memcmp(a + i * WORK_RESULT, b + i * WORK_RESULT, WORK_RESULT) != 0) {
                printf("%s: results differ after %u rounds at record %zu\n", kind, rounds, i);
                print_bytes("record", w->record[i], WORK_RECORD);
                print_bytes("proved", a + i * WORK_RESULT, WORK_RESULT);
                print_bytes("plain", b + i * WORK_RESULT, WORK_RESULT);
                exit(1);
            }
    }
}

struct times { double proved, plain; };

/* The least CPU time of several runs each, taken in turn so that a busy moment strikes both. */
static struct times least(const struct work *w, uint32_t rounds, const char *proved, const char *plain)
{
    static uint8_t out[WORK_MOST * WORK_RESULT];
    struct times t = {1e9, 1e9};
    for (int i = 0; i < RUNS; i++) {
        double a = run(proved, w, rounds, out), b = run(plain, w, rounds, out);
        t.proved = a < t.proved ? a : t.proved;
        t.plain = b < t.plain ? b : t.plain;
    }
    return t;
}

static uint32_t choose_rounds(const struct work *w, const char *plain)
{
    static uint8_t out[WORK_MOST * WORK_RESULT];
    uint32_t rounds = 250;
    double taken;
    while ((taken = run(plain, w, rounds, out)) < AIM / 10)
        rounds *= 2;
    return rounds * (AIM / taken);
}

/* Nanoseconds for `size` bytes copied out and in again: what a state by value costs, whatever is done with it. */
static double copy_time(size_t size)
{
    enum { TIMES = 2000000 };
    static char here[1000], there[1000];
    double least = 0;
    if (size > sizeof here)
        size = sizeof here;
    for (int run = 0; run < RUNS; run++) {
        clock_t start = clock();
        for (int i = 0; i < TIMES; i++) {
            memmove(there, here, size);
            __asm__ volatile("" : : "r"(here), "r"(there) : "memory"); /* no copy is left out */
            memmove(here, there, size);
            __asm__ volatile("" : : "r"(here), "r"(there) : "memory");
        }
        double taken = (double)(clock() - start) / CLOCKS_PER_SEC;
        if (run == 0 || taken < least)
            least = taken;
    }
    return least / TIMES * 1e9;
}

static void print_size(const char *plain, const char *proved_size)
{
    char command[4096], size[32] = "?";
    snprintf(command, sizeof command, "'%s' size", plain);
    FILE *p = popen(command, "r");
    if (p == NULL || fscanf(p, "%31s", size) != 1)
        fail(plain);
    pclose(p);
    printf("state: plain %s bytes", size);
    if (proved_size != NULL)
        printf(", proved %s bytes, which copied out and in take %.2f ns", proved_size, copy_time(atol(proved_size)));
    putchar('\n');
}

int main(int argc, char **argv)
{
    static struct work w;
    if (argc < 3 || argc > 4) {
        fprintf(stderr, "usage: measure PROVED PLAIN [PROVED_SIZE]\n");
        return 2;
    }
    const char *proved = argv[1], *plain = argv[2];
    signal(SIGPIPE, SIG_IGN);
    setvbuf(stdout, NULL, _IOLBF, 0);

    for (size_t k = 0; k < sizeof kinds / sizeof kinds[0]; k++) {
        kinds[k].make(&w);
        compare(kinds[k].name, &w, proved, plain);
    }
    for (uint32_t seed = 2; seed < 2 + COMPARED_SEEDS; seed++) {
        work_mixed(&w, seed);
        compare("mixed", &w, proved, plain);
    }

    printf("%-14s %10s %13s %13s %7s\n", "work", "ops/round", "proved ns/op", "plain ns/op", "ratio");
    for (size_t k = 0; k < sizeof kinds / sizeof kinds[0]; k++) {
        kinds[k].make(&w);
        uint32_t rounds = choose_rounds(&w, plain);
        struct times base = least(&w, 0, proved, plain), all = least(&w, rounds, proved, plain);
        double ops = (double)w.records * rounds;
        double a = 1e9 * (all.proved - base.proved) / ops, b = 1e9 * (all.plain - base.plain) / ops;
        printf("%-14s %10zu %13.2f %13.2f %7.2f\n", kinds[k].name, w.records, a, b, a / b);
    }
    print_size(plain, argc == 4 ? argv[3] : NULL);
    return 0;
}
