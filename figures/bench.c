/*
 * Times the archive's calls beside the baseline's. Each figure is the median of
 * eleven runs, taken in turns by the two sides; a run is as many batches of
 * calls as take 20 ms.
 */
#define _POSIX_C_SOURCE 200809L

#include <stdio.h>
#include <stdlib.h>
#include <string.h>
#include <time.h>

#include "scenes.h"

#define RUNS 11
#define RUN_NS 20e6
#define BATCH 256
#define CHECKED_CALLS 400000ul
#define AIM 2.0

/* The runs of one call of one side. */
struct series {
    const struct side *side;
    const struct call *call;
    uint8_t start[STLED325_IMAGE_LEN];
    unsigned long batches;
    double ns[RUNS];
};

static double now_ns(void)
{
    struct timespec t;

    clock_gettime(CLOCK_MONOTONIC, &t);
    return 1e9 * (double)t.tv_sec + (double)t.tv_nsec;
}

/*
 * Nanoseconds of so many batches of calls, each call on an image of its own. The
 * images are set back before each batch and outside of the time taken, so that
 * no call finds its image still on the way from the processor to its memory.
 */
static double run_ns(const struct side *side, const struct call *call, const uint8_t *start, unsigned long batches)
{
    static uint8_t images[BATCH][STLED325_IMAGE_LEN];
    uint8_t out[MOST_BYTES];
    double taken = 0;
    size_t i;

    while (batches-- > 0) {
        double begun;

        for (i = 0; i < BATCH; i++)
            memcpy(images[i], start, STLED325_IMAGE_LEN);
        begun = now_ns();
        make_calls(side, call, images[0], BATCH, out);
        taken += now_ns() - begun;
    }
    return taken;
}

/* How many batches fill a run. */
static unsigned long batches_for(const struct side *side, const struct call *call, const uint8_t *start)
{
    unsigned long batches = 1;

    while (run_ns(side, call, start, batches) < RUN_NS)
        batches *= 2;
    return batches;
}

static int by_size(const void *a, const void *b)
{
    double x = *(const double *)a, y = *(const double *)b;
    return (x > y) - (x < y);
}

static double median(double *values)
{
    qsort(values, RUNS, sizeof *values, by_size);
    return values[RUNS / 2];
}

static void prepare(const struct scene *scene, uint8_t *image)
{
    uint8_t copy[STLED325_IMAGE_LEN], out[MOST_BYTES];
    uint32_t number;

    memset(image, 0, STLED325_IMAGE_LEN);
    scene->prepare(image);
    memcpy(copy, image, sizeof copy);
    number = make_calls(&archive, &scene->call, copy, 1, out);
    if (number != scene->answer) {
        fprintf(stderr, "figures: %s, %s: answer %u, expected %u\n", kind_name(scene->call.kind), scene->what,
                (unsigned)number, (unsigned)scene->answer);
        exit(1);
    }
}

/* Calibrates one series of runs. */
static void begin(struct series *series, const struct side *side, const struct scene *scene)
{
    series->side = side;
    series->call = &scene->call;
    prepare(scene, series->start);
    series->batches = batches_for(side, series->call, series->start);
}

/* Every series has its first run, then every one its second: a slow moment of the machine falls on all of them. */
static void measure(struct series *series, size_t count)
{
    size_t i;
    int run;

    for (run = 0; run < RUNS; run++)
        for (i = 0; i < count; i++)
            series[i].ns[run] = run_ns(series[i].side, series[i].call, series[i].start, series[i].batches) /
                                (double)(series[i].batches * BATCH);
}

static double median_of(const struct series *series)
{
    double ns[RUNS];

    memcpy(ns, series->ns, sizeof ns);
    return median(ns);
}

/* The median of the ratios of runs that were taken one after the other, so that the machine's changes of speed fall out. */
static double median_ratio(const struct series *first, const struct series *second)
{
    double ratios[RUNS];
    int run;

    for (run = 0; run < RUNS; run++)
        ratios[run] = first->ns[run] / second->ns[run];
    return median(ratios);
}

/* Prints a row of the table; true if it is within the aim. */
static int print_row(const struct scene *scene, const struct series *proved, const struct series *by_hand)
{
    double ratio = median_ratio(proved, by_hand);
    const char *bold = ratio > AIM ? "**" : "";

    printf("| `%s` | %s | %.1f | %.1f | %s%.2f%s |\n", kind_name(scene->call.kind), scene->what,
           median_of(proved), median_of(by_hand), bold, ratio, bold);
    return ratio <= AIM;
}

static void print_calls(void)
{
    static struct series series[2 * MOST_SCENES + 1];
    size_t i;
    unsigned within = 0;

    for (i = 0; i < scene_count; i++) {
        begin(&series[2 * i], &archive, &scenes[i]);
        begin(&series[2 * i + 1], &baseline, &scenes[i]);
    }
    begin(&series[2 * scene_count], &nothing, &scenes[1]);
    measure(series, 2 * scene_count + 1);
    puts("| call | case | archive, ns | C, ns | archive / C |");
    puts("|---|---|--:|--:|--:|");
    for (i = 0; i < scene_count; i++)
        within += (unsigned)print_row(&scenes[i], &series[2 * i], &series[2 * i + 1]);
    printf("\nWithin twice of C: %u of %u rows. Rows in bold miss the aim.\n", within, (unsigned)scene_count);
    printf("A function that does nothing takes %.1f ns in the same loop, which every figure includes.\n",
           median_of(&series[2 * scene_count]));
}

static void print_registers(const uint8_t *image)
{
    size_t i;

    for (i = 0; i < 16; i++)
        printf("%02X", image[i]);
}

/* A line for the comparison with single seconds: name, registers before and after, alarm flag, nanoseconds. */
static void print_cut(const char *name, const struct scene *scene)
{
    uint8_t image[STLED325_IMAGE_LEN], out[MOST_BYTES];
    struct series series;

    begin(&series, &archive, scene);
    measure(&series, 1);
    prepare(scene, image);
    printf("%s ", name);
    print_registers(image);
    make_calls(&archive, &scene->call, image, 1, out);
    putchar(' ');
    print_registers(image);
    printf(" %d %.0f\n", image[STLED325_AT_FLAGS] & STLED325_ALARM_FLAG, median_of(&series));
}

int main(int argc, char **argv)
{
    if (argc == 2 && strcmp(argv[1], "check") == 0) {
        if (!check_agreement(CHECKED_CALLS))
            return 1;
        printf("Archive and C gave the same number, image and output in %lu,%03lu random calls.\n",
               CHECKED_CALLS / 1000, CHECKED_CALLS % 1000);
    } else if (argc == 2 && strcmp(argv[1], "calls") == 0) {
        print_calls();
    } else if (argc == 2 && strcmp(argv[1], "cuts") == 0) {
        print_cut("daily", &daily_cut);
        print_cut("never", &never_cut);
    } else {
        fputs("usage: bench check | calls | cuts\n", stderr);
        return 2;
    }
    return 0;
}
