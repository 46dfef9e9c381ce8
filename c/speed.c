/*
 * How fast the archives are against the reference, on the same inputs.
 *
 *   speed                     nanoseconds for each event, medians, and their ratio
 *   speed list                the workloads, one to a line
 *   speed gaps                the gaps of time stamps, and how often the link moves in each
 *   speed WORKLOAD WHO COUNT  one run for whoever counts instructions: WHO is ours, reference, or none, which
 *                             only prepares, so that the preparation can be subtracted
 */
#define _POSIX_C_SOURCE 199309L

#include <inttypes.h>
#include <stdbool.h>
#include <stdio.h>
#include <stdlib.h>
#include <string.h>
#include <time.h>

#include "gaps.h"
#include "inputs.h"
#include "workloads.h"

/* The reference takes the ticks of a gap one by one, so fewer of them are timed. */
enum { TIMED_EVENTS = 100000, TIMED_GAPS = 100, TIMED_RUNS = 21 };

static double nanoseconds(worker *work, size_t count, uint64_t *sum)
{
    struct timespec before;
    struct timespec after;

    clock_gettime(CLOCK_MONOTONIC, &before);
    *sum += work(count);
    clock_gettime(CLOCK_MONOTONIC, &after);
    return ((double)(after.tv_sec - before.tv_sec) * 1e9 + (double)(after.tv_nsec - before.tv_nsec)) / (double)count;
}

static int by_size(const void *a, const void *b)
{
    double x = *(const double *)a;
    double y = *(const double *)b;

    return (x > y) - (x < y);
}

static double median(double *times)
{
    qsort(times, TIMED_RUNS, sizeof *times, by_size);
    return times[TIMED_RUNS / 2];
}

/* What is prepared, by both. */
static bool time_both(const char *name, worker *our_work, worker *their_work, size_t count)
{
    double ours[TIMED_RUNS];
    double reference[TIMED_RUNS];
    uint64_t our_sum = 0;
    uint64_t their_sum = 0;

    for (size_t i = 0; i < TIMED_RUNS; i++) {
        ours[i] = nanoseconds(our_work, count, &our_sum);
        reference[i] = nanoseconds(their_work, count, &their_sum);
    }
    printf("%-20s %9zu %9.2f %9.2f %7.2f\n", name, count, median(ours), median(reference),
           median(ours) / median(reference));
    if (our_sum != their_sum) {
        printf("%s: the results differ\n", name);
    }
    return our_sum == their_sum;
}

static bool time_workload(const struct workload *workload, size_t count)
{
    prepare(workload, count);
    return time_both(workload->name, workload->ours, workload->reference, count);
}

static int time_all(void)
{
    bool same = true;

    printf("%-20s %9s %9s %9s %7s\n", "nanoseconds", "events", "ours", "reference", "ratio");
    for (size_t i = 0; i < workload_count; i++) {
        same = time_workload(&workloads[i], TIMED_EVENTS) && same;
    }
    for (size_t count = 1000; count <= MOST_EVENTS; count *= 10) {
        same = time_workload(&workloads[0], count) && same;
    }
    for (size_t i = 0; i < gap_count; i++) {
        prepare_gap(i);
        same = time_both(gap_name(i), our_gaps, their_gaps, TIMED_GAPS) && same;
    }
    return same ? 0 : 1;
}

static int list_all(void)
{
    for (size_t i = 0; i < workload_count; i++) {
        puts(workloads[i].name);
    }
    return 0;
}

static int list_gaps(void)
{
    for (size_t i = 0; i < gap_count; i++) {
        printf("%s %u\n", gap_name(i), gap_moves(i));
    }
    return 0;
}

/* What is prepared, by one of them or by none. */
static int work_as(const char *who, worker *ours, worker *reference, size_t count)
{
    if (strcmp(who, "none") != 0) {
        random_state = (strcmp(who, "ours") == 0 ? ours : reference)(count);
    }
    return 0;
}

static int work_once(const char *name, const char *who, size_t count)
{
    for (size_t i = 0; i < workload_count && count > 0 && count <= MOST_EVENTS; i++) {
        if (strcmp(workloads[i].name, name) == 0) {
            prepare(&workloads[i], count);
            return work_as(who, workloads[i].ours, workloads[i].reference, count);
        }
    }
    for (size_t i = 0; i < gap_count && count > 0; i++) {
        if (strcmp(gap_name(i), name) == 0) {
            prepare_gap(i);
            return work_as(who, our_gaps, their_gaps, count);
        }
    }
    fprintf(stderr, "speed: no such workload or count\n");
    return 2;
}

int main(int argc, char **argv)
{
    if (argc == 4) {
        return work_once(argv[1], argv[2], (size_t)strtoull(argv[3], NULL, 10));
    }
    if (argc == 2 && strcmp(argv[1], "list") == 0) {
        return list_all();
    }
    if (argc == 2 && strcmp(argv[1], "gaps") == 0) {
        return list_gaps();
    }
    return time_all();
}
